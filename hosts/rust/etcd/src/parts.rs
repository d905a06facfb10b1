//! Splits texts into parts that etcd accepts.

/// The text in parts of whole lines, each of at most this size; a longer line is a part by itself.
pub(crate) fn parts(text: &str, size: usize) -> impl Iterator<Item = &str> {
    let mut rest = text;
    std::iter::from_fn(move || {
        let (part, behind) = rest.split_at(front(rest, size));
        rest = behind;
        (!part.is_empty()).then_some(part)
    })
}

// How long the longest front of whole lines is that has this size, or else the first line.
fn front(text: &str, size: usize) -> usize {
    if text.len() <= size {
        return text.len();
    }
    let bytes = text.as_bytes();
    let last = bytes[..size].iter().rposition(|byte| *byte == b'\n');
    let first = || bytes.iter().position(|byte| *byte == b'\n');
    last.or_else(first).map_or(text.len(), |at| at + 1)
}

#[cfg(test)]
mod tests {
    use super::parts;

    #[test]
    fn parts_are_whole_lines() {
        let text = "ab\ncdé\nf\nghijkl\nm\n";
        let parted = |size| parts(text, size).collect::<Vec<_>>();
        assert_eq!(parted(100), [text]);
        assert_eq!(parted(9), ["ab\ncdé\n", "f\nghijkl\n", "m\n"]);
        assert_eq!(parted(1), ["ab\n", "cdé\n", "f\n", "ghijkl\n", "m\n"]);
        assert_eq!(parts("", 5).count(), 0);
    }
}
