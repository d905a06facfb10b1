//! `Batch`: lines of a log in etcd that were appended together.

/// Lines of a log in etcd that were appended together.
///
/// As the value of its key it has a line of its own, as `batch epoch=981 first=1200 sum=421330142`, or `opening ..`,
/// and then its lines. The sum is that of a log in a database: [`log_sum`](argus_guardian::log::log_sum). An opening may
/// have several batches, whose sums go on from one another.
#[derive(Debug, Clone, Copy, PartialEq, Eq)]
pub struct Batch<'b> {
    /// Its number: 0 for a log's first one.
    pub number: u64,
    /// The number of the leadership under which it was written.
    pub epoch: u64,
    /// The number of its first entry; for an opening, of the first entry after it.
    pub first: u64,
    /// How many entries it has: none if it is an opening.
    pub entries: u64,
    /// Whether its lines are an opening, with which a journal begins again.
    pub is_opening: bool,
    /// Its sum, after the one before it.
    pub sum: u32,
    /// Its lines, each with its line feed.
    pub lines: &'b str,
}

impl<'b> Batch<'b> {
    /// Its value.
    pub(crate) fn text(&self) -> String {
        let Batch {
            epoch,
            first,
            sum,
            lines,
            ..
        } = self;
        let word = if self.is_opening { "opening" } else { "batch" };
        format!("{word} epoch={epoch} first={first} sum={sum}\n{lines}")
    }

    /// The batch of this number that a value says, if it says one.
    pub(crate) fn of(number: u64, value: &'b [u8]) -> Option<Batch<'b>> {
        let (head, lines) = std::str::from_utf8(value).ok()?.split_once('\n')?;
        let mut words = head.split(' ');
        let is_opening = match words.next()? {
            "opening" => true,
            "batch" => false,
            _ => return None,
        };
        let mut word = |name: &str| words.next()?.strip_prefix(name)?.strip_prefix('=');
        let batch = Batch {
            number,
            epoch: word("epoch")?.parse().ok()?,
            first: word("first")?.parse().ok()?,
            entries: if is_opening { 0 } else { line_feeds(lines) },
            is_opening,
            sum: word("sum")?.parse().ok()?,
            lines,
        };
        // Written again: so there is one text for each.
        (lines.ends_with('\n') && batch.text().as_bytes() == value).then_some(batch)
    }
}

/// How many lines there are.
pub(crate) fn line_feeds(text: &str) -> u64 {
    text.bytes().map(|byte| u64::from(byte == b'\n')).sum()
}

/// What a sum is of: the lines without the last line feed.
pub(crate) fn summed_lines(text: &str) -> &[u8] {
    text.strip_suffix('\n').unwrap_or(text).as_bytes()
}

#[cfg(test)]
mod tests {
    use super::Batch;

    #[test]
    fn it_is_read_back() {
        let text = "batch epoch=9 first=40 sum=7\n40 begin_top -> a9\n41 commit a9 -> done\n";
        let batch = Batch::of(3, text.as_bytes()).expect("a batch");
        assert_eq!((batch.number, batch.epoch, batch.first), (3, 9, 40));
        assert_eq!((batch.entries, batch.sum, batch.is_opening), (2, 7, false));
        assert_eq!(batch.text(), text);
        for other in [
            "",
            "batch epoch=9 first=40 sum=7\n",
            "batch epoch=9 first=40 sum=7\n40 begin_top -> a9",
            "batch epoch=9 first=+40 sum=7\n40 begin_top -> a9\n",
            "lines epoch=9 first=40 sum=7\n40 begin_top -> a9\n",
        ] {
            assert_eq!(Batch::of(3, other.as_bytes()), None, "{other}");
        }
    }
}
