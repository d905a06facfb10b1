//! `LogHead`: which batches count, and what comes next.

use argus_guardian::log::log_sum;
use std::hash::{BuildHasher, RandomState};

/// Which batches of a log count, and what comes next, as its key `head` has it:
///
/// ```text
/// format=2 name=0f.. begins=12 next=17 entry=1240 epoch=981 sum=421330142
/// ```
#[derive(Debug, Clone, Copy, PartialEq, Eq)]
pub(crate) struct LogHead {
    /// The log's name, which was drawn when it was made.
    pub(crate) name: u128,
    /// The first batch that counts: a checkpoint has deleted those before it, or is deleting them.
    pub(crate) begins: u64,
    /// The number of the next batch. Batches with this number or a higher one don't count.
    pub(crate) next: u64,
    /// The number of the next entry.
    pub(crate) entry: u64,
    /// The number of the leadership that moved it last: with a batch, or as it began.
    pub(crate) epoch: u64,
    /// The sum of the last batch; that of no opening, if there is none.
    pub(crate) sum: u32,
}

const FORMAT: &str = "format=2";

impl LogHead {
    /// That of a new log.
    pub(crate) fn drawn() -> LogHead {
        let random = || u128::from(RandomState::new().hash_one(0));
        let head = LogHead {
            name: random() << 64 | random(),
            begins: 0,
            next: 0,
            entry: 0,
            epoch: 0,
            sum: 0,
        };
        LogHead {
            sum: head.summed(0, 0, b""),
            ..head
        }
    }

    /// The sum of these lines in its log.
    pub(crate) fn summed(&self, first: u64, before: u32, lines: &[u8]) -> u32 {
        log_sum(&format!("{:032x}", self.name), first, before, lines)
    }

    /// The text of it.
    pub(crate) fn text(self) -> String {
        let LogHead {
            name,
            begins,
            next,
            entry,
            epoch,
            sum,
        } = self;
        format!(
            "{FORMAT} name={name:032x} begins={begins} next={next} entry={entry} epoch={epoch} sum={sum}"
        )
    }

    /// What a text says, if it is one of these.
    pub(crate) fn of(text: &[u8]) -> Option<LogHead> {
        let mut words = std::str::from_utf8(text).ok()?.split(' ');
        words.next().filter(|it| *it == FORMAT)?;
        let mut word = |name: &str| words.next()?.strip_prefix(name)?.strip_prefix('=');
        let head = LogHead {
            name: u128::from_str_radix(word("name")?, 16).ok()?,
            begins: word("begins")?.parse().ok()?,
            next: word("next")?.parse().ok()?,
            entry: word("entry")?.parse().ok()?,
            epoch: word("epoch")?.parse().ok()?,
            sum: word("sum")?.parse().ok()?,
        };
        // Written again: so there is one text for each.
        (head.text().as_bytes() == text).then_some(head)
    }
}

#[cfg(test)]
mod tests {
    use super::LogHead;

    #[test]
    fn it_is_read_back() {
        let text = "format=2 name=0000000000000000000000000000002a begins=12 next=17 entry=1240 epoch=981 sum=7";
        let head = LogHead::of(text.as_bytes()).expect("a head");
        assert_eq!((head.begins, head.next, head.name), (12, 17, 42));
        assert_eq!((head.entry, head.epoch, head.sum), (1240, 981, 7));
        assert_eq!(head.text(), text);
        for other in [
            "format=1",
            "",
            &text.replace("1240", "+1240"),
            &text.replace("02a", "02A"),
        ] {
            assert_eq!(LogHead::of(other.as_bytes()), None);
        }
        assert_ne!(LogHead::drawn().name, LogHead::drawn().name);
    }
}
