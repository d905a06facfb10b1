//! `Position`: how far a follower has read a log.

use std::fmt;

/// How far a follower has read a log: its guardian has made the calls of all entries before this one.
///
/// ```
/// use argus_guardian_etcd::Position;
/// let position = Position { entry: 1240, batch: 17, epoch: 981, revision: 1002 };
/// assert_eq!(position.to_string(), "before entry 1240 (batch 17, epoch 981, revision 1002)");
/// ```
#[derive(Debug, Clone, Copy, PartialEq, Eq, Default)]
pub struct Position {
    /// The number of the next entry.
    pub entry: u64,
    /// The number of the next batch.
    pub batch: u64,
    /// The number of the leadership under which the last batch was written; 0 if there is none.
    pub epoch: u64,
    /// A revision of etcd at which the log ended here; 0 if there was no log yet.
    pub revision: i64,
}

impl fmt::Display for Position {
    fn fmt(&self, f: &mut fmt::Formatter<'_>) -> fmt::Result {
        let Position {
            entry,
            batch,
            epoch,
            revision,
        } = self;
        write!(
            f,
            "before entry {entry} (batch {batch}, epoch {epoch}, revision {revision})"
        )
    }
}
