//! A log: a guardian whose journal goes to a database, so that it outlives its process (the features `logged` and
//! `sqlite`; Unix). [`Logged`] is a [`Shared`](crate::Shared) whose commits return when the log has them. `Logged::open`
//! restores it from a SQLite database: it makes each call again, and compares each reply. [`BatchLog`] is what it needs
//! from a log: the crate `argus-guardian-etcd` has another one.
//!
//! **Nothing here is proved**, except the guardian's replies and the call that restores it from its log's lines. The
//! repository's page docs/DURABLE.md says what a log promises, what its tables are, and what is tested.
#![allow(clippy::missing_errors_doc, reason = "their words say it")]

#[cfg(feature = "sqlite")]
mod log_reading;
mod logged;
#[cfg(feature = "sqlite")]
mod sqlite_log;

use crate::{Error, MayConflict, Object};
pub use logged::{LogCounts, LogFound, Logged, LoggedAction};
#[cfg(feature = "sqlite")]
pub use sqlite_log::{LogOptions, SqliteLog};

/// What keeps a guardian's journal permanently: a database, or etcd. A [`Logged`] calls it while commits wait. What it
/// calls of that `Logged` must not wait for the log: such a call panics, and the log is broken.
pub trait BatchLog: Send {
    /// Appends entries; or starts again with an [opening](JournalLines::is_opening), which replaces everything before.
    /// `Ok`: these and all entries before them can't be lost, as far as this log promises. After a failure it isn't
    /// known whether the log has them; each later call returns that failure again, and writes nothing.
    fn append(&mut self, lines: &JournalLines) -> Result<(), Failure>;
}

/// Whole lines of a journal's listing: of entries that follow one another; or of an opening, which says what the journal
/// begins with after a checkpoint.
#[derive(Debug, Clone, PartialEq, Eq)]
#[non_exhaustive]
pub struct JournalLines {
    /// The number of the first line's entry; for an opening, of the first entry after it.
    pub first: u64,
    /// The number of the entry after these lines.
    pub next: u64,
    /// The lines, each with its line feed.
    pub text: String,
    /// The objects with a name, which no other has, that these entries declare. Only a log in a database gets some.
    pub named: Vec<Object>,
}

impl JournalLines {
    /// The lines of this entry and of later ones, or an opening before it. `None` if they don't end with a line feed.
    #[must_use]
    pub fn new(first: u64, text: String) -> Option<JournalLines> {
        let entries = text.lines().filter(|it| !it.starts_with("opening "));
        let next = first.saturating_add(entries.count() as u64);
        let is_whole = text.is_empty() || text.ends_with('\n');
        is_whole.then_some(JournalLines {
            first,
            next,
            text,
            named: Vec::new(),
        })
    }

    /// Whether they are an opening: no entry's line begins like one.
    #[must_use]
    pub fn is_opening(&self) -> bool {
        self.text.starts_with("opening ")
    }
}

/// The sum of a batch after the one before it, or of an opening, whose sum before is 0: the CRC-32 of `NAME FIRST
/// BEFORE`, a line feed, and the lines without the last line feed. So sums are a chain.
///
/// ```
/// use argus_guardian::log::log_sum;
/// let opening = log_sum("0123", 0, 0, b"");
/// assert_eq!(log_sum("0123", 0, opening, b"0 begin_top -> a0"), 0xf401_020e);
/// ```
#[must_use]
pub fn log_sum(name: &str, first: u64, before: u32, lines: &[u8]) -> u32 {
    let place = crc32fast::hash(format!("{name} {first} {before}\n").as_bytes());
    let mut hasher = crc32fast::Hasher::new_with_initial(place);
    hasher.update(lines);
    hasher.finalize()
}

/// Why a log is broken: an error of the system, of SQLite or of etcd. It tries nothing again; a restart reads what is there.
pub type Failure = std::sync::Arc<std::io::Error>;

/// What is wrong with a log in a database. Then nothing in it is changed.
#[derive(Debug, Clone, Copy, PartialEq, Eq)]
#[non_exhaustive]
pub enum LogFault {
    /// No file is there; or this log isn't in a database.
    NoLog,
    /// A file is there, where a new one was to be made.
    Exists,
    /// The file is no database, or one of another program.
    NotALog,
    /// Another version of the product has written it, in a format that this one doesn't know.
    OtherFormat,
    /// Another process has the log, or another part of this one; or a program has the database locked.
    Locked,
    /// It is another log than the one that was asked for, or the WAL beside the file is that of another one.
    OtherLog,
    /// A row hasn't the sum that the chain has for it: that row was changed, or the one before it.
    RowChanged,
    /// Rows aren't there, while later ones are.
    RowMissing,
    /// A row is there once more, in another place.
    RowDoubled,
    /// The lines of a later row are in the place of an earlier one.
    RowSwapped,
    /// The last rows aren't there.
    LogCut,
    /// An older copy is in the place of the database, of its WAL or of a row; or the log is shorter than is known.
    LogOld,
    /// SQLite finds that the file isn't a sound database.
    PagesDamaged,
    /// The log wasn't closed, and its WAL, the file that has the newest work, isn't there.
    WalMissing,
    /// A frame of the WAL has changed, and it was on disk before later ones were written.
    WalDamaged,
    /// The rows are as they were written, but no guardian of this version has such a journal.
    OtherReply,
    /// The system or SQLite can't read the files, or write them.
    Unreadable,
}

/// What a call of a logged guardian returns.
pub type Result<T, E = LoggedError> = std::result::Result<T, E>;

/// Why a call of a logged guardian failed, or a log wasn't opened.
#[derive(Debug, Clone, thiserror::Error)]
#[non_exhaustive]
pub enum LoggedError {
    /// The error that a guardian without a log would return, too.
    #[error("{0}")]
    Guardian(Error),
    /// The call was made, but the log failed before it was known to have it: a restart finds out.
    #[error("in doubt: the log couldn't be written: {0}")]
    InDoubt(Failure),
    /// The log had failed earlier: the call wasn't made.
    #[error("not called: the log couldn't be written: {0}")]
    Broken(Failure),
    /// What is wrong with the database, and where, in words.
    #[error("{1}")]
    Database(LogFault, String),
    /// The log keeps no names: it isn't in a database.
    #[error("the log keeps no names")]
    NoNames,
}

impl LoggedError {
    /// Whether it is a refusal with `Conflict`: abort the topaction, and begin it again.
    #[must_use]
    pub fn is_conflict(&self) -> bool {
        matches!(self, LoggedError::Guardian(error) if error.is_conflict())
    }
}

impl MayConflict for LoggedError {
    fn is_conflict(&self) -> bool {
        LoggedError::is_conflict(self)
    }
}

// Whatever a guardian without a log may say, too.
impl<E: Into<Error>> From<E> for LoggedError {
    fn from(error: E) -> LoggedError {
        LoggedError::Guardian(error.into())
    }
}
