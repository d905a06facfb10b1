//! `LogOptions`: how a log in a SQLite database is opened, made and copied; `SqliteLog`: how it is written.

use crate::log::LogFault::{Exists, Locked, LogCut, NoLog, Unreadable};
use crate::log::log_reading::{End, Head, beside, check_rows, head_of, read_log};
use crate::log::{BatchLog, Failure, JournalLines, LogFound, Logged, LoggedError, Result, log_sum};
use rusqlite::backup::{Backup, StepResult};
pub(crate) use rusqlite::config::DbConfig::SQLITE_DBCONFIG_NO_CKPT_ON_CLOSE as KEEPS_WAL;
use rusqlite::{Connection, OpenFlags, version_number};
use std::path::{Path, absolute};
use std::time::Duration;
use std::{fs, io, mem, process};

/// What a log's file says that it is, "ARGU" in ASCII; and in which format.
pub(crate) const APPLICATION: i64 = 0x4152_4755;
pub(crate) const FORMAT: i64 = 1;

// Each commit is on disk when it returns. Debian's SQLite writes zeros over all that is deleted: a checkpoint would
// write the whole log once more. A WAL that a reader has kept from being moved becomes short again, and never empty.
const DURABLE: &str = "PRAGMA synchronous=FULL; PRAGMA fullfsync=1; PRAGMA secure_delete=FAST; \
     PRAGMA journal_size_limit=16777216";

// The text is the same in every language: SQLite keeps it.
const TABLES: &str = "
CREATE TABLE log     (id INTEGER PRIMARY KEY CHECK (id = 0), name TEXT NOT NULL, version TEXT NOT NULL,
                      epoch INTEGER NOT NULL, is_open INTEGER NOT NULL, next_entry INTEGER NOT NULL,
                      sum INTEGER NOT NULL){};
CREATE TABLE opening (line INTEGER PRIMARY KEY, text TEXT NOT NULL){};
CREATE TABLE batch   (first INTEGER PRIMARY KEY, lines TEXT NOT NULL, sum INTEGER NOT NULL){};
CREATE TABLE object  (number INTEGER PRIMARY KEY, name TEXT UNIQUE, shape TEXT NOT NULL, base TEXT){};
";
const VERSION: &str = env!("CARGO_PKG_VERSION");
const MOVE: &str = "UPDATE log SET epoch=?, next_entry=?, sum=?, is_open=?, version=? \
     WHERE epoch=? AND next_entry=? AND sum=?";
const OBJECT: &str = "INSERT INTO object VALUES (?, ?, ?, nullif(?, 'absent')) ON CONFLICT (number) \
     DO UPDATE SET name = ifnull(excluded.name, name), shape = excluded.shape, \
     base = ifnull(excluded.base, base)";
const HELD: &str =
    "UPDATE object SET base = ifnull(nullif(?, 'absent'), base) WHERE number = ? AND shape = ?";

fn random_name(database: &Connection) -> rusqlite::Result<String> {
    database.query_row("SELECT lower(hex(randomblob(16)))", [], |row| row.get(0))
}

fn make_log(path: &Path) -> Result<()> {
    let database = Connection::open_in_memory()?;
    let name = random_name(&database)?;
    // SQLite before 3.37 has no `STRICT`.
    let has_strict = version_number() >= 3_037_000;
    let tables = TABLES.replace("{}", if has_strict { " STRICT" } else { "" });
    let sum = log_sum(&name, 0, 0, b"");
    database.execute_batch(&format!(
        "PRAGMA application_id={APPLICATION}; PRAGMA user_version={FORMAT}; {tables} \
         INSERT INTO log VALUES (0, '{name}', '{VERSION}', 0, 0, 0, {sum})",
    ))?;
    copy_log(&database, path)
}

// Copies a log as it is at one moment, under another name. When the copy is whole and was compared, it gets its own.
fn copy_log(source: &Connection, path: &Path) -> Result<()> {
    let (shown, is_there) = (path.display(), path.symlink_metadata().is_ok());
    let refused = |error: io::Error| match error.kind() {
        io::ErrorKind::AlreadyExists => Exists.says(format!("a file is there: {shown}")),
        _ => Unreadable.says(format!("{shown} can't be made: {error}")),
    };
    Exists.unless(!is_there, format!("a file is there: {shown}"))?;
    let path = absolute(path).map_err(refused)?;
    let new = beside(&path, &format!("-new-{}", random_name(source)?));
    let copied = || {
        let mut copy = Connection::open(&new)?;
        copy.execute_batch(DURABLE)?;
        let is_done = Backup::new(source, &mut copy)?.step(-1)? == StepResult::Done;
        Locked.unless(is_done, "a program has the database locked")?;
        copy.execute_batch("PRAGMA journal_mode=DELETE; UPDATE log SET is_open=0")?;
        check_rows(&copy, &head_of(&copy)?, |_, _| Ok(()))?;
        copy.close().map_err(|(_, error)| error)?;
        // Two that make it at once: one of them is refused.
        fs::hard_link(&new, &path).map_err(refused)
    };
    let (made, removed) = (copied(), fs::remove_file(&new));
    made?;
    // So that the name outlives a power cut.
    let folder = path.parent().unwrap_or(&path);
    let synced = removed.and_then(|()| fs::File::open(folder)?.sync_all());
    synced.map_err(refused)
}

/// How a log in a database is opened or made.
#[derive(Debug, Clone, PartialEq, Eq)]
pub struct LogOptions {
    /// How long an access waits for its lock at most: a second by default.
    pub patience: Duration,
    /// After so many entries the log makes a checkpoint by itself, and when half of the numbers for actions are used:
    /// 100,000 by default. `None`: never.
    pub checkpoint_after: Option<u64>,
    /// The name that the log has to have.
    pub name: Option<String>,
    /// How many entries the log has to have had.
    pub at_least: u64,
}

impl Default for LogOptions {
    fn default() -> LogOptions {
        LogOptions {
            patience: crate::Shared::PATIENCE,
            checkpoint_after: Some(100_000),
            name: None,
            at_least: 0,
        }
    }
}

impl LogOptions {
    /// Opens the log that is there: makes each call in it again, compares its reply, and aborts what was live.
    /// [`LoggedError::Database`]: nothing in the log has changed. [`LoggedError::InDoubt`]: the log was read, but the
    /// first append failed. [`LoggedError::Guardian`]: out of memory. The other calls here fail so, too.
    pub fn open(&self, path: impl AsRef<Path>) -> Result<Logged> {
        let (connections, head, guardian, named, found) = read_log(path.as_ref(), self)?;
        let log = Box::new(SqliteLog::begin(connections, head)?);
        let mut logged = Logged::over(guardian, log, self.patience)?;
        let aborted = logged.counts().entries;
        logged.found = LogFound { aborted, ..found };
        logged.names = Some(named.into());
        logged.fold_after = self.checkpoint_after;
        // No action is live yet. Later there may be no number left for one that commits.
        logged.checkpoint_if_due();
        Ok(logged)
    }

    /// Makes a log, and opens it; [`LogFault::Exists`](Exists) if a file is there.
    pub fn create(&self, path: impl AsRef<Path>) -> Result<Logged> {
        make_log(path.as_ref())?;
        self.open(path)
    }

    /// Opens the log that is there; if there is none, makes one. Where there has to be one, [`open`](Self::open) is
    /// safer: a disk that isn't mounted looks like a log that isn't there.
    pub fn open_or_create(&self, path: impl AsRef<Path>) -> Result<Logged> {
        match make_log(path.as_ref()) {
            Ok(()) | Err(LoggedError::Database(Exists, _)) => self.open(path),
            Err(error) => Err(error),
        }
    }

    /// Reads a log that no process has, such as a backup, as [`open`](Self::open) does, and changes nothing.
    pub fn check(&self, path: impl AsRef<Path>) -> Result<LogFound> {
        read_log(path.as_ref(), self).map(|(.., found)| found)
    }
}

impl Logged {
    /// Opens the log that is there, with default options: [`LogOptions::open`]. It never makes one.
    pub fn open(path: impl AsRef<Path>) -> Result<Logged> {
        LogOptions::default().open(path)
    }

    /// Makes a log, and opens it: [`LogOptions::create`].
    pub fn create(path: impl AsRef<Path>) -> Result<Logged> {
        LogOptions::default().create(path)
    }

    /// Opens the log that is there; if there is none, makes one: [`LogOptions::open_or_create`].
    ///
    /// ```no_run
    /// use argus_guardian::{Access, log::{Logged, LoggedError}};
    /// let bank = Logged::open_or_create("bank.db")?;
    /// let account = bank.named("account", "atomic_record[balance:int]")?;
    /// if bank.base(&account)?.is_none() {
    ///     bank.run(|top| top.create(&account, (5,)))?; // Ok: it is on disk
    /// }
    /// # Ok::<(), LoggedError>(())
    /// ```
    pub fn open_or_create(path: impl AsRef<Path>) -> Result<Logged> {
        LogOptions::default().open_or_create(path)
    }

    /// Makes a copy of the log as it is at one moment, whole and compared, while others go on. It is a log, too.
    /// [`LogFault::Exists`](Exists) if a file is there; [`LogFault::NoLog`](NoLog) if this log isn't in a database.
    pub fn backup(&self, path: impl AsRef<Path>) -> Result<()> {
        let own = &self.found.path;
        NoLog.unless(own.is_absolute(), "the log isn't in a database")?;
        let own = Connection::open_with_flags(own, OpenFlags::SQLITE_OPEN_READ_ONLY)?;
        copy_log(&own, path.as_ref())
    }
}

/// A log in a SQLite database, which this process writes. [`LogOptions`] opens one with its guardian.
#[derive(Debug)]
pub struct SqliteLog {
    // That which writes; and that of the second database, which has the lock and is closed last. None when dropped.
    connections: Option<[Connection; 2]>,
    head: Head,
    state: Result<(), Failure>,
    // The one that writes: SQLite's connections mustn't even be closed in a process that is forked from it.
    process: u32,
}

impl SqliteLog {
    /// Makes a log, for a program that writes a journal's lines into it itself, as the example `log_of_files` does. An
    /// opening may come first. It fails as [`LogOptions::create`].
    pub fn create(path: impl AsRef<Path>) -> Result<SqliteLog> {
        make_log(path.as_ref())?;
        let (connections, head, ..) = read_log(path.as_ref(), &LogOptions::default())?;
        SqliteLog::begin(connections, head)
    }

    /// Makes one that was read this process's: from now on whoever had it before is refused.
    pub(crate) fn begin(connections: [Connection; 2], mut head: Head) -> Result<SqliteLog> {
        let (database, end) = (&connections[0], head.end);
        database.execute_batch(DURABLE)?;
        let mode: String = database.query_row("PRAGMA journal_mode=WAL", [], |row| row.get(0))?;
        Unreadable.unless(mode == "wal", format!("it has no WAL: SQLite says {mode}"))?;
        // From now on it waits some weeks for a lock: until it has that, nothing has changed.
        database.execute_batch("PRAGMA busy_timeout=2147483647")?;
        head.end.0 += 1;
        move_end(database, end, head.end, true)?;
        // What was read is on disk now, also where whoever wrote it was killed: it is moved, if no reader is in the way.
        database.execute_batch("PRAGMA wal_checkpoint(PASSIVE)")?;
        Ok(SqliteLog {
            connections: Some(connections),
            head,
            state: Ok(()),
            process: process::id(),
        })
    }

    // Puts lines into the log, and moves its end behind them, in one transaction.
    fn put(&mut self, lines: &JournalLines) -> Result<()> {
        let (epoch, next, last) = self.head.end;
        let (first, is_opening) = (lines.first, lines.is_opening());
        let fits = first == next || is_opening && next == 0;
        LogCut.unless(fits, format!("entry {first} where {next} is the next one"))?;
        let text = lines.text.strip_suffix('\n').unwrap_or(&lines.text);
        let before = if is_opening { 0 } else { last };
        let sum = log_sum(&self.head.name, first, before, text.as_bytes());
        let end = (epoch, lines.next, sum);
        let [database, _] = self.connections.as_ref().expect("it isn't dropped");
        // As rusqlite's `Transaction` does, but SQLite parses these words once.
        database.prepare_cached("BEGIN")?.execute(())?;
        let put = || {
            move_end(database, self.head.end, end, true)?;
            if is_opening {
                put_opening(database, text)?;
            } else {
                let mut append = database.prepare_cached("INSERT INTO batch VALUES (?, ?, ?)")?;
                append.execute((first, text, sum))?;
            }
            for it in &lines.named {
                database.execute(OBJECT, (it.id().number(), it.name(), it.shape(), "absent"))?;
            }
            database.prepare_cached("COMMIT")?.execute(())?;
            Ok::<_, LoggedError>(())
        };
        put().inspect_err(|_| drop(database.execute_batch("ROLLBACK")))?;
        self.head.end = end;
        Ok(())
    }
}

// Moves the end of a log, if it is there where this process has left it.
fn move_end(database: &Connection, was: End, end: End, is_open: bool) -> Result<()> {
    let ends = (end.0, end.1, end.2, is_open, VERSION, was.0, was.1, was.2);
    let moved = database.prepare_cached(MOVE)?.execute(ends)?;
    Locked.unless(moved == 1, "another process has opened the log")
}

// Puts an opening in place of all rows.
fn put_opening(database: &Connection, text: &str) -> rusqlite::Result<()> {
    database.execute_batch("DELETE FROM batch; DELETE FROM opening")?;
    let mut insert = database.prepare_cached("INSERT INTO opening VALUES (?, ?)")?;
    let mut object = database.prepare_cached(OBJECT)?;
    let mut held_again = database.prepare_cached(HELD)?;
    for (number, line) in (-1..).zip(text.split('\n')) {
        insert.execute((number + 1, line))?;
        // As in `opening o0 atomic_record[balance:int] {5}`; the first line is of none.
        let words: Vec<&str> = line.splitn(4, ' ').collect();
        if let (0.., [_, _, shape, held]) = (number, &words[..]) {
            // Most are there, and keep their names, which have an index.
            if held_again.execute((held, number, shape))? == 0 {
                object.execute((number, None::<&str>, shape, held))?;
            }
        }
    }
    Ok(())
}

impl BatchLog for SqliteLog {
    fn append(&mut self, lines: &JournalLines) -> Result<(), Failure> {
        if self.state.is_ok() && !lines.text.is_empty() {
            let put = self.put(lines);
            self.state = put.map_err(|error| io::Error::other(error).into());
        }
        self.state.clone()
    }
}

impl Drop for SqliteLog {
    fn drop(&mut self) {
        if self.process != process::id() {
            mem::forget(self.connections.take());
        } else if let (Some([database, _]), Ok(())) = (&self.connections, &self.state) {
            // The file says that it has no WAL. If that fails, the WAL stays, as if the process had been killed.
            let closed = move_end(database, self.head.end, self.head.end, false);
            let _ = closed.map(|()| database.set_db_config(KEEPS_WAL, false));
        }
    }
}
