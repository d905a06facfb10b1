//! Reads a log in a database, and changes nothing: what is wrong with it is named.

use crate::log::sqlite_log::{APPLICATION, FORMAT, KEEPS_WAL};
use crate::log::{LogFault as Fault, LogFound, LogOptions, LoggedError, Result, log_sum};
use crate::{Error, Guardian, LineError, ObjId, Object, Resumption};
use rusqlite::{Connection, Error as Sql, ErrorCode as Code, OpenFlags};
use std::collections::HashMap;
use std::fs;
use std::io::ErrorKind;
use std::path::{Path, PathBuf};

/// The end of a log: who writes, as an epoch; the next entry; and the chain's last sum.
pub(crate) type End = (u64, u64, u32);
/// The objects by their names.
pub(crate) type Named = HashMap<String, Object>;
/// A log that was read: the connections to it, and to the second database, which has the lock; and what it has.
pub(crate) type ReadLog = ([Connection; 2], Head, Guardian, Named, LogFound);

/// The row of `log`.
#[derive(Debug)]
pub(crate) struct Head {
    pub(crate) name: String,
    is_open: bool,
    pub(crate) end: End,
}

/// The file beside this one whose name has this suffix, too.
pub(crate) fn beside(path: &Path, suffix: &str) -> PathBuf {
    let mut name = path.as_os_str().to_owned();
    name.push(suffix);
    name.into()
}

impl Fault {
    /// The error that says this in words.
    pub(crate) fn says(self, words: impl Into<String>) -> LoggedError {
        LoggedError::Database(self, words.into())
    }

    pub(crate) fn unless(self, holds: bool, words: impl Into<String>) -> Result<()> {
        if holds { Ok(()) } else { Err(self.says(words)) }
    }
}

impl From<rusqlite::Error> for LoggedError {
    fn from(error: rusqlite::Error) -> LoggedError {
        let words = error.to_string();
        let is_damage = words.contains("malformed") || words.starts_with("no such ");
        let fault = match (error.sqlite_error_code(), error) {
            (Some(Code::OutOfMemory), _) => return Error::OutOfMemory.into(),
            (Some(Code::DatabaseBusy | Code::DatabaseLocked), _) => {
                let who = "another process has the log, or another part of this one";
                return Fault::Locked.says(format!("{who}: {words}"));
            }
            (Some(Code::NotADatabase), _) => Fault::NotALog,
            (Some(Code::DatabaseCorrupt), _) => Fault::PagesDamaged,
            _ if is_damage => Fault::PagesDamaged,
            (None, Sql::QueryReturnedNoRows) => Fault::RowMissing,
            (Some(_), _) | (None, Sql::InvalidPath(_) | Sql::NulError(_)) => Fault::Unreadable,
            // What a row has is converted outside SQLite.
            (None, _) => Fault::RowChanged,
        };
        fault.says(words)
    }
}

// Locks a second database, which the process has until it ends.
fn lock(path: &Path) -> Result<Connection> {
    // A pipe would have SQLite wait.
    let files = ["", "-wal", "-journal", "-owner"].map(|it| beside(path, it));
    for file in &files {
        let words = format!("it isn't a file: {}", file.display());
        Fault::NotALog.unless(file.is_file() || !file.exists(), words)?;
    }
    let owner = Connection::open(&files[3])?;
    // Nothing is ever written there.
    let lock = "PRAGMA busy_timeout=0; PRAGMA journal_mode=OFF; BEGIN EXCLUSIVE";
    owner.execute_batch(lock)?;
    Ok(owner)
}

/// Locks a log and reads it, and changes nothing.
pub(crate) fn read_log(path: &Path, wanted: &LogOptions) -> Result<ReadLog> {
    // The file itself: SQLite puts the WAL beside that, where the path is a link to it.
    let path = path.canonicalize().map_err(|error| match error.kind() {
        ErrorKind::NotFound => Fault::NoLog.says(format!("no log is there: {}", path.display())),
        _ => Fault::Unreadable.says(format!("{}: {error}", path.display())),
    })?;
    let owner = lock(&path)?;
    // SQLite rolls back what was broken off without a WAL, and leaves a WAL where it is.
    let flags = OpenFlags::SQLITE_OPEN_READ_WRITE | OpenFlags::SQLITE_OPEN_NO_MUTEX;
    let database = Connection::open_with_flags(&path, flags)?;
    database.set_db_config(KEEPS_WAL, true)?;
    database.execute_batch("BEGIN")?;
    let head = compared_head(&path, &database, wanted)?;
    let mut resumption = Resumption::new()?;
    check_rows(&database, &head, |what, lines| {
        let taken = resumption.take_whole([lines, b"\n"].concat());
        taken.map_err(|error| not_taken(what, error))
    })?;
    let guardian = resumption.into_whole();
    let guardian = guardian.map_err(|error| not_taken("the opening", error))?;
    let named = named_in(&database, &guardian)?;
    let batches = database.query_row("SELECT count(*) FROM batch", [], |row| row.get(0))?;
    let (epoch, next, _) = head.end;
    let found = LogFound {
        path,
        name: head.name.clone(),
        batches,
        entries: next - guardian.first_entry(),
        next,
        objects: guardian.objects(),
        epoch,
        aborted: 0,
    };
    database.execute_batch("COMMIT")?;
    Ok(([database, owner], head, guardian, named, found))
}

fn not_taken(what: &str, error: LineError) -> LoggedError {
    let LineError::Fault { line, why } = error else {
        return Error::OutOfMemory.into();
    };
    Fault::OtherReply.says(format!("{what}, line {line} of it: {why}"))
}

// The row of `log`, if that is the one that is wanted, and the WAL is there, is sound, and belongs to the file.
fn compared_head(path: &Path, database: &Connection, wanted: &LogOptions) -> Result<Head> {
    let (head, alone) = (head_of(database), head_alone(path));
    let is_open = alone.as_ref().is_some_and(|it| it.is_open);
    let wal = beside(path, "-wal");
    // A WAL without its header is empty.
    if fs::metadata(&wal).is_ok_and(|it| it.len() >= 32) {
        check_wal(&wal, alone.is_some() && !is_open)?;
    } else if is_open {
        return Err(Fault::WalMissing.says(format!(
            "the log wasn't closed, and {} isn't there, or is empty: what it had is gone. If nothing was in it, since \
             sqlite3 has moved that, or this is a whole copy, `UPDATE log SET is_open = 0` says so",
            wal.display()
        )));
    }
    let head = head?;
    let (name, (epoch, next, _), least) = (&head.name, head.end, wanted.at_least);
    let other = wanted.name.as_ref().unwrap_or(name);
    let words = format!("the log's name is {name}, and that of the one that is wanted {other}");
    Fault::OtherLog.unless(other == name, words)?;
    let words = format!("the log has {next} entries, and had {least}: it is an older copy");
    Fault::LogOld.unless(next >= least, words)?;
    if let Some((own, (begun, was, _))) = alone.map(|it| (it.name, it.end)) {
        let words = format!("the file is the log {own}, and the WAL beside it that of {name}");
        Fault::OtherLog.unless(own == *name, words)?;
        let words = format!("the file has {was} entries, and with its WAL {next}: that is older");
        Fault::LogOld.unless((begun, was) <= (epoch, next), words)?;
    }
    Ok(head)
}

// What the file says without its WAL; None if it can't be read so, as in the midst of a move.
fn head_alone(path: &Path) -> Option<Head> {
    let bytes = path.as_os_str().as_encoded_bytes().iter();
    let uri = bytes.fold("file:".to_owned(), |uri, it| format!("{uri}%{it:02x}"));
    let database = Connection::open(uri + "?mode=ro&immutable=1").ok()?;
    head_of(&database).ok().filter(|it| it.name.len() == 32)
}

// The objects that have names, each with the shape that it was declared with.
fn named_in(database: &Connection, guardian: &Guardian) -> Result<Named> {
    let select = "SELECT name, number, shape FROM object WHERE name IS NOT NULL";
    let mut select = database.prepare(select)?;
    let rows = select.query_map([], |row| <(String, u32, String)>::try_from(row))?;
    rows.map(|row| {
        let (name, number, shape) = row?;
        let words = format!("`{name}` is the name of object {number}, which isn't {shape}");
        Fault::RowChanged.unless(number < guardian.objects(), &words)?;
        let object = guardian.object(ObjId::numbered(number))?.called(&name);
        Fault::RowChanged.unless(object.shape() == shape, words)?;
        Ok((name, object))
    })
    .collect()
}

/// The row of `log`, if it is a log, in a format that is known.
pub(crate) fn head_of(database: &Connection) -> Result<Head> {
    let select = "SELECT * FROM pragma_application_id, pragma_user_version";
    let (id, format): (i64, i64) = database.query_row(select, [], |it| it.try_into())?;
    Fault::NotALog.unless(id == APPLICATION, "the file is no log of a guardian")?;
    Fault::OtherFormat.unless(format == FORMAT, format!("format {format} isn't known"))?;
    let select = "SELECT name, is_open != 0, epoch, next_entry, sum FROM log";
    let (name, is_open, epoch, next, sum) = database.query_row(select, [], |it| it.try_into())?;
    let end = (epoch, next, sum);
    Ok(Head { name, is_open, end })
}

/// Compares the pages, the opening and each batch, and has each taken then, as what it is, and its lines.
pub(crate) fn check_rows(
    database: &Connection,
    head: &Head,
    mut take: impl FnMut(&str, &[u8]) -> Result<()>,
) -> Result<()> {
    let said: String = database.pragma_query_value(None, "quick_check", |row| row.get(0))?;
    Fault::PagesDamaged.unless(said == "ok", format!("the database isn't sound: {said}"))?;
    let (opening, mut entry) = (opening_of(database)?, 0);
    if !opening.is_empty() {
        let words = "line 0 of the opening doesn't say before which entry it stands";
        let begins = number_after(b"opening entries ", &opening);
        entry = begins.ok_or_else(|| Fault::RowChanged.says(words))?;
        take("the opening", &opening)?;
    }
    let mut sum = log_sum(&head.name, entry, 0, &opening);
    let select = "SELECT first, CAST(lines AS BLOB), sum FROM batch ORDER BY first";
    let mut select = database.prepare(select)?;
    for row in select.query_map([], |row| <(u64, Vec<u8>, u32)>::try_from(row))? {
        let (first, lines, said) = row?;
        check_place(first, entry, &lines)?;
        let what = format!("batch {first}");
        sum = log_sum(&head.name, first, sum, &lines);
        let why = "hasn't the sum that it says: it was changed, or what is before it";
        Fault::RowChanged.unless(said == sum, format!("{what} {why}"))?;
        take(&what, &lines)?;
        entry += lines.split(|it| *it == b'\n').count() as u64;
    }
    let (_, next, last) = head.end;
    let words = format!("the rows end before entry {entry}, and by `log` entry {next} comes next");
    Fault::LogCut.unless(entry >= next, &words)?;
    Fault::LogOld.unless(entry <= next, words)?;
    let words = "`log` has another sum than the last batch or the opening: one was changed";
    Fault::RowChanged.unless(sum == last, words)
}

// The opening's lines; none before the first checkpoint.
fn opening_of(database: &Connection) -> Result<Vec<u8>> {
    let select = "SELECT line, CAST(text AS BLOB) FROM opening ORDER BY line";
    let mut select = database.prepare(select)?;
    let rows = select.query_map([], |row| <(usize, Vec<u8>)>::try_from(row))?;
    let (numbers, lines): (Vec<_>, Vec<_>) = rows.collect::<rusqlite::Result<_>>()?;
    let (count, next) = (lines.len(), numbers.last().map_or(0, |last| last + 1));
    let words = format!("of {next} lines the opening has {count}");
    Fault::RowMissing.unless(count == next, words)?;
    Ok(lines.join(&b'\n'))
}

// The number that stands behind this at the beginning of a text, if the next word is one.
fn number_after(before: &[u8], text: &[u8]) -> Option<u64> {
    let mut words = text.strip_prefix(before)?.split(u8::is_ascii_whitespace);
    std::str::from_utf8(words.next()?).ok()?.parse().ok()
}

// Whether this batch comes next, and its lines are in their place.
fn check_place(first: u64, entry: u64, lines: &[u8]) -> Result<()> {
    let words = format!("batch {first} comes where entry {entry} comes next");
    Fault::RowDoubled.unless(first >= entry, words)?;
    let last = first.saturating_sub(1);
    let words = format!("the entries {entry} to {last} aren't there: batch {first} comes next");
    Fault::RowMissing.unless(first == entry, words)?;
    let begins = number_after(b"", lines).unwrap_or(first);
    let words = format!("in the place of batch {first} are the lines of entry {begins}");
    Fault::RowDoubled.unless(begins >= first, format!("{words} once more"))?;
    Fault::RowSwapped.unless(begins == first, format!("{words} and those after it"))
}

// Whether a frame of a WAL that was on disk has changed: SQLite drops what is behind it without a word. That is right of
// a write that was torn, and wrong of a frame that rotted. Each commit is on disk before the next one's frames are
// written, so behind the end of a torn commit there are no frames of this WAL. The format is SQLite's: numbers of 4 bytes
// (sqlite.org/fileformat2.html, "The WAL File Format"). The header of a WAL that is new may be torn.
fn check_wal(path: &Path, may_be_new: bool) -> Result<()> {
    let content = fs::read(path).map_err(|error| Fault::Unreadable.says(error.to_string()))?;
    let number = |it: &[u8]| it.try_into().map_or(0, u32::from_be_bytes);
    let numbers: Vec<u32> = content.chunks_exact(4).map(number).collect();
    let damaged = damaged_part(&numbers, may_be_new);
    let (shown, what) = (path.display(), damaged.as_deref().unwrap_or_default());
    let words = format!("{shown}: {what} has changed, and later work was written behind it");
    Fault::WalDamaged.unless(damaged.is_none(), words)
}

// The header, or the first frame, from 1 on, that has changed.
fn damaged_part(wal: &[u32], may_be_new: bool) -> Option<String> {
    let (header, frames) = wal.split_at_checked(8)?;
    // The last bit of the first number says in which order sums take bytes. The second one is the format's.
    let is_big = header[0] & 1 == 1;
    let mut sums = summed(is_big, &header[..6], [0, 0]);
    if header[0] & !1 != 0x377f_0682 || header[1] != 3_007_000 || header[6..] != sums {
        return (!may_be_new).then(|| "the header".to_owned());
    }
    let is_own = |frame: &&[u32]| frame[2..4] == header[4..6];
    let frames = frames.chunks_exact(6 + header[2] as usize / 4);
    let damaged = frames.clone().position(|frame| {
        sums = summed(is_big, &frame[6..], summed(is_big, &frame[..2], sums));
        !is_own(&frame) || frame[4..6] != sums
    })?;
    // Of a commit that was torn, the frame with which it ends may be there.
    let mut ended = frames.skip(damaged).filter(is_own);
    let later = ended.find(|it| it[1] != 0).and(ended.next());
    later.map(|_| format!("frame {}", damaged + 1))
}

fn summed(is_big: bool, numbers: &[u32], sums: [u32; 2]) -> [u32; 2] {
    let read = |it: u32| if is_big { it } else { it.swap_bytes() };
    numbers.chunks_exact(2).fold(sums, |[one, two], it| {
        let one = one.wrapping_add(read(it[0])).wrapping_add(two);
        [one, two.wrapping_add(read(it[1])).wrapping_add(one)]
    })
}
