//! What is wrong with a log's database: each fault is told by its own name, and nothing is changed then.

use crate::bank::{CLIENTS, carry_out, last_of, number};
use crate::opened_bank::open_bank;
use crate::scratch::Scratch;
use argus_guardian::log::{
    BatchLog, JournalLines, LogFault, LogOptions, Logged, LoggedError, SqliteLog,
};
use rusqlite::Connection;
use std::collections::BTreeMap;
use std::fs;
use std::path::{Path, PathBuf};
use std::process::Command;
use std::time::Duration;

/// How many orders a database has that tests change.
pub const ORDERS: i64 = 6;

/// A folder with a database.
pub struct Made {
    scratch: Scratch,
    /// The database.
    pub path: PathBuf,
}

impl Made {
    /// A folder without one.
    pub fn empty() -> Made {
        let scratch = Scratch::made("fault");
        let path = scratch.path().join("bank.db");
        Made { scratch, path }
    }

    /// A bank that was closed, with a batch for each order.
    pub fn bank() -> Made {
        let made = Made::empty();
        made.orders(0, ORDERS);
        made
    }

    /// Opens it, and carries out these orders of the first client.
    pub fn orders(&self, from: i64, until: i64) {
        let bank = open_bank(&self.path);
        for number in from..until {
            carry_out(&bank, 0, number).expect("carried out");
        }
    }

    /// What is left if its process is killed after this.
    pub fn crashed(&self, work: impl FnOnce(&Logged)) -> Made {
        let left = Made::empty();
        let bank = open_bank(&self.path);
        work(&bank);
        for suffix in ["", "-wal"] {
            fs::copy(with(&self.path, suffix), with(&left.path, suffix)).expect("copied");
        }
        left
    }

    pub fn sql(&self, statements: &str) {
        let database = Connection::open(&self.path).expect("opened");
        database.execute_batch(statements).expect("carried out");
    }

    pub fn numbers(&self, query: &str) -> Vec<i64> {
        let database = Connection::open(&self.path).expect("opened");
        let mut statement = database.prepare(query).expect("a query");
        let rows = statement.query_map([], |row| row.get(0)).expect("asked");
        rows.map(|it| it.expect("a number")).collect()
    }

    fn firsts(&self) -> Vec<i64> {
        self.numbers("SELECT first FROM batch ORDER BY first")
    }

    /// The files that are the log. SQLite makes an index of a WAL, and an empty WAL, for who only reads.
    pub fn files(&self) -> BTreeMap<PathBuf, Vec<u8>> {
        let names = fs::read_dir(self.scratch.path())
            .expect("read")
            .map(|it| it.expect("read").path());
        let counts = |name: &PathBuf| {
            let name = name.to_string_lossy();
            !name.ends_with("-shm") && !name.ends_with("-owner")
        };
        let files = names
            .filter(counts)
            .map(|it| (it.clone(), fs::read(it).expect("read")));
        files.filter(|(_, content)| !content.is_empty()).collect()
    }

    /// It isn't opened, for this reason and with these words, and is as it was; so it is refused again.
    pub fn refuse(&self, fault: LogFault, words: &str) {
        self.refuse_by(&LogOptions::default(), fault, words);
    }

    fn refuse_by(&self, options: &LogOptions, fault: LogFault, words: &str) {
        let before = self.files();
        for opened in [
            options.open(&self.path).err(),
            options.check(&self.path).err(),
        ] {
            let error = opened.expect("it is refused");
            let LoggedError::Database(found, said) = &error else {
                panic!("{error}");
            };
            assert_eq!(*found, fault, "{error}");
            assert!(said.contains(words), "{said}: no {words}");
            assert!(self.files() == before, "{error}: the files have changed");
        }
    }

    /// It is opened, and this is the first client's last order.
    pub fn has(&self, last: i64) {
        let bank = open_bank(&self.path);
        assert_eq!(number(&bank, last_of(0)).expect("told"), last);
        assert_eq!(number(&bank, last_of(CLIENTS - 1)).expect("told"), -1);
    }
}

/// A file beside the database.
pub fn with(path: &Path, suffix: &str) -> PathBuf {
    let mut name = path.as_os_str().to_owned();
    name.push(suffix);
    name.into()
}

#[test]
fn no_log() {
    let made = Made::empty();
    made.refuse(LogFault::NoLog, "no log is there");
    assert!(made.files().is_empty());
    fs::create_dir(&made.path).expect("made");
    let error = Logged::open(&made.path).expect_err("a folder");
    assert!(
        matches!(error, LoggedError::Database(LogFault::NotALog, _)),
        "{error}"
    );
}

#[test]
fn no_log_of_a_guardian() {
    let made = Made::bank();
    made.sql("PRAGMA application_id = 7");
    made.refuse(LogFault::NotALog, "no log of a guardian");
    for content in [
        String::new(),
        "some text, and more of it than a head of a page has".repeat(30),
    ] {
        fs::write(&made.path, content).expect("written");
        made.refuse(LogFault::NotALog, "");
    }
    fs::remove_file(&made.path).expect("removed");
    let pipe = Command::new("mkfifo")
        .arg(&made.path)
        .status()
        .expect("made");
    assert!(pipe.success());
    let error = Logged::open(&made.path).expect_err("a pipe");
    assert!(error.to_string().contains("isn't a file"), "{error}");
}

#[test]
fn one_that_is_there_isnt_made_again() {
    let made = Made::bank();
    let error = Logged::create(&made.path).expect_err("it is there");
    assert!(
        matches!(error, LoggedError::Database(LogFault::Exists, _)),
        "{error}"
    );
    made.has(ORDERS - 1);
}

#[test]
fn another_format() {
    let made = Made::bank();
    made.sql("PRAGMA user_version = 2");
    made.refuse(LogFault::OtherFormat, "format 2");
}

#[test]
fn another_log_than_the_one_that_is_wanted() {
    let made = Made::bank();
    let named = LogOptions {
        name: Some("0123".to_owned()),
        ..LogOptions::default()
    };
    made.refuse_by(&named, LogFault::OtherLog, "0123");
    let longer = LogOptions {
        at_least: 100_000,
        ..LogOptions::default()
    };
    made.refuse_by(&longer, LogFault::LogOld, "an older copy");
    let name = LogOptions::default().check(&made.path).expect("right").name;
    let right = LogOptions {
        name: Some(name),
        at_least: 20,
        ..LogOptions::default()
    };
    right.check(&made.path).expect("it is the one");
}

#[test]
fn rows_of_another_log() {
    let (made, other) = (Made::bank(), Made::bank());
    let attach = format!("ATTACH '{}' AS other", other.path.display());
    let taken = "SELECT lines, sum FROM other.batch WHERE first = 0";
    made.sql(&format!(
        "{attach}; UPDATE batch SET (lines, sum) = ({taken}) WHERE first = 0"
    ));
    made.refuse(LogFault::RowChanged, "batch 0 ");
}

#[test]
fn a_row_is_changed() {
    for last in [false, true] {
        let made = Made::bank();
        let firsts = made.firsts();
        let at = if last { firsts[firsts.len() - 1] } else { 0 };
        made.sql(&format!(
            "UPDATE batch SET lines = lines || ' ' WHERE first = {at}"
        ));
        made.refuse(LogFault::RowChanged, &format!("batch {at} "));
    }
}

#[test]
fn giving_up_what_comes_from_a_batch_on() {
    let made = Made::bank();
    let firsts = made.firsts();
    let at = firsts[firsts.len() - 2];
    made.sql(&format!(
        "UPDATE batch SET lines = lines || ' ' WHERE first = {at}"
    ));
    made.refuse(LogFault::RowChanged, &format!("batch {at} "));
    let last = "SELECT sum FROM batch ORDER BY first DESC LIMIT 1";
    made.sql(&format!(
        "DELETE FROM batch WHERE first >= {at}; UPDATE log SET next_entry = {at}, sum = ({last})"
    ));
    made.has(ORDERS - 3);
    made.orders(ORDERS - 2, ORDERS);
    made.has(ORDERS - 1);
}

#[test]
fn a_row_that_isnt_text() {
    let made = Made::bank();
    made.sql("UPDATE batch SET lines = CAST(x'30ff' AS TEXT) WHERE first = 0");
    made.refuse(LogFault::RowChanged, "batch 0 ");
}

#[test]
fn the_row_of_log_is_changed() {
    for (change, fault) in [
        ("UPDATE log SET sum = sum + 1", LogFault::RowChanged),
        ("UPDATE log SET name = 'another'", LogFault::RowChanged),
        (
            "UPDATE log SET next_entry = next_entry + 1",
            LogFault::LogCut,
        ),
        (
            "UPDATE log SET next_entry = next_entry - 1",
            LogFault::LogOld,
        ),
        ("DELETE FROM log", LogFault::RowMissing),
    ] {
        let made = Made::bank();
        made.sql(change);
        made.refuse(fault, "");
    }
}

#[test]
fn a_row_is_missing() {
    for at in [0, 2] {
        let made = Made::bank();
        let firsts = made.firsts();
        let (first, next) = (firsts[at], firsts[at + 1] - 1);
        made.sql(&format!("DELETE FROM batch WHERE first = {first}"));
        made.refuse(
            LogFault::RowMissing,
            &format!("the entries {first} to {next} aren't there"),
        );
    }
}

#[test]
fn a_row_is_doubled() {
    let made = Made::bank();
    let (at, later) = (made.firsts()[2], made.firsts()[3]);
    made.sql(&format!(
        "INSERT INTO batch SELECT {at} + 1, lines, sum FROM batch WHERE first = {at}"
    ));
    made.refuse(LogFault::RowDoubled, &format!("batch {} ", at + 1));
    let of_the_row = format!("SELECT lines, sum FROM batch WHERE first = {at}");
    made.sql(&format!(
        "DELETE FROM batch WHERE first = {at} + 1; \
         UPDATE batch SET (lines, sum) = ({of_the_row}) WHERE first = {later}"
    ));
    made.refuse(
        LogFault::RowDoubled,
        &format!("in the place of batch {later} "),
    );
    let made = Made::bank();
    let next = "SELECT next_entry FROM log";
    made.sql(&format!(
        "INSERT INTO batch SELECT ({next}), lines, sum FROM batch WHERE first = 0"
    ));
    made.refuse(LogFault::RowDoubled, "");
}

#[test]
fn rows_are_swapped() {
    let made = Made::bank();
    let (one, other) = (made.firsts()[1], made.firsts()[2]);
    made.sql(&format!(
        "UPDATE batch SET first = -1 WHERE first = {one}; UPDATE batch SET first = {one} WHERE first = {other}; \
         UPDATE batch SET first = {other} WHERE first = -1"
    ));
    made.refuse(
        LogFault::RowSwapped,
        &format!("in the place of batch {one} "),
    );
}

#[test]
fn the_last_rows_are_cut_off() {
    let made = Made::bank();
    let firsts = made.firsts();
    let at = firsts[firsts.len() - 2];
    made.sql(&format!("DELETE FROM batch WHERE first >= {at}"));
    made.refuse(LogFault::LogCut, &format!("before entry {at},"));
    made.sql("DELETE FROM batch");
    made.refuse(LogFault::LogCut, "before entry 0,");
}

#[test]
fn the_opening_is_changed() {
    let made = Made::bank();
    let bank = open_bank(&made.path);
    bank.checkpoint_waiting(Duration::from_secs(10))
        .expect("folded");
    drop(bank);
    let content = fs::read(&made.path).expect("read");
    let last = made.numbers("SELECT max(line) FROM opening")[0];
    for (change, fault) in [
        (
            "UPDATE opening SET text = replace(text, '{5}', '{6}')",
            LogFault::RowChanged,
        ),
        ("DELETE FROM opening WHERE line = 2", LogFault::RowMissing),
        (
            &format!("DELETE FROM opening WHERE line = {last}"),
            LogFault::RowChanged,
        ),
        ("DELETE FROM opening WHERE line = 0", LogFault::RowMissing),
        (
            "UPDATE opening SET text = 'opening' WHERE line = 0",
            LogFault::RowChanged,
        ),
        ("DELETE FROM opening", LogFault::LogCut),
    ] {
        made.sql(change);
        made.refuse(fault, "");
        fs::write(&made.path, &content).expect("put back");
    }
    made.has(ORDERS - 1);
}

// The sum by the rule of docs/DURABLE.md.
fn summed(name: &str, first: i64, before: u32, lines: &str) -> u32 {
    crc32fast::hash(format!("{name} {first} {before}\n{lines}").as_bytes())
}

#[test]
fn another_reply_than_the_guardians() {
    let made = Made::bank();
    let name = LogOptions::default().check(&made.path).expect("right").name;
    for (lines, words) in [
        (
            "0 declare atomic_array[int] -> o7",
            "`: the journal before it gives the reply `o0`",
        ),
        (
            "0 declare atomic_array[int] -> o0\n2 begin_top -> a0",
            "line 1 of it: `2 begin_top -> a0`: entry 1 comes next",
        ),
        (
            "0 declare",
            "batch 0, line 0 of it: `0 declare`: it isn't the line of an entry",
        ),
    ] {
        let sum = summed(&name, 0, summed(&name, 0, 0, ""), lines);
        let count = lines.lines().count();
        let database = Connection::open(&made.path).expect("opened");
        database
            .execute_batch("DELETE FROM batch")
            .expect("emptied");
        database
            .execute("INSERT INTO batch VALUES (0, ?, ?)", (lines, sum))
            .expect("written");
        database
            .execute("UPDATE log SET next_entry = ?, sum = ?", (count, sum))
            .expect("written");
        drop(database);
        made.refuse(LogFault::OtherReply, words);
    }
}

#[test]
fn an_opening_that_isnt_whole_is_named() {
    for (opening, words) in [
        (
            "opening entries 2 actions 1\nopening o0 atomic_record[to:atomic] {@1}\n",
            "the opening refers to objects that aren't there",
        ),
        (
            "opening entries 2 actions 1\nopening o1 atomic_record[n:int] {1}\n",
            "it isn't the next line of an opening",
        ),
    ] {
        let made = Made::empty();
        let mut log = SqliteLog::create(&made.path).expect("made");
        let opening = JournalLines::new(2, opening.to_owned()).expect("whole lines");
        log.append(&opening).expect("written");
        drop(log);
        made.refuse(LogFault::OtherReply, words);
    }
}

#[test]
fn a_page_has_rotted() {
    let made = Made::bank();
    let mut content = fs::read(&made.path).expect("read");
    let root = made.numbers("SELECT rootpage FROM sqlite_master WHERE name = 'batch'")[0];
    // What kind of page it is.
    content[usize::try_from(root - 1).expect("small") * 4096] = 77;
    fs::write(&made.path, content).expect("written");
    made.refuse(LogFault::PagesDamaged, "");
}

#[test]
fn any_byte_is_another_one() {
    let made = Made::bank();
    let content = fs::read(&made.path).expect("read");
    let (mut state, mut refused) = (1_u64, 0);
    for _ in 0..150 {
        state = state
            .wrapping_mul(6_364_136_223_846_793_005)
            .wrapping_add(1);
        let draw = usize::try_from(state >> 33).expect("31 bits");
        let mut changed = content.clone();
        changed[draw % content.len()] ^= 1 << (state >> 20 & 7);
        fs::write(&made.path, changed).expect("written");
        // Pages have bytes that count for nothing: then nothing is missing.
        match Logged::open(&made.path) {
            Ok(bank) => assert_eq!(number(&bank, last_of(0)).expect("told"), ORDERS - 1),
            Err(LoggedError::Database(fault, _)) if fault != LogFault::Unreadable => refused += 1,
            Err(error) => panic!("{error}"),
        }
    }
    assert!(refused > 10, "{refused}");
}

#[test]
fn an_older_copy_of_all() {
    let made = Made::bank();
    let bank = open_bank(&made.path);
    bank.backup(with(&made.path, ".copy")).expect("copied");
    carry_out(&bank, 0, ORDERS).expect("carried out");
    let at_least = bank.entries();
    drop(bank);
    fs::rename(with(&made.path, ".copy"), &made.path).expect("put in its place");
    let options = LogOptions {
        at_least,
        ..LogOptions::default()
    };
    made.refuse_by(&options, LogFault::LogOld, "an older copy");
    // It is a log that once was: only who knows more can tell.
    made.has(ORDERS - 1);
}
