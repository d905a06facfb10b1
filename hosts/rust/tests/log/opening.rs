//! A guardian that is opened again: what it was, what it aborts, and how its log is copied and folded.

use crate::bank::{carry_out, last_of, number, serve};
use crate::faults::{Made, with};
use crate::opened_bank::{OPTIONS, open_bank};
use crate::scratch::Scratch;
use argus_guardian::log::{
    BatchLog, JournalLines, LogFault, LogOptions, Logged, LoggedError, SqliteLog,
};
use argus_guardian::{Access, ActionId, Change, Guardian, Listing, ObjId};
use rusqlite::Connection;
use std::path::Path;
use std::time::Duration;
use std::{fs, mem, thread};

const LONG: Duration = Duration::from_secs(10);

fn open(path: &Path) -> Logged {
    Logged::open_or_create(path).expect("opened")
}

// A record of 5 that a topaction has created.
fn with_record(path: &Path) -> Logged {
    let logged = open(path);
    let record = logged.declare("atomic_record[n:int]").expect("declared");
    let five = || Change::Create("{5}".parse().expect("a content"));
    let created = logged.run(|top| Ok::<_, LoggedError>(top.alter(record, five())?.done()?));
    created.expect("acknowledged");
    logged
}

// The lines that a database has, as sqlite3 prints them.
fn text_of(path: &Path) -> String {
    let database = Connection::open(path).expect("opened");
    let mut lines = String::new();
    for query in [
        "SELECT text FROM opening ORDER BY line",
        "SELECT lines FROM batch ORDER BY first",
    ] {
        let mut statement = database.prepare(query).expect("a query");
        let rows = statement
            .query_map([], |row| row.get::<_, String>(0))
            .expect("asked");
        rows.for_each(|it| lines += &(it.expect("a text") + "\n"));
    }
    lines
}

#[test]
fn it_is_what_it_was_and_what_was_live_is_aborted() {
    let made = Made::empty();
    let logged = with_record(&made.path);
    let top = logged.topaction().expect("begun");
    top.set(ObjId::numbered(0), 0, 6).expect("set");
    let nested = top.nested().expect("begun");
    let sub = nested.subaction().expect("begun");
    logged.barrier().expect("all is in the log");
    let before = logged.list(Listing::Journal).expect("listed");
    let bases = logged.list(Listing::Bases).expect("listed");
    // The process ends here, with its actions live.
    mem::forget(sub);
    mem::forget(nested);
    mem::forget(top);
    drop(logged);
    let logged = open(&made.path);
    assert_eq!((logged.found().entries, logged.found().aborted), (8, 2));
    let after = logged.list(Listing::Journal).expect("listed");
    assert_eq!(after, before + "8 abort a1 -> done\n9 abort a2 -> done\n");
    assert_eq!(logged.list(Listing::Bases).expect("listed"), bases);
    drop(logged);
    // That is in the log, too.
    assert_eq!(text_of(&made.path), after);
    let logged = open(&made.path);
    assert_eq!((logged.found().entries, logged.found().aborted), (10, 0));
}

#[test]
fn after_a_checkpoint_it_is_what_it_was() {
    let made = Made::empty();
    let logged = with_record(&made.path);
    logged.checkpoint_waiting(LONG).expect("folded");
    // The opening alone.
    drop(logged);
    let folded = "opening entries 4 actions 1\nopening o0 atomic_record[n:int] {5}\n";
    assert_eq!(text_of(&made.path), folded);
    let logged = open(&made.path);
    assert_eq!((logged.found().entries, logged.found().next), (0, 4));
    assert_eq!(logged.list(Listing::Journal).expect("listed"), folded);
    // The opening and entries, of which a topaction is live at the end.
    let top = logged.topaction().expect("begun");
    top.set(ObjId::numbered(0), 0, 7).expect("set");
    top.commit().expect("acknowledged");
    let live = logged.topaction().expect("begun");
    live.set(ObjId::numbered(0), 0, 8).expect("set");
    logged.barrier().expect("all is in the log");
    let before = logged.list(Listing::Journal).expect("listed");
    // A program that reads sees what is acknowledged.
    assert_eq!(text_of(&made.path), before);
    mem::forget(live);
    drop(logged);
    let logged = open(&made.path);
    assert_eq!((logged.found().next, logged.found().aborted), (9, 1));
    assert_eq!(
        logged.list(Listing::Journal).expect("listed"),
        before + "9 abort a2 -> done\n"
    );
    assert_eq!(logged.list(Listing::Bases).expect("listed"), "o0 {7}\n");
}

#[test]
fn objects_that_refer_to_one_another_are_there_after_a_checkpoint() {
    let made = Made::empty();
    let logged = open(&made.path);
    let shapes = [
        "atomic_record[to:atomic]",
        "atomic_array[text]",
        "atomic_array[int]",
    ];
    logged.declare_each(shapes).expect("declared");
    let created = logged.run(|top| {
        top.alter(ObjId::numbered(0), Change::Create("{@2}".parse()?))?
            .done()?;
        let line_feed = Change::Create("1[\"opening \\n 7 begin_top -> a0\\n\"]".parse()?);
        Ok::<_, LoggedError>(top.alter(ObjId::numbered(1), line_feed)?.done()?)
    });
    created.expect("acknowledged");
    logged.checkpoint_waiting(LONG).expect("folded");
    let before = logged.list(Listing::Journal).expect("listed");
    assert!(
        before.ends_with("opening o2 atomic_array[int] absent\n"),
        "{before}"
    );
    drop(logged);
    let logged = open(&made.path);
    assert_eq!(logged.list(Listing::Journal).expect("listed"), before);
    assert_eq!(logged.base(ObjId::numbered(2)).expect("told"), None);
    drop(logged);
    // What each object holds, for SQL.
    let database = Connection::open(&made.path).expect("opened");
    let mut statement = database
        .prepare("SELECT number, shape, base FROM object ORDER BY number")
        .expect("a query");
    let rows = statement
        .query_map([], |row| Ok((row.get(0)?, row.get(1)?, row.get(2)?)))
        .expect("asked");
    let rows: Vec<(u32, String, Option<String>)> = rows.map(|it| it.expect("a row")).collect();
    let wanted = [
        (0, shapes[0], Some("{@2}")),
        (
            1,
            shapes[1],
            Some("1[\"opening \\n 7 begin_top -> a0\\n\"]"),
        ),
        (2, shapes[2], None),
    ];
    assert_eq!(
        rows,
        wanted.map(|(number, shape, base)| (number, shape.to_owned(), base.map(str::to_owned)))
    );
}

#[test]
fn numbers_of_actions_begin_anew_and_the_log_has_it() {
    let made = Made::empty();
    let logged = with_record(&made.path);
    for _ in 1..Guardian::MAX_ACTIONS / 2 {
        drop(logged.topaction().expect("begun"));
    }
    // The commit that finds half of them used makes the checkpoint.
    logged
        .topaction()
        .expect("begun")
        .commit()
        .expect("acknowledged");
    assert_eq!(logged.counts().checkpoints, 1);
    let again = logged.topaction().expect("begun");
    assert_eq!(again.id(), ActionId::numbered(0));
    again.set(ObjId::numbered(0), 0, 8).expect("set");
    again.commit().expect("acknowledged");
    let before = logged.list(Listing::Journal).expect("listed");
    assert!(
        before.starts_with("opening entries 1000004 actions 0\n"),
        "{before}"
    );
    drop(logged);
    let logged = open(&made.path);
    assert_eq!(logged.list(Listing::Journal).expect("listed"), before);
    assert_eq!(
        logged.topaction().expect("begun").id(),
        ActionId::numbered(1)
    );
}

#[test]
fn one_whose_numbers_for_actions_are_used_up_goes_on() {
    let made = Made::empty();
    let opening = format!("opening entries 7 actions {}\n", Guardian::MAX_ACTIONS);
    let mut log = SqliteLog::create(&made.path).expect("made");
    log.append(&JournalLines::new(7, opening).expect("a whole line"))
        .expect("written");
    drop(log);
    let logged = open(&made.path);
    assert_eq!(logged.counts().checkpoints, 1);
    assert_eq!(logged.actions_left(), Guardian::MAX_ACTIONS);
    logged
        .topaction()
        .expect("begun")
        .commit()
        .expect("acknowledged");
}

#[test]
fn checkpoints_come_by_themselves() {
    let made = Made::empty();
    let options = LogOptions {
        checkpoint_after: Some(100),
        ..OPTIONS
    };
    let logged = options.open_or_create(&made.path).expect("opened");
    let record = logged
        .named("record", "atomic_record[n:int]")
        .expect("declared");
    let record = record.id();
    let create = logged.run(|top| {
        Ok::<_, LoggedError>(top.alter(record, Change::Create("{0}".parse()?))?.done()?)
    });
    create.expect("acknowledged");
    for number in 1..=200 {
        logged
            .run(|top| top.set(record, 0, number))
            .expect("acknowledged");
    }
    // An order has three entries, so that each 34th finds 100 of them.
    assert_eq!(logged.counts().checkpoints, 5);
    // One that finds an action live changes nothing, and a later commit tries again.
    let live = logged.topaction().expect("begun");
    for number in 1..=60 {
        logged
            .run(|top| top.set(record, 0, number))
            .expect("acknowledged");
    }
    assert_eq!(logged.counts().checkpoints, 5);
    live.abort().expect("aborted");
    for number in 61..=100 {
        logged
            .run(|top| top.set(record, 0, number))
            .expect("acknowledged");
    }
    assert_eq!(logged.counts().checkpoints, 6);
    drop(logged);
    let logged = LogOptions {
        checkpoint_after: None,
        ..options
    }
    .open(&made.path)
    .expect("opened");
    for number in 1..=200 {
        let record = logged
            .named("record", "atomic_record[n:int]")
            .expect("found");
        logged
            .run(|top| top.set(&record, 0, number))
            .expect("acknowledged");
    }
    assert_eq!(logged.counts().checkpoints, 0);
}

#[test]
fn backups_beside_orders() {
    let made = Made::empty();
    let bank = open_bank(&made.path);
    thread::scope(|scope| {
        scope.spawn(|| serve(&bank, 0, |number| number < 60).expect("served"));
        for copy in 0..4 {
            bank.backup(with(&made.path, &format!(".{copy}")))
                .expect("copied");
        }
    });
    let error = bank
        .backup(with(&made.path, ".0"))
        .expect_err("it is there");
    assert!(
        matches!(error, LoggedError::Database(LogFault::Exists, _)),
        "{error}"
    );
    for copy in 0..4 {
        let path = with(&made.path, &format!(".{copy}"));
        let found = LogOptions::default().check(&path).expect("right");
        assert_eq!(found.name, bank.found().name);
        let copy = open_bank(&path);
        let last = number(&copy, last_of(0)).expect("told");
        // It goes on by itself.
        carry_out(&copy, 0, last + 1).expect("carried out");
    }
    let names = fs::read_dir(made.path.parent().expect("a folder")).expect("read");
    let left = names.filter(|it| {
        it.as_ref()
            .expect("read")
            .file_name()
            .to_string_lossy()
            .contains("-new-")
    });
    assert_eq!(left.count(), 0);
}

// A program that writes lines itself.
#[test]
fn lines_that_arent_the_next_ones_break_a_log() {
    let made = Made::empty();
    let mut log = SqliteLog::create(&made.path).expect("made");
    let lines = |first, text: &str| JournalLines::new(first, text.to_owned()).expect("whole lines");
    log.append(&lines(0, "")).expect("nothing");
    log.append(&lines(0, "0 begin_top -> a0\n"))
        .expect("appended");
    let failure = log
        .append(&lines(2, "2 begin_top -> a1\n"))
        .expect_err("not the next one");
    assert!(
        failure
            .to_string()
            .ends_with("entry 2 where 1 is the next one"),
        "{failure}"
    );
    let failure = log
        .append(&lines(1, "1 begin_top -> a1\n"))
        .expect_err("broken");
    assert!(
        failure
            .to_string()
            .ends_with("entry 2 where 1 is the next one"),
        "{failure}"
    );
    drop(log);
    assert_eq!(open(&made.path).found().entries, 1);
}

#[test]
fn what_it_has_done_is_counted() {
    let scratch = Scratch::made("counts");
    let logged = with_record(&scratch.path().join("bank.db"));
    let counts = logged.counts();
    assert_eq!((counts.batches, counts.entries, counts.in_doubt), (2, 4, 0));
    assert_eq!(
        counts.bytes,
        logged.list(Listing::Journal).expect("listed").len() as u64
    );
    assert!(counts.time > Duration::ZERO);
}
