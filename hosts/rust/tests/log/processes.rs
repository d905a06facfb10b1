//! Who has a log: two processes, forked ones, and programs that read and write beside them.

use crate::bank::{carry_out, last_of, number};
use crate::child::Child;
use crate::faults::{Made, with};
use crate::opened_bank::{OPTIONS, open_bank};
use argus_guardian::log::{LogFault, LogOptions, Logged, LoggedError};
use rusqlite::Connection;
use std::os::unix::process::CommandExt;
use std::process::Command;
use std::sync::{Arc, Mutex};
use std::time::Duration;
use std::{fs, thread};

fn is_locked(made: &Made) -> bool {
    let opened = Logged::open(&made.path);
    matches!(opened, Err(LoggedError::Database(LogFault::Locked, _)))
}

#[test]
#[ignore = "the parent runs it in a process of its own, and kills that"]
fn child_has_it() {
    let bank = open_bank(Child::folder());
    Child::tell(0, 0);
    thread::sleep(Duration::from_secs(60));
    drop(bank);
}

#[test]
fn one_process_has_it() {
    let made = Made::empty();
    let child = Child::start("processes::child_has_it", &made.path, &[]);
    child.wait_for_first();
    assert!(is_locked(&made));
    child.killed();
    made.has(-1);
    let bank = open_bank(&made.path);
    assert!(is_locked(&made));
    // Who was refused hasn't given up the other one's locks.
    assert!(is_locked(&made));
    carry_out(&bank, 0, 0).expect("carried out");
}

#[test]
fn where_the_lock_was_removed_the_first_one_is_refused() {
    let made = Made::bank();
    let first = open_bank(&made.path);
    fs::remove_file(with(&made.path, "-owner")).expect("removed");
    let second = open_bank(&made.path);
    carry_out(&second, 1, 0).expect("carried out");
    let error = carry_out(&first, 2, 0).expect_err("it was taken over");
    let LoggedError::InDoubt(failure) = error else {
        panic!("{error}");
    };
    assert!(
        failure
            .to_string()
            .contains("another process has opened the log"),
        "{failure}"
    );
    drop(first);
    carry_out(&second, 1, 1).expect("carried out");
    drop(second);
    let bank = open_bank(&made.path);
    let standing = [1, 2].map(|client| number(&bank, last_of(client)).expect("told"));
    assert_eq!(standing, [1, -1]);
}

#[test]
fn a_program_that_writes_is_waited_for() {
    let made = Made::bank();
    let bank = open_bank(&made.path);
    let other = Connection::open(&made.path).expect("opened");
    other.execute_batch("BEGIN IMMEDIATE").expect("begun");
    thread::scope(|scope| {
        scope.spawn(|| {
            thread::sleep(Duration::from_millis(200));
            let other = other;
            other.execute_batch("ROLLBACK").expect("rolled back");
        });
        carry_out(&bank, 1, 0).expect("carried out");
    });
    // One that changes it is found out.
    made.sql("UPDATE log SET next_entry = next_entry + 1");
    assert!(matches!(
        carry_out(&bank, 1, 1),
        Err(LoggedError::InDoubt(_))
    ));
}

#[test]
fn a_program_that_reads_keeps_nobody_from_writing() {
    let made = Made::bank();
    let other = Connection::open(&made.path).expect("opened");
    let bank = open_bank(&made.path);
    other.execute_batch("BEGIN").expect("begun");
    let count = |table| {
        let query = format!("SELECT count(*) FROM {table}");
        other
            .query_row(&query, [], |row| row.get::<_, u32>(0))
            .expect("told")
    };
    assert_eq!(count("object"), 0);
    bank.checkpoint_waiting(Duration::from_secs(10))
        .expect("folded");
    carry_out(&bank, 1, 0).expect("carried out");
    drop(bank);
    carry_out(&open_bank(&made.path), 1, 1).expect("carried out");
    assert_eq!(count("object"), 0);
    other.execute_batch("COMMIT").expect("ended");
    assert!(count("object") > 0);
}

#[test]
fn a_forked_process_that_drops_it_changes_nothing() {
    let made = Made::bank();
    let kept: Arc<Mutex<Option<Logged>>> = Arc::new(Mutex::new(Some(open_bank(&made.path))));
    let copy = Arc::clone(&kept);
    let in_child = move || {
        drop(copy.lock().expect("no panic").take());
        Ok(())
    };
    let mut command = Command::new("true");
    // SAFETY: no thread has the mutex, and a child may free memory.
    let command = unsafe { command.pre_exec(in_child) };
    assert!(command.status().expect("started").success());
    assert!(is_locked(&made));
    let bank = kept.lock().expect("no panic").take().expect("it is there");
    carry_out(&bank, 1, 0).expect("carried out");
    drop(bank);
    assert!(!is_locked(&made));
}

#[test]
fn of_threads_that_make_it_at_once_one_has_it() {
    let made = Made::empty();
    let opened = thread::scope(|scope| {
        let open = || OPTIONS.open_or_create(&made.path);
        let threads = [(); 8].map(|()| scope.spawn(open));
        threads.map(|it| it.join().expect("no panic"))
    });
    let mut names = Vec::new();
    for it in opened {
        match it {
            Ok(logged) => names.push(logged.found().name.clone()),
            Err(LoggedError::Database(LogFault::Locked, _)) => {}
            Err(error) => panic!("{error}"),
        }
    }
    assert!(!names.is_empty());
    let name = LogOptions::default().check(&made.path).expect("right").name;
    assert!(names.iter().all(|it| *it == name), "{names:?}");
}
