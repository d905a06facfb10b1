//! When a checkpoint comes: after so many entries, of earlier lives too, and when numbers for actions get few.

use crate::host::{Host, database_in};
use crate::scratch::Scratch;
use argus_guardian::log::{BatchLog, JournalLines, LogOptions, SqliteLog};
use std::path::Path;
use std::thread;
use std::time::{Duration, Instant};

const MOST_ACTIONS: u32 = 1_000_000;

// One thread of the host makes checkpoints.
fn until_checkpoint(mut has_come: impl FnMut() -> bool) {
    let limit = Instant::now() + Duration::from_secs(60);
    while !has_come() {
        assert!(Instant::now() < limit, "no checkpoint comes");
        thread::sleep(Duration::from_millis(20));
    }
}

// A log of an entry, whose guardian has begun so many actions.
fn log_after(actions: u32, folder: &Path) {
    let mut log = SqliteLog::create(database_in(folder)).expect("made");
    let line = "0 begin_top -> a0\n".to_owned();
    log.append(&JournalLines::new(0, line).expect("a whole line"))
        .expect("appended");
    let line = format!("opening entries 1 actions {actions}\n");
    log.append(&JournalLines::new(1, line).expect("a whole line"))
        .expect("begun anew");
}

#[test]
fn entries_of_earlier_lives_count() {
    let scratch = Scratch::new("lives");
    let host = Host::serve(scratch.path(), &[]);
    host.client.open_accounts(1, 5);
    assert!(host.client.metric("argus_entries") > 100.0);
    host.kill();
    let host = Host::serve(scratch.path(), &["--checkpoint", "100"]);
    // It has hardly an entry of its own.
    until_checkpoint(|| host.client.metric("argus_log_checkpoints_total") > 0.0);
    host.kill();
    let found = LogOptions::default()
        .check(database_in(scratch.path()))
        .expect("right");
    assert!(found.entries < 100 && found.next > 100, "{found:?}");
    let host = Host::serve(scratch.path(), &[]);
    assert_eq!(host.client.balance(1), 5);
}

#[test]
fn a_log_that_has_used_up_the_numbers_of_actions() {
    let scratch = Scratch::new("used-up");
    log_after(MOST_ACTIONS, scratch.path());
    let host = Host::serve(scratch.path(), &[]);
    assert!(host.client.metric("argus_actions_left") > 999_000.0);
    host.client.open_accounts(1, 5);
    host.kill();
    let host = Host::serve(scratch.path(), &[]);
    assert_eq!(host.client.balance(1), 5);
}

#[test]
fn a_checkpoint_that_numbers_of_actions_ask_for() {
    let scratch = Scratch::new("half-used");
    // The next few topactions use the last number of the first half.
    log_after(MOST_ACTIONS / 2 - 2, scratch.path());
    let host = Host::serve(scratch.path(), &[]);
    host.client.open_accounts(1, 5);
    until_checkpoint(|| host.client.metric("argus_actions_left") > 999_000.0);
    assert_eq!(host.client.balance(1), 5);
}
