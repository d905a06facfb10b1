//! A disk that is really full. `hosts/run` mounts a small one.

use crate::scratch::Scratch;
use argus_guardian::log::{LogOptions, Logged, LoggedError};
use argus_guardian::{Access, Change};
use std::fs;
use std::time::Duration;

fn count(logged: &Logged) -> Result<(), LoggedError> {
    let record = logged.named("count", "atomic_record[n:int]")?;
    if logged.base(&record)?.is_none() {
        logged.run(|top| {
            Ok::<_, LoggedError>(top.alter(&record, Change::Create("{0}".parse()?))?.done()?)
        })?;
    }
    logged.run(|top| {
        let next = top.get::<i64>(&record, 0)? + 1;
        top.set(&record, 0, next)
    })
}

fn base(logged: &Logged) -> i64 {
    let record = logged
        .named("count", "atomic_record[n:int]")
        .expect("found");
    let base = logged
        .base(record)
        .expect("told")
        .expect("created")
        .to_string();
    base.trim_matches(['{', '}']).parse().expect("a number")
}

#[test]
#[ignore = "ARGUS_LOG_SCRATCH has to name a disk of some 1 MiB"]
fn a_full_disk() {
    let scratch = Scratch::made("full");
    // Room that is kept for the day on which the disk is full.
    let spare = scratch.path().join("spare");
    fs::write(&spare, vec![0; 128 * 1024]).expect("written");
    let path = scratch.path().join("bank.db");
    let options = LogOptions {
        checkpoint_after: None,
        ..LogOptions::default()
    };
    let logged = options.create(&path).expect("made");
    let mut acknowledged = 0;
    let error = loop {
        match count(&logged) {
            Ok(()) => acknowledged += 1,
            Err(error) => break error,
        }
        assert!(acknowledged < 1_000_000, "the disk isn't small");
    };
    let LoggedError::InDoubt(failure) = &error else {
        panic!("{error}");
    };
    assert!(failure.to_string().contains("full"), "{failure}");
    assert!(matches!(count(&logged), Err(LoggedError::Broken(_))));
    assert_eq!(logged.counts().in_doubt, 1);
    drop(logged);
    // The runbook's way: make room, open, make a checkpoint.
    fs::remove_file(spare).expect("removed");
    let logged = options.open(&path).expect("opened");
    let number = base(&logged);
    assert!(
        number == acknowledged || number == acknowledged + 1,
        "{number} of {acknowledged}"
    );
    logged.checkpoint_waiting(Duration::ZERO).expect("folded");
    count(&logged).expect("acknowledged");
    drop(logged);
    let logged = options.open(&path).expect("opened");
    assert_eq!(base(&logged), number + 1);
    assert_eq!(logged.found().aborted, 0);
}
