//! Topactions that are tried again.

#[cfg(all(feature = "logged", unix))]
use argus_guardian::log::{Logged, LoggedError};
use argus_guardian::{
    Access, Change, Error, Guardian, MayConflict, ObjId, Refusal, Shared, SharedAction,
};
use std::time::Duration;
use std::{error, thread};

/// A shared guardian with a record of 0.
fn with_counter(patience: Duration) -> Result<(Shared, ObjId), Error> {
    let guardian = Guardian::new()?;
    let counter = guardian.declare("atomic_record[n:int]")?;
    let shared = Shared::new(guardian, patience);
    shared.run(|top| top.alter(counter, Change::Create("{0}".parse()?))?.done())?;
    Ok((shared, counter))
}

/// Reads and then writes, which two that do it at once can't both.
fn count(top: &SharedAction<'_>, counter: ObjId) -> Result<i64, Error> {
    let count = top.get::<i64>(counter, 0)? + 1;
    thread::sleep(Duration::from_micros(200));
    top.set(counter, 0, count)?;
    Ok(count)
}

// As often as it takes, where many meet.
fn run_on(shared: &Shared, counter: ObjId) -> Result<i64, Error> {
    loop {
        match shared.run(|top| count(top, counter)) {
            Err(error) if error.is_conflict() => {}
            result => return result,
        }
    }
}

#[test]
fn threads_that_read_and_then_write() -> Result<(), Error> {
    const THREADS: i64 = 8;
    const EACH: i64 = 10;
    let (shared, counter) = with_counter(Shared::PATIENCE)?;
    thread::scope(|scope| {
        let work = || (0..EACH).try_for_each(|_| run_on(&shared, counter).map(drop));
        let threads: Vec<_> = (0..THREADS).map(|_| scope.spawn(work)).collect();
        threads
            .into_iter()
            .try_for_each(|it| it.join().expect("no panic"))
    })?;
    let top = shared.topaction()?;
    assert_eq!(top.get::<i64>(counter, 0)?, THREADS * EACH);
    top.commit()
}

#[test]
fn tries_come_to_an_end() -> Result<(), Error> {
    let (shared, counter) = with_counter(Duration::ZERO)?;
    let holder = shared.topaction()?;
    holder.lock(counter)?;
    let mut tried = 0;
    let result = shared.run(|top| {
        tried += 1;
        count(top, counter)
    });
    assert!(result.expect_err("it is held").is_conflict());
    assert_eq!(tried, Shared::TRIES);
    holder.abort()?;
    shared.checkpoint()?;
    Ok(())
}

#[derive(Debug, PartialEq)]
enum Failure {
    SoldOut,
    Guardian(Error),
}

impl From<Error> for Failure {
    fn from(error: Error) -> Failure {
        Failure::Guardian(error)
    }
}

impl MayConflict for Failure {
    fn is_conflict(&self) -> bool {
        matches!(self, Failure::Guardian(error) if error.is_conflict())
    }
}

#[test]
fn a_failure_of_the_program_aborts_at_once() -> Result<(), Error> {
    let (shared, counter) = with_counter(Shared::PATIENCE)?;
    let mut tried = 0;
    let result: Result<(), Failure> = shared.run(|top| {
        tried += 1;
        count(top, counter)?;
        Err(Failure::SoldOut)
    });
    assert_eq!((result, tried), (Err(Failure::SoldOut), 1));
    assert_eq!(shared.into_inner().base(counter)?, Some("{0}".parse()?));
    Ok(())
}

#[test]
fn boxed_errors_say_whether_they_are_conflicts() {
    let conflict = || Error::from(Refusal::Conflict);
    assert!(Box::<dyn error::Error>::from(conflict()).is_conflict());
    assert!(Box::<dyn error::Error + Send + Sync>::from(conflict()).is_conflict());
    assert!(!Box::<dyn error::Error>::from("sold out").is_conflict());
}

// A record is locked at the first try, and free at the second. How many tries it takes to lock it.
#[cfg(all(feature = "logged", unix))]
fn tries_until_free<E: From<LoggedError> + MayConflict>() -> Result<u32, E> {
    let logged = Logged::in_memory().expect("made");
    let record = logged.declare("atomic_record[n:int]")?;
    let holder = logged.topaction()?;
    holder.lock(record)?;
    let (mut holder, mut tried) = (Some(holder), 0);
    logged.run(|top| {
        tried += 1;
        if tried == 2 {
            drop(holder.take());
        }
        Ok::<_, E>(top.lock(record)?)
    })?;
    Ok(tried)
}

#[cfg(all(feature = "logged", unix))]
#[test]
fn boxed_errors_of_a_log_say_so_too() {
    let over = LoggedError::from(Refusal::Over);
    assert!(!Box::<dyn error::Error>::from(over).is_conflict());
    let tries = tries_until_free::<Box<dyn error::Error>>();
    assert_eq!(tries.expect("free"), 2);
    let tries = tries_until_free::<Box<dyn error::Error + Send + Sync>>();
    assert_eq!(tries.expect("free"), 2);
}
