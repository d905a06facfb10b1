//! Objects that a log knows by their names.

use crate::faults::Made;
use argus_guardian::log::{LogFault, Logged, LoggedAction, LoggedError};
use argus_guardian::{Access, Error, ObjId, Refusal};
use std::thread;
use std::time::Duration;

const SHAPE: &str = "atomic_record[n:int]";

fn open(made: &Made) -> Logged {
    Logged::open_or_create(&made.path).expect("opened")
}

fn named(logged: &Logged, name: &str) -> ObjId {
    logged.named(name, SHAPE).expect("found or declared").id()
}

#[test]
fn they_are_found_again() {
    let made = Made::empty();
    let logged = open(&made);
    let unnamed = logged.declare(SHAPE).expect("declared");
    let account = named(&logged, "account");
    assert_ne!(unnamed, account);
    assert_eq!(named(&logged, "account"), account);
    assert_eq!(named(&logged, "konto ☃ '\n"), ObjId::numbered(2));
    let created = logged.run(|top| top.create(account, (5,)));
    created.expect("acknowledged");
    drop(logged);
    for folds in [false, true, false] {
        drop(logged_after(&made, folds));
        let logged = open(&made);
        let found = named(&logged, "account");
        assert_eq!(found.number(), account.number());
        // It is this guardian's.
        assert_eq!(logged.base(found).expect("told"), "{5}".parse().ok());
        assert_eq!(named(&logged, "konto ☃ '\n").number(), 2);
        assert_eq!(logged.objects().expect("told"), 3);
    }
}

#[test]
fn a_handle_has_the_name_and_those_of_its_fields() {
    let made = Made::empty();
    let logged = open(&made);
    let account = logged.named("account", SHAPE).expect("declared");
    assert_eq!((account.name(), account.shape()), (Some("account"), SHAPE));
    let work = |top: &LoggedAction<'_>| {
        top.create(&account, (5,))?;
        top.update(&account, "n", |it: i64| it + 2)
    };
    logged.run(work).expect("acknowledged");
    let base = logged.base(&account).expect("told").expect("created");
    assert_eq!(base.read::<(i64,)>().expect("an integer"), (7,));
    let top = logged.topaction().expect("begun");
    let error = top.set(&account, "n", "seven").expect_err("no integer");
    let words = "refused: IllTyped: a1 wants to change account by set_field 0: field n is int";
    assert_eq!(error.to_string(), words);
    drop(top);
    drop(logged);
    let found = open(&made).named("account", SHAPE).expect("found");
    assert_eq!(found.id(), account.id());
}

#[test]
fn a_function_says_what_is_tried_again() {
    let made = Made::empty();
    let logged = open(&made);
    let mut tried = 0;
    let result = logged.run_if(LoggedError::is_conflict, |_| {
        tried += 1;
        if tried < 3 {
            return Err(Refusal::Conflict.into());
        }
        Err::<(), LoggedError>(Refusal::Over.into())
    });
    assert!(!result.expect_err("it is over").is_conflict());
    assert_eq!(tried, 3);
}

fn logged_after(made: &Made, folds: bool) -> Logged {
    let logged = open(made);
    if folds {
        logged
            .checkpoint_waiting(Duration::from_secs(10))
            .expect("folded");
    }
    logged
}

#[test]
fn another_shape_is_refused() {
    let made = Made::empty();
    let logged = open(&made);
    named(&logged, "account");
    let error = logged
        .named("account", "atomic_array[int]")
        .expect_err("another shape");
    assert!(
        matches!(&error, LoggedError::Guardian(Error::OtherShape { shape, .. }) if **shape == *SHAPE),
        "{error}"
    );
    let error = logged.named("list", "atomic_array[").expect_err("no shape");
    assert!(
        matches!(error, LoggedError::Guardian(Error::BadShape(_))),
        "{error}"
    );
    assert_eq!(logged.objects().expect("told"), 1);
    logged.named("list", "atomic_array[int]").expect("declared");
}

#[test]
fn a_log_that_isnt_in_a_database_keeps_none() {
    let logged = Logged::in_memory().expect("made");
    let error = logged.named("account", SHAPE).expect_err("no names");
    assert!(matches!(error, LoggedError::NoNames), "{error}");
    let made = Made::empty();
    let error = logged.backup(&made.path).expect_err("no database");
    assert!(
        matches!(error, LoggedError::Database(LogFault::NoLog, _)),
        "{error}"
    );
    assert!(!made.path.exists());
}

#[test]
fn threads_that_declare_one_at_once_have_the_same() {
    let made = Made::empty();
    let logged = open(&made);
    let found = thread::scope(|scope| {
        let declare = || named(&logged, "account");
        let threads = [(); 8].map(|()| scope.spawn(declare));
        threads.map(|it| it.join().expect("no panic"))
    });
    assert_eq!(found, [found[0]; 8]);
    assert_eq!(logged.objects().expect("told"), 1);
}

#[test]
fn a_row_that_doesnt_fit_is_named() {
    for change in [
        "UPDATE object SET shape = 'atomic_array[int]'",
        "UPDATE object SET number = 7",
        "UPDATE object SET number = -1",
    ] {
        let made = Made::empty();
        named(&open(&made), "account");
        made.sql(change);
        made.refuse(LogFault::RowChanged, "");
    }
}
