//! What a thread may do of a shared guardian that `Shared::with` has lent to it.

use argus_guardian::{
    Access, ActionId, Call, Change, Error, Guardian, ObjId, Query, Refusal, Reply, Shared,
    SharedAction, Status,
};
use std::panic::{AssertUnwindSafe, catch_unwind};
use std::sync::mpsc;
use std::thread;
use std::time::{Duration, Instant};

const LONG: Duration = Duration::from_secs(60);

// What a panic says of it.
fn words_of(what: impl FnOnce()) -> Option<String> {
    let panicked = catch_unwind(AssertUnwindSafe(what)).err()?;
    let words = panicked.downcast_ref::<String>().cloned();
    words.or_else(|| panicked.downcast_ref::<&str>().map(|it| (*it).to_owned()))
}

/// That this, inside `with`, says so at once, and that nothing was called.
fn is_refused(shared: &Shared, what: impl FnOnce()) {
    let entries = shared.with(Guardian::entries);
    let words = shared.with(|_| words_of(what)).expect("it panics");
    assert!(words.contains("inside `Shared::with`"), "{words}");
    assert_eq!(shared.with(Guardian::entries), entries);
}

#[test]
fn each_call_of_a_sharing_is_refused_inside_with() -> Result<(), Error> {
    let shared = Shared::new(Guardian::new()?, LONG);
    let is_refused = |what: &dyn Fn()| is_refused(&shared, what);
    is_refused(&|| shared.with(|_| ()));
    is_refused(&|| drop(shared.call(&Call::BeginTop)));
    is_refused(&|| drop(shared.call_waiting(&Call::BeginTop, LONG)));
    is_refused(&|| drop(shared.topaction()));
    is_refused(&|| drop(shared.run(|top| top.get::<i64>(ObjId::numbered(0), 0))));
    is_refused(&|| assert!(shared.checkpoint().is_ok()));
    is_refused(&|| assert!(shared.checkpoint_waiting(LONG).is_ok()));
    is_refused(&|| assert!(shared.actions_left() > 0));
    // Afterwards this thread may call again.
    shared.topaction()?.commit()
}

#[test]
fn each_call_of_an_action_is_refused_inside_with() -> Result<(), Error> {
    let guardian = Guardian::new()?;
    let object = guardian.declare("atomic_record[n:int]")?;
    let shared = Shared::new(guardian, LONG);
    let top = shared.topaction()?;
    let is_refused = |what: &dyn Fn()| is_refused(&shared, what);
    is_refused(&|| drop(top.ask(object, Query::Whole)));
    is_refused(&|| drop(top.alter(object, Change::Touch)));
    is_refused(&|| drop(top.get::<i64>(object, 0)));
    is_refused(&|| drop(top.set(object, 0, 1)));
    is_refused(&|| drop(top.lock(object)));
    is_refused(&|| drop(top.test_read(object)));
    is_refused(&|| drop(top.test_write(object)));
    is_refused(&|| drop(top.subaction()));
    is_refused(&|| drop(top.nested()));
    is_refused(&|| drop(top.abort_others()));
    top.lock(object)?;
    top.commit()
}

// Tries to end an action in this way inside `with`, and returns what became of it.
fn ended_inside(end: fn(SharedAction<'_>)) -> Result<Option<Status>, Error> {
    let shared = Shared::new(Guardian::new()?, LONG);
    let top = shared.topaction()?;
    let id = top.id();
    let (words, status) = shared.with(|guardian| {
        let words = words_of(|| end(top));
        (words, guardian.status(id))
    });
    assert!(words.is_none_or(|it| it.contains("inside `Shared::with`")));
    // Nothing was called yet.
    assert_eq!(status, Some(Status::Live));
    Ok(shared.with(|guardian| guardian.status(id)))
}

#[test]
fn an_action_that_ends_inside_with_is_aborted_when_that_ends() -> Result<(), Error> {
    assert_eq!(ended_inside(|top| drop(top))?, Some(Status::Aborted));
    let committed = ended_inside(|top| assert_eq!(top.commit(), Ok(())))?;
    assert_eq!(committed, Some(Status::Aborted));
    let aborted = ended_inside(|top| assert_eq!(top.abort(), Ok(())))?;
    assert_eq!(aborted, Some(Status::Aborted));
    Ok(())
}

#[test]
fn a_drop_in_a_panic_inside_with_is_an_abort() -> Result<(), Error> {
    let shared = Shared::new(Guardian::new()?, LONG);
    let top = shared.topaction()?;
    let id = top.id();
    let words = words_of(|| {
        shared.with(move |_| {
            let _top = top;
            panic!("on purpose");
        });
    });
    assert_eq!(words.as_deref(), Some("on purpose"));
    assert_eq!(
        shared.with(|guardian| guardian.status(id)),
        Some(Status::Aborted)
    );
    Ok(())
}

#[test]
fn a_drop_inside_with_wakes_who_waits() -> Result<(), Error> {
    let guardian = Guardian::new()?;
    let object = guardian.declare("atomic_record[n:int]")?;
    let shared = Shared::new(guardian, LONG);
    let (holder, waiter) = (shared.topaction()?, shared.topaction()?);
    holder.lock(object)?;
    let start = Instant::now();
    thread::scope(|scope| {
        let waits = scope.spawn(|| waiter.lock(object));
        // Until its first try was refused: then it waits, or is about to.
        let refused = |guardian: &Guardian| guardian.entries() > 4;
        while !shared.with(refused) {
            thread::yield_now();
        }
        shared.with(|_| drop(holder));
        waits.join().expect("no panic")
    })?;
    assert!(start.elapsed() < LONG);
    Ok(())
}

#[test]
fn other_threads_wait_for_with() -> Result<(), Error> {
    let shared = Shared::new(Guardian::new()?, LONG);
    let (sent, got) = mpsc::channel();
    let call = || {
        sent.send(()).expect("it is awaited");
        shared.call(&Call::BeginTop)
    };
    thread::scope(|scope| {
        let (inside, calls) = shared.with(|guardian| {
            let calls = scope.spawn(call);
            got.recv().expect("it comes");
            thread::sleep(Duration::from_millis(20));
            (guardian.call(&Call::BeginTop), calls)
        });
        let outside = calls.join().expect("no panic");
        assert_eq!(inside, Ok(Reply::Begun(ActionId::numbered(0))));
        assert_eq!(outside, Ok(Reply::Begun(ActionId::numbered(1))));
    });
    Ok(())
}

#[test]
fn two_sharings_may_be_lent_at_once() -> Result<(), Error> {
    let (first, second) = (Guardian::new()?, Guardian::new()?);
    let object = first.declare("atomic_array[int]")?;
    let (first, second) = (Shared::from(first), Shared::from(second));
    let refused = first.with(|one| second.with(|two| (one.base(object), two.base(object))));
    assert_eq!(refused, (Ok(None), Err(Error::OtherGuardian)));
    let top = first.topaction()?;
    second.with(|_| top.lock(object))?;
    let commit = first.with(|one| one.call(&Call::Commit(top.id())))?;
    assert_eq!(commit.to_string(), "done");
    assert_eq!(top.commit(), Err(Error::Refused(Refusal::Over)));
    Ok(())
}
