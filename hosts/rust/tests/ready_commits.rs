//! Commits in two steps: ready, and then made or cancelled.

use argus_guardian::{
    Access, Action, ActionId, Change, Content, Error, Guardian, ObjId, Refusal, Status, Value,
};
use std::thread;

/// A guardian, with an account of 5 that a topaction has created and not yet committed.
fn with_account() -> Result<(Guardian, ObjId, ActionId), Error> {
    let mut guardian = Guardian::new()?;
    let account = guardian.declare("atomic_record[balance:int]")?;
    let top = guardian.topaction()?;
    top.alter(account, Change::Create(five()))?.done()?;
    let top = Action::into_id(top);
    Ok((guardian, account, top))
}

fn five() -> Content {
    Content::Record(vec![Value::Int(5)])
}

#[test]
fn what_is_logged_is_what_the_journal_then_has() -> Result<(), Error> {
    let (guardian, account, top) = with_account()?;
    let mut ready = guardian.ready_commit(top)?;
    let logged = ready.line()?;
    let (guardian, committed) = ready.make();
    committed?;
    assert_eq!(logged, "3 commit a0 -> done\n");
    assert_eq!(guardian.entry(3)?, "3 commit a0 -> done");
    assert_eq!(guardian.base(account)?, Some(five()));
    Ok(())
}

#[test]
fn what_is_cancelled_is_as_before() -> Result<(), Error> {
    let (guardian, account, top) = with_account()?;
    assert_eq!(guardian.shape(account)?, "atomic_record[balance:int]");
    let guardian = guardian.ready_commit(top)?.cancel();
    assert_eq!(guardian.entries(), 3);
    assert_eq!(guardian.status(top), Some(Status::Live));
    assert_eq!(guardian.base(account)?, None);
    let (guardian, committed) = guardian.ready_commit(top)?.make();
    committed?;
    assert_eq!(guardian.base(account)?, Some(five()));
    Ok(())
}

#[test]
fn a_refused_one_is_ready_too() -> Result<(), Error> {
    let mut ready = Guardian::new()?.ready_commit(ActionId::numbered(7))?;
    assert_eq!(ready.line()?, "0 commit a7 -> refused NoAction\n");
    let (guardian, committed) = ready.make();
    assert_eq!(committed, Err(Error::Refused(Refusal::NoAction)));
    assert_eq!(guardian.entry(0)?, "0 commit a7 -> refused NoAction");
    Ok(())
}

#[test]
fn it_may_go_to_another_thread() -> Result<(), Error> {
    let (guardian, account, top) = with_account()?;
    let mut ready = guardian.ready_commit(top)?;
    let made = thread::spawn(move || ready.line().map(|line| (line, ready.make())));
    let (line, (guardian, committed)) = made.join().expect("it has no panic")?;
    committed?;
    assert_eq!(line, "3 commit a0 -> done\n");
    assert_eq!(guardian.base(account)?, Some(five()));
    Ok(())
}

#[test]
fn one_that_is_dropped_ends_its_guardian() -> Result<(), Error> {
    let (guardian, _, top) = with_account()?;
    drop(guardian.ready_commit(top)?);
    Ok(())
}
