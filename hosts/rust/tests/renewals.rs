//! A guardian that begins anew with the numbers of its actions, by itself and shared.

use argus_guardian::{
    Access, ActionId, Call, Change, CheckpointError, Error, Guardian, Refusal, Reply, Shared,
    Status,
};
use std::time::Duration;

const OVER: Result<(), Error> = Err(Error::Refused(Refusal::Over));

/// Begins and commits topactions until so many numbers are left.
fn use_up(guardian: &mut Guardian, left: u32) -> Result<(), Error> {
    while guardian.actions_left() > left {
        guardian.topaction()?.commit()?;
        if guardian.entries() - guardian.first_entry() > 100_000 {
            guardian.checkpoint()?;
        }
    }
    Ok(())
}

#[test]
fn objects_and_entries_go_on() -> Result<(), Error> {
    let mut guardian = Guardian::new()?;
    let counter = guardian.declare("atomic_record[n:int]")?;
    let top = guardian.topaction()?;
    top.alter(counter, Change::Create("{5}".parse()?))?.done()?;
    assert_eq!(top.guardian().renew(), Err(CheckpointError::Busy));
    top.commit()?;
    guardian.renew()?;
    assert_eq!(guardian.base(counter)?, Some("{5}".parse()?));
    assert_eq!((guardian.actions(), guardian.entries()), (0, 4));
    assert_eq!(guardian.status(ActionId::numbered(0)), None);
    assert_eq!(guardian.entry(3), Err(Error::NotThere));
    guardian.topaction()?.commit()?;
    assert_eq!(guardian.entry(4)?, "4 begin_top -> a0");
    assert_eq!(
        guardian.status(ActionId::numbered(0)),
        Some(Status::Committed)
    );
    Ok(())
}

#[test]
fn a_sharing_renews_once_half_of_the_numbers_are_gone() -> Result<(), Error> {
    let mut guardian = Guardian::new()?;
    use_up(&mut guardian, Guardian::MAX_ACTIONS / 2 + 1)?;
    let shared = Shared::from(guardian);
    shared.checkpoint()?;
    assert_eq!(shared.actions_left(), Guardian::MAX_ACTIONS / 2 + 1);
    shared.topaction()?.commit()?;
    shared.checkpoint_waiting(Duration::ZERO)?;
    assert_eq!(shared.actions_left(), Guardian::MAX_ACTIONS);
    assert_eq!(shared.topaction()?.id(), ActionId::numbered(0));
    Ok(())
}

#[test]
fn what_was_begun_before_a_renewal_is_over() -> Result<(), Error> {
    let guardian = Guardian::new()?;
    let object = guardian.declare("atomic_array[int]")?;
    let shared = Shared::new(guardian, Duration::ZERO);
    let top = shared.topaction()?;
    let sub = top.subaction()?;
    assert_eq!(
        shared.call(&Call::Abort(ActionId::numbered(0)))?,
        Reply::Answered(argus_guardian::Answer::Done)
    );
    shared.with(Guardian::renew)?;
    // Other actions have these numbers now.
    let (other, second) = (shared.topaction()?, shared.topaction()?);
    assert_eq!((other.id(), second.id()), (top.id(), sub.id()));
    assert_eq!(sub.lock(object), OVER);
    assert_eq!(sub.test_write(object), Err(Error::Refused(Refusal::Over)));
    assert_eq!(sub.commit(), OVER);
    drop(top);
    assert_eq!(
        shared.with(|guardian| guardian.status(ActionId::numbered(0))),
        Some(Status::Live)
    );
    other.lock(object)?;
    other.commit()?;
    second.commit()
}
