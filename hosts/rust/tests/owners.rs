//! Ids of other guardians, and ids of actions from before a renewal: they are refused, and nothing is journalled.

use argus_guardian::{
    Access, Action, ActionId, Answer, Call, Change, Content, Error, Guardian, ListEnd, ListedCall,
    Listing, ObjId, Query, Refusal, Reply, Resumption, Shared, Status, Value,
};
use std::mem;
use std::time::Duration;

const OTHER: Error = Error::OtherGuardian;
const OVER: Error = Error::Refused(Refusal::Over);

/// A guardian with a record of this number and a second record without a content.
fn with_record(number: i64) -> Result<(Guardian, ObjId), Error> {
    let mut guardian = Guardian::new()?;
    let record = guardian.declare("atomic_record[n:int]")?;
    guardian.declare("atomic_record[to:atomic]")?;
    let top = guardian.topaction()?;
    let content = Content::Record(vec![Value::Int(number)]);
    top.alter(record, Change::Create(content))?.done()?;
    top.commit()?;
    Ok((guardian, record))
}

fn base(guardian: &Guardian) -> Result<String, Error> {
    let base = guardian.base(ObjId::numbered(0))?;
    Ok(base.expect("it was created").to_string())
}

/// All calls by this action, on this object where they have one.
fn calls_of(action: ActionId, object: ObjId) -> [Call; 9] {
    [
        Call::BeginSub(action),
        Call::BeginNested(action),
        Call::AbortOthers(action),
        Call::Ask(action, object, Query::Field(0)),
        Call::Alter(action, object, Change::Touch),
        Call::TestRead(action, object),
        Call::TestWrite(action, object),
        Call::Commit(action),
        Call::Abort(action),
    ]
}

#[test]
fn an_object_of_another_guardian_is_refused() -> Result<(), Error> {
    let (other, stranger) = with_record(5)?;
    let (mut guardian, own) = with_record(7)?;
    let named = other.object(stranger)?;
    let top = guardian.topaction()?;
    let entries = top.guardian().entries();
    assert_eq!(top.get::<Value>(stranger, 0), Err(OTHER));
    assert_eq!(top.set(stranger, 0, 8), Err(OTHER));
    assert_eq!(top.lock(stranger), Err(OTHER));
    assert_eq!(top.ask(stranger, Query::Whole), Err(OTHER));
    assert_eq!(top.alter(stranger, Change::Touch), Err(OTHER));
    assert_eq!(top.get::<Value>(&named, "n"), Err(OTHER));
    assert_eq!(top.set(&named, "n", 8), Err(OTHER));
    assert_eq!(top.test_read(stranger), Err(OTHER));
    assert_eq!(top.test_write(stranger), Err(OTHER));
    assert_eq!(top.guardian().entries(), entries);
    // Its own id, and one that is nobody's.
    assert_eq!(top.get::<i64>(own, 0)?, 7);
    assert_eq!(top.get::<i64>(ObjId::numbered(0), 0)?, 7);
    top.commit()
}

#[test]
fn questions_about_another_guardians_objects_are_refused() -> Result<(), Error> {
    let (mut other, stranger) = with_record(5)?;
    let (guardian, own) = with_record(7)?;
    assert_eq!(guardian.base(stranger), Err(OTHER));
    assert_eq!(guardian.shape(stranger), Err(OTHER));
    assert_eq!(guardian.object(stranger), Err(OTHER));
    assert_eq!(guardian.readers(stranger), Err(OTHER));
    assert_eq!(guardian.versions(stranger), Err(OTHER));
    let live = guardian.call(&Call::BeginTop)?.action()?;
    let strange = other.topaction()?.into_id();
    assert!(guardian.can_read(live, own) && guardian.can_write(live, own));
    assert!(!guardian.can_read(live, stranger) && !guardian.can_write(live, stranger));
    assert!(!guardian.can_read(strange, own) && !guardian.can_write(strange, own));
    // Each guardian has begun a second action, which is live.
    assert_eq!(live, strange);
    assert_eq!(guardian.status(live), Some(Status::Live));
    assert_eq!(guardian.status(strange), None);
    Ok(())
}

#[test]
fn an_action_of_another_guardian_is_refused() -> Result<(), Error> {
    let (other, _) = with_record(5)?;
    let (guardian, own) = with_record(7)?;
    let stranger = other.call(&Call::BeginTop)?.action()?;
    // Whose number is that of a live action here, too.
    let live = guardian.call(&Call::BeginTop)?.action()?;
    let entries = guardian.entries();
    for call in calls_of(stranger, own) {
        assert_eq!(guardian.call(&call), Err(OTHER), "{call}");
    }
    assert_eq!(guardian.entries(), entries);
    assert_eq!(guardian.status(live), Some(Status::Live));
    let not_ready = guardian.ready_commit(stranger).expect_err("not its own");
    assert_eq!(not_ready.error, OTHER);
    assert_eq!(not_ready.guardian.status(live), Some(Status::Live));
    let (guardian, committed) = not_ready.guardian.ready_commit(live)?.make();
    committed?;
    assert_eq!(guardian.status(live), Some(Status::Committed));
    assert_eq!(other.status(stranger), Some(Status::Live));
    Ok(())
}

#[test]
fn a_list_ends_before_an_id_of_another_guardian() -> Result<(), Error> {
    let (_other, stranger) = with_record(5)?;
    let (guardian, own) = with_record(7)?;
    let get = |object| ListedCall::by(0, move |it| Call::Ask(it, object, Query::Field(0)));
    let list = [
        ListedCall::from(Call::BeginTop),
        get(own),
        get(stranger),
        ListedCall::by(0, Call::Commit),
    ];
    let made = guardian.call_each(&list)?;
    let got = Reply::Answered(Answer::Val(Value::Int(7)));
    assert_eq!(made.replies, [Reply::Begun(ActionId::numbered(1)), got]);
    assert_eq!(made.end, ListEnd::Failed(OTHER));
    assert_eq!(guardian.entries(), 5 + 2);
    // At the first place, nothing is called.
    let made = guardian.call_each(&[ListedCall::from(Call::Ask(
        made.replies[0].clone().action()?,
        stranger,
        Query::Whole,
    ))])?;
    assert_eq!((made.replies, made.end), (vec![], ListEnd::Failed(OTHER)));
    // What ends the list earlier is told.
    let refused = [ListedCall::from(Call::Commit(ActionId::numbered(9)))];
    let list = [refused.as_slice(), &list[2..]].concat();
    assert_eq!(guardian.call_each(&list)?.end, ListEnd::Unmet);
    Ok(())
}

#[test]
fn a_reference_to_another_guardians_object_is_refused() -> Result<(), Error> {
    let (_other, stranger) = with_record(5)?;
    let (mut guardian, own) = with_record(7)?;
    let pointer = ObjId::numbered(1);
    let top = guardian.topaction()?;
    let entries = top.guardian().entries();
    let deep = |object: ObjId| {
        let choice = Value::Choice(0, Box::new(Value::Fields(vec![1.into(), object.into()])));
        Value::Sequence(vec![Value::Null, choice])
    };
    let refused = [
        Change::Create(Content::Record(vec![stranger.into()])),
        Change::Create(Content::Array {
            low: 1,
            items: vec![0.into(), deep(stranger)],
        }),
        Change::Create(Content::Variant {
            tag: 0,
            value: stranger.into(),
        }),
        Change::SetField(0, stranger.into()),
        Change::Store(0, deep(stranger)),
        Change::Addh(stranger.into()),
        Change::Addl(deep(stranger)),
        Change::ChangeTag(0, stranger.into()),
    ];
    for change in refused {
        assert_eq!(top.alter(pointer, change.clone()), Err(OTHER), "{change}");
    }
    assert_eq!(top.guardian().entries(), entries);
    let content = Content::Record(vec![own.into()]);
    top.alter(pointer, Change::Create(content))?.done()?;
    top.set(pointer, 0, ObjId::numbered(0))?;
    // These are of no type that the objects have, and so the guardian itself refuses them.
    let refused = top.set(pointer, 0, deep(own)).expect_err("it is deep");
    assert_eq!(refused.refusal(), Some(Refusal::IllTyped));
    top.commit()
}

#[test]
fn a_reference_that_is_read_is_its_guardians() -> Result<(), Error> {
    let (mut guardian, own) = with_record(7)?;
    let (other, _) = with_record(5)?;
    let pointer = ObjId::numbered(1);
    let top = guardian.topaction()?;
    let content = Content::Record(vec![own.into()]);
    top.alter(pointer, Change::Create(content.clone()))?
        .done()?;
    let read = ObjId::try_from(top.get::<Value>(pointer, 0)?)?;
    assert_eq!(top.get::<i64>(read, 0)?, 7);
    assert_eq!(other.base(read), Err(OTHER));
    let whole = top.ask(pointer, Query::Whole)?.body()?;
    let versions = top.guardian().versions(pointer)?;
    assert_eq!(other.status(versions[0].0), None);
    assert_eq!(top.guardian().status(versions[0].0), Some(Status::Live));
    top.commit()?;
    let listed = [ListedCall::from(Call::BeginTop), {
        ListedCall::by(0, |it| Call::Ask(it, pointer, Query::Whole))
    }];
    let Reply::Answered(Answer::Body(told)) = guardian.call_each(&listed)?.replies[1].clone()
    else {
        panic!("a content");
    };
    let base = guardian.base(pointer)?.expect("it was created");
    for read in [whole, told, base] {
        assert_eq!(read, content);
        let Content::Record(fields) = read else {
            panic!("a record");
        };
        let field = ObjId::try_from(fields[0].clone())?;
        assert_eq!(other.base(field), Err(OTHER));
    }
    Ok(())
}

#[test]
fn ids_from_texts_are_nobodys() -> Result<(), Error> {
    let (guardian, own) = with_record(7)?;
    let (other, _) = with_record(5)?;
    let call: Call = Call::Ask(ActionId::numbered(1), own, Query::Field(0))
        .to_string()
        .parse()?;
    let pointer: Value = "@0".parse()?;
    let read = ObjId::try_from(pointer)?;
    for (guardian, number) in [(&guardian, 7), (&other, 5)] {
        let begun: Reply = guardian.call(&Call::BeginTop)?.to_string().parse()?;
        let value = Answer::Val(Value::Int(number));
        assert_eq!(guardian.call(&call)?, Reply::Answered(value));
        assert_eq!(guardian.base(read)?, Some(format!("{{{number}}}").parse()?));
        assert_eq!(guardian.status(begun.action()?), Some(Status::Live));
    }
    Ok(())
}

#[test]
fn a_guardian_that_is_restored_is_another_one() -> Result<(), Error> {
    let (first, record) = with_record(7)?;
    let action = first.call(&Call::BeginTop)?.action()?;
    let restored = |mut resuming: Resumption| {
        resuming.take(first.list(Listing::Journal)?);
        Ok::<_, Error>(resuming.into_guardian()?.guardian)
    };
    let second = restored(Resumption::new()?)?;
    assert_eq!(second.base(record), Err(OTHER));
    assert_eq!(second.call(&Call::Commit(action)), Err(OTHER));
    // Unless it is made in place of the first one.
    let third = restored(Resumption::after(&first)?)?;
    assert_eq!(third.base(record), first.base(record));
    assert_eq!(third.call(&Call::Commit(action)), Err(OVER));
    assert_eq!(third.status(ActionId::numbered(1)), Some(Status::Live));
    assert_eq!(second.base(third.declare("atomic_array[int]")?), Err(OTHER));
    Ok(())
}

#[test]
fn an_action_from_before_a_renewal_is_over() -> Result<(), Error> {
    let (guardian, record) = with_record(7)?;
    let old = guardian.call(&Call::BeginTop)?.action()?;
    guardian.call(&Call::Commit(old))?.answer()?.done()?;
    guardian.renew()?;
    let live = [Call::BeginTop, Call::BeginTop].map(|it| guardian.call(&it));
    let [_, Ok(Reply::Begun(live))] = live else {
        panic!("begun");
    };
    assert_eq!(live, old);
    let entries = guardian.entries();
    for call in calls_of(old, record) {
        assert_eq!(guardian.call(&call), Err(OVER), "{call}");
    }
    let made = guardian.call_each(&[ListedCall::from(Call::Commit(old))])?;
    assert_eq!((made.replies, made.end), (vec![], ListEnd::Failed(OVER)));
    assert_eq!(guardian.entries(), entries);
    assert_eq!(guardian.status(old), None);
    assert!(!guardian.can_read(old, record) && !guardian.can_write(old, record));
    let not_ready = guardian.ready_commit(old).expect_err("it is over");
    assert_eq!(not_ready.error, OVER);
    let guardian = not_ready.guardian;
    assert_eq!(guardian.status(live), Some(Status::Live));
    // Objects stay what they are, and an action's plain number names the new one.
    assert_eq!(guardian.base(record)?, Some("{7}".parse()?));
    let commit = Call::Commit(ActionId::numbered(old.number()));
    guardian.call(&commit)?.answer()?.done()?;
    assert_eq!(guardian.status(live), Some(Status::Committed));
    Ok(())
}

#[test]
fn a_guard_from_before_a_renewal_is_over() -> Result<(), Error> {
    let mut guardian = Guardian::new()?;
    for commits in [true, false] {
        let top = guardian.topaction()?;
        let lent = top.guardian();
        lent.call(&Call::Abort(top.id()))?.answer()?.done()?;
        lent.renew()?;
        let next = lent.call(&Call::BeginTop)?.action()?;
        assert_eq!(next, top.id());
        if commits {
            assert_eq!(top.commit(), Err(OVER));
        } else {
            drop(top);
        }
        assert_eq!(guardian.status(next), Some(Status::Live));
        guardian.abort_live()?;
        guardian.renew()?;
    }
    Ok(())
}

// Sets the record of this guardian to 9 by an action that was swapped.
fn set_and_commit(top: Action<'_>) -> Result<(), Error> {
    top.set(ObjId::numbered(0), 0, 9)?;
    top.commit()
}

#[test]
fn actions_that_are_swapped_stay_their_guardians() -> Result<(), Error> {
    let ((mut first, _), (mut second, _)) = (with_record(1)?, with_record(2)?);
    let (mut one, mut two) = (first.topaction()?, second.topaction()?);
    one.set(ObjId::numbered(0), 0, 3)?;
    let mut sub = one.subaction()?;
    mem::swap(&mut sub, &mut two);
    // `two` is the subaction of the first one now.
    assert_eq!(two.get::<i64>(ObjId::numbered(0), 0)?, 3);
    two.abort()?;
    set_and_commit(sub)?;
    one.commit()?;
    assert_eq!(
        (base(&first)?, base(&second)?),
        ("{3}".into(), "{9}".into())
    );
    let mut one = first.topaction()?;
    let old = mem::replace(&mut one, second.topaction()?);
    drop(old);
    set_and_commit(one)?;
    assert_eq!(
        (base(&first)?, base(&second)?),
        ("{3}".into(), "{9}".into())
    );
    Ok(())
}

#[test]
fn commits_that_are_ready_and_swapped_stay_their_guardians() -> Result<(), Error> {
    let ready = |number| {
        let (mut guardian, record) = with_record(number)?;
        let top = guardian.topaction()?;
        top.set(record, 0, number + 10)?;
        let top = top.into_id();
        Ok::<_, Error>((guardian.ready_commit(top)?, record))
    };
    let ((mut one, first), (mut two, second)) = (ready(1)?, ready(2)?);
    mem::swap(&mut one, &mut two);
    let (guardian, committed) = one.make();
    committed?;
    assert_eq!(guardian.base(second)?, Some("{12}".parse()?));
    assert_eq!(guardian.base(first), Err(OTHER));
    assert_eq!(two.cancel().base(first)?, Some("{1}".parse()?));
    Ok(())
}

#[test]
fn guardians_that_are_swapped_take_their_ids_along() -> Result<(), Error> {
    let ((mut first, one), (mut second, two)) = (with_record(1)?, with_record(2)?);
    let live = first.topaction()?.into_id();
    assert_eq!(second.topaction()?.into_id(), live);
    mem::swap(&mut first, &mut second);
    assert_eq!(first.base(one), Err(OTHER));
    assert_eq!(second.base(one)?, Some("{1}".parse()?));
    assert_eq!(first.call(&Call::Commit(live)), Err(OTHER));
    assert_eq!(first.base(two)?, Some("{2}".parse()?));
    second.call(&Call::Commit(live))?.answer()?.done()
}

#[test]
fn a_sharing_refuses_ids_of_another_guardian() -> Result<(), Error> {
    let (other, stranger) = with_record(5)?;
    let (guardian, own) = with_record(7)?;
    let shared = Shared::new(guardian, Duration::ZERO);
    let top = shared.topaction()?;
    let entries = shared.with(Guardian::entries);
    assert_eq!(top.get::<Value>(stranger, 0), Err(OTHER));
    assert_eq!(top.set(stranger, 0, 8), Err(OTHER));
    assert_eq!(top.lock(stranger), Err(OTHER));
    assert_eq!(top.test_read(stranger), Err(OTHER));
    assert_eq!(top.test_write(stranger), Err(OTHER));
    assert_eq!(
        top.alter(own, Change::SetField(0, stranger.into())),
        Err(OTHER)
    );
    let begun = other.call(&Call::BeginTop)?.action()?;
    assert_eq!(begun, top.id());
    for call in calls_of(begun, own) {
        assert_eq!(shared.call(&call), Err(OTHER), "{call}");
        let waited = shared.call_waiting(&call, Duration::from_secs(60));
        assert_eq!(waited, Err(OTHER), "{call}");
    }
    assert_eq!(shared.with(Guardian::entries), entries);
    let tried = shared.run(|top| top.get::<Value>(stranger, 0));
    assert_eq!(tried, Err(OTHER));
    assert_eq!(top.get::<i64>(own, 0)?, 7);
    top.commit()
}

#[test]
fn a_sharing_says_of_actions_from_before_a_renewal_that_they_are_over() -> Result<(), Error> {
    let (guardian, own) = with_record(7)?;
    let shared = Shared::new(guardian, Duration::ZERO);
    let top = shared.topaction()?;
    let old = top.id();
    shared.call(&Call::Abort(old))?.answer()?.done()?;
    shared.with(Guardian::renew)?;
    let others = [shared.topaction()?, shared.topaction()?];
    assert_eq!(others[1].id(), old);
    for call in calls_of(old, own) {
        assert_eq!(shared.call(&call), Err(OVER), "{call}");
        let waited = shared.call_waiting(&call, Duration::from_secs(60));
        assert_eq!(waited, Err(OVER), "{call}");
    }
    assert_eq!(top.get::<Value>(own, 0), Err(OVER));
    assert_eq!(top.subaction().err(), Some(OVER));
    assert_eq!(top.nested().err(), Some(OVER));
    assert_eq!(top.abort(), Err(OVER));
    let [_, second] = others;
    second.commit()
}
