//! Lists of calls, and integers and truth values as answers.

use argus_guardian::{
    Access, ActionId, Answer, Call, Change, Content, Demand, Error, Guardian, ListEnd, ListedCall,
    ObjId, Query, Refusal, Reply, Value,
};

// A guardian with a record of an integer, a truth value and a text.
fn guardian() -> Result<(Guardian, ObjId), Error> {
    let mut guardian = Guardian::new()?;
    let record = guardian.declare("atomic_record[n:int,is:bool,t:text]")?;
    let content = Content::Record(vec![5.into(), true.into(), "a".into()]);
    let top = guardian.topaction()?;
    top.alter(record, Change::Create(content))?.done()?;
    top.commit()?;
    Ok((guardian, record))
}

#[test]
fn integers_and_truth_values_are_values() -> Result<(), Error> {
    let (mut guardian, record) = guardian()?;
    let top = guardian.topaction()?;
    for (field, value) in [(0, 5.into()), (1, true.into()), (2, "a".into())] {
        assert_eq!(top.ask(record, Query::Field(field))?, Answer::Val(value));
    }
    let array = top.guardian().declare("atomic_array[bool]")?;
    let content: Content = "1[false,true]".parse()?;
    top.alter(array, Change::Create(content))?.done()?;
    assert_eq!(top.ask(array, Query::Size)?, Answer::Num(2));
    assert_eq!(
        top.alter(array, Change::Remh)?,
        Answer::Val(Value::Bool(true))
    );
    let id = top.id();
    assert_eq!(
        top.guardian().call(&Call::TestRead(id, array))?,
        Reply::Answered(Answer::Flag(true))
    );
    Ok(())
}

#[test]
fn a_topaction_at_once() -> Result<(), Error> {
    let (guardian, record) = guardian()?;
    let made = guardian.call_each(&[
        ListedCall::from(Call::BeginTop),
        ListedCall::by(0, |a| Call::Ask(a, record, Query::Field(0))),
        ListedCall::by(0, |a| Call::Ask(a, record, Query::Field(2))),
        ListedCall::by(0, |a| {
            Call::Alter(a, record, Change::SetField(0, Value::Int(7)))
        }),
        ListedCall::by(0, |a| Call::Ask(a, record, Query::Whole)),
        ListedCall::by(0, Call::Commit),
    ])?;
    assert_eq!(made.end, ListEnd::Whole);
    let texts: Vec<String> = made.replies.iter().map(ToString::to_string).collect();
    assert_eq!(
        texts,
        [
            "a1",
            "val 5",
            "val \"a\"",
            "done",
            "body {7,true,\"a\"}",
            "done"
        ]
    );
    assert_eq!(guardian.base(record)?, Some("{7,true,\"a\"}".parse()?));
    Ok(())
}

#[test]
fn what_ends_a_list() -> Result<(), Error> {
    let (guardian, record) = guardian()?;
    let holder = guardian.call(&Call::BeginTop)?;
    assert_eq!(holder, Reply::Begun(ActionId::numbered(1)));
    guardian
        .call(&Call::Alter(ActionId::numbered(1), record, Change::Touch))?
        .answer()?
        .done()?;
    let made = guardian.call_each(&[
        ListedCall::from(Call::BeginTop),
        ListedCall::by(0, |a| Call::Ask(a, record, Query::Whole)),
        ListedCall::by(0, Call::Commit),
    ])?;
    assert_eq!(
        made.replies,
        [
            Reply::Begun(ActionId::numbered(2)),
            Reply::Refused(Refusal::Conflict)
        ]
    );
    assert_eq!(made.end, ListEnd::Unmet);
    let made = guardian.call_each(&[
        ListedCall::from(Call::Ask(ActionId::numbered(2), record, Query::Whole))
            .demanding(Demand::Nothing),
        ListedCall::from(Call::Abort(ActionId::numbered(2))),
        ListedCall::by(5, Call::Commit),
    ])?;
    assert_eq!(made.replies.len(), 2);
    assert_eq!(made.end, ListEnd::Failed(Error::NotBegun));
    Ok(())
}

#[test]
fn a_signal_ends_a_list_where_none_may_come() -> Result<(), Error> {
    let guardian = Guardian::new()?;
    let array = guardian.declare("atomic_array[int]")?;
    let size = || ListedCall::by(0, |a| Call::Ask(a, array, Query::Size));
    let made = guardian.call_each(&[
        ListedCall::from(Call::BeginTop),
        size(),
        size().demanding(Demand::NoSignal),
        ListedCall::by(0, Call::Commit),
    ])?;
    assert_eq!(made.replies.len(), 3);
    assert_eq!(made.end, ListEnd::Unmet);
    Ok(())
}
