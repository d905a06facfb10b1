//! Long texts: they are read while other threads have the guardian.

use argus_guardian::{
    Access, Answer, Call, Change, Content, Error, Guardian, Object, Refusal, Reply, Shared, Signal,
    Value,
};
use std::sync::mpsc::channel;
use std::thread;
use std::time::Duration;

// Who isn't done by then waits for the guardian.
const LONG: Duration = Duration::from_secs(60);

fn many() -> Vec<i64> {
    (0..60_000).collect()
}

fn with_array() -> Result<(Shared, Object), Error> {
    let shared = Shared::new(Guardian::new()?, LONG);
    let array = shared.named("array", "atomic_array[int]")?;
    Ok((shared, array))
}

// A long content with a value deeper than 16, which no guardian takes.
fn too_deep() -> Content {
    let deep = (0..17).fold(Value::from("deep"), |it, _| Value::Sequence(vec![it]));
    vec![Value::from("x".repeat(2000)), deep].into()
}

// The error of a call that another thread makes while this one has the guardian.
fn error_beside(shared: &Shared, call: &Call) -> Error {
    thread::scope(|scope| {
        let (sender, receiver) = channel();
        shared.with(|_| {
            scope.spawn(move || sender.send(shared.call(call)));
            let reply = receiver.recv_timeout(LONG).expect("it doesn't wait");
            reply.expect_err("it can't be read")
        })
    })
}

#[test]
fn a_long_text_is_read_while_another_thread_has_the_guardian() -> Result<(), Error> {
    let (shared, array) = with_array()?;
    let top = shared.topaction()?;
    let entries = shared.with(Guardian::entries);
    let create = Call::Alter(top.id(), array.id(), Change::Create(too_deep()));
    assert!(matches!(
        error_beside(&shared, &create),
        Error::BadText { .. }
    ));
    let declare = Call::Declare(format!("atomic_record[{}]", "x".repeat(2000)));
    assert!(matches!(
        error_beside(&shared, &declare),
        Error::BadShape(_)
    ));
    assert_eq!(shared.with(Guardian::entries), entries);
    Ok(())
}

#[test]
fn a_long_content_is_there() -> Result<(), Error> {
    let (shared, array) = with_array()?;
    shared.run(|top| top.create(&array, many()))?;
    assert_eq!(shared.run(|top| top.read::<Vec<i64>>(&array))?, many());
    Ok(())
}

#[test]
fn replies_are_those_of_any_call() -> Result<(), Error> {
    let (shared, array) = with_array()?;
    let top = shared.topaction()?;
    let texts = vec!["text"; 1000];
    assert!(matches!(top.create(&array, texts), Err(Error::IllTyped(_))));
    let nobody = argus_guardian::ObjId::numbered(9);
    assert_eq!(
        top.create(nobody, many()),
        Err(Error::Refused(Refusal::NoObject))
    );
    let other = Guardian::new()?.declare("atomic_array[int]")?;
    assert_eq!(top.create(other, many()), Err(Error::OtherGuardian));
    top.create(&array, many())?;
    assert_eq!(
        top.create(&array, many()),
        Err(Error::Signal(Signal::Exists))
    );
    Ok(())
}

#[test]
fn a_long_content_waits_for_its_object() -> Result<(), Error> {
    let (shared, array) = with_array()?;
    let holder = shared.topaction()?;
    holder.lock(&array)?;
    let top = shared.topaction()?;
    let create = Call::Alter(top.id(), array.id(), Change::Create(many().into()));
    let entries = shared.with(Guardian::entries);
    thread::scope(|scope| {
        let waiting = scope.spawn(|| shared.call_waiting(&create, LONG));
        while shared.with(Guardian::entries) == entries {
            thread::yield_now();
        }
        holder.abort()?;
        let reply = waiting.join().expect("no panic")?;
        assert_eq!(reply, Reply::Answered(Answer::Done));
        Ok(())
    })
}

#[test]
fn its_patience_ends() -> Result<(), Error> {
    let (shared, array) = with_array()?;
    let holder = shared.topaction()?;
    holder.lock(&array)?;
    let top = shared.topaction()?;
    let create = Call::Alter(top.id(), array.id(), Change::Create(many().into()));
    let reply = shared.call_waiting(&create, Duration::from_millis(1))?;
    assert_eq!(reply, Reply::Refused(Refusal::Conflict));
    Ok(())
}
