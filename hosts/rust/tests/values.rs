//! Values as a program has them: what becomes one, what is taken out of one, how one is written.

use argus_guardian::{CheckpointError, Content, Error, ObjId, Refusal, Signal, Value};
use std::error::Error as _;
use std::mem;

#[test]
fn what_becomes_a_value() {
    for (value, text) in [
        (Value::from(-7_i32), "-7"),
        (7_u32.into(), "7"),
        (i64::MIN.into(), "-9223372036854775808"),
        (true.into(), "true"),
        ("a".into(), r#""a""#),
        (String::from("a").into(), r#""a""#),
        (ObjId::numbered(3).into(), "@3"),
    ] {
        assert_eq!(value.to_string(), text);
    }
}

#[test]
fn what_is_taken_out_of_a_value() {
    assert_eq!(i64::try_from(Value::Int(7)), Ok(7));
    assert_eq!(bool::try_from(Value::Bool(true)), Ok(true));
    assert_eq!(String::try_from(Value::from("a")), Ok("a".to_owned()));
    assert_eq!(
        ObjId::try_from(Value::Atomic(ObjId::numbered(3))),
        Ok(ObjId::numbered(3))
    );
    assert_eq!(i64::try_from(Value::Null), Err(Error::OtherAnswer));
    assert_eq!(bool::try_from(Value::Int(1)), Err(Error::OtherAnswer));
    assert_eq!(String::try_from(Value::Null), Err(Error::OtherAnswer));
    assert_eq!(ObjId::try_from(Value::Int(3)), Err(Error::OtherAnswer));
}

#[test]
fn a_value_of_any_depth_is_written() {
    const DEPTH: usize = 1_000_000;
    let deep = (0..DEPTH).fold(Value::Null, |value, level| match level % 3 {
        0 => Value::Sequence(vec![value]),
        1 => Value::Fields(vec![value, Value::Int(1)]),
        _ => Value::Choice(2, Box::new(value)),
    });
    let record = Content::Record(vec![Value::Int(5), deep]);
    let text = record.to_string();
    // To drop it would take stack by its depth, as of any box in a box.
    mem::forget(record);
    assert!(text.starts_with("{5,[<2:{"));
    assert!(text.ends_with(",1}>]}"));
    assert!(text.contains("{[null],1}"));
    assert_eq!(text.matches("<2:").count(), DEPTH / 3);
}

#[test]
fn errors_convert_and_say_all() {
    for (error, text) in [
        (Error::from(Refusal::Conflict), "refused: Conflict"),
        (Signal::Bounds.into(), "signal: bounds"),
        (
            CheckpointError::Busy.into(),
            "no checkpoint: an action is live",
        ),
        (CheckpointError::OutOfMemory.into(), "out of memory"),
    ] {
        assert_eq!(error.to_string(), text);
        assert!(error.source().is_none());
    }
}
