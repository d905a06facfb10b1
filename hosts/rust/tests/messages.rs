//! What errors say: the object's name, who holds it, what its shape has there, which limit is reached.

use argus_guardian::{
    Access, Call, Error, Guardian, Limit, ListEnd, ListedCall, Refusal, Shared, is_conflict,
};
use std::time::Duration;
use std::{error, fmt};

/// The place and the reason for which a text is no shape.
fn fault_of(text: &str) -> (usize, String) {
    let guardian = Guardian::new().expect("a guardian");
    match guardian.declare(text) {
        Err(Error::BadShape(fault)) => (fault.at(), fault.why().to_owned()),
        other => panic!("{text}: {other:?}"),
    }
}

#[test]
fn a_bad_shape_says_where_and_why() {
    let long = "n".repeat(33);
    let types = "no type: null, bool, int, text, atomic, struct, sequence and oneof are";
    let many: Vec<String> = (0..65).map(|it| format!("n{it}:int")).collect();
    let deep = format!(
        "atomic_array[{}int{}]",
        "sequence[".repeat(16),
        "]".repeat(16)
    );
    let before_last = many[..64].join(",").len() + 1;
    for (text, at, why) in [
        ("", 0, "`atomic_` is missing"),
        ("record[n:int]", 0, "`atomic_` is missing"),
        (
            "atomic_list[int]",
            7,
            "no kind: record, array and variant are",
        ),
        ("atomic_array", 12, "`[` is missing"),
        ("atomic_array[]", 13, "a type is missing"),
        ("atomic_array[integer]", 13, types),
        ("atomic_array[int", 16, "`]` is missing"),
        ("atomic_array[int] ", 17, "something follows the shape"),
        ("atomic_record[n]", 15, "`:` is missing"),
        (
            "atomic_record[n:int,n:int]",
            20,
            "the same name a second time",
        ),
        ("atomic_record[N:int]", 14, "a name is missing"),
        (
            &format!("atomic_record[{long}:int]"),
            14,
            "a name of more than 32 letters",
        ),
        (
            &format!("atomic_variant[{}]", many.join(",")),
            15 + before_last,
            "more than 64 names",
        ),
        (&deep, 13 + 16 * 9, "a type that is deeper than 16"),
    ] {
        assert_eq!(fault_of(text), (at, why.to_owned()), "{text}");
    }
}

// As many names and as deep a type as there may be.
#[test]
fn the_largest_shapes_are_read_as_the_library_reads_them() -> Result<(), Error> {
    let guardian = Guardian::new()?;
    let deep = format!(
        "atomic_array[{}int{}]",
        "sequence[".repeat(15),
        "]".repeat(15)
    );
    let many: Vec<String> = (0..64).map(|it| format!("n{it}:int")).collect();
    let wide = format!("atomic_record[{}]", many.join(","));
    let long = format!("atomic_variant[{}:oneof[a:struct[b:bool]]]", "n".repeat(32));
    for shape in [deep, wide, long] {
        let object = guardian.declare(&shape)?;
        assert_eq!(guardian.object(object)?.shape(), shape);
    }
    Ok(())
}

#[test]
fn a_bad_shape_in_a_list_says_it_too() -> Result<(), Error> {
    let guardian = Guardian::new()?;
    let declare = |shape: &str| ListedCall::from(Call::Declare(shape.to_owned()));
    let made = guardian.call_each(&[declare("atomic_array[int]"), declare("atomic_array[]")])?;
    assert_eq!(made.replies.len(), 1);
    let ListEnd::Failed(Error::BadShape(fault)) = made.end else {
        panic!("{:?}", made.end);
    };
    assert_eq!(fault.at(), 13);
    Ok(())
}

#[test]
fn what_is_ill_typed_says_what_is_there() -> Result<(), Error> {
    let mut guardian = Guardian::new()?;
    let account = guardian.named("account", "atomic_record[balance:int,owner:text]")?;
    let queue = guardian.named("queue", "atomic_array[int]")?;
    let door = guardian.named("door", "atomic_variant[open:null,locked:text]")?;
    let nameless = guardian.declare("atomic_record[n:int]")?;
    let top = guardian.topaction()?;
    top.create(&account, (5, "ann"))?;
    let action = top.id();
    let said = |result: Result<(), Error>, words: &str| {
        let error = result.expect_err("it is ill typed");
        assert_eq!(error.refusal(), Some(Refusal::IllTyped));
        assert_eq!(
            error.to_string(),
            format!("refused: IllTyped: {action} wants to {words}")
        );
    };
    said(
        top.set(&account, "owner", 7),
        "change account by set_field 1: field owner is text",
    );
    // An id alone is called by its name, too.
    said(
        top.set(account.id(), "owner", 7),
        "change account by set_field 1: field owner is text",
    );
    said(
        top.array(&queue).push("a"),
        "change queue by addh: an element is int",
    );
    said(
        top.array(&account).push(1),
        "change account by addh: its shape is atomic_record[balance:int,owner:text]",
    );
    said(
        top.variant(&door).set("locked", 1),
        "change door by change_tag 1: tag locked is text",
    );
    said(
        top.create(nameless, ("a",)),
        "change o4 by create: its shape is atomic_record[n:int]",
    );
    said(
        top.get::<i64>(nameless, 9).map(drop),
        "read o4 by field 9: its shape is atomic_record[n:int]",
    );
    Ok(())
}

#[test]
fn a_conflict_says_who_holds_the_object() -> Result<(), Error> {
    let shared = Shared::new(Guardian::new()?, Duration::ZERO);
    let account = shared.named("account", "atomic_record[balance:int]")?;
    shared.run(|top| top.create(&account, (5,)))?;
    let (first, second) = (shared.topaction()?, shared.topaction()?);
    first.get::<i64>(&account, "balance")?;
    second.get::<i64>(&account, "balance")?;
    let third = shared.topaction()?;
    let error = third.set(&account, "balance", 7).expect_err("it is held");
    let (a, b, c) = (first.id(), second.id(), third.id());
    let words = format!("refused: Conflict: {c} wants to change account, held by {a}, {b}");
    assert_eq!(error.to_string(), words);
    assert!(error.is_conflict());
    Ok(())
}

#[test]
fn a_limit_says_what_to_call() -> Result<(), Error> {
    for (limit, word) in [
        (Limit::Objects, "65,535 objects"),
        (Limit::Actions, "`renew`"),
    ] {
        let error = Error::TooMany(limit);
        assert!(error.to_string().starts_with("refused: TooMany: "));
        assert!(error.to_string().contains(word), "{error}");
        assert_eq!(error.refusal(), Some(Refusal::TooMany));
    }
    let guardian = Guardian::new()?;
    for _ in 0..65_535 {
        guardian.declare("atomic_array[int]")?;
    }
    assert_eq!(
        guardian.declare("atomic_array[int]"),
        Err(Error::TooMany(Limit::Objects))
    );
    Ok(())
}

/// As anyhow's: any error becomes one, and it is no `std::error::Error` itself.
struct AnyError(Box<dyn error::Error + Send + Sync>);

impl<E: error::Error + Send + Sync + 'static> From<E> for AnyError {
    fn from(error: E) -> AnyError {
        AnyError(error.into())
    }
}

/// As thiserror makes them: an error with a source.
#[derive(Debug)]
struct Wrapped(Error);

impl fmt::Display for Wrapped {
    fn fmt(&self, f: &mut fmt::Formatter<'_>) -> fmt::Result {
        f.write_str("no sale")
    }
}

impl error::Error for Wrapped {
    fn source(&self) -> Option<&(dyn error::Error + 'static)> {
        Some(&self.0)
    }
}

#[test]
fn any_error_type_is_tried_again_where_a_function_says_so() -> Result<(), Error> {
    let shared = Shared::from(Guardian::new()?);
    let may_conflict = |it: &AnyError| is_conflict(it.0.as_ref());
    let mut tried = 0;
    let result = shared.run_if(may_conflict, |_| {
        tried += 1;
        if tried < 3 {
            return Err(Wrapped(Refusal::Conflict.into()).into());
        }
        Ok::<_, AnyError>("sold".parse::<i64>()?)
    });
    let error = result.expect_err("it is no number");
    assert!(!may_conflict(&error));
    assert_eq!(
        (tried, error.0.to_string().as_str()),
        (3, "invalid digit found in string")
    );
    Ok(())
}

#[test]
fn a_box_is_asked_for_its_sources() -> Result<(), Error> {
    let shared = Shared::from(Guardian::new()?);
    let mut tried = 0;
    let result: Result<(), Box<dyn error::Error>> = shared.run(|_| {
        tried += 1;
        if tried < 3 {
            return Err(Wrapped(Refusal::Conflict.into()).into());
        }
        Ok(())
    });
    assert!(result.is_ok());
    assert_eq!(tried, 3);
    Ok(())
}
