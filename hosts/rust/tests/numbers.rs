//! Integers and truth values, which cross to the library as numbers: the journal has them as their written forms.

use argus_guardian::{Access, Change, Error, Guardian, ObjId, Refusal};

// An object of this shape and this content.
fn created(guardian: &mut Guardian, shape: &str, content: &str) -> Result<ObjId, Error> {
    let object = guardian.declare(shape)?;
    let top = guardian.topaction()?;
    top.alter(object, Change::Create(content.parse()?))?
        .done()?;
    top.commit()?;
    Ok(object)
}

// Makes these changes, each of which the journal has to have as it is displayed, and returns what they leave.
fn left_by(guardian: &mut Guardian, object: ObjId, changes: Vec<Change>) -> Result<String, Error> {
    let top = guardian.topaction()?;
    for change in changes {
        let line = format!("alter {} {object} {change} -> done", top.id());
        top.alter(object, change)?.done()?;
        let last = top.guardian().entries() - 1;
        assert_eq!(top.guardian().entry(last)?, format!("{last} {line}"));
    }
    top.commit()?;
    Ok(guardian.base(object)?.expect("a content").to_string())
}

#[test]
fn each_change_by_an_integer() -> Result<(), Error> {
    let mut guardian = Guardian::new()?;
    let record = created(&mut guardian, "atomic_record[t:text,n:int]", "{\"\",0}")?;
    let sets = [i64::MIN, -1, 0, i64::MAX].map(|it| Change::SetField(1, it.into()));
    let left = left_by(&mut guardian, record, sets.into())?;
    assert_eq!(left, "{\"\",9223372036854775807}");
    let array = created(&mut guardian, "atomic_array[int]", "1[10]")?;
    let changes = vec![
        Change::Store(1, 11.into()),
        Change::Addh(20.into()),
        Change::Addl((-5).into()),
    ];
    assert_eq!(left_by(&mut guardian, array, changes)?, "0[-5,11,20]");
    let variant = created(&mut guardian, "atomic_variant[no:null,yes:int]", "<0:null>")?;
    let changes = vec![Change::ChangeTag(1, 7.into())];
    assert_eq!(left_by(&mut guardian, variant, changes)?, "<1:7>");
    Ok(())
}

#[test]
fn each_change_by_a_truth_value() -> Result<(), Error> {
    let mut guardian = Guardian::new()?;
    let record = created(&mut guardian, "atomic_record[is:bool]", "{false}")?;
    let sets = [true, false, true].map(|it| Change::SetField(0, it.into()));
    assert_eq!(left_by(&mut guardian, record, sets.into())?, "{true}");
    let array = created(&mut guardian, "atomic_array[bool]", "1[true]")?;
    let changes = vec![
        Change::Store(1, false.into()),
        Change::Addh(true.into()),
        Change::Addl(false.into()),
    ];
    assert_eq!(
        left_by(&mut guardian, array, changes)?,
        "0[false,false,true]"
    );
    let variant = created(
        &mut guardian,
        "atomic_variant[no:null,yes:bool]",
        "<0:null>",
    )?;
    let changes = vec![Change::ChangeTag(1, true.into())];
    assert_eq!(left_by(&mut guardian, variant, changes)?, "<1:true>");
    Ok(())
}

#[test]
fn a_number_of_another_type_is_refused() -> Result<(), Error> {
    let mut guardian = Guardian::new()?;
    let record = created(&mut guardian, "atomic_record[n:int,is:bool]", "{0,false}")?;
    let top = guardian.topaction()?;
    for refused in [top.set(record, 0, true), top.set(record, 1, 1)] {
        let error = refused.expect_err("another type");
        assert_eq!(error.refusal(), Some(Refusal::IllTyped));
    }
    assert_eq!(top.get::<i64>(record, 0)?, 0);
    Ok(())
}
