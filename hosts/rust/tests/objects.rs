//! Objects by handles: records by names of fields, arrays, variants, and Rust's values in them.

use argus_guardian::{
    Access, Content, Error, Guardian, ObjId, Record, Shared, Signal, Value, record,
};

record! {
    #[derive(Debug, Clone, PartialEq)]
    struct Address {
        street: String,
        number: u16,
    }
}

record! {
    #[derive(Debug, Clone, PartialEq)]
    struct Customer {
        name: String,
        is_known: bool,
        address: Address,
        orders: Vec<i64>,
        friend: ObjId,
        nothing: (),
    }
}

const CUSTOMER: &str = "atomic_record[name:text,is_known:bool,address:struct[street:text,number:int],\
                        orders:sequence[int],friend:atomic,nothing:null]";

fn customer() -> Customer {
    Customer {
        name: "ann".to_owned(),
        is_known: true,
        address: Address {
            street: "main".to_owned(),
            number: 7,
        },
        orders: vec![3, 5],
        friend: ObjId::numbered(0),
        nothing: (),
    }
}

#[test]
fn a_struct_is_a_record() -> Result<(), Error> {
    assert_eq!(Customer::shape(), CUSTOMER);
    let mut guardian = Guardian::new()?;
    let ann = guardian.named("ann", Customer::shape())?;
    let top = guardian.topaction()?;
    top.create(&ann, customer())?;
    assert_eq!(top.read::<Customer>(&ann)?, customer());
    assert_eq!(top.get::<Address>(&ann, "address")?, customer().address);
    let (street, number): (String, i64) = top.get(&ann, "address")?;
    assert_eq!((street.as_str(), number), ("main", 7));
    top.set(&ann, "orders", vec![8])?;
    assert_eq!(top.get::<Vec<i64>>(&ann, "orders")?, [8]);
    top.commit()?;
    let text = r#"{"ann",true,{"main",7},[8],@0,null}"#;
    assert_eq!(guardian.base(&ann)?, Some(text.parse()?));
    Ok(())
}

record! {
    #[derive(Debug)]
    struct Swapped {
        b: i64,
        a: i64,
    }
}

#[test]
fn a_struct_of_other_names_is_refused() -> Result<(), Error> {
    let mut guardian = Guardian::new()?;
    let pair = guardian.named("pair", "atomic_record[a:int,b:int]")?;
    let top = guardian.topaction()?;
    top.create(&pair, (1, 2))?;
    let entries = top.guardian().entries();
    let error = top.read::<Swapped>(&pair).expect_err("b comes first");
    assert!(matches!(error, Error::OtherType(_)), "{error}");
    // By an id alone the guardian is asked for the names.
    assert!(top.read::<Swapped>(pair.id()).is_err());
    assert_eq!(top.guardian().entries(), entries);
    Ok(())
}

#[test]
fn fields_by_name_and_by_number() -> Result<(), Error> {
    let mut guardian = Guardian::new()?;
    let seat = guardian.named("1a", "atomic_record[taken:bool,by:text]")?;
    let top = guardian.topaction()?;
    top.create(&seat, (false, ""))?;
    top.set(&seat, "taken", true)?;
    top.set(&seat, 1, "ann")?;
    assert!(top.get::<bool>(&seat, 0)?);
    assert_eq!(top.get::<String>(&seat, "by")?, "ann");
    // An id alone has the same names.
    assert_eq!(top.get::<String>(seat.id(), "by")?, "ann");
    assert_eq!(top.get::<Value>(seat.id(), 1)?, Value::from("ann"));
    top.update(&seat, "by", |it: String| it + "e")?;
    assert_eq!(top.get::<String>(&seat, "by")?, "anne");
    let entries = top.guardian().entries();
    assert!(matches!(top.set(&seat, "row", 1), Err(Error::NoName(_))));
    assert!(matches!(
        top.get::<i64>(&seat, "row"),
        Err(Error::NoName(_))
    ));
    assert_eq!(top.guardian().entries(), entries);
    Ok(())
}

#[test]
fn an_update_locks_before_it_reads() -> Result<(), Error> {
    let mut guardian = Guardian::new()?;
    let counter = guardian.named("counter", "atomic_record[n:int]")?;
    let top = guardian.topaction()?;
    top.create(&counter, (1,))?;
    let entries = top.guardian().entries();
    top.update(&counter, "n", |it: i64| it + 1)?;
    let lines = [
        "alter a1 o0 touch -> done",
        "ask a1 o0 field 0 -> val 1",
        "alter a1 o0 set_field 0 2 -> done",
    ];
    for (number, line) in (entries..).zip(lines) {
        assert_eq!(top.guardian().entry(number)?, format!("{number} {line}"));
    }
    Ok(())
}

#[test]
fn numbers_that_a_type_hasnt_are_refused() -> Result<(), Error> {
    let mut guardian = Guardian::new()?;
    let record = guardian.declare("atomic_record[n:int]")?;
    let top = guardian.topaction()?;
    top.create(record, (256,))?;
    assert_eq!(top.get::<u16>(record, 0)?, 256);
    assert!(matches!(top.get::<u8>(record, 0), Err(Error::OtherType(_))));
    top.set(record, 0, -1)?;
    assert_eq!(top.get::<i8>(record, 0)?, -1);
    assert!(matches!(
        top.get::<u64>(record, 0),
        Err(Error::OtherType(_))
    ));
    Ok(())
}

#[test]
fn arrays() -> Result<(), Error> {
    let mut guardian = Guardian::new()?;
    let queue = guardian.named("queue", "atomic_array[text]")?;
    let top = guardian.topaction()?;
    let queue = top.array(&queue);
    assert_eq!(queue.len(), Err(Error::Signal(Signal::Absent)));
    queue.create(Vec::<String>::new())?;
    assert!(queue.is_empty()?);
    assert_eq!(queue.bounds()?, 0..0);
    assert_eq!(queue.pop::<String>()?, None);
    assert_eq!(queue.first::<String>()?, None);
    for text in ["b", "c", "d"] {
        queue.push(text)?;
    }
    queue.push_front("a")?;
    assert_eq!((queue.len()?, queue.bounds()?), (4, -1..3));
    assert_eq!(queue.read::<String>()?, ["a", "b", "c", "d"]);
    assert_eq!(queue.pop()?, Some("d".to_owned()));
    assert_eq!(queue.pop_front()?, Some("a".to_owned()));
    assert_eq!(queue.bounds()?, 0..2);
    queue.set(1, "z")?;
    assert_eq!(queue.set(2, "y"), Err(Error::Signal(Signal::Bounds)));
    assert_eq!(queue.get(1)?, Some("z".to_owned()));
    assert_eq!(queue.get::<String>(2)?, None);
    assert_eq!(queue.first()?, Some("b".to_owned()));
    assert_eq!(queue.last()?, Some("z".to_owned()));
    assert!(matches!(queue.last::<i64>(), Err(Error::OtherType(_))));
    top.commit()?;
    assert_eq!(
        guardian.base(ObjId::numbered(0))?,
        Some(vec!["b", "z"].into())
    );
    Ok(())
}

#[test]
fn variants() -> Result<(), Error> {
    let mut guardian = Guardian::new()?;
    let door = guardian.named("door", "atomic_variant[open:null,locked:text]")?;
    let top = guardian.topaction()?;
    let view = top.variant(&door);
    assert_eq!(view.tag(), Err(Error::Signal(Signal::Absent)));
    view.create("open", ())?;
    assert!(view.is("open")?);
    assert_eq!(view.get::<String>("locked")?, None);
    view.set("locked", "by ann")?;
    assert_eq!(view.tag()?, "locked");
    assert_eq!(view.get(1)?, Some("by ann".to_owned()));
    assert!(!view.is(0)?);
    assert!(matches!(view.set("shut", ()), Err(Error::NoName(_))));
    assert!(matches!(view.set("open", 1), Err(Error::IllTyped(_))));
    top.commit()?;
    let content = Content::Variant {
        tag: 1,
        value: "by ann".into(),
    };
    assert_eq!(guardian.base(&door)?, Some(content));
    Ok(())
}

// What is written once for all kinds of actions.
fn deposit<A: Access>(action: &A, account: &argus_guardian::Object) -> Result<(), A::Error> {
    action.update(account, "balance", |it: i64| it + 2)
}

#[test]
fn one_function_for_all_kinds_of_actions() -> Result<(), Error> {
    let mut guardian = Guardian::new()?;
    let account = guardian.named("account", "atomic_record[balance:int]")?;
    let top = guardian.topaction()?;
    top.create(&account, (5,))?;
    deposit(&top, &account)?;
    top.commit()?;
    let shared = Shared::from(guardian);
    shared.run(|top| deposit(top, &account))?;
    assert_eq!(shared.into_inner().base(&account)?, Some((9,).into()));
    Ok(())
}

#[test]
fn handles_sort_by_the_numbers_of_their_objects() -> Result<(), Error> {
    let guardian = Guardian::new()?;
    let late = guardian.named("z", "atomic_array[int]")?;
    let later = guardian.named("a", "atomic_array[int]")?;
    let mut handles = [later.clone(), late.clone()];
    handles.sort();
    assert_eq!(handles, [late, later]);
    Ok(())
}
