//! What the guards do when they are dropped, and what ends a wait.

use argus_guardian::{
    Access, Action, Answer, Call, Change, Content, Error, Guardian, ObjId, Query, Refusal, Reply,
    Shared, SharedAction, Signal, Value,
};
use std::panic::{AssertUnwindSafe, catch_unwind};
use std::sync::Barrier;
use std::thread;
use std::time::{Duration, Instant};

const LONG: Duration = Duration::from_secs(60);

fn content(text: &str) -> Content {
    text.parse().expect("a content")
}

/// A guardian with a record of 5, which entries 0 to 3 declare and create.
fn with_record() -> Result<(Guardian, ObjId), Error> {
    let mut guardian = Guardian::new()?;
    let record = guardian.declare("atomic_record[n:int]")?;
    let top = guardian.topaction()?;
    top.alter(record, Change::Create(content("{5}")))?.done()?;
    top.commit()?;
    Ok((guardian, record))
}

#[test]
fn a_dropped_action_aborts() -> Result<(), Error> {
    let (mut guardian, record) = with_record()?;
    let top = guardian.topaction()?;
    top.set(record, 0, 7)?;
    drop(top);
    assert_eq!(guardian.base(record)?, Some(content("{5}")));
    assert_eq!(guardian.entry(6)?, "6 abort a1 -> done");
    Ok(())
}

#[test]
fn an_early_return_aborts_each_level() -> Result<(), Error> {
    fn fail(top: &mut Action<'_>, record: ObjId) -> Result<(), Error> {
        let mut sub = top.subaction()?;
        let lower = sub.subaction()?;
        lower.set(record, 0, 9)?;
        // No array: the guardian refuses.
        lower.ask(record, Query::Size)?.int()?;
        lower.commit()?;
        sub.commit()
    }
    let (mut guardian, record) = with_record()?;
    let mut top = guardian.topaction()?;
    let failed = fail(&mut top, record).expect_err("it fails");
    assert_eq!(failed.refusal(), Some(Refusal::IllTyped));
    assert_eq!(top.get::<i64>(record, 0)?, 5);
    top.commit()
}

#[test]
fn a_panic_aborts() -> Result<(), Error> {
    let (mut guardian, record) = with_record()?;
    let shared = Shared::new(guardian, LONG);
    let caught = catch_unwind(AssertUnwindSafe(|| {
        let top = shared.topaction().expect("begun");
        top.set(record, 0, 7).expect("set");
        panic!("on purpose");
    }));
    assert!(caught.is_err());
    guardian = shared.into_inner();
    assert_eq!(guardian.base(record)?, Some(content("{5}")));
    Ok(())
}

#[test]
fn a_panic_in_with_wakes_who_waits() -> Result<(), Error> {
    let (guardian, record) = with_record()?;
    let shared = Shared::new(guardian, LONG);
    let (holder, waiter) = (shared.topaction()?, shared.topaction()?);
    holder.lock(record)?;
    let id = holder.id();
    let start = Instant::now();
    thread::scope(|scope| {
        let waits = scope.spawn(|| waiter.lock(record));
        thread::sleep(Duration::from_millis(20));
        let caught = catch_unwind(AssertUnwindSafe(|| {
            shared.with(|guardian| {
                let aborted = guardian.call(&Call::Abort(id));
                assert_eq!(aborted, Ok(Reply::Answered(Answer::Done)));
                panic!("on purpose");
            })
        }));
        assert!(caught.is_err());
        waits.join().expect("no panic")
    })?;
    assert!(start.elapsed() < LONG / 2);
    Ok(())
}

#[test]
fn long_texts_come_back_whole() -> Result<(), Error> {
    let mut guardian = Guardian::new()?;
    let record = guardian.declare("atomic_record[t:text]")?;
    let long = "\u{e9}".repeat(5000);
    let top = guardian.topaction()?;
    let fields = vec![Value::Text(long.clone())];
    top.alter(record, Change::Create(Content::Record(fields)))?
        .done()?;
    assert_eq!(top.get::<Value>(record, 0)?, Value::Text(long));
    top.commit()
}

#[test]
fn values_deeper_than_sixteen_are_no_texts() -> Result<(), Error> {
    let (mut guardian, record) = with_record()?;
    let deep = (0..16).fold(Value::Int(1), |value, _| Value::Sequence(vec![value]));
    let before = guardian.entries();
    let top = guardian.topaction()?;
    let set = top.alter(record, Change::SetField(0, deep));
    assert!(matches!(set, Err(Error::BadText { .. })));
    drop(top);
    // The begin and the abort alone.
    assert_eq!(guardian.entries(), before + 2);
    Ok(())
}

#[test]
fn written_forms_are_read_again() -> Result<(), Error> {
    for text in [
        "-5",
        "true",
        "null",
        r#""a\"b\\\n""#,
        "[]",
        "[1,{null,<0:\"a\\n\">},@3]",
    ] {
        assert_eq!(text.parse::<Value>()?.to_string(), text);
    }
    for text in ["{}", "{1,true}", "-2147483648[]", "1[10,20]", r#"<1:"no">"#] {
        assert_eq!(content(text).to_string(), text);
    }
    for text in [
        "done",
        "val -5",
        "num 3",
        "flag true",
        "body 1[]",
        "a7",
        "o7",
    ] {
        assert_eq!(text.parse::<Reply>()?.to_string(), text);
    }
    for signal in Signal::ALL {
        let reply = Reply::Answered(Answer::Signal(signal));
        assert_eq!(reply.to_string().parse(), Ok(reply));
    }
    for refusal in Refusal::ALL {
        let reply = Reply::Refused(refusal);
        assert_eq!(reply.to_string().parse(), Ok(reply));
    }
    Ok(())
}

#[test]
fn what_is_no_written_form_is_told_where() {
    for (text, at) in [("", 0), (" 1", 0), ("1 ", 1), ("[1,]", 3), ("1[", 1)] {
        assert_eq!(text.parse::<Value>(), Err(Error::BadText { at }), "{text}");
    }
    let deep = "[".repeat(17) + &"]".repeat(17);
    assert_eq!(deep.parse::<Value>(), Err(Error::BadText { at: 16 }));
}

#[test]
fn each_operation_answers() -> Result<(), Error> {
    let mut guardian = Guardian::new()?;
    let array = guardian.declare("atomic_array[int]")?;
    let variant = guardian.declare("atomic_variant[ok:int,bad:text]")?;
    let top = guardian.topaction()?;
    top.alter(array, Change::Create(content("1[10,20,30]")))?
        .done()?;
    for (query, answer) in [
        (Query::Low, Answer::Num(1)),
        (Query::High, Answer::Num(3)),
        (Query::Size, Answer::Num(3)),
        (Query::Fetch(2), Answer::Val(Value::Int(20))),
        (Query::Fetch(4), Answer::Signal(Signal::Bounds)),
        (Query::Bottom, Answer::Val(Value::Int(10))),
        (Query::Top, Answer::Val(Value::Int(30))),
        (Query::Whole, Answer::Body(content("1[10,20,30]"))),
    ] {
        assert_eq!(top.ask(array, query)?, answer, "{query}");
    }
    for (change, answer, left) in [
        (Change::Store(2, 21.into()), Answer::Done, "1[10,21,30]"),
        (Change::Addh(40.into()), Answer::Done, "1[10,21,30,40]"),
        (Change::Addl(0.into()), Answer::Done, "0[0,10,21,30,40]"),
        (Change::Remh, Answer::Val(Value::Int(40)), "0[0,10,21,30]"),
        (Change::Reml, Answer::Val(Value::Int(0)), "1[10,21,30]"),
        (Change::SetLow(5), Answer::Done, "5[10,21,30]"),
        (Change::Trim(6, 1), Answer::Done, "6[21]"),
        (Change::Touch, Answer::Done, "6[21]"),
    ] {
        assert_eq!(top.alter(array, change)?, answer);
        assert_eq!(top.ask(array, Query::Whole)?.body()?, content(left));
    }
    top.alter(variant, Change::Create(content("<0:5>")))?
        .done()?;
    assert!(top.ask(variant, Query::IsTag(0))?.flag()?);
    let wrong = top.ask(variant, Query::TagValue(1))?;
    assert_eq!(wrong.value(), Err(Error::Signal(Signal::WrongTag)));
    top.alter(variant, Change::ChangeTag(1, "no".into()))?
        .done()?;
    assert_eq!(top.ask(variant, Query::TagValue(1))?.value()?, "no".into());
    top.commit()
}

#[test]
fn a_commit_ends_a_wait() -> Result<(), Error> {
    let (guardian, record) = with_record()?;
    let shared = Shared::new(guardian, LONG);
    let (holder, waiter) = (shared.topaction()?, shared.topaction()?);
    holder.set(record, 0, 7)?;
    thread::scope(|scope| {
        let seen = scope.spawn(|| waiter.get::<Value>(record, 0));
        holder.commit()?;
        assert_eq!(seen.join().expect("no panic")?, Value::Int(7));
        Ok(())
    })
}

#[test]
fn an_abort_of_the_parent_ends_a_wait() -> Result<(), Error> {
    let (guardian, record) = with_record()?;
    let shared = Shared::new(guardian, LONG);
    let holder = shared.topaction()?;
    holder.alter(record, Change::Touch)?.done()?;
    let top = shared.topaction()?;
    let id = top.id();
    let arm = top.subaction()?;
    thread::scope(|scope| {
        let waits = scope.spawn(|| arm.alter(record, Change::Touch));
        shared.call(&Call::Abort(id))?.answer()?.done()?;
        let ended = waits.join().expect("no panic");
        assert_eq!(ended, Err(Error::Refused(Refusal::Over)));
        Ok(())
    })
}

#[test]
fn patience_ends_a_wait() -> Result<(), Error> {
    let (guardian, record) = with_record()?;
    let shared = Shared::new(guardian, Duration::from_millis(20));
    let (holder, waiter) = (shared.topaction()?, shared.topaction()?);
    holder.alter(record, Change::Touch)?.done()?;
    let start = Instant::now();
    let refused = waiter.get::<i64>(record, 0).expect_err("it is held");
    assert_eq!(refused.refusal(), Some(Refusal::Conflict));
    assert!(start.elapsed() >= Duration::from_millis(20));
    // Refused at first and at last, each an entry.
    let entries = shared.with(Guardian::entries);
    assert_eq!(entries, 4 + 2 + 1 + 2);
    Ok(())
}

// Two topactions read the record, and then both set it, by subactions where that is said. How many
// were refused, and how long it took.
fn two_read_and_set(by_subactions: bool) -> Result<(usize, Duration), Error> {
    let (guardian, record) = with_record()?;
    let shared = Shared::new(guardian, LONG);
    let start = Instant::now();
    let have_read = Barrier::new(2);
    let read_and_set = || {
        let top = shared.topaction()?;
        top.get::<Value>(record, 0)?;
        have_read.wait();
        if by_subactions {
            let sub = top.subaction()?;
            sub.set(record, 0, 6)?;
            sub.commit()?;
        } else {
            top.set(record, 0, 6)?;
        }
        top.commit()
    };
    let results: Vec<Result<(), Error>> = thread::scope(|scope| {
        let threads = [scope.spawn(read_and_set), scope.spawn(read_and_set)];
        threads.map(|it| it.join().expect("no panic")).into()
    });
    let is_refused = |it: &&Result<(), Error>| matches!(it, Err(Error::Deadlock(_)));
    let refused = results.iter().filter(is_refused).count();
    assert!(results.iter().all(|it| it.is_ok() || is_refused(&it)));
    Ok((refused, start.elapsed()))
}

#[test]
fn of_two_that_read_and_write_one_is_refused_at_once() -> Result<(), Error> {
    for by_subactions in [false, true] {
        let (refused, taken) = two_read_and_set(by_subactions)?;
        assert_eq!(refused, 1);
        assert!(taken < LONG / 2, "{taken:?}");
    }
    Ok(())
}

#[test]
fn siblings_dont_wait_for_what_their_parent_reads() -> Result<(), Error> {
    let (guardian, record) = with_record()?;
    let shared = Shared::new(guardian, LONG);
    let (top, reader) = (shared.topaction()?, shared.topaction()?);
    top.get::<Value>(record, 0)?;
    reader.get::<Value>(record, 0)?;
    thread::scope(|scope| {
        let set = || {
            let arm = top.subaction()?;
            arm.set(record, 0, 6)?;
            arm.commit()
        };
        let arms = [scope.spawn(set), scope.spawn(set)];
        thread::sleep(Duration::from_millis(20));
        reader.commit()?;
        for arm in arms {
            assert_eq!(arm.join().expect("no panic"), Ok(()));
        }
        Ok(())
    })
}

#[test]
fn who_locks_before_reading_is_never_refused() -> Result<(), Error> {
    const THREADS: i64 = 8;
    const ORDERS: i64 = 20;
    let (guardian, record) = with_record()?;
    let shared = Shared::new(guardian, LONG);
    let order = || {
        let top = shared.topaction()?;
        top.lock(record)?;
        let number = top.get::<i64>(record, 0)?;
        thread::yield_now();
        top.set(record, 0, number + 1)?;
        top.commit()
    };
    thread::scope(|scope| {
        let work = || (0..ORDERS).try_for_each(|_| order());
        let threads: Vec<_> = (0..THREADS).map(|_| scope.spawn(work)).collect();
        threads
            .into_iter()
            .try_for_each(|it| it.join().expect("no panic"))
    })?;
    let left = Content::Record(vec![Value::Int(5 + THREADS * ORDERS)]);
    assert_eq!(shared.into_inner().base(record)?, Some(left));
    Ok(())
}

#[test]
fn a_checkpoint_holds_topactions_back() -> Result<(), Error> {
    let (guardian, _) = with_record()?;
    let shared = Shared::new(guardian, LONG);
    let top = shared.topaction()?;
    thread::scope(|scope| {
        let folds = scope.spawn(|| shared.checkpoint_waiting(LONG));
        thread::sleep(Duration::from_millis(20));
        let begins = scope.spawn(|| shared.topaction().map(|later| later.id()));
        top.commit()?;
        assert_eq!(folds.join().expect("no panic"), Ok(()));
        begins.join().expect("no panic")?;
        Ok(())
    })
}

#[test]
fn what_goes_to_threads_may() {
    fn sent<T: Send>() {}
    fn shared<T: Sync>() {}
    sent::<Guardian>();
    sent::<Action<'_>>();
    shared::<Shared>();
    sent::<SharedAction<'_>>();
    shared::<SharedAction<'_>>();
}
