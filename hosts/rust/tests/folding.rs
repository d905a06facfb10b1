//! A shared guardian folds its journal and numbers its actions from 0 again by itself.

use argus_guardian::{Access, ActionId, Call, Error, Guardian, Object, Shared};
use std::thread;
use std::time::{Duration, Instant};

const RECORD: &str = "atomic_record[n:int]";

/// A shared guardian that folds after so many entries, with a record of 0.
fn with_record(after: Option<u64>) -> Result<(Shared, Object), Error> {
    let shared = Shared::from(Guardian::new()?).fold_after(after);
    let record = shared.named("record", RECORD)?;
    shared.run(|top| top.create(&record, (0,)))?;
    Ok((shared, record))
}

/// How many entries the journal has now.
fn length(shared: &Shared) -> u64 {
    shared.with(|guardian| guardian.entries() - guardian.first_entry())
}

fn count(shared: &Shared, record: &Object) -> Result<(), Error> {
    shared.run(|top| top.update(record, "n", |it: i64| it + 1))
}

#[test]
fn the_journal_stays_short() -> Result<(), Error> {
    let (shared, record) = with_record(Some(50))?;
    for number in 1..=100 {
        count(&shared, &record)?;
        // Of a topaction of five entries the last one folds.
        assert!(length(&shared) < 50, "after {number}");
    }
    assert!(shared.with(Guardian::first_entry) > 0);
    assert_eq!(shared.into_inner().base(&record)?, Some((100,).into()));
    Ok(())
}

#[test]
fn it_can_be_turned_off() -> Result<(), Error> {
    let (shared, record) = with_record(None)?;
    let before = length(&shared);
    for _ in 0..100 {
        count(&shared, &record)?;
    }
    assert_eq!(length(&shared), before + 500);
    Ok(())
}

#[test]
fn an_action_that_is_dropped_folds_too() -> Result<(), Error> {
    let (shared, _) = with_record(Some(10))?;
    for _ in 0..100 {
        drop(shared.topaction()?);
        assert!(length(&shared) < 10);
    }
    Ok(())
}

#[test]
fn guards_of_actions_that_are_over_put_nothing_off() -> Result<(), Error> {
    let (shared, _) = with_record(Some(50))?;
    let ended = shared.topaction()?;
    let dropped_inside = shared.topaction()?;
    shared.with(|guardian| {
        drop(dropped_inside);
        guardian.call(&Call::Abort(ended.id())).map(drop)
    })?;
    assert!(ended.commit().is_err());
    for _ in 0..100 {
        shared.topaction()?.commit()?;
        assert!(length(&shared) < 50);
    }
    Ok(())
}

#[test]
fn a_live_action_puts_it_off_but_its_end_does_it() -> Result<(), Error> {
    let (shared, _) = with_record(Some(50))?;
    let live = shared.topaction()?;
    for _ in 0..30 {
        shared.topaction()?.commit()?;
    }
    assert!(length(&shared) >= 60);
    live.subaction()?.commit()?;
    live.nested()?.commit()?;
    assert!(length(&shared) >= 60);
    live.commit()?;
    assert_eq!(length(&shared), 0);
    Ok(())
}

// Whoever ends a topaction waits a tenth of a second for the live one, when the journal is twice as long and again when
// it is four times as long.
#[test]
fn without_a_quiet_moment_topactions_are_held_back() -> Result<(), Error> {
    let (shared, _) = with_record(Some(1_000))?;
    let live = shared.topaction()?;
    let mut held_at = Vec::new();
    while length(&shared) < 5_000 {
        let top = shared.topaction()?;
        let start = Instant::now();
        top.commit()?;
        if start.elapsed() >= Duration::from_millis(100) {
            held_at.push(length(&shared));
        }
    }
    assert!(
        held_at.iter().any(|it| (2_000..2_010).contains(it)),
        "{held_at:?}"
    );
    assert!(
        held_at.iter().any(|it| (4_000..4_010).contains(it)),
        "{held_at:?}"
    );
    live.commit()?;
    assert_eq!(length(&shared), 0);
    Ok(())
}

// While one thread waits to fold, another one's topaction doesn't begin.
#[test]
fn a_topaction_that_is_held_back_begins_after_the_fold() -> Result<(), Error> {
    let (shared, _) = with_record(Some(10))?;
    let live = shared.topaction()?;
    thread::scope(|scope| {
        let shared = &shared;
        let folds = scope.spawn(move || {
            while shared.with(Guardian::first_entry) == 0 {
                shared.topaction()?.commit()?;
            }
            Ok(())
        });
        thread::sleep(Duration::from_millis(20));
        live.commit()?;
        folds.join().expect("no panic")
    })
}

#[test]
fn numbers_of_actions_never_run_out() -> Result<(), Error> {
    let (shared, _) = with_record(Some(100_000))?;
    for _ in 0..Guardian::MAX_ACTIONS / 2 + 50_001 {
        shared.topaction()?.commit()?;
    }
    // It was renewed, and then few have begun.
    assert!(shared.actions_left() > Guardian::MAX_ACTIONS / 2 + 1);
    Ok(())
}

#[test]
fn where_it_folds_late_it_renews_in_time() -> Result<(), Error> {
    let (shared, _) = with_record(Some(u64::MAX))?;
    for _ in 0..Guardian::MAX_ACTIONS / 2 {
        shared.topaction()?.commit()?;
    }
    let top = shared.topaction()?;
    assert!(top.id() < ActionId::numbered(Guardian::MAX_ACTIONS / 2));
    top.commit()
}

#[test]
fn lines_that_a_program_reads_are_folded_only_when_they_were_read() -> Result<(), Error> {
    let (shared, record) = with_record(Some(50))?;
    let mut room = vec![0; 100_000];
    let read = |from: u64, room: &mut [u8]| {
        shared.with(|guardian| Ok::<_, Error>(from + guardian.lines(from, room)?.count))
    };
    let mut next = read(0, &mut room)?;
    for _ in 0..100 {
        count(&shared, &record)?;
    }
    assert_eq!(shared.with(Guardian::first_entry), 0);
    next = read(next, &mut room)?;
    let folded = shared.with(|guardian| (guardian.first_entry(), guardian.entries()));
    assert_eq!(folded, (next, next));
    Ok(())
}

// A text of lines ends at a renewal.
#[test]
fn where_a_program_reads_lines_nothing_is_renewed() -> Result<(), Error> {
    let guardian = Guardian::new()?;
    let mut room = vec![0; 100];
    guardian.declare("atomic_array[int]")?;
    assert_eq!(guardian.lines(0, &mut room)?.count, 1);
    let shared = Shared::from(guardian).fold_after(Some(10));
    for _ in 0..=Guardian::MAX_ACTIONS / 2 {
        shared.topaction()?.commit()?;
    }
    let top = shared.topaction()?;
    assert_eq!(top.id(), ActionId::numbered(Guardian::MAX_ACTIONS / 2 + 1));
    top.commit()
}
