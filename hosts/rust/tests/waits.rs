//! Who is woken when actions end. A thread that is woken makes its call again, so the journal's entries tell.

use argus_guardian::{
    Access, ActionId, Call, Change, Error, Guardian, ObjId, Refusal, Reply, Shared, SharedAction,
};
use std::sync::Barrier;
use std::sync::atomic::{AtomicBool, AtomicU32, Ordering};
use std::thread;
use std::time::{Duration, Instant};

// Who isn't woken makes its call after this time.
const LONG: Duration = Duration::from_secs(300);
const WAITING: u64 = 8;
const OVER: Error = Error::Refused(Refusal::Over);

fn with_records(count: usize) -> Result<(Guardian, Vec<ObjId>), Error> {
    let mut guardian = Guardian::new()?;
    let declared = (0..count).map(|_| guardian.declare("atomic_record[n:int]"));
    let records: Vec<ObjId> = declared.collect::<Result<_, _>>()?;
    let top = guardian.topaction()?;
    for record in &records {
        top.alter(*record, Change::Create("{0}".parse()?))?.done()?;
    }
    top.commit()?;
    Ok((guardian, records))
}

fn until_entries(shared: &Shared, entries: u64) {
    while shared.with(Guardian::entries) < entries {
        thread::yield_now();
    }
}

// Ends of each kind, by actions that hold only this object.
fn end_elsewhere(shared: &Shared, object: ObjId) -> Result<(), Error> {
    let top = shared.topaction()?;
    let sub = top.subaction()?;
    sub.lock(object)?;
    sub.commit()?;
    top.subaction()?.abort()?;
    let (first, second) = (top.subaction()?, top.subaction()?);
    first.abort_others()?;
    assert_eq!(second.abort(), Err(OVER));
    first.commit()?;
    top.commit()?;
    shared.topaction()?.abort()
}

// How many entries these ends have.
fn entries_elsewhere(shared: &Shared, object: ObjId) -> Result<u64, Error> {
    let before = shared.with(Guardian::entries);
    end_elsewhere(shared, object)?;
    Ok(shared.with(Guardian::entries) - before)
}

#[test]
fn ends_elsewhere_wake_nobody_and_a_commit_wakes_one() -> Result<(), Error> {
    const ENDS: u64 = 20;
    let (guardian, records) = with_records(2)?;
    let shared = Shared::new(guardian, LONG);
    let each = entries_elsewhere(&shared, records[1])?;
    let holder = shared.topaction()?;
    holder.lock(records[0])?;
    let wait = || {
        let top = shared.topaction()?;
        top.lock(records[0])?;
        // Who was woken in vain is refused meanwhile.
        thread::sleep(Duration::from_millis(2));
        top.commit()
    };
    // Each begins and is refused.
    let mut entries = shared.with(Guardian::entries) + 2 * WAITING;
    thread::scope(|scope| {
        let waiting: Vec<_> = (0..WAITING).map(|_| scope.spawn(wait)).collect();
        until_entries(&shared, entries);
        (0..ENDS).try_for_each(|_| end_elsewhere(&shared, records[1]))?;
        entries += ENDS * each;
        assert_eq!(shared.with(Guardian::entries), entries);
        holder.commit()?;
        let mut ended = waiting.into_iter().map(|it| it.join().expect("no panic"));
        ended.try_for_each(|it: Result<(), Error>| it)?;
        // Each locks and commits: the commit before it has woken it alone.
        assert_eq!(shared.with(Guardian::entries), entries + 1 + 2 * WAITING);
        Ok(())
    })
}

#[test]
fn a_commit_wakes_all_who_read() -> Result<(), Error> {
    let (guardian, records) = with_records(1)?;
    let shared = Shared::new(guardian, LONG);
    let holder = shared.topaction()?;
    holder.lock(records[0])?;
    // No reader ends before all have read.
    let have_read = Barrier::new(8);
    let read = || {
        let top = shared.topaction()?;
        top.get::<i64>(records[0], 0)?;
        have_read.wait();
        top.commit()
    };
    let entries = shared.with(Guardian::entries) + 2 * WAITING;
    thread::scope(|scope| {
        let waiting: Vec<_> = (0..WAITING).map(|_| scope.spawn(read)).collect();
        until_entries(&shared, entries);
        holder.commit()?;
        let mut ended = waiting.into_iter().map(|it| it.join().expect("no panic"));
        ended.try_for_each(|it: Result<(), Error>| it)?;
        assert_eq!(shared.with(Guardian::entries), entries + 1 + 2 * WAITING);
        Ok(())
    })
}

// Two wait for the record. The first one's patience ends or its action is aborted, about when the lock is free.
fn one_gives_up(shared: &Shared, record: ObjId, patience: Duration) -> Result<(), Error> {
    let holder = shared.topaction()?;
    holder.lock(record)?;
    let (first, second) = (shared.topaction()?, shared.topaction()?);
    let (number, lock) = (first.id(), Call::Alter(first.id(), record, Change::Touch));
    let entries = shared.with(Guardian::entries);
    thread::scope(|scope| {
        let first = scope.spawn(|| {
            let reply = shared.call_waiting(&lock, patience);
            drop(first);
            reply
        });
        until_entries(shared, entries + 1);
        let second = scope.spawn(|| second.lock(record));
        until_entries(shared, entries + 2);
        holder.commit()?;
        drop(shared.call(&Call::Abort(number))?);
        drop(first.join().expect("no panic")?);
        second.join().expect("no panic")
    })
}

#[test]
fn who_gives_up_passes_its_lock_on() -> Result<(), Error> {
    let (guardian, records) = with_records(1)?;
    let (shared, start) = (Shared::new(guardian, LONG), Instant::now());
    for patience in (1..200).map(Duration::from_micros) {
        one_gives_up(&shared, records[0], patience)?;
        one_gives_up(&shared, records[0], LONG)?;
    }
    assert!(start.elapsed() < LONG);
    Ok(())
}

// Two wait for the record, the first one to write and the second one to read. Once it is free a newcomer reads it,
// mostly before the first one has made its call. Then the second one reads beside it, and doesn't wait for its end.
fn a_newcomer_reads(shared: &Shared, record: ObjId) -> Result<(), Error> {
    let (holder, newcomer) = (shared.topaction()?, shared.topaction()?);
    let (first, second) = (shared.topaction()?, shared.topaction()?);
    holder.lock(record)?;
    let entries = shared.with(Guardian::entries);
    thread::scope(|scope| {
        let first = scope.spawn(move || {
            first.lock(record)?;
            first.commit()
        });
        until_entries(shared, entries + 1);
        let second = scope.spawn(move || {
            second.get::<i64>(record, 0)?;
            second.commit()
        });
        until_entries(shared, entries + 2);
        holder.commit()?;
        newcomer.get::<i64>(record, 0)?;
        second.join().expect("no panic")?;
        newcomer.commit()?;
        first.join().expect("no panic")
    })
}

#[test]
fn who_comes_too_late_passes_its_lock_on() -> Result<(), Error> {
    let (guardian, records) = with_records(1)?;
    let (shared, start) = (Shared::new(guardian, LONG), Instant::now());
    (0..100).try_for_each(|_| a_newcomer_reads(&shared, records[0]))?;
    assert!(start.elapsed() < LONG);
    Ok(())
}

// Numbers as if by chance.
struct Draws(u64);

impl Draws {
    fn below(&mut self, limit: u64) -> u64 {
        self.0 = self.0.wrapping_mul(6_364_136_223_846_793_005);
        self.0 = self.0.wrapping_add(1_442_695_040_888_963_407);
        (self.0 >> 33) % limit
    }
}

// Takes locks in the order of the objects, slowly, and ends one way or another.
fn work(
    shared: &Shared,
    top: SharedAction<'_>,
    objects: &[ObjId],
    draws: &mut Draws,
) -> Result<(), Error> {
    for object in objects {
        if draws.below(2) == 0 {
            thread::sleep(Duration::from_micros(draws.below(20)));
        }
        match draws.below(5) {
            0 => {}
            1 => drop(top.get::<i64>(*object, 0)?),
            2 => top.lock(*object)?,
            3 => {
                let sub = top.subaction()?;
                sub.lock(*object)?;
                sub.commit()?;
            }
            _ => {
                let lock = Call::Alter(top.id(), *object, Change::Touch);
                let patience = Duration::from_micros(draws.below(300));
                if shared.call_waiting(&lock, patience)? == Reply::Refused(Refusal::Conflict) {
                    return top.abort();
                }
            }
        }
    }
    if draws.below(4) == 0 {
        top.abort()
    } else {
        top.commit()
    }
}

// Aborts actions of others, which may be waiting.
fn abort_others(shared: &Shared, begun: &AtomicU32, is_done: &AtomicBool) -> Result<(), Error> {
    let mut last = u32::MAX;
    while !is_done.load(Ordering::Relaxed) {
        let action = begun.load(Ordering::Relaxed);
        if action != last {
            drop(shared.call(&Call::Abort(ActionId::numbered(action)))?);
            last = action;
        }
        thread::yield_now();
    }
    Ok(())
}

#[test]
fn no_wake_up_is_lost() -> Result<(), Error> {
    const ROUNDS: usize = 300;
    let (guardian, records) = with_records(3)?;
    let (shared, start) = (Shared::new(guardian, LONG), Instant::now());
    let (begun, is_done) = (AtomicU32::new(0), AtomicBool::new(false));
    let client = |number: u64| {
        let mut draws = Draws(number);
        (0..ROUNDS).try_for_each(|_| {
            let top = shared.topaction()?;
            begun.store(top.id().number(), Ordering::Relaxed);
            let ended = work(&shared, top, &records, &mut draws);
            ended.or_else(|error| if error == OVER { Ok(()) } else { Err(error) })
        })
    };
    thread::scope(|scope| {
        let client = &client;
        let clients: Vec<_> = (0..12).map(|it| scope.spawn(move || client(it))).collect();
        let stranger = scope.spawn(|| abort_others(&shared, &begun, &is_done));
        let mut ended = clients.into_iter().map(|it| it.join().expect("no panic"));
        let ended = ended.try_for_each(|it| it);
        is_done.store(true, Ordering::Relaxed);
        ended.and(stranger.join().expect("no panic"))
    })?;
    assert!(start.elapsed() < LONG);
    Ok(())
}

#[test]
fn a_topaction_begins_while_others_make_their_calls() -> Result<(), Error> {
    let (guardian, records) = with_records(1)?;
    let shared = Shared::new(guardian, LONG);
    let has_begun = AtomicBool::new(false);
    // Without a pause, until the other one has begun.
    let call = || {
        let top = shared.topaction()?;
        while !has_begun.load(Ordering::Relaxed) {
            top.get::<i64>(records[0], 0)?;
        }
        top.commit()
    };
    thread::scope(|scope| {
        let calling = [scope.spawn(call), scope.spawn(call), scope.spawn(call)];
        until_entries(&shared, 1000);
        let (first, second) = (shared.topaction()?, shared.topaction()?);
        has_begun.store(true, Ordering::Relaxed);
        let mut ended = calling.into_iter().map(|it| it.join().expect("no panic"));
        ended.try_for_each(|it: Result<(), Error>| it)?;
        first.commit()?;
        second.commit()
    })
}
