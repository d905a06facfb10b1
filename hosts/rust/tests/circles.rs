//! Actions that wait for one another in a circle: the youngest is refused at once, and the others go on.

use argus_guardian::{
    Access, Call, Change, Deadlock, Error, Guardian, ObjId, Refusal, Reply, Shared, SharedAction,
};
use std::sync::atomic::{AtomicU32, Ordering};
use std::thread::{self, ScopedJoinHandle};
use std::time::{Duration, Instant};

// Who isn't refused at once waits for so long.
const LONG: Duration = Duration::from_secs(60);
const SOON: Duration = Duration::from_secs(20);

type Outcome = Result<(), Error>;

// Action 0 has made the records, with the objects' numbers from 0.
fn with_records(count: usize) -> Result<(Shared, Vec<ObjId>), Error> {
    let mut guardian = Guardian::new()?;
    let declared = (0..count).map(|_| guardian.declare("atomic_record[n:int]"));
    let records: Vec<ObjId> = declared.collect::<Result<_, _>>()?;
    let top = guardian.topaction()?;
    for record in &records {
        top.alter(*record, Change::Create("{0}".parse()?))?.done()?;
    }
    top.commit()?;
    Ok((Shared::new(guardian, LONG), records))
}

// Does that in a thread, until it has made its first call.
fn waits<'t, 's, T: Send + 't>(
    scope: &'t thread::Scope<'t, 's>,
    shared: &Shared,
    what: impl FnOnce() -> T + Send + 't,
) -> ScopedJoinHandle<'t, T> {
    let entries = shared.with(Guardian::entries);
    let thread = scope.spawn(what);
    while shared.with(Guardian::entries) == entries {
        thread::yield_now();
    }
    thread
}

// Locks, and commits; or aborts, if it is refused.
fn lock(top: SharedAction<'_>, record: ObjId) -> Outcome {
    top.lock(record)?;
    top.commit()
}

fn read(top: SharedAction<'_>, record: ObjId) -> Outcome {
    top.get::<i64>(record, 0)?;
    top.commit()
}

fn joined<T>(thread: ScopedJoinHandle<'_, T>) -> T {
    thread.join().expect("no panic")
}

fn deadlock_of(outcome: Outcome) -> Deadlock {
    match outcome {
        Err(Error::Deadlock(deadlock)) => deadlock,
        other => panic!("no deadlock: {other:?}"),
    }
}

fn is_deadlock(outcome: Outcome, said: &str) {
    assert_eq!(deadlock_of(outcome).to_string(), said);
}

// Each topaction has locked the record of its place, and wants that of the next one. They ask in this order.
fn in_a_ring(order: &[usize]) -> Result<Vec<Outcome>, Error> {
    let (shared, records) = with_records(order.len())?;
    let tops = records.iter().map(|record| {
        let top = shared.topaction()?;
        top.lock(*record)?;
        Ok(Some(top))
    });
    let mut tops: Vec<Option<SharedAction<'_>>> = tops.collect::<Result<_, Error>>()?;
    thread::scope(|scope| {
        let threads = order.iter().map(|place| {
            let top = tops[*place].take().expect("it asks once");
            let next = records[(place + 1) % records.len()];
            (*place, waits(scope, &shared, move || lock(top, next)))
        });
        let mut threads: Vec<_> = threads.collect();
        threads.sort_by_key(|(place, _)| *place);
        Ok(threads.into_iter().map(|(_, it)| joined(it)).collect())
    })
}

#[test]
fn of_two_the_younger_is_refused_whoever_comes_last() -> Outcome {
    let start = Instant::now();
    for order in [[0, 1], [1, 0]] {
        let [older, younger] = <[Outcome; 2]>::try_from(in_a_ring(&order)?).expect("two");
        assert_eq!(older, Ok(()));
        assert!(younger.as_ref().is_err_and(Error::is_conflict));
        let said = "refused: Conflict: a2 waits for a1 at o0, a1 for a2 at o1";
        assert_eq!(younger.expect_err("refused").to_string(), said);
    }
    assert!(start.elapsed() < SOON);
    Ok(())
}

#[test]
fn of_three_the_youngest_is_refused_whoever_comes_last() -> Outcome {
    let start = Instant::now();
    for order in [
        [0, 1, 2],
        [0, 2, 1],
        [1, 0, 2],
        [1, 2, 0],
        [2, 0, 1],
        [2, 1, 0],
    ] {
        let mut outcomes = in_a_ring(&order)?;
        let said = "a3 waits for a1 at o0, a1 for a2 at o1, a2 for a3 at o2";
        is_deadlock(outcomes.pop().expect("three"), said);
        assert_eq!(outcomes, [Ok(()), Ok(())]);
    }
    assert!(start.elapsed() < SOON);
    Ok(())
}

#[test]
fn of_twelve_the_youngest_is_refused() -> Outcome {
    let mut outcomes = in_a_ring(&[5, 11, 0, 7, 2, 9, 4, 1, 6, 3, 8, 10])?;
    let deadlock = deadlock_of(outcomes.pop().expect("twelve"));
    let actions: Vec<u32> = deadlock.waits().iter().map(|it| it.0.number()).collect();
    assert_eq!(actions, [12, 1, 2, 3, 4, 5, 6, 7, 8, 9, 10, 11]);
    let objects: Vec<u32> = deadlock.waits().iter().map(|it| it.1.number()).collect();
    assert_eq!(objects, [0, 1, 2, 3, 4, 5, 6, 7, 8, 9, 10, 11]);
    assert!(outcomes.iter().all(Result::is_ok));
    Ok(())
}

#[test]
fn who_waits_in_a_chain_is_never_refused() -> Outcome {
    const LINKS: usize = 6;
    let (shared, records) = with_records(LINKS)?;
    let holder = shared.topaction()?;
    holder.lock(records[0])?;
    thread::scope(|scope| {
        let threads = (1..LINKS).map(|place| {
            let top = shared.topaction()?;
            top.lock(records[place])?;
            let before = records[place - 1];
            Ok(waits(scope, &shared, move || lock(top, before)))
        });
        let threads: Vec<_> = threads.collect::<Result<_, Error>>()?;
        // Two more wait for what others wait for, too, and one of them only reads.
        let (last, reader) = (shared.topaction()?, shared.topaction()?);
        let last = waits(scope, &shared, || lock(last, records[0]));
        let reader = waits(scope, &shared, || read(reader, records[3]));
        let entries = shared.with(Guardian::entries);
        holder.commit()?;
        threads.into_iter().try_for_each(joined)?;
        joined(last)?;
        joined(reader)?;
        // After the holder's commit each locks and commits, and nobody was refused meanwhile.
        let after = shared.with(Guardian::entries) - entries;
        assert_eq!(after, 1 + 2 * (LINKS as u64 - 1 + 2));
        Ok(())
    })
}

#[test]
fn a_subaction_that_waits_keeps_its_topaction_from_ending() -> Outcome {
    for is_first in [true, false] {
        let (shared, records) = with_records(2)?;
        let (older, younger) = (shared.topaction()?, shared.topaction()?);
        older.lock(records[0])?;
        younger.lock(records[1])?;
        let sub = older.subaction()?;
        thread::scope(|scope| {
            let within = || lock(sub, records[1]);
            let beside = || lock(younger, records[0]);
            let (within, beside) = if is_first {
                let within = waits(scope, &shared, within);
                (within, waits(scope, &shared, beside))
            } else {
                let beside = waits(scope, &shared, beside);
                (waits(scope, &shared, within), beside)
            };
            // The subaction has the highest number, but it is in the older topaction.
            is_deadlock(joined(beside), "a2 waits for a3 at o0, a3 for a2 at o1");
            joined(within)
        })?;
        older.commit()?;
    }
    Ok(())
}

// How an arm ends.
#[derive(Clone, Copy)]
enum End {
    Commit,
    Abort,
    Drop,
}

// One arm waits for what the younger topaction has, which waits for what the other arm has, and their parent if it
// locks first.
fn between_arms(locks_first: bool, end: End) -> Outcome {
    let (shared, records) = with_records(2)?;
    let (older, younger) = (shared.topaction()?, shared.topaction()?);
    if locks_first {
        older.lock(records[0])?;
    }
    younger.lock(records[1])?;
    let (first, second) = (older.subaction()?, older.subaction()?);
    first.lock(records[0])?;
    thread::scope(|scope| {
        let beside = waits(scope, &shared, || lock(younger, records[0]));
        let within = waits(scope, &shared, || lock(second, records[1]));
        let entries = shared.with(Guardian::entries);
        thread::sleep(Duration::from_millis(20));
        assert_eq!(shared.with(Guardian::entries), entries);
        match end {
            End::Commit => first.commit()?,
            End::Abort => first.abort()?,
            End::Drop => drop(first),
        }
        is_deadlock(joined(beside), "a2 waits for a4 at o0, a4 for a2 at o1");
        joined(within)
    })?;
    older.commit()
}

#[test]
fn an_arm_that_ends_closes_a_circle() -> Outcome {
    between_arms(false, End::Commit)?;
    between_arms(true, End::Commit)?;
    between_arms(true, End::Abort)?;
    between_arms(true, End::Drop)
}

#[test]
fn of_two_arms_the_younger_is_refused() -> Outcome {
    let (shared, records) = with_records(2)?;
    let top = shared.topaction()?;
    let (first, second) = (top.subaction()?, top.subaction()?);
    first.lock(records[0])?;
    second.lock(records[1])?;
    thread::scope(|scope| {
        let second = waits(scope, &shared, || lock(second, records[0]));
        let first = waits(scope, &shared, || lock(first, records[1]));
        is_deadlock(joined(second), "a3 waits for a2 at o0, a2 for a3 at o1");
        joined(first)
    })?;
    top.commit()
}

#[test]
fn a_nested_topaction_keeps_those_around_it_from_ending() -> Outcome {
    let (shared, records) = with_records(2)?;
    let (older, younger) = (shared.topaction()?, shared.topaction()?);
    let sub = older.subaction()?;
    sub.lock(records[0])?;
    younger.lock(records[1])?;
    let nested = sub.nested()?;
    let deepest = nested.subaction()?;
    let at_once = deadlock_of(deepest.lock(records[0]));
    assert_eq!(at_once.waits(), [(deepest.id(), records[0])]);
    thread::scope(|scope| {
        let within = waits(scope, &shared, || lock(deepest, records[1]));
        let beside = waits(scope, &shared, || lock(younger, records[0]));
        is_deadlock(joined(beside), "a2 waits for a5 at o0, a5 for a2 at o1");
        joined(within)
    })?;
    nested.commit()?;
    sub.commit()?;
    older.commit()
}

#[test]
fn readers_are_in_circles() -> Outcome {
    let (shared, records) = with_records(2)?;
    let (older, younger) = (shared.topaction()?, shared.topaction()?);
    older.get::<i64>(records[0], 0)?;
    younger.lock(records[1])?;
    thread::scope(|scope| {
        let writes = waits(scope, &shared, || lock(younger, records[0]));
        // It gets the lock that the writer waits for, and is waited for from then on.
        let newcomer = shared.topaction()?;
        newcomer.get::<i64>(records[0], 0)?;
        let newcomer = waits(scope, &shared, || read(newcomer, records[1]));
        is_deadlock(joined(newcomer), "a3 waits for a2 at o1, a2 for a3 at o0");
        let reads = waits(scope, &shared, || read(older, records[1]));
        is_deadlock(joined(writes), "a2 waits for a1 at o0, a1 for a2 at o1");
        joined(reads)
    })
}

#[test]
fn who_closes_two_circles_refuses_two() -> Outcome {
    let (shared, records) = with_records(2)?;
    let tops = [
        shared.topaction()?,
        shared.topaction()?,
        shared.topaction()?,
    ];
    let [oldest, first, second] = tops;
    oldest.lock(records[0])?;
    first.get::<i64>(records[1], 0)?;
    second.get::<i64>(records[1], 0)?;
    thread::scope(|scope| {
        let first = waits(scope, &shared, || read(first, records[0]));
        let second = waits(scope, &shared, || lock(second, records[0]));
        let oldest = waits(scope, &shared, || lock(oldest, records[1]));
        is_deadlock(joined(first), "a2 waits for a1 at o0, a1 for a2 at o1");
        is_deadlock(joined(second), "a3 waits for a1 at o0, a1 for a3 at o1");
        joined(oldest)
    })
}

#[test]
fn of_two_that_have_read_the_younger_is_refused() -> Outcome {
    let (shared, records) = with_records(1)?;
    let (older, younger) = (shared.topaction()?, shared.topaction()?);
    older.get::<i64>(records[0], 0)?;
    younger.get::<i64>(records[0], 0)?;
    thread::scope(|scope| {
        let younger = waits(scope, &shared, || lock(younger, records[0]));
        let older = waits(scope, &shared, || lock(older, records[0]));
        is_deadlock(joined(younger), "a2 waits for a1 at o0, a1 for a2 at o0");
        joined(older)
    })
}

#[test]
fn a_lock_for_an_action_that_waits_in_another_thread_closes_a_circle() -> Outcome {
    let (shared, records) = with_records(2)?;
    let tops = [
        shared.topaction()?,
        shared.topaction()?,
        shared.topaction()?,
    ];
    let [older, younger, reader] = tops;
    younger.lock(records[1])?;
    reader.get::<i64>(records[0], 0)?;
    thread::scope(|scope| {
        let within = waits(scope, &shared, || older.lock(records[1]));
        let beside = waits(scope, &shared, || lock(younger, records[0]));
        assert!(older.test_read(records[0])?);
        is_deadlock(joined(beside), "a2 waits for a1 at o0, a1 for a2 at o1");
        joined(within)
    })?;
    older.commit()?;
    reader.commit()
}

#[test]
fn a_call_by_number_is_refused_by_the_guardian() -> Outcome {
    let (shared, records) = with_records(2)?;
    let (older, younger) = (shared.topaction()?, shared.topaction()?);
    older.lock(records[0])?;
    younger.lock(records[1])?;
    let call = |top: &SharedAction<'_>, place| Call::Alter(top.id(), records[place], Change::Touch);
    let (over, back) = (call(&older, 1), call(&younger, 0));
    thread::scope(|scope| {
        let back = waits(scope, &shared, || shared.call_waiting(&back, LONG));
        let over = scope.spawn(|| shared.call_waiting(&over, LONG));
        let reply = joined(back)?;
        assert_eq!(reply, Reply::Refused(Refusal::Conflict));
        // The call was made again, when the older one had made its own.
        let last = shared.with(|it| it.entry(it.entries() - 1))?;
        assert!(
            last.ends_with("alter a2 o0 touch -> refused Conflict"),
            "{last}"
        );
        younger.abort()?;
        joined(over)?.answer()?.done()
    })?;
    older.commit()
}

#[test]
fn calls_by_number_after_reading_are_in_circles() -> Outcome {
    let (shared, records) = with_records(1)?;
    let (older, younger) = (shared.topaction()?, shared.topaction()?);
    older.get::<i64>(records[0], 0)?;
    younger.get::<i64>(records[0], 0)?;
    let call = |top: &SharedAction<'_>| Call::Alter(top.id(), records[0], Change::Touch);
    let (first, second) = (call(&older), call(&younger));
    thread::scope(|scope| {
        let first = waits(scope, &shared, || shared.call_waiting(&first, LONG));
        let reply = shared.call_waiting(&second, LONG)?;
        assert_eq!(reply, Reply::Refused(Refusal::Conflict));
        younger.abort()?;
        joined(first)?.answer()?.done()
    })?;
    older.commit()
}

#[test]
fn readers_that_may_be_ancestors_close_no_circle() -> Outcome {
    let (shared, records) = with_records(2)?;
    let (top, reader) = (shared.topaction()?, shared.topaction()?);
    top.get::<i64>(records[0], 0)?;
    reader.get::<i64>(records[0], 0)?;
    let (first, second) = (top.subaction()?, top.subaction()?);
    second.lock(records[1])?;
    // By its number alone nobody knows that the topaction's read lock doesn't keep it out.
    let call = Call::Alter(second.id(), records[0], Change::Touch);
    thread::scope(|scope| {
        let first = waits(scope, &shared, || lock(first, records[1]));
        let reply = waits(scope, &shared, || shared.call_waiting(&call, LONG));
        thread::sleep(Duration::from_millis(20));
        reader.commit()?;
        joined(reply)?.answer()?.done()?;
        second.commit()?;
        joined(first)
    })?;
    top.commit()
}

// Numbers as if by chance.
struct Draws(u64);

impl Draws {
    fn below(&mut self, limit: u64) -> u64 {
        self.0 = self.0.wrapping_mul(6_364_136_223_846_793_005);
        self.0 = self.0.wrapping_add(1_442_695_040_888_963_407);
        (self.0 >> 33) % limit
    }
}

// Takes some locks in any order.
fn work(top: &SharedAction<'_>, records: &[ObjId], draws: &mut Draws) -> Outcome {
    for _ in 0..3 {
        let record = records[usize::try_from(draws.below(records.len() as u64)).expect("few")];
        match draws.below(5) {
            0 => drop(top.get::<i64>(record, 0)?),
            1 => {
                let sub = top.subaction()?;
                sub.lock(record)?;
                sub.commit()?;
            }
            2 => {
                let nested = top.nested()?;
                nested.get::<i64>(record, 0)?;
                nested.commit()?;
            }
            _ => top.lock(record)?,
        }
        thread::yield_now();
    }
    Ok(())
}

#[test]
fn no_circle_is_left_to_patience() -> Outcome {
    const ORDERS: usize = 150;
    let (shared, records) = with_records(5)?;
    let (start, refused) = (Instant::now(), AtomicU32::new(0));
    let order = |draws: &mut Draws| {
        let top = shared.topaction()?;
        work(&top, &records, draws)?;
        top.commit()
    };
    let until_done = |draws: &mut Draws| loop {
        match order(draws) {
            Err(Error::Deadlock(_)) => drop(refused.fetch_add(1, Ordering::Relaxed)),
            outcome => return outcome,
        }
    };
    let client = |number| {
        let mut draws = Draws(number);
        (0..ORDERS).try_for_each(|_| until_done(&mut draws))
    };
    thread::scope(|scope| {
        let client = &client;
        let clients: Vec<_> = (0..8).map(|it| scope.spawn(move || client(it))).collect();
        clients.into_iter().try_for_each(joined)
    })?;
    assert!(start.elapsed() < LONG, "{:?}", start.elapsed());
    assert!(refused.load(Ordering::Relaxed) > 0);
    Ok(())
}
