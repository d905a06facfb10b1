//! Threads that take a shared guardian's mutex in turns: more than there are processors, and each goes on.

use argus_guardian::{Access, Error, Guardian, ObjId, Shared};
use std::sync::atomic::{AtomicBool, AtomicU32, Ordering};
use std::thread;
use std::time::Duration;

const THREADS: u32 = 32;

fn with_counters() -> Result<(Shared, Vec<ObjId>), Error> {
    let mut guardian = Guardian::new()?;
    let declared = (0..THREADS).map(|_| guardian.declare("atomic_record[n:int]"));
    let counters: Vec<ObjId> = declared.collect::<Result<_, _>>()?;
    let top = guardian.topaction()?;
    for counter in &counters {
        top.create(*counter, (0,))?;
    }
    top.commit()?;
    Ok((Shared::new(guardian, Duration::from_secs(300)), counters))
}

#[test]
fn nothing_is_lost_among_many_threads() -> Result<(), Error> {
    const EACH: u32 = 300;
    let (shared, counters) = with_counters()?;
    let work = |thread: u32| {
        for turn in 0..EACH {
            // All want the first one, and some take a rest while they have it.
            let second = counters[1 + (thread + turn) as usize % (counters.len() - 1)];
            shared.run(|top| {
                for counter in [counters[0], second] {
                    top.lock(counter)?;
                    top.set(counter, 0, top.get::<i64>(counter, 0)? + 1)?;
                }
                if turn % 64 == thread % 64 {
                    thread::sleep(Duration::from_micros(300));
                }
                Ok::<_, Error>(())
            })?;
        }
        Ok::<_, Error>(())
    };
    thread::scope(|scope| {
        let all: Vec<_> = (0..THREADS)
            .map(|it| scope.spawn(move || work(it)))
            .collect();
        let mut ended = all.into_iter().map(|it| it.join().expect("no panic"));
        ended.try_for_each(|it| it)
    })?;
    let top = shared.topaction()?;
    let held = counters.iter().map(|it| top.get::<i64>(*it, 0));
    let held: Vec<i64> = held.collect::<Result<_, _>>()?;
    assert_eq!(held[0], i64::from(THREADS * EACH));
    assert_eq!(held[1..].iter().sum::<i64>(), held[0]);
    Ok(())
}

// Those that go on come first, but not for ever.
#[test]
fn who_begins_does_so_while_others_go_on() -> Result<(), Error> {
    let (shared, counters) = with_counters()?;
    let (is_over, calls) = (AtomicBool::new(false), AtomicU32::new(0));
    thread::scope(|scope| {
        for counter in &counters {
            let (shared, is_over, calls) = (&shared, &is_over, &calls);
            scope.spawn(move || {
                let top = shared.topaction().expect("begun");
                while !is_over.load(Ordering::Relaxed) {
                    top.get::<i64>(*counter, 0).expect("read");
                    calls.fetch_add(1, Ordering::Relaxed);
                }
            });
        }
        while calls.load(Ordering::Relaxed) < 10 * THREADS {
            thread::yield_now();
        }
        let begun: Result<Vec<()>, Error> =
            (0..100).map(|_| shared.topaction()?.commit()).collect();
        is_over.store(true, Ordering::Relaxed);
        begun.map(drop)
    })
}
