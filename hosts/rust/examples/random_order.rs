//! Orders that lock two of a few records, in random order and sorted, by many threads.
//!
//! In random order threads often wait for one another in a circle: how many orders are carried out, and
//! how long they take, says how soon that is noticed.
//!
//!     cargo run --release --example random_order [SECONDS]

use argus_guardian::{Access, Error, Guardian, ObjId, Shared};
use std::hash::{BuildHasher, Hasher, RandomState};
use std::thread;
use std::time::{Duration, Instant};

const THREADS: usize = 8;
const RECORDS: u64 = 20;
const SECONDS: u64 = 6;
/// What an order does between its locks, and before its end.
const PAUSE: Duration = Duration::from_millis(1);

/// Numbers as if by chance.
struct Draws(u64);

impl Draws {
    fn seeded() -> Draws {
        Draws(RandomState::new().build_hasher().finish())
    }

    fn below(&mut self, limit: u64) -> u64 {
        self.0 = self.0.wrapping_mul(6_364_136_223_846_793_005);
        self.0 = self.0.wrapping_add(1_442_695_040_888_963_407);
        (self.0 >> 33) % limit
    }

    /// Two different ones of these.
    fn two_of(&mut self, records: &[ObjId]) -> [ObjId; 2] {
        let first = self.below(RECORDS);
        let second = (first + 1 + self.below(RECORDS - 1)) % RECORDS;
        [first, second].map(|it| records[usize::try_from(it).expect("few")])
    }
}

fn order(shared: &Shared, two: [ObjId; 2]) -> Result<(), Error> {
    shared.run(|top| {
        for record in two {
            top.lock(record)?;
            thread::sleep(PAUSE);
        }
        Ok(())
    })
}

/// How long each order of one thread took.
fn orders(shared: &Shared, records: &[ObjId], sorts: bool, end: Instant) -> Vec<Duration> {
    let mut draws = Draws::seeded();
    let mut taken = Vec::new();
    while Instant::now() < end {
        let mut two = draws.two_of(records);
        if sorts {
            two.sort();
        }
        let start = Instant::now();
        // An order that gives up after so many tries isn't counted.
        if order(shared, two).is_ok() {
            taken.push(start.elapsed());
        }
    }
    taken
}

fn run(sorts: bool, seconds: u64) -> Result<Vec<Duration>, Error> {
    let guardian = Guardian::new()?;
    let declared = (0..RECORDS).map(|_| guardian.declare("atomic_record[n:int]"));
    let records: Vec<ObjId> = declared.collect::<Result<_, _>>()?;
    let shared = Shared::from(guardian);
    shared.run(|top| {
        let create = |it| top.create(it, (0,));
        records.iter().try_for_each(create)
    })?;
    let end = Instant::now() + Duration::from_secs(seconds);
    let mut taken: Vec<Duration> = thread::scope(|scope| {
        let work = || orders(&shared, &records, sorts, end);
        let threads = [(); THREADS].map(|()| scope.spawn(work));
        let taken = threads.into_iter().map(|it| it.join().expect("no panic"));
        taken.flatten().collect()
    });
    taken.sort();
    Ok(taken)
}

fn main() -> Result<(), Error> {
    let seconds = std::env::args().nth(1).and_then(|it| it.parse().ok());
    for (name, sorts) in [("in random order", false), ("sorted", true)] {
        let taken = run(sorts, seconds.unwrap_or(SECONDS))?;
        let at = |percent: usize| taken[(taken.len() - 1) * percent / 100];
        println!(
            "{name}: {} orders, half of them within {:?}, 99 % within {:?}",
            taken.len(),
            at(50),
            at(99)
        );
    }
    Ok(())
}
