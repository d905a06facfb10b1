//! What it takes to read a log, to make its guardian again, and how long a log is.

use crate::bank::{ACCOUNTS, carry_out, database_in, logged_in, options};
use crate::orders::Order;
use argus_guardian::Listing;
use argus_guardian::log::{LoggedAction, LoggedError};
use std::error::Error;
use std::fs;
use std::path::Path;
use std::thread;
use std::time::Instant;

const CLIENTS: u32 = 16;

/// Opens a log: each of its calls is made again. One line: `log ENTRIES BATCHES BYTES OPENED OPENED`: the bytes are
/// those of the lines alone, the times are in seconds, first by the clock and then on the processor, where the system
/// counts that.
pub fn run(folder: &Path) -> Result<(), Box<dyn Error>> {
    let (logged, opened) = timed(|| Ok(options().open(database_in(folder))?))?;
    let found = logged.found();
    assert_eq!(found.aborted, 0);
    println!(
        "log {} {} {} {:.4} {:.4}",
        found.entries,
        found.batches,
        logged.list(Listing::Journal)?.len(),
        opened.clock,
        opened.processor
    );
    Ok(())
}

/// How many seconds something took, by the clock, and on the processor.
pub struct Taken {
    pub clock: f64,
    pub processor: f64,
}

/// Does it, and says how long it took.
pub fn timed<T>(
    work: impl FnOnce() -> Result<T, Box<dyn Error>>,
) -> Result<(T, Taken), Box<dyn Error>> {
    let (begin, from) = (Instant::now(), on_processor());
    let result = work()?;
    let taken = Taken {
        clock: begin.elapsed().as_secs_f64(),
        processor: on_processor() - from,
    };
    Ok((result, taken))
}

// The seconds that this thread has been on a processor, as Linux counts them; else 0.
fn on_processor() -> f64 {
    let counted = fs::read_to_string("/proc/thread-self/schedstat").unwrap_or_default();
    let nanoseconds = counted.split(' ').next().and_then(|it| it.parse().ok());
    nanoseconds.unwrap_or(0.0) / 1e9
}

/// Writes a log of that many entries, by many clients, whose commits share syncs.
pub fn write(folder: &Path, entries: u64) -> Result<(), Box<dyn Error>> {
    let logged = logged_in(folder)?;
    let serve = |client: u32| {
        let mut orders = (0..).map(|number| Order::drawn(client, number, ACCOUNTS));
        while logged.entries() < entries {
            let order = orders.next().expect("without end");
            carry_out(logged.topaction()?, &order, LoggedAction::commit)?;
        }
        Ok(())
    };
    thread::scope(|scope| {
        let clients: Vec<_> = (0..CLIENTS)
            .map(|client| scope.spawn(move || serve(client)))
            .collect();
        let ended = clients.into_iter().map(|it| it.join().expect("no panic"));
        ended.collect::<Result<(), LoggedError>>()
    })?;
    logged.barrier()?;
    Ok(())
}
