//! `Looking`: a thread that looks for something before it sleeps; `Sleeper`: one that sleeps until it is woken.

use std::hint::spin_loop;
use std::sync::atomic::{AtomicBool, AtomicUsize, Ordering};
use std::sync::{Arc, OnceLock};
use std::thread::{self, Thread, available_parallelism};
use std::time::{Duration, Instant};

/// How long a thread looks before it sleeps: some orders of a dozen calls, and about as long as it takes to be woken.
pub(crate) const LOOKS: Duration = Duration::from_micros(100);

// A thread pauses between two looks, first so many times, then twice as often each time up to the most: looks close
// together would take the cache line away from the thread that works, which then gets less done.
const FIRST_PAUSES: u32 = 128;
const MOST_PAUSES: u32 = 1024;

// How many threads of this process look for something.
static LOOKING: AtomicUsize = AtomicUsize::new(0);

// How many processors this process has.
fn processors() -> usize {
    static COUNT: OnceLock<usize> = OnceLock::new();
    *COUNT.get_or_init(|| available_parallelism().map_or(1, usize::from))
}

// The most that may: others need processors to get on, such as the thread that writes a log, and a few do to take over at
// once.
fn most_looking() -> usize {
    processors().min(8) / 2
}

/// How many threads look for a mutex, or are being woken to, where there are others: to be woken takes as long as some
/// orders, so that one alone would come too late.
pub(crate) fn enough_looking() -> usize {
    most_looking().clamp(1, 2)
}

/// Whether so many threads can look while another one works.
pub(crate) fn has_processors_for(threads: usize) -> bool {
    threads < processors()
}

/// A thread that looks for something, which keeps a processor busy.
#[derive(Debug)]
pub(crate) struct Looking {
    since: Instant,
}

impl Looking {
    /// This thread looks, unless enough do.
    pub(crate) fn begin() -> Option<Looking> {
        Looking::begin_beside(most_looking())
    }

    /// This thread, which was woken to look, does so though enough do, unless nothing can change meanwhile.
    pub(crate) fn begin_anyway() -> Option<Looking> {
        Looking::begin_beside(if most_looking() > 0 { usize::MAX } else { 0 })
    }

    // This thread looks, if fewer than so many do.
    fn begin_beside(most: usize) -> Option<Looking> {
        let others = LOOKING.fetch_add(1, Ordering::Relaxed);
        let looking = Looking {
            since: Instant::now(),
        };
        (others < most).then_some(looking)
    }

    /// Looks until that finds something, or for so long, and pauses before each time. `pause` is given how often it is to
    /// pause, and returns whether something has cut that short; `look` is given that, and how long this thread has looked.
    /// A thread that works and has no processor, such as one that writes a log, gets this one meanwhile.
    pub(crate) fn look<T>(
        &self,
        patience: Duration,
        pause: impl Fn(u32) -> bool,
        mut look: impl FnMut(bool, Duration) -> Option<T>,
    ) -> Option<T> {
        let mut pauses = FIRST_PAUSES;
        loop {
            let is_cut = pause(pauses);
            if !is_cut {
                thread::yield_now();
            }
            let passed = self.since.elapsed();
            let found = look(is_cut, passed);
            if found.is_some() || passed >= patience {
                return found;
            }
            if !is_cut {
                pauses = (2 * pauses).min(MOST_PAUSES);
            }
        }
    }
}

impl Drop for Looking {
    fn drop(&mut self) {
        LOOKING.fetch_sub(1, Ordering::Relaxed);
    }
}

/// This thread looks for so long whether that has come, unless enough look for something.
pub(crate) fn look_for(patience: Duration, has_come: impl Fn() -> bool) {
    if let Some(looking) = Looking::begin().filter(|_| !has_come()) {
        let pauses = |times| {
            pause(times);
            false
        };
        looking.look(patience, pauses, |_, _| has_come().then_some(()));
    }
}

/// Pauses so many times.
pub(crate) fn pause(times: u32) {
    (0..times).for_each(|_| spin_loop());
}

/// A thread that sleeps until it is woken.
#[derive(Debug)]
pub(crate) struct Sleeper {
    is_woken: AtomicBool,
    thread: Thread,
}

impl Sleeper {
    /// This thread, which doesn't sleep yet.
    pub(crate) fn here() -> Arc<Sleeper> {
        Arc::new(Sleeper {
            is_woken: AtomicBool::new(false),
            thread: thread::current(),
        })
    }

    pub(crate) fn is_woken(&self) -> bool {
        self.is_woken.load(Ordering::Acquire)
    }

    pub(crate) fn wake(&self) {
        self.is_woken.store(true, Ordering::Release);
        self.thread.unpark();
    }

    /// It is as if this thread hadn't been woken.
    pub(crate) fn forget(&self) {
        self.is_woken.store(false, Ordering::Relaxed);
    }

    /// This thread sleeps until it is woken, unless it was.
    pub(crate) fn sleep(&self) {
        while !self.is_woken() {
            thread::park();
        }
    }

    /// The same, at most for so long.
    pub(crate) fn sleep_for(&self, patience: Duration) {
        let start = Instant::now();
        while !self.is_woken() {
            let left = patience.saturating_sub(start.elapsed());
            if left.is_zero() {
                break;
            }
            thread::park_timeout(left);
        }
    }
}
