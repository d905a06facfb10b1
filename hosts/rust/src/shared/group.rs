//! `Group`: the commits that wait together for a log.

use crate::log::{Failure, JournalLines, LogCounts, LoggedError, Result};
use crate::shared::looking::{Sleeper, has_processors_for, look_for};
use std::collections::VecDeque;
use std::panic::{AssertUnwindSafe, catch_unwind, resume_unwind};
use std::sync::atomic::{AtomicU64, Ordering};
use std::sync::{Arc, Mutex, MutexGuard, OnceLock, PoisonError};
use std::thread::{self, ThreadId};
use std::time::{Duration, Instant};
use std::{io, mem};

// A write waits for other commits half of what it takes, and at most so long. One that takes longer has synced a
// disk, and those who wait for it sleep.
const GATHER: Duration = Duration::from_micros(200);

// A thread may lose its processor while it writes: one long write doesn't say that the disk is slow, some do.
const SUDDEN: Duration = Duration::from_micros(10);

/// That a log has all entries before a number, and so many openings.
pub(crate) type Goal = (u64, u64);

/// The commits that wait together for a log.
pub(crate) struct Group {
    queue: Mutex<Queue>,
    // How many batches have been written, or have failed.
    writes: AtomicU64,
    broken: OnceLock<Failure>,
}

// How far the log has come, and who waits.
#[derive(Default)]
struct Queue {
    // The entries before this number are in the log.
    safe: u64,
    // The thread that writes, and whether it still waits for others to share that; the one that wrote last; how many wait,
    // how many did when the last write ended, and what such writes take.
    writer: Option<ThreadId>,
    is_gathering: bool,
    last: Option<ThreadId>,
    waiting: usize,
    expected: usize,
    pace: Duration,
    // Those that sleep until this write ends; and those to be woken, since theirs has.
    sleeping: VecDeque<Arc<Sleeper>>,
    woken: VecDeque<Arc<Sleeper>>,
    counts: LogCounts,
}

/// A thread that panics is one that was writing, and then the log has failed.
pub(crate) fn locked<T: ?Sized>(mutex: &Mutex<T>) -> MutexGuard<'_, T> {
    mutex.lock().unwrap_or_else(PoisonError::into_inner)
}

impl Group {
    /// The log has the entries before this one.
    pub(crate) fn after(safe: u64) -> Group {
        let queue = Queue {
            safe,
            ..Queue::default()
        };
        Group {
            queue: Mutex::new(queue),
            writes: AtomicU64::new(0),
            broken: OnceLock::new(),
        }
    }

    /// What the log has done.
    pub(crate) fn counts(&self) -> LogCounts {
        locked(&self.queue).counts
    }

    /// Why the log is broken, if it is.
    pub(crate) fn broken(&self) -> Option<Failure> {
        self.broken.get().cloned()
    }

    /// The log has these lines, and writing them took so long.
    pub(crate) fn has_written(&self, lines: &JournalLines, pace: Duration) {
        let (mut queue, openings) = (locked(&self.queue), u64::from(lines.is_opening()));
        queue.safe = lines.next;
        queue.pace = pace.min(2 * queue.pace + SUDDEN);
        queue.counts.batches += 1 - openings;
        queue.counts.checkpoints += openings;
        queue.counts.entries += lines.next - lines.first;
        queue.counts.bytes += lines.text.len() as u64;
        queue.counts.time += pace;
    }

    /// Returns when the log has that. A thread that finds no other one writing writes the next batch, in this way, for all.
    pub(crate) fn wait(&self, goal: Goal, write: impl Fn() -> Result<(), Failure>) -> Result<()> {
        let this = Some(thread::current().id());
        let mut queue = locked(&self.queue);
        while !queue.has(goal) {
            if let Some(failure) = self.broken() {
                queue.counts.in_doubt += 1;
                return Err(LoggedError::InDoubt(failure));
            }
            assert_ne!(queue.writer, this, "a log waits for its own guardian");
            // Whoever wrote last takes over: what SQLite needs is in the cache of that one's processor.
            let takes_over = queue.is_gathering && queue.last == this;
            queue = if queue.writer.is_none() || takes_over {
                queue.writer = this;
                if self.gather(queue) {
                    self.write(&write);
                }
                locked(&self.queue)
            } else {
                self.rest(queue)
            };
        }
        Ok(())
    }

    // Waits a little until as many wait as at the last write: their commits share this one. Whether it is still for this
    // thread to write.
    fn gather<'q>(&'q self, mut queue: MutexGuard<'q, Queue>) -> bool {
        let this = queue.writer;
        let (start, patience) = (Instant::now(), GATHER.min(queue.pace / 2));
        queue.is_gathering = true;
        while queue.writer == this && queue.waiting < queue.expected && start.elapsed() < patience {
            drop(queue);
            thread::yield_now();
            queue = locked(&self.queue);
        }
        let is_writer = queue.writer == this;
        if is_writer {
            queue.is_gathering = false;
            queue.last = this;
        }
        is_writer
    }

    // Writes the next batch. Who waits then looks what the log has; one whose entries it hasn't writes the next one.
    fn write(&self, write: impl Fn() -> Result<(), Failure>) {
        let written = catch_unwind(AssertUnwindSafe(write));
        let panicked = |_: &_| Err(io::Error::other("the thread that wrote panicked").into());
        if let Err(failure) = written.as_ref().map_or_else(panicked, Clone::clone) {
            self.broken.get_or_init(|| failure);
        }
        let mut queue = locked(&self.queue);
        queue.writer = None;
        queue.expected = mem::take(&mut queue.waiting);
        self.writes.fetch_add(1, Ordering::Release);
        let Queue {
            sleeping, woken, ..
        } = &mut *queue;
        woken.append(sleeping);
        drop(queue);
        self.wake_next();
        if let Err(panic) = written {
            resume_unwind(panic);
        }
    }

    // Waits until what is written now has been. Where that is quick, and processors are left, it looks before it sleeps.
    fn rest<'q>(&'q self, mut queue: MutexGuard<'q, Queue>) -> MutexGuard<'q, Queue> {
        let before = self.writes.load(Ordering::Relaxed);
        let has_ended = || self.writes.load(Ordering::Acquire) != before;
        queue.waiting += 1;
        if queue.pace < GATHER && has_processors_for(queue.expected) {
            let patience = 2 * queue.pace;
            drop(queue);
            look_for(patience, has_ended);
            queue = locked(&self.queue);
        }
        if !has_ended() {
            let this = Sleeper::here();
            queue.sleeping.push_back(Arc::clone(&this));
            drop(queue);
            this.sleep();
            self.wake_next();
            queue = locked(&self.queue);
        }
        queue
    }

    // Wakes one of those whose write has ended, which wakes the next one: all at once would only wait for each other.
    fn wake_next(&self) {
        let next = locked(&self.queue).woken.pop_front();
        if let Some(sleeper) = next {
            sleeper.wake();
        }
    }
}

impl Queue {
    fn has(&self, goal: Goal) -> bool {
        self.safe >= goal.0 && self.counts.checkpoints >= goal.1
    }
}
