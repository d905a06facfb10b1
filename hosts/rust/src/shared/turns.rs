//! `Turns`: the mutex of a shared guardian, which threads take in turns.

use crate::shared::looking::{LOOKS, Looking, Sleeper, enough_looking, pause};
use std::collections::VecDeque;
use std::mem;
use std::ops::{Deref, DerefMut};
use std::sync::atomic::{AtomicU32, AtomicUsize, Ordering, fence};
use std::sync::{Arc, Mutex, MutexGuard, PoisonError, TryLockError};
use std::time::Duration;

// How long a thread that looks leaves the mutex to one that takes it again and again: what it guards is in that one's
// cache.
const COURTESY: Duration = Duration::from_micros(80);

// Each time that it was taken so often, one that sleeps is woken, though others look for it.
const LONG: u32 = 256;

// So many pauses are made between two looks whether somebody has handed it on.
const SHORT: u32 = 16;

/// A mutex, around std's. Who finds it taken looks for it a while, if not too many do, and then sleeps. Who frees it
/// wakes a thread only if too few look for it: a call is much shorter than a wake-up, so those that are awake do better
/// to go on among themselves.
#[derive(Debug)]
pub(crate) struct Turns<T> {
    kept: Mutex<T>,
    // How often it was taken: only who has it counts.
    taken: AtomicU32,
    handed_on: HandedOn,
    // How many look for it, or were woken to do so; how many sleep, and how many of these aren't the last ones.
    looking: AtomicUsize,
    sleeping: AtomicUsize,
    hurried: AtomicUsize,
    sleepers: Mutex<Sleepers>,
}

// Those that sleep, in order of arrival: those that go on, and the last ones, which begin.
#[derive(Debug, Default)]
struct Sleepers {
    first: VecDeque<Arc<Sleeper>>,
    last: VecDeque<Arc<Sleeper>>,
}

impl<T> Turns<T> {
    pub(crate) fn new(kept: T) -> Turns<T> {
        Turns {
            kept: Mutex::new(kept),
            taken: AtomicU32::new(0),
            handed_on: HandedOn::default(),
            looking: AtomicUsize::new(0),
            sleeping: AtomicUsize::new(0),
            hurried: AtomicUsize::new(0),
            sleepers: Mutex::default(),
        }
    }

    pub(crate) fn get_mut(&mut self) -> &mut T {
        self.kept.get_mut().unwrap_or_else(PoisonError::into_inner)
    }

    pub(crate) fn into_inner(self) -> T {
        let kept = self.kept.into_inner();
        kept.unwrap_or_else(PoisonError::into_inner)
    }

    /// Takes it.
    #[inline]
    pub(crate) fn take(&self) -> Taken<'_, T> {
        let kept = self.try_take();
        self.taken(kept.unwrap_or_else(|| self.take_slowly(false)))
    }

    /// Takes it to begin something, after those that sleep and have begun: they have locks that others wait for.
    pub(crate) fn take_last(&self) -> Taken<'_, T> {
        let kept = if self.has_hurried() {
            None
        } else {
            self.try_take()
        };
        self.taken(kept.unwrap_or_else(|| self.take_slowly(true)))
    }

    fn has_hurried(&self) -> bool {
        self.hurried.load(Ordering::Relaxed) > 0
    }

    #[inline]
    fn taken<'t>(&'t self, kept: MutexGuard<'t, T>) -> Taken<'t, T> {
        let taken = self.taken.load(Ordering::Relaxed).wrapping_add(1);
        self.taken.store(taken, Ordering::Relaxed);
        let turn = Turn {
            turns: self,
            is_long: taken % LONG == 0,
            is_handed_on: false,
        };
        Taken { kept, turn }
    }

    // Who panics leaves what is kept between two calls, so a poisoned mutex is as good as any.
    #[inline]
    fn try_take(&self) -> Option<MutexGuard<'_, T>> {
        match self.kept.try_lock() {
            Ok(kept) => Some(kept),
            Err(TryLockError::Poisoned(kept)) => Some(kept.into_inner()),
            Err(TryLockError::WouldBlock) => None,
        }
    }

    #[cold]
    #[inline(never)]
    fn take_slowly(&self, is_last: bool) -> MutexGuard<'_, T> {
        self.looking.fetch_add(1, Ordering::SeqCst);
        let mut has_slept = false;
        let mut looking = Looking::begin().filter(|_| !is_last || !self.has_hurried());
        loop {
            let found = looking.and_then(|it| self.look(&it));
            if let Some(kept) = found {
                self.looking.fetch_sub(1, Ordering::SeqCst);
                return kept;
            }
            if let Some(kept) = self.sleep(is_last, has_slept) {
                return kept;
            }
            has_slept = true;
            looking = Looking::begin_anyway();
        }
    }

    // Looks for it when somebody hands it on, when nobody has taken it between two looks, and after some time.
    fn look(&self, looking: &Looking) -> Option<MutexGuard<'_, T>> {
        let mut before = self.taken.load(Ordering::Relaxed);
        let pause = |pauses| self.handed_on.comes_within(pauses);
        looking.look(LOOKS, pause, |is_handed_on, passed| {
            let taken = self.taken.load(Ordering::Relaxed);
            let is_quiet = mem::replace(&mut before, taken) == taken;
            let may_take = is_handed_on || is_quiet || passed >= COURTESY;
            may_take.then(|| self.try_take()).flatten()
        })
    }

    // This thread looks no more, and sleeps until it is woken to look again; unless it finds the mutex free. Who has
    // slept before is the next one to be woken.
    fn sleep(&self, is_last: bool, has_slept: bool) -> Option<MutexGuard<'_, T>> {
        let this = Sleeper::here();
        self.with_sleepers(|Sleepers { first, last }| {
            let these = if is_last { last } else { first };
            let place = if has_slept { 0 } else { these.len() };
            these.insert(place, Arc::clone(&this));
        });
        self.looking.fetch_sub(1, Ordering::SeqCst);
        // Either it is found free here, or who has it finds this thread when it frees it.
        fence(Ordering::SeqCst);
        let found = self.try_take();
        if is_last && !has_slept && self.has_hurried() {
            // It is for those that have begun: whoever has it wakes one of them.
            drop(found.map(|it| self.taken(it)));
        } else if found.is_some() {
            self.stay_awake(&this);
            return found;
        }
        this.sleep();
        None
    }

    // This thread doesn't sleep after all.
    fn stay_awake(&self, this: &Arc<Sleeper>) {
        let sleeps = self.with_sleepers(|Sleepers { first, last }| {
            let count = first.len() + last.len();
            first.retain(|it| !Arc::ptr_eq(it, this));
            last.retain(|it| !Arc::ptr_eq(it, this));
            first.len() + last.len() < count
        });
        if !sleeps {
            // It was woken, and counted as one that looks.
            self.looking.fetch_sub(1, Ordering::SeqCst);
        }
    }

    // Wakes one that has begun, if there is any, or else one that begins; or the other way round, so that all go on.
    #[cold]
    #[inline(never)]
    fn wake_one(&self, is_last: bool) {
        let woken = self.with_sleepers(|Sleepers { first, last }| {
            let (these, others) = if is_last {
                (last, first)
            } else {
                (first, last)
            };
            let woken = these.pop_front().or_else(|| others.pop_front())?;
            self.looking.fetch_add(1, Ordering::SeqCst);
            Some(woken)
        });
        if let Some(sleeper) = woken {
            sleeper.wake();
        }
    }

    fn with_sleepers<R>(&self, what: impl FnOnce(&mut Sleepers) -> R) -> R {
        let sleepers = self.sleepers.lock();
        let mut sleepers = sleepers.unwrap_or_else(PoisonError::into_inner);
        let said = what(&mut sleepers);
        let (first, last) = (sleepers.first.len(), sleepers.last.len());
        self.hurried.store(first, Ordering::SeqCst);
        self.sleeping.store(first + last, Ordering::SeqCst);
        said
    }
}

/// What is kept, while this thread has the mutex.
#[derive(Debug)]
pub(crate) struct Taken<'t, T> {
    // It is freed before the turn ends.
    kept: MutexGuard<'t, T>,
    turn: Turn<'t, T>,
}

impl<T> Taken<'_, T> {
    /// This thread won't take it again soon.
    pub(crate) fn hand_on(&mut self) {
        self.turn.is_handed_on = true;
    }
}

impl<T> Deref for Taken<'_, T> {
    type Target = T;

    #[inline]
    fn deref(&self) -> &T {
        &self.kept
    }
}

impl<T> DerefMut for Taken<'_, T> {
    #[inline]
    fn deref_mut(&mut self) -> &mut T {
        &mut self.kept
    }
}

#[derive(Debug)]
struct Turn<'t, T> {
    turns: &'t Turns<T>,
    is_long: bool,
    is_handed_on: bool,
}

impl<T> Drop for Turn<'_, T> {
    #[inline]
    fn drop(&mut self) {
        let turns = self.turns;
        if self.is_handed_on {
            turns.handed_on.0.fetch_add(1, Ordering::Relaxed);
        }
        fence(Ordering::SeqCst);
        if turns.sleeping.load(Ordering::Relaxed) > 0
            && (self.is_long || turns.looking.load(Ordering::Relaxed) < enough_looking())
        {
            turns.wake_one(self.is_long);
        }
    }
}

// How often somebody has handed it on. It is alone in its cache lines, so that who looks at it all the time takes them
// away from nobody.
#[derive(Debug, Default)]
#[repr(align(128))]
struct HandedOn(AtomicU32);

impl HandedOn {
    // Pauses so many times, or until somebody hands it on; whether somebody does.
    fn comes_within(&self, pauses: u32) -> bool {
        let before = self.0.load(Ordering::Relaxed);
        (0..pauses / SHORT).any(|_| {
            pause(SHORT);
            self.0.load(Ordering::Relaxed) != before
        })
    }
}
