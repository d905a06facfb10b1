//! What a shared guardian keeps behind its mutex, and to which thread it is lent.

use crate::call::Call;
use crate::error::Error;
use crate::guardian::Guardian;
use crate::ids::ActionId;
use crate::reply::{Answer, Reply};
use crate::request::Request;
use crate::shared::Shared;
use crate::shared::circles::{Deadlock, Stuck, circle_with};
use crate::shared::folding::Growth;
use crate::shared::looking::Sleeper;
use crate::shared::waits::{WaitGoal, Waiter};
use std::sync::atomic::{AtomicUsize, Ordering};
use std::sync::{Arc, Mutex, MutexGuard, PoisonError};
use std::{mem, ptr};

/// What a shared guardian keeps behind its mutex.
#[derive(Debug)]
pub(crate) struct SharedState {
    pub(crate) guardian: Guardian,
    /// How many threads wait until no action is live, to fold the journal: meanwhile no topaction begins.
    pub(crate) folding: u32,
    /// How far the journal has grown.
    pub(crate) growth: Growth,
    // The threads that wait, in order of arrival.
    waiting: Vec<Waiter>,
    // The actions that can't end before these threads' accesses are made, sorted; once for each access.
    held_up: Vec<ActionId>,
    // How many have waited so far.
    waited: u64,
}

impl SharedState {
    pub(crate) fn new(guardian: Guardian) -> SharedState {
        SharedState {
            growth: Growth::of(&guardian, Some(Shared::FOLD_AFTER)),
            guardian,
            folding: 0,
            waiting: Vec::new(),
            held_up: Vec::new(),
            waited: 0,
        }
    }

    /// Makes one call without a text.
    pub(crate) fn call(&mut self, call: &Call) -> Result<Reply, Error> {
        self.make(&mut Request::of(call))
    }

    /// Makes one call. If it ended actions, those who wait and may go on are woken. If it got a lock for an action that
    /// also waits, in another thread, circles are looked for.
    pub(crate) fn make(&mut self, request: &mut Request<'_>) -> Result<Reply, Error> {
        debug_assert!(
            !request.is_unread(),
            "a long text is read before the mutex is had"
        );
        let reply = self.guardian.make(request)?;
        self.growth.entries += 1;
        match request.call {
            Call::Commit(_) | Call::Abort(_) | Call::AbortOthers(_) => {
                if reply == Reply::Answered(Answer::Done) {
                    self.wake();
                }
            }
            Call::Ask(action, ..)
            | Call::Alter(action, ..)
            | Call::TestRead(action, _)
            | Call::TestWrite(action, _) => {
                if matches!(reply, Reply::Answered(_)) {
                    self.break_circles_within(*action);
                }
            }
            Call::Declare(_) | Call::BeginTop | Call::BeginSub(_) | Call::BeginNested(_) => {}
        }
        Ok(reply)
    }

    /// Ends an action. If that is a subaction, its topaction is named.
    pub(crate) fn end(&mut self, call: &Call, topaction: Option<ActionId>) -> Result<(), Error> {
        self.call(call)?.answer()?.done()?;
        if let Some(topaction) = topaction {
            self.break_circles_within(topaction);
        }
        Ok(())
    }

    /// This thread waits for that from now on. Returns its number, and as what it sleeps.
    pub(crate) fn join(&mut self, goal: WaitGoal) -> (u64, Arc<Sleeper>) {
        let sleeper = Sleeper::here();
        if let WaitGoal::Access(access) = &goal {
            self.held_up.extend(access.lineage.all());
            self.held_up.sort_unstable();
        }
        self.waited += 1;
        self.waiting.push(Waiter {
            number: self.waited,
            goal,
            deadlock: None,
            sleeper: Arc::clone(&sleeper),
        });
        (self.waited, sleeper)
    }

    fn waiter(&mut self, number: u64) -> Option<&mut Waiter> {
        self.waiting.iter_mut().find(|it| it.number == number)
    }

    /// Whether the waiter of this number is refused.
    pub(crate) fn is_refused(&mut self, number: u64) -> bool {
        self.waiter(number).is_some_and(|it| it.deadlock.is_some())
    }

    /// The waiter of this number waits no more. What was left to it and it hasn't taken goes to another one. Returns why
    /// it was refused.
    pub(crate) fn leave(&mut self, number: u64) -> Option<Deadlock> {
        let place = self.waiting.iter().position(|it| it.number == number)?;
        let waiter = self.waiting.remove(place);
        let held_up = waiter.access().map_or(&[][..], |it| it.lineage.all());
        for action in held_up {
            self.held_up
                .remove(self.held_up.partition_point(|it| it < action));
        }
        self.wake();
        waiter.deadlock
    }

    /// Wakes each thread that may go on, in order of arrival.
    pub(crate) fn wake(&mut self) {
        self.wake_each(|_| true);
    }

    /// A thread that was woken can't go on, because another one came first. What was left to it goes to those whose
    /// access may still be made.
    pub(crate) fn pass_on(&mut self) {
        // Two that wait until no action is live would wake each other for ever.
        self.wake_each(|it| it.access().is_some());
    }

    // Wakes each of these that may go on.
    fn wake_each(&mut self, is_meant: impl Fn(&Waiter) -> bool) {
        for place in 0..self.waiting.len() {
            let waiter = &self.waiting[place];
            if !waiter.is_woken() && is_meant(waiter) && self.may_go_on(place) {
                self.waiting[place].sleeper.wake();
            }
        }
    }

    // Whether its lock is free and wasn't left to another one that was woken, or its action is over.
    fn may_go_on(&self, place: usize) -> bool {
        match &self.waiting[place].goal {
            WaitGoal::Access(access) if access.may_be_made(&self.guardian) => {
                let mut woken = self.waiting.iter().filter(|it| it.is_woken());
                let left_to = |it: &Waiter| it.access().is_some_and(|it| it.conflicts_with(access));
                !woken.any(left_to)
            }
            WaitGoal::Access(access) => access.is_over(&self.guardian),
            // It tries whether that is so.
            WaitGoal::NoLiveAction => true,
            WaitGoal::NoFolding => self.folding == 0,
        }
    }

    fn stuck(&self) -> impl Iterator<Item = Stuck<'_>> {
        self.waiting.iter().filter_map(Waiter::stuck)
    }

    /// This action has got a lock, or a subaction in it has ended and left it some. If others wait for them, and it is
    /// kept from its end by an access that waits, that closes a circle.
    pub(crate) fn break_circles_within(&mut self, action: ActionId) {
        if self.held_up.binary_search(&action).is_err() {
            return;
        }
        let within = |it: &Stuck<'_>| it.access.lineage.all().contains(&action);
        let numbers: Vec<u64> = self.stuck().filter(within).map(|it| it.number).collect();
        for number in numbers {
            self.break_circles(number);
        }
    }

    /// Refuses the youngest of each circle that the waiter of this number is in.
    pub(crate) fn break_circles(&mut self, number: u64) {
        while let Some((youngest, deadlock)) = self.deadlock_with(number) {
            if let Some(waiter) = self.waiter(youngest) {
                waiter.refuse(deadlock);
            }
        }
    }

    // A circle that the waiter of this number is in, beginning with its youngest, and that one's number.
    fn deadlock_with(&self, number: u64) -> Option<(u64, Deadlock)> {
        let all: Vec<Stuck<'_>> = self.stuck().collect();
        let first = *all.iter().find(|it| it.number == number)?;
        let mut circle = circle_with(&self.guardian, first, &all)?;
        let youngest = (0..circle.len()).max_by_key(|it| circle[*it].access.age())?;
        circle.rotate_left(youngest);
        Some((circle[0].number, Deadlock::of(&circle, &self.guardian)))
    }
}

/// An action whose guard is gone.
#[derive(Debug, Clone, Copy)]
pub(crate) struct DroppedAction {
    pub(crate) id: ActionId,
    /// Its topaction, if it is a subaction.
    pub(crate) topaction: Option<ActionId>,
    /// Whether nothing is around it.
    pub(crate) is_outermost: bool,
}

/// Which thread a shared guardian is lent to, by [`Shared::with`](crate::Shared::with), and which actions that thread
/// has dropped meanwhile. The thread has the guardian's mutex: to lock that again it would wait for itself.
#[derive(Debug, Default)]
pub(crate) struct Borrower {
    // The thread's address of `HERE`, or 0: it isn't lent.
    thread: AtomicUsize,
    dropped: Mutex<Vec<DroppedAction>>,
}

thread_local! {
    // Its address is another one in each thread that lives.
    static HERE: u8 = const { 0 };
}

fn here() -> usize {
    HERE.with(|it| ptr::from_ref(it).addr())
}

impl Borrower {
    /// Whether it is lent to this thread. No other thread writes this thread's address, so no order is needed.
    #[inline]
    pub(crate) fn is_here(&self) -> bool {
        let thread = self.thread.load(Ordering::Relaxed);
        thread != 0 && thread == here()
    }

    /// It is lent to this thread, which has the mutex.
    pub(crate) fn begin(&self) {
        self.thread.store(here(), Ordering::Relaxed);
    }

    /// It is lent no more. Returns the actions that were dropped meanwhile.
    pub(crate) fn end(&self) -> Vec<DroppedAction> {
        self.thread.store(0, Ordering::Relaxed);
        mem::take(&mut self.dropped())
    }

    /// This thread, to which it is lent, drops the action. If there is no memory to note that, the action stays live.
    pub(crate) fn drop_later(&self, action: DroppedAction) {
        let mut dropped = self.dropped();
        if dropped.try_reserve(1).is_ok() {
            dropped.push(action);
        }
    }

    fn dropped(&self) -> MutexGuard<'_, Vec<DroppedAction>> {
        self.dropped.lock().unwrap_or_else(PoisonError::into_inner)
    }
}
