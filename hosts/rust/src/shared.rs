//! `Shared`: a guardian that threads share.

pub(crate) mod action;
pub(crate) mod circles;
mod folding;
#[cfg(feature = "logged")]
pub(crate) mod group;
pub(crate) mod looking;
pub(crate) mod retry;
mod state;
#[cfg(feature = "logged")]
pub(crate) mod taking;
mod turns;
mod waits;

use crate::access::explained;
use crate::call::Call;
use crate::error::Error;
use crate::guardian::Guardian;
use crate::ids::ActionId;
use crate::object::{AsObject, Object};
use crate::reply::{Answer, Reply};
use crate::request::Request;
use crate::shared::action::SharedAction;
use crate::shared::circles::Deadlock;
use crate::shared::looking::{LOOKS, look_for};
use crate::shared::state::{Borrower, DroppedAction, SharedState};
use crate::shared::turns::{Taken, Turns};
use crate::shared::waits::{AccessAgain, Attempt, CONFLICT, Lineage, WaitGoal, WaitingAccess};
use std::time::{Duration, Instant};

/// A guardian that threads share: a mutex around each call. A thread that waits for it, or for a lock on
/// an object, looks for a fraction of a millisecond whether it is free, if processors are left for that,
/// and then sleeps until it is woken.
///
/// The reply to one call is proved, as for a [`Guardian`]. **This type isn't**: not that a wait
/// ends, which thread is woken first, or what a call finds after a wait.
///
/// An access waits for its lock until its patience ends, and is then refused with `Conflict`: abort
/// the topaction, and begin it again, as [`run`](Self::run) does.
///
/// Topactions may wait for one another in a circle. It is found when it closes, and the youngest in
/// it, whose topaction has the highest number, is refused with `Conflict` at once: its error is a
/// [`Deadlock`], which names the others. These go on when its topaction is aborted.
/// This costs a topaction, so avoid circles:
///
/// - Two have read an object, and both want to write it. If an action will write what it reads, call
///   [`lock`](crate::Access::lock) before it reads; then they take turns.
/// - Each has locked what the next one wants. Take locks in one order, such as by the number of the
///   object.
///
/// An action that waits is taken to keep its locks, and so are those around it, though another thread
/// could abort them. Of an action that is named by its number ([`call_waiting`](Self::call_waiting))
/// those around it aren't known, and nobody looks at an end by a number, or at calls inside
/// [`with`](Self::with): a circle that these close may last until patience ends.
///
/// ```
/// use argus_guardian::{Access, Guardian, Shared};
/// use std::thread;
///
/// let shared = Shared::from(Guardian::new()?);
/// let account = shared.named("account", "atomic_record[balance:int]")?;
/// shared.run(|top| top.create(&account, (0,)))?;
/// thread::scope(|scope| {
///     for amount in [70, 30] {
///         let (shared, account) = (&shared, &account);
///         scope.spawn(move || {
///             shared.run(|top| top.update(account, "balance", |it: i64| it + amount))
///         });
///     }
/// });
/// assert_eq!(shared.into_inner().base(&account)?, Some((100,).into()));
/// # Ok::<(), argus_guardian::Error>(())
/// ```
#[derive(Debug)]
pub struct Shared {
    state: Turns<SharedState>,
    borrower: Borrower,
    patience: Duration,
}

impl From<Guardian> for Shared {
    /// Shares a guardian, with [`Shared::PATIENCE`].
    fn from(guardian: Guardian) -> Shared {
        Shared::new(guardian, Shared::PATIENCE)
    }
}

impl Shared {
    /// How long accesses wait at most by default: a second.
    ///
    /// ```
    /// use argus_guardian::{Guardian, Shared};
    /// assert_eq!(Shared::from(Guardian::new()?).patience(), Shared::PATIENCE);
    /// # Ok::<(), argus_guardian::Error>(())
    /// ```
    pub const PATIENCE: Duration = Duration::from_secs(1);

    /// Shares a guardian. An access by a [`SharedAction`] waits for its lock at most for this patience.
    ///
    /// ```
    /// use argus_guardian::{Guardian, Shared};
    /// use std::time::Duration;
    /// let shared = Shared::new(Guardian::new()?, Duration::from_millis(100));
    /// # Ok::<(), argus_guardian::Error>(())
    /// ```
    #[must_use]
    pub fn new(guardian: Guardian, patience: Duration) -> Shared {
        Shared {
            state: Turns::new(SharedState::new(guardian)),
            borrower: Borrower::default(),
            patience,
        }
    }

    #[track_caller]
    pub(crate) fn lock(&self) -> Taken<'_, SharedState> {
        self.refuse_borrower();
        self.state.take()
    }

    #[track_caller]
    fn refuse_borrower(&self) {
        assert!(
            !self.borrower.is_here(),
            "this thread is inside `Shared::with` of the same guardian, and would wait for itself"
        );
    }

    // Waits for that. Each time that it is woken, and when the patience is over, it makes an attempt, and waits on if that
    // fails. Also returns the circle for which it waits no longer.
    pub(crate) fn wait_while<'s>(
        &'s self,
        mut state: Taken<'s, SharedState>,
        goal: WaitGoal,
        patience: Duration,
        attempt: &mut impl Attempt,
    ) -> (Taken<'s, SharedState>, Option<Deadlock>) {
        let start = Instant::now();
        let (number, sleeper) = state.join(goal);
        state.break_circles(number);
        while !state.is_refused(number) {
            if !attempt.is_ready() {
                drop(state);
                let is_ready = attempt.get_ready();
                state = self.lock();
                if !is_ready {
                    break;
                }
            }
            let left = patience.saturating_sub(start.elapsed());
            drop(state);
            look_for(LOOKS.min(left), || sleeper.is_woken());
            sleeper.sleep_for(left);
            state = self.lock();
            sleeper.forget();
            if !attempt.fails(&mut state) || start.elapsed() >= patience {
                break;
            }
            state.pass_on();
            state.break_circles(number);
        }
        let deadlock = state.leave(number);
        (state, deadlock)
    }

    /// Makes one call, and waits only for the mutex. After a commit, an abort or an abort of
    /// siblings that was done, those waiting threads are woken that may go on.
    ///
    /// # Errors
    ///
    /// As for [`Guardian::call`].
    ///
    /// ```
    /// use argus_guardian::{ActionId, Call, Guardian, Reply, Shared};
    /// use std::time::Duration;
    /// let shared = Shared::new(Guardian::new()?, Duration::ZERO);
    /// assert_eq!(shared.call(&Call::BeginTop)?, Reply::Begun(ActionId::numbered(0)));
    /// # Ok::<(), argus_guardian::Error>(())
    /// ```
    pub fn call(&self, call: &Call) -> Result<Reply, Error> {
        let mut request = Request::read(call)?;
        self.lock().make(&mut request)
    }

    // Ends an action. If that is a subaction, its topaction is named. After an outermost one the journal is folded, if
    // that is due. Returns what this function says of the guardian before that.
    pub(crate) fn end<T>(
        &self,
        call: &Call,
        topaction: Option<ActionId>,
        is_outermost: bool,
        waits: bool,
        what: impl FnOnce(&Guardian) -> T,
    ) -> Result<T, Error> {
        let mut state = self.lock();
        state.end(call, topaction)?;
        let said = what(&state.guardian);
        if waits {
            state.hand_on();
        }
        if is_outermost {
            self.fold_ended(call, state);
        }
        Ok(said)
    }

    /// Makes a call that may wait: while it is refused with `Conflict`, it waits until its lock is
    /// free, at most for this patience, and is then made again. The journal has an entry each time
    /// that the call is made. These are few: it is made again when the lock is free, when its action
    /// is over, and when the patience is over.
    ///
    /// If its action is the youngest of a circle of actions that wait for one another, it is refused at once:
    /// when the call closes the circle, or later, when another one does. Locks of its ancestors count as its own if a
    /// [`SharedAction`] makes the call.
    ///
    /// # Errors
    ///
    /// As for [`Guardian::call`].
    ///
    /// ```
    /// use argus_guardian::{Access, Call, Change, Guardian, Refusal, Reply, Shared};
    /// use std::time::Duration;
    /// let guardian = Guardian::new()?;
    /// let object = guardian.declare("atomic_array[int]")?;
    /// let shared = Shared::new(guardian, Duration::ZERO);
    /// let (first, second) = (shared.topaction()?, shared.topaction()?);
    /// first.lock(object)?;
    /// let call = Call::Alter(second.id(), object, Change::Touch);
    /// let reply = shared.call_waiting(&call, Duration::from_millis(1))?;
    /// assert_eq!(reply, Reply::Refused(Refusal::Conflict));
    /// # Ok::<(), argus_guardian::Error>(())
    /// ```
    pub fn call_waiting(&self, call: &Call, patience: Duration) -> Result<Reply, Error> {
        let (_state, reply, _) = self.access(call, patience, Lineage::unknown)?;
        Ok(reply)
    }

    // The answer to an access by an action of this `Shared`. If it is refused, the error says what is known of that.
    #[inline]
    pub(crate) fn answer(
        &self,
        call: &Call,
        lineage_of: impl FnOnce(ActionId) -> Lineage,
        object: &impl AsObject,
    ) -> Result<Answer, Error> {
        let (state, reply, deadlock) = self.access(call, self.patience, lineage_of)?;
        match deadlock {
            Some(deadlock) => Err(Error::Deadlock(deadlock)),
            None => reply
                .answer()
                .map_err(|it| explained(&state.guardian, call, object, it)),
        }
    }

    // Makes a call that may wait; the last argument returns an action's lineage. Also returns the circle for which the
    // call is refused.
    fn access(
        &self,
        call: &Call,
        patience: Duration,
        lineage_of: impl FnOnce(ActionId) -> Lineage,
    ) -> Result<(Taken<'_, SharedState>, Reply, Option<Deadlock>), Error> {
        let mut request = Request::read(call)?;
        let mut state = self.lock();
        let reply = state.make(&mut request);
        if reply != Ok(CONFLICT) || patience.is_zero() {
            return Ok((state, reply?, None));
        }
        let Some(access) = WaitingAccess::by(call, lineage_of) else {
            return Ok((state, reply?, None));
        };
        let request = &mut request;
        let mut again = AccessAgain { request, reply };
        let goal = WaitGoal::Access(access);
        let (state, deadlock) = self.wait_while(state, goal, patience, &mut again);
        let reply = again.reply;
        let deadlock = deadlock.filter(|_| reply == Ok(CONFLICT));
        Ok((state, reply?, deadlock))
    }

    /// Begins a topaction. It aborts when it is dropped, unless it has committed. While a thread is in
    /// [`checkpoint_waiting`](Self::checkpoint_waiting), this waits for that thread.
    ///
    /// # Errors
    ///
    /// As for [`Guardian::topaction`].
    ///
    /// ```
    /// use argus_guardian::{Guardian, Shared};
    /// let shared = Shared::from(Guardian::new()?);
    /// shared.topaction()?.commit()?;
    /// # Ok::<(), argus_guardian::Error>(())
    /// ```
    pub fn topaction(&self) -> Result<SharedAction<'_>, Error> {
        Ok(SharedAction::of(self, self.begin_topaction()?))
    }

    pub(crate) fn begin_topaction(&self) -> Result<ActionId, Error> {
        self.refuse_borrower();
        let mut state = self.state.take_last();
        if state.folding > 0 {
            let mut still = |state: &mut SharedState| state.folding > 0;
            (state, _) = self.wait_while(state, WaitGoal::NoFolding, Duration::MAX, &mut still);
        }
        let id = state.call(&Call::BeginTop)?.action()?;
        state.growth.begin();
        Ok(id)
    }

    // Lends the guardian for questions only: no thread is woken.
    pub(crate) fn lend<T>(&self, what: impl FnOnce(&Guardian) -> T) -> T {
        what(&self.lock().guardian)
    }

    /// Does something with the guardian while no other thread has it, and then wakes those waiting
    /// threads that may go on, after a panic too.
    ///
    /// The mutex is held meanwhile. An action of this `Shared` that is dropped inside is aborted when
    /// this ends.
    ///
    /// # Panics
    ///
    /// Inside, any call of this `Shared` or of its actions panics: it would wait for itself. Other
    /// threads wait.
    ///
    /// ```
    /// use argus_guardian::{Guardian, Shared};
    /// let shared = Shared::from(Guardian::new()?);
    /// let other = Guardian::new()?;
    /// shared.with(|guardian| assert_eq!(guardian.entries(), other.entries()));
    /// # Ok::<(), argus_guardian::Error>(())
    /// ```
    ///
    /// Another guardian can't take its place:
    ///
    /// ```compile_fail,E0308
    /// use argus_guardian::{Guardian, Shared};
    /// let shared = Shared::from(Guardian::new()?);
    /// let mut other = Guardian::new()?;
    /// shared.with(|guardian| std::mem::swap(guardian, &mut other));
    /// # Ok::<(), argus_guardian::Error>(())
    /// ```
    #[track_caller]
    pub fn with<T>(&self, what: impl FnOnce(&Guardian) -> T) -> T {
        let state = self.lock();
        self.borrower.begin();
        let loan = Loan {
            shared: self,
            state,
        };
        what(&loan.state.guardian)
    }

    // The action is dropped: it is aborted now, or when this thread's `with` ends.
    pub(crate) fn abort_dropped(&self, action: DroppedAction) {
        if self.borrower.is_here() {
            return self.borrower.drop_later(action);
        }
        let abort = Call::Abort(action.id);
        let mut state = self.lock();
        // A drop can't report an error. Where it was over before, its guard is gone all the same.
        let _ = state.end(&abort, action.topaction);
        if action.is_outermost {
            self.fold_ended(&abort, state);
        }
    }

    /// How long an access by a [`SharedAction`] waits for its lock at most.
    ///
    /// ```
    /// use argus_guardian::{Guardian, Shared};
    /// use std::time::Duration;
    /// let shared = Shared::new(Guardian::new()?, Duration::ZERO);
    /// assert_eq!(shared.patience(), Duration::ZERO);
    /// # Ok::<(), argus_guardian::Error>(())
    /// ```
    #[must_use]
    pub fn patience(&self) -> Duration {
        self.patience
    }

    /// The object of this name; if there is none, declares one of this shape: [`Guardian::named`].
    ///
    /// # Errors
    ///
    /// As there.
    ///
    /// ```
    /// use argus_guardian::{Guardian, Shared};
    /// let shared = Shared::from(Guardian::new()?);
    /// let account = shared.named("account", "atomic_record[balance:int]")?;
    /// assert_eq!(account.names(), ["balance"]);
    /// # Ok::<(), argus_guardian::Error>(())
    /// ```
    pub fn named(&self, name: &str, shape: impl AsRef<str>) -> Result<Object, Error> {
        // Not while the mutex is held, which would call the program's code.
        let shape = shape.as_ref();
        let mut state = self.lock();
        let named = state.guardian.named(name, shape);
        state.return_loan();
        named
    }

    /// The guardian, which is no longer shared.
    ///
    /// ```
    /// use argus_guardian::{Guardian, Shared};
    /// use std::time::Duration;
    /// let shared = Shared::new(Guardian::new()?, Duration::ZERO);
    /// assert_eq!(shared.into_inner().entries(), 0);
    /// # Ok::<(), argus_guardian::Error>(())
    /// ```
    #[must_use]
    pub fn into_inner(self) -> Guardian {
        self.state.into_inner().guardian
    }
}

// The guardian, while it is lent to `with`.
struct Loan<'s> {
    shared: &'s Shared,
    state: Taken<'s, SharedState>,
}

impl Drop for Loan<'_> {
    fn drop(&mut self) {
        for action in self.shared.borrower.end() {
            // A drop can't report an error.
            let _ = self.state.guardian.call(&Call::Abort(action.id));
            if action.is_outermost {
                self.state.growth.end();
            }
        }
        self.state.return_loan();
        // It may have ended other actions, too.
        self.state.wake();
    }
}
