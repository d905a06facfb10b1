//! How a guardian that threads share folds its journal, and numbers its actions from 0 again.

use crate::call::Call;
use crate::error::CheckpointError;
use crate::guardian::Guardian;
use crate::ids::ActionId;
use crate::shared::Shared;
use crate::shared::state::SharedState;
use crate::shared::turns::Taken;
use crate::shared::waits::WaitGoal;
use std::time::Duration;

// How long a fold that is made by itself holds back topactions at most, where there is no quiet moment.
const HOLD: Duration = Duration::from_millis(100);

/// How far the journal of a shared guardian has grown since it was folded.
#[derive(Debug)]
pub(crate) struct Growth {
    /// How many entries it has.
    pub(crate) entries: u64,
    // How many outermost actions are live that have guards.
    live: u64,
    // After how many entries it is folded by itself; and after how many topactions are held back for that.
    after: Option<u64>,
    hold_after: u64,
}

impl Growth {
    pub(crate) fn of(guardian: &Guardian, after: Option<u64>) -> Growth {
        Growth {
            entries: length_of(guardian),
            live: 0,
            after,
            hold_after: hold_after(after),
        }
    }

    /// An outermost action with a guard has begun.
    pub(crate) fn begin(&mut self) {
        self.live += 1;
    }

    /// The guard of one is gone.
    pub(crate) fn end(&mut self) {
        self.live = self.live.saturating_sub(1);
    }

    // Whether a fold is due when the action of this number has ended.
    fn is_due_after(&self, number: u32) -> bool {
        let is_half_used = number >= Guardian::MAX_ACTIONS / 2;
        self.is_due() || self.after.is_some() && is_half_used
    }

    fn is_due(&self) -> bool {
        self.after.is_some_and(|after| self.entries >= after)
    }

    // The journal is folded, so no action is live.
    fn reset(&mut self) {
        self.entries = 0;
        self.live = 0;
        self.hold_after = hold_after(self.after);
    }
}

impl SharedState {
    /// The outermost action of this number has ended. Folds the journal if that is due and no action is live. Whether
    /// topactions have to be held back for it.
    pub(crate) fn fold_if_due(&mut self, number: u32) -> bool {
        self.growth.end();
        if !self.growth.is_due_after(number) || self.folding > 0 {
            return false;
        }
        if self.growth.live == 0 && self.fold_now() {
            return false;
        }
        let holds = self.growth.entries >= self.growth.hold_after;
        if holds {
            self.growth.hold_after = self.growth.entries.saturating_mul(2);
        }
        holds
    }
}

impl SharedState {
    /// The guardian was lent, and may have got entries. A program may have read lines that a fold has waited for.
    pub(crate) fn return_loan(&mut self) {
        self.growth.entries = length_of(&self.guardian);
        let is_read = self.guardian.lines_read.get() == self.guardian.entries();
        if is_read && self.growth.is_due() && self.folding == 0 {
            self.fold_now();
        }
    }

    // Whether it could. What comes of it isn't reported, since nobody has asked for it. A later call tries again.
    fn fold_now(&mut self) -> bool {
        let is_folded = fold_what_is_read(&self.guardian).is_ok();
        if is_folded {
            self.growth.reset();
        }
        is_folded
    }
}

// After how many entries topactions are held back: twice as many, and before the numbers of actions run out.
fn hold_after(after: Option<u64>) -> u64 {
    let twice = after.unwrap_or(0).saturating_mul(2);
    twice.min(Guardian::MAX_ACTIONS.into())
}

// How many entries its journal has.
fn length_of(guardian: &Guardian) -> u64 {
    guardian.entries() - guardian.first_entry()
}

// Folds what a program has read, if it reads the lines of its journal; then it renews nothing, since a text of lines
// ends at a renewal.
fn fold_what_is_read(guardian: &Guardian) -> Result<(), CheckpointError> {
    match guardian.lines_read.get() {
        0 => Shared::fold(guardian),
        read if read >= guardian.entries() => guardian.checkpoint(),
        _ => Err(CheckpointError::Busy),
    }
}

impl Shared {
    /// After how many entries a `Shared` folds its journal by itself where nothing else is said.
    pub const FOLD_AFTER: u64 = 100_000;

    /// The same guardian, which folds its journal by itself after so many entries, or never.
    ///
    /// It does so when a topaction ends by its [`SharedAction`](crate::SharedAction) and no action is live, as
    /// [`checkpoint`](Self::checkpoint) does: when half of the numbers for actions are used, it also renews the
    /// guardian. If there is no such moment within as many entries again, the thread that has ended a topaction holds
    /// others back, at most for a tenth of a second; then again when the journal is twice as long.
    ///
    /// Of a program that reads [`lines`](Guardian::lines) of the journal, it folds no entry that wasn't read, and
    /// renews nothing.
    ///
    /// ```
    /// use argus_guardian::{Guardian, Shared};
    /// let shared = Shared::from(Guardian::new()?).fold_after(Some(10));
    /// for _ in 0..5 {
    ///     shared.topaction()?.commit()?;
    /// }
    /// assert_eq!(shared.with(Guardian::first_entry), 10);
    /// # Ok::<(), argus_guardian::Error>(())
    /// ```
    #[must_use]
    pub fn fold_after(mut self, entries: Option<u64>) -> Shared {
        let state = self.state.get_mut();
        state.growth = Growth::of(&state.guardian, entries);
        self
    }

    // The guard of an outermost action is gone, after this call: folds the journal, if that is due.
    pub(crate) fn fold_ended(&self, call: &Call, mut state: Taken<'_, SharedState>) {
        let number = call.action().map_or(0, ActionId::number);
        if state.fold_if_due(number) {
            drop(state);
            // What comes of it isn't reported, since the action has ended. A later end tries again.
            let _ = self.fold_waiting(HOLD, fold_what_is_read);
        }
    }

    // Folds the journal. When half of the numbers for actions are used, it renews the guardian.
    pub(crate) fn fold(guardian: &Guardian) -> Result<(), CheckpointError> {
        if guardian.actions_left() > Guardian::MAX_ACTIONS / 2 {
            guardian.checkpoint()
        } else {
            guardian.renew()
        }
    }

    /// How many actions can still be begun, before a [`checkpoint`](Self::checkpoint) renews the
    /// guardian.
    ///
    /// ```
    /// use argus_guardian::{Guardian, Shared};
    /// let shared = Shared::from(Guardian::new()?);
    /// shared.topaction()?.commit()?;
    /// assert_eq!(shared.actions_left(), Guardian::MAX_ACTIONS - 1);
    /// # Ok::<(), argus_guardian::Error>(())
    /// ```
    pub fn actions_left(&self) -> u32 {
        self.lock().guardian.actions_left()
    }

    /// Folds the journal's entries: [`Guardian::checkpoint`]. When half of the numbers for actions
    /// are used, it also renews the guardian ([`Guardian::renew`]): then each earlier
    /// [`SharedAction`](crate::SharedAction) is over.
    ///
    /// # Errors
    ///
    /// As for [`Guardian::checkpoint`]: `Busy` while any thread has a live action.
    ///
    /// ```
    /// use argus_guardian::{Guardian, Shared};
    /// use std::time::Duration;
    /// let shared = Shared::new(Guardian::new()?, Duration::ZERO);
    /// assert_eq!(shared.checkpoint(), Ok(()));
    /// # Ok::<(), argus_guardian::Error>(())
    /// ```
    pub fn checkpoint(&self) -> Result<(), CheckpointError> {
        self.fold_waiting(Duration::ZERO, Shared::fold)
    }

    /// Folds the journal's entries when no action is live, as [`checkpoint`](Self::checkpoint)
    /// does. Until then it holds back each [`topaction`](Self::topaction), at most for this
    /// patience. So don't call it in a thread that has a live action.
    ///
    /// # Errors
    ///
    /// As for [`Guardian::checkpoint`]: `Busy` if an action was still live at the end of patience.
    ///
    /// ```
    /// use argus_guardian::{CheckpointError, Guardian, Shared};
    /// use std::time::Duration;
    /// let shared = Shared::new(Guardian::new()?, Duration::ZERO);
    /// let top = shared.topaction()?;
    /// let folded = shared.checkpoint_waiting(Duration::from_millis(1));
    /// assert_eq!(folded, Err(CheckpointError::Busy));
    /// top.commit()?;
    /// assert_eq!(shared.checkpoint_waiting(Duration::ZERO), Ok(()));
    /// # Ok::<(), argus_guardian::Error>(())
    /// ```
    pub fn checkpoint_waiting(&self, patience: Duration) -> Result<(), CheckpointError> {
        self.fold_waiting(patience, Shared::fold)
    }

    // Folds in this way; tries until it isn't `Busy`, at most for this patience.
    pub(crate) fn fold_waiting<T>(
        &self,
        patience: Duration,
        mut fold: impl FnMut(&Guardian) -> Result<T, CheckpointError>,
    ) -> Result<T, CheckpointError> {
        let mut state = self.lock();
        let mut result = fold(&state.guardian);
        if !is_busy(&result) || patience.is_zero() {
            if result.is_ok() {
                state.growth.reset();
            }
            return result;
        }
        state.folding += 1;
        let mut fold_again = |state: &mut SharedState| {
            result = fold(&state.guardian);
            is_busy(&result)
        };
        (state, _) = self.wait_while(state, WaitGoal::NoLiveAction, patience, &mut fold_again);
        state.folding -= 1;
        if result.is_ok() {
            state.growth.reset();
        }
        state.wake();
        result
    }
}

fn is_busy<T>(result: &Result<T, CheckpointError>) -> bool {
    matches!(result, Err(CheckpointError::Busy))
}
