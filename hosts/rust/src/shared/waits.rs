//! Threads that wait for something of a shared guardian, and the accesses for which they do.

use crate::call::Call;
use crate::error::Error;
use crate::guardian::Guardian;
use crate::ids::{ActionId, ObjId};
use crate::questions::Status;
use crate::reply::{Refusal, Reply};
use crate::request::Request;
use crate::shared::circles::{Deadlock, Stuck};
use crate::shared::looking::Sleeper;
use crate::shared::state::SharedState;
use std::sync::Arc;

/// The reply to an access whose lock isn't free.
pub(crate) const CONFLICT: Reply = Reply::Refused(Refusal::Conflict);

/// A thread that waits for something of a shared guardian.
#[derive(Debug)]
pub(crate) struct Waiter {
    /// No other waiter of the guardian has it.
    pub(crate) number: u64,
    pub(crate) goal: WaitGoal,
    /// Why it waits no longer than until it looks.
    pub(crate) deadlock: Option<Deadlock>,
    /// It is awake if it was woken, and hasn't looked yet.
    pub(crate) sleeper: Arc<Sleeper>,
}

impl Waiter {
    pub(crate) fn is_woken(&self) -> bool {
        self.sleeper.is_woken()
    }

    /// It is woken, and waits no more.
    pub(crate) fn refuse(&mut self, deadlock: Deadlock) {
        self.deadlock = Some(deadlock);
        self.sleeper.wake();
    }

    /// Its access, if it waits for one.
    pub(crate) fn access(&self) -> Option<&WaitingAccess> {
        match &self.goal {
            WaitGoal::Access(access) => Some(access),
            WaitGoal::NoLiveAction | WaitGoal::NoFolding => None,
        }
    }

    /// Its access, if it waits for one, was not woken, and isn't refused.
    pub(crate) fn stuck(&self) -> Option<Stuck<'_>> {
        let number = self.number;
        let waits = |_: &&WaitingAccess| !self.is_woken() && self.deadlock.is_none();
        let access = self.access().filter(waits)?;
        Some(Stuck { number, access })
    }
}

/// What a thread waits for.
#[derive(Debug)]
pub(crate) enum WaitGoal {
    /// That an access may be made.
    Access(WaitingAccess),
    /// That no action is live.
    NoLiveAction,
    /// That no thread waits to fold the journal.
    NoFolding,
}

/// What a thread that waits tries when it is woken.
pub(crate) trait Attempt {
    /// Tries it, with the mutex. Whether the thread waits on.
    fn fails(&mut self, state: &mut SharedState) -> bool;

    /// Whether it can be tried.
    fn is_ready(&self) -> bool {
        true
    }

    /// Does what comes before it, while others may have the mutex. Whether it can be tried now.
    fn get_ready(&mut self) -> bool {
        true
    }
}

impl<T: FnMut(&mut SharedState) -> bool> Attempt for T {
    fn fails(&mut self, state: &mut SharedState) -> bool {
        self(state)
    }
}

/// An access that is made again, and its last reply.
pub(crate) struct AccessAgain<'r, 'c> {
    pub(crate) request: &'r mut Request<'c>,
    pub(crate) reply: Result<Reply, Error>,
}

impl Attempt for AccessAgain<'_, '_> {
    fn fails(&mut self, state: &mut SharedState) -> bool {
        self.reply = state.make(self.request);
        self.reply == Ok(CONFLICT)
    }

    fn is_ready(&self) -> bool {
        !self.request.is_unread()
    }

    fn get_ready(&mut self) -> bool {
        if let Err(error) = self.request.read_again() {
            self.reply = Err(error);
        }
        self.reply.is_ok()
    }
}

/// An access that waits for its lock.
#[derive(Debug)]
pub(crate) struct WaitingAccess {
    pub(crate) object: ObjId,
    pub(crate) writes: bool,
    pub(crate) action: ActionId,
    pub(crate) lineage: Lineage,
}

impl WaitingAccess {
    /// The call as an access; the last argument returns an action's lineage. `None`: the call is no access.
    pub(crate) fn by(
        call: &Call,
        lineage_of: impl FnOnce(ActionId) -> Lineage,
    ) -> Option<WaitingAccess> {
        let (action, object, writes) = match *call {
            Call::Ask(action, object, _) => (action, object, false),
            Call::Alter(action, object, _) => (action, object, true),
            _ => return None,
        };
        Some(WaitingAccess {
            object,
            writes,
            action,
            lineage: lineage_of(action),
        })
    }

    /// Whether its lock is free.
    pub(crate) fn may_be_made(&self, guardian: &Guardian) -> bool {
        if self.writes {
            guardian.can_write(self.action, self.object)
        } else {
            guardian.can_read(self.action, self.object)
        }
    }

    /// Whether its action is over.
    pub(crate) fn is_over(&self, guardian: &Guardian) -> bool {
        guardian.status(self.action) != Some(Status::Live)
    }

    /// Whether both are accesses of one object, and at least one of them writes.
    pub(crate) fn conflicts_with(&self, other: &WaitingAccess) -> bool {
        self.object == other.object && (self.writes || other.writes)
    }

    /// By which the youngest is found: its topaction, and then the action itself.
    pub(crate) fn age(&self) -> (Option<ActionId>, ActionId) {
        (self.lineage.outermost(), self.action)
    }
}

/// An action with those that can't end before it.
#[derive(Debug)]
pub(crate) struct Lineage {
    // The action itself and its ancestors, up to a topaction. If that is a nested one, then its creator with that
    // one's ancestors, and so on.
    actions: Vec<ActionId>,
    // How many of these are the action itself and its ancestors.
    own: usize,
    is_known: bool,
}

impl Lineage {
    /// Of these, which begin with the action itself and its ancestors, so many.
    pub(crate) fn of(actions: Vec<ActionId>, own: usize) -> Lineage {
        Lineage {
            actions,
            own,
            is_known: true,
        }
    }

    /// Of an action of which only its number is known.
    pub(crate) fn unknown(action: ActionId) -> Lineage {
        Lineage {
            actions: vec![action],
            own: 1,
            is_known: false,
        }
    }

    /// Whether all its ancestors are known.
    pub(crate) fn is_known(&self) -> bool {
        self.is_known
    }

    /// The action itself and its ancestors, whose locks don't keep it out.
    pub(crate) fn own(&self) -> &[ActionId] {
        &self.actions[..self.own]
    }

    /// Those in which it is nested, whose locks keep it out as any other's do.
    pub(crate) fn around(&self) -> &[ActionId] {
        &self.actions[self.own..]
    }

    /// The action itself and all that can't end before it.
    pub(crate) fn all(&self) -> &[ActionId] {
        &self.actions
    }

    /// The topaction that is around all others.
    pub(crate) fn outermost(&self) -> Option<ActionId> {
        self.actions.last().copied()
    }
}
