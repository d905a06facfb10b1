//! `Action`: a live action of a guardian that has one caller.

use crate::access::{Caller, explained, found};
use crate::call::Call;
use crate::error::Error;
use crate::guardian::Guardian;
use crate::ids::ActionId;
use crate::object::{AsObject, Object};
use crate::reply::Answer;
use std::mem;

/// A live action of a guardian that has one caller. It aborts when it is dropped, unless it has
/// committed; if there isn't even memory for that, it stays live.
///
/// A subaction or a nested topaction borrows it, as it is suspended while one of these is live. What it does with
/// objects is in the trait [`Access`](crate::Access).
///
/// ```
/// use argus_guardian::{Access, Guardian};
/// let mut guardian = Guardian::new()?;
/// let account = guardian.named("account", "atomic_record[balance:int]")?;
/// let top = guardian.topaction()?;
/// top.create(&account, (5,))?;
/// top.commit()?;
/// # Ok::<(), argus_guardian::Error>(())
/// ```
#[derive(Debug)]
#[must_use = "an action that is dropped aborts"]
pub struct Action<'g> {
    guardian: &'g mut Guardian,
    id: ActionId,
}

impl<'g> Action<'g> {
    pub(crate) fn begun(guardian: &'g mut Guardian, call: &Call) -> Result<Action<'g>, Error> {
        let id = guardian.call(call)?.action()?;
        Ok(Action { guardian, id })
    }

    /// Its number.
    ///
    /// ```
    /// use argus_guardian::{ActionId, Guardian};
    /// assert_eq!(Guardian::new()?.topaction()?.id(), ActionId::numbered(0));
    /// # Ok::<(), argus_guardian::Error>(())
    /// ```
    #[must_use]
    pub fn id(&self) -> ActionId {
        self.id
    }

    /// Its guardian, for calls and questions.
    ///
    /// ```
    /// use argus_guardian::Guardian;
    /// let mut guardian = Guardian::new()?;
    /// let other = Guardian::new()?;
    /// let top = guardian.topaction()?;
    /// let lent = top.guardian();
    /// assert_eq!((lent.actions(), other.actions()), (1, 0));
    /// # Ok::<(), argus_guardian::Error>(())
    /// ```
    ///
    /// Another guardian can't take its place:
    ///
    /// ```compile_fail,E0308
    /// use argus_guardian::Guardian;
    /// let mut guardian = Guardian::new()?;
    /// let mut other = Guardian::new()?;
    /// let mut top = guardian.topaction()?;
    /// let lent = top.guardian();
    /// std::mem::swap(lent, &mut other);
    /// # Ok::<(), argus_guardian::Error>(())
    /// ```
    ///
    /// and while the action is there, nothing can take the place of the variable's guardian:
    ///
    /// ```compile_fail,E0499
    /// use argus_guardian::Guardian;
    /// let mut guardian = Guardian::new()?;
    /// let mut other = Guardian::new()?;
    /// let top = guardian.topaction()?;
    /// std::mem::swap(&mut guardian, &mut other);
    /// top.commit()?;
    /// # Ok::<(), argus_guardian::Error>(())
    /// ```
    #[must_use]
    pub fn guardian(&self) -> &Guardian {
        self.guardian
    }

    /// Begins a subaction: what it leaves counts only if its ancestors commit.
    ///
    /// # Errors
    ///
    /// [`Error::Refused`] with `TooDeep`; [`Error::TooMany`]; [`Error::OutOfMemory`].
    ///
    /// ```
    /// let mut guardian = argus_guardian::Guardian::new()?;
    /// let mut top = guardian.topaction()?;
    /// top.subaction()?.commit()?;
    /// top.commit()?;
    /// # Ok::<(), argus_guardian::Error>(())
    /// ```
    ///
    /// An action is suspended while it has a subaction, and can't be used:
    ///
    /// ```compile_fail,E0502
    /// use argus_guardian::{Access, Guardian};
    /// let mut guardian = Guardian::new()?;
    /// let account = guardian.named("account", "atomic_record[balance:int]")?;
    /// let mut top = guardian.topaction()?;
    /// let sub = top.subaction()?;
    /// top.lock(&account)?;
    /// sub.commit()?;
    /// # Ok::<(), argus_guardian::Error>(())
    /// ```
    pub fn subaction(&mut self) -> Result<Action<'_>, Error> {
        Action::begun(self.guardian, &Call::BeginSub(self.id))
    }

    /// Begins a nested topaction: what it leaves stays, even if this action aborts.
    ///
    /// # Errors
    ///
    /// [`Error::TooMany`]; [`Error::OutOfMemory`].
    ///
    /// ```
    /// use argus_guardian::{Access, Guardian};
    /// let mut guardian = Guardian::new()?;
    /// let log = guardian.named("log", "atomic_array[text]")?;
    /// let mut top = guardian.topaction()?;
    /// let nested = top.nested()?;
    /// nested.create(&log, vec!["tried"])?;
    /// nested.commit()?;
    /// top.abort()?;
    /// assert_eq!(guardian.base(&log)?, Some(vec!["tried"].into()));
    /// # Ok::<(), argus_guardian::Error>(())
    /// ```
    pub fn nested(&mut self) -> Result<Action<'_>, Error> {
        Action::begun(self.guardian, &Call::BeginNested(self.id))
    }

    /// Commits. After an error it aborts.
    ///
    /// # Errors
    ///
    /// [`Error::OutOfMemory`].
    ///
    /// ```
    /// argus_guardian::Guardian::new()?.topaction()?.commit()?;
    /// # Ok::<(), argus_guardian::Error>(())
    /// ```
    pub fn commit(self) -> Result<(), Error> {
        self.end(Call::Commit)
    }

    /// Aborts, and returns an error if that fails, which a drop can't.
    ///
    /// # Errors
    ///
    /// [`Error::OutOfMemory`]; then the drop tries again, and reports nothing.
    ///
    /// ```
    /// argus_guardian::Guardian::new()?.topaction()?.abort()?;
    /// # Ok::<(), argus_guardian::Error>(())
    /// ```
    pub fn abort(self) -> Result<(), Error> {
        self.end(Call::Abort)
    }

    /// Only its number. The action stays live, and nothing aborts it when this guard is gone: for a
    /// [prepared commit](Guardian::ready_commit).
    ///
    /// ```
    /// use argus_guardian::{Guardian, Status};
    /// let mut guardian = Guardian::new()?;
    /// let top = guardian.topaction()?.into_id();
    /// assert_eq!(guardian.status(top), Some(Status::Live));
    /// # Ok::<(), argus_guardian::Error>(())
    /// ```
    #[must_use]
    pub fn into_id(self) -> ActionId {
        let id = self.id;
        mem::forget(self);
        id
    }

    fn end(self, how: impl FnOnce(ActionId) -> Call) -> Result<(), Error> {
        self.guardian.call(&how(self.id))?.answer()?.done()?;
        // It is over: there is nothing to abort, and nothing in it to drop.
        mem::forget(self);
        Ok(())
    }
}

impl Caller for Action<'_> {
    type Error = Error;

    #[inline]
    fn number(&self) -> ActionId {
        self.id
    }

    #[inline]
    fn make(&self, call: &Call, object: &impl AsObject) -> Result<Answer, Error> {
        let answer = self.guardian.call(call)?.answer();
        answer.map_err(|it| explained(self.guardian, call, object, it))
    }

    fn find(&self, object: &impl AsObject) -> Result<Object, Error> {
        found(self.guardian, object)
    }
}

impl Drop for Action<'_> {
    fn drop(&mut self) {
        // A drop can't report an error.
        let _ = self.guardian.call(&Call::Abort(self.id));
    }
}
