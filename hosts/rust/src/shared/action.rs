//! `SharedAction`: a live action of a guardian that threads share; `Sharer`: what shares that among them.

use crate::access::{Caller, found};
use crate::call::Call;
use crate::error::Error;
use crate::guardian::Guardian;
use crate::ids::ActionId;
use crate::object::{AsObject, Object};
use crate::reply::{Answer, Reply};
use crate::shared::Shared;
use crate::shared::state::DroppedAction;
use crate::shared::waits::Lineage;
use std::{iter, mem};

/// What shares a guardian among threads: a [`Shared`], or a `log::Logged`. A function over actions of any of them works
/// with a log and without one.
///
/// ```
/// use argus_guardian::{Access, Guardian, Object, Shared, SharedAction, Sharer};
///
/// fn count<S: Sharer>(top: &SharedAction<'_, S>, counter: &Object) -> Result<(), S::Error> {
///     let sub = top.subaction()?;
///     sub.update(counter, "n", |it: i64| it + 1)?;
///     sub.commit()
/// }
///
/// let shared = Shared::from(Guardian::new()?);
/// let counter = shared.named("counter", "atomic_record[n:int]")?;
/// shared.run(|top| top.create(&counter, (0,)))?;
/// shared.run(|top| count(top, &counter))?;
/// assert_eq!(shared.into_inner().base(&counter)?, Some((1,).into()));
/// # Ok::<(), argus_guardian::Error>(())
/// ```
pub trait Sharer: Shares {}

impl<S: Shares> Sharer for S {}

/// How actions reach their guardian. It has no public name, so that nobody else calls these.
pub trait Shares {
    /// Why calls of its actions fail.
    type Error: From<Error>;

    /// Whether a thread waits when it has committed a topaction.
    const WAITS: bool = false;

    /// The guardian, for what is no call of a program.
    fn kept(&self) -> &Shared;

    /// The guardian, for a call, unless none is made any more.
    fn shared(&self) -> Result<&Shared, Self::Error>;

    /// A topaction, nested or not, has just committed in this guardian. Returns by which entry that is acknowledged.
    fn committed(&self, _guardian: &Guardian) -> u64 {
        0
    }

    /// Acknowledges the commit of a topaction, nested or not: the last one of so many entries.
    fn acknowledge(&self, _entries: u64, _is_outermost: bool) -> Result<(), Self::Error> {
        Ok(())
    }
}

impl Shares for Shared {
    type Error = Error;

    #[inline]
    fn kept(&self) -> &Shared {
        self
    }

    #[inline]
    fn shared(&self) -> Result<&Shared, Error> {
        Ok(self)
    }
}

/// A live action of a guardian that threads share. It aborts when it is dropped, unless it has
/// committed; if there isn't even memory for that, it stays live.
///
/// Each access takes its lock, and the action keeps it to its end: a query takes a read lock, which
/// others may have too, a change takes the write lock. It waits for the lock until the patience of
/// the [`Shared`] ends, and is then refused with `Conflict`. Of those that wait for one another in a
/// circle the youngest is refused at once, with [`Error::Deadlock`]. Two that have both read an object
/// and both want to write it are such a circle. So if you read and then write, take the write lock
/// first, by [`lock`](crate::Access::lock). What it does with objects is in the trait [`Access`](crate::Access).
///
/// Several threads may begin subactions of one action, and run them at the same time. The action
/// can't commit or abort while one of these exists.
///
/// The type of errors is [`Error`]; of a guardian with a log it is `LoggedError`, and `log::LoggedAction` says what else
/// is so of its actions.
///
/// ```
/// use argus_guardian::{Access, Guardian, Shared};
/// use std::thread;
///
/// let shared = Shared::from(Guardian::new()?);
/// let left = shared.named("left", "atomic_record[n:int]")?;
/// let right = shared.named("right", "atomic_record[n:int]")?;
/// let top = shared.topaction()?;
/// thread::scope(|scope| {
///     for object in [&left, &right] {
///         let top = &top;
///         scope.spawn(move || {
///             let arm = top.subaction()?;
///             arm.create(object, (1,))?;
///             arm.commit()
///         });
///     }
/// });
/// top.commit()?;
/// assert_eq!(shared.into_inner().base(&right)?, Some((1,).into()));
/// # Ok::<(), argus_guardian::Error>(())
/// ```
#[derive(Debug)]
#[must_use = "an action that is dropped aborts"]
pub struct SharedAction<'s, S: Sharer = Shared> {
    sharer: &'s S,
    id: ActionId,
    // The action that has begun it.
    creator: Option<&'s SharedAction<'s, S>>,
    // Whether it is a nested topaction of that one, and no subaction.
    is_nested: bool,
}

impl<'s, S: Sharer> SharedAction<'s, S> {
    // A child of this action.
    fn begun(&'s self, call: &Call, is_nested: bool) -> Result<SharedAction<'s, S>, S::Error> {
        let id = self.call(call)?.action()?;
        Ok(SharedAction {
            sharer: self.sharer,
            id,
            creator: Some(self),
            is_nested,
        })
    }

    pub(crate) fn of(sharer: &'s S, id: ActionId) -> SharedAction<'s, S> {
        SharedAction {
            sharer,
            id,
            creator: None,
            is_nested: false,
        }
    }

    fn call(&self, call: &Call) -> Result<Reply, S::Error> {
        Ok(self.sharer.shared()?.call(call)?)
    }

    // The action itself and its ancestors.
    fn own(&self) -> impl Iterator<Item = &SharedAction<'s, S>> {
        iter::successors(Some(self), |it| it.creator.filter(|_| !it.is_nested))
    }

    fn lineage(&self) -> Lineage {
        let all = iter::successors(Some(self), |it| it.creator);
        Lineage::of(all.map(SharedAction::id).collect(), self.own().count())
    }

    // Its topaction, if it is a subaction.
    fn topaction(&self) -> Option<ActionId> {
        self.own().skip(1).last().map(SharedAction::id)
    }

    // Whether nothing is around it.
    fn is_outermost(&self) -> bool {
        self.creator.is_none()
    }

    /// Its number.
    ///
    /// ```
    /// # use argus_guardian::{ActionId, Error, Guardian, Shared};
    /// # use std::time::Duration;
    /// let shared = Shared::new(Guardian::new()?, Duration::ZERO);
    /// assert_eq!(shared.topaction()?.id(), ActionId::numbered(0));
    /// # Ok::<(), Error>(())
    /// ```
    #[must_use]
    pub fn id(&self) -> ActionId {
        self.id
    }

    /// Begins a subaction: what it leaves counts only if its ancestors commit.
    ///
    /// # Errors
    ///
    /// [`Error::Refused`] with `Over` or `TooDeep`; [`Error::TooMany`]; [`Error::OutOfMemory`].
    ///
    /// ```
    /// # use argus_guardian::{Error, Guardian, Shared};
    /// # use std::time::Duration;
    /// let shared = Shared::new(Guardian::new()?, Duration::ZERO);
    /// let top = shared.topaction()?;
    /// top.subaction()?.commit()?;
    /// top.commit()?;
    /// # Ok::<(), Error>(())
    /// ```
    pub fn subaction(&self) -> Result<SharedAction<'_, S>, S::Error> {
        self.begun(&Call::BeginSub(self.id), false)
    }

    /// Begins a nested topaction: what it leaves stays, even if this action aborts.
    ///
    /// # Errors
    ///
    /// [`Error::Refused`] with `Over`; [`Error::TooMany`]; [`Error::OutOfMemory`].
    ///
    /// ```
    /// # use argus_guardian::{Error, Guardian, Shared};
    /// # use std::time::Duration;
    /// let shared = Shared::new(Guardian::new()?, Duration::ZERO);
    /// let top = shared.topaction()?;
    /// top.nested()?.commit()?;
    /// top.abort()?;
    /// # Ok::<(), Error>(())
    /// ```
    pub fn nested(&self) -> Result<SharedAction<'_, S>, S::Error> {
        self.begun(&Call::BeginNested(self.id), true)
    }

    /// Aborts all live siblings: the first that is done ends the others.
    ///
    /// # Errors
    ///
    /// [`Error::Refused`] with `Over`, `Suspended` or `NoSiblings`; [`Error::OutOfMemory`].
    ///
    /// ```
    /// # use argus_guardian::{Error, Guardian, Refusal, Shared};
    /// # use std::time::Duration;
    /// let shared = Shared::new(Guardian::new()?, Duration::ZERO);
    /// let top = shared.topaction()?;
    /// let (first, second) = (top.subaction()?, top.subaction()?);
    /// first.abort_others()?;
    /// assert_eq!(second.commit(), Err(Error::Refused(Refusal::Over)));
    /// # Ok::<(), Error>(())
    /// ```
    pub fn abort_others(&self) -> Result<(), S::Error> {
        Ok(self.call(&Call::AbortOthers(self.id))?.answer()?.done()?)
    }

    /// Commits. After an error it aborts.
    ///
    /// # Errors
    ///
    /// [`Error::Refused`] with `Over`; [`Error::OutOfMemory`].
    ///
    /// ```
    /// # use argus_guardian::{Error, Guardian, Shared};
    /// # use std::time::Duration;
    /// let shared = Shared::new(Guardian::new()?, Duration::ZERO);
    /// shared.topaction()?.commit()?;
    /// # Ok::<(), Error>(())
    /// ```
    pub fn commit(self) -> Result<(), S::Error> {
        let (sharer, is_outermost) = (self.sharer, self.is_outermost());
        if self.topaction().is_some() {
            return self.end(Call::Commit, |_| ());
        }
        let entries = self.end(Call::Commit, |guardian| sharer.committed(guardian))?;
        sharer.acknowledge(entries, is_outermost)
    }

    /// Aborts, and returns an error if that fails, which a drop can't.
    ///
    /// # Errors
    ///
    /// [`Error::Refused`] with `Over`; [`Error::OutOfMemory`], after which the drop tries again,
    /// and reports nothing.
    ///
    /// ```
    /// # use argus_guardian::{Error, Guardian, Shared};
    /// # use std::time::Duration;
    /// let shared = Shared::new(Guardian::new()?, Duration::ZERO);
    /// shared.topaction()?.abort()?;
    /// # Ok::<(), Error>(())
    /// ```
    pub fn abort(self) -> Result<(), S::Error> {
        self.end(Call::Abort, |_| ())
    }

    // Returns what this function says of the guardian afterwards.
    fn end<T>(
        self,
        how: impl FnOnce(ActionId) -> Call,
        what: impl FnOnce(&Guardian) -> T,
    ) -> Result<T, S::Error> {
        let (call, topaction) = (how(self.id), self.topaction());
        let shared = self.sharer.shared()?;
        let waits = S::WAITS && topaction.is_none();
        let said = shared.end(&call, topaction, self.is_outermost(), waits, what)?;
        // It is over: there is nothing to abort, and nothing in it to drop.
        mem::forget(self);
        Ok(said)
    }
}

impl<S: Sharer> Caller for SharedAction<'_, S> {
    type Error = S::Error;

    #[inline]
    fn number(&self) -> ActionId {
        self.id
    }

    #[inline]
    fn make(&self, call: &Call, object: &impl AsObject) -> Result<Answer, S::Error> {
        let lineage_of = |_| self.lineage();
        Ok(self.sharer.shared()?.answer(call, lineage_of, object)?)
    }

    fn find(&self, object: &impl AsObject) -> Result<Object, S::Error> {
        let shared = self.sharer.shared()?;
        Ok(shared.lend(|guardian| found(guardian, object))?)
    }
}

impl<S: Sharer> Drop for SharedAction<'_, S> {
    fn drop(&mut self) {
        self.sharer.kept().abort_dropped(DroppedAction {
            id: self.id,
            topaction: self.topaction(),
            is_outermost: self.is_outermost(),
        });
    }
}
