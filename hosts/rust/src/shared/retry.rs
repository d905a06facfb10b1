//! Topactions that are tried again: `Shared::run`, and `MayConflict`, by which it knows whether to.

use crate::error::Error;
#[cfg(all(feature = "logged", unix))]
use crate::log::LoggedError;
use crate::shared::Shared;
use crate::shared::action::{SharedAction, Sharer};
use std::hash::{BuildHasher, Hasher, RandomState};
use std::time::Duration;
use std::{error, iter, thread};

const FIRST: Duration = Duration::from_millis(1);
const LONGEST: Duration = Duration::from_millis(100);

/// An error by which [`Shared::run`](crate::Shared::run) and `Logged::run` know whether to try
/// again. A box is asked if it has an [`Error`] or a `LoggedError`, itself or as a source. A program's own error asks
/// the [`Error`] that it carries; one that has it as its source, by [`is_conflict`]. For a type of another crate there
/// is [`run_if`](crate::Shared::run_if).
///
/// ```
/// use argus_guardian::{Error, MayConflict, Refusal};
///
/// enum Failure {
///     SoldOut,
///     Guardian(Error),
/// }
///
/// impl MayConflict for Failure {
///     fn is_conflict(&self) -> bool {
///         matches!(self, Failure::Guardian(error) if error.is_conflict())
///     }
/// }
///
/// assert!(Failure::Guardian(Refusal::Conflict.into()).is_conflict());
/// assert!(!Failure::SoldOut.is_conflict());
/// ```
pub trait MayConflict {
    /// Whether it is a refusal with `Conflict`.
    fn is_conflict(&self) -> bool;
}

impl MayConflict for Error {
    fn is_conflict(&self) -> bool {
        Error::is_conflict(self)
    }
}

impl MayConflict for Box<dyn error::Error> {
    fn is_conflict(&self) -> bool {
        is_conflict(self.as_ref())
    }
}

impl MayConflict for Box<dyn error::Error + Send + Sync> {
    fn is_conflict(&self) -> bool {
        is_conflict(self.as_ref())
    }
}

/// Whether an error, or one of its sources, is one of the crate's errors and a refusal with `Conflict`: for
/// [`Shared::run_if`](crate::Shared::run_if), and for a [`MayConflict`] of an error that has a source.
///
/// ```
/// use argus_guardian::{Error, Refusal, is_conflict};
/// assert!(is_conflict(&Error::from(Refusal::Conflict)));
/// assert!(!is_conflict(&std::fmt::Error));
/// ```
#[must_use]
pub fn is_conflict(error: &(dyn error::Error + 'static)) -> bool {
    iter::successors(Some(error), |it| it.source()).any(is_itself_conflict)
}

fn is_itself_conflict(error: &(dyn error::Error + 'static)) -> bool {
    #[cfg(all(feature = "logged", unix))]
    if let Some(error) = error.downcast_ref::<LoggedError>() {
        return error.is_conflict();
    }
    error.downcast_ref().is_some_and(Error::is_conflict)
}

impl Shared {
    /// How often [`run`](Self::run) tries at most.
    pub const TRIES: usize = 20;

    /// Carries out the work as a topaction, which commits if the work returns `Ok`. At a refusal
    /// with `Conflict` the topaction is aborted, and tried again after a wait: up to a millisecond
    /// at first, up to twice as much each time, and no more than 100, [`Shared::TRIES`] times in
    /// all.
    ///
    /// **The work may run more than once**, so it must do nothing outside the guardian that mustn't
    /// be done twice, and begin no nested topaction that mustn't: each try commits it again.
    ///
    /// # Errors
    ///
    /// The error that the work returns, after which the topaction is aborted; the `Conflict` of the
    /// last try; as for [`topaction`](Self::topaction) and [`SharedAction::commit`]. A program's
    /// own error says by [`MayConflict`] whether to try again.
    ///
    /// ```
    /// use argus_guardian::{Access, Error, Guardian, Shared};
    /// let shared = Shared::from(Guardian::new()?);
    /// let counter = shared.named("counter", "atomic_record[n:int]")?;
    /// shared.run(|top| top.create(&counter, (0,)))?;
    /// let count = shared.run(|top| {
    ///     top.update(&counter, "n", |it: i64| it + 1)?;
    ///     top.get::<i64>(&counter, "n")
    /// })?;
    /// assert_eq!(count, 1);
    /// # Ok::<(), Error>(())
    /// ```
    pub fn run<T, E: From<Error> + MayConflict>(
        &self,
        work: impl FnMut(&SharedAction<'_>) -> Result<T, E>,
    ) -> Result<T, E> {
        self.run_if(E::is_conflict, work)
    }

    /// The same, for an error type that isn't a [`MayConflict`]: this function says whether to try again.
    /// [`is_conflict`](crate::is_conflict) finds an [`Error`] in any error.
    ///
    /// # Errors
    ///
    /// As for [`run`](Self::run).
    ///
    /// With anyhow it is `shared.run_if(|it: &anyhow::Error| is_conflict(it.as_ref()), |top| ..)`, and here with a type
    /// of this program:
    ///
    /// ```
    /// use argus_guardian::{Access, Error, Guardian, Shared, is_conflict};
    ///
    /// #[derive(Debug)]
    /// struct Failure(Box<dyn std::error::Error>);
    ///
    /// impl<E: std::error::Error + 'static> From<E> for Failure {
    ///     fn from(error: E) -> Failure {
    ///         Failure(error.into())
    ///     }
    /// }
    ///
    /// let shared = Shared::from(Guardian::new()?);
    /// let counter = shared.named("counter", "atomic_record[n:int]")?;
    /// shared.run_if(|it: &Failure| is_conflict(it.0.as_ref()), |top| {
    ///     top.create(&counter, ("7".parse::<i64>()?,))?;
    ///     Ok(())
    /// })?;
    /// # Ok::<(), Failure>(())
    /// ```
    pub fn run_if<T, E: From<Error>>(
        &self,
        is_conflict: impl Fn(&E) -> bool,
        mut work: impl FnMut(&SharedAction<'_>) -> Result<T, E>,
    ) -> Result<T, E> {
        retried(is_conflict, || commit_after(self.topaction()?, &mut work))
    }
}

/// The result of the work, carried out as this topaction, which commits then.
pub(crate) fn commit_after<S: Sharer, T, E: From<S::Error>>(
    top: SharedAction<'_, S>,
    work: impl FnOnce(&SharedAction<'_, S>) -> Result<T, E>,
) -> Result<T, E> {
    let result = work(&top)?;
    top.commit()?;
    Ok(result)
}

/// The result of the work, which is carried out again while this function says that its error is a conflict, at most
/// [`Shared::TRIES`](crate::Shared::TRIES) times in all.
pub(crate) fn retried<T, E>(
    is_conflict: impl Fn(&E) -> bool,
    mut work: impl FnMut() -> Result<T, E>,
) -> Result<T, E> {
    for wait in waits(Shared::TRIES - 1) {
        match work() {
            Err(error) if is_conflict(&error) => thread::sleep(wait),
            result => return result,
        }
    }
    work()
}

/// A wait before each of so many more tries. Each is random, so that actions that met don't meet
/// again: up to a millisecond at first, then up to twice as much each time, and no more than 100.
fn waits(tries: usize) -> impl Iterator<Item = Duration> {
    iter::successors(Some(FIRST), |limit| Some((*limit * 2).min(LONGEST)))
        .map(drawn_below)
        .take(tries)
}

// Std has no random numbers except the seeds of its hash maps.
fn drawn_below(limit: Duration) -> Duration {
    let drawn = RandomState::new().build_hasher().finish() >> 32;
    limit * u32::try_from(drawn).unwrap_or(u32::MAX) / u32::MAX
}
