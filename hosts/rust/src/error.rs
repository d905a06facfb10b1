//! Why calls of this crate fail.

use crate::access_error::{Contention, NameFault, TypeFault, TypeMismatch};
use crate::reply::{Refusal, Signal};
use crate::resumption::LineFault;
use crate::shape::ShapeFault;
use crate::shared::circles::Deadlock;
use std::{error, fmt};

/// Why a call of this crate failed. All other errors of the crate convert into it. `Display` says
/// everything: no error has a source.
///
/// ```
/// use argus_guardian::{CheckpointError, Error, LineFault, Refusal};
/// assert_eq!(Error::from(Refusal::Conflict).to_string(), "refused: Conflict");
/// let line = Error::from(LineFault::NotNext { next: 1 });
/// assert_eq!(line.to_string(), "not the next line of a journal: not the number of the next entry, 1");
/// assert_eq!(Error::from(CheckpointError::Busy).to_string(), "no checkpoint: an action is live");
/// ```
#[derive(Debug, Clone, PartialEq, Eq)]
#[non_exhaustive]
pub enum Error {
    /// Out of memory. Nothing has changed, and nothing was journalled; but `abort_live` keeps the aborts that it has
    /// made, `declare_each` the objects that it has declared, and a checkpoint with a log may have folded the journal:
    /// then the log gets the opening at the next call that waits for it.
    OutOfMemory,
    /// A text isn't the written form of a value or content. Nothing has changed, and nothing was
    /// journalled.
    BadText {
        /// How many of its bytes could be read.
        at: usize,
    },
    /// A text isn't the written form of a shape that can be made. Nothing has changed, and nothing
    /// was journalled.
    BadShape(ShapeFault),
    /// The object isn't declared, or no entry has this number, or a checkpoint has folded it.
    NotThere,
    /// The object's shape has no field or tag of this name. Nothing was journalled.
    NoName(Box<NameFault>),
    /// The object of this name has another shape than the one that was asked for. Nothing was journalled.
    OtherShape {
        /// How the object is called.
        object: Box<str>,
        /// The written form of its shape.
        shape: Box<str>,
    },
    /// The call of the list that should have begun the action isn't an earlier one, or began none.
    /// Nothing has changed, and nothing was journalled.
    NotBegun,
    /// The call was made and is in the journal, but there was no memory for its answer.
    /// `Guardian::answer_again` asks for the answer again.
    NoRoom,
    /// The id, or a reference in a value, is another guardian's. Nothing was journalled.
    OtherGuardian,
    /// The guardian has refused the call. The journal has the refusal, unless it is `Over` of an
    /// action from before a [renewal](crate::Guardian::renew).
    Refused(Refusal),
    /// The guardian has refused the call with `TooMany`. The journal has the refusal.
    TooMany(Limit),
    /// The guardian has refused an action's access with `IllTyped`: what the object's shape has there. The journal has
    /// the refusal.
    IllTyped(Box<TypeFault>),
    /// The guardian has refused an action's access with `Conflict`, at the end of patience: who holds the object. The
    /// journal has the refusal.
    Held(Box<Contention>),
    /// The guardian has refused the call with `Conflict`, and the call doesn't wait: the action and others would wait for
    /// one another in a circle. The journal has the refusal.
    Deadlock(Deadlock),
    /// The operation returned a signal; the action keeps the lock that it got.
    Signal(Signal),
    /// The journal wasn't folded. Nothing has changed.
    Checkpoint(CheckpointError),
    /// A line isn't the next one of a journal's listing.
    Line(LineFault),
    /// The answer isn't of the kind that was asked for. It is in the journal.
    OtherAnswer,
    /// The value that was read isn't of the type that was asked for. The read is in the journal.
    OtherType(Box<TypeMismatch>),
    /// The library returned a number that this crate doesn't know: their versions differ.
    Unknown(u32),
    /// The library has another version than the crate: this one.
    OtherVersion(u32),
}

impl Error {
    /// The reason for which the guardian has refused the call, if it has.
    ///
    /// ```
    /// use argus_guardian::{Error, Limit, Refusal};
    /// assert_eq!(Error::TooMany(Limit::Objects).refusal(), Some(Refusal::TooMany));
    /// assert_eq!(Error::OutOfMemory.refusal(), None);
    /// ```
    #[must_use]
    pub fn refusal(&self) -> Option<Refusal> {
        match self {
            Error::Refused(refusal) => Some(*refusal),
            Error::TooMany(_) => Some(Refusal::TooMany),
            Error::IllTyped(_) => Some(Refusal::IllTyped),
            Error::Held(_) | Error::Deadlock(_) => Some(Refusal::Conflict),
            _ => None,
        }
    }

    /// Whether it is a refusal with `Conflict`, also for a deadlock: abort the topaction, and begin it again.
    ///
    /// ```
    /// use argus_guardian::{Error, Refusal};
    /// assert!(Error::Refused(Refusal::Conflict).is_conflict());
    /// assert!(!Error::OutOfMemory.is_conflict());
    /// ```
    #[must_use]
    pub fn is_conflict(&self) -> bool {
        self.refusal() == Some(Refusal::Conflict)
    }
}

impl fmt::Display for Error {
    fn fmt(&self, f: &mut fmt::Formatter<'_>) -> fmt::Result {
        match self {
            Error::OutOfMemory => f.write_str("out of memory"),
            Error::BadText { at } => write!(f, "no written form: bad at byte {at}"),
            Error::BadShape(fault) => write!(f, "no written form of a shape: {fault}"),
            Error::NotThere => f.write_str("no such object or entry"),
            Error::NoName(fault) => write!(f, "{fault}"),
            Error::OtherShape { object, shape } => write!(f, "{object} has the shape {shape}"),
            Error::NotBegun => f.write_str("no earlier call of the list began this action"),
            Error::NoRoom => f.write_str("called, but no memory for the answer"),
            Error::OtherGuardian => f.write_str("an id of another guardian"),
            Error::Refused(refusal) => write!(f, "refused: {refusal}"),
            Error::TooMany(limit) => write!(f, "refused: {}: {limit}", Refusal::TooMany),
            Error::IllTyped(fault) => write!(f, "refused: {}: {fault}", Refusal::IllTyped),
            Error::Held(held) => write!(f, "refused: {}: {held}", Refusal::Conflict),
            Error::Deadlock(deadlock) => write!(f, "refused: {}: {deadlock}", Refusal::Conflict),
            Error::Signal(signal) => write!(f, "signal: {signal}"),
            Error::Checkpoint(error) => write!(f, "no checkpoint: {error}"),
            Error::Line(fault) => write!(f, "not the next line of a journal: {fault}"),
            Error::OtherAnswer => f.write_str("an answer of another kind"),
            Error::OtherType(fault) => write!(f, "{fault}"),
            Error::Unknown(status) => write!(f, "the library answered {status}"),
            Error::OtherVersion(number) => write!(f, "the library is of version {number}"),
        }
    }
}

impl error::Error for Error {}

impl From<CheckpointError> for Error {
    fn from(error: CheckpointError) -> Error {
        match error {
            CheckpointError::OutOfMemory => Error::OutOfMemory,
            CheckpointError::Busy | CheckpointError::Full => Error::Checkpoint(error),
        }
    }
}

impl From<Deadlock> for Error {
    fn from(deadlock: Deadlock) -> Error {
        Error::Deadlock(deadlock)
    }
}

impl From<LineFault> for Error {
    fn from(fault: LineFault) -> Error {
        Error::Line(fault)
    }
}

impl From<Refusal> for Error {
    fn from(refusal: Refusal) -> Error {
        Error::Refused(refusal)
    }
}

impl From<Signal> for Error {
    fn from(signal: Signal) -> Error {
        Error::Signal(signal)
    }
}

/// Why the journal wasn't folded. Nothing has changed.
///
/// ```
/// use argus_guardian::CheckpointError;
/// assert_eq!(CheckpointError::Busy.to_string(), "an action is live");
/// ```
#[derive(Debug, Clone, Copy, PartialEq, Eq)]
pub enum CheckpointError {
    /// An action is live.
    Busy,
    /// The next entry's number is above 9,223,372,036,854,775,807.
    Full,
    /// Out of memory.
    OutOfMemory,
}

impl fmt::Display for CheckpointError {
    fn fmt(&self, f: &mut fmt::Formatter<'_>) -> fmt::Result {
        f.write_str(match self {
            CheckpointError::Busy => "an action is live",
            CheckpointError::Full => "no entry's number is left",
            CheckpointError::OutOfMemory => "out of memory",
        })
    }
}

impl error::Error for CheckpointError {}

/// A limit of a guardian that is reached.
///
/// ```
/// use argus_guardian::{Error, Limit};
/// let words = "refused: TooMany: a million actions were begun: call `checkpoint` of a `Shared` or a log, or `renew`, \
///              when no action is live";
/// assert_eq!(Error::TooMany(Limit::Actions).to_string(), words);
/// ```
#[derive(Debug, Clone, Copy, PartialEq, Eq, Hash)]
#[non_exhaustive]
pub enum Limit {
    /// 65,535 objects are declared, and none of these numbers is free again.
    Objects,
    /// A million actions were begun ([`Guardian::MAX_ACTIONS`](crate::Guardian::MAX_ACTIONS)) since the guardian was
    /// made, or [renewed](crate::Guardian::renew).
    Actions,
}

impl fmt::Display for Limit {
    fn fmt(&self, f: &mut fmt::Formatter<'_>) -> fmt::Result {
        f.write_str(match self {
            Limit::Objects => "65,535 objects are declared, and no more can be",
            Limit::Actions => {
                "a million actions were begun: call `checkpoint` of a `Shared` or a log, or `renew`, \
                 when no action is live"
            }
        })
    }
}

impl From<ShapeFault> for Error {
    fn from(fault: ShapeFault) -> Error {
        Error::BadShape(fault)
    }
}
