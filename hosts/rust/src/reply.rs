//! What a guardian returns: replies, with their answers, refusals and signals.

use crate::error::{Error, Limit};
use crate::ids::{ActionId, ObjId};
use crate::value::{Content, Value};
use crate::written_form::Reader;
use std::str::FromStr;
use std::{error, fmt};

/// What a guardian returns to a call. `Display` writes the words of a journal's line, and `FromStr`
/// reads them.
///
/// ```
/// use argus_guardian::{Answer, Reply, Value};
/// let reply = Reply::Answered(Answer::Val(Value::Int(7)));
/// assert_eq!(reply.to_string(), "val 7");
/// assert_eq!("val 7".parse(), Ok(reply));
/// ```
#[derive(Debug, Clone, PartialEq, Eq, Hash)]
#[must_use = "it may be a refusal: `answer`, `action` and `object` make an error of that"]
pub enum Reply {
    /// The object that was declared.
    Object(ObjId),
    /// The action that was begun.
    Begun(ActionId),
    /// The call is accepted, and has this answer.
    Answered(Answer),
    /// The call is refused.
    Refused(Refusal),
}

impl Reply {
    /// The object that was declared.
    ///
    /// # Errors
    ///
    /// [`Error::TooMany`] or [`Error::Refused`] if the call was refused, [`Error::OtherAnswer`] if it wasn't a
    /// declaration.
    ///
    /// ```
    /// use argus_guardian::{Error, Limit, ObjId, Refusal, Reply};
    /// assert_eq!(Reply::Object(ObjId::numbered(0)).object(), Ok(ObjId::numbered(0)));
    /// let refused = Reply::Refused(Refusal::TooMany);
    /// assert_eq!(refused.object(), Err(Error::TooMany(Limit::Objects)));
    /// ```
    pub fn object(self) -> Result<ObjId, Error> {
        match self {
            Reply::Object(object) => Ok(object),
            Reply::Refused(Refusal::TooMany) => Err(Error::TooMany(Limit::Objects)),
            other => Err(other.no()),
        }
    }

    /// The action that was begun.
    ///
    /// # Errors
    ///
    /// [`Error::TooMany`] or [`Error::Refused`] if the call was refused, [`Error::OtherAnswer`] if it began nothing.
    ///
    /// ```
    /// use argus_guardian::{ActionId, Reply};
    /// assert_eq!(Reply::Begun(ActionId::numbered(2)).action(), Ok(ActionId::numbered(2)));
    /// ```
    pub fn action(self) -> Result<ActionId, Error> {
        match self {
            Reply::Begun(action) => Ok(action),
            Reply::Refused(Refusal::TooMany) => Err(Error::TooMany(Limit::Actions)),
            other => Err(other.no()),
        }
    }

    /// The answer, which may be a signal.
    ///
    /// # Errors
    ///
    /// [`Error::Refused`] if the call was refused, [`Error::OtherAnswer`] if it was a declaration
    /// or began an action.
    ///
    /// ```
    /// use argus_guardian::{Answer, Reply};
    /// assert_eq!(Reply::Answered(Answer::Num(3)).answer(), Ok(Answer::Num(3)));
    /// ```
    pub fn answer(self) -> Result<Answer, Error> {
        match self {
            Reply::Answered(answer) => Ok(answer),
            other => Err(other.no()),
        }
    }

    // Why this isn't the reply that was asked for.
    fn no(self) -> Error {
        match self {
            Reply::Refused(refusal) => Error::Refused(refusal),
            _ => Error::OtherAnswer,
        }
    }

    fn read(reader: &mut Reader<'_>) -> Option<Reply> {
        if reader.take("done").is_some() {
            return Some(Reply::Answered(Answer::Done));
        }
        if reader.take("refused ").is_some() {
            return named(reader, &Refusal::ALL).map(Reply::Refused);
        }
        if let Some(action) = reader.action() {
            return Some(Reply::Begun(action));
        }
        if let Some(object) = reader.object() {
            return Some(Reply::Object(object));
        }
        read_answer(reader).map(Reply::Answered)
    }
}

fn read_answer(reader: &mut Reader<'_>) -> Option<Answer> {
    if reader.take("val ").is_some() {
        return reader.value().map(Answer::Val);
    }
    if reader.take("num ").is_some() {
        return reader.int().map(Answer::Num);
    }
    if reader.take("flag ").is_some() {
        return match reader.value()? {
            Value::Bool(flag) => Some(Answer::Flag(flag)),
            _ => None,
        };
    }
    if reader.take("body ").is_some() {
        return reader.content().map(Answer::Body);
    }
    reader.take("signal ")?;
    named(reader, &Signal::ALL).map(Answer::Signal)
}

// The one of these whose name comes next.
fn named<T: Copy + fmt::Display>(reader: &mut Reader<'_>, all: &[T]) -> Option<T> {
    all.iter()
        .copied()
        .find(|one| reader.take(&one.to_string()).is_some())
}

impl fmt::Display for Reply {
    fn fmt(&self, f: &mut fmt::Formatter<'_>) -> fmt::Result {
        match self {
            Reply::Object(object) => write!(f, "{object}"),
            Reply::Begun(action) => write!(f, "{action}"),
            Reply::Answered(answer) => write!(f, "{answer}"),
            Reply::Refused(refusal) => write!(f, "refused {refusal}"),
        }
    }
}

impl FromStr for Reply {
    type Err = Error;

    /// Reads the words of a reply; [`Error::BadText`] if they aren't one.
    fn from_str(text: &str) -> Result<Reply, Error> {
        Reader::whole(text, Reply::read)
    }
}

/// What an operation returns. `Display` writes the words of a journal's line.
///
/// It may be a signal, so a program has to look at it:
///
/// ```compile_fail
/// #![deny(unused_must_use)]
/// # use argus_guardian::{Change, Guardian};
/// # let mut guardian = Guardian::new()?;
/// # let object = guardian.declare("atomic_array[int]")?;
/// guardian.topaction()?.alter(object, Change::Remh)?;    // was there an element?
/// # Ok::<(), argus_guardian::Error>(())
/// ```
///
/// ```
/// use argus_guardian::{Answer, Value};
/// assert_eq!(Answer::Val(Value::Int(7)).to_string(), "val 7");
/// ```
#[derive(Debug, Clone, PartialEq, Eq, Hash)]
#[must_use = "it may be a signal: `done`, `value` and their kin make an error of that"]
pub enum Answer {
    /// It is done.
    Done,
    /// A value.
    Val(Value),
    /// A bound, or a size.
    Num(i64),
    /// A truth value.
    Flag(bool),
    /// A whole content.
    Body(Content),
    /// A signal, in place of an answer.
    Signal(Signal),
}

impl Answer {
    /// Nothing, if it is done.
    ///
    /// # Errors
    ///
    /// [`Error::Signal`] if it is a signal, [`Error::OtherAnswer`] if it is of another kind.
    ///
    /// ```
    /// use argus_guardian::{Answer, Error, Signal};
    /// assert_eq!(Answer::Done.done(), Ok(()));
    /// assert_eq!(Answer::Signal(Signal::Bounds).done(), Err(Error::Signal(Signal::Bounds)));
    /// ```
    pub fn done(self) -> Result<(), Error> {
        match self {
            Answer::Done => Ok(()),
            other => Err(other.refused()),
        }
    }

    /// The value.
    ///
    /// # Errors
    ///
    /// As for [`Answer::done`].
    ///
    /// ```
    /// use argus_guardian::{Answer, Value};
    /// assert_eq!(Answer::Val(Value::Null).value(), Ok(Value::Null));
    /// ```
    pub fn value(self) -> Result<Value, Error> {
        match self {
            Answer::Val(value) => Ok(value),
            other => Err(other.refused()),
        }
    }

    /// The integer: a bound, a size, or a value that is one.
    ///
    /// # Errors
    ///
    /// As for [`Answer::done`].
    ///
    /// ```
    /// use argus_guardian::{Answer, Value};
    /// assert_eq!(Answer::Val(Value::Int(7)).int(), Ok(7));
    /// assert_eq!(Answer::Num(7).int(), Ok(7));
    /// ```
    pub fn int(self) -> Result<i64, Error> {
        match self {
            Answer::Val(Value::Int(number)) | Answer::Num(number) => Ok(number),
            other => Err(other.refused()),
        }
    }

    /// A truth value.
    ///
    /// # Errors
    ///
    /// As for [`Answer::done`].
    ///
    /// ```
    /// use argus_guardian::Answer;
    /// assert_eq!(Answer::Flag(true).flag(), Ok(true));
    /// ```
    pub fn flag(self) -> Result<bool, Error> {
        match self {
            Answer::Flag(flag) => Ok(flag),
            other => Err(other.refused()),
        }
    }

    /// The content.
    ///
    /// # Errors
    ///
    /// As for [`Answer::done`].
    ///
    /// ```
    /// use argus_guardian::{Answer, Content};
    /// assert_eq!(Answer::Body(Content::Record(vec![])).body(), Ok(Content::Record(vec![])));
    /// ```
    pub fn body(self) -> Result<Content, Error> {
        match self {
            Answer::Body(content) => Ok(content),
            other => Err(other.refused()),
        }
    }

    // Why this isn't the answer that was asked for.
    fn refused(self) -> Error {
        match self {
            Answer::Signal(signal) => Error::Signal(signal),
            _ => Error::OtherAnswer,
        }
    }
}

impl fmt::Display for Answer {
    fn fmt(&self, f: &mut fmt::Formatter<'_>) -> fmt::Result {
        match self {
            Answer::Done => f.write_str("done"),
            Answer::Val(value) => write!(f, "val {value}"),
            Answer::Num(number) => write!(f, "num {number}"),
            Answer::Flag(flag) => write!(f, "flag {flag}"),
            Answer::Body(content) => write!(f, "body {content}"),
            Answer::Signal(signal) => write!(f, "signal {signal}"),
        }
    }
}

/// Why a call was refused, in the order of checking. A refused call takes no lock and changes
/// nothing, but the journal keeps it and its reply.
///
/// ```
/// use argus_guardian::Refusal;
/// assert_eq!(Refusal::Conflict.to_string(), "Conflict");
/// ```
#[derive(Debug, Clone, Copy, PartialEq, Eq, Hash)]
pub enum Refusal {
    /// The action isn't begun.
    NoAction,
    /// The action has committed or is aborted.
    Over,
    /// The action has a live child.
    Suspended,
    /// The object isn't declared.
    NoObject,
    /// The operation doesn't suit the object's shape, or its value isn't of the type there.
    IllTyped,
    /// An action that isn't an ancestor holds a lock that conflicts with this one's.
    Conflict,
    /// The parent has depth 64.
    TooDeep,
    /// No more objects may be declared (65,535), or no more actions begun (1,000,000).
    TooMany,
    /// The action has neither parent nor creator, and so no siblings.
    NoSiblings,
}

impl Refusal {
    /// All refusals, in order of checking.
    ///
    /// ```
    /// use argus_guardian::Refusal;
    /// assert_eq!(Refusal::ALL[5], Refusal::Conflict);
    /// ```
    pub const ALL: [Refusal; 9] = [
        Refusal::NoAction,
        Refusal::Over,
        Refusal::Suspended,
        Refusal::NoObject,
        Refusal::IllTyped,
        Refusal::Conflict,
        Refusal::TooDeep,
        Refusal::TooMany,
        Refusal::NoSiblings,
    ];
}

impl fmt::Display for Refusal {
    fn fmt(&self, f: &mut fmt::Formatter<'_>) -> fmt::Result {
        f.write_str(match self {
            Refusal::NoAction => "NoAction",
            Refusal::Over => "Over",
            Refusal::Suspended => "Suspended",
            Refusal::NoObject => "NoObject",
            Refusal::IllTyped => "IllTyped",
            Refusal::Conflict => "Conflict",
            Refusal::TooDeep => "TooDeep",
            Refusal::TooMany => "TooMany",
            Refusal::NoSiblings => "NoSiblings",
        })
    }
}

impl error::Error for Refusal {}

/// Why an operation changed nothing, in place of its answer. The action has got its lock all the
/// same, and keeps it.
///
/// ```
/// use argus_guardian::Signal;
/// assert_eq!(Signal::WrongTag.to_string(), "wrong_tag");
/// ```
#[derive(Debug, Clone, Copy, PartialEq, Eq, Hash)]
pub enum Signal {
    /// The object has no content yet.
    Absent,
    /// A `Create` of an object that has a content.
    Exists,
    /// No element has this place, or there is none at all.
    Bounds,
    /// The variant has another tag.
    WrongTag,
    /// A count below zero.
    NegativeSize,
    /// A bound or the size of an array would leave its limits.
    Limits,
}

impl Signal {
    /// All signals.
    ///
    /// ```
    /// use argus_guardian::Signal;
    /// assert_eq!(Signal::ALL.len(), 6);
    /// ```
    pub const ALL: [Signal; 6] = [
        Signal::Absent,
        Signal::Exists,
        Signal::Bounds,
        Signal::WrongTag,
        Signal::NegativeSize,
        Signal::Limits,
    ];
}

impl fmt::Display for Signal {
    fn fmt(&self, f: &mut fmt::Formatter<'_>) -> fmt::Result {
        f.write_str(match self {
            Signal::Absent => "absent",
            Signal::Exists => "exists",
            Signal::Bounds => "bounds",
            Signal::WrongTag => "wrong_tag",
            Signal::NegativeSize => "negative_size",
            Signal::Limits => "limits",
        })
    }
}

impl error::Error for Signal {}
