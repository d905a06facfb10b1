//! Calls of a guardian: queries, changes and all others, with their written forms.

use crate::error::Error;
use crate::ids::{ActionId, ObjId, Owner};
use crate::value::{Content, Value};
use crate::written_form::Reader;
use std::fmt;
use std::str::FromStr;

/// One call of a guardian, which its journal keeps with the reply.
///
/// `Display` writes the words of a journal's line, and `FromStr` reads them.
///
/// ```
/// use argus_guardian::{ActionId, Call, ObjId, Query};
/// let call = Call::Ask(ActionId::numbered(1), ObjId::numbered(0), Query::Field(0));
/// assert_eq!(call.to_string(), "ask a1 o0 field 0");
/// assert_eq!("ask a1 o0 field 0".parse(), Ok(call));
/// ```
#[derive(Debug, Clone, PartialEq, Eq, Hash)]
pub enum Call {
    /// Declares an object of this shape, such as `atomic_record[balance:int]`: `Reply::Object`.
    Declare(String),
    /// Begins a topaction: `Reply::Begun`.
    BeginTop,
    /// Begins a subaction of this action: `Reply::Begun`.
    BeginSub(ActionId),
    /// Begins a nested topaction, of which this action is the creator: `Reply::Begun`.
    BeginNested(ActionId),
    /// Commits: `Answer::Done`. A subaction passes its locks and versions to its parent; what a
    /// topaction leaves is there for good.
    Commit(ActionId),
    /// Aborts the action and all subactions under it: `Answer::Done`. Their locks are freed, and
    /// their versions discarded.
    Abort(ActionId),
    /// Aborts all live siblings of the action: `Answer::Done`.
    AbortOthers(ActionId),
    /// The action looks at the object.
    Ask(ActionId, ObjId, Query),
    /// The action changes the object.
    Alter(ActionId, ObjId, Change),
    /// Takes a read lock if it is free: `Answer::Flag`.
    TestRead(ActionId, ObjId),
    /// Takes a write lock if it is free: `Answer::Flag`.
    TestWrite(ActionId, ObjId),
}

impl Call {
    /// Whether this guardian takes all of its ids.
    #[inline]
    pub(crate) fn is_for(&self, guardian: Owner) -> bool {
        self.action().is_none_or(|it| it.is_for(guardian))
            && self.object().is_none_or(|it| it.is_for(guardian))
            && self.change().is_none_or(|it| it.is_for(guardian))
    }

    // Why this guardian doesn't take its ids: `Over` for an action from before a renewal, or that one of them is another
    // guardian's.
    #[cold]
    pub(crate) fn refused_by(&self, guardian: Owner) -> Error {
        let refused = self.action().and_then(|it| it.number_for(guardian).err());
        refused.unwrap_or(Error::OtherGuardian)
    }

    /// The action that makes it.
    pub(crate) fn action(&self) -> Option<ActionId> {
        match *self {
            Call::Declare(_) | Call::BeginTop => None,
            Call::BeginSub(action)
            | Call::BeginNested(action)
            | Call::Commit(action)
            | Call::Abort(action)
            | Call::AbortOthers(action)
            | Call::Ask(action, ..)
            | Call::Alter(action, ..)
            | Call::TestRead(action, _)
            | Call::TestWrite(action, _) => Some(action),
        }
    }

    fn object(&self) -> Option<ObjId> {
        match *self {
            Call::Ask(_, object, _)
            | Call::Alter(_, object, _)
            | Call::TestRead(_, object)
            | Call::TestWrite(_, object) => Some(object),
            _ => None,
        }
    }

    fn change(&self) -> Option<&Change> {
        match self {
            Call::Alter(.., change) => Some(change),
            _ => None,
        }
    }
}

impl fmt::Display for Call {
    fn fmt(&self, f: &mut fmt::Formatter<'_>) -> fmt::Result {
        match self {
            Call::Declare(shape) => write!(f, "declare {shape}"),
            Call::BeginTop => f.write_str("begin_top"),
            Call::BeginSub(parent) => write!(f, "begin_sub {parent}"),
            Call::BeginNested(creator) => write!(f, "begin_nested {creator}"),
            Call::Commit(action) => write!(f, "commit {action}"),
            Call::Abort(action) => write!(f, "abort {action}"),
            Call::AbortOthers(action) => write!(f, "abort_others {action}"),
            Call::Ask(action, object, query) => write!(f, "ask {action} {object} {query}"),
            Call::Alter(action, object, change) => write!(f, "alter {action} {object} {change}"),
            Call::TestRead(action, object) => write!(f, "test_read {action} {object}"),
            Call::TestWrite(action, object) => write!(f, "test_write {action} {object}"),
        }
    }
}

/// An operation that looks at an object, and needs a read lock. Fields and tags are numbered from 0.
///
/// `Display` writes the words of a journal's line.
///
/// ```
/// use argus_guardian::Query;
/// assert_eq!(Query::Fetch(2).to_string(), "fetch 2");
/// ```
#[derive(Debug, Clone, Copy, PartialEq, Eq, Hash)]
pub enum Query {
    /// The whole content: `Answer::Body`.
    Whole,
    /// A field of a record: `Answer::Val`.
    Field(u8),
    /// An array's low bound: `Answer::Num`.
    Low,
    /// An array's high bound: `Answer::Num`.
    High,
    /// How many elements an array has: `Answer::Num`.
    Size,
    /// The element at this place: `Answer::Val`, or `Signal::Bounds`.
    Fetch(i64),
    /// The first element: `Answer::Val`, or `Signal::Bounds`.
    Bottom,
    /// The last element: `Answer::Val`, or `Signal::Bounds`.
    Top,
    /// Whether a variant has this tag: `Answer::Flag`.
    IsTag(u8),
    /// The value of this tag: `Answer::Val`, or `Signal::WrongTag`.
    TagValue(u8),
}

impl fmt::Display for Query {
    fn fmt(&self, f: &mut fmt::Formatter<'_>) -> fmt::Result {
        match self {
            Query::Whole => f.write_str("whole"),
            Query::Field(field) => write!(f, "field {field}"),
            Query::Low => f.write_str("low"),
            Query::High => f.write_str("high"),
            Query::Size => f.write_str("size"),
            Query::Fetch(place) => write!(f, "fetch {place}"),
            Query::Bottom => f.write_str("bottom"),
            Query::Top => f.write_str("top"),
            Query::IsTag(tag) => write!(f, "is_tag {tag}"),
            Query::TagValue(tag) => write!(f, "tag_value {tag}"),
        }
    }
}

/// An operation that changes an object, and needs a write lock. Fields and tags are numbered from
/// 0. If nothing else is said, the answer is `Answer::Done`.
///
/// `Display` writes the words of a journal's line.
///
/// ```
/// use argus_guardian::{Change, Value};
/// assert_eq!(Change::SetField(0, Value::Int(7)).to_string(), "set_field 0 7");
/// ```
#[derive(Debug, Clone, PartialEq, Eq, Hash)]
pub enum Change {
    /// Gives the object its first content, or `Signal::Exists`.
    Create(Content),
    /// Sets the field.
    SetField(u8, Value),
    /// Sets the element at this place, or `Signal::Bounds`.
    Store(i64, Value),
    /// Adds the value after the last element, or `Signal::Limits`.
    Addh(Value),
    /// Adds the value before the first element, or `Signal::Limits`.
    Addl(Value),
    /// Removes the last element: `Answer::Val` of it, or `Signal::Bounds`.
    Remh,
    /// Removes the first element: `Answer::Val` of it, `Signal::Bounds`, or `Signal::Limits`.
    Reml,
    /// Sets the low bound, or `Signal::Limits`.
    SetLow(i64),
    /// Keeps the elements from a place on, at most this many; or `Signal::NegativeSize`,
    /// `Signal::Bounds`, `Signal::Limits`.
    Trim(i64, i64),
    /// Sets the tag, with its value.
    ChangeTag(u8, Value),
    /// Changes nothing, but takes the write lock. An action's `lock` makes this change.
    Touch,
}

impl Change {
    /// Whether its value refers to no object but this guardian's and nobody's.
    #[inline]
    fn is_for(&self, guardian: Owner) -> bool {
        match self {
            Change::Create(content) => content.is_for(guardian),
            Change::SetField(_, value)
            | Change::Store(_, value)
            | Change::Addh(value)
            | Change::Addl(value)
            | Change::ChangeTag(_, value) => value.is_for(guardian),
            Change::Remh | Change::Reml | Change::SetLow(_) | Change::Trim(..) | Change::Touch => {
                true
            }
        }
    }
}

impl fmt::Display for Change {
    fn fmt(&self, f: &mut fmt::Formatter<'_>) -> fmt::Result {
        match self {
            Change::Create(content) => write!(f, "create {content}"),
            Change::SetField(field, value) => write!(f, "set_field {field} {value}"),
            Change::Store(place, value) => write!(f, "store {place} {value}"),
            Change::Addh(value) => write!(f, "addh {value}"),
            Change::Addl(value) => write!(f, "addl {value}"),
            Change::Remh => f.write_str("remh"),
            Change::Reml => f.write_str("reml"),
            Change::SetLow(low) => write!(f, "set_low {low}"),
            Change::Trim(low, count) => write!(f, "trim {low} {count}"),
            Change::ChangeTag(tag, value) => write!(f, "change_tag {tag} {value}"),
            Change::Touch => f.write_str("touch"),
        }
    }
}

impl Call {
    /// The number of an entry and its call, read from the entry's line.
    ///
    /// It reads more than the library writes. To check a line, make the call, and compare the line with
    /// [`Guardian::entry`](crate::Guardian::entry).
    ///
    /// # Errors
    ///
    /// [`Error::BadText`].
    ///
    /// ```
    /// use argus_guardian::{ActionId, Call};
    /// assert_eq!(Call::of_line("7 commit a3 -> done")?, (7, Call::Commit(ActionId::numbered(3))));
    /// assert!(Call::of_line("7 commit a3").is_err());
    /// # Ok::<(), argus_guardian::Error>(())
    /// ```
    pub fn of_line(line: &str) -> Result<(u64, Call), Error> {
        Reader::whole(line, |reader| {
            let number = u64::try_from(reader.int()?).ok()?;
            reader.take(" ")?;
            let call = reader.call()?;
            reader.take(" -> ")?;
            reader.skip_rest();
            Some((number, call))
        })
    }
}

impl FromStr for Call {
    type Err = Error;

    /// Reads the words that [`Display`](std::fmt::Display) writes.
    fn from_str(text: &str) -> Result<Call, Error> {
        Reader::whole(text, Reader::call)
    }
}

impl Reader<'_> {
    /// A call.
    pub(crate) fn call(&mut self) -> Option<Call> {
        let call = match self.word() {
            "begin_top" => return Some(Call::BeginTop),
            "declare" => {
                self.take(" ")?;
                return Some(Call::Declare(self.word().to_owned()));
            }
            call => call,
        };
        self.take(" ")?;
        let action = self.action()?;
        match call {
            "begin_sub" => return Some(Call::BeginSub(action)),
            "begin_nested" => return Some(Call::BeginNested(action)),
            "commit" => return Some(Call::Commit(action)),
            "abort" => return Some(Call::Abort(action)),
            "abort_others" => return Some(Call::AbortOthers(action)),
            _ => self.take(" ")?,
        }
        let object = self.object()?;
        match call {
            "test_read" => return Some(Call::TestRead(action, object)),
            "test_write" => return Some(Call::TestWrite(action, object)),
            _ => self.take(" ")?,
        }
        match call {
            "ask" => Some(Call::Ask(action, object, self.query()?)),
            "alter" => Some(Call::Alter(action, object, self.change()?)),
            _ => None,
        }
    }

    fn query(&mut self) -> Option<Query> {
        Some(match self.word() {
            "whole" => Query::Whole,
            "field" => Query::Field(self.behind_space(Reader::tag)?),
            "low" => Query::Low,
            "high" => Query::High,
            "size" => Query::Size,
            "fetch" => Query::Fetch(self.behind_space(Reader::int)?),
            "bottom" => Query::Bottom,
            "top" => Query::Top,
            "is_tag" => Query::IsTag(self.behind_space(Reader::tag)?),
            "tag_value" => Query::TagValue(self.behind_space(Reader::tag)?),
            _ => return None,
        })
    }

    fn change(&mut self) -> Option<Change> {
        Some(match self.word() {
            "create" => Change::Create(self.behind_space(Reader::content)?),
            "set_field" => Change::SetField(
                self.behind_space(Reader::tag)?,
                self.behind_space(Reader::value)?,
            ),
            "store" => Change::Store(
                self.behind_space(Reader::int)?,
                self.behind_space(Reader::value)?,
            ),
            "addh" => Change::Addh(self.behind_space(Reader::value)?),
            "addl" => Change::Addl(self.behind_space(Reader::value)?),
            "remh" => Change::Remh,
            "reml" => Change::Reml,
            "set_low" => Change::SetLow(self.behind_space(Reader::int)?),
            "trim" => Change::Trim(
                self.behind_space(Reader::int)?,
                self.behind_space(Reader::int)?,
            ),
            "change_tag" => Change::ChangeTag(
                self.behind_space(Reader::tag)?,
                self.behind_space(Reader::value)?,
            ),
            "touch" => Change::Touch,
            _ => return None,
        })
    }

    fn behind_space<T>(&mut self, read: impl FnOnce(&mut Self) -> Option<T>) -> Option<T> {
        self.take(" ")?;
        read(self)
    }
}

#[cfg(test)]
mod tests {
    use crate::{ActionId, Call, Change, ObjId, Query};

    const A: ActionId = ActionId::numbered(1);
    const O: ObjId = ObjId::numbered(2);

    // The words of each call stand in the docs of the library's header and in Moss's terms; here each call is
    // written and read back.
    #[test]
    fn each_call_is_read_back() {
        let value = "{-5,\" -> \\\"\\n\",[@3,null]}".parse().expect("a value");
        let changes = [
            Change::Create("1[10,20]".parse().expect("a content")),
            Change::SetField(255, value),
            Change::Store(i64::MIN, true.into()),
            Change::Addh(0.into()),
            Change::Addl("".into()),
            Change::Remh,
            Change::Reml,
            Change::SetLow(-1),
            Change::Trim(i64::MAX, -7),
            Change::ChangeTag(0, false.into()),
            Change::Touch,
        ];
        let queries = [
            Query::Whole,
            Query::Field(9),
            Query::Low,
            Query::High,
            Query::Size,
            Query::Fetch(-3),
            Query::Bottom,
            Query::Top,
            Query::IsTag(1),
            Query::TagValue(254),
        ];
        let others = [
            Call::Declare("atomic_record[a:int,b:text]".to_owned()),
            Call::BeginTop,
            Call::BeginSub(A),
            Call::BeginNested(A),
            Call::Commit(A),
            Call::Abort(A),
            Call::AbortOthers(A),
            Call::TestRead(A, O),
            Call::TestWrite(A, O),
        ];
        let asks = queries.map(|it| Call::Ask(A, O, it));
        let alters = changes.map(|it| Call::Alter(A, O, it));
        for call in others.into_iter().chain(asks).chain(alters) {
            assert_eq!(call.to_string().parse(), Ok(call.clone()));
            let line = format!("7 {call} -> val \" -> \"");
            assert_eq!(Call::of_line(&line), Ok((7, call)));
        }
    }

    #[test]
    fn what_is_no_call_is_none() {
        let none = [
            "",
            "begin",
            "commit",
            "commit 3",
            "ask a1 o2",
            "ask a1 o2 fetch",
            "touch a1 o2",
        ];
        for text in none {
            assert!(text.parse::<Call>().is_err(), "{text}");
        }
        for line in [
            "begin_top -> a0",
            "-1 begin_top -> a0",
            "7 begin_top  -> a0",
            "7 begin_top",
        ] {
            assert!(Call::of_line(line).is_err(), "{line}");
        }
    }
}
