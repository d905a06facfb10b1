//! How calls and replies cross the border of the C library.

use crate::call::{Call, Change, Query};
use crate::error::Error;
use crate::ids::{ActionId, ObjId, Owner};
use crate::reply::{Answer, Refusal, Reply, Signal};
use crate::sys::{kind, status};
use crate::value::Value;
use crate::written_form::Reader;

/// A call as the library takes it: its kind, and its arguments, zero if there is none.
pub(crate) struct Words {
    pub(crate) kind: u32,
    pub(crate) action: u32,
    pub(crate) object: u32,
    pub(crate) first: i64,
    pub(crate) second: i64,
    pub(crate) text: String,
}

impl Words {
    #[inline]
    pub(crate) fn of(call: &Call) -> Words {
        let by = |kind, action: &ActionId| Words::of_kind(kind).by(*action);
        match call {
            Call::Declare(shape) => Words {
                text: shape.clone(),
                ..Words::of_kind(kind::DECLARE)
            },
            Call::BeginTop => Words::of_kind(kind::BEGIN_TOP),
            Call::BeginSub(parent) => by(kind::BEGIN_SUB, parent),
            Call::BeginNested(creator) => by(kind::BEGIN_NESTED, creator),
            Call::Commit(action) => by(kind::COMMIT, action),
            Call::Abort(action) => by(kind::ABORT, action),
            Call::AbortOthers(action) => by(kind::ABORT_OTHERS, action),
            Call::Ask(action, object, query) => Words::of_query(query).by(*action).on(*object),
            Call::Alter(action, object, change) => Words::of_change(change).by(*action).on(*object),
            Call::TestRead(action, object) => by(kind::TEST_READ, action).on(*object),
            Call::TestWrite(action, object) => by(kind::TEST_WRITE, action).on(*object),
        }
    }

    fn of_kind(kind: u32) -> Words {
        Words {
            kind,
            action: 0,
            object: 0,
            first: 0,
            second: 0,
            text: String::new(),
        }
    }

    fn by(self, action: ActionId) -> Words {
        Words {
            action: action.number(),
            ..self
        }
    }

    fn on(self, object: ObjId) -> Words {
        Words {
            object: object.number(),
            ..self
        }
    }

    fn of_query(query: &Query) -> Words {
        let (kind, first) = match *query {
            Query::Whole => (kind::WHOLE, 0),
            Query::Field(field) => (kind::FIELD, i64::from(field)),
            Query::Low => (kind::LOW, 0),
            Query::High => (kind::HIGH, 0),
            Query::Size => (kind::SIZE, 0),
            Query::Fetch(place) => (kind::FETCH, place),
            Query::Bottom => (kind::BOTTOM, 0),
            Query::Top => (kind::TOP, 0),
            Query::IsTag(tag) => (kind::IS_TAG, i64::from(tag)),
            Query::TagValue(tag) => (kind::TAG_VALUE, i64::from(tag)),
        };
        Words {
            first,
            ..Words::of_kind(kind)
        }
    }

    fn of_change(change: &Change) -> Words {
        let (kind, first, second, value) = match change {
            Change::Create(content) => {
                return Words {
                    text: content.to_string(),
                    ..Words::of_kind(kind::CREATE)
                };
            }
            Change::SetField(field, value) => (kind::SET_FIELD, i64::from(*field), 0, Some(value)),
            Change::Store(place, value) => (kind::STORE, *place, 0, Some(value)),
            Change::Addh(value) => (kind::ADDH, 0, 0, Some(value)),
            Change::Addl(value) => (kind::ADDL, 0, 0, Some(value)),
            Change::Remh => (kind::REMH, 0, 0, None),
            Change::Reml => (kind::REML, 0, 0, None),
            Change::SetLow(low) => (kind::SET_LOW, *low, 0, None),
            Change::Trim(low, count) => (kind::TRIM, *low, *count, None),
            Change::ChangeTag(tag, value) => (kind::CHANGE_TAG, i64::from(*tag), 0, Some(value)),
            Change::Touch => (kind::TOUCH, 0, 0, None),
        };
        let (kind, second, text) = match value {
            Some(Value::Int(number)) => (by_int(kind), *number, String::new()),
            Some(Value::Bool(flag)) => (by_bool(kind), i64::from(*flag), String::new()),
            Some(other) => (kind, second, other.to_string()),
            None => (kind, second, String::new()),
        };
        Words {
            first,
            second,
            text,
            ..Words::of_kind(kind)
        }
    }
}

// The kind of the same change by an integer, which needs no text.
fn by_int(kind: u32) -> u32 {
    match kind {
        kind::SET_FIELD => kind::SET_FIELD_INT,
        kind::STORE => kind::STORE_INT,
        kind::ADDH => kind::ADDH_INT,
        kind::ADDL => kind::ADDL_INT,
        kind::CHANGE_TAG => kind::CHANGE_TAG_INT,
        other => other,
    }
}

// The same by a truth value.
fn by_bool(kind: u32) -> u32 {
    match kind {
        kind::SET_FIELD => kind::SET_FIELD_BOOL,
        kind::STORE => kind::STORE_BOOL,
        kind::ADDH => kind::ADDH_BOOL,
        kind::ADDL => kind::ADDL_BOOL,
        kind::CHANGE_TAG => kind::CHANGE_TAG_BOOL,
        other => other,
    }
}

/// What the library has written with this status, for this guardian.
pub(crate) fn read_as<'t, T>(
    status: u32,
    owner: Owner,
    text: &'t str,
    read: impl FnOnce(&mut Reader<'t>) -> Option<T>,
) -> Result<T, Error> {
    Reader::whole_of(owner, text, read).map_err(|_| Error::Unknown(status))
}

/// A number that the library has for an object or an action.
pub(crate) fn number_of(status: u32, number: i64) -> Result<u32, Error> {
    u32::try_from(number).map_err(|_| Error::Unknown(status))
}

/// The one of these with this number, which the library counts from 1.
pub(crate) fn one_of<T: Copy>(all: &[T], status: u32, number: i64) -> Result<T, Error> {
    let place = usize::try_from(number).ok().and_then(|n| n.checked_sub(1));
    let one = place.and_then(|place| all.get(place));
    one.copied().ok_or(Error::Unknown(status))
}

/// This guardian's reply to a call of this kind, from its status and its number; if the number
/// doesn't say the value or content, it is asked for.
pub(crate) fn reply_of(
    owner: Owner,
    kind: u32,
    status: u32,
    number: i64,
    answer: impl FnOnce() -> Result<Answer, Error>,
) -> Result<Reply, Error> {
    let answer = match status {
        status::DONE => Answer::Done,
        status::OBJECT => {
            let number = number_of(status, number)?;
            return Ok(Reply::Object(ObjId::of(owner, number)));
        }
        status::ACTION => {
            let number = number_of(status, number)?;
            return Ok(Reply::Begun(ActionId::of(owner, number)));
        }
        status::NUMBER if gives_value(kind) => Answer::Val(Value::Int(number)),
        status::NUMBER => Answer::Num(number),
        status::FLAG if gives_value(kind) => Answer::Val(Value::Bool(number != 0)),
        status::FLAG => Answer::Flag(number != 0),
        status::VALUE | status::CONTENT => answer()?,
        status::SIGNAL => Answer::Signal(one_of(&Signal::ALL, status, number)?),
        status::REFUSED => {
            return one_of(&Refusal::ALL, status, number).map(Reply::Refused);
        }
        _ => return Err(error_of(status, number)),
    };
    Ok(Reply::Answered(answer))
}

// Whether a call of this kind returns a value, if it is accepted and returns no signal.
fn gives_value(kind: u32) -> bool {
    matches!(
        kind,
        kind::FIELD
            | kind::FETCH
            | kind::BOTTOM
            | kind::TOP
            | kind::TAG_VALUE
            | kind::REMH
            | kind::REML
    )
}

/// Why no call was made.
pub(crate) fn error_of(status: u32, number: i64) -> Error {
    match status {
        status::NO_MEMORY => Error::OutOfMemory,
        status::BAD_TEXT => Error::BadText {
            at: usize::try_from(number).unwrap_or(0),
        },
        status::NOT_THERE => Error::NotThere,
        status::NOT_BEGUN => Error::NotBegun,
        other => Error::Unknown(other),
    }
}
