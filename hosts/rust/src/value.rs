//! What objects hold: values, and contents made of them.

use crate::error::Error;
use crate::ids::{ObjId, Owner};
use crate::written_form::{Reader, Writer};
use std::str::FromStr;
use std::{fmt, slice};

/// What a field, an element or a tag holds. Only types have names: fields and tags are numbered
/// from 0, in the order of their type.
///
/// `Display` writes the written form, of any depth, and `FromStr` reads it. A value that is read or
/// passed to a guardian has depth at most 16: a scalar has depth 1, a compound 1 more than its
/// deepest part.
///
/// Integers, truth values, texts and references become values by `From`, and are taken out of one
/// by `TryFrom`, with [`Error::OtherAnswer`] if the value is of another kind.
///
/// ```
/// use argus_guardian::Value;
/// let value = Value::Fields(vec![(-5).into(), "a\"b".into()]);
/// assert_eq!(value.to_string(), r#"{-5,"a\"b"}"#);
/// assert_eq!(value.to_string().parse(), Ok(value));
/// assert_eq!(i64::try_from(Value::from(7)), Ok(7));
/// ```
#[derive(Debug, Clone, PartialEq, Eq, Hash)]
pub enum Value {
    /// The one value of the type `null`.
    Null,
    /// A truth value.
    Bool(bool),
    /// An integer.
    Int(i64),
    /// A text.
    Text(String),
    /// A reference to an object.
    Atomic(ObjId),
    /// The elements of a `sequence`.
    Sequence(Vec<Value>),
    /// The fields of a `struct`.
    Fields(Vec<Value>),
    /// A tag of a `oneof`, and the tag's value.
    Choice(u8, Box<Value>),
}

impl From<i32> for Value {
    fn from(number: i32) -> Value {
        Value::Int(number.into())
    }
}

impl From<u32> for Value {
    fn from(number: u32) -> Value {
        Value::Int(number.into())
    }
}

impl From<i64> for Value {
    fn from(number: i64) -> Value {
        Value::Int(number)
    }
}

impl From<bool> for Value {
    fn from(flag: bool) -> Value {
        Value::Bool(flag)
    }
}

impl From<&str> for Value {
    fn from(text: &str) -> Value {
        Value::Text(text.to_owned())
    }
}

impl From<String> for Value {
    fn from(text: String) -> Value {
        Value::Text(text)
    }
}

impl From<ObjId> for Value {
    fn from(object: ObjId) -> Value {
        Value::Atomic(object)
    }
}

impl TryFrom<Value> for i64 {
    type Error = Error;

    /// The integer; [`Error::OtherAnswer`] if the value isn't one.
    fn try_from(value: Value) -> Result<i64, Error> {
        match value {
            Value::Int(number) => Ok(number),
            _ => Err(Error::OtherAnswer),
        }
    }
}

impl TryFrom<Value> for bool {
    type Error = Error;

    /// The truth value; [`Error::OtherAnswer`] if the value isn't one.
    fn try_from(value: Value) -> Result<bool, Error> {
        match value {
            Value::Bool(flag) => Ok(flag),
            _ => Err(Error::OtherAnswer),
        }
    }
}

impl TryFrom<Value> for String {
    type Error = Error;

    /// The text; [`Error::OtherAnswer`] if the value isn't one.
    fn try_from(value: Value) -> Result<String, Error> {
        match value {
            Value::Text(text) => Ok(text),
            _ => Err(Error::OtherAnswer),
        }
    }
}

impl TryFrom<Value> for ObjId {
    type Error = Error;

    /// The object that is referred to; [`Error::OtherAnswer`] if the value isn't a reference.
    fn try_from(value: Value) -> Result<ObjId, Error> {
        match value {
            Value::Atomic(object) => Ok(object),
            _ => Err(Error::OtherAnswer),
        }
    }
}

impl fmt::Display for Value {
    fn fmt(&self, f: &mut fmt::Formatter<'_>) -> fmt::Result {
        Writer::value(f, self)
    }
}

impl FromStr for Value {
    type Err = Error;

    /// Reads a written form; [`Error::BadText`] if the text isn't one.
    fn from_str(text: &str) -> Result<Value, Error> {
        Reader::whole(text, Reader::value)
    }
}

/// What an object holds when it is created. `Display` writes the written form, and `FromStr` reads
/// it.
///
/// ```
/// use argus_guardian::{Content, Value};
/// let content: Content = "1[10,20]".parse()?;
/// assert_eq!(content, Content::Array { low: 1, items: vec![Value::Int(10), Value::Int(20)] });
/// assert_eq!(content.to_string(), "1[10,20]");
/// # Ok::<(), argus_guardian::Error>(())
/// ```
#[derive(Debug, Clone, PartialEq, Eq, Hash)]
pub enum Content {
    /// The fields of an `atomic_record`.
    Record(Vec<Value>),
    /// An `atomic_array`: its low bound, and its elements.
    Array {
        /// The place of the first element.
        low: i64,
        /// The elements, in order.
        items: Vec<Value>,
    },
    /// An `atomic_variant`: its tag, and the tag's value.
    Variant {
        /// The number of the tag.
        tag: u8,
        /// Its value.
        value: Value,
    },
}

impl fmt::Display for Content {
    fn fmt(&self, f: &mut fmt::Formatter<'_>) -> fmt::Result {
        match self {
            Content::Record(fields) => Writer::list(f, '{', fields, '}'),
            Content::Array { low, items } => {
                write!(f, "{low}")?;
                Writer::list(f, '[', items, ']')
            }
            Content::Variant { tag, value } => write!(f, "<{tag}:{value}>"),
        }
    }
}

impl FromStr for Content {
    type Err = Error;

    /// Reads a written form; [`Error::BadText`] if the text isn't one.
    fn from_str(text: &str) -> Result<Content, Error> {
        Reader::whole(text, Reader::content)
    }
}

// A value that is deeper is no text, so nobody looks at what it refers to.
const LEVELS: u8 = 16;

impl Content {
    /// Whether it refers to no object but this guardian's and nobody's.
    pub(crate) fn is_for(&self, guardian: Owner) -> bool {
        let values = match self {
            Content::Record(fields) => fields,
            Content::Array { items, .. } => items,
            Content::Variant { value, .. } => slice::from_ref(value),
        };
        values.iter().all(|it| it.is_for(guardian))
    }
}

impl Value {
    /// Whether it refers to no object but this guardian's and nobody's.
    #[inline]
    pub(crate) fn is_for(&self, guardian: Owner) -> bool {
        self.is_plain() || self.refers_to(guardian, LEVELS)
    }

    // Whether it can't refer to an object.
    #[inline]
    fn is_plain(&self) -> bool {
        matches!(
            self,
            Value::Null | Value::Bool(_) | Value::Int(_) | Value::Text(_)
        )
    }

    // Whether it refers, down to so many levels, to no object but this guardian's and nobody's.
    fn refers_to(&self, guardian: Owner, levels: u8) -> bool {
        let parts = match self {
            Value::Atomic(object) => return object.is_for(guardian),
            Value::Sequence(parts) | Value::Fields(parts) if levels > 1 => parts,
            Value::Choice(_, part) if levels > 1 => slice::from_ref(&**part),
            _ => return true,
        };
        let is_for = |it: &Value| it.is_plain() || it.refers_to(guardian, levels - 1);
        parts.iter().all(is_for)
    }
}
