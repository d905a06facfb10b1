//! What Rust's values are to a guardian: `From` into values and contents, `FromValue` and `FromContent` out of them.

use crate::error::Error;
use crate::ids::ObjId;
use crate::object::Object;
use crate::value::{Content, Value};

/// A type that is read from the value of a field, an element or a tag.
///
/// Integers, truth values, texts, references, `()` for null, vectors for sequences, tuples and
/// [`record!`](crate::record) structs for structs are; a [`Value`] is any of them.
///
/// ```
/// use argus_guardian::{Error, FromValue, Value};
/// let value = Value::from((7, vec!["a", "b"]));
/// assert_eq!(value.to_string(), r#"{7,["a","b"]}"#);
/// let (number, texts) = <(i64, Vec<String>)>::from_value(value)?;
/// assert_eq!((number, texts.len()), (7, 2));
/// assert_eq!(u8::from_value(Value::Int(256)), Err(Error::OtherAnswer));
/// # Ok::<(), Error>(())
/// ```
pub trait FromValue: Sized {
    /// The value as this type.
    ///
    /// # Errors
    ///
    /// [`Error::OtherAnswer`] if the value is of another kind, or is too large for the type.
    fn from_value(value: Value) -> Result<Self, Error>;
}

/// A type that is read from all that an object has in it.
///
/// Tuples and [`record!`](crate::record) structs are, of records, vectors, of arrays, and a [`Content`] of any object.
///
/// ```
/// use argus_guardian::{Content, FromContent};
/// let content = Content::from((5, "ann"));
/// assert_eq!(<(i64, String)>::from_content(content)?, (5, "ann".to_owned()));
/// # Ok::<(), argus_guardian::Error>(())
/// ```
pub trait FromContent: Sized {
    /// The names that a record has to have, in their order; `None` if any do.
    const FIELDS: Option<&'static [&'static str]> = None;

    /// The content as this type.
    ///
    /// # Errors
    ///
    /// [`Error::OtherAnswer`] if the content is of another kind.
    fn from_content(content: Content) -> Result<Self, Error>;
}

impl FromValue for Value {
    fn from_value(value: Value) -> Result<Value, Error> {
        Ok(value)
    }
}

impl Content {
    /// The content as this type.
    ///
    /// # Errors
    ///
    /// [`Error::OtherAnswer`] if it is of another kind.
    ///
    /// ```
    /// use argus_guardian::{Access, Guardian};
    /// let mut guardian = Guardian::new()?;
    /// let account = guardian.named("account", "atomic_record[balance:int]")?;
    /// let top = guardian.topaction()?;
    /// top.create(&account, (5,))?;
    /// top.commit()?;
    /// let (balance,): (i64,) = guardian.base(&account)?.expect("it was created").read()?;
    /// assert_eq!(balance, 5);
    /// # Ok::<(), argus_guardian::Error>(())
    /// ```
    pub fn read<T: FromContent>(self) -> Result<T, Error> {
        T::from_content(self)
    }
}

impl FromContent for Content {
    fn from_content(content: Content) -> Result<Content, Error> {
        Ok(content)
    }
}

impl FromValue for () {
    fn from_value(value: Value) -> Result<(), Error> {
        match value {
            Value::Null => Ok(()),
            _ => Err(Error::OtherAnswer),
        }
    }
}

impl From<()> for Value {
    fn from((): ()) -> Value {
        Value::Null
    }
}

impl From<&Object> for Value {
    fn from(object: &Object) -> Value {
        Value::Atomic(object.id())
    }
}

macro_rules! by_try_from {
    ($($type:ty),*) => {$(
        impl FromValue for $type {
            #[inline]
            fn from_value(value: Value) -> Result<$type, Error> {
                value.try_into()
            }
        }
    )*};
}

by_try_from!(i64, bool, String, ObjId);

macro_rules! by_integer {
    ($($type:ty),*) => {$(
        impl FromValue for $type {
            #[inline]
            fn from_value(value: Value) -> Result<$type, Error> {
                let number = i64::from_value(value)?;
                number.try_into().map_err(|_| Error::OtherAnswer)
            }
        }
    )*};
}

by_integer!(i8, i16, i32, u8, u16, u32, u64, usize);

macro_rules! into_integer {
    ($($type:ty),*) => {$(
        impl From<$type> for Value {
            #[inline]
            fn from(number: $type) -> Value {
                Value::Int(number.into())
            }
        }
    )*};
}

into_integer!(i8, i16, u8, u16);

impl<T: FromValue> FromValue for Vec<T> {
    fn from_value(value: Value) -> Result<Vec<T>, Error> {
        match value {
            Value::Sequence(parts) => parts.into_iter().map(T::from_value).collect(),
            _ => Err(Error::OtherAnswer),
        }
    }
}

impl<T: Into<Value>> From<Vec<T>> for Value {
    fn from(parts: Vec<T>) -> Value {
        Value::Sequence(parts.into_iter().map(Into::into).collect())
    }
}

impl<T: FromValue> FromContent for Vec<T> {
    fn from_content(content: Content) -> Result<Vec<T>, Error> {
        match content {
            Content::Array { items, .. } => items.into_iter().map(T::from_value).collect(),
            _ => Err(Error::OtherAnswer),
        }
    }
}

impl<T: Into<Value>> From<Vec<T>> for Content {
    /// An array whose first element has the place 0.
    fn from(items: Vec<T>) -> Content {
        let items = items.into_iter().map(Into::into).collect();
        Content::Array { low: 0, items }
    }
}

macro_rules! by_tuple {
    ($($type:ident $part:ident),*) => {
        impl<$($type: Into<Value>),*> From<($($type,)*)> for Value {
            fn from(($($part,)*): ($($type,)*)) -> Value {
                Value::Fields(vec![$($part.into()),*])
            }
        }

        impl<$($type: Into<Value>),*> From<($($type,)*)> for Content {
            fn from(($($part,)*): ($($type,)*)) -> Content {
                Content::Record(vec![$($part.into()),*])
            }
        }

        impl<$($type: FromValue),*> FromValue for ($($type,)*) {
            fn from_value(value: Value) -> Result<Self, Error> {
                let [$($part),*] = fields_of(value)?;
                Ok(($($type::from_value($part)?,)*))
            }
        }

        impl<$($type: FromValue),*> FromContent for ($($type,)*) {
            fn from_content(content: Content) -> Result<Self, Error> {
                let [$($part),*] = record_of(content)?;
                Ok(($($type::from_value($part)?,)*))
            }
        }
    };
}

by_tuple!(A a);
by_tuple!(A a, B b);
by_tuple!(A a, B b, C c);
by_tuple!(A a, B b, C c, D d);
by_tuple!(A a, B b, C c, D d, E e);
by_tuple!(A a, B b, C c, D d, E e, F f);
by_tuple!(A a, B b, C c, D d, E e, F f, G g);
by_tuple!(A a, B b, C c, D d, E e, F f, G g, H h);

/// So many fields of a struct.
#[doc(hidden)]
pub fn fields_of<const N: usize>(value: Value) -> Result<[Value; N], Error> {
    match value {
        Value::Fields(fields) => fields.try_into().map_err(|_| Error::OtherAnswer),
        _ => Err(Error::OtherAnswer),
    }
}

/// So many fields of a record.
#[doc(hidden)]
pub fn record_of<const N: usize>(content: Content) -> Result<[Value; N], Error> {
    match content {
        Content::Record(fields) => fields.try_into().map_err(|_| Error::OtherAnswer),
        _ => Err(Error::OtherAnswer),
    }
}
