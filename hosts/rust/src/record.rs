//! `record!`: a struct that is a record's content, or a struct in one.

use crate::ids::ObjId;

/// A type that a field of a shape may have: those of Rust that stand for one.
///
/// ```
/// use argus_guardian::FieldType;
/// assert_eq!(<Vec<String>>::field_type(), "sequence[text]");
/// ```
pub trait FieldType {
    /// The written form of the type.
    fn field_type() -> String;
}

/// A struct that [`record!`](crate::record) has made.
pub trait Record: FieldType {
    /// The written form of the shape of objects that hold it: for [`Guardian::named`](crate::Guardian::named) or
    /// [`Guardian::declare`](crate::Guardian::declare).
    #[must_use]
    fn shape() -> String {
        let fields = Self::field_type();
        let fields = fields.strip_prefix("struct").unwrap_or(&fields);
        format!("atomic_record{fields}")
    }
}

macro_rules! is_written {
    ($($type:ty: $text:literal),*) => {$(
        impl FieldType for $type {
            fn field_type() -> String {
                $text.to_owned()
            }
        }
    )*};
}

is_written!((): "null", bool: "bool", String: "text", ObjId: "atomic");
is_written!(i8: "int", i16: "int", i32: "int", i64: "int", u8: "int", u16: "int", u32: "int");

impl<T: FieldType> FieldType for Vec<T> {
    fn field_type() -> String {
        format!("sequence[{}]", T::field_type())
    }
}

/// The written form of a struct of these fields.
#[doc(hidden)]
#[must_use]
pub fn struct_of(fields: &[(&str, String)]) -> String {
    let fields = fields.iter().map(|(name, of)| format!("{name}:{of}"));
    format!("struct[{}]", fields.collect::<Vec<_>>().join(","))
}

/// Declares a struct whose values are what a record holds: its fields are the record's, in their
/// order, and its `shape()` is the record's shape. It may be a field of another one, too.
///
/// Fields are integers up to 32 bits and `i64`, `bool`, `String`, `()`, [`ObjId`](crate::ObjId), vectors of these,
/// and other such structs. A name has only small letters, digits and `_`.
///
/// ```
/// use argus_guardian::{Access, Error, Guardian, Record, record};
///
/// record! {
///     /// An account.
///     #[derive(Debug, Clone, PartialEq)]
///     pub struct Account {
///         /// In cents.
///         pub balance: i64,
///         pub owner: String,
///     }
/// }
///
/// let mut guardian = Guardian::new()?;
/// let account = guardian.named("account", Account::shape())?;
/// assert_eq!(account.shape(), "atomic_record[balance:int,owner:text]");
/// let mut top = guardian.topaction()?;
/// top.create(&account, Account { balance: 5, owner: "ann".into() })?;
/// top.set(&account, "balance", 7)?;
/// let read: Account = top.read(&account)?;
/// assert_eq!(read, Account { balance: 7, owner: "ann".into() });
/// # Ok::<(), Error>(())
/// ```
#[macro_export]
macro_rules! record {
    (
        $(#[$attribute:meta])*
        $visibility:vis struct $name:ident {
            $($(#[$about:meta])* $seen:vis $field:ident: $type:ty),+ $(,)?
        }
    ) => {
        $(#[$attribute])*
        $visibility struct $name {
            $($(#[$about])* $seen $field: $type),+
        }

        impl $crate::FieldType for $name {
            fn field_type() -> ::std::string::String {
                $crate::struct_of(&[$((
                    ::std::stringify!($field),
                    <$type as $crate::FieldType>::field_type(),
                )),+])
            }
        }

        impl $crate::Record for $name {}

        impl ::std::convert::From<$name> for $crate::Value {
            fn from(record: $name) -> $crate::Value {
                $crate::Value::Fields(::std::vec![$(record.$field.into()),+])
            }
        }

        impl ::std::convert::From<$name> for $crate::Content {
            fn from(record: $name) -> $crate::Content {
                $crate::Content::Record(::std::vec![$(record.$field.into()),+])
            }
        }

        impl $crate::FromValue for $name {
            fn from_value(
                value: $crate::Value,
            ) -> ::std::result::Result<$name, $crate::Error> {
                let [$($field),+] = $crate::fields_of(value)?;
                ::std::result::Result::Ok($name {
                    $($field: <$type as $crate::FromValue>::from_value($field)?),+
                })
            }
        }

        impl $crate::FromContent for $name {
            const FIELDS: ::std::option::Option<&'static [&'static str]> =
                ::std::option::Option::Some(&[$(::std::stringify!($field)),+]);

            fn from_content(
                content: $crate::Content,
            ) -> ::std::result::Result<$name, $crate::Error> {
                let [$($field),+] = $crate::record_of(content)?;
                ::std::result::Result::Ok($name {
                    $($field: <$type as $crate::FromValue>::from_value($field)?),+
                })
            }
        }
    };
}
