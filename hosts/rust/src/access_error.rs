//! What more is known of an access that failed: who holds the object, or what its shape has there.

use crate::call::{Call, Query};
use crate::error::Error;
use crate::guardian::Guardian;
use crate::ids::{ActionId, ObjId};
use crate::object::Object;
use std::fmt;

/// An access that another action's lock kept out until patience ended.
///
/// ```
/// use argus_guardian::{Access, Error, Guardian, Shared};
/// use std::time::Duration;
/// let shared = Shared::new(Guardian::new()?, Duration::ZERO);
/// let account = shared.named("account", "atomic_record[balance:int]")?;
/// let (first, second) = (shared.topaction()?, shared.topaction()?);
/// first.lock(&account)?;
/// let Err(Error::Held(held)) = second.lock(&account) else {
///     panic!("the first one has the lock");
/// };
/// assert_eq!(held.holders(), [first.id()]);
/// assert_eq!(held.to_string(), "a2 wants to change account, held by a1");
/// # Ok::<(), Error>(())
/// ```
#[derive(Debug, Clone, PartialEq, Eq)]
pub struct Contention {
    wish: Wish,
    holders: Vec<ActionId>,
}

impl Contention {
    // Who holds the object when the call has been refused. If there is no memory to ask, nobody is named.
    pub(crate) fn of(guardian: &Guardian, call: &Call, object: &Object) -> Contention {
        let wish = Wish::of(call, object);
        let mut holders = guardian.writers(object.id()).unwrap_or_default();
        if wish.writes {
            holders.extend(guardian.readers(object.id()).unwrap_or_default());
        }
        holders.retain(|it| *it != wish.action);
        holders.sort_unstable();
        holders.dedup();
        Contention { wish, holders }
    }

    /// The object.
    #[must_use]
    pub fn object(&self) -> ObjId {
        self.wish.object
    }

    /// The other actions that held it then, for writing, or also for reading where the access was to change it; in
    /// increasing number. Ancestors of the action may be among them, which kept nobody out.
    #[must_use]
    pub fn holders(&self) -> &[ActionId] {
        &self.holders
    }
}

impl fmt::Display for Contention {
    fn fmt(&self, f: &mut fmt::Formatter<'_>) -> fmt::Result {
        write!(f, "{}, held by ", self.wish)?;
        if self.holders.is_empty() {
            return f.write_str("another one");
        }
        for (place, holder) in self.holders.iter().enumerate() {
            let comma = if place == 0 { "" } else { ", " };
            write!(f, "{comma}{holder}")?;
        }
        Ok(())
    }
}

impl From<Contention> for Error {
    fn from(held: Contention) -> Error {
        Error::Held(Box::new(held))
    }
}

/// An access that doesn't suit the object's shape.
///
/// ```
/// use argus_guardian::{Access, Error, Guardian};
/// let mut guardian = Guardian::new()?;
/// let queue = guardian.named("queue", "atomic_array[int]")?;
/// let Err(Error::IllTyped(fault)) = guardian.topaction()?.array(&queue).push("one") else {
///     panic!("it is no integer");
/// };
/// assert_eq!(fault.expected(), "an element is int");
/// assert_eq!(fault.to_string(), "a1 wants to change queue by addh: an element is int");
/// # Ok::<(), Error>(())
/// ```
#[derive(Debug, Clone, PartialEq, Eq)]
pub struct TypeFault {
    wish: Wish,
    operation: String,
    expected: String,
}

impl TypeFault {
    pub(crate) fn of(call: &Call, object: &Object) -> TypeFault {
        TypeFault {
            wish: Wish::of(call, object),
            operation: operation_of(call),
            expected: object.place_of(call),
        }
    }

    /// The object.
    #[must_use]
    pub fn object(&self) -> ObjId {
        self.wish.object
    }

    /// What its shape has there, as in `field balance is int`.
    #[must_use]
    pub fn expected(&self) -> &str {
        &self.expected
    }
}

impl fmt::Display for TypeFault {
    fn fmt(&self, f: &mut fmt::Formatter<'_>) -> fmt::Result {
        write!(f, "{} by {}: {}", self.wish, self.operation, self.expected)
    }
}

impl From<TypeFault> for Error {
    fn from(fault: TypeFault) -> Error {
        Error::IllTyped(Box::new(fault))
    }
}

/// A value that was read, and isn't of the type that was asked for. The read is in the journal.
#[derive(Debug, Clone, PartialEq, Eq)]
pub struct TypeMismatch {
    object: String,
    place: String,
    wanted: &'static str,
}

impl TypeMismatch {
    pub(crate) fn of(object: &Object, query: Query, wanted: &'static str) -> TypeMismatch {
        let call = Call::Ask(ActionId::numbered(0), object.id(), query);
        TypeMismatch {
            object: object.to_string(),
            place: object.place_of(&call),
            wanted,
        }
    }
}

impl fmt::Display for TypeMismatch {
    fn fmt(&self, f: &mut fmt::Formatter<'_>) -> fmt::Result {
        // A plain name without its modules.
        let plain = self.wanted.rsplit("::").next();
        let plain = plain.filter(|_| !self.wanted.contains(['<', '(']));
        let wanted = plain.unwrap_or(self.wanted);
        write!(f, "{}: {}, and is no {wanted}", self.object, self.place)
    }
}

impl From<TypeMismatch> for Error {
    fn from(fault: TypeMismatch) -> Error {
        Error::OtherType(Box::new(fault))
    }
}

/// A name that the object's shape hasn't got. No call was made.
#[derive(Debug, Clone, PartialEq, Eq)]
pub struct NameFault {
    object: String,
    name: String,
    shape: String,
}

impl NameFault {
    #[cold]
    pub(crate) fn of(object: &Object, name: &str) -> NameFault {
        NameFault {
            object: object.to_string(),
            name: name.to_owned(),
            shape: object.shape().to_owned(),
        }
    }

    /// The name.
    #[must_use]
    pub fn name(&self) -> &str {
        &self.name
    }
}

impl fmt::Display for NameFault {
    fn fmt(&self, f: &mut fmt::Formatter<'_>) -> fmt::Result {
        let NameFault {
            object,
            name,
            shape,
        } = self;
        write!(f, "{object} has no {name}: its shape is {shape}")
    }
}

impl From<NameFault> for Error {
    fn from(fault: NameFault) -> Error {
        Error::NoName(Box::new(fault))
    }
}

// Who wants what of which object, which may have a name.
#[derive(Debug, Clone, PartialEq, Eq)]
struct Wish {
    action: ActionId,
    object: ObjId,
    name: String,
    writes: bool,
}

impl Wish {
    fn of(call: &Call, object: &Object) -> Wish {
        Wish {
            action: call.action().unwrap_or(ActionId::numbered(0)),
            object: object.id(),
            name: object.to_string(),
            writes: matches!(call, Call::Alter(..) | Call::TestWrite(..)),
        }
    }
}

impl fmt::Display for Wish {
    fn fmt(&self, f: &mut fmt::Formatter<'_>) -> fmt::Result {
        let deed = if self.writes { "change" } else { "read" };
        write!(f, "{} wants to {deed} {}", self.action, self.name)
    }
}

// The operation without its value, as in `set_field 0`.
fn operation_of(call: &Call) -> String {
    let words = match call {
        Call::Ask(_, _, query) => query.to_string(),
        Call::Alter(_, _, change) => change.to_string(),
        _ => String::new(),
    };
    let is_numbered = [
        "set_field",
        "store",
        "change_tag",
        "field",
        "fetch",
        "is_tag",
        "tag_value",
    ];
    let first = words.split(' ').next().unwrap_or("");
    let count = if is_numbered.contains(&first) { 2 } else { 1 };
    words.split(' ').take(count).collect::<Vec<_>>().join(" ")
}
