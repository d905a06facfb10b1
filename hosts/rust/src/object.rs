//! `Object`: an object with the names and types that its shape has; what names one to an access.

use crate::access_error::NameFault;
use crate::call::Call;
use crate::error::Error;
use crate::ids::ObjId;
use crate::shape::Shape;
use std::cmp::Ordering;
use std::fmt;
use std::hash::{Hash, Hasher};
use std::sync::Arc;

/// A handle of an object: its id, the names and types of its shape, and its own name if it has one.
///
/// [`Guardian::named`](crate::Guardian::named) makes one by the object's name,
/// [`Guardian::object`](crate::Guardian::object) by its id. It stays right as long as the guardian
/// exists, since an object keeps its shape. Copies (`clone`) share what they know. Handles compare
/// by the numbers of their objects, so sorting them gives an order in which to take locks.
///
/// ```
/// use argus_guardian::{Access, Guardian};
/// let mut guardian = Guardian::new()?;
/// let seat = guardian.named("1a", "atomic_record[taken:bool,by:text]")?;
/// let mut top = guardian.topaction()?;
/// top.create(&seat, (false, ""))?;
/// top.set(&seat, "taken", true)?;
/// assert!(top.get::<bool>(&seat, "taken")?);
/// # Ok::<(), argus_guardian::Error>(())
/// ```
#[derive(Clone)]
pub struct Object {
    id: ObjId,
    name: Option<Arc<str>>,
    shape: Arc<Shape>,
}

impl Object {
    pub(crate) fn of(id: ObjId, shape: Shape) -> Object {
        Object {
            id,
            name: None,
            shape: Arc::new(shape),
        }
    }

    /// The same, which has this name.
    pub(crate) fn called(self, name: &str) -> Object {
        Object {
            name: Some(name.into()),
            ..self
        }
    }

    /// The same, if it has this shape.
    pub(crate) fn with_shape(self, shape: &str) -> Result<Object, Error> {
        if self.shape() == shape {
            return Ok(self);
        }
        Err(Error::OtherShape {
            object: self.to_string().into(),
            shape: self.shape().into(),
        })
    }

    /// Its number.
    ///
    /// ```
    /// use argus_guardian::{Guardian, ObjId};
    /// let guardian = Guardian::new()?;
    /// let object = guardian.declare("atomic_array[int]")?;
    /// assert_eq!(guardian.object(object)?.id(), ObjId::numbered(0));
    /// # Ok::<(), argus_guardian::Error>(())
    /// ```
    #[must_use]
    pub fn id(&self) -> ObjId {
        self.id
    }

    /// Its own name, if it was found by that.
    ///
    /// ```
    /// use argus_guardian::Guardian;
    /// let guardian = Guardian::new()?;
    /// let account = guardian.named("account", "atomic_record[balance:int]")?;
    /// assert_eq!(account.name(), Some("account"));
    /// # Ok::<(), argus_guardian::Error>(())
    /// ```
    #[must_use]
    pub fn name(&self) -> Option<&str> {
        self.name.as_deref()
    }

    /// The written form of its shape.
    ///
    /// ```
    /// use argus_guardian::Guardian;
    /// let guardian = Guardian::new()?;
    /// let object = guardian.declare("atomic_array[int]")?;
    /// assert_eq!(guardian.object(object)?.shape(), "atomic_array[int]");
    /// # Ok::<(), argus_guardian::Error>(())
    /// ```
    #[must_use]
    pub fn shape(&self) -> &str {
        &self.shape.text
    }

    /// The names of a record's fields, or of a variant's tags, in the order of their numbers; none
    /// for an array.
    ///
    /// ```
    /// use argus_guardian::Guardian;
    /// let guardian = Guardian::new()?;
    /// let object = guardian.declare("atomic_variant[no:null,yes:struct[a:int,b:int]]")?;
    /// assert_eq!(guardian.object(object)?.names(), ["no", "yes"]);
    /// # Ok::<(), argus_guardian::Error>(())
    /// ```
    #[must_use]
    pub fn names(&self) -> &[String] {
        &self.shape.names
    }

    /// The number of the field or tag with this name.
    ///
    /// # Errors
    ///
    /// [`Error::NoName`] if there is none.
    ///
    /// ```
    /// use argus_guardian::Guardian;
    /// let guardian = Guardian::new()?;
    /// let seat = guardian.named("1a", "atomic_record[taken:bool,by:text]")?;
    /// assert_eq!(seat.number("by")?, 1);
    /// let error = seat.number("free").expect_err("there is none");
    /// assert_eq!(error.to_string(), "1a has no free: its shape is atomic_record[taken:bool,by:text]");
    /// # Ok::<(), argus_guardian::Error>(())
    /// ```
    pub fn number(&self, name: &str) -> Result<u8, Error> {
        let place = self.shape.names.iter().position(|it| it == name);
        place
            .and_then(|place| u8::try_from(place).ok())
            .ok_or_else(|| NameFault::of(self, name).into())
    }

    /// What its shape has where a call accesses it, as in `field balance is int`.
    pub(crate) fn place_of(&self, call: &Call) -> String {
        match call {
            Call::Ask(_, _, query) => self.shape.place_of_query(*query),
            Call::Alter(_, _, change) => self.shape.place_of_change(change),
            _ => String::new(),
        }
    }
}

impl fmt::Display for Object {
    /// Its name, or its number if it has none.
    fn fmt(&self, f: &mut fmt::Formatter<'_>) -> fmt::Result {
        match &self.name {
            Some(name) => f.write_str(name),
            None => write!(f, "{}", self.id),
        }
    }
}

impl fmt::Debug for Object {
    fn fmt(&self, f: &mut fmt::Formatter<'_>) -> fmt::Result {
        write!(f, "Object({self}: {})", self.shape.text)
    }
}

impl PartialEq for Object {
    fn eq(&self, other: &Object) -> bool {
        self.id == other.id
    }
}

impl Eq for Object {}

impl PartialOrd for Object {
    fn partial_cmp(&self, other: &Object) -> Option<Ordering> {
        Some(self.cmp(other))
    }
}

impl Ord for Object {
    fn cmp(&self, other: &Object) -> Ordering {
        self.id.cmp(&other.id)
    }
}

impl Hash for Object {
    fn hash<H: Hasher>(&self, state: &mut H) {
        self.id.hash(state);
    }
}

/// What names an object to a call: a handle, or an id alone, whose names the guardian is asked for
/// each time that one is used.
pub trait AsObject {
    /// Its id.
    fn id(&self) -> ObjId;

    /// The handle, if it is one.
    fn handle(&self) -> Option<&Object> {
        None
    }
}

impl AsObject for ObjId {
    #[inline]
    fn id(&self) -> ObjId {
        *self
    }
}

impl AsObject for Object {
    #[inline]
    fn id(&self) -> ObjId {
        self.id
    }

    #[inline]
    fn handle(&self) -> Option<&Object> {
        Some(self)
    }
}

impl<T: AsObject + ?Sized> AsObject for &T {
    #[inline]
    fn id(&self) -> ObjId {
        (**self).id()
    }

    #[inline]
    fn handle(&self) -> Option<&Object> {
        (**self).handle()
    }
}

/// What names a record's field, or a variant's tag: its name, or its number, from 0.
pub trait AsPart {
    /// Its number, if it is one.
    fn number(&self) -> Option<u8>;

    /// Its name; empty if it is named by a number.
    fn name(&self) -> &str;
}

impl AsPart for u8 {
    #[inline]
    fn number(&self) -> Option<u8> {
        Some(*self)
    }

    fn name(&self) -> &'static str {
        ""
    }
}

impl AsPart for str {
    #[inline]
    fn number(&self) -> Option<u8> {
        None
    }

    #[inline]
    fn name(&self) -> &str {
        self
    }
}

impl AsPart for String {
    #[inline]
    fn number(&self) -> Option<u8> {
        None
    }

    #[inline]
    fn name(&self) -> &str {
        self
    }
}

impl<T: AsPart + ?Sized> AsPart for &T {
    #[inline]
    fn number(&self) -> Option<u8> {
        (**self).number()
    }

    #[inline]
    fn name(&self) -> &str {
        (**self).name()
    }
}
