//! An object as what it is within an action: `ArrayView` and `VariantView`.

use crate::access::Access;
use crate::call::{Change, Query};
use crate::conversion::FromValue;
use crate::error::Error;
use crate::object::{AsObject, AsPart};
use crate::reply::{Answer, Signal};
use crate::value::{Content, Value};
use std::ops::Range;

/// An array within an action: [`Access::array`] makes it. Elements have places, from a low bound on.
///
/// Each method fails as those of [`Access`] do; with [`Signal::Absent`] if the array isn't created, and with
/// [`Signal::Limits`] if it would have more than 65,535 elements.
///
/// ```
/// use argus_guardian::{Access, Guardian};
/// let mut guardian = Guardian::new()?;
/// let queue = guardian.named("queue", "atomic_array[int]")?;
/// let top = guardian.topaction()?;
/// let queue = top.array(&queue);
/// queue.create([10, 20])?;
/// queue.push(30)?;
/// assert_eq!(queue.pop_front::<i64>()?, Some(10));
/// // The others keep their places.
/// assert_eq!(queue.bounds()?, 1..3);
/// assert_eq!((queue.get(1)?, queue.get::<i64>(3)?), (Some(20), None));
/// # Ok::<(), argus_guardian::Error>(())
/// ```
#[derive(Debug)]
pub struct ArrayView<'a, A: ?Sized, O> {
    action: &'a A,
    object: O,
}

#[allow(clippy::missing_errors_doc, reason = "the type says how each fails")]
impl<'a, A: Access + ?Sized, O: AsObject> ArrayView<'a, A, O> {
    pub(crate) fn of(action: &'a A, object: O) -> ArrayView<'a, A, O> {
        ArrayView { action, object }
    }

    fn ask(&self, query: Query) -> Result<Answer, A::Error> {
        self.action.ask(&self.object, query)
    }

    fn alter(&self, change: Change) -> Result<Answer, A::Error> {
        self.action.alter(&self.object, change)
    }

    // The value that an answer has; `None` if no element has that place.
    fn element<T: FromValue>(&self, answer: Answer) -> Result<Option<T>, A::Error> {
        match answer {
            Answer::Signal(Signal::Bounds) => Ok(None),
            answer => match T::from_value(answer.value()?) {
                Ok(element) => Ok(Some(element)),
                Err(_) => self.action.other_type::<T, _>(&self.object, Query::Size),
            },
        }
    }

    /// Gives it its first elements; the first of them has the place 0.
    pub fn create<V: Into<Value>>(
        &self,
        elements: impl IntoIterator<Item = V>,
    ) -> Result<(), A::Error> {
        let elements: Vec<V> = elements.into_iter().collect();
        self.action.create(&self.object, elements)
    }

    /// How many elements it has.
    pub fn len(&self) -> Result<usize, A::Error> {
        let size = self.ask(Query::Size)?.int()?;
        Ok(usize::try_from(size).unwrap_or(0))
    }

    /// Whether it has none.
    pub fn is_empty(&self) -> Result<bool, A::Error> {
        Ok(self.len()? == 0)
    }

    /// The places of its elements.
    pub fn bounds(&self) -> Result<Range<i64>, A::Error> {
        let low = self.ask(Query::Low)?.int()?;
        Ok(low..self.ask(Query::High)?.int()? + 1)
    }

    /// The element at this place, if there is one.
    pub fn get<T: FromValue>(&self, place: i64) -> Result<Option<T>, A::Error> {
        self.element(self.ask(Query::Fetch(place))?)
    }

    /// Sets the element at this place; [`Signal::Bounds`] if there is none.
    pub fn set(&self, place: i64, value: impl Into<Value>) -> Result<(), A::Error> {
        Ok(self.alter(Change::Store(place, value.into()))?.done()?)
    }

    /// The first element, if there is one.
    pub fn first<T: FromValue>(&self) -> Result<Option<T>, A::Error> {
        self.element(self.ask(Query::Bottom)?)
    }

    /// The last element, if there is one.
    pub fn last<T: FromValue>(&self) -> Result<Option<T>, A::Error> {
        self.element(self.ask(Query::Top)?)
    }

    /// Adds an element after the last one.
    pub fn push(&self, value: impl Into<Value>) -> Result<(), A::Error> {
        Ok(self.alter(Change::Addh(value.into()))?.done()?)
    }

    /// Adds an element before the first one, at the place below; the others keep theirs.
    pub fn push_front(&self, value: impl Into<Value>) -> Result<(), A::Error> {
        Ok(self.alter(Change::Addl(value.into()))?.done()?)
    }

    /// Removes the last element, if there is one, and returns it.
    pub fn pop<T: FromValue>(&self) -> Result<Option<T>, A::Error> {
        self.element(self.alter(Change::Remh)?)
    }

    /// Removes the first element, if there is one, and returns it; the others keep their places.
    pub fn pop_front<T: FromValue>(&self) -> Result<Option<T>, A::Error> {
        self.element(self.alter(Change::Reml)?)
    }

    /// All elements, from the first to the last.
    pub fn read<T: FromValue>(&self) -> Result<Vec<T>, A::Error> {
        self.action.read(&self.object)
    }
}

/// A variant within an action: [`Access::variant`] makes it. Tags are named by their names or by their numbers, from 0.
///
/// Each method fails as those of [`Access`] do; with [`Signal::Absent`] if the variant isn't created.
///
/// ```
/// use argus_guardian::{Access, Guardian};
/// let mut guardian = Guardian::new()?;
/// let door = guardian.named("door", "atomic_variant[open:null,locked:text]")?;
/// let top = guardian.topaction()?;
/// let door = top.variant(&door);
/// door.create("open", ())?;
/// door.set("locked", "by ann")?;
/// assert_eq!(door.tag()?, "locked");
/// assert_eq!(door.get::<String>("locked")?.as_deref(), Some("by ann"));
/// assert_eq!(door.get::<()>("open")?, None);
/// # Ok::<(), argus_guardian::Error>(())
/// ```
#[derive(Debug)]
pub struct VariantView<'a, A: ?Sized, O> {
    action: &'a A,
    object: O,
}

#[allow(clippy::missing_errors_doc, reason = "the type says how each fails")]
impl<'a, A: Access + ?Sized, O: AsObject> VariantView<'a, A, O> {
    pub(crate) fn of(action: &'a A, object: O) -> VariantView<'a, A, O> {
        VariantView { action, object }
    }

    fn number(&self, tag: &impl AsPart) -> Result<u8, A::Error> {
        self.action.part(&self.object, tag)
    }

    /// Gives it its first tag, with the tag's value.
    pub fn create(&self, tag: impl AsPart, value: impl Into<Value>) -> Result<(), A::Error> {
        let (tag, value) = (self.number(&tag)?, value.into());
        let content = Content::Variant { tag, value };
        self.action.create(&self.object, content)
    }

    /// The name of its tag.
    pub fn tag(&self) -> Result<String, A::Error> {
        let names = self.action.find(&self.object)?;
        match self.action.ask(&self.object, Query::Whole)?.body()? {
            Content::Variant { tag, .. } => {
                let name = names.names().get(usize::from(tag)).cloned();
                Ok(name.ok_or(Error::OtherAnswer)?)
            }
            _ => self
                .action
                .other_type::<Self, _>(&self.object, Query::Whole),
        }
    }

    /// Whether it has this tag.
    pub fn is(&self, tag: impl AsPart) -> Result<bool, A::Error> {
        let query = Query::IsTag(self.number(&tag)?);
        Ok(self.action.ask(&self.object, query)?.flag()?)
    }

    /// The value of this tag; `None` if it has another one.
    pub fn get<T: FromValue>(&self, tag: impl AsPart) -> Result<Option<T>, A::Error> {
        let query = Query::TagValue(self.number(&tag)?);
        match self.action.ask(&self.object, query)? {
            Answer::Signal(Signal::WrongTag) => Ok(None),
            answer => match T::from_value(answer.value()?) {
                Ok(value) => Ok(Some(value)),
                Err(_) => self.action.other_type::<T, _>(&self.object, query),
            },
        }
    }

    /// Sets its tag, with the tag's value.
    pub fn set(&self, tag: impl AsPart, value: impl Into<Value>) -> Result<(), A::Error> {
        let change = Change::ChangeTag(self.number(&tag)?, value.into());
        Ok(self.action.alter(&self.object, change)?.done()?)
    }
}
