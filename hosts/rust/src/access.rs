//! `Access`: what an action does with objects, said once for all kinds of actions.

use crate::access_error::{Contention, TypeFault, TypeMismatch};
use crate::call::{Call, Change, Query};
use crate::conversion::{FromContent, FromValue};
use crate::error::Error;
use crate::guardian::Guardian;
use crate::ids::ActionId;
use crate::object::{AsObject, AsPart, Object};
use crate::reply::{Answer, Refusal};
use crate::value::{Content, Value};
use crate::views::{ArrayView, VariantView};
use std::any::type_name;

/// How a kind of action makes calls. It has no public name, so that only this crate's actions are some: others could
/// make calls that are no accesses.
pub trait Caller {
    /// Why calls fail.
    type Error: From<Error>;

    /// The number of the action.
    fn number(&self) -> ActionId;

    /// Makes this access of the object. It may wait for its lock.
    fn make(&self, call: &Call, object: &impl AsObject) -> Result<Answer, Self::Error>;

    /// The handle of the object.
    fn find(&self, object: &impl AsObject) -> Result<Object, Self::Error>;
}

/// What an action does with objects: [`Action`](crate::Action), [`SharedAction`](crate::SharedAction) and
/// `log::LoggedAction` have these methods, so a function over `&impl Access` works with each.
///
/// An object is named by its [`Object`] or its [`ObjId`](crate::ObjId), a field by its name or its number, from 0.
/// A name with an id alone costs a question for the shape each time; a handle knows its names.
///
/// Each access takes its lock, and the action keeps it to its end: a read lock to look, the write lock to change. The
/// other kinds than [`Action`](crate::Action) wait for it until patience ends.
///
/// ```
/// use argus_guardian::{Access, Error, Guardian, Object};
///
/// fn pay(action: &impl Access<Error = Error>, from: &Object, to: &Object, amount: i64) -> Result<(), Error> {
///     action.update(from, "balance", |it: i64| it - amount)?;
///     action.update(to, "balance", |it: i64| it + amount)
/// }
///
/// let mut guardian = Guardian::new()?;
/// let ann = guardian.named("ann", "atomic_record[balance:int]")?;
/// let bob = guardian.named("bob", "atomic_record[balance:int]")?;
/// let top = guardian.topaction()?;
/// top.create(&ann, (70,))?;
/// top.create(&bob, (0,))?;
/// pay(&top, &ann, &bob, 30)?;
/// assert_eq!(top.get::<i64>(&bob, "balance")?, 30);
/// # Ok::<(), Error>(())
/// ```
///
/// # Errors
///
/// The type of errors is [`Error`], and `LoggedError` for a `LoggedAction`. Each method fails with
///
/// - [`Error::Refused`]: `Over`, `Suspended` or `NoObject`;
/// - [`Error::IllTyped`]: the operation or the value doesn't suit the shape;
/// - [`Error::Held`] or [`Error::Deadlock`], of which [`is_conflict`](Error::is_conflict) is true;
/// - [`Error::OtherGuardian`]: an id or a reference is another guardian's;
/// - [`Error::OutOfMemory`] or [`Error::NoRoom`]; of a `LoggedAction` also `LoggedError::Broken`.
///
/// Those that return no [`Answer`] fail with [`Error::Signal`] in place of one; those that take a name, with
/// [`Error::NoName`]; those that read, with [`Error::OtherType`].
#[allow(clippy::missing_errors_doc, reason = "the trait says how each fails")]
pub trait Access: Caller {
    /// Looks at an object. The answer may be a signal.
    ///
    /// ```
    /// use argus_guardian::{Access, Answer, Guardian, Query, Signal};
    /// let mut guardian = Guardian::new()?;
    /// let object = guardian.declare("atomic_array[int]")?;
    /// let answer = guardian.topaction()?.ask(object, Query::Size)?;
    /// assert_eq!(answer, Answer::Signal(Signal::Absent));
    /// # Ok::<(), argus_guardian::Error>(())
    /// ```
    fn ask(&self, object: impl AsObject, query: Query) -> Result<Answer, Self::Error> {
        self.make(&Call::Ask(self.number(), object.id(), query), &object)
    }

    /// Changes an object. The answer may be a signal. [`Error::BadText`] if a value is deeper than 16.
    ///
    /// ```
    /// use argus_guardian::{Access, Answer, Change, Guardian};
    /// let mut guardian = Guardian::new()?;
    /// let object = guardian.declare("atomic_array[int]")?;
    /// let answer = guardian.topaction()?.alter(object, Change::Touch)?;
    /// assert_eq!(answer, Answer::Done);
    /// # Ok::<(), argus_guardian::Error>(())
    /// ```
    fn alter(&self, object: impl AsObject, change: Change) -> Result<Answer, Self::Error> {
        let call = Call::Alter(self.number(), object.id(), change);
        self.make(&call, &object)
    }

    /// Gives an object its first content: a tuple or a [`record!`](crate::record) struct for a record, a vector for an
    /// array, whose first element then has the place 0, or any [`Content`]. A variant's is made by
    /// [`variant`](Self::variant).
    ///
    /// ```
    /// use argus_guardian::{Access, Error, Guardian, Signal};
    /// let mut guardian = Guardian::new()?;
    /// let account = guardian.named("account", "atomic_record[balance:int,owner:text]")?;
    /// let top = guardian.topaction()?;
    /// top.create(&account, (5, "ann"))?;
    /// assert_eq!(top.create(&account, (6, "ann")), Err(Error::Signal(Signal::Exists)));
    /// # Ok::<(), Error>(())
    /// ```
    fn create(
        &self,
        object: impl AsObject,
        content: impl Into<Content>,
    ) -> Result<(), Self::Error> {
        let create = Change::Create(content.into());
        Ok(self.alter(object, create)?.done()?)
    }

    /// All that an object has in it: a [`Content`], a tuple or [`record!`](crate::record) struct of a record, a vector
    /// of an array. [`Error::OtherType`] if a struct has other names than the record.
    ///
    /// ```
    /// use argus_guardian::{Access, Guardian};
    /// let mut guardian = Guardian::new()?;
    /// let queue = guardian.declare("atomic_array[int]")?;
    /// let top = guardian.topaction()?;
    /// top.create(queue, vec![10, 20])?;
    /// assert_eq!(top.read::<Vec<i64>>(queue)?, [10, 20]);
    /// # Ok::<(), argus_guardian::Error>(())
    /// ```
    fn read<T: FromContent>(&self, object: impl AsObject) -> Result<T, Self::Error> {
        if let Some(fields) = T::FIELDS {
            let found = self.find(&object)?;
            if found.names() != fields {
                let other = TypeMismatch::of(&found, Query::Whole, type_name::<T>());
                return Err(Error::from(other).into());
            }
        }
        let body = self.ask(&object, Query::Whole)?.body()?;
        T::from_content(body).or_else(|_| self.other_type::<T, T>(&object, Query::Whole))
    }

    /// A field of a record.
    ///
    /// ```
    /// use argus_guardian::{Access, Guardian};
    /// let mut guardian = Guardian::new()?;
    /// let account = guardian.named("account", "atomic_record[balance:int]")?;
    /// let top = guardian.topaction()?;
    /// top.create(&account, (5,))?;
    /// let balance: i64 = top.get(&account, "balance")?;
    /// assert_eq!((balance, top.get::<i64>(&account, 0)?), (5, 5));
    /// let error = top.get::<String>(&account, "balance").expect_err("it is an integer");
    /// assert_eq!(error.to_string(), "account: field balance is int, and is no String");
    /// # Ok::<(), argus_guardian::Error>(())
    /// ```
    fn get<T: FromValue>(
        &self,
        object: impl AsObject,
        field: impl AsPart,
    ) -> Result<T, Self::Error> {
        let query = Query::Field(self.part(&object, &field)?);
        let value = self.ask(&object, query)?.value()?;
        T::from_value(value).or_else(|_| self.other_type::<T, T>(&object, query))
    }

    /// Sets a field of a record.
    ///
    /// ```
    /// use argus_guardian::{Access, Guardian};
    /// let mut guardian = Guardian::new()?;
    /// let account = guardian.named("account", "atomic_record[balance:int]")?;
    /// let top = guardian.topaction()?;
    /// top.create(&account, (5,))?;
    /// top.set(&account, "balance", 7)?;
    /// let error = top.set(&account, "balance", "seven").expect_err("it is no integer");
    /// assert_eq!(
    ///     error.to_string(),
    ///     "refused: IllTyped: a1 wants to change account by set_field 0: field balance is int"
    /// );
    /// # Ok::<(), argus_guardian::Error>(())
    /// ```
    fn set(
        &self,
        object: impl AsObject,
        field: impl AsPart,
        value: impl Into<Value>,
    ) -> Result<(), Self::Error> {
        let change = Change::SetField(self.part(&object, &field)?, value.into());
        Ok(self.alter(object, change)?.done()?)
    }

    /// Sets a field of a record to what the change makes of it. It takes the write lock before it reads, so two that
    /// do this at once take turns.
    ///
    /// ```
    /// use argus_guardian::{Access, Guardian};
    /// let mut guardian = Guardian::new()?;
    /// let account = guardian.named("account", "atomic_record[balance:int]")?;
    /// let top = guardian.topaction()?;
    /// top.create(&account, (5,))?;
    /// top.update(&account, "balance", |it: i64| it + 2)?;
    /// assert_eq!(top.get::<i64>(&account, "balance")?, 7);
    /// # Ok::<(), argus_guardian::Error>(())
    /// ```
    fn update<T: FromValue, V: Into<Value>>(
        &self,
        object: impl AsObject,
        field: impl AsPart,
        change: impl FnOnce(T) -> V,
    ) -> Result<(), Self::Error> {
        let field = self.part(&object, &field)?;
        self.lock(&object)?;
        let value = change(self.get(&object, field)?);
        self.set(&object, field, value)
    }

    /// An object that is an array, for calls of arrays.
    ///
    /// ```
    /// use argus_guardian::{Access, Guardian};
    /// let mut guardian = Guardian::new()?;
    /// let queue = guardian.named("queue", "atomic_array[text]")?;
    /// let top = guardian.topaction()?;
    /// let queue = top.array(&queue);
    /// queue.create(["a", "b"])?;
    /// queue.push("c")?;
    /// assert_eq!(queue.len()?, 3);
    /// # Ok::<(), argus_guardian::Error>(())
    /// ```
    fn array<O: AsObject>(&self, object: O) -> ArrayView<'_, Self, O> {
        ArrayView::of(self, object)
    }

    /// An object that is a variant, for calls of variants.
    ///
    /// ```
    /// use argus_guardian::{Access, Guardian};
    /// let mut guardian = Guardian::new()?;
    /// let door = guardian.named("door", "atomic_variant[open:null,locked:text]")?;
    /// let top = guardian.topaction()?;
    /// let door = top.variant(&door);
    /// door.create("locked", "by ann")?;
    /// assert!(!door.is("open")?);
    /// # Ok::<(), argus_guardian::Error>(())
    /// ```
    fn variant<O: AsObject>(&self, object: O) -> VariantView<'_, Self, O> {
        VariantView::of(self, object)
    }

    /// Takes the write lock, and changes nothing. Call it before you read what you will write.
    ///
    /// ```
    /// use argus_guardian::{Access, Guardian, Shared};
    /// let shared = Shared::from(Guardian::new()?);
    /// let seat = shared.named("1a", "atomic_record[taken:bool]")?;
    /// shared.run(|top| top.create(&seat, (false,)))?;
    /// let top = shared.topaction()?;
    /// top.lock(&seat)?;
    /// if !top.get::<bool>(&seat, "taken")? {
    ///     top.set(&seat, "taken", true)?;
    /// }
    /// top.commit()?;
    /// # Ok::<(), argus_guardian::Error>(())
    /// ```
    fn lock(&self, object: impl AsObject) -> Result<(), Self::Error> {
        Ok(self.alter(object, Change::Touch)?.done()?)
    }

    /// Takes a read lock; false if it isn't free. It doesn't wait.
    ///
    /// ```
    /// use argus_guardian::{Access, Guardian};
    /// let mut guardian = Guardian::new()?;
    /// let object = guardian.declare("atomic_array[int]")?;
    /// assert!(guardian.topaction()?.test_read(object)?);
    /// # Ok::<(), argus_guardian::Error>(())
    /// ```
    fn test_read(&self, object: impl AsObject) -> Result<bool, Self::Error> {
        let call = Call::TestRead(self.number(), object.id());
        Ok(self.make(&call, &object)?.flag()?)
    }

    /// Takes a write lock; false if it isn't free. It doesn't wait.
    ///
    /// ```
    /// use argus_guardian::{Access, Guardian};
    /// let mut guardian = Guardian::new()?;
    /// let object = guardian.declare("atomic_array[int]")?;
    /// let mut top = guardian.topaction()?;
    /// assert!(top.test_write(object)?);
    /// // A nested topaction has no privilege from its creator.
    /// assert!(!top.nested()?.test_write(object)?);
    /// # Ok::<(), argus_guardian::Error>(())
    /// ```
    fn test_write(&self, object: impl AsObject) -> Result<bool, Self::Error> {
        let call = Call::TestWrite(self.number(), object.id());
        Ok(self.make(&call, &object)?.flag()?)
    }

    /// The number of a field or tag of the object.
    #[doc(hidden)]
    #[inline]
    fn part(&self, object: &impl AsObject, part: &impl AsPart) -> Result<u8, Self::Error> {
        if let Some(number) = part.number() {
            return Ok(number);
        }
        match object.handle() {
            Some(handle) => Ok(handle.number(part.name())?),
            None => Ok(self.find(object)?.number(part.name())?),
        }
    }

    /// What was read isn't of this type. It may be that a name or the memory for it can't be had.
    #[doc(hidden)]
    #[cold]
    fn other_type<T, R>(&self, object: &impl AsObject, query: Query) -> Result<R, Self::Error> {
        let found = self.find(object)?;
        Err(Error::from(TypeMismatch::of(&found, query, type_name::<T>())).into())
    }
}

impl<C: Caller> Access for C {}

/// The handle of this object: the one that is given, or else a new one.
pub(crate) fn found(guardian: &Guardian, object: &impl AsObject) -> Result<Object, Error> {
    match object.handle() {
        Some(handle) => Ok(handle.clone()),
        None => guardian.object(object.id()),
    }
}

/// What more is known of a refusal: who holds the object, or what its shape has there.
#[cold]
pub(crate) fn explained(
    guardian: &Guardian,
    call: &Call,
    object: &impl AsObject,
    error: Error,
) -> Error {
    let Error::Refused(refusal @ (Refusal::Conflict | Refusal::IllTyped)) = error else {
        return error;
    };
    let Ok(found) = found(guardian, object) else {
        return error;
    };
    if refusal == Refusal::IllTyped {
        TypeFault::of(call, &found).into()
    } else {
        Contention::of(guardian, call, &found).into()
    }
}
