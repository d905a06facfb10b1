//! `Guardian`: atomic objects, for one caller at a time.

use crate::action::Action;
use crate::call::Call;
use crate::error::{CheckpointError, Error};
use crate::ids::{ObjId, Owner};
use crate::library::{error_of, read_as};
use crate::names::Names;
use crate::reply::{Answer, Reply};
use crate::request::Request;
use crate::sys::{Handle, status};
use crate::written_form::Reader;
use crate::{library, sys};
use std::cell::{Cell, UnsafeCell};
use std::fmt;

/// Atomic objects and the actions that use them, for one caller at a time; threads share a guardian by a
/// [`Shared`](crate::Shared), or by a mutex of their own.
///
/// Calls and questions take `&self`, and a guardian isn't `Sync`, so they come one after another. What
/// an action or a [`Shared`](crate::Shared) lends is a `&Guardian`: nothing can be put in its place.
///
/// ```compile_fail,E0277
/// fn shared<T: Sync>() {}
/// shared::<argus_guardian::Guardian>();
/// ```
///
/// Its journal keeps each call with its reply, and so grows until a
/// [`checkpoint`](Self::checkpoint). A guardian begins at most [`MAX_ACTIONS`](Self::MAX_ACTIONS)
/// actions until it is [renewed](Self::renew), and declares at most 65,535 objects.
///
/// ```
/// use argus_guardian::{Call, Guardian, Reply, ObjId};
/// let guardian = Guardian::new()?;
/// let reply = guardian.call(&Call::Declare("atomic_array[int]".into()))?;
/// assert_eq!(reply, Reply::Object(ObjId::numbered(0)));
/// # Ok::<(), argus_guardian::Error>(())
/// ```
pub struct Guardian {
    handle: UnsafeCell<Handle>,
    // Where texts of the library are copied to; empty while one of them is read.
    room: Cell<Vec<u8>>,
    // The outcome of the last call: of which kind the text is that the library keeps.
    pub(crate) kept: Cell<u32>,
    // Whose the ids are that it returns.
    pub(crate) owner: Cell<Owner>,
    // The objects that have a name, if somebody has asked for one.
    pub(crate) names: Cell<Option<Box<Names>>>,
    // Up to which entry the program has read the journal's lines; 0 if it reads none.
    pub(crate) lines_read: Cell<u64>,
}

// SAFETY: it is proved that the archive's handle may go to another thread. It isn't `Sync`, so no two
// threads use it at once.
unsafe impl Send for Guardian {}

impl Guardian {
    /// How many actions a guardian begins until it is [renewed](Self::renew).
    pub const MAX_ACTIONS: u32 = 1_000_000;

    /// A guardian without objects. The first one of a process also allocates some 600 bytes that
    /// all share and that are never freed.
    ///
    /// # Errors
    ///
    /// [`Error::OutOfMemory`]; [`Error::OtherVersion`] if the linked library isn't the one that
    /// belongs to this crate.
    ///
    /// ```
    /// assert_eq!(argus_guardian::Guardian::new()?.objects(), 0);
    /// # Ok::<(), argus_guardian::Error>(())
    /// ```
    pub fn new() -> Result<Guardian, Error> {
        // SAFETY: the handle is borrowed for the call.
        Guardian::opened(|handle| unsafe { sys::argus_open(handle) }.status)
    }

    /// A guardian without objects, which shares with this one the bytes that [`new`](Self::new)
    /// speaks of.
    ///
    /// # Errors
    ///
    /// [`Error::OutOfMemory`].
    ///
    /// ```
    /// use argus_guardian::Guardian;
    /// let first = Guardian::new()?;
    /// let second = first.beside()?;
    /// first.declare("atomic_array[int]")?;
    /// assert_eq!(second.objects(), 0);
    /// # Ok::<(), argus_guardian::Error>(())
    /// ```
    pub fn beside(&self) -> Result<Guardian, Error> {
        // SAFETY: no other guardian has this handle; both are there for the call, and they are
        // different ones.
        Guardian::opened(|handle| unsafe { sys::argus_c_open(handle, self.handle()) })
    }

    // A new guardian in place of this one: it takes the ids of this one's objects, and says of an
    // action from before that it is over.
    pub(crate) fn successor(&self) -> Result<Guardian, Error> {
        let successor = Guardian::new()?;
        successor.owner.set(self.owner.get().renewed());
        Ok(successor)
    }

    // The handle, for one call of the library: that calls back nothing, so nothing else uses the
    // handle meanwhile.
    pub(crate) fn handle(&self) -> *mut Handle {
        self.handle.get()
    }

    // Opens a handle by this call, which returns a status.
    fn opened(open: impl FnOnce(&mut Handle) -> u32) -> Result<Guardian, Error> {
        let mut handle = Handle::CLOSED;
        // SAFETY: it has no parameters.
        let version = unsafe { sys::argus_c_version() };
        if version != sys::VERSION_NUMBER {
            return Err(Error::OtherVersion(version));
        }
        match open(&mut handle) {
            status::DONE => Ok(Guardian {
                handle: UnsafeCell::new(handle),
                room: Cell::default(),
                kept: Cell::new(status::DONE),
                owner: Cell::new(Owner::new()),
                names: Cell::default(),
                lines_read: Cell::default(),
            }),
            status::NO_MEMORY => Err(Error::OutOfMemory),
            other => Err(Error::Unknown(other)),
        }
    }

    /// Makes one call. The journal keeps it with its reply, also if that is a refusal.
    ///
    /// # Errors
    ///
    /// [`Error::OutOfMemory`], [`Error::BadText`] (a value deeper than 16) and [`Error::BadShape`]:
    /// then no call was made and nothing has changed; nor with [`Error::OtherGuardian`], for an id of
    /// another guardian, nor with [`Error::Refused`] and `Over`, for an action from before a
    /// [renewal](Self::renew). [`Error::NoRoom`]: the call was made.
    ///
    /// ```
    /// use argus_guardian::{ActionId, Call, Guardian, Refusal, Reply};
    /// let guardian = Guardian::new()?;
    /// assert_eq!(guardian.call(&Call::BeginTop)?, Reply::Begun(ActionId::numbered(0)));
    /// let reply = guardian.call(&Call::Commit(ActionId::numbered(7)))?;
    /// assert_eq!(reply, Reply::Refused(Refusal::NoAction));
    /// # Ok::<(), argus_guardian::Error>(())
    /// ```
    pub fn call(&self, call: &Call) -> Result<Reply, Error> {
        self.make(&mut Request::of(call))
    }

    // The same.
    #[inline]
    pub(crate) fn make(&self, request: &mut Request<'_>) -> Result<Reply, Error> {
        let owner = self.owner.get();
        if !request.call.is_for(owner) {
            return Err(request.call.refused_by(owner));
        }
        // SAFETY: no other guardian has the handle.
        let (status, number) = unsafe { request.make(self.handle()) };
        if status == status::BAD_SHAPE {
            return Err(request.shape_fault());
        }
        self.reply_of(request.kind(), status, number)
    }

    fn reply_of(&self, kind: u32, status: u32, number: i64) -> Result<Reply, Error> {
        if status <= status::REFUSED {
            self.kept.set(status);
        }
        let owner = self.owner.get();
        library::reply_of(owner, kind, status, number, || self.answer_again())
    }

    /// The value or the content that the last call returned, again: for a caller that had no memory
    /// for it ([`Error::NoRoom`]), since a second call would be a second entry. Integers and truth
    /// values take no memory, and aren't kept.
    ///
    /// # Errors
    ///
    /// [`Error::NoRoom`] again; [`Error::OtherAnswer`] if the last call returned neither, or if
    /// there was a question with a text since.
    ///
    /// ```
    /// use argus_guardian::{Access, Answer, Guardian, Query, Value};
    /// let mut guardian = Guardian::new()?;
    /// let object = guardian.declare("atomic_record[n:null]")?;
    /// let top = guardian.topaction()?;
    /// top.create(object, ((),))?;
    /// assert_eq!(top.ask(object, Query::Field(0))?.value()?, Value::Null);
    /// assert_eq!(top.guardian().answer_again()?, Answer::Val(Value::Null));
    /// # Ok::<(), argus_guardian::Error>(())
    /// ```
    pub fn answer_again(&self) -> Result<Answer, Error> {
        let (kept, owner) = (self.kept.get(), self.owner.get());
        match kept {
            status::VALUE => self
                .read_text(|text| read_as(kept, owner, text, Reader::value))
                .map(Answer::Val),
            status::CONTENT => self
                .read_text(|text| read_as(kept, owner, text, Reader::content))
                .map(Answer::Body),
            _ => Err(Error::OtherAnswer),
        }
    }

    // What is read of the text that the library keeps.
    pub(crate) fn read_text<T>(
        &self,
        read: impl FnOnce(&str) -> Result<T, Error>,
    ) -> Result<T, Error> {
        let mut room = self.room.take();
        let said = self.copy_text(&mut room).and_then(read);
        self.room.set(room);
        said
    }

    // Copies the text that the library keeps to this room, which grows if it is too small.
    fn copy_text<'r>(&self, room: &'r mut Vec<u8>) -> Result<&'r str, Error> {
        let mut size = 0;
        loop {
            // SAFETY: no other guardian has the handle; handle, room and size don't overlap, and no
            // pointer is null (that of an empty room dangles, and nothing is written there).
            let status = unsafe {
                sys::argus_c_reply(self.handle(), room.as_mut_ptr(), room.len(), &raw mut size)
            };
            match status {
                status::DONE => break,
                status::TOO_SMALL if size > room.len() => grow(room, size)?,
                status::NO_MEMORY => return Err(Error::NoRoom),
                status::NOT_THERE => return Err(Error::OtherAnswer),
                other => return Err(Error::Unknown(other)),
            }
        }
        let text = room.get(..size).ok_or(Error::Unknown(status::DONE))?;
        std::str::from_utf8(text).map_err(|_| Error::Unknown(status::DONE))
    }

    /// Declares an object of this shape, such as `atomic_record[balance:int]`.
    ///
    /// # Errors
    ///
    /// [`Error::BadShape`]; [`Error::TooMany`]; [`Error::OutOfMemory`].
    ///
    /// ```
    /// use argus_guardian::{Error, Guardian};
    /// let guardian = Guardian::new()?;
    /// guardian.declare("atomic_variant[ok:int,bad:text]")?;
    /// let error = guardian.declare("atomic_record[]").expect_err("it has no field");
    /// assert_eq!(error.to_string(), "no written form of a shape: at byte 14: a name is missing");
    /// # Ok::<(), Error>(())
    /// ```
    pub fn declare(&self, shape: &str) -> Result<ObjId, Error> {
        self.call(&Call::Declare(shape.to_owned()))?.object()
    }

    /// Begins a topaction. It aborts when it is dropped, unless it has committed.
    ///
    /// # Errors
    ///
    /// [`Error::TooMany`]; [`Error::OutOfMemory`].
    ///
    /// ```
    /// use argus_guardian::{ActionId, Guardian};
    /// let mut guardian = Guardian::new()?;
    /// let top = guardian.topaction()?;
    /// assert_eq!(top.id(), ActionId::numbered(0));
    /// top.commit()?;
    /// # Ok::<(), argus_guardian::Error>(())
    /// ```
    pub fn topaction(&mut self) -> Result<Action<'_>, Error> {
        Action::begun(self, &Call::BeginTop)
    }

    /// Aborts all live actions: each topaction, nested ones too, in increasing number, with its
    /// subactions. For actions whose guards are gone, as after a panic or `mem::forget`.
    ///
    /// # Errors
    ///
    /// [`Error::OutOfMemory`]: some were aborted, from the first one on; another call aborts the others.
    ///
    /// ```
    /// use argus_guardian::{Call, Guardian};
    /// let guardian = Guardian::new()?;
    /// guardian.call(&Call::BeginTop)?;
    /// guardian.abort_live()?;
    /// assert_eq!(guardian.entry(1)?, "1 abort a0 -> done");
    /// # Ok::<(), argus_guardian::Error>(())
    /// ```
    pub fn abort_live(&self) -> Result<(), Error> {
        // SAFETY: no other guardian has the handle.
        match unsafe { sys::argus_c_abort_live(self.handle()) } {
            status::DONE => Ok(()),
            other => Err(error_of(other, 0)),
        }
    }

    /// Folds the journal's entries: objects keep their bases, and entries and actions their
    /// numbers. The memory of the entries is freed.
    ///
    /// # Errors
    ///
    /// [`CheckpointError::Busy`] if an action is live, [`CheckpointError::Full`] beyond 2^63 - 1
    /// entries, [`CheckpointError::OutOfMemory`]; then nothing has changed.
    ///
    /// ```
    /// use argus_guardian::{CheckpointError, Guardian};
    /// let mut guardian = Guardian::new()?;
    /// let top = guardian.topaction()?;
    /// assert_eq!(top.guardian().checkpoint(), Err(CheckpointError::Busy));
    /// top.commit()?;
    /// assert_eq!(guardian.checkpoint(), Ok(()));
    /// assert_eq!(guardian.entries(), 2);
    /// # Ok::<(), argus_guardian::Error>(())
    /// ```
    pub fn checkpoint(&self) -> Result<(), CheckpointError> {
        // SAFETY: no other guardian has the handle.
        match unsafe { sys::argus_c_checkpoint(self.handle()) } {
            status::DONE => Ok(()),
            status::BUSY => Err(CheckpointError::Busy),
            status::FULL => Err(CheckpointError::Full),
            _ => Err(CheckpointError::OutOfMemory),
        }
    }

    /// Numbers actions from 0 again. Objects keep their numbers, their shapes and their bases, and
    /// entries their numbers. The entries are folded, as by a checkpoint.
    ///
    /// From then on an action with an earlier [`ActionId`](crate::ActionId) is over, and an id of a plain number names
    /// another action, or none. A [`Shared`](crate::Shared) renews by itself.
    ///
    /// # Errors
    ///
    /// As for [`checkpoint`](Self::checkpoint).
    ///
    /// ```
    /// use argus_guardian::{ActionId, Guardian};
    /// let mut guardian = Guardian::new()?;
    /// let object = guardian.declare("atomic_array[int]")?;
    /// guardian.topaction()?.commit()?;
    /// guardian.renew()?;
    /// assert_eq!(guardian.actions_left(), Guardian::MAX_ACTIONS);
    /// assert_eq!(guardian.topaction()?.id(), ActionId::numbered(0));
    /// assert_eq!(guardian.shape(object)?, "atomic_array[int]");
    /// assert_eq!(guardian.first_entry(), 3);
    /// # Ok::<(), argus_guardian::Error>(())
    /// ```
    pub fn renew(&self) -> Result<(), CheckpointError> {
        // SAFETY: no other guardian has the handle.
        match unsafe { sys::argus_c_renew(self.handle()) } {
            status::DONE => {
                self.owner.set(self.owner.get().renewed());
                Ok(())
            }
            status::BUSY => Err(CheckpointError::Busy),
            status::FULL => Err(CheckpointError::Full),
            _ => Err(CheckpointError::OutOfMemory),
        }
    }
}

// Makes the room so large.
fn grow(room: &mut Vec<u8>, size: usize) -> Result<(), Error> {
    let reserved = room.try_reserve(size - room.len());
    reserved.map_err(|_| Error::NoRoom)?;
    room.resize(size, 0);
    Ok(())
}

impl Drop for Guardian {
    fn drop(&mut self) {
        // SAFETY: no other guardian has the handle, and it isn't used again.
        unsafe { sys::argus_c_close(self.handle()) };
    }
}

impl fmt::Debug for Guardian {
    fn fmt(&self, f: &mut fmt::Formatter<'_>) -> fmt::Result {
        f.debug_struct("Guardian").finish_non_exhaustive()
    }
}
