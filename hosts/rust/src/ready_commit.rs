//! Commits in two steps.

use crate::error::Error;
use crate::guardian::Guardian;
use crate::ids::ActionId;
use crate::library::error_of;
use crate::reply::{Answer, Reply};
use crate::sys::{Handle, Ready, kind, status};
use crate::{library, sys};
use std::{error, fmt};

// The most bytes that a commit's line has, with its line feed: two numbers of 20 and 10 digits, and
// the longest refusal, `Suspended`.
const LINE: usize = 61;

// The handle of the commit, which is closed when it is dropped.
struct ReadyHandle(Ready);

/// A guardian with a prepared commit, which can't fail any more. Make it or cancel it, and the
/// guardian is returned. If it is dropped, so is the guardian, without the commit.
///
/// So a commit is in a log before anybody can see what it leaves:
///
/// ```
/// use argus_guardian::{Error, Guardian};
/// let mut guardian = Guardian::new()?;
/// let top = guardian.topaction()?.into_id();
/// let mut log = String::new();
/// let mut ready = guardian.ready_commit(top)?;
/// log.push_str(&ready.line()?);
/// let (guardian, committed) = ready.make();
/// committed?;
/// assert_eq!(log, "1 commit a0 -> done\n");
/// assert_eq!(guardian.entry(1)?, "1 commit a0 -> done");
/// # Ok::<(), Error>(())
/// ```
#[must_use = "a commit that is ready and dropped takes its guardian with it"]
pub struct ReadyCommit {
    ready: ReadyHandle,
    // Its handle is closed meanwhile.
    guardian: Guardian,
}

// SAFETY: it is proved that the archive's handle may go to another thread, and all calls that use
// it take `&mut self` or `self`.
unsafe impl Send for ReadyCommit {}

impl Guardian {
    /// Prepares the commit of an action. A commit that will be refused is prepared, too.
    ///
    /// # Errors
    ///
    /// [`NotReady`], with the unchanged guardian, and [`Error::OutOfMemory`]; for an id of another
    /// guardian [`Error::OtherGuardian`], for one from before a renewal [`Error::Refused`] with `Over`.
    ///
    /// ```
    /// use argus_guardian::{ActionId, Error, Guardian};
    /// let ready = Guardian::new()?.ready_commit(ActionId::numbered(7))?;
    /// let guardian = ready.cancel();
    /// assert_eq!(guardian.entries(), 0);
    /// # Ok::<(), Error>(())
    /// ```
    pub fn ready_commit(self, action: ActionId) -> Result<ReadyCommit, NotReady> {
        match self.readied(action) {
            Ok(ready) => Ok(ReadyCommit {
                ready,
                guardian: self,
            }),
            Err(error) => Err(NotReady {
                guardian: self,
                error,
            }),
        }
    }

    // The commit, which takes the content of the handle.
    fn readied(&self, action: ActionId) -> Result<ReadyHandle, Error> {
        let action = action.number_for(self.owner.get())?;
        let mut ready = ReadyHandle(Ready::NOTHING);
        // SAFETY: no other guardian has its handle; both are there for the call, and they are different
        // ones.
        let status = unsafe { sys::argus_c_ready_commit(self.handle(), &raw mut ready.0, action) };
        match status {
            status::DONE => Ok(ready),
            other => Err(error_of(other, 0)),
        }
    }
}

impl ReadyCommit {
    /// The line that the commit will have in the journal's listing, with its line feed.
    ///
    /// # Errors
    ///
    /// [`Error::OutOfMemory`].
    ///
    /// ```
    /// use argus_guardian::{ActionId, Error, Guardian};
    /// let mut ready = Guardian::new()?.ready_commit(ActionId::numbered(7))?;
    /// assert_eq!(ready.line()?, "0 commit a7 -> refused NoAction\n");
    /// # Ok::<(), Error>(())
    /// ```
    pub fn line(&mut self) -> Result<String, Error> {
        let (mut room, mut size) = ([0; LINE], 0);
        // SAFETY: nothing else has the handle; handle, room and size don't overlap, and no pointer
        // is null.
        let status = unsafe {
            sys::argus_c_ready_line(
                &raw mut self.ready.0,
                room.as_mut_ptr(),
                room.len(),
                &raw mut size,
            )
        };
        if status != status::DONE {
            return Err(error_of(status, 0));
        }
        let line = room.get(..size).ok_or(Error::Unknown(status))?;
        let line = std::str::from_utf8(line).map_err(|_| Error::Unknown(status))?;
        Ok(line.to_owned())
    }

    /// Makes the commit, which takes no memory. Returns the guardian, with the commit as the
    /// journal's newest entry, and whether it was refused ([`Error::Refused`]).
    ///
    /// ```
    /// use argus_guardian::{Error, Guardian, Refusal};
    /// let mut guardian = Guardian::new()?;
    /// let top = guardian.topaction()?.into_id();
    /// let (guardian, committed) = guardian.ready_commit(top)?.make();
    /// assert_eq!(committed, Ok(()));
    /// let (guardian, committed) = guardian.ready_commit(top)?.make();
    /// assert_eq!(committed, Err(Error::Refused(Refusal::Over)));
    /// assert_eq!(guardian.entries(), 3);
    /// # Ok::<(), Error>(())
    /// ```
    pub fn make(self) -> (Guardian, Result<(), Error>) {
        let ReadyCommit {
            mut ready,
            guardian,
        } = self;
        let mut number = 0;
        // SAFETY: nothing else has these handles, and handles and number don't overlap.
        let status = unsafe {
            sys::argus_c_make_ready(&raw mut ready.0, guardian.handle(), &raw mut number)
        };
        guardian.kept.set(status);
        let owner = guardian.owner.get();
        let none = || Err(Error::OtherAnswer);
        let reply = library::reply_of(owner, kind::COMMIT, status, number, none);
        let committed = reply.and_then(Reply::answer).and_then(Answer::done);
        (guardian, committed)
    }

    /// Returns the guardian unchanged; nothing was journalled, and the action is live.
    #[must_use]
    pub fn cancel(self) -> Guardian {
        let ReadyCommit {
            mut ready,
            guardian,
        } = self;
        // SAFETY: nothing else has these handles, and they are different ones.
        unsafe { sys::argus_c_cancel_ready(&raw mut ready.0, guardian.handle()) };
        guardian
    }
}

impl Drop for ReadyHandle {
    fn drop(&mut self) {
        let mut handle = Handle::CLOSED;
        // SAFETY: this handle isn't used again, and the other one is closed before it ends. If
        // nothing is ready, both calls do nothing.
        unsafe {
            sys::argus_c_cancel_ready(&raw mut self.0, &raw mut handle);
            sys::argus_c_close(&raw mut handle);
        }
    }
}

impl fmt::Debug for ReadyCommit {
    fn fmt(&self, f: &mut fmt::Formatter<'_>) -> fmt::Result {
        f.debug_struct("ReadyCommit").finish_non_exhaustive()
    }
}

/// Why a commit wasn't prepared, with the unchanged guardian. If it is converted into the
/// [`Error`], the guardian is dropped.
///
/// ```
/// use argus_guardian::{ActionId, Guardian};
/// let guardian = match Guardian::new()?.ready_commit(ActionId::numbered(0)) {
///     Ok(ready) => ready.cancel(),
///     Err(not_ready) => not_ready.guardian,
/// };
/// # drop(guardian);
/// # Ok::<(), argus_guardian::Error>(())
/// ```
#[derive(Debug)]
pub struct NotReady {
    /// The guardian, unchanged.
    pub guardian: Guardian,
    /// Why the commit wasn't prepared.
    pub error: Error,
}

impl fmt::Display for NotReady {
    fn fmt(&self, f: &mut fmt::Formatter<'_>) -> fmt::Result {
        write!(f, "no commit is ready: {}", self.error)
    }
}

impl error::Error for NotReady {}

impl From<NotReady> for Error {
    fn from(not_ready: NotReady) -> Error {
        not_ready.error
    }
}
