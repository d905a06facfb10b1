//! Questions to a guardian, which make no entry in the journal.

use crate::error::Error;
use crate::guardian::Guardian;
use crate::ids::{ActionId, ObjId};
use crate::library::{error_of, one_of};
use crate::object::{AsObject, Object};
use crate::shape::Shape;
use crate::sys;
use crate::sys::{question, status};
use crate::value::Content;
use crate::written_form::Reader;

impl Guardian {
    /// Whether the action could get a read lock on the object now: no, if one of them is another
    /// guardian's. The question isn't journalled.
    ///
    /// ```
    /// use argus_guardian::{Guardian, ObjId};
    /// let mut guardian = Guardian::new()?;
    /// let top = guardian.topaction()?;
    /// assert!(!top.guardian().can_read(top.id(), ObjId::numbered(0)));
    /// # Ok::<(), argus_guardian::Error>(())
    /// ```
    pub fn can_read(&self, action: ActionId, object: ObjId) -> bool {
        self.can(question::CAN_READ, action, object)
    }

    /// Whether the action could get a write lock on the object now: no, if one of them is another
    /// guardian's. The question isn't journalled.
    ///
    /// ```
    /// use argus_guardian::Guardian;
    /// let mut guardian = Guardian::new()?;
    /// let object = guardian.declare("atomic_array[int]")?;
    /// let top = guardian.topaction()?;
    /// assert!(top.guardian().can_write(top.id(), object));
    /// # Ok::<(), argus_guardian::Error>(())
    /// ```
    pub fn can_write(&self, action: ActionId, object: ObjId) -> bool {
        self.can(question::CAN_WRITE, action, object)
    }

    fn can(&self, question: u32, action: ActionId, object: ObjId) -> bool {
        let owner = self.owner.get();
        let (Ok(action), Ok(object)) = (action.number_for(owner), object.number_for(owner)) else {
            return false;
        };
        self.tell(question, action, object, 0) == (status::FLAG, 1)
    }

    /// How many objects are declared.
    ///
    /// ```
    /// let guardian = argus_guardian::Guardian::new()?;
    /// guardian.declare("atomic_array[int]")?;
    /// assert_eq!(guardian.objects(), 1);
    /// # Ok::<(), argus_guardian::Error>(())
    /// ```
    pub fn objects(&self) -> u32 {
        self.count(question::OBJECTS).try_into().unwrap_or(u32::MAX)
    }

    /// How many actions are begun: the next one's number.
    ///
    /// ```
    /// let mut guardian = argus_guardian::Guardian::new()?;
    /// guardian.topaction()?.commit()?;
    /// assert_eq!(guardian.actions(), 1);
    /// # Ok::<(), argus_guardian::Error>(())
    /// ```
    pub fn actions(&self) -> u32 {
        self.count(question::ACTIONS).try_into().unwrap_or(u32::MAX)
    }

    /// How many actions can still be begun, before a [renewal](Self::renew).
    ///
    /// ```
    /// use argus_guardian::Guardian;
    /// let mut guardian = Guardian::new()?;
    /// guardian.topaction()?.commit()?;
    /// assert_eq!(guardian.actions_left(), Guardian::MAX_ACTIONS - 1);
    /// # Ok::<(), argus_guardian::Error>(())
    /// ```
    pub fn actions_left(&self) -> u32 {
        Guardian::MAX_ACTIONS.saturating_sub(self.actions())
    }

    /// The state of an action; `None` if it isn't begun, is another guardian's, or is from before a
    /// renewal.
    ///
    /// ```
    /// use argus_guardian::{ActionId, Guardian, Status};
    /// let mut guardian = Guardian::new()?;
    /// guardian.topaction()?.commit()?;
    /// assert_eq!(guardian.status(ActionId::numbered(0)), Some(Status::Committed));
    /// assert_eq!(guardian.status(ActionId::numbered(1)), None);
    /// # Ok::<(), argus_guardian::Error>(())
    /// ```
    pub fn status(&self, action: ActionId) -> Option<Status> {
        let action = action.number_for(self.owner.get()).ok()?;
        match self.tell(question::ACTION_STATUS, action, 0, 0) {
            (status::NUMBER, number) => one_of(&Status::ALL, status::NUMBER, number).ok(),
            _ => None,
        }
    }

    /// The first live action from this number on. Called again with the number after the one that
    /// it found, it leads to all live actions.
    ///
    /// ```
    /// use argus_guardian::{Call, Guardian};
    /// let mut guardian = Guardian::new()?;
    /// guardian.topaction()?.commit()?;
    /// guardian.call(&Call::BeginTop)?;
    /// let live = guardian.live(0).expect("the second one");
    /// assert_eq!(live.number(), 1);
    /// assert_eq!(guardian.live(live.number() + 1), None);
    /// # Ok::<(), argus_guardian::Error>(())
    /// ```
    pub fn live(&self, from: u32) -> Option<ActionId> {
        match self.tell(question::FIRST_LIVE, from, 0, 0) {
            (status::ACTION, number) => {
                let number = u32::try_from(number).ok()?;
                Some(ActionId::of(self.owner.get(), number))
            }
            _ => None,
        }
    }

    /// The number of the journal's first entry: the number that was next at the last checkpoint.
    ///
    /// ```
    /// let mut guardian = argus_guardian::Guardian::new()?;
    /// guardian.topaction()?.commit()?;
    /// guardian.checkpoint()?;
    /// assert_eq!(guardian.first_entry(), 2);
    /// # Ok::<(), argus_guardian::Error>(())
    /// ```
    pub fn first_entry(&self) -> u64 {
        self.count(question::FIRST_ENTRY)
    }

    /// The shape with which the object was declared.
    ///
    /// # Errors
    ///
    /// As for [`base`](Self::base).
    ///
    /// ```
    /// let guardian = argus_guardian::Guardian::new()?;
    /// let object = guardian.declare("atomic_record[balance:int]")?;
    /// assert_eq!(guardian.shape(object)?, "atomic_record[balance:int]");
    /// # Ok::<(), argus_guardian::Error>(())
    /// ```
    pub fn shape(&self, object: impl AsObject) -> Result<String, Error> {
        self.told_of(question::SHAPE, object.id(), |shape| Ok(shape.to_owned()))
    }

    /// The object with the names that its shape has, and with its own if that was asked for before.
    ///
    /// # Errors
    ///
    /// As for [`base`](Self::base).
    ///
    /// ```
    /// let guardian = argus_guardian::Guardian::new()?;
    /// let account = guardian.declare("atomic_record[balance:int]")?;
    /// assert_eq!(guardian.object(account)?.names(), ["balance"]);
    /// # Ok::<(), argus_guardian::Error>(())
    /// ```
    pub fn object(&self, object: ObjId) -> Result<Object, Error> {
        let object = object.number_for(self.owner.get())?;
        let id = ObjId::of(self.owner.get(), object);
        let found = self.told(question::SHAPE, object, 0, |text| {
            let shape = Shape::read(text).map_err(|_| Error::Unknown(status::TEXT))?;
            Ok(Object::of(id, shape))
        })?;
        Ok(match self.name_of(id) {
            Some(name) => found.called(&name),
            None => found,
        })
    }

    /// How many entries the journal has had, including those that a checkpoint has folded: the next
    /// one's number.
    ///
    /// ```
    /// let mut guardian = argus_guardian::Guardian::new()?;
    /// guardian.topaction()?.commit()?;
    /// assert_eq!(guardian.entries(), 2);
    /// # Ok::<(), argus_guardian::Error>(())
    /// ```
    pub fn entries(&self) -> u64 {
        self.count(question::ENTRIES)
    }

    fn count(&self, question: u32) -> u64 {
        let (_, number) = self.tell(question, 0, 0, 0);
        u64::try_from(number).unwrap_or(0)
    }

    /// The object's base: what the committed topactions have left in it; `None` if it has no
    /// content yet.
    ///
    /// # Errors
    ///
    /// [`Error::NotThere`] if no object of this number is declared; [`Error::OtherGuardian`] if the id is
    /// another guardian's; [`Error::OutOfMemory`].
    ///
    /// ```
    /// use argus_guardian::{Error, Guardian, ObjId};
    /// let guardian = Guardian::new()?;
    /// let object = guardian.declare("atomic_array[int]")?;
    /// assert_eq!(guardian.base(object)?, None);
    /// assert_eq!(guardian.base(ObjId::numbered(9)), Err(Error::NotThere));
    /// # Ok::<(), Error>(())
    /// ```
    pub fn base(&self, object: impl AsObject) -> Result<Option<Content>, Error> {
        let owner = self.owner.get();
        self.told_of(question::BASE, object.id(), |text| {
            Reader::whole_of(owner, text, Reader::content_or_absent)
        })
    }

    /// The actions that hold the object for reading, in increasing number.
    ///
    /// # Errors
    ///
    /// As for [`base`](Self::base).
    ///
    /// ```
    /// let guardian = argus_guardian::Guardian::new()?;
    /// let object = guardian.declare("atomic_array[int]")?;
    /// assert_eq!(guardian.readers(object)?, []);
    /// # Ok::<(), argus_guardian::Error>(())
    /// ```
    pub fn readers(&self, object: ObjId) -> Result<Vec<ActionId>, Error> {
        let owner = self.owner.get();
        self.told_of(question::READERS, object, |text| {
            let reader = |line| Reader::whole_of(owner, line, Reader::action);
            text.lines().map(reader).collect()
        })
    }

    /// The actions that hold the object for writing, from ancestor to descendant, each with what it
    /// sees there.
    ///
    /// # Errors
    ///
    /// As for [`base`](Self::base).
    ///
    /// ```
    /// use argus_guardian::{Access, ActionId, Content, Guardian};
    /// let mut guardian = Guardian::new()?;
    /// let object = guardian.declare("atomic_array[int]")?;
    /// let top = guardian.topaction()?;
    /// let empty: Content = "1[]".parse()?;
    /// top.create(object, empty.clone())?;
    /// assert_eq!(top.guardian().versions(object)?, [(ActionId::numbered(0), Some(empty))]);
    /// # Ok::<(), argus_guardian::Error>(())
    /// ```
    pub fn versions(&self, object: ObjId) -> Result<Vec<(ActionId, Option<Content>)>, Error> {
        let owner = self.owner.get();
        self.told_of(question::VERSIONS, object, |text| {
            let version = |line| Reader::whole_of(owner, line, Reader::version);
            text.lines().map(version).collect()
        })
    }

    // The actions that hold the object for writing, from ancestor to descendant. The library writes what each sees, too.
    pub(crate) fn writers(&self, object: ObjId) -> Result<Vec<ActionId>, Error> {
        let owner = self.owner.get();
        let writer = |line: &str| {
            Reader::whole_of(owner, line, |reader| {
                let writer = reader.action();
                reader.skip_rest();
                writer
            })
        };
        self.told_of(question::VERSIONS, object, |text| {
            text.lines().map(writer).collect()
        })
    }

    /// The line of a journal's entry: its number, the call and the reply.
    ///
    /// # Errors
    ///
    /// [`Error::NotThere`] if no entry has this number, or a checkpoint has folded it;
    /// [`Error::OutOfMemory`].
    ///
    /// ```
    /// let mut guardian = argus_guardian::Guardian::new()?;
    /// guardian.topaction()?.commit()?;
    /// assert_eq!(guardian.entry(1)?, "1 commit a0 -> done");
    /// # Ok::<(), argus_guardian::Error>(())
    /// ```
    pub fn entry(&self, number: u64) -> Result<String, Error> {
        self.told(question::ENTRY, 0, number, |line| Ok(line.to_owned()))
    }

    /// Puts as many whole lines of the journal's listing as fit at the beginning of the room, each
    /// with its line feed, from the entry `from` on. The next number to ask for is `from + count`.
    /// If the room is too small for the first line, it isn't changed, and `size` is what that line
    /// needs. It doesn't change what [`answer_again`](Self::answer_again) returns.
    ///
    /// # Errors
    ///
    /// [`Error::NotThere`] if `from` is below [`first_entry`](Self::first_entry), or above
    /// [`entries`](Self::entries); [`Error::OutOfMemory`]. The room isn't changed.
    ///
    /// ```
    /// use argus_guardian::{Guardian, Lines};
    /// let mut guardian = Guardian::new()?;
    /// guardian.topaction()?.commit()?;
    /// let mut room = [0; 64];
    /// let lines = guardian.lines(0, &mut room)?;
    /// assert_eq!(lines, Lines { count: 2, size: 38 });
    /// assert_eq!(&room[..lines.size], b"0 begin_top -> a0\n1 commit a0 -> done\n");
    /// assert_eq!(guardian.lines(lines.count, &mut room)?, Lines { count: 0, size: 0 });
    /// # Ok::<(), argus_guardian::Error>(())
    /// ```
    pub fn lines(&self, from: u64, room: &mut [u8]) -> Result<Lines, Error> {
        let (mut size, mut count) = (0, 0);
        // SAFETY: no other guardian has the handle; it, the room, size and count don't overlap, and
        // no pointer is null (that of an empty room dangles, and nothing is written there).
        let status = unsafe {
            sys::argus_c_lines(
                self.handle(),
                from,
                room.as_mut_ptr(),
                room.len(),
                &raw mut size,
                &raw mut count,
            )
        };
        match status {
            status::DONE | status::TOO_SMALL => {
                self.lines_read.set(self.lines_read.get().max(from + count));
                Ok(Lines { count, size })
            }
            other => Err(error_of(other, 0)),
        }
    }

    /// A listing. Objects have the names `o0`, `o1` and so on.
    ///
    /// # Errors
    ///
    /// [`Error::OutOfMemory`].
    ///
    /// ```
    /// use argus_guardian::{Guardian, Listing};
    /// let guardian = Guardian::new()?;
    /// guardian.declare("atomic_array[int]")?;
    /// assert_eq!(guardian.list(Listing::Bases)?, "o0 absent\n");
    /// # Ok::<(), argus_guardian::Error>(())
    /// ```
    pub fn list(&self, listing: Listing) -> Result<String, Error> {
        let question = match listing {
            Listing::Bases => question::LIST_BASES,
            Listing::Stacks => question::LIST_STACKS,
            Listing::Journal => question::LIST_JOURNAL,
            Listing::Audit => question::LIST_AUDIT,
        };
        self.told(question, 0, 0, |text| Ok(text.to_owned()))
    }

    // A question's status and number.
    fn tell(&self, question: u32, action: u32, object: u32, entry: u64) -> (u32, i64) {
        let mut number = 0;
        // SAFETY: no other guardian has the handle, and the number is other memory.
        let status = unsafe {
            sys::argus_c_tell(
                self.handle(),
                question,
                action,
                object,
                entry,
                &raw mut number,
            )
        };
        if status == status::TEXT {
            self.kept.set(status);
        }
        (status, number)
    }

    // What is read of the text that a question about an object returns.
    fn told_of<T>(
        &self,
        question: u32,
        object: ObjId,
        read: impl FnOnce(&str) -> Result<T, Error>,
    ) -> Result<T, Error> {
        let object = object.number_for(self.owner.get())?;
        self.told(question, object, 0, read)
    }

    // What is read of the text that a question returns.
    fn told<T>(
        &self,
        question: u32,
        object: u32,
        entry: u64,
        read: impl FnOnce(&str) -> Result<T, Error>,
    ) -> Result<T, Error> {
        match self.tell(question, 0, object, entry) {
            (status::TEXT, _) => self.read_text(read).map_err(|error| match error {
                Error::NoRoom => Error::OutOfMemory,
                other => other,
            }),
            (status, number) => Err(error_of(status, number)),
        }
    }
}

/// The state of an action that was begun.
///
/// ```
/// use argus_guardian::{ActionId, Guardian, Status};
/// let mut guardian = Guardian::new()?;
/// guardian.topaction()?.abort()?;
/// assert_eq!(guardian.status(ActionId::numbered(0)), Some(Status::Aborted));
/// # Ok::<(), argus_guardian::Error>(())
/// ```
#[derive(Debug, Clone, Copy, PartialEq, Eq, Hash)]
pub enum Status {
    /// It was begun, and neither it nor an ancestor of it has ended.
    Live,
    /// It has committed, and none of its ancestors was aborted.
    Committed,
    /// It or an ancestor of it was aborted, whether it had committed or not.
    Aborted,
    /// It was over at the last checkpoint, and nothing more is known of it.
    Folded,
}

impl Status {
    // By the library's numbers, from 1.
    pub(crate) const ALL: [Status; 4] = [
        Status::Live,
        Status::Committed,
        Status::Aborted,
        Status::Folded,
    ];
}

/// What is listed of a guardian, one line each. Objects come in the order of their numbers.
///
/// ```
/// use argus_guardian::{Guardian, Listing};
/// let guardian = Guardian::new()?;
/// guardian.declare("atomic_record[n:int]")?;
/// assert_eq!(guardian.list(Listing::Journal)?, "0 declare atomic_record[n:int] -> o0\n");
/// # Ok::<(), argus_guardian::Error>(())
/// ```
#[derive(Debug, Clone, Copy, PartialEq, Eq, Hash)]
pub enum Listing {
    /// The base of each object.
    Bases,
    /// The same, with each object's readers, and its versions from ancestor to descendant.
    Stacks,
    /// The journal's entries.
    Journal,
    /// Bases and versions, computed again from the journal's writes.
    Audit,
}

/// How many whole lines of the journal were put into a room:
/// [`Guardian::lines`](crate::Guardian::lines).
#[derive(Debug, Clone, Copy, PartialEq, Eq)]
pub struct Lines {
    /// How many entries' lines they are; 0 if there is none from that number on, or if the room is
    /// too small for the first line.
    pub count: u64,
    /// How many bytes they have, at the beginning of the room. If `count` is 0, how many bytes the
    /// first line has, or 0 if there is none.
    pub size: usize,
}
