//! Which action, and which object, of which guardian.

use crate::error::Error;
use crate::reply::Refusal;
use std::cmp::Ordering;
use std::fmt;
use std::hash::{Hash, Hasher};
use std::sync::atomic::{AtomicU32, Ordering as Memory};

/// Which action of a guardian: its number, 0 for the first that is begun, and so on up to 999,999.
///
/// An id that a guardian has returned is that guardian's. Any other guardian refuses it with
/// [`Error::OtherGuardian`]; after a [renewal](crate::Guardian::renew) its own guardian refuses it
/// as [`Over`](Refusal::Over), and the journal doesn't have that. An id that a program makes of a
/// plain number, or reads from a text, is nobody's: each guardian takes it as its own. Ids compare,
/// hash and print by their numbers alone.
///
/// ```
/// use argus_guardian::{ActionId, Call, Error, Guardian, Refusal};
/// let (mut first, second) = (Guardian::new()?, Guardian::new()?);
/// let action = first.topaction()?.id();
/// assert_eq!(action, ActionId::numbered(0));
/// assert_eq!(action.to_string(), "a0");
/// assert_eq!(second.call(&Call::Commit(action)), Err(Error::OtherGuardian));
/// first.renew()?;
/// first.call(&Call::BeginTop)?;
/// assert_eq!(first.call(&Call::Commit(action)), Err(Error::Refused(Refusal::Over)));
/// # Ok::<(), Error>(())
/// ```
#[derive(Clone, Copy, PartialEq, Eq, PartialOrd, Ord, Hash)]
pub struct ActionId {
    number: u32,
    owner: Owner,
}

impl ActionId {
    /// The action with this number, of whichever guardian the id is passed to. For numbers that
    /// come from elsewhere, such as from a listing or from before a restart.
    ///
    /// ```
    /// use argus_guardian::ActionId;
    /// assert_eq!(ActionId::numbered(3).to_string(), "a3");
    /// ```
    #[must_use]
    pub const fn numbered(number: u32) -> ActionId {
        ActionId::of(Owner::NOBODY, number)
    }

    // The action of this owner with this number.
    pub(crate) const fn of(owner: Owner, number: u32) -> ActionId {
        ActionId { number, owner }
    }

    /// Its number.
    ///
    /// ```
    /// use argus_guardian::ActionId;
    /// assert_eq!(ActionId::numbered(3).number(), 3);
    /// ```
    #[must_use]
    pub const fn number(self) -> u32 {
        self.number
    }

    // Whether this guardian takes it.
    #[inline]
    pub(crate) fn is_for(self, guardian: Owner) -> bool {
        self.owner.is_now(guardian)
    }

    // Its number, if this guardian takes it.
    pub(crate) fn number_for(self, guardian: Owner) -> Result<u32, Error> {
        if self.is_for(guardian) {
            Ok(self.number)
        } else if self.owner.is_guardian(guardian) {
            Err(Error::Refused(Refusal::Over))
        } else {
            Err(Error::OtherGuardian)
        }
    }
}

impl fmt::Display for ActionId {
    fn fmt(&self, f: &mut fmt::Formatter<'_>) -> fmt::Result {
        write!(f, "a{}", self.number)
    }
}

impl fmt::Debug for ActionId {
    fn fmt(&self, f: &mut fmt::Formatter<'_>) -> fmt::Result {
        f.debug_tuple("ActionId").field(&self.number).finish()
    }
}

/// Which object of a guardian: its number, 0 for the first that is declared, and so on up to 65,534.
///
/// An id that a guardian has returned is that guardian's. Any other guardian refuses it with
/// [`Error::OtherGuardian`]. An id that a program makes of a plain number, or reads from a text, is
/// nobody's: each guardian takes it as its own. Ids compare, hash and print by their numbers alone.
///
/// ```
/// use argus_guardian::{Error, Guardian, ObjId};
/// let (first, second) = (Guardian::new()?, Guardian::new()?);
/// let object = first.declare("atomic_array[int]")?;
/// assert_eq!(second.base(object), Err(Error::OtherGuardian));
/// assert_eq!(first.base(ObjId::numbered(0)), Ok(None));
/// assert_eq!(object, ObjId::numbered(0));
/// assert_eq!(object.to_string(), "o0");
/// # Ok::<(), Error>(())
/// ```
#[derive(Clone, Copy, PartialEq, Eq, PartialOrd, Ord, Hash)]
pub struct ObjId {
    number: u32,
    owner: Owner,
}

impl ObjId {
    /// The object with this number, of whichever guardian the id is passed to. For numbers that
    /// come from elsewhere, such as from a listing or from before a restart.
    ///
    /// ```
    /// use argus_guardian::ObjId;
    /// assert_eq!(ObjId::numbered(3).to_string(), "o3");
    /// ```
    #[must_use]
    pub const fn numbered(number: u32) -> ObjId {
        ObjId::of(Owner::NOBODY, number)
    }

    // The object of this owner with this number.
    pub(crate) const fn of(owner: Owner, number: u32) -> ObjId {
        ObjId { number, owner }
    }

    /// Its number.
    ///
    /// ```
    /// use argus_guardian::ObjId;
    /// assert_eq!(ObjId::numbered(3).number(), 3);
    /// ```
    #[must_use]
    pub const fn number(self) -> u32 {
        self.number
    }

    // Whether this guardian takes it.
    #[inline]
    pub(crate) fn is_for(self, guardian: Owner) -> bool {
        self.owner.is_guardian(guardian)
    }

    // Its number, if this guardian takes it.
    pub(crate) fn number_for(self, guardian: Owner) -> Result<u32, Error> {
        if self.is_for(guardian) {
            Ok(self.number)
        } else {
            Err(Error::OtherGuardian)
        }
    }
}

impl fmt::Display for ObjId {
    fn fmt(&self, f: &mut fmt::Formatter<'_>) -> fmt::Result {
        write!(f, "o{}", self.number)
    }
}

impl fmt::Debug for ObjId {
    fn fmt(&self, f: &mut fmt::Formatter<'_>) -> fmt::Result {
        f.debug_tuple("ObjId").field(&self.number).finish()
    }
}

/// Whose an id is: the number of a guardian in this process, and how often that had been renewed; or nobody's. Any two
/// compare as equal, so that ids compare by their numbers alone.
#[derive(Clone, Copy)]
pub(crate) struct Owner {
    // 0: nobody's.
    guardian: u32,
    renewals: u32,
}

// The number of the next guardian. After 4,294,967,295 guardians their numbers begin again.
static NEXT: AtomicU32 = AtomicU32::new(1);

impl Owner {
    pub(crate) const NOBODY: Owner = Owner {
        guardian: 0,
        renewals: 0,
    };

    /// A new guardian.
    pub(crate) fn new() -> Owner {
        let mut guardian = NEXT.fetch_add(1, Memory::Relaxed);
        while guardian == Owner::NOBODY.guardian {
            guardian = NEXT.fetch_add(1, Memory::Relaxed);
        }
        Owner {
            guardian,
            renewals: 0,
        }
    }

    /// The same guardian after one more renewal.
    pub(crate) fn renewed(self) -> Owner {
        Owner {
            renewals: self.renewals.wrapping_add(1),
            ..self
        }
    }

    /// Whether it is that guardian, before or after renewals, or nobody.
    #[inline]
    pub(crate) fn is_guardian(self, guardian: Owner) -> bool {
        self.guardian == guardian.guardian || self.guardian == Owner::NOBODY.guardian
    }

    /// Whether it is that guardian, and no renewal lies between the two, or nobody.
    #[inline]
    pub(crate) fn is_now(self, guardian: Owner) -> bool {
        let is_now = self.guardian == guardian.guardian && self.renewals == guardian.renewals;
        is_now || self.guardian == Owner::NOBODY.guardian
    }
}

impl PartialEq for Owner {
    fn eq(&self, _other: &Owner) -> bool {
        true
    }
}

impl Eq for Owner {}

impl PartialOrd for Owner {
    fn partial_cmp(&self, other: &Owner) -> Option<Ordering> {
        Some(self.cmp(other))
    }
}

impl Ord for Owner {
    fn cmp(&self, _other: &Owner) -> Ordering {
        Ordering::Equal
    }
}

impl Hash for Owner {
    fn hash<H: Hasher>(&self, _state: &mut H) {}
}
