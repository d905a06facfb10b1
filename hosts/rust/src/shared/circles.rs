//! Circles of accesses that wait for one another.
//!
//! **An access waits for another one** if that one's action, or an ancestor of it, has a lock that keeps the first one
//! out, or an action in which it is nested. For that lock isn't free before the other access is made or refused: an
//! action that waits doesn't end, nor do those around it. Another thread could abort one of them, by its number or as a
//! sibling; as in most lock managers, that doesn't count. So a circle is certain, and each access that is made or
//! begins to wait, and each end of a subaction, looks for those that it closes.
//!
//! - A thread that was woken and hasn't looked yet isn't one that waits. Nobody waits for a place in a queue: whoever
//!   comes gets a lock that is free.
//! - While an arm of a topaction runs that has written the object, too, its parent's lock counts for no other arm. These
//!   are looked at when that arm ends.
//! - Of an action that is known by its number alone (`Shared::call_waiting`) the ancestors aren't known: it holds up
//!   none of them, and is taken to wait for a reader only if that can't be one of them. An end by a number, and what is
//!   called inside `Shared::with`, isn't looked at.

use crate::guardian::Guardian;
use crate::ids::{ActionId, ObjId};
use crate::shared::waits::WaitingAccess;
use std::cell::OnceCell;
use std::{error, fmt, iter};

/// An access that waits and wasn't woken, with its waiter's number.
#[derive(Clone, Copy)]
pub(crate) struct Stuck<'w> {
    pub(crate) number: u64,
    pub(crate) access: &'w WaitingAccess,
}

/// A shortest circle with this one, if there is one: each waits for the next, and the last for the first.
pub(crate) fn circle_with<'w>(
    guardian: &Guardian,
    first: Stuck<'w>,
    all: &[Stuck<'w>],
) -> Option<Vec<Stuck<'w>>> {
    // Each with the place of one that waits for it.
    let mut reached = vec![(first, 0)];
    let mut place = 0;
    while let Some(&(stuck, _)) = reached.get(place) {
        let barrier = Barrier::before(stuck.access, guardian);
        if barrier.is_kept_by(first.access) {
            return Some(way_to(place, &reached));
        }
        let is_new = |it: &&Stuck<'_>| reached.iter().all(|(known, _)| known.number != it.number);
        let others = all.iter().filter(is_new);
        let others = others.filter(|it| barrier.is_kept_by(it.access));
        let others: Vec<_> = others.map(|it| (*it, place)).collect();
        reached.extend(others);
        place += 1;
    }
    None
}

// From the first one to that at this place.
fn way_to<'w>(place: usize, reached: &[(Stuck<'w>, usize)]) -> Vec<Stuck<'w>> {
    let back = iter::successors(Some(place), |it| (*it > 0).then(|| reached[*it].1));
    let mut way: Vec<_> = back.map(|it| reached[it].0).collect();
    way.reverse();
    way
}

// What keeps an access out. If there is no memory for a list of holders, it is as if there were none.
struct Barrier<'w> {
    guardian: &'w Guardian,
    access: &'w WaitingAccess,
    // Whether a writer keeps it out.
    is_written: bool,
    // Otherwise the readers that do. (Those of an object that is written are the writer's ancestors and descendants.)
    readers: Vec<ActionId>,
    // All writers, as soon as somebody asks: a guardian tells them with the contents that they see.
    writers: OnceCell<Vec<ActionId>>,
}

impl<'w> Barrier<'w> {
    fn before(access: &'w WaitingAccess, guardian: &'w Guardian) -> Barrier<'w> {
        let mut barrier = Barrier {
            guardian,
            access,
            is_written: false,
            readers: Vec::new(),
            writers: OnceCell::new(),
        };
        barrier.is_written = barrier.find_whether_written();
        if access.writes && !barrier.is_written {
            barrier.readers = barrier.find_readers();
        }
        barrier
    }

    fn find_readers(&self) -> Vec<ActionId> {
        let mut readers = self
            .guardian
            .readers(self.access.object)
            .unwrap_or_default();
        readers.retain(|it| !self.may_be_ancestor(*it));
        readers
    }

    // Whether this holder of the object is the access's action, or may be an ancestor of it: that is older, and
    // suspended, so that it couldn't read what it holds.
    fn may_be_ancestor(&self, holder: ActionId) -> bool {
        let WaitingAccess {
            action,
            object,
            ref lineage,
            ..
        } = *self.access;
        lineage.own().contains(&holder)
            || !lineage.is_known() && holder < action && !self.guardian.can_read(holder, object)
    }

    // The action of an access that something else waits for isn't suspended (`is_kept_by`), so only a lock can keep it
    // from reading. A nested one may be.
    fn find_whether_written(&self) -> bool {
        let lineage = &self.access.lineage;
        if lineage.around().is_empty() {
            return !self
                .guardian
                .can_read(self.access.action, self.access.object);
        }
        let is_own = |it: &ActionId| lineage.own().contains(it);
        !self.writers().iter().all(is_own)
    }

    fn writers(&self) -> &[ActionId] {
        let find = || self.guardian.writers(self.access.object);
        self.writers.get_or_init(|| find().unwrap_or_default())
    }

    // Whether the other access has to be made before what keeps this one out can end.
    fn is_kept_by(&self, other: &WaitingAccess) -> bool {
        self.is_kept_by_own(other) || self.is_kept_around(other)
    }

    // Whether the other one's action or its ancestors keep this one out. If they have written the object, that action
    // can read it, unless it is suspended. They have hardly written it if that action waits for the same object: then
    // one of their own arms keeps it out, and is asked, too.
    fn is_kept_by_own(&self, other: &WaitingAccess) -> bool {
        let own = other.lineage.own();
        let may_keep = self.readers.iter().any(|it| own.contains(it))
            || self.is_written && other.object != self.access.object;
        may_keep && self.guardian.can_read(other.action, self.access.object)
    }

    // Whether those keep this one out in which the other one is nested.
    fn is_kept_around(&self, other: &WaitingAccess) -> bool {
        let around = other.lineage.around();
        if around.is_empty() {
            return false;
        }
        let own = self.access.lineage.own();
        let mut writers = self.writers().iter().filter(|it| !own.contains(it));
        self.readers.iter().any(|it| around.contains(it)) || writers.any(|it| around.contains(it))
    }
}

/// Actions that wait for one another in a circle, of which the first is refused.
///
/// ```
/// use argus_guardian::{Access, Error, Guardian, Shared};
/// let shared = Shared::from(Guardian::new()?);
/// let account = shared.named("account", "atomic_record[balance:int]")?;
/// let top = shared.topaction()?;
/// top.lock(&account)?;
/// // It would wait for the lock of the action that waits for its end.
/// let nested = top.nested()?;
/// let Err(Error::Deadlock(deadlock)) = nested.lock(&account) else {
///     panic!("it is refused at once");
/// };
/// assert_eq!(deadlock.waits(), [(nested.id(), account.id())]);
/// assert_eq!(deadlock.to_string(), "a2 waits at account for an action around it");
/// # Ok::<(), Error>(())
/// ```
#[derive(Debug, Clone, PartialEq, Eq)]
pub struct Deadlock {
    waits: Vec<(ActionId, ObjId)>,
    // How their objects are called.
    names: Vec<String>,
}

impl Deadlock {
    pub(crate) fn of(circle: &[Stuck<'_>], guardian: &Guardian) -> Deadlock {
        let waits = circle.iter().map(|it| (it.access.action, it.access.object));
        let called = |object: ObjId| guardian.name_of(object).unwrap_or(object.to_string());
        let names = circle.iter().map(|it| called(it.access.object));
        Deadlock {
            waits: waits.collect(),
            names: names.collect(),
        }
    }

    /// The actions, each with the object for whose lock it waits. The first one is refused. Each waits for a lock of
    /// the next one or of an action around that, and the last one waits for the first.
    #[must_use]
    pub fn waits(&self) -> &[(ActionId, ObjId)] {
        &self.waits
    }
}

impl fmt::Display for Deadlock {
    fn fmt(&self, f: &mut fmt::Formatter<'_>) -> fmt::Result {
        let waits: Vec<_> = self
            .waits
            .iter()
            .map(|(it, _)| it)
            .zip(&self.names)
            .collect();
        if let [(action, object)] = waits[..] {
            return write!(f, "{action} waits at {object} for an action around it");
        }
        let next = waits.iter().cycle().skip(1);
        for (place, ((action, object), (other, _))) in waits.iter().zip(next).enumerate() {
            let (comma, waits) = if place == 0 {
                ("", "waits ")
            } else {
                (", ", "")
            };
            write!(f, "{comma}{action} {waits}for {other} at {object}")?;
        }
        Ok(())
    }
}

impl error::Error for Deadlock {}
