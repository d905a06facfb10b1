//! `Keys`: which orders were carried out, by their keys.

use crate::records::OrderRecord;
use argus_guardian::ObjId;
use std::collections::{HashMap, VecDeque};

/// A record that an order writes its key into.
#[derive(Debug)]
pub(crate) struct Slot {
    pub(crate) record: ObjId,
    /// The newest key has the greatest.
    pub(crate) sequence: i64,
    /// The key that is forgotten for it.
    pub(crate) oldest: Option<String>,
}

/// What is kept of a key that isn't new.
#[derive(Debug)]
pub(crate) enum KeyState {
    UnderWay,
    InDoubt,
    Kept(OrderRecord),
}

/// What is known of a key.
#[derive(Debug)]
pub(crate) enum KeyLookup {
    /// It is new, and has this slot.
    New(Slot),
    /// It is new, and another record is to be made.
    NoSlot,
    /// It is new, but all records are of orders under way.
    Busy,
    /// An order with this key is under way.
    UnderWay,
    /// Whether the order is in the log isn't known.
    InDoubt,
    Kept(OrderRecord),
}

/// Which orders were carried out, by their keys: what the guardian's records say, and what is under way. A key
/// belongs to one order at a time; so two orders of one key are never carried out at once.
#[derive(Debug, Default)]
pub(crate) struct Keys {
    states: HashMap<String, KeyState>,
    unused: Vec<ObjId>,
    // The oldest one first.
    used: VecDeque<(ObjId, String)>,
    sequence: i64,
    most: usize,
    made: usize,
}

impl Keys {
    /// No keys yet, and so many at the most.
    pub(crate) fn with_room(most: usize) -> Keys {
        Keys {
            most,
            ..Keys::default()
        }
    }

    /// How many keys are recognized at the most: as many as was said, or as there are records for already.
    pub(crate) fn most(&self) -> usize {
        self.most.max(self.made)
    }

    /// How many records are still to be made.
    pub(crate) fn missing(&self) -> usize {
        self.most.saturating_sub(self.made)
    }

    /// No more records can be made: the oldest one is used anew from now on.
    pub(crate) fn grow_no_more(&mut self) {
        self.most = self.made;
    }

    pub(crate) fn add_unused(&mut self, records: impl IntoIterator<Item = ObjId>) {
        let before = self.unused.len();
        self.unused.extend(records);
        self.made += self.unused.len() - before;
    }

    /// A key that is in the log; its sequence is the greatest so far.
    pub(crate) fn add_kept(
        &mut self,
        record: ObjId,
        sequence: i64,
        key: String,
        kept: OrderRecord,
    ) {
        self.made += 1;
        self.sequence = sequence + 1;
        self.states.insert(key.clone(), KeyState::Kept(kept));
        self.used.push_back((record, key));
    }

    /// What is known of a key. A new one is under way from now on.
    pub(crate) fn reserve(&mut self, key: &str) -> KeyLookup {
        match self.states.get(key) {
            Some(KeyState::UnderWay) => return KeyLookup::UnderWay,
            Some(KeyState::InDoubt) => return KeyLookup::InDoubt,
            Some(KeyState::Kept(kept)) => return KeyLookup::Kept(kept.clone()),
            None => {}
        }
        let (record, oldest) = if let Some(record) = self.unused.pop() {
            (record, None)
        } else if self.missing() > 0 {
            return KeyLookup::NoSlot;
        } else if let Some((record, key)) = self.used.pop_front() {
            (record, Some(key))
        } else {
            return KeyLookup::Busy;
        };
        self.states.insert(key.to_owned(), KeyState::UnderWay);
        let sequence = self.sequence;
        self.sequence += 1;
        KeyLookup::New(Slot {
            record,
            sequence,
            oldest,
        })
    }

    /// The order is in the log.
    pub(crate) fn keep(&mut self, slot: Slot, key: &str, kept: OrderRecord) {
        if let Some(oldest) = slot.oldest {
            self.states.remove(&oldest);
        }
        self.states.insert(key.to_owned(), KeyState::Kept(kept));
        self.used.push_back((slot.record, key.to_owned()));
    }

    /// Nothing is left of the order.
    pub(crate) fn release(&mut self, slot: Slot, key: &str) {
        self.states.remove(key);
        match slot.oldest {
            Some(oldest) => self.used.push_front((slot.record, oldest)),
            None => self.unused.push(slot.record),
        }
    }

    /// The log failed before the order was known to be there.
    pub(crate) fn doubt(&mut self, key: &str) {
        self.states.insert(key.to_owned(), KeyState::InDoubt);
    }
}

#[cfg(test)]
mod tests {
    use super::Keys;
    use argus_guardian::ObjId;

    #[test]
    fn records_that_are_there_count() {
        let mut keys = Keys::with_room(100);
        keys.add_unused((0..64).map(ObjId::numbered));
        assert_eq!((keys.most(), keys.missing()), (100, 36));
        keys.add_unused((64..100).map(ObjId::numbered));
        assert_eq!((keys.most(), keys.missing()), (100, 0));
        // They were made when more were asked for.
        let mut fewer = Keys::with_room(64);
        fewer.add_unused((0..100).map(ObjId::numbered));
        assert_eq!((fewer.most(), fewer.missing()), (100, 0));
        // There is no room for more.
        let mut full = Keys::with_room(100);
        full.add_unused((0..64).map(ObjId::numbered));
        full.grow_no_more();
        assert_eq!((full.most(), full.missing()), (64, 0));
    }
}
