//! `Taking`: the lines of a journal, as a log takes them.

use crate::error::{CheckpointError, Error};
use crate::guardian::Guardian;
use crate::log::JournalLines;
use crate::object::Object;
use crate::questions::Listing;
use crate::shared::Shared;
use std::borrow::Cow;
use std::collections::VecDeque;
use std::mem;
use std::str::from_utf8;

// The most bytes of a batch, but for a longer line.
const MOST: usize = 256 * 1024;

/// What has been taken out of a journal. It is taken only while the guardian is had, so that it is in the order of the
/// entries.
#[derive(Debug)]
pub(crate) struct Taking {
    // The entries before this number were taken; how many openings were, and whether one is owed.
    next: u64,
    openings: u64,
    owes_opening: bool,
    // What waits for the log: an opening is a batch by itself.
    batches: VecDeque<JournalLines>,
    // Objects with names, each with the number of entries that there have to be before it counts.
    named: Vec<(u64, Object)>,
    room: Vec<u8>,
}

impl Taking {
    /// Takes what comes after this entry.
    pub(crate) fn after(next: u64) -> Taking {
        Taking {
            next,
            openings: 0,
            owes_opening: false,
            batches: VecDeque::new(),
            named: Vec::new(),
            room: vec![0; MOST],
        }
    }

    /// The entries so far have this object, which has a name.
    pub(crate) fn name(&mut self, guardian: &Guardian, object: Object) {
        self.named.push((guardian.entries(), object));
    }

    /// What the log gets next, if something waits for it.
    pub(crate) fn next_batch(&mut self) -> Option<JournalLines> {
        self.batches.pop_front()
    }

    /// Takes all that isn't taken.
    pub(crate) fn take_all(&mut self, guardian: &Guardian) -> Result<(), Error> {
        while self.owes_opening || self.next < guardian.entries() {
            self.take(guardian)?;
        }
        Ok(())
    }

    // Takes the opening that is owed, or else as many lines as fit into a batch, and at least one: there are some.
    fn take(&mut self, guardian: &Guardian) -> Result<(), Error> {
        let (count, text) = if self.owes_opening {
            (0, opening_of(guardian)?.into())
        } else {
            let lines = guardian.lines(self.next, &mut self.room)?;
            let text = from_utf8(&self.room[..lines.size]).map_err(|_| Error::OtherAnswer)?;
            match lines.count {
                0 => (1, (guardian.entry(self.next)? + "\n").into()),
                count => (count, Cow::from(text)),
            }
        };
        let has_room = |it: &JournalLines| !it.is_opening() && it.text.len() + text.len() <= MOST;
        if self.owes_opening || !self.batches.back().is_some_and(has_room) {
            self.batches
                .extend(JournalLines::new(self.next, String::new()));
        }
        self.openings += u64::from(mem::take(&mut self.owes_opening));
        self.next += count;
        let named = self.named.partition_point(|it| it.0 <= self.next);
        if let Some(batch) = self.batches.back_mut() {
            batch.text += &text;
            batch.next = self.next;
            batch.named.extend(self.named.drain(..named).map(|it| it.1));
        }
        Ok(())
    }

    /// Folds the journal when all of it has been taken, and takes the opening; a journal without entries has none. How
    /// many openings the log has then. If there is no memory for the opening, it is taken before the next lines.
    pub(crate) fn fold(&mut self, guardian: &Guardian) -> Result<u64, CheckpointError> {
        let out_of_memory = |_: Error| CheckpointError::OutOfMemory;
        self.take_all(guardian).map_err(out_of_memory)?;
        Shared::fold(guardian)?;
        self.owes_opening = self.next > 0;
        self.take_all(guardian).map_err(out_of_memory)?;
        Ok(self.openings)
    }
}

fn opening_of(guardian: &Guardian) -> Result<String, Error> {
    let mut text = guardian.list(Listing::Journal)?;
    let lines = text.split_inclusive('\n');
    let opening = lines.take_while(|it| it.starts_with("opening "));
    text.truncate(opening.map(str::len).sum());
    Ok(text)
}
