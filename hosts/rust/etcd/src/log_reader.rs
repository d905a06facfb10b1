//! `LogReader`: reads a log in etcd, batch by batch; `Takes`: what takes these.

use crate::answers::KeyValue;
use crate::batch::{Batch, summed_lines};
use crate::client::Client;
use crate::etcd_error::EtcdError;
use crate::keys::Keys;
use crate::log_error::LogError;
use crate::log_head::LogHead;
use crate::pages::{Page, first_page, next_page};
use crate::position::Position;
use argus_guardian::{Error, LineError};

/// What takes the batches of a log that is read.
pub(crate) trait Takes {
    /// The log begins anew with an opening, which comes next, in one batch or in several. `is_next`: everything before
    /// it was taken.
    fn begin_anew(&mut self, is_next: bool) -> Result<(), LineError>;

    /// Takes a batch.
    fn take(&mut self, batch: &Batch<'_>) -> Result<(), LineError>;

    /// The whole opening was taken.
    fn end_opening(&mut self) -> Result<(), LineError>;
}

impl<F: FnMut(&Batch<'_>) -> Result<(), LineError>> Takes for F {
    fn begin_anew(&mut self, _: bool) -> Result<(), LineError> {
        Ok(())
    }

    fn take(&mut self, batch: &Batch<'_>) -> Result<(), LineError> {
        self(batch)
    }

    fn end_opening(&mut self) -> Result<(), LineError> {
        Ok(())
    }
}

/// Reads a log in etcd, and hands each batch on. A later call goes on where the last one ended.
#[derive(Debug)]
pub(crate) struct LogReader<T> {
    pub(crate) client: Client,
    keys: Keys,
    pub(crate) takes: T,
    pub(crate) position: Position,
    /// The log's head when it was last read; `None` where there was none.
    pub(crate) head: Option<LogHead>,
    /// Whether the last batch was part of an opening, of which more may come.
    pub(crate) is_opening: bool,
    // The sum of the last batch.
    sum: u32,
}

impl<T: Takes> LogReader<T> {
    pub(crate) fn new(client: Client, takes: T) -> LogReader<T> {
        LogReader {
            keys: Keys::under(&client.options().prefix),
            client,
            takes,
            position: Position::default(),
            head: None,
            is_opening: false,
            sum: 0,
        }
    }

    /// Takes all that there is, at one revision; if that is compacted meanwhile, at a later one.
    pub(crate) fn take_all(&mut self) -> Result<(), LogError> {
        loop {
            match self.take_revision() {
                Err(LogError::Etcd(EtcdError::Compacted)) => {}
                taken => return taken,
            }
        }
    }

    fn take_revision(&mut self) -> Result<(), LogError> {
        let Page {
            revision,
            head,
            mut batches,
        } = first_page(&mut self.client, &self.keys, self.position.batch)?;
        let Some(head) = head else {
            return self.check_new();
        };
        if self.head.is_some_and(|it| it.name != head.name) {
            return Err(self.damage(None, "it is another log"));
        }
        if head.next < self.position.batch || head.entry < self.position.entry {
            return Err(self.damage(None, "the log has gone back"));
        }
        if head.begins > self.position.batch {
            self.leap_to(head.begins);
            batches.clear();
        }
        while self.position.batch < head.next {
            if batches.is_empty() {
                let from = self.position.batch;
                batches = next_page(&mut self.client, &self.keys, from, revision)?;
            }
            self.take_page(&std::mem::take(&mut batches), head)?;
        }
        self.end_opening()?;
        if self.position.entry != head.entry {
            return Err(self.damage(None, "the log's head names another entry"));
        }
        if head.next > head.begins && self.sum != head.sum {
            return Err(self.damage(None, "the log's head has another sum than its last batch"));
        }
        self.position.revision = revision;
        self.head = Some(head);
        Ok(())
    }

    // There is no log: right only if there was none before.
    fn check_new(&self) -> Result<(), LogError> {
        if self.head.is_none() {
            return Ok(());
        }
        Err(LogError::Damaged {
            key: self.keys.head(),
            line: None,
            why: "the log's head is gone".to_owned(),
        })
    }

    // Goes on with a checkpoint's opening; batches before it are gone that weren't read.
    fn leap_to(&mut self, batch: u64) {
        self.is_opening = false;
        self.position = Position {
            batch,
            ..Position::default()
        };
    }

    // Takes the batches of a page, but for those that don't count.
    fn take_page(&mut self, page: &[KeyValue], head: LogHead) -> Result<(), LogError> {
        if page.is_empty() {
            return Err(self.damage(None, "the batch isn't there"));
        }
        let left = usize::try_from(head.next - self.position.batch).unwrap_or(usize::MAX);
        page.iter()
            .take(left)
            .try_for_each(|found| self.take_batch(found, head))
    }

    fn take_batch(&mut self, found: &KeyValue, head: LogHead) -> Result<(), LogError> {
        let Position {
            batch: number,
            epoch,
            ..
        } = self.position;
        if found.key != self.keys.batch(number).as_bytes() {
            return Err(self.damage(None, "the batch isn't there"));
        }
        let Some(batch) = Batch::of(number, &found.value) else {
            return Err(self.damage(None, "it isn't a batch"));
        };
        if batch.epoch < epoch {
            return Err(self.damage(None, "it isn't the batch that comes next"));
        }
        self.sum = self.sum_of(&batch, head);
        if batch.sum != self.sum {
            let why = "it hasn't the sum that it says: it was changed, or what is before it";
            return Err(self.damage(None, why));
        }
        self.take_place(&batch, head)?;
        let taken = self.takes.take(&batch);
        taken.map_err(|error| self.not_taken(error))?;
        self.position.entry = batch.first + batch.entries;
        self.position.batch += 1;
        self.position.epoch = batch.epoch;
        Ok(())
    }

    // Its sum, in the chain, which begins at an opening.
    fn sum_of(&self, batch: &Batch<'_>, head: LogHead) -> u32 {
        let before = match (batch.number == head.begins, batch.is_opening) {
            (true, true) => 0,
            (true, false) => head.summed(0, 0, b""),
            (false, _) => self.sum,
        };
        head.summed(batch.first, before, summed_lines(batch.lines))
    }

    // An opening stands where the log begins, in one batch or in several, and nothing else does after a
    // checkpoint. Entries are those that come next.
    fn take_place(&mut self, batch: &Batch<'_>, head: LogHead) -> Result<(), LogError> {
        let begins = batch.number == head.begins;
        let is_first = self.position.epoch == 0;
        let is_next = batch.first == self.position.entry;
        match (batch.is_opening, begins) {
            (true, true) if is_next || is_first => {
                self.is_opening = true;
                let begun = self.takes.begin_anew(!is_first);
                begun.map_err(|error| self.not_taken(error))
            }
            (true, false) if is_next && self.is_opening => Ok(()),
            (false, begins) if is_next && (!begins || batch.number == 0) => self.end_opening(),
            (is_opening, _) => {
                let what = if is_opening { "an opening" } else { "entries" };
                Err(self.damage(None, &format!("{what} of another place stand there")))
            }
        }
    }

    fn end_opening(&mut self) -> Result<(), LogError> {
        if !std::mem::take(&mut self.is_opening) {
            return Ok(());
        }
        let ended = self.takes.end_opening();
        ended.map_err(|error| self.not_taken(error))
    }

    /// Why a batch or an opening wasn't taken, as an error of the log.
    pub(crate) fn not_taken(&self, error: LineError) -> LogError {
        match error {
            LineError::Fault { line, why } => self.damage(Some(line), &why),
            LineError::OutOfMemory => LogError::Guardian(Error::OutOfMemory),
        }
    }

    /// The next batch is wrong.
    pub(crate) fn damage(&self, line: Option<u64>, why: &str) -> LogError {
        LogError::Damaged {
            key: self.keys.batch(self.position.batch),
            line,
            why: why.to_owned(),
        }
    }
}
