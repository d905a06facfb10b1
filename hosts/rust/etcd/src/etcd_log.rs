//! `EtcdLog`: a log in etcd, which only the leader writes.

use crate::answers::{NoContent, TransactionAnswer};
use crate::batch::{Batch, line_feeds, summed_lines};
use crate::client::Client;
use crate::etcd_error::EtcdError;
use crate::etcd_options::EtcdOptions;
use crate::keys::Keys;
use crate::leadership::Leadership;
use crate::log_error::LogError;
use crate::log_head::LogHead;
use crate::log_reader::LogReader;
use crate::parts::parts;
use crate::position::Position;
use crate::transaction::Transaction;
use argus_guardian::LineError;
use argus_guardian::log::{BatchLog, Failure, JournalLines};
use serde_json::json;
use std::io;
use std::sync::Arc;

// So many batches are deleted at once: etcd does nothing else meanwhile.
const DELETED: u64 = 1000;

/// A log in etcd, which only the leader writes. Each batch is one transaction. etcd carries it out only if the
/// leader's key still exists and the log ends where this leader left it. So a deposed leader appends nothing,
/// whatever its own clock and threads believe, and its next append fails with [`EtcdError::Deposed`].
///
/// When [`append`](BatchLog::append) returns `Ok`, the batch is on the disks of a majority of etcd's nodes. If a
/// node doesn't answer, the same transaction goes to the next node. It is carried out at most once, and a later
/// answer shows whether it was. If no node answers while
/// [`patience`](crate::EtcdOptions::patience) and the lease last, or etcd refuses, the log is *broken*: nothing
/// more is appended, and each later call returns the same [`Failure`].
///
/// [`Follower::lead`](crate::Follower::lead) makes a guardian over one. Without a guardian:
///
/// ```no_run
/// use argus_guardian::log::{BatchLog, JournalLines};
/// use argus_guardian_etcd::{Campaign, EtcdLog, EtcdOptions};
/// let options = EtcdOptions::at(["http://127.0.0.1:2379"]);
/// let leadership = Campaign::begin(&options, "host-1")?.wait()?;
/// let mut log = EtcdLog::open(&options, leadership, |batch| {
///     print!("{}", batch.lines);
///     Ok(())
/// })?;
/// let lines = format!("{} begin_top -> a0\n", log.next());
/// log.append(&JournalLines::new(log.next(), lines).expect("a whole line"))?; // Ok: etcd has it
/// # Ok::<(), Box<dyn std::error::Error>>(())
/// ```
#[derive(Debug)]
pub struct EtcdLog {
    client: Client,
    keys: Keys,
    leadership: Leadership,
    // `None` where etcd has no head yet, and what that will be.
    held: Option<LogHead>,
    head: LogHead,
    // That of the last transaction.
    revision: i64,
    broken: Option<Failure>,
}

// A key that a transaction puts: by reading it back, a later try finds that an earlier one was carried out.
struct Put {
    key: String,
    value: String,
}

impl EtcdLog {
    /// Reads a log, batch by batch, and changes nothing. Where it ends.
    ///
    /// If a checkpoint is made meanwhile, its opening may follow batches that don't count any more, among them parts of
    /// an earlier opening. An opening begins with a batch whose lines begin with `opening entries `.
    ///
    /// # Errors
    ///
    /// [`LogError::Etcd`]; [`LogError::Damaged`], also for what `each` refuses.
    ///
    /// ```no_run
    /// use argus_guardian_etcd::{EtcdLog, EtcdOptions, LogError};
    /// let position = EtcdLog::read(&EtcdOptions::at(["http://127.0.0.1:2379"]), |batch| {
    ///     print!("{}", batch.lines);
    ///     Ok(())
    /// })?;
    /// # Ok::<(), LogError>(())
    /// ```
    pub fn read(
        options: &EtcdOptions,
        each: impl FnMut(&Batch<'_>) -> Result<(), LineError>,
    ) -> Result<Position, LogError> {
        let client = Client::new(&Arc::new(options.clone()))?;
        let mut reader = LogReader::new(client, each);
        reader.take_all()?;
        Ok(reader.position)
    }

    /// Reads a log as [`read`](Self::read) does, and goes on with it as the leader. Open one log with a leadership: its
    /// late requests can be distinguished from those of other leaders, not from those of another log of its own.
    ///
    /// # Errors
    ///
    /// As of [`read`](Self::read); [`EtcdError::Deposed`].
    ///
    /// ```no_run
    /// # use argus_guardian_etcd::{Campaign, EtcdLog, EtcdOptions};
    /// # let options = EtcdOptions::at(["http://127.0.0.1:2379"]);
    /// let leadership = Campaign::begin(&options, "host-1")?.wait()?;
    /// let log = EtcdLog::open(&options, leadership, |_| Ok(()))?;
    /// # Ok::<(), Box<dyn std::error::Error>>(())
    /// ```
    pub fn open(
        options: &EtcdOptions,
        leadership: Leadership,
        each: impl FnMut(&Batch<'_>) -> Result<(), LineError>,
    ) -> Result<EtcdLog, LogError> {
        let client = Client::new(&Arc::new(options.clone()))?;
        let mut reader = LogReader::new(client, each);
        reader.take_all()?;
        Ok(EtcdLog::begin(reader.client, leadership, reader.head)?)
    }

    /// The number of the next entry.
    ///
    /// ```no_run
    /// # use argus_guardian_etcd::{Campaign, EtcdLog, EtcdOptions};
    /// # let options = EtcdOptions::at(["http://127.0.0.1:2379"]);
    /// # let leadership = Campaign::begin(&options, "host-1")?.wait()?;
    /// let log = EtcdLog::open(&options, leadership, |_| Ok(()))?;
    /// println!("entry {} comes next", log.next());
    /// # Ok::<(), Box<dyn std::error::Error>>(())
    /// ```
    #[must_use]
    pub fn next(&self) -> u64 {
        let LogHead { entry, .. } = self.head;
        entry
    }

    /// The log with this head, all of which the leader has read. Batches that don't count are deleted: those before
    /// a checkpoint, and those of one that wasn't finished. From then on the head has this leadership's epoch.
    pub(crate) fn begin(
        client: Client,
        leadership: Leadership,
        head: Option<LogHead>,
    ) -> Result<EtcdLog, EtcdError> {
        let keys = Keys::under(&client.options().prefix);
        if !keys.is_leader(leadership.key()) {
            let words = "the leadership is of a log with another prefix";
            return Err(EtcdError::Option(words.to_owned()));
        }
        let mut log = EtcdLog {
            client,
            keys,
            leadership,
            held: head,
            head: head.unwrap_or_else(LogHead::drawn),
            revision: 0,
            broken: None,
        };
        let head = LogHead {
            epoch: log.leadership.epoch(),
            ..log.head
        };
        log.begin_at(head)?;
        Ok(log)
    }

    // Deletes what doesn't count, and puts the head anew. So a copy of this request that comes late does nothing: else
    // it would delete the first parts of an opening, which are behind the log until the last one moves the head.
    fn begin_at(&mut self, head: LogHead) -> Result<(), EtcdError> {
        let (begins, next) = (self.keys.batch(head.begins), self.keys.batch(head.next));
        let put = Put {
            key: self.keys.head(),
            value: head.text(),
        };
        let transaction = Transaction::default()
            .delete(&next, &self.keys.batches_end())
            .delete(&self.keys.batch(0), &begins)
            .put(&put.key, &put.value);
        self.transact(transaction, Some(&put))?;
        self.moved(head);
        Ok(())
    }

    // etcd has this head now.
    fn moved(&mut self, head: LogHead) {
        self.held = Some(head);
        self.head = head;
    }

    // Does it, unless the log is broken; a failure breaks it.
    fn unless_broken(
        &mut self,
        what: impl FnOnce(&mut Self) -> Result<(), EtcdError>,
    ) -> Result<(), Failure> {
        if let Some(failure) = &self.broken {
            return Err(failure.clone());
        }
        what(self).map_err(|error| self.break_by(io::Error::other(error)))
    }

    fn break_by(&mut self, error: io::Error) -> Failure {
        self.broken.insert(error.into()).clone()
    }

    // That this entry is the next one.
    fn check_next(&mut self, entry: u64) -> Result<(), Failure> {
        let next = self.head.entry;
        if entry == next || self.broken.is_some() {
            return Ok(());
        }
        let words = format!("entry {entry} where {next} is the next one");
        let error = io::Error::new(io::ErrorKind::InvalidInput, words);
        Err(self.break_by(error))
    }

    fn append_part(&mut self, text: &str) -> Result<(), EtcdError> {
        let at = self.head;
        let sum = at.summed(at.entry, at.sum, summed_lines(text));
        let put = self.batch(at.next, at.entry, false, sum, text);
        let head = LogHead {
            next: at.next + 1,
            entry: at.entry + line_feeds(text),
            epoch: self.leadership.epoch(),
            sum,
            ..at
        };
        self.move_head(head, &put)
    }

    // The batch with that number.
    fn batch(&self, number: u64, first: u64, is_opening: bool, sum: u32, lines: &str) -> Put {
        let batch = Batch {
            number,
            epoch: self.leadership.epoch(),
            first,
            entries: 0,
            is_opening,
            sum,
            lines,
        };
        Put {
            key: self.keys.batch(number),
            value: batch.text(),
        }
    }

    // Puts a batch, and with it the head that counts it.
    fn move_head(&mut self, head: LogHead, put: &Put) -> Result<(), EtcdError> {
        let transaction = Transaction::default()
            .put(&put.key, &put.value)
            .put(&self.keys.head(), &head.text());
        self.transact(transaction, Some(put))?;
        self.moved(head);
        Ok(())
    }

    // Carries it out once, if this host leads and the head is as it left it.
    fn transact(&mut self, transaction: Transaction, put: Option<&Put>) -> Result<(), EtcdError> {
        let held = self.held.map(LogHead::text);
        let mut fenced = self.leadership.fenced(transaction);
        fenced = fenced.if_holds(&self.keys.head(), held.as_deref());
        fenced = fenced.else_read(self.leadership.key());
        if let Some(put) = put {
            fenced = fenced.else_read(&put.key);
        }
        // Once its lease is over another host may lead: then it tries once, and no longer.
        let (timeout, patience) = (
            self.client.options().timeout,
            self.client.options().patience,
        );
        let patience = patience.min(self.leadership.remaining());
        let question = fenced.question();
        let answer: TransactionAnswer = self
            .client
            .ask_within("kv/txn", &question, timeout, patience)?;
        self.revision = answer.header.revision;
        if answer.succeeded {
            return Ok(());
        }
        self.refused(answer, put)
    }

    // Why it wasn't carried out; or that an earlier try was, whose answer was lost.
    fn refused(&self, answer: TransactionAnswer, put: Option<&Put>) -> Result<(), EtcdError> {
        let mut read = answer
            .responses
            .into_iter()
            .map(|it| it.response_range.unwrap_or_default().kvs);
        let leader = read.next().unwrap_or_default();
        let found = read.next().unwrap_or_default();
        let is_there = |put: &Put| {
            found
                .first()
                .is_some_and(|it| it.value == put.value.as_bytes())
        };
        if put.is_some_and(is_there) {
            return Ok(());
        }
        let made = leader.first().map_or(0, |it| it.create_revision);
        if u64::try_from(made) == Ok(self.leadership.epoch()) {
            Err(EtcdError::Foreign)
        } else {
            Err(EtcdError::Deposed)
        }
    }

    // Puts the opening behind the log, and then lets the log begin there.
    fn put_opening(&mut self, opening: &JournalLines) -> Result<(), EtcdError> {
        let at = self.head;
        let (mut puts, mut sum) = (Vec::new(), 0);
        for (number, text) in (at.next..).zip(parts(&opening.text, self.client.options().batch)) {
            sum = at.summed(opening.next, sum, summed_lines(text));
            puts.push(self.batch(number, opening.next, true, sum, text));
        }
        let head = LogHead {
            begins: at.next,
            next: at.next + puts.len() as u64,
            entry: opening.next,
            epoch: self.leadership.epoch(),
            sum,
            ..at
        };
        let Some(last) = puts.pop() else {
            return Ok(());
        };
        for put in &puts {
            self.transact(Transaction::default().put(&put.key, &put.value), Some(put))?;
        }
        self.move_head(head, &last)?;
        self.delete_before(at.begins, head.begins)
    }

    // Deletes batches that don't count any more, and lets etcd forget them.
    fn delete_before(&mut self, begins: u64, end: u64) -> Result<(), EtcdError> {
        let mut from = begins;
        while from < end {
            let to = end.min(from + DELETED);
            let (from_key, to_key) = (self.keys.batch(from), self.keys.batch(to));
            self.transact(Transaction::default().delete(&from_key, &to_key), None)?;
            from = to;
        }
        if self.client.options().compaction {
            // If it fails, the next checkpoint compacts: nothing that counts is at stake.
            let question = json!({ "revision": self.revision.to_string() });
            let timeout = self.client.options().timeout;
            let _: Result<NoContent, EtcdError> =
                self.client
                    .ask_within("kv/compaction", &question, timeout, timeout);
        }
        Ok(())
    }
}

impl BatchLog for EtcdLog {
    fn append(&mut self, lines: &JournalLines) -> Result<(), Failure> {
        self.check_next(lines.first)?;
        let size = self.client.options().batch;
        self.unless_broken(|log| {
            if lines.is_opening() {
                return log.put_opening(lines);
            }
            parts(&lines.text, size).try_for_each(|part| log.append_part(part))
        })
    }
}
