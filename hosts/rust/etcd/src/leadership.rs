//! `Leadership`: the right to append to a log, while a lease lasts; `Takeover`: what a new leader found.

use crate::answers::TransactionAnswer;
use crate::client::Client;
use crate::etcd_error::EtcdError;
use crate::etcd_options::EtcdOptions;
use crate::lease::Lease;
use crate::transaction::Transaction;
use std::sync::{Arc, Mutex, PoisonError};
use std::time::Duration;

/// What a new leader found in the log.
#[derive(Debug, Clone, Copy, PartialEq, Eq, Default)]
pub struct Takeover {
    /// The number of its next entry: all entries before it were in the log.
    pub entry: u64,
    /// How many entries it took to abort the actions that were live at the log's end.
    pub aborted: u64,
    /// The number of the leadership.
    pub epoch: u64,
}

/// The right to append to a log, while a lease lasts. Clones are the same leadership; it ends by
/// [`resign`](Self::resign), or when the last clone is dropped.
///
/// etcd decides at each append whether this host still leads. [`is_over`](Self::is_over) is only this host's own
/// estimate.
///
/// ```no_run
/// use argus_guardian_etcd::{Campaign, EtcdError, EtcdOptions};
/// let leadership = Campaign::begin(&EtcdOptions::at(["http://127.0.0.1:2379"]), "host-1")?.wait()?;
/// leadership.confirm()?; // it leads, or did when it asked
/// leadership.resign();
/// # Ok::<(), EtcdError>(())
/// ```
#[derive(Debug, Clone)]
pub struct Leadership(Arc<Term>);

#[derive(Debug)]
struct Term {
    lease: Lease,
    key: String,
    epoch: u64,
    client: Mutex<Client>,
    timeout: Duration,
}

impl Leadership {
    pub(crate) fn new(
        lease: Lease,
        key: String,
        epoch: u64,
        options: &Arc<EtcdOptions>,
    ) -> Result<Leadership, EtcdError> {
        Ok(Leadership(Arc::new(Term {
            lease,
            key,
            epoch,
            client: Mutex::new(Client::new(options)?),
            timeout: options.timeout,
        })))
    }

    pub(crate) fn key(&self) -> &str {
        &self.0.key
    }

    /// Its number. A later leader of the same log has a higher one; each batch carries that of its writer.
    ///
    /// ```no_run
    /// # use argus_guardian_etcd::{Campaign, EtcdError, EtcdOptions};
    /// # let options = EtcdOptions::at(["http://127.0.0.1:2379"]);
    /// # let leadership = Campaign::begin(&options, "host-1")?.wait()?;
    /// println!("leads, epoch {}", leadership.epoch());
    /// # Ok::<(), EtcdError>(())
    /// ```
    #[must_use]
    pub fn epoch(&self) -> u64 {
        self.0.epoch
    }

    /// Whether the lease has ended, by this host's monotonic clock and by what etcd has said. It ends here before it
    /// ends in etcd.
    ///
    /// ```no_run
    /// # use argus_guardian_etcd::{Campaign, EtcdError, EtcdOptions};
    /// # let options = EtcdOptions::at(["http://127.0.0.1:2379"]);
    /// # let leadership = Campaign::begin(&options, "host-1")?.wait()?;
    /// assert!(!leadership.is_over());
    /// # Ok::<(), EtcdError>(())
    /// ```
    #[must_use]
    pub fn is_over(&self) -> bool {
        self.remaining().is_zero()
    }

    /// How long the lease lasts if etcd isn't heard from again.
    ///
    /// ```no_run
    /// # use argus_guardian_etcd::{Campaign, EtcdError, EtcdOptions};
    /// # let options = EtcdOptions::at(["http://127.0.0.1:2379"]);
    /// # let leadership = Campaign::begin(&options, "host-1")?.wait()?;
    /// assert!(leadership.remaining() <= options.lease);
    /// # Ok::<(), EtcdError>(())
    /// ```
    #[must_use]
    pub fn remaining(&self) -> Duration {
        self.0.lease.remaining()
    }

    /// Asks etcd whether this host leads. `Ok`: it did, at some moment after the call. A leader that calls this
    /// after it has read something from its guardian knows that no newer leader had changed that yet.
    ///
    /// # Errors
    ///
    /// [`EtcdError::Deposed`]; [`EtcdError::Unreached`]; `Refused`.
    ///
    /// ```no_run
    /// # use argus_guardian_etcd::{Campaign, EtcdError, EtcdOptions};
    /// # let options = EtcdOptions::at(["http://127.0.0.1:2379"]);
    /// # let leadership = Campaign::begin(&options, "host-1")?.wait()?;
    /// leadership.confirm()?;
    /// # Ok::<(), EtcdError>(())
    /// ```
    pub fn confirm(&self) -> Result<(), EtcdError> {
        let mut client = self.0.client.lock().unwrap_or_else(PoisonError::into_inner);
        // A node answers a transaction without any read out of its own store, though it may be cut off. With one it
        // asks a majority first.
        let asked = self.fenced(Transaction::default()).else_read(&self.0.key);
        let answer: TransactionAnswer = client.ask("kv/txn", &asked.question())?;
        if answer.succeeded {
            Ok(())
        } else {
            Err(EtcdError::Deposed)
        }
    }

    /// Gives it up: the lease is revoked, and another host may lead at once. Later appends fail. Returns once etcd
    /// has answered, or after twice the [`timeout`](crate::EtcdOptions::timeout).
    ///
    /// ```no_run
    /// # use argus_guardian_etcd::{Campaign, EtcdError, EtcdOptions};
    /// # let options = EtcdOptions::at(["http://127.0.0.1:2379"]);
    /// # let leadership = Campaign::begin(&options, "host-1")?.wait()?;
    /// leadership.resign();
    /// assert!(leadership.is_over());
    /// # Ok::<(), EtcdError>(())
    /// ```
    pub fn resign(&self) {
        self.0.lease.end();
        self.0.lease.wait_revoked(2 * self.0.timeout);
    }

    /// The transaction, with the condition that this host leads.
    pub(crate) fn fenced(&self, transaction: Transaction) -> Transaction {
        transaction.if_made_at(&self.0.key, self.0.epoch)
    }
}
