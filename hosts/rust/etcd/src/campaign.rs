//! `Campaign`: a host's candidacy for leadership.

use crate::answers::{RangeAnswer, TransactionAnswer};
use crate::client::Client;
use crate::etcd_error::EtcdError;
use crate::etcd_options::EtcdOptions;
use crate::keys::Keys;
use crate::leadership::Leadership;
use crate::lease::Lease;
use crate::transaction::Transaction;
use std::sync::Arc;
use std::thread;
use std::time::Duration;

// How often etcd is asked who leads.
const PAUSE: Duration = Duration::from_millis(50);

/// A host's candidacy for leadership: a lease, and a key that etcd deletes when the lease ends. Of the candidates'
/// keys the oldest one leads.
///
/// While it waits, the host can follow the log with a [`Follower`](crate::Follower), so that little is left to read
/// once it is elected.
///
/// ```no_run
/// use argus_guardian_etcd::{Campaign, EtcdError, EtcdOptions};
/// let options = EtcdOptions::at(["http://127.0.0.1:2379"]);
/// let leadership = Campaign::begin(&options, "host-1")?.wait()?;
/// assert!(!leadership.is_over());
/// # Ok::<(), EtcdError>(())
/// ```
#[derive(Debug)]
pub struct Campaign {
    client: Client,
    keys: Keys,
    leadership: Leadership,
}

impl Campaign {
    /// Gets a lease, keeps it alive from then on, and puts the key. The name is for people: `etcdctl get --prefix
    /// argus/leader/` shows it.
    ///
    /// # Errors
    ///
    /// [`EtcdError`], but for `Deposed` and `Foreign`.
    ///
    /// ```
    /// use argus_guardian_etcd::{Campaign, EtcdError, EtcdOptions};
    /// use std::time::Duration;
    /// let options = EtcdOptions { lease: Duration::ZERO, ..EtcdOptions::at(["http://127.0.0.1:1"]) };
    /// assert!(matches!(Campaign::begin(&options, "host-1"), Err(EtcdError::Option(_))));
    /// ```
    pub fn begin(options: &EtcdOptions, name: &str) -> Result<Campaign, EtcdError> {
        let options = Arc::new(options.clone());
        let mut client = Client::new(&options)?;
        let keys = Keys::under(&options.prefix);
        let lease = Lease::grant(&mut client)?;
        let key = keys.leader(lease.id());
        let enter = Transaction::default()
            .if_holds(&key, None)
            .put_leased(&key, name, lease.id())
            .else_read(&key);
        let entered: TransactionAnswer = client.ask("kv/txn", &enter.question())?;
        let epoch = made_at(entered).ok_or(EtcdError::Deposed)?;
        let leadership = Leadership::new(lease, key, epoch, &options)?;
        Ok(Campaign {
            client,
            keys,
            leadership,
        })
    }

    /// Asks etcd once whether this host leads. `None`: another host does.
    ///
    /// # Errors
    ///
    /// [`EtcdError::Deposed`]: the lease has ended, and a new campaign is needed; [`EtcdError::Unreached`], after
    /// which it may be polled again; `Refused`.
    ///
    /// ```no_run
    /// # use argus_guardian_etcd::{Campaign, EtcdError, EtcdOptions};
    /// # let options = EtcdOptions::at(["http://127.0.0.1:2379"]);
    /// let mut campaign = Campaign::begin(&options, "host-1")?;
    /// while campaign.poll()?.is_none() {
    ///     // follow the log
    /// }
    /// # Ok::<(), EtcdError>(())
    /// ```
    pub fn poll(&mut self) -> Result<Option<Leadership>, EtcdError> {
        let found: RangeAnswer = self.client.ask("kv/range", &self.keys.oldest_leader())?;
        let first = found.kvs.first().ok_or(EtcdError::Deposed)?;
        if first.key == self.leadership.key().as_bytes() {
            return Ok(Some(self.leadership.clone()));
        }
        if self.leadership.is_over() {
            return Err(EtcdError::Deposed);
        }
        Ok(None)
    }

    /// Waits until this host leads.
    ///
    /// # Errors
    ///
    /// As of [`poll`](Self::poll), but while no node answers it goes on until the lease ends.
    ///
    /// ```no_run
    /// # use argus_guardian_etcd::{Campaign, EtcdError, EtcdOptions};
    /// # let options = EtcdOptions::at(["http://127.0.0.1:2379"]);
    /// let leadership = Campaign::begin(&options, "host-1")?.wait()?;
    /// # Ok::<(), EtcdError>(())
    /// ```
    pub fn wait(mut self) -> Result<Leadership, EtcdError> {
        loop {
            match self.poll() {
                Ok(Some(leadership)) => return Ok(leadership),
                Err(EtcdError::Unreached(_)) if !self.leadership.is_over() => {}
                Ok(None) => {}
                Err(error) => return Err(error),
            }
            thread::sleep(PAUSE);
        }
    }
}

// At which revision the key was made: by this transaction, or by an earlier try whose answer was lost.
fn made_at(entered: TransactionAnswer) -> Option<u64> {
    let revision = if entered.succeeded {
        entered.header.revision
    } else {
        let read = entered.responses.into_iter().next()?.response_range?;
        read.kvs.first()?.create_revision
    };
    u64::try_from(revision).ok()
}
