//! `Lease`: a lease of etcd, kept alive by a thread.

use crate::answers::{KeepAlive, LeaseGrant, NoContent};
use crate::client::Client;
use crate::etcd_error::EtcdError;
use crate::etcd_options::EtcdOptions;
use serde_json::json;
use std::sync::{Arc, Condvar, Mutex, MutexGuard, PoisonError};
use std::thread;
use std::time::{Duration, Instant};

/// A lease of etcd, kept alive by a thread until it is dropped; then it is revoked.
///
/// Its end is reckoned by the monotonic clock from the moment at which etcd was asked. So it ends here before it
/// ends in etcd.
#[derive(Debug)]
pub(crate) struct Lease {
    id: i64,
    shared: Arc<StateCell>,
}

#[derive(Debug)]
struct StateCell {
    state: Mutex<State>,
    changed: Condvar,
}

#[derive(Debug, Clone, Copy)]
struct State {
    // Until when it lasts, if etcd isn't heard from again.
    until: Instant,
    // etcd has said that it is over, or this host has given it up.
    is_over: bool,
    // etcd has been asked to revoke it.
    is_revoked: bool,
}

impl StateCell {
    fn locked(&self) -> MutexGuard<'_, State> {
        self.state.lock().unwrap_or_else(PoisonError::into_inner)
    }

    fn end(&self) {
        self.locked().is_over = true;
        self.changed.notify_all();
    }
}

impl Lease {
    /// Gets one, and begins to keep it alive.
    pub(crate) fn grant(client: &mut Client) -> Result<Lease, EtcdError> {
        let options = Arc::clone(client.options());
        let seconds = whole_seconds(&options)?;
        let until = Instant::now() + options.lease;
        let granted: LeaseGrant =
            client.ask("lease/grant", &json!({ "TTL": seconds.to_string() }))?;
        let state = State {
            until,
            is_over: false,
            is_revoked: false,
        };
        let shared = Arc::new(StateCell {
            state: Mutex::new(state),
            changed: Condvar::new(),
        });
        let lease = Lease {
            id: granted.id,
            shared: Arc::clone(&shared),
        };
        let keeper = Keeper {
            id: granted.id,
            client: Client::new(&options)?,
            shared,
        };
        let spawned = thread::Builder::new()
            .name("argus-lease".to_owned())
            .spawn(|| keeper.run());
        spawned.map_err(|error| EtcdError::Option(format!("no thread for the lease: {error}")))?;
        Ok(lease)
    }

    pub(crate) fn id(&self) -> i64 {
        self.id
    }

    /// How long it lasts, if etcd isn't heard from again: zero once it is over.
    pub(crate) fn remaining(&self) -> Duration {
        let state = *self.shared.locked();
        if state.is_over {
            return Duration::ZERO;
        }
        state.until.saturating_duration_since(Instant::now())
    }

    /// Ends it: the thread revokes it.
    pub(crate) fn end(&self) {
        self.shared.end();
    }

    /// Waits until etcd was asked to revoke it, but not longer than this.
    pub(crate) fn wait_revoked(&self, longest: Duration) {
        let state = self.shared.locked();
        let changed = &self.shared.changed;
        let waited = changed.wait_timeout_while(state, longest, |state| !state.is_revoked);
        drop(waited);
    }
}

impl Drop for Lease {
    fn drop(&mut self) {
        self.end();
    }
}

fn whole_seconds(options: &EtcdOptions) -> Result<u64, EtcdError> {
    let seconds = options.lease.as_secs();
    if seconds == 0 || options.lease.subsec_nanos() != 0 {
        let words = "the lease isn't of whole seconds, one at the least";
        return Err(EtcdError::Option(words.to_owned()));
    }
    if options.timeout >= options.lease {
        let words = "the time for a node isn't below the lease";
        return Err(EtcdError::Option(words.to_owned()));
    }
    Ok(seconds)
}

// The thread that keeps a lease alive.
struct Keeper {
    id: i64,
    client: Client,
    shared: Arc<StateCell>,
}

impl Keeper {
    fn run(mut self) {
        let pause = self.client.options().lease / 4;
        while self.wait(pause) {
            self.keep();
        }
        // So another host may lead at once. If no node answers, the lease ends by itself.
        let question = json!({ "ID": self.id.to_string() });
        let timeout = self.client.options().timeout;
        let _: Result<NoContent, EtcdError> =
            self.client
                .ask_within("lease/revoke", &question, timeout, timeout);
        self.shared.locked().is_revoked = true;
        self.shared.changed.notify_all();
    }

    // Waits until the next keep-alive is due. False: it is over.
    fn wait(&self, pause: Duration) -> bool {
        let state = self.shared.locked();
        let waited = self
            .shared
            .changed
            .wait_timeout_while(state, pause, |state| !state.is_over);
        let (state, _) = waited.unwrap_or_else(PoisonError::into_inner);
        !state.is_over && Instant::now() < state.until
    }

    // Keeps it alive once. A node that hangs costs at most a fifth of the lease, then the next one is asked.
    fn keep(&mut self) {
        let options = Arc::clone(self.client.options());
        let asked = Instant::now();
        let timeout = options.timeout.min(options.lease / 5);
        let left = self.shared.locked().until.saturating_duration_since(asked);
        let question = json!({ "ID": self.id.to_string() });
        let answer = self
            .client
            .ask_within("lease/keepalive", &question, timeout, left);
        match answer {
            Ok(KeepAlive { result }) if result.seconds > 0 => {
                self.shared.locked().until = asked + options.lease;
            }
            // No node answered, and its time runs on.
            Err(EtcdError::Unreached(_)) => {}
            Ok(_) | Err(_) => self.shared.end(),
        }
    }
}
