//! `Watch`: a thread that watches a log's head.

use crate::answers::{Events, RangeAnswer, WatchMessage};
use crate::client::Client;
use crate::etcd_error::EtcdError;
use crate::etcd_options::EtcdOptions;
use crate::keys::Keys;
use crate::log_head::LogHead;
use crate::pages::head_in;
use crate::request::Request;
use curl::easy::{Handler, WriteError};
use serde_json::json;
use std::sync::atomic::{AtomicBool, Ordering};
use std::sync::{Arc, Condvar, Mutex, MutexGuard, PoisonError};
use std::thread;
use std::time::Duration;

// A node that hangs is silent, and so is a log to which nothing is appended. So after this time the head is read
// again, from any node that answers, and watched there.
const LONGEST: Duration = Duration::from_secs(5);

// After a node that couldn't be watched.
const PAUSE: Duration = Duration::from_millis(50);

/// A thread that watches a log's head. It ends within a second or so after this is dropped.
#[derive(Debug)]
pub(crate) struct Watch(Arc<WatchState>);

#[derive(Debug)]
struct WatchState {
    head: Mutex<Option<SeenHead>>,
    moved: Condvar,
    ends: AtomicBool,
}

// A head, and a revision at which it was so.
#[derive(Debug, Clone, Copy)]
struct SeenHead {
    revision: i64,
    head: LogHead,
}

impl WatchState {
    fn locked(&self) -> MutexGuard<'_, Option<SeenHead>> {
        self.head.lock().unwrap_or_else(PoisonError::into_inner)
    }

    fn see(&self, revision: i64, head: LogHead) {
        *self.locked() = Some(SeenHead { revision, head });
        self.moved.notify_all();
    }

    fn ends(&self) -> bool {
        self.ends.load(Ordering::Relaxed)
    }
}

impl Watch {
    pub(crate) fn begin(options: &Arc<EtcdOptions>) -> Result<Watch, EtcdError> {
        let state = Arc::new(WatchState {
            head: Mutex::new(None),
            moved: Condvar::new(),
            ends: AtomicBool::new(false),
        });
        let handler = Messages {
            state: Arc::clone(&state),
            rest: Vec::new(),
        };
        let request = Request::new(handler, options);
        let watcher = Watcher {
            client: Client::new(options)?,
            key: Keys::under(&options.prefix).head(),
            state: Arc::clone(&state),
            request: request.map_err(|error| EtcdError::Option(error.to_string()))?,
        };
        let spawned = thread::Builder::new()
            .name("argus-watch".to_owned())
            .spawn(|| watcher.run());
        spawned.map_err(|error| EtcdError::Option(format!("no thread for a watch: {error}")))?;
        Ok(Watch(state))
    }

    /// Waits, but not longer than this, until the head has changed since it was read at that revision. Whether it
    /// has.
    pub(crate) fn wait(&self, read: Option<LogHead>, revision: i64, longest: Duration) -> bool {
        let is_new = |seen: &SeenHead| seen.revision > revision && Some(seen.head) != read;
        let waited = self
            .0
            .moved
            .wait_timeout_while(self.0.locked(), longest, |seen| {
                !seen.as_ref().is_some_and(is_new)
            });
        let (seen, _) = waited.unwrap_or_else(PoisonError::into_inner);
        seen.as_ref().is_some_and(is_new)
    }
}

impl Drop for Watch {
    fn drop(&mut self) {
        self.0.ends.store(true, Ordering::Relaxed);
    }
}

struct Watcher {
    client: Client,
    key: String,
    state: Arc<WatchState>,
    request: Request<Messages>,
}

impl Watcher {
    fn run(mut self) {
        while !self.state.ends() {
            let watched = self.read().and_then(|revision| self.watch(revision + 1));
            if watched.is_err() {
                self.client.turn();
                thread::sleep(PAUSE);
            }
        }
    }

    // Reads the head. The revision at which it was so.
    fn read(&mut self) -> Result<i64, EtcdError> {
        let question = json!({ "key": base64::encode(&self.key) });
        let answer: RangeAnswer = self.client.ask("kv/range", &question)?;
        let revision = answer.header.revision;
        if let Some(head) = head_in(answer.kvs)? {
            self.state.see(revision, head);
        }
        Ok(revision)
    }

    // Watches the head from a revision on, until nothing more comes or the time is over.
    fn watch(&mut self, from: i64) -> Result<(), EtcdError> {
        let (node, token) = self.client.node()?;
        let question = json!({ "create_request": {
            "key": base64::encode(&self.key), "start_revision": from.to_string(),
        }});
        self.request.handler().rest.clear();
        let url = format!("{node}/v3/watch");
        let body = question.to_string();
        let posted = self
            .request
            .post(&url, token.as_deref(), body.as_bytes(), LONGEST);
        match posted {
            Ok(200) => Ok(()),
            Ok(status) => Err(EtcdError::Malformed(format!("{url}: status {status}"))),
            Err(error) if error.is_operation_timedout() => Ok(()),
            Err(error) => Err(EtcdError::Unreached(error.to_string())),
        }
    }
}

// The messages of a watch: each is a line of JSON.
struct Messages {
    state: Arc<WatchState>,
    // The beginning of the next line.
    rest: Vec<u8>,
}

impl Messages {
    // False: the watch is over.
    fn take(&self, line: &[u8]) -> bool {
        let message = serde_json::from_slice(line);
        let Ok(WatchMessage { result: Some(it) }) = message else {
            return false;
        };
        let Events { canceled, list } = it;
        let values = list.into_iter().filter_map(|event| event.kv);
        let mut heads =
            values.filter_map(|found| Some((found.mod_revision, LogHead::of(&found.value)?)));
        if let Some((revision, head)) = heads.next_back() {
            self.state.see(revision, head);
        }
        !canceled
    }
}

impl Handler for Messages {
    fn write(&mut self, data: &[u8]) -> Result<usize, WriteError> {
        self.rest.extend_from_slice(data);
        while let Some(end) = self.rest.iter().position(|byte| *byte == b'\n') {
            let line: Vec<u8> = self.rest.drain(..=end).collect();
            if self.state.ends() || !self.take(&line) {
                // Fewer bytes than came: the request ends.
                return Ok(0);
            }
        }
        Ok(data.len())
    }

    fn progress(&mut self, _: f64, _: f64, _: f64, _: f64) -> bool {
        !self.state.ends()
    }
}
