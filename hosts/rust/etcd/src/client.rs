//! `Client`: asks etcd's nodes, one after another, until one answers.

use crate::answers::{Refusal, UserToken};
use crate::etcd_error::EtcdError;
use crate::etcd_options::EtcdOptions;
use crate::request::{Body, Request};
use serde::de::DeserializeOwned;
use serde_json::{Value, json};
use std::fmt;
use std::sync::Arc;
use std::thread;
use std::time::{Duration, Instant};

// Between two tries, so that nodes which refuse at once aren't asked without a pause.
const PAUSE: Duration = Duration::from_millis(20);

// gRPC's codes, by which etcd says what went wrong.
const CANCELLED: u32 = 1;
const UNKNOWN: u32 = 2;
const INVALID: u32 = 3;
const DEADLINE: u32 = 4;
const EXHAUSTED: u32 = 8;
const ABORTED: u32 = 10;
const OUT_OF_RANGE: u32 = 11;
const INTERNAL: u32 = 13;
const UNAVAILABLE: u32 = 14;
const UNAUTHENTICATED: u32 = 16;

/// Asks etcd's nodes, one after another, until one answers. So a request may be carried out twice: callers send
/// only such requests as have the same effect then.
pub(crate) struct Client {
    options: Arc<EtcdOptions>,
    request: Request<Body>,
    // Which node is asked next.
    at: usize,
    token: Option<String>,
}

// What came of one try.
enum Attempt<A> {
    Answered(A),
    // It isn't known whether it was carried out: another node is asked.
    Unknown(String),
    // The token isn't valid any more: nothing was carried out.
    Unauthenticated(String),
    Failed(EtcdError),
}

impl Client {
    pub(crate) fn new(options: &Arc<EtcdOptions>) -> Result<Client, EtcdError> {
        if options.endpoints.is_empty() {
            return Err(EtcdError::Option("no endpoint is named".to_owned()));
        }
        let request = Request::new(Body::default(), options);
        Ok(Client {
            options: Arc::clone(options),
            request: request.map_err(|error| EtcdError::Option(error.to_string()))?,
            at: 0,
            token: None,
        })
    }

    pub(crate) fn options(&self) -> &Arc<EtcdOptions> {
        &self.options
    }

    /// The node that is asked next, and the token for it.
    pub(crate) fn node(&mut self) -> Result<(String, Option<String>), EtcdError> {
        self.log_in(self.options.patience)?;
        Ok((self.endpoint().to_owned(), self.token.clone()))
    }

    /// Asks another node from now on.
    pub(crate) fn turn(&mut self) {
        self.at = (self.at + 1) % self.options.endpoints.len();
    }

    fn endpoint(&self) -> &str {
        self.options.endpoints[self.at].trim_end_matches('/')
    }

    /// Asks with the patience, and the time for a node, that the options say.
    pub(crate) fn ask<A: DeserializeOwned>(
        &mut self,
        path: &str,
        question: &Value,
    ) -> Result<A, EtcdError> {
        let (timeout, patience) = (self.options.timeout, self.options.patience);
        self.ask_within(path, question, timeout, patience)
    }

    /// Asks nodes in turn until patience is over; each has this time for its answer.
    pub(crate) fn ask_within<A: DeserializeOwned>(
        &mut self,
        path: &str,
        question: &Value,
        timeout: Duration,
        patience: Duration,
    ) -> Result<A, EtcdError> {
        self.log_in(patience)?;
        let body = question.to_string();
        let mut is_renewed = false;
        self.ask_in_turn(patience, |client| {
            let attempt = client.try_once(path, &body, timeout);
            if is_renewed || !matches!(attempt, Attempt::Unauthenticated(_)) {
                return attempt;
            }
            // A token is forgotten after some minutes, and at each change of users.
            is_renewed = true;
            client.token = None;
            match client.log_in(patience) {
                Ok(()) => client.try_once(path, &body, timeout),
                Err(error) => Attempt::Failed(error),
            }
        })
    }

    /// Asks a single node, by its place among the endpoints.
    pub(crate) fn ask_node<A: DeserializeOwned>(
        &mut self,
        node: usize,
        path: &str,
        question: &Value,
        timeout: Duration,
    ) -> Result<A, EtcdError> {
        self.log_in(self.options.patience)?;
        self.at = node % self.options.endpoints.len();
        match self.try_once(path, &question.to_string(), timeout) {
            Attempt::Answered(answer) => Ok(answer),
            Attempt::Failed(error) => Err(error),
            Attempt::Unauthenticated(why) | Attempt::Unknown(why) => Err(EtcdError::Unreached(why)),
        }
    }

    // Gets a token, if a user is named and there is none yet.
    fn log_in(&mut self, patience: Duration) -> Result<(), EtcdError> {
        let options = Arc::clone(&self.options);
        let (Some(login), None) = (&options.login, &self.token) else {
            return Ok(());
        };
        let body = json!({ "name": login.user, "password": login.password }).to_string();
        let answer: UserToken = self.ask_in_turn(patience, |client| {
            client.try_once("auth/authenticate", &body, options.timeout)
        })?;
        self.token = Some(answer.token);
        Ok(())
    }

    fn ask_in_turn<A>(
        &mut self,
        patience: Duration,
        mut ask: impl FnMut(&mut Client) -> Attempt<A>,
    ) -> Result<A, EtcdError> {
        let limit = Instant::now() + patience;
        loop {
            let why = match ask(self) {
                Attempt::Answered(answer) => return Ok(answer),
                Attempt::Failed(error) => return Err(error),
                Attempt::Unauthenticated(why) | Attempt::Unknown(why) => why,
            };
            self.turn();
            if Instant::now() + PAUSE >= limit {
                return Err(EtcdError::Unreached(why));
            }
            thread::sleep(PAUSE);
        }
    }

    // Asks one node.
    fn try_once<A: DeserializeOwned>(
        &mut self,
        path: &str,
        body: &str,
        timeout: Duration,
    ) -> Attempt<A> {
        let url = format!("{}/v3/{path}", self.endpoint());
        let body = body.as_bytes();
        self.request.handler().clear();
        let posted = self
            .request
            .post(&url, self.token.as_deref(), body, timeout);
        let answer = self.request.handler().bytes();
        match posted {
            Err(error) => Attempt::Unknown(format!("{url}: {error}")),
            Ok(200) => match serde_json::from_slice(answer) {
                Ok(answer) => Attempt::Answered(answer),
                Err(error) => Attempt::Unknown(format!("{url}: {error}")),
            },
            Ok(status) => refused(&url, status, answer),
        }
    }
}

impl fmt::Debug for Client {
    // Without the token.
    fn fmt(&self, f: &mut fmt::Formatter<'_>) -> fmt::Result {
        f.debug_struct("Client")
            .field("node", &self.endpoint())
            .finish_non_exhaustive()
    }
}

// The meaning of an answer whose status isn't 200.
fn refused<A>(url: &str, status: u32, answer: &[u8]) -> Attempt<A> {
    let Ok(Refusal {
        code,
        message,
        error,
    }) = serde_json::from_slice(answer)
    else {
        return Attempt::Unknown(format!("{url}: status {status}"));
    };
    let message = if message.is_empty() {
        error.as_str().unwrap_or_default().to_owned()
    } else {
        message
    };
    match code {
        EXHAUSTED if message.contains("space exceeded") => Attempt::Failed(EtcdError::NoSpace),
        INVALID if message.contains("too large") => Attempt::Failed(EtcdError::TooLarge),
        // What the gateway says before it asks etcd.
        EXHAUSTED if message.contains("larger than max") => Attempt::Failed(EtcdError::TooLarge),
        OUT_OF_RANGE if message.contains("compacted") => Attempt::Failed(EtcdError::Compacted),
        UNAUTHENTICATED => Attempt::Unauthenticated(format!("{url}: {message}")),
        INVALID if message.contains("revision of auth store is old") => {
            Attempt::Unauthenticated(format!("{url}: {message}"))
        }
        CANCELLED | UNKNOWN | DEADLINE | EXHAUSTED | ABORTED | INTERNAL | UNAVAILABLE => {
            Attempt::Unknown(format!("{url}: {message}"))
        }
        _ => Attempt::Failed(EtcdError::Refused { code, message }),
    }
}
