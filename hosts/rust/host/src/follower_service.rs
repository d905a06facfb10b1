//! `FollowerService`: a follower's routes.

use crate::bank_follower::BankFollower;
use crate::bank_service::{account_in, no_account};
use crate::records::Records;
use crate::reply::Reply;
use crate::request::Request;
use crate::server::Service;
use argus_guardian_etcd::{EtcdOptions, Follower, LogError};
use serde_json::json;
use std::sync::{Mutex, MutexGuard, PoisonError};
use std::time::{Duration, Instant};

// Behind by so much, it isn't in good health.
const LONGEST_LAG: Duration = Duration::from_secs(10);

/// A follower's routes.
#[derive(Debug)]
pub(crate) struct FollowerService(Mutex<BankFollower>);

impl FollowerService {
    pub(crate) fn over(options: &EtcdOptions) -> Result<FollowerService, LogError> {
        // While it asks etcd, no read is served: so a node has little time for an answer, and an answer has few
        // batches.
        let options = EtcdOptions {
            timeout: Duration::from_millis(500),
            patience: Duration::from_secs(1),
            page: 4,
            ..options.clone()
        };
        let mut follower = Follower::begin(&options)?;
        follower.catch_up()?;
        Ok(FollowerService(Mutex::new(BankFollower {
            follower,
            records: Records::default(),
            taken: 0,
            current: Instant::now(),
            has_stopped: false,
        })))
    }

    fn locked(&self) -> MutexGuard<'_, BankFollower> {
        self.0.lock().unwrap_or_else(PoisonError::into_inner)
    }

    fn balance(&self, account: u32) -> Reply {
        match self.locked().balance(account) {
            Ok((Some(balance), at)) => Reply::json(
                200,
                &json!({ "account": account, "balance": balance, "entry": at.entry, "epoch": at.epoch,
                         "revision": at.revision }),
            ),
            Ok((None, _)) => no_account(),
            Err(error) => {
                eprintln!("argus-host: {error}");
                Reply::error(503, "not_read", "the follower can't read its log")
            }
        }
    }

    fn metrics(&self) -> Reply {
        let following = self.locked();
        let position = following.follower.position();
        Reply::text(format!(
            "argus_entries {}\nargus_log_batches_total {}\nargus_epoch {}\nargus_follower_lag_seconds {:.3}\n\
             argus_broken {}\n",
            position.entry,
            position.batch,
            position.epoch,
            following.current.elapsed().as_secs_f64(),
            u8::from(following.has_stopped),
        ))
    }

    fn health(&self) -> Reply {
        let following = self.locked();
        if following.has_stopped {
            let words = "the log is damaged, or there was no memory for it";
            Reply::error(503, "damaged", words)
        } else if following.current.elapsed() > LONGEST_LAG {
            Reply::error(503, "behind", "etcd doesn't answer")
        } else {
            Reply::json(200, &json!({ "health": "follows" }))
        }
    }
}

impl Service for FollowerService {
    fn answer(&self, request: &Request) -> Reply {
        let path = request.head.path.as_str();
        match (request.head.method.as_str(), path) {
            ("GET", "/metrics") => self.metrics(),
            ("GET", "/health") => self.health(),
            ("GET", _) => account_in(path).map_or_else(Reply::no_route, |it| self.balance(it)),
            _ => Reply::error(404, "follows", "a follower serves reads alone"),
        }
    }

    fn tick(&self) -> bool {
        let mut following = self.locked();
        if let Err(error) = following.follow() {
            eprintln!("argus-host: {error}");
            following.has_stopped =
                matches!(error, LogError::Damaged { .. } | LogError::Guardian(_));
        }
        following.has_stopped
    }

    fn end(&self) {}
}
