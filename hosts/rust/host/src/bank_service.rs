//! `BankService`: a bank's routes.

use crate::arguments::ServeArguments;
use crate::bank::{Bank, is_half_used};
use crate::bank_error::BankError;
use crate::opening::OpenGuardian;
use crate::order::{Order, OrderOutcome};
use crate::reply::Reply;
use crate::request::Request;
use crate::server::Service;
use argus_guardian::log::LoggedError;
use argus_guardian_etcd::{EtcdError, Leadership};
use serde_json::json;
use std::sync::atomic::{AtomicU64, Ordering};
use std::time::Duration;

// So long a checkpoint waits until no order is under way.
const PATIENCE: Duration = Duration::from_secs(1);

const KEY: &str = "idempotency-key";
const LONGEST_KEY: usize = 128;

/// A bank's routes.
#[derive(Debug)]
pub(crate) struct BankService {
    bank: Bank,
    // Replies that said so.
    doubts: AtomicU64,
    epoch: u64,
    checkpoint: u64,
    // The next entry after the last checkpoint.
    folded: AtomicU64,
    // The right to append, where the log is in etcd.
    leadership: Option<Leadership>,
}

/// The number of an account in a path.
pub(crate) fn account_in(path: &str) -> Option<u32> {
    path.strip_prefix("/accounts/")?.parse().ok()
}

pub(crate) fn no_account() -> Reply {
    Reply::error(404, "no_account", "no such account")
}

fn deposed() -> Reply {
    let words = "this host doesn't lead any more; this request was not carried out, but one that was sent before \
                 under the same key may be";
    Reply::error(503, "deposed", words)
}

fn is_key(key: &str) -> bool {
    (1..=LONGEST_KEY).contains(&key.len()) && key.bytes().all(|it| it.is_ascii_graphic())
}

fn no_key() -> Reply {
    let words = "the header Idempotency-Key comes once, with 1 to 128 visible characters of ASCII";
    Reply::error(400, "no_key", words)
}

impl BankService {
    pub(crate) fn over(
        opened: OpenGuardian,
        asked: &ServeArguments,
    ) -> Result<BankService, LoggedError> {
        // Entries of earlier lives count, too: the log has had no checkpoint since.
        let folded = opened.logged.entries().saturating_sub(opened.in_log);
        Ok(BankService {
            bank: Bank::over(opened.logged, asked.keys as usize)?,
            doubts: AtomicU64::new(0),
            epoch: opened.epoch,
            checkpoint: asked.checkpoint,
            folded: AtomicU64::new(folded),
            leadership: opened.leadership,
        })
    }

    // Whether the lease has ended, though nothing has failed yet: another host may lead, and balances here may be old.
    fn is_deposed(&self) -> bool {
        let is_over = self.leadership.as_ref().is_some_and(Leadership::is_over);
        is_over && self.bank.logged.broken().is_none()
    }

    fn failed(&self, error: &BankError) -> Reply {
        if error.is_in_doubt() {
            self.doubts.fetch_add(1, Ordering::Relaxed);
        }
        error.reply()
    }

    fn open_account(&self, request: &Request) -> Reply {
        let key = request.head.header(KEY);
        if request.head.has(KEY) && !key.is_some_and(is_key) {
            return no_key();
        }
        match self.bank.open_account(key) {
            Ok(OrderOutcome { is_before, ends }) => {
                let account: u32 = ends.parse().unwrap_or(u32::MAX);
                Reply::json(201, &json!({ "account": account, "before": is_before }))
            }
            Err(error) => self.failed(&error),
        }
    }

    fn balance(&self, account: u32) -> Reply {
        match self.bank.balance(account) {
            Ok(Some(balance)) => {
                Reply::json(200, &json!({ "account": account, "balance": balance }))
            }
            Ok(None) => no_account(),
            Err(error) => self.failed(&error.into()),
        }
    }

    fn order(&self, request: &Request) -> Reply {
        let key = request.head.header(KEY).unwrap_or_default();
        if !is_key(key) {
            return no_key();
        }
        let order = match Order::read(&request.body) {
            Ok(order) => order,
            Err(words) => return Reply::error(400, "no_order", &words),
        };
        match self.bank.order(key, &order, request.deadline) {
            Ok(carried) => {
                let ends: Vec<&str> = carried.ends.split(' ').collect();
                Reply::json(
                    200,
                    &json!({ "before": carried.is_before, "transfers": ends }),
                )
            }
            Err(error) => self.failed(&error),
        }
    }

    fn metrics(&self) -> Reply {
        let logged = &self.bank.logged;
        let counts = logged.counts();
        Reply::text(format!(
            "argus_entries {}\nargus_log_batches_total {}\nargus_log_checkpoints_total {}\n\
             argus_log_bytes_total {}\nargus_log_seconds_total {:.6}\n\
             argus_doubts_total {}\nargus_epoch {}\nargus_live_actions {}\nargus_actions_left {}\n\
             argus_broken {}\n",
            logged.entries(),
            counts.batches,
            counts.checkpoints,
            counts.bytes,
            counts.time.as_secs_f64(),
            self.doubts.load(Ordering::Relaxed),
            self.epoch,
            logged.live_actions(),
            logged.actions_left(),
            u8::from(logged.broken().is_some()),
        ))
    }

    fn health(&self) -> Reply {
        match self.bank.logged.broken() {
            None => Reply::json(200, &json!({ "health": "serves", "epoch": self.epoch })),
            Some(failure) => BankError::Logged(LoggedError::Broken(failure)).reply(),
        }
    }

    // Whether there are as many entries as a checkpoint is to fold, or numbers for actions get few.
    fn is_due(&self) -> bool {
        let logged = &self.bank.logged;
        let folded = self.folded.load(Ordering::Relaxed);
        logged.entries().saturating_sub(folded) >= self.checkpoint || is_half_used(logged)
    }

    fn fold(&self) {
        if self.bank.logged.checkpoint_waiting(PATIENCE).is_ok() {
            self.folded
                .store(self.bank.logged.entries(), Ordering::Relaxed);
        }
    }
}

impl Service for BankService {
    fn answer(&self, request: &Request) -> Reply {
        let path = request.head.path.as_str();
        match (request.head.method.as_str(), path) {
            ("GET", "/metrics") => self.metrics(),
            _ if self.is_deposed() => deposed(),
            ("POST", "/accounts") => self.open_account(request),
            ("POST", "/orders") => self.order(request),
            ("GET", "/health") => self.health(),
            ("GET", _) => account_in(path).map_or_else(Reply::no_route, |it| self.balance(it)),
            _ => Reply::no_route(),
        }
    }

    fn tick(&self) -> bool {
        if let Some(failure) = self.bank.logged.broken() {
            eprintln!("argus-host: {failure}");
            return true;
        }
        if self.is_deposed() {
            eprintln!("argus-host: {}", EtcdError::Deposed);
            return true;
        }
        if self.is_due() {
            self.fold();
        }
        false
    }

    fn end(&self) {
        if self.bank.logged.broken().is_none() && !self.is_deposed() {
            self.fold();
        }
        if let Some(leadership) = &self.leadership {
            // So another host may lead at once.
            leadership.resign();
        }
    }
}
