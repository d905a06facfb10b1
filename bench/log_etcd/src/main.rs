//! What a log in etcd costs: orders of a bank a second, and what it takes to read a log and to lead with it.
//!
//!     log-etcd-bench orders ENDPOINTS PREFIX CLIENTS SECONDS
//!     log-etcd-bench copy ENDPOINTS PREFIX FOLDER
//!     log-etcd-bench read ENDPOINTS PREFIX
//!
//! `bench/log.sh` runs it. The endpoints have commas between them. A prefix is one under which there is no log yet;
//! that of `read` is one to which `copy` has copied a log in a database.

#[allow(dead_code, reason = "a log in a database needs more of it")]
#[path = "../../log/src/bank.rs"]
mod bank;
mod copying;
#[path = "../../log/src/figures.rs"]
mod figures;
#[path = "../../log/src/orders.rs"]
mod orders;
#[allow(dead_code, reason = "a log in a database needs more of it")]
#[path = "../../log/src/reading.rs"]
mod reading;

use crate::bank::{PATIENCE, Way, run_logged, set_up};
use argus_guardian_etcd::{Campaign, EtcdOptions, Follower};
use std::env;
use std::error::Error;
use std::time::Duration;

const USAGE: &str = "log-etcd-bench orders ENDPOINTS PREFIX CLIENTS SECONDS, \
    copy ENDPOINTS PREFIX FOLDER, read ENDPOINTS PREFIX";

fn options(endpoints: &str, prefix: &str) -> EtcdOptions {
    EtcdOptions {
        prefix: prefix.to_owned(),
        lease: Duration::from_secs(20),
        timeout: Duration::from_secs(10),
        ..EtcdOptions::at(endpoints.split(','))
    }
}

// Commits that come at the same time share a request to etcd.
fn run_orders(options: &EtcdOptions, clients: u32, time: Duration) -> Result<(), Box<dyn Error>> {
    let leadership = Campaign::begin(options, "bench")?.wait()?;
    let (logged, _) = Follower::begin(options)?.lead(leadership.clone(), PATIENCE)?;
    set_up(&logged)?;
    run_logged(&logged, Way::Group, clients, time)?.print("etcd");
    leadership.resign();
    Ok(())
}

fn main() -> Result<(), Box<dyn Error>> {
    let words: Vec<String> = env::args().skip(1).collect();
    let words: Vec<&str> = words.iter().map(String::as_str).collect();
    match words[..] {
        ["orders", endpoints, prefix, clients, seconds] => {
            let time = Duration::from_secs_f64(seconds.parse()?);
            run_orders(&options(endpoints, prefix), clients.parse()?, time)
        }
        ["copy", endpoints, prefix, folder] => copying::copy(&options(endpoints, prefix), folder),
        ["read", endpoints, prefix] => copying::read(&options(endpoints, prefix)),
        _ => Err(USAGE.into()),
    }
}
