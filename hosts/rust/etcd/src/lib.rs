//! A guardian's log in etcd, so that the guardian outlives its machine.
//!
//! Several hosts run the same program. One of them leads: it has the guardian, and each entry of the journal goes to
//! etcd before a commit returns. The others follow, and serve reads. When the leader dies, hangs or is cut off, the
//! lease that it holds in etcd ends, and another host leads.
//!
//! ```no_run
//! use argus_guardian_etcd::{Campaign, EtcdOptions, Follower};
//! use std::time::Duration;
//!
//! let options = EtcdOptions {
//!     prefix: "bank".into(),
//!     ..EtcdOptions::at(["http://10.0.0.1:2379", "http://10.0.0.2:2379", "http://10.0.0.3:2379"])
//! };
//! let mut follower = Follower::begin(&options)?;
//! let mut campaign = Campaign::begin(&options, "host-1")?;
//! let leadership = loop {
//!     follower.follow(Duration::from_millis(100))?; // each call of the log is made again, and checked
//!     if let Some(leadership) = campaign.poll()? {
//!         break leadership;
//!     }
//! };
//! let (bank, _) = follower.lead(leadership, argus_guardian::Shared::PATIENCE)?;
//! let account = bank.declare("atomic_record[balance:int]")?; // Ok: a majority of etcd's nodes has it
//! # Ok::<(), Box<dyn std::error::Error>>(())
//! ```
//!
//! `bank` is a [`Logged`](argus_guardian::log::Logged), the same as over a database. An error
//! [`InDoubt`](argus_guardian::log::LoggedError::InDoubt) or [`Broken`](argus_guardian::log::LoggedError::Broken)
//! ends this leadership: drop the guardian, and begin again with a new follower and a new campaign.
//!
//! # Keys
//!
//! ```text
//! argus/head                            format=2 name=0f.. begins=12 next=17 entry=1240 epoch=981 sum=421330142
//! argus/batches/00000000000000000016    batch epoch=981 first=1200 sum=421330142
//!                                       1200 begin_top -> a310
//!                                       ..
//! argus/leader/7587849a0f2c3d01         host-1
//! ```
//!
//! A batch is a line of its own, and then whole lines of the journal. Its sum is that of a log in a database
//! ([`log_sum`](argus_guardian::log::log_sum)): of the log's name, its place, the sum before it, and its lines. `head`
//! says which
//! batches count. An append is one transaction, which puts a batch and moves `head`, on condition that the leader's
//! key still exists and that `head` is as this leader left it. A new leader begins with one that puts its epoch into
//! `head`. After a checkpoint the log begins with batches `opening`, and those before it are deleted.
//!
//! **Nothing here is proved.** What is promised by whom, what is tried, and what to do when something fails: see the
//! repository's page docs/ETCD.md.

mod answers;
mod batch;
mod campaign;
mod client;
mod etcd_error;
mod etcd_log;
mod etcd_options;
mod follower;
mod keys;
mod leadership;
mod lease;
mod log_error;
mod log_head;
mod log_reader;
mod maintenance;
mod pages;
mod parts;
mod position;
mod replica;
mod request;
mod transaction;
mod watch;

pub use batch::Batch;
pub use campaign::Campaign;
pub use etcd_error::EtcdError;
pub use etcd_log::EtcdLog;
pub use etcd_options::{EtcdOptions, Login, Tls};
pub use follower::Follower;
pub use leadership::{Leadership, Takeover};
pub use log_error::LogError;
pub use maintenance::{Maintenance, NodeStatus};
pub use position::Position;
