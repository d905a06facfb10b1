//! A log in etcd, whatever becomes of its hosts and of etcd's nodes. Where etcd isn't installed, each test says
//! that it is left out.

mod appends;
#[allow(dead_code, reason = "the tests of files need more of it")]
#[path = "../../../tests/log/bank.rs"]
mod bank;
mod certificates;
mod checkpoints;
#[path = "../../../tests/log/clock.rs"]
mod clock;
mod clocks;
mod cluster;
mod doubts;
mod faults;
mod followers;
mod host;
mod hosts;
mod leading;
#[path = "../../../tests/log/ledger.rs"]
mod ledger;
mod majorities;
mod network;
mod node;
#[path = "../../../tests/log/orders.rs"]
mod orders;
mod proxy;
mod quotas;
mod replica;
mod scratch;
mod secured;
