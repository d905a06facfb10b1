//! A bank on three hosts over three nodes of etcd, while leaders are killed, paused, cut off and unplugged, and nodes
//! die and hang. After each: all journals are the same, no acknowledged order is missing or doubled, none is there in
//! part. The same where each host has a clock of another rate.
//!
//! `ARGUS_ETCD_ROUNDS` says how often all of it comes; once if nothing is said.

use crate::clock::Clock;
use crate::cluster::has_etcd;
use crate::host::Report;
use crate::hosts::{Hosts, until};
use crate::proxy::Way;
use crate::replica::LEASE;
use crate::scratch::Scratch;
use std::env;
use std::thread;
use std::time::{Duration, Instant};

#[test]
fn no_fault_loses_or_doubles_an_acknowledged_order() {
    if has_etcd("three hosts and three nodes") {
        go_through(Hosts::start("hosts", Default::default()), "");
    }
}

#[test]
fn nor_does_one_under_clocks_of_other_rates() {
    let test = "clocks of other rates";
    if !has_etcd(test) {
        return;
    }
    let scratch = Scratch::new("rates");
    if let Some(clock) = Clock::build(scratch.path(), test) {
        let each = ["3/1", "1/2", "1/1"].map(|rate| clock.words(rate).into());
        go_through(Hosts::start("clocks", each), ", clocks of other rates");
    }
}

// All faults in turn, so often.
fn go_through(mut hosts: Hosts, under: &'static str) {
    let rounds = env::var("ARGUS_ETCD_ROUNDS").map_or(1, |it| it.parse().expect("a number"));
    hosts.leader();
    for round in 0..rounds {
        kill_leader(&mut hosts, under);
        pause_leader(&mut hosts, under);
        cut_off_leader(&mut hosts, under);
        unplug_leader(&mut hosts, under);
        kill_node(&mut hosts, round % 3, under);
        hang_two_nodes(&mut hosts, round % 3, under);
    }
}

// A machine that is busy may take longer than what is aimed at: twice the lease.
fn tell_failover(what: &str, took: Duration, hosts: &mut Hosts) {
    let words = hosts.compare();
    println!("{what}: the next order after {took:.2?} (lease {LEASE:?}); {words}");
}

// The leader, in the midst of orders.
fn busy_leader(hosts: &Hosts) -> (usize, u64) {
    hosts.orders_after(Instant::now(), 20);
    hosts.leader()
}

fn kill_leader(hosts: &mut Hosts, under: &str) {
    let (at, epoch) = busy_leader(hosts);
    let since = Instant::now();
    hosts.each[at].kill();
    let took = hosts.failover(epoch, since);
    hosts.each[at].start_again();
    tell_failover(&format!("a leader killed{under}"), took, hosts);
}

// The leader of this epoch is refused. Until then it may say of each client's order that was under way that it is
// acknowledged, if etcd had it before another host led: `compare` finds out whether it did. More it can't say, from
// `late` on.
fn refused(hosts: &Hosts, at: usize, epoch: u64, since: Instant, late: Instant) -> Duration {
    let refused = until("the leader to be refused", || hosts.deposed(at, epoch));
    let late = hosts.each[at].said_since(late);
    let mut clients: Vec<u32> = late
        .iter()
        .filter_map(|(_, said)| match said {
            Report::Acknowledged {
                epoch: it, client, ..
            } if *it == epoch => Some(*client),
            _ => None,
        })
        .collect();
    clients.sort_unstable();
    let each_once = clients.windows(2).all(|two| two[0] < two[1]);
    assert!(each_once, "it went on to acknowledge orders: {late:?}");
    refused.saturating_duration_since(since)
}

fn pause_leader(hosts: &mut Hosts, under: &str) {
    let (at, epoch) = busy_leader(hosts);
    let since = Instant::now();
    hosts.each[at].signal("STOP");
    let took = hosts.failover(epoch, since);
    thread::sleep(Duration::from_millis(500));
    let again = Instant::now();
    hosts.each[at].signal("CONT");
    let refused = refused(hosts, at, epoch, again, again);
    tell_failover(
        &format!("a leader paused past its lease{under}"),
        took,
        hosts,
    );
    println!("  it was refused {refused:.2?} after it went on");
}

fn cut_off_leader(hosts: &mut Hosts, under: &str) {
    let (at, epoch) = busy_leader(hosts);
    let since = Instant::now();
    hosts.each[at].set_ways(Way::Cut);
    let took = hosts.failover(epoch, since);
    // What it had said before the cut may be heard in the first moments.
    let late = since + Duration::from_secs(1);
    let refused = refused(hosts, at, epoch, since, late);
    hosts.each[at].set_ways(Way::Open);
    tell_failover(&format!("a leader cut off{under}"), took, hosts);
    println!("  it knew after {refused:.2?}");
}

// What the leader sends and what is sent to it is lost, as if its cable were pulled.
fn unplug_leader(hosts: &mut Hosts, under: &str) {
    let (at, epoch) = busy_leader(hosts);
    let Some(network) = hosts.each[at].network() else {
        println!("a leader unplugged LEFT OUT: no networks for processes");
        return;
    };
    let since = Instant::now();
    network.unplug();
    let took = hosts.failover(epoch, since);
    let late = since + Duration::from_secs(1);
    let refused = refused(hosts, at, epoch, since, late);
    network.plug();
    tell_failover(&format!("a leader unplugged{under}"), took, hosts);
    println!("  it knew after {refused:.2?}");
}

fn kill_node(hosts: &mut Hosts, node: usize, under: &str) {
    busy_leader(hosts);
    let since = Instant::now();
    hosts.cluster.nodes[node].kill();
    thread::sleep(Duration::from_secs(2));
    hosts.orders_after(Instant::now(), 20);
    let gap = hosts.longest_gap(since);
    let words = hosts.compare();
    hosts.cluster.nodes[node].start_again();
    println!("one node of three killed{under}: longest time without an order {gap:.2?}; {words}");
}

fn hang_two_nodes(hosts: &mut Hosts, first: usize, under: &str) {
    let hung = [first, (first + 1) % 3];
    busy_leader(hosts);
    let since = Instant::now();
    for node in hung {
        hosts.cluster.nodes[node].hang();
    }
    thread::sleep(LEASE + Duration::from_secs(1));
    // What was on its way may have come in the first moments; then nothing can.
    let late = hosts.said_since(since + Duration::from_secs(2)).into_iter();
    let late = late.filter(|(_, said)| matches!(said, Report::Acknowledged { .. }));
    assert_eq!(late.count(), 0, "one node of three has acknowledged orders");
    let again = Instant::now();
    for node in hung {
        hosts.cluster.nodes[node].go_on();
    }
    hosts.orders_after(again, 20);
    let gap = hosts.longest_gap(again);
    let words = hosts.compare();
    println!("two nodes of three hung, and went on{under}: orders again within {gap:.2?}; {words}");
}
