//! Hosts over etcd, of which one leads, and a follower.

use crate::client::{code, read};
use crate::node::Node;
use crate::scratch::Scratch;
use std::thread;
use std::time::{Duration, Instant};

#[test]
fn a_leader_and_a_follower() {
    let scratch = Scratch::new("etcd");
    let Some(node) = Node::start(&scratch) else {
        println!("hosts over etcd LEFT OUT: no etcd");
        return;
    };
    let leader = node.host(&["serve", "--name", "one"]);
    leader.client.open_accounts(1, 5);
    let follower = node.host(&["follow"]);
    assert_eq!(leader.client.order("k", &[(0, 1, 2)]).0, 200);
    let entries = leader.client.metric("argus_entries");
    while follower.client.metric("argus_entries") < entries {
        thread::sleep(Duration::from_millis(50));
    }
    let (status, body) = follower.client.ask("GET /accounts/1");
    assert_eq!((status, read(&body)["balance"].as_i64()), (200, Some(7)));
    assert!(
        read(&body)["entry"]
            .as_f64()
            .is_some_and(|it| it >= entries)
    );
    assert_eq!(follower.client.ask("POST /accounts").0, 404);
    assert_eq!(follower.client.ask("GET /health").0, 200);
    assert!(follower.client.metric("argus_follower_lag_seconds") < 10.0);
    leader.kill();
    // Another host leads once the lease has ended.
    let next = node.host(&["serve", "--name", "two"]);
    let (status, body) = next.client.order("k", &[(0, 1, 2)]);
    assert_eq!((status, read(&body)["before"].as_bool()), (200, Some(true)));
    assert_eq!(next.client.balance(1), 7);
    assert!(next.client.metric("argus_epoch") > follower.client.metric("argus_epoch") - 0.5);
    assert!(next.stop().success());
    assert!(follower.stop().success());
}

#[test]
fn a_log_in_etcd_that_breaks() {
    let scratch = Scratch::new("etcd-breaks");
    let Some(node) = Node::start(&scratch) else {
        println!("a log in etcd that breaks LEFT OUT: no etcd");
        return;
    };
    let mut leader = node.host(&["serve", "--name", "one"]);
    leader.client.open_accounts(1, 5);
    node.signal("STOP");
    let answer = leader.client.order("k", &[(0, 1, 2)]);
    assert_eq!(code(&answer), (503, "in_doubt".into()));
    let other = leader.client.order("other", &[(0, 1, 2)]);
    assert_eq!(code(&other), (503, "broken".into()));
    assert_eq!(leader.ended().code(), Some(4));
    node.signal("CONT");
    let next = node.host(&["serve", "--name", "two"]);
    // What was in doubt was carried out when the node went on, or it is now; the other one wasn't.
    assert_eq!(next.client.order("k", &[(0, 1, 2)]).0, 200);
    assert_eq!(next.client.balance(1), 7);
    assert!(next.stop().success());
}

#[test]
fn a_host_that_is_deposed() {
    let scratch = Scratch::new("etcd-deposed");
    let Some(node) = Node::start(&scratch) else {
        println!("a host that is deposed LEFT OUT: no etcd");
        return;
    };
    let mut leader = node.host(&["serve", "--name", "one"]);
    leader.client.open_accounts(1, 5);
    node.revoke_leases();
    // No order comes, and it finds out by itself.
    let limit = Instant::now() + Duration::from_secs(60);
    let told = loop {
        let answer = leader.client.ask("GET /health");
        if answer.0 != 200 {
            break answer;
        }
        assert!(Instant::now() < limit, "it believes that it leads");
        thread::sleep(Duration::from_millis(20));
    };
    assert_eq!(code(&told), (503, "deposed".into()));
    // Another host may have changed what it knows.
    let balance = leader.client.ask("GET /accounts/1");
    assert_eq!(code(&balance), (503, "deposed".into()));
    let order = leader.client.order("k", &[(0, 1, 2)]);
    assert_eq!(code(&order), (503, "deposed".into()));
    assert_eq!(leader.ended().code(), Some(4));
    let next = node.host(&["serve", "--name", "two"]);
    assert_eq!(next.client.balance(1), 5);
    assert_eq!(next.client.order("k", &[(0, 1, 2)]).0, 200);
    assert!(next.stop().success());
}

#[test]
fn a_host_that_stops_leads_no_more() {
    let scratch = Scratch::new("etcd-stops");
    let Some(node) = Node::start(&scratch) else {
        println!("a host over etcd that stops LEFT OUT: no etcd");
        return;
    };
    let host = node.host(&["serve", "--name", "one"]);
    host.client.open_accounts(1, 5);
    assert!(host.stop().success());
    // Nobody has to wait until its lease ends.
    assert_eq!(node.leaders(), "");
}
