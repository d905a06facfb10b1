//! Appends whose answers don't come, or whose requests come late: each is done once, or not at all.

use crate::cluster::{Cluster, has_etcd};
use crate::leading::{etcd_error, lead, lines, text_of};
use crate::proxy::{Proxy, Way};
use argus_guardian::log::BatchLog;
use argus_guardian_etcd::{EtcdError, EtcdOptions};
use std::thread;
use std::time::Duration;

// A node, and the way to it that comes before the straight one.
fn behind_proxy(cluster: &Cluster) -> (Proxy, EtcdOptions) {
    let node = cluster.nodes[0].endpoint();
    let proxy = Proxy::before(node);
    let options = EtcdOptions {
        endpoints: vec![proxy.endpoint().to_owned(), node.to_owned()],
        timeout: Duration::from_secs(1),
        ..cluster.options()
    };
    (proxy, options)
}

#[test]
fn an_answer_that_is_lost_is_asked_for_again() {
    if !has_etcd("lost answers") {
        return;
    }
    let cluster = Cluster::start("lost", 1);
    let (proxy, options) = behind_proxy(&cluster);
    let mut log = lead(&options, "first");
    let mut text = String::new();
    for entry in 0..6 {
        // Every second answer is lost; after that the straight way is taken.
        proxy.set(if entry % 2 == 1 { Way::Mute } else { Way::Open });
        let line = format!("{entry} begin_top -> a{entry}\n");
        log.append(&lines(entry, &line)).expect("known again");
        text += &line;
    }
    assert_eq!(text_of(&options).0, text);
}

#[test]
fn a_request_that_comes_late_does_nothing() {
    if !has_etcd("late requests") {
        return;
    }
    let cluster = Cluster::start("late", 1);
    let (proxy, options) = behind_proxy(&cluster);
    let mut log = lead(&options, "first");
    log.append(&lines(0, "0 begin_top -> a0\n"))
        .expect("appended");
    proxy.set(Way::Cut);
    log.append(&lines(1, "1 begin_top -> a1\n"))
        .expect("by the straight way");
    log.append(&lines(2, "2 begin_top -> a2\n"))
        .expect("appended");
    let wanted = "0 begin_top -> a0\n1 begin_top -> a1\n2 begin_top -> a2\n";
    assert_eq!(text_of(&options).0, wanted);
    // What was cut off comes now.
    proxy.set(Way::Open);
    thread::sleep(Duration::from_secs(1));
    assert_eq!(text_of(&options).0, wanted);
    log.append(&lines(3, "3 begin_top -> a3\n"))
        .expect("appended");
}

#[test]
fn a_log_that_is_cut_off_is_in_doubt_and_broken() {
    if !has_etcd("hosts that are cut off") {
        return;
    }
    let cluster = Cluster::start("cut", 1);
    let (proxy, mut options) = behind_proxy(&cluster);
    options.endpoints.truncate(1);
    options.patience = Duration::from_secs(2);
    let mut log = lead(&options, "first");
    log.append(&lines(0, "0 begin_top -> a0\n"))
        .expect("appended");
    proxy.set(Way::Cut);
    let failure = log
        .append(&lines(1, "1 commit a0 -> done\n"))
        .expect_err("cut off");
    assert!(
        matches!(etcd_error(&failure), EtcdError::Unreached(_)),
        "{failure}"
    );
    // It isn't tried again, though the way is open.
    proxy.set(Way::Open);
    let again = log
        .append(&lines(1, "1 commit a0 -> done\n"))
        .expect_err("broken");
    assert_eq!(again.to_string(), failure.to_string());
}
