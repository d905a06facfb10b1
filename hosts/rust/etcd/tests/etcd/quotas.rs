//! etcd's quota: what a log says once it is used up, and how it goes on.

use crate::cluster::{Cluster, has_etcd};
use crate::leading::{etcd_error, lead, lines, text_of};
use argus_guardian::log::{BatchLog, Failure, JournalLines};
use argus_guardian_etcd::{EtcdError, EtcdOptions, Maintenance};
use std::time::Duration;

// A line of so many bytes, or some more.
fn long_line(entry: u64, size: usize) -> String {
    format!(
        "{entry} declare atomic_record[{}:int] -> o0\n",
        "n".repeat(size)
    )
}

// Appends and deletes until etcd refuses.
fn use_up(options: &EtcdOptions) -> Failure {
    let mut log = lead(options, "first");
    let failures = (0..).find_map(|entry| {
        let appended = log.append(&lines(entry, &long_line(entry, 500_000)));
        let opening = format!("opening entries {} actions 0\n", entry + 1);
        let opening = JournalLines::new(entry + 1, opening).expect("a whole line");
        appended.and_then(|()| log.append(&opening)).err()
    });
    failures.expect("the quota is used up")
}

#[test]
fn a_quota_that_is_used_up_is_named_and_made_room_in() {
    if !has_etcd("quotas") {
        return;
    }
    let cluster = Cluster::start_with("quotas", 1, &["--quota-backend-bytes", "8000000"]);
    // What was deleted stays in etcd's history.
    let options = EtcdOptions {
        compaction: false,
        ..cluster.options()
    };
    let failure = use_up(&options);
    assert_eq!(etcd_error(&failure), &EtcdError::NoSpace);
    assert!(
        failure.to_string().ends_with("the alarm NOSPACE is set"),
        "{failure}"
    );
    // What is there can be read.
    let (before, _) = text_of(&options);
    let mut maintenance = Maintenance::new(&options).expect("made");
    assert_eq!(maintenance.alarms().expect("told"), ["NOSPACE"]);
    maintenance.compact().expect("compacted");
    maintenance
        .defragment(Duration::from_secs(60))
        .expect("made smaller");
    maintenance.disarm().expect("disarmed");
    let (_, status) = maintenance.status().remove(0);
    let status = status.expect("it answers");
    assert!(status.size < 4_000_000, "{status:?}");
    let mut next = lead(&options, "second");
    assert_eq!(
        maintenance.leader().expect("told").expect("leads").0,
        "second"
    );
    let line = long_line(next.next(), 10);
    next.append(&lines(next.next(), &line)).expect("appended");
    assert_eq!(text_of(&options).0, before + &line);
}

#[test]
fn what_is_too_large_is_named() {
    if !has_etcd("sizes") {
        return;
    }
    let cluster = Cluster::start("sizes", 1);
    // A busy machine takes its time for so large a request.
    let options = EtcdOptions {
        lease: Duration::from_secs(60),
        timeout: Duration::from_secs(40),
        ..cluster.options()
    };
    // More than a batch, as several; an entry of more than a request, not at all.
    let mut log = lead(&options, "first");
    let text: String = (0..5).map(|entry| long_line(entry, 500_000)).collect();
    log.append(&lines(0, &text)).expect("in parts");
    assert_eq!(text_of(&options), (text, 3));
    for (prefix, size) in [("large", 1_600_000), ("larger", 2_200_000)] {
        let options = EtcdOptions {
            prefix: prefix.to_owned(),
            ..options.clone()
        };
        let mut log = lead(&options, "first");
        let failure = log
            .append(&lines(0, &long_line(0, size)))
            .expect_err("too large");
        assert_eq!(etcd_error(&failure), &EtcdError::TooLarge);
    }
}
