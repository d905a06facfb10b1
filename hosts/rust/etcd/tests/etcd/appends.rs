//! Appends: what is read back, and that only the leader can make them.

use crate::cluster::{Cluster, has_etcd};
use crate::leading::{etcd_error, lead, lines, text_of};
use argus_guardian::log::BatchLog;
use argus_guardian_etcd::{Campaign, EtcdError, EtcdLog, EtcdOptions, LogError, Position};

#[test]
fn what_is_appended_is_read_back() {
    if !has_etcd("appends") {
        return;
    }
    let cluster = Cluster::start("appends", 1);
    let options = EtcdOptions {
        batch: 64,
        page: 2,
        ..cluster.options()
    };
    let position = || EtcdLog::read(&options, |_| Ok(())).expect("read");
    assert_eq!(position(), Position::default());
    let mut log = lead(&options, "first");
    // A log without entries is a log.
    assert!(position().revision > 0 && position().entry == 0);
    log.append(&lines(0, "0 begin_top -> a0\n1 commit a0 -> done\n"))
        .expect("appended");
    let wide = format!("2 declare atomic_record[{}:int] -> o0\n", "n".repeat(100));
    let more = format!(
        "{wide}3 begin_top -> a1\n4 begin_top -> a2\n5 begin_top -> a3\n6 begin_top -> a4\n"
    );
    log.append(&lines(2, &more)).expect("appended");
    assert_eq!(log.next(), 7);
    let (text, batches) = text_of(&options);
    assert_eq!(
        text,
        format!("0 begin_top -> a0\n1 commit a0 -> done\n{more}")
    );
    // The long line by itself, then as many lines as fit.
    assert_eq!(batches, 4);
}

#[test]
fn a_deposed_leader_appends_nothing_and_learns_it() {
    if !has_etcd("deposed leaders") {
        return;
    }
    let cluster = Cluster::start("deposed", 1);
    let options = cluster.options();
    let mut first = lead(&options, "first");
    first
        .append(&lines(0, "0 begin_top -> a0\n"))
        .expect("appended");
    // Its lease goes behind its back, as after a pause that is too long.
    cluster.revoke_leases();
    let mut second = lead(&options, "second");
    assert_eq!(second.next(), 1);
    let failure = first
        .append(&lines(1, "1 commit a0 -> done\n"))
        .expect_err("deposed");
    assert_eq!(etcd_error(&failure), &EtcdError::Deposed);
    second
        .append(&lines(1, "1 abort a0 -> done\n"))
        .expect("appended");
    let again = first
        .append(&lines(1, "1 commit a0 -> done\n"))
        .expect_err("broken");
    assert_eq!(again.to_string(), failure.to_string());
    assert_eq!(
        text_of(&options).0,
        "0 begin_top -> a0\n1 abort a0 -> done\n"
    );
}

#[test]
fn what_another_program_writes_is_found_out() {
    if !has_etcd("foreign batches") {
        return;
    }
    let cluster = Cluster::start("foreign", 1);
    let options = cluster.options();
    let mut log = lead(&options, "first");
    log.append(&lines(0, "0 begin_top -> a0\n"))
        .expect("appended");
    let put = |key: &str, value: &str| cluster.etcdctl(&["put", key, value]);
    let get = |key| cluster.etcdctl(&["get", "--print-value-only", key]);
    let (head, batch) = (get("argus/head"), get("argus/batches/00000000000000000000"));
    let (head, batch) = (head.trim_end(), batch.trim_end());
    let one_more = head.replace("next=1 entry=1", "next=2 entry=2");
    put("argus/head", &one_more);
    put("argus/batches/00000000000000000001", "1 begin_top -> a1\n");
    let failure = log
        .append(&lines(1, "1 begin_top -> a1\n"))
        .expect_err("refused");
    assert_eq!(etcd_error(&failure), &EtcdError::Foreign);
    assert_eq!(damage_in(&options), (1, "it isn't a batch".to_owned()));
    let other_sum = "it hasn't the sum that it says: it was changed, or what is before it";
    put("argus/batches/00000000000000000001", &format!("{batch}\n"));
    assert_eq!(damage_in(&options), (1, other_sum.to_owned()));
    put("argus/head", head);
    assert_eq!(text_of(&options).0, "0 begin_top -> a0\n");
    put(
        "argus/batches/00000000000000000000",
        &format!("{}\n", batch.replace("a0", "a1")),
    );
    assert_eq!(damage_in(&options), (0, other_sum.to_owned()));
    put("argus/batches/00000000000000000000", &format!("{batch}\n"));
    let (front, _) = head.split_once("sum=").expect("a sum");
    put("argus/head", &format!("{front}sum=1"));
    let words = "the log's head has another sum than its last batch";
    assert_eq!(damage_in(&options), (1, words.to_owned()));
    put("argus/head", &head.replacen("name=", "name=0", 1));
    let error = EtcdLog::read(&options, |_| Ok(())).expect_err("no head");
    assert!(matches!(error, LogError::Etcd(_)), "{error}");
}

// The batch at which the log isn't as it was written, and how.
fn damage_in(options: &EtcdOptions) -> (u64, String) {
    let error = EtcdLog::read(options, |_| Ok(())).expect_err("damaged");
    let LogError::Damaged {
        key,
        line: None,
        why,
    } = error
    else {
        panic!("{error}");
    };
    let number = key.strip_prefix("argus/batches/").expect("a batch");
    (number.parse().expect("a number"), why)
}

#[test]
fn a_leadership_is_of_one_log() {
    if !has_etcd("logs beside each other") {
        return;
    }
    let cluster = Cluster::start("beside", 1);
    let options = cluster.options();
    let campaign = Campaign::begin(&options, "first").expect("begun");
    let leadership = campaign.wait().expect("elected");
    let other = EtcdOptions {
        prefix: "argus2".to_owned(),
        ..options
    };
    let opened = EtcdLog::open(&other, leadership, |_| Ok(()));
    assert!(matches!(opened, Err(LogError::Etcd(EtcdError::Option(_)))));
}
