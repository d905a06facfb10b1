//! Checkpoints: whichever transaction of one is the last, and whatever comes late, the log is the old one or the new
//! one.

use crate::cluster::{Cluster, has_etcd};
use crate::leading::{begins_opening, lead, lines, text_of};
use crate::proxy::{Proxy, Way};
use argus_guardian::log::{BatchLog, JournalLines};
use argus_guardian_etcd::{Campaign, EtcdLog, EtcdOptions};
use std::thread;
use std::time::Duration;

const OPENING: &str = "opening entries 3 actions 3\n\
    opening o0 atomic_record[first:int] {5}\n\
    opening o1 atomic_record[second:int] {6}\n";

fn opening() -> JournalLines {
    opening_of(OPENING)
}

fn opening_of(text: &str) -> JournalLines {
    JournalLines::new(3, text.to_owned()).expect("whole lines")
}

// Three batches of an entry.
const BEFORE: [&str; 3] = [
    "0 begin_top -> a0\n",
    "1 begin_top -> a1\n",
    "2 begin_top -> a2\n",
];

fn batches_in(cluster: &Cluster, prefix: &str) -> usize {
    let batches = format!("{prefix}/batches/");
    let keys = cluster.etcdctl(&["get", "--prefix", "--keys-only", &batches]);
    keys.lines().filter(|line| !line.is_empty()).count()
}

#[test]
fn an_opening_takes_the_place_of_all_before() {
    if !has_etcd("checkpoints") {
        return;
    }
    let cluster = Cluster::start("openings", 1);
    // So small that each line of the opening is a batch.
    let options = EtcdOptions {
        batch: 48,
        page: 2,
        ..cluster.options()
    };
    let mut log = lead(&options, "first");
    for (entry, line) in (0..).zip(BEFORE) {
        log.append(&lines(entry, line)).expect("appended");
    }
    log.append(&opening()).expect("begun anew");
    assert_eq!(
        (text_of(&options).0, batches_in(&cluster, "argus")),
        (OPENING.to_owned(), 3)
    );
    log.append(&lines(3, "3 begin_top -> a3\n"))
        .expect("appended");
    let wanted = OPENING.to_owned() + "3 begin_top -> a3\n";
    assert_eq!(text_of(&options).0, wanted);
    // The history before it is compacted.
    let mut old = std::process::Command::new("etcdctl");
    old.env("ETCDCTL_API", "3")
        .args(["--endpoints", cluster.nodes[0].endpoint()])
        .args(["get", "--rev=3", "argus/head"]);
    let told = old.output().expect("etcdctl is there").stderr;
    let words = String::from_utf8_lossy(&told);
    assert!(words.contains("compacted"), "{words}");
}

#[test]
fn a_reader_of_half_an_opening_finds_the_next_one() {
    if !has_etcd("checkpoints that are read meanwhile") {
        return;
    }
    let cluster = Cluster::start("meanwhile", 1);
    let options = EtcdOptions {
        batch: 48,
        page: 1,
        ..cluster.options()
    };
    let mut log = lead(&options, "first");
    log.append(&lines(0, &BEFORE.concat())).expect("appended");
    log.append(&opening()).expect("begun anew");
    let later = OPENING.replace("{5}", "{7}");
    let (mut text, mut is_later, mut batches) = (String::new(), false, 0);
    let read = EtcdLog::read(&options, |batch| {
        if !is_later {
            // With it, etcd forgets the rest of the opening that is being read.
            log.append(&opening_of(&later)).expect("begun anew");
            is_later = true;
        }
        if begins_opening(batch) {
            text.clear();
        }
        text.push_str(batch.lines);
        batches += 1;
        Ok(())
    });
    assert_eq!(read.expect("whole").entry, 3);
    assert_eq!((text, batches), (later, 4));
}

#[test]
fn wherever_it_ends_the_log_is_the_old_one_or_the_new_one() {
    if !has_etcd("checkpoints that are cut off") {
        return;
    }
    let cluster = Cluster::start("halves", 1);
    let proxy = Proxy::before(cluster.nodes[0].endpoint());
    // Two parts, the last part with the head, and the deletion.
    for transactions in 0..5 {
        let straight = EtcdOptions {
            batch: 48,
            prefix: format!("after{transactions}"),
            patience: Duration::from_secs(2),
            ..cluster.options()
        };
        cut_off(&proxy, &straight, transactions);
        cluster.revoke_leases();
        let (text, _) = text_of(&straight);
        let is_new = transactions > 2;
        let wanted = if is_new {
            OPENING.to_owned()
        } else {
            BEFORE.concat()
        };
        assert_eq!(text, wanted);
        go_on(&cluster, &straight, &text);
    }
}

// Begins a checkpoint, and is cut off after so many of its transactions.
fn cut_off(proxy: &Proxy, straight: &EtcdOptions, transactions: i64) {
    let through = EtcdOptions {
        endpoints: vec![proxy.endpoint().to_owned()],
        ..straight.clone()
    };
    proxy.set(Way::Open);
    let mut log = lead(&through, "first");
    for (entry, line) in (0..).zip(BEFORE) {
        log.append(&lines(entry, line)).expect("appended");
    }
    proxy.cut_after(transactions);
    let restarted = log.append(&opening());
    assert_eq!(restarted.is_ok(), transactions == 4, "{restarted:?}");
}

// The next leader deletes what is left of the checkpoint, and goes on.
fn go_on(cluster: &Cluster, options: &EtcdOptions, text: &str) {
    let mut next = lead(options, "second");
    assert_eq!(next.next(), 3);
    next.append(&lines(3, "3 begin_top -> a3\n"))
        .expect("appended");
    assert_eq!(text_of(options).0, text.to_owned() + "3 begin_top -> a3\n");
    assert_eq!(batches_in(cluster, &options.prefix), 4);
}

// A leader that has begun by the other way, since the request by which it begins is held up on this one.
fn begin_around(late: &Proxy, other: &Proxy, straight: EtcdOptions) -> EtcdLog {
    let options = EtcdOptions {
        endpoints: vec![late.endpoint().to_owned(), other.endpoint().to_owned()],
        timeout: Duration::from_secs(2),
        ..straight
    };
    let leadership = Campaign::begin(&options, "second").and_then(Campaign::wait);
    // One transaction reads the log, the next one begins it.
    late.cut_after(1);
    let log = EtcdLog::open(&options, leadership.expect("elected"), |_| Ok(()));
    let log = log.expect("begun by the other way");
    late.await_cut();
    log
}

#[test]
fn a_beginning_that_comes_late_deletes_no_opening() {
    if !has_etcd("late beginnings") {
        return;
    }
    let cluster = Cluster::start("beginnings", 1);
    // So small that each line of the opening is a batch.
    let options = EtcdOptions {
        batch: 48,
        ..cluster.options()
    };
    let mut first = lead(&options, "first");
    first.append(&lines(0, &BEFORE.concat())).expect("appended");
    cluster.revoke_leases();
    let [late, other] = [(); 2].map(|()| Proxy::before(cluster.nodes[0].endpoint()));
    let mut log = begin_around(&late, &other, options.clone());
    // Two parts of the opening come, and then what was held up; only then the last part, which moves the head.
    other.cut_after(2);
    thread::scope(|scope| {
        let restarted = scope.spawn(|| log.append(&opening()));
        other.await_cut();
        late.set(Way::Open);
        thread::sleep(Duration::from_millis(500));
        other.set(Way::Open);
        restarted.join().expect("no panic").expect("begun anew");
    });
    assert_eq!(text_of(&options), (OPENING.to_owned(), 3));
    assert_eq!(batches_in(&cluster, "argus"), 3);
}
