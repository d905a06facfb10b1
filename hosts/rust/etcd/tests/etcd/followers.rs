//! Followers: what they read, what they verify, and what they take over.

use crate::cluster::{Cluster, has_etcd};
use crate::leading::{lead, lines};
use crate::proxy::{Proxy, Way};
use argus_guardian::log::{BatchLog, JournalLines, Logged, LoggedAction, LoggedError};
use argus_guardian::{Access, Call, Error, Guardian, Listing, ObjId, Shared};
use argus_guardian_etcd::{Campaign, EtcdOptions, Follower, Leadership, LogError, Position};
use std::time::{Duration, Instant};

const LONG: Duration = Duration::from_secs(20);

fn elected(options: &EtcdOptions, name: &str) -> Leadership {
    let campaign = Campaign::begin(options, name);
    campaign.and_then(Campaign::wait).expect("elected")
}

fn leader(options: &EtcdOptions, name: &str) -> (Logged, Leadership) {
    let leadership = elected(options, name);
    let follower = Follower::begin(options).expect("made");
    let led = follower.lead(leadership.clone(), Shared::PATIENCE);
    (led.expect("leads").0, leadership)
}

// A new record, by an id that the guardian of each host takes.
fn record(bank: &Logged, number: i64) -> ObjId {
    let record = bank.declare("atomic_record[n:int]").expect("declared");
    let created = bank.run(|top| top.create(record, (number,)));
    created.expect("acknowledged");
    ObjId::numbered(record.number())
}

fn set(bank: &Logged, record: ObjId, number: i64) {
    bank.run(|top| top.set(record, 0, number))
        .expect("acknowledged");
}

fn base(follower: &mut Follower, record: ObjId) -> (Option<String>, Position) {
    let read = follower.read(|guardian| guardian.base(record));
    let (base, position) = read.expect("read");
    (base.expect("a base").map(|it| it.to_string()), position)
}

// The id of the same record that the follower's guardian returns.
fn own_id(follower: &mut Follower, record: ObjId) -> ObjId {
    let read = follower.read(|guardian| guardian.object(record));
    read.expect("read").0.expect("told").id()
}

// Follows until it stands before this entry.
fn until_entry(follower: &mut Follower, entry: u64) {
    let limit = Instant::now() + LONG;
    while follower.follow(LONG).expect("followed").entry < entry {
        assert!(Instant::now() < limit, "{}", follower.position());
    }
}

fn listed(follower: &mut Follower) -> String {
    let read = follower.read(|guardian| guardian.list(Listing::Journal));
    read.expect("read").0.expect("listed")
}

#[test]
fn a_follower_reads_what_is_acknowledged_and_leads_in_its_turn() {
    if !has_etcd("followers") {
        return;
    }
    let cluster = Cluster::start("followers", 1);
    let options = cluster.options();
    let (bank, leadership) = leader(&options, "first");
    let account = record(&bank, 5);
    let mut follower = Follower::begin(&options).expect("made");
    until_entry(&mut follower, bank.entries());
    let (before, position) = base(&mut follower, account);
    assert_eq!((before.as_deref(), position.entry), (Some("{5}"), 4));
    assert_eq!(position.epoch, leadership.epoch());
    // It was read, and goes on: each call is made again.
    set(&bank, account, 6);
    until_entry(&mut follower, bank.entries());
    assert_eq!(base(&mut follower, account).0.as_deref(), Some("{6}"));
    assert_eq!(
        listed(&mut follower),
        bank.list(Listing::Journal).expect("listed")
    );

    // The leader goes, with a topaction that is live.
    let top = bank.topaction().expect("begun");
    top.set(account, 0, 7).expect("set");
    bank.barrier().expect("in the log");
    std::mem::forget(top);
    leadership.resign();
    let next = elected(&options, "second");
    let kept = own_id(&mut follower, account);
    let (second, led) = follower.lead(next, Shared::PATIENCE).expect("leads");
    assert_eq!((led.entry, led.aborted), (9, 1));
    assert_eq!(second.base(kept).expect("told"), "{6}".parse().ok());
    assert_eq!(second.base(account).expect("told"), "{6}".parse().ok());
    // The first one is refused: it can't be acknowledged, and nothing of it is there.
    let late = bank.topaction().and_then(LoggedAction::commit);
    assert!(matches!(late, Err(LoggedError::InDoubt(_))), "{late:?}");
    assert!(leadership.confirm().is_err());
    set(&second, account, 8);
    assert_eq!(second.base(account).expect("told"), "{8}".parse().ok());
}

#[test]
fn a_follower_whose_node_is_silent_asks_another() {
    if !has_etcd("followers of silent nodes") {
        return;
    }
    let cluster = Cluster::start("silent", 1);
    let node = cluster.nodes[0].endpoint();
    let proxy = Proxy::before(node);
    let options = EtcdOptions {
        endpoints: vec![proxy.endpoint().to_owned(), node.to_owned()],
        timeout: Duration::from_secs(1),
        ..cluster.options()
    };
    let (bank, _leadership) = leader(&cluster.options(), "first");
    let account = record(&bank, 5);
    let mut follower = Follower::begin(&options).expect("made");
    until_entry(&mut follower, bank.entries());
    proxy.set(Way::Cut);
    set(&bank, account, 6);
    until_entry(&mut follower, bank.entries());
    assert_eq!(base(&mut follower, account).0.as_deref(), Some("{6}"));
}

#[test]
fn a_checkpoint_is_followed_near_and_far() {
    if !has_etcd("followers of checkpoints") {
        return;
    }
    let cluster = Cluster::start("near", 1);
    let options = EtcdOptions {
        batch: 60,
        ..cluster.options()
    };
    let (bank, _leadership) = leader(&options, "first");
    let accounts = [1, 2, 3].map(|it| record(&bank, it));
    let mut near = Follower::begin(&options).expect("made");
    let mut far = Follower::begin(&options).expect("made");
    until_entry(&mut near, bank.entries());
    assert_eq!(base(&mut near, accounts[2]).0.as_deref(), Some("{3}"));
    let kept = own_id(&mut near, accounts[2]);
    bank.checkpoint_waiting(LONG).expect("folded");
    // One sees the opening come, one only what comes after the next.
    near.catch_up().expect("followed");
    assert_eq!(
        listed(&mut near),
        bank.list(Listing::Journal).expect("listed")
    );
    set(&bank, accounts[0], 4);
    bank.checkpoint_waiting(LONG).expect("folded");
    set(&bank, accounts[1], 5);
    for follower in [&mut near, &mut far] {
        follower.catch_up().expect("followed");
        assert_eq!(base(follower, accounts[0]).0.as_deref(), Some("{4}"));
        assert_eq!(base(follower, accounts[1]).0.as_deref(), Some("{5}"));
        assert_eq!(
            listed(follower),
            bank.list(Listing::Journal).expect("listed")
        );
    }
    // An id that a read has returned is good after openings, and is no other guardian's.
    assert_eq!(base(&mut near, kept).0.as_deref(), Some("{3}"));
    let other = far.read(|guardian| guardian.base(kept)).expect("read").0;
    assert_eq!(other, Err(Error::OtherGuardian));
    assert!(matches!(
        bank.base(kept),
        Err(LoggedError::Guardian(Error::OtherGuardian))
    ));
}

#[test]
fn a_reader_that_changes_the_guardian_stops_the_follower() {
    if !has_etcd("followers that are changed") {
        return;
    }
    let cluster = Cluster::start("changed", 1);
    let options = cluster.options();
    let (bank, _leadership) = leader(&options, "first");
    record(&bank, 5);
    let changes: [fn(&Guardian) -> bool; 3] = [
        |guardian| guardian.call(&Call::BeginTop).is_ok(),
        |guardian| guardian.checkpoint().is_ok(),
        |guardian| guardian.renew().is_ok(),
    ];
    for change in changes {
        let mut follower = Follower::begin(&options).expect("made");
        until_entry(&mut follower, bank.entries());
        let read = follower.read(change);
        assert!(matches!(read, Err(LogError::Damaged { .. })), "{read:?}");
        let again = follower.read(Guardian::entries);
        assert!(matches!(again, Err(LogError::Damaged { .. })), "{again:?}");
    }
}

// A leader that writes what no guardian answers: its checksums are right.
fn damage_after(
    name: &str,
    log: impl FnOnce(&mut dyn BatchLog, &mut Follower),
) -> (String, Option<u64>, String) {
    let cluster = Cluster::start(name, 1);
    let options = cluster.options();
    let mut liar = lead(&options, "liar");
    let text = "0 declare atomic_record[n:int] -> o0\n1 begin_top -> a0\n2 alter a0 o0 create {5} -> done\n\
        3 commit a0 -> done\n";
    liar.append(&lines(0, text)).expect("appended");
    let mut follower = Follower::begin(&options).expect("made");
    follower.catch_up().expect("followed");
    assert_eq!(
        base(&mut follower, ObjId::numbered(0)).0.as_deref(),
        Some("{5}")
    );
    log(&mut liar, &mut follower);
    let Err(LogError::Damaged { key, line, why }) = follower.catch_up() else {
        panic!("it went on");
    };
    // It has stopped, and reads nothing any more; a new one, which the library reads for, stops at the same.
    assert!(matches!(
        follower.follow(LONG),
        Err(LogError::Damaged { .. })
    ));
    let read = follower.read(|guardian| guardian.base(ObjId::numbered(0)));
    assert!(matches!(read, Err(LogError::Damaged { .. })), "{read:?}");
    let mut other = Follower::begin(&options).expect("made");
    let stopped = other.catch_up();
    let is_opening = why.starts_with("the opening before it");
    assert!(
        is_opening || matches!(stopped, Err(LogError::Damaged { .. })),
        "{stopped:?}"
    );
    (key, line, why)
}

#[test]
fn a_line_that_no_guardian_writes_is_named() {
    if !has_etcd("foreign lines") {
        return;
    }
    let text = "4 begin_top -> a1\n5 ask a1 o0 field 0 -> val 6\n";
    let (key, line, why) = damage_after("lines", |liar, _| {
        liar.append(&JournalLines::new(4, text.to_owned()).expect("lines"))
            .expect("appended");
    });
    assert_eq!(key, "argus/batches/00000000000000000001");
    assert_eq!(line, Some(1));
    assert_eq!(
        why,
        "`5 ask a1 o0 field 0 -> val 6`: the journal before it gives the reply `val 5`"
    );
}

#[test]
fn an_opening_that_changes_what_objects_hold_is_named() {
    if !has_etcd("foreign openings") {
        return;
    }
    let text = "opening entries 4 actions 1\nopening o0 atomic_record[n:int] {6}\n";
    let (_, _, why) = damage_after("contents", |liar, _| {
        liar.append(&JournalLines::new(4, text.to_owned()).expect("lines"))
            .expect("begun anew");
    });
    assert_eq!(why, "the opening before it changes what objects hold");
}

#[test]
fn an_opening_that_refers_to_nothing_is_named() {
    if !has_etcd("unsound openings") {
        return;
    }
    let cluster = Cluster::start("unsound", 1);
    let options = cluster.options();
    let mut liar = lead(&options, "liar");
    liar.append(&lines(0, "0 begin_top -> a0\n1 abort a0 -> done\n"))
        .expect("appended");
    let mut near = Follower::begin(&options).expect("made");
    near.catch_up().expect("followed");
    let text = "opening entries 2 actions 1\nopening o0 atomic_record[to:atomic] {@1}\n";
    liar.append(&JournalLines::new(2, text.to_owned()).expect("lines"))
        .expect("begun anew");
    // Who had read up to there compares it, and others make a guardian of it when they need one.
    let mut far = Follower::begin(&options).expect("made");
    far.catch_up().expect("its lines are lines of an opening");
    cluster.revoke_leases();
    let leadership = elected(&options, "next");
    let next = Follower::begin(&options).expect("made");
    let found = [
        near.catch_up().err(),
        far.read(|_| ()).err(),
        far.catch_up().err(),
        next.lead(leadership, Shared::PATIENCE).err(),
    ];
    for error in found {
        let Some(LogError::Damaged { key, why, .. }) = error else {
            panic!("{error:?}");
        };
        assert_eq!(key, "argus/batches/00000000000000000002");
        assert_eq!(
            why,
            "the opening before it refers to objects that aren't there"
        );
    }
}
