//! `Hosts`: three hosts of the bank over three nodes of etcd, and what is asked of them after each fault.

use crate::cluster::Cluster;
use crate::host::{Host, Report};
use crate::leading::begins_opening;
use crate::ledger::Ledger;
use crate::node::Node;
use crate::replica::{options, sum_of};
use argus_guardian::log::Logged;
use argus_guardian::{Guardian, Listing, Resumption};
use argus_guardian_etcd::EtcdLog;
use std::collections::BTreeSet;
use std::time::{Duration, Instant};
use std::{io, thread};

const LONG: Duration = Duration::from_secs(40);

/// Three hosts of the bank over three nodes of etcd.
pub(crate) struct Hosts {
    pub(crate) each: Vec<Host>,
    pub(crate) cluster: Cluster,
    ledger: Ledger,
    // What was said before was counted.
    counted: Instant,
    begun: Instant,
}

/// Waits until there is one, and fails once that takes too long.
pub(crate) fn until<T>(what: &str, mut found: impl FnMut() -> Option<T>) -> T {
    let limit = Instant::now() + LONG;
    loop {
        if let Some(found) = found() {
            return found;
        }
        assert!(Instant::now() < limit, "waited too long for {what}");
        thread::sleep(Duration::from_millis(5));
    }
}

/// What a host's process has in its environment.
pub(crate) type Words = Vec<(&'static str, String)>;

impl Hosts {
    /// Hosts each of whose processes has this in its environment.
    pub(crate) fn start(name: &str, each: [Words; 3]) -> Hosts {
        let begun = Instant::now();
        let cluster = Cluster::start(name, 3);
        let hosts = ["A", "B", "C"].into_iter().zip(each);
        let hosts = hosts.map(|(name, words)| Host::start(name, &cluster.nodes, words));
        Hosts {
            each: hosts.collect(),
            cluster,
            ledger: Ledger::default(),
            counted: begun,
            begun,
        }
    }

    /// All that was said since then, in the order of time.
    pub(crate) fn said_since(&self, since: Instant) -> Vec<(Instant, Report)> {
        let mut said: Vec<_> = self
            .each
            .iter()
            .flat_map(|it| it.said_since(since))
            .collect();
        said.sort_by_key(|it| it.0);
        said
    }

    /// The host that said last that it leads, and its epoch.
    pub(crate) fn leader(&self) -> (usize, u64) {
        let led = self.each.iter().enumerate().flat_map(|(at, host)| {
            let said = host.said_since(self.begun).into_iter();
            said.filter_map(move |(_, said)| match said {
                Report::Leads(epoch) => Some((epoch, at)),
                _ => None,
            })
        });
        let (epoch, at) = until("a leader", || led.clone().max());
        (at, epoch)
    }

    /// Waits until a leader after this one has acknowledged an order. How long that was after then.
    pub(crate) fn failover(&self, epoch: u64, since: Instant) -> Duration {
        until("an order of the next leader", || {
            let said = self.said_since(since).into_iter();
            let mut later = said.filter(
                |(_, said)| matches!(said, Report::Acknowledged { epoch: it, .. } if *it > epoch),
            );
            later.next().map(|(at, _)| at - since)
        })
    }

    /// Waits for so many orders that are acknowledged after then.
    pub(crate) fn orders_after(&self, since: Instant, orders: usize) {
        until("orders", || {
            let said = self.said_since(since);
            let acknowledged = said
                .iter()
                .filter(|it| matches!(it.1, Report::Acknowledged { .. }));
            (acknowledged.count() >= orders).then_some(())
        });
    }

    /// The longest time without an order that is acknowledged, from then on.
    pub(crate) fn longest_gap(&self, since: Instant) -> Duration {
        let said = self.said_since(since);
        let acknowledged = said
            .iter()
            .filter(|it| matches!(it.1, Report::Acknowledged { .. }));
        let mut last = since;
        let gaps = acknowledged.map(|(at, _)| *at - std::mem::replace(&mut last, *at));
        gaps.max().unwrap_or_default()
    }

    /// Lets all hosts rest, and compares: the journals are the same, and so is that of the log as it is read
    /// anew; no acknowledged order is missing or doubled, and none is there in part.
    pub(crate) fn compare(&mut self) -> String {
        let compared = (0..5).find_map(|_| self.compare_once());
        compared.expect("one host leads for a while")
    }

    // `None`: another host has begun to lead meanwhile.
    fn compare_once(&mut self) -> Option<String> {
        let (_, epoch) = self.leader();
        self.tell("rest");
        let asked = Instant::now();
        until("the leader to rest", || {
            let said = self.said_since(asked);
            said.iter().any(|it| it.1 == Report::Rested).then_some(())
        });
        self.tell("say");
        let journals = until("all journals", || {
            let each = self.each.iter();
            let each = each.map(|it| journal_of(&it.said_since(asked)));
            each.collect::<Option<BTreeSet<_>>>()
        });
        let is_one = self.leader().1 == epoch;
        let words = is_one.then(|| {
            let said = self.said_since(self.counted);
            self.counted = Instant::now();
            self.check(&said, &journals)
        });
        self.tell("serve");
        words
    }

    /// When the host has said that it was refused as the leader of this epoch.
    pub(crate) fn deposed(&self, at: usize, epoch: u64) -> Option<Instant> {
        let said = self.each[at].said_since(self.begun).into_iter();
        let mut deposed = said.filter(|(_, said)| *said == Report::Deposed(epoch));
        deposed.next().map(|(when, _)| when)
    }

    fn tell(&mut self, line: &str) {
        self.each.iter_mut().for_each(|it| it.tell(line));
    }

    fn check(&mut self, said: &[(Instant, Report)], journals: &BTreeSet<(u64, u64)>) -> String {
        let mut orders: Vec<(u32, i64)> = said
            .iter()
            .filter_map(|(_, said)| match *said {
                Report::Acknowledged { client, number, .. } => Some((client, number)),
                _ => None,
            })
            .collect();
        // An order that two leaders have acknowledged is here twice, which the ledger refuses.
        orders.sort_unstable();
        for (client, number) in orders {
            self.ledger.note(client, number);
        }
        let guardian = self.read_anew();
        let journal = guardian.list(Listing::Journal).expect("listed");
        let read = BTreeSet::from([(guardian.entries(), sum_of(&journal))]);
        assert_eq!(*journals, read, "journals differ");
        let bank = Logged::over(guardian, Box::new(io::sink()), LONG).expect("made");
        self.ledger.check(&bank).expect("told");
        let Ledger {
            acknowledged,
            standing,
            ..
        } = &self.ledger;
        format!("{acknowledged} orders acknowledged, {standing} stand; 4 journals are the same")
    }

    // The bank's guardian, made of the log as it is read now.
    fn read_anew(&self) -> Guardian {
        let mut resumption = Resumption::new().expect("made");
        let endpoints = self
            .cluster
            .nodes
            .iter()
            .map(|it| Node::endpoint(it).to_owned());
        let options = options(endpoints.collect());
        EtcdLog::read(&options, |batch| {
            if begins_opening(batch) {
                resumption = Resumption::new().expect("made");
            }
            resumption.take_whole(batch.lines)
        })
        .expect("whole");
        resumption.into_whole().expect("made")
    }
}

// What a host has said of its journal.
fn journal_of(said: &[(Instant, Report)]) -> Option<(u64, u64)> {
    said.iter().find_map(|(_, said)| match said {
        Report::Journal { entries, sum } => Some((*entries, *sum)),
        _ => None,
    })
}
