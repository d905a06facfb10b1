//! A bank whose process is killed, under load, in checkpoints and in openings: no acknowledged order is lost or doubled,
//! none is there in part.
//!
//! `ARGUS_LOG_KILLS` says how often it is killed; under clocks that run at other rates, a fifth as often.

use crate::bank::{dawdle_on, fold, serve};
use crate::child::Child;
use crate::clock::Clock;
use crate::ledger::Ledger;
use crate::opened_bank::{OPTIONS, open_bank};
use crate::scratch::Scratch;
use argus_guardian::log::{LogFound, Logged};
use std::path::Path;
use std::time::Duration;
use std::{env, fmt, thread};

const KILLS: &str = "ARGUS_LOG_KILLS";
const SERVED: &str = "ARGUS_LOG_CLIENTS";

/// What was found after the kills.
#[derive(Default)]
struct Counts {
    kills: u64,
    aborts: u64,
    openings: u64,
}

impl Counts {
    fn count(&mut self, found: &LogFound) {
        self.kills += 1;
        self.aborts += found.aborted;
        self.openings += u64::from(found.entries < found.next);
    }
}

impl fmt::Display for Counts {
    fn fmt(&self, f: &mut fmt::Formatter<'_>) -> fmt::Result {
        let Counts {
            kills,
            aborts,
            openings,
        } = self;
        write!(
            f,
            "{kills} kills: {openings} logs with an opening, {aborts} aborts"
        )
    }
}

#[test]
#[ignore = "the parent runs it in a process of its own, and kills that"]
fn child_serves() {
    let bank = open_bank(Child::folder());
    let clients = env::var(SERVED)
        .expect("the parent says it")
        .parse()
        .expect("a number");
    thread::scope(|scope| {
        for client in 0..clients {
            let bank = &bank;
            scope.spawn(move || serve(bank, client, |it| Child::tell(client, it)).expect("served"));
        }
        scope.spawn(|| dawdle_on(&bank));
        fold_on(&bank);
    });
}

// Makes checkpoints until the process ends.
fn fold_on(bank: &Logged) {
    loop {
        thread::sleep(Duration::from_millis(30));
        fold(bank).expect("folded");
    }
}

// What the bank's process has in its environment.
type Words = [(&'static str, String)];

// Kills a bank once, of 1, 4 or 16 clients, and looks at what it has left.
fn kill(path: &Path, kill: u64, words: &Words, ledger: &mut Ledger) -> LogFound {
    let clients = [4, 16, 1][usize::try_from(kill % 3).expect("small")];
    let served = (SERVED, clients.to_string());
    let words = [words, &[served]].concat();
    let child = Child::start("kills::child_serves", path, &words);
    // Some die while they start.
    if kill % 5 == 4 {
        thread::sleep(Duration::from_millis(7 * kill % 40));
    } else {
        child.wait_for_first();
        thread::sleep(Duration::from_millis(61 * kill % 300));
    }
    for (client, number) in child.killed() {
        ledger.note(client, number);
    }
    let bank = OPTIONS.open_or_create(path).expect("opened");
    ledger.check(&bank).expect("told");
    bank.found().clone()
}

fn kills() -> u64 {
    env::var(KILLS).map_or(12, |it| it.parse().expect("a number"))
}

// Kills a bank so often; each process has the next of these environments.
fn kill_each(kills: u64, each: &[&Words]) {
    let scratch = Scratch::made("bank");
    let path = scratch.path().join("bank.db");
    let mut ledger = Ledger::default();
    let mut counts = Counts::default();
    for (number, words) in (0..kills).zip(each.iter().cycle()) {
        counts.count(&kill(&path, number, words, &mut ledger));
        if number % 100 == 99 || number + 1 == kills {
            let Ledger {
                acknowledged,
                standing,
                ..
            } = &ledger;
            println!("{acknowledged} orders acknowledged, {standing} stand; {counts}");
        }
    }
    assert!(
        ledger.acknowledged >= kills,
        "hardly an order was acknowledged"
    );
    assert!(
        kills < 10 || counts.openings > 0,
        "no checkpoint came to its end"
    );
}

#[test]
fn no_kill_loses_or_doubles_an_acknowledged_order() {
    kill_each(kills(), &[&[]]);
}

#[test]
fn nor_does_one_under_a_clock_of_another_rate() {
    let scratch = Scratch::made("clock");
    if let Some(clock) = Clock::build(scratch.path(), "clocks of other rates") {
        let (fast, slow) = (clock.words("3/1"), clock.words("1/2"));
        kill_each(kills().div_ceil(5), &[&fast, &slow]);
    }
}
