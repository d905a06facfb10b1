//! A host of the bank, in a process of its own: it follows, leads once it is elected, and follows again once it is
//! deposed. What it does it says on its standard output; on its standard input the parent has it rest, then say its
//! journal, and then to serve again.

use crate::bank::{dawdle, fold, serve, set_up};
use argus_guardian::Listing;
use argus_guardian::log::{Logged, LoggedError};
use argus_guardian_etcd::{Campaign, EtcdError, EtcdOptions, Follower, Leadership, LogError};
use std::env;
use std::io::{self, Write};
use std::sync::atomic::{AtomicU64, Ordering};
use std::thread;
use std::time::Duration;

pub(crate) const NAME: &str = "ARGUS_ETCD_HOST";
pub(crate) const ENDPOINTS: &str = "ARGUS_ETCD_ENDPOINTS";

// So many of the bank's clients send orders.
const CLIENTS: u32 = 4;
const PATIENCE: Duration = Duration::from_secs(100);

/// The lease of the bank's hosts.
pub(crate) const LEASE: Duration = Duration::from_secs(3);

/// The options of the bank's hosts.
pub(crate) fn options(endpoints: Vec<String>) -> EtcdOptions {
    EtcdOptions {
        prefix: "bank".to_owned(),
        lease: LEASE,
        timeout: Duration::from_millis(700),
        ..EtcdOptions::at(endpoints)
    }
}

/// A checksum of a listing, by which journals are compared.
pub(crate) fn sum_of(text: &str) -> u64 {
    // FNV-1a.
    let add = |sum: u64, byte: u8| (sum ^ u64::from(byte)).wrapping_mul(0x0100_0000_01b3);
    text.bytes().fold(0xcbf2_9ce4_8422_2325, add)
}

// A parent that is gone hears nothing.
fn say(words: &str) {
    let _ = io::stdout().write_all(format!("{words}\n").as_bytes());
}

fn say_journal(entries: u64, journal: &str) {
    say(&format!("journal {entries} {:x}", sum_of(journal)));
}

/// What the parent says, in turn: how many lines that were.
struct Orders(AtomicU64);

const LINES: [&str; 3] = ["rest", "say", "serve"];

impl Orders {
    fn number(&self) -> u64 {
        self.0.load(Ordering::SeqCst)
    }

    fn rests(&self) -> bool {
        !self.number().is_multiple_of(3)
    }

    // The number of the line by which the journal is to be said, if that is the last one.
    fn to_say(&self) -> Option<u64> {
        Some(self.number()).filter(|it| it % 3 == 2)
    }

    // Takes the parent's lines, until it is gone.
    fn take(&self) {
        for line in io::stdin().lines().map_while(Result::ok) {
            let number = self.0.fetch_add(1, Ordering::SeqCst);
            assert!(line == LINES[(number % 3) as usize], "{line}");
        }
        std::process::exit(0);
    }
}

#[test]
#[ignore = "the parent runs it in a process of its own"]
fn child_hosts() {
    let name = env::var(NAME).expect("the parent names it");
    let endpoints = env::var(ENDPOINTS).expect("the parent names them");
    let options = options(endpoints.split(' ').map(str::to_owned).collect());
    let orders = Orders(AtomicU64::new(0));
    thread::scope(|scope| {
        scope.spawn(|| orders.take());
        loop {
            if let Err(error) = live(&options, &name, &orders) {
                say(&format!("begins anew: {error}"));
                thread::sleep(Duration::from_millis(50));
            }
        }
    });
}

// Follows until it is elected, and leads until it is deposed.
fn live(options: &EtcdOptions, name: &str, orders: &Orders) -> Result<(), LogError> {
    let mut follower = Follower::begin(options)?;
    let leadership = follow(options, name, orders, &mut follower)?;
    let (bank, led) = follower.lead(leadership.clone(), PATIENCE)?;
    say(&format!(
        "leads {} {} {}",
        led.epoch, led.entry, led.aborted
    ));
    if let Err(error) = lead(&bank, led.epoch, orders) {
        say(&format!("deposed {} {error}", led.epoch));
    }
    Ok(())
}

fn follow(
    options: &EtcdOptions,
    name: &str,
    orders: &Orders,
    follower: &mut Follower,
) -> Result<Leadership, LogError> {
    let mut campaign = Campaign::begin(options, name)?;
    let mut said = None;
    loop {
        match follower.follow(Duration::from_millis(50)) {
            Ok(_) | Err(LogError::Etcd(EtcdError::Unreached(_))) => {}
            Err(error) => return Err(error),
        }
        let to_say = orders.to_say();
        if to_say.is_some() && to_say != said {
            said = to_say;
            let position = follower.catch_up()?;
            let (journal, _) = follower.read(|guardian| guardian.list(Listing::Journal))?;
            say_journal(position.entry, &journal?);
        }
        match campaign.poll() {
            Ok(Some(leadership)) => return Ok(leadership),
            Ok(None) | Err(EtcdError::Unreached(_)) => {}
            Err(error) => return Err(error.into()),
        }
    }
}

fn lead(bank: &Logged, epoch: u64, orders: &Orders) -> Result<(), LoggedError> {
    set_up(bank)?;
    let (mut rested, mut said) = (None, None);
    loop {
        if !orders.rests() {
            serve_all(bank, epoch, orders)?;
        }
        let number = orders.number();
        if orders.rests() && rested != Some(number / 3) {
            bank.barrier()?;
            say("rested");
            rested = Some(number / 3);
        }
        if orders.to_say().is_some() && said != orders.to_say() {
            said = orders.to_say();
            say_journal(bank.entries(), &bank.list(Listing::Journal)?);
        }
        thread::sleep(Duration::from_millis(5));
    }
}

// Serves all clients until it has to rest.
fn serve_all(bank: &Logged, epoch: u64, orders: &Orders) -> Result<(), LoggedError> {
    let note = |client, number| {
        say(&format!("acknowledged {epoch} {client} {number}"));
        !orders.rests()
    };
    thread::scope(|scope| {
        let clients: Vec<_> = (0..CLIENTS)
            .map(|client| scope.spawn(move || serve(bank, client, |number| note(client, number))))
            .collect();
        let dawdles = scope.spawn(|| until_rest(orders, Duration::ZERO, || dawdle(bank)));
        let folds = scope.spawn(|| until_rest(orders, Duration::from_millis(400), || fold(bank)));
        let mut all = clients.into_iter().chain([dawdles, folds]);
        all.try_for_each(|it| it.join().expect("no panic"))
    })
}

fn until_rest(
    orders: &Orders,
    pause: Duration,
    mut what: impl FnMut() -> Result<(), LoggedError>,
) -> Result<(), LoggedError> {
    while !orders.rests() {
        thread::sleep(pause);
        what()?;
    }
    Ok(())
}
