//! `Network`: a network of one process alone, joined to the tests' by a pair of interfaces.

use std::fs;
use std::net::Ipv4Addr;
use std::process::{Child, Command, Stdio};
use std::sync::atomic::{AtomicU32, Ordering};
use std::thread;
use std::time::{Duration, Instant};

static COUNT: AtomicU32 = AtomicU32::new(0);

// Addresses for tests of networks, which nobody else has: 198.18.0.0/15.
const FIRST: u32 = 0xc612_0000;
const PAIRS: u32 = 1 << 15;

/// A network of one process alone, joined to the tests' by a pair of interfaces. All of it goes with the process.
pub(crate) struct Network {
    ours: String,
    theirs: String,
    our_address: Ipv4Addr,
    their_address: Ipv4Addr,
}

fn ran(program: &str, words: &[&str]) -> bool {
    let mut command = Command::new(program);
    command
        .args(words)
        .stdout(Stdio::null())
        .stderr(Stdio::null());
    command.status().is_ok_and(|it| it.success())
}

fn ip(words: &[&str]) {
    assert!(ran("ip", words), "ip {}", words.join(" "));
}

impl Network {
    /// One with its end here, or `None` where this user or this machine can't have any.
    pub(crate) fn new() -> Option<Network> {
        if !ran("unshare", &["-n", "true"]) || !ran("ip", &["link"]) {
            return None;
        }
        let count = COUNT.fetch_add(1, Ordering::Relaxed);
        let pid = std::process::id();
        let address = FIRST + 4 * ((pid * 16 + count) % PAIRS);
        let network = Network {
            ours: format!("ag{pid}o{count}"),
            theirs: format!("ag{pid}t{count}"),
            our_address: (address + 1).into(),
            their_address: (address + 2).into(),
        };
        network.lay().then_some(network)
    }

    // Both ends of it, here. False: this machine has no such pairs.
    fn lay(&self) -> bool {
        let pair = ["type", "veth", "peer", "name", &self.theirs];
        if !ran("ip", &[&["link", "add", &self.ours], &pair[..]].concat()) {
            return false;
        }
        let address = format!("{}/30", self.our_address);
        ip(&["addr", "add", &address, "dev", &self.ours]);
        ip(&["link", "set", &self.ours, "up"]);
        true
    }

    /// The address by which the process reaches the tests.
    pub(crate) fn address(&self) -> Ipv4Addr {
        self.our_address
    }

    /// The command by which a program is started in a network without any interface.
    pub(crate) fn command(program: &str) -> Command {
        let mut command = Command::new("unshare");
        command.args(["-n", program]);
        command
    }

    /// Gives the process its end.
    pub(crate) fn join(&self, process: &Child) {
        let pid = process.id().to_string();
        let own = fs::read_link("/proc/self/ns/net").expect("it has one");
        let theirs = format!("/proc/{pid}/ns/net");
        let limit = Instant::now() + Duration::from_secs(20);
        while fs::read_link(&theirs).expect("it runs") == own {
            assert!(Instant::now() < limit, "it has no network of its own");
            thread::sleep(Duration::from_millis(2));
        }
        ip(&["link", "set", &self.theirs, "netns", &pid]);
        let there = |words: &[&str]| {
            let inside = format!("--net={theirs}");
            let words = [&[&inside, "ip"], words].concat();
            assert!(ran("nsenter", &words), "{words:?}");
        };
        let address = format!("{}/30", self.their_address);
        there(&["addr", "add", &address, "dev", &self.theirs]);
        there(&["link", "set", &self.theirs, "up"]);
    }

    /// Lays it anew, once the process has ended.
    pub(crate) fn lay_again(&self) {
        let limit = Instant::now() + Duration::from_secs(20);
        while ran("ip", &["link", "show", &self.ours]) {
            assert!(Instant::now() < limit, "it goes with the process");
            thread::sleep(Duration::from_millis(5));
        }
        assert!(self.lay(), "there was one before");
    }

    /// What either end sends is lost from now on.
    pub(crate) fn unplug(&self) {
        ip(&["link", "set", &self.ours, "down"]);
    }

    pub(crate) fn plug(&self) {
        ip(&["link", "set", &self.ours, "up"]);
    }
}
