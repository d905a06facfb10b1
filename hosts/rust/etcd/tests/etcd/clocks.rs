//! What a host believes of its lease when its clock runs at another rate than etcd's: it may be wrong, and it appends
//! nothing.

use crate::clock::Clock;
use crate::cluster::{Cluster, has_etcd};
use crate::leading::{etcd_error, lead, lines, text_of};
use crate::proxy::{Proxy, Way};
use crate::scratch::Scratch;
use argus_guardian::log::BatchLog;
use argus_guardian_etcd::{Campaign, EtcdError, EtcdLog, EtcdOptions};
use std::env;
use std::io::{self, BufRead, BufReader, Write};
use std::process::{Child, ChildStdin, Command, Stdio};
use std::thread;
use std::time::Duration;

const ENDPOINT: &str = "ARGUS_ETCD_ENDPOINT";
const LEASE: Duration = Duration::from_secs(6);

const FIRST: &str = "0 begin_top -> a0\n";
const SECOND: &str = "1 begin_top -> a1\n";

fn options(endpoint: &str) -> EtcdOptions {
    EtcdOptions {
        lease: LEASE,
        timeout: Duration::from_secs(1),
        patience: Duration::from_secs(20),
        ..EtcdOptions::at([endpoint])
    }
}

fn say(words: &str) {
    println!("\nSAYS {words}");
    io::stdout().flush().expect("said");
}

// A leader in a process of its own. At each line that it reads it says whether its lease is over, as it reckons; at
// the end of them what etcd says.
#[test]
#[ignore = "the parent runs it in a process of its own"]
fn child_reckons() {
    let options = options(&env::var(ENDPOINT).expect("the parent names it"));
    let leadership = Campaign::begin(&options, "child").and_then(Campaign::wait);
    let leadership = leadership.expect("elected");
    let mut log = EtcdLog::open(&options, leadership.clone(), |_| Ok(())).expect("read");
    log.append(&lines(0, FIRST)).expect("appended");
    say("leads");
    for _ in io::stdin().lines().map_while(Result::ok) {
        say(if leadership.is_over() {
            "over"
        } else {
            "lasts"
        });
    }
    let confirmed = leadership.confirm();
    assert!(
        matches!(confirmed, Err(EtcdError::Deposed)),
        "{confirmed:?}"
    );
    let failure = log.append(&lines(1, SECOND)).expect_err("deposed");
    assert!(
        matches!(etcd_error(&failure), EtcdError::Deposed),
        "{failure}"
    );
    say("deposed");
}

struct Reckoner {
    process: Child,
    input: Option<ChildStdin>,
    said: Box<dyn Iterator<Item = String>>,
}

impl Reckoner {
    fn start(proxy: &Proxy, words: &[(&'static str, String)]) -> Reckoner {
        let mut command = Command::new(env::current_exe().expect("this program"));
        command
            .args([
                "clocks::child_reckons",
                "--exact",
                "--ignored",
                "--nocapture",
                // With one thread, as on one processor, a test's name would stand before the first thing that it says.
                "--test-threads=2",
            ])
            .env(ENDPOINT, proxy.endpoint())
            .envs(words.iter().map(|(name, word)| (name, word)))
            .stdin(Stdio::piped())
            .stdout(Stdio::piped());
        let mut process = command.spawn().expect("started");
        let output = BufReader::new(process.stdout.take().expect("piped")).lines();
        let said = output.map_while(Result::ok);
        let said = said.filter_map(|line| line.strip_prefix("SAYS ").map(str::to_owned));
        Reckoner {
            input: process.stdin.take(),
            process,
            said: Box::new(said),
        }
    }

    fn said(&mut self) -> String {
        self.said.next().expect("it says something")
    }

    fn asked(&mut self) -> String {
        let input = self.input.as_mut().expect("it listens");
        input.write_all(b"?\n").expect("heard");
        self.said()
    }
}

impl Drop for Reckoner {
    fn drop(&mut self) {
        let _ = self.process.kill();
        let _ = self.process.wait();
    }
}

// Cuts a leader off until another one leads, and asks it meanwhile. What it reckons then.
fn reckoned(clock: &Clock, rate: &str) -> String {
    let cluster = Cluster::start(&format!("clock{}", rate.replace('/', "-")), 1);
    let node = cluster.nodes[0].endpoint();
    let proxy = Proxy::before(node);
    let mut child = Reckoner::start(&proxy, &clock.words(rate));
    assert_eq!(child.said(), "leads");
    assert_eq!(child.asked(), "lasts");
    proxy.set(Way::Cut);
    let mut log = lead(&options(node), "next");
    let reckoned = child.asked();
    log.append(&lines(1, SECOND)).expect("appended");
    proxy.set(Way::Open);
    child.input = None;
    assert_eq!(child.said(), "deposed");
    assert_eq!(text_of(&options(node)).0, format!("{FIRST}{SECOND}"));
    reckoned
}

#[test]
fn who_reckons_by_a_slow_clock_is_wrong_and_appends_nothing() {
    let test = "leases by clocks of other rates";
    if !has_etcd(test) {
        return;
    }
    let scratch = Scratch::new("reckoning");
    if let Some(clock) = Clock::build(scratch.path(), test) {
        // Another host leads, and the one whose clock is slow doesn't know it.
        let rates = [("3/1", "over"), ("1/1", "over"), ("1/3", "lasts")];
        thread::scope(|scope| {
            for (rate, wanted) in rates {
                let clock = &clock;
                scope.spawn(move || assert_eq!(reckoned(clock, rate), wanted, "{rate}"));
            }
        });
    }
}
