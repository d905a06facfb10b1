//! `Host`: a host of the bank as the test sees it.

use crate::network::Network;
use crate::node::{Node, send};
use crate::proxy::{Proxy, Way};
use crate::replica::{ENDPOINTS, NAME};
use std::env;
use std::io::{BufRead, BufReader, Write};
use std::net::Ipv4Addr;
use std::process::{Child, ChildStdout, Command, Stdio};
use std::sync::{Arc, Mutex};
use std::thread;
use std::time::Instant;

/// What a host has said.
#[derive(Debug, Clone, PartialEq, Eq)]
pub(crate) enum Report {
    Leads(u64),
    Acknowledged {
        epoch: u64,
        client: u32,
        number: i64,
    },
    Deposed(u64),
    Rested,
    Journal {
        entries: u64,
        sum: u64,
    },
    Other(String),
}

fn said_in(line: &str) -> Report {
    let words: Vec<&str> = line.split(' ').collect();
    let number = |at: usize| words[at].parse::<u64>().expect("a number");
    match words[0] {
        "leads" => Report::Leads(number(1)),
        "acknowledged" => Report::Acknowledged {
            epoch: number(1),
            client: words[2].parse().expect("a number"),
            number: words[3].parse().expect("a number"),
        },
        "deposed" => Report::Deposed(number(1)),
        "rested" => Report::Rested,
        "journal" => Report::Journal {
            entries: number(1),
            sum: u64::from_str_radix(words[2], 16).expect("a checksum"),
        },
        _ => Report::Other(line.to_owned()),
    }
}

type AllSaid = Arc<Mutex<Vec<(Instant, Report)>>>;

/// A host of the bank, in a process of its own, and the ways from it to the nodes.
pub(crate) struct Host {
    pub(crate) name: String,
    // `None` where the machine has no networks for processes.
    network: Option<Network>,
    proxies: Vec<Proxy>,
    // What its process has in its environment beside.
    words: Vec<(&'static str, String)>,
    process: Child,
    said: AllSaid,
}

// Reads what it says.
fn listen(output: ChildStdout, said: &AllSaid) {
    let heard = Arc::clone(said);
    thread::spawn(move || {
        for line in BufReader::new(output).lines().map_while(Result::ok) {
            let said = (Instant::now(), said_in(&line));
            heard.lock().expect("no panic").push(said);
        }
    });
}

// A process of this host, and what reads what it says.
fn begun(
    name: &str,
    network: Option<&Network>,
    proxies: &[Proxy],
    words: &[(&'static str, String)],
    said: &AllSaid,
) -> Child {
    let endpoints: Vec<&str> = proxies.iter().map(Proxy::endpoint).collect();
    let program = env::current_exe().expect("this program");
    let mut command = match network {
        Some(_) => Network::command(program.to_str().expect("a path in UTF-8")),
        None => Command::new(program),
    };
    command
        .args([
            "replica::child_hosts",
            "--exact",
            "--ignored",
            "--nocapture",
            // With one thread, as on one processor, a test's name would stand before the first thing that it says.
            "--test-threads=2",
        ])
        .env(NAME, name)
        .env(ENDPOINTS, endpoints.join(" "))
        .envs(words.iter().map(|(name, word)| (name, word)))
        .stdin(Stdio::piped())
        .stdout(Stdio::piped());
    let mut process = command.spawn().expect("started");
    network.inspect(|it| it.join(&process));
    listen(process.stdout.take().expect("piped"), said);
    process
}

impl Host {
    pub(crate) fn start(name: &str, nodes: &[Node], words: Vec<(&'static str, String)>) -> Host {
        let network = Network::new();
        let address = network
            .as_ref()
            .map_or(Ipv4Addr::LOCALHOST, Network::address);
        let proxies = nodes
            .iter()
            .map(|it| Proxy::before_at(it.endpoint(), address));
        let proxies: Vec<Proxy> = proxies.collect();
        let said = Arc::default();
        Host {
            process: begun(name, network.as_ref(), &proxies, &words, &said),
            name: name.to_owned(),
            network,
            proxies,
            words,
            said,
        }
    }

    /// Another process in the place of one that was killed.
    pub(crate) fn start_again(&mut self) {
        let network = self.network.as_ref();
        network.inspect(|it| it.lay_again());
        self.process = begun(&self.name, network, &self.proxies, &self.words, &self.said);
    }

    /// Its network, where the machine has any for processes.
    pub(crate) fn network(&self) -> Option<&Network> {
        self.network.as_ref()
    }

    /// What it has said since then, and when.
    pub(crate) fn said_since(&self, since: Instant) -> Vec<(Instant, Report)> {
        let said = self.said.lock().expect("no panic");
        said.iter().filter(|it| it.0 >= since).cloned().collect()
    }

    /// Says a line to it.
    pub(crate) fn tell(&mut self, line: &str) {
        let input = self.process.stdin.as_mut().expect("piped");
        input
            .write_all(format!("{line}\n").as_bytes())
            .expect("heard");
    }

    pub(crate) fn signal(&self, signal: &str) {
        send(&self.process, signal);
    }

    pub(crate) fn kill(&mut self) {
        self.process.kill().expect("killed");
        self.process.wait().expect("ended");
    }

    pub(crate) fn set_ways(&self, way: Way) {
        for proxy in &self.proxies {
            proxy.set(way);
        }
    }
}

impl Drop for Host {
    fn drop(&mut self) {
        let _ = self.process.kill();
        let _ = self.process.wait();
    }
}
