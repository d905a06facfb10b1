//! `Cluster`: some nodes of etcd on loopback, which are one etcd.

use crate::node::{Node, etcd};
use crate::scratch::Scratch;
use argus_guardian_etcd::{EtcdLog, EtcdOptions, Tls};
use std::net::TcpListener;
use std::process::{Command, Stdio};
use std::thread;
use std::time::{Duration, Instant};

/// Some nodes of etcd on loopback, which are one etcd. They end with it.
pub(crate) struct Cluster {
    pub(crate) nodes: Vec<Node>,
    tls: Option<Tls>,
    _scratch: Scratch,
}

/// Whether etcd is there; else a line says that the test is left out.
pub(crate) fn has_etcd(test: &str) -> bool {
    let mut command = etcd();
    command.arg("--version");
    let ran = command.stdout(Stdio::null()).stderr(Stdio::null()).status();
    if ran.is_ok_and(|it| it.success()) {
        return true;
    }
    println!("{test} LEFT OUT: no etcd");
    false
}

/// Ports of loopback that are free now.
pub(crate) fn free_ports(count: usize) -> Vec<u16> {
    let listeners: Vec<TcpListener> = (0..count)
        .map(|_| TcpListener::bind("127.0.0.1:0").expect("a port is free"))
        .collect();
    let ports = listeners
        .iter()
        .map(|it| it.local_addr().expect("bound").port());
    ports.collect()
}

impl Cluster {
    /// So many nodes.
    pub(crate) fn start(name: &str, count: usize) -> Cluster {
        Cluster::start_with(name, count, &[])
    }

    /// So many nodes, each started with these words, too.
    pub(crate) fn start_with(name: &str, count: usize, words: &[&str]) -> Cluster {
        Cluster::start_all(name, count, words, None)
    }

    /// A node that is reached by TLS.
    pub(crate) fn start_secured(name: &str, words: &[&str], tls: &Tls) -> Cluster {
        Cluster::start_all(name, 1, words, Some(tls.clone()))
    }

    fn start_all(name: &str, count: usize, words: &[&str], tls: Option<Tls>) -> Cluster {
        let scratch = Scratch::new(name);
        let ports = free_ports(2 * count);
        let (clients, peers) = ports.split_at(count);
        let peer = |n: usize| format!("http://127.0.0.1:{}", peers[n]);
        let all: Vec<String> = (0..count).map(|n| format!("n{n}={}", peer(n))).collect();
        let scheme = if tls.is_some() { "https" } else { "http" };
        let nodes = (0..count).map(|n| {
            let own = [
                "--listen-peer-urls",
                &peer(n),
                "--initial-advertise-peer-urls",
                &peer(n),
                "--initial-cluster",
                &all.join(","),
            ];
            let words: Vec<String> = own.iter().chain(words).map(|&it| it.to_owned()).collect();
            let endpoint = format!("{scheme}://127.0.0.1:{}", clients[n]);
            Node::start(&format!("n{n}"), scratch.path(), &endpoint, &words)
        });
        let cluster = Cluster {
            nodes: nodes.collect(),
            tls,
            _scratch: scratch,
        };
        cluster.await_answer();
        cluster
    }

    /// The options of a host of the tests, on a machine that may be busy.
    pub(crate) fn options(&self) -> EtcdOptions {
        EtcdOptions {
            lease: Duration::from_secs(20),
            timeout: Duration::from_secs(5),
            patience: Duration::from_secs(15),
            tls: self.tls.clone(),
            ..EtcdOptions::at(self.nodes.iter().map(Node::endpoint))
        }
    }

    // Waits until it has a leader of its own.
    fn await_answer(&self) {
        let limit = Instant::now() + Duration::from_secs(60);
        while let Err(error) = EtcdLog::read(&self.options(), |_| Ok(())) {
            assert!(Instant::now() < limit, "{error}");
            thread::sleep(Duration::from_millis(100));
        }
    }

    /// Revokes all leases: no host leads then.
    pub(crate) fn revoke_leases(&self) {
        let listed = self.etcdctl(&["lease", "list"]);
        let leases = listed.lines().filter(|line| !line.contains(' '));
        for lease in leases.filter(|line| !line.is_empty()) {
            self.etcdctl(&["lease", "revoke", lease]);
        }
    }

    /// Asks the first node by etcd's own program.
    pub(crate) fn etcdctl(&self, words: &[&str]) -> String {
        let mut command = Command::new("etcdctl");
        command
            .env("ETCDCTL_API", "3")
            .args(["--endpoints", self.nodes[0].endpoint()])
            .args(["--command-timeout", "60s", "--dial-timeout", "30s"])
            .args(words);
        let output = command.output().expect("etcdctl is there");
        let told = String::from_utf8_lossy(&output.stdout).into_owned();
        let words = String::from_utf8_lossy(&output.stderr);
        assert!(output.status.success(), "{told}{words}");
        told
    }
}
