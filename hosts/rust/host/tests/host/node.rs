//! `Node`: a node of etcd on loopback.

use crate::host::{Host, PROGRAM};
use crate::scratch::Scratch;
use std::net::TcpListener;
use std::process::{Child, Command, Stdio};

// Seconds. A host on a busy machine may get no turn for a while, and is to lead on.
const LEASE: &str = "15";

/// A node of etcd on loopback, which is killed when it is dropped.
pub(crate) struct Node {
    process: Child,
    pub(crate) endpoint: String,
}

impl Node {
    /// `None`: etcd isn't installed.
    pub(crate) fn start(scratch: &Scratch) -> Option<Node> {
        Node::start_with(scratch, "http", &[])
    }

    /// A node that is reached by this scheme, with etcd's other options in words.
    pub(crate) fn start_with(scratch: &Scratch, scheme: &str, words: &[&str]) -> Option<Node> {
        let mut ports = [0; 2];
        let listeners = ports.map(|_| TcpListener::bind("127.0.0.1:0").expect("a port is free"));
        for (port, listener) in ports.iter_mut().zip(&listeners) {
            *port = listener.local_addr().expect("bound").port();
        }
        drop(listeners);
        let endpoint = format!("{scheme}://127.0.0.1:{}", ports[0]);
        let peer = format!("http://127.0.0.1:{}", ports[1]);
        let all = format!("default={peer}");
        let mut command = Command::new("etcd");
        command
            .arg("--data-dir")
            .arg(scratch.path().join("etcd"))
            .args(["--listen-client-urls", &endpoint])
            .args(["--advertise-client-urls", &endpoint])
            .args(["--listen-peer-urls", &peer])
            .args(["--initial-advertise-peer-urls", &peer])
            .args(["--initial-cluster", &all])
            .args(words)
            .stdout(Stdio::null())
            .stderr(Stdio::null());
        let process = command.spawn().ok()?;
        Some(Node { process, endpoint })
    }

    /// The program over this node, with these words.
    pub(crate) fn command(&self, words: &[&str]) -> Command {
        let mut command = Command::new(PROGRAM);
        command
            .args(words)
            .args(["--listen", "127.0.0.1:0", "--lease", LEASE])
            .args(["--etcd", &self.endpoint]);
        command
    }

    pub(crate) fn host(&self, words: &[&str]) -> Host {
        Host::start(&mut self.command(words))
    }

    fn etcdctl(&self, words: &[&str]) -> String {
        let mut command = Command::new("etcdctl");
        command
            .env("ETCDCTL_API", "3")
            .args(["--endpoints", &self.endpoint])
            .args(["--command-timeout", "60s", "--dial-timeout", "30s"])
            .args(words);
        let ran = command.output().expect("etcdctl is there");
        assert!(ran.status.success(), "{ran:?}");
        String::from_utf8(ran.stdout).expect("UTF-8")
    }

    /// Revokes all leases: no host leads then.
    pub(crate) fn revoke_leases(&self) {
        let listed = self.etcdctl(&["lease", "list"]);
        let leases = listed.lines().filter(|line| !line.contains(' '));
        for lease in leases.filter(|line| !line.is_empty()) {
            self.etcdctl(&["lease", "revoke", lease]);
        }
    }

    /// The keys of hosts that lead or wait to lead, and their names.
    pub(crate) fn leaders(&self) -> String {
        self.etcdctl(&["get", "--prefix", "argus/leader/"])
    }

    pub(crate) fn signal(&self, signal: &str) {
        let pid = self.process.id().to_string();
        let sent = Command::new("kill").args(["-s", signal, &pid]).status();
        assert!(sent.expect("kill is there").success());
    }
}

impl Drop for Node {
    fn drop(&mut self) {
        let _ = self.process.kill();
        let _ = self.process.wait();
    }
}
