//! `Node`: a node of etcd on loopback.

use std::env;
use std::fs::File;
use std::path::{Path, PathBuf};
use std::process::{Child, Command, Stdio};

/// Sends a signal by its name to a process that is still this one's child.
pub(crate) fn send(child: &Child, signal: &str) {
    let pid = child.id().to_string();
    let sent = Command::new("kill").args(["-s", signal, &pid]).status();
    assert!(sent.expect("kill is there").success(), "{signal} to {pid}");
}

/// etcd's program, wherever it is installed. It gets `PATH` alone: etcd takes options from the environment.
pub(crate) fn etcd() -> Command {
    let mut command = Command::new("etcd");
    let path = env::var_os("PATH").unwrap_or_default();
    command.env_clear().env("PATH", path);
    command
}

/// A node of etcd on loopback, which is killed when it is dropped.
pub(crate) struct Node {
    name: String,
    folder: PathBuf,
    // What it is started with, each time.
    words: Vec<String>,
    endpoint: String,
    process: Option<Child>,
}

impl Node {
    /// A node that listens for clients at this endpoint. The words are etcd's other options.
    pub(crate) fn start(name: &str, folder: &Path, endpoint: &str, words: &[String]) -> Node {
        let mut node = Node {
            name: name.to_owned(),
            folder: folder.to_owned(),
            words: words.to_owned(),
            endpoint: endpoint.to_owned(),
            process: None,
        };
        node.start_again();
        node
    }

    pub(crate) fn endpoint(&self) -> &str {
        &self.endpoint
    }

    pub(crate) fn start_again(&mut self) {
        assert!(self.process.is_none(), "{} runs", self.name);
        let log = self.folder.join(format!("{}.log", self.name));
        let log = File::options().create(true).append(true).open(log);
        let data = self.folder.join(&self.name);
        let mut command = etcd();
        command
            .args(["--name", &self.name, "--data-dir"])
            .arg(data)
            .args(["--listen-client-urls", &self.endpoint])
            .args(["--advertise-client-urls", &self.endpoint])
            .args(["--log-level", "error", "--logger", "zap"])
            .args(&self.words)
            .stdin(Stdio::null())
            .stdout(Stdio::null())
            .stderr(log.expect("opened"));
        self.process = Some(command.spawn().expect("etcd is there"));
    }

    fn process(&self) -> &Child {
        self.process.as_ref().expect("it runs")
    }

    pub(crate) fn kill(&mut self) {
        let mut process = self.process.take().expect("it runs");
        process.kill().expect("killed");
        process.wait().expect("ended");
    }

    pub(crate) fn hang(&self) {
        send(self.process(), "STOP");
    }

    pub(crate) fn go_on(&self) {
        send(self.process(), "CONT");
    }
}

impl Drop for Node {
    fn drop(&mut self) {
        if let Some(mut process) = self.process.take() {
            let _ = process.kill();
            let _ = process.wait();
        }
    }
}
