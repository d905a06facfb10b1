//! `Host`: the program, in a process of its own.

use crate::client::Client;
use std::fs;
use std::io::{BufRead, BufReader};
use std::path::{Path, PathBuf};
use std::process::{Child, Command, ExitStatus, Stdio};
use std::time::{Duration, Instant};

pub(crate) const PROGRAM: &str = env!("CARGO_BIN_EXE_argus-host");

/// The database of a log in a folder.
pub(crate) fn database_in(folder: &Path) -> PathBuf {
    folder.join("bank.db")
}

/// The program, in a process of its own, which ends with it.
pub(crate) struct Host {
    process: Child,
    pub(crate) client: Client,
}

impl Host {
    /// A host over a log in this folder.
    pub(crate) fn serve(folder: &Path, words: &[&str]) -> Host {
        fs::create_dir_all(folder).expect("made");
        let mut command = Command::new(PROGRAM);
        command
            .arg("serve")
            .arg("--log")
            .arg(database_in(folder))
            .args(words);
        Host::start(command.args(["--listen", "127.0.0.1:0"]))
    }

    /// Starts it, and waits until it listens.
    pub(crate) fn start(command: &mut Command) -> Host {
        let mut process = command.stdout(Stdio::piped()).spawn().expect("started");
        let mut line = String::new();
        let output = process.stdout.take().expect("piped");
        BufReader::new(output).read_line(&mut line).expect("read");
        let address = line.trim_end().strip_prefix("listens at ");
        let address = address.expect("it listens").parse().expect("an address");
        let client = Client(address);
        Host { process, client }
    }

    pub(crate) fn kill(mut self) {
        self.process.kill().expect("killed");
        self.process.wait().expect("ended");
    }

    pub(crate) fn signal(&self, signal: &str) {
        let pid = self.process.id().to_string();
        let sent = Command::new("kill").args(["-s", signal, &pid]).status();
        assert!(sent.expect("kill is there").success());
    }

    /// Ends it by SIGTERM.
    pub(crate) fn stop(mut self) -> ExitStatus {
        self.signal("TERM");
        self.ended()
    }

    /// Its status, once it has ended by itself.
    pub(crate) fn ended(&mut self) -> ExitStatus {
        let until = Instant::now() + Duration::from_secs(60);
        while Instant::now() < until {
            if let Some(status) = self.process.try_wait().expect("waited") {
                return status;
            }
            std::thread::sleep(Duration::from_millis(20));
        }
        panic!("it doesn't end");
    }
}

impl Drop for Host {
    fn drop(&mut self) {
        let _ = self.process.kill();
        let _ = self.process.wait();
    }
}
