//! `Child`: a test of this program in a process of its own, which the parent may kill.

use std::env;
use std::io::{self, BufRead, BufReader, Write};
use std::path::{Path, PathBuf};
use std::process::{self, Command, ExitStatus, Stdio};
use std::sync::mpsc::{Receiver, channel};
use std::thread::{self, JoinHandle};
use std::time::Duration;

const FOLDER: &str = "ARGUS_LOG_CHILD_FOLDER";
// A test that would wait longer has failed.
const LONG: Duration = Duration::from_secs(60);

/// An order: its client, and its number.
pub type Order = (u32, i64);

/// A test of this program in a process of its own, which says on its standard output which orders were
/// acknowledged. All that it has said is read, also after its death.
pub struct Child {
    process: process::Child,
    has_first: Receiver<()>,
    orders: JoinHandle<Vec<Order>>,
}

/// The client and the number of an order that a line says was acknowledged.
pub fn order_in(line: &str) -> Option<Order> {
    let (client, number) = line.strip_prefix("acknowledged ")?.split_once(' ')?;
    Some((client.parse().ok()?, number.parse().ok()?))
}

impl Child {
    /// In the child: the folder that the parent has named.
    pub fn folder() -> PathBuf {
        env::var_os(FOLDER).expect("the parent names it").into()
    }

    /// In the child: an order was acknowledged. There is to be another one.
    pub fn tell(client: u32, number: i64) -> bool {
        let line = format!("acknowledged {client} {number}\n");
        io::stdout().write_all(line.as_bytes()).expect("told");
        true
    }

    /// Runs a test that is ignored else, with these words in its environment.
    pub fn start(test: &str, folder: &Path, words: &[(&str, String)]) -> Child {
        let mut command = Command::new(env::current_exe().expect("this program"));
        command
            .args([test, "--exact", "--ignored", "--nocapture"])
            // With one thread, as on one processor, a test's name would stand before the first thing that it says.
            .arg("--test-threads=2")
            .env(FOLDER, folder)
            .envs(words.iter().map(|(name, word)| (name, word)))
            .stdout(Stdio::piped());
        let mut process = command.spawn().expect("started");
        let output = BufReader::new(process.stdout.take().expect("piped"));
        let (say, has_first) = channel();
        let orders = thread::spawn(move || {
            let lines = output.lines().map_while(Result::ok);
            let orders = lines.filter_map(|line| order_in(&line));
            // The parent may have stopped waiting.
            orders.inspect(|_| say.send(()).unwrap_or(())).collect()
        });
        Child {
            process,
            has_first,
            orders,
        }
    }

    /// Returns once an order was acknowledged.
    pub fn wait_for_first(&self) {
        self.has_first.recv_timeout(LONG).expect("an order");
    }

    /// Kills it by SIGKILL. The orders that it says were acknowledged.
    pub fn killed(mut self) -> Vec<Order> {
        self.process.kill().expect("killed");
        self.ended().1
    }

    /// How it ended, and the orders that it says were acknowledged.
    pub fn ended(mut self) -> (ExitStatus, Vec<Order>) {
        let orders = self.orders.join().expect("read");
        (self.process.wait().expect("ended"), orders)
    }
}
