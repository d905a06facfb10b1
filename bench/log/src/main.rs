//! What a log costs: orders of a bank a second, in memory and with each way to wait for the log.
//!
//!     log-bench orders FOLDER memory|each|group CLIENTS SECONDS
//!     log-bench write FOLDER ENTRIES
//!     log-bench read FOLDER
//!     log-bench sync FOLDER
//!
//! `bench/log.sh` runs it, beside the same orders in `SQLite` and over etcd. The folder is one that isn't there yet,
//! on the disk that is to be measured; that of `read` is one that `write` has made.

mod bank;
mod figures;
mod orders;
mod reading;
mod syncing;

use crate::bank::Way;
use std::env;
use std::error::Error;
use std::path::Path;
use std::time::Duration;

const USAGE: &str = "log-bench orders FOLDER memory|each|group CLIENTS SECONDS, \
    write FOLDER ENTRIES, read FOLDER, sync FOLDER";

fn main() -> Result<(), Box<dyn Error>> {
    let words: Vec<String> = env::args().skip(1).collect();
    let words: Vec<&str> = words.iter().map(String::as_str).collect();
    match words[..] {
        ["orders", folder, way, clients, seconds] => {
            let way: Way = way.parse()?;
            let time = Duration::from_secs_f64(seconds.parse()?);
            let figures = bank::run(Path::new(folder), way, clients.parse()?, time)?;
            figures.print(way.words());
        }
        ["write", folder, entries] => reading::write(Path::new(folder), entries.parse()?)?,
        ["read", folder] => reading::run(Path::new(folder))?,
        ["sync", folder] => syncing::run(Path::new(folder))?,
        _ => return Err(USAGE.into()),
    }
    Ok(())
}
