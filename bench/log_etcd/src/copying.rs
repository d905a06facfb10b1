//! A log in a database, copied into etcd, and read there.

use crate::bank::{self, PATIENCE, database_in};
use crate::reading::timed;
use argus_guardian::Listing;
use argus_guardian::log::{BatchLog, JournalLines};
use argus_guardian_etcd::{Campaign, EtcdLog, EtcdOptions, Follower};
use std::error::Error;
use std::path::Path;

// A batch has so many bytes, as the largest ones of a log that is written by many clients.
const BATCH: usize = 256 * 1024;

/// Copies a log that has no checkpoint, in batches of 256 KiB.
pub fn copy(options: &EtcdOptions, folder: &str) -> Result<(), Box<dyn Error>> {
    let leadership = Campaign::begin(options, "bench")?.wait()?;
    let mut log = EtcdLog::open(options, leadership.clone(), |_| Ok(()))?;
    let logged = bank::options().open(database_in(Path::new(folder)))?;
    let mut texts = vec![String::new()];
    for line in logged.list(Listing::Journal)?.split_inclusive('\n') {
        match texts.last_mut() {
            Some(text) if text.len() < BATCH => text.push_str(line),
            _ => texts.push(line.to_owned()),
        }
    }
    for text in texts {
        let lines = JournalLines::new(log.next(), text).ok_or("no whole lines")?;
        log.append(&lines)?;
    }
    leadership.resign();
    Ok(())
}

/// Reads the log, and leads with it. One line: `etcd ENTRIES READ OPENED READ OPENED`: the times are in seconds, first
/// by the clock and then on this thread's processor.
pub fn read(options: &EtcdOptions) -> Result<(), Box<dyn Error>> {
    let leadership = Campaign::begin(options, "bench")?.wait()?;
    let (position, read) = timed(|| Ok(EtcdLog::read(options, |_| Ok(()))?))?;
    let (logged, opened) = timed(|| {
        let (logged, _) = Follower::begin(options)?.lead(leadership.clone(), PATIENCE)?;
        Ok(logged)
    })?;
    assert_eq!(logged.entries(), position.entry);
    println!(
        "etcd {} {:.4} {:.4} {:.4} {:.4}",
        position.entry, read.clock, opened.clock, read.processor, opened.processor
    );
    leadership.resign();
    Ok(())
}
