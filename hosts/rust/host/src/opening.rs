//! `open`: a guardian made again of its log, in a database or in etcd.

use crate::arguments::ServeArguments;
use argus_guardian::log::{LogOptions, Logged};
use argus_guardian::{LineError, Resumption, Shared};
use argus_guardian_etcd::{Campaign, EtcdLog, EtcdOptions, Leadership};
use std::error::Error;
use std::path::Path;
use std::sync::atomic::{AtomicBool, Ordering};
use std::thread;
use std::time::Duration;

const POLL: Duration = Duration::from_millis(100);

/// A guardian over its log.
pub(crate) struct OpenGuardian {
    pub(crate) logged: Logged,
    pub(crate) epoch: u64,
    /// How many entries the log has beside its opening.
    pub(crate) in_log: u64,
    /// The right to append, where the log is in etcd.
    pub(crate) leadership: Option<Leadership>,
}

/// The guardian of a log; over etcd, once this host leads. None: a signal came before that.
pub(crate) fn open(
    asked: &ServeArguments,
    ends: &AtomicBool,
) -> Result<Option<OpenGuardian>, Box<dyn Error>> {
    if let Some(path) = &asked.log {
        return open_database(path).map(Some);
    }
    let options = asked.etcd.options()?;
    let Some(leadership) = lead(&options, &asked.name, ends)? else {
        return Ok(None);
    };
    open_etcd(&options, leadership).map(Some)
}

fn open_database(path: &Path) -> Result<OpenGuardian, Box<dyn Error>> {
    // The service makes checkpoints, where it doesn't keep an order waiting.
    let options = LogOptions {
        checkpoint_after: None,
        ..LogOptions::default()
    };
    let logged = options.open_or_create(path)?;
    let found = logged.found();
    let (epoch, entries, aborted) = (found.epoch + 1, found.entries, found.aborted);
    Ok(opened(logged, epoch, entries, aborted))
}

fn open_etcd(
    options: &EtcdOptions,
    leadership: Leadership,
) -> Result<OpenGuardian, Box<dyn Error>> {
    let (mut resumption, mut entries) = (Resumption::new()?, 0);
    let log = EtcdLog::open(options, leadership.clone(), |batch| {
        entries += batch.entries;
        resumption.take_whole(batch.lines)
    })?;
    let guardian = resumption.into_whole().map_err(|error| match error {
        LineError::Fault { why, .. } => why,
        LineError::OutOfMemory => "out of memory".to_owned(),
    })?;
    let (lines, head) = (guardian.entries(), log.next());
    if lines != head {
        let why =
            format!("by the log's lines entry {lines} comes next, and by its head entry {head}");
        return Err(why.into());
    }
    let logged = Logged::over(guardian, Box::new(log), Shared::PATIENCE)?;
    let aborted = logged.counts().entries;
    let opened = opened(logged, leadership.epoch(), entries, aborted);
    Ok(OpenGuardian {
        leadership: Some(leadership),
        ..opened
    })
}

// The guardian of a log that had so many entries.
fn opened(logged: Logged, epoch: u64, entries: u64, aborted: u64) -> OpenGuardian {
    eprintln!(
        "argus-host: {} entries, epoch {epoch}; {aborted} of them abort what was live",
        logged.entries()
    );
    OpenGuardian {
        logged,
        epoch,
        in_log: entries + aborted,
        leadership: None,
    }
}

fn lead(
    options: &EtcdOptions,
    name: &str,
    ends: &AtomicBool,
) -> Result<Option<Leadership>, Box<dyn Error>> {
    let mut campaign = Campaign::begin(options, name)?;
    while !ends.load(Ordering::Relaxed) {
        if let Some(leadership) = campaign.poll()? {
            return Ok(Some(leadership));
        }
        thread::sleep(POLL);
    }
    Ok(None)
}
