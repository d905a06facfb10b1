//! `verify`: what stands in a log, by the proved archive.

use argus_guardian::log::{LogFault, LogOptions, LoggedError};
use std::path::Path;
use std::process::ExitCode;

const DAMAGED: u8 = 1;
const NOT_READ: u8 = 3;

/// Reads a log, makes each call again and says what is there. Nothing in it is changed.
pub(crate) fn verify(path: &Path) -> ExitCode {
    let error = match LogOptions::default().check(path) {
        Ok(found) => {
            println!("log {}", found.name);
            println!("batches {}", found.batches);
            println!("entries {}, the next one is {}", found.entries, found.next);
            println!("objects {}", found.objects);
            println!("epoch {}", found.epoch);
            return ExitCode::SUCCESS;
        }
        Err(error) => error,
    };
    let is_damage = match &error {
        LoggedError::Database(fault, _) => !matches!(
            fault,
            LogFault::NoLog
                | LogFault::NotALog
                | LogFault::OtherFormat
                | LogFault::Locked
                | LogFault::Unreadable
        ),
        _ => false,
    };
    if is_damage {
        println!("the log is damaged: {error}");
        return ExitCode::from(DAMAGED);
    }
    eprintln!("argus-host: {error}");
    ExitCode::from(NOT_READ)
}
