//! The bank of the tests, over a database.

use crate::bank::set_up;
use argus_guardian::log::{LogOptions, Logged};
use std::path::Path;
use std::time::Duration;

/// Checkpoints come often.
pub const OPTIONS: LogOptions = LogOptions {
    patience: Duration::from_secs(100),
    checkpoint_after: Some(2000),
    name: None,
    at_least: 0,
};

/// The bank of this database, which is made if it isn't there.
pub fn open_bank(path: impl AsRef<Path>) -> Logged {
    let bank = OPTIONS.open_or_create(path).expect("opened");
    set_up(&bank).expect("set up");
    bank
}
