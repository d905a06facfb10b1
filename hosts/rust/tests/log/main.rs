//! What a log keeps, whatever becomes of its process and its files.

mod bank;
mod child;
mod clock;
mod cuts;
mod disk;
mod faults;
mod full;
mod gated_log;
mod groups;
mod kills;
mod ledger;
mod names;
mod opened_bank;
mod opening;
mod orders;
mod owners;
mod processes;
mod python;
mod read_only;
mod scratch;
mod syncs;
mod trace;
mod wal;
