//! `argus-host`: a small bank over HTTP, over a guardian that outlives its process.
//!
//! Neither this program nor the logs that it stands on are proved; the archive of the guardian is. The repository's
//! page docs/ETCD.md says how to run it, and docs/DURABLE.md what a log promises.

mod arguments;
mod bank;
mod bank_error;
mod bank_follower;
mod bank_service;
mod follower_service;
mod keys;
mod opening;
mod order;
mod records;
mod reply;
mod request;
mod server;
mod verifying;
mod visit;

use crate::arguments::{Arguments, Command};
use crate::bank_service::BankService;
use crate::follower_service::FollowerService;
use crate::server::Server;
use clap::Parser;
use std::error::Error;
use std::process::ExitCode;
use std::sync::Arc;
use std::sync::atomic::AtomicBool;

fn signals() -> Result<Arc<AtomicBool>, Box<dyn Error>> {
    let ends = Arc::new(AtomicBool::new(false));
    for signal in [signal_hook::consts::SIGTERM, signal_hook::consts::SIGINT] {
        signal_hook::flag::register(signal, Arc::clone(&ends))?;
    }
    Ok(ends)
}

fn run(command: Command) -> Result<ExitCode, Box<dyn Error>> {
    match command {
        Command::Verify { database } => Ok(verifying::verify(&database)),
        Command::Serve(asked) => {
            let ends = signals()?;
            let server = Server::begin(&asked.http)?;
            let Some(opened) = opening::open(&asked, &ends)? else {
                return Ok(ExitCode::SUCCESS);
            };
            let service = BankService::over(opened, &asked)?;
            server.run(&service, &ends)
        }
        Command::Follow { etcd, http } => {
            let ends = signals()?;
            let server = Server::begin(&http)?;
            let service = FollowerService::over(&etcd.options()?)?;
            server.run(&service, &ends)
        }
    }
}

fn main() -> ExitCode {
    match run(Arguments::parse().command) {
        Ok(code) => code,
        Err(error) => {
            eprintln!("argus-host: {error}");
            ExitCode::from(2)
        }
    }
}
