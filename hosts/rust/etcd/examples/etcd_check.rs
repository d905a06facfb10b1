//! Reads a log in etcd and checks it: each call is made again, and its reply compared. With `--lines` it prints the
//! journal's lines, which `./replay` checks and lists, or a backup keeps. The status is 1 where something is wrong, or
//! there is no log.
//!
//! ```text
//! cargo run --release --example etcd_check -- [--prefix NAME] [--lines] ENDPOINT..
//! ```

use argus_guardian_etcd::{EtcdLog, EtcdOptions, Follower, Maintenance, Position};
use std::env;
use std::error::Error;
use std::io::{self, Write};
use std::process::ExitCode;

const USAGE: &str = "usage: etcd_check [--prefix NAME] [--lines] ENDPOINT..";

// What the lines of an opening begin with, and no later part of one.
const OPENING: &str = "opening entries ";

struct Arguments {
    options: EtcdOptions,
    prints_lines: bool,
}

fn arguments(words: impl Iterator<Item = String>) -> Option<Arguments> {
    let mut arguments = Arguments {
        options: EtcdOptions::at::<String>([]),
        prints_lines: false,
    };
    let mut words = words;
    while let Some(word) = words.next() {
        match word.as_str() {
            "--prefix" => arguments.options.prefix = words.next()?,
            "--lines" => arguments.prints_lines = true,
            _ if word.starts_with("http") => arguments.options.endpoints.push(word),
            _ => return None,
        }
    }
    Some(arguments).filter(|it| !it.options.endpoints.is_empty())
}

// Prints all lines of the log, as they are there.
fn print_lines(options: &EtcdOptions) -> Result<Position, Box<dyn Error>> {
    let mut text = String::new();
    let read = EtcdLog::read(options, |batch| {
        // A checkpoint came meanwhile: what was before it doesn't count any more.
        if batch.lines.starts_with(OPENING) {
            text.clear();
        }
        text.push_str(batch.lines);
        Ok(())
    })?;
    io::stdout().write_all(text.as_bytes())?;
    Ok(read)
}

fn check(options: &EtcdOptions) -> Result<Position, Box<dyn Error>> {
    if let Some((name, epoch)) = Maintenance::new(options)?.leader()? {
        eprintln!("{name} leads, epoch {epoch}");
    }
    let mut follower = Follower::begin(options)?;
    follower.catch_up()?;
    // A read makes the guardian, and finds an opening of which none can be made.
    let ((), position) = follower.read(|_| ())?;
    Ok(position)
}

fn read(arguments: &Arguments) -> Result<Position, Box<dyn Error>> {
    let options = &arguments.options;
    let position = if arguments.prints_lines {
        print_lines(options)?
    } else {
        check(options)?
    };
    if position.revision == 0 {
        return Err(format!("there is no log under the prefix {}", options.prefix).into());
    }
    Ok(position)
}

fn main() -> ExitCode {
    let Some(arguments) = arguments(env::args().skip(1)) else {
        eprintln!("{USAGE}");
        return ExitCode::from(2);
    };
    match read(&arguments) {
        Ok(position) if arguments.prints_lines => {
            eprintln!("all lines are printed {position}");
            ExitCode::SUCCESS
        }
        Ok(position) => {
            eprintln!("all lines are right {position}");
            ExitCode::SUCCESS
        }
        Err(error) => {
            eprintln!("{error}");
            ExitCode::FAILURE
        }
    }
}
