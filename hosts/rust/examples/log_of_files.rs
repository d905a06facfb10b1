//! Reads a log in files, as version 0.1.0 wrote it at first, and writes a database of it.
//!
//!     cargo run --release --features sqlite --example log_of_files -- FOLDER DATABASE
//!
//! The folder is as it was. A last batch that is torn isn't taken, and it is said where.

use argus_guardian::log::{BatchLog, JournalLines, LogOptions, SqliteLog};
use std::error::Error;
use std::path::{Path, PathBuf};
use std::{env, fs};

/// A batch of the files.
struct Batch<'b> {
    first: u64,
    lines: &'b str,
}

// The word behind `name=` in a line.
fn word<'l>(line: &'l str, name: &str) -> Option<&'l str> {
    let mut words = line.split(' ');
    words.find_map(|it| it.strip_prefix(name)?.strip_prefix('='))
}

// The batch that comes next in a segment, and what is behind it; None if no whole one comes.
fn next_batch(rest: &[u8]) -> Option<(Batch<'_>, &[u8])> {
    let end = rest.iter().position(|it| *it == b'\n')?;
    let head = std::str::from_utf8(&rest[..end]).ok()?;
    if !head.starts_with("#opening ") && !head.starts_with("#batch ") {
        // The segment's first line, a seal, or the last line of a full segment.
        return head
            .starts_with('#')
            .then(|| next_batch(&rest[end + 1..]))?;
    }
    let size: usize = word(head, "bytes")?.parse().ok()?;
    let body = rest.get(end + 1..end + 1 + size)?;
    let sum = u32::from_str_radix(word(head, "body")?, 16).ok()?;
    let batch = Batch {
        first: word(head, "first")?.parse().ok()?,
        lines: std::str::from_utf8(body).ok()?,
    };
    (crc32fast::hash(body) == sum).then_some((batch, &rest[end + 1 + size..]))
}

fn copy(segment: &Path, log: &mut SqliteLog) -> Result<(), Box<dyn Error>> {
    let content = fs::read(segment)?;
    let mut rest = &content[..];
    while let Some((batch, behind)) = next_batch(rest) {
        let lines = JournalLines::new(batch.first, batch.lines.to_owned());
        log.append(&lines.ok_or("no whole lines")?)?;
        rest = behind;
    }
    // Behind the last batch there are its seal, and zeros.
    let last = rest
        .split(|it| *it == b'\n')
        .find(|it| !it.starts_with(b"#seal ") && !it.starts_with(b"#continued "));
    if last.is_some_and(|it| it.iter().any(|it| *it != 0)) {
        let at = content.len() - rest.len();
        eprintln!(
            "{}: what is behind byte {at} isn't taken",
            segment.display()
        );
    }
    Ok(())
}

fn main() -> Result<(), Box<dyn Error>> {
    let words: Vec<PathBuf> = env::args_os().skip(1).map(PathBuf::from).collect();
    let [folder, database] = &words[..] else {
        return Err("log_of_files FOLDER DATABASE".into());
    };
    let files = fs::read_dir(folder)?.map(|it| Ok(it?.path()));
    let mut segments = files.collect::<Result<Vec<PathBuf>, std::io::Error>>()?;
    segments.retain(|it| it.extension().is_some_and(|it| it == "log"));
    segments.sort();
    let mut log = SqliteLog::create(database)?;
    segments.iter().try_for_each(|it| copy(it, &mut log))?;
    drop(log);
    let found = LogOptions::default().check(database)?;
    println!(
        "{} entries, the next one is {}; {} objects",
        found.entries, found.next, found.objects
    );
    Ok(())
}
