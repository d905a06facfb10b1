//! `trace_of`: what a process has done with its files, as `trace.c` has noted it.

use std::fs;
use std::path::Path;

/// Makes the library that notes it, in C.
pub const SOURCE: &str = include_str!("trace.c");

/// What a process has done. Files go by their names in the folder.
#[derive(Debug, Clone, PartialEq, Eq)]
pub enum Event {
    Write {
        file: String,
        at: usize,
        bytes: Vec<u8>,
    },
    Resize {
        file: String,
        size: usize,
    },
    Sync {
        file: String,
    },
    SyncFolder,
    Link {
        from: String,
        to: String,
    },
    Unlink {
        file: String,
    },
    /// It has printed this.
    Said(String),
}

/// What a file of records says of the log's files in this folder. The index of a WAL and the empty database that has the
/// lock aren't the log: SQLite makes them anew.
pub fn trace_of(file: &Path, folder: &Path) -> Vec<Event> {
    let content = fs::read(file).expect("read");
    let (mut rest, mut events) = (&content[..], Vec::new());
    while !rest.is_empty() {
        let (event, behind) = next_event(rest, folder);
        events.extend(event);
        rest = behind;
    }
    events
}

fn line(bytes: &[u8]) -> (&str, &[u8]) {
    let end = bytes
        .iter()
        .position(|it| *it == b'\n')
        .expect("a whole line");
    let line = std::str::from_utf8(&bytes[..end]).expect("UTF-8");
    (line, &bytes[end + 1..])
}

fn next_event<'b>(record: &'b [u8], folder: &Path) -> (Option<Event>, &'b [u8]) {
    let (head, rest) = line(record);
    let (path, rest) = line(rest);
    let words: Vec<&str> = head.split(' ').collect();
    let [kind, at, size] = words[..] else {
        panic!("{head}");
    };
    let (bytes, rest) = rest.split_at(size.parse().expect("a number"));
    let text = || String::from_utf8(bytes.to_vec()).expect("UTF-8");
    let event = match (kind, Path::new(path) == folder, name(path, folder)) {
        ("said", ..) => Some(Event::Said(text())),
        ("sync", true, _) => Some(Event::SyncFolder),
        ("write", _, Some(file)) => Some(Event::Write {
            file,
            at: at.parse().expect("a number"),
            bytes: bytes.to_vec(),
        }),
        ("size", _, Some(file)) => Some(Event::Resize {
            file,
            size: at.parse().expect("a number"),
        }),
        ("sync", _, Some(file)) => Some(Event::Sync { file }),
        ("unlink", _, Some(file)) => Some(Event::Unlink { file }),
        ("link", _, Some(from)) => name(&text(), folder).map(|to| Event::Link { from, to }),
        _ => None,
    };
    (event, rest)
}

// The name of the log's file; None if it is none.
fn name(path: &str, folder: &Path) -> Option<String> {
    let name = Path::new(path).strip_prefix(folder).ok()?.to_str()?;
    let is_beside = ["-shm", "-owner", " (deleted)"]
        .iter()
        .any(|it| name.ends_with(it));
    (!is_beside && !name.is_empty()).then(|| name.to_owned())
}
