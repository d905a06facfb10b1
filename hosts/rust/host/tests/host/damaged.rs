//! `verify` of logs that are right, torn and damaged, and where there is none.

use crate::host::{Host, PROGRAM, database_in};
use crate::scratch::Scratch;
use std::fs;
use std::path::{Path, PathBuf};
use std::process::Command;

/// What `verify` says of the log in a folder, and its status.
pub(crate) fn verify(folder: &Path) -> (Option<i32>, String) {
    let output = Command::new(PROGRAM)
        .arg("verify")
        .arg(database_in(folder))
        .output()
        .expect("ran");
    let text = [output.stdout, output.stderr].concat();
    (
        output.status.code(),
        String::from_utf8(text).expect("UTF-8"),
    )
}

// A log of an account with 5, and 7 paid at last.
fn log_in(scratch: &Scratch) -> PathBuf {
    let folder = scratch.path().join("log");
    let host = Host::serve(&folder, &[]);
    host.client.open_accounts(1, 5);
    assert_eq!(host.client.order("last", &[(0, 1, 7)]).0, 200);
    host.kill();
    folder
}

#[test]
fn a_log_that_is_right() {
    let scratch = Scratch::new("right");
    let folder = log_in(&scratch);
    let (status, text) = verify(&folder);
    assert_eq!(status, Some(0), "{text}");
    assert!(text.contains("objects 66\n"), "{text}");
    let host = Host::serve(&folder, &[]);
    let (status, text) = verify(&folder);
    assert_eq!(status, Some(3), "{text}");
    assert!(text.contains("another process has the log"));
    host.kill();
    assert_eq!(verify(&scratch.path().join("elsewhere")).0, Some(3));
}

#[test]
fn a_folder_without_a_log() {
    let scratch = Scratch::new("empty");
    let (status, text) = verify(scratch.path());
    assert_eq!(status, Some(3), "{text}");
    assert!(text.contains("no log is there"), "{text}");
    assert_eq!(fs::read_dir(scratch.path()).expect("read").count(), 0);
}

#[test]
fn a_log_that_is_damaged() {
    let scratch = Scratch::new("damaged");
    let folder = log_in(&scratch);
    // A stop in order leaves all in the file.
    assert!(Host::serve(&folder, &[]).stop().success());
    let bytes = fs::read(database_in(&folder)).expect("read");
    let mut changed = bytes.clone();
    let places = bytes
        .windows(6)
        .enumerate()
        .filter(|(_, it)| it == b"open-1");
    places.for_each(|(place, _)| changed[place] = b'O');
    assert!(changed != bytes);
    fs::write(database_in(&folder), &changed).expect("written");
    let (status, text) = verify(&folder);
    assert_eq!(status, Some(1), "{text}");
    assert!(
        text.contains("the log is damaged: `log` has another sum"),
        "{text}"
    );
    // It isn't served, either.
    let mut command = Command::new(PROGRAM);
    command
        .args(["serve", "--listen", "127.0.0.1:0", "--log"])
        .arg(database_in(&folder));
    let output = command.output().expect("ran");
    assert_eq!(output.status.code(), Some(2));
    assert!(String::from_utf8_lossy(&output.stderr).contains("another sum"));
    fs::write(database_in(&folder), &bytes).expect("written");
    assert_eq!(verify(&folder).0, Some(0));
}

#[test]
fn a_log_that_is_torn() {
    let scratch = Scratch::new("torn");
    let folder = log_in(&scratch);
    let wal = folder.join("bank.db-wal");
    let bytes = fs::read(&wal).expect("read");
    fs::write(&wal, &bytes[..bytes.len() - 100]).expect("written");
    let (status, text) = verify(&folder);
    assert_eq!(status, Some(0), "{text}");
    let host = Host::serve(&folder, &[]);
    assert_eq!(host.client.balance(1), 5);
    host.kill();
    fs::remove_file(&wal).expect("removed");
    let (status, text) = verify(&folder);
    assert_eq!(status, Some(1), "{text}");
    assert!(text.contains("the log wasn't closed"), "{text}");
}
