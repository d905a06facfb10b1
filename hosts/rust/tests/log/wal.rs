//! What is wrong with the WAL of a log whose process was killed.

use crate::bank::carry_out;
use crate::faults::{Made, ORDERS, with};
use crate::opened_bank::open_bank;
use argus_guardian::log::{LogFault, Logged};
use std::fs;
use std::ops::Range;
use std::path::PathBuf;
use std::time::Duration;

const HEADER: usize = 32;
const HEAD: usize = 24;
const STEP: usize = HEAD + 4096;
const LAST: i64 = ORDERS + 19;

fn orders(bank: &Logged) {
    for number in ORDERS..=LAST {
        carry_out(bank, 0, number).expect("carried out");
    }
}

// A bank that was killed, its WAL, and what that has.
fn killed() -> (Made, PathBuf, Vec<u8>) {
    let made = Made::bank().crashed(orders);
    let wal = with(&made.path, "-wal");
    let content = fs::read(&wal).expect("read");
    (made, wal, content)
}

// A WAL in which these bytes are other ones.
fn changed(content: &[u8], at: Range<usize>, byte: impl Fn(u8) -> u8) -> Vec<u8> {
    let mut changed = content.to_vec();
    changed[at].iter_mut().for_each(|it| *it = byte(*it));
    changed
}

// The numbers of the frames that end a commit.
fn ends(content: &[u8]) -> Vec<usize> {
    let frames = content[HEADER..].chunks_exact(STEP);
    let ends = frames
        .enumerate()
        .filter(|(_, frame)| frame[4..8] != [0; 4]);
    ends.map(|(number, _)| number).collect()
}

#[test]
fn it_is_missing_or_empty() {
    let (made, wal, content) = killed();
    fs::remove_file(&wal).expect("removed");
    made.refuse(LogFault::WalMissing, "what it had is gone");
    fs::write(&wal, "").expect("written");
    made.refuse(LogFault::WalMissing, "what it had is gone");
    fs::write(&wal, content).expect("put back");
    made.has(LAST);
}

#[test]
fn it_was_moved_by_another_program() {
    let (made, _, _) = killed();
    made.numbers("SELECT epoch FROM log");
    made.refuse(LogFault::WalMissing, "UPDATE log SET is_open = 0");
    made.sql("UPDATE log SET is_open = 0");
    made.has(LAST);
}

#[test]
fn a_bit_of_a_frame_has_flipped() {
    let (made, wal, content) = killed();
    let ends = ends(&content);
    assert!(ends.len() > 10);
    // All but those of the last two commits, each in its page and in its head.
    for frame in 0..=ends[ends.len() - 3] {
        for at in [1000, 9] {
            let at = HEADER + frame * STEP + at;
            fs::write(&wal, changed(&content, at..at + 1, |it| it ^ 1)).expect("written");
            made.refuse(
                LogFault::WalDamaged,
                &format!("frame {} has changed", frame + 1),
            );
        }
    }
    fs::write(&wal, changed(&content, 20..21, |it| it ^ 1)).expect("written");
    made.refuse(LogFault::WalDamaged, "the header has changed");
    fs::write(&wal, content).expect("put back");
    made.has(LAST);
}

#[test]
fn the_last_commit_is_torn() {
    let (made, wal, content) = killed();
    let (file, ends) = (fs::read(&made.path).expect("read"), ends(&content));
    let frames = (content.len() - HEADER) / STEP;
    assert_eq!(ends[ends.len() - 1], frames - 1);
    let mut torn = vec![
        content[..content.len() - 100].to_vec(),
        content[..content.len() - STEP].to_vec(),
    ];
    for frame in ends[ends.len() - 2] + 1..frames {
        // Of what wasn't on disk yet any part may be missing, also where later parts are there.
        let at = HEADER + frame * STEP;
        torn.push(changed(&content, at..at + STEP, |_| 0));
        torn.push(changed(&content, at + HEAD..at + STEP, |_| 0));
    }
    for content in torn {
        fs::write(&made.path, &file).expect("put back");
        fs::write(&wal, content).expect("written");
        // Nobody can tell that from a write that was never acknowledged: what is before it is there.
        made.has(LAST - 1);
    }
}

#[test]
fn half_of_it_is_gone() {
    let (made, wal, content) = killed();
    // Within a commit, so that the rest of that is gone: the frames behind the file's end can't be seen.
    fs::write(
        &wal,
        changed(&content, content.len() / 4..content.len() / 2, |_| 0),
    )
    .expect("written");
    made.refuse(LogFault::WalDamaged, "has changed");
    fs::write(&wal, &content[..HEADER / 2]).expect("written");
    made.refuse(LogFault::WalMissing, "");
}

#[test]
fn it_is_that_of_another_log() {
    let (made, wal, content) = killed();
    let (_other, other_wal, _) = killed();
    fs::copy(other_wal, &wal).expect("copied");
    made.refuse(LogFault::OtherLog, "the WAL beside it");
    fs::write(&wal, content).expect("put back");
    made.has(LAST);
}

#[test]
fn it_is_older_than_the_file() {
    let made = Made::bank();
    let old = made.crashed(orders);
    let folded = made.crashed(|bank| {
        bank.checkpoint_waiting(Duration::from_secs(10))
            .expect("folded");
        orders(bank);
    });
    // What has been moved into the file.
    drop(open_bank(&folded.path));
    folded.orders(LAST + 1, LAST + 3);
    let newer = folded.crashed(|_| ());
    fs::copy(with(&old.path, "-wal"), with(&newer.path, "-wal")).expect("copied");
    newer.refuse(LogFault::LogOld, "that is older");
}
