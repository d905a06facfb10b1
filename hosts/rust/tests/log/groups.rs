//! Commits that wait for a log together, and what they are told when it fails.

use crate::gated_log::{Gate, GatedLog, Piece, Say};
use argus_guardian::log::{JournalLines, Logged, LoggedAction, LoggedError};
use argus_guardian::{Access, Change, Error, Guardian, ObjId, Refusal, Value};
use std::sync::Arc;
use std::sync::mpsc::{Receiver, channel};
use std::thread;
use std::time::Duration;

const LONG: Duration = Duration::from_secs(60);

fn logged() -> (Logged, Gate) {
    let (log, gate) = GatedLog::new();
    let guardian = Guardian::new().expect("made");
    let logged = Logged::over(guardian, Box::new(log), LONG).expect("made");
    (logged, gate)
}

fn lines(text: &[&str]) -> Piece {
    Piece::Lines(text.join("\n") + "\n")
}

// Waits until so many entries were made.
fn until_entries(logged: &Logged, entries: u64) {
    while logged.entries() < entries {
        thread::yield_now();
    }
}

#[test]
fn lines_are_whole() {
    let text = "7 begin_top -> a3\n8 commit a3 -> done\n";
    let lines = JournalLines::new(7, text.into()).expect("whole lines");
    assert_eq!((lines.first, lines.next, &lines.text[..]), (7, 9, text));
    assert!(!lines.is_opening());
    assert_eq!(JournalLines::new(7, "7 begin_top -> a3".into()), None);
    let text = "opening entries 4 actions 1\n";
    let opening = JournalLines::new(4, text.into()).expect("whole lines");
    assert_eq!(
        (opening.first, opening.next, &opening.text[..]),
        (4, 4, text)
    );
    assert!(opening.is_opening());
    assert_eq!(JournalLines::new(4, "opening ".into()), None);
}

#[test]
fn what_is_in_doubt_says_why() {
    let failure = std::io::Error::other("no disk").into();
    let words = LoggedError::InDoubt(failure).to_string();
    assert_eq!(words, "in doubt: the log couldn't be written: no disk");
}

#[test]
fn a_commit_returns_once_the_log_has_it() {
    let (logged, gate) = logged();
    let (tell, told) = channel();
    thread::scope(|scope| {
        scope.spawn(|| {
            let top = logged.topaction().expect("begun");
            top.subaction()
                .expect("begun")
                .commit()
                .expect("to its parent");
            tell.send("subaction").expect("told");
            top.commit().expect("acknowledged");
            tell.send("topaction").expect("told");
        });
        assert_eq!(told.recv(), Ok("subaction"));
        let wanted = lines(&[
            "0 begin_top -> a0",
            "1 begin_sub a0 -> a1",
            "2 commit a1 -> done",
            "3 commit a0 -> done",
        ]);
        assert_eq!(gate.begun(), wanted);
        assert!(told.recv_timeout(Duration::from_millis(30)).is_err());
        gate.say(Say::Go);
        assert_eq!(told.recv(), Ok("topaction"));
        assert_eq!(gate.kept(), [wanted]);
    });
}

#[test]
fn calls_go_on_while_a_batch_is_written_and_commits_share_the_next() {
    let (logged, gate) = logged();
    thread::scope(|scope| {
        let commit = || logged.topaction()?.commit();
        let first = scope.spawn(commit);
        assert_eq!(
            gate.begun(),
            lines(&["0 begin_top -> a0", "1 commit a0 -> done"])
        );
        // Its write isn't over, and four more begin and commit.
        let others = [(); 4].map(|()| scope.spawn(commit));
        until_entries(&logged, 10);
        gate.say(Say::Go);
        // The thread that wrote the first batch may write the second, too.
        let Piece::Lines(second) = gate.pass() else {
            panic!("lines");
        };
        assert_eq!(second.lines().count(), 8);
        for commit in [first].into_iter().chain(others) {
            commit.join().expect("no panic").expect("acknowledged");
        }
        assert_eq!(gate.kept().len(), 2);
    });
}

#[test]
fn a_nested_topaction_waits_and_an_abort_doesnt() {
    let (logged, gate) = logged();
    thread::scope(|scope| {
        let work = scope.spawn(|| {
            let top = logged.topaction()?;
            top.nested()?.commit()?;
            top.abort()
        });
        let wanted = [
            "0 begin_top -> a0",
            "1 begin_nested a0 -> a1",
            "2 commit a1 -> done",
        ];
        assert_eq!(gate.pass(), lines(&wanted));
        work.join().expect("no panic").expect("aborted");
    });
    assert_eq!(logged.entries(), 4);
    assert_eq!(gate.kept().len(), 1);
}

#[test]
fn what_is_told_is_in_the_log() {
    let (logged, gate) = logged();
    let logged = &logged;
    thread::scope(|scope| {
        let object = scope.spawn(|| logged.declare("atomic_record[n:int]"));
        assert_eq!(
            gate.pass(),
            lines(&["0 declare atomic_record[n:int] -> o0"])
        );
        let object = object.join().expect("no panic").expect("acknowledged");
        // A commit that isn't in the log yet: who reads what it left waits for it.
        let writes = scope.spawn(move || {
            let top = logged.topaction()?;
            top.alter(object, Change::Create("{5}".parse()?))?.done()?;
            top.commit()
        });
        gate.begun();
        let base = scope.spawn(move || logged.base(object));
        let waits = scope.spawn(|| logged.barrier());
        thread::sleep(Duration::from_millis(30));
        assert!(!base.is_finished() && !waits.is_finished());
        gate.say(Say::Go);
        writes.join().expect("no panic").expect("acknowledged");
        let base = base.join().expect("no panic").expect("acknowledged");
        assert_eq!(base, "{5}".parse().ok());
        waits.join().expect("no panic").expect("acknowledged");
    });
}

// So many threads begin and commit a topaction each. What they are told comes out.
fn commits_of(logged: &Arc<Logged>, threads: usize) -> Receiver<Result<(), LoggedError>> {
    let (tell, told) = channel();
    for _ in 0..threads {
        let (logged, tell) = (Arc::clone(logged), tell.clone());
        thread::spawn(move || {
            let committed = logged.topaction().and_then(LoggedAction::commit);
            tell.send(committed).expect("the test waits");
        });
    }
    told
}

#[test]
fn a_failure_leaves_those_who_wait_in_doubt_and_refuses_the_others() {
    for says in [Say::Fail, Say::Panic] {
        let (logged, gate) = logged();
        let logged = Arc::new(logged);
        let late = logged.topaction().expect("begun");
        let first = commits_of(&logged, 1);
        gate.begun();
        let others = commits_of(&logged, 4);
        until_entries(&logged, 1 + 2 + 2 * 4);
        // By now they wait, or will find that it has failed.
        thread::sleep(Duration::from_millis(30));
        gate.say(says);
        // After a panic the thread that wrote has nothing to tell.
        let wrote = usize::from(says == Say::Fail);
        for (told, count) in [(first, wrote), (others, 4)] {
            for _ in 0..count {
                let error = told
                    .recv_timeout(LONG)
                    .expect("woken")
                    .expect_err("in doubt");
                assert!(matches!(error, LoggedError::InDoubt(_)), "{error}");
            }
        }
        // Nothing is called from then on.
        let entries = logged.entries();
        let errors = [
            logged.topaction().err(),
            logged.declare("atomic_array[int]").err(),
            logged.barrier().err(),
            logged.checkpoint_waiting(LONG).err(),
            late.get::<Value>(ObjId::numbered(0), 0).err(),
            late.subaction().err(),
        ];
        for error in errors {
            assert!(matches!(error, Some(LoggedError::Broken(_))), "{error:?}");
        }
        assert_eq!(logged.entries(), entries);
        assert!(matches!(late.commit(), Err(LoggedError::Broken(_))));
        assert!(gate.kept().is_empty());
    }
}

#[test]
fn a_checkpoint_comes_behind_all_lines() {
    let (logged, gate) = logged();
    thread::scope(|scope| {
        let commits = scope.spawn(|| logged.topaction()?.commit());
        gate.begun();
        // Its entries are in the guardian, and their write isn't over.
        let aborts = scope.spawn(|| logged.topaction()?.abort());
        aborts.join().expect("no panic").expect("aborted");
        let folds = scope.spawn(|| logged.checkpoint_waiting(LONG));
        thread::sleep(Duration::from_millis(30));
        let after = scope.spawn(|| logged.topaction()?.commit());
        until_entries(&logged, 6);
        gate.say(Say::Go);
        assert_eq!(
            gate.pass(),
            lines(&["2 begin_top -> a1", "3 abort a1 -> done"])
        );
        let opening = Piece::Opening("opening entries 4 actions 2\n".to_owned());
        assert_eq!(gate.begun(), opening);
        thread::sleep(Duration::from_millis(30));
        assert!(!folds.is_finished());
        gate.say(Say::Go);
        assert_eq!(
            gate.pass(),
            lines(&["4 begin_top -> a2", "5 commit a2 -> done"])
        );
        commits.join().expect("no panic").expect("acknowledged");
        folds.join().expect("no panic").expect("begun anew");
        after.join().expect("no panic").expect("acknowledged");
    });
}

#[test]
fn a_busy_checkpoint_changes_nothing() {
    let (logged, gate) = logged();
    let top = logged.topaction().expect("begun");
    let folded = logged.checkpoint_waiting(Duration::from_millis(10));
    assert!(
        matches!(folded, Err(LoggedError::Guardian(Error::Checkpoint(_)))),
        "{folded:?}"
    );
    thread::scope(|scope| {
        let commits = scope.spawn(|| top.commit());
        let all = ["0 begin_top -> a0", "1 commit a0 -> done"];
        assert_eq!(gate.pass(), lines(&all));
        commits.join().expect("no panic").expect("acknowledged");
    });
}

#[test]
fn a_checkpoint_of_nothing_writes_nothing() {
    let (logged, gate) = logged();
    logged.checkpoint_waiting(LONG).expect("folded");
    assert!(gate.kept().is_empty());
}

#[test]
fn what_runs_again_is_acknowledged_once() {
    let (logged, gate) = logged();
    let mut tries = 0;
    thread::scope(|scope| {
        let run = scope.spawn(|| {
            logged.run(|_| {
                tries += 1;
                if tries < 3 {
                    return Err(LoggedError::from(Refusal::Conflict));
                }
                Ok(Value::Int(tries))
            })
        });
        let Piece::Lines(text) = gate.pass() else {
            panic!("lines");
        };
        assert_eq!(text.matches(" commit ").count(), 1);
        assert_eq!(text.matches(" abort ").count(), 2);
        let ran = run.join().expect("no panic").expect("acknowledged");
        assert_eq!(ran, Value::Int(3));
    });
}
