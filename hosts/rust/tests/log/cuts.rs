//! Power cuts, rebuilt from what small runs of a bank have written and synced: whatever a disk has kept of what wasn't
//! synced, the log opens with all that was acknowledged.
//!
//! `ARGUS_LOG_CUTS` says how many states of one moment are tried at most: where there are no more, all are.

use crate::bank::{OrderOutcome, carry_out, is_set_up, last_of, number};
use crate::child::{Child, order_in};
use crate::clock::built;
use crate::disk::{Cut, Disk, Files};
use crate::faults::with;
use crate::ledger::Ledger;
use crate::opened_bank::{OPTIONS, open_bank};
use crate::scratch::Scratch;
use crate::trace::{Event, SOURCE, trace_of};
use argus_guardian::log::{LogOptions, Logged, LoggedError};
use std::collections::{BTreeMap, HashSet};
use std::hash::{DefaultHasher, Hash, Hasher};
use std::path::PathBuf;
use std::time::Duration;
use std::{env, fmt, fs, process};

const CUTS: &str = "ARGUS_LOG_CUTS";
const RUN: &str = "ARGUS_LOG_RUN";
// What the name of a backup has behind the log's.
const COPY: &str = ".copy";

const PLAIN: LogOptions = LogOptions {
    checkpoint_after: None,
    ..OPTIONS
};

fn order(bank: &Logged, number: i64) {
    if carry_out(bank, 0, number).expect("carried out") == OrderOutcome::Out {
        Child::tell(0, number);
    }
}

#[test]
#[ignore = "the parent runs it in a process of its own, which is traced"]
fn child_runs() {
    let run = env::var(RUN).expect("the parent says it");
    let bank = open_bank(Child::folder());
    let next = number(&bank, last_of(0)).expect("told") + 1;
    (next..next + 3).for_each(|it| order(&bank, it));
    if run == "closes" {
        return drop(bank);
    }
    bank.checkpoint_waiting(Duration::from_secs(10))
        .expect("folded");
    order(&bank, next + 3);
    let copy = with(&Child::folder(), &format!("{COPY}{next}"));
    bank.backup(copy).expect("copied");
    // As if it were killed.
    process::exit(0);
}

// What a process does that makes a log and is killed, then one that opens and closes it, and then both again.
fn traced(scratch: &Scratch, object: &str) -> Vec<Event> {
    let (folder, trace) = (scratch.path().join("bank"), scratch.path().join("trace"));
    fs::create_dir(&folder).expect("made");
    for run in ["ends", "closes", "ends", "closes"] {
        let words = [
            ("LD_PRELOAD", object.to_owned()),
            ("ARGUS_TRACE", trace.display().to_string()),
            (RUN, run.to_owned()),
        ];
        let child = Child::start("cuts::child_runs", &folder.join("bank.db"), &words);
        assert!(child.ended().0.success());
    }
    trace_of(&trace, &folder)
}

/// What became of the states that were tried.
#[derive(Default)]
struct Counts {
    moments: usize,
    complete: usize,
    states: usize,
    opened: usize,
    backups: usize,
    named: BTreeMap<String, usize>,
}

impl fmt::Display for Counts {
    fn fmt(&self, f: &mut fmt::Formatter<'_>) -> fmt::Result {
        let (moments, complete, states) = (self.moments, self.complete, self.states);
        let (opened, backups, named) = (self.opened, self.backups, &self.named);
        write!(
            f,
            "{moments} moments, of {complete} all states; {states} states: {opened} opened, not opened {named:?}; \
             {backups} backups in them"
        )
    }
}

/// States that are opened, one after another.
struct Trial {
    scratch: Scratch,
    tried: HashSet<u64>,
    counts: Counts,
}

impl Trial {
    fn new() -> Trial {
        Trial {
            scratch: Scratch::in_memory("cut"),
            tried: HashSet::new(),
            counts: Counts::default(),
        }
    }

    // Lays the files into an empty folder. The log among them.
    fn lay(&self, files: &Files) -> PathBuf {
        let folder = self.scratch.path().join("state");
        if folder.exists() {
            fs::remove_dir_all(&folder).expect("removed");
        }
        fs::create_dir(&folder).expect("made");
        let lay = |(name, content)| fs::write(folder.join::<&String>(name), content);
        files.iter().try_for_each(lay).expect("written");
        folder.join("bank.db")
    }

    // Whether a state was tried before, with so many orders acknowledged.
    fn is_new(&mut self, files: &Files, acknowledged: u64) -> bool {
        let mut hasher = DefaultHasher::new();
        (files, acknowledged).hash(&mut hasher);
        self.tried.insert(hasher.finish())
    }

    // Opens a state: all that was acknowledged is there, and each backup is whole.
    fn open(&mut self, files: &Files, ledger: &Ledger) {
        if !self.is_new(files, ledger.acknowledged) {
            return;
        }
        self.counts.states += 1;
        let path = self.lay(files);
        for name in files.keys().filter(|it| is_backup(it)) {
            PLAIN.check(path.with_file_name(name)).expect("it is whole");
            self.counts.backups += 1;
        }
        match PLAIN.open(path) {
            Ok(bank) => {
                ledger.clone().check(&bank).expect("told");
                self.counts.opened += 1;
            }
            Err(LoggedError::Database(fault, words)) => {
                assert_eq!(ledger.acknowledged, 0, "{fault:?}: {words}");
                *self.counts.named.entry(format!("{fault:?}")).or_default() += 1;
            }
            Err(error) => panic!("{error}"),
        }
    }

    fn open_each(&mut self, disk: &Disk, ledger: &Ledger, most: usize) {
        let (cuts, is_complete) = disk.cuts(most, &mut drawn());
        self.counts.moments += 1;
        self.counts.complete += usize::from(is_complete);
        for cut in cuts {
            self.open(&disk.files(&cut), ledger);
        }
    }
}

// Whether it is the name of a backup, and not of one that is being made.
fn is_backup(name: &str) -> bool {
    name.contains(COPY) && !name.contains("-new-")
}

// Numbers below a limit, the same in each run.
fn drawn() -> impl FnMut(usize) -> usize {
    let mut state = 1_u64;
    move |limit| {
        state = state
            .wrapping_mul(6_364_136_223_846_793_005)
            .wrapping_add(1);
        usize::try_from(state >> 33).expect("31 bits") % limit
    }
}

// Has the disk take what was done, with a look at it before each sync, and at the end: between two syncs a state that
// could be left is one that can be left later, too. It also gets the last order that was acknowledged, or -1.
fn follow(disk: &mut Disk, events: &[Event], mut look: impl FnMut(&Disk, &Ledger, i64)) {
    let (mut ledger, mut last) = (Ledger::default(), -1);
    for event in events {
        match event {
            Event::Said(text) => text
                .lines()
                .filter_map(order_in)
                .for_each(|(client, number)| {
                    ledger.note(client, number);
                    last = number;
                }),
            Event::Sync { .. } | Event::SyncFolder => look(disk, &ledger, last),
            _ => {}
        }
        disk.take(event);
    }
    look(disk, &ledger, last);
}

fn traced_bank() -> Option<Vec<Event>> {
    let scratch = Scratch::made("traced");
    let object = built(scratch.path(), "trace", SOURCE, "power cuts")?;
    Some(traced(&scratch, &object))
}

#[test]
fn no_power_cut_loses_an_acknowledged_order() {
    let Some(events) = traced_bank() else { return };
    let most = env::var(CUTS).map_or(40, |it| it.parse().expect("a number"));
    for sector in [4096, 512] {
        let mut trial = Trial::new();
        follow(&mut Disk::of_sectors(sector), &events, |disk, ledger, _| {
            trial.open_each(disk, ledger, most);
        });
        println!("sectors of {sector} bytes: {}", trial.counts);
        let (opened, backups) = (trial.counts.opened, trial.counts.backups);
        assert!(opened > 100 && backups > 100, "{}", trial.counts);
    }
}

#[test]
fn a_disk_that_doesnt_sync_loses_one() {
    let Some(mut events) = traced_bank() else {
        return;
    };
    events.retain(|it| !matches!(it, Event::Sync { file } if file.ends_with("-wal")));
    let (trial, mut lost) = (Trial::new(), 0);
    let is_there = |bank: &Logged, last| {
        Ok::<_, LoggedError>(is_set_up(bank)? && number(bank, last_of(0))? >= last)
    };
    follow(&mut Disk::of_sectors(4096), &events, |disk, _, last| {
        let has_lost = |cut: &&Cut| {
            let opened = PLAIN.open(trial.lay(&disk.files(cut)));
            last >= 0 && opened.is_ok_and(|bank| !is_there(&bank, last).expect("told"))
        };
        let (cuts, _) = disk.cuts(20, &mut drawn());
        lost += cuts.iter().filter(has_lost).count();
    });
    assert!(lost > 0);
}
