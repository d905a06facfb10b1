//! A bank under load whose disk has an error: one sync fails. No acknowledged order is lost or doubled, none is there in
//! part, and nothing is called after that.

use crate::bank::{serve, set_up};
use crate::child::Child;
use crate::clock::built;
use crate::ledger::Ledger;
use crate::opened_bank::OPTIONS;
use crate::scratch::Scratch;
use argus_guardian::log::{Logged, LoggedError};
use std::{env, thread};

const SOURCE: &str = include_str!("syncs.c");
const SYNC: &str = "ARGUS_SYNC";
const CLIENTS: u32 = 4;

// Orders of each client, if no sync fails: SQLite doesn't insist on that of a folder. Each waits for a sync, which clients
// share.
const ORDERS: u32 = 60;

fn may_fail(served: &Result<(), LoggedError>) {
    let has_failed = matches!(
        served,
        Err(LoggedError::InDoubt(_) | LoggedError::Broken(_))
    );
    assert!(has_failed || served.is_ok(), "{served:?}");
}

fn serve_all(bank: &Logged) -> Result<(), LoggedError> {
    set_up(bank)?;
    thread::scope(|scope| {
        let serve_one = |client| {
            let mut left = ORDERS;
            serve(bank, client, |it| {
                left -= 1;
                Child::tell(client, it) && left > 0
            })
        };
        let clients = (0..CLIENTS).map(|it| scope.spawn(move || serve_one(it)));
        let clients: Vec<_> = clients.collect();
        for client in clients {
            may_fail(&client.join().expect("no panic"));
        }
    });
    bank.barrier()
}

#[test]
#[ignore = "the parent runs it in a process of its own, where a sync fails"]
fn child_serves_until_a_sync_fails() {
    // It may fail while the log is made or opened.
    if let Ok(bank) = OPTIONS.open_or_create(Child::folder()) {
        let is_broken = serve_all(&bank).is_err();
        assert_eq!(bank.broken().is_some(), is_broken);
        // The first ones are of the opening, and may be of a folder.
        let sync: u32 = env::var(SYNC)
            .expect("the parent says it")
            .parse()
            .expect("a number");
        assert!(is_broken || sync < 6);
    }
}

#[test]
fn what_was_acknowledged_is_there_after_a_sync_that_fails() {
    let scratch = Scratch::made("syncs");
    let Some(object) = built(scratch.path(), "syncs", SOURCE, "a sync that fails") else {
        return;
    };
    let path = scratch.path().join("bank.db");
    let mut ledger = Ledger::default();
    for count in [1, 2, 3, 4, 5, 6, 7, 8, 9, 10, 12, 15, 20, 30, 50] {
        let words = [("LD_PRELOAD", object.clone()), (SYNC, count.to_string())];
        let child = Child::start("syncs::child_serves_until_a_sync_fails", &path, &words);
        let (status, orders) = child.ended();
        assert!(status.success(), "sync {count}: {status}");
        for (client, number) in orders {
            ledger.note(client, number);
        }
        let bank = OPTIONS.open_or_create(&path).expect("opened");
        ledger.check(&bank).expect("told");
    }
    assert!(ledger.acknowledged > 50, "{}", ledger.acknowledged);
}
