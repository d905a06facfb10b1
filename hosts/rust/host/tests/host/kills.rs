//! A host that is killed and started again: nothing that was acknowledged is lost, and nothing is carried out twice.

use crate::client::{Client, read};
use crate::host::Host;
use crate::scratch::Scratch;
use std::sync::atomic::{AtomicU64, Ordering};
use std::thread;
use std::time::Duration;

const CLIENTS: u32 = 4;
const LIVES: u64 = 5;

// Pays 1 into this account, again and again, until nobody answers. Each payment that is acknowledged is noted.
fn pay(client: Client, account: u32, last: &AtomicU64) {
    for number in last.load(Ordering::Relaxed) + 1.. {
        match client.try_order(&format!("{account}/{number}"), &[(0, account, 1)]) {
            Ok((200, _)) => last.store(number, Ordering::Relaxed),
            Ok(other) => panic!("{other:?}"),
            Err(_) => break,
        }
    }
}

// What was acknowledged is there, and one more at the most; sent again, it has its first answer.
fn check(client: Client, account: u32, last: u64) {
    let paid = client.balance(account).unsigned_abs() - 1000;
    assert!(paid == last || paid == last + 1, "{paid} of {last}");
    if last > 0 {
        let (status, body) = client.order(&format!("{account}/{last}"), &[(0, account, 1)]);
        assert_eq!((status, read(&body)["before"].as_bool()), (200, Some(true)));
    }
}

#[test]
fn nothing_acknowledged_is_lost() {
    let scratch = Scratch::new("kills");
    let words = ["--checkpoint", "300"];
    let host = Host::serve(scratch.path(), &words);
    host.client.open_accounts(CLIENTS, 1000);
    host.kill();
    let last: Vec<AtomicU64> = (0..CLIENTS).map(|_| AtomicU64::new(0)).collect();
    for life in 0..LIVES {
        let host = Host::serve(scratch.path(), &words);
        let client = host.client;
        for (account, last) in (1..).zip(&last) {
            check(client, account, last.load(Ordering::Relaxed));
        }
        thread::scope(|scope| {
            for (account, last) in (1..).zip(&last) {
                scope.spawn(move || pay(client, account, last));
            }
            thread::sleep(Duration::from_millis(400 + 150 * life));
            host.kill();
        });
    }
    let host = Host::serve(scratch.path(), &words);
    for (account, last) in (1..).zip(&last) {
        let number = last.load(Ordering::Relaxed) + 1;
        let (status, _) = host
            .client
            .order(&format!("{account}/{number}"), &[(0, account, 1)]);
        assert_eq!(status, 200);
        assert_eq!(host.client.balance(account).unsigned_abs(), 1000 + number);
    }
    let sum: i64 = (0..=CLIENTS).map(|it| host.client.balance(it)).sum();
    assert_eq!(sum, 0);
    assert!(last.iter().any(|it| it.load(Ordering::Relaxed) > 0));
}

#[test]
fn a_stop_in_order() {
    let scratch = Scratch::new("stop");
    let host = Host::serve(scratch.path(), &[]);
    host.client.open_accounts(1, 5);
    let entries = host.client.metric("argus_entries");
    assert!(host.stop().success());
    let host = Host::serve(scratch.path(), &[]);
    assert_eq!(host.client.balance(1), 5);
    // The checkpoint at its end has left no entries to read; their numbers go on.
    assert!(host.client.metric("argus_entries") >= entries);
}

#[test]
fn a_checkpoint_by_itself() {
    let scratch = Scratch::new("checkpoint");
    let host = Host::serve(scratch.path(), &["--checkpoint", "200"]);
    host.client.open_accounts(1, 5);
    let mut number = 0;
    while host.client.metric("argus_log_checkpoints_total") < 1.0 {
        number += 1;
        let (status, _) = host.client.order(&format!("k{number}"), &[(0, 1, 1)]);
        assert_eq!(status, 200);
        assert!(number < 100_000);
    }
    host.kill();
    let host = Host::serve(scratch.path(), &[]);
    assert_eq!(host.client.balance(1), 5 + number);
}
