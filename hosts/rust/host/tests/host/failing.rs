//! A log that fails: what was being committed is in doubt, and nothing else is begun.

use crate::client::code;
use crate::host::{Host, PROGRAM, database_in};
use crate::scratch::Scratch;
use std::fs;
use std::process::Command;

// Files may have 1.5 MiB, as if the disk were full.
const LIMITED: &str =
    "trap '' XFSZ; ulimit -f 3072; exec \"$0\" serve --log \"$1\" --listen 127.0.0.1:0";

#[test]
fn a_disk_that_is_full() {
    let scratch = Scratch::new("full");
    let log = scratch.path().join("log");
    fs::create_dir(&log).expect("made");
    let mut command = Command::new("dash");
    command
        .args(["-c", LIMITED, PROGRAM])
        .arg(database_in(&log));
    let mut host = Host::start(&mut command);
    let client = host.client;
    client.open_accounts(2, 1_000_000);
    let order = vec![(1, 2, 1); 64];
    let mut acknowledged = 0;
    let answer = loop {
        let answer = client.order(&format!("k{acknowledged}"), &order);
        if answer.0 != 200 {
            break answer;
        }
        acknowledged += 1;
    };
    assert!(acknowledged > 10);
    assert_eq!(code(&answer), (503, "in_doubt".into()));
    // Once more the same order is in doubt; others aren't begun.
    let again = code(&client.order(&format!("k{acknowledged}"), &order));
    assert_eq!(again, (503, "in_doubt".into()));
    let other = code(&client.order("other", &order));
    assert_eq!(other, (503, "broken".into()));
    assert_eq!(code(&client.ask("GET /accounts/1")), (503, "broken".into()));
    assert_eq!(code(&client.ask("GET /health")), (503, "broken".into()));
    assert!(client.metric("argus_doubts_total") >= 2.0);
    assert_eq!(host.ended().code(), Some(4));
    // What was acknowledged is there, and what was in doubt is there or not.
    let host = Host::serve(&log, &[]);
    let orders = (host.client.balance(2) - 1_000_000) / 64;
    assert!(
        [acknowledged, acknowledged + 1].contains(&orders),
        "{acknowledged} {orders}"
    );
    assert_eq!(
        host.client.order(&format!("k{acknowledged}"), &order).0,
        200
    );
    assert_eq!(host.client.balance(2), 1_000_000 + 64 * (acknowledged + 1));
}
