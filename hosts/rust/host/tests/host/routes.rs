//! Each route, and orders that are sent again.

use crate::client::{code, read};
use crate::damaged::verify;
use crate::host::Host;
use crate::scratch::Scratch;
use serde_json::json;
use std::thread;

#[test]
fn each_route() {
    let scratch = Scratch::new("routes");
    let host = Host::serve(scratch.path(), &[]);
    let client = host.client;
    client.open_accounts(2, 100);
    let answer = client.order("k1", &[(1, 2, 30), (1, 2, 80), (2, 9, 1), (0, 1, i64::MAX)]);
    let ends = json!(["made", "too_little", "no_account", "too_much"]);
    assert_eq!(answer.0, 200);
    assert_eq!(
        read(&answer.1),
        json!({ "before": false, "transfers": ends })
    );
    let balances: Vec<i64> = (0..3).map(|it| client.balance(it)).collect();
    assert_eq!(balances, [-200, 70, 130]);
    assert_eq!(
        code(&client.ask("GET /accounts/3")),
        (404, "no_account".into())
    );
    assert_eq!(
        code(&client.ask("GET /accounts/x")),
        (404, "no_route".into())
    );
    assert_eq!(
        code(&client.ask("DELETE /orders")),
        (404, "no_route".into())
    );
    let (status, health) = client.ask("GET /health");
    assert_eq!((status, &read(&health)["health"]), (200, &json!("serves")));
    assert!(client.metric("argus_entries") > 64.0);
    assert!(client.metric("argus_log_batches_total") > 4.0);
    assert!(client.metric("argus_log_seconds_total") > 0.0);
    assert!(client.metric("argus_actions_left") < 1_000_000.0);
    assert!(client.metric("argus_actions_left") > 999_000.0);
    for (metric, number) in [
        ("argus_doubts_total", 0.0),
        ("argus_epoch", 1.0),
        ("argus_live_actions", 0.0),
    ] {
        assert!((client.metric(metric) - number).abs() < 0.1, "{metric}");
    }
    assert!(host.stop().success());
}

#[test]
fn an_order_sent_again() {
    let scratch = Scratch::new("again");
    let mut host = Host::serve(scratch.path(), &["--keys", "64"]);
    host.client.open_accounts(2, 100);
    let order = [(1, 2, 60), (1, 2, 60)];
    let first = host.client.order("k", &order);
    let ends = json!(["made", "too_little"]);
    assert_eq!(
        read(&first.1),
        json!({ "before": false, "transfers": ends })
    );
    for _ in 0..2 {
        // The first answer, though both transfers would now end otherwise.
        let again = host.client.order("k", &order);
        assert_eq!(read(&again.1), json!({ "before": true, "transfers": ends }));
        let other = host.client.order("k", &[(1, 2, 1)]);
        assert_eq!(code(&other), (422, "other_order".into()));
        assert_eq!(host.client.balance(2), 160);
        assert!(host.stop().success());
        host = Host::serve(scratch.path(), &["--keys", "64"]);
    }
    // The newest 64 keys are recognized.
    for number in 0..63 {
        host.client.order(&format!("n{number}"), &[(0, 1, 1)]);
    }
    let again = host.client.order("k", &order);
    assert_eq!(read(&again.1)["before"], json!(true));
    host.client.order("n63", &[(0, 1, 1)]);
    let forgotten = host.client.order("k", &order);
    assert_eq!(read(&forgotten.1)["before"], json!(false));
}

#[test]
fn an_account_opened_once() {
    let scratch = Scratch::new("once");
    let mut host = Host::serve(scratch.path(), &[]);
    let open = |host: &Host, headers: &str| {
        let answer = host.client.try_ask("POST /accounts", headers, "");
        answer.expect("an answer")
    };
    let key = "Idempotency-Key: mine\r\n";
    let first = open(&host, key);
    let account = |number: u32, is_before: bool| json!({ "account": number, "before": is_before });
    assert_eq!((first.0, read(&first.1)), (201, account(1, false)));
    for _ in 0..2 {
        let again = open(&host, key);
        assert_eq!((again.0, read(&again.1)), (201, account(1, true)));
        let order = host.client.order("mine", &[(0, 1, 1)]);
        assert_eq!(code(&order), (422, "other_order".into()));
        assert!(host.stop().success());
        host = Host::serve(scratch.path(), &[]);
    }
    // Without a key each is another one.
    for number in 2..4 {
        assert_eq!(read(&open(&host, "").1), account(number, false));
    }
    assert_eq!(host.client.order("k", &[(0, 3, 5)]).0, 200);
    let other = open(&host, "Idempotency-Key: k\r\n");
    assert_eq!(code(&other), (422, "other_order".into()));
    // What is no key, and a key that comes twice, which isn't the same as none.
    for wrong in ["Idempotency-Key: a b\r\n", &format!("{key}{key}")] {
        assert_eq!(code(&open(&host, wrong)), (400, "no_key".into()));
    }
    assert_eq!(
        read(&open(&host, "Idempotency-Key: other\r\n").1),
        account(4, false)
    );
    assert_eq!(host.client.balance(3), 5);
}

#[test]
fn as_many_accounts_as_there_is_room_for() {
    let scratch = Scratch::new("full-of-accounts");
    let host = Host::serve(scratch.path(), &["--keys", "65000"]);
    // There is account 0, and 65,535 records in all.
    for number in 1..535 {
        let (status, body) = host.client.ask("POST /accounts");
        assert_eq!((status, &read(&body)["account"]), (201, &json!(number)));
    }
    let more = host.client.ask("POST /accounts");
    assert_eq!(code(&more), (507, "full".into()));
    assert_eq!(host.client.order("k", &[(0, 534, 1)]).0, 200);
}

#[test]
fn as_many_records_of_keys_as_are_asked_for() {
    let scratch = Scratch::new("keys");
    let host = Host::serve(scratch.path(), &["--keys", "100"]);
    for number in 0..65 {
        let (status, _) = host.client.order(&format!("k{number}"), &[(0, 1, 1)]);
        assert_eq!(status, 200);
    }
    assert!(host.stop().success());
    // The first 64 weren't enough, and there is account 0.
    let (status, text) = verify(scratch.path());
    assert_eq!(status, Some(0), "{text}");
    assert!(text.contains("objects 101\n"), "{text}");
}

#[test]
fn an_order_sent_at_once() {
    let scratch = Scratch::new("at-once");
    let host = Host::serve(scratch.path(), &[]);
    host.client.open_accounts(1, 100);
    let client = host.client;
    let answers: Vec<_> = thread::scope(|scope| {
        let order = || client.order("k", &[(1, 0, 10)]);
        let threads: Vec<_> = (0..8).map(|_| scope.spawn(order)).collect();
        let threads = threads.into_iter();
        threads.map(|it| it.join().expect("no panic")).collect()
    });
    let mut first = 0;
    for answer in &answers {
        match answer.0 {
            200 => first += u32::from(read(&answer.1)["before"] == json!(false)),
            _ => assert_eq!(code(answer), (409, "under_way".into())),
        }
    }
    assert_eq!((first, client.balance(1)), (1, 90));
}

#[test]
fn what_is_no_order() {
    let scratch = Scratch::new("no-order");
    let host = Host::serve(scratch.path(), &[]);
    let post = |headers: &str, body: &str| {
        let answer = host.client.try_ask("POST /orders", headers, body);
        code(&answer.expect("an answer"))
    };
    let key = "Idempotency-Key: k\r\n";
    let one = r#"{"transfers":[{"from":0,"to":1,"amount":1}]}"#;
    assert_eq!(post("", one), (400, "no_key".into()));
    assert_eq!(
        post("Idempotency-Key: a b\r\n", one),
        (400, "no_key".into())
    );
    assert_eq!(post(&format!("{key}{key}"), one), (400, "no_key".into()));
    for body in [
        "",
        "{}",
        r#"{"transfers":[]}"#,
        r#"{"transfers":[{"from":0,"to":1,"amount":0}]}"#,
        r#"{"transfers":[{"from":0,"to":1,"amount":-1}]}"#,
        r#"{"transfers":[{"from":1,"to":1,"amount":1}]}"#,
        r#"{"transfers":[{"from":0,"to":1,"amount":1e30}]}"#,
    ] {
        assert_eq!(post(key, body), (400, "no_order".into()), "{body}");
    }
    let most = vec![(0, 1, 1); 64];
    assert_eq!(host.client.order("most", &most).0, 200);
    let more = vec![(0, 1, 1); 65];
    assert_eq!(
        code(&host.client.order("more", &more)),
        (400, "no_order".into())
    );
    // The key of what was refused is still free.
    assert_eq!(host.client.order("more", &most).0, 200);
}
