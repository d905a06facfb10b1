//! Hosts over an etcd that is reached by TLS, and that asks for users.

use crate::certificates::{certify, has_openssl, sign};
use crate::node::Node;
use crate::scratch::Scratch;
use std::fs;
use std::path::Path;
use std::process::{Command, Stdio};
use std::thread;
use std::time::Duration;

// Makes a user `root`, and a user `bank` that may use the keys under `bank/`.
fn enable_users(node: &Node, authority: &str) {
    for words in [
        "endpoint health",
        "user add root:rootpass",
        "user grant-role root root",
        "role add bank",
        "role grant-permission bank --prefix=true readwrite bank/",
        "user add bank:secret",
        "user grant-role bank bank",
        "auth enable",
    ] {
        let mut command = Command::new("etcdctl");
        command
            .env("ETCDCTL_API", "3")
            .args(["--endpoints", &node.endpoint, "--cacert", authority])
            .args(["--command-timeout", "60s", "--dial-timeout", "30s"])
            .args(words.split(' '));
        let ran = command.output().expect("etcdctl is there");
        assert!(ran.status.success(), "{words}: {ran:?}");
    }
}

// A node whose certificate this authority has signed, and that asks for users. None: something isn't installed.
fn start_secured(scratch: &Scratch) -> Option<Node> {
    if !has_openssl() {
        return None;
    }
    certify(scratch.path(), "authority");
    certify(scratch.path(), "stranger");
    sign(scratch.path(), "authority", "node");
    let [certificate, key, authority] =
        ["node.pem", "node-key.pem", "authority.pem"].map(|it| in_words(scratch.path(), it));
    // Passwords are compared by the cheapest hash, as the machine may be busy.
    let words = [
        ["--cert-file", &certificate],
        ["--key-file", &key],
        ["--bcrypt-cost", "4"],
    ]
    .concat();
    let Some(node) = Node::start_with(scratch, "https", &words) else {
        println!("hosts over etcd by TLS LEFT OUT: no etcd");
        return None;
    };
    enable_users(&node, &authority);
    Some(node)
}

fn in_words(folder: &Path, name: &str) -> String {
    folder.join(name).to_str().expect("UTF-8").to_owned()
}

// Whoever trusts another authority, names no user or a wrong password, or may not use the keys isn't served.
fn refuses_others(node: &Node, folder: &Path) {
    let [authority, stranger, password, guess] =
        ["authority.pem", "stranger.pem", "password", "guess"].map(|it| in_words(folder, it));
    let as_user = ["--user", "bank", "--password-file"];
    let trusted = ["--authority", &authority];
    for wrong in [
        [
            &["--prefix", "bank", "--authority", &stranger],
            &as_user[..],
            &[&password],
        ]
        .concat(),
        [&["--prefix", "bank"], &trusted[..], &as_user, &[&guess]].concat(),
        [&["--prefix", "bank"], &trusted[..]].concat(),
        [&["--prefix", "other"], &trusted[..], &as_user, &[&password]].concat(),
    ] {
        let mut command = node.command(&[&["serve", "--name", "two"], &wrong[..]].concat());
        let ended = command.stderr(Stdio::piped()).output().expect("it ended");
        let has_served = ended.status.success() || !ended.stdout.is_empty();
        assert!(!has_served, "{ended:?}");
    }
}

#[test]
fn a_leader_and_a_follower_by_tls_and_as_a_user() {
    let scratch = Scratch::new("secured");
    let Some(node) = start_secured(&scratch) else {
        return;
    };
    fs::write(scratch.path().join("password"), "secret\n").expect("written");
    fs::write(scratch.path().join("guess"), "guessed\n").expect("written");
    let [authority, password] =
        ["authority.pem", "password"].map(|it| in_words(scratch.path(), it));
    let words = [
        ["--prefix", "bank"],
        ["--authority", &authority],
        ["--user", "bank"],
        ["--password-file", &password],
    ]
    .concat();
    let leader = node.host(&[&["serve", "--name", "one"], &words[..]].concat());
    leader.client.open_accounts(1, 5);
    let follower = node.host(&[&["follow"], &words[..]].concat());
    let entries = leader.client.metric("argus_entries");
    while follower.client.metric("argus_entries") < entries {
        thread::sleep(Duration::from_millis(50));
    }
    assert_eq!(follower.client.balance(1), 5);
    refuses_others(&node, scratch.path());
    assert!(leader.stop().success());
    assert!(follower.stop().success());
}
