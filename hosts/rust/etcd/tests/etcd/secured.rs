//! TLS, with certificates on both sides, and users.

use crate::certificates::{certify, has_openssl, sign};
use crate::cluster::{Cluster, has_etcd};
use crate::leading::{lead, lines, text_of};
use crate::scratch::Scratch;
use argus_guardian::log::BatchLog;
use argus_guardian_etcd::{Campaign, EtcdError, EtcdLog, EtcdOptions, LogError, Login, Tls};
use std::path::Path;

fn tls(folder: &Path, authority: &str, host: Option<&str>) -> Tls {
    let file = |name: &str| folder.join(format!("{name}.pem"));
    Tls {
        authority: file(authority),
        certificate: host.map(|it| (file(it), file(&format!("{it}-key")))),
    }
}

#[test]
fn nodes_and_hosts_know_each_other_by_certificates() {
    if !has_etcd("TLS") || !has_openssl() {
        return;
    }
    let folder = Scratch::new("certificates");
    let path = folder.path();
    certify(path, "authority");
    certify(path, "stranger");
    sign(path, "authority", "node");
    sign(path, "authority", "host");
    let [certificate, key, authority] = ["node.pem", "node-key.pem", "authority.pem"]
        .map(|it| path.join(it).to_str().expect("UTF-8").to_owned());
    let words = [
        ["--cert-file", &certificate],
        ["--key-file", &key],
        ["--trusted-ca-file", &authority],
        ["--client-cert-auth", "--auto-compaction-retention=0"],
    ]
    .concat();
    let right = tls(path, "authority", Some("host"));
    let cluster = Cluster::start_secured("tls", &words, &right);
    let mut log = lead(&cluster.options(), "first");
    log.append(&lines(0, "0 begin_top -> a0\n"))
        .expect("appended");
    assert_eq!(text_of(&cluster.options()).0, "0 begin_top -> a0\n");
    // A node that another authority has signed isn't trusted, and a host without a certificate isn't served.
    for wrong in [
        tls(path, "stranger", Some("host")),
        tls(path, "authority", None),
    ] {
        let options = EtcdOptions {
            tls: Some(wrong),
            patience: std::time::Duration::from_secs(1),
            ..cluster.options()
        };
        let read = EtcdLog::read(&options, |_| Ok(()));
        assert!(
            matches!(read, Err(LogError::Etcd(EtcdError::Unreached(_)))),
            "{read:?}"
        );
    }
}

// A user `root`, and a user `bank` that may use the keys under `bank/`.
fn enable_users(cluster: &Cluster) {
    for words in [
        "user add root:rootpass",
        "user grant-role root root",
        "role add bank",
        "role grant-permission bank --prefix=true readwrite bank/",
        "user add bank:secret",
        "user grant-role bank bank",
        "auth enable",
    ] {
        cluster.etcdctl(&words.split(' ').collect::<Vec<_>>());
    }
}

fn login(password: &str) -> Login {
    Login {
        user: "bank".to_owned(),
        password: password.to_owned(),
    }
}

#[test]
fn users_are_asked_for_their_passwords() {
    if !has_etcd("users") {
        return;
    }
    let cluster = Cluster::start("users", 1);
    enable_users(&cluster);
    let options = EtcdOptions {
        prefix: "bank".to_owned(),
        login: Some(login("secret")),
        ..cluster.options()
    };
    let mut log = lead(&options, "first");
    log.append(&lines(0, "0 begin_top -> a0\n"))
        .expect("appended");
    // A change of users makes tokens old: they are got anew.
    let root = ["--user", "root:rootpass"];
    cluster.etcdctl(&[&root[..], &["user", "add", "another:pass"]].concat());
    log.append(&lines(1, "1 abort a0 -> done\n"))
        .expect("appended");
    assert_eq!(
        text_of(&options).0,
        "0 begin_top -> a0\n1 abort a0 -> done\n"
    );
    let others = [
        EtcdOptions {
            login: Some(login("guessed")),
            ..options.clone()
        },
        EtcdOptions {
            login: None,
            ..options.clone()
        },
        EtcdOptions {
            prefix: "other".to_owned(),
            ..options.clone()
        },
    ];
    for wrong in others {
        let begun = Campaign::begin(&wrong, "second");
        assert!(matches!(begun, Err(EtcdError::Refused { .. })), "{begun:?}");
    }
}
