//! What is too large, too slow, too much at once, or without its token.

use crate::client::{answer_in, code};
use crate::host::{Host, PROGRAM};
use crate::scratch::Scratch;
use std::fs;
use std::io::Write;
use std::net::Shutdown;
use std::process::Command;
use std::thread;
use std::time::{Duration, Instant};

#[test]
fn a_request_too_large() {
    let scratch = Scratch::new("large");
    let host = Host::serve(scratch.path(), &["--body", "1000"]);
    let large = "x".repeat(1001);
    let answer = host.client.try_ask("POST /orders", "", &large);
    assert_eq!(
        code(&answer.expect("an answer")),
        (413, "body_too_large".into())
    );
    let head = format!("X: {}\r\n", "x".repeat(9000));
    let answer = host.client.try_ask("GET /health", &head, "");
    assert_eq!(
        code(&answer.expect("an answer")),
        (431, "head_too_large".into())
    );
    let chunked = b"POST /orders HTTP/1.1\r\nTransfer-Encoding: chunked\r\n\r\n0\r\n\r\n";
    let answer = host.client.send(chunked).expect("an answer");
    assert_eq!(code(&answer), (411, "no_length".into()));
    let answer = host
        .client
        .send(b"no HTTP at all\r\n\r\n")
        .expect("an answer");
    assert_eq!(code(&answer), (400, "malformed".into()));
    let twice = b"GET /health HTTP/1.1\r\nContent-Length: 1\r\nContent-Length: 2\r\n\r\nxx";
    let answer = host.client.send(twice).expect("an answer");
    assert_eq!(code(&answer), (400, "malformed".into()));
    assert_eq!(host.client.ask("GET /health").0, 200);
}

#[test]
fn a_request_too_slow() {
    let scratch = Scratch::new("slow");
    let host = Host::serve(scratch.path(), &["--time", "500"]);
    let start = Instant::now();
    let mut slow = host.client.connect();
    // A byte now and then doesn't give it more time.
    for byte in b"GET /hea" {
        if slow.write_all(&[*byte]).is_err() {
            break;
        }
        thread::sleep(Duration::from_millis(100));
    }
    let answer = answer_in(&mut slow).expect("an answer");
    assert_eq!(code(&answer), (408, "late".into()));
    assert!(start.elapsed() < Duration::from_secs(30));
    let mut cut_off = host.client.connect();
    cut_off.write_all(b"GET /health").expect("sent");
    cut_off.shutdown(Shutdown::Write).expect("shut down");
    let answer = answer_in(&mut cut_off).expect("an answer");
    assert_eq!(code(&answer), (400, "cut_off".into()));
}

#[test]
fn too_many_at_once() {
    let scratch = Scratch::new("many");
    let words = ["--workers", "2", "--queue", "2", "--time", "60000"];
    let host = Host::serve(scratch.path(), &words);
    // Two have the threads, two wait for them.
    let silent: Vec<_> = (0..4)
        .map(|_| {
            let stream = host.client.connect();
            thread::sleep(Duration::from_millis(300));
            stream
        })
        .collect();
    let answer = host.client.ask("GET /health");
    assert_eq!(code(&answer), (503, "overloaded".into()));
    drop(silent);
    // Once the threads have seen that, there is room again.
    while host.client.ask("GET /health").0 != 200 {
        thread::sleep(Duration::from_millis(20));
    }
}

#[test]
fn a_wrong_token() {
    let scratch = Scratch::new("token");
    let (log, file) = (scratch.path().join("log"), scratch.path().join("token"));
    fs::write(&file, "0123456789abcdef\n").expect("written");
    let file = file.to_str().expect("UTF-8");
    let host = Host::serve(&log, &["--token-file", file]);
    let ask = |header: &str| {
        let answer = host.client.try_ask("GET /accounts/0", header, "");
        answer.expect("an answer")
    };
    let bearer = |token: &str| format!("Authorization: Bearer {token}\r\n");
    let right = bearer("0123456789abcdef");
    for wrong in [
        String::new(),
        bearer(""),
        bearer("0123456789abcdee"),
        bearer("0123456789abcdef0"),
        right.replace("Bearer", "Basic"),
        format!("{right}{right}"),
    ] {
        assert_eq!(code(&ask(&wrong)), (401, "no_token".into()), "{wrong}");
    }
    assert_eq!(ask(&right).0, 200);
    assert_eq!(host.client.ask("GET /metrics").0, 401);
    assert_eq!(host.client.ask("GET /health").0, 200);
}

#[test]
fn a_token_beyond_loopback() {
    let scratch = Scratch::new("beyond");
    let (log, file) = (scratch.path().join("log"), scratch.path().join("token"));
    let mut command = Command::new(PROGRAM);
    command.arg("serve").arg("--log").arg(&log);
    let output = command
        .args(["--listen", "0.0.0.0:0"])
        .output()
        .expect("ran");
    assert_eq!(output.status.code(), Some(2));
    assert!(String::from_utf8_lossy(&output.stderr).contains("--token-file"));
    // Nothing was begun.
    assert!(!log.exists());
    // Nor with a token that is short.
    fs::write(&file, "0123456789abcde").expect("written");
    let output = command
        .arg("--token-file")
        .arg(&file)
        .output()
        .expect("ran");
    assert_eq!(output.status.code(), Some(2));
    let said = String::from_utf8_lossy(&output.stderr);
    assert!(
        said.contains("16 bytes") && !said.contains("abcde"),
        "{said}"
    );
    fs::write(&file, "0123456789abcdef").expect("written");
    let host = Host::start(&mut command);
    assert_eq!(host.client.ask("GET /health").0, 200);
    assert!(host.stop().success());
}
