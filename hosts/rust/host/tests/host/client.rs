//! `Client`: what asks a host, a connection for each request.

use serde_json::{Value, json};
use std::io::{self, Read, Write};
use std::net::{SocketAddr, TcpStream};
use std::time::Duration;

/// What asks a host, a connection for each request.
#[derive(Debug, Clone, Copy)]
pub(crate) struct Client(pub(crate) SocketAddr);

/// The status and the body.
pub(crate) type Answer = (u16, String);

impl Client {
    pub(crate) fn connect(self) -> TcpStream {
        let stream = TcpStream::connect(self.0).expect("it listens");
        stream
            .set_read_timeout(Some(Duration::from_secs(60)))
            .expect("set");
        stream
    }

    /// Sends these bytes, and reads the answer until its end.
    pub(crate) fn send(self, bytes: &[u8]) -> io::Result<Answer> {
        let mut stream = TcpStream::connect(self.0)?;
        stream.set_read_timeout(Some(Duration::from_secs(60)))?;
        stream.write_all(bytes)?;
        answer_in(&mut stream)
    }

    pub(crate) fn try_ask(self, line: &str, headers: &str, body: &str) -> io::Result<Answer> {
        let length = body.len();
        let text = format!(
            "{line} HTTP/1.1\r\nHost: bank\r\nContent-Length: {length}\r\n{headers}\r\n{body}"
        );
        self.send(text.as_bytes())
    }

    pub(crate) fn ask(self, line: &str) -> Answer {
        self.try_ask(line, "", "").expect("an answer")
    }

    pub(crate) fn try_order(self, key: &str, transfers: &[(u32, u32, i64)]) -> io::Result<Answer> {
        let transfers: Vec<Value> = transfers
            .iter()
            .map(|(from, to, amount)| json!({ "from": from, "to": to, "amount": amount }))
            .collect();
        let body = json!({ "transfers": transfers }).to_string();
        self.try_ask(
            "POST /orders",
            &format!("Idempotency-Key: {key}\r\n"),
            &body,
        )
    }

    pub(crate) fn order(self, key: &str, transfers: &[(u32, u32, i64)]) -> Answer {
        self.try_order(key, transfers).expect("an answer")
    }

    pub(crate) fn balance(self, account: u32) -> i64 {
        let (status, body) = self.ask(&format!("GET /accounts/{account}"));
        assert_eq!(status, 200, "{body}");
        read(&body)["balance"].as_i64().expect("a number")
    }

    /// Opens some accounts, and pays so much into each.
    pub(crate) fn open_accounts(self, count: u32, balance: i64) {
        for account in 1..=count {
            let (status, body) = self.ask("POST /accounts");
            assert_eq!((status, &read(&body)["account"]), (201, &json!(account)));
            let (status, _) = self.order(&format!("open-{account}"), &[(0, account, balance)]);
            assert_eq!(status, 200);
        }
    }

    /// A line of the metrics.
    pub(crate) fn metric(self, name: &str) -> f64 {
        let (status, body) = self.ask("GET /metrics");
        assert_eq!(status, 200);
        let line = body
            .lines()
            .find_map(|it| it.strip_prefix(name)?.strip_prefix(' '));
        line.expect(name).parse().expect("a number")
    }
}

pub(crate) fn read(body: &str) -> Value {
    serde_json::from_str(body).expect("JSON")
}

pub(crate) fn code(answer: &Answer) -> (u16, String) {
    let code = read(&answer.1)["error"].as_str().unwrap_or("").to_owned();
    (answer.0, code)
}

pub(crate) fn answer_in(stream: &mut TcpStream) -> io::Result<Answer> {
    let mut text = String::new();
    stream.read_to_string(&mut text)?;
    let (head, body) = text
        .split_once("\r\n\r\n")
        .ok_or_else(|| io::Error::other("no answer"))?;
    let status = head.split(' ').nth(1).and_then(|it| it.parse().ok());
    let status = status.ok_or_else(|| io::Error::other("no status"))?;
    Ok((status, body.to_owned()))
}
