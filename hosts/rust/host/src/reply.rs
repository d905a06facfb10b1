//! `Reply`: what a client is answered.

use serde_json::{Value, json};
use std::io::{self, Write};

/// What a client is answered.
#[derive(Debug, Clone, PartialEq, Eq)]
pub(crate) struct Reply {
    pub(crate) status: u16,
    kind: &'static str,
    body: String,
}

impl Reply {
    pub(crate) fn json(status: u16, body: &Value) -> Reply {
        Reply {
            status,
            kind: "application/json",
            body: format!("{body}\n"),
        }
    }

    pub(crate) fn text(body: String) -> Reply {
        Reply {
            status: 200,
            kind: "text/plain; version=0.0.4",
            body,
        }
    }

    /// A refusal: a code for programs and words for people.
    pub(crate) fn error(status: u16, code: &str, words: &str) -> Reply {
        Reply::json(status, &json!({ "error": code, "message": words }))
    }

    pub(crate) fn no_route() -> Reply {
        Reply::error(404, "no_route", "no such route, or another method")
    }

    pub(crate) fn write(&self, to: &mut impl Write) -> io::Result<()> {
        let Reply { status, kind, body } = self;
        let more = match status {
            401 => "WWW-Authenticate: Bearer\r\n",
            503 => "Retry-After: 1\r\n",
            _ => "",
        };
        let text = format!(
            "HTTP/1.1 {status} {}\r\nContent-Type: {kind}\r\nContent-Length: {}\r\n{more}Connection: close\r\n\r\n{body}",
            reason(*status),
            body.len()
        );
        to.write_all(text.as_bytes())?;
        to.flush()
    }
}

fn reason(status: u16) -> &'static str {
    match status {
        200 => "OK",
        201 => "Created",
        400 => "Bad Request",
        401 => "Unauthorized",
        404 => "Not Found",
        408 => "Request Timeout",
        409 => "Conflict",
        411 => "Length Required",
        413 => "Content Too Large",
        422 => "Unprocessable Content",
        431 => "Request Header Fields Too Large",
        503 => "Service Unavailable",
        _ => "Internal Server Error",
    }
}
