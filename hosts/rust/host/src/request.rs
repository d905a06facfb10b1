//! `Request`: what a client asks for, with its `Head`; `Token`: what it has to bring.

use crate::reply::Reply;
use std::fmt;
use std::time::Instant;
use subtle::ConstantTimeEq;

/// The largest head of a request, in bytes.
pub(crate) const LARGEST_HEAD: usize = 8 * 1024;

/// The first line and the headers of a request.
#[derive(Debug)]
pub(crate) struct Head {
    pub(crate) method: String,
    pub(crate) path: String,
    // Names in lower case.
    headers: Vec<(String, String)>,
}

impl Head {
    /// The head at the beginning of these bytes and its length; None: it hasn't arrived as a whole.
    pub(crate) fn of(bytes: &[u8]) -> Result<Option<(Head, usize)>, Reply> {
        let mut headers = [httparse::EMPTY_HEADER; 32];
        let mut parsed = httparse::Request::new(&mut headers);
        let malformed = |_| Reply::error(400, "malformed", "the head of the request can't be read");
        let length = match parsed.parse(bytes).map_err(malformed)? {
            httparse::Status::Complete(length) => length,
            httparse::Status::Partial if bytes.len() < LARGEST_HEAD => return Ok(None),
            httparse::Status::Partial => {
                return Err(Reply::error(431, "head_too_large", "the head is too large"));
            }
        };
        let text = |it: &httparse::Header<'_>| {
            let value = String::from_utf8_lossy(it.value).into_owned();
            (it.name.to_ascii_lowercase(), value)
        };
        let head = Head {
            method: parsed.method.unwrap_or_default().to_owned(),
            path: parsed.path.unwrap_or_default().to_owned(),
            headers: parsed.headers.iter().map(text).collect(),
        };
        Ok(Some((head, length)))
    }

    /// The header of this name, in lower case, unless it isn't there or is there more than once.
    pub(crate) fn header(&self, name: &str) -> Option<&str> {
        let mut found = self.headers.iter().filter(|it| it.0 == name);
        let value = found.next().map(|it| it.1.as_str());
        if found.next().is_some() { None } else { value }
    }

    /// Whether the header of this name, in lower case, is there, once or more.
    pub(crate) fn has(&self, name: &str) -> bool {
        self.headers.iter().any(|it| it.0 == name)
    }

    /// How long the body is: none where no header says so.
    pub(crate) fn body_length(&self, largest: usize) -> Result<usize, Reply> {
        if self.has("transfer-encoding") {
            return Err(Reply::error(
                411,
                "no_length",
                "the body needs a Content-Length",
            ));
        }
        if !self.has("content-length") {
            return Ok(0);
        }
        let length = self
            .header("content-length")
            .filter(|it| it.bytes().all(|it| it.is_ascii_digit()));
        match length.map(str::parse::<usize>) {
            Some(Ok(length)) if length <= largest => Ok(length),
            Some(_) => Err(Reply::error(413, "body_too_large", "the body is too large")),
            None => Err(Reply::error(
                400,
                "malformed",
                "the Content-Length can't be read",
            )),
        }
    }
}

/// What a client asks for.
#[derive(Debug)]
pub(crate) struct Request {
    pub(crate) head: Head,
    pub(crate) body: Vec<u8>,
    /// Until when it may wait for locks.
    pub(crate) deadline: Instant,
}

/// The bearer token that requests have to bring. `Debug` doesn't print it.
pub(crate) struct Token(String);

impl Token {
    /// A token of at least 16 bytes.
    pub(crate) fn new(text: &str) -> Option<Token> {
        (text.len() >= 16).then(|| Token(text.to_owned()))
    }

    /// Whether the request has it. The time that this takes doesn't depend on where the two differ, but may tell
    /// whether they are of one length.
    pub(crate) fn is_in(&self, head: &Head) -> bool {
        let brought = head
            .header("authorization")
            .and_then(|it| it.strip_prefix("Bearer "));
        brought.is_some_and(|it| bool::from(it.as_bytes().ct_eq(self.0.as_bytes())))
    }
}

impl fmt::Debug for Token {
    fn fmt(&self, f: &mut fmt::Formatter<'_>) -> fmt::Result {
        f.write_str("Token(..)")
    }
}
