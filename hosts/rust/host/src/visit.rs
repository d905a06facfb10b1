//! `Visit`: a connection, which has one request.

use crate::reply::Reply;
use crate::request::{Head, LARGEST_HEAD, Request, Token};
use crate::server::Limits;
use std::io::{ErrorKind, Read};
use std::net::{Shutdown, TcpStream};
use std::time::{Duration, Instant};

// How much of a request that isn't read is taken off, so that the client reads its answer before it sees the end.
const REST: usize = 64 * 1024;
const REST_TIME: Duration = Duration::from_millis(300);
const SHORTEST: Duration = Duration::from_millis(1);

/// A connection, which has one request.
#[derive(Debug)]
pub(crate) struct Visit {
    stream: TcpStream,
    since: Instant,
    is_read: bool,
}

impl Visit {
    pub(crate) fn new(stream: TcpStream) -> Visit {
        Visit {
            stream,
            since: Instant::now(),
            is_read: false,
        }
    }

    /// The request, unless it is too large, too late, without the token or no request at all.
    pub(crate) fn read(
        &mut self,
        limits: &Limits,
        token: Option<&Token>,
    ) -> Result<Request, Reply> {
        let deadline = self.since + limits.time;
        let mut bytes = Vec::new();
        let (head, length) = loop {
            self.more(&mut bytes, LARGEST_HEAD, deadline)?;
            if let Some(found) = Head::of(&bytes)? {
                break found;
            }
        };
        if head.path != "/health" && token.is_some_and(|it| !it.is_in(&head)) {
            return Err(Reply::error(
                401,
                "no_token",
                "the bearer token is missing or wrong",
            ));
        }
        let whole = length + head.body_length(limits.body)?;
        while bytes.len() < whole {
            self.more(&mut bytes, whole, deadline)?;
        }
        self.is_read = true;
        let body = bytes[length..whole].to_vec();
        Ok(Request {
            head,
            body,
            deadline,
        })
    }

    // Takes what has arrived, until there are so many bytes.
    fn more(&mut self, bytes: &mut Vec<u8>, most: usize, deadline: Instant) -> Result<(), Reply> {
        let late = || Reply::error(408, "late", "the request didn't arrive in time");
        let left = deadline.saturating_duration_since(Instant::now());
        if left < SHORTEST {
            return Err(late());
        }
        let mut room = [0; 4096];
        let end = room.len().min(most.saturating_sub(bytes.len()));
        let read = self
            .stream
            .set_read_timeout(Some(left))
            .and_then(|()| self.stream.read(&mut room[..end]));
        match read {
            Ok(0) => Err(Reply::error(400, "cut_off", "the request was cut off")),
            Ok(count) => {
                bytes.extend_from_slice(&room[..count]);
                Ok(())
            }
            Err(error) if error.kind() == ErrorKind::Interrupted => Ok(()),
            Err(_) => Err(late()),
        }
    }

    /// Sends the reply, and ends the connection. A client that doesn't take it is left.
    pub(crate) fn end(mut self, reply: &Reply) {
        let sent = self
            .stream
            .set_write_timeout(Some(Duration::from_secs(1)))
            .and_then(|()| reply.write(&mut self.stream))
            .and_then(|()| self.stream.shutdown(Shutdown::Write));
        if sent.is_ok() && !self.is_read {
            self.take_rest();
        }
    }

    fn take_rest(&mut self) {
        let until = Instant::now() + REST_TIME;
        let (mut room, mut count) = ([0; 4096], 0);
        while count < REST && Instant::now() < until {
            let read = self
                .stream
                .set_read_timeout(Some(REST_TIME))
                .and_then(|()| self.stream.read(&mut room));
            match read {
                Ok(0) | Err(_) => break,
                Ok(more) => count += more,
            }
        }
    }
}
