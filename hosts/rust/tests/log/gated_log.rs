//! `GatedLog`: a log in memory, whose writes a test lets through one by one.

use argus_guardian::log::{BatchLog, Failure, JournalLines};
use std::io;
use std::sync::mpsc::{Receiver, Sender, channel};
use std::sync::{Arc, Mutex};
use std::time::Duration;

// A test that would wait longer has failed.
const LONG: Duration = Duration::from_secs(30);

/// What a test says of a write that has begun.
#[derive(Debug, Clone, Copy, PartialEq, Eq)]
pub enum Say {
    Go,
    Fail,
    Panic,
}

/// A log in memory, whose writes a test lets through one by one.
pub struct GatedLog {
    begun: Sender<Piece>,
    said: Receiver<Say>,
    kept: Arc<Mutex<Vec<Piece>>>,
}

/// What the log was handed.
#[derive(Debug, Clone, PartialEq, Eq)]
pub enum Piece {
    Lines(String),
    Opening(String),
}

/// The test's end.
pub struct Gate {
    begun: Receiver<Piece>,
    say: Sender<Say>,
    kept: Arc<Mutex<Vec<Piece>>>,
}

impl GatedLog {
    pub fn new() -> (GatedLog, Gate) {
        let (begun, has_begun) = channel();
        let (say, said) = channel();
        let kept = Arc::new(Mutex::new(Vec::new()));
        let log = GatedLog {
            begun,
            said,
            kept: Arc::clone(&kept),
        };
        let begun = has_begun;
        (log, Gate { begun, say, kept })
    }

    fn keep(&mut self, piece: Piece) -> Result<(), Failure> {
        self.begun.send(piece.clone()).expect("the test waits");
        match self.said.recv_timeout(LONG).expect("the test says") {
            Say::Go => {
                self.kept.lock().expect("no panic").push(piece);
                Ok(())
            }
            Say::Fail => Err(io::Error::other("on purpose").into()),
            Say::Panic => panic!("on purpose"),
        }
    }
}

impl BatchLog for GatedLog {
    fn append(&mut self, lines: &JournalLines) -> Result<(), Failure> {
        let is_opening = lines.is_opening();
        let piece = if is_opening {
            Piece::Opening
        } else {
            Piece::Lines
        };
        self.keep(piece(lines.text.clone()))
    }
}

impl Gate {
    /// The next write, once it has begun.
    pub fn begun(&self) -> Piece {
        self.begun.recv_timeout(LONG).expect("a write")
    }

    pub fn say(&self, what: Say) {
        self.say.send(what).expect("the log waits");
    }

    /// Lets the next write through.
    pub fn pass(&self) -> Piece {
        let piece = self.begun();
        self.say(Say::Go);
        piece
    }

    pub fn kept(&self) -> Vec<Piece> {
        self.kept.lock().expect("no panic").clone()
    }
}
