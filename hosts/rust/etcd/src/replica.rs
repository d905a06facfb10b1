//! `Replica`: a guardian made from the batches of a log.

use crate::batch::Batch;
use crate::log_reader::Takes;
use argus_guardian::{Call, Error, Guardian, LineError, Listing, Resumption};

/// A guardian made from the batches of a log: each call is made again, and its line is compared with the log's. At a
/// checkpoint the objects have to hold what they held before it.
#[derive(Debug)]
pub(crate) struct Replica {
    state: State,
    // What the objects held before the opening that is being read, if that is known.
    before: Option<String>,
}

#[derive(Debug)]
enum State {
    // Nothing was read from it yet: the library takes whole texts.
    Resuming(Resumption),
    // Each call is made, and the line that the library writes of it is compared.
    Made(Guardian),
    // It couldn't be made.
    Lost,
}

impl Replica {
    pub(crate) fn new() -> Result<Replica, Error> {
        Ok(Replica {
            state: State::Resuming(Resumption::new()?),
            before: None,
        })
    }

    /// The guardian of all that was taken.
    pub(crate) fn guardian(&mut self) -> Result<&Guardian, LineError> {
        if let State::Resuming(_) = self.state {
            self.state = match std::mem::replace(&mut self.state, State::Lost) {
                State::Resuming(resumption) => {
                    State::Made(resumption.into_whole().map_err(|it| not_sound(&it))?)
                }
                other => other,
            };
        }
        match &self.state {
            State::Made(guardian) => Ok(guardian),
            _ => Err(LineError::OutOfMemory),
        }
    }

    // What the objects hold.
    fn bases(&mut self) -> Result<String, LineError> {
        let listed = self.guardian()?.list(Listing::Bases);
        listed.map_err(|_| LineError::OutOfMemory)
    }

    /// The same, and no more is taken.
    pub(crate) fn into_guardian(mut self) -> Result<Guardian, LineError> {
        self.guardian()?;
        match self.state {
            State::Made(guardian) => Ok(guardian),
            _ => Err(LineError::OutOfMemory),
        }
    }
}

impl Takes for Replica {
    fn begin_anew(&mut self, is_next: bool) -> Result<(), LineError> {
        self.before = if is_next { Some(self.bases()?) } else { None };
        // Objects keep their ids: a reader may have some.
        let resumption = match &self.state {
            State::Resuming(resumption) => resumption.anew(),
            State::Made(guardian) => Resumption::after(guardian),
            State::Lost => Resumption::new(),
        };
        self.state = State::Resuming(resumption.map_err(|_| LineError::OutOfMemory)?);
        Ok(())
    }

    fn take(&mut self, batch: &Batch<'_>) -> Result<(), LineError> {
        match &mut self.state {
            State::Resuming(resumption) => resumption.take_whole(batch.lines),
            State::Made(guardian) => (0..)
                .zip(batch.lines.lines())
                .try_for_each(|(line, text)| make_again(guardian, line, text)),
            State::Lost => Err(LineError::OutOfMemory),
        }
    }

    fn end_opening(&mut self) -> Result<(), LineError> {
        let Some(before) = self.before.take() else {
            return Ok(());
        };
        if self.bases()? == before {
            return Ok(());
        }
        let why = "the opening before it changes what objects hold";
        Err(fault(0, why.to_owned()))
    }
}

// Makes the call of a line, and compares the line that the library has of it.
fn make_again(guardian: &Guardian, line: u64, text: &str) -> Result<(), LineError> {
    let no_entry = |_| fault(line, format!("`{text}`: it isn't the line of an entry"));
    let (number, call) = Call::of_line(text).map_err(no_entry)?;
    let next = guardian.entries();
    if number != next {
        return Err(fault(line, format!("`{text}`: entry {next} comes next")));
    }
    // A refusal and a signal are replies, too: what counts is the line.
    let called = guardian.call(&call);
    if matches!(called, Err(Error::OutOfMemory)) {
        return Err(LineError::OutOfMemory);
    }
    let made = match guardian.entry(number) {
        Ok(made) if made == text => return Ok(()),
        Ok(made) => made,
        Err(Error::OutOfMemory) => return Err(LineError::OutOfMemory),
        Err(error) => return Err(no_entry(error)),
    };
    let front = format!("{number} {call} -> ");
    let reply = made
        .strip_prefix(&front)
        .filter(|_| text.starts_with(&front));
    Err(match reply {
        Some(reply) => {
            let why = format!("the journal before it gives the reply `{reply}`");
            fault(line, format!("`{text}`: {why}"))
        }
        None => no_entry(Error::OtherAnswer),
    })
}

// Why no guardian was made of an opening. It is found at the batch that comes next.
fn not_sound(error: &LineError) -> LineError {
    match error {
        LineError::Fault { line, .. } => {
            let why = "the opening before it refers to objects that aren't there";
            fault(*line, why.to_owned())
        }
        LineError::OutOfMemory => LineError::OutOfMemory,
    }
}

fn fault(line: u64, why: String) -> LineError {
    LineError::Fault { line, why }
}
