//! Guardians that are made again of the lines of a journal.

use crate::error::Error;
use crate::guardian::Guardian;
use crate::sys;
use crate::sys::status;
use std::{error, fmt};

/// How much of a text [`Resumption::take`](crate::Resumption::take) took, and why no more.
///
/// ```
/// use argus_guardian::{Resumption, TakenLines, TakenEnd};
/// let taken = Resumption::new()?.take("0 begin_top -> a0\n1 commit");
/// assert_eq!(taken, TakenLines { bytes: 18, lines: 1, end: TakenEnd::Torn });
/// # Ok::<(), argus_guardian::Error>(())
/// ```
#[derive(Debug, Clone, PartialEq, Eq)]
pub struct TakenLines {
    /// How many bytes, from the first one on.
    pub bytes: usize,
    /// How many lines these are.
    pub lines: usize,
    /// Why no more.
    pub end: TakenEnd,
}

/// Why no more lines of a text were taken.
///
/// ```
/// use argus_guardian::{Resumption, TakenEnd};
/// let mut resuming = Resumption::new()?;
/// assert_eq!(resuming.take("0 begin_top -> a0\n").end, TakenEnd::Whole);
/// assert_eq!(resuming.take("1 commit a0").end, TakenEnd::Torn);
/// # Ok::<(), argus_guardian::Error>(())
/// ```
#[derive(Debug, Clone, PartialEq, Eq)]
pub enum TakenEnd {
    /// All of the text was taken.
    Whole,
    /// Bytes are left, without a line feed among them.
    Torn,
    /// The next line has a fault.
    Fault(LineFault),
    /// There is no memory for the next line. Pass the same text again from there.
    OutOfMemory,
}

/// The guardian of the lines that were taken, and how much of these was dropped:
/// [`Resumption::into_guardian`](crate::Resumption::into_guardian).
#[derive(Debug)]
pub struct RestoredGuardian {
    /// The guardian.
    pub guardian: Guardian,
    /// How many bytes were taken that aren't in its listing: those of an opening that refers to
    /// objects that didn't come, behind its first objects that refer to none but one another. It is
    /// 0 if an entry came.
    pub dropped: u64,
}

/// A guardian that is being restored from the lines of its journal's listing, a piece of text at a
/// time. Each entry's call is made again, and its reply compared with the line's: so the guardian's
/// listing is what was taken.
///
/// ```
/// use argus_guardian::{Guardian, Listing, Resumption, TakenEnd};
/// let first = Guardian::new()?;
/// first.declare("atomic_array[int]")?;
/// let listing = first.list(Listing::Journal)?;
///
/// let mut resuming = Resumption::new()?;
/// assert_eq!(resuming.take(&listing).end, TakenEnd::Whole);
/// let second = resuming.into_guardian()?.guardian;
/// assert_eq!(second.list(Listing::Journal)?, listing);
/// # Ok::<(), argus_guardian::Error>(())
/// ```
#[derive(Debug)]
pub struct Resumption {
    guardian: Guardian,
}

impl Resumption {
    /// A new one, which has taken no line.
    ///
    /// # Errors
    ///
    /// As for [`Guardian::new`].
    pub fn new() -> Result<Resumption, Error> {
        Ok(Resumption {
            guardian: Guardian::new()?,
        })
    }

    /// A new one, for the journal of this guardian, as it is written by somebody else. The guardian that
    /// comes of it takes the ids of this one's objects; an action with an id of this one is over.
    ///
    /// # Errors
    ///
    /// As for [`Guardian::new`].
    ///
    /// ```
    /// use argus_guardian::{Guardian, Listing, Resumption};
    /// let first = Guardian::new()?;
    /// let object = first.declare("atomic_array[int]")?;
    /// let mut resuming = Resumption::after(&first)?;
    /// resuming.take(&first.list(Listing::Journal)?);
    /// let second = resuming.into_guardian()?.guardian;
    /// assert_eq!(second.base(object)?, None);
    /// # Ok::<(), argus_guardian::Error>(())
    /// ```
    pub fn after(guardian: &Guardian) -> Result<Resumption, Error> {
        Ok(Resumption {
            guardian: guardian.successor()?,
        })
    }

    /// The same, in place of this one, of which no guardian comes.
    ///
    /// # Errors
    ///
    /// As for [`Guardian::new`].
    pub fn anew(&self) -> Result<Resumption, Error> {
        Resumption::after(&self.guardian)
    }

    /// Takes whole lines from the beginning of the text, up to the first that isn't the next one of
    /// the listing. What is left may be passed again, with more text after it.
    ///
    /// ```
    /// use argus_guardian::{LineFault, Resumption, TakenEnd};
    /// let mut resuming = Resumption::new()?;
    /// let taken = resuming.take("0 begin_top -> a0\n1 commit a0 -> refused Over\n");
    /// assert_eq!((taken.bytes, taken.lines), (18, 1));
    /// let reply = Some("done".to_owned());
    /// assert_eq!(taken.end, TakenEnd::Fault(LineFault::NotTheReply { reply }));
    /// # Ok::<(), argus_guardian::Error>(())
    /// ```
    pub fn take(&mut self, text: impl AsRef<[u8]>) -> TakenLines {
        let text = text.as_ref();
        let (mut bytes, mut lines, mut number) = (0, 0, 0);
        // SAFETY: no other guardian has the handle, the text is never null, and the three numbers
        // are other memory.
        let status = unsafe {
            sys::argus_c_resume(
                self.guardian.handle(),
                text.as_ptr(),
                text.len(),
                &raw mut bytes,
                &raw mut lines,
                &raw mut number,
            )
        };
        let end = match status {
            status::DONE if bytes == text.len() => TakenEnd::Whole,
            status::DONE => TakenEnd::Torn,
            status::NOT_UTF8 => TakenEnd::Fault(LineFault::NotUtf8 { at: place(number) }),
            status::NOT_AN_OPENING => TakenEnd::Fault(LineFault::NotAnOpening),
            status::NO_LINE => TakenEnd::Fault(LineFault::NoLine { at: place(number) }),
            status::NOT_NEXT => TakenEnd::Fault(LineFault::NotNext {
                next: u64::try_from(number).unwrap_or(0),
            }),
            status::NOT_SOUND => TakenEnd::Fault(LineFault::NotSound),
            status::NOT_THE_REPLY => TakenEnd::Fault(LineFault::NotTheReply {
                reply: self.guardian.read_text(|reply| Ok(reply.to_owned())).ok(),
            }),
            _ => TakenEnd::OutOfMemory,
        };
        TakenLines { bytes, lines, end }
    }

    /// Takes a text, of an opening or of entries, all of which has to be taken. At a fault the lines before that one
    /// were taken, and no more can be.
    ///
    /// # Errors
    ///
    /// [`LineError`]: which line is at fault, and why.
    ///
    /// ```
    /// use argus_guardian::{LineError, Resumption};
    /// let mut resuming = Resumption::new()?;
    /// resuming.take_whole("0 begin_top -> a0\n").expect("a journal's line");
    /// let error = resuming.take_whole("1 commit a7 -> done\n").expect_err("no action a7");
    /// let why = "`1 commit a7 -> done`: the journal before it gives the reply `refused NoAction`".to_owned();
    /// assert_eq!(error, LineError::Fault { line: 0, why });
    /// # Ok::<(), argus_guardian::Error>(())
    /// ```
    pub fn take_whole(&mut self, text: impl AsRef<[u8]>) -> Result<(), LineError> {
        let text = text.as_ref();
        let taken = self.take(text);
        let why = match taken.end {
            TakenEnd::Whole => return Ok(()),
            TakenEnd::OutOfMemory => return Err(LineError::OutOfMemory),
            TakenEnd::Torn => "it has no line feed".to_owned(),
            TakenEnd::Fault(LineFault::NotAnOpening) => {
                "it isn't the next line of an opening".to_owned()
            }
            TakenEnd::Fault(LineFault::NoLine { at }) => {
                format!("it isn't the line of an entry, from byte {at} on")
            }
            TakenEnd::Fault(LineFault::NotNext { next }) => format!("entry {next} comes next"),
            TakenEnd::Fault(LineFault::NotTheReply { reply: Some(reply) }) => {
                format!("the journal before it gives the reply `{reply}`")
            }
            TakenEnd::Fault(other) => other.to_string(),
        };
        let text = String::from_utf8_lossy(&text[taken.bytes..]);
        let text = text.lines().next().unwrap_or("");
        let (line, why) = (taken.lines as u64, format!("`{text}`: {why}"));
        Err(LineError::Fault { line, why })
    }

    /// The guardian of all that was taken. Actions that were live in it are live.
    ///
    /// # Errors
    ///
    /// [`LineError`]: also if an opening came that isn't whole.
    pub fn into_whole(self) -> Result<Guardian, LineError> {
        let opened = self.into_guardian().map_err(|_| LineError::OutOfMemory)?;
        if opened.dropped > 0 {
            let (line, why) = (0, LineFault::NotSound.to_string());
            return Err(LineError::Fault { line, why });
        }
        Ok(opened.guardian)
    }

    /// The guardian of what was taken. If an opening came without entries, it has as many of the
    /// opening's first objects as refer to none but one another.
    ///
    /// # Errors
    ///
    /// If there is no memory, the error has this value, unchanged; `?` turns it into
    /// [`Error::OutOfMemory`].
    ///
    /// ```
    /// use argus_guardian::{ActionId, Resumption, Status};
    /// let mut resuming = Resumption::new()?;
    /// resuming.take("0 begin_top -> a0\n");
    /// let guardian = resuming.into_guardian()?.guardian;
    /// assert_eq!(guardian.status(ActionId::numbered(0)), Some(Status::Live));
    /// # Ok::<(), argus_guardian::Error>(())
    /// ```
    pub fn into_guardian(self) -> Result<RestoredGuardian, Resumption> {
        let mut dropped = 0;
        // SAFETY: no other guardian has the handle, and the number is other memory.
        let status = unsafe { sys::argus_c_resumed(self.guardian.handle(), &raw mut dropped) };
        if status != status::DONE {
            return Err(self);
        }
        Ok(RestoredGuardian {
            guardian: self.guardian,
            dropped,
        })
    }
}

impl From<Resumption> for Error {
    fn from(_unmade: Resumption) -> Error {
        Error::OutOfMemory
    }
}

fn place(number: i64) -> usize {
    usize::try_from(number).unwrap_or(0)
}

/// Why not all of a text was taken: [`Resumption::take_whole`](crate::Resumption::take_whole).
#[derive(Debug, Clone, PartialEq, Eq)]
pub enum LineError {
    /// A line isn't the next one of the journal's listing.
    Fault {
        /// Which line of the text it is, counted from 0.
        line: u64,
        /// Why it isn't.
        why: String,
    },
    /// Out of memory.
    OutOfMemory,
}

/// Why a line is not the next one of a journal's listing: the first of these that applies.
///
/// ```
/// use argus_guardian::{LineFault, Resumption, TakenEnd};
/// let mut resuming = Resumption::new()?;
/// let taken = resuming.take("0 begin_top -> a0\n2 commit a0 -> done\n");
/// assert_eq!(taken.end, TakenEnd::Fault(LineFault::NotNext { next: 1 }));
/// # Ok::<(), argus_guardian::Error>(())
/// ```
#[derive(Debug, Clone, PartialEq, Eq)]
#[non_exhaustive]
pub enum LineFault {
    /// It isn't UTF-8.
    NotUtf8 {
        /// How many bytes its longest prefix has that is.
        at: usize,
    },
    /// It begins like a line of an opening, but can't be the next one: entries came before it, its
    /// number isn't the next one, a number is above its limit, no entry went before the opening, a
    /// shape can't be made, or a content doesn't fit its shape, whatever objects there are.
    NotAnOpening,
    /// It isn't the line of an entry.
    NoLine {
        /// How many bytes of it could be read: its longest prefix that begins an entry's line, or,
        /// in a declaration, the text before a shape that can't be made.
        at: usize,
    },
    /// It is the line of an entry, but not with the next number.
    NotNext {
        /// The number of the next entry.
        next: u64,
    },
    /// It is the next entry's line, but the opening before it refers to objects that aren't there.
    NotSound,
    /// It is the next entry's line, but by the journal before it, its call has another reply.
    NotTheReply {
        /// The reply by the journal, as after the arrow of an entry's line; None if there is no
        /// memory for it.
        reply: Option<String>,
    },
}

impl fmt::Display for LineFault {
    fn fmt(&self, f: &mut fmt::Formatter<'_>) -> fmt::Result {
        match self {
            LineFault::NotUtf8 { at } => write!(f, "not UTF-8 from byte {at} on"),
            LineFault::NotAnOpening => f.write_str("not a line of the opening"),
            LineFault::NoLine { at } => write!(f, "no entry from byte {at} on"),
            LineFault::NotNext { next } => write!(f, "not the number of the next entry, {next}"),
            LineFault::NotSound => f.write_str("the opening refers to objects that aren't there"),
            LineFault::NotTheReply { reply: Some(reply) } => {
                write!(f, "not the reply of the journal before it, {reply}")
            }
            LineFault::NotTheReply { reply: None } => {
                f.write_str("not the reply of the journal before it")
            }
        }
    }
}

impl error::Error for LineFault {}
