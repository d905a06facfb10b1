//! `Request`: a call as a guardian takes it.

use crate::call::Call;
use crate::error::Error;
use crate::library::{Words, error_of};
use crate::shape::ShapeFault;
use crate::sys;
use crate::sys::{Parsed, status};

// Texts of so many bytes are read before their guardian is had: of shorter ones that costs more than it saves others.
const LONG: usize = 1024;

/// A call with its words, of which a long text may be read before the guardian is had.
pub(crate) struct Request<'c> {
    pub(crate) call: &'c Call,
    words: Words,
    parsed: Option<ParsedCall>,
}

impl<'c> Request<'c> {
    #[inline]
    pub(crate) fn of(call: &'c Call) -> Request<'c> {
        Request {
            call,
            words: Words::of(call),
            parsed: None,
        }
    }

    /// The same, whose text is read if it is long.
    #[inline]
    pub(crate) fn read(call: &'c Call) -> Result<Request<'c>, Error> {
        let mut request = Request::of(call);
        if request.is_unread() {
            request.read_again()?;
        }
        Ok(request)
    }

    /// Whether it has a long text that isn't read, or was and is made.
    #[inline]
    pub(crate) fn is_unread(&self) -> bool {
        self.words.text.len() >= LONG && self.parsed.is_none()
    }

    /// Reads its text, which no guardian is needed for.
    #[cold]
    pub(crate) fn read_again(&mut self) -> Result<(), Error> {
        self.parsed = Some(ParsedCall::of(&self.words)?);
        Ok(())
    }

    pub(crate) fn kind(&self) -> u32 {
        self.words.kind
    }

    /// Why its shape isn't one.
    #[cold]
    pub(crate) fn shape_fault(&self) -> Error {
        ShapeFault::of(&self.words.text).into()
    }

    /// Makes the call: the library's status, and its number.
    ///
    /// # Safety
    ///
    /// No other guardian has the handle, and no other call of it is under way.
    #[inline]
    pub(crate) unsafe fn make(&mut self, handle: *mut sys::Handle) -> (u32, i64) {
        let (words, mut number) = (&self.words, 0);
        let status = if let Some(mut parsed) = self.parsed.take() {
            // SAFETY: as the caller says; the parsed call and the number are other memory.
            unsafe { sys::argus_c_call_parsed(handle, &raw mut parsed.0, &raw mut number) }
        } else {
            // SAFETY: as the caller says; the text is UTF-8 and never null, and the number is other memory.
            unsafe {
                sys::argus_c_call(
                    handle,
                    words.kind,
                    words.action,
                    words.object,
                    words.first,
                    words.second,
                    words.text.as_ptr(),
                    words.text.len(),
                    &raw mut number,
                )
            }
        };
        (status, number)
    }
}

/// What the library has read of a call.
struct ParsedCall(Parsed);

impl ParsedCall {
    fn of(words: &Words) -> Result<ParsedCall, Error> {
        let mut parsed = ParsedCall(Parsed::NOTHING);
        // SAFETY: the handle is borrowed for the call, and the text is UTF-8 of this size.
        let answer = unsafe {
            sys::argus_parse(
                &raw mut parsed.0,
                words.kind,
                words.action,
                words.object,
                words.first,
                words.second,
                words.text.as_ptr().cast(),
                words.text.len(),
            )
        };
        match answer.status {
            status::DONE => Ok(parsed),
            status::BAD_SHAPE => Err(ShapeFault::of(&words.text).into()),
            status => Err(error_of(status, answer.number)),
        }
    }
}

impl Drop for ParsedCall {
    fn drop(&mut self) {
        // SAFETY: the handle is this one's. Where the call was made it has none, and this does nothing.
        unsafe { sys::argus_c_drop_parsed(&raw mut self.0) };
    }
}
