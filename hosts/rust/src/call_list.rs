//! Several calls of a guardian at once.

use crate::call::Call;
use crate::error::Error;
use crate::guardian::Guardian;
use crate::ids::{ActionId, Owner};
use crate::library::{Words, error_of, read_as, reply_of};
use crate::reply::{Answer, Reply};
use crate::shape::ShapeFault;
use crate::sys;
use crate::sys::status;
use crate::written_form::Reader;
use std::ptr;

/// One call of a list, and what its reply must be for the list to go on.
///
/// ```
/// use argus_guardian::{Call, ListedCall};
/// let list = [ListedCall::from(Call::BeginTop), ListedCall::by(0, Call::Commit)];
/// assert_ne!(list[0], list[1]);
/// ```
#[derive(Debug, Clone, PartialEq, Eq, Hash)]
pub struct ListedCall {
    call: Call,
    demand: Demand,
    // The place in the list, counted from 1, of the call that begins its action; 0: the action is
    // in the call.
    begun_by: u32,
}

impl ListedCall {
    /// A call by the action that the call at this place of the list, counted from 0, begins.
    ///
    /// ```
    /// use argus_guardian::{Call, ListedCall, ObjId, Query};
    /// let ask = ListedCall::by(0, |action| Call::Ask(action, ObjId::numbered(0), Query::Whole));
    /// assert_ne!(ask, ListedCall::by(1, |action| Call::Ask(action, ObjId::numbered(0), Query::Whole)));
    /// ```
    #[must_use]
    pub fn by(place: usize, call: impl FnOnce(ActionId) -> Call) -> ListedCall {
        let place = u32::try_from(place).unwrap_or(u32::MAX);
        ListedCall {
            begun_by: place.saturating_add(1),
            ..ListedCall::from(call(ActionId::numbered(0)))
        }
    }

    /// The same call with another demand.
    ///
    /// ```
    /// use argus_guardian::{Call, Demand, ListedCall};
    /// let abort = ListedCall::by(0, Call::Abort).demanding(Demand::Nothing);
    /// assert_ne!(abort, ListedCall::by(0, Call::Abort));
    /// ```
    #[must_use]
    pub fn demanding(self, demand: Demand) -> ListedCall {
        ListedCall { demand, ..self }
    }

    /// Why this guardian doesn't take the ids of the call.
    pub(crate) fn refused_by(&self, guardian: Owner) -> Error {
        self.call.refused_by(guardian)
    }

    /// The call as the library takes it, with the address of its words' text.
    pub(crate) fn with(&self, words: &Words) -> sys::ListedCall {
        sys::ListedCall {
            kind: words.kind,
            demand: match self.demand {
                Demand::NoRefusal => sys::demand::NO_REFUSAL,
                Demand::Nothing => sys::demand::NOTHING,
                Demand::NoSignal => sys::demand::NO_SIGNAL,
            },
            action: words.action,
            begun_by: self.begun_by,
            object: words.object,
            status: 0,
            first: words.first,
            second: words.second,
            number: 0,
            text: ptr::from_ref(words.text.as_bytes()).cast(),
            text_size: words.text.len(),
        }
    }
}

impl From<Call> for ListedCall {
    /// The call itself, whose reply must not be a refusal.
    fn from(call: Call) -> ListedCall {
        ListedCall {
            call,
            demand: Demand::NoRefusal,
            begun_by: 0,
        }
    }
}

/// What a reply must be for a list of calls to go on.
///
/// ```
/// use argus_guardian::Demand;
/// assert_eq!(Demand::default(), Demand::NoRefusal);
/// ```
#[derive(Debug, Clone, Copy, PartialEq, Eq, Hash, Default)]
pub enum Demand {
    /// No refusal.
    #[default]
    NoRefusal,
    /// It may be anything.
    Nothing,
    /// No refusal and no signal.
    NoSignal,
}

/// The outcome of a list of calls: the replies of those that were made, from the first one on, and
/// why no more were.
///
/// ```
/// use argus_guardian::{ActionId, Answer, Call, Guardian, ListEnd, ListedCall, Reply};
/// let guardian = Guardian::new()?;
/// let list = [ListedCall::from(Call::BeginTop), ListedCall::by(0, Call::Commit)];
/// let made = guardian.call_each(&list)?;
/// assert_eq!(made.replies, [Reply::Begun(ActionId::numbered(0)), Reply::Answered(Answer::Done)]);
/// assert_eq!(made.end, ListEnd::Whole);
/// # Ok::<(), argus_guardian::Error>(())
/// ```
#[derive(Debug, Clone, PartialEq, Eq)]
#[must_use = "it says whether all calls of the list were made"]
pub struct CallsMade {
    /// The replies, in the order of the calls.
    pub replies: Vec<Reply>,
    /// Why no more were made.
    pub end: ListEnd,
}

/// Why no more calls of a list were made.
///
/// ```
/// use argus_guardian::{ActionId, Call, Guardian, ListEnd, ListedCall};
/// let guardian = Guardian::new()?;
/// let made = guardian.call_each(&[ListedCall::from(Call::Commit(ActionId::numbered(7)))])?;
/// assert_eq!(made.end, ListEnd::Unmet);
/// # Ok::<(), argus_guardian::Error>(())
/// ```
#[derive(Debug, Clone, PartialEq, Eq)]
#[must_use = "it says whether all calls of the list were made"]
pub enum ListEnd {
    /// All were made, and each reply is what its demand says.
    Whole,
    /// The last reply isn't what its demand says.
    Unmet,
    /// The next call failed: it wasn't made, and has changed nothing.
    Failed(Error),
}

impl Guardian {
    /// Makes the calls one after another, up to the first whose reply isn't what its demand says:
    /// one call into the library for all of them. Each has its own entry in the journal. A call
    /// that fails ends the list, too; the calls before it stay.
    ///
    /// # Errors
    ///
    /// [`Error::NoRoom`]: calls were made, but there was no memory for their values.
    ///
    /// ```
    /// use argus_guardian::{Call, Change, Guardian, ListEnd, ListedCall, Query, Value};
    /// # use argus_guardian::Access;
    /// let mut guardian = Guardian::new()?;
    /// let account = guardian.declare("atomic_record[balance:int]")?;
    /// # let top = guardian.topaction()?;
    /// # top.create(account, (5,))?;
    /// # top.commit()?;
    /// let set = Change::SetField(0, Value::Int(7));
    /// let made = guardian.call_each(&[
    ///     ListedCall::from(Call::BeginTop),
    ///     ListedCall::by(0, |a| Call::Ask(a, account, Query::Field(0))),
    ///     ListedCall::by(0, |a| Call::Alter(a, account, set)),
    ///     ListedCall::by(0, Call::Commit),
    /// ])?;
    /// assert_eq!(made.end, ListEnd::Whole);
    /// assert_eq!(made.replies[1].to_string(), "val 5");
    /// # Ok::<(), argus_guardian::Error>(())
    /// ```
    pub fn call_each(&self, calls: &[ListedCall]) -> Result<CallsMade, Error> {
        let owner = self.owner.get();
        let words: Vec<Words> = calls.iter().map(|it| Words::of(&it.call)).collect();
        // The list ends before a call with an id that the guardian doesn't take.
        let refused = calls.iter().position(|it| !it.call.is_for(owner));
        let own = &calls[..refused.unwrap_or(calls.len())];
        let listed = own.iter().zip(&words).map(|(each, words)| each.with(words));
        let mut listed: Vec<sys::ListedCall> = listed.collect();
        let mut count = 0;
        // SAFETY: no other guardian has the handle; handle, calls and count don't overlap, no
        // pointer is null, and each text is UTF-8 of words that live until the end of the call.
        let status = unsafe {
            sys::argus_c_call_each(
                self.handle(),
                listed.as_mut_ptr(),
                listed.len(),
                &raw mut count,
            )
        };
        let (made, rest) = listed.split_at(count.min(listed.len()));
        let end = match status {
            status::DONE => refused.map_or(ListEnd::Whole, |place| {
                ListEnd::Failed(calls[place].refused_by(owner))
            }),
            status::UNMET => ListEnd::Unmet,
            status::BAD_SHAPE => {
                let text = words.get(made.len()).map_or("", |it| &it.text);
                ListEnd::Failed(ShapeFault::of(text).into())
            }
            status => ListEnd::Failed(error_of(status, rest.first().map_or(0, |it| it.number))),
        };
        let replies = self.replies_of(made)?;
        Ok(CallsMade { replies, end })
    }

    // The replies of these calls, whose texts the library keeps, a line each.
    fn replies_of(&self, made: &[sys::ListedCall]) -> Result<Vec<Reply>, Error> {
        if made.is_empty() {
            return Ok(Vec::new());
        }
        self.kept.set(status::DONE);
        let owner = self.owner.get();
        self.read_text(|lines| {
            let mut lines = lines.split('\n');
            let replies = made.iter().map(|call| {
                let answer = || answer_of(owner, call.status, lines.next().unwrap_or(""));
                reply_of(owner, call.kind, call.status, call.number, answer)
            });
            replies.collect()
        })
    }
}

// The value or the content that a line has, of this guardian.
fn answer_of(owner: Owner, status: u32, line: &str) -> Result<Answer, Error> {
    if status == status::CONTENT {
        read_as(status, owner, line, Reader::content).map(Answer::Body)
    } else {
        read_as(status, owner, line, Reader::value).map(Answer::Val)
    }
}
