//! `Logged`: a guardian that threads share, and whose entries go to a log; `LoggedAction`: a live action of one.

use crate::log::{BatchLog, Failure, JournalLines, LoggedError, Result};
use crate::shared::action::Shares;
use crate::shared::group::{Group, locked};
use crate::shared::retry::{commit_after, retried};
use crate::shared::taking::Taking;
use crate::{ActionId, AsObject, Content, Error, Guardian, Listing, MayConflict};
use crate::{ObjId, Object, Shared, SharedAction};
use std::collections::HashMap;
use std::path::PathBuf;
use std::sync::Mutex;
use std::sync::atomic::{AtomicU64, Ordering};
use std::time::{Duration, Instant};
use std::{fmt, io, iter};

// How long a checkpoint that a log makes by itself holds back topactions; and after how many entries it tries again.
const PATIENCE: Duration = Duration::from_millis(100);
const AGAIN: u64 = 10_000;
/// A guardian that threads share, and whose journal's entries go to a log.
///
/// A topaction or a nested one is *acknowledged* when its [`commit`](LoggedAction::commit) has returned `Ok`: it and
/// all entries before it are in the log. What a program passes on has to be acknowledged, too: what
/// [`base`](Self::base) and [`declare`](Self::declare) return is, and so are all calls before a
/// [`barrier`](Self::barrier). Calls go on while a batch is written, and one sync serves all commits that arrive then.
///
/// Each call fails as its namesake of [`Shared`] or [`Guardian`]. If the log fails, this is *broken*: each later call
/// returns [`LoggedError::Broken`] and isn't made, and those that were waiting for the log return
/// [`LoggedError::InDoubt`]. A restart finds out whether they are there. So a client numbers its orders, and the
/// topaction that carries one out also records its number, as in the example `orders`.
pub struct Logged {
    shared: Shared,
    log: Mutex<Box<dyn BatchLog>>,
    taking: Mutex<Taking>,
    group: Group,
    // The objects by their names, if the log keeps any; after how many entries it makes a checkpoint by itself, and the
    // entry before which it needn't look whether it should.
    pub(crate) names: Option<Mutex<HashMap<String, Object>>>,
    pub(crate) fold_after: Option<u64>,
    due_at: AtomicU64,
    pub(crate) found: LogFound,
}

impl fmt::Debug for Logged {
    fn fmt(&self, f: &mut fmt::Formatter<'_>) -> fmt::Result {
        f.debug_struct("Logged").finish_non_exhaustive()
    }
}

impl Logged {
    /// A new guardian whose log forgets: for tests of a program.
    pub fn in_memory() -> Result<Logged> {
        Logged::over(Guardian::new()?, Box::new(io::sink()), Shared::PATIENCE)
    }

    /// A guardian over a log that has all of its entries, as a new one, or one that a [`Resumption`](crate::Resumption)
    /// has restored: check first that its next entry is the log's. Aborts what is live, and returns when the log has that;
    /// [`counts`](Self::counts) then has the entries that it took. Accesses wait for locks at most for this patience.
    pub fn over(guardian: Guardian, log: Box<dyn BatchLog>, patience: Duration) -> Result<Logged> {
        let logged = Logged {
            log: Mutex::new(log),
            taking: Mutex::new(Taking::after(guardian.entries())),
            group: Group::after(guardian.entries()),
            names: None,
            fold_after: None,
            due_at: AtomicU64::new(0),
            found: LogFound::default(),
            shared: Shared::new(guardian, patience).fold_after(None),
        };
        logged.acknowledged(Guardian::abort_live)?;
        Ok(logged)
    }

    /// Begins a topaction. It aborts when it is dropped, unless it has committed.
    pub fn topaction(&self) -> Result<LoggedAction<'_>> {
        Ok(SharedAction::of(self, self.shared()?.begin_topaction()?))
    }

    /// Carries out the work as a topaction, as [`Shared::run`] does: it may run more than once, and is acknowledged when
    /// this returns `Ok`. After [`LoggedError::InDoubt`] it isn't tried again.
    pub fn run<T, E: From<LoggedError> + MayConflict>(
        &self,
        work: impl FnMut(&LoggedAction<'_>) -> Result<T, E>,
    ) -> Result<T, E> {
        self.run_if(E::is_conflict, work)
    }

    /// The same, where this function says which errors are conflicts: [`Shared::run_if`].
    pub fn run_if<T, E: From<LoggedError>>(
        &self,
        is_conflict: impl Fn(&E) -> bool,
        mut work: impl FnMut(&LoggedAction<'_>) -> Result<T, E>,
    ) -> Result<T, E> {
        retried(is_conflict, || commit_after(self.topaction()?, &mut work))
    }

    /// Declares an object of this shape. Its number is acknowledged.
    pub fn declare(&self, shape: &str) -> Result<ObjId> {
        self.acknowledged(|guardian| guardian.declare(shape))
    }

    /// Declares an object of each of these shapes, and waits for the log once. Their numbers are acknowledged. At an
    /// error the objects before the one that failed are declared.
    pub fn declare_each(&self, shapes: impl IntoIterator<Item: AsRef<str>>) -> Result<Vec<ObjId>> {
        // Not while the mutex is held, which would call the program's code.
        let shapes: Vec<String> = shapes.into_iter().map(|it| it.as_ref().into()).collect();
        self.acknowledged(|guardian| shapes.iter().map(|it| guardian.declare(it)).collect())
    }

    /// The object of this name; if there is none, declares one of this shape. Its number and its name are acknowledged:
    /// so a program keeps names, and no numbers, from one start to the next. It may fail with [`LoggedError::NoNames`].
    pub fn named(&self, name: &str, shape: impl AsRef<str>) -> Result<Object> {
        self.shared()?;
        let (names, shape) = (self.names.as_ref(), shape.as_ref());
        let mut names = locked(names.ok_or(LoggedError::NoNames)?);
        if let Some(object) = names.get(name) {
            return Ok(object.clone().with_shape(shape)?);
        }
        let object = self.acknowledged(|guardian| {
            let object = guardian.object(guardian.declare(shape)?)?.called(name);
            locked(&self.taking).name(guardian, object.clone());
            Ok(object)
        })?;
        names.insert(name.to_owned(), object.clone());
        Ok(object)
    }

    /// The object's base, which is acknowledged; `None` if it has no content yet.
    pub fn base(&self, object: impl AsObject) -> Result<Option<Content>> {
        let object = object.id();
        self.acknowledged(|guardian| guardian.base(object))
    }

    /// The object with the names of its fields or tags; its declaration is acknowledged.
    pub fn object(&self, object: ObjId) -> Result<Object> {
        self.acknowledged(|guardian| guardian.object(object))
    }

    /// A listing, all of which is acknowledged.
    pub fn list(&self, listing: Listing) -> Result<String> {
        self.acknowledged(|guardian| guardian.list(listing))
    }

    /// How many objects are declared, all of them acknowledged.
    pub fn objects(&self) -> Result<u32> {
        self.acknowledged(|guardian| Ok(guardian.objects()))
    }

    /// How many entries the journal has had. They may not be in the log yet.
    pub fn entries(&self) -> u64 {
        self.shared.lend(Guardian::entries)
    }

    /// How many actions are live. They may not be in the log yet.
    pub fn live_actions(&self) -> usize {
        self.shared.lend(|guardian| {
            let next = |live: &ActionId| guardian.live(live.number() + 1);
            iter::successors(guardian.live(0), next).count()
        })
    }

    /// How many actions can begin until a checkpoint renews their numbers.
    pub fn actions_left(&self) -> u32 {
        self.shared.actions_left()
    }

    // What the guardian returns, when all of it is in the log.
    fn acknowledged<T>(&self, what: impl FnOnce(&Guardian) -> Result<T, Error>) -> Result<T> {
        let asked = |it: &Guardian| Ok::<_, Error>((what(it)?, self.committed(it)));
        let (answer, entries) = self.shared()?.lend(asked)?;
        self.wait(entries, 0).map(|()| answer)
    }

    /// Returns when all earlier calls are in the log. Call it before you pass on what a live action has read.
    pub fn barrier(&self) -> Result<()> {
        self.acknowledged(|_| Ok(()))
    }

    /// Folds the journal when no action is live, and starts the log again with what the objects hold alone. Until then it
    /// holds back each [`topaction`](Self::topaction), at most for this patience. At an error the log goes on as it was, but
    /// after `OutOfMemory` it may start again later. A log in a database does so by itself (`LogOptions::checkpoint_after`).
    pub fn checkpoint_waiting(&self, patience: Duration) -> Result<()> {
        let fold = |it: &Guardian| locked(&self.taking).fold(it);
        let openings = self.shared()?.fold_waiting(patience, fold)?;
        self.wait(0, openings)
    }

    // What comes of the checkpoint isn't reported, since what was committed is in the log. A later commit tries again.
    pub(crate) fn checkpoint_if_due(&self) {
        let Some(after) = self.fold_after else { return };
        let asked = |it: &Guardian| (it.entries(), it.first_entry(), it.actions());
        let (entries, begins, actions) = self.shared.lend(asked);
        // An entry begins one action at most.
        let left = (Guardian::MAX_ACTIONS / 2).saturating_sub(actions);
        let due = (begins.saturating_add(after)).min(entries + u64::from(left));
        let again = if entries < due {
            due
        } else {
            entries + AGAIN.min(after)
        };
        let is_mine = self.due_at.swap(again, Ordering::Relaxed) <= entries;
        if entries >= due && is_mine {
            let _ = self.checkpoint_waiting(PATIENCE);
        }
    }

    /// What was found in the database when the log was opened.
    pub fn found(&self) -> &LogFound {
        &self.found
    }

    /// What the log has done since it was opened.
    pub fn counts(&self) -> LogCounts {
        self.group.counts()
    }

    /// Why the log is broken, if it is.
    pub fn broken(&self) -> Option<Failure> {
        self.group.broken()
    }
}

impl Shares for Logged {
    type Error = LoggedError;
    const WAITS: bool = true;
    fn kept(&self) -> &Shared {
        &self.shared
    }

    fn shared(&self) -> Result<&Shared> {
        let broken = self.broken().map(LoggedError::Broken);
        broken.map_or(Ok(&self.shared), Err)
    }

    // What isn't taken here, for want of memory, is when it is written.
    fn committed(&self, guardian: &Guardian) -> u64 {
        let _ = locked(&self.taking).take_all(guardian);
        guardian.entries()
    }

    fn acknowledge(&self, entries: u64, is_outermost: bool) -> Result<()> {
        self.wait(entries, 0)?;
        if is_outermost && entries >= self.due_at.load(Ordering::Relaxed) {
            self.checkpoint_if_due();
        }
        Ok(())
    }
}

/// A live action of a guardian with a log. What it reads may come from commits that aren't in the log yet: to pass it on
/// without committing, call [`Logged::barrier`] first. The commit of a topaction, nested or not, returns when the log has
/// it. At an error it is aborted, but for [`LoggedError::InDoubt`]: it has committed here, and a restart finds out whether
/// the log has it. An abort doesn't wait: after a crash the action is aborted, too, and it is at [`LoggedError::Broken`].
pub type LoggedAction<'l> = SharedAction<'l, Logged>;

/// What was found in a log, and done, when it was opened.
#[derive(Debug, Clone, PartialEq, Eq, Default)]
pub struct LogFound {
    /// The database; empty if the log isn't in one.
    pub path: PathBuf,
    /// The log's name, which was drawn when it was made: its copies have the same.
    pub name: String,
    /// How many batches it had, beside its opening.
    pub batches: u64,
    /// How many entries these had.
    pub entries: u64,
    /// The number of the next entry.
    pub next: u64,
    /// How many objects are declared.
    pub objects: u32,
    /// How often it had been opened to be written.
    pub epoch: u64,
    /// How many entries it took to abort the actions that were live when the log ended.
    pub aborted: u64,
}

/// What a log has done since it was opened.
#[derive(Debug, Clone, Copy, PartialEq, Eq, Default)]
pub struct LogCounts {
    /// How many batches it has written.
    pub batches: u64,
    /// How many entries these had.
    pub entries: u64,
    /// How many bytes their lines and those of openings had.
    pub bytes: u64,
    /// How often it has begun again with an opening.
    pub checkpoints: u64,
    /// How long it took to write and sync all that.
    pub time: Duration,
    /// How many calls were in doubt at their end.
    pub in_doubt: u64,
}

/// A log that forgets.
impl BatchLog for io::Sink {
    fn append(&mut self, _: &JournalLines) -> Result<(), Failure> {
        Ok(())
    }
}

impl Logged {
    // Returns when the log has all entries before this one, and so many openings.
    fn wait(&self, entry: u64, openings: u64) -> Result<()> {
        self.group.wait((entry, openings), || self.write_batch())
    }

    fn write_batch(&self) -> Result<(), Failure> {
        let mut batch = locked(&self.taking).next_batch();
        if batch.is_none() {
            let take_all = |it: &Guardian| locked(&self.taking).take_all(it);
            self.shared.lend(take_all).map_err(io::Error::other)?;
            batch = locked(&self.taking).next_batch();
        }
        let lines = batch.ok_or_else(|| io::Error::other(Error::OtherAnswer))?;
        let started = Instant::now();
        locked(&self.log).append(&lines)?;
        self.group.has_written(&lines, started.elapsed());
        Ok(())
    }
}
