//! `Follower`: a guardian made from a log while another host writes it.

use crate::client::Client;
use crate::etcd_log::EtcdLog;
use crate::etcd_options::EtcdOptions;
use crate::leadership::{Leadership, Takeover};
use crate::log_error::LogError;
use crate::log_reader::LogReader;
use crate::position::Position;
use crate::replica::Replica;
use crate::watch::Watch;
use argus_guardian::log::Logged;
use argus_guardian::{Error, Guardian};
use std::sync::Arc;
use std::time::Duration;

/// A guardian made from a log while another host writes it. Each call in the log is made again, and its reply is
/// compared with the one in the log; at the first difference the follower stops, and names the line.
///
/// It serves reads, each with the position in the log that it reflects.
///
/// ```no_run
/// use argus_guardian::{Guardian, ObjId};
/// use argus_guardian_etcd::{Campaign, EtcdOptions, Follower};
/// use std::time::Duration;
/// let options = EtcdOptions::at(["http://127.0.0.1:2379"]);
/// let mut follower = Follower::begin(&options)?;
/// let mut campaign = Campaign::begin(&options, "host-1")?;
/// let leadership = loop {
///     follower.follow(Duration::from_millis(100))?;
///     let (base, position) = follower.read(|guardian| guardian.base(ObjId::numbered(0)))?;
///     println!("{base:?} {position}");
///     if let Some(leadership) = campaign.poll()? {
///         break leadership;
///     }
/// };
/// let (bank, led) = follower.lead(leadership, Duration::from_secs(1))?;
/// println!("leads from entry {}", led.entry);
/// bank.topaction()?.commit()?; // acknowledged: etcd has it
/// # Ok::<(), Box<dyn std::error::Error>>(())
/// ```
#[derive(Debug)]
pub struct Follower {
    reader: LogReader<Replica>,
    watch: Watch,
    // Why it has stopped for good.
    stopped: Option<LogError>,
}

impl Follower {
    /// A follower that has read nothing yet.
    ///
    /// # Errors
    ///
    /// [`LogError::Etcd`], for a wrong option; [`LogError::Guardian`].
    ///
    /// ```
    /// use argus_guardian_etcd::{EtcdError, EtcdOptions, Follower, LogError};
    /// let nowhere = Follower::begin(&EtcdOptions::at::<String>([]));
    /// assert!(matches!(nowhere, Err(LogError::Etcd(EtcdError::Option(_)))));
    /// ```
    pub fn begin(options: &EtcdOptions) -> Result<Follower, LogError> {
        let options = Arc::new(options.clone());
        let client = Client::new(&options)?;
        Ok(Follower {
            reader: LogReader::new(client, Replica::new()?),
            watch: Watch::begin(&options)?,
            stopped: None,
        })
    }

    /// Takes what has been appended since the last call; if nothing has, waits for it, up to this long. Returns the
    /// position then.
    ///
    /// # Errors
    ///
    /// [`LogError::Damaged`], from then on at each call; [`LogError::Etcd`], after which it may be called again;
    /// [`LogError::Guardian`].
    ///
    /// ```no_run
    /// # use argus_guardian_etcd::{EtcdOptions, Follower, LogError};
    /// # let mut follower = Follower::begin(&EtcdOptions::at(["http://127.0.0.1:2379"]))?;
    /// let position = follower.follow(std::time::Duration::from_secs(1))?;
    /// # Ok::<(), LogError>(())
    /// ```
    pub fn follow(&mut self, longest: Duration) -> Result<Position, LogError> {
        let (head, revision) = (self.reader.head, self.position().revision);
        if self.stopped.is_none() && !self.watch.wait(head, revision, longest) {
            return Ok(self.position());
        }
        self.catch_up()
    }

    /// Takes all that etcd has: reads after this are no older than this call.
    ///
    /// # Errors
    ///
    /// As of [`follow`](Self::follow).
    ///
    /// ```no_run
    /// # use argus_guardian_etcd::{EtcdOptions, Follower, LogError};
    /// # let mut follower = Follower::begin(&EtcdOptions::at(["http://127.0.0.1:2379"]))?;
    /// let position = follower.catch_up()?;
    /// # Ok::<(), LogError>(())
    /// ```
    pub fn catch_up(&mut self) -> Result<Position, LogError> {
        self.check_going()?;
        let taken = self.reader.take_all();
        if let Err(error @ (LogError::Damaged { .. } | LogError::Guardian(_))) = &taken {
            self.stopped = Some(error.clone());
        }
        taken.map(|()| self.position())
    }

    // That it hasn't stopped.
    fn check_going(&self) -> Result<(), LogError> {
        self.stopped.clone().map_or(Ok(()), Err)
    }

    /// How far it has read.
    ///
    /// ```no_run
    /// # use argus_guardian_etcd::{EtcdOptions, Follower, LogError, Position};
    /// let follower = Follower::begin(&EtcdOptions::at(["http://127.0.0.1:2379"]))?;
    /// assert_eq!(follower.position(), Position::default());
    /// # Ok::<(), LogError>(())
    /// ```
    #[must_use]
    pub fn position(&self) -> Position {
        self.reader.position
    }

    /// Reads from the guardian, and returns the position that this reflects. Bases are what has committed up to
    /// there; actions may be live. The ids of objects that it returns are good for later reads, too, and for the guardian
    /// that [leads](Self::lead).
    ///
    /// # Errors
    ///
    /// Why the follower has stopped, if it has: its guardian may have made a call that the log doesn't say.
    /// [`LogError::Damaged`] and [`LogError::Guardian`], if no guardian can be made of an opening; `Damaged`, if `what`
    /// made a call, or folded or renewed the journal: the follower has stopped then. Others as of
    /// [`follow`](Self::follow), if an opening was read in part.
    ///
    /// ```no_run
    /// # use argus_guardian::{Listing, Guardian};
    /// # use argus_guardian_etcd::{EtcdOptions, Follower, LogError};
    /// # let mut follower = Follower::begin(&EtcdOptions::at(["http://127.0.0.1:2379"]))?;
    /// # let mut other = Guardian::new()?;
    /// let (bases, position) = follower.read(|guardian| guardian.list(Listing::Bases))?;
    /// # Ok::<(), LogError>(())
    /// ```
    ///
    /// Another guardian can't take its place:
    ///
    /// ```compile_fail,E0308
    /// # use argus_guardian::{Listing, Guardian};
    /// # use argus_guardian_etcd::{EtcdOptions, Follower, LogError};
    /// # let mut follower = Follower::begin(&EtcdOptions::at(["http://127.0.0.1:2379"]))?;
    /// # let mut other = Guardian::new()?;
    /// let (bases, position) = follower.read(|guardian| std::mem::swap(guardian, &mut other))?;
    /// # Ok::<(), LogError>(())
    /// ```
    pub fn read<T>(
        &mut self,
        what: impl FnOnce(&Guardian) -> T,
    ) -> Result<(T, Position), LogError> {
        self.check_going()?;
        if self.reader.is_opening {
            // A request failed in the midst of an opening, which makes a guardian only as a whole.
            self.catch_up()?;
        }
        let guardian = match self.reader.takes.guardian() {
            Ok(guardian) => guardian,
            Err(error) => {
                let error = self.reader.not_taken(error);
                self.stopped = Some(error.clone());
                return Err(error);
            }
        };
        let before = counts(guardian);
        let said = what(guardian);
        if counts(guardian) != before {
            let error = self.reader.damage(None, "a reader made a call");
            self.stopped = Some(error.clone());
            return Err(error);
        }
        Ok((said, self.position()))
    }

    /// Goes on as the leader: takes the rest of the log, and aborts what was live at its end, as a guardian of Argus
    /// aborts its actions at a crash. Accesses wait for their locks as long as this patience.
    ///
    /// # Errors
    ///
    /// As of [`follow`](Self::follow); [`LogError::Broken`]; [`EtcdError::Deposed`](crate::EtcdError::Deposed).
    ///
    /// ```no_run
    /// # use argus_guardian_etcd::{Campaign, EtcdOptions, Follower};
    /// # let options = EtcdOptions::at(["http://127.0.0.1:2379"]);
    /// let leadership = Campaign::begin(&options, "host-1")?.wait()?;
    /// let follower = Follower::begin(&options)?;
    /// let (bank, led) = follower.lead(leadership, argus_guardian::Shared::PATIENCE)?;
    /// # Ok::<(), Box<dyn std::error::Error>>(())
    /// ```
    pub fn lead(
        mut self,
        leadership: Leadership,
        patience: Duration,
    ) -> Result<(Logged, Takeover), LogError> {
        // Earlier leaders append nothing any more: their keys are gone.
        self.catch_up()?;
        // The guardian is made here, so that an opening of which none can be made is named, or one before another
        // entry.
        let (lines, at) = self.read(Guardian::entries)?;
        if lines != at.entry {
            let head = at.entry;
            let why = format!(
                "by the log's lines entry {lines} comes next, and by its head entry {head}"
            );
            return Err(self.reader.damage(None, &why));
        }
        let LogReader {
            client,
            takes,
            position,
            head,
            ..
        } = self.reader;
        let epoch = leadership.epoch();
        let guardian = takes.into_guardian().map_err(|_| Error::OutOfMemory)?;
        let log = EtcdLog::begin(client, leadership, head)?;
        let logged = Logged::over(guardian, Box::new(log), patience)?;
        let (entry, aborted) = (position.entry, logged.counts().entries);
        Ok((
            logged,
            Takeover {
                entry,
                aborted,
                epoch,
            },
        ))
    }
}

// What a call, a checkpoint or a renewal changes.
fn counts(guardian: &Guardian) -> (u64, u64, u32) {
    (
        guardian.entries(),
        guardian.first_entry(),
        guardian.actions(),
    )
}
