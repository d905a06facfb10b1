//! `BankFollower`: a follower of a bank's log, and what it has found there.

use crate::bank::balance_in;
use crate::records::Records;
use argus_guardian::{Error, Guardian, ObjId};
use argus_guardian_etcd::{Follower, LogError, Position};
use std::time::{Duration, Instant};

// So often etcd is asked, even if it has announced nothing.
const ASKED: Duration = Duration::from_secs(1);

/// A follower of a bank's log, and what it has found there.
#[derive(Debug)]
pub(crate) struct BankFollower {
    pub(crate) follower: Follower,
    pub(crate) records: Records,
    /// How many of the objects are among the records.
    pub(crate) taken: u32,
    /// When it had all that etcd had.
    pub(crate) current: Instant,
    /// Whether the follower has stopped for good.
    pub(crate) has_stopped: bool,
}

impl BankFollower {
    /// Takes what is new; from time to time it asks, even if nothing was announced.
    pub(crate) fn follow(&mut self) -> Result<(), LogError> {
        let before = self.follower.position();
        let asks = self.current.elapsed() >= ASKED;
        let position = if asks {
            self.follower.catch_up()?
        } else {
            self.follower.follow(Duration::ZERO)?
        };
        if asks || position != before {
            self.current = Instant::now();
        }
        Ok(())
    }

    /// What an account has, and the position that this reflects.
    pub(crate) fn balance(&mut self, account: u32) -> Result<(Option<i64>, Position), LogError> {
        let (records, taken) = (&mut self.records, &mut self.taken);
        let (balance, position) = self.follower.read(|guardian: &Guardian| {
            while *taken < guardian.objects() {
                records.take(&guardian.object(ObjId::numbered(*taken))?);
                *taken += 1;
            }
            let record = records.account(account);
            let base = record.map(|it| guardian.base(it)).transpose()?.flatten();
            Ok::<_, Error>(base.as_ref().and_then(balance_in))
        })?;
        Ok((balance?, position))
    }
}
