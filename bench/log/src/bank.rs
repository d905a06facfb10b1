//! The bank's orders, carried out by many clients.

use crate::figures::Figures;
use crate::orders::{BALANCE, Order};
use argus_guardian::log::{LogOptions, Logged, LoggedError};
use argus_guardian::{
    Access, CheckpointError, Content, Guardian, ObjId, Shared, SharedAction, Sharer,
};
use std::path::{Path, PathBuf};
use std::str::FromStr;
use std::sync::Mutex;
use std::sync::atomic::{AtomicU64, Ordering};
use std::thread;
use std::time::{Duration, Instant};
use std::{error, fs};

pub const ACCOUNTS: u32 = 1000;
pub const PATIENCE: Duration = Duration::from_secs(100);
// A hundred thousand entries.
const FOLD_AFTER: u64 = 8500;

/// How a commit waits for the log.
#[derive(Debug, Clone, Copy, PartialEq, Eq)]
pub enum Way {
    /// There is no log.
    Memory,
    /// Each is synced by itself.
    Each,
    /// Those that come at the same time are synced together.
    Group,
}

impl Way {
    pub fn words(self) -> &'static str {
        match self {
            Way::Memory => "memory",
            Way::Each => "each",
            Way::Group => "group",
        }
    }
}

impl FromStr for Way {
    type Err = String;

    fn from_str(word: &str) -> Result<Way, String> {
        let ways = [Way::Memory, Way::Each, Way::Group];
        let way = ways.into_iter().find(|it| it.words() == word);
        way.ok_or_else(|| format!("{word} is no way"))
    }
}

/// Carries out an order, 12 calls: a subaction for each of its accounts. The commit waits for a log, or doesn't.
pub fn carry_out<'s, S: Sharer>(
    top: SharedAction<'s, S>,
    order: &Order,
    commit: impl FnOnce(SharedAction<'s, S>) -> Result<(), S::Error>,
) -> Result<(), S::Error> {
    for (account, amount) in order.changes() {
        let account = ObjId::numbered(account);
        let sub = top.subaction()?;
        sub.lock(account)?;
        sub.set(account, 0, sub.get::<i64>(account, 0)? + amount)?;
        sub.commit()?;
    }
    commit(top)
}

/// A guardian with the accounts, which aren't in any log.
fn with_accounts() -> Result<Guardian, Box<dyn error::Error>> {
    let guardian = Guardian::new()?;
    for _ in 0..ACCOUNTS {
        guardian.declare("atomic_record[balance:int]")?;
    }
    Ok(guardian)
}

/// The database in a folder.
pub fn database_in(folder: &Path) -> PathBuf {
    folder.join("bank.db")
}

/// A log that makes no checkpoint by itself.
pub fn options() -> LogOptions {
    LogOptions {
        patience: PATIENCE,
        checkpoint_after: None,
        ..LogOptions::default()
    }
}

/// A guardian with the accounts alone, whose log is in a folder that isn't there yet.
pub fn logged_in(folder: &Path) -> Result<Logged, Box<dyn error::Error>> {
    fs::create_dir(folder)?;
    let logged = options().create(database_in(folder))?;
    set_up(&logged)?;
    Ok(logged)
}

/// Declares and creates the accounts of a guardian with nothing in it.
pub fn set_up(logged: &Logged) -> Result<(), LoggedError> {
    logged.declare_each((0..ACCOUNTS).map(|_| "atomic_record[balance:int]"))?;
    create(logged.topaction()?)
}

/// Creates the accounts.
fn create<S: Sharer>(top: SharedAction<'_, S>) -> Result<(), S::Error> {
    (0..ACCOUNTS).try_for_each(|account| top.create(ObjId::numbered(account), (BALANCE,)))?;
    top.commit()
}

/// Carries out orders for so long, in memory or over a log in this folder, and checks what they leave.
pub fn run(
    folder: &Path,
    way: Way,
    clients: u32,
    time: Duration,
) -> Result<Figures, Box<dyn error::Error>> {
    if way == Way::Memory {
        run_in_memory(clients, time)
    } else {
        run_logged(&logged_in(folder)?, way, clients, time)
    }
}

fn run_in_memory(clients: u32, time: Duration) -> Result<Figures, Box<dyn error::Error>> {
    let shared = Shared::new(with_accounts()?, PATIENCE);
    create(shared.topaction()?)?;
    let order = |order: &Order| {
        let carried_out = carry_out(shared.topaction()?, order, SharedAction::commit);
        carried_out.map_err(LoggedError::from)
    };
    let fold = || {
        let folded = shared.checkpoint_waiting(PATIENCE);
        ignore_busy(folded.map_err(LoggedError::from))
    };
    let work = timed(clients, time, order, fold)?;
    check(&work, |account| {
        Ok(shared.with(|guardian| guardian.base(account))?)
    })?;
    Ok(work.figures())
}

/// Carries out orders for so long over a log, and checks what they leave.
pub fn run_logged(
    logged: &Logged,
    way: Way,
    clients: u32,
    time: Duration,
) -> Result<Figures, Box<dyn error::Error>> {
    let turn = Mutex::new(());
    let order = |order: &Order| {
        carry_out(logged.topaction()?, order, |top| {
            let _turn = (way == Way::Each).then(|| turn.lock());
            top.commit()
        })
    };
    let fold = || ignore_busy(logged.checkpoint_waiting(PATIENCE));
    let work = timed(clients, time, order, fold)?;
    check(&work, |account| logged.base(account))?;
    Ok(work.figures())
}

fn ignore_busy(folded: Result<(), LoggedError>) -> Result<(), LoggedError> {
    let busy = argus_guardian::Error::from(CheckpointError::Busy);
    match folded {
        Err(LoggedError::Guardian(error)) if error == busy => Ok(()),
        other => other,
    }
}

// Compares the accounts with what whole orders leave.
fn check(
    work: &Work,
    base: impl Fn(ObjId) -> Result<Option<Content>, LoggedError>,
) -> Result<(), Box<dyn error::Error>> {
    let mut balances = vec![BALANCE; ACCOUNTS as usize];
    for (client, done) in (0..).zip(&work.done) {
        (0..*done).for_each(|it| Order::drawn(client, it, ACCOUNTS).leave(&mut balances));
    }
    for (account, balance) in (0..).zip(balances) {
        let wanted = Content::Record(vec![balance.into()]);
        if base(ObjId::numbered(account))? != Some(wanted) {
            return Err(format!("account {account} isn't what the orders leave").into());
        }
    }
    Ok(())
}

/// What was done: how many orders of each client, and how long each took.
struct Work {
    taken: Duration,
    done: Vec<u64>,
    each: Vec<Duration>,
}

impl Work {
    fn figures(self) -> Figures {
        Figures {
            clients: u32::try_from(self.done.len()).unwrap_or(u32::MAX),
            taken: self.taken,
            each: self.each,
        }
    }
}

// Each client's orders, until the time is over.
fn timed(
    clients: u32,
    time: Duration,
    order: impl Fn(&Order) -> Result<(), LoggedError> + Sync,
    fold: impl Fn() -> Result<(), LoggedError> + Sync,
) -> Result<Work, LoggedError> {
    let count = AtomicU64::new(0);
    let begin = Instant::now();
    let work = |client: u32| {
        let (mut each, mut number) = (Vec::new(), 0);
        while begin.elapsed() < time {
            let from = Instant::now();
            order(&Order::drawn(client, number, ACCOUNTS))?;
            each.push(from.elapsed());
            number += 1;
            if count.fetch_add(1, Ordering::Relaxed) % FOLD_AFTER == FOLD_AFTER - 1 {
                fold()?;
            }
        }
        Ok((number, each))
    };
    let joined: Result<Vec<(u64, Vec<Duration>)>, LoggedError> = thread::scope(|scope| {
        let work = &work;
        let threads: Vec<_> = (0..clients)
            .map(|it| scope.spawn(move || work(it)))
            .collect();
        let joined = threads.into_iter().map(|it| it.join().expect("no panic"));
        joined.collect()
    });
    let (done, each): (Vec<u64>, Vec<Vec<Duration>>) = joined?.into_iter().unzip();
    Ok(Work {
        taken: begin.elapsed(),
        done,
        each: each.concat(),
    })
}
