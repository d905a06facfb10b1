//! `Bank`: accounts and orders, over a guardian with a log.

use crate::bank_error::BankError;
use crate::keys::{KeyLookup, Keys, Slot};
use crate::order::{Order, OrderOutcome, Transfer, TransferEnd};
use crate::records::{ACCOUNT, KEY, MOST_OBJECTS, OrderRecord, Records};
use argus_guardian::log::{Logged, LoggedAction, LoggedError};
use argus_guardian::{Access, Content, Guardian, ObjId, Value};
use std::sync::{Mutex, MutexGuard, PoisonError, RwLock};
use std::time::{Duration, Instant};

// So many records of keys are made at a time, or as many as are missing.
const MADE_AT_ONCE: usize = 64;

/// The order that opens an account, as its key keeps it.
const OPENING: &str = "account";

/// The account that may owe: what comes into the bank and goes out of it. The sum of all balances is always 0.
const OUTSIDE: u32 = 0;

fn locked<T>(mutex: &Mutex<T>) -> MutexGuard<'_, T> {
    mutex.lock().unwrap_or_else(PoisonError::into_inner)
}

/// Accounts and orders, over a guardian with a log.
#[derive(Debug)]
pub(crate) struct Bank {
    pub(crate) logged: Logged,
    records: RwLock<Records>,
    keys: Mutex<Keys>,
    // The record of the next account, if it is declared and not created yet. One account is opened at a time, since its
    // number is its place among these records.
    next_account: Mutex<Option<ObjId>>,
}

fn zero() -> Content {
    (0,).into()
}

fn no_key() -> Content {
    (0, "", "", "").into()
}

// The fields of a record that keeps a key.
fn kept_in(content: Content) -> Option<(i64, String, OrderRecord)> {
    let Content::Record(fields) = content else {
        return None;
    };
    let [sequence, key, order, ends] = <[Value; 4]>::try_from(fields).ok()?;
    let kept = OrderRecord {
        order: order.try_into().ok()?,
        ends: ends.try_into().ok()?,
    };
    Some((sequence.try_into().ok()?, key.try_into().ok()?, kept))
}

/// What a record of an account holds.
pub(crate) fn balance_in(content: &Content) -> Option<i64> {
    match content {
        Content::Record(fields) => match fields[..] {
            [Value::Int(balance)] => Some(balance),
            _ => None,
        },
        _ => None,
    }
}

/// Whether half of the numbers for actions are used: then a checkpoint renews them.
pub(crate) fn is_half_used(logged: &Logged) -> bool {
    logged.actions_left() <= Guardian::MAX_ACTIONS / 2
}

impl Bank {
    /// The bank of this guardian, which recognizes so many keys.
    pub(crate) fn over(logged: Logged, keys: usize) -> Result<Bank, LoggedError> {
        if is_half_used(&logged) {
            // No action is live yet. Later there may be no number left for an action that is needed here.
            logged.checkpoint_waiting(Duration::ZERO)?;
        }
        let mut records = Records::default();
        for number in 0..logged.objects()? {
            records.take(&logged.object(ObjId::numbered(number))?);
        }
        let bank = Bank {
            logged,
            records: RwLock::new(records.clone()),
            keys: Mutex::new(Keys::with_room(keys)),
            next_account: Mutex::new(None),
        };
        bank.create_missing(&records)?;
        bank.read_keys(&records)?;
        if records.accounts.is_empty() {
            let mut record = None;
            let top = bank.logged.topaction()?;
            bank.create_account(&top, &mut record)?;
            top.commit()?;
            bank.add_account(record);
        }
        Ok(bank)
    }

    // A process may have died after it had declared a record.
    fn create_missing(&self, records: &Records) -> Result<(), LoggedError> {
        let accounts = records.accounts.iter().map(|it| (*it, zero()));
        let keys = records.keys.iter().map(|it| (*it, no_key()));
        let mut missing = Vec::new();
        for (record, content) in accounts.chain(keys) {
            if self.logged.base(record)?.is_none() {
                missing.push((record, content));
            }
        }
        if missing.is_empty() {
            return Ok(());
        }
        self.logged.run(|top| {
            let mut missing = missing.iter();
            missing.try_for_each(|it| top.create(it.0, it.1.clone()))
        })
    }

    fn read_keys(&self, records: &Records) -> Result<(), LoggedError> {
        let mut kept = Vec::new();
        let mut keys = locked(&self.keys);
        for record in &records.keys {
            match self.logged.base(*record)?.and_then(kept_in) {
                Some((sequence, key, it)) if !key.is_empty() => {
                    kept.push((sequence, *record, key, it));
                }
                _ => keys.add_unused([*record]),
            }
        }
        kept.sort_unstable_by_key(|it| it.0);
        for (sequence, record, key, it) in kept {
            keys.add_kept(record, sequence, key, it);
        }
        Ok(())
    }

    fn record(&self, account: u32) -> Option<ObjId> {
        let records = self.records.read().unwrap_or_else(PoisonError::into_inner);
        records.account(account)
    }

    /// Opens an account with a balance of 0; with a key once, however often that is asked for. Its number.
    pub(crate) fn open_account(&self, key: Option<&str>) -> Result<OrderOutcome, BankError> {
        let mut next = locked(&self.next_account);
        let carried = if let Some(key) = key {
            self.once(key, OPENING, |top| self.next_account(top, &mut next))?
        } else {
            let top = self.logged.topaction()?;
            let ends = self.next_account(&top, &mut next)?;
            top.commit()?;
            OrderOutcome {
                is_before: false,
                ends,
            }
        };
        if !carried.is_before {
            self.add_account(next.take());
        }
        Ok(carried)
    }

    // Creates the next account, if there is room for its record beside all records of keys; its number.
    fn next_account(
        &self,
        top: &LoggedAction<'_>,
        next: &mut Option<ObjId>,
    ) -> Result<String, BankError> {
        let accounts = {
            let records = self.records.read().unwrap_or_else(PoisonError::into_inner);
            records.accounts.len()
        };
        if accounts + locked(&self.keys).most() >= MOST_OBJECTS {
            return Err(BankError::Full);
        }
        self.create_account(top, next)?;
        Ok(accounts.to_string())
    }

    fn create_account(
        &self,
        top: &LoggedAction<'_>,
        next: &mut Option<ObjId>,
    ) -> Result<(), LoggedError> {
        let record = match *next {
            Some(record) => record,
            None => *next.insert(self.logged.declare(ACCOUNT)?),
        };
        top.create(record, zero())
    }

    fn add_account(&self, record: Option<ObjId>) {
        let mut records = self.records.write().unwrap_or_else(PoisonError::into_inner);
        records.accounts.extend(record);
    }

    /// What an account has; None: there is no such account.
    pub(crate) fn balance(&self, account: u32) -> Result<Option<i64>, LoggedError> {
        let Some(record) = self.record(account) else {
            return Ok(None);
        };
        Ok(self.logged.base(record)?.as_ref().and_then(balance_in))
    }

    /// Carries out an order once, however often it is sent under this key.
    pub(crate) fn order(
        &self,
        key: &str,
        order: &Order,
        deadline: Instant,
    ) -> Result<OrderOutcome, BankError> {
        self.once(key, &order.text(), |top| {
            self.transfer_each(top, order, deadline)
        })
    }

    // Does that in a topaction, which keeps the key, too; once, however often it is asked for under this key.
    fn once(
        &self,
        key: &str,
        text: &str,
        work: impl FnOnce(&LoggedAction<'_>) -> Result<String, BankError>,
    ) -> Result<OrderOutcome, BankError> {
        let slot = match self.known(key)? {
            KeyLookup::New(slot) => slot,
            KeyLookup::Kept(kept) if kept.order == text => {
                return Ok(OrderOutcome {
                    is_before: true,
                    ends: kept.ends,
                });
            }
            KeyLookup::Kept(_) => return Err(BankError::OtherOrder),
            KeyLookup::UnderWay => return Err(BankError::UnderWay),
            KeyLookup::InDoubt => return Err(BankError::InDoubt),
            KeyLookup::Busy | KeyLookup::NoSlot => return Err(BankError::Busy),
        };
        let carried = self.carry_out(&slot, key, text, work);
        let mut keys = locked(&self.keys);
        match carried {
            Ok(kept) => {
                let ends = kept.ends.clone();
                keys.keep(slot, key, kept);
                Ok(OrderOutcome {
                    is_before: false,
                    ends,
                })
            }
            Err(error) => {
                if error.is_in_doubt() {
                    keys.doubt(key);
                } else {
                    keys.release(slot, key);
                }
                Err(error)
            }
        }
    }

    // What is known of a key; where there is no record for it, some are made, as long as there is room for them.
    fn known(&self, key: &str) -> Result<KeyLookup, LoggedError> {
        let mut keys = locked(&self.keys);
        let known = keys.reserve(key);
        if !matches!(known, KeyLookup::NoSlot) {
            return Ok(known);
        }
        let left = MOST_OBJECTS.saturating_sub(self.logged.objects()? as usize);
        if left == 0 {
            keys.grow_no_more();
            return Ok(keys.reserve(key));
        }
        let count = left.min(keys.missing());
        let records = self
            .logged
            .declare_each([KEY; MADE_AT_ONCE].into_iter().take(count))?;
        self.logged
            .run(|top| records.iter().try_for_each(|it| top.create(*it, no_key())))?;
        keys.add_unused(records);
        Ok(keys.reserve(key))
    }

    // One topaction: the work, and the key.
    fn carry_out(
        &self,
        slot: &Slot,
        key: &str,
        text: &str,
        work: impl FnOnce(&LoggedAction<'_>) -> Result<String, BankError>,
    ) -> Result<OrderRecord, BankError> {
        let top = self.logged.topaction()?;
        let kept = OrderRecord {
            order: text.to_owned(),
            ends: work(&top)?,
        };
        top.set(slot.record, 0, slot.sequence)?;
        top.set(slot.record, 1, key)?;
        top.set(slot.record, 2, kept.order.as_str())?;
        top.set(slot.record, 3, kept.ends.as_str())?;
        top.commit()?;
        Ok(kept)
    }

    // The transfers, each of them a subaction; what became of each.
    fn transfer_each(
        &self,
        top: &LoggedAction<'_>,
        order: &Order,
        deadline: Instant,
    ) -> Result<String, BankError> {
        for record in order
            .accounts()
            .into_iter()
            .filter_map(|it| self.record(it))
        {
            if Instant::now() > deadline {
                return Err(BankError::Busy);
            }
            top.lock(record)?;
        }
        let ends = order.transfers.iter().map(|it| self.transfer(top, it));
        let ends: Vec<String> = ends
            .map(|it| it.map(|end| end.to_string()))
            .collect::<Result<_, _>>()?;
        Ok(ends.join(" "))
    }

    // A subaction, which pays in before it pays out, and aborts where that can't be.
    fn transfer(&self, top: &LoggedAction<'_>, it: &Transfer) -> Result<TransferEnd, LoggedError> {
        let (Some(from), Some(to)) = (self.record(it.from), self.record(it.to)) else {
            return Ok(TransferEnd::NoAccount);
        };
        let sub = top.subaction()?;
        let Some(there) = sub.get::<i64>(to, 0)?.checked_add(it.amount) else {
            sub.abort()?;
            return Ok(TransferEnd::TooMuch);
        };
        sub.set(to, 0, there)?;
        let here = sub.get::<i64>(from, 0)?.checked_sub(it.amount);
        let Some(here) = here.filter(|here| *here >= 0 || it.from == OUTSIDE) else {
            sub.abort()?;
            return Ok(TransferEnd::TooLittle);
        };
        sub.set(from, 0, here)?;
        sub.commit()?;
        Ok(TransferEnd::Made)
    }
}
