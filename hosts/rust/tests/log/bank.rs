//! The bank of the tests: its records, and how its clients' orders are carried out.

use crate::orders::{BALANCE, Order};
use argus_guardian::log::{Logged, LoggedAction, LoggedError};
use argus_guardian::{Access, Change, Content, ObjId, Value};
use std::thread;
use std::time::Duration;

pub const ACCOUNTS: u32 = 50;
pub const CLIENTS: u32 = 16;
// Two records of the one who dawdles.
pub const TOPACTIONS: u32 = ACCOUNTS + CLIENTS;
pub const NESTED: u32 = TOPACTIONS + 1;

/// What became of an order.
#[derive(Debug, Clone, Copy, PartialEq, Eq)]
pub enum OrderOutcome {
    /// It is carried out, and that is acknowledged.
    Out,
    /// It was carried out before: it was sent again. That is acknowledged, too.
    Before,
    /// It was cancelled, and has left nothing.
    Cancelled,
}

/// The record in which the number of a client's last order stands: the key by which an order is known that
/// is sent again. It is set by the order's own topaction.
pub fn last_of(client: u32) -> ObjId {
    ObjId::numbered(ACCOUNTS + client)
}

fn int(action: &LoggedAction<'_>, record: ObjId) -> Result<i64, LoggedError> {
    action.get(record, 0)
}

/// The number that a record holds for good.
pub fn number(bank: &Logged, record: ObjId) -> Result<i64, LoggedError> {
    let content = bank.base(record)?.expect("created");
    let Content::Record(fields) = content else {
        panic!("{content}");
    };
    Ok(i64::try_from(fields[0].clone())?)
}

fn create(top: &LoggedAction<'_>, record: u32) -> Result<(), LoggedError> {
    let number = match record {
        0..ACCOUNTS => BALANCE,
        ACCOUNTS..TOPACTIONS => -1,
        _ => 0,
    };
    let content = Content::Record(vec![Value::Int(number)]);
    Ok(top
        .alter(ObjId::numbered(record), Change::Create(content))?
        .done()?)
}

/// Whether the bank has its records: the process may have died before.
pub fn is_set_up(bank: &Logged) -> Result<bool, LoggedError> {
    Ok(bank.objects()? > NESTED && bank.base(ObjId::numbered(0))?.is_some())
}

/// Declares and creates what isn't there yet.
pub fn set_up(bank: &Logged) -> Result<(), LoggedError> {
    let missing = bank.objects()?..=NESTED;
    bank.declare_each(missing.map(|_| "atomic_record[n:int]"))?;
    if !is_set_up(bank)? {
        let top = bank.topaction()?;
        (0..=NESTED).try_for_each(|record| create(&top, record))?;
        top.commit()?;
    }
    Ok(())
}

fn transfer_each(top: &LoggedAction<'_>, order: &Order) -> Result<(), LoggedError> {
    for transfer in &order.transfers {
        let (from, to) = (ObjId::numbered(transfer.from), ObjId::numbered(transfer.to));
        let sub = top.subaction()?;
        sub.set(to, 0, int(&sub, to)? + transfer.amount)?;
        let here = int(&sub, from)?;
        if here < transfer.amount {
            sub.abort()?;
        } else {
            sub.set(from, 0, here - transfer.amount)?;
            sub.commit()?;
        }
    }
    Ok(())
}

/// Carries out an order: a topaction, a subaction for each transfer, and the key.
pub fn carry_out(bank: &Logged, client: u32, number: i64) -> Result<OrderOutcome, LoggedError> {
    let order = Order::drawn(client, number.unsigned_abs(), ACCOUNTS);
    let top = bank.topaction()?;
    top.lock(last_of(client))?;
    if int(&top, last_of(client))? >= number {
        // Its commit returns once that by which it was carried out is in the log.
        top.commit()?;
        return Ok(OrderOutcome::Before);
    }
    for account in order.accounts() {
        top.lock(ObjId::numbered(account))?;
    }
    transfer_each(&top, &order)?;
    top.set(last_of(client), 0, number)?;
    if order.is_cancelled {
        top.abort()?;
        return Ok(OrderOutcome::Cancelled);
    }
    top.commit()?;
    Ok(OrderOutcome::Out)
}

/// A client's orders, until the log fails or the bank has had enough: its last order once more, since the
/// client can't know what became of it, and then those after it. `note` has each that was acknowledged, and
/// says whether there is to be another one.
pub fn serve(
    bank: &Logged,
    client: u32,
    mut note: impl FnMut(i64) -> bool,
) -> Result<(), LoggedError> {
    let last = number(bank, last_of(client))?;
    if last >= 0 {
        assert_eq!(carry_out(bank, client, last)?, OrderOutcome::Before);
    }
    for number in last + 1.. {
        if carry_out(bank, client, number)? == OrderOutcome::Out && !note(number) {
            break;
        }
    }
    Ok(())
}

/// A topaction that lives long: its own record grows by two, in two steps, so that for good it is even; that
/// of its nested topaction by one, whatever becomes of the rest.
pub fn dawdle(bank: &Logged) -> Result<(), LoggedError> {
    let top = bank.topaction()?;
    top.set(
        ObjId::numbered(TOPACTIONS),
        0,
        int(&top, ObjId::numbered(TOPACTIONS))? + 1,
    )?;
    let sub = top.subaction()?;
    sub.set(
        ObjId::numbered(TOPACTIONS),
        0,
        int(&sub, ObjId::numbered(TOPACTIONS))? + 1,
    )?;
    let nested = sub.nested()?;
    nested.set(
        ObjId::numbered(NESTED),
        0,
        int(&nested, ObjId::numbered(NESTED))? + 1,
    )?;
    nested.commit()?;
    thread::sleep(Duration::from_millis(5));
    sub.commit()?;
    top.commit()
}

/// Dawdles until the process ends.
pub fn dawdle_on(bank: &Logged) {
    loop {
        dawdle(bank).expect("done");
    }
}

/// A checkpoint; while an action stays live too long there is none.
pub fn fold(bank: &Logged) -> Result<(), LoggedError> {
    match bank.checkpoint_waiting(Duration::from_secs(1)) {
        Err(LoggedError::Guardian(_)) => Ok(()),
        other => other,
    }
}
