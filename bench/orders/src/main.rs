//! The orders of `guardian_orders.c` in Rust; it prints the same.
//!
//!     orders-bench ORDERS

use argus_guardian::{Access, Action, Error, Guardian, ObjId};
use std::{env, fs, io};

const SEATS: u32 = 1000;
const EACH: u32 = 2;
// So many orders are carried out between two folds of the journal, and two renewals.
const FOLD_AFTER: u32 = 1_000;
const RENEW_AFTER: u32 = 100_000;

fn seat_of(order: u32, at: u32) -> ObjId {
    let first = order.wrapping_mul(7919) % SEATS;
    let second = (first + 1 + order % (SEATS - 1)) % SEATS;
    ObjId::numbered(if at == 0 { first } else { second })
}

fn declare_seats(shop: &mut Guardian) -> Result<(), Error> {
    for _ in 0..SEATS {
        let seat = shop.declare("atomic_record[holder:int]")?;
        let top = shop.topaction()?;
        top.create(seat, (0,))?;
        top.commit()?;
    }
    Ok(())
}

// Takes a seat over for an order, from an earlier one.
fn take(top: &mut Action<'_>, seat: ObjId, order: u32) -> Result<(), Error> {
    let sub = top.subaction()?;
    sub.lock(seat)?;
    if sub.get::<i64>(seat, 0)? < i64::from(order) {
        sub.set(seat, 0, order)?;
    }
    sub.commit()
}

fn carry_out(shop: &mut Guardian, order: u32) -> Result<(), Error> {
    let mut top = shop.topaction()?;
    for at in 0..EACH {
        take(&mut top, seat_of(order, at), order)?;
    }
    top.commit()?;
    if order % RENEW_AFTER == 0 {
        shop.renew()?;
    } else if order % FOLD_AFTER == 0 {
        shop.checkpoint()?;
    }
    Ok(())
}

fn held(shop: &mut Guardian) -> Result<i64, Error> {
    let mut sum = 0;
    let top = shop.topaction()?;
    for seat in 0..SEATS {
        sum += top.get::<i64>(ObjId::numbered(seat), 0)? * i64::from(seat + 1);
    }
    top.commit()?;
    Ok(sum)
}

// What this thread, the only one, has had of the processor, in nanoseconds.
fn processor_nanos() -> io::Result<f64> {
    let text = fs::read_to_string("/proc/self/schedstat")?;
    let first = text.split(' ').next().and_then(|it| it.parse().ok());
    first.ok_or_else(|| io::Error::other("no time in /proc/self/schedstat"))
}

fn main() -> Result<(), Box<dyn std::error::Error>> {
    let orders: u32 = env::args()
        .nth(1)
        .ok_or("usage: orders-bench ORDERS")?
        .parse()?;
    let mut shop = Guardian::new()?;
    declare_seats(&mut shop)?;
    let begin = processor_nanos()?;
    for order in 1..=orders {
        carry_out(&mut shop, order)?;
    }
    let taken = processor_nanos()? - begin;
    println!(
        "{:.0} {}",
        f64::from(orders) / taken * 1e9,
        held(&mut shop)?
    );
    Ok(())
}
