//! A shop whose orders outlive its process. C's `durable_shop.c` opens the same database.
//!
//!     cargo run --release --features sqlite --example durable_shop -- shop.db CUSTOMER SEAT..

use argus_guardian::log::{Logged, LoggedAction, LoggedError};
use argus_guardian::{Access, Change, Object};
use std::env;
use std::error::Error;

const SEAT: &str = "atomic_record[holder:text]";

// Whether nobody has the seat, which is created when it is first asked for.
fn is_free(top: &LoggedAction<'_>, seat: &Object) -> Result<bool, LoggedError> {
    // If it is there, the answer is a signal. The action has the write lock all the same.
    let _ = top.alter(seat, Change::Create("{\"\"}".parse()?))?;
    Ok(top.get::<String>(seat, "holder")?.is_empty())
}

// Sells all of these seats, or none; whether it could.
fn sell(top: &LoggedAction<'_>, seats: &[Object], customer: &str) -> Result<bool, LoggedError> {
    for seat in seats {
        if !is_free(top, seat)? {
            return Ok(false);
        }
    }
    seats
        .iter()
        .try_for_each(|it| top.set(it, "holder", customer))?;
    Ok(true)
}

fn main() -> Result<(), Box<dyn Error>> {
    let words: Vec<String> = env::args().skip(1).collect();
    let [path, customer, seats @ ..] = &words[..] else {
        return Err("durable_shop DATABASE CUSTOMER SEAT..".into());
    };
    let shop = Logged::open_or_create(path)?;
    let named = |it| shop.named(&format!("seat {it}"), SEAT);
    let seats: Vec<Object> = seats.iter().map(named).collect::<Result<_, _>>()?;
    let is_sold = shop.run(|top| sell(top, &seats, customer))?;
    println!("{}", if is_sold { "sold" } else { "taken" }); // here it is on disk
    Ok(())
}
