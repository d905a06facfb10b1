//! Payments that may be sent again: each is carried out once, whatever becomes of the process in between.
//!
//!     cargo run --release --features sqlite --example orders -- DATABASE < PAYMENTS
//!
//! A line `CLIENT NUMBER AMOUNT` of standard input is a payment of one of eight clients (0 to 7), which number theirs
//! 1, 2, 3 and so on. A line is printed once its payment is on disk in DATABASE; the last line has the balance. Kill it,
//! and send the same lines again.

use argus_guardian::log::{Logged, LoggedAction, LoggedError};
use argus_guardian::{Access, ObjId};
use std::env;
use std::error::Error;
use std::io::{self, BufRead};
use std::str::FromStr;

const CLIENTS: u32 = 8;
const BALANCE: ObjId = ObjId::numbered(0);

// The record of a client's last number.
fn last_of(client: u32) -> ObjId {
    ObjId::numbered(1 + client)
}

/// What became of an order.
enum PaymentOutcome {
    Out,
    Before,
}

struct Payment {
    client: u32,
    number: i64,
    amount: i64,
}

impl FromStr for Payment {
    type Err = Box<dyn Error>;

    fn from_str(line: &str) -> Result<Payment, Box<dyn Error>> {
        let words: Vec<&str> = line.split(' ').collect();
        let [client, number, amount] = words[..] else {
            return Err(format!("`{line}` isn't CLIENT NUMBER AMOUNT").into());
        };
        let client: u32 = client.parse()?;
        if client >= CLIENTS {
            return Err(format!("there is no client {client}").into());
        }
        Ok(Payment {
            client,
            number: number.parse()?,
            amount: amount.parse()?,
        })
    }
}

// Carries out a client's order once, however often it is sent.
fn once(
    bank: &Logged,
    last: ObjId,
    number: i64,
    work: impl Fn(&LoggedAction<'_>) -> Result<(), LoggedError>,
) -> Result<PaymentOutcome, LoggedError> {
    bank.run(|top| {
        top.lock(last)?;
        if top.get::<i64>(last, 0)? >= number {
            // By the commit of this topaction that is on disk, too.
            return Ok(PaymentOutcome::Before);
        }
        work(top)?;
        top.set(last, 0, number)?;
        Ok(PaymentOutcome::Out)
    })
}

fn pay(bank: &Logged, payment: &Payment) -> Result<PaymentOutcome, LoggedError> {
    once(bank, last_of(payment.client), payment.number, |top| {
        top.update(BALANCE, 0, |it: i64| it + payment.amount)
    })
}

// Declares and creates what isn't there: a crash may have come in the middle of it.
fn open(path: &str) -> Result<Logged, Box<dyn Error>> {
    let bank = Logged::open_or_create(path)?;
    let missing = bank.objects()?..=CLIENTS;
    bank.declare_each(missing.map(|_| "atomic_record[number:int]"))?;
    if bank.base(BALANCE)?.is_none() {
        let create = |top: &LoggedAction<'_>, it| top.create(ObjId::numbered(it), (0,));
        bank.run(|top| (0..=CLIENTS).try_for_each(|it| create(top, it)))?;
    }
    Ok(bank)
}

fn main() -> Result<(), Box<dyn Error>> {
    let words: Vec<String> = env::args().skip(1).collect();
    let [path] = &words[..] else {
        return Err("orders DATABASE < PAYMENTS".into());
    };
    let bank = open(path)?;
    for line in io::stdin().lock().lines() {
        let payment: Payment = line?.parse()?;
        let words = match pay(&bank, &payment)? {
            PaymentOutcome::Out => "carried out",
            PaymentOutcome::Before => "carried out before",
        };
        println!("{} {} {words}", payment.client, payment.number);
    }
    if let Some(balance) = bank.base(BALANCE)? {
        println!("balance {balance}");
    }
    Ok(())
}
