//! A bank: orders of four transfers each, carried out by many threads.
//!
//! An order is a topaction and each of its transfers a subaction, which pays in before it pays out.
//! The last transfer of each order asks for more than the whole bank has: it is refused, and aborts
//! alone. Each tenth order is cancelled at its end, and takes its committed transfers with it. One
//! more thread audits: all that one topaction reads is of one moment, so the sum is always the same.
//!
//!     cargo run --release --example bank [ORDERS]
//!
//! What is printed on standard output doesn't depend on time. `ORDERS` is how many each thread
//! carries out.

use argus_guardian::{Access, Content, Error, Guardian, Object, Shared, SharedAction};
use std::ops::AddAssign;
use std::thread;
use std::time::{Duration, Instant};

const ACCOUNTS: u32 = 16;
const BALANCE: i64 = 1_000_000_000;
const THREADS: u32 = 4;
const ORDERS: u32 = 250;
const AUDITS: u32 = 20;
const ALL: i64 = ACCOUNTS as i64 * BALANCE;

// Locks are taken in the order of the accounts' numbers, so no wait is in vain.
const PATIENCE: Duration = Duration::from_secs(100);

/// Numbers as if by chance, the same at each run: a linear congruential generator, of which the
/// upper 31 bits are used.
struct Draws(u64);

impl Draws {
    fn below(&mut self, count: u32) -> u32 {
        let product = self.0.wrapping_mul(6_364_136_223_846_793_005);
        self.0 = product.wrapping_add(1_442_695_040_888_963_407);
        let upper = u32::try_from(self.0 >> 33).expect("31 bits");
        upper % count
    }
}

struct Transfer<'b> {
    from: &'b Object,
    to: &'b Object,
    amount: i64,
}

impl<'b> Transfer<'b> {
    fn drawn(draws: &mut Draws, accounts: &'b [Object]) -> Transfer<'b> {
        let from = draws.below(ACCOUNTS);
        let to = (from + 1 + draws.below(ACCOUNTS - 1)) % ACCOUNTS;
        Transfer {
            from: &accounts[from as usize],
            to: &accounts[to as usize],
            amount: 1 + i64::from(draws.below(10)),
        }
    }

    /// Four transfers, of which the last can't be made.
    fn order(draws: &mut Draws, accounts: &'b [Object]) -> [Transfer<'b>; 4] {
        let mut order = [(); 4].map(|()| Transfer::drawn(draws, accounts));
        order[3].amount = ALL + 1;
        order
    }

    /// Makes the transfer in a subaction; false: the account has too little, and nothing is left of it.
    fn make(&self, top: &SharedAction<'_>) -> Result<bool, Error> {
        let sub = top.subaction()?;
        sub.update(self.to, "balance", |it: i64| it + self.amount)?;
        if sub.get::<i64>(self.from, "balance")? < self.amount {
            sub.abort()?;
            return Ok(false);
        }
        sub.update(self.from, "balance", |it: i64| it - self.amount)?;
        sub.commit()?;
        Ok(true)
    }
}

#[derive(Default)]
struct Counts {
    carried_out: u32,
    cancelled: u32,
    made: u32,
    refused: u32,
    made_in_vain: u32,
}

impl AddAssign for Counts {
    fn add_assign(&mut self, other: Counts) {
        self.carried_out += other.carried_out;
        self.cancelled += other.cancelled;
        self.made += other.made;
        self.refused += other.refused;
        self.made_in_vain += other.made_in_vain;
    }
}

impl Counts {
    fn print(&self, orders: u32) {
        println!("accounts {ACCOUNTS}, threads {THREADS}");
        println!(
            "orders {}: {} carried out, {} cancelled",
            THREADS * orders,
            self.carried_out,
            self.cancelled
        );
        println!(
            "transfers {}: {} made, {} refused, {} cancelled with their order",
            THREADS * orders * 4,
            self.made,
            self.refused,
            self.made_in_vain
        );
    }

    /// Carries out an order, or cancels it at its end.
    fn carry_out(
        &mut self,
        bank: &Shared,
        order: &[Transfer<'_>],
        is_cancelled: bool,
    ) -> Result<(), Error> {
        let top = bank.topaction()?;
        let mut accounts: Vec<&Object> = order.iter().flat_map(|it| [it.from, it.to]).collect();
        accounts.sort_unstable();
        accounts.dedup();
        accounts.iter().try_for_each(|it| top.lock(it))?;
        let mut made = 0;
        for transfer in order {
            if transfer.make(&top)? {
                made += 1;
            } else {
                self.refused += 1;
            }
        }
        if is_cancelled {
            top.abort()?;
            self.cancelled += 1;
            self.made_in_vain += made;
        } else {
            top.commit()?;
            self.carried_out += 1;
            self.made += made;
        }
        Ok(())
    }
}

/// What one thread does: so many orders, of which each tenth is cancelled.
fn work(bank: &Shared, accounts: &[Object], thread: u32, orders: u32) -> Result<Counts, Error> {
    let mut draws = Draws(u64::from(thread));
    let mut counts = Counts::default();
    for number in 0..orders {
        let order = Transfer::order(&mut draws, accounts);
        counts.carry_out(bank, &order, number % 10 == 9)?;
    }
    Ok(counts)
}

/// How many audits find what the bank began with.
fn audit(bank: &Shared, accounts: &[Object]) -> Result<u32, Error> {
    let mut right = 0;
    for _ in 0..AUDITS {
        let sum = bank.run(|top| {
            let balances = accounts.iter().map(|it| top.get::<i64>(it, "balance"));
            balances.sum::<Result<i64, Error>>()
        })?;
        right += u32::from(sum == ALL);
    }
    Ok(right)
}

fn open_accounts(bank: &Shared) -> Result<Vec<Object>, Error> {
    let open = |number| bank.named(&format!("account {number}"), "atomic_record[balance:int]");
    let accounts: Vec<Object> = (0..ACCOUNTS).map(open).collect::<Result<_, _>>()?;
    bank.run(|top| {
        let create = |it| top.create(it, (BALANCE,));
        accounts.iter().try_for_each(create)
    })?;
    Ok(accounts)
}

/// Prints what is in the accounts for good: the sum, and each balance times its place.
fn print_balances(guardian: &Guardian, accounts: &[Object]) -> Result<(), Error> {
    let (mut sum, mut weighed) = (0, 0);
    for (account, place) in accounts.iter().zip(1..) {
        let base: Option<Content> = guardian.base(account)?;
        let (balance,): (i64,) = base.ok_or(Error::NotThere)?.read()?;
        sum += balance;
        weighed += balance * place;
    }
    println!("sum {sum}");
    println!("weighed {weighed}");
    Ok(())
}

fn main() -> Result<(), Box<dyn std::error::Error>> {
    let orders = match std::env::args().nth(1) {
        Some(word) => word.parse()?,
        None => ORDERS,
    };
    let bank = Shared::new(Guardian::new()?, PATIENCE);
    let accounts = open_accounts(&bank)?;
    let before = bank.with(Guardian::entries);
    let start = Instant::now();
    let mut counts = Counts::default();
    let right = thread::scope(|scope| {
        let (bank, accounts) = (&bank, &accounts[..]);
        let audits = scope.spawn(move || audit(bank, accounts));
        let threads: Vec<_> = (0..THREADS)
            .map(|thread| scope.spawn(move || work(bank, accounts, thread, orders)))
            .collect();
        for thread in threads {
            counts += thread.join().expect("no thread panics")?;
        }
        audits.join().expect("no thread panics")
    })?;
    let taken = start.elapsed().as_secs_f64();
    let guardian = bank.into_inner();
    let calls = f64::from(u32::try_from(guardian.entries() - before)?);
    eprintln!(
        "{calls} calls in {taken:.2} s, {:.0} a second",
        calls / taken
    );
    counts.print(orders);
    println!("audits {AUDITS}, {right} of them find {ALL}");
    print_balances(&guardian, &accounts)?;
    guardian.checkpoint()?;
    println!("nothing is live");
    Ok(())
}
