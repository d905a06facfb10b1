//! `Ledger`: what has to be in the bank, by what its clients know.

use crate::bank::{ACCOUNTS, CLIENTS, NESTED, TOPACTIONS, is_set_up, last_of, number};
use crate::orders::{BALANCE, Order};
use argus_guardian::ObjId;
use argus_guardian::log::{Logged, LoggedError};

/// What has to be in the bank, by what its clients know: each sends an order once the one before it was
/// acknowledged or cancelled.
#[derive(Debug, Clone)]
pub struct Ledger {
    // Each client's last order that was acknowledged, or that stood when the bank was looked at; -1: none.
    known: Vec<i64>,
    // Each client's last order in `balances`.
    counted: Vec<i64>,
    balances: Vec<i64>,
    dawdled: i64,
    nested: i64,
    /// How many orders were acknowledged.
    pub acknowledged: u64,
    /// How many orders stand, as far as the bank was looked at.
    pub standing: u64,
}

impl Default for Ledger {
    fn default() -> Ledger {
        Ledger {
            known: vec![-1; CLIENTS as usize],
            counted: vec![-1; CLIENTS as usize],
            balances: vec![BALANCE; ACCOUNTS as usize],
            dawdled: 0,
            nested: 0,
            acknowledged: 0,
            standing: 0,
        }
    }
}

fn is_cancelled(client: u32, number: i64) -> bool {
    Order::drawn(client, number.unsigned_abs(), ACCOUNTS).is_cancelled
}

impl Ledger {
    /// The client's order of this number was acknowledged.
    pub fn note(&mut self, client: u32, number: i64) {
        let known = &mut self.known[client as usize];
        assert!(
            number > *known,
            "order {number} of client {client} is carried out again after {known}"
        );
        *known = number;
        self.acknowledged += 1;
    }

    // The order that the client may have sent, and of which it doesn't know what became.
    fn in_flight(&self, client: u32) -> i64 {
        let mut later = self.known[client as usize] + 1..;
        let sent = later.find(|it| !is_cancelled(client, *it));
        sent.expect("not all are cancelled")
    }

    /// Compares the bank with what is known: no acknowledged order is lost or doubled, none is there in part,
    /// and none that wasn't sent.
    pub fn check(&mut self, bank: &Logged) -> Result<(), LoggedError> {
        if !is_set_up(bank)? {
            assert_eq!(self.acknowledged, 0, "the bank itself is lost");
            return Ok(());
        }
        for client in 0..CLIENTS {
            self.count(client, number(bank, last_of(client))?);
        }
        let held = (0..ACCOUNTS).map(|it| number(bank, ObjId::numbered(it)));
        let held: Vec<i64> = held.collect::<Result<_, _>>()?;
        assert_eq!(held, self.balances, "an order is there in part, or twice");
        self.check_dawdling(bank)
    }

    // Counts the client's orders up to its last one that stands.
    fn count(&mut self, client: u32, last: i64) {
        let known = self.known[client as usize];
        assert!(
            last >= known,
            "order {known} of client {client} is lost: {last} is its last"
        );
        assert!(
            last == known || last == self.in_flight(client),
            "order {last} of client {client} wasn't sent after {known}"
        );
        for number in self.counted[client as usize] + 1..=last {
            let order = Order::drawn(client, number.unsigned_abs(), ACCOUNTS);
            order.leave(&mut self.balances);
            self.standing += u64::from(!order.is_cancelled);
        }
        self.known[client as usize] = last;
        self.counted[client as usize] = last;
    }

    fn check_dawdling(&mut self, bank: &Logged) -> Result<(), LoggedError> {
        let dawdled = number(bank, ObjId::numbered(TOPACTIONS))?;
        let nested = number(bank, ObjId::numbered(NESTED))?;
        assert!(dawdled % 2 == 0, "a topaction is there in part: {dawdled}");
        assert!(
            2 * nested >= dawdled,
            "a nested topaction is lost: {nested} and {dawdled}"
        );
        assert!(
            dawdled >= self.dawdled && nested >= self.nested,
            "what stood is lost: {dawdled} and {nested}"
        );
        (self.dawdled, self.nested) = (dawdled, nested);
        Ok(())
    }
}
