//! Orders of a bank, each of which is drawn from its client and its number alone.

/// What each account holds at first.
pub const BALANCE: i64 = 1_000_000_000;

/// An amount that goes from one account to another.
#[derive(Debug, Clone, Copy, PartialEq, Eq)]
pub struct Order {
    from: u32,
    to: u32,
    amount: i64,
}

// A linear congruential generator, of which the upper 31 bits are used.
fn draw(state: &mut u64) -> u32 {
    *state = state
        .wrapping_mul(6_364_136_223_846_793_005)
        .wrapping_add(1_442_695_040_888_963_407);
    u32::try_from(*state >> 33).expect("31 bits")
}

impl Order {
    /// The client's order of this number, among so many accounts.
    pub fn drawn(client: u32, number: u64, accounts: u32) -> Order {
        let mut state = u64::from(client) * 1_000_003 + number;
        let from = draw(&mut state) % accounts;
        let to = (from + 1 + draw(&mut state) % (accounts - 1)) % accounts;
        let amount = 1 + i64::from(draw(&mut state) % 10);
        Order { from, to, amount }
    }

    /// Its accounts, each with what is added to it, in increasing number: who locks them so never waits in vain.
    pub fn changes(&self) -> [(u32, i64); 2] {
        let mut changes = [(self.from, -self.amount), (self.to, self.amount)];
        changes.sort_unstable();
        changes
    }

    /// What it leaves of these balances.
    pub fn leave(&self, balances: &mut [i64]) {
        for (account, amount) in self.changes() {
            balances[account as usize] += amount;
        }
    }
}
