//! Orders of a bank, each of which is drawn from its client and its number alone.

/// What each account holds at first.
pub const BALANCE: i64 = 1_000_000_000;

/// A transfer between two accounts.
#[derive(Debug, Clone, Copy, PartialEq, Eq)]
pub struct Transfer {
    pub from: u32,
    pub to: u32,
    pub amount: i64,
}

/// An order: four transfers, of which the last asks for more than there is, and aborts alone. Each tenth
/// order is cancelled at its end.
#[derive(Debug, Clone, PartialEq, Eq)]
pub struct Order {
    pub transfers: [Transfer; 4],
    pub is_cancelled: bool,
}

// A linear congruential generator, of which the upper 31 bits are used.
fn draw(state: &mut u64) -> u32 {
    *state = state
        .wrapping_mul(6_364_136_223_846_793_005)
        .wrapping_add(1_442_695_040_888_963_407);
    u32::try_from(*state >> 33).expect("31 bits")
}

impl Order {
    /// The client's order of this number, among so many accounts.
    pub fn drawn(client: u32, number: u64, accounts: u32) -> Order {
        let mut state = u64::from(client) * 1_000_003 + number;
        let mut transfers = [(); 4].map(|()| {
            let from = draw(&mut state) % accounts;
            let to = (from + 1 + draw(&mut state) % (accounts - 1)) % accounts;
            let amount = 1 + i64::from(draw(&mut state) % 10);
            Transfer { from, to, amount }
        });
        transfers[3].amount = i64::from(accounts) * BALANCE + 1;
        Order {
            transfers,
            is_cancelled: number % 10 == 9,
        }
    }

    /// Its accounts, in increasing number: who locks them so never waits in vain.
    pub fn accounts(&self) -> Vec<u32> {
        let mut accounts: Vec<u32> = self
            .transfers
            .iter()
            .flat_map(|it| [it.from, it.to])
            .collect();
        accounts.sort_unstable();
        accounts.dedup();
        accounts
    }

    /// What it leaves of these balances, where it is carried out.
    pub fn leave(&self, balances: &mut [i64]) {
        let made = if self.is_cancelled { 0 } else { 3 };
        for transfer in &self.transfers[..made] {
            balances[transfer.from as usize] -= transfer.amount;
            balances[transfer.to as usize] += transfer.amount;
        }
    }
}
