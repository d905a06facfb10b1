//! `Order`: transfers that are one topaction, each of them a subaction; what became of them.

use serde::Deserialize;
use std::collections::BTreeSet;
use std::fmt;

/// The most transfers of an order.
pub(crate) const MOST: usize = 64;

/// Transfers that are one topaction, each of them a subaction.
#[derive(Debug, Clone, PartialEq, Eq, Deserialize)]
#[serde(deny_unknown_fields)]
pub(crate) struct Order {
    pub(crate) transfers: Vec<Transfer>,
}

impl Order {
    /// What a body says, or what is wrong with it.
    pub(crate) fn read(body: &[u8]) -> Result<Order, String> {
        let order: Order = serde_json::from_slice(body).map_err(|error| error.to_string())?;
        if order.transfers.is_empty() || order.transfers.len() > MOST {
            return Err(format!("an order has 1 to {MOST} transfers"));
        }
        if order
            .transfers
            .iter()
            .any(|it| it.amount <= 0 || it.from == it.to)
        {
            return Err("a transfer has a positive amount and two accounts".to_owned());
        }
        Ok(order)
    }

    /// In the order in which they are locked.
    pub(crate) fn accounts(&self) -> BTreeSet<u32> {
        self.transfers
            .iter()
            .flat_map(|it| [it.from, it.to])
            .collect()
    }

    /// By which an order is recognized that is sent again.
    pub(crate) fn text(&self) -> String {
        let words: Vec<String> = self.transfers.iter().map(Transfer::to_string).collect();
        words.join(" ")
    }
}

/// An amount that goes from one account to another.
#[derive(Debug, Clone, Copy, PartialEq, Eq, Deserialize)]
#[serde(deny_unknown_fields)]
pub(crate) struct Transfer {
    pub(crate) from: u32,
    pub(crate) to: u32,
    pub(crate) amount: i64,
}

impl fmt::Display for Transfer {
    fn fmt(&self, f: &mut fmt::Formatter<'_>) -> fmt::Result {
        write!(f, "{}>{}:{}", self.from, self.to, self.amount)
    }
}

/// What became of a transfer. But for `Made` nothing is left of it.
#[derive(Debug, Clone, Copy, PartialEq, Eq)]
pub(crate) enum TransferEnd {
    Made,
    /// The account that was to pay has too little.
    TooLittle,
    /// One of the accounts isn't there.
    NoAccount,
    /// The other account can't hold so much.
    TooMuch,
}

impl fmt::Display for TransferEnd {
    fn fmt(&self, f: &mut fmt::Formatter<'_>) -> fmt::Result {
        f.write_str(match self {
            TransferEnd::Made => "made",
            TransferEnd::TooLittle => "too_little",
            TransferEnd::NoAccount => "no_account",
            TransferEnd::TooMuch => "too_much",
        })
    }
}

/// What became of an order. It is in the log.
#[derive(Debug, Clone, PartialEq, Eq)]
pub(crate) struct OrderOutcome {
    /// Whether it was carried out before: it was sent again.
    pub(crate) is_before: bool,
    /// What became of each transfer, in words.
    pub(crate) ends: String,
}
