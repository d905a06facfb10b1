//! `BankError`: why a bank didn't do what it was asked for.

use crate::reply::Reply;
use argus_guardian::log::LoggedError;

/// Why a bank didn't do what it was asked for.
#[derive(Debug)]
pub(crate) enum BankError {
    Logged(LoggedError),
    /// The key belongs to an order that is in doubt.
    InDoubt,
    /// An order with this key is under way.
    UnderWay,
    /// The key belongs to another order.
    OtherOrder,
    /// Other orders had the locks for too long. Nothing was done.
    Busy,
    /// There is no room for another account.
    Full,
}

impl From<LoggedError> for BankError {
    fn from(error: LoggedError) -> BankError {
        BankError::Logged(error)
    }
}

impl BankError {
    /// Whether what was asked for may be in the log, or not.
    pub(crate) fn is_in_doubt(&self) -> bool {
        matches!(
            self,
            BankError::Logged(LoggedError::InDoubt(_)) | BankError::InDoubt
        )
    }

    pub(crate) fn reply(&self) -> Reply {
        match self {
            _ if self.is_in_doubt() => Reply::error(
                503,
                "in_doubt",
                "it may be carried out, or not: send it again under the same key",
            ),
            BankError::Logged(LoggedError::Broken(_)) => Reply::error(
                503,
                "broken",
                "the log failed before; this request was not carried out",
            ),
            BankError::UnderWay => Reply::error(
                409,
                "under_way",
                "an order with this key is under way: send it again later",
            ),
            BankError::OtherOrder => {
                Reply::error(422, "other_order", "the key belongs to another order")
            }
            BankError::Busy => {
                Reply::error(503, "busy", "other orders have the locks; nothing was done")
            }
            BankError::Full => Reply::error(507, "full", "there is no room for another account"),
            BankError::Logged(error) if error.is_conflict() => BankError::Busy.reply(),
            BankError::Logged(error) => {
                eprintln!("argus-host: {error}");
                Reply::error(500, "guardian", "the guardian refuses; nothing was done")
            }
            BankError::InDoubt => unreachable!("it is in doubt"),
        }
    }
}
