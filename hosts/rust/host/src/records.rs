//! `Records`: which of a guardian's objects are accounts, and which keep keys.

use argus_guardian::{ObjId, Object};

pub(crate) const ACCOUNT: &str = "atomic_record[balance:int]";
pub(crate) const KEY: &str = "atomic_record[sequence:int,key:text,order:text,answer:text]";

/// The most objects of a guardian: records of accounts and of keys.
pub(crate) const MOST_OBJECTS: usize = 65_535;

/// Which of a guardian's objects are accounts, and which keep keys. An account's number is its place among the
/// accounts.
#[derive(Debug, Clone, Default)]
pub(crate) struct Records {
    pub(crate) accounts: Vec<ObjId>,
    pub(crate) keys: Vec<ObjId>,
}

impl Records {
    /// The next object.
    pub(crate) fn take(&mut self, object: &Object) {
        match object.names().first().map(String::as_str) {
            Some("balance") => self.accounts.push(object.id()),
            Some("sequence") => self.keys.push(object.id()),
            _ => {}
        }
    }

    pub(crate) fn account(&self, number: u32) -> Option<ObjId> {
        self.accounts.get(number as usize).copied()
    }
}

/// An order that was carried out, as a record of the guardian keeps it beside its key.
#[derive(Debug, Clone, PartialEq, Eq)]
pub(crate) struct OrderRecord {
    pub(crate) order: String,
    pub(crate) ends: String,
}
