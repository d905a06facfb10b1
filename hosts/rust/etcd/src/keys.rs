//! `Keys`: the names of a log's keys.

use serde_json::{Value, json};

/// The names of a log's keys, all under its prefix:
///
/// ```text
/// PREFIX/head                            which batches count
/// PREFIX/batches/00000000000000000017    a batch, by its number
/// PREFIX/leader/7587849a0f2c3d01         the leader or a candidate, by its lease
/// ```
#[derive(Debug, Clone)]
pub(crate) struct Keys {
    prefix: String,
}

impl Keys {
    pub(crate) fn under(prefix: &str) -> Keys {
        Keys {
            prefix: prefix.trim_end_matches('/').to_owned(),
        }
    }

    pub(crate) fn head(&self) -> String {
        format!("{}/head", self.prefix)
    }

    /// A batch's key. Numbers have one width, so keys are in the order of batches.
    pub(crate) fn batch(&self, number: u64) -> String {
        format!("{}/batches/{number:020}", self.prefix)
    }

    /// The end of all batches' keys: `0` comes after `/`.
    pub(crate) fn batches_end(&self) -> String {
        format!("{}/batches0", self.prefix)
    }

    fn leaders(&self) -> String {
        format!("{}/leader/", self.prefix)
    }

    /// A range of the oldest candidate's key: that host leads.
    pub(crate) fn oldest_leader(&self) -> Value {
        json!({
            "key": base64::encode(self.leaders()),
            "range_end": base64::encode(format!("{}/leader0", self.prefix)),
            "sort_order": "ASCEND", "sort_target": "CREATE", "limit": "1",
        })
    }

    /// Whether it is the key of a candidate of this log.
    pub(crate) fn is_leader(&self, key: &str) -> bool {
        key.starts_with(&self.leaders())
    }

    pub(crate) fn leader(&self, lease: i64) -> String {
        format!("{}{lease:016x}", self.leaders())
    }
}

#[cfg(test)]
mod tests {
    use super::Keys;

    #[test]
    fn keys_are_in_the_order_of_numbers() {
        let keys = Keys::under("bank/");
        let named = [0, 9, 10, u64::MAX].map(|it| keys.batch(it));
        assert_eq!(named[1], "bank/batches/00000000000000000009");
        assert!(named.is_sorted());
        assert!(named[3] < keys.batches_end() && keys.batches_end() < keys.head());
        assert!(keys.head() < keys.leader(1) && keys.leader(1) < keys.leader(i64::MAX));
        assert!(keys.leader(i64::MAX).as_str() < "bank/leader0");
    }
}
