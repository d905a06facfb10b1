//! `Transaction`: compares some keys, and then puts, deletes or reads others, all at once.

use serde_json::{Value, json};

/// Compares some keys; if all are as they should be, carries out its puts and deletions, else reads other keys.
#[derive(Debug, Default)]
pub(crate) struct Transaction {
    compare: Vec<Value>,
    success: Vec<Value>,
    failure: Vec<Value>,
}

impl Transaction {
    /// On condition that the key was made at that revision, and still exists.
    pub(crate) fn if_made_at(mut self, key: &str, revision: u64) -> Transaction {
        self.compare.push(json!({
            "key": base64::encode(key), "target": "CREATE", "result": "EQUAL",
            "create_revision": revision.to_string(),
        }));
        self
    }

    /// On condition that the key has this value; `None`: that it doesn't exist.
    pub(crate) fn if_holds(mut self, key: &str, value: Option<&str>) -> Transaction {
        let key = base64::encode(key);
        self.compare.push(match value {
            Some(value) => json!({
                "key": key, "target": "VALUE", "result": "EQUAL", "value": base64::encode(value),
            }),
            None => json!({ "key": key, "target": "VERSION", "result": "EQUAL", "version": "0" }),
        });
        self
    }

    pub(crate) fn put(mut self, key: &str, value: &str) -> Transaction {
        self.success.push(json!({ "requestPut": {
            "key": base64::encode(key), "value": base64::encode(value),
        }}));
        self
    }

    /// Puts a key that etcd deletes with a lease.
    pub(crate) fn put_leased(mut self, key: &str, value: &str, lease: i64) -> Transaction {
        self.success.push(json!({ "requestPut": {
            "key": base64::encode(key), "value": base64::encode(value), "lease": lease.to_string(),
        }}));
        self
    }

    /// Deletes the keys from one on to before another.
    pub(crate) fn delete(mut self, from: &str, to: &str) -> Transaction {
        self.success.push(json!({ "requestDeleteRange": {
            "key": base64::encode(from), "range_end": base64::encode(to),
        }}));
        self
    }

    pub(crate) fn read(mut self, range: &Value) -> Transaction {
        self.success.push(json!({ "requestRange": range }));
        self
    }

    /// Reads a key if a condition isn't met.
    pub(crate) fn else_read(mut self, key: &str) -> Transaction {
        self.failure
            .push(json!({ "requestRange": { "key": base64::encode(key) } }));
        self
    }

    pub(crate) fn question(self) -> Value {
        json!({ "compare": self.compare, "success": self.success, "failure": self.failure })
    }
}
