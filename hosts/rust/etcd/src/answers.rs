//! The answers of etcd's gateway, as JSON: integers of 64 bits are strings, bytes are base64, and fields that are
//! zero, false or empty are left out.

use serde::{Deserialize, Deserializer, de};
use serde_json::Value;

/// The head of each answer.
#[derive(Debug, Default, Deserialize)]
pub(crate) struct Header {
    /// The revision of the whole store at the time of the answer.
    #[serde(default, deserialize_with = "int")]
    pub(crate) revision: i64,
}

/// A key, and what it holds.
#[derive(Debug, Deserialize)]
pub(crate) struct KeyValue {
    #[serde(deserialize_with = "bytes")]
    pub(crate) key: Vec<u8>,
    #[serde(default, deserialize_with = "bytes")]
    pub(crate) value: Vec<u8>,
    #[serde(default, deserialize_with = "int")]
    pub(crate) create_revision: i64,
    /// At which revision it was put last.
    #[serde(default, deserialize_with = "int")]
    pub(crate) mod_revision: i64,
}

/// The answer to a range.
#[derive(Debug, Default, Deserialize)]
pub(crate) struct RangeAnswer {
    #[serde(default)]
    pub(crate) header: Header,
    #[serde(default)]
    pub(crate) kvs: Vec<KeyValue>,
}

/// The answer to a transaction.
#[derive(Debug, Deserialize)]
pub(crate) struct TransactionAnswer {
    #[serde(default)]
    pub(crate) header: Header,
    #[serde(default)]
    pub(crate) succeeded: bool,
    #[serde(default)]
    pub(crate) responses: Vec<Response>,
}

/// The answer to one operation of a transaction.
#[derive(Debug, Deserialize)]
pub(crate) struct Response {
    #[serde(default)]
    pub(crate) response_range: Option<RangeAnswer>,
}

/// A lease that was granted.
#[derive(Debug, Deserialize)]
pub(crate) struct LeaseGrant {
    #[serde(rename = "ID", deserialize_with = "int")]
    pub(crate) id: i64,
}

/// The answer to a keep-alive, which comes as one of a stream.
#[derive(Debug, Deserialize)]
pub(crate) struct KeepAlive {
    #[serde(default)]
    pub(crate) result: LeaseTime,
}

/// How many seconds a lease has: none, where it is over.
#[derive(Debug, Default, Deserialize)]
pub(crate) struct LeaseTime {
    #[serde(rename = "TTL", default, deserialize_with = "int")]
    pub(crate) seconds: i64,
}

/// A token, by which a user is known.
#[derive(Debug, Deserialize)]
pub(crate) struct UserToken {
    pub(crate) token: String,
}

/// Why etcd refused.
#[derive(Debug, Deserialize)]
pub(crate) struct Refusal {
    #[serde(default)]
    pub(crate) code: u32,
    #[serde(default)]
    pub(crate) message: String,
    // Some versions have the words here.
    #[serde(default)]
    pub(crate) error: Value,
}

/// One message of a watch.
#[derive(Debug, Deserialize)]
pub(crate) struct WatchMessage {
    #[serde(default)]
    pub(crate) result: Option<Events>,
}

/// Changes of the keys that are watched.
#[derive(Debug, Deserialize)]
pub(crate) struct Events {
    #[serde(default)]
    pub(crate) canceled: bool,
    #[serde(rename = "events", default)]
    pub(crate) list: Vec<Event>,
}

/// A key that was put or deleted.
#[derive(Debug, Deserialize)]
pub(crate) struct Event {
    #[serde(default)]
    pub(crate) kv: Option<KeyValue>,
}

/// An answer without content.
#[derive(Debug, Deserialize)]
pub(crate) struct NoContent {}

/// The alarms that are set.
#[derive(Debug, Deserialize)]
pub(crate) struct Alarms {
    #[serde(default)]
    pub(crate) alarms: Vec<Alarm>,
}

/// An alarm of one node.
#[derive(Debug, Deserialize)]
pub(crate) struct Alarm {
    /// The node's number, as etcd writes it.
    #[serde(rename = "memberID", default)]
    pub(crate) member: Value,
    #[serde(default)]
    pub(crate) alarm: String,
}

/// A node's own status.
#[derive(Debug, Deserialize)]
pub(crate) struct Status {
    #[serde(default)]
    pub(crate) version: String,
    #[serde(rename = "dbSize", default, deserialize_with = "int")]
    pub(crate) size: i64,
    #[serde(rename = "dbSizeInUse", default, deserialize_with = "int")]
    pub(crate) in_use: i64,
}

// An integer, which is a text where it has 64 bits.
fn int<'d, D: Deserializer<'d>>(from: D) -> Result<i64, D::Error> {
    match Value::deserialize(from)? {
        Value::String(text) => text.parse().map_err(de::Error::custom),
        Value::Number(number) => number
            .as_i64()
            .ok_or_else(|| de::Error::custom("no integer of 64 bits")),
        _ => Err(de::Error::custom("no integer")),
    }
}

fn bytes<'d, D: Deserializer<'d>>(from: D) -> Result<Vec<u8>, D::Error> {
    let text = String::deserialize(from)?;
    base64::decode(text).map_err(de::Error::custom)
}

#[cfg(test)]
mod tests {
    use super::{KeepAlive, RangeAnswer, Refusal, TransactionAnswer};

    #[test]
    fn what_is_left_out_is_zero() {
        let text =
            r#"{"header":{"cluster_id":"1","revision":"17"},"responses":[{"response_put":{}}]}"#;
        let answer: TransactionAnswer = serde_json::from_str(text).expect("an answer");
        assert_eq!((answer.header.revision, answer.succeeded), (17, false));
        assert!(answer.responses[0].response_range.is_none());
        let over: KeepAlive = serde_json::from_str(r#"{"result":{"ID":"5"}}"#).expect("an answer");
        assert_eq!(over.result.seconds, 0);
    }

    #[test]
    fn bytes_are_base64() {
        let text = r#"{"kvs":[{"key":"YQ==","value":"Ygo=","create_revision":"3"}],"count":"1"}"#;
        let answer: RangeAnswer = serde_json::from_str(text).expect("an answer");
        let found = &answer.kvs[0];
        assert_eq!(
            (&found.key[..], &found.value[..], found.create_revision),
            (&b"a"[..], &b"b\n"[..], 3)
        );
        assert!(serde_json::from_str::<RangeAnswer>(r#"{"kvs":[{"key":"*"}]}"#).is_err());
    }

    #[test]
    fn words_of_a_refusal() {
        let text =
            r#"{"error":"etcdserver: no leader","message":"etcdserver: no leader","code":14}"#;
        let answer: Refusal = serde_json::from_str(text).expect("an answer");
        assert_eq!(
            (answer.code, &answer.message[..]),
            (14, "etcdserver: no leader")
        );
    }
}
