//! Reads batches of a log: a page at a time, all at one revision.

use crate::answers::{KeyValue, RangeAnswer, TransactionAnswer};
use crate::client::Client;
use crate::etcd_error::EtcdError;
use crate::keys::Keys;
use crate::log_head::LogHead;
use crate::transaction::Transaction;
use serde_json::{Value, json};

/// A log's head, and the batches from a number on, all at one revision.
#[derive(Debug)]
pub(crate) struct Page {
    pub(crate) revision: i64,
    /// `None` where there is no log.
    pub(crate) head: Option<LogHead>,
    pub(crate) batches: Vec<KeyValue>,
}

/// The head as it is now, and the first batches from this number on.
pub(crate) fn first_page(client: &mut Client, keys: &Keys, from: u64) -> Result<Page, EtcdError> {
    let both = Transaction::default()
        .read(&json!({ "key": base64::encode(keys.head()) }))
        .read(&batches_from(client, keys, from));
    let answer: TransactionAnswer = client.ask("kv/txn", &both.question())?;
    let revision = answer.header.revision;
    let mut read = answer
        .responses
        .into_iter()
        .map(|it| it.response_range.unwrap_or_default().kvs);
    let head = head_in(read.next().unwrap_or_default())?;
    Ok(Page {
        revision,
        head,
        batches: read.next().unwrap_or_default(),
    })
}

/// More batches, at the same revision.
pub(crate) fn next_page(
    client: &mut Client,
    keys: &Keys,
    from: u64,
    revision: i64,
) -> Result<Vec<KeyValue>, EtcdError> {
    let mut question = batches_from(client, keys, from);
    question["revision"] = json!(revision.to_string());
    let answer: RangeAnswer = client.ask("kv/range", &question)?;
    Ok(answer.kvs)
}

fn batches_from(client: &Client, keys: &Keys, from: u64) -> Value {
    json!({
        "key": base64::encode(keys.batch(from)),
        "range_end": base64::encode(keys.batches_end()),
        "limit": client.options().page.to_string(),
    })
}

/// The head that was read.
pub(crate) fn head_in(read: Vec<KeyValue>) -> Result<Option<LogHead>, EtcdError> {
    let Some(found) = read.into_iter().next() else {
        return Ok(None);
    };
    let head = LogHead::of(&found.value);
    let words = || String::from_utf8_lossy(&found.value).into_owned();
    let head = head.ok_or_else(|| EtcdError::Malformed(format!("the log's head is `{}`", words())));
    head.map(Some)
}
