//! `Maintenance`: the requests by which operators look after etcd; `NodeStatus`: the status of a node.

use crate::answers::{Alarm, Alarms, NoContent, RangeAnswer, Status};
use crate::client::Client;
use crate::etcd_error::EtcdError;
use crate::etcd_options::EtcdOptions;
use crate::keys::Keys;
use serde_json::json;
use std::sync::Arc;
use std::time::Duration;

const ALARM: &str = "maintenance/alarm";
const NO_SPACE: &str = "NOSPACE";

/// The status of a node of etcd.
///
/// ```
/// use argus_guardian_etcd::NodeStatus;
/// let status = NodeStatus { version: "3.4.23".into(), size: 25_000_000, in_use: 1_000_000 };
/// assert!(status.size > 2 * status.in_use); // worth defragmenting
/// ```
#[derive(Debug, Clone, PartialEq, Eq)]
pub struct NodeStatus {
    /// Its version.
    pub version: String,
    /// The size of its database file, in bytes, which counts for the quota.
    pub size: u64,
    /// How many bytes of that are in use. [`Maintenance::defragment`](crate::Maintenance::defragment) shrinks the file
    /// to that.
    pub in_use: u64,
}

/// The requests by which operators look after etcd. `etcdctl compact`, `defrag`, `alarm list`, `alarm disarm` and
/// `endpoint status` do the same. If etcd asks for users, most of them need the role `root`.
///
/// ```no_run
/// use argus_guardian_etcd::{EtcdError, EtcdOptions, Maintenance};
/// use std::time::Duration;
/// // After `EtcdError::NoSpace`, once there is something to forget:
/// let mut maintenance = Maintenance::new(&EtcdOptions::at(["http://127.0.0.1:2379"]))?;
/// maintenance.compact()?;
/// maintenance.defragment(Duration::from_secs(60))?;
/// maintenance.disarm()?;
/// # Ok::<(), EtcdError>(())
/// ```
#[derive(Debug)]
pub struct Maintenance {
    client: Client,
    keys: Keys,
}

impl Maintenance {
    /// Of the nodes that the options name.
    ///
    /// # Errors
    ///
    /// [`EtcdError::Option`].
    ///
    /// ```
    /// use argus_guardian_etcd::{EtcdError, EtcdOptions, Maintenance};
    /// let nowhere = Maintenance::new(&EtcdOptions::at::<String>([]));
    /// assert!(matches!(nowhere, Err(EtcdError::Option(_))));
    /// ```
    pub fn new(options: &EtcdOptions) -> Result<Maintenance, EtcdError> {
        Ok(Maintenance {
            client: Client::new(&Arc::new(options.clone()))?,
            keys: Keys::under(&options.prefix),
        })
    }

    /// The name of the host that leads, and the number of its leadership.
    ///
    /// # Errors
    ///
    /// [`EtcdError::Unreached`]; `Refused`.
    ///
    /// ```no_run
    /// # use argus_guardian_etcd::{EtcdError, EtcdOptions, Maintenance};
    /// # let mut maintenance = Maintenance::new(&EtcdOptions::at(["http://127.0.0.1:2379"]))?;
    /// if let Some((name, epoch)) = maintenance.leader()? {
    ///     println!("{name} leads, epoch {epoch}");
    /// }
    /// # Ok::<(), EtcdError>(())
    /// ```
    pub fn leader(&mut self) -> Result<Option<(String, u64)>, EtcdError> {
        let oldest: RangeAnswer = self.client.ask("kv/range", &self.keys.oldest_leader())?;
        Ok(oldest.kvs.first().map(|found| {
            let name = String::from_utf8_lossy(&found.value).into_owned();
            (name, u64::try_from(found.create_revision).unwrap_or(0))
        }))
    }

    /// The status of each node, beside its endpoint.
    ///
    /// ```
    /// use argus_guardian_etcd::{EtcdError, EtcdOptions, Maintenance};
    /// let mut maintenance = Maintenance::new(&EtcdOptions::at(["http://127.0.0.1:1"]))?;
    /// let (endpoint, status) = maintenance.status().remove(0);
    /// assert_eq!(endpoint, "http://127.0.0.1:1");
    /// assert!(matches!(status, Err(EtcdError::Unreached(_))));
    /// # Ok::<(), EtcdError>(())
    /// ```
    pub fn status(&mut self) -> Vec<(String, Result<NodeStatus, EtcdError>)> {
        let options = Arc::clone(self.client.options());
        let nodes = options.endpoints.iter().cloned().enumerate();
        nodes
            .map(|(node, endpoint)| (endpoint, self.status_of(node, options.timeout)))
            .collect()
    }

    fn status_of(&mut self, node: usize, timeout: Duration) -> Result<NodeStatus, EtcdError> {
        let path = "maintenance/status";
        let status: Status = self.client.ask_node(node, path, &json!({}), timeout)?;
        let size = |bytes| u64::try_from(bytes).unwrap_or(0);
        Ok(NodeStatus {
            version: status.version,
            size: size(status.size),
            in_use: size(status.in_use),
        })
    }

    /// The alarms that are set, as `NOSPACE` and `CORRUPT`, one for each node that has set it.
    ///
    /// # Errors
    ///
    /// [`EtcdError::Unreached`]; `Refused`.
    ///
    /// ```no_run
    /// # use argus_guardian_etcd::{EtcdError, EtcdOptions, Maintenance};
    /// # let mut maintenance = Maintenance::new(&EtcdOptions::at(["http://127.0.0.1:2379"]))?;
    /// assert!(maintenance.alarms()?.is_empty());
    /// # Ok::<(), EtcdError>(())
    /// ```
    pub fn alarms(&mut self) -> Result<Vec<String>, EtcdError> {
        let alarms = self.alarms_set()?;
        Ok(alarms.into_iter().map(|it| it.alarm).collect())
    }

    fn alarms_set(&mut self) -> Result<Vec<Alarm>, EtcdError> {
        let question = json!({ "action": "GET" });
        let answer: Alarms = self.client.ask(ALARM, &question)?;
        Ok(answer.alarms)
    }

    /// Disarms the alarm `NOSPACE`, so that etcd accepts writes again. While there is still no space, etcd sets it
    /// again.
    ///
    /// # Errors
    ///
    /// [`EtcdError::Unreached`]; `Refused`.
    ///
    /// ```no_run
    /// # use argus_guardian_etcd::{EtcdError, EtcdOptions, Maintenance};
    /// # let mut maintenance = Maintenance::new(&EtcdOptions::at(["http://127.0.0.1:2379"]))?;
    /// maintenance.disarm()?;
    /// # Ok::<(), EtcdError>(())
    /// ```
    pub fn disarm(&mut self) -> Result<(), EtcdError> {
        for Alarm { member, alarm } in self.alarms_set()? {
            if alarm == NO_SPACE {
                let question =
                    json!({ "action": "DEACTIVATE", "memberID": member, "alarm": NO_SPACE });
                let NoContent {} = self.client.ask(ALARM, &question)?;
            }
        }
        Ok(())
    }

    /// Compacts etcd's history up to now: only the present value of each key is kept. It is the history of all keys,
    /// those of other programs included. A checkpoint does the same, unless the options say otherwise.
    ///
    /// # Errors
    ///
    /// [`EtcdError::Unreached`]; `Refused`.
    ///
    /// ```no_run
    /// # use argus_guardian_etcd::{EtcdError, EtcdOptions, Maintenance};
    /// # let mut maintenance = Maintenance::new(&EtcdOptions::at(["http://127.0.0.1:2379"]))?;
    /// maintenance.compact()?;
    /// # Ok::<(), EtcdError>(())
    /// ```
    pub fn compact(&mut self) -> Result<(), EtcdError> {
        let question = json!({ "key": base64::encode(self.keys.head()) });
        let now: RangeAnswer = self.client.ask("kv/range", &question)?;
        // `physical`: it returns once the space is free for other values.
        let question = json!({ "revision": now.header.revision.to_string(), "physical": true });
        match self.client.ask::<NoContent>("kv/compaction", &question) {
            Ok(NoContent {}) | Err(EtcdError::Compacted) => Ok(()),
            Err(error) => Err(error),
        }
    }

    /// Shrinks the database file of each node to what is in use, one node after another. A node answers nothing else
    /// meanwhile; each has this long for it.
    ///
    /// # Errors
    ///
    /// [`EtcdError::Unreached`], and then the nodes after that one weren't asked; `Refused`.
    ///
    /// ```no_run
    /// # use argus_guardian_etcd::{EtcdError, EtcdOptions, Maintenance};
    /// # let mut maintenance = Maintenance::new(&EtcdOptions::at(["http://127.0.0.1:2379"]))?;
    /// maintenance.defragment(std::time::Duration::from_secs(60))?;
    /// # Ok::<(), EtcdError>(())
    /// ```
    pub fn defragment(&mut self, longest: Duration) -> Result<(), EtcdError> {
        for node in 0..self.client.options().endpoints.len() {
            let path = "maintenance/defragment";
            let NoContent {} = self.client.ask_node(node, path, &json!({}), longest)?;
        }
        Ok(())
    }
}
