//! `EtcdOptions`: where etcd is, and how a log is kept there; `Login`, `Tls`: what connections to it need.

use std::fmt;
use std::path::PathBuf;
use std::time::Duration;

/// Where etcd is, and how a log is kept there. All hosts of a log use the same [`prefix`](Self::prefix) and the
/// same [`lease`](Self::lease).
///
/// ```
/// use argus_guardian_etcd::EtcdOptions;
/// use std::time::Duration;
/// let options = EtcdOptions {
///     prefix: "bank".into(),
///     lease: Duration::from_secs(10),
///     ..EtcdOptions::at(["http://10.0.0.1:2379", "http://10.0.0.2:2379", "http://10.0.0.3:2379"])
/// };
/// assert_eq!(options.timeout, Duration::from_secs(2));
/// ```
#[derive(Debug, Clone, PartialEq, Eq)]
pub struct EtcdOptions {
    /// The nodes, as `http://10.0.0.1:2379`, or `https://..` with [`tls`](Self::tls). They are tried in turn,
    /// from the first one on: name a near one first.
    pub endpoints: Vec<String>,
    /// Certificates, for endpoints that begin with `https`.
    pub tls: Option<Tls>,
    /// The user and the password, if etcd asks for them.
    pub login: Option<Login>,
    /// The first part of all keys of the log; a `/` follows it. Default: `argus`.
    pub prefix: String,
    /// How long a leader stays the leader after etcd has last heard from it: whole seconds. Default: 5. Keep it
    /// well above the time in which etcd elects a leader of its own (`--election-timeout`, one second). After a
    /// crash, another host leads once the lease has ended and it has read the rest of the log.
    pub lease: Duration,
    /// How long a node has for an answer before the next one is asked. It has to be shorter than the lease.
    /// Default: 2 seconds.
    pub timeout: Duration,
    /// How long one call goes on asking nodes. Default: 10 seconds. An append that no node has answered by then
    /// is in doubt, and the log is broken.
    pub patience: Duration,
    /// The largest batch, in bytes of its lines. Default: 1 MiB. etcd accepts requests of up to 1.5 MiB
    /// (`--max-request-bytes`). Longer appends are split between entries.
    pub batch: usize,
    /// How many batches are read with one request. Default: 16. A node has to send them within its
    /// [`timeout`](Self::timeout).
    pub page: u32,
    /// Whether a checkpoint compacts etcd's history, so that etcd can drop what was deleted. Default: true. The
    /// history is that of all keys in this etcd, those of other programs included.
    pub compaction: bool,
}

impl EtcdOptions {
    /// Options for these nodes, with the defaults for all else.
    ///
    /// ```
    /// use argus_guardian_etcd::EtcdOptions;
    /// assert_eq!(EtcdOptions::at(["http://127.0.0.1:2379"]).prefix, "argus");
    /// ```
    #[must_use]
    pub fn at<T: Into<String>>(endpoints: impl IntoIterator<Item = T>) -> EtcdOptions {
        EtcdOptions {
            endpoints: endpoints.into_iter().map(Into::into).collect(),
            tls: None,
            login: None,
            prefix: "argus".to_owned(),
            lease: Duration::from_secs(5),
            timeout: Duration::from_secs(2),
            patience: Duration::from_secs(10),
            batch: 1 << 20,
            page: 16,
            compaction: true,
        }
    }
}

/// A user of etcd, and the password, if etcd asks for them (`etcdctl auth enable`). The user needs a role that may
/// read and write the keys under the prefix. Without TLS the password crosses the network as it is.
///
/// ```
/// use argus_guardian_etcd::Login;
/// let login = Login { user: "bank".into(), password: "secret".into() };
/// assert_eq!(format!("{login:?}"), "Login { user: \"bank\", .. }");
/// ```
#[derive(Clone, PartialEq, Eq)]
pub struct Login {
    /// The name.
    pub user: String,
    /// The password, which no `Debug` prints.
    pub password: String,
}

impl fmt::Debug for Login {
    fn fmt(&self, f: &mut fmt::Formatter<'_>) -> fmt::Result {
        f.debug_struct("Login")
            .field("user", &self.user)
            .finish_non_exhaustive()
    }
}

/// Certificates for connections to etcd, in PEM files.
///
/// ```
/// use argus_guardian_etcd::Tls;
/// let tls = Tls { authority: "/etc/argus/ca.pem".into(), certificate: None };
/// assert!(tls.certificate.is_none());
/// ```
#[derive(Debug, Clone, PartialEq, Eq)]
pub struct Tls {
    /// The authorities that may have signed the nodes' certificates. A node's certificate has to name the host of
    /// its endpoint.
    pub authority: PathBuf,
    /// This host's certificate and its key, if the nodes ask for one (`etcd --client-cert-auth`). etcd's gateway
    /// doesn't take its name for a user: if etcd asks for users, give a [`Login`](crate::Login), too.
    pub certificate: Option<(PathBuf, PathBuf)>,
}
