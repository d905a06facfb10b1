//! `EtcdError`: why a request to etcd failed.

use std::error;
use std::fmt;

/// Why a request to etcd failed.
///
/// A request that etcd refuses writes nothing. But an earlier try of it whose answer was lost may have been carried
/// out, and a long append is several requests: so an append that fails is in doubt, whatever the error.
///
/// The [`Failure`](argus_guardian::log::Failure) of a log in etcd carries one: `failure.get_ref()` can be
/// downcast to it.
///
/// ```
/// use argus_guardian_etcd::EtcdError;
/// assert_eq!(
///     EtcdError::NoSpace.to_string(),
///     "etcd takes no more: its quota is used up, and the alarm NOSPACE is set"
/// );
/// ```
#[derive(Debug, Clone, PartialEq, Eq)]
#[non_exhaustive]
pub enum EtcdError {
    /// No node answered while patience lasted, or the nodes have no quorum; the words are those of the last try.
    /// The request may have been carried out.
    Unreached(String),
    /// This host doesn't lead any more: its key is gone. From then on it can write nothing.
    Deposed,
    /// This host leads, but the log's head isn't as it left it: a program other than the leader has written
    /// there.
    Foreign,
    /// etcd's quota is used up, and etcd refuses to write until its alarm NOSPACE is disarmed.
    NoSpace,
    /// The request is larger than etcd accepts (`--max-request-bytes`).
    TooLarge,
    /// The revision to read at has been compacted.
    Compacted,
    /// etcd refuses it: because of the user, the password or the role, or for what its message says.
    Refused {
        /// The status code of gRPC.
        code: u32,
        /// etcd's message.
        message: String,
    },
    /// An answer, or a key of the log, that can't be read: in what way.
    Malformed(String),
    /// An option is wrong: in what way.
    Option(String),
}

impl fmt::Display for EtcdError {
    fn fmt(&self, f: &mut fmt::Formatter<'_>) -> fmt::Result {
        match self {
            EtcdError::Unreached(why) => write!(f, "no node of etcd answered: {why}"),
            EtcdError::Deposed => f.write_str("this host doesn't lead any more"),
            EtcdError::Foreign => {
                f.write_str("a program other than the leader has written to the log")
            }
            EtcdError::NoSpace => f.write_str(
                "etcd takes no more: its quota is used up, and the alarm NOSPACE is set",
            ),
            EtcdError::TooLarge => f.write_str("the request is larger than etcd accepts"),
            EtcdError::Compacted => f.write_str("that revision of etcd has been compacted"),
            EtcdError::Refused { code, message } => write!(f, "etcd refuses: {message} ({code})"),
            EtcdError::Malformed(what) => write!(f, "it can't be read: {what}"),
            EtcdError::Option(what) => write!(f, "an option is wrong: {what}"),
        }
    }
}

impl error::Error for EtcdError {}
