//! `LogError`: why a log in etcd can't be read, or can't be continued.

use crate::etcd_error::EtcdError;
use argus_guardian::Error;
use argus_guardian::log::{Failure, LoggedError};
use std::error;
use std::fmt;

/// Why a log in etcd can't be read, or can't be continued.
///
/// ```
/// use argus_guardian_etcd::LogError;
/// let error = LogError::Damaged {
///     key: "argus/batches/00000000000000000017".into(),
///     line: Some(1),
///     why: "`5 commit a0 -> done`: the reply is refused over".into(),
/// };
/// assert_eq!(
///     error.to_string(),
///     "argus/batches/00000000000000000017, line 1 of it: `5 commit a0 -> done`: the reply is refused over"
/// );
/// ```
#[derive(Debug, Clone)]
#[non_exhaustive]
pub enum LogError {
    /// A request to etcd failed. After `Unreached` it may be tried again.
    Etcd(EtcdError),
    /// A batch is missing, isn't as it was written, or has a line that no guardian writes there. Nothing behind that
    /// is taken.
    Damaged {
        /// The key.
        key: String,
        /// Which of the batch's lines it is, counted from 0, if it is one.
        line: Option<u64>,
        /// In which way.
        why: String,
    },
    /// The guardian couldn't be made, or couldn't abort what was live: out of memory.
    Guardian(Error),
    /// The log was read, but the first append failed.
    Broken(Failure),
}

impl fmt::Display for LogError {
    fn fmt(&self, f: &mut fmt::Formatter<'_>) -> fmt::Result {
        match self {
            LogError::Etcd(error) => write!(f, "{error}"),
            LogError::Damaged { key, line, why } => {
                f.write_str(key)?;
                if let Some(line) = line {
                    write!(f, ", line {line} of it")?;
                }
                write!(f, ": {why}")
            }
            LogError::Guardian(error) => write!(f, "the guardian can't go on: {error}"),
            LogError::Broken(failure) => write!(f, "the log couldn't be written: {failure}"),
        }
    }
}

impl error::Error for LogError {}

impl From<EtcdError> for LogError {
    fn from(error: EtcdError) -> LogError {
        LogError::Etcd(error)
    }
}

impl From<Error> for LogError {
    fn from(error: Error) -> LogError {
        LogError::Guardian(error)
    }
}

impl From<LoggedError> for LogError {
    fn from(error: LoggedError) -> LogError {
        match error {
            LoggedError::Guardian(error) => LogError::Guardian(error),
            LoggedError::InDoubt(failure) | LoggedError::Broken(failure) => {
                LogError::Broken(failure)
            }
            // Of files alone.
            other => LogError::Etcd(EtcdError::Malformed(other.to_string())),
        }
    }
}
