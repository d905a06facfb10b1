//! `Arguments`: the words of the command line.

use crate::request::Token;
use crate::server::Limits;
use argus_guardian_etcd::{EtcdOptions, Login, Tls};
use clap::Args;
use clap::Parser;
use clap::Subcommand;
use std::error::Error;
use std::fs;
use std::net::SocketAddr;
use std::path::PathBuf;
use std::time::Duration;

/// A small bank over HTTP, whose guardian outlives its process. Neither it nor its log is proved.
#[derive(Debug, Parser)]
#[command(version)]
pub(crate) struct Arguments {
    #[command(subcommand)]
    pub(crate) command: Command,
}

/// What the program is to do.
#[derive(Debug, Subcommand)]
pub(crate) enum Command {
    /// Serves a bank over a log in a database or in etcd
    Serve(ServeArguments),
    /// Reads a log in a database, makes each call again, and says what is there; changes nothing.
    /// Status 0: it is right, 1: it is damaged, 3: there is none, or it can't be read
    Verify {
        /// The database
        database: PathBuf,
    },
    /// Follows a log in etcd, and serves reads with the position that they reflect
    Follow {
        #[command(flatten)]
        etcd: EtcdArguments,
        #[command(flatten)]
        http: HttpArguments,
    },
}

#[derive(Debug, Args)]
pub(crate) struct ServeArguments {
    /// The database of the log, which is made if it isn't there
    #[arg(long, required_unless_present = "etcd", conflicts_with = "etcd")]
    pub(crate) log: Option<PathBuf>,
    #[command(flatten)]
    pub(crate) etcd: EtcdArguments,
    /// This host's name among the candidates in etcd
    #[arg(long, default_value = "argus-host")]
    pub(crate) name: String,
    /// A checkpoint is made after so many entries
    #[arg(long, default_value_t = 1_000_000)]
    pub(crate) checkpoint: u64,
    /// So many idempotency keys are recognized, the newest ones; there is room for 65,535 keys and accounts
    #[arg(long, default_value_t = 16_384, value_parser = clap::value_parser!(u32).range(64..=65_000))]
    pub(crate) keys: u32,
    #[command(flatten)]
    pub(crate) http: HttpArguments,
}

#[derive(Debug, Args)]
pub(crate) struct EtcdArguments {
    /// The nodes of etcd, with their ports
    #[arg(long, num_args = 1.., value_name = "URL")]
    pub(crate) etcd: Vec<String>,
    /// The first part of the log's keys in etcd
    #[arg(long, default_value = "argus")]
    pub(crate) prefix: String,
    /// After so many seconds without word of the leader another host leads; the same for all hosts
    #[arg(long, default_value_t = 5, value_name = "SECONDS")]
    pub(crate) lease: u64,
    /// A PEM file of the authorities that sign the nodes' certificates
    #[arg(long, value_name = "FILE")]
    pub(crate) authority: Option<PathBuf>,
    /// A user of etcd
    #[arg(long, requires = "password_file")]
    pub(crate) user: Option<String>,
    /// A file with the user's password
    #[arg(long, requires = "user", value_name = "FILE")]
    pub(crate) password_file: Option<PathBuf>,
}

impl EtcdArguments {
    pub(crate) fn options(&self) -> Result<EtcdOptions, Box<dyn Error>> {
        let login = match (&self.user, &self.password_file) {
            (Some(user), Some(file)) => Some(Login {
                user: user.clone(),
                password: fs::read_to_string(file)?.trim_end().to_owned(),
            }),
            _ => None,
        };
        let tls = self.authority.clone().map(|authority| Tls {
            authority,
            certificate: None,
        });
        Ok(EtcdOptions {
            tls,
            login,
            prefix: self.prefix.clone(),
            lease: Duration::from_secs(self.lease),
            ..EtcdOptions::at(self.etcd.iter().cloned())
        })
    }
}

#[derive(Debug, Args)]
pub(crate) struct HttpArguments {
    /// Where it listens. Elsewhere than on loopback it wants a token
    #[arg(long, default_value = "127.0.0.1:8480")]
    pub(crate) listen: SocketAddr,
    /// A file with the bearer token that each request but GET /health has to bring
    #[arg(long, value_name = "FILE")]
    pub(crate) token_file: Option<PathBuf>,
    /// Threads that answer requests
    #[arg(long, default_value_t = 16, value_parser = clap::value_parser!(u16).range(1..=1024))]
    pub(crate) workers: u16,
    /// Requests that wait for a thread; further ones are refused with 503
    #[arg(long, default_value_t = 64)]
    pub(crate) queue: u16,
    /// The largest body of a request, in bytes
    #[arg(long, default_value_t = 16 * 1024)]
    pub(crate) body: usize,
    /// How long a request may take to arrive and to get its locks, in milliseconds
    #[arg(long, default_value_t = 5000)]
    pub(crate) time: u64,
}

impl HttpArguments {
    pub(crate) fn limits(&self) -> Limits {
        Limits {
            workers: usize::from(self.workers),
            queue: usize::from(self.queue),
            body: self.body,
            time: Duration::from_millis(self.time),
        }
    }

    pub(crate) fn token(&self) -> Result<Option<Token>, Box<dyn Error>> {
        let Some(file) = &self.token_file else {
            return Ok(None);
        };
        let text = fs::read_to_string(file)
            .map_err(|error| format!("the token file can't be read: {error}"))?;
        let token =
            Token::new(text.trim()).ok_or("the token file has no token of 16 bytes or more")?;
        Ok(Some(token))
    }
}
