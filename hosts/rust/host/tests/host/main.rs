//! Tests of `argus-host`: each starts the program, and speaks to it over HTTP as a client does.

mod bounds;
#[path = "../../../etcd/tests/etcd/certificates.rs"]
mod certificates;
mod checkpoints;
mod client;
mod damaged;
mod failing;
mod host;
mod kills;
mod node;
mod replicated;
mod routes;
#[path = "../../../etcd/tests/etcd/scratch.rs"]
mod scratch;
mod secured;
