//! A node that has no majority: it says of no host that it leads.

use crate::cluster::{Cluster, has_etcd};
use argus_guardian_etcd::{Campaign, EtcdError, EtcdOptions};
use std::time::Duration;

#[test]
fn a_node_without_a_majority_confirms_nobody() {
    if !has_etcd("nodes without a majority") {
        return;
    }
    let cluster = Cluster::start("majority", 3);
    let options = EtcdOptions {
        endpoints: vec![cluster.nodes[0].endpoint().to_owned()],
        timeout: Duration::from_secs(2),
        patience: Duration::from_secs(4),
        ..cluster.options()
    };
    let leadership = Campaign::begin(&options, "first").and_then(Campaign::wait);
    let leadership = leadership.expect("elected");
    leadership.confirm().expect("it leads");
    cluster.nodes[1].hang();
    cluster.nodes[2].hang();
    // Its own store still has the leader's key.
    let confirmed = leadership.confirm();
    assert!(
        matches!(confirmed, Err(EtcdError::Unreached(_))),
        "{confirmed:?}"
    );
}
