//! What tests of a log without a guardian have in common.

use argus_guardian::log::{Failure, JournalLines};
use argus_guardian_etcd::{Batch, Campaign, EtcdError, EtcdLog, EtcdOptions};

/// Leads, and reads the log.
pub(crate) fn lead(options: &EtcdOptions, name: &str) -> EtcdLog {
    let leadership = Campaign::begin(options, name)
        .and_then(Campaign::wait)
        .expect("elected");
    EtcdLog::open(options, leadership, |_| Ok(())).expect("read")
}

pub(crate) fn lines(first: u64, text: &str) -> JournalLines {
    JournalLines::new(first, text.to_owned()).expect("whole lines")
}

/// Whether an opening begins with this batch: what was read before it doesn't count any more.
pub(crate) fn begins_opening(batch: &Batch<'_>) -> bool {
    batch.lines.starts_with("opening entries ")
}

/// What the log has, and in how many batches.
pub(crate) fn text_of(options: &EtcdOptions) -> (String, u64) {
    let (mut text, mut batches) = (String::new(), 0);
    let read = EtcdLog::read(options, |batch| {
        text.push_str(batch.lines);
        batches += 1;
        Ok(())
    });
    read.expect("whole");
    (text, batches)
}

/// What etcd has said to a log that is broken.
pub(crate) fn etcd_error(failure: &Failure) -> &EtcdError {
    let error = failure.get_ref().expect("an error of etcd");
    error.downcast_ref().expect("an error of etcd")
}
