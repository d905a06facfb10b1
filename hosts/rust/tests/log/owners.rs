//! What a guardian with a log refuses: ids of other guardians, and a log that waits for its own guardian.

use crate::scratch::Scratch;
use argus_guardian::log::{BatchLog, Failure, JournalLines, Logged, LoggedAction, LoggedError};
use argus_guardian::{Access, Change, Error, Guardian, ObjId, Query, Value};
use std::panic::{AssertUnwindSafe, catch_unwind};
use std::sync::{Arc, OnceLock};
use std::time::Duration;

fn open(scratch: &Scratch) -> Logged {
    Logged::open_or_create(scratch.path().join("bank.db")).expect("opened")
}

fn with_record(scratch: &Scratch) -> (Logged, ObjId) {
    let logged = open(scratch);
    let record = logged
        .declare("atomic_record[n:int]")
        .expect("acknowledged");
    let created = logged.run(|top| {
        let content = Change::Create("{5}".parse()?);
        Ok::<_, LoggedError>(top.alter(record, content)?.done()?)
    });
    created.expect("acknowledged");
    (logged, record)
}

fn is_of_another<T>(called: Result<T, LoggedError>) -> bool {
    let error = called.err();
    matches!(error, Some(LoggedError::Guardian(Error::OtherGuardian)))
}

#[test]
fn an_object_of_another_guardian_is_refused() {
    let (one, two) = (Scratch::made("own"), Scratch::made("other"));
    let ((logged, own), (_other, stranger)) = (with_record(&one), with_record(&two));
    let named = logged.object(own).expect("told");
    assert!(is_of_another(logged.base(stranger)));
    assert!(is_of_another(logged.object(stranger)));
    let top = logged.topaction().expect("begun");
    let entries = logged.entries();
    assert!(is_of_another(top.get::<Value>(stranger, 0)));
    assert!(is_of_another(top.set(stranger, 0, 6)));
    assert!(is_of_another(top.set(own, 0, stranger)));
    assert!(is_of_another(top.lock(stranger)));
    assert!(is_of_another(top.ask(stranger, Query::Whole)));
    assert!(is_of_another(top.alter(stranger, Change::Touch)));
    assert!(is_of_another(top.test_read(stranger)));
    assert!(is_of_another(top.test_write(stranger)));
    assert_eq!(logged.entries(), entries);
    assert_eq!(top.get::<Value>(&named, "n").expect("read"), Value::Int(5));
    top.commit().expect("acknowledged");
}

#[test]
fn ids_from_before_a_restart_are_of_another_guardian() {
    let scratch = Scratch::made("restarted");
    let (logged, record) = with_record(&scratch);
    drop(logged);
    let logged = open(&scratch);
    assert!(is_of_another(logged.base(record)));
    let same = ObjId::numbered(record.number());
    assert_eq!(logged.base(same).expect("told"), "{5}".parse().ok());
    // A checkpoint keeps them.
    let record = logged.object(same).expect("told").id();
    logged.checkpoint_waiting(Duration::ZERO).expect("folded");
    assert_eq!(logged.base(record).expect("told"), "{5}".parse().ok());
}

// A log that makes a topaction of its own guardian for each batch.
struct SelfishLog(Arc<OnceLock<Logged>>);

impl BatchLog for SelfishLog {
    fn append(&mut self, _: &JournalLines) -> Result<(), Failure> {
        let logged = self.0.get().expect("it is set before the first batch");
        let committed = logged.topaction().and_then(LoggedAction::commit);
        panic!("it was told: {committed:?}");
    }
}

#[test]
fn a_log_that_waits_for_its_own_guardian_is_broken() {
    let slot = Arc::new(OnceLock::new());
    let log = Box::new(SelfishLog(Arc::clone(&slot)));
    let guardian = Guardian::new().expect("made");
    let logged = Logged::over(guardian, log, Duration::ZERO).expect("made");
    let logged = slot.get_or_init(|| logged);
    let commit = || logged.topaction().expect("begun").commit();
    let panicked = catch_unwind(AssertUnwindSafe(commit)).expect_err("it panics");
    let words = panicked.downcast_ref::<String>().expect("words");
    assert!(words.contains("waits for its own guardian"), "{words}");
    assert!(logged.broken().is_some());
    let next = logged.topaction().map(|top| top.id());
    assert!(matches!(next, Err(LoggedError::Broken(_))), "{next:?}");
    assert_eq!(logged.entries(), 2 + 2);
}
