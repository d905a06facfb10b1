//! Python opens Rust's database, and Rust opens Python's: the tables are the same, byte for byte.

use crate::faults::Made;
use argus_guardian::log::{LogOptions, Logged, LoggedError};
use argus_guardian::{Access, Change, Listing};
use rusqlite::Connection;
use std::env;
use std::path::Path;
use std::process::Command;
use std::time::Duration;

const SHAPE: &str = "atomic_record[n:int,said:text]";

// Opens or makes a log, carries out orders, and folds it in their midst. What the guardian then has is printed.
const SCRIPT: &str = r#"
import sys
sys.path.insert(0, sys.argv[1])
from argus_guardian import Log
with Log.open_or_create(sys.argv[2], checkpoint_after=None) as log:
    if log.guardian.objects == 0:
        log.guardian.declare("atomic_record[n:int,said:text]")
        with log.topaction() as top:
            top.create(0, (0, "begun \u2603 \n"))
    for _ in range(3):
        with log.topaction() as top:
            top.set_field(0, 0, top.field(0, 0) + 1)
    if sys.argv[3] == "folds":
        log.checkpoint()
        with log.topaction() as top:
            top.set_field(0, 0, top.field(0, 0) + 1)
    sys.stdout.buffer.write(log.guardian.list("journal").encode())
"#;

// What Python says, after it has done this with the log; None where there is no Python or no library for it.
fn by_python(path: &Path, folds: bool) -> Option<String> {
    let lib = env::var_os("ARGUS_LIB_DIR")?;
    let library = Path::new(&lib).join("libargus.so.0");
    let package = Path::new(env!("CARGO_MANIFEST_DIR")).join("../python");
    if !library.exists()
        || !package.exists()
        || Command::new("python3").arg("--version").output().is_err()
    {
        println!("logs of Python LEFT OUT: no python3 or no libargus.so.0");
        return None;
    }
    let mut command = Command::new("python3");
    command
        .args(["-c", SCRIPT])
        .arg(package)
        .arg(path)
        .arg(if folds { "folds" } else { "goes on" });
    let done = command
        .env("ARGUS_LIBRARY", library)
        .env("PYTHONDONTWRITEBYTECODE", "1")
        .output()
        .expect("run");
    assert!(
        done.status.success(),
        "{}",
        String::from_utf8_lossy(&done.stderr)
    );
    Some(String::from_utf8(done.stdout).expect("text"))
}

// The same in Rust.
fn by_rust(path: &Path, folds: bool) -> String {
    let logged = LogOptions {
        checkpoint_after: None,
        ..LogOptions::default()
    }
    .open_or_create(path)
    .expect("opened");
    work(&logged, folds).expect("acknowledged");
    logged.list(Listing::Journal).expect("listed")
}

fn work(logged: &Logged, folds: bool) -> Result<(), LoggedError> {
    if logged.objects()? == 0 {
        let record = logged.declare(SHAPE)?;
        logged.run(|top| {
            let content = Change::Create("{0,\"begun ☃ \\n\"}".parse()?);
            Ok::<_, LoggedError>(top.alter(record, content)?.done()?)
        })?;
    }
    for _ in 0..3 {
        count(logged)?;
    }
    if folds {
        logged.checkpoint_waiting(Duration::from_secs(10))?;
        count(logged)?;
    }
    Ok(())
}

fn count(logged: &Logged) -> Result<(), LoggedError> {
    let record = argus_guardian::ObjId::numbered(0);
    logged.run(|top| {
        let next = top.get::<i64>(record, 0)? + 1;
        top.set(record, 0, next)
    })
}

// All that a database says, but for its name, and with sums that depend on that.
fn rows(path: &Path) -> Vec<String> {
    let database = Connection::open(path).expect("opened");
    let queries = [
        "SELECT sql FROM sqlite_master ORDER BY name",
        "SELECT version || ' ' || epoch || ' ' || is_open || ' ' || next_entry FROM log",
        "SELECT line || ' ' || hex(text) FROM opening ORDER BY line",
        "SELECT hex(group_concat(lines, char(10))) FROM (SELECT lines FROM batch ORDER BY first)",
        "SELECT number || ' ' || shape || ' ' || hex(base) || ifnull(name, '') FROM object ORDER BY number",
        "SELECT application_id FROM pragma_application_id UNION ALL SELECT user_version FROM pragma_user_version",
    ];
    let all = queries.iter().flat_map(|query| {
        let mut statement = database.prepare(query).expect("a query");
        let rows = statement
            .query_map([], |row| Ok(format!("{:?}", row.get_ref(0)?)))
            .expect("asked");
        rows.map(|it| it.expect("a row")).collect::<Vec<_>>()
    });
    all.collect()
}

#[test]
fn the_tables_are_the_same() {
    for folds in [false, true] {
        let (one, other) = (Made::empty(), Made::empty());
        let Some(said) = by_python(&one.path, folds) else {
            return;
        };
        assert_eq!(by_rust(&other.path, folds), said);
        assert_eq!(rows(&one.path), rows(&other.path));
    }
}

#[test]
fn each_goes_on_where_the_other_was() {
    let made = Made::empty();
    let mut before = String::new();
    for (number, folds) in [false, false, true, true, false, false]
        .into_iter()
        .enumerate()
    {
        let said = if number % 2 == 0 {
            Some(by_rust(&made.path, folds))
        } else {
            by_python(&made.path, folds)
        };
        let Some(said) = said else {
            return;
        };
        assert!(folds || said.starts_with(&before), "{said}");
        before = said;
    }
    assert_eq!(made.numbers("SELECT epoch FROM log"), [6]);
    LogOptions::default().check(&made.path).expect("right");
}

#[test]
fn names_outlive_pythons_checkpoints() {
    let made = Made::empty();
    by_rust(&made.path, false);
    let declare = || {
        let logged = LogOptions::default().open(&made.path).expect("opened");
        let account = logged.named("account", SHAPE).expect("declared");
        account.id().number()
    };
    let number = declare();
    if by_python(&made.path, true).is_some() {
        assert_eq!(declare(), number);
        assert_eq!(made.numbers("SELECT count(*) FROM object"), [2]);
    }
}
