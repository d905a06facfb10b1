//! A log whose files may not be written: it isn't opened, and nothing is changed.

use crate::bank::carry_out;
use crate::child::Child;
use crate::faults::{Made, ORDERS, with};
use argus_guardian::log::{LogFault, Logged, LoggedError};
use std::fs::{self, Permissions};
use std::os::unix::fs::PermissionsExt;

const NOBODY: u32 = 65534;

unsafe extern "C" {
    fn seteuid(user: u32) -> i32;
}

#[test]
#[ignore = "the parent runs it in a process of its own, which becomes another user's"]
fn child_may_not_write() {
    // SAFETY: it has no memory. Of others than the superuser it is refused, and they may not write either.
    unsafe { seteuid(NOBODY) };
    let error = Logged::open(Child::folder()).expect_err("it may not be written");
    assert!(
        matches!(error, LoggedError::Database(LogFault::Unreadable, _)),
        "{error}"
    );
}

#[test]
fn what_may_not_be_written_isnt_opened() {
    let made = Made::bank().crashed(|bank| {
        carry_out(bank, 0, ORDERS).expect("carried out");
    });
    let folder = made.path.parent().expect("a folder");
    let may = |mode| fs::set_permissions(folder, Permissions::from_mode(mode)).expect("changed");
    for has_owner in [false, true] {
        if has_owner {
            fs::write(with(&made.path, "-owner"), "").expect("written");
        }
        let before = made.files();
        may(0o555);
        let child = Child::start("read_only::child_may_not_write", &made.path, &[]);
        let (status, _) = child.ended();
        may(0o755);
        assert!(status.success(), "{status}");
        assert!(made.files() == before, "the files have changed");
    }
    made.has(ORDERS);
}
