//! `Clock`: a clock that runs at another rate, for processes that a test starts.

use std::fs;
use std::path::Path;
use std::process::Command;

const SOURCE: &str = include_str!("clock.c");

/// A clock that runs at another rate, for processes that a test starts: what `clock.c` says.
pub struct Clock(String);

/// Makes an object of a source in C, which `LD_PRELOAD` names, in this folder. `None`, and a line says so: there is no C
/// compiler.
pub fn built(folder: &Path, name: &str, source: &str, test: &str) -> Option<String> {
    let (file, object) = (
        folder.join(format!("{name}.c")),
        folder.join(format!("{name}.so")),
    );
    fs::write(&file, source).expect("written");
    let mut command = Command::new("cc");
    command.args([
        "-shared", "-fPIC", "-O2", "-Wall", "-Wextra", "-Werror", "-o",
    ]);
    let built = command.arg(&object).arg(&file).arg("-ldl").status();
    if let Ok(status) = built {
        assert!(status.success(), "{name}.c doesn't compile");
        return Some(object.to_str().expect("a path in UTF-8").to_owned());
    }
    println!("{test} LEFT OUT: no cc");
    None
}

impl Clock {
    /// Makes it in this folder. `None`, and a line says so: there is no C compiler.
    pub fn build(folder: &Path, test: &str) -> Option<Clock> {
        built(folder, "clock", SOURCE, test).map(Clock)
    }

    /// What a process needs in its environment for a clock of this rate: `3/1` runs three times as fast, `1/2` half
    /// as fast.
    pub fn words(&self, rate: &str) -> [(&'static str, String); 2] {
        [
            ("LD_PRELOAD", self.0.clone()),
            ("ARGUS_CLOCK", rate.to_owned()),
        ]
    }
}
