//! `Scratch`: a folder of its own for a test, which goes with it.

use std::path::{Path, PathBuf};
use std::{env, fs, process};

/// A folder of its own for a test, which goes with it. `ARGUS_ETCD_SCRATCH` names the folder that it lies in.
pub(crate) struct Scratch(PathBuf);

impl Scratch {
    pub(crate) fn new(name: &str) -> Scratch {
        let above = env::var_os("ARGUS_ETCD_SCRATCH").map_or_else(env::temp_dir, PathBuf::from);
        let path = above.join(format!("argus-test-{name}-{}", process::id()));
        let _ = fs::remove_dir_all(&path);
        fs::create_dir_all(&path).expect("made");
        Scratch(path)
    }

    pub(crate) fn path(&self) -> &Path {
        &self.0
    }
}

impl Drop for Scratch {
    fn drop(&mut self) {
        let _ = fs::remove_dir_all(&self.0);
    }
}
