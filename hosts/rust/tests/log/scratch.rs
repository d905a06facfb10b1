//! `Scratch`: a folder that goes when the test ends.

use std::path::{Path, PathBuf};
use std::sync::atomic::{AtomicU32, Ordering};
use std::{env, fs, process};

static COUNT: AtomicU32 = AtomicU32::new(0);

/// A folder that goes when the test ends. `ARGUS_LOG_SCRATCH` names the folder that it lies in.
pub struct Scratch(PathBuf);

impl Scratch {
    pub fn made(name: &str) -> Scratch {
        let above = env::var_os("ARGUS_LOG_SCRATCH").map(PathBuf::from);
        Scratch::within(&above.unwrap_or_else(env::temp_dir), name)
    }

    /// One in memory, where the system has a place for that: syncs take no time there.
    pub fn in_memory(name: &str) -> Scratch {
        let memory = PathBuf::from("/dev/shm");
        let is_there = memory.is_dir();
        Scratch::within(&if is_there { memory } else { env::temp_dir() }, name)
    }

    fn within(above: &Path, name: &str) -> Scratch {
        let count = COUNT.fetch_add(1, Ordering::Relaxed);
        let path = above.join(format!("argus-log-{name}-{}-{count}", process::id()));
        fs::create_dir_all(&path).expect("made");
        Scratch(path)
    }

    pub fn path(&self) -> &Path {
        &self.0
    }
}

impl Drop for Scratch {
    fn drop(&mut self) {
        let _ = fs::remove_dir_all(&self.0);
    }
}
