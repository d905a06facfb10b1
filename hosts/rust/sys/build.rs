//! Links the proved library: `libargus.a`, which has all that it needs.
//!
//! `ARGUS_DIR` names the folder that a release was unpacked or installed to, which has it in `lib`, or `ARGUS_LIB_DIR`
//! the folder that it lies in. Without these it is looked for in `lib` and `dist/lib` of the folders above this crate,
//! and then asked of pkg-config.

use std::env;
use std::path::{Path, PathBuf, absolute};
use std::process::Command;

const ARCHIVE: &str = "libargus.a";

fn main() {
    println!("cargo::rerun-if-env-changed=ARGUS_DIR");
    println!("cargo::rerun-if-env-changed=ARGUS_LIB_DIR");
    println!("cargo::rerun-if-env-changed=DOCS_RS");
    if env::var_os("DOCS_RS").is_some() {
        // Pages are made where there is no archive, and nothing is linked.
        return;
    }
    match folder() {
        Ok(folder) => link(&folder),
        Err(words) => words
            .lines()
            .for_each(|line| println!("cargo::error={line}")),
    }
}

fn link(folder: &Path) {
    println!("cargo::rustc-link-search=native={}", folder.display());
    println!("cargo::rerun-if-changed={}", folder.join(ARCHIVE).display());
    println!("cargo::rustc-link-lib=static=argus");
}

// Where the archive lies, or in words what is missing.
fn folder() -> Result<PathBuf, String> {
    if let Some(named) = env::var_os("ARGUS_DIR") {
        return named_folder("ARGUS_DIR", Path::new(&named).join("lib"));
    }
    if let Some(named) = env::var_os("ARGUS_LIB_DIR") {
        return named_folder("ARGUS_LIB_DIR", named.into());
    }
    above()
        .or_else(by_pkg_config)
        .ok_or_else(|| told("neither the folders above this crate nor pkg-config have it"))
}

fn named_folder(variable: &str, named: PathBuf) -> Result<PathBuf, String> {
    let folder = absolute(&named).unwrap_or(named);
    if has_archive(&folder) {
        return Ok(folder);
    }
    Err(told(&format!(
        "{variable} names the folder {}, which hasn't got it",
        folder.display()
    )))
}

fn has_archive(folder: &Path) -> bool {
    folder.join(ARCHIVE).is_file()
}

// The nearest folder above the crate that has the archive: a release's lib, or dist/lib.
fn above() -> Option<PathBuf> {
    let here = PathBuf::from(env::var_os("CARGO_MANIFEST_DIR")?);
    here.ancestors()
        .flat_map(|folder| [folder.join("lib"), folder.join("dist/lib")])
        .find(|folder| has_archive(folder))
}

// What pkg-config says, where it is there and knows the library.
fn by_pkg_config() -> Option<PathBuf> {
    let told = Command::new("pkg-config")
        .args(["--variable=libdir", "argus"])
        .output()
        .ok()?;
    let folder = PathBuf::from(String::from_utf8(told.stdout).ok()?.trim_end());
    has_archive(&folder).then_some(folder)
}

fn told(missing: &str) -> String {
    format!(
        "no {ARCHIVE}: {missing}\n\
         this crate links that archive. ARGUS_DIR names the folder of a release, as /usr/local; \
         in the repository of the guardian `(cd crates/argus_c && rt lib) && tools/dist.sh` makes dist/, \
         for which the Rattle kit is needed"
    )
}
