//! Certificates for TLS, made by the program `openssl`.

use std::path::Path;
use std::process::{Command, Stdio};

/// Whether certificates can be made; else a line says that the test is left out.
pub(crate) fn has_openssl() -> bool {
    let ran = Command::new("openssl").arg("version").output();
    let has = ran.is_ok_and(|it| it.status.success());
    if !has {
        println!("TLS LEFT OUT: no openssl");
    }
    has
}

fn openssl(folder: &Path, words: &str) {
    let mut command = Command::new("openssl");
    command.current_dir(folder).args(words.split(' '));
    let ran = command.stdout(Stdio::null()).stderr(Stdio::null()).status();
    assert!(ran.expect("openssl is there").success(), "{words}");
}

/// An authority: its certificate, and its key.
pub(crate) fn certify(folder: &Path, authority: &str) {
    openssl(
        folder,
        &format!(
            "req -x509 -newkey ec -pkeyopt ec_paramgen_curve:prime256v1 -nodes -days 2 -subj /CN={authority} \
             -keyout {authority}-key.pem -out {authority}.pem"
        ),
    );
}

/// A certificate that the authority has signed, for nodes on loopback and for hosts, and its key.
pub(crate) fn sign(folder: &Path, authority: &str, name: &str) {
    openssl(
        folder,
        &format!(
            "req -x509 -newkey ec -pkeyopt ec_paramgen_curve:prime256v1 -nodes -days 2 -subj /CN={name} \
             -addext subjectAltName=IP:127.0.0.1 -addext basicConstraints=critical,CA:FALSE \
             -addext extendedKeyUsage=serverAuth,clientAuth \
             -CA {authority}.pem -CAkey {authority}-key.pem -keyout {name}-key.pem -out {name}.pem"
        ),
    );
}
