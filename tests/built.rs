//! The programs, each built where it has to be.

use std::process::Command;

/// The file of a program.
pub fn built(name: &str) -> String {
    let built = Command::new("scripts/build").arg(name).output().expect("scripts/build");
    assert!(built.status.success(), "{built:?}");
    String::from_utf8(built.stdout).expect("a file").trim_end().to_string()
}
