//! What the programs answer where they are not used as they are meant to be.

use std::process::Command;

#[test]
fn coverage_of_nothing() {
    let given = Command::new(env!("CARGO_BIN_EXE_coverage")).output().expect("it can be run");
    assert_eq!(given.status.code(), Some(2));
    assert!(given.stdout.is_empty());
    assert!(String::from_utf8_lossy(&given.stderr).starts_with("use: coverage"));
}
