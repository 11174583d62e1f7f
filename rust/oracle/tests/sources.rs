//! The copied files are the recorded ones.

use std::process::Command;

#[test]
fn copied_files_are_unchanged() {
    let script = concat!(env!("CARGO_MANIFEST_DIR"), "/check-sources");
    let status = Command::new("sh").arg(script).status().unwrap();
    assert!(status.success());
}
