//! The crate as a package.

use std::path::Path;
use std::process::Command;

#[test]
fn without_its_features_the_crate_builds_without_the_standard_library() {
    let folder = Path::new(env!("CARGO_TARGET_TMPDIR")).join("without-std");
    let mut cargo = Command::new(env!("CARGO"));
    cargo.args(["check", "--quiet", "--offline", "--no-default-features", "--target-dir"]);
    cargo.arg(folder).current_dir(env!("CARGO_MANIFEST_DIR"));
    let output = cargo.env("BRAIDHURDLE_ARCHIVE", "none").output().expect("cargo runs");
    assert!(output.status.success(), "{}", String::from_utf8_lossy(&output.stderr));
}

#[test]
fn the_licence_of_the_package_is_the_one_that_the_notice_has() {
    let licence = include_str!("../../../../LICENSE");
    assert!(include_str!("../../../../NOTICE").ends_with(&format!("The licence:\n\n{licence}")));
    assert!(licence.contains("Apache License\n") && licence.contains("Version 2.0"));
    assert_eq!(env!("CARGO_PKG_LICENSE"), "Apache-2.0");
    assert!(Path::new(env!("CARGO_MANIFEST_DIR")).join(env!("CARGO_PKG_README")).is_file());
}
