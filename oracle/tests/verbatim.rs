//! The fragments are the published text: each has the checksum that it had when it was cut out.

use std::collections::BTreeSet;
use std::fs;
use std::process::Command;

const UPSTREAM: &str = concat!(env!("CARGO_MANIFEST_DIR"), "/upstream");

#[test]
fn every_fragment_keeps_its_checksum() {
    let status = Command::new("sha256sum")
        .args(["--check", "--strict", "--quiet", "SHA256SUMS"])
        .current_dir(UPSTREAM)
        .status()
        .expect("sha256sum runs");
    assert!(status.success());
}

#[test]
fn every_fragment_is_listed() {
    let listed = |file: &str, column: usize| -> BTreeSet<String> {
        fs::read_to_string(format!("{UPSTREAM}/{file}"))
            .expect("the list is there")
            .lines()
            .filter(|line| !line.starts_with('#'))
            .map(|line| {
                line.split_whitespace()
                    .nth(column)
                    .expect("a name")
                    .to_string()
            })
            .collect()
    };
    let present: BTreeSet<String> = fs::read_dir(UPSTREAM)
        .expect("the folder is there")
        .map(|entry| {
            entry
                .expect("an entry")
                .file_name()
                .into_string()
                .expect("a name")
        })
        .filter(|name| name.ends_with(".rs"))
        .collect();
    assert_eq!(present, listed("SHA256SUMS", 1));
    assert_eq!(present, listed("RANGES", 0));
}
