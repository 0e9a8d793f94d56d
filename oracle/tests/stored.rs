//! The stored lists are what the Rust answers.

use std::fs;
use std::process::Command;

fn printed(list: &str) -> String {
    let output = Command::new(env!("CARGO_BIN_EXE_oracle"))
        .arg(list)
        .output()
        .expect("the program runs");
    assert!(output.status.success());
    String::from_utf8(output.stdout).expect("the program prints text")
}

fn stored(list: &str) -> String {
    let path = format!("{}/{list}.txt", env!("CARGO_MANIFEST_DIR"));
    fs::read_to_string(path).expect("the list is there")
}

#[test]
fn answers() {
    assert!(printed("answers") == stored("answers"));
}

#[test]
fn panics() {
    assert_eq!(printed("panics"), stored("panics"));
}
