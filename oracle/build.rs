//! Puts the upstream fragments into the scaffolding: each line `upstream!("NAME");` becomes the text of upstream/NAME.

use std::path::Path;
use std::{env, fs};

const SCAFFOLDS: [&str; 4] = ["ring.rs", "extension.rs", "binomial.rs", "trinomial.rs"];

fn main() {
    let out = env::var("OUT_DIR").expect("cargo sets OUT_DIR");
    println!("cargo:rerun-if-changed=scaffold");
    println!("cargo:rerun-if-changed=upstream");
    for name in SCAFFOLDS {
        let scaffold = read(&format!("scaffold/{name}"));
        let text: String = scaffold.lines().map(expand).collect();
        fs::write(Path::new(&out).join(name), text).expect("the assembled file is written");
    }
}

fn expand(line: &str) -> String {
    let fragment = line
        .trim()
        .strip_prefix("upstream!(\"")
        .and_then(|rest| rest.strip_suffix("\");"));
    match fragment {
        Some(name) => read(&format!("upstream/{name}")),
        None => format!("{line}\n"),
    }
}

fn read(path: &str) -> String {
    fs::read_to_string(path).unwrap_or_else(|error| panic!("{path}: {error}"))
}
