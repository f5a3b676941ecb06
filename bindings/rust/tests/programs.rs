//! The programs and the model's: what a proved program printed for every case of its crate of cases, the model prints too.

use likvost_model::{chainask, fitask, pairask};
use std::fs;
use std::path::Path;

/// Compares all cases of a crate, which stand in data/ under their names and were printed to stdout in this order.
fn every_case(name: &str, program: fn(&[u8]) -> String) {
    let cases = Path::new(env!("CARGO_MANIFEST_DIR")).join("../../crates").join(name);
    let printed = fs::read_to_string(cases.join("stdout")).expect("the gate compares the program with this file");
    let mut names: Vec<_> = fs::read_dir(cases.join("data")).unwrap().map(|file| file.unwrap().path()).collect();
    names.sort();
    assert!(!names.is_empty());
    let modelled: String = names
        .iter()
        .map(|path| {
            let name = path.file_name().unwrap().to_str().unwrap();
            format!("{name}\n{}", program(&fs::read(path).unwrap()))
        })
        .collect();
    assert_eq!(printed, modelled);
}

#[test]
fn of_chainask() {
    every_case("chainask_cases", chainask);
}

#[test]
fn of_fitask() {
    every_case("fitask_cases", fitask);
}

#[test]
fn of_pairask() {
    every_case("pairask_cases", pairask);
}
