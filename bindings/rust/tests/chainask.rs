//! The program `chainask` and the model's: what the proved program printed for every case of crates/chainask_cases, the model prints too.

use std::fs;
use std::path::Path;

#[test]
fn every_case() {
    let cases = Path::new(env!("CARGO_MANIFEST_DIR")).join("../../crates/chainask_cases");
    let printed = fs::read_to_string(cases.join("stdout")).expect("the gate compares the program with this file");
    let mut names: Vec<_> = fs::read_dir(cases.join("data")).unwrap().map(|file| file.unwrap().path()).collect();
    names.sort();
    assert!(!names.is_empty());
    let modelled: String = names
        .iter()
        .map(|path| {
            let name = path.file_name().unwrap().to_str().unwrap();
            format!("{name}\n{}", likvost_model::chainask(&fs::read(path).unwrap()))
        })
        .collect();
    assert_eq!(printed, modelled);
}
