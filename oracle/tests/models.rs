//! The stored models give the answers written beside them.

use std::fs;

use oracle::vectors::{is_vector, parse};

#[test]
fn stored_models_give_their_answers() {
    let path = concat!(env!("CARGO_MANIFEST_DIR"), "/../models/vectors.tsv");
    let file = fs::read_to_string(path).expect("models/make.py has written the file");
    for line in file.lines().filter(|line| is_vector(line)) {
        let vector = parse(line).expect("well formed");
        assert_eq!(vector.case.run().answer.to_string(), vector.expected, "{}", vector.name);
    }
}
