//! The worked examples that are proved are those of `examples.txt` and `limits.txt`.

use std::process::Command;

fn printed(part: &str) -> String {
    let output = Command::new(env!("CARGO_BIN_EXE_print_proofs"))
        .arg(part)
        .output()
        .expect("the program runs");
    String::from_utf8(output.stdout).expect("the output is text")
}

/// What a file says, whatever its lines' layout.
fn words(text: &str) -> Vec<&str> {
    text.split_whitespace().collect()
}

#[test]
fn the_sheet_examples_are_those_of_the_list() {
    let kept = include_str!("../../crates/worked_examples/proofs/Sheet.antt");
    assert_eq!(words(&printed("sheet")), words(kept));
}

#[test]
fn the_reach_examples_are_those_of_the_list() {
    let kept = include_str!("../../crates/worked_examples/proofs/Reach.antt");
    assert_eq!(words(&printed("reach")), words(kept));
}

#[test]
fn the_decision_examples_are_those_of_the_list() {
    let kept = include_str!("../../crates/worked_examples/proofs/Decision.antt");
    assert_eq!(words(&printed("decision")), words(kept));
}

#[test]
fn the_examples_by_readings_are_those_of_the_list() {
    let kept = include_str!("../../crates/worked_readings/proofs/Readings.antt");
    assert_eq!(words(&printed("readings")), words(kept));
}
