//! `examples.txt` and `limits.txt` are what the programs `print_examples` and `print_limits` print today;
//! the programs themselves stop where an example does not show what it says.

use std::process::Command;

/// Compares a program's output with the file that is kept, and says how many examples it has.
fn compare(program: &str, kept: &str) -> usize {
    let output = Command::new(program).output().expect("the program runs");
    assert!(
        output.status.success(),
        "an example does not show what it says"
    );
    let printed = String::from_utf8(output.stdout).expect("the output is text");
    for (line, (printed, kept)) in printed.lines().zip(kept.lines()).enumerate() {
        assert_eq!(printed, kept, "line {}", line + 1);
    }
    assert_eq!(printed, kept);
    let examples = kept
        .lines()
        .filter(|line| !line.is_empty() && !line.starts_with('#'));
    examples.count()
}

#[test]
fn examples_are_up_to_date() {
    let program = env!("CARGO_BIN_EXE_print_examples");
    assert!(compare(program, include_str!("../examples.txt")) >= 14);
}

#[test]
fn limits_are_up_to_date() {
    let program = env!("CARGO_BIN_EXE_print_limits");
    assert!(compare(program, include_str!("../limits.txt")) >= 150);
}
