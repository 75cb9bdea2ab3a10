//! The refusals of document 01, and of the papers of document 02 that have landed, in words.

const CAUSES: [(u8, &str); 19] = [
    (1, "under 20 bytes, or mark not SH"),
    (2, "n, a count or band variable out of range"),
    (3, "delta, alpha, rho"),
    (4, "head's commands"),
    (5, "length"),
    (6, "a cap"),
    (7, "later record's mark"),
    (8, "edge"),
    (9, "safety range"),
    (10, "law or row number"),
    (11, "no-go or recovery side"),
    (12, "question's length or mark"),
    (13, "allowance"),
    (14, "command"),
    (15, "measured or start side"),
    (16, "ticks or width of a reach"),
    (17, "too little buffer from the named place"),
    // Document 02, paper 2.
    (20, "no-go record not greater than the one before"),
    // Document 02, paper 8.
    (22, "recovery box shares a state with a no-go box"),
];

/// The refusals of readings alone (document 02, paper 1).
const CAUSES_OF_READINGS: [(u8, &str); 2] = [(18, "no reading"), (19, "a reading's number")];

/// The cause for a refusal's number, also where readings were given.
pub fn cause_with_readings(number: u8) -> &'static str {
    CAUSES_OF_READINGS
        .iter()
        .find(|cause| cause.0 == number)
        .map_or_else(|| cause(number), |cause| cause.1)
}

/// The cause for a refusal's number.
pub fn cause(number: u8) -> &'static str {
    CAUSES
        .iter()
        .find(|cause| cause.0 == number)
        .map_or("no refusal of document 01 or 02", |cause| cause.1)
}

#[cfg(test)]
mod tests {
    use super::*;

    #[test]
    fn numbers_that_are_not_in_use_are_no_refusals() {
        let unused: Vec<u8> = (0..=u8::MAX)
            .filter(|&number| cause(number).starts_with("no refusal"))
            .collect();
        let expected: Vec<u8> = [0, 18, 19, 21].into_iter().chain(23..=u8::MAX).collect();
        assert_eq!(unused, expected);
    }
}
