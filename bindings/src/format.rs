//! The numbers of include/guard_format.h, without their prefix: the greatest counts of a sheet, the
//! slots of its numbers, and lengths in bytes.

include!(concat!(env!("OUT_DIR"), "/format.rs"));

/// Band k's edge; the safety range is behind it.
pub fn slot_band(k: usize) -> usize {
    SLOT_BAND + BAND_SIZE * k
}

/// The first coefficient of band k's law; the constant and the divisor stand LAW_CONSTANT and LAW_DIVISOR
/// further. The first band's divisor is 0 where the sheet's bands are marked `BD`, otherwise `BF`.
pub fn slot_law(k: usize) -> usize {
    slot_band(k) + BAND_LAW
}

/// The first coefficient of band k's row for variable i; b, c, d, q stand VARIABLES further.
pub fn slot_row(k: usize, i: usize) -> usize {
    slot_band(k) + BAND_ROWS + ROW_SIZE * i
}

/// No-go box j's first lower side; its upper sides stand VARIABLES further. The boxes ascend, and none
/// shares a state with the recovery box.
pub fn slot_unsafe(j: usize) -> usize {
    SLOT_UNSAFE + BOX_SIZE * j
}

/// The length of a question of n variables about one command.
pub fn question_length(n: usize) -> usize {
    QUESTION_HEAD + PAIR * n
}

/// The length of a question of n variables about a span of commands.
pub fn span_question_length(n: usize) -> usize {
    SPAN_QUESTION_HEAD + PAIR * n
}

/// The length of what a reach of n variables writes: the pairs of the end box and of the swept box.
pub fn reach_length(n: usize) -> usize {
    2 * PAIR * n
}
