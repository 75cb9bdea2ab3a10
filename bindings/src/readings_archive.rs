//! The call of include/readings.h: the archive of the crate `readings_c` alone.

mod c {
    extern "C" {
        pub fn reading_side(value: f32, face: u32) -> i64;
    }
}

/// The answer for a float that is refused by 19.
const REFUSED: i64 = (3 << 48) + (19 << 32);

/// No other answer is further from 0.
const FURTHEST: i64 = 1_000_000;

/// The floor of the float's exact value at face 0, the ceiling at any other; nothing where it is refused
/// by 19. Panics at an answer that no float has.
#[inline]
pub fn side_at(value: f32, face: u32) -> Option<i64> {
    // SAFETY: the call takes no pointer.
    let answer = unsafe { c::reading_side(value, face) };
    if answer == REFUSED {
        return None;
    }
    assert!(
        -FURTHEST <= answer && answer <= FURTHEST,
        "the side of {value} (bits {:08x}) is {answer}",
        value.to_bits()
    );
    Some(answer)
}

/// The ceiling of the float's exact value, or the floor.
#[inline]
pub fn side(value: f32, upper: bool) -> Option<i64> {
    side_at(value, u32::from(upper))
}
