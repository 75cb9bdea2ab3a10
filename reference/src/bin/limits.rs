//! Prints `limits.txt`: numbers at each of document 01's bounds and one past it, no-go boxes in order and out of it and beside and
//! on the recovery box, spans of commands, bands with laws, readings of the drive, the first of two refusals, and listings, with the
//! answers of the second guard. Each line says by which number it is refused, and the program stops where it is not.

use second_guard::boxes::{StateBox, VARIABLES};
use second_guard::changes::{Change, CommandEnd};
use second_guard::decision::{decide, Decision};
use second_guard::listing::listing;
use second_guard::reach::{advance, reach, Budget, Law, Watch};
use second_guard::readings::{decide_slices, measured_box, readings_of};
use second_guard::sheet::{self, Band, BandLaw, CommandRange, Kind, Refusal, Row, Sheet};
use second_guard::sheet::{BANDS, BANDS_AT, BAND_NUMBERS, LAW_AT, UNSAFE_AT, UNSAFE_BOXES};
use std::fmt::Write;

/// Bytes, and how a line writes them: the name of a file, then what is changed in it.
#[derive(Clone)]
struct File {
    text: String,
    bytes: Vec<u8>,
}

impl File {
    fn named(name: &str, bytes: Vec<u8>) -> File {
        let text = name.into();
        File { text, bytes }
    }

    /// With other bytes from a place on.
    fn with(mut self, place: usize, new: &[u8]) -> File {
        self.bytes[place..place + new.len()].copy_from_slice(new);
        let _ = write!(self.text, "@{place}:{}", hex(new));
        self
    }

    /// With another number at a place.
    fn number(self, place: usize, size: usize, value: i64) -> File {
        self.with(place, &value.to_be_bytes()[8 - size..])
    }

    /// With two other numbers of four bytes each from a place on.
    fn pair(self, place: usize, pair: (i32, i32)) -> File {
        self.with(place, &numbers(&[pair.0, pair.1]))
    }

    /// The first bytes alone.
    fn first(mut self, length: usize) -> File {
        self.bytes.truncate(length);
        let _ = write!(self.text, "<{length}");
        self
    }

    /// With further bytes after it.
    fn and(mut self, more: &[u8]) -> File {
        self.bytes.extend(more);
        let _ = write!(self.text, "+{}", hex(more));
        self
    }
}

fn hex(bytes: &[u8]) -> String {
    bytes.iter().fold(String::new(), |mut text, byte| {
        let _ = write!(text, "{byte:02x}");
        text
    })
}

fn numbers(values: &[i32]) -> Vec<u8> {
    values
        .iter()
        .flat_map(|value| value.to_be_bytes())
        .collect()
}

// ---- the files that the others start from

/// A sheet like document 01's sheet A: n variables with A's row, bands with these edges, and this number of no-go boxes. A's box
/// is the first one, and each begins one later than the one before.
fn like_a(n: u8, edges: &[i32], boxes: u8) -> Vec<u8> {
    of_kind(Kind::Fixed, n, edges, boxes)
}

/// The same with the law Σ -x / 2 in each band, which the safety range clamps to 0.
fn with_laws(n: u8, edges: &[i32], boxes: u8) -> Vec<u8> {
    of_kind(Kind::Following, n, edges, boxes)
}

fn of_kind(kind: Kind, n: u8, edges: &[i32], boxes: u8) -> Vec<u8> {
    let sides = |mark: &[u8], pair: [i32; 2]| [mark, &numbers(&pair).repeat(n.into())].concat();
    let mut bytes = [b'S', b'H', n, edges.len() as u8, boxes, 0, 0, 4, 0, 4, 0, 4].to_vec();
    bytes.extend(numbers(&[-25, 25]));
    bytes.extend([0, 5].repeat(n.into()));
    for edge in edges {
        bytes.extend([kind.mark(), &numbers(&[*edge, 0, 0])[..]].concat());
        if kind == Kind::Following {
            bytes.extend([255, 255].repeat(n.into()));
            bytes.extend([0, 0, 0, 0, 0, 2]);
        }
        for i in 0..n {
            bytes.extend((0..n).flat_map(|j| if i == j { [255, 255] } else { [0, 0] }));
            bytes.extend([&[0, 4], &numbers(&[0, 0])[..], &[0, 20]].concat());
        }
    }
    for box_from in (130..).take(boxes.into()) {
        bytes.extend(sides(b"NG", [box_from, 2_000_000]));
    }
    bytes.extend(sides(b"RC", [-100, 100]));
    bytes
}

const FIRST: i32 = -2_000_000;

/// Sheet A.
fn a() -> File {
    File::named("A", like_a(1, &[FIRST], 1))
}

/// Sheet A's first question: allowance 100, command 25, box 0..0.
fn q() -> File {
    File::named("Q", [b"QS", &numbers(&[100, 25, 0, 0])[..]].concat())
}

/// The same for any command: allowance 100, commands -25..25, box 0..0.
fn r() -> File {
    File::named(
        "span_A",
        [b"QR", &numbers(&[100, -25, 25, 0, 0])[..]].concat(),
    )
}

fn two_bands() -> File {
    File::named("two_bands", like_a(1, &[FIRST, 0], 1))
}

const EIGHT: [i32; BANDS] = [FIRST, 1, 2, 3, 4, 5, 6, 7];

fn eight_bands() -> File {
    File::named("eight_bands", like_a(1, &EIGHT, 1))
}

fn eight_boxes() -> File {
    File::named("eight_boxes", like_a(1, &[FIRST], 8))
}

fn six_variables() -> File {
    File::named("six_variables", like_a(VARIABLES as u8, &[FIRST], 1))
}

/// Sheet A with a law.
fn following() -> File {
    File::named("following", with_laws(1, &[FIRST], 1))
}

fn two_following() -> File {
    File::named("two_following", with_laws(1, &[FIRST, 0], 1))
}

/// As long as a sheet can be.
fn longest() -> File {
    let bytes = with_laws(VARIABLES as u8, &EIGHT, UNSAFE_BOXES as u8);
    assert_eq!(bytes.len(), 1_890);
    File::named("longest", bytes)
}

/// Every number as large as it can be, with either sign in a band: below 0 the offset and the law's constant are below 0, from
/// there on above.
fn largest() -> File {
    let n = VARIABLES;
    let commands = CommandRange {
        least: -10_000,
        greatest: 10_000,
    };
    let band = |edge, offset| Band {
        edge,
        safety: commands,
        law: BandLaw {
            coefficients: [1_000; VARIABLES],
            constant: offset,
            divisor: 4_096,
        },
        rows: [Row {
            a: [1_000; VARIABLES],
            b: 1_000,
            c: offset,
            d: 100_000_000,
            q: 4_096,
        }; VARIABLES],
    };
    let mut sheet = sheet::read(&six_variables().bytes).expect("an accepted sheet");
    (sheet.band_count, sheet.caps, sheet.commands) = (2, [1_000; VARIABLES], commands);
    sheet.bands[0] = band(FIRST, -100_000_000);
    sheet.bands[1] = band(0, 100_000_000);
    let mut bytes = vec![0; sheet.length()];
    sheet::write(&sheet, &mut bytes, 0).expect("the values are allowed");
    assert_eq!(bytes.len(), sheet::length(Kind::Following, n, 2, 1));
    File::named("largest", bytes)
}

/// Two boxes of two variables.
fn two_boxes() -> File {
    File::named("two_boxes", like_a(2, &[FIRST], 2))
}

/// Three boxes of one variable.
fn three_boxes() -> File {
    File::named("three_boxes", like_a(1, &[FIRST], 3))
}

/// The second box is less than the first.
fn out_of_order() -> File {
    three_boxes().number(62, 4, 129)
}

/// Sheet A with the no-go box up to just below the recovery box.
fn box_below() -> File {
    a().number(56, 4, -101)
}

/// Sheet A with the no-go box from just beyond the farthest recovery box.
fn box_far() -> File {
    a().number(52, 4, 1_000_001)
}

/// Sheet A with the no-go box from the recovery box's upper side on.
fn touching() -> File {
    a().number(52, 4, 100)
}

// ---- reading a sheet

/// A number of sheet A: its name, place and size; the last value that is allowed, the first one past it, and the refusal.
type Bound = (&'static str, usize, usize, i64, i64, u8);

const BOUNDS: &[Bound] = &[
    ("delta", 6, 2, 1, 0, 3),
    ("alpha", 8, 2, 1, 0, 3),
    // with the other one 4, so that their sum is 1,000 and 1,001
    ("delta", 6, 2, 996, 997, 3),
    ("alpha", 8, 2, 996, 997, 3),
    ("rho", 10, 2, 1, 0, 3),
    ("rho", 10, 2, 1_000, 1_001, 3),
    ("least_command", 12, 4, -10_000, -10_001, 4),
    ("greatest_command", 16, 4, 10_000, 10_001, 4),
    ("cap", 20, 2, 1, 0, 6),
    ("cap", 20, 2, 1_000, 1_001, 6),
    // the safety range within the head's commands
    ("safety_least", 28, 4, -25, -26, 9),
    ("safety_greatest", 32, 4, 25, 26, 9),
    ("a", 36, 2, -1_000, -1_001, 10),
    ("a", 36, 2, 1_000, 1_001, 10),
    ("b", 38, 2, -1_000, -1_001, 10),
    ("b", 38, 2, 1_000, 1_001, 10),
    ("c", 40, 4, -100_000_000, -100_000_001, 10),
    ("c", 40, 4, 100_000_000, 100_000_001, 10),
    ("d", 44, 4, 0, -1, 10),
    ("d", 44, 4, 100_000_000, 100_000_001, 10),
    ("q", 48, 2, 1, 0, 10),
    ("q", 48, 2, 4_096, 4_097, 10),
];

/// A bound, and the sheet on which it is tried.
type BoundOf = (fn() -> File, Bound);

/// The sides' bounds, each on a sheet whose boxes are clear of each other, and those of a law's numbers.
const OTHER_BOUNDS: &[BoundOf] = &[
    (
        box_below,
        ("unsafe_lower", 52, 4, -2_000_000, -2_000_001, 11),
    ),
    (a, ("unsafe_upper", 56, 4, 2_000_000, 2_000_001, 11)),
    (a, ("recovery_lower", 62, 4, -1_000_000, -1_000_001, 11)),
    (box_far, ("recovery_upper", 66, 4, 1_000_000, 1_000_001, 11)),
    (following, ("law_coefficient", 36, 2, -1_000, -1_001, 10)),
    (following, ("law_coefficient", 36, 2, 1_000, 1_001, 10)),
    (
        following,
        ("law_constant", 38, 4, -100_000_000, -100_000_001, 10),
    ),
    (
        following,
        ("law_constant", 38, 4, 100_000_000, 100_000_001, 10),
    ),
    (following, ("law_divisor", 42, 2, 1, 0, 10)),
    (following, ("law_divisor", 42, 2, 4_096, 4_097, 10)),
];

fn name_of(number: &str, value: i64) -> String {
    let sign = if value < 0 { "minus_" } else { "" };
    format!("{number}_{sign}{}", value.abs())
}

fn bounds() -> Vec<(String, File, u8)> {
    let both = |(file, bound): BoundOf| {
        let (name, place, size, last, past, refusal) = bound;
        let at = |value| (name_of(name, value), file().number(place, size, value));
        let ((last, allowed), (past, refused)) = (at(last), at(past));
        [(last, allowed, 0), (past, refused, refusal)]
    };
    let of_a = BOUNDS.iter().map(|&bound| (a as fn() -> File, bound));
    let all = of_a.chain(OTHER_BOUNDS.iter().copied());
    all.flat_map(both).collect()
}

fn counts() -> Vec<(&'static str, File, u8)> {
    vec![
        ("no_variable", a().with(2, &[0]), 2),
        ("seven_variables", a().with(2, &[7]), 2),
        ("no_band", a().with(3, &[0]), 2),
        ("nine_bands", a().with(3, &[9]), 2),
        ("no_unsafe_box", a().with(4, &[0]), 2),
        ("nine_unsafe_boxes", a().with(4, &[9]), 2),
        ("sheet_of_eight_bands", eight_bands(), 0),
        ("sheet_of_eight_boxes", eight_boxes(), 0),
        ("band_variable_1_of_1", a().with(5, &[1]), 2),
        ("band_variable_5_of_6", six_variables().with(5, &[5]), 0),
        ("band_variable_6_of_6", six_variables().with(5, &[6]), 2),
    ]
}

fn edges() -> Vec<(&'static str, File, u8)> {
    let first = |edge| a().number(24, 4, edge);
    let second = |edge| two_bands().number(52, 4, edge);
    vec![
        ("first_edge_below", first(-2_000_001), 8),
        ("first_edge_above", first(-1_999_999), 8),
        ("second_edge_equal", second(-2_000_000), 8),
        ("second_edge_greater_by_1", second(-1_999_999), 0),
        ("second_edge_2000000", second(2_000_000), 0),
        ("second_edge_2000001", second(2_000_001), 8),
    ]
}

/// Least and greatest in order: two numbers from a place on.
fn ordered() -> Vec<(&'static str, File, u8)> {
    let pair = |place, least, greatest| a().pair(place, (least, greatest));
    vec![
        ("one_command", pair(12, 0, 0), 0),
        ("commands_reversed", pair(12, 1, 0), 4),
        ("one_safety_command", pair(28, 3, 3), 0),
        ("safety_reversed", pair(28, 3, 2), 9),
        ("unsafe_box_of_one_state", pair(52, 105, 105), 0),
        ("unsafe_box_reversed", pair(52, 105, 104), 11),
        ("recovery_box_of_one_state", pair(62, 5, 5), 0),
        ("recovery_box_reversed", pair(62, 5, 4), 11),
    ]
}

/// No-go boxes one after another (document 02, paper 2): lower and upper side of the first variable, then of the second.
fn boxes() -> Vec<(&'static str, File, u8)> {
    let boxes = |one: [i32; 4], other: [i32; 4]| {
        let one = two_boxes().with(72, &numbers(&one));
        one.with(90, &numbers(&other))
    };
    let low = [110, 120, 110, 120];
    let first = [111, 120, 110, 120];
    let middle = [110, 120, 111, 120];
    let last = [110, 120, 110, 121];
    let third = three_boxes().pair(72, (131, 1_999_999));
    vec![
        ("boxes_ascending_by_first_side", boxes(low, first), 0),
        ("boxes_descending_by_first_side", boxes(first, low), 20),
        ("boxes_ascending_by_middle_side", boxes(low, middle), 0),
        ("boxes_descending_by_middle_side", boxes(middle, low), 20),
        ("boxes_ascending_by_last_side", boxes(low, last), 0),
        ("boxes_descending_by_last_side", boxes(last, low), 20),
        ("boxes_equal", boxes(low, low), 20),
        ("third_box_between_the_others", third, 20),
    ]
}

/// The no-go box of sheet A beside its recovery box, which is -100..100, and on it (document 02, paper 8).
fn box_on_recovery() -> Vec<(&'static str, File, u8)> {
    let no_go = |lower, upper| a().pair(52, (lower, upper));
    vec![
        ("box_just_above_recovery", a().number(52, 4, 101), 0),
        ("box_touching_recovery_from_above", touching(), 22),
        ("box_just_below_recovery", no_go(-2_000_000, -101), 0),
        (
            "box_touching_recovery_from_below",
            no_go(-2_000_000, -100),
            22,
        ),
        ("recovery_within_a_box", no_go(-2_000_000, 2_000_000), 22),
        ("box_within_recovery", no_go(0, 0), 22),
        ("box_is_recovery", no_go(-100, 100), 22),
    ]
}

/// The same for the first of two boxes in two variables, and for one of three boxes alone.
fn boxes_on_recovery() -> Vec<(&'static str, File, u8)> {
    let first = |x: [i32; 2], z: [i32; 2]| two_boxes().with(72, &numbers(&[x, z].concat()));
    let (on, above) = ([-50, 50], [101, 200]);
    let three = |boxes: [[i32; 2]; 3]| {
        let pairs = [52, 62, 72].into_iter().zip(boxes);
        pairs.fold(three_boxes(), |file, (place, pair)| {
            file.with(place, &numbers(&pair))
        })
    };
    let (low, next, high) = ([-500, -400], [-300, -200], [150, 160]);
    vec![
        ("box_on_recovery_in_one_variable", first(on, above), 0),
        ("box_on_recovery_in_the_other", first([-500, -101], on), 0),
        ("box_touching_in_one_variable", first(on, [100, 200]), 22),
        (
            "box_touching_at_a_corner",
            first([-200, -100], [100, 200]),
            22,
        ),
        ("boxes_around_recovery", three([low, next, high]), 0),
        (
            "first_box_on_recovery",
            three([[-500, -100], [101, 120], high]),
            22,
        ),
        (
            "second_box_on_recovery",
            three([low, [-300, -100], high]),
            22,
        ),
        ("last_box_on_recovery", three([low, next, [100, 160]]), 22),
    ]
}

fn lengths() -> Vec<(&'static str, File, u8)> {
    vec![
        ("sheet_a", a(), 0),
        ("file_of_19_bytes", a().first(19), 1),
        ("file_of_20_bytes", a().first(20), 5),
        ("file_a_byte_short", a().first(69), 5),
        ("file_a_byte_long", a().and(&[0]), 5),
    ]
}

/// The first band's mark fixes the length and the later ones' marks (document 02, paper 9).
fn marks() -> Vec<(&'static str, File, u8)> {
    vec![
        ("sheet_with_a_law", following(), 0),
        ("sheet_with_two_laws", two_following(), 0),
        ("longest_sheet", longest(), 0),
        ("sheet_with_a_law_a_byte_short", following().first(77), 5),
        ("sheet_with_a_law_a_byte_long", following().and(&[0]), 5),
        ("mark_of_a_law_without_it", a().with(22, b"BF"), 5),
        ("law_without_its_mark", following().with(22, b"BD"), 5),
        ("file_up_to_the_first_mark", following().first(22), 5),
        ("file_with_half_the_first_mark", following().first(23), 5),
        ("later_mark_of_a_law", two_bands().with(50, b"BF"), 7),
        ("later_mark_of_none", two_following().with(58, b"BD"), 7),
        ("divisor_0_later", two_following().number(78, 2, 0), 10),
    ]
}

/// Two causes each around a law's numbers.
fn law_of_two() -> Vec<(&'static str, File, u8)> {
    let no_divisor = |file: File| file.number(42, 2, 0);
    let reversed = following().pair(28, (1, 0));
    vec![
        ("safety_before_law", no_divisor(reversed), 9),
        (
            "law_before_next_mark",
            no_divisor(two_following()).with(58, b"XX"),
            10,
        ),
    ]
}

/// Two causes each: the first in the documents' order, and the other.
fn first_of_two() -> Vec<(&'static str, File, u8)> {
    let no_mark = |place| a().with(place, b"XX");
    let row_then_mark = two_bands().number(48, 2, 0).with(50, b"XX");
    vec![
        ("head_mark_before_counts", no_mark(0).with(2, &[0]), 1),
        ("counts_before_times", a().with(5, &[1]).number(6, 2, 0), 2),
        (
            "times_before_commands",
            a().number(10, 2, 0).pair(12, (1, 0)),
            3,
        ),
        ("commands_before_length", a().pair(12, (1, 0)).first(69), 4),
        ("length_before_cap", a().number(20, 2, 0).first(69), 5),
        ("cap_before_mark", no_mark(22).number(20, 2, 0), 6),
        ("band_mark_before_edge", no_mark(22).number(24, 4, 0), 7),
        (
            "edge_before_safety",
            a().number(24, 4, 0).pair(28, (1, 0)),
            8,
        ),
        (
            "safety_before_row",
            a().pair(28, (1, 0)).number(48, 2, 0),
            9,
        ),
        ("row_before_next_mark", row_then_mark, 10),
        ("row_before_unsafe_mark", no_mark(50).number(48, 2, 0), 10),
        ("unsafe_mark_before_side", no_mark(50).pair(52, (1, 0)), 7),
        ("unsafe_side_before_mark", no_mark(60).pair(52, (1, 0)), 11),
        ("recovery_mark_before_side", no_mark(60).pair(62, (1, 0)), 7),
    ]
}

/// The same for a box that is less than the one before: what of its own record comes before, and what after.
fn order_of_two() -> Vec<(&'static str, File, u8)> {
    let reversed = three_boxes().pair(62, (129, 128));
    let next_mark = out_of_order().with(70, b"XX");
    let next_side = out_of_order().pair(72, (1, 0));
    vec![
        ("box_mark_before_order", out_of_order().with(60, b"XX"), 7),
        ("box_side_before_order", reversed, 11),
        ("order_before_next_mark", next_mark, 20),
        ("order_before_next_side", next_side, 20),
    ]
}

/// The same for a recovery box on a no-go box, which is found last.
fn overlap_of_two() -> Vec<(&'static str, File, u8)> {
    let mark = touching().with(60, b"XX");
    let side = touching().number(62, 4, -1_000_001);
    let order = out_of_order().number(86, 4, 150);
    vec![
        ("recovery_mark_before_overlap", mark, 7),
        ("recovery_side_before_overlap", side, 11),
        ("order_before_overlap", order, 20),
    ]
}

fn refusal_number<T>(answer: Result<T, Refusal>) -> u8 {
    answer.err().map_or(0, Refusal::number)
}

/// Stops where the second guard does not refuse by this number; 0 is no refusal.
fn expect(name: &str, given: u8, refusal: u8) {
    assert_eq!(given, refusal, "{name}");
}

fn print_reads() {
    let named = [
        counts(),
        edges(),
        ordered(),
        boxes(),
        box_on_recovery(),
        boxes_on_recovery(),
        lengths(),
        marks(),
        first_of_two(),
        order_of_two(),
        overlap_of_two(),
        law_of_two(),
    ];
    let named = named
        .into_iter()
        .flatten()
        .map(|(name, file, refusal)| (name.into(), file, refusal));
    for (name, file, refusal) in bounds().into_iter().chain(named) {
        let given = refusal_number(sheet::read(&file.bytes));
        expect(&name, given, refusal);
        println!("{name} read sheet={} refusal={given}", file.text);
    }
}

// ---- writing a sheet

/// A sheet's numbers: its file, and slots with other numbers in them; the bytes of the buffer, the place, the refusal.
type Written = (
    &'static str,
    fn() -> File,
    &'static [(usize, i32)],
    usize,
    u64,
    u8,
);

/// The first lower side of the second box; one later that of a variable which the sheet does not have.
const SECOND: usize = UNSAFE_AT + 2 * VARIABLES;

/// The first coefficient of the first band's law, its divisor, and that of the second band's.
const LAW: usize = BANDS_AT + LAW_AT;
const DIVISOR: usize = LAW + VARIABLES + 1;
const LATER_DIVISOR: usize = DIVISOR + BAND_NUMBERS;

/// Those of bands with laws: a first divisor of 0 is a sheet without them.
const WRITTEN_LAWS: &[Written] = &[
    ("written_law", following, &[], 78, 0, 0),
    ("law_a_byte_short", following, &[], 77, 0, 17),
    (
        "written_divisor_minus_1",
        following,
        &[(DIVISOR, -1)],
        78,
        0,
        10,
    ),
    (
        "written_divisor_4097",
        following,
        &[(DIVISOR, 4_097)],
        78,
        0,
        10,
    ),
    (
        "written_divisor_0",
        following,
        &[(DIVISOR, 0), (LAW, 1_001)],
        70,
        0,
        0,
    ),
    (
        "written_divisor_0_later",
        two_following,
        &[(LATER_DIVISOR, 0)],
        200,
        0,
        10,
    ),
    (
        "written_law_of_no_divisor",
        a,
        &[(LAW, -1_001), (LATER_DIVISOR, -1)],
        70,
        0,
        0,
    ),
];

const WRITTEN: &[Written] = &[
    ("room_just_enough", a, &[], 70, 0, 0),
    ("room_a_byte_short", a, &[], 69, 0, 17),
    ("room_from_a_place", a, &[], 75, 5, 0),
    ("room_from_a_place_a_byte_short", a, &[], 74, 5, 17),
    ("place_past_the_buffer", a, &[], 70, 71, 17),
    ("greatest_place", a, &[], 70, u64::MAX, 17),
    ("written_rho_1000", a, &[(6, 1_000)], 70, 0, 0),
    ("written_rho_1001", a, &[(6, 1_001)], 70, 0, 3),
    ("value_before_room", a, &[(6, 1_001)], 69, 0, 3),
    ("written_boxes", three_boxes, &[], 90, 0, 0),
    ("boxes_a_byte_short", three_boxes, &[], 89, 0, 17),
    (
        "written_box_equal",
        three_boxes,
        &[(SECOND, 130)],
        90,
        0,
        20,
    ),
    (
        "box_greater_beyond_n",
        three_boxes,
        &[(SECOND, 130), (SECOND + 1, 7)],
        90,
        0,
        20,
    ),
    (
        "order_before_room",
        three_boxes,
        &[(SECOND, 130)],
        89,
        0,
        20,
    ),
    ("written_box_apart", a, &[(UNSAFE_AT, 101)], 70, 0, 0),
    ("written_box_touching", a, &[(UNSAFE_AT, 100)], 70, 0, 22),
    (
        "box_apart_beyond_n",
        a,
        &[(UNSAFE_AT, 100), (UNSAFE_AT + 1, 7)],
        70,
        0,
        22,
    ),
    (
        "box_on_recovery_beyond_the_count",
        a,
        &[(SECOND, -50)],
        70,
        0,
        0,
    ),
    ("overlap_before_room", a, &[(UNSAFE_AT, 100)], 69, 0, 22),
];

fn print_writes() {
    for &(name, file, changes, room, place, refusal) in WRITTEN.iter().chain(WRITTEN_LAWS) {
        let File { mut text, bytes } = file();
        let mut numbers = sheet::read(&bytes).expect("an accepted sheet").numbers();
        for (slot, number) in changes {
            numbers[*slot] = *number;
            let _ = write!(text, "@{slot}:{number}");
        }
        let written = sheet::write(&Sheet::from_numbers(&numbers), &mut vec![0; room], place);
        let given = refusal_number(written);
        expect(name, given, refusal);
        println!("{name} write numbers={text} room={room} place={place} refusal={given}");
    }
}

// ---- a reach

/// A reach from the same sides in each variable.
struct Reach {
    name: &'static str,
    sheet: File,
    ticks: u32,
    width: u32,
    law: Law,
    start: (i32, i32),
    refusal: u8,
}

fn reaches() -> Vec<Reach> {
    let reach = |name, ticks, width, law, start, refusal| Reach {
        name,
        sheet: a(),
        ticks,
        width,
        law,
        start,
        refusal,
    };
    let plain =
        |name, ticks, width, refusal| reach(name, ticks, width, Law::Baseline, (95, 100), refusal);
    let under =
        |name, command, refusal| reach(name, 1, 1, Law::command(command), (95, 100), refusal);
    let from = |name, start, refusal| reach(name, 1, 1, Law::Baseline, start, refusal);
    // from the edge at 0 on, x changes by x + 2
    let over_edge = |name, start| Reach {
        sheet: two_bands().number(64, 2, 20).number(68, 4, 40),
        ..from(name, start, 0)
    };
    vec![
        plain("ticks_0", 0, 1, 0),
        plain("ticks_1", 1, 1, 0),
        plain("ticks_1000", 1_000, 1_000, 0),
        plain("ticks_1001", 1_001, 1_000, 16),
        plain("width_0", 1, 0, 16),
        plain("width_1", 2, 1, 0),
        plain("width_1000", 2, 1_000, 0),
        plain("width_1001", 2, 1_001, 16),
        under("command_minus_25", -25, 0),
        under("command_minus_26", -26, 14),
        under("command_25", 25, 0),
        under("command_26", 26, 14),
        from("start_lower_minus_1000000", (-1_000_000, 0), 0),
        from("start_lower_minus_1000001", (-1_000_001, 0), 15),
        from("start_upper_1000000", (0, 1_000_000), 0),
        from("start_upper_1000001", (0, 1_000_001), 15),
        from("start_of_one_state", (5, 5), 0),
        from("start_reversed", (5, 4), 15),
        Reach {
            sheet: a().first(69),
            ..plain("sheet_before_ticks", 1_001, 1, 5)
        },
        Reach {
            sheet: out_of_order(),
            ..plain("order_before_ticks", 1_001, 1, 20)
        },
        Reach {
            sheet: touching(),
            ..plain("overlap_before_ticks", 1_001, 1, 22)
        },
        reach(
            "ticks_before_command",
            1_001,
            1,
            Law::command(26),
            (0, 0),
            16,
        ),
        reach("width_before_command", 1, 0, Law::command(26), (0, 0), 16),
        reach("command_before_start", 1, 1, Law::command(26), (5, 4), 14),
        over_edge("start_below_the_edge", (-5, -1)),
        over_edge("start_up_to_the_edge", (-5, 0)),
        over_edge("start_beyond_the_edge", (-5, 1)),
        over_edge("start_from_the_edge", (0, 1)),
    ]
}

/// A tick in which x changes by c / 4,096, give or take the spread, with cap 1,000: the largest numerators that are divided, and
/// the least that are not.
fn largest_changes() -> Vec<Reach> {
    let by = |name, c, d| Reach {
        name,
        sheet: a()
            .number(20, 2, 1_000)
            .number(36, 2, 0)
            .with(40, &numbers(&[c, d]))
            .number(48, 2, 4_096),
        ticks: 1,
        width: 1,
        law: Law::Baseline,
        start: (0, 0),
        refusal: 0,
    };
    vec![
        by("numerator_minus_4096001", -4_096_001, 0),
        by("numerator_minus_4096000", -4_096_000, 0),
        by("numerator_minus_4095999", -4_095_999, 0),
        by("numerator_4095999", 4_095_999, 0),
        by("numerator_4096000", 4_096_000, 0),
        by("numerator_4096001", 4_096_001, 0),
        by("spread_4095999", 0, 4_095_999),
        by("spread_4096000", 0, 4_096_000),
        by("spread_4096001", 0, 4_096_001),
    ]
}

/// A tick in which x changes by the law's command, (c - x) / 20 within -5..5: around the law's sums that are divided.
fn laws() -> Vec<Reach> {
    let by = |name, constant| Reach {
        name,
        sheet: following()
            .pair(28, (-5, 5))
            .number(38, 4, constant)
            .number(42, 2, 20)
            .number(44, 2, 0)
            .number(46, 2, 1)
            .number(56, 2, 1),
        ticks: 1,
        width: 1,
        law: Law::Baseline,
        start: (7, 7),
        refusal: 0,
    };
    vec![
        by("law_sum_minus_100", -93),
        by("law_sum_minus_99", -92),
        by("law_sum_minus_1", 6),
        by("law_sum_99", 106),
    ]
}

/// The largest numerators and the largest sums of a law that a reach can have.
fn largest_reach() -> Reach {
    Reach {
        name: "largest_numbers",
        sheet: largest(),
        ticks: 1_000,
        width: 1_000,
        law: Law::Baseline,
        start: (-1_000_000, 1_000_000),
        refusal: 0,
    }
}

/// The least and the greatest numerator and sum.
#[derive(Default)]
struct Largest {
    numerators: (i64, i64),
    sums: (i64, i64),
}

impl Watch for Largest {
    fn change(&mut self, change: Change) {
        let (least, greatest) = &mut self.numerators;
        *least = change.numerator.min(*least);
        *greatest = change.numerator.max(*greatest);
    }

    fn command(&mut self, end: CommandEnd) {
        let (least, greatest) = &mut self.sums;
        (*least, *greatest) = (end.sum.min(*least), end.sum.max(*greatest));
    }
}

/// Stops where the largest reach does not have them.
fn expect_largest() {
    let Reach {
        sheet, law, start, ..
    } = largest_reach();
    let sheet = sheet::read(&sheet.bytes).expect("an accepted sheet");
    let (start, mut budget) = (cube(start, VARIABLES), Budget::unlimited());
    let mut largest = Largest::default();
    let end = advance(&sheet, law, &start, 1_000, 1_000, &mut budget, &mut largest);
    assert_eq!(end, Ok(cube((-2_000_000, 2_000_000), VARIABLES)));
    assert_eq!(largest.numerators, (-12_204_000_000, 12_204_000_000));
    assert_eq!(largest.sums, (-12_094_000_000, 12_094_000_000));
}

/// The box of n variables with the same sides.
fn cube(sides: (i32, i32), n: usize) -> StateBox {
    let mut cube = StateBox::default();
    cube.lower[..n].fill(sides.0.into());
    cube.upper[..n].fill(sides.1.into());
    cube
}

/// A box as a line writes it.
fn sides_text(sides: &StateBox, n: usize) -> String {
    let pairs = (0..n).map(|i| format!("{}..{}", sides.lower[i], sides.upper[i]));
    pairs.collect::<Vec<_>>().join(",")
}

fn print_reaches() {
    expect_largest();
    let reaches = [reaches(), largest_changes(), laws(), vec![largest_reach()]];
    for example in reaches.into_iter().flatten() {
        let Reach {
            name,
            sheet,
            ticks,
            width,
            law,
            start,
            refusal,
        } = example;
        let n = usize::from(sheet.bytes[2]);
        let given = sheet::read(&sheet.bytes)
            .and_then(|read| reach(&read, ticks, width, law, &cube(start, n)));
        expect(name, refusal_number(given), refusal);
        let answer = match given {
            Ok(to) => {
                let (end, swept) = (sides_text(&to.end, n), sides_text(&to.swept, n));
                format!("end={end} swept={swept} rounds={}", to.rounds)
            }
            Err(refusal) => format!("refused={}", refusal.number()),
        };
        let (law, command) = match law {
            Law::Baseline => (0, 0),
            Law::Span { least, .. } => (1, least),
        };
        let start = hex(&numbers(&[start.0, start.1]).repeat(n));
        println!("{name} reach sheet={} ticks={ticks} width={width} law={law} command={command} start={start} {answer}", sheet.text);
    }
}

// ---- decisions

fn decisions() -> Vec<(&'static str, File, File, u8)> {
    let allowance = |value| q().number(2, 4, value);
    let command = |value| q().number(6, 4, value);
    let measured = |lower, upper| q().pair(10, (lower, upper));
    let over = || allowance(1_000_001);
    let short_sheet = || a().first(69);
    let questions = [
        ("allowance_0", allowance(0), 0),
        ("allowance_1000000", allowance(1_000_000), 0),
        ("allowance_1000001", over(), 13),
        ("asked_command_minus_25", command(-25), 0),
        ("asked_command_minus_26", command(-26), 14),
        ("asked_command_25", command(25), 0),
        ("asked_command_26", command(26), 14),
        ("measured_lower_minus_1000000", measured(-1_000_000, 0), 0),
        ("measured_lower_minus_1000001", measured(-1_000_001, 0), 15),
        ("measured_upper_1000000", measured(0, 1_000_000), 0),
        ("measured_upper_1000001", measured(0, 1_000_001), 15),
        ("measured_one_state", measured(5, 5), 0),
        ("measured_reversed", measured(5, 4), 15),
        ("question_a_byte_short", q().first(17), 12),
        ("question_a_byte_long", q().and(&[0]), 12),
        ("no_question", q().first(0), 12),
        ("question_mark", q().with(1, b"T"), 12),
        ("mark_before_allowance", over().with(1, b"T"), 12),
        ("length_before_allowance", over().first(17), 12),
        ("allowance_before_command", over().number(6, 4, 26), 13),
        ("command_before_measured", command(26).pair(10, (5, 4)), 14),
    ];
    let on_a = |(name, question, refusal)| (name, a(), question, refusal);
    let mut all: Vec<_> = questions.into_iter().map(on_a).collect();
    all.push(("sheet_before_question", short_sheet(), q().first(17), 5));
    all.push(("order_before_question", out_of_order(), q().first(17), 20));
    all.push(("overlap_before_question", touching(), q().first(17), 22));
    // the question's boxes sweep 0..20, and the last of them is 12..20
    let recovery = |lower, upper| a().pair(62, (lower, upper));
    // the recovery box ends just below the no-go box
    let unsafe_from = |lower| a().number(52, 4, lower).number(66, 4, lower - 1);
    let first = [
        ("recovery_box_just_reached", recovery(12, 20)),
        ("recovery_box_reached_at_width_1", recovery(13, 20)),
        ("recovery_box_missed", recovery(12, 19)),
        ("unsafe_box_just_missed", unsafe_from(21)),
        ("unsafe_box_just_met", unsafe_from(20)),
    ];
    all.extend(first.map(|(name, sheet)| (name, sheet, q(), 0)));
    all
}

/// Decisions on sheet A by a span.
fn spans() -> Vec<(&'static str, File, u8)> {
    let span = |least, greatest| r().pair(6, (least, greatest));
    let over = || r().number(2, 4, 1_000_001);
    let marked = |mark: &[u8; 2]| r().with(0, mark);
    vec![
        ("span_whole_range", r(), 0),
        ("span_of_one_command", span(25, 25), 0),
        ("span_of_the_least_command", span(-25, -25), 0),
        ("span_allowance_3", r().number(2, 4, 3), 0),
        ("span_least_minus_26", span(-26, 25), 14),
        ("span_greatest_26", span(-25, 26), 14),
        ("span_below_the_range", span(-27, -26), 14),
        ("span_above_the_range", span(26, 27), 14),
        ("span_reversed", span(1, 0), 14),
        ("span_reversed_and_outside", span(26, -26), 14),
        ("span_allowance_1000001", over(), 13),
        ("span_measured_reversed", r().pair(14, (5, 4)), 15),
        ("span_measured_beyond", r().number(14, 4, -1_000_001), 15),
        ("allowance_before_span", over().pair(6, (1, 0)), 13),
        ("reversed_before_measured", span(1, 0).pair(14, (5, 4)), 14),
        ("least_before_measured", span(-26, 0).pair(14, (5, 4)), 14),
        ("greatest_before_measured", span(0, 26).pair(14, (5, 4)), 14),
        ("span_a_byte_short", r().first(21), 12),
        ("span_a_byte_long", r().and(&[0]), 12),
        ("span_as_long_as_a_question", r().first(18), 12),
        ("question_as_long_as_a_span", q().and(&[0; 4]), 12),
        ("span_mark_alone", r().first(2), 12),
        ("half_a_mark", r().first(1), 12),
        ("mark_QT", marked(b"QT"), 12),
        ("mark_RR", marked(b"RR"), 12),
        ("mark_sq", marked(b"sq"), 12),
        ("span_mark_before_allowance", over().with(0, b"RR"), 12),
    ]
}

/// The number of a decision's refusal, and the decision as a line writes it.
fn decision_text(decision: Decision) -> (u8, String) {
    let answered = |code, width, rounds| (0, format!("code={code} width={width} rounds={rounds}"));
    match decision {
        Decision::Keep { width, rounds } => answered(0, width, rounds),
        Decision::Finest { width, rounds } => answered(1, width, rounds),
        Decision::Spent { width, rounds } => answered(2, width, rounds),
        Decision::Refused(refusal) => (refusal.number(), format!("refused={}", refusal.number())),
    }
}

fn print_decisions() {
    let spans = spans()
        .into_iter()
        .map(|(name, question, refusal)| (name, a(), question, refusal));
    for (name, sheet, question, refusal) in decisions().into_iter().chain(spans) {
        let (given, answer) = decision_text(decide(&sheet.bytes, &question.bytes));
        expect(name, given, refusal);
        println!(
            "{name} decide sheet={} question={} {answer}",
            sheet.text, question.text
        );
    }
}

// ---- decisions by readings

/// The bits of floats.
const MINUS: u32 = 1 << 31;
const LEAST: u32 = 1;
const LAST_SUBNORMAL: u32 = 0x007f_ffff;
const FIRST_NORMAL: u32 = 0x0080_0000;
const HALF: u32 = 0x3f00_0000;
const ONE: u32 = 0x3f80_0000;
const TWO_AND_A_QUARTER: u32 = 0x4010_0000;
const THOUSAND: u32 = 0x447a_0000;
const MILLION: u32 = 0x4974_2400;
const ALL_WHOLE: u32 = 0x4b00_0000;
const INFINITY: u32 = 0x7f80_0000;
const NAN: u32 = 0x7fc0_0000;

/// A value with its tolerance, or a pair.
const POINT: u8 = 1;
const PAIR: u8 = 2;

/// A call by readings: its files, its slices, the floats by their bits, and the refusal.
struct Told {
    name: String,
    sheet: File,
    head: File,
    kinds: Vec<u8>,
    values: Vec<u32>,
    refusal: u8,
}

impl Told {
    /// The measured box of an accepted sheet's readings, as a line writes it.
    fn measured(&self) -> String {
        let floats: Vec<f32> = self.values.iter().copied().map(f32::from_bits).collect();
        let readings = readings_of(self.sheet.bytes[2].into(), &self.kinds, &floats);
        let sides = measured_box(&readings).expect("no reading is refused");
        let pairs = sides
            .iter()
            .map(|(lower, upper)| format!("{lower}..{upper}"));
        pairs.collect::<Vec<_>>().join(",")
    }
}

/// The head of sheet A's first question, and of the same for any command.
fn one_head() -> File {
    q().first(10)
}

fn span_head() -> File {
    r().first(14)
}

/// Sheet A by one reading.
fn told(name: &str, kind: u8, values: [u32; 2], refusal: u8) -> Told {
    Told {
        name: format!("reading_{name}"),
        sheet: a(),
        head: one_head(),
        kinds: vec![kind],
        values: values.to_vec(),
        refusal,
    }
}

/// A value alone.
fn told_values() -> Vec<Told> {
    let value = |name, bits, refusal| told(name, POINT, [bits, 0], refusal);
    vec![
        value("0", 0, 0),
        value("minus_0", MINUS, 0),
        value("least_subnormal", LEAST, 0),
        value("least_negative_subnormal", MINUS + LEAST, 0),
        value("last_subnormal", LAST_SUBNORMAL, 0),
        value("first_normal", FIRST_NORMAL, 0),
        value("half", HALF, 0),
        value("minus_half", MINUS + HALF, 0),
        value("just_below_1", ONE - 1, 0),
        value("just_above_minus_1", MINUS + ONE - 1, 0),
        value("1", ONE, 0),
        value("just_above_1", ONE + 1, 0),
        value("just_below_1000000", MILLION - 1, 0),
        value("1000000", MILLION, 0),
        value("just_above_1000000", MILLION + 1, 19),
        value("just_above_minus_1000000", MINUS + MILLION - 1, 0),
        value("minus_1000000", MINUS + MILLION, 0),
        value("just_below_minus_1000000", MINUS + MILLION + 1, 19),
        value("below_all_whole", ALL_WHOLE - 1, 19),
        value("first_of_all_whole", ALL_WHOLE, 19),
        value("second_of_all_whole", ALL_WHOLE + 1, 19),
        value("largest", INFINITY - 1, 19),
        value("infinity", INFINITY, 19),
        value("minus_infinity", MINUS + INFINITY, 19),
        value("nan", NAN, 19),
        value("nan_of_least_payload", INFINITY + 1, 19),
        value("nan_of_greatest_payload", MINUS + (MINUS - 1), 19),
    ]
}

/// A tolerance around 7, and sides around the box's range.
fn told_tolerances() -> Vec<Told> {
    let seven = 7_f32.to_bits();
    let tolerance = |name, bits, refusal| told(name, POINT, [seven, bits], refusal);
    let around = |name, value: f32, bits, refusal| {
        let name = format!("around_{name}");
        told(&name, POINT, [value.to_bits(), bits], refusal)
    };
    vec![
        tolerance("tolerance_minus_0", MINUS, 0),
        tolerance("tolerance_least", LEAST, 0),
        tolerance("tolerance_just_below_0", MINUS + LEAST, 19),
        tolerance("tolerance_minus_half", MINUS + HALF, 19),
        tolerance("tolerance_half", HALF, 0),
        tolerance("tolerance_just_above_1", ONE + 1, 0),
        tolerance("tolerance_1000", THOUSAND, 0),
        tolerance("tolerance_just_above_1000", THOUSAND + 1, 19),
        tolerance("tolerance_infinity", INFINITY, 19),
        tolerance("tolerance_nan", NAN, 19),
        around("1000000_by_minus_0", 1e6, MINUS, 0),
        around("1000000_by_the_least", 1e6, LEAST, 15),
        around("999999_by_1", 999_999.0, ONE, 0),
        around("999999_and_a_part_by_1", 999_999.06, ONE, 15),
        around("minus_1000000_by_1", -1e6, ONE, 15),
        around("minus_999000_by_1000", -999_000.0, THOUSAND, 0),
    ]
}

fn told_pairs() -> Vec<Told> {
    let pair = |name, lower, upper, refusal| told(name, PAIR, [lower, upper], refusal);
    let quarter = TWO_AND_A_QUARTER;
    vec![
        pair("pair_of_one_value", quarter, quarter, 0),
        pair("pair_reversed_by_the_least", quarter, quarter - 1, 19),
        pair("pair_just_in_order", quarter - 1, quarter, 0),
        pair("negative_pair", MINUS + quarter, MINUS + quarter, 0),
        pair(
            "negative_pair_reversed_by_the_least",
            MINUS + quarter,
            MINUS + quarter + 1,
            19,
        ),
        pair("pair_of_zeros", MINUS, 0, 0),
        pair("pair_of_zeros_the_other_way", 0, MINUS, 0),
        pair("pair_from_just_above_0", LEAST, 0, 19),
        pair("pair_around_0", MINUS + LEAST, LEAST, 0),
        pair("pair_of_all", MINUS + MILLION, MILLION, 0),
        pair("pair_from_too_far", MINUS + MILLION + 1, 0, 19),
        pair("pair_to_too_far", 0, MILLION + 1, 19),
        pair("pair_from_minus_infinity", MINUS + INFINITY, 0, 19),
        pair("pair_to_infinity", 0, INFINITY, 19),
        pair("pair_from_nan", NAN, 0, 19),
        pair("pair_to_nan", 0, NAN, 19),
    ]
}

/// Slices that have no reading, and some that have more than one.
fn told_slices() -> Vec<Told> {
    let slices = |name, kinds: &[u8], values: &[u32], refusal| Told {
        kinds: kinds.to_vec(),
        values: values.to_vec(),
        ..told(name, 0, [0, 0], refusal)
    };
    vec![
        slices("of_kind_0", &[0], &[0, 0], 18),
        slices("of_kind_3", &[3], &[0, 0], 18),
        slices("of_kind_255", &[255], &[NAN, 0], 18),
        slices("without_a_kind", &[], &[0, 0], 18),
        slices("without_values", &[POINT], &[], 18),
        slices("with_half_of_a_pair", &[PAIR], &[NAN], 18),
        slices("and_more_of_nothing", &[POINT, 0], &[0, 0, NAN], 0),
    ]
}

/// What stands before the pairs: on sheet A, with a reading of 0.
fn told_heads() -> Vec<Told> {
    let of = |name, head| Told {
        head,
        ..told(name, POINT, [0, 0], 0)
    };
    let refused = |name, head| Told {
        refusal: 12,
        ..of(name, head)
    };
    vec![
        of("under_a_span", span_head()),
        of("under_a_span_of_one", r().pair(6, (25, 25)).first(14)),
        refused("without_a_head", q().first(0)),
        refused("with_a_byte_too_few", q().first(9)),
        refused("with_a_byte_too_many", q().first(11)),
        refused("with_pairs_in_the_head", q()),
        refused("with_a_span_too_short", r().first(10)),
        refused("with_a_command_too_long", q().first(14)),
        refused("with_an_unknown_mark", q().with(1, b"T").first(10)),
    ]
}

/// Boxes up to 129 are kept at command -25, and those up to 130 meet the no-go box; and a reading of each of six variables.
fn told_decisions() -> Vec<Told> {
    let back = |name, kind, values: [f32; 2]| Told {
        head: q().number(6, 4, -25).first(10),
        ..told(name, kind, values.map(f32::to_bits), 0)
    };
    let six = [
        [1.5, 0.25],
        [-2.5, 2.5],
        [3.0, 0.0],
        [0.25, 1.5],
        [-1.5, 2.0],
        [-7.0, -6.5],
    ];
    let six = Told {
        sheet: six_variables(),
        kinds: [POINT, PAIR].repeat(3),
        values: six.concat().into_iter().map(f32::to_bits).collect(),
        ..told("of_six_variables", POINT, [0, 0], 0)
    };
    vec![
        back("129", POINT, [129.0, 0.0]),
        back("129_and_a_half", POINT, [129.5, 0.0]),
        back("128_by_1", POINT, [128.0, 1.0]),
        back("128_by_more_than_1", POINT, [128.0, 1.25]),
        back("pair_to_129", PAIR, [127.5, 129.0]),
        back("pair_to_more_than_129", PAIR, [127.5, 129.25]),
        six,
    ]
}

/// Two causes each, on sheet A.
fn told_of_two() -> Vec<Told> {
    let over = || q().number(2, 4, 1_000_001);
    let command = || q().number(6, 4, 26);
    let of = |name, sheet, head: File, kind, values, refusal| Told {
        sheet,
        head: head.first(10),
        ..told(name, kind, values, refusal)
    };
    let (missing, nan, far) = ((0, [0, 0]), (POINT, [NAN, 0]), (POINT, [MILLION, ONE]));
    let on_a = |name, head, (kind, values), refusal| of(name, a(), head, kind, values, refusal);
    let on = |name, sheet, refusal| of(name, sheet, q().with(0, b"XX"), 0, [0, 0], refusal);
    vec![
        on("after_the_sheets_length", a().first(69), 5),
        on("after_the_order", out_of_order(), 20),
        on("after_the_overlap", touching(), 22),
        of("of_a_bad_cap", a().number(20, 2, 0), q(), 0, [0, 0], 6),
        of(
            "nan_of_a_bad_row",
            a().number(48, 2, 0),
            q(),
            1,
            [NAN, 0],
            10,
        ),
        on_a("missing_after_the_mark", q().with(0, b"XX"), missing, 12),
        on_a("nan_after_the_mark", q().with(0, b"XX"), nan, 12),
        on_a("missing_after_allowance", over(), missing, 13),
        on_a("nan_after_allowance", over(), nan, 13),
        on_a("far_after_allowance", over(), far, 13),
        on_a("missing_after_command", command(), missing, 14),
        on_a("nan_after_command", command(), nan, 14),
        on_a("far_after_command", command(), far, 14),
    ]
}

/// Two causes in two variables: 18 and 19 in their order, and both before a box out of range.
fn told_of_two_variables() -> Vec<Told> {
    let (missing, nan, far) = ((0, [0, 0]), (POINT, [NAN, 0]), (POINT, [MILLION, ONE]));
    let of = |name, one: (u8, [u32; 2]), other: (u8, [u32; 2]), refusal| Told {
        sheet: two_boxes(),
        kinds: vec![one.0, other.0],
        values: [one.1, other.1].concat(),
        ..told(name, POINT, [0, 0], refusal)
    };
    vec![
        of("missing_then_nan", missing, nan, 18),
        of("nan_then_missing", nan, missing, 19),
        of("far_then_missing", far, missing, 18),
        of("far_then_nan", far, nan, 19),
        of("missing_then_far", missing, far, 18),
        of("nan_then_far", nan, far, 19),
        of("far_then_0", far, (POINT, [0, 0]), 15),
        of("0_then_far", (PAIR, [0, 0]), far, 15),
    ]
}

fn print_readings() {
    let all = [
        told_values(),
        told_tolerances(),
        told_pairs(),
        told_slices(),
        told_heads(),
        told_decisions(),
        told_of_two(),
        told_of_two_variables(),
    ];
    for told in all.into_iter().flatten() {
        print_told(&told);
    }
}

fn print_told(told: &Told) {
    let Told {
        name, sheet, head, ..
    } = told;
    let floats: Vec<f32> = told.values.iter().copied().map(f32::from_bits).collect();
    let decision = decide_slices(&sheet.bytes, &head.bytes, &told.kinds, &floats);
    let (given, answer) = decision_text(decision);
    expect(name, given, told.refusal);
    let answer = match given {
        0 | 15 => format!("box={} {answer}", told.measured()),
        _ => answer,
    };
    let bits: Vec<u8> = told.values.iter().flat_map(|x| x.to_be_bytes()).collect();
    let (kinds, values) = (hex(&told.kinds), hex(&bits));
    println!(
        "{name} readings sheet={} head={} kinds={kinds} values={values} {answer}",
        sheet.text, head.text
    );
}

// ---- listings

/// A sheet, questions, and the last line that they have.
fn listings() -> Vec<(&'static str, File, File, &'static str)> {
    // x changes by 2 in each tick of the plain law, and so leaves the recovery box
    let drifting = a().with(36, &[0, 0]).number(40, 4, 40);
    let other_mark = q().with(1, b"T").and(&q().bytes);
    vec![
        ("listing_of_a_question", a(), q(), "1 keep 4 4"),
        (
            "listing_of_no_question",
            a(),
            q().first(0),
            "sheet pass 4 1",
        ),
        (
            "listing_with_a_short_tail",
            a(),
            q().and(b"QS\0\0\0"),
            "2 refused 12",
        ),
        (
            "listing_of_a_short_tail",
            a(),
            q().first(17),
            "1 refused 12",
        ),
        (
            "listing_from_another_mark_on",
            a(),
            other_mark,
            "1 refused 12",
        ),
        ("listing_of_a_failed_check", drifting, q(), "sheet fail 1 "),
        (
            "listing_of_a_sheet_with_a_law",
            following(),
            q(),
            "1 keep 4 4",
        ),
    ]
}

/// Sheets that are refused.
fn refused_listings() -> [(&'static str, File, File, &'static str); 3] {
    let of = |name, sheet, last| (name, sheet, q(), last);
    [
        of(
            "listing_of_a_refused_sheet",
            a().first(69),
            "sheet refused 5",
        ),
        of(
            "listing_of_boxes_out_of_order",
            out_of_order(),
            "sheet refused 20",
        ),
        of(
            "listing_of_a_recovery_box_on_a_box",
            touching(),
            "sheet refused 22",
        ),
    ]
}

/// Files of both marks, and of unknown ones, which take the rest.
fn listings_by_mark() -> [(&'static str, File, File, &'static str); 9] {
    let (one, two) = (q().bytes, r().bytes);
    let other = q().with(0, b"RR").bytes;
    let reversed = r().pair(6, (1, 0)).bytes;
    let of = |name, asks, last| (name, a(), asks, last);
    [
        of("listing_of_a_span", r(), "1 keep 4 4"),
        of("listing_of_both_marks", q().and(&two), "2 keep 4 4"),
        of(
            "listing_of_all_kinds",
            r().and(&one).and(&reversed).and(&two).and(&other),
            "5 refused 12",
        ),
        of(
            "listing_of_an_unknown_mark_first",
            q().with(0, b"RR").and(&two),
            "1 refused 12",
        ),
        of(
            "listing_of_an_unknown_mark_between",
            r().and(&other).and(&two),
            "2 refused 12",
        ),
        of(
            "listing_of_an_unknown_mark_last",
            r().and(b"sq"),
            "2 refused 12",
        ),
        of("listing_of_a_last_byte", r().and(b"Q"), "2 refused 12"),
        of("listing_of_a_byte", q().first(1), "1 refused 12"),
        of(
            "listing_of_a_span_and_a_short_tail",
            r().and(&two[..21]),
            "2 refused 12",
        ),
    ]
}

/// A span cut at each of its bytes.
fn cut_listings() -> impl Iterator<Item = (String, File, File, &'static str)> {
    (1..r().bytes.len()).map(|length| {
        let name = format!("listing_of_a_span_cut_at_{length}");
        (name, a(), r().first(length), "1 refused 12")
    })
}

fn print_listings() {
    let named = listings()
        .into_iter()
        .chain(refused_listings())
        .chain(listings_by_mark())
        .map(|(name, sheet, asks, last)| (name.into(), sheet, asks, last));
    for (name, sheet, asks, last) in named.chain(cut_listings()) {
        let text = listing(&sheet.bytes, &asks.bytes);
        let given = text.lines().last().unwrap_or_default();
        assert!(given.starts_with(last), "{name}: {given}");
        let text = text.replace(' ', "_").replace('\n', "/");
        println!(
            "{name} listing sheet={} asks={} text={text}",
            sheet.text, asks.text
        );
    }
}

fn main() {
    println!("# Limits, as printed by the program `print_limits`: numbers at each of document 01's bounds and one past it, no-go boxes in");
    println!("# order and out of it (document 02, paper 2) and beside and on the recovery box (paper 8), spans of commands (paper 4), bands with");
    println!("# laws (paper 9), readings of the drive (paper 1), the first of two refusals, and listings. A line has a name, the call, its files and");
    println!("# numbers, and the answer; refusal 0 is none.");
    println!("# A file is one of those named first or a sheet in hex. @10:03e8 is with these bytes from place 10 on (of `numbers`: with");
    println!("# this number in the slot), <69 its first 69 bytes, +00 with this byte after it. In a listing _ is a space and / a newline.");
    println!("\n# sheet A, its first question, the same for any command, sheets of A's numbers with other counts and with laws, and the largest");
    println!("# numbers");
    for file in [
        a(),
        q(),
        r(),
        two_bands(),
        eight_bands(),
        eight_boxes(),
        six_variables(),
        two_boxes(),
        three_boxes(),
        following(),
        two_following(),
        longest(),
        largest(),
    ] {
        println!("{} file bytes={}", file.text, hex(&file.bytes));
    }
    println!("\n# reading a sheet");
    print_reads();
    println!("\n# writing a sheet's numbers");
    print_writes();
    println!("\n# a reach");
    print_reaches();
    println!("\n# a decision");
    print_decisions();
    println!("\n# listings");
    print_listings();
    println!("\n# a decision by readings: each kind is a byte, each float its bits, and the box stands before an answer that is about it");
    print_readings();
}
