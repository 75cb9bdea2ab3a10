//! Faults put into the bytes of sheets and questions and into a sheet's numbers, one for each refusal.
//! A fault's rank says which of two is found first.

use crate::archive::format::{
    slot_band, slot_law, slot_row, slot_unsafe, BANDS, SLOT_ALPHA, SLOT_BANDS, SLOT_BAND_VARIABLE,
    SLOT_CAPS, SLOT_DELTA, SLOT_GREATEST_COMMAND, SLOT_LEAST_COMMAND, SLOT_N, SLOT_RECOVERY,
    SLOT_RHO, SLOT_UNSAFE_BOXES, UNSAFE_BOXES, VARIABLES,
};
use crate::expected::pairs;
use crate::generate::{band_record, record, sheet_bytes};
use crate::laws::LawNumber;
use crate::order::any_not_greater;
use crate::overlap::{moved_onto, Moved};
use crate::random::Random;
use crate::spans::{wrong_span, WRONGS};
use second_guard::boxes::StateBox;
use second_guard::sheet::{self, CommandRange, Kind, Sheet};

/// All numbers by which a call can be refused.
pub const REFUSALS: [u8; 19] = [
    1, 2, 3, 4, 5, 6, 7, 8, 9, 10, 11, 12, 13, 14, 15, 16, 17, 20, 22,
];

/// The place of a number among them.
pub fn refusal_place(number: u8) -> usize {
    let place = REFUSALS.iter().position(|&refusal| refusal == number);
    place.expect("a refusal of the documents")
}

/// A fault of this number can be put into the sheet: for 20 it needs two unsafe boxes, for 22 a box
/// that can be moved.
pub fn can_have(sheet: &Sheet, number: u8) -> bool {
    match number {
        20 => sheet.unsafe_count > 1,
        22 => !moved_onto(sheet).is_empty(),
        _ => true,
    }
}

/// A change of bytes, or of numbers, that is refused.
#[derive(Clone, Debug)]
pub struct Fault<T = u8> {
    pub number: u8,
    pub rank: usize,
    at: usize,
    values: Vec<T>,
}

impl<T: Copy> Fault<T> {
    fn new(number: u8, rank: usize, at: usize, values: &[T]) -> Fault<T> {
        Fault {
            number,
            rank,
            at,
            values: values.to_vec(),
        }
    }

    /// Puts the fault at its place.
    pub fn put(&self, all: &mut [T]) {
        all[self.at..self.at + self.values.len()].copy_from_slice(&self.values);
    }

    /// The two have different places.
    pub fn apart(&self, other: &Fault<T>) -> bool {
        self.at == usize::MAX
            || other.at == usize::MAX
            || self.at + self.values.len() <= other.at
            || other.at + other.values.len() <= self.at
    }
}

impl Fault {
    /// Puts the fault into the bytes. One without a place adds its bytes at the end.
    pub fn apply(&self, bytes: &mut Vec<u8>) {
        match self.at {
            usize::MAX => bytes.extend_from_slice(&self.values),
            _ => self.put(bytes),
        }
    }
}

/// Ranks of what comes before the file's order.
const FILE_ORDER: usize = 100;

/// A band's mark, edge and safety range in bytes.
pub const BAND_HEAD: usize = 14;

fn not_mark(random: &mut Random, mark: &[u8; 2]) -> [u8; 2] {
    let mut wrong = *mark;
    let place = random.below(2);
    wrong[place] = wrong[place].wrapping_add(random.int(1, 255) as u8);
    if random.percent(30) {
        wrong = random.pick(&[*b"SH", *b"BD", *b"BF", *b"NG", *b"RC", *b"QS", [0, 0]]);
        if wrong == *mark {
            wrong = *b"Sh";
        }
    }
    wrong
}

/// Neither of the bands' marks.
fn no_band_mark(random: &mut Random) -> [u8; 2] {
    let wrong = not_mark(random, b"BD");
    if wrong == *b"BF" {
        *b"BE"
    } else {
        wrong
    }
}

/// The kind that the sheet is not of.
fn other_kind(sheet: &Sheet) -> Kind {
    match sheet.kind() {
        Kind::Fixed => Kind::Following,
        Kind::Following => Kind::Fixed,
    }
}

/// The length that the sheet would have if it were of the other kind.
fn other_length(sheet: &Sheet) -> usize {
    let (bands, boxes) = (sheet.band_count, sheet.unsafe_count);
    let kind = other_kind(sheet);
    sheet::length(kind, sheet.n(), bands as usize, boxes as usize)
}

/// How the marks of the bands are wrong, or the length.
#[derive(Clone, Copy, Debug, PartialEq, Eq)]
enum Marks {
    /// A later one is the other kind's, or neither.
    LaterOther,
    LaterNeither,
    /// The first one, likewise.
    FirstNeither,
    FirstOther,
    AllOther,
    /// The length is the other kind's.
    OtherLength,
    /// A byte less or more.
    OneByte,
    /// The file ends before the first band's mark does.
    Cut,
}

/// Wrong marks of a sheet's bands, or a wrong length: of which kind the sheet was before, and the refusal.
#[derive(Clone, Copy, Debug)]
pub struct WrongMarks {
    marks: Marks,
    pub of: Kind,
    pub number: u8,
}

const fn wrong(marks: Marks, of: Kind, number: u8) -> WrongMarks {
    WrongMarks { marks, of, number }
}

/// All of them.
pub const WRONG_MARKS: [WrongMarks; 16] = [
    wrong(Marks::LaterOther, Kind::Fixed, 7),
    wrong(Marks::LaterOther, Kind::Following, 7),
    wrong(Marks::LaterNeither, Kind::Fixed, 7),
    wrong(Marks::LaterNeither, Kind::Following, 7),
    wrong(Marks::FirstNeither, Kind::Fixed, 7),
    wrong(Marks::FirstNeither, Kind::Following, 5),
    wrong(Marks::FirstOther, Kind::Fixed, 5),
    wrong(Marks::FirstOther, Kind::Following, 5),
    wrong(Marks::AllOther, Kind::Fixed, 5),
    wrong(Marks::AllOther, Kind::Following, 5),
    wrong(Marks::OtherLength, Kind::Fixed, 5),
    wrong(Marks::OtherLength, Kind::Following, 5),
    wrong(Marks::OneByte, Kind::Fixed, 5),
    wrong(Marks::OneByte, Kind::Following, 5),
    wrong(Marks::Cut, Kind::Fixed, 5),
    wrong(Marks::Cut, Kind::Following, 5),
];

impl WrongMarks {
    pub fn text(&self) -> String {
        let what = match self.marks {
            Marks::LaterOther => "a later band with the other mark",
            Marks::LaterNeither => "a later band with neither mark",
            Marks::FirstNeither => "the first band with neither mark",
            Marks::FirstOther => "the first band with the other mark",
            Marks::AllOther => "all bands with the other mark",
            Marks::OtherLength => "the other kind's length",
            Marks::OneByte => "a byte less or more",
            Marks::Cut => "cut before the first mark ends",
        };
        let mark = String::from_utf8_lossy(self.of.mark());
        format!("{mark}, {what}: refused by {}", self.number)
    }

    /// The bytes of a sheet of two bands or more, made wrong.
    pub fn bytes(&self, random: &mut Random, sheet: &Sheet) -> Vec<u8> {
        let mut bytes = sheet_bytes(sheet);
        let bands = sheet.band_count as usize;
        let later = 1 + random.below(bands - 1);
        let (other, neither) = (*other_kind(sheet).mark(), no_band_mark(random));
        let mut put = |k: usize, mark: [u8; 2]| {
            let at = band_record(sheet, k);
            bytes[at..at + 2].copy_from_slice(&mark);
        };
        match self.marks {
            Marks::LaterOther => put(later, other),
            Marks::LaterNeither => put(later, neither),
            Marks::FirstNeither => put(0, neither),
            Marks::FirstOther => put(0, other),
            Marks::AllOther => (0..bands).for_each(|k| put(k, other)),
            Marks::OtherLength => bytes.resize(other_length(sheet), 0),
            Marks::OneByte if random.percent(50) => bytes.push(0),
            Marks::OneByte => bytes.truncate(bytes.len() - 1),
            Marks::Cut => bytes.truncate(band_record(sheet, 0) + random.below(2)),
        }
        bytes
    }
}

/// A band's mark that is refused by 7. One of the first band must not fix another length: it is neither
/// of the two and stands in a sheet of the shorter form, or it is a later one's.
fn band_mark_fault(random: &mut Random, sheet: &Sheet) -> Option<Fault> {
    let k = random.below(sheet.band_count as usize);
    let mark = match sheet.kind() {
        _ if k > 0 && random.percent(50) => *other_kind(sheet).mark(),
        kind if k > 0 => not_mark(random, kind.mark()),
        Kind::Fixed => no_band_mark(random),
        Kind::Following => return None,
    };
    let at = band_record(sheet, k);
    Some(Fault::new(7, FILE_ORDER + at, at, &mark))
}

/// A box's mark that is refused by 7.
fn box_mark_fault(random: &mut Random, sheet: &Sheet) -> Fault {
    let boxes = sheet.unsafe_count as usize;
    let j = random.below(boxes + 1);
    let mark = if j == boxes { b"RC" } else { b"NG" };
    let at = record(sheet, j);
    Fault::new(7, FILE_ORDER + at, at, &not_mark(random, mark))
}

/// More bytes than the sheet has, or a first band's mark that fixes the other kind's length.
fn length_fault(random: &mut Random, sheet: &Sheet) -> Fault {
    if random.percent(40) {
        let mark = match sheet.kind() {
            Kind::Fixed => *b"BF",
            Kind::Following if random.percent(50) => *b"BD",
            Kind::Following => no_band_mark(random),
        };
        return Fault::new(5, 5, band_record(sheet, 0), &mark);
    }
    let to_other = other_length(sheet).saturating_sub(sheet.length());
    let mut more = vec![0; random.pick(&[1, 1, 2, 14, 40, to_other.max(1)])];
    random.fill(&mut more);
    Fault::new(5, 5, usize::MAX, &more)
}

/// A law's number beyond its ends, in any band of a sheet with laws.
pub fn law_fault(random: &mut Random, sheet: &Sheet) -> Fault {
    let k = random.below(sheet.band_count as usize);
    let number = LawNumber::any(random, sheet.n());
    let ((least, greatest), (lowest, highest)) = (number.ends(), number.extremes());
    let value = random.pick(&[least - 1, greatest + 1, lowest, highest]);
    let at = band_record(sheet, k) + BAND_HEAD + number.place(sheet.n());
    Fault::new(10, FILE_ORDER + at, at, &number.bytes(value))
}

/// The same in the numbers of a sheet. A first divisor of 0 is none: there the sheet has no laws.
pub fn law_number_fault(random: &mut Random, sheet: &Sheet) -> Fault<i32> {
    let k = random.below(sheet.band_count as usize);
    let number = LawNumber::any(random, sheet.n());
    let (least, greatest) = number.ends();
    let mut value = random.pick(&[least - 1, greatest + 1, 1 << 28, i32::MIN, i32::MAX]);
    if value == 0 && k == 0 {
        value = -1;
    }
    let slot = slot_law(k) + number.slot();
    Fault::new(10, FILE_ORDER + slot, slot, &[value])
}

fn beyond(random: &mut Random, limit: i64) -> i32 {
    let above = random.pick(&[limit + 1, limit + 1, limit + 1_000, i64::from(i32::MAX)]);
    let value = if random.percent(50) {
        above
    } else {
        (-above).max(i64::from(i32::MIN))
    };
    value as i32
}

/// An unsafe record that is not greater than the one before: it is found after the record's last
/// side.
fn order_fault(random: &mut Random, sheet: &Sheet) -> Fault {
    let (j, sides) = any_not_greater(random, sheet);
    let rank = FILE_ORDER + record(sheet, j + 1) - 1;
    Fault::new(20, rank, record(sheet, j) + 2, &pairs(&sides, sheet.n()))
}

/// A recovery box on an unsafe box: it is found after all sides. The fault is in the pairs that move.
fn overlap_fault(random: &mut Random, sheet: &Sheet) -> Fault {
    let n = sheet.n();
    let (moved, sides) = random.pick(&moved_onto(sheet));
    let (j, before) = match moved {
        Moved::Recovery => (sheet.unsafe_count as usize, &sheet.recovery),
        Moved::Unsafe(j) => (j, &sheet.unsafe_boxes[j]),
    };
    let other = |&i: &usize| (sides.lower[i], sides.upper[i]) != (before.lower[i], before.upper[i]);
    let first = (0..n).find(other).expect("a side that moves");
    let last = (0..n).rfind(other).expect("a side that moves");
    let rank = FILE_ORDER + sheet.length();
    let bytes = pairs(&sides, n);
    let at = record(sheet, j) + 2 + 8 * first;
    Fault::new(22, rank, at, &bytes[8 * first..8 * (last + 1)])
}

/// A fault for this refusal (1 to 11, 20, 22) in a sheet's bytes. With `layout_kept` the counts keep
/// their values, so that the rest of the bytes means what it meant.
pub fn sheet_fault(random: &mut Random, sheet: &Sheet, number: u8, layout_kept: bool) -> Fault {
    let n = sheet.n();
    let any_band = random.below(sheet.band_count as usize);
    let band = band_record(sheet, any_band);
    let boxes = sheet.unsafe_count as usize;
    let any_sides = random.below(boxes + 1);
    let sides = record(sheet, any_sides);
    let is_recovery = any_sides == boxes;
    let int = |value: i32| value.to_be_bytes();
    let in_file = |number, at: usize, bytes: &[u8]| Fault::new(number, FILE_ORDER + at, at, bytes);
    match number {
        1 => Fault::new(1, 1, 0, &not_mark(random, b"SH")),
        2 => {
            let (at, value) = if layout_kept {
                (5, random.int(n as i32, 255))
            } else {
                random.pick(&[
                    (2, 0),
                    (2, VARIABLES as i32 + 1),
                    (2, 255),
                    (3, 0),
                    (3, 9),
                    (3, 128),
                    (4, 0),
                    (4, 9),
                    (4, 200),
                    (5, n as i32),
                    (5, 255),
                ])
            };
            Fault::new(2, 2, at, &[value as u8])
        }
        3 => {
            let (at, value): (usize, u16) = match random.below(6) {
                0 => (6, 0),
                1 => (8, 0),
                2 => (10, random.pick(&[0, 1_001, 65_535])),
                3 => (6, random.pick(&[1_000, 1_001, 65_535])),
                // Just one tick too many in all.
                4 => (6, (1_001 - sheet.alpha) as u16),
                _ => (8, (1_001 - sheet.delta) as u16),
            };
            Fault::new(3, 3, at, &value.to_be_bytes())
        }
        4 => {
            let (at, value) = match random.below(4) {
                0 => (12, random.pick(&[-10_001, i32::MIN])),
                1 => (16, random.pick(&[10_001, i32::MAX])),
                2 => (12, sheet.commands.greatest + 1),
                _ => (16, sheet.commands.least - 1),
            };
            Fault::new(4, 4, at, &int(value))
        }
        5 => length_fault(random, sheet),
        6 => {
            let cap: u16 = random.pick(&[0, 1_001, 32_768, 65_535]);
            let i = random.below(n);
            Fault::new(6, 6 + i, 20 + 2 * i, &cap.to_be_bytes())
        }
        7 => {
            let of_band = random.percent(50).then(|| band_mark_fault(random, sheet));
            let of_band = of_band.flatten();
            of_band.unwrap_or_else(|| box_mark_fault(random, sheet))
        }
        8 => {
            let edge = if any_band == 0 {
                random.pick(&[-1_999_999, -2_000_001, 0, i32::MIN])
            } else {
                let last = sheet.bands[any_band - 1].edge;
                random.pick(&[2_000_001, i32::MAX, last, last, last - 1])
            };
            in_file(8, band + 2, &int(edge))
        }
        9 => {
            let safety = sheet.bands[any_band].safety;
            let (at, value) = match random.below(4) {
                0 => (6, sheet.commands.least - 1),
                1 => (10, sheet.commands.greatest + 1),
                2 => (6, safety.greatest + 1),
                _ => (10, safety.least - 1),
            };
            in_file(9, band + at, &int(value))
        }
        10 if sheet.kind() == Kind::Following && random.percent(40) => law_fault(random, sheet),
        10 => {
            let rows = band_record(sheet, any_band + 1) - n * (2 * n + 12);
            let row = rows + random.below(n) * (2 * n + 12);
            let (b, c) = (row + 2 * n, row + 2 * n + 2);
            match random.below(5) {
                0 | 1 => {
                    let coefficient: i16 = random.pick(&[1_001, -1_001, i16::MAX, i16::MIN]);
                    let at = row + 2 * random.below(n + 1);
                    debug_assert!(at <= b);
                    in_file(10, at, &coefficient.to_be_bytes())
                }
                2 => in_file(10, c, &int(beyond(random, 100_000_000))),
                3 => {
                    let d = random.pick(&[-1, 100_000_001, i32::MIN, i32::MAX]);
                    in_file(10, c + 4, &int(d))
                }
                _ => {
                    let q: u16 = random.pick(&[0, 4_097, 65_535]);
                    in_file(10, c + 8, &q.to_be_bytes())
                }
            }
        }
        11 => {
            let i = random.below(n);
            let pair = sides + 2 + 8 * i;
            let (values, limit) = if is_recovery {
                (&sheet.recovery, 1_000_000)
            } else {
                (&sheet.unsafe_boxes[any_sides], 2_000_000)
            };
            match random.below(4) {
                0 => in_file(11, pair, &int(beyond(random, limit))),
                1 => in_file(11, pair + 4, &int(beyond(random, limit))),
                2 => in_file(11, pair, &int(values.upper[i] as i32 + 1)),
                _ => in_file(11, pair + 4, &int(values.lower[i] as i32 - 1)),
            }
        }
        20 => order_fault(random, sheet),
        22 => overlap_fault(random, sheet),
        _ => unreachable!("not a refusal of a sheet"),
    }
}

/// A fault for this refusal (12 to 15) in a question's bytes.
pub fn question_fault(random: &mut Random, sheet: &Sheet, number: u8) -> Fault {
    let n = sheet.n();
    let rank = usize::from(number);
    let int = |value: i32| value.to_be_bytes();
    match number {
        12 if random.percent(50) => Fault::new(12, rank, 0, &not_mark(random, b"QS")),
        12 => Fault::new(12, rank, usize::MAX, &vec![0; random.pick(&[1, 8, 18])]),
        13 => {
            let allowance: u32 = random.pick(&[1_000_001, 2_000_000, u32::MAX, 1 << 31]);
            Fault::new(13, rank, 2, &allowance.to_be_bytes())
        }
        14 => {
            let command = random.pick(&[
                sheet.commands.least - 1,
                sheet.commands.greatest + 1,
                i32::MIN,
                i32::MAX,
            ]);
            Fault::new(14, rank, 6, &int(command))
        }
        15 => side_fault(random, 10, n),
        _ => unreachable!("not a refusal of a question"),
    }
}

/// One of the pairs of sides from this place of a question on is reversed, or has a side too far out.
fn side_fault(random: &mut Random, from: usize, n: usize) -> Fault {
    let at = from + 8 * random.below(n);
    if random.percent(30) {
        let reversed = [5_i32, 4].map(i32::to_be_bytes).concat();
        return Fault::new(15, 15, at, &reversed);
    }
    let at = at + random.pick(&[0, 4]);
    let side = beyond(random, 1_000_000);
    Fault::new(15, 15, at, &side.to_be_bytes())
}

/// The same as `question_fault` in a question about a span.
pub fn span_fault(random: &mut Random, sheet: &Sheet, number: u8) -> Fault {
    match number {
        12 if random.percent(50) => Fault::new(12, 12, 0, &not_mark(random, b"QR")),
        12 => Fault::new(12, 12, usize::MAX, &vec![0; random.pick(&[1, 4, 8, 22])]),
        14 => {
            let wrong = random.pick(&WRONGS);
            let CommandRange { least, greatest } = wrong_span(random, sheet, wrong);
            let ends = [least, greatest].map(i32::to_be_bytes).concat();
            Fault::new(14, 14, 6, &ends)
        }
        15 => side_fault(random, 14, sheet.n()),
        _ => question_fault(random, sheet, number),
    }
}

/// Where the writer finds what is wrong with unsafe box j: first its sides, then its order.
fn unsafe_rank(j: usize) -> usize {
    1_000 + 8 * j
}

/// Where it finds what is wrong with the recovery box's sides; then comes what is found last.
const RECOVERY_RANK: usize = 9_000;

/// The slots of a box.
fn box_slots(sides: &StateBox) -> [i32; 2 * VARIABLES] {
    let side = |slot: usize| match slot.checked_sub(VARIABLES) {
        None => sides.lower[slot],
        Some(i) => sides.upper[i],
    };
    std::array::from_fn(|slot| side(slot) as i32)
}

/// The same as `order_fault` in the numbers of a sheet.
fn order_number_fault(random: &mut Random, sheet: &Sheet) -> Fault<i32> {
    let (j, sides) = any_not_greater(random, sheet);
    Fault::new(20, unsafe_rank(j) + 1, slot_unsafe(j), &box_slots(&sides))
}

/// The same as `overlap_fault` in the numbers of a sheet.
fn overlap_number_fault(random: &mut Random, sheet: &Sheet) -> Fault<i32> {
    let (moved, sides) = random.pick(&moved_onto(sheet));
    let slots = match moved {
        Moved::Recovery => SLOT_RECOVERY,
        Moved::Unsafe(j) => slot_unsafe(j),
    };
    Fault::new(22, RECOVERY_RANK + 1, slots, &box_slots(&sides))
}

/// A fault for this refusal (2 to 11 without 5 and 7, 20, 22) in the numbers of a sheet.
pub fn number_fault(
    random: &mut Random,
    sheet: &Sheet,
    number: u8,
    layout_kept: bool,
) -> Fault<i32> {
    let n = sheet.n();
    let any_band = random.below(sheet.band_count as usize);
    let band = slot_band(any_band);
    let boxes = sheet.unsafe_count as usize;
    let any_box = random.below(boxes + 1);
    let is_recovery = any_box == boxes;
    // The recovery box comes last in the file and before the unsafe boxes in the slots.
    let (sides, sides_rank) = if is_recovery {
        (SLOT_RECOVERY, RECOVERY_RANK)
    } else {
        (slot_unsafe(any_box), unsafe_rank(any_box))
    };
    let at_slot = |rank: usize, slot: usize, value: i32| Fault::new(number, rank, slot, &[value]);
    match number {
        2 if layout_kept => {
            let variable = random.pick(&[-1, n as i32, 256, i32::MAX, i32::MIN]);
            at_slot(2, SLOT_BAND_VARIABLE, variable)
        }
        2 => {
            let counts = [
                (SLOT_N, VARIABLES),
                (SLOT_BANDS, BANDS),
                (SLOT_UNSAFE_BOXES, UNSAFE_BOXES),
                (SLOT_BAND_VARIABLE, n - 1),
            ];
            let (slot, most) = random.pick(&counts);
            let value = random.pick(&[-1, most as i32 + 1, 256, 257, i32::MIN, i32::MAX]);
            at_slot(2, slot, value)
        }
        3 => {
            let slot = random.pick(&[SLOT_DELTA, SLOT_ALPHA, SLOT_RHO]);
            let value = random.pick(&[0, -1, 1_001, 65_537, i32::MAX, i32::MIN]);
            at_slot(3, slot, value)
        }
        4 => match random.below(3) {
            0 => at_slot(4, SLOT_LEAST_COMMAND, random.pick(&[-10_001, i32::MIN])),
            1 => at_slot(4, SLOT_GREATEST_COMMAND, random.pick(&[10_001, i32::MAX])),
            _ => at_slot(4, SLOT_GREATEST_COMMAND, sheet.commands.least - 1),
        },
        6 => {
            let cap = random.pick(&[0, -1, 1_001, 65_537, i32::MIN]);
            let i = random.below(n);
            at_slot(6 + i, SLOT_CAPS + i, cap)
        }
        8 => {
            let edge = if any_band == 0 {
                random.pick(&[-1_999_999, -2_000_001, 0])
            } else {
                let last = sheet.bands[any_band - 1].edge;
                random.pick(&[2_000_001, last, last - 1, i32::MAX])
            };
            at_slot(FILE_ORDER + band, band, edge)
        }
        9 => {
            let (slot, value) = match random.below(3) {
                0 => (band + 1, sheet.commands.least - 1),
                1 => (band + 2, sheet.commands.greatest + 1),
                _ => (band + 1, sheet.bands[any_band].safety.greatest + 1),
            };
            at_slot(FILE_ORDER + band + 1, slot, value)
        }
        10 if sheet.kind() == Kind::Following && random.percent(40) => {
            law_number_fault(random, sheet)
        }
        10 => {
            let row = slot_row(any_band, random.below(n));
            let rest = row + VARIABLES;
            let (slot, value) = match random.below(5) {
                0 => (
                    row + random.below(n),
                    random.pick(&[1_001, -1_001, 65_536, i32::MIN]),
                ),
                1 => (rest, random.pick(&[1_001, -1_001, 70_000])),
                2 => (rest + 1, beyond(random, 100_000_000)),
                3 => (rest + 2, random.pick(&[-1, 100_000_001])),
                _ => (rest + 3, random.pick(&[0, -1, 4_097, 65_537])),
            };
            at_slot(FILE_ORDER + slot, slot, value)
        }
        11 => {
            let i = random.below(n);
            let (values, limit) = if is_recovery {
                (&sheet.recovery, 1_000_000)
            } else {
                (&sheet.unsafe_boxes[any_box], 2_000_000)
            };
            let (slot, value) = match random.below(4) {
                0 => (i, beyond(random, limit)),
                1 => (VARIABLES + i, beyond(random, limit)),
                2 => (i, values.upper[i] as i32 + 1),
                _ => (VARIABLES + i, values.lower[i] as i32 - 1),
            };
            at_slot(sides_rank, sides + slot, value)
        }
        20 => order_number_fault(random, sheet),
        22 => overlap_number_fault(random, sheet),
        _ => unreachable!("not a refusal of the writer"),
    }
}

/// The boxes in the bytes of a sheet of this layout: the unsafe ones, then the recovery box.
fn boxes_in(bytes: &[u8], sheet: &Sheet) -> Vec<StateBox> {
    let n = sheet.n();
    let sides = |j: usize| {
        let at = record(sheet, j) + 2;
        StateBox::from_pairs(&bytes[at..at + 8 * n], n).expect("n pairs")
    };
    (0..=sheet.unsafe_boxes().len()).map(sides).collect()
}

/// A fault of 20 or 22 is in the boxes, the last of which is the recovery box. One fault can undo
/// another; of other numbers none does.
fn has_fault(boxes: &[StateBox], n: usize, number: u8) -> bool {
    let (recovery, unsafe_boxes) = boxes.split_last().expect("the recovery box");
    match number {
        20 => !unsafe_boxes.is_sorted_by(|x, y| x.compare(y, n).is_lt()),
        22 => unsafe_boxes.iter().any(|u| u.meets_in(recovery, n)),
        _ => true,
    }
}

/// Both faults are still in the bytes of a sheet of this layout.
pub fn bytes_have(bytes: &[u8], sheet: &Sheet, numbers: [u8; 2]) -> bool {
    let boxes = boxes_in(bytes, sheet);
    numbers.iter().all(|&of| has_fault(&boxes, sheet.n(), of))
}

/// The same of a sheet's values.
pub fn values_have(values: &Sheet, sheet: &Sheet, numbers: [u8; 2]) -> bool {
    let mut boxes = values.unsafe_boxes[..sheet.unsafe_count as usize].to_vec();
    boxes.push(values.recovery);
    numbers.iter().all(|&of| has_fault(&boxes, sheet.n(), of))
}

/// Changes some bytes of one number at random.
pub fn damage_number(random: &mut Random, numbers: &mut [i32]) {
    let at = random.below(numbers.len());
    let mut bytes = numbers[at].to_be_bytes();
    damage(random, &mut bytes);
    numbers[at] = i32::from_be_bytes(bytes);
}

/// Changes some bytes at random.
pub fn damage(random: &mut Random, bytes: &mut [u8]) {
    for _ in 0..random.pick(&[1, 1, 1, 2, 4]) {
        if bytes.is_empty() {
            return;
        }
        let at = random.below(bytes.len());
        bytes[at] = match random.below(4) {
            0 => bytes[at] ^ (1 << random.below(8)),
            1 => random.pick(&[0, 1, 127, 128, 255]),
            2 => bytes[at].wrapping_add(random.pick(&[1, 255])),
            _ => random.bits() as u8,
        };
    }
}
