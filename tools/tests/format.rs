//! The numbers of include/guard_format.h against the archive, and those of the second guard against them.

use guard_bindings::format::{
    question_length, slot_band, slot_law, slot_row, slot_unsafe, span_question_length, BANDS,
    LAW_BYTES, LAW_CONSTANT, LAW_DIVISOR, LAW_SIZE, LONGEST_QUESTION, LONGEST_SHEET, NUMBERS,
    SLOT_CAPS, SLOT_RECOVERY, UNSAFE_BOXES, VARIABLES,
};
use second_guard::sheet::{self, BandLaw, Kind, Sheet, FIRST_EDGE};
use second_guard::{boxes, decision};
use sheet_tool::archive;

/// The longest sheet without laws.
const LONGEST_WITHOUT_LAWS: usize = LONGEST_SHEET - BANDS * LAW_BYTES;

/// A sheet with laws and every count at its greatest; each number that a test looks for stands there once, and
/// the no-go boxes ascend and keep clear of the recovery box.
fn largest() -> Sheet {
    let mut sheet = Sheet {
        variables: VARIABLES as i32,
        band_count: BANDS as i32,
        unsafe_count: UNSAFE_BOXES as i32,
        delta: 1,
        alpha: 1,
        rho: 1,
        caps: std::array::from_fn(|i| 500 + i as i32),
        ..Sheet::default()
    };
    for (k, band) in sheet.bands.iter_mut().enumerate() {
        band.edge = FIRST_EDGE + k as i32;
        band.law = BandLaw {
            coefficients: std::array::from_fn(|i| coefficient(k, i)),
            constant: 30_000 + k as i32,
            divisor: 2_000 + k as i32,
        };
        for (i, row) in band.rows.iter_mut().enumerate() {
            row.q = 1_000 + (10 * k + i) as i32;
        }
    }
    sheet.recovery.upper[0] = 10_000;
    (sheet.recovery.lower[1], sheet.recovery.upper[1]) = (1, 1);
    for (j, unsafe_box) in sheet.unsafe_boxes.iter_mut().enumerate() {
        unsafe_box.upper[0] = 20_000 + j as i64;
    }
    sheet
}

/// A coefficient of a law of the largest sheet.
fn coefficient(k: usize, i: usize) -> i32 {
    100 + (10 * k + i) as i32
}

/// The same sheet without laws.
fn largest_without_laws() -> Sheet {
    let mut sheet = largest();
    for band in &mut sheet.bands {
        band.law = BandLaw::default();
    }
    sheet
}

/// The numbers that the archive reads where it has written this sheet with this length.
fn numbers_of(sheet: &Sheet, length: usize) -> [i32; NUMBERS] {
    let bytes = archive::write(sheet).expect("the greatest counts are in range");
    assert_eq!(bytes.len(), length);
    let mut numbers = [0; NUMBERS];
    let answer = guard_bindings::sheet_read(&bytes, &mut numbers);
    assert_eq!(answer.length(), Ok(length));
    numbers
}

#[test]
fn the_archive_has_the_numbers_of_the_header() {
    assert_eq!(guard_bindings::numbers(), NUMBERS as u64);
    let numbers = numbers_of(&largest(), LONGEST_SHEET);
    let slot = |number| numbers.iter().position(|&n| n == number);
    for i in 0..VARIABLES {
        assert_eq!(slot(500 + i as i32), Some(SLOT_CAPS + i));
    }
    for k in 0..BANDS {
        assert_eq!(slot(FIRST_EDGE + k as i32), Some(slot_band(k)));
        let law = slot_law(k);
        assert_eq!(slot(30_000 + k as i32), Some(law + LAW_CONSTANT));
        assert_eq!(slot(2_000 + k as i32), Some(law + LAW_DIVISOR));
        for i in 0..VARIABLES {
            assert_eq!(slot(coefficient(k, i)), Some(law + i));
            let q = slot_row(k, i) + VARIABLES + 3;
            assert_eq!(slot(1_000 + (10 * k + i) as i32), Some(q));
        }
    }
    assert_eq!(slot(10_000), Some(SLOT_RECOVERY + VARIABLES));
    for j in 0..UNSAFE_BOXES {
        assert_eq!(slot(20_000 + j as i32), Some(slot_unsafe(j) + VARIABLES));
    }
}

/// A sheet without laws is shorter, and every slot of a law reads as 0.
#[test]
fn a_sheet_without_laws_has_no_law_numbers() {
    assert_eq!((LONGEST_SHEET, LONGEST_WITHOUT_LAWS), (1_890, 1_746));
    let mut sheet = largest_without_laws();
    let expected = sheet.numbers();
    assert_eq!(numbers_of(&sheet, LONGEST_WITHOUT_LAWS), expected);
    for k in 0..BANDS {
        assert_eq!(expected[slot_law(k)..][..LAW_SIZE], [0; LAW_SIZE]);
    }
    // With a first divisor of 0 no law number of any band is looked at.
    for (k, band) in sheet.bands.iter_mut().enumerate() {
        band.law = BandLaw {
            coefficients: [i32::MIN; VARIABLES],
            constant: i32::MAX,
            divisor: -(k as i32),
        };
    }
    assert_eq!(numbers_of(&sheet, LONGEST_WITHOUT_LAWS), expected);
}

#[test]
fn a_greater_count_is_refused() {
    let one_more: [fn(&mut Sheet); 3] = [
        |sheet| sheet.variables += 1,
        |sheet| sheet.band_count += 1,
        |sheet| sheet.unsafe_count += 1,
    ];
    for one_more in one_more {
        let mut sheet = largest();
        one_more(&mut sheet);
        assert_eq!(archive::write(&sheet), Err(2));
    }
}

/// A question with each mark at the greatest n: of its length it is one, of any other it is refused.
#[test]
fn the_longest_questions_are_ones() {
    let bytes = archive::write(&largest()).expect("the greatest counts are in range");
    let lengths = [
        (b"QS", question_length(VARIABLES)),
        (b"QR", span_question_length(VARIABLES)),
    ];
    for (mark, own) in lengths {
        for length in 2..=LONGEST_QUESTION + 4 {
            let mut question = vec![0; length];
            question[..2].copy_from_slice(mark);
            let refusal = archive::decide(&bytes, &question).refusal();
            assert_eq!(refusal, (length != own).then_some(12));
        }
    }
    assert_eq!(LONGEST_QUESTION, span_question_length(VARIABLES));
}

#[test]
fn the_second_guard_has_the_same() {
    assert_eq!(
        (boxes::VARIABLES, sheet::BANDS, sheet::UNSAFE_BOXES),
        (VARIABLES, BANDS, UNSAFE_BOXES)
    );
    assert_eq!(sheet::NUMBERS, NUMBERS);
    let longest = |kind| sheet::length(kind, VARIABLES, BANDS, UNSAFE_BOXES);
    assert_eq!(longest(Kind::Following), LONGEST_SHEET);
    assert_eq!(longest(Kind::Fixed), LONGEST_WITHOUT_LAWS);
    for n in 1..=VARIABLES {
        let length = |mark| decision::question_length(mark, n);
        assert_eq!(length(b"QS"), Some(question_length(n)));
        assert_eq!(length(b"QR"), Some(span_question_length(n)));
    }
}
