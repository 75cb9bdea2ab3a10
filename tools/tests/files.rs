//! What is said of a file that the archive refuses: its length, a mark, or a number of which record.

mod common;

use common::sheets::random_sheet;
use common::{record_at, shell, Folder, Numbers};
use second_guard::sheet::{Kind, Sheet};
use sheet_tool::causes::cause;
use sheet_tool::file_refusal::refused;
use sheet_tool::{archive, file};

/// A sheet of two variables with three bands, with or without laws.
fn sheet(kind: Kind) -> Sheet {
    let mut sheet = Sheet {
        variables: 2,
        band_count: 3,
        unsafe_count: 2,
        delta: 4,
        alpha: 4,
        rho: 4,
        ..Sheet::default()
    };
    (sheet.commands.least, sheet.commands.greatest) = (-25, 25);
    sheet.caps[..2].copy_from_slice(&[5, 6]);
    for (k, band) in sheet.bands[..3].iter_mut().enumerate() {
        band.edge = [-2_000_000, 0, 50][k];
        if kind == Kind::Following {
            band.law.divisor = 40;
        }
        for row in &mut band.rows[..2] {
            row.q = 20;
        }
    }
    for (j, unsafe_box) in sheet.unsafe_boxes[..2].iter_mut().enumerate() {
        unsafe_box.lower[0] = 130 + j as i64;
        unsafe_box.upper[0] = 200;
    }
    sheet.recovery.upper[0] = 100;
    sheet
}

const BOTH: [Kind; 2] = [Kind::Fixed, Kind::Following];
/// The head, caps and bands of such a file: bands have 46 bytes, and ten more with a law.
const FIRST_BAND: usize = 24;

fn bytes(kind: Kind) -> Vec<u8> {
    archive::write(&sheet(kind)).expect("a sheet")
}

fn band_at(kind: Kind, k: usize) -> usize {
    let length = match kind {
        Kind::Fixed => 46,
        Kind::Following => 56,
    };
    FIRST_BAND + length * k
}

/// What the tool says of a file that the archive refuses.
fn said(file: &[u8]) -> String {
    let number = archive::read(file).expect_err("a refused file");
    refused(number, file).to_string()
}

/// A file with other bytes from a place on.
fn with(file: &[u8], at: usize, other: &[u8]) -> Vec<u8> {
    let mut file = file.to_vec();
    file[at..at + other.len()].copy_from_slice(other);
    file
}

#[test]
fn the_files_have_their_places() {
    for kind in BOTH {
        let file = bytes(kind);
        let mark: &[u8] = kind.mark();
        assert!((0..3).all(|k| file[band_at(kind, k)..].starts_with(mark)));
        assert_eq!(band_at(kind, 3), record_at(&file, 0));
    }
}

#[test]
fn both_lengths_are_said() {
    let (shorter, longer) = (bytes(Kind::Fixed), bytes(Kind::Following));
    assert_eq!((shorter.len(), longer.len()), (216, 246));
    let fixed = "its first band is not marked BF, so it has to have 216 (246 with bands marked BF)";
    let following = "its first band is marked BF, so it has to have 246 (216 with bands marked BD)";
    let short =
        "it ends before its first band's mark, so it has to have 216 (246 with bands marked BF)";
    let cases = [
        (shorter[..215].to_vec(), 215, fixed),
        ([&shorter[..], b"x"].concat(), 217, fixed),
        (longer[..245].to_vec(), 245, following),
        ([&longer[..], b"x"].concat(), 247, following),
        // The first mark alone decides, whatever the others are.
        (with(&longer, FIRST_BAND, b"BD"), 246, fixed),
        (with(&longer, FIRST_BAND, b"XY"), 246, fixed),
        (with(&shorter, FIRST_BAND, b"BF"), 216, following),
        // Both letters of it are there, one is, or none.
        (longer[..26].to_vec(), 26, following),
        (longer[..25].to_vec(), 25, short),
        (longer[..20].to_vec(), 20, short),
        (shorter[..26].to_vec(), 26, fixed),
    ];
    for (file, length, why) in cases {
        let expected = format!("refused 5 (length): {length} bytes; {why}");
        assert_eq!(said(&file), expected);
    }
}

/// The words on a file in which one record has another mark.
fn names_the_record(file: &[u8], at: usize, mark: &[u8; 2], words: &str) {
    let expected = format!("refused 7 (later record's mark): {words}");
    assert_eq!(said(&with(file, at, mark)), expected);
}

#[test]
fn a_band_with_another_mark_is_named() {
    for (kind, own, other) in [(Kind::Fixed, "BD", b"BF"), (Kind::Following, "BF", b"BD")] {
        let file = bytes(kind);
        for k in [1, 2] {
            for mark in [other, b"XY", b"NG"] {
                let (band, found) = (k + 1, mark.escape_ascii());
                let words = format!("band {band} is marked {found}, it has to be {own}");
                let words = format!("{words} as the first band is");
                names_the_record(&file, band_at(kind, k), mark, &words);
            }
        }
    }
    let words = |mark: &str| format!("band 1 is marked {mark}, it has to be BD or BF");
    let file = bytes(Kind::Fixed);
    names_the_record(&file, FIRST_BAND, b"XY", &words("XY"));
    names_the_record(&file, FIRST_BAND, b"B\xff", &words("B\\xff"));
}

#[test]
fn a_box_with_another_mark_is_named() {
    for kind in BOTH {
        let file = bytes(kind);
        let words = "no-go record 2 is marked RC, it has to be NG";
        names_the_record(&file, record_at(&file, 1), b"RC", words);
        let words = "the recovery record is marked NG, it has to be RC";
        names_the_record(&file, record_at(&file, 2), b"NG", words);
    }
}

#[test]
fn the_first_wrong_mark_counts() {
    let file = with(&bytes(Kind::Following), band_at(Kind::Following, 2), b"XY");
    let file = with(&file, band_at(Kind::Following, 1), b"BD");
    assert!(said(&file).contains("band 2 is marked BD"));
}

/// The words on a file with other bytes from a place on. Behind them stands what the number has to be.
fn names_the_number(cases: &[(usize, &[u8], u8, &str)]) {
    let file = bytes(Kind::Following);
    for &(at, other, number, words) in cases {
        let expected = format!("refused {number} ({}): {words}, it has to ", cause(number));
        let said = said(&with(&file, at, other));
        assert!(said.starts_with(&expected), "{said}");
    }
}

#[test]
fn a_number_of_the_head_is_named() {
    names_the_number(&[
        (2, &[7], 2, "the number of variables is 7"),
        (3, &[0], 2, "the number of bands is 0"),
        (4, &[255], 2, "the number of no-go boxes is 255"),
        (5, &[2], 2, "the band variable is 2"),
        (10, &[0, 0], 3, "rho is 0"),
        (16, &[255; 2], 4, "the greatest command is -65511"),
        (22, &[0, 0], 6, "the cap of x2 is 0"),
    ]);
}

#[test]
fn a_number_of_a_band_is_named() {
    let [band, last] = [1, 2].map(|k| band_at(Kind::Following, k));
    let law = |what: &str| format!("band 2, law: the {what}");
    names_the_number(&[
        (last + 2, &[0; 4], 8, "band 3: the edge is 0"),
        (
            band + 13,
            &[26],
            9,
            "band 2: the greatest safety command is 26",
        ),
        (band + 14, &[4], 10, &law("coefficient of x1 is 1024")),
        (band + 16, &[252], 10, &law("coefficient of x2 is -1024")),
        (band + 18, &[6], 10, &law("constant is 100663296")),
        (band + 22, &[0, 0], 10, &law("divisor is 0")),
        (band + 22, &[16, 1], 10, &law("divisor is 4097")),
        (
            last + 38,
            &[0, 0],
            10,
            "band 3, change of x1: the divisor is 0",
        ),
        (
            band + 50,
            &[255],
            10,
            "band 2, change of x2: the spread is -16777216",
        ),
    ]);
}

#[test]
fn a_side_of_a_box_is_named() {
    let file = bytes(Kind::Following);
    let [second, recovery] = [1, 2].map(|j| record_at(&file, j));
    let upper = "no-go record 2: the upper side of x1 is 130";
    let lower = "the recovery record: the lower side of x1 is 16777216";
    names_the_number(&[
        (second + 9, &[130], 11, upper),
        (recovery + 2, &[1], 11, lower),
    ]);
}

/// A file with laws whose first divisor is 0 is no sheet without laws.
#[test]
fn a_first_divisor_of_0_is_refused() {
    let file = with(&bytes(Kind::Following), FIRST_BAND + 22, &[0, 0]);
    let words = "band 1, law: the divisor is 0, it has to lie within 1..4096";
    assert_eq!(
        said(&file),
        format!("refused 10 (law or row number): {words}")
    );
    let folder = Folder::new("file-divisor");
    let path = folder.file("sheet.bin");
    std::fs::write(&path, &file).expect("the file is written");
    for verb in ["text", "list", "show", "picture", "pack", "order"] {
        let (success, out, message) = shell(&[verb, &path]);
        assert!(!success && out.is_empty());
        assert_eq!(
            message,
            format!("{path}: refused 10 (law or row number): {words}\n")
        );
    }
}

/// In the order of the file: a law's numbers before the rows of its band, a band's before the next mark.
#[test]
fn the_first_fault_of_a_file_is_said() {
    let kind = Kind::Following;
    let (first, second) = (band_at(kind, 0), band_at(kind, 1));
    let file = with(&bytes(kind), second, b"BD");
    assert!(said(&file).starts_with("refused 7"));
    let file = with(&file, first + 54, &[0, 0]);
    assert!(said(&file).contains("band 1, change of x2: the divisor is 0"));
    let file = with(&file, first + 22, &[0, 0]);
    assert!(said(&file).contains("band 1, law: the divisor is 0"));
    let file = with(&file, first + 10, &[0, 0, 0, 26]);
    assert!(said(&file).contains("band 1: the greatest safety command is 26"));
}

/// A file as it stands has the values that the archive reads.
#[test]
fn an_accepted_file_has_its_values() {
    let mut numbers = Numbers(17);
    for _ in 0..300 {
        let sheet = random_sheet(&mut numbers);
        let bytes = archive::write(&sheet).expect("a sheet");
        let file = file::read(&bytes).expect("a whole file");
        assert_eq!(file.kind, sheet.kind());
        assert_eq!(file.sheet.numbers(), sheet.numbers());
        assert!(file.marks.iter().all(|mark| mark.found == mark.expected));
    }
}

/// Changes some bytes, and now and then the length.
fn damage(bytes: &mut Vec<u8>, numbers: &mut Numbers) {
    let last = bytes.len() as i64 - 1;
    for _ in 0..numbers.whole(1, 3) {
        let at = match numbers.whole(0, 2) {
            0 => numbers.whole(0, 30.min(last)),
            _ => numbers.whole(0, last),
        };
        bytes[at as usize] = numbers.whole(0, 255) as u8;
    }
    if numbers.whole(0, 9) == 0 {
        bytes.truncate(numbers.whole(0, last) as usize);
    }
}

/// Whatever is wrong with a file, there are words for it; only of a head that is none its length alone is said.
#[test]
fn every_refusal_has_words() {
    let mut numbers = Numbers(18);
    let mut counts = [0; 23];
    for _ in 0..20_000 {
        let mut file = archive::write(&random_sheet(&mut numbers)).expect("a sheet");
        damage(&mut file, &mut numbers);
        let Err(number) = archive::read(&file) else {
            continue;
        };
        counts[usize::from(number)] += 1;
        let fault = refused(number, &file);
        assert_eq!(fault.refusal, Some(number));
        let length_alone = fault.what == format!("{} bytes", file.len());
        assert_eq!(length_alone, number == 1, "{fault}");
    }
    for number in (1..=11).chain([20, 22]) {
        assert!(counts[number] > 10, "{number} in {counts:?}");
    }
}
