//! `sheet order`: bytes whose no-go records stand in another order become the sheet with the same boxes.

mod common;

use common::sheets::random_sheet;
use common::{load, random_order, record_at, sheet, shell, with_records, Folder, Numbers};
use sheet_tool::archive;
use sheet_tool::record_order::in_order;

const ORDERS: [[usize; 3]; 5] = [[0, 2, 1], [1, 0, 2], [1, 2, 0], [2, 0, 1], [2, 1, 0]];
const EQUAL: &str = "refused 20 (no-go record not greater than the one before): no-go record";

/// The leg press, which has three no-go records.
fn leg_press() -> Vec<u8> {
    let (_, bytes, _) = load("leg_press");
    assert_eq!(bytes[4], 3);
    bytes
}

fn write(path: &str, bytes: &[u8]) {
    std::fs::write(path, bytes).expect("the file is written");
}

fn read(path: &str) -> Vec<u8> {
    std::fs::read(path).expect("the file is there")
}

/// Runs `sheet order` on these bytes: what it says, and the sheet.bin that it writes.
fn ordered(bytes: &[u8], folder: &Folder) -> (String, Vec<u8>) {
    let (old, to) = (folder.file("old.bin"), folder.file(""));
    write(&old, bytes);
    let said = sheet(&["order", &old, "--to", &to]);
    assert_eq!(read(&old), bytes);
    (said, read(&folder.file("sheet.bin")))
}

/// `sheet order` refuses these bytes with these words, and writes nothing.
fn refuses(bytes: &[u8], words: &str, folder: &Folder) {
    let (old, to) = (folder.file("old.bin"), folder.file(""));
    write(&old, bytes);
    let (success, out, message) = shell(&["order", &old, "--to", &to]);
    assert!(!success && out.is_empty());
    assert_eq!(message, format!("{old}: {words}\n"));
    assert_eq!(read(&old), bytes);
    assert!(!folder.0.join("sheet.bin").exists());
}

#[test]
fn shuffled_records_come_back() {
    let mut numbers = Numbers(12);
    let mut moved = 0;
    for _ in 0..1_000 {
        let sheet = random_sheet(&mut numbers);
        let bytes = archive::write(&sheet).expect("a sheet");
        let order = random_order(usize::from(bytes[4]), &mut numbers);
        let shuffled = with_records(&bytes, &order);
        match in_order(&shuffled).expect("the same boxes") {
            None => assert_eq!(shuffled, bytes),
            Some(ordered) => {
                assert_eq!(archive::read(&shuffled).err(), Some(20));
                assert_eq!(ordered.bytes, bytes);
                assert_eq!(with_records(&shuffled, &ordered.order), bytes);
                moved += 1;
            }
        }
    }
    assert!(moved > 600, "{moved}");
}

#[test]
fn the_program_says_the_order() {
    let folder = Folder::new("order-said");
    let bytes = leg_press();
    let old = folder.file("old.bin");
    for order in ORDERS {
        let (said, made) = ordered(&with_records(&bytes, &order), &folder);
        assert_eq!(made, bytes);
        let record = |j| 1 + order.iter().position(|&k| k == j).expect("a record");
        let records = format!("{}, {}, {}", record(0), record(1), record(2));
        let words = "no-go boxes put in order: sheet.bin has them in the order of records";
        assert_eq!(said, format!("{old}: {words} {records}\n"));
    }
}

#[test]
fn records_in_order_stay() {
    let folder = Folder::new("order-stays");
    let words = "no-go boxes in order already: sheet.bin has the same bytes";
    for name in ["sheet_a", "leg_press", "motor", "pendulum", "cable_column"] {
        let (_, bytes, _) = load(name);
        let said = format!("{}: {words}\n", folder.file("old.bin"));
        assert_eq!(ordered(&bytes, &folder), (said, bytes));
    }
}

#[test]
fn a_file_can_be_put_in_order_in_place() {
    let folder = Folder::new("order-in-place");
    let (path, to) = (folder.file("sheet.bin"), folder.file(""));
    let bytes = leg_press();
    for order in ORDERS {
        write(&path, &with_records(&bytes, &order));
        sheet(&["order", &path, "--to", &to]);
        assert_eq!(read(&path), bytes);
        let said = sheet(&["order", &path, "--to", &to]);
        assert!(said.contains("in order already"), "{said}");
        assert_eq!(read(&path), bytes);
    }
}

/// Records have the numbers of the file that is read.
#[test]
fn equal_records_are_refused() {
    let folder = Folder::new("order-equal");
    let bytes = leg_press();
    let cases = [
        ([0, 0, 1], "2 is equal to no-go record 1"),
        ([1, 0, 0], "3 is equal to no-go record 2"),
        ([1, 0, 1], "3 is equal to no-go record 1"),
        ([2, 2, 2], "2 is equal to no-go record 1"),
    ];
    for (order, words) in cases {
        let bytes = with_records(&bytes, &order);
        refuses(&bytes, &format!("{EQUAL} {words}"), &folder);
    }
}

/// Refused with 20 as they stand, these bytes are refused with another number once they are in order. Records have
/// the numbers of the file that is read.
fn refuses_later(bytes: &[u8], refusal: &str, folder: &Folder) {
    assert_eq!(archive::read(bytes).err(), Some(20));
    refuses(bytes, &format!("refused {refusal}"), folder);
}

const MARK: &str = "7 (later record's mark)";
const SIDE: &str = "11 (no-go or recovery side)";

/// In the third no-go record or the recovery record, after two no-go records in the wrong order.
#[test]
fn later_faults_are_refused() {
    let folder = Folder::new("order-later");
    let bytes = leg_press();
    let orders = [[1, 0, 2], [2, 0, 1], [2, 1, 0]];
    let records = [
        (2, "no-go record 3", "MG, it has to be NG", 2_000_000),
        (3, "the recovery record", "MC, it has to be RC", 1_000_000),
    ];
    for (order, (j, name, mark_words, limit)) in orders
        .into_iter()
        .flat_map(|order| records.map(|record| (order, record)))
    {
        let mut mark = with_records(&bytes, &order);
        let at = record_at(&mark, j);
        let mut side = mark.clone();
        mark[at] = b'M';
        let words = format!("{MARK}: {name} is marked {mark_words}");
        refuses_later(&mark, &words, &folder);
        // The lower side of the second variable is above its upper side.
        side[at + 10..at + 14].copy_from_slice(&900_000_i32.to_be_bytes());
        side[at + 14..at + 18].copy_from_slice(&899_999_i32.to_be_bytes());
        let ends = format!("it has to lie within 900000..{limit}");
        let words = format!("{SIDE}: {name}: the upper side of x2 is 899999, {ends}");
        refuses_later(&side, &words, &folder);
    }
}

/// No record is moved past one with another mark, whatever its sides.
#[test]
fn a_wrong_mark_is_refused_beside_equal_records() {
    let folder = Folder::new("order-mark");
    let bytes = leg_press();
    let mut wrong = with_records(&bytes, &[1, 0, 0]);
    let at = record_at(&wrong, 2);
    wrong[at..at + 2].copy_from_slice(b"RC");
    let words = format!("{MARK}: no-go record 3 is marked RC, it has to be NG");
    refuses_later(&wrong, &words, &folder);
}

#[test]
fn files_cut_short_or_too_long_are_refused() {
    let folder = Folder::new("order-cut");
    let bytes = with_records(&leg_press(), &[2, 0, 1]);
    for length in 0..bytes.len() {
        let number = if length < 20 { 1 } else { 5 };
        let fault = in_order(&bytes[..length]).err().expect("a fault");
        assert_eq!(fault.refusal, Some(number));
    }
    let length = bytes.len();
    let words = |length: usize| {
        let why =
            "its first band is not marked BF, so it has to have 326 (376 with bands marked BF)";
        format!("refused 5 (length): {length} bytes; {why}")
    };
    refuses(&bytes[..length - 1], &words(length - 1), &folder);
    refuses(&[&bytes[..], b"N"].concat(), &words(length + 1), &folder);
    let words = "refused 1 (under 20 bytes, or mark not SH): 0 bytes";
    refuses(b"", words, &folder);
}

/// Changes some bytes, most of them in the last records.
fn damage(bytes: &mut [u8], numbers: &mut Numbers) {
    let last = bytes.len() as i64 - 1;
    for _ in 0..numbers.whole(0, 2) {
        let least = [0, last - 60][numbers.whole(0, 4).min(1) as usize];
        let at = numbers.whole(least.max(0), last) as usize;
        bytes[at] = numbers.whole(0, 255) as u8;
    }
}

/// Whatever the bytes: what is given is accepted and has the same records, and the rest is refused.
#[test]
fn damaged_files_become_sheets_or_faults() {
    let mut numbers = Numbers(13);
    let (mut stay, mut moved, mut same, mut later, mut overlap) = (0, 0, 0, 0, 0);
    for _ in 0..4_000 {
        let bytes = archive::write(&random_sheet(&mut numbers)).expect("a sheet");
        let order = random_order(usize::from(bytes[4]), &mut numbers);
        let mut file = with_records(&bytes, &order);
        damage(&mut file, &mut numbers);
        let before = archive::read(&file).err();
        match (before, in_order(&file)) {
            (None, Ok(None)) => stay += 1,
            (Some(20), Ok(Some(ordered))) => {
                assert!(archive::read(&ordered.bytes).is_ok());
                assert_eq!(with_records(&file, &ordered.order), ordered.bytes);
                moved += 1;
            }
            (Some(20), Err(fault)) if fault.refusal == Some(22) => overlap += 1,
            (Some(20), Err(fault)) => {
                assert!(matches!(fault.refusal, Some(7 | 11 | 20)), "{fault}");
                later += 1;
            }
            (Some(number), Err(fault)) => {
                assert_eq!(fault.refusal, Some(number));
                same += 1;
            }
            (before, _) => panic!("{before:?}"),
        }
    }
    let counts = [stay, moved, same, later];
    assert!(counts.iter().all(|&count| count > 100), "{counts:?}");
    assert!(overlap > 20, "{overlap}");
}
