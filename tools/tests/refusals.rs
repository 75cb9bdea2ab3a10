//! What the guard refuses, the tool refuses with the same number, in words, and with the line.

mod common;

use common::{damaged, example_text, load, shell};
use common::{with_equal_variables, with_records, Folder, Numbers};
use second_guard::boxes::{StateBox, VARIABLES};
use sheet_tool::sheet_text::{self, SheetText};
use sheet_tool::{archive, asks_text, sheet_parser};
use std::collections::BTreeMap;

/// Sheet A with one line replaced, and the fault that follows.
fn fault(line: &str, instead: &str) -> String {
    let text = example_text("sheet_a.txt");
    assert!(text.contains(line), "sheet A has the line {line}");
    let text = text.replace(line, instead);
    match sheet_parser::parse(&text).and_then(|text| text.bytes()) {
        Ok(_) => "accepted".into(),
        Err(fault) => fault.to_string(),
    }
}

#[test]
fn sheets() {
    let cases = [
        (
            "variable x  cap 5",
            "variable x  cap 0",
            "line 4: refused 6 (a cap): the cap of x is 0, it has to lie within 1..1000",
        ),
        (
            "delta 4  alpha 4",
            "delta 400  alpha 601",
            "line 6: refused 3 (delta, alpha, rho): with delta 400, alpha is 601, it has to lie within 1..600",
        ),
        ("delta 4  alpha 4", "delta 400  alpha 600", "accepted"),
        (
            "rho 4",
            "rho 1001",
            "line 6: refused 3 (delta, alpha, rho): rho is 1001, it has to lie within 1..1000",
        ),
        (
            "command u  -25..25",
            "command u  25..-25",
            "line 5: refused 4 (head's commands): the greatest command is -25, it has to lie within 25..10000",
        ),
        (
            "band from lowest",
            "band from 0",
            "line 9: refused 8 (edge): the edge is 0, it has to be -2000000",
        ),
        (
            "safety 0..0",
            "safety 0..26",
            "line 9: refused 9 (safety range): the greatest safety command is 26, it has to lie within 0..25",
        ),
        (
            "(-x + 4 u) / 20",
            "(-x + 4 u) / 0",
            "line 10: refused 10 (law or row number): the divisor is 0, it has to lie within 1..4096",
        ),
        (
            "(-x + 4 u)",
            "(-x + 4 u +- -1)",
            "line 10: refused 10 (law or row number): the spread is -1, it has to lie within 0..100000000",
        ),
        (
            "x 130..",
            "x 130..129",
            "line 12: refused 11 (no-go or recovery side): the upper side of x is 129, it has to lie within 130..2000000",
        ),
        (
            "recovery  x -100..100",
            "recovery  x -100..1000001",
            "line 13: refused 11 (no-go or recovery side): the upper side of x is 1000001, it has to lie within -100..1000000",
        ),
        (
            "recovery  x -100..100",
            "recovery  x -100..130",
            "line 13: refused 22 (recovery box shares a state with a no-go box): the recovery box shares x 130..130 with no-go box \"the end\" on line 12",
        ),
        ("recovery  x -100..100", "recovery  x -100..129", "accepted"),
        (
            "no-go \"the end\"  x 130..\n",
            "",
            "refused 2 (n, a count or band variable out of range): the number of no-go boxes is 0, it has to lie within 1..8",
        ),
    ];
    for (line, instead, expected) in cases {
        assert_eq!(fault(line, instead), expected);
    }
}

#[test]
fn too_many_of_a_kind() {
    let boxes = "no-go  x 200..\n".repeat(9);
    let expected = "line 20: refused 2 (n, a count or band variable out of range): \
                    the number of no-go boxes is 9, it has to lie within 1..8";
    assert_eq!(fault("no-go \"the end\"  x 130..\n", &boxes), expected);
    let variables = "variable a  cap 1\nvariable b  cap 1\nvariable c  cap 1\nvariable d  cap 1\n\
                     variable e  cap 1\nvariable f  cap 1\nvariable g  cap 1\n";
    let expected = "line 10: refused 2 (n, a count or band variable out of range): \
                    the number of variables is 7, it has to lie within 1..6";
    assert_eq!(fault("variable x  cap 5\n", variables), expected);
}

/// Sheet A's no-go box, in line 12.
const THE_END: &str = "no-go \"the end\"  x 130..\n";
const ORDER: &str = "refused 20 (no-go record not greater than the one before)";

/// The fault of sheet A with other no-go boxes.
fn boxes_fault(boxes: &str) -> String {
    fault(THE_END, boxes)
}

#[test]
fn equal_no_go_boxes() {
    let cases = [
        (
            "no-go \"the end\"  x 130..\nno-go \"stop\"  x 130..2000000\n",
            "line 13: ORDER: no-go box \"stop\" is equal to no-go box \"the end\" on line 12",
        ),
        (
            "no-go  x 130..\nno-go  x 7\n# between\nno-go  x 130..\n",
            "line 15: ORDER: this no-go box is equal to the one on line 12",
        ),
        (
            "no-go  x 7\nno-go \"stop\"  x 5..6\nno-go  x 5..6\n",
            "line 14: ORDER: this no-go box is equal to no-go box \"stop\" on line 13",
        ),
        (
            "no-go  x 7..7\nno-go \"stop\"  x 7\n",
            "line 13: ORDER: no-go box \"stop\" is equal to the one on line 12",
        ),
        // The first two of three.
        (
            "no-go  x any\nno-go  x any\nno-go  x any\n",
            "line 13: ORDER: this no-go box is equal to the one on line 12",
        ),
    ];
    for (boxes, expected) in cases {
        assert_eq!(boxes_fault(boxes), expected.replace("ORDER", ORDER));
    }
}

#[test]
fn no_go_boxes_in_another_order_are_accepted() {
    let boxes = [
        "no-go  x 130..\nno-go  x -200..-150\n",
        "no-go  x 130..140\nno-go  x 130..139\n",
        "no-go  x 130..\nno-go  x ..-120\nno-go  x ..-150\n",
    ];
    for boxes in boxes {
        assert_eq!(boxes_fault(boxes), "accepted");
    }
}

/// In the order of the file: a box's sides, then whether it is greater than the one before, then the next.
#[test]
fn equal_boxes_beside_other_faults() {
    let side = "refused 11 (no-go or recovery side): the upper side of x is";
    let cases = [
        (
            "no-go  x 130..\nno-go  x 130..\nno-go  x 5..4\n",
            format!("line 14: {side} 4, it has to lie within 5..2000000"),
        ),
        (
            "no-go  x 130..\nno-go  x 130..\nno-go  x 140..139\n",
            format!("line 13: {ORDER}: this no-go box is equal to the one on line 12"),
        ),
        (
            "no-go  x 130..129\nno-go  x 5\nno-go  x 130..129\n",
            format!("line 12: {side} 129, it has to lie within 130..2000000"),
        ),
        (
            "no-go  x 130\nno-go  x 130..2000001\n",
            format!("line 13: {side} 2000001, it has to lie within 130..2000000"),
        ),
    ];
    for (boxes, expected) in cases {
        assert_eq!(boxes_fault(boxes), expected);
    }
    let rest = format!("{THE_END}recovery  x -100..100\n");
    let found = fault(&rest, "no-go  x 7\nno-go  x 7\nrecovery  x 5..4\n");
    assert!(found.contains(ORDER), "{found}");
}

/// How often each refusal occurred; `None` stands for a sheet that is accepted.
#[derive(Debug, Default)]
struct Tally(BTreeMap<Option<u8>, usize>);

impl Tally {
    /// A difference of the archive and the tool is a fault without a number.
    fn count(&mut self, text: &SheetText) {
        let refusal = match text.bytes() {
            Ok(_) => None,
            Err(fault) => Some(fault.refusal.unwrap_or_else(|| panic!("{fault}"))),
        };
        *self.0.entry(refusal).or_default() += 1;
    }

    fn has_all(&self, refusals: &[Option<u8>]) {
        for refusal in refusals {
            let count = self.0.get(refusal).copied().unwrap_or_default();
            assert!(count > 100, "{refusal:?} in {self:?}");
        }
    }
}

/// A box whose sides are 0, 1 or 2, so that two are often equal in their first sides or in all. Now and
/// then a pair is reversed.
fn small_box(numbers: &mut Numbers) -> StateBox {
    let mut sides = StateBox {
        lower: std::array::from_fn(|_| numbers.whole(0, 8) / 8),
        upper: std::array::from_fn(|_| numbers.whole(8, 16) / 8),
    };
    if numbers.whole(0, 9) == 0 {
        sides.lower[numbers.whole(0, VARIABLES as i64 - 1) as usize] = 3;
    }
    sides
}

/// A recovery box of one state with values from 0 to 3, so that it often lies in a small box or beside it. Now
/// and then a pair is reversed.
fn small_recovery(numbers: &mut Numbers) -> StateBox {
    let lower = std::array::from_fn(|_| numbers.whole(0, 3));
    let mut sides = StateBox {
        lower,
        upper: lower,
    };
    if numbers.whole(0, 9) == 0 {
        sides.lower[numbers.whole(0, VARIABLES as i64 - 1) as usize] = 4;
    }
    sides
}

/// Values in another order than the file's, which no text gives, and with values beyond n.
#[test]
fn the_archive_and_the_tool_agree_on_the_boxes() {
    let mut numbers = Numbers(10);
    let mut tally = Tally::default();
    let (sheet, _, _) = load("pendulum");
    for _ in 0..4_000 {
        let mut sheet = with_equal_variables(sheet);
        sheet.unsafe_count = numbers.whole(1, 3) as i32;
        sheet.variables = numbers.whole(1, VARIABLES as i64) as i32;
        sheet.unsafe_boxes = std::array::from_fn(|_| small_box(&mut numbers));
        sheet.recovery = small_recovery(&mut numbers);
        tally.count(&sheet_text::from_sheet(&sheet));
    }
    tally.has_all(&[None, Some(11), Some(20), Some(22)]);
}

/// Texts with boxes of a few small sides, some of them reversed, in any order.
#[test]
fn random_boxes_are_accepted_or_refused() {
    let mut numbers = Numbers(11);
    let mut tally = Tally::default();
    for _ in 0..2_000 {
        let boxes: String = (0..numbers.whole(1, 5))
            .map(|_| (numbers.whole(-2, 2), numbers.whole(1, 4)))
            .map(|(lower, upper)| format!("no-go  x {lower}..{upper}\n"))
            .collect();
        let recovery = format!("x {}..100", numbers.whole(2, 5));
        let text = example_text("sheet_a.txt").replace(THE_END, &boxes);
        let text = text.replace("x -100..100", &recovery);
        tally.count(&sheet_parser::parse(&text).expect("a sheet's text"));
    }
    tally.has_all(&[None, Some(11), Some(20), Some(22)]);
}

/// What is no sheet's text at all has no number of document 01, but a line.
#[test]
fn faults_of_the_text() {
    let cases = [
        (
            "bands by x",
            "bands by y",
            "line 8: no variable is named 'y'",
        ),
        (
            "variable x  cap 5",
            "variable any  cap 5",
            "line 4: 'any' cannot be a name",
        ),
        (
            "variable x  cap 5",
            "variable x",
            "line 4: 'cap' is missing",
        ),
        (
            "(-x + 4 u)",
            "(-x + 4 w)",
            "line 10: no variable is named 'w'",
        ),
        (
            "(-x + 4 u)",
            "(-x 4 u)",
            "line 10: '+', '-', '+-' or ')' is missing",
        ),
        ("(-x + 4 u)", "(-x + 4 x)", "line 10: two terms of one kind"),
        (
            "(-x + 4 u)",
            "-x + 4 u",
            "line 10: a change reads like: change x = (2 y - x + 5 +- 3) / 40",
        ),
        (
            "rho 4",
            "rho 99999999999",
            "line 6: 99999999999 does not fit 32 bits",
        ),
        (
            "rho 4",
            "rho 4 ticks",
            "line 6: 'ticks' is not expected here",
        ),
        (
            "  change x = (-x + 4 u) / 20\n",
            "",
            "line 9: this band has no change of 'x'",
        ),
        (
            "recovery  x -100..100\n",
            "",
            "a line 'recovery' is missing",
        ),
        (
            "bands by x",
            "tick 0 ms\nbands by x",
            "line 8: '0 ms' is no unit: a positive number and a name, as in 0.1 mm",
        ),
        (
            "sheet \"sheet A\"",
            "sheet \"sheet A",
            "line 2: a \" is not closed",
        ),
        (
            "times ",
            "time ",
            "line 6: 'time' begins no line of a sheet",
        ),
        (
            "bands by x",
            "bands by x\nbands by x",
            "line 9: this stands in an earlier line too",
        ),
    ];
    for (line, instead, expected) in cases {
        assert_eq!(fault(line, instead), expected);
    }
}

/// The fault of one line of questions to sheet A.
fn question_fault(line: &str) -> String {
    let text = sheet_parser::parse(&example_text("sheet_a.txt")).expect("sheet A");
    match asks_text::parse(line, &text.sheet, &text.names) {
        Ok(_) => "accepted".into(),
        Err(fault) => fault.to_string(),
    }
}

#[test]
fn questions() {
    let cases = [
        ("ask x 0..0 command 25 allowance 1000000", "accepted"),
        ("ask x 0 command 25 allowance 100", "accepted"),
        (
            "ask x 0..0 command 25 allowance 1000001",
            "line 1: refused 13 (allowance): the allowance is 1000001, it has to lie within 0..1000000 (to ask it all the same, end the line with: refused 13)",
        ),
        (
            "ask x 0..0 command 26 allowance 100",
            "line 1: refused 14 (command): the command is 26, it has to lie within -25..25 (to ask it all the same, end the line with: refused 14)",
        ),
        ("ask x 0..0 command 26 allowance 100 refused 14", "accepted"),
        (
            "ask x 0..0 command 26 allowance 100 refused 15",
            "line 1: refused 14 (command): the command is 26, it has to lie within -25..25 (to ask it all the same, end the line with: refused 14)",
        ),
        (
            "ask x 0..0 command 25 allowance 100 refused 14",
            "line 1: the guard does not refuse this with 14",
        ),
        ("ask x 0..0 command -25..25 allowance 100", "accepted"),
        ("ask x 0..0 command 25..25 allowance 100", "accepted"),
        (
            "ask x 0..0 command -26..25 allowance 100",
            "line 1: refused 14 (command): the span's least command is -26, it has to lie within -25..25 (to ask it all the same, end the line with: refused 14)",
        ),
        (
            "ask x 0..0 command -20..26 allowance 100",
            "line 1: refused 14 (command): the span's greatest command is 26, it has to lie within -20..25 (to ask it all the same, end the line with: refused 14)",
        ),
        (
            "ask x 0..0 command 20..19 allowance 100",
            "line 1: refused 14 (command): the span's greatest command is 19, it has to lie within 20..25 (to ask it all the same, end the line with: refused 14)",
        ),
        (
            "ask x 0..0 command 25..-25 allowance 100",
            "line 1: refused 14 (command): the span's greatest command is -25, it has to be 25 (to ask it all the same, end the line with: refused 14)",
        ),
        (
            "ask x 0..0 command 26..26 allowance 100",
            "line 1: refused 14 (command): the span's least command is 26, it has to lie within -25..25 (to ask it all the same, end the line with: refused 14)",
        ),
        ("ask x 0..0 command 20..19 allowance 100 refused 14", "accepted"),
        (
            "ask x 1..0 command 20..19 allowance 1000001",
            "line 1: refused 13 (allowance): the allowance is 1000001, it has to lie within 0..1000000 (to ask it all the same, end the line with: refused 13)",
        ),
        ("ask x 1..0 command 20..19 allowance 100 refused 14", "accepted"),
        ("ask x 1..0 command 19..20 allowance 100 refused 15", "accepted"),
        (
            "ask x 0..0 command 19..20 allowance 100 refused 14",
            "line 1: the guard does not refuse this with 14",
        ),
        ("ask x 0..0 command 19.. allowance 100", "line 1: a whole number is missing"),
        ("ask x 0..0 command ..20 allowance 100", "line 1: a whole number is missing"),
        (
            "ask x 1..0 command 25 allowance 100",
            "line 1: refused 15 (measured or start side): the upper side of x is 0, it has to lie within 1..1000000 (to ask it all the same, end the line with: refused 15)",
        ),
        (
            "bytes \"5153\"",
            "line 1: refused 12 (question's length or mark): these bytes are no question (to ask it all the same, end the line with: refused 12)",
        ),
        ("bytes \"5153\" refused 12", "accepted"),
        ("bytes \"515\" refused 12", "line 1: bytes are pairs of hex digits in quotes"),
        (
            "bytes \"5153\" refused 12\nask x 0..0 command 25 allowance 100",
            "line 2: the bytes before are no question: nothing may follow them",
        ),
        // A mark that is known, with its length in bytes or more, is a question.
        (
            "bytes \"515300000064000000190000000000000000\" refused 12",
            "line 1: the first 18 bytes are a question: it is written with 'ask'",
        ),
        (
            "bytes \"51520000006400000019000000190000000000000000ff\" refused 12",
            "line 1: the first 22 bytes are a question: it is written with 'ask'",
        ),
        ("bytes \"515200000064000000190000000000000000\" refused 12", "accepted"),
        ("bytes \"51\" refused 12", "accepted"),
        // An unknown mark takes all the rest.
        ("bytes \"515800000064000000190000000000000000ffffffffff\" refused 12", "accepted"),
        (
            "bytes \"515800000064000000190000000000000000\" refused 12\nask x 0..0 command 25 allowance 100",
            "line 2: the bytes before are no question: nothing may follow them",
        ),
        ("ask command 25 allowance 100", "line 1: a range for 'x' is missing"),
        ("question", "line 1: a question's line begins with 'ask', or with 'bytes'"),
    ];
    for (line, expected) in cases {
        assert_eq!(question_fault(line), expected, "{line}");
    }
}

#[test]
fn the_program_names_the_file_and_writes_nothing() {
    let folder = Folder::new("refused");
    let path = folder.file("bad.txt");
    let text = example_text("sheet_a.txt").replace("cap 5", "cap 1001");
    std::fs::write(&path, text).expect("the file is written");
    let to = folder.0.to_str().expect("a plain path");
    let (success, out, message) = shell(&["pack", &path, "--to", to]);
    assert!(!success && out.is_empty());
    assert!(
        message.contains("bad.txt: line 4: refused 6 (a cap)"),
        "{message}"
    );
    assert!(!folder.0.join("sheet.bin").exists());
}

#[test]
fn bytes_that_are_no_sheet_are_refused_by_number() {
    let folder = Folder::new("no-sheet");
    let path = folder.file("sheet.bin");
    std::fs::write(&path, b"SH").expect("the file is written");
    let (success, _, message) = shell(&["text", &path]);
    assert!(!success);
    assert!(
        message.contains("refused 1 (under 20 bytes, or mark not SH): 2 bytes"),
        "{message}"
    );
}

/// Sheet A with three no-go boxes as bytes, their records in this order.
fn records_in_order(order: [usize; 3]) -> Vec<u8> {
    let boxes = "no-go  x -300..-200\nno-go  x 130..140\nno-go  x 130..\n";
    let text = example_text("sheet_a.txt").replace(THE_END, boxes);
    let text = sheet_parser::parse(&text).expect("a sheet");
    let bytes = text.bytes().expect("an accepted sheet");
    with_records(&bytes, &order)
}

#[test]
fn bytes_with_boxes_out_of_order_are_refused_by_record() {
    let hint =
        "(to put them in order, pack the sheet's text again, or run sheet order on this file)";
    let cases = [
        (
            [1, 0, 2],
            format!("no-go record 2 has to stand before no-go record 1 {hint}"),
        ),
        (
            [0, 2, 1],
            format!("no-go record 3 has to stand before no-go record 2 {hint}"),
        ),
        (
            [0, 0, 2],
            "no-go record 2 is equal to no-go record 1".into(),
        ),
        (
            [0, 1, 1],
            "no-go record 3 is equal to no-go record 2".into(),
        ),
    ];
    let folder = Folder::new("records");
    let path = folder.file("sheet.bin");
    for (order, expected) in cases {
        let bytes = records_in_order(order);
        assert_eq!(archive::read(&bytes).err(), Some(20));
        std::fs::write(&path, bytes).expect("the file is written");
        for verb in ["text", "list", "show", "picture", "pack"] {
            let (success, out, message) = shell(&[verb, &path]);
            assert!(!success && out.is_empty());
            assert_eq!(message, format!("{path}: {ORDER}: {expected}\n"));
        }
    }
    assert!(archive::read(&records_in_order([0, 1, 2])).is_ok());
}

#[test]
fn pack_writes_nothing_for_equal_boxes() {
    let folder = Folder::new("equal");
    let path = folder.file("equal.txt");
    let text = example_text("sheet_a.txt").replace("recovery", "no-go  x 130..\nrecovery");
    std::fs::write(&path, text).expect("the file is written");
    let to = folder.0.to_str().expect("a plain path");
    let (success, out, message) = shell(&["pack", &path, "--to", to]);
    assert!(!success && out.is_empty() && !folder.0.join("sheet.bin").exists());
    let words = "this no-go box is equal to no-go box \"the end\" on line 12";
    assert_eq!(message, format!("{path}: line 13: {ORDER}: {words}\n"));
}

/// A damaged text is a sheet or a fault, and the archive and the tool agree on which.
#[test]
fn damaged_texts_are_accepted_or_faults() {
    let mut numbers = Numbers(7);
    let sheet = sheet_parser::parse(&example_text("motor.txt")).expect("a sheet");
    let (mut accepted, mut refused, mut faults) = (0, 0, 0);
    for _ in 0..4_000 {
        let text = damaged(&sheet.text(), &mut numbers);
        let bytes = sheet_parser::parse(&text).and_then(|text| text.bytes());
        let asks = damaged(&example_text("motor.asks.txt"), &mut numbers);
        let asks = asks_text::parse(&asks, &sheet.sheet, &sheet.names);
        for result in [bytes.map(drop), asks.map(drop)] {
            match result {
                Ok(()) => accepted += 1,
                Err(fault) if fault.refusal.is_some() => refused += 1,
                Err(fault) => {
                    assert!(!fault.what.contains("differ"), "{fault}");
                    faults += 1;
                }
            }
        }
    }
    assert!(accepted > 0 && refused > 0 && faults > 0);
}
