//! Text to bytes and back: byte for byte and line for line.

mod common;

use common::sheets::{random_boxes, random_sheet};
use common::{example, example_text, load, sheet, shuffled, Folder, Numbers};
use second_guard::boxes::{StateBox, VARIABLES};
use second_guard::sheet::{self as second, Sheet};
use sheet_tool::{archive, asks_text, sheet_parser, sheet_text};
use std::collections::BTreeSet;

const NAMES: [&str; 5] = ["sheet_a", "leg_press", "motor", "pendulum", "cable_column"];

#[test]
fn examples_come_back_line_for_line() {
    for name in NAMES {
        let folder = Folder::new(name);
        let (text, asks) = (
            example(&format!("{name}.txt")),
            example(&format!("{name}.asks.txt")),
        );
        let to = folder.0.to_str().expect("a plain path");
        sheet(&["pack", &text, &asks, "--to", to]);
        let (bin, asks_bin) = (folder.file("sheet.bin"), folder.file("asks.bin"));
        let back = sheet(&["text", &bin, "--like", &text]);
        assert_eq!(back, example_text(&format!("{name}.txt")));
        let back = sheet(&["text", &bin, &asks_bin, "--like", &text, &asks]);
        assert_eq!(back, example_text(&format!("{name}.asks.txt")));
    }
}

#[test]
fn bytes_come_back_through_plain_text() {
    for name in NAMES {
        let (_, bytes, asks) = load(name);
        let (back, asks_back) = through_text(&bytes, &asks);
        assert_eq!((back, asks_back), (bytes, asks));
    }
}

/// Bytes to text with plain names, and that text to bytes.
fn through_text(bytes: &[u8], asks: &[u8]) -> (Vec<u8>, Vec<u8>) {
    let read = archive::read(bytes).expect("an accepted sheet");
    let text = sheet_text::from_sheet(&read);
    let parsed = sheet_parser::parse(&text.text()).expect("the tool's own text");
    assert_eq!(parsed.text(), text.text());
    let asked = asks_text::from_file(asks, bytes, &read, &text.names);
    let asks = asks_text::parse(&asked.text(), &parsed.sheet, &parsed.names);
    let asks = asks.expect("the tool's own text");
    assert_eq!(asks.text(), asked.text());
    (parsed.bytes().expect("accepted"), asks.bytes(&read))
}

#[test]
fn random_sheets_and_questions_come_back() {
    let mut numbers = Numbers(1);
    let mut kinds = BTreeSet::new();
    for _ in 0..300 {
        let sheet = random_sheet(&mut numbers);
        kinds.insert((sheet.n(), sheet.kind().mark()));
        let bytes = archive::write(&sheet).expect("within the ranges");
        let mut buffer = vec![0; bytes.len()];
        second::write(&sheet, &mut buffer, 0).expect("within the ranges");
        assert_eq!(bytes, buffer, "the second guard writes the same");
        let asks = random_asks(&sheet, &mut numbers);
        assert_eq!(through_text(&bytes, &asks), (bytes, asks));
    }
    // Both marks with each number of variables.
    assert_eq!(kinds.len(), 2 * VARIABLES);
}

/// Some questions of both kinds, most of them refused, and now and then a short tail or an unknown mark.
fn random_asks(sheet: &Sheet, numbers: &mut Numbers) -> Vec<u8> {
    let mut asks = Vec::new();
    for _ in 0..numbers.whole(0, 4) {
        let (mark, head) = match numbers.whole(0, 8) {
            0 => (b"QX", 12),
            1..=4 => (b"QS", 10),
            _ => (b"QR", 14),
        };
        asks.extend(mark);
        for _ in 2..head + 8 * sheet.n() {
            asks.push(numbers.whole(0, 255) as u8 * numbers.whole(0, 1) as u8);
        }
    }
    let left_out = numbers.whole(0, 40) / 2;
    asks.truncate(asks.len().saturating_sub(left_out as usize));
    asks
}

/// The lines of a text of questions to sheet A, packed and printed again.
fn reprinted(asks: &str) -> String {
    let text = sheet_parser::parse(&example_text("sheet_a.txt")).expect("sheet A");
    let bytes = text.bytes().expect("an accepted sheet");
    let parsed = asks_text::parse(asks, &text.sheet, &text.names).expect("questions");
    let packed = parsed.bytes(&text.sheet);
    asks_text::from_file(&packed, &bytes, &text.sheet, &text.names).text()
}

/// A span of one command is still a span, beside the question about that command.
#[test]
fn both_kinds_of_question_come_back_as_they_were() {
    let asks = "ask  x 0..0  command 25  allowance 100\n\
                ask  x 0..0  command 25..25  allowance 100\n\
                ask  x 0..0  command -20..25  allowance 100\n\
                ask  x 0..0  command 25..-20  allowance 100  refused 14\n\
                ask  x 0..0  command -2147483648..2147483647  allowance 100  refused 14\n\
                ask  x 0..0  command 0  allowance 0\n";
    assert_eq!(reprinted(asks), asks);
    for last in ["51", "5152", "515200000064", "5158ffff", "00"] {
        let asks = format!("{asks}bytes \"{last}\"  refused 12\n");
        assert_eq!(reprinted(&asks), asks);
    }
}

/// Both kinds have a line of their own: another kind or another end is another line, with its comment.
#[test]
fn another_span_changes_one_line() {
    let text = sheet_parser::parse(&example_text("sheet_a.txt")).expect("sheet A");
    let asks =
        |text_of: &str| asks_text::parse(text_of, &text.sheet, &text.names).expect("questions");
    let line =
        |commands: &str| format!("ask \"it\"  x 0..0  command {commands}  allowance 100  # why\n");
    let kinds = ["25", "25..25", "-20..25", "-20..24"].map(line);
    for (old, new) in [(0, 1), (1, 0), (1, 2), (2, 3), (0, 0), (2, 2)] {
        let like = asks(&kinds[old]).with_asks(&asks(&kinds[new]), &text.names);
        assert_eq!(like.expect("one question").text(), kinds[new]);
    }
}

#[test]
fn another_value_changes_one_line() {
    let text = sheet_parser::parse(&example_text("leg_press.txt")).expect("a sheet");
    let mut other = text.sheet;
    other.bands[2].rows[1].d = 350;
    let changed = text.with_values(&other).expect("the same counts").text();
    let differing: Vec<(&str, String)> = changed
        .lines()
        .zip(text.text().lines().map(String::from))
        .filter(|(new, old)| new != old)
        .collect();
    assert_eq!(differing.len(), 1);
    let (new, old) = &differing[0];
    assert_eq!(old, "  change coasting = (force + 400 +- 400) / 40");
    assert_eq!(*new, "  change coasting = (force + 400 +- 350) / 40");
}

#[test]
fn a_changed_line_keeps_its_comment() {
    let text = sheet_parser::parse(&example_text("leg_press.txt")).expect("a sheet");
    let mut other = text.sheet;
    other.bands[2].edge = 2_430;
    let changed = text.with_values(&other).expect("the same counts").text();
    assert!(changed.contains("band from 2430  safety -425..-375  # hold\n"));
}

#[test]
fn other_counts_cannot_be_shown_in_the_same_lines() {
    let text = sheet_parser::parse(&example_text("leg_press.txt")).expect("a sheet");
    let motor = sheet_parser::parse(&example_text("motor.txt")).expect("a sheet");
    assert!(text.with_values(&motor.sheet).is_err());
}

/// A sheet's text with a name and a comment for each no-go box.
fn named_boxes(sheet: &Sheet) -> String {
    let plain = sheet_text::from_sheet(sheet).text();
    let named = plain
        .lines()
        .enumerate()
        .map(|(at, line)| match line.strip_prefix("no-go") {
            Some(sides) => format!("no-go \"box {at}\"{sides}  # comment {at}\n"),
            None => format!("{line}\n"),
        });
    named.collect()
}

/// The same sheet with some no-go boxes replaced.
fn with_other_boxes(sheet: &Sheet, numbers: &mut Numbers) -> Sheet {
    let count = sheet.unsafe_count as usize;
    let mut boxes = random_boxes(numbers, &sheet.recovery, sheet.n(), count);
    boxes.extend(sheet.unsafe_boxes());
    let pairs = |b: &StateBox| -> Vec<(i64, i64)> { b.lower.into_iter().zip(b.upper).collect() };
    boxes.sort_by_key(pairs);
    boxes.dedup();
    while boxes.len() > count {
        boxes.remove(numbers.whole(0, boxes.len() as i64 - 1) as usize);
    }
    let mut other = *sheet;
    other.unsafe_boxes[..count].copy_from_slice(&boxes);
    other
}

#[test]
fn no_go_boxes_may_stand_in_any_order() {
    let mut numbers = Numbers(8);
    let mut moved = 0;
    for _ in 0..300 {
        let sheet = random_sheet(&mut numbers);
        let ordered = named_boxes(&sheet);
        let other_order = shuffled(&ordered, &mut numbers);
        moved += usize::from(other_order != ordered);
        let text = sheet_parser::parse(&other_order).expect("a sheet");
        assert_eq!(text.text(), other_order);
        assert_eq!(text.bytes(), Ok(archive::write(&sheet).expect("a sheet")));
        assert_eq!(text.in_file_order().text(), ordered);
        let named = sheet_parser::parse(&ordered).expect("a sheet").names;
        assert_eq!(text.names, named);
    }
    assert!(moved > 200);
}

/// Names and comments go with their boxes, whatever the order in the text that they are taken from.
#[test]
fn two_prints_of_one_machine_are_equal() {
    let mut numbers = Numbers(9);
    let mut changed = 0;
    for _ in 0..300 {
        let sheet = random_sheet(&mut numbers);
        let ordered = named_boxes(&sheet);
        let other_order = shuffled(&ordered, &mut numbers);
        let like = |text: &str, values: &Sheet| {
            let text = sheet_parser::parse(text).expect("a sheet");
            text.with_values(values).expect("the same counts").text()
        };
        assert_eq!(like(&other_order, &sheet), ordered);
        let other = with_other_boxes(&sheet, &mut numbers);
        let print = like(&other_order, &other);
        assert_eq!(print, like(&ordered, &other));
        changed += usize::from(print != ordered);
        let back = sheet_parser::parse(&print).expect("a sheet");
        assert!(back.unsafe_lines().is_sorted() && back.sheet == other);
    }
    assert!(changed > 200);
}

/// An equal box keeps its name and comment. The others are taken in order.
#[test]
fn a_changed_box_moves_to_its_place() {
    let text = sheet_parser::parse(&example_text("motor.txt")).expect("a sheet");
    let mut other = text.sheet;
    other.unsafe_boxes[0] = text.sheet.unsafe_boxes[1];
    other.unsafe_boxes[1] = text.sheet.unsafe_boxes[1];
    other.unsafe_boxes[1].lower[0] = 4_300;
    let print = text.with_values(&other).expect("the same counts").text();
    let boxes = "no-go \"overspeed\"  speed 4200..    ramp any\n\
                 no-go \"resonance\"  speed 4300..  ramp any\n";
    assert!(print.contains(boxes), "{print}");
}

/// The leg press with its no-go boxes in another order, and other lines between them.
fn leg_press_in_another_order() -> String {
    let text = example_text("leg_press.txt");
    let mut boxes: Vec<&str> = text.lines().filter(|l| l.starts_with("no-go")).collect();
    let all = format!("{}\n", boxes.join("\n"));
    boxes.rotate_left(1);
    let other = format!(
        "{}  # one\n\n# between\n{}\n{}\n",
        boxes[0], boxes[1], boxes[2]
    );
    assert!(text.contains(&all));
    text.replace(&all, &other)
}

#[test]
fn pack_says_that_it_puts_boxes_in_order() {
    let (folder, other) = (Folder::new("order"), Folder::new("other-order"));
    let (text, asks) = (example("leg_press.txt"), example("leg_press.asks.txt"));
    let to = |folder: &Folder| folder.0.to_str().expect("a plain path").to_string();
    assert_eq!(sheet(&["pack", &text, &asks, "--to", &to(&folder)]), "");
    let path = other.file("shuffled.txt");
    std::fs::write(&path, leg_press_in_another_order()).expect("the file is written");
    let said = sheet(&["pack", &path, &asks, "--to", &to(&other)]);
    let words = "no-go boxes put in order: sheet.bin has them in the order of lines 76, 72, 75";
    assert_eq!(said, format!("{path}: {words}\n"));
    let read = |folder: &Folder, name| std::fs::read(folder.file(name)).expect("a file");
    assert_eq!(read(&folder, "sheet.bin"), read(&other, "sheet.bin"));
    assert_eq!(read(&folder, "asks.bin"), read(&other, "asks.bin"));
}

/// Every other use numbers the boxes as the file does, and says nothing of the order.
#[test]
fn boxes_have_the_numbers_of_the_file() {
    let folder = Folder::new("numbers");
    let path = folder.file("shuffled.txt");
    std::fs::write(&path, leg_press_in_another_order()).expect("the file is written");
    let (text, asks) = (example("leg_press.txt"), example("leg_press.asks.txt"));
    let uses: [&[&str]; 4] = [&["list"], &["show"], &["show", "6"], &["picture", "6"]];
    for words in uses {
        let made = |path: &str| {
            let mut all = vec![words[0], path, &asks];
            all.extend(&words[1..]);
            sheet(&all)
        };
        assert_eq!(made(&path), made(&text));
    }
    assert!(sheet(&["show", &path, &asks, "6"]).contains("meet no-go 2 \"too fast near the seat\""));
}

/// The lines of boxes change places and take their comments along; the lines between them stay.
#[test]
fn a_text_is_printed_in_the_order_of_the_file() {
    let folder = Folder::new("print");
    let path = folder.file("shuffled.txt");
    std::fs::write(&path, leg_press_in_another_order()).expect("the file is written");
    let bin = folder.file("sheet.bin");
    sheet(&[
        "pack",
        &path,
        "--to",
        folder.0.to_str().expect("a plain path"),
    ]);
    let print = sheet(&["text", &path]);
    let lines = "no-go \"rear buffer\"             position ..200   coasting any\n\
                 \n\
                 # between\n\
                 no-go \"too fast near the seat\"  position ..800   coasting ..300  # one\n\
                 no-go \"front buffer\"            position 5800..  coasting any\n";
    assert!(print.contains(lines), "{print}");
    assert_eq!(sheet(&["text", &bin, "--like", &path]), print);
}
