//! The drive's readings in questions' texts: the box that comes of them, what is refused with 18 and 19, and what the
//! tool says of both. Floors and ceilings are compared with those of 64-bit floats, which have every 32-bit one.

mod common;

use common::{example, example_text, sheet, shell, Folder, Numbers};
use sheet_tool::asks_text::{self, Asked, AsksText};
use sheet_tool::sheet_text::SheetText;
use sheet_tool::{archive, sheet_parser};
use std::collections::BTreeMap;

fn parsed(name: &str) -> SheetText {
    sheet_parser::parse(&example_text(&format!("{name}.txt"))).expect("a sheet")
}

fn asks(text: &str, sheet: &SheetText) -> Result<AsksText, String> {
    asks_text::parse(text, &sheet.sheet, &sheet.names).map_err(|fault| fault.to_string())
}

/// A line of questions to sheet A with this behind its variable's name.
fn line(measured: &str) -> String {
    format!("ask  x {measured}  command 25  allowance 100")
}

/// The box of a line of questions to sheet A, or the fault.
fn sides(measured: &str, refused: &str) -> Result<(i64, i64), String> {
    let text = format!("{}{refused}\n", line(measured));
    let asks = asks(&text, &parsed("sheet_a"))?;
    let question = asks.asks[0].question().ok_or("no box")?;
    Ok((question.measured.lower[0], question.measured.upper[0]))
}

#[test]
fn readings_give_boxes() {
    let cases = [
        ("2999.5 +- 0.25", (2_998, 3_001)),
        ("2999.2..3000.1", (2_999, 3_001)),
        ("2999 +- 0", (2_999, 2_999)),
        ("2999 +- 3", (2_996, 3_002)),
        ("2999.0 +- 3.0", (2_996, 3_002)),
        ("2999 +- 2.5", (2_996, 3_002)),
        ("-2999.5 +- 0.25", (-3_001, -2_998)),
        ("-2999.2..-2998.9", (-3_000, -2_998)),
        ("2999.5 ± 0.25", (2_998, 3_001)),
        ("−2999.5 +-0.25", (-3_001, -2_998)),
        // A number with a point or an exponent makes a pair a reading, though it is whole.
        ("2999.0..3000", (2_999, 3_000)),
        ("2999..3.000e3", (2_999, 3_000)),
        ("2.9995e3 +- 25E-2", (2_998, 3_001)),
        ("2e+3..2001", (2_000, 2_001)),
        // Zero has one box, whatever its sign.
        ("0 +- 0", (0, 0)),
        ("-0 +- -0", (0, 0)),
        ("-0.0..0.0", (0, 0)),
        ("0.0..-0.0", (0, 0)),
        ("-0.0 +- 0.5", (-1, 1)),
        // However little there is behind the point, it counts.
        ("0.1 +- 0.1", (-1, 2)),
        ("1e-45 +- 0", (0, 1)),
        ("-1e-45 +- 1e-45", (-2, 1)),
        ("-1e-45..1e-45", (-1, 1)),
        ("2999.0002 +- 0", (2_999, 3_000)),
        // The nearest float counts, and this one is whole; the last is 0.
        ("2999.0001 +- 0", (2_999, 2_999)),
        ("2999.99999 +- 0", (3_000, 3_000)),
        ("1e-46 +- 1e-46", (0, 0)),
        // Limits.
        ("1000000 +- 0", (1_000_000, 1_000_000)),
        ("-1e6..1e6", (-1_000_000, 1_000_000)),
        ("999999.94 +- 0", (999_999, 1_000_000)),
        ("1000000.03 +- 0", (1_000_000, 1_000_000)),
        ("0 +- 1000", (-1_000, 1_000)),
        ("0 +- 999.001", (-1_000, 1_000)),
        ("999000 +- 1e3", (998_000, 1_000_000)),
    ];
    for (measured, expected) in cases {
        assert_eq!(sides(measured, ""), Ok(expected), "{measured}");
    }
}

/// Whole sides are no readings: they have the bytes and the refusals of before.
#[test]
fn whole_sides_are_sides() {
    let text = parsed("sheet_a");
    for (measured, expected) in [("7", (7, 7)), ("-3..9", (-3, 9)), ("-0..0", (0, 0))] {
        assert_eq!(sides(measured, ""), Ok(expected));
        let asks = asks(&line(measured), &text).expect("a question");
        assert!(matches!(asks.asks[0].asked, Asked::Question(_)));
    }
    let said = sides("9..8", "").expect_err("reversed sides");
    assert!(said.starts_with("line 1: refused 15 "), "{said}");
    let said = sides("0..1000001", "").expect_err("a side out of range");
    assert!(said.starts_with("line 1: refused 15 "), "{said}");
    let said = sides("0..3000000000", "").expect_err("no side");
    assert_eq!(said, "line 1: 3000000000 does not fit 32 bits");
}

const WITHIN: &str = "it has to lie within -1000000..1000000";

#[test]
fn readings_are_refused() {
    let cases = [
        ("none", 18, "x has no reading".to_string()),
        ("nan +- 0.25", 19, format!("the value of x is nan, {WITHIN}")),
        ("inf +- 0.25", 19, format!("the value of x is inf, {WITHIN}")),
        ("-inf +- 0.25", 19, format!("the value of x is -inf, {WITHIN}")),
        ("1000001 +- 0", 19, format!("the value of x is 1000001, {WITHIN}")),
        (
            "1000000.04 +- 0",
            19,
            format!("the value of x is 1000000.04 (taken as 1000000.0625), {WITHIN}"),
        ),
        ("-1000000.0625 +- 0", 19, format!("the value of x is -1000000.0625, {WITHIN}")),
        ("1e39 +- 0", 19, format!("the value of x is 1e39 (taken as inf), {WITHIN}")),
        ("3e9 +- 0", 19, format!("the value of x is 3e9, {WITHIN}")),
        ("0.5 +- nan", 19, "the tolerance of x is nan, it has to lie within 0..1000".into()),
        ("0.5 +- inf", 19, "the tolerance of x is inf, it has to lie within 0..1000".into()),
        ("0.5 +- -1", 19, "the tolerance of x is -1, it has to lie within 0..1000".into()),
        (
            "0.5 +- -1e-45",
            19,
            "the tolerance of x is -1e-45 (taken as -1.401298464324817e-45), it has to lie within 0..1000".into(),
        ),
        ("0.5 +- 1001", 19, "the tolerance of x is 1001, it has to lie within 0..1000".into()),
        (
            "0.5 +- 1000.00006103515625",
            19,
            "the tolerance of x is 1000.00006103515625, it has to lie within 0..1000".into(),
        ),
        // The value stands before the tolerance.
        ("nan +- nan", 19, format!("the value of x is nan, {WITHIN}")),
        ("nan..0.5", 19, format!("the lower value of x is nan, {WITHIN}")),
        ("0.5..nan", 19, "the upper value of x is nan, it has to lie within 0.5..1000000".into()),
        ("-inf..0.5", 19, format!("the lower value of x is -inf, {WITHIN}")),
        ("0.5..inf", 19, "the upper value of x is inf, it has to lie within 0.5..1000000".into()),
        ("-1000001..0.5", 19, format!("the lower value of x is -1000001, {WITHIN}")),
        (
            "0.5..1000000.0625",
            19,
            "the upper value of x is 1000000.0625, it has to lie within 0.5..1000000".into(),
        ),
        ("0.5..0.25", 19, "the upper value of x is 0.25, it has to lie within 0.5..1000000".into()),
        ("3..2.5", 19, "the upper value of x is 2.5, it has to lie within 3..1000000".into()),
        ("1e-45..0", 19, "the upper value of x is 0, it has to lie within 1e-45..1000000".into()),
    ];
    for (measured, number, words) in cases {
        let cause = ["no reading", "a reading's number"][number - 18];
        let hint = format!("(to ask it all the same, end the line with: refused {number})");
        let expected = format!("line 1: refused {number} ({cause}): {words} {hint}");
        assert_eq!(sides(measured, ""), Err(expected));
        let refused = format!("  refused {number}");
        assert_eq!(sides(measured, &refused), Err("no box".into()));
        let other = format!("  refused {}", 37 - number);
        assert!(sides(measured, &other).is_err_and(|said| said != "no box"));
    }
}

/// A box that is out of range is refused as the box in a file is, and not as a reading.
#[test]
fn a_box_out_of_range_is_15() {
    let cases = [
        ("-1000000 +- 1", (-1_000_001, -999_999)),
        ("999999.5 +- 0.5", (999_998, 1_000_001)),
        ("1e6 +- 1000", (999_000, 1_001_000)),
        ("-1e6 +- 1e-45", (-1_000_001, -999_999)),
    ];
    for (measured, expected) in cases {
        let said = sides(measured, "").expect_err("out of range");
        assert!(
            said.starts_with("line 1: refused 15 (measured or start side): the "),
            "{said}"
        );
        assert_eq!(sides(measured, "  refused 15"), Ok(expected));
    }
}

/// In the order of the papers: allowance, commands, readings variable by variable, the box.
#[test]
fn the_first_fault_counts() {
    let text = parsed("leg_press");
    let cases = [
        (
            "position none  coasting nan +- 0  command 401  allowance 1000001",
            13,
        ),
        (
            "position none  coasting nan +- 0  command 401  allowance 100",
            14,
        ),
        (
            "position none  coasting nan +- 0  command 0..-1  allowance 100",
            14,
        ),
        (
            "position none  coasting nan +- 0  command 0  allowance 100",
            18,
        ),
        (
            "coasting nan +- 0  position none  command 0  allowance 100",
            18,
        ),
        (
            "position nan +- 0  coasting none  command 0  allowance 100",
            19,
        ),
        (
            "position 1e6 +- 1  coasting none  command 0  allowance 100",
            18,
        ),
        (
            "position 1e6 +- 1  coasting 0 +- -1  command 0..0  allowance 100",
            19,
        ),
        (
            "position 1e6 +- 1  coasting 0 +- 1  command 0..0  allowance 100",
            15,
        ),
        // Whole sides beside a reading are a pair.
        (
            "position 5..4  coasting 0.5 +- 1  command 0  allowance 100",
            19,
        ),
        ("position 5..4  coasting none  command 0  allowance 100", 19),
        (
            "position 1000001  coasting 0.5 +- 1  command 0  allowance 100",
            19,
        ),
        ("position 5..4  coasting 3..5  command 0  allowance 100", 15),
    ];
    for (question, number) in cases {
        let said = asks(&format!("# first\nask {question}\n"), &text).expect_err("refused");
        assert!(
            said.starts_with(&format!("line 2: refused {number} (")),
            "{said}"
        );
        let refused = format!("ask {question} refused {number}\n");
        let asks = asks(&refused, &text).expect("said to be refused");
        let bytes = text.bytes().expect("an accepted sheet");
        let answer = asks.asks[0].answer(&bytes, &text.sheet);
        assert_eq!(answer.expect("no difference").refusal(), Some(number));
    }
}

#[test]
fn texts_that_are_no_readings() {
    let cases = [
        ("2999.5", "'+-' and the tolerance of 2999.5 are missing"),
        ("-1e3", "'+-' and the tolerance of -1e3 are missing"),
        ("nan", "'+-' and the tolerance of nan are missing"),
        ("2999.5 +-", "a number is missing"),
        ("2999.5 +- none", "a number is missing"),
        ("none +- 0.25", "'command' is missing"),
        ("2999.5..", "a number is missing"),
        ("..2999.5", "a number is missing"),
        ("any", "a number is missing"),
        (
            "2999.5 + 0.25",
            "'+-' and the tolerance of 2999.5 are missing",
        ),
        ("2999.5 +- 0.25 +- 0.5", "'command' is missing"),
        ("2999.5 +- 0.25..0.5", "'command' is missing"),
        ("2999.2..3000.1 +- 0.5", "'command' is missing"),
        ("none..3000", "'command' is missing"),
        (".5 +- 1", "'.' is not expected"),
        ("5. +- 1", "'.' is not expected"),
        ("5...6", "'.' is not expected"),
        ("1.5.2 +- 1", "'.' is not expected"),
        ("2999,5 +- 1", "',' is not expected"),
        ("+5.5 +- 1", "a number is missing"),
        ("--5.5 +- 1", "a number is missing"),
        ("5e +- 1", "'command' is missing"),
        ("5.5e3.5 +- 1", "'.' is not expected"),
        ("1e99999999999 +- 1", "1e99999999999 has too many digits"),
        (
            "99999999999999999999 +- 1",
            "99999999999999999999 has too many digits",
        ),
        ("NaN +- 1", "a number is missing"),
        ("none  x none", "'x' stands here twice"),
        ("0.5 +- 1  x 3", "'x' stands here twice"),
    ];
    for (measured, expected) in cases {
        assert_eq!(
            sides(measured, ""),
            Err(format!("line 1: {expected}")),
            "{measured}"
        );
    }
    let text = parsed("sheet_a");
    let cases = [
        (
            "ask x 0.5 +- 1 command 2.5 allowance 9",
            "'2.5' is no whole number",
        ),
        (
            "ask x 0.5 +- 1 command 2..3e1 allowance 9",
            "'3e1' is no whole number",
        ),
        (
            "ask x 0.5 +- 1 command 2 allowance 9.0",
            "'9.0' is no whole number",
        ),
        (
            "ask x 0.5 +- 1 command 2 allowance 9 refused 1.5",
            "'1.5' is no whole number",
        ),
        (
            "ask x 0.5 +- 1 command 2 allowance 9 4.5",
            "'4.5' is not expected here",
        ),
        ("ask command 2 allowance 9", "a range for 'x' is missing"),
    ];
    for (question, expected) in cases {
        let said = asks(question, &text).expect_err("no question");
        assert_eq!(said, format!("line 1: {expected}"));
    }
}

/// A sheet's text has whole numbers alone: there a digit before `e3` is a coefficient.
#[test]
fn a_sheet_has_no_decimals() {
    let text = example_text("sheet_a.txt");
    let renamed = |line: &str| {
        let line = line.replace(" x", " e3").replace("(-x", "(-1e3");
        format!("{line}\n")
    };
    let named: String = text.lines().map(renamed).collect();
    let bytes = |text: &str| sheet_parser::parse(text).and_then(|text| text.bytes());
    assert_eq!(bytes(&named), bytes(&text));
    let said = bytes(&text.replace("cap 5", "cap 5.0")).expect_err("a fault");
    assert_eq!(said.to_string(), "line 4: '.' is not expected");
}

/// Writes a text of questions into a folder.
fn written(folder: &Folder, name: &str, text: &str) -> String {
    let path = folder.file(name);
    std::fs::write(&path, text).expect("the file is written");
    path
}

const ASKED: &str = "# by readings\n\
    ask \"point\"  position 2999.5 +- 0.25  coasting 2999.2..3000.1  command 0  allowance 2000  # first\n\
    ask  position 2998..3002  coasting 3e3 +- 25  command -500..-300  allowance 2000\n\
    ask  position -1e6 +- 1  coasting 0 +- 0  command 0  allowance 2000  refused 15\n\
    ask  position 2998..3001  coasting 2999..3001  command 0  allowance 2000\n";

const WHOLE: &str = "ask  position 2998..3001  coasting 2999..3001  command 0  allowance 2000\n\
    ask  position 2998..3002  coasting 2975..3025  command -500..-300  allowance 2000\n\
    ask  position -1000001..-999999  coasting 0..0  command 0  allowance 2000  refused 15\n\
    ask  position 2998..3001  coasting 2999..3001  command 0  allowance 2000\n";

/// Packed and printed again, each question has the sides of its box. With names from the text that has the readings,
/// every line comes back as it was, and one with another box is written with its sides.
#[test]
fn boxes_go_through_a_file() {
    let folder = Folder::new("readings");
    let (leg_press, to) = (example("leg_press.txt"), folder.file(""));
    let (text, whole) = (
        written(&folder, "a.txt", ASKED),
        written(&folder, "b.txt", WHOLE),
    );
    let bin = folder.file("asks.bin");
    let read = || std::fs::read(&bin).expect("asks.bin");
    assert_eq!(sheet(&["pack", &leg_press, &text, "--to", &to]), "");
    let packed = read();
    let like = |asks: &str| sheet(&["text", &leg_press, &bin, "--like", &leg_press, asks]);
    assert_eq!(like(&text), ASKED);
    let plain = sheet(&["text", &leg_press, &bin]);
    assert_eq!(plain, WHOLE);
    assert_eq!(sheet(&["pack", &leg_press, &whole, "--to", &to]), "");
    assert_eq!(read(), packed);
    let listed = |asks: &str| sheet(&["list", &leg_press, asks]);
    assert!(listed(&text) == listed(&bin) && listed(&text) == listed(&whole));
    let moved = written(&folder, "c.txt", &WHOLE.replacen("2998", "2997", 1));
    sheet(&["pack", &leg_press, &moved, "--to", &to]);
    let first = "ask \"point\"  position 2999.5 +- 0.25  coasting 2999.2..3000.1";
    let other = "ask \"point\"  position 2997..3001  coasting 2999..3001";
    assert_eq!(like(&text), ASKED.replace(first, other));
}

/// Names from another text for a text with readings: a line that has to be written anew has them as they were written.
#[test]
fn readings_are_printed_as_they_were_written() {
    let text = parsed("sheet_a");
    let like = asks(&format!("{}  # why\n", line("0..1")), &text).expect("a question");
    for measured in ["0.50 +- 1e-3", "-0.5..2", "-0 +- 0"] {
        let other = asks(&line(measured), &text).expect("a question");
        let print = like.with_asks(&other, &text.names).expect("one question");
        assert_eq!(print.text(), format!("{}  # why\n", line(measured)));
    }
    let other = asks(&line("0.5 +- 0"), &text).expect("a question");
    let print = like.with_asks(&other, &text.names).expect("one question");
    assert_eq!(print.text(), like.text(), "the same box");
    let refused = asks(&format!("{}  refused 18\n", line("none")), &text).expect("a question");
    let print = like.with_asks(&refused, &text.names).expect("one question");
    assert_eq!(
        print.text(),
        format!("{}  refused 18  # why\n", line("none"))
    );
    let again = refused
        .with_asks(&refused, &text.names)
        .expect("one question");
    assert_eq!(again.text(), refused.text());
}

/// A refused reading gives no box: `list` and `show` have the archive's refusal, and `pack` writes neither file.
#[test]
fn a_refused_reading_is_not_packed() {
    let folder = Folder::new("no-box");
    let leg_press = example("leg_press.txt");
    let rest = "coasting 3000 +- 1.5  command 0  allowance 2000";
    let cases = [
        ("position none", "0", 18, "position has no reading"),
        (
            "position 1.5..0.5",
            "0",
            19,
            "the upper value of position is 0.5, it has to lie within 1.5..1000000",
        ),
        // The command is refused first; there is no box either.
        ("position none", "500", 14, "position has no reading"),
    ];
    for (measured, command, number, words) in cases {
        let rest = rest.replace("command 0", &format!("command {command}"));
        let text = format!("{ASKED}\nask {measured} {rest} refused {number}\n");
        let path = written(&folder, "asks.txt", &text);
        let (success, out, said) = shell(&["pack", &leg_press, &path, "--to", &folder.file("")]);
        assert!(!success && out.is_empty());
        let (reading, cause) = match words.starts_with("the") {
            true => (19, "a reading's number"),
            false => (18, "no reading"),
        };
        let hint = "(there is no box to write: asks.bin cannot have this question)";
        let expected = format!("{path}: line 7: refused {reading} ({cause}): {words} {hint}\n");
        assert_eq!(said, expected);
        assert!(!folder.0.join("sheet.bin").exists() && !folder.0.join("asks.bin").exists());
        let listed = sheet(&["list", &leg_press, &path]);
        assert!(
            listed.ends_with(&format!("\n5 refused {number}\n")),
            "{listed}"
        );
        let shown = sheet(&["show", &leg_press, &path, "5"]);
        let (answer, came) = shown.split_once('\n').expect("a line");
        assert!(
            answer.contains(&format!("N: refused {number} (")),
            "{answer}"
        );
        let expected = format!(
            "  line 7: refused {reading} ({cause}): {words}\n  coasting 3000 +- 1.5 gives 2998..3002\n"
        );
        assert_eq!(came, expected);
        let (success, _, said) = shell(&["picture", &leg_press, &path, "5"]);
        assert!(!success && said == "a refused question has no picture\n");
    }
}

#[test]
fn show_says_which_box_came_of_it() {
    let folder = Folder::new("shown");
    let leg_press = example("leg_press.txt");
    let cases = [
        ("2999.5 +- 0.25", "2999.5 +- 0.25 gives 2998..3001"),
        (
            "2999.2..3000.1",
            "2999.2..3000.1 gives 2999..3001 (2999.2 taken as 2999.199951171875, 3000.1 taken as 3000.10009765625)",
        ),
        ("0.1 +- 0.5", "0.1 +- 0.5 gives -1..2 (0.1 taken as 0.10000000149011612)"),
        ("1e3 +- 1e-3", "1e3 +- 1e-3 gives 999..1001 (1e-3 taken as 0.0010000000474974513)"),
        ("1e-7..1.50", "1e-7..1.50 gives 0..2 (1e-7 taken as 1.0000000116860974e-7)"),
        ("2999.99999 +- 0", "2999.99999 +- 0 gives 3000..3000 (2999.99999 taken as 3000)"),
        ("2999.99999999999999999 +- 0", "2999.99999999999999999 +- 0 gives 3000..3000 (2999.99999999999999999 taken as 3000)"),
        ("5 +- 1e-50", "5 +- 1e-50 gives 5..5 (1e-50 taken as 0)"),
        ("-0.0 +- 0e9", "-0.0 +- 0e9 gives 0..0"),
        // These floats are just what is written.
        ("0.100000001490116119384765625 +- 0.000e-99", "0.100000001490116119384765625 +- 0.000e-99 gives 0..1"),
        ("02999.50 +- 2500e-4", "02999.50 +- 2500e-4 gives 2998..3001"),
        ("3000 +- 2", "3000 +- 2 gives 2998..3002"),
        ("2998..3002", "2998..3002 gives 2998..3002"),
    ];
    for (position, expected) in cases {
        let text = format!("ask position {position} coasting 2e3..4e3 command 0 allowance 9\n");
        let path = written(&folder, "asks.txt", &text);
        let shown = sheet(&["show", &leg_press, &path]);
        let expected =
            format!("\n  position {expected}\n  coasting 2e3..4e3 gives 2000..4000\n  width ");
        assert!(shown.contains(&expected), "{shown}");
    }
}

/// All that `show` has behind its lines of readings is what it has for the sides of their box.
#[test]
fn show_answers_as_for_the_box() {
    let folder = Folder::new("same-answer");
    let leg_press = example("leg_press.txt");
    let (text, whole) = (
        written(&folder, "a.txt", ASKED),
        written(&folder, "b.txt", WHOLE),
    );
    for number in ["1", "2", "3", "4"] {
        let by_readings = sheet(&["show", &leg_press, &text, number]);
        let by_sides = sheet(&["show", &leg_press, &whole, number]);
        let others: String = by_readings
            .lines()
            .filter(|line| !line.contains(" gives "))
            .map(|line| format!("{}\n", line.replace(" \"point\"", "")))
            .collect();
        assert_eq!(others, by_sides);
        let gives = by_readings.lines().count() - by_sides.lines().count();
        assert_eq!(gives, if number == "4" { 0 } else { 2 });
    }
    let drawn = |path: &str| sheet(&["picture", &leg_press, path, "1"]).replace(" \"point\"", "");
    assert_eq!(
        drawn(&text).replace(" &quot;point&quot;", ""),
        drawn(&whole)
    );
}

/// Whatever bits a float has, the archive's floor and ceiling are those of the same number in 64 bits.
#[test]
fn the_archive_rounds_as_wide_floats_do() {
    let mut numbers = Numbers(24);
    let (mut whole, mut between, mut refused) = (0, 0, 0);
    for _ in 0..200_000 {
        let bits = numbers.whole(0, 1 << 31) as u32 * 2 + numbers.whole(0, 1) as u32;
        let float = match numbers.whole(0, 2) {
            0 => f32::from_bits(bits),
            1 => numbers.real(-1_100_000.0, 1_100_000.0) as f32,
            _ => numbers.whole(-8_800_000, 8_800_000) as f32 / 8.0,
        };
        let wide = f64::from(float);
        let rounded = [wide.floor(), wide.ceil()].map(|side| side as i64);
        let expected = (wide.abs() <= 1_000_000.0).then_some(rounded);
        let found = archive::side(float, false).zip(archive::side(float, true));
        assert_eq!(found.map(|(floor, ceiling)| [floor, ceiling]), expected);
        match expected {
            None => refused += 1,
            Some([floor, ceiling]) if floor == ceiling => whole += 1,
            Some(_) => between += 1,
        }
    }
    println!("{whole} whole, {between} between, {refused} refused");
    assert!(whole > 5_000 && between > 50_000 && refused > 20_000);
}

/// A float as text with a point or an exponent: the shortest that is read as it, one with an exponent, or all digits.
fn float_text(float: f32, numbers: &mut Numbers) -> String {
    match numbers.whole(0, 2) {
        _ if float.is_nan() => "nan".into(),
        _ if float.is_infinite() => float.to_string(),
        0 => format!("{float:?}"),
        1 => format!("{float:e}"),
        _ => format!("{float:.149}"),
    }
}

/// A float about a value, now and then at a limit, beyond one, or none that is finite.
fn random_float(about: f64, limit: f64, numbers: &mut Numbers) -> f32 {
    let above = f64::from((limit as f32).next_up());
    let float = match numbers.whole(0, 99) {
        0 => f64::NAN,
        1 => f64::INFINITY,
        2 => f64::NEG_INFINITY,
        3 => limit,
        4 => -limit,
        5 => above,
        6 => -above,
        7 => -0.0,
        8 => 1e-45,
        9 => -1e-45,
        10..=39 => about.round(),
        _ => about,
    };
    float as f32
}

/// The text of a reading of a variable in or close to its recovery box, and the sides of its box, or the refusal.
fn random_reading(lower: i64, upper: i64, numbers: &mut Numbers) -> (String, Result<[i64; 2], u8>) {
    const LIMIT: f64 = 1_000_000.0;
    let about = numbers.real(lower as f64, upper as f64);
    let more = numbers.real(0.0, 3.0);
    let in_limits = |float: f32| f64::from(float).abs() <= LIMIT;
    let floor = |float: f32| f64::from(float).floor() as i64;
    let ceil = |float: f32| f64::from(float).ceil() as i64;
    match numbers.whole(0, 19) {
        0 => ("none".into(), Err(18)),
        1..=10 => {
            let value = random_float(about, LIMIT, numbers);
            let tolerance = random_float(more, 1_000.0, numbers);
            let good = in_limits(value) && (0.0..=1_000.0).contains(&tolerance);
            let sides = good.then(|| {
                let more = ceil(tolerance);
                [floor(value) - more, ceil(value) + more]
            });
            let value = float_text(value, numbers);
            let text = format!("{value} +- {}", float_text(tolerance, numbers));
            (text, sides.ok_or(19))
        }
        _ => {
            let lower = random_float(about - more, LIMIT, numbers);
            let upper = random_float(about + more, LIMIT, numbers);
            let good = in_limits(lower) && in_limits(upper) && lower <= upper;
            let text = format!(
                "{}..{}",
                float_text(lower, numbers),
                float_text(upper, numbers)
            );
            (text, good.then(|| [floor(lower), ceil(upper)]).ok_or(19))
        }
    }
}

/// What a random line of readings came to: a code of the guard, or the number of the refusal.
#[derive(Clone, Copy, Debug, PartialEq, Eq, PartialOrd, Ord)]
enum Outcome {
    Code(u64),
    Refused(u8),
}

/// A question by random readings: the tool's box and the archive's answer are those expected.
fn random_outcome(text: &SheetText, bytes: &[u8], numbers: &mut Numbers) -> Outcome {
    let (n, recovery) = (text.sheet.n(), &text.sheet.recovery);
    let readings: Vec<(String, Result<[i64; 2], u8>)> = (0..n)
        .map(|i| random_reading(recovery.lower[i], recovery.upper[i], numbers))
        .collect();
    let sides: Result<Vec<[i64; 2]>, u8> = readings.iter().map(|reading| reading.1).collect();
    let mut all_sides = sides.iter().flatten().flatten();
    let out = all_sides.any(|side| side.abs() > 1_000_000).then_some(15);
    let refused = sides.as_ref().err().copied().or(out);
    let named = text.names.variables.iter().zip(&readings);
    let measured: String = named.map(|(v, r)| format!(" {} {}", v.name, r.0)).collect();
    let ending: String = refused.iter().map(|r| format!(" refused {r}")).collect();
    let command = text.sheet.commands.greatest;
    let line = format!("ask{measured} command {command} allowance 200{ending}");
    let asks = asks(&line, text).unwrap_or_else(|said| panic!("{line}: {said}"));
    let found = asks.asks[0].question().map(|question| question.measured);
    let found = found.map(|found| (0..n).map(|i| [found.lower[i], found.upper[i]]).collect());
    assert_eq!(found, sides.ok(), "{line}");
    let answer = asks.asks[0].answer(bytes, &text.sheet);
    let answer = answer.expect("no difference");
    assert_eq!(answer.refusal(), refused, "{line}");
    refused.map_or(Outcome::Code(answer.code()), Outcome::Refused)
}

#[test]
fn random_readings_to_the_examples() {
    let mut numbers = Numbers(25);
    let mut tally: BTreeMap<Outcome, usize> = BTreeMap::new();
    for name in ["sheet_a", "leg_press", "motor", "pendulum", "cable_column"] {
        let text = parsed(name);
        let bytes = text.bytes().expect("an accepted sheet");
        for _ in 0..2_000 {
            let outcome = random_outcome(&text, &bytes, &mut numbers);
            *tally.entry(outcome).or_default() += 1;
        }
    }
    println!("{tally:?}");
    let codes = [0, 1, 2].map(Outcome::Code);
    for outcome in codes.into_iter().chain([15, 18, 19].map(Outcome::Refused)) {
        let count = tally.get(&outcome).copied().unwrap_or_default();
        assert!(count > 50, "{outcome:?} in {tally:?}");
    }
    assert_eq!(tally.len(), 6, "{tally:?}");
}

/// The first reading of one line to sheet A has this note on the floats that are taken.
fn taken(measured: &str) -> String {
    let refused = asks(
        &format!("{}  refused 15", line(measured)),
        &parsed("sheet_a"),
    );
    let accepted = refused.or_else(|_| asks(&line(measured), &parsed("sheet_a")));
    let accepted = accepted.expect("a reading");
    let Asked::Readings(asked) = &accepted.asks[0].asked else {
        panic!("{measured} is no reading");
    };
    asked.readings[0].taken()
}

/// All digits of a float are just its value; with one more digit they are not.
#[test]
fn the_float_is_named_where_it_differs() {
    let mut numbers = Numbers(26);
    for _ in 0..2_000 {
        let size = 10_f64.powf(numbers.real(-44.0, 5.9));
        let float = (size * numbers.real(-1.0, 1.0)) as f32;
        let exact = format!("{float:.149}");
        assert_eq!(taken(&format!("{exact} +- 0")), "");
        let wide = f64::from(float);
        let more = format!("{exact}1");
        let plain = wide == 0.0 || wide.abs() >= 1e-5;
        let said = if plain {
            wide.to_string()
        } else {
            format!("{wide:e}")
        };
        let expected = format!(" ({more} taken as {said})");
        assert_eq!(taken(&format!("{more} +- 0")), expected);
    }
}

/// Puts other letters of numbers into the numbers of a line.
fn with_other_letters(line: &str, numbers: &mut Numbers) -> String {
    const LETTERS: &[u8] = b"0123456789.-+e ";
    let mut line = line.as_bytes().to_vec();
    let of_numbers: Vec<usize> = (0..line.len())
        .filter(|&at| b"0123456789.-+".contains(&line[at]))
        .collect();
    for _ in 0..numbers.whole(1, 3) {
        let at = of_numbers[numbers.whole(0, of_numbers.len() as i64 - 1) as usize];
        line[at] = LETTERS[numbers.whole(0, LETTERS.len() as i64 - 1) as usize];
    }
    String::from_utf8(line).expect("text")
}

/// A damaged line is a question or a fault, and the archive and the tool agree on which.
#[test]
fn damaged_readings_are_accepted_or_faults() {
    let mut numbers = Numbers(27);
    let text = parsed("leg_press");
    let example = example_text("readings.asks.txt");
    let lines: Vec<&str> = example.lines().filter(|l| l.starts_with("ask")).collect();
    let mut tally: BTreeMap<Option<u8>, usize> = BTreeMap::new();
    let mut faults = 0;
    for line in lines.iter().cycle().take(12_000) {
        let line = with_other_letters(line, &mut numbers);
        match asks_text::parse(&line, &text.sheet, &text.names) {
            Ok(_) => *tally.entry(None).or_default() += 1,
            Err(fault) if fault.refusal.is_some() => *tally.entry(fault.refusal).or_default() += 1,
            Err(fault) => {
                assert!(!fault.what.contains("differ"), "{fault}");
                faults += 1;
            }
        }
    }
    println!("{tally:?}, {faults} faults of the text");
    for refusal in [None, Some(14), Some(15), Some(18), Some(19)] {
        let count = tally.get(&refusal).copied().unwrap_or_default();
        assert!(count > 10, "{refusal:?} in {tally:?}");
    }
    assert!(faults > 1_000, "{faults}");
}
