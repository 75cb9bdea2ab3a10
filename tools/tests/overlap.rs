//! A recovery box that shares a state with a no-go box (document 02, paper 8): what the tool says of a text and
//! of bytes, and what it draws.

mod common;

use common::sheets::random_sheet;
use common::{example, example_text, load, record_at, shell};
use common::{with_equal_variables, with_records, Folder, Numbers};
use second_guard::boxes::{StateBox, VARIABLES};
use second_guard::sheet::Sheet;
use sheet_tool::overlap_picture::overlap_picture;
use sheet_tool::{archive, sheet_parser, sheet_text};

const OVERLAP: &str = "refused 22 (recovery box shares a state with a no-go box)";

/// Sheet A with other boxes: the no-go boxes begin on line 12, and the recovery box follows them.
fn sheet_a(boxes: &str, recovery: &str) -> String {
    let text = example_text("sheet_a.txt");
    let stands = "no-go \"the end\"  x 130..\nrecovery  x -100..100\n";
    assert!(text.contains(stands));
    text.replace(stands, &format!("{boxes}recovery  x {recovery}\n"))
}

/// The fault of a text, with OVERLAP in the place of the refusal's own words.
fn fault(text: &str) -> String {
    match sheet_parser::parse(text).and_then(|text| text.bytes()) {
        Ok(_) => "accepted".into(),
        Err(fault) => fault.to_string().replace(OVERLAP, "OVERLAP"),
    }
}

#[test]
fn the_no_go_box_is_named_with_its_line() {
    let named = "no-go \"the end\"  x 130..\n";
    let cases = [
        (
            named,
            "-100..200",
            "line 13: OVERLAP: the recovery box shares x 130..200 with no-go box \"the end\" on line 12",
        ),
        (
            "# one more line\nno-go  x 130..\n",
            "-100..200",
            "line 14: OVERLAP: the recovery box shares x 130..200 with the no-go box on line 13",
        ),
        // Inside the other, either way round.
        (
            named,
            "150",
            "line 13: OVERLAP: the recovery box shares x 150..150 with no-go box \"the end\" on line 12",
        ),
        (
            "no-go  x -5..7\n",
            "-100..100",
            "line 13: OVERLAP: the recovery box shares x -5..7 with the no-go box on line 12",
        ),
        (
            "no-go  x any\n",
            "-1000000..1000000",
            "line 13: OVERLAP: the recovery box shares x -1000000..1000000 with the no-go box on line 12",
        ),
    ];
    for (boxes, recovery, expected) in cases {
        assert_eq!(fault(&sheet_a(boxes, recovery)), expected);
    }
}

/// One common value is enough, at either end, and the next value is not.
#[test]
fn boxes_that_touch() {
    let boxes = "no-go \"low\"  x ..-101\nno-go \"high\"  x 130..140\n";
    let shares = |x: &str, name: &str, line: usize| {
        format!("line 14: OVERLAP: the recovery box shares x {x} with no-go box \"{name}\" on line {line}")
    };
    let cases = [
        ("-100..129", "accepted".into()),
        ("-101..129", shares("-101..-101", "low", 12)),
        ("-100..130", shares("130..130", "high", 13)),
        ("140..150", shares("140..140", "high", 13)),
        ("141..150", "accepted".into()),
    ];
    for (recovery, expected) in cases {
        assert_eq!(fault(&sheet_a(boxes, recovery)), expected);
    }
}

/// The first in the order of the file has its states named, and all others their lines in the text.
#[test]
fn several_no_go_boxes() {
    let cases = [
        (
            "no-go \"high\"  x 90..\nno-go  x 0..5\n",
            "line 14: OVERLAP: the recovery box shares x 0..5 with the no-go box on line 13; \
             it also shares states with no-go box \"high\" on line 12",
        ),
        (
            "no-go \"high\"  x 90..\n# between\nno-go \"apart\"  x 101..\nno-go  x ..-100\nno-go \"one\"  x 1\n",
            "line 17: OVERLAP: the recovery box shares x -100..-100 with the no-go box on line 15; \
             it also shares states with no-go box \"one\" on line 16, no-go box \"high\" on line 12",
        ),
        (
            "no-go  x 4\nno-go  x 3\nno-go \"two\"  x 2\nno-go  x 1\n",
            "line 16: OVERLAP: the recovery box shares x 1..1 with the no-go box on line 15; \
             it also shares states with no-go box \"two\" on line 14, the no-go box on line 13, \
             the no-go box on line 12",
        ),
    ];
    for (boxes, expected) in cases {
        assert_eq!(fault(&sheet_a(boxes, "-100..100")), expected);
    }
}

/// The test of the boxes is the last one of a sheet.
#[test]
fn every_other_fault_comes_first() {
    let cases = [
        ("cap 5", "cap 0", "line 4: refused 6"),
        ("rho 4", "rho 0", "line 6: refused 3"),
        ("-25..25", "25..-25", "line 5: refused 4"),
        ("safety 0..0", "safety 0..26", "line 9: refused 9"),
        ("u) / 20", "u) / 0", "line 10: refused 10"),
        ("x 130..", "x 5..4", "line 12: refused 11"),
        ("x 130..", "x 130..\nno-go  x 130..", "line 13: refused 20"),
        ("-100..200", "200..-100", "line 13: refused 11"),
        ("-100..200", "-100..1000001", "line 13: refused 11"),
        ("-100..200", "-100..201", "line 13: OVERLAP"),
    ];
    for (old, new, expected) in cases {
        let text = sheet_a("no-go  x 130..\n", "-100..200");
        assert!(text.contains(old));
        let found = fault(&text.replace(old, new));
        assert!(found.starts_with(expected), "{found}");
    }
}

/// A sheet of n variables with two boxes: their sides are 10..20 and 20..30 in each variable.
fn touching(n: usize) -> Sheet {
    let (sheet, _, _) = load("pendulum");
    let mut sheet = with_equal_variables(sheet);
    (sheet.variables, sheet.unsafe_count) = (n as i32, 1);
    sheet.recovery = StateBox {
        lower: [10; VARIABLES],
        upper: [20; VARIABLES],
    };
    let unsafe_box = StateBox {
        lower: [20; VARIABLES],
        upper: [30; VARIABLES],
    };
    sheet.unsafe_boxes = [unsafe_box; 8];
    sheet
}

/// The values of a sheet as a text with plain names: its fault, and how often its picture marks a common part.
fn said_and_marked(sheet: &Sheet) -> (String, usize) {
    let text = sheet_text::from_sheet(sheet).text();
    let folder = Folder::new(&format!("marked-{:?}", std::thread::current().id()));
    let path = folder.file("sheet.txt");
    std::fs::write(&path, &text).expect("the file is written");
    let (_, picture, _) = shell(&["picture", &path]);
    (fault(&text), marks(&picture).len())
}

/// Boxes that lie apart in one variable share no state, whatever the others do. What lies beyond n does not
/// count.
#[test]
fn every_variable_counts_and_no_other() {
    for n in 1..=VARIABLES {
        let sheet = touching(n);
        let (said, marked) = said_and_marked(&sheet);
        let sides: Vec<String> = (1..=n).map(|i| format!("x{i} 20..20")).collect();
        let words = format!("the recovery box shares {} with", sides.join(", "));
        assert!(said.contains(&words), "{said}");
        assert_eq!(marked, n);
        for i in 0..VARIABLES {
            let mut apart = sheet;
            apart.unsafe_boxes[0].lower[i] = 21;
            assert_eq!(archive::write(&apart).is_ok(), i < n);
            let expected = match i < n {
                true => ("accepted".into(), 0),
                false => (said.clone(), n),
            };
            assert_eq!(said_and_marked(&apart), expected);
        }
    }
}

/// Eight boxes that lie apart in the second variable, but for one. Boxes beyond the count are not looked at.
#[test]
fn every_no_go_box_counts() {
    for at in 0..8 {
        let mut sheet = touching(2);
        for (j, unsafe_box) in sheet.unsafe_boxes.iter_mut().enumerate() {
            unsafe_box.lower[..2].copy_from_slice(&[j as i64, 21]);
        }
        sheet.unsafe_boxes[at].lower[1] = 20;
        sheet.unsafe_count = at as i32;
        assert_eq!(archive::write(&sheet).err(), (at == 0).then_some(2));
        sheet.unsafe_count = 8;
        let (said, marked) = said_and_marked(&sheet);
        let words =
            "line 17: OVERLAP: the recovery box shares x1 10..20, x2 20..20 with the no-go box";
        assert_eq!(said, format!("{words} on line {}", 9 + at));
        assert_eq!(marked, 2);
    }
}

/// The leg press with three no-go records and another recovery record.
fn leg_press(recovery: [i32; 4]) -> Vec<u8> {
    let (_, mut bytes, _) = load("leg_press");
    let at = record_at(&bytes, 3) + 2;
    for (i, side) in recovery.into_iter().enumerate() {
        bytes[at + 4 * i..][..4].copy_from_slice(&side.to_be_bytes());
    }
    bytes
}

/// The program refuses these bytes with these words. A picture is all that it prints.
fn refuses_bytes(bytes: &[u8], words: &str) {
    let folder = Folder::new("overlap-bytes");
    let path = folder.file("sheet.bin");
    std::fs::write(&path, bytes).expect("the file is written");
    for verb in ["text", "list", "show", "picture", "pack", "order"] {
        let (success, out, message) = shell(&[verb, &path]);
        assert!(!success);
        assert_eq!(message, format!("{path}: {OVERLAP}: {words}\n"));
        assert_eq!(out.ends_with("</svg>\n"), verb == "picture");
        assert_eq!(out.is_empty(), verb != "picture");
    }
}

/// The records of a file have no names and no lines, but numbers.
#[test]
fn bytes_are_refused_by_record() {
    let cases = [
        (
            [1_000, 5_800, 1_400, 4_600],
            "the recovery record shares x1 5800..5800, x2 1400..4600 with no-go record 3",
        ),
        (
            [500, 5_799, 300, 4_600],
            "the recovery record shares x1 500..800, x2 300..300 with no-go record 2",
        ),
        (
            [200, 6_000, -100, 4_600],
            "the recovery record shares x1 200..200, x2 -100..4600 with no-go record 1; \
             it also shares states with no-go record 2, no-go record 3",
        ),
    ];
    for (recovery, words) in cases {
        let bytes = leg_press(recovery);
        assert_eq!(archive::read(&bytes).err(), Some(22));
        refuses_bytes(&bytes, words);
    }
    assert!(archive::read(&leg_press([500, 5_799, 301, 4_600])).is_ok());
}

/// `sheet order` puts the records in order before it finds the overlap. It writes nothing, and the records have
/// the numbers of the file that it was given.
#[test]
fn records_out_of_order_keep_their_numbers() {
    let folder = Folder::new("overlap-order");
    let (old, to) = (folder.file("old.bin"), folder.file(""));
    let cases = [
        ([2, 0, 1], "x1 5800..6000, x2 300..4600 with no-go record 1; it also shares states with no-go record 3"),
        ([1, 2, 0], "x1 500..800, x2 300..300 with no-go record 1; it also shares states with no-go record 2"),
        ([2, 1, 0], "x1 5800..6000, x2 300..4600 with no-go record 1; it also shares states with no-go record 2"),
    ];
    for (order, words) in cases {
        let bytes = with_records(&leg_press([500, 6_000, 300, 4_600]), &order);
        assert_eq!(archive::read(&bytes).err(), Some(20));
        std::fs::write(&old, &bytes).expect("the file is written");
        let (success, out, message) = shell(&["order", &old, "--to", &to]);
        assert!(!success && out.is_empty() && !folder.0.join("sheet.bin").exists());
        let words = format!("the recovery record shares {words}");
        assert_eq!(message, format!("{old}: {OVERLAP}: {words}\n"));
        // As it stands, the order is what is wrong, and there is no picture.
        let (success, out, message) = shell(&["picture", &old]);
        assert!(!success && out.is_empty() && message.contains("refused 20"));
    }
}

/// The corners of each common part that a picture marks.
fn marks(picture: &str) -> Vec<&str> {
    let marked = picture
        .lines()
        .filter(|line| line.contains("class=\"common\""));
    marked
        .map(|line| line.split('"').nth(1).expect("a path"))
        .collect()
}

/// The program draws a text that it refuses: the picture, and the message without the file's name.
fn drawn(text: &str, more: &[&str]) -> (String, String) {
    let folder = Folder::new(&format!("drawn-{:?}", std::thread::current().id()));
    let path = folder.file("sheet.txt");
    std::fs::write(&path, text).expect("the file is written");
    let (success, picture, message) = shell(&[&["picture", &path], more].concat());
    assert!(!success);
    let message = message
        .strip_prefix(&format!("{path}: "))
        .expect("the file");
    (picture, message.trim_end().into())
}

/// The lines of words above the panels, which are the refusal's.
fn refusal_in(picture: &str) -> String {
    let words = picture.lines().filter_map(|line| {
        let (_, words) = line.split_once("text-anchor=\"start\" >")?;
        words.strip_suffix("</text>")
    });
    words.collect::<Vec<_>>().join(" ")
}

fn holds(picture: &str, element: &str) -> bool {
    picture.lines().any(|line| line == element)
}

/// The panel lies between 126 and 316. It shows x from -6 to 106, so that a value is 190 / 112 high. Each no-go
/// box has a column of 350, of which it fills the middle 210.
#[test]
fn the_common_part_is_marked_where_it_is() {
    let boxes = "no-go \"high\"  x 75..\nno-go  x ..25\n";
    let (picture, message) = drawn(&sheet_a(boxes, "0..100"), &[]);
    let corners = [
        "M150.0 305.8L360.0 305.8L360.0 263.4L150.0 263.4Z",
        "M500.0 178.6L710.0 178.6L710.0 136.2L500.0 136.2Z",
    ];
    assert_eq!(marks(&picture), corners);
    for corners in corners {
        let paint = "fill=\"none\" stroke=\"#742a2a\" stroke-width=\"2.5\"";
        let mark = format!("<path d=\"{corners}\" class=\"common\" {paint}/>");
        assert!(holds(&picture, &mark), "{mark}");
    }
    assert_eq!(picture.matches(">common part</text>").count(), 2);
    assert_eq!(refusal_in(&picture), message);
    assert!(message.starts_with(&format!(
        "line 14: {OVERLAP}: the recovery box shares x 0..25 "
    )));
    assert!(picture.contains(">no-go 1: shares x 0..25</text>"));
    assert!(picture.contains(">no-go 2 \"high\": shares x 75..100</text>"));
}

/// The recovery box lies across all columns, each no-go box in its own. The panel lies between 110 and 300 and
/// shows x from -4.8 to 84.8.
#[test]
fn both_boxes_are_drawn() {
    let boxes = "no-go  x ..25\nno-go  x 75..80\nno-go  x 5000..\n";
    let (picture, _) = drawn(&sheet_a(boxes, "0..70"), &[]);
    let elements = [
        "<rect x=\"80.0\" y=\"141.4\" width=\"700.0\" height=\"148.4\" fill=\"#2f855a\" fill-opacity=\"0.1\"/>",
        "<path d=\"M126.7 300.0L266.7 300.0L266.7 236.8L126.7 236.8Z\" fill=\"#c53030\" fill-opacity=\"0.45\" \
         stroke=\"#c53030\" stroke-width=\"1\"/>",
        "<path d=\"M360.0 130.8L500.0 130.8L500.0 120.2L360.0 120.2Z\" fill=\"#c53030\" fill-opacity=\"0.12\" \
         stroke=\"#c53030\" stroke-width=\"1\"/>",
    ];
    for element in elements {
        assert!(holds(&picture, element), "{element}");
    }
    // The third box lies outside the panel.
    assert!(picture.contains("<text x=\"663.3\" y=\"122.0\"") && picture.contains(">above</text>"));
    assert_eq!(picture.matches("no-go 3").count(), 2);
    assert!(picture.contains(">no-go 3: shares no state, apart in x</text>"));
    // There is no answer, so there is no attempt either.
    assert!(
        !picture.contains("tick")
            && !picture.contains("width of")
            && !picture.contains("plain law")
    );
}

#[test]
fn the_key_has_every_kind_of_box() {
    let (picture, _) = drawn(&sheet_a("no-go  x 7\n", "0..70"), &[]);
    let at = picture
        .lines()
        .position(|line| line.ends_with(">common part of both boxes</text>"));
    let lines: Vec<&str> = picture.lines().collect();
    let at = at.expect("the key");
    // The strokes and the outline of the common part, as it is marked.
    assert!(lines[at - 2].starts_with("<path d=\"M80.0 ") && lines[at - 2].contains("#742a2a"));
    assert!(lines[at - 1].ends_with("fill=\"none\" stroke=\"#742a2a\" stroke-width=\"2.5\"/>"));
    let words = [
        "recovery box",
        "no-go box that shares states",
        "no-go box that shares none",
    ];
    for (k, words) in words.into_iter().enumerate() {
        assert!(lines[at + 1 + 2 * k].starts_with("<rect "));
        assert!(lines[at + 2 + 2 * k].ends_with(&format!(">{words}</text>")));
    }
}

/// All numbers of a path, as places.
fn places(path: &str) -> Vec<(f64, f64)> {
    let numbers: Vec<f64> = path
        .split(['M', 'L', 'Z', ' '])
        .filter(|number| !number.is_empty())
        .map(|number| number.parse().expect("a number"))
        .collect();
    numbers
        .chunks(2)
        .map(|place| (place[0], place[1]))
        .collect()
}

/// The strokes of each common part lie in it. One without height has none, and its edge is drawn all the same.
#[test]
fn strokes_stay_within_the_common_part() {
    let boxes = "no-go  x ..25\nno-go  x 70..\n";
    let (picture, _) = drawn(&sheet_a(boxes, "0..70"), &[]);
    let lines: Vec<&str> = picture.lines().collect();
    let is_mark = |line: &&str| line.contains("class=\"common\"");
    let at = lines.iter().position(is_mark).expect("a mark");
    let path = |line: &str| places(line.split('"').nth(1).expect("a path"));
    let (corners, strokes) = (path(lines[at]), path(lines[at - 1]));
    assert!(strokes.len() > 20);
    for (x, y) in strokes {
        assert!(corners[0].0 <= x && x <= corners[1].0, "{x}");
        assert!(corners[2].1 <= y && y <= corners[0].1, "{y}");
    }
    // Its words stand between the two marks.
    assert!(is_mark(&lines[at + 2]) && lines[at + 1].ends_with(">common part</text>"));
    let flat = path(lines[at + 2]);
    assert!(flat.iter().all(|place| place.1 == flat[0].1));
}

/// In the leg press's panels the rear buffer lies over the recovery box in coasting, and the box near the seat in
/// position; neither shares a state with it. The front buffer does.
#[test]
fn overlaps_in_some_variables_are_not_marked() {
    let text = example_text("leg_press.txt");
    let recovery = "recovery  position 1000..5000  coasting 1400..4600";
    assert!(text.contains(recovery));
    let wide = text.replace(recovery, "recovery  position 300..5900  coasting 301..4600");
    let (picture, message) = drawn(&wide, &[]);
    let words = "the recovery box shares position 5800..5900, coasting 301..4600 with";
    assert_eq!(
        message,
        format!("line 77: {OVERLAP}: {words} no-go box \"front buffer\" on line 74")
    );
    assert_eq!(marks(&picture).len(), 2);
    assert!(marks(&picture)
        .iter()
        .all(|mark| mark.starts_with("M593.3 ")));
    let lines = [
        "no-go 1 \"rear buffer\": shares no state, apart in position",
        "no-go 2 \"too fast near the seat\": shares no state, apart in coasting",
        "no-go 3 \"front buffer\": shares position 580.0..590.0 mm, coasting 30.1..460.0 mm",
    ];
    for line in lines {
        assert!(picture.contains(&format!(">{line}</text>")), "{line}");
    }
}

/// There is no answer to any question, and no width: whatever is asked for, the boxes are drawn.
#[test]
fn every_picture_of_such_a_sheet_is_the_same() {
    let text = sheet_a("no-go  x 7\n", "0..70");
    let asks = example("sheet_a.asks.txt");
    let (picture, message) = drawn(&text, &[]);
    let uses: [&[&str]; 3] = [
        &[&asks, "2"],
        &["--width", "3"],
        &[&asks, "1", "--width", "4"],
    ];
    for more in uses {
        assert_eq!(drawn(&text, more), (picture.clone(), message.clone()));
    }
    let (success, out, message) = shell(&["picture", &example("overlap.txt"), &asks]);
    assert!(!success && out.is_empty() && message.starts_with("sheet pack"));
}

/// Where anything else is at fault there is no picture.
#[test]
fn other_faults_are_not_drawn() {
    for recovery in ["70..0", "0..1000001"] {
        let (picture, message) = drawn(&sheet_a("no-go  x 7\n", recovery), &[]);
        assert!(picture.is_empty() && message.contains("refused 11"));
    }
}

/// A picture of bytes has plain names. The first panel shows x1 from -142 to 6242 between 300 and 110, the second
/// one x2 from 42 to 4858 between 524 and 334.
#[test]
fn bytes_are_drawn_too() {
    let folder = Folder::new("drawn-bytes");
    let path = folder.file("sheet.bin");
    std::fs::write(&path, leg_press([1_000, 5_900, 1_400, 4_600])).expect("the file is written");
    let (success, picture, message) = shell(&["picture", &path]);
    assert!(!success);
    let corners = [
        "M593.3 123.2L733.3 123.2L733.3 120.2L593.3 120.2Z",
        "M593.3 470.4L733.3 470.4L733.3 344.2L593.3 344.2Z",
    ];
    assert_eq!(marks(&picture), corners);
    assert_eq!(format!("{path}: {}\n", refusal_in(&picture)), message);
    assert!(picture.contains(">sheet, refused</text>"));
    assert!(picture.contains(">no-go 3: shares x1 5800..5900, x2 1400..4600</text>"));
}

/// Random sheets with another recovery box: the tool and the archive agree, every box that shares a state has its
/// line in the words and a mark in each panel, and no other has.
#[test]
fn random_recovery_boxes() {
    let mut numbers = Numbers(14);
    let (mut accepted, mut one, mut several) = (0, 0, 0);
    for _ in 0..1_000 {
        let mut sheet = random_sheet(&mut numbers);
        let other = random_sheet(&mut numbers);
        sheet.recovery = other.recovery;
        for i in other.n()..sheet.n() {
            sheet.recovery.upper[i] = numbers.whole(0, 1_000_000);
        }
        for i in sheet.n()..other.n() {
            (sheet.recovery.lower[i], sheet.recovery.upper[i]) = (0, 0);
        }
        let meets = |j: &usize| sheet.unsafe_boxes[*j].meets(&sheet.recovery);
        let met: Vec<usize> = (0..sheet.unsafe_boxes().len()).filter(meets).collect();
        match met.len() {
            0 => accepted += 1,
            1 => one += 1,
            _ => several += 1,
        }
        agrees(&sheet, &met);
    }
    let counts = [accepted, one, several];
    assert!(counts.iter().all(|&count| count > 100), "{counts:?}");
}

fn agrees(sheet: &Sheet, met: &[usize]) {
    let text = sheet_text::from_sheet(sheet);
    let fault = text.bytes().err();
    assert_eq!(
        fault.as_ref().map(|fault| fault.refusal),
        (!met.is_empty()).then_some(Some(22))
    );
    let said = fault.map(|fault| fault.to_string()).unwrap_or_default();
    let first = text.unsafe_lines()[0];
    let lines: Vec<usize> = met.iter().map(|j| first + j).collect();
    let named: Vec<usize> = said
        .split(" on line ")
        .skip(1)
        .map(|rest| {
            rest.split([';', ','])
                .next()
                .expect("a part")
                .parse()
                .expect("a line")
        })
        .collect();
    assert_eq!(named, lines);
    let picture = overlap_picture(&said, sheet, &text.names);
    assert_eq!(marks(&picture).len(), sheet.n() * met.len());
    assert_eq!(
        picture.matches(": shares no state").count(),
        sheet.unsafe_boxes().len() - met.len()
    );
}
