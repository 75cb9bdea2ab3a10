//! Bands with a law of their own (document 02, paper 9): their lines, what is refused of them, and what `show` and
//! the picture say of the plain law's commands.

mod common;

use common::sheets::random_sheet;
use common::{damaged, example, example_text, sheet, shell, Folder, Numbers};
use second_guard::boxes::{State, StateBox, VARIABLES};
use second_guard::machine::plain_commands;
use second_guard::sheet::{CommandRange, Kind, Sheet, FIRST_EDGE, START_LIMIT};
use sheet_tool::plain_law::commands_over;
use sheet_tool::{archive, sheet_parser, sheet_text};

const ROW: &str = "  change x = (-x + 4 u) / 20\n";

/// Sheet A with these lines in the place of its row, from line 10 on.
fn sheet_a(lines: &str) -> String {
    let text = example_text("sheet_a.txt");
    assert!(text.contains(ROW));
    text.replace(ROW, lines)
        .replace("safety 0..0", "safety -25..25")
}

fn fault(text: &str) -> String {
    match sheet_parser::parse(text).and_then(|text| text.bytes()) {
        Ok(_) => "accepted".into(),
        Err(fault) => fault.to_string(),
    }
}

/// The fault of sheet A with this law in line 10.
fn law_fault(law: &str) -> String {
    fault(&sheet_a(&format!("  {law}\n{ROW}")))
}

#[test]
fn the_numbers_of_a_law() {
    for law in [
        "(-1000 x - 100000000) / 4096",
        "(1000 x + 100000000) / 1",
        "(0) / 1",
    ] {
        assert_eq!(law_fault(&format!("law u = {law}")), "accepted");
    }
    let (coefficients, constants) = ("-1000..1000", "-100000000..100000000");
    let cases = [
        ("(1001 x) / 40", "coefficient of x is 1001", coefficients),
        ("(-1001 x) / 40", "coefficient of x is -1001", coefficients),
        ("(100000001) / 40", "constant is 100000001", constants),
        ("(x - 100000001) / 40", "constant is -100000001", constants),
        ("(x) / 0", "divisor is 0", "1..4096"),
        ("(x) / -1", "divisor is -1", "1..4096"),
        ("(x) / 4097", "divisor is 4097", "1..4096"),
        // In the order of the file.
        (
            "(1001 x + 100000001) / 0",
            "coefficient of x is 1001",
            coefficients,
        ),
        ("(x + 100000001) / 0", "constant is 100000001", constants),
    ];
    for (law, what, ends) in cases {
        let refused = "line 10: refused 10 (law or row number): the";
        let expected = format!("{refused} {what}, it has to lie within {ends}");
        assert_eq!(law_fault(&format!("law u = {law}")), expected);
    }
}

/// What is no law has no number of document 02, but a line.
#[test]
fn faults_of_a_laws_line() {
    let command = "line 10: 'u' is the command: it cannot stand in its own law";
    let spread = "line 10: a law has no spread: '+-' cannot stand here";
    let example = "line 10: a law reads like: law u = (-3 x - y + 1200) / 40";
    let cases = [
        ("law u = (-x + 2 u) / 40", command),
        ("law u = (u) / 40", command),
        ("law u = (x + 0 u) / 40", command),
        ("law u = (x +- 3) / 40", spread),
        ("law u = (x +- 0) / 40", spread),
        ("law u = (+- 3) / 40", spread),
        ("law u = x / 40", example),
        ("law u (x) / 40", example),
        ("law u = (x)", "line 10: '/' is missing"),
        (
            "law u = (x) / 40 +- 3",
            "line 10: '+-' is not expected here",
        ),
        (
            "law u = () / 40",
            "line 10: terms are missing; 0 stands for none",
        ),
        ("law u = (x + y) / 40", "line 10: no variable is named 'y'"),
        ("law u = (x + x) / 40", "line 10: two terms of one kind"),
        (
            "law x = (x) / 40",
            "line 10: a law gives the command, and 'x' is not its name",
        ),
        ("law = (x) / 40", "line 10: a name is missing"),
        (
            "law u = (x) / 40\n  law u = (x) / 40",
            "line 11: this stands in an earlier line too",
        ),
    ];
    for (law, expected) in cases {
        assert_eq!(law_fault(law), expected, "{law}");
    }
}

#[test]
fn a_law_stands_between_its_band_and_the_changes() {
    let late = sheet_a(&format!("{ROW}  law u = (x) / 40\n"));
    let expected = "line 11: a law comes before the changes of its band";
    assert_eq!(fault(&late), expected);
    let early =
        example_text("sheet_a.txt").replace("bands by x\n", "bands by x\nlaw u = (x) / 40\n");
    assert_eq!(fault(&early), "line 9: a law comes after its band's line");
}

/// Three bands, each with these lines before its change: they begin on lines 9, 12 and 15 where each has one.
fn three_bands(laws: [&str; 3]) -> String {
    let [first, second, third] = laws;
    let band = |edge: i32, law: &str| format!("band from {edge}  safety 0..0\n{law}{ROW}");
    let (second, third) = (band(0, second), band(50, third));
    sheet_a(&format!("{first}{ROW}{second}{third}"))
}

#[test]
fn every_band_has_a_law_or_none_has() {
    let law = "  law u = (x) / 40\n";
    let (with, without) = (
        "this band has no law, the first band has",
        "the first band has no law",
    );
    let rule = "every band has a law, or none has";
    let cases = [
        ([law, law, law], "accepted".into()),
        (["", "", ""], "accepted".into()),
        ([law, "", ""], format!("line 12: {with}: {rule}")),
        ([law, "", law], format!("line 12: {with}: {rule}")),
        ([law, law, ""], format!("line 15: {with}: {rule}")),
        (["", law, law], format!("line 12: {without}: {rule}")),
        (["", "", law], format!("line 14: {without}: {rule}")),
    ];
    for (laws, expected) in cases {
        assert_eq!(fault(&three_bands(laws)), expected);
    }
}

/// The mark of each band of a file, its records in their places.
fn marks(bytes: &[u8]) -> Vec<&[u8]> {
    let values = archive::read(bytes).expect("a sheet");
    let n = values.n();
    let first = 20 + 2 * n;
    let law = match values.kind() {
        Kind::Fixed => 0,
        Kind::Following => 2 * n + 6,
    };
    let band = 14 + law + n * (2 * n + 12);
    (0..values.bands().len())
        .map(|k| &bytes[first + band * k..][..2])
        .collect()
}

#[test]
fn the_lines_give_the_marks() {
    let law = "  law u = (x) / 40\n";
    for (laws, mark) in [([law, law, law], b"BF"), (["", "", ""], b"BD")] {
        let text = sheet_parser::parse(&three_bands(laws)).expect("a sheet");
        assert_eq!(marks(&text.bytes().expect("accepted")), [mark, mark, mark]);
    }
}

/// A first divisor of 0 does not make the sheet one without laws. Faults before it in the file come first, and
/// those behind it later.
#[test]
fn a_divisor_of_0_is_refused_in_its_place() {
    let law = "  law u = (x) / 40\n";
    let zero = "  law u = (x) / 0\n";
    let refused = |line: usize| {
        format!("line {line}: refused 10 (law or row number): the divisor is 0, it has to lie within 1..4096")
    };
    assert_eq!(fault(&three_bands([zero, law, law])), refused(10));
    assert_eq!(fault(&three_bands([law, zero, law])), refused(13));
    assert_eq!(fault(&three_bands([law, law, zero])), refused(16));
    assert_eq!(fault(&three_bands([zero, zero, zero])), refused(10));
    let cases = [
        ("cap 5", "cap 0", "line 4: refused 6"),
        ("-25..25\n", "25..-25\n", "line 5: refused 4"),
        ("rho 4", "rho 0", "line 6: refused 3"),
        ("from lowest", "from 0", "line 9: refused 8"),
        ("safety -25..25", "safety -26..25", "line 9: refused 9"),
        ("4 u) / 20", "4 u) / 0", "line 10: refused 10"),
        ("from 50", "from 0", "line 10: refused 10"),
        ("x 130..", "x 130..129", "line 10: refused 10"),
        ("-100..100", "-100..200", "line 10: refused 10"),
    ];
    for (old, new, expected) in cases {
        let text = three_bands([zero, law, law]);
        assert!(text.contains(old), "{old}");
        let found = fault(&text.replace(old, new));
        assert!(found.starts_with(expected), "{found}");
    }
}

#[test]
fn pack_writes_nothing_for_a_divisor_of_0() {
    let folder = Folder::new("law-divisor");
    let path = folder.file("zero.txt");
    let text = sheet_a(&format!("  law u = (x) / 0\n{ROW}"));
    std::fs::write(&path, text).expect("the file is written");
    let (success, out, message) = shell(&["pack", &path, "--to", &folder.file("")]);
    assert!(!success && out.is_empty() && !folder.0.join("sheet.bin").exists());
    assert!(
        message.contains("zero.txt: line 10: refused 10 "),
        "{message}"
    );
}

/// A number in the range, at one of its ends, or just beyond one.
fn near(numbers: &mut Numbers, least: i64, greatest: i64) -> i32 {
    let number = match numbers.whole(0, 5) {
        0 => least - 1,
        1 => least,
        2 => greatest,
        3 => greatest + 1,
        _ => numbers.whole(least, greatest),
    };
    number as i32
}

/// A sheet with laws in which one number of one law has another value.
fn with_another_number(numbers: &mut Numbers) -> Sheet {
    let mut sheet = random_sheet(numbers);
    while sheet.kind() == Kind::Fixed {
        sheet = random_sheet(numbers);
    }
    let k = numbers.whole(0, i64::from(sheet.band_count) - 1) as usize;
    let i = numbers.whole(0, i64::from(sheet.variables) - 1) as usize;
    let law = &mut sheet.bands[k].law;
    match numbers.whole(0, 2) {
        0 => law.coefficients[i] = near(numbers, -1_000, 1_000),
        1 => law.constant = near(numbers, -100_000_000, 100_000_000),
        _ => law.divisor = near(numbers, 1, 4_096),
    }
    sheet
}

/// The archive and the tool agree, or `bytes` gives a fault without a number. As text, a law with a first divisor of
/// 0 is refused, too.
#[test]
fn the_archive_and_the_tool_agree_on_laws() {
    let mut numbers = Numbers(15);
    let (mut accepted, mut refused, mut zero) = (0, 0, 0);
    for _ in 0..2_000 {
        let sheet = with_another_number(&mut numbers);
        let mut text = sheet_text::from_sheet(&sheet);
        if sheet.kind() == Kind::Fixed {
            // The text of a sheet without laws; a law in each line makes it another one.
            assert!(!text.has_laws() && text.bytes().is_ok());
            let mut following = sheet;
            following.bands[0].law.divisor = 7;
            let with_laws = sheet_text::from_sheet(&following).text();
            text =
                sheet_parser::parse(&with_laws.replacen(") / 7\n", ") / 0\n", 1)).expect("a text");
            assert_eq!(text.sheet.bands[0].law.divisor, 0);
            zero += 1;
        }
        match text.bytes() {
            Ok(bytes) => {
                assert_eq!(archive::read(&bytes), Ok(sheet));
                accepted += 1;
            }
            Err(fault) => {
                assert_eq!(fault.refusal, Some(10), "{fault}");
                let line = fault.line.expect("a line") - 1;
                assert!(text.lines[line].text.starts_with("  law u = "), "{fault}");
                refused += 1;
            }
        }
    }
    assert!(
        accepted > 500 && refused > 500 && zero > 10,
        "{accepted} {refused} {zero}"
    );
}

/// Two variables and two bands with laws, with names, units, comments and a layout of its own.
fn commented() -> String {
    "# A comment.\nsheet \"two\"\ntick 5 ms\n\
     variable position  cap 9  unit 0.1 mm\nvariable coasting  cap 9  # follows\n\
     command force  -300..300  unit 1 N\ntimes  delta 4  alpha 4  rho 4\nbands by coasting\n\n\
     band from lowest  safety -300..300  # low\n\
     law force=( - 3*coasting+1200 ) / 40   # pulls up\n\
     change position = (coasting - position) / 30\n  change coasting = (force +- 30) / 40\n\
     band from 400  safety -300..0\n\
     \u{20}    law force = (-position - 3 coasting) / 41\n\
     change position = (coasting - position) / 30\n  change coasting = (force +- 30) / 40\n\
     no-go  position 900..  coasting any\n\
     recovery  position -100..500  coasting 0..400\n"
        .into()
}

/// What the program prints of these values with names and comments from that text.
fn like(values: &Sheet, text: &str) -> (bool, String, String) {
    let folder = Folder::new(&format!("law-like-{:?}", std::thread::current().id()));
    let (bin, path) = (folder.file("sheet.bin"), folder.file("like.txt"));
    let bytes = archive::write(values).expect("a sheet");
    std::fs::write(&bin, bytes).expect("the file is written");
    std::fs::write(&path, text).expect("the file is written");
    shell(&["text", &bin, "--like", &path])
}

#[test]
fn names_and_comments_of_laws_stay() {
    let text = commented();
    let parsed = sheet_parser::parse(&text).expect("a sheet");
    let law = parsed.sheet.bands[0].law;
    assert_eq!(law.coefficients[..2], [0, -3]);
    assert_eq!((law.constant, law.divisor), (1_200, 40));
    let same = like(&parsed.sheet, &text);
    assert_eq!(same, (true, text.clone(), String::new()));
    let mut other = parsed.sheet;
    other.bands[0].law.coefficients[0] = 2;
    other.bands[0].law.constant = -7;
    other.bands[1].law.divisor = 1;
    let (success, print, _) = like(&other, &text);
    let expected = text
        .replace(
            "law force=( - 3*coasting+1200 ) / 40   # pulls up",
            "law force = (2 position - 3 coasting - 7) / 40  # pulls up",
        )
        .replace("- 3 coasting) / 41", "- 3 coasting) / 1");
    assert!(success);
    assert_eq!(print, expected);
}

/// The tool and the archive agree on whatever becomes of a text with laws.
#[test]
fn damaged_texts_are_accepted_or_faults() {
    let mut numbers = Numbers(23);
    let (mut accepted, mut refused, mut faults) = (0, 0, 0);
    for _ in 0..8_000 {
        let text = damaged(&commented(), &mut numbers);
        match sheet_parser::parse(&text).and_then(|text| text.bytes()) {
            Ok(_) => accepted += 1,
            Err(fault) if fault.refusal.is_some() => refused += 1,
            Err(fault) => {
                assert!(!fault.what.contains("differ"), "{fault}");
                faults += 1;
            }
        }
    }
    let counts = [accepted, refused, faults];
    assert!(counts.iter().all(|&count| count > 10), "{counts:?}");
}

/// A text with laws has no lines for a sheet without, nor the other way round.
#[test]
fn a_sheet_with_laws_is_not_like_one_without() {
    let text = commented();
    let with_laws = sheet_parser::parse(&text).expect("a sheet").sheet;
    let mut without = with_laws;
    for band in &mut without.bands {
        band.law = Default::default();
    }
    let plain: String = text
        .lines()
        .filter(|line| !line.trim_start().starts_with("law"))
        .map(|line| format!("{line}\n"))
        .collect();
    assert_eq!(like(&without, &plain), (true, plain.clone(), String::new()));
    for (values, text) in [(without, &text), (with_laws, &plain)] {
        let (success, print, message) = like(&values, text);
        assert!(!success && print.is_empty());
        let words = "like.txt: one sheet has a law in each band, and the other has none\n";
        assert!(message.ends_with(words), "{message}");
    }
}

/// Sheet A with a law that pulls x back. After the command's ticks x is in 16..20, and under the plain law it is in
/// 8..20: -x / 4 is from -5 to -2 there. In the second question it is in 71..104, where -26 is cut to -25.
#[test]
fn show_says_the_plain_laws_commands() {
    let folder = Folder::new("law-shown");
    let path = folder.file("law.txt");
    let text = sheet_a(&format!("  law u = (-x) / 4\n{ROW}"));
    std::fs::write(&path, text).expect("the file is written");
    let asks = example("sheet_a.asks.txt");
    let shown = sheet(&["show", &path, &asks]);
    let rows = [
        "    0..4   u 25                 2       16..20\n    4..8   plain law: u -5..-2  2       8..20\n",
        "    0..4   u 25                   3       91..104\n    4..8   plain law: u -25..-17  2       71..84\n",
    ];
    for row in rows {
        assert!(shown.contains(row), "{shown}");
    }
    let check = sheet(&["show", &path]);
    assert!(
        check.contains("    0..4   plain law: u -25..25  1       -80..80\n"),
        "{check}"
    );
    // The panel of commands has the same ones.
    let drawn = sheet(&["picture", &path, &asks, "2"]);
    assert!(drawn.contains(">command: 25</text>"));
    assert!(drawn.contains(">plain law: -25..-17</text>"));
    assert!(drawn.contains(">plain law within -25..25</text>"));
}

/// One command where the law has one over the whole box.
#[test]
fn one_command_is_said_as_one() {
    let folder = Folder::new("law-one");
    let path = folder.file("law.txt");
    let text = sheet_a(&format!("  law u = (-7) / 2\n{ROW}")).replace("-25..25  ", "-3..25  ");
    std::fs::write(&path, text).expect("the file is written");
    let check = sheet(&["show", &path]);
    assert!(check.contains("    0..4   plain law: u -3  "), "{check}");
}

/// A box around a state that has a band, now and then of one state.
fn random_start(sheet: &Sheet, numbers: &mut Numbers) -> StateBox {
    let mut sides = StateBox::default();
    let size = [0, 300, 900_000][numbers.whole(0, 2) as usize];
    for i in 0..sheet.n() {
        sides.lower[i] = numbers.whole(-START_LIMIT, START_LIMIT);
        sides.upper[i] = sides.lower[i] + numbers.whole(0, size);
    }
    sides
}

/// A state of a box: any one, or a corner.
fn state_in(sides: &StateBox, numbers: &mut Numbers) -> State {
    let corner = numbers.whole(0, 1) == 0;
    std::array::from_fn(|i| match (corner, numbers.whole(0, 1)) {
        (true, 0) => sides.lower[i],
        (true, _) => sides.upper[i],
        _ => numbers.whole(sides.lower[i], sides.upper[i]),
    })
}

/// Every corner of the parts that a box has in the bands.
fn corners(sheet: &Sheet, sides: &StateBox) -> Vec<State> {
    let v = sheet.band_variable as usize;
    let edges = sheet.bands().iter().map(|band| i64::from(band.edge));
    let inside = edges.filter(|edge| sides.lower[v] < *edge && *edge <= sides.upper[v]);
    let mut values = vec![sides.lower[v], sides.upper[v]];
    values.extend(inside.flat_map(|edge| [edge - 1, edge]));
    let mut states = vec![State::default()];
    for i in 0..sheet.n() {
        let at = match i == v {
            true => values.clone(),
            false => vec![sides.lower[i], sides.upper[i]],
        };
        let with = |state: &State, value: &i64| {
            let mut state = *state;
            state[i] = *value;
            state
        };
        let all = states
            .iter()
            .flat_map(|state| at.iter().map(|x| with(state, x)));
        states = all.collect();
    }
    states
}

/// The law of a random sheet, made so that most of its commands are not cut to the safety range.
fn gentle(sheet: &mut Sheet, numbers: &mut Numbers) {
    for band in &mut sheet.bands {
        let CommandRange { least, greatest } = sheet.commands;
        band.safety = CommandRange { least, greatest };
        for coefficient in &mut band.law.coefficients {
            *coefficient = numbers.whole(-3, 3) as i32;
        }
        band.law.divisor = numbers.whole(200, 4_096) as i32;
        band.law.constant = numbers.whole(-1_000_000, 1_000_000) as i32;
    }
}

/// What is said of a box holds of each of its states, and its ends are commands at states of the box.
#[test]
fn the_commands_over_a_box_are_those_of_its_states() {
    let mut numbers = Numbers(16);
    let (mut several_bands, mut uncut) = (0, 0);
    for _ in 0..3_000 {
        let mut sheet = random_sheet(&mut numbers);
        if sheet.kind() == Kind::Fixed {
            continue;
        }
        if numbers.whole(0, 2) > 0 {
            gentle(&mut sheet, &mut numbers);
        }
        let sides = random_start(&sheet, &mut numbers);
        let over = commands_over(&sheet, &sides);
        for _ in 0..20 {
            let at = plain_commands(&sheet, &state_in(&sides, &mut numbers)).expect("a band");
            assert!(over.holds_range(&at), "{over:?} {at:?}");
        }
        let corners = corners(&sheet, &sides);
        let at = |state| plain_commands(&sheet, state).expect("a band");
        let least = corners.iter().map(|state| at(state).least).min();
        let greatest = corners.iter().map(|state| at(state).greatest).max();
        assert_eq!((least, greatest), (Some(over.least), Some(over.greatest)));
        several_bands += usize::from(corners.len() > 1 << sheet.n());
        uncut += usize::from(
            over.least > sheet.commands.least && over.greatest < sheet.commands.greatest,
        );
    }
    assert!(several_bands > 50 && uncut > 50, "{several_bands} {uncut}");
}

/// Six variables with a law: every term has its coefficient, and a seventh variable is refused.
#[test]
fn six_variables() {
    let names = ["a", "b", "c", "d", "e", "f"];
    let variables: String = names
        .map(|name| format!("variable {name}  cap 5\n"))
        .concat();
    let rows: String = names
        .map(|name| format!("  change {name} = (-{name} + u) / 20\n"))
        .concat();
    let sides = |range: &str| names.map(|name| format!("  {name} {range}")).concat();
    let law = "  law u = (a - 2 b + 3 c - 4 d + 5 e - 6 f + 7) / 8\n";
    let text = format!(
        "{variables}command u  -25..25\ntimes  delta 4  alpha 4  rho 4\nbands by f\n\
         band from lowest  safety -25..25\n{law}{rows}no-go{}\nrecovery{}\n",
        sides("130.."),
        sides("-100..100")
    );
    let parsed = sheet_parser::parse(&text).expect("a sheet");
    let bytes = parsed.bytes().expect("accepted");
    let back = archive::read(&bytes).expect("a sheet");
    assert_eq!(back.n(), VARIABLES);
    assert_eq!(back.bands[0].law.coefficients, [1, -2, 3, -4, 5, -6]);
    assert_eq!(
        (back.bands[0].law.constant, back.bands[0].law.divisor),
        (7, 8)
    );
    assert_eq!(back.bands[0].edge, FIRST_EDGE);
    assert_eq!(like(&back, &text), (true, text.clone(), String::new()));
    let seven = text.replace("command u", "variable g  cap 5\ncommand u");
    let expected = "line 7: refused 2 (n, a count or band variable out of range): \
                    the number of variables is 7, it has to lie within 1..6";
    assert_eq!(fault(&seven), expected);
}
