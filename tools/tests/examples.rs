//! Rebuilds every example and compares it with what stands in examples/.
//! With UPDATE_EXAMPLES=1 the listings and pictures there are written anew.

mod common;

use common::{example, example_text, load, sheet, shell, Folder};
use second_guard::decision::{Decision, RecoveryCheck};
use second_guard::{decision, listing};
use sheet_tool::questions::{cut, AskedQuestion, Commands};
use sheet_tool::{archive, asks_text, sheet_parser};
use std::collections::BTreeSet;

/// Each example, and the question that its picture shows.
const EXAMPLES: [(&str, &str); 5] = [
    ("sheet_a", "2"),
    ("leg_press", "6"),
    ("motor", "4"),
    ("pendulum", "6"),
    ("cable_column", "8"),
];

/// Compares with a file of examples/, or writes it.
fn compare(name: &str, made: &str) {
    let path = example(name);
    if std::env::var_os("UPDATE_EXAMPLES").is_some() {
        std::fs::write(&path, made).expect("the file is written");
    }
    let stands = std::fs::read_to_string(&path).expect("the file is there");
    assert!(stands == made, "{name} differs from what the tool makes");
}

#[test]
fn listings() {
    for (name, _) in EXAMPLES {
        let made = sheet(&["list", &text(name), &asks(name)]);
        compare(&format!("{name}.listing"), &made);
    }
}

#[test]
fn pictures() {
    for (name, question) in EXAMPLES {
        let made = sheet(&["picture", &text(name), &asks(name), question]);
        compare(&format!("{name}.svg"), &made);
    }
}

/// The example that is refused: its words stand in the README, and its picture beside it.
#[test]
fn the_overlap_is_said_and_drawn() {
    let path = text("overlap");
    let (success, made, message) = shell(&["picture", &path]);
    assert!(!success);
    compare("overlap.svg", &made);
    let said = message.replace(&path, "overlap.txt");
    assert!(
        example_text("README.md").contains(&format!("\n    {said}\n")),
        "{said}"
    );
}

#[test]
fn the_overlap_is_the_leg_press_with_another_recovery_box() {
    let parsed = |name| sheet_parser::parse(&example_text(name)).expect("a sheet's text");
    let (leg_press, mut overlap) = (parsed("leg_press.txt"), parsed("overlap.txt"));
    assert!(overlap.sheet != leg_press.sheet);
    overlap.sheet.recovery = leg_press.sheet.recovery;
    overlap.names.title = leg_press.names.title.clone();
    assert!(overlap.sheet == leg_press.sheet && overlap.names == leg_press.names);
}

/// The questions by readings, which are to the leg press.
#[test]
fn readings_are_listed() {
    let made = sheet(&["list", &text("leg_press"), &asks("readings")]);
    compare("readings.listing", &made);
    let line = |listing: &str, number: &str| {
        let mut lines = listing.lines();
        lines.find_map(|line| line.strip_prefix(number).map(String::from))
    };
    let answer = line(&example_text("leg_press.listing"), "1 ");
    assert!(answer.is_some() && line(&made, "1 ") == answer && line(&made, "2 ") == answer);
}

/// The second guard has the same answer to each question by readings that has a box.
#[test]
fn the_second_guard_answers_the_boxes_of_readings() {
    let sheet = sheet_parser::parse(&example_text("leg_press.txt")).expect("a sheet");
    let bytes = sheet.bytes().expect("an accepted sheet");
    let asks = example_text("readings.asks.txt");
    let asks = asks_text::parse(&asks, &sheet.sheet, &sheet.names).expect("questions");
    let listing = example_text("readings.listing");
    let (mut with_box, mut without) = (0, 0);
    for (ask, listed) in asks.asks.iter().zip(listing.lines().skip(1)) {
        let Some(question) = ask.bytes(&sheet.sheet) else {
            without += 1;
            continue;
        };
        let made = listing::listing(&bytes, &question);
        let (_, answer) = listed.split_once(' ').expect("a number");
        assert!(
            made.ends_with(&format!("\n1 {answer}\n")),
            "{listed}; {made}"
        );
        with_box += 1;
    }
    assert_eq!((with_box, without), (8, 4));
}

/// What the README has of `show` and of `pack` for them.
#[test]
fn the_readme_says_what_comes_of_readings() {
    let readme = example_text("README.md");
    let path = asks("readings");
    for number in ["3", "6", "8"] {
        let shown = sheet(&["show", &text("leg_press"), &path, number]);
        let first = shown.lines().take(3);
        let said: String = first.map(|line| format!("    {line}\n")).collect();
        assert!(readme.contains(&said), "{said}");
    }
    let folder = Folder::new("readme");
    let (success, _, said) = shell(&["pack", &text("leg_press"), &path, "--to", &folder.file("")]);
    let said = said.replace(&path, "readings.asks.txt");
    assert!(
        !success && readme.contains(&format!("\n    {said}\n")),
        "{said}"
    );
}

/// Each example with spans, and the question about one that its other picture shows.
const SPANS: [(&str, &str, &str); 2] = [
    ("leg_press", "13", "force -800..-600 N"),
    ("motor", "18", "setpoint 800..900 rpm"),
];

#[test]
fn pictures_of_spans() {
    for (name, question, span) in SPANS {
        let made = sheet(&["picture", &text(name), &asks(name), question]);
        assert!(made.contains(&format!(">{span}</text>")));
        compare(&format!("{name}.span.svg"), &made);
    }
}

#[test]
fn show_says_the_span() {
    for (name, question, span) in SPANS {
        let shown = sheet(&["show", &text(name), &asks(name), question]);
        let (first, rest) = shown.split_once('\n').expect("a line");
        assert!(first.contains(&format!(", {span}: over finest")), "{first}");
        let (law, _) = span.rsplit_once(' ').expect("a unit");
        assert!(rest.contains(&format!(" {law} ")), "{rest}");
    }
    let shown = sheet(&["show", &text("leg_press"), &asks("leg_press"), "14"]);
    assert!(shown.starts_with("question 14 \"let go, as a span\", force 0..0 N: keep"));
    let shown = sheet(&["show", &text("leg_press"), &asks("leg_press"), "15"]);
    assert!(shown.contains("force -800..-1200 N: refused 14 (command)\n"));
}

/// The cable column's plain law pulls with all it has at first, and then follows the state. The other examples have
/// the same commands everywhere in a band.
#[test]
fn show_says_what_the_plain_law_commands() {
    let shown = sheet(&["show", &text("cable_column"), &asks("cable_column"), "8"]);
    for row in [
        "20..21    plain law: pull 280 ",
        "179..180  plain law: pull 67..260 ",
    ] {
        assert!(shown.contains(&format!("\n    {row}")), "{shown}");
    }
    for (name, _) in &EXAMPLES[..4] {
        let shown = sheet(&["show", &text(name), &asks(name)]);
        assert!(shown.contains("  plain law  ") && !shown.contains("plain law:"));
    }
}

/// What `motor.asks.txt` says: each set-point is kept, and the span of them is not.
#[test]
fn a_span_may_be_refused_where_each_command_is_kept() {
    let (sheet, bytes, asks) = load("motor");
    let asked = cut(&asks, sheet.n()).nth(17).expect("question 18");
    let mut asked = AskedQuestion::from_bytes(asked, sheet.n()).expect("a question");
    let span = asked.commands.span();
    assert_eq!((span.least, span.greatest), (800, 900));
    assert_eq!(archive::decide(&bytes, &asked.bytes(2)).code(), 1);
    for command in span.least..=span.greatest {
        asked.commands = Commands::One(command);
        assert_eq!(archive::decide(&bytes, &asked.bytes(2)).code(), 0);
    }
}

fn text(name: &str) -> String {
    example(&format!("{name}.txt"))
}

fn asks(name: &str) -> String {
    example(&format!("{name}.asks.txt"))
}

#[test]
fn sheet_a_prints_what_document_01_has() {
    let expected = "sheet pass 4 1\n1 keep 4 4\n2 keep 4 5\n3 over spent 4 4\n\
                    4 over finest 1 5\n5 refused 14\n";
    assert_eq!(
        sheet(&["list", &text("sheet_a"), &asks("sheet_a")]),
        expected
    );
}

#[test]
fn the_second_guard_prints_the_same_listing() {
    for (name, _) in EXAMPLES {
        let (_, bytes, asks) = load(name);
        let made = sheet(&["list", &text(name), &self::asks(name)]);
        assert_eq!(listing::listing(&bytes, &asks), made);
    }
}

/// `show` compares every box and answer with the archive, for every question and the check.
#[test]
fn every_decision_can_be_shown() {
    for (name, _) in EXAMPLES {
        assert!(sheet(&["show", &text(name)]).contains("boxes at width"));
        assert!(sheet(&["show", &text(name), &asks(name)]).contains("boxes at width"));
    }
}

#[test]
fn recovery_checks_and_other_widths_can_be_drawn() {
    for (name, _) in EXAMPLES {
        let drawn = sheet(&["picture", &text(name)]);
        assert!(drawn.contains("recovery check") && drawn.ends_with("</svg>\n"));
    }
    let words = [
        "picture",
        &text("motor"),
        &asks("motor"),
        "4",
        "--width",
        "9",
    ];
    let drawn = sheet(&words);
    assert!(drawn.contains("Drawn: the attempt at width 9."));
    assert!(drawn.contains("not within the recovery box"));
}

/// The machines show keeps at three widths or more, and hand-overs of both kinds.
#[test]
fn machines_show_every_kind_of_answer() {
    for (name, _) in &EXAMPLES[1..] {
        let (sheet, bytes, asks) = load(name);
        assert!(matches!(
            decision::check_recovery(&bytes),
            RecoveryCheck::Pass { .. }
        ));
        let mut widths = BTreeSet::new();
        let (mut finest, mut spent, mut refused) = (0, 0, 0);
        for question in cut(&asks, sheet.n()) {
            match decision::decide(&bytes, question) {
                Decision::Keep { width, .. } => drop(widths.insert(width)),
                Decision::Finest { .. } => finest += 1,
                Decision::Spent { .. } => spent += 1,
                Decision::Refused(_) => refused += 1,
            }
        }
        assert!(widths.len() >= 3, "{name}: keeps at {widths:?}");
        assert!(finest > 0 && spent > 0 && refused > 0, "{name}");
    }
}

#[test]
fn a_wrong_use_prints_how_to_use_it() {
    let (success, _, message) = shell(&["pack"]);
    assert!(!success && message.starts_with("sheet pack"));
}
