//! Which number of a sheet or a question is at fault, in words.
//! Every test of a value is a range whose ends are constants or earlier values; a no-go box is compared with
//! the one before it, too, and the recovery box with all of them. What is wrong with a reading, `readings` says.

use crate::box_order;
use crate::names::{Item, Names};
use crate::overlap::{self, OVERLAP};
use crate::questions::{AskedQuestion, AskedReadings, Commands};
use crate::readings::Reading;
use guard_bindings::format::{BANDS, UNSAFE_BOXES, VARIABLES};
use second_guard::boxes::StateBox;
use second_guard::sheet::{
    BandLaw, CommandRange, Kind, Row, Sheet, FIRST_EDGE, LAST_EDGE, SIDE_LIMIT, START_LIMIT,
    TICKS_LIMIT,
};

const COMMAND_LIMIT: i32 = 10_000;
const CAP_LIMIT: i32 = 1_000;
const COEFFICIENT_LIMIT: i32 = 1_000;
const OFFSET_LIMIT: i32 = 100_000_000;
const DIVISOR_LIMIT: i32 = 4_096;
const ALLOWANCE_LIMIT: i64 = 1_000_000;

/// A value that has to lie within two ends, or a box that is compared with other ones.
pub struct Test<P> {
    pub refusal: u8,
    /// Where the value or the box stands.
    pub place: P,
    fails: bool,
    /// What is wrong if the test fails, in parts. A part may end on another box; then it says where that stands.
    parts: Vec<(String, Option<P>)>,
}

impl<P> Test<P> {
    fn new(
        refusal: u8,
        place: P,
        what: impl Into<String>,
        value: impl Into<i64>,
        ends: (impl Into<i64>, impl Into<i64>),
    ) -> Test<P> {
        let (what, value) = (what.into(), value.into());
        let (least, greatest) = (ends.0.into(), ends.1.into());
        let words = if least == greatest {
            format!("{what} is {value}, it has to be {least}")
        } else {
            format!("{what} is {value}, it has to lie within {least}..{greatest}")
        };
        Test {
            refusal,
            place,
            fails: value < least || value > greatest,
            parts: vec![(words, None)],
        }
    }
}

impl<P: Copy> Test<P> {
    /// What is wrong if the test fails, with the lines of the other boxes.
    pub fn words(&self, line_of: impl Fn(P) -> Option<usize>) -> String {
        let part = |(words, other): &(String, Option<P>)| match other.and_then(&line_of) {
            Some(line) => format!("{words} on line {line}"),
            None => words.clone(),
        };
        self.parts.iter().map(part).collect()
    }
}

fn counts(sheet: &Sheet) -> Vec<Test<Item>> {
    let test = |place, what, value, ends| Test::new(2, place, what, value, ends);
    let up_to = |most: usize| (1, most as i32);
    let (variables, bands, boxes) = (sheet.variables, sheet.band_count, sheet.unsafe_count);
    let n = "the number of variables";
    vec![
        test(Item::Variable(VARIABLES), n, variables, up_to(VARIABLES)),
        test(
            Item::Band(BANDS),
            "the number of bands",
            bands,
            up_to(BANDS),
        ),
        test(
            Item::Unsafe(UNSAFE_BOXES),
            "the number of no-go boxes",
            boxes,
            up_to(UNSAFE_BOXES),
        ),
        test(
            Item::BandVariable,
            "the band variable",
            sheet.band_variable,
            (0, variables - 1),
        ),
    ]
}

fn head(sheet: &Sheet, names: &Names) -> Vec<Test<Item>> {
    let (delta, ticks) = (sheet.delta, (1, TICKS_LIMIT));
    let alphas = (1, TICKS_LIMIT - delta.clamp(0, TICKS_LIMIT));
    let alpha = format!("with delta {delta}, alpha");
    let CommandRange { least, greatest } = sheet.commands;
    let commands = (-COMMAND_LIMIT, COMMAND_LIMIT);
    let mut tests = vec![
        Test::new(3, Item::Times, "delta", delta, ticks),
        Test::new(3, Item::Times, alpha, sheet.alpha, alphas),
        Test::new(3, Item::Times, "rho", sheet.rho, ticks),
        Test::new(4, Item::Command, "the least command", least, commands),
        Test::new(
            4,
            Item::Command,
            "the greatest command",
            greatest,
            (least, COMMAND_LIMIT),
        ),
    ];
    for i in 0..sheet.n() {
        let what = format!("the cap of {}", names.variable(i));
        let place = Item::Variable(i);
        tests.push(Test::new(6, place, what, sheet.caps[i], (1, CAP_LIMIT)));
    }
    tests
}

/// A number of a law or of a row.
fn quotient_test(place: Item, what: impl Into<String>, value: i32, ends: (i32, i32)) -> Test<Item> {
    Test::new(10, place, what, value, ends)
}

/// The coefficients of the variables, which have a name each.
fn coefficients(place: Item, coefficients: &[i32], names: &Names) -> Vec<Test<Item>> {
    let named = names.variables.iter().zip(coefficients);
    named
        .map(|(variable, &value)| coefficient(place, &variable.name, value))
        .collect()
}

fn coefficient(place: Item, name: &str, value: i32) -> Test<Item> {
    let what = format!("the coefficient of {name}");
    quotient_test(place, what, value, (-COEFFICIENT_LIMIT, COEFFICIENT_LIMIT))
}

fn constant(place: Item, value: i32) -> Test<Item> {
    quotient_test(place, "the constant", value, (-OFFSET_LIMIT, OFFSET_LIMIT))
}

fn divisor(place: Item, value: i32) -> Test<Item> {
    quotient_test(place, "the divisor", value, (1, DIVISOR_LIMIT))
}

fn law(names: &Names, place: Item, law: &BandLaw) -> Vec<Test<Item>> {
    let mut tests = coefficients(place, &law.coefficients, names);
    tests.push(constant(place, law.constant));
    tests.push(divisor(place, law.divisor));
    tests
}

fn row(names: &Names, place: Item, row: &Row) -> Vec<Test<Item>> {
    let mut tests = coefficients(place, &row.a, names);
    tests.push(coefficient(place, &names.command.name, row.b));
    tests.push(constant(place, row.c));
    tests.push(quotient_test(place, "the spread", row.d, (0, OFFSET_LIMIT)));
    tests.push(divisor(place, row.q));
    tests
}

fn band(sheet: &Sheet, kind: Kind, names: &Names, k: usize) -> Vec<Test<Item>> {
    let band = &sheet.bands[k];
    let place = Item::Band(k);
    let edges = match k {
        0 => (FIRST_EDGE, FIRST_EDGE),
        _ => (sheet.bands[k - 1].edge.saturating_add(1), LAST_EDGE),
    };
    let CommandRange { least, greatest } = band.safety;
    let (first, last) = (sheet.commands.least, sheet.commands.greatest);
    let mut tests = vec![
        Test::new(8, place, "the edge", band.edge, edges),
        Test::new(9, place, "the least safety command", least, (first, last)),
        Test::new(
            9,
            place,
            "the greatest safety command",
            greatest,
            (least, last),
        ),
    ];
    if kind == Kind::Following {
        tests.extend(law(names, Item::Law(k), &band.law));
    }
    for i in 0..sheet.n() {
        tests.extend(row(names, Item::Row(k, i), &band.rows[i]));
    }
    tests
}

/// The tests of a box's sides, each upper one from its lower one on.
fn sides<P: Copy>(
    refusal: u8,
    place: P,
    sides: &StateBox,
    n: usize,
    limit: i64,
    names: &Names,
) -> Vec<Test<P>> {
    let mut tests = Vec::new();
    for i in 0..n {
        let (lower, upper) = (sides.lower[i], sides.upper[i]);
        let name = names.variable(i);
        let what = format!("the lower side of {name}");
        tests.push(Test::new(refusal, place, what, lower, (-limit, limit)));
        let what = format!("the upper side of {name}");
        tests.push(Test::new(refusal, place, what, upper, (lower, limit)));
    }
    tests
}

/// No-go box j has to be greater than the one before it, if there is one.
fn order(sheet: &Sheet, names: &Names, j: usize) -> Option<Test<Item>> {
    let before = j.checked_sub(1)?;
    let boxes = sheet.unsafe_boxes();
    let found = box_order::compare(&boxes[j], &boxes[before], sheet.n());
    let this = named(names, j, "this no-go box");
    let other = named(names, before, "the one");
    let words = format!("{this} {} {other}", box_order::words(found));
    Some(Test {
        refusal: 20,
        place: Item::Unsafe(j),
        fails: found.is_le(),
        parts: vec![(words, Some(Item::Unsafe(before)))],
    })
}

/// No-go box j by its name; other words where it has none.
fn named(names: &Names, j: usize, unnamed: &str) -> String {
    match &names.unsafe_boxes[j] {
        Some(name) => format!("no-go box \"{name}\""),
        None => unnamed.into(),
    }
}

/// The recovery box has to share no state with any no-go box.
fn overlap(sheet: &Sheet, names: &Names) -> Test<Item> {
    let named = |j| named(names, j, "the no-go box");
    let parts: Vec<_> = overlap::words(sheet, names, "the recovery box", named)
        .into_iter()
        .map(|(words, j)| (words, Some(Item::Unsafe(j))))
        .collect();
    Test {
        refusal: OVERLAP,
        place: Item::Recovery,
        fails: !parts.is_empty(),
        parts,
    }
}

fn first_failing<P>(tests: Vec<Test<P>>) -> Option<Test<P>> {
    tests.into_iter().find(|test| test.fails)
}

/// The first number of a sheet of this kind that is at fault, in the order of the file.
pub fn sheet_fault(sheet: &Sheet, kind: Kind, names: &Names) -> Option<Test<Item>> {
    first_failing(sheet_tests(sheet, kind, names))
}

/// The first one that is refused with this number.
pub fn sheet_fault_of(refusal: u8, sheet: &Sheet, kind: Kind, names: &Names) -> Option<Test<Item>> {
    let mut tests = sheet_tests(sheet, kind, names);
    tests.retain(|test| test.refusal == refusal);
    first_failing(tests)
}

/// The tests of a sheet's numbers, in the order of the file.
fn sheet_tests(sheet: &Sheet, kind: Kind, names: &Names) -> Vec<Test<Item>> {
    let counts = counts(sheet);
    // Only with the counts in range are there places to look at.
    if counts.iter().any(|test| test.fails) {
        return counts;
    }
    let n = sheet.n();
    let mut tests = head(sheet, names);
    for k in 0..sheet.bands().len() {
        tests.extend(band(sheet, kind, names, k));
    }
    for (j, unsafe_box) in sheet.unsafe_boxes().iter().enumerate() {
        tests.extend(sides(11, Item::Unsafe(j), unsafe_box, n, SIDE_LIMIT, names));
        tests.extend(order(sheet, names, j));
    }
    let recovery = &sheet.recovery;
    tests.extend(sides(11, Item::Recovery, recovery, n, START_LIMIT, names));
    tests.push(overlap(sheet, names));
    tests
}

/// The tests of the commands that a question names, the greatest one from the least one on.
fn commands(head: CommandRange, commands: Commands) -> Vec<Test<()>> {
    let test = |what, value, from| Test::new(14, (), what, value, (from, head.greatest));
    match commands {
        Commands::One(command) => vec![test("the command", command, head.least)],
        Commands::Span(CommandRange { least, greatest }) => vec![
            test("the span's least command", least, head.least),
            test("the span's greatest command", greatest, least),
        ],
    }
}

/// The tests of what a question has before its pairs.
fn question_head(sheet: &Sheet, allowance: u32, named: Commands) -> Vec<Test<()>> {
    let allowances = (0, ALLOWANCE_LIMIT);
    let mut tests = vec![Test::new(13, (), "the allowance", allowance, allowances)];
    tests.extend(commands(sheet.commands, named));
    tests
}

fn measured(sheet: &Sheet, names: &Names, measured: &StateBox) -> Vec<Test<()>> {
    sides(15, (), measured, sheet.n(), START_LIMIT, names)
}

/// The first number of a question that is at fault.
pub fn question_fault(sheet: &Sheet, names: &Names, question: &AskedQuestion) -> Option<Test<()>> {
    let mut tests = question_head(sheet, question.allowance, question.commands);
    tests.extend(measured(sheet, names, &question.measured));
    first_failing(tests)
}

/// A reading of variable i that the guard refuses.
fn refused_reading(names: &Names, i: usize, reading: &Reading) -> Option<Test<()>> {
    let (refusal, words) = reading.fault(names.variable(i))?;
    Some(Test {
        refusal,
        place: (),
        fails: true,
        parts: vec![(words, None)],
    })
}

/// The first refused reading of a question.
pub fn reading_fault(names: &Names, asked: &AskedReadings) -> Option<Test<()>> {
    let mut readings = asked.readings.iter().enumerate();
    readings.find_map(|(i, reading)| refused_reading(names, i, reading))
}

/// The same of a question by readings, which are tested before their box.
pub fn readings_fault(sheet: &Sheet, names: &Names, asked: &AskedReadings) -> Option<Test<()>> {
    let mut tests = question_head(sheet, asked.allowance, asked.commands);
    match asked.question() {
        Some(question) => tests.extend(measured(sheet, names, &question.measured)),
        None => tests.extend(reading_fault(names, asked)),
    }
    first_failing(tests)
}
