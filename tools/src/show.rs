//! A decision in words: the answer, why each width ended, and the boxes of the last one.
//! Where the bands have laws, each step under the plain law has the least and the greatest command that these laws
//! give over its swept box. That box holds every state of the step's ticks, so no tick uses any other command.

use crate::attempts::{Attempt, Attempts, Ending};
use crate::names::Names;
use crate::plain_law::commands_over;
use crate::readings::Reading;
use crate::sheet_text::range;
use crate::svg::decimal;
use crate::tokens::Fault;
use second_guard::boxes::StateBox;
use second_guard::reach::{Law, Step};
use second_guard::sheet::{CommandRange, Kind, Sheet, SIDE_LIMIT};

/// The sides of variable i: whole numbers, or in the variable's unit.
pub type Sides = fn(&Names, usize, i64, i64) -> String;

/// `950..1020`.
pub fn whole_sides(_names: &Names, _i: usize, lower: i64, upper: i64) -> String {
    range(lower, upper)
}

/// `95.0..102.0 mm`.
pub fn unit_sides(names: &Names, i: usize, lower: i64, upper: i64) -> String {
    let Some(unit) = &names.variables[i].unit else {
        return range(lower, upper);
    };
    let side = |side: i64| decimal(side as f64 * unit.factor(), unit.factor());
    format!("{} {}", range(side(lower), side(upper)), unit.name)
}

/// `ticks 20..60 meet no-go 1 "end stop" with position 950..1020` and the like.
pub fn ending(attempt: &Attempt, sheet: &Sheet, names: &Names, sides: Sides) -> String {
    let from = ticks_before(attempt, attempt.steps.len().saturating_sub(1));
    let last = match attempt.steps.last() {
        Some(last) => last,
        None => return "the allowance ends".into(),
    };
    let to = from + last.ticks;
    match attempt.ending {
        Ending::Success => "ends in the recovery box".into(),
        Ending::Spent => format!("the allowance ends after tick {to}"),
        Ending::Unsafe(j) => {
            let bounded = bounded_sides(sheet, names, &last.swept, j, sides);
            format!(
                "ticks {from}..{to} meet {} with {bounded}",
                names.unsafe_box(j)
            )
        }
        Ending::Outside(i) => {
            let found = sides(names, i, last.end.lower[i], last.end.upper[i]);
            let recovery = &sheet.recovery;
            let allowed = sides(names, i, recovery.lower[i], recovery.upper[i]);
            format!(
                "ends with {} {found}, not within {allowed}",
                names.variable(i)
            )
        }
    }
}

/// A box in the variables that a no-go box bounds.
fn bounded_sides(sheet: &Sheet, names: &Names, swept: &StateBox, j: usize, sides: Sides) -> String {
    let unsafe_box = &sheet.unsafe_boxes()[j];
    let bounded = (0..sheet.n())
        .filter(|&i| unsafe_box.lower[i] > -SIDE_LIMIT || unsafe_box.upper[i] < SIDE_LIMIT);
    listed_sides(names, swept, bounded, sides)
}

/// `position 950..1020, coasting 900..980`: a box in some of its variables.
pub fn listed_sides(
    names: &Names,
    of: &StateBox,
    variables: impl Iterator<Item = usize>,
    sides: Sides,
) -> String {
    let listed: Vec<String> = variables
        .map(|i| {
            let sides = sides(names, i, of.lower[i], of.upper[i]);
            format!("{} {sides}", names.variable(i))
        })
        .collect();
    listed.join(", ")
}

/// The ticks covered before a step.
pub fn ticks_before(attempt: &Attempt, step: usize) -> u32 {
    attempt.steps[..step].iter().map(|step| step.ticks).sum()
}

/// `-20..25`, or `25` where both ends are.
pub fn command_range(least: i32, greatest: i32) -> String {
    match least == greatest {
        true => least.to_string(),
        false => range(least, greatest),
    }
}

fn law(step: &Step, sheet: &Sheet, names: &Names) -> String {
    let commands =
        |least, greatest| format!("{} {}", names.command.name, command_range(least, greatest));
    match (step.law, sheet.kind()) {
        (Law::Baseline, Kind::Fixed) => "plain law".into(),
        (Law::Baseline, Kind::Following) => {
            let CommandRange { least, greatest } = commands_over(sheet, &step.swept);
            format!("plain law: {}", commands(least, greatest))
        }
        (Law::Span { least, greatest }, _) => commands(least, greatest),
    }
}

/// What came of each reading of a question: its sides of the box, or why it is refused.
pub fn show_readings(readings: &[Reading], names: &Names, line: Option<usize>) -> String {
    let mut text = String::new();
    for (named, reading) in names.variables.iter().zip(readings) {
        let name = &named.name;
        let came = match (reading.fault(name), reading.sides()) {
            (None, Some((lower, upper))) => {
                let sides = range(lower, upper);
                format!("{name} {reading} gives {sides}{}", reading.taken())
            }
            (fault, _) => {
                let (number, what) = fault.expect("a reading without sides is refused");
                Fault {
                    line,
                    refusal: Some(number),
                    what,
                }
                .to_string()
            }
        };
        text.push_str(&format!("  {came}\n"));
    }
    text
}

/// All attempts, and the boxes of the last one.
pub fn show(found: &Attempts, sheet: &Sheet, names: &Names) -> String {
    let mut text = String::new();
    for attempt in &found.all {
        text.push_str(&format!(
            "  width {:<4} {:>5} rounds   {}\n",
            attempt.width,
            attempt.rounds,
            ending(attempt, sheet, names, whole_sides)
        ));
    }
    let last = found.last();
    text.push_str(&format!("  boxes at width {}\n", last.width));
    text.push_str(&table(&rows(last, sheet, names)));
    text
}

/// The head, then the start box, then one row for each step with its end box.
fn rows(attempt: &Attempt, sheet: &Sheet, names: &Names) -> Vec<Vec<String>> {
    let mut head: Vec<String> = ["ticks", "law", "rounds"].map(String::from).into();
    head.extend(names.variables.iter().map(|v| v.with_unit()));
    let mut rows = vec![head];
    if let Some(first) = attempt.steps.first() {
        let mut row = vec!["0".into(), "start".into(), String::new()];
        row.extend(columns(&first.start, names));
        rows.push(row);
    }
    let mut ticks = 0;
    for step in &attempt.steps {
        let from = ticks;
        ticks += step.ticks;
        let mut row = vec![
            range(from, ticks),
            law(step, sheet, names),
            step.rounds.to_string(),
        ];
        row.extend(columns(&step.end, names));
        rows.push(row);
    }
    rows
}

fn columns(sides: &StateBox, names: &Names) -> Vec<String> {
    (0..names.variables.len())
        .map(|i| range(sides.lower[i], sides.upper[i]))
        .collect()
}

/// Columns of equal width, four spaces from the left.
fn table(rows: &[Vec<String>]) -> String {
    let columns = rows.first().map_or(0, Vec::len);
    let width = |c: usize| rows.iter().map(|row| row[c].chars().count()).max();
    let widths: Vec<usize> = (0..columns).map(|c| width(c).unwrap_or(0)).collect();
    let mut text = String::new();
    for row in rows {
        let mut line = String::from("   ");
        for (cell, &width) in row.iter().zip(&widths) {
            line.push_str(&format!(" {cell:<width$} "));
        }
        text.push_str(line.trim_end());
        text.push('\n');
    }
    text
}
