//! What a plain law that follows the state buys (paper 9 of document 02), on the cable column of
//! examples/. The same machine is asked the same random questions under the law of its sheet, under
//! that law with smaller gains, under one fixed pull, and under fixed pulls by bands of one variable;
//! with the sheet's recovery box, and with the best of several. Of a grid of fixed pulls, those that
//! pass their recovery check are compared by other questions, and the best of each variable is then
//! asked the same ones. Beside that, it tries laws of the same gains that follow other variables. It
//! fails where the sheet's law does not keep the most, or where one of those others passes its check
//! with the sheet's gain. The last line is `N passed, M failed`.

use matching::machines::machine;
use matching::random::Random;
use second_guard::boxes::StateBox;
use second_guard::decision::{
    check_recovery_watched, decide_watched, Decision, Faults, Question, RecoveryCheck,
};
use second_guard::reach::NoWatch;
use second_guard::sheet::{BandLaw, CommandRange, Sheet, FIRST_EDGE};

/// Random questions with a seed of their own.
struct Set {
    seed: u64,
    count: usize,
}

/// The questions that all laws are asked.
const ASKED: Set = Set {
    seed: 9,
    count: 10_000,
};

/// Those that choose among fixed pulls: a few of them for all, more of them for the best ones.
const FEW: Set = Set { seed: 1, count: 30 };
const MORE: Set = Set {
    seed: 2,
    count: 400,
};
const BEST: usize = 40;

/// The handles rest here, in steps of 0.1 mm, with this pull in N.
const REST: i64 = 9_000;
const REST_PULL: i64 = 150;

/// Half the sides of a recovery box in height, heading and aim, in steps. The first ones are as wide
/// as the no-go boxes for the shoulders allow.
const RECOVERY: [[i64; 3]; 7] = [
    [3_490, 3_330, 3_200],
    [3_490, 3_300, 3_000],
    [3_490, 3_200, 2_800],
    [3_450, 3_000, 2_600],
    [3_450, 3_000, 2_400],
    [3_450, 2_900, 2_200],
    [3_450, 2_800, 2_000],
];

/// How far from rest bands begin, in steps, and how far from the rest pull their pulls are, in N.
const EDGES: [i32; 6] = [1_000, 1_500, 2_000, 2_500, 3_000, 3_500];
const PULLS: [i32; 7] = [10, 20, 30, 45, 65, 90, 130];

/// The variables of the left handle; those of the right one come to the same.
const VARIABLES: [&str; 3] = ["left_height", "left_heading", "left_aim"];

/// What a law follows, with weights that are 2 together, and the gains that are tried, in N for each
/// metre of the middle. The first of both are the sheet's.
const FOLLOWED: [(&str, [i32; 6]); 4] = [
    ("both aims", [0, 0, 1, 0, 0, 1]),
    ("both headings", [0, 1, 0, 0, 1, 0]),
    ("both heights", [1, 0, 0, 1, 0, 0]),
    ("left_aim alone", [0, 0, 2, 0, 0, 0]),
];
const GAINS: [i32; 4] = [800, 400, 200, 100];

/// The box of a handle that is measured to 0.5 mm, 10 mm/s and 3 N: lower and upper side of height,
/// heading and aim in steps, by the formulas of `cable_column.txt`.
fn measured(height: i64, speed: i64, pull: i64) -> [(i64, i64); 3] {
    let (height, speed, over) = (height as f64, speed as f64, (pull - REST_PULL) as f64);
    let heading = height + speed * 10.0 / 9.0;
    let aim = heading - over * 10_000.0 / 6_840.0;
    let off = 5.0 + 10.0 * 10.0 / 9.0;
    let aim_off = off + 3.0 * 10_000.0 / 6_840.0;
    [(height, 5.0), (heading, off), (aim, aim_off)]
        .map(|(value, off)| ((value - off).floor() as i64, (value + off).ceil() as i64))
}

/// Both handles up to 250 mm from a height within 550 mm of rest, one above it and one below, with up
/// to 0.8 m/s up or down and up to 0.2 m/s more or less; any pull in the cables, and any command.
fn any_question(random: &mut Random) -> Question {
    let height = random.range(REST - 5_500, REST + 5_500);
    let speed = random.range(-800, 800);
    let pull = random.range(28, 272);
    let (up, faster, more) = (
        random.range(-2_500, 2_500),
        random.range(-200, 200),
        random.range(-8, 8),
    );
    let left = measured(height + up, speed + faster, pull + more);
    let right = measured(height - up, speed - faster, pull - more);
    let mut sides = StateBox::default();
    for (i, (lower, upper)) in left.into_iter().chain(right).enumerate() {
        (sides.lower[i], sides.upper[i]) = (lower, upper);
    }
    Question {
        allowance: 1_000_000,
        span: CommandRange::one(random.int(20, 280)),
        measured: sides,
    }
}

/// The questions of a set; one that begins in a no-go box is drawn again.
fn questions(sheet: &Sheet, set: &Set) -> Vec<Question> {
    let random = &mut Random::new(set.seed);
    let clear = |question: &Question| {
        let boxes = sheet.unsafe_boxes();
        boxes.iter().all(|no_go| !no_go.meets(&question.measured))
    };
    std::iter::repeat_with(|| any_question(random))
        .filter(clear)
        .take(set.count)
        .collect()
}

fn kept(sheet: &Sheet, questions: &[Question]) -> usize {
    let keep = |question: &&Question| {
        let decision = decide_watched(sheet, question, Faults::default(), &mut NoWatch);
        matches!(decision, Decision::Keep { .. })
    };
    questions.iter().filter(keep).count()
}

fn passes(sheet: &Sheet) -> bool {
    let check = check_recovery_watched(sheet, &mut NoWatch);
    matches!(check, RecoveryCheck::Pass { .. })
}

/// The sheet with the recovery box of these halves, for both handles.
fn with_recovery(sheet: &Sheet, halves: [i64; 3]) -> Sheet {
    let mut sheet = *sheet;
    for i in 0..6 {
        sheet.recovery.lower[i] = REST - halves[i % 3];
        sheet.recovery.upper[i] = REST + halves[i % 3];
    }
    sheet
}

fn with_each_recovery(sheet: &Sheet) -> Vec<Sheet> {
    RECOVERY.map(|halves| with_recovery(sheet, halves)).to_vec()
}

/// The sheet with another law.
fn following(sheet: &Sheet, coefficients: [i32; 6], gain: i32) -> Sheet {
    let mut sheet = *sheet;
    let divisor = 20_000 / gain;
    sheet.bands[0].law = BandLaw {
        coefficients,
        constant: REST_PULL as i32 * divisor - 2 * REST as i32,
        divisor,
    };
    sheet
}

/// The sheet with one pull everywhere.
fn one_pull(sheet: &Sheet) -> Sheet {
    let mut sheet = *sheet;
    sheet.bands[0].law = BandLaw::default();
    sheet.bands[0].safety = CommandRange::one(REST_PULL as i32);
    sheet
}

/// The sheet with five bands of one variable: within the first edge the rest pull, beyond it the first
/// pull more or less, beyond the second edge the second pull more or less.
fn by_bands(sheet: &Sheet, variable: usize, edges: [i32; 2], pulls: [i32; 2]) -> Sheet {
    let mut sheet = one_pull(sheet);
    let (rest, rest_pull) = (REST as i32, REST_PULL as i32);
    let bands = [
        (FIRST_EDGE, rest_pull - pulls[1]),
        (rest - edges[1], rest_pull - pulls[0]),
        (rest - edges[0], rest_pull),
        (rest + edges[0], rest_pull + pulls[0]),
        (rest + edges[1], rest_pull + pulls[1]),
    ];
    sheet.band_variable = variable as i32;
    sheet.band_count = bands.len() as i32;
    for (k, (edge, pull)) in bands.into_iter().enumerate() {
        sheet.bands[k] = sheet.bands[0];
        sheet.bands[k].edge = edge;
        sheet.bands[k].safety = CommandRange::one(pull);
    }
    sheet
}

/// Two values of a list in its order; the same one twice if that is allowed.
fn pairs(values: &[i32], twice: bool) -> Vec<[i32; 2]> {
    let from = |i: usize| if twice { i } else { i + 1 };
    let indexed = values.iter().enumerate();
    indexed
        .flat_map(|(i, &first)| values[from(i)..].iter().map(move |&second| [first, second]))
        .collect()
}

/// All fixed pulls by bands of a variable.
fn grid(sheet: &Sheet, variable: usize) -> Vec<Sheet> {
    let mut sheets = Vec::new();
    for edges in pairs(&EDGES, false) {
        for pulls in pairs(&PULLS, true) {
            sheets.push(by_bands(sheet, variable, edges, pulls));
        }
    }
    sheets
}

/// So many sheets that keep the most of these questions, the best first.
fn first(sheets: Vec<Sheet>, questions: &[Question], count: usize) -> Vec<Sheet> {
    let mut counted: Vec<(usize, Sheet)> = sheets
        .into_iter()
        .map(|sheet| (kept(&sheet, questions), sheet))
        .collect();
    counted.sort_by_key(|(kept, _)| std::cmp::Reverse(*kept));
    let best = counted.into_iter().take(count);
    best.map(|(_, sheet)| sheet).collect()
}

/// The bands' pulls, and where they begin in mm.
fn describe(sheet: &Sheet) -> String {
    let bands = sheet.bands().iter();
    let band = bands.map(|band| match band.edge {
        FIRST_EDGE => format!("{} N", band.safety.least),
        edge => format!("from {} mm {} N", edge / 10, band.safety.least),
    });
    band.collect::<Vec<String>>().join(", ")
}

/// The sets of questions of a comparison.
struct Comparison {
    few: Vec<Question>,
    more: Vec<Question>,
    asked: Vec<Question>,
}

impl Comparison {
    /// How many questions the best of the sheets that pass their check keeps; chosen by other questions.
    fn best(&self, sheets: Vec<Sheet>) -> usize {
        let tried = sheets.len();
        let passing: Vec<Sheet> = sheets.into_iter().filter(passes).collect();
        let count = passing.len();
        let best = first(first(passing, &self.few, BEST), &self.more, 1);
        let Some(best) = best.first() else {
            return 0;
        };
        let halves = [0, 1, 2].map(|i| (best.recovery.upper[i] - REST) / 10);
        if tried > RECOVERY.len() {
            println!(
                "{count} of {tried} pass, best: {}; recovery box {halves:?} mm",
                describe(best)
            );
        }
        kept(best, &self.asked)
    }

    /// One line of the table: with the sheet's own recovery box, and with the best one.
    fn compare(&self, name: &str, sheets: Vec<Sheet>) -> (String, [usize; 2]) {
        let each = sheets.iter().flat_map(with_each_recovery).collect();
        (name.to_string(), [self.best(sheets), self.best(each)])
    }

    /// All lines; the first is the sheet's.
    fn table(&self, sheet: &Sheet) -> Vec<(String, [usize; 2])> {
        let mut lines = Vec::new();
        for gain in GAINS {
            let law = following(sheet, FOLLOWED[0].1, gain);
            lines.push(self.compare(&format!("follows both aims, {gain} N/m"), vec![law]));
        }
        lines.push(self.compare("one pull, 150 N", vec![one_pull(sheet)]));
        for (variable, name) in VARIABLES.iter().enumerate() {
            let sheets = grid(sheet, variable);
            lines.push(self.compare(&format!("fixed pulls by bands of {name}"), sheets));
        }
        lines
    }
}

/// Prints which gains pass for each kind of law with one of the recovery boxes, and gives the answers for
/// the sheet's gain.
fn others(sheet: &Sheet) -> Vec<bool> {
    let gains = GAINS.map(|gain| format!("{gain} N/m"));
    println!("\n| the law follows | {} |", gains.join(" | "));
    println!("|---|{}", "---|".repeat(GAINS.len()));
    let row = |(name, coefficients): (&str, [i32; 6])| {
        let passing = GAINS.map(|gain| {
            let law = following(sheet, coefficients, gain);
            with_each_recovery(&law).iter().any(passes)
        });
        let cells = passing.map(|passes| if passes { "pass" } else { "fail" });
        println!("| {name} | {} |", cells.join(" | "));
        passing[0]
    };
    FOLLOWED.map(row).to_vec()
}

fn main() {
    let (sheet, _, _) = machine("cable_column");
    assert!(following(&sheet, FOLLOWED[0].1, GAINS[0]).numbers() == sheet.numbers());
    let [few, more, asked] = [FEW, MORE, ASKED].map(|set| questions(&sheet, &set));
    let lines = Comparison { few, more, asked }.table(&sheet);
    println!(
        "\n| plain law | kept, the sheet's recovery box | kept, the best of {} |",
        RECOVERY.len()
    );
    println!("|---|---:|---:|");
    for (name, [own, best]) in &lines {
        println!("| {name} | {own} | {best} |");
    }
    let others = others(&sheet);
    let sheets_own = lines[0].1[0];
    let most = lines[1..]
        .iter()
        .map(|(_, kept)| kept.iter().all(|&kept| kept < sheets_own));
    let alone = others[1..].iter().map(|&passes| others[0] && !passes);
    let passed: Vec<bool> = most.chain(alone).collect();
    let failed = passed.iter().filter(|&&passed| !passed).count();
    println!("{} passed, {failed} failed", passed.len() - failed);
    std::process::exit(i32::from(failed > 0));
}
