//! Random sheets on which numerators of the first round lie just at their ends, next to them or
//! around zero.

use crate::generate::{model, shape, times, widths, Case};
use crate::random::Random;
use second_guard::boxes::{StateBox, VARIABLES};
use second_guard::changes::{At, Change};
use second_guard::decision::{decide_watched, Faults, Question};
use second_guard::neighborhoods::{neighborhoods, Neighborhood};
use second_guard::reach::Watch;
use second_guard::sheet::{CommandRange, Sheet};

/// The numerators that are aimed at.
pub const PLACES: [At; 7] = [
    At::MinusLimit,
    At::AboveMinusLimit,
    At::MinusOne,
    At::Zero,
    At::One,
    At::BelowLimit,
    At::Limit,
];

/// The greatest offset of a row.
const OFFSET: i64 = 100_000_000;

/// The changes of a round, each with its band.
#[derive(Default)]
struct Round {
    around: Vec<Neighborhood>,
    changes: Vec<(usize, Change)>,
}

impl Watch for Round {
    fn round(&mut self, sheet: &Sheet, start: &StateBox, enclosure: &StateBox, ticks: u32) {
        self.around = neighborhoods(sheet, start, enclosure, ticks).collect();
    }

    fn change(&mut self, change: Change) {
        let of = |around: &&mut Neighborhood| {
            around.variable == change.variable && around.face == change.face
        };
        // The engine goes from the last band down.
        let around = self.around.iter_mut().find(of);
        let band = around.and_then(|around| around.bands.next_back());
        self.changes
            .push((band.expect("a band that is met"), change));
    }
}

/// The changes of the first round of a case's decision.
fn first_round(case: &Case) -> Vec<(usize, Change)> {
    let question = Question {
        allowance: 1,
        span: CommandRange::one(case.command),
        measured: case.measured,
    };
    let mut round = Round::default();
    decide_watched(&case.sheet, &question, Faults::default(), &mut round);
    round.changes
}

/// A case of a few ticks, in which a change of each variable is aimed at by a row's offset.
pub fn aimed(random: &mut Random) -> Case {
    let times = times(random, 12);
    let mut case = model(random, times, VARIABLES);
    let n = case.sheet.n();
    if random.percent(40) {
        // The largest numbers.
        let i = random.below(n);
        case.sheet.caps[i] = 1_000;
        for band in &mut case.sheet.bands {
            band.rows[i].q = 4_096;
        }
    }
    let changes = first_round(&case);
    for i in 0..n {
        let of_variable = changes.iter().filter(|(_, change)| change.variable == i);
        let of_variable: Vec<&(usize, Change)> = of_variable.collect();
        let (band, change) = random.pick(&of_variable);
        let row = &mut case.sheet.bands[*band].rows[i];
        let wanted = random.pick(&PLACES).numerator(change.q, change.cap);
        let offset = i64::from(row.c) + wanted - change.numerator;
        if offset.abs() <= OFFSET {
            row.c = offset as i32;
        }
    }
    let halvings = random.below(widths(&case.sheet).len());
    shape(random, &mut case, halvings);
    case
}
