//! Rounds by other rules than today's, kept to be compared with it and without concern for speed: what
//! a paper has changed, and what a guard might get wrong.

use crate::boxes::{StateBox, VARIABLES};
use crate::machine::{greatest_change, least_change, Clamp};
use crate::neighborhoods::{neighborhoods, Face, Neighborhood};
use crate::reach::{
    fixed_commands, follows, greatest_numerator, greatest_product, law_sums, least_numerator,
    least_product, Law, Rates,
};
use crate::sheet::{CommandRange, Sheet};

/// By which rule a round bounds its rates.
#[derive(Clone, Copy, Debug, PartialEq, Eq)]
pub enum Rule {
    /// Each band's row and law over the part of the neighborhood that lies in the band, as is right.
    Parts,
    /// Rows and laws over whole neighborhoods, as before paper 3 of document 02.
    Whole,
    /// Rows over the parts, laws over whole neighborhoods.
    LawOverWhole,
    /// A law's sum in the middle of the part alone.
    LawInTheMiddle,
    /// Both ends of a law's commands from its least sum.
    LawFromItsLeast,
    /// Both ends from its greatest sum.
    LawFromItsGreatest,
    /// The least end rounded up and the greatest one down.
    LawRoundedInward,
    /// A law's commands clamped to the head's range and not to the band's safety range.
    LawWithinTheHead,
}

/// The part of a box that lies in band k, which the box meets.
fn part_in_band(sheet: &Sheet, sides: &StateBox, k: usize) -> StateBox {
    let v = sheet.band_variable as usize;
    let mut part = *sides;
    part.lower[v] = part.lower[v].max(sheet.bands[k].edge.into());
    if let Some(next) = sheet.bands().get(k + 1) {
        part.upper[v] = part.upper[v].min(i64::from(next.edge) - 1);
    }
    part
}

/// The box of its middle state.
fn middle(sides: &StateBox) -> StateBox {
    let state = std::array::from_fn(|i| (sides.lower[i] + sides.upper[i]).div_euclid(2));
    StateBox {
        lower: state,
        upper: state,
    }
}

/// The least and the greatest command in band k over a neighborhood and its part in that band.
fn commands(
    rule: Rule,
    sheet: &Sheet,
    law: Law,
    k: usize,
    whole: &StateBox,
    part: &StateBox,
) -> (i64, i64) {
    let band = &sheet.bands[k];
    if !follows(law, sheet) {
        return fixed_commands(law, band);
    }
    let (least, greatest) = match rule {
        Rule::Whole | Rule::LawOverWhole => law_sums::<VARIABLES>(&band.law, whole),
        Rule::LawInTheMiddle => law_sums::<VARIABLES>(&band.law, &middle(part)),
        _ => law_sums::<VARIABLES>(&band.law, part),
    };
    let range: CommandRange = match rule {
        Rule::LawWithinTheHead => sheet.commands,
        _ => band.safety,
    };
    let clamp = Clamp::new(band.law.divisor, range);
    let (from, to) = match rule {
        Rule::LawFromItsLeast => (least, least),
        Rule::LawFromItsGreatest => (greatest, greatest),
        _ => (least, greatest),
    };
    match rule {
        Rule::LawRoundedInward => (clamp.greatest_command(from), clamp.least_command(to)),
        _ => (clamp.least_command(from), clamp.greatest_command(to)),
    }
}

/// The least or the greatest change by band k's row.
fn bound(rule: Rule, sheet: &Sheet, law: Law, k: usize, around: &Neighborhood) -> i64 {
    let (i, whole) = (around.variable, &around.sides);
    let part = part_in_band(sheet, whole, k);
    let (least, greatest) = commands(rule, sheet, law, k, whole, &part);
    let over = match rule {
        Rule::Whole => whole,
        _ => &part,
    };
    let (row, cap) = (&sheet.bands[k].rows[i], sheet.caps[i]);
    match around.face {
        Face::Lower => {
            let command = least_product(row.b, least, greatest);
            least_change(row, least_numerator::<VARIABLES>(row, over, command), cap)
        }
        Face::Upper => {
            let command = greatest_product(row.b, least, greatest);
            greatest_change(
                row,
                greatest_numerator::<VARIABLES>(row, over, command),
                cap,
            )
        }
    }
}

/// The rate of every face.
pub(crate) fn round(
    rule: Rule,
    sheet: &Sheet,
    law: Law,
    start: &StateBox,
    enclosure: &StateBox,
    ticks: u32,
) -> Rates {
    let mut rates = Rates::default();
    for around in neighborhoods(sheet, start, enclosure, ticks) {
        let (i, cap) = (around.variable, i64::from(sheet.caps[around.variable]));
        let bands = around.bands.clone();
        let changes = bands.map(|k| bound(rule, sheet, law, k, &around));
        match around.face {
            Face::Lower => rates.lower[i] = changes.min().unwrap_or(cap),
            Face::Upper => rates.upper[i] = changes.max().unwrap_or(-cap),
        }
    }
    rates
}
