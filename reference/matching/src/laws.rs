//! Plain laws that follow the state (document 02, paper 9): random laws of every sort, where their sums
//! lie over the parts of a round, and guards that bound a law by another rule.

use crate::archive::format::{slot_law, LAW_CONSTANT, LAW_DIVISOR, NUMBERS};
use crate::generate::{everyday_of, Case};
use crate::random::Random;
use second_guard::boxes::{StateBox, VARIABLES};
use second_guard::changes::{CommandEnd, End, Place};
use second_guard::decision::{
    check_recovery_watched, decide_watched, Decision, Faults, Question, RecoveryCheck,
};
use second_guard::neighborhoods::{neighborhoods, Face, Neighborhood};
use second_guard::reach::Watch;
use second_guard::rules::Rule;
use second_guard::sheet::{Band, BandLaw, Kind, Sheet};

/// The greatest coefficient, constant and divisor of a law.
const COEFFICIENT: i32 = 1_000;
const CONSTANT: i64 = 100_000_000;
const DIVISOR: i64 = 4_096;

/// Of a hundred sheets so many have laws.
const FOLLOWING: usize = 40;

pub fn any_kind(random: &mut Random) -> Kind {
    if random.percent(FOLLOWING) {
        Kind::Following
    } else {
        Kind::Fixed
    }
}

/// Puts a law into each band. Within the region its commands go over some of the safety range, over
/// all of it, or far beyond it.
pub fn put_laws(random: &mut Random, sheet: &mut Sheet, region: &StateBox) {
    for k in 0..sheet.band_count as usize {
        sheet.bands[k].law = if k > 0 && random.percent(30) {
            shifted(random, &sheet.bands[0].law)
        } else {
            any_law_of(random, sheet.n(), &sheet.bands[k], region)
        };
    }
    if random.percent(15) {
        any_law(random, sheet, put_at_end);
    }
}

/// The sheet with laws, if it has none.
pub fn set_following(random: &mut Random, sheet: &mut Sheet) {
    if sheet.kind() == Kind::Fixed {
        let region = sheet.recovery;
        put_laws(random, sheet, &region);
    }
}

/// Changes the law of any band. A sheet without laws gets them before.
pub fn any_law(random: &mut Random, sheet: &mut Sheet, change: impl Fn(&mut Random, &mut BandLaw)) {
    set_following(random, sheet);
    let k = random.below(sheet.band_count as usize);
    change(random, &mut sheet.bands[k].law);
}

fn constant(value: i64) -> i32 {
    value.clamp(-CONSTANT, CONSTANT) as i32
}

/// The law with another constant.
fn shifted(random: &mut Random, law: &BandLaw) -> BandLaw {
    let shift = i64::from(law.divisor) * random.signed_spread(1, 300);
    BandLaw {
        constant: constant(i64::from(law.constant) + shift),
        ..*law
    }
}

/// Coefficients of n variables, some of them 0. In every second law they have the other sign than the
/// row's term of the command, so that the command draws the variable back.
fn any_coefficients(random: &mut Random, n: usize, band: &Band) -> [i32; VARIABLES] {
    let most = random.pick(&[1, 30, 30, COEFFICIENT]);
    let draws_back = random.percent(50);
    let mut coefficients = [0; VARIABLES];
    for (coefficient, row) in coefficients[..n].iter_mut().zip(&band.rows) {
        let size = random.signed_spread(1, most.into()) as i32;
        *coefficient = match row.b.signum() {
            _ if random.percent(30) => 0,
            sign if draws_back && sign != 0 => -sign * size.abs(),
            _ => size,
        };
    }
    coefficients
}

/// A law for a band of n variables.
fn any_law_of(random: &mut Random, n: usize, band: &Band, region: &StateBox) -> BandLaw {
    let coefficients = any_coefficients(random, n, band);
    let (least, greatest) = (band.safety.least, band.safety.greatest);
    let (mut at_middle, mut change) = (0, 0);
    for (i, &coefficient) in coefficients[..n].iter().enumerate() {
        let (lower, upper) = (region.lower[i], region.upper[i]);
        at_middle += i64::from(coefficient) * ((lower + upper) / 2);
        change += i64::from(coefficient.abs()) * (upper - lower);
    }
    // The quotient goes over so many tenths of the safety range.
    let tenths = random.pick(&[1, 3, 8, 10, 30, 200]);
    let room = i64::from(greatest) - i64::from(least) + 1;
    let divisor = (10 * change / (room * tenths)).clamp(1, DIVISOR);
    let command = i64::from(random.int(least, greatest));
    BandLaw {
        coefficients,
        constant: constant(divisor * command - at_middle),
        divisor: divisor as i32,
    }
}

/// Puts some of a law's numbers at their ends, or all its coefficients to 0.
fn put_at_end(random: &mut Random, law: &mut BandLaw) {
    match random.below(4) {
        0 => law.coefficients.fill(0),
        1 => {
            for coefficient in law.coefficients.iter_mut().filter(|a| **a != 0) {
                *coefficient = coefficient.signum() * COEFFICIENT;
            }
        }
        2 => law.constant = random.pick(&[-CONSTANT, CONSTANT]) as i32,
        _ => law.divisor = random.pick(&[1, DIVISOR]) as i32,
    }
}

/// A case whose bands have laws.
pub fn followed(random: &mut Random) -> Case {
    let n = random.pick(&[1, 2, 2, 3, 4, 5, 6]);
    everyday_of(random, n, Kind::Following).case
}

/// The kind and the number of variables of a sheet's bytes, by n and by the first band's mark.
pub fn kind_of_bytes(sheet: &[u8]) -> Option<(Kind, usize)> {
    let n = usize::from(*sheet.get(2)?);
    let mark = sheet.get(20 + 2 * n..)?.first_chunk()?;
    let kinds = [Kind::Fixed, Kind::Following];
    let kind = kinds.into_iter().find(|kind| kind.mark() == mark);
    kind.map(|kind| (kind, n))
}

/// The same of a sheet's numbers.
pub fn kind_of_numbers(numbers: &[i32; NUMBERS]) -> Option<(Kind, usize)> {
    let kind = match numbers[slot_law(0) + LAW_DIVISOR] {
        0 => Kind::Fixed,
        _ => Kind::Following,
    };
    Some((kind, usize::try_from(numbers[0]).ok()?))
}

/// How the commands over a part lie beside the safety range: by the law's least and greatest sum.
#[derive(Clone, Copy, Debug, PartialEq, Eq)]
pub enum Clamped {
    Neither,
    Below,
    Above,
    Both,
    /// All of them are the least command.
    AllBelow,
    /// All of them are the greatest command.
    AllAbove,
}

pub const CLAMPED: [Clamped; 6] = [
    Clamped::Neither,
    Clamped::Below,
    Clamped::Above,
    Clamped::Both,
    Clamped::AllBelow,
    Clamped::AllAbove,
];

impl Clamped {
    pub fn text(self) -> &'static str {
        match self {
            Clamped::Neither => "no end clamped",
            Clamped::Below => "the least end clamped",
            Clamped::Above => "the greatest end clamped",
            Clamped::Both => "both ends clamped, each to its side",
            Clamped::AllBelow => "both ends clamped to the least command",
            Clamped::AllAbove => "both ends clamped to the greatest command",
        }
    }

    fn of(band: &Band, (least, greatest): (i64, i64)) -> Clamped {
        let divisor = i64::from(band.law.divisor);
        let (lowest, highest) = (
            divisor * i64::from(band.safety.least),
            divisor * i64::from(band.safety.greatest),
        );
        match (least <= lowest, greatest >= highest) {
            _ if greatest <= lowest => Clamped::AllBelow,
            _ if least >= highest => Clamped::AllAbove,
            (true, true) => Clamped::Both,
            (true, false) => Clamped::Below,
            (false, true) => Clamped::Above,
            (false, false) => Clamped::Neither,
        }
    }
}

/// The least and the greatest sum of a band's law over the part of a box that lies in the band.
fn sums_in_band(sheet: &Sheet, sides: &StateBox, k: usize) -> (i64, i64) {
    let (v, law) = (sheet.band_variable as usize, &sheet.bands[k].law);
    let next = sheet.bands().get(k + 1);
    let below_next = next.map_or(i64::MAX, |next| i64::from(next.edge) - 1);
    let constant = i64::from(law.constant);
    let (mut least, mut greatest) = (constant, constant);
    for (i, &coefficient) in law.coefficients[..sheet.n()].iter().enumerate() {
        let (mut lower, mut upper) = (sides.lower[i], sides.upper[i]);
        if i == v {
            lower = lower.max(sheet.bands[k].edge.into());
            upper = upper.min(below_next);
        }
        let ends = [lower, upper].map(|side| i64::from(coefficient) * side);
        least += ends[0].min(ends[1]);
        greatest += ends[0].max(ends[1]);
    }
    (least, greatest)
}

/// Where a sum lies that is just at an end of the safety range, next to it, or around zero.
#[derive(Clone, Copy, Debug, PartialEq, Eq)]
pub enum SumAt {
    BelowLeast,
    Least,
    AboveLeast,
    MinusOne,
    Zero,
    One,
    BelowGreatest,
    Greatest,
    AboveGreatest,
}

pub const SUMS_AT: [SumAt; 9] = [
    SumAt::BelowLeast,
    SumAt::Least,
    SumAt::AboveLeast,
    SumAt::MinusOne,
    SumAt::Zero,
    SumAt::One,
    SumAt::BelowGreatest,
    SumAt::Greatest,
    SumAt::AboveGreatest,
];

impl SumAt {
    pub fn text(self) -> &'static str {
        match self {
            SumAt::BelowLeast => "divisor*least - 1",
            SumAt::Least => "divisor*least",
            SumAt::AboveLeast => "divisor*least + 1",
            SumAt::MinusOne => "-1",
            SumAt::Zero => "0",
            SumAt::One => "1",
            SumAt::BelowGreatest => "divisor*greatest - 1",
            SumAt::Greatest => "divisor*greatest",
            SumAt::AboveGreatest => "divisor*greatest + 1",
        }
    }

    fn sum(self, band: &Band) -> i64 {
        let divisor = i64::from(band.law.divisor);
        let (least, greatest) = (
            divisor * i64::from(band.safety.least),
            divisor * i64::from(band.safety.greatest),
        );
        match self {
            SumAt::BelowLeast => least - 1,
            SumAt::Least => least,
            SumAt::AboveLeast => least + 1,
            SumAt::MinusOne => -1,
            SumAt::Zero => 0,
            SumAt::One => 1,
            SumAt::BelowGreatest => greatest - 1,
            SumAt::Greatest => greatest,
            SumAt::AboveGreatest => greatest + 1,
        }
    }

    /// The end's sum lies just there. Around zero it has to lie within the safety range.
    fn is_of(self, end: &CommandEnd) -> bool {
        let place = |more: i64| end.clamp.place(end.sum + more);
        let first = |place: Place, before: Place| place == Place::Least && before != Place::Least;
        let last =
            |place: Place, before: Place| place == Place::Greatest && before != Place::Greatest;
        let between = |sum: i64| end.sum == sum && place(0) == Place::Between;
        match self {
            SumAt::BelowLeast => first(place(1), place(2)),
            SumAt::Least => first(place(0), place(1)),
            SumAt::AboveLeast => first(place(-1), place(0)),
            SumAt::MinusOne => between(-1),
            SumAt::Zero => between(0),
            SumAt::One => between(1),
            SumAt::BelowGreatest => last(place(1), place(0)),
            SumAt::Greatest => last(place(0), place(-1)),
            SumAt::AboveGreatest => last(place(-1), place(-2)),
        }
    }
}

/// Sees the laws' sums under the plain law of a sheet whose bands have laws.
pub struct LawSight<'a> {
    sheet: &'a Sheet,
    /// A part's commands lie so, by the place in `CLAMPED`.
    pub clamped: [bool; CLAMPED.len()],
    /// A sum that an end is worked out from lies so, by the end and by the place in `SUMS_AT`.
    pub sum_at: [[bool; SUMS_AT.len()]; 2],
    /// The most bands that a neighborhood meets.
    pub most_bands: usize,
    /// The last round's start box, enclosure and ticks, as long as no end was looked at.
    round: Option<(StateBox, StateBox, u32)>,
}

impl<'a> LawSight<'a> {
    pub fn new(sheet: &'a Sheet) -> LawSight<'a> {
        LawSight {
            sheet,
            clamped: Default::default(),
            sum_at: Default::default(),
            most_bands: 0,
            round: None,
        }
    }

    fn look_at(&mut self, around: &Neighborhood) {
        self.most_bands = self.most_bands.max(around.bands.len());
        for k in around.bands.clone() {
            let band = &self.sheet.bands[k];
            if band.rows[around.variable].b == 0 {
                continue;
            }
            let of = Clamped::of(band, sums_in_band(self.sheet, &around.sides, k));
            for (seen, clamped) in self.clamped.iter_mut().zip(CLAMPED) {
                *seen |= clamped == of;
            }
        }
    }
}

impl Watch for LawSight<'_> {
    fn round(&mut self, _sheet: &Sheet, start: &StateBox, enclosure: &StateBox, ticks: u32) {
        self.round = Some((*start, *enclosure, ticks));
    }

    fn command(&mut self, end: CommandEnd) {
        if let Some((start, enclosure, ticks)) = self.round.take() {
            for around in neighborhoods(self.sheet, &start, &enclosure, ticks) {
                self.look_at(&around);
            }
        }
        let sum_at = &mut self.sum_at[usize::from(end.end == End::Greatest)];
        for (seen, at) in sum_at.iter_mut().zip(SUMS_AT) {
            *seen |= at.is_of(&end);
        }
    }
}

/// A case in which a sum of each law is aimed at by its constant: one that the first round of the
/// recovery check looks at.
pub fn aimed_laws(random: &mut Random) -> Case {
    let mut case = followed(random);
    for k in 0..case.sheet.band_count as usize {
        let divisor = &mut case.sheet.bands[k].law.divisor;
        *divisor = (*divisor).max(2);
        let Some(sum) = any_sum(random, &case.sheet, k) else {
            continue;
        };
        let band = &mut case.sheet.bands[k];
        let wanted = random.pick(&SUMS_AT).sum(band);
        let constant = i64::from(band.law.constant) + wanted - sum;
        if constant.abs() <= CONSTANT {
            band.law.constant = constant as i32;
        }
    }
    case
}

/// One of the sums of band k's law that the recovery check's first round looks at.
fn any_sum(random: &mut Random, sheet: &Sheet, k: usize) -> Option<i64> {
    let start = &sheet.recovery;
    let mut sums = Vec::new();
    for around in neighborhoods(sheet, start, start, sheet.rho as u32) {
        let b = sheet.bands[k].rows[around.variable].b;
        if b == 0 || !around.bands.contains(&k) {
            continue;
        }
        let (least, greatest) = sums_in_band(sheet, &around.sides, k);
        let by_least = (b > 0) == (around.face == Face::Lower);
        sums.push(if by_least { least } else { greatest });
    }
    (!sums.is_empty()).then(|| random.pick(&sums))
}

/// A guard that bounds a law by another rule.
#[derive(Clone, Copy)]
pub struct OtherGuard {
    pub name: &'static str,
    pub rule: Rule,
    pub decide: fn(&Sheet, &Question) -> Decision,
    pub check: fn(&Sheet) -> RecoveryCheck,
}

fn decide_by<W: Watch + Default>(sheet: &Sheet, question: &Question) -> Decision {
    decide_watched(sheet, question, Faults::default(), &mut W::default())
}

fn check_by<W: Watch + Default>(sheet: &Sheet) -> RecoveryCheck {
    check_recovery_watched(sheet, &mut W::default())
}

const fn by<W: Watch + Default>(name: &'static str) -> OtherGuard {
    OtherGuard {
        name,
        rule: W::RULE,
        decide: decide_by::<W>,
        check: check_by::<W>,
    }
}

/// A watch for each rule, which sees nothing.
macro_rules! watches {
    ($($rule:ident),*) => {$(
        #[derive(Default)]
        struct $rule;

        impl Watch for $rule {
            const RULE: Rule = Rule::$rule;
        }
    )*};
}

watches!(
    LawOverWhole,
    LawInTheMiddle,
    LawFromItsLeast,
    LawFromItsGreatest,
    LawRoundedInward,
    LawWithinTheHead
);

/// By these rules a law's ends are wrong, or wider than they have to be.
pub const OTHER_GUARDS: [OtherGuard; 6] = [
    by::<LawOverWhole>("the law over the whole neighborhood"),
    by::<LawInTheMiddle>("the law in the middle"),
    by::<LawFromItsLeast>("the law's least sum for both ends"),
    by::<LawFromItsGreatest>("the law's greatest sum for both ends"),
    by::<LawRoundedInward>("the law rounded inward"),
    by::<LawWithinTheHead>("the law clamped to the head's range"),
];

/// A number of a law.
#[derive(Clone, Copy, Debug, PartialEq, Eq)]
pub enum LawNumber {
    /// One of n, by its variable.
    Coefficient(usize),
    Constant,
    Divisor,
}

impl LawNumber {
    /// Any of them, each kind alike.
    pub fn any(random: &mut Random, n: usize) -> LawNumber {
        let coefficient = LawNumber::Coefficient(random.below(n));
        random.pick(&[coefficient, LawNumber::Constant, LawNumber::Divisor])
    }

    /// The kinds of numbers.
    pub const KINDS: [&'static str; 3] = ["coefficient", "constant", "divisor"];

    /// The place among the kinds.
    pub fn kind(self) -> usize {
        match self {
            LawNumber::Coefficient(_) => 0,
            LawNumber::Constant => 1,
            LawNumber::Divisor => 2,
        }
    }

    /// The least and the greatest that is accepted.
    pub fn ends(self) -> (i32, i32) {
        match self {
            LawNumber::Coefficient(_) => (-COEFFICIENT, COEFFICIENT),
            LawNumber::Constant => (-CONSTANT as i32, CONSTANT as i32),
            LawNumber::Divisor => (1, DIVISOR as i32),
        }
    }

    /// The least and the greatest that a file can hold.
    pub fn extremes(self) -> (i32, i32) {
        match self {
            LawNumber::Coefficient(_) => (i16::MIN.into(), i16::MAX.into()),
            LawNumber::Constant => (i32::MIN, i32::MAX),
            LawNumber::Divisor => (0, u16::MAX.into()),
        }
    }

    /// Where it begins behind a band's mark, edge and safety range.
    pub fn place(self, n: usize) -> usize {
        match self {
            LawNumber::Coefficient(i) => 2 * i,
            LawNumber::Constant => 2 * n,
            LawNumber::Divisor => 2 * n + 4,
        }
    }

    /// Its bytes in a file.
    pub fn bytes(self, value: i32) -> Vec<u8> {
        let all = value.to_be_bytes();
        match self {
            LawNumber::Constant => all.to_vec(),
            _ => all[2..].to_vec(),
        }
    }

    /// Its slot from the law's first on.
    pub fn slot(self) -> usize {
        match self {
            LawNumber::Coefficient(i) => i,
            LawNumber::Constant => LAW_CONSTANT,
            LawNumber::Divisor => LAW_DIVISOR,
        }
    }
}
