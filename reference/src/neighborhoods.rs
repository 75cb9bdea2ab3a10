//! The neighborhoods of a round, for those who watch the engine: which bands they meet and
//! where the edges lie.

use crate::boxes::StateBox;
use crate::machine::bands_met;
use crate::sheet::Sheet;
use std::ops::Range;

/// The side of a box in one variable.
#[derive(Clone, Copy, Debug, PartialEq, Eq)]
pub enum Face {
    Lower,
    Upper,
}

/// The part of the enclosure that a face looks at.
#[derive(Clone, Debug)]
pub struct Neighborhood {
    pub variable: usize,
    pub face: Face,
    pub sides: StateBox,
    /// It ends before the enclosure does, ticks + 1 caps from the start box's side.
    pub cut: bool,
    /// The bands that it meets.
    pub bands: Range<usize>,
}

/// The neighborhood of one face.
fn neighborhood(
    sheet: &Sheet,
    start: &StateBox,
    enclosure: &StateBox,
    ticks: u32,
    variable: usize,
    face: Face,
) -> Neighborhood {
    let (i, v) = (variable, sheet.band_variable as usize);
    let depth = i64::from(ticks + 1) * i64::from(sheet.caps[i]);
    let mut sides = *enclosure;
    match face {
        Face::Lower => sides.upper[i] = sides.upper[i].min(start.lower[i] + depth),
        Face::Upper => sides.lower[i] = sides.lower[i].max(start.upper[i] - depth),
    }
    Neighborhood {
        variable,
        face,
        sides,
        cut: sides != *enclosure,
        bands: bands_met(sheet, sides.lower[v], sides.upper[v]),
    }
}

/// The neighborhoods of all faces: a round's, in a step of so many ticks.
pub fn neighborhoods<'a>(
    sheet: &'a Sheet,
    start: &'a StateBox,
    enclosure: &'a StateBox,
    ticks: u32,
) -> impl Iterator<Item = Neighborhood> + 'a {
    (0..sheet.n())
        .flat_map(|i| [(i, Face::Lower), (i, Face::Upper)])
        .map(move |(i, face)| neighborhood(sheet, start, enclosure, ticks, i, face))
}

impl Neighborhood {
    /// One of the band variable, cut by its depth and by an edge.
    pub fn cut_twice(&self, sheet: &Sheet) -> bool {
        self.variable == sheet.band_variable as usize && self.cut && self.bands.len() > 1
    }

    /// A later band's edge lies so far above this side in the band variable.
    pub fn edge_at(&self, sheet: &Sheet, side: Face, above: i64) -> bool {
        let v = sheet.band_variable as usize;
        let at = above
            + match side {
                Face::Lower => self.sides.lower[v],
                Face::Upper => self.sides.upper[v],
            };
        let later = &sheet.bands()[1..];
        later.iter().any(|band| i64::from(band.edge) == at)
    }
}
