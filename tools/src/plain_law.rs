//! The commands that the plain law has over a box.

use second_guard::boxes::{State, StateBox};
use second_guard::machine::{bands_met, plain_commands};
use second_guard::sheet::{CommandRange, Sheet};

/// The least and the greatest command that the plain law has at a state of the box, on a sheet whose bands have
/// laws. The box meets a band.
pub fn commands_over(sheet: &Sheet, over: &StateBox) -> CommandRange {
    let v = sheet.band_variable as usize;
    let met = bands_met(sheet, over.lower[v], over.upper[v]);
    let parts = met.map(|k| commands_in(sheet, k, &part(sheet, k, over)));
    parts.reduce(hull).expect("a box meets a band")
}

/// From the lesser of the least commands to the greater of the greatest.
pub fn hull(one: CommandRange, other: CommandRange) -> CommandRange {
    CommandRange {
        least: one.least.min(other.least),
        greatest: one.greatest.max(other.greatest),
    }
}

/// The part of a box that lies in band k.
fn part(sheet: &Sheet, k: usize, over: &StateBox) -> StateBox {
    let v = sheet.band_variable as usize;
    let mut part = *over;
    part.lower[v] = part.lower[v].max(i64::from(sheet.bands[k].edge));
    if let Some(next) = sheet.bands().get(k + 1) {
        part.upper[v] = part.upper[v].min(i64::from(next.edge) - 1);
    }
    part
}

/// The commands over a box in band k: they follow the law's sum, which is least and greatest at a corner.
fn commands_in(sheet: &Sheet, k: usize, over: &StateBox) -> CommandRange {
    let law = &sheet.bands[k].law;
    let corner = |least: bool| -> State {
        std::array::from_fn(|i| match (law.coefficients[i] > 0) == least {
            true => over.lower[i],
            false => over.upper[i],
        })
    };
    let at = |least| plain_commands(sheet, &corner(least)).expect("a state in a band");
    CommandRange {
        least: at(true).least,
        greatest: at(false).greatest,
    }
}
