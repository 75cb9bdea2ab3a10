//! What pictures share: their measures and colours, one panel for each variable, and the words around them.

use crate::names::Named;
use crate::svg::{
    decimal, filled, multiples, nice_step, outlined, Anchor, Area, Paint, Scale, Svg,
};
use second_guard::sheet::{Sheet, SIDE_LIMIT};

pub const WIDTH: f64 = 1000.0;
pub const LEFT: f64 = 80.0;
pub const RIGHT: f64 = 220.0;
pub const GAP: f64 = 34.0;
pub const LINE: f64 = 16.0;

pub const UNSAFE: &str = "#c53030";
pub const RECOVERY: &str = "#2f855a";
pub const FRAME: &str = "#a0aec0";
pub const FAILED: &str = "#742a2a";

pub const SMALL: &str = r##"font-size="11" fill="#4a5568""##;
pub const BOLD: &str = r##"font-weight="bold""##;

/// The height of a panel, and that of one among many.
const PANEL: f64 = 190.0;
const LOW_PANEL: f64 = 130.0;
/// The most variables whose panels are high.
const FEW: usize = 4;
/// The height of a line of words at the right of a panel.
const LABEL: f64 = 13.0;

/// The letters that a line has room for, plain and bold.
pub const LETTERS: usize = 140;
pub const BOLD_LETTERS: usize = 115;

/// A text cut at spaces into lines of at most so many letters; a longer word has a line of its own.
pub fn cut(text: &str, letters: usize) -> Vec<String> {
    let mut lines: Vec<String> = Vec::new();
    for word in text.split(' ') {
        match lines.last_mut() {
            Some(line) if line.chars().count() + 1 + word.chars().count() <= letters => {
                line.push(' ');
                line.push_str(word);
            }
            _ => lines.push(word.into()),
        }
    }
    lines
}

/// The height of a panel of one of n variables, with so many lines of words at its right.
pub fn panel_height(n: usize, labels: usize) -> f64 {
    if n <= FEW {
        return PANEL;
    }
    LOW_PANEL.max(LABEL * labels as f64)
}

/// The first line of a picture.
pub fn heading(svg: &mut Svg, words: &str) {
    let style = r##"font-size="15" font-weight="bold""##;
    svg.text((LEFT, 22.0), Anchor::Start, style, words);
}

/// The key: how each kind of shape is drawn.
pub fn legend(svg: &mut Svg, y: f64, entries: &[(Paint, &str)]) {
    let mut x = LEFT;
    for (paint, words) in entries {
        let area = Area {
            x: (x, x + 14.0),
            y: (y - 9.0, y + 1.0),
        };
        svg.rect(area, *paint);
        svg.text((x + 18.0, y), Anchor::Start, SMALL, words);
        x += 34.0 + 6.1 * words.len() as f64;
    }
}

/// The values of a variable from `lower` to `upper`, and those to what is forbidden nearby.
pub fn with_forbidden(
    sheet: &Sheet,
    variable: usize,
    (mut lower, mut upper): (i64, i64),
) -> (i64, i64) {
    let near = (upper - lower) / 2;
    for unsafe_box in sheet.unsafe_boxes() {
        for side in [unsafe_box.lower[variable], unsafe_box.upper[variable]] {
            if side.abs() < SIDE_LIMIT && side < lower && lower - side < near {
                lower = side;
            }
            if side.abs() < SIDE_LIMIT && side > upper && side - upper < near {
                upper = side;
            }
        }
    }
    (lower, upper)
}

/// A panel of a variable or of the command.
pub struct Panel {
    pub values: Scale,
}

impl Panel {
    /// A panel that shows the values from `lower` to `upper`.
    pub fn new((lower, upper): (i64, i64), top: f64, height: f64) -> Panel {
        let margin = ((upper - lower) as f64 * 0.06).max(1.0);
        let values = Scale {
            from: lower as f64 - margin,
            to: upper as f64 + margin,
            at: top + height,
            length: -height,
        };
        Panel { values }
    }

    pub fn top(&self) -> f64 {
        self.values.at + self.values.length
    }

    /// Where a value is drawn.
    pub fn y(&self, side: i64) -> f64 {
        self.values.place(side as f64)
    }

    pub fn frame(&self) -> Area {
        Area {
            x: (LEFT, WIDTH - RIGHT),
            y: (self.top(), self.values.at),
        }
    }

    /// The name above the panel.
    pub fn name(&self, svg: &mut Svg, named: &Named) {
        let at = (LEFT, self.top() - 7.0);
        svg.text(at, Anchor::Start, BOLD, &axis_name(named));
    }

    /// The recovery box's sides of variable i across the panel.
    pub fn recovery(&self, svg: &mut Svg, sheet: &Sheet, i: usize, labels: &mut Labels) {
        let recovery = &sheet.recovery;
        let (lower, upper) = (self.y(recovery.lower[i]), self.y(recovery.upper[i]));
        let x = self.frame().x;
        let y = (lower, upper);
        svg.rect(Area { x, y }, filled(RECOVERY, 0.10));
        for y in [lower, upper] {
            let dashes = outlined(RECOVERY, 1.0, "5 3");
            svg.line((x.0, y), (x.1, y), dashes);
        }
        labels.add((lower + upper) / 2.0, RECOVERY, "recovery box".into());
    }

    /// The axis at the left, the frame, and the words at the right.
    pub fn finish(&self, svg: &mut Svg, named: &Named, labels: Labels) {
        self.value_axis(svg, named);
        svg.rect(self.frame(), outlined(FRAME, 1.0, ""));
        labels.draw(svg, self.top(), self.values.at);
    }

    fn value_axis(&self, svg: &mut Svg, named: &Named) {
        let factor = named.unit.as_ref().map_or(1.0, |unit| unit.factor());
        let (from, to) = (self.values.from * factor, self.values.to * factor);
        let step = nice_step(to - from, 6.0);
        for value in multiples(from, to, step) {
            let y = self.values.place(value / factor);
            svg.line((LEFT - 4.0, y), (LEFT, y), outlined(FRAME, 1.0, ""));
            let at = (LEFT - 8.0, y + 4.0);
            svg.text(at, Anchor::End, SMALL, &decimal(value, step));
        }
    }
}

/// `position, mm`.
fn axis_name(named: &Named) -> String {
    match &named.unit {
        Some(unit) => format!("{}, {}", named.name, unit.name),
        None => named.name.clone(),
    }
}

/// Words at the right of a panel, kept apart.
#[derive(Default)]
pub struct Labels(Vec<(f64, &'static str, String)>);

impl Labels {
    pub fn add(&mut self, y: f64, colour: &'static str, words: String) {
        self.0.push((y, colour, words));
    }

    /// Each beside what it names or as near as there is room, from the top on, and up from the bottom again.
    fn draw(mut self, svg: &mut Svg, top: f64, bottom: f64) {
        self.0.sort_by(|one, other| one.0.total_cmp(&other.0));
        let mut free = top + 4.0;
        for label in &mut self.0 {
            label.0 = (label.0 + 4.0).max(free);
            free = label.0 + LABEL;
        }
        let mut free = bottom + 4.0;
        for label in self.0.iter_mut().rev() {
            label.0 = label.0.min(free);
            free = label.0 - LABEL;
        }
        for (y, colour, words) in self.0 {
            let style = format!(r##"font-size="11" fill="{colour}""##);
            let at = (WIDTH - RIGHT + 14.0, y);
            svg.text(at, Anchor::Start, &style, &words);
        }
    }
}

#[cfg(test)]
mod tests {
    use super::*;

    #[test]
    fn words_are_cut_at_spaces() {
        let lines = cut("one and two longer_than_that and 3", 7);
        assert_eq!(lines, ["one and", "two", "longer_than_that", "and 3"]);
        assert_eq!(cut("one and", 6), ["one", "and"]);
    }
}
