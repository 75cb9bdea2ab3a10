//! The boxes of a sheet whose recovery box shares states with no-go boxes: one panel for each variable, in it a
//! column for each no-go box, and the common parts marked.

use crate::names::Names;
use crate::overlap::{common_part, overlap_in};
use crate::panels::{
    cut, heading, legend, panel_height, with_forbidden, Labels, Panel, BOLD, BOLD_LETTERS, FAILED,
    GAP, LEFT, LETTERS, LINE, RECOVERY, RIGHT, SMALL, UNSAFE, WIDTH,
};
use crate::show::{listed_sides, unit_sides};
use crate::svg::{edged, filled, hatched, Anchor, Area, Paint, Svg};
use second_guard::boxes::StateBox;
use second_guard::sheet::Sheet;

/// Words over strokes, and words over the recovery box.
const LABEL: &str =
    r##"font-size="11" font-weight="bold" stroke="white" stroke-width="5" paint-order="stroke""##;
const OUTSIDE: &str =
    r##"font-size="11" fill="#4a5568" stroke="white" stroke-width="3" paint-order="stroke""##;
const RULE: &str =
    "Each no-go box has a column of its own. It shares states with the recovery box \
                    only if their sides overlap in every variable.";

/// A no-go box, and the states that the recovery box has too, if there are any.
struct Column {
    number: usize,
    unsafe_box: StateBox,
    common: Option<StateBox>,
}

struct Drawing<'a> {
    sheet: &'a Sheet,
    names: &'a Names,
    columns: Vec<Column>,
}

/// The picture of a sheet's boxes, with the words of its refusal above them and a line on each no-go box below.
pub fn overlap_picture(refusal: &str, sheet: &Sheet, names: &Names) -> String {
    let drawing = Drawing {
        sheet,
        names,
        columns: columns(sheet),
    };
    let mut svg = Svg::default();
    let mut bottom = drawing.head(&mut svg, refusal);
    for variable in 0..sheet.n() {
        bottom = drawing.panel(&mut svg, variable, bottom + GAP);
    }
    let end = drawing.lines(&mut svg, bottom + GAP);
    svg.finish(WIDTH, end + LINE)
}

fn columns(sheet: &Sheet) -> Vec<Column> {
    let boxes = sheet.unsafe_boxes().iter().enumerate();
    boxes
        .map(|(number, unsafe_box)| Column {
            number,
            unsafe_box: *unsafe_box,
            common: common_part(unsafe_box, &sheet.recovery, sheet.n()),
        })
        .collect()
}

fn common_paint() -> Paint {
    hatched(FAILED, 2.5)
}

/// Strong where the no-go box shares states, faint where it shares none.
fn unsafe_paint(shares: bool) -> Paint {
    edged(UNSAFE, if shares { 0.45 } else { 0.12 }, 1.0)
}

/// Where the words of a common part stand: in it, above it or below it, as there is room.
fn label_y(panel: &Panel, area: Area) -> f64 {
    let (bottom, top) = area.y;
    if bottom - top > 20.0 {
        (bottom + top) / 2.0 + 4.0
    } else if top - panel.top() > 18.0 {
        top - 6.0
    } else {
        bottom + 15.0
    }
}

impl Drawing<'_> {
    /// The words above the panels; gives where they end.
    fn head(&self, svg: &mut Svg, refusal: &str) -> f64 {
        heading(svg, &format!("{}, refused", self.names.title()));
        let mut y = 40.0;
        for line in cut(refusal, LETTERS) {
            svg.text((LEFT, y), Anchor::Start, "", &line);
            y += LINE;
        }
        svg.text((LEFT, y), Anchor::Start, SMALL, RULE);
        let entries = [
            (common_paint(), "common part of both boxes"),
            (filled(RECOVERY, 0.18), "recovery box"),
            (unsafe_paint(true), "no-go box that shares states"),
            (unsafe_paint(false), "no-go box that shares none"),
        ];
        y += LINE + 4.0;
        legend(svg, y, &entries);
        y
    }

    /// Variable i's panel; gives where it ends.
    fn panel(&self, svg: &mut Svg, i: usize, top: f64) -> f64 {
        let recovery = &self.sheet.recovery;
        let values = with_forbidden(self.sheet, i, (recovery.lower[i], recovery.upper[i]));
        let panel = Panel::new(values, top, panel_height(self.sheet.n(), 1));
        let named = &self.names.variables[i];
        panel.name(svg, named);
        let mut labels = Labels::default();
        panel.recovery(svg, self.sheet, i, &mut labels);
        for column in &self.columns {
            self.unsafe_box(svg, i, &panel, column);
            self.number(svg, &panel, column);
        }
        panel.finish(svg, named, labels);
        // Last, so that nothing is drawn over it.
        for column in &self.columns {
            self.common(svg, i, &panel, column);
        }
        panel.values.at
    }

    /// Where a column's boxes are drawn: the middle of its part of the panel.
    fn x(&self, column: &Column) -> (f64, f64) {
        let part = (WIDTH - LEFT - RIGHT) / self.columns.len() as f64;
        let from = LEFT + part * column.number as f64;
        (from + 0.2 * part, from + 0.8 * part)
    }

    fn centre(&self, column: &Column) -> f64 {
        let x = self.x(column);
        (x.0 + x.1) / 2.0
    }

    /// The no-go box's sides, or a word where they lie outside the panel.
    fn unsafe_box(&self, svg: &mut Svg, i: usize, panel: &Panel, column: &Column) {
        let (lower, upper) = (column.unsafe_box.lower[i], column.unsafe_box.upper[i]);
        let outside = if lower as f64 > panel.values.to {
            Some((panel.top() + 12.0, "above"))
        } else if (upper as f64) < panel.values.from {
            Some((panel.values.at - 5.0, "below"))
        } else {
            None
        };
        if let Some((y, word)) = outside {
            svg.text((self.centre(column), y), Anchor::Middle, OUTSIDE, word);
            return;
        }
        let area = Area {
            x: self.x(column),
            y: (panel.y(lower), panel.y(upper)),
        };
        // On white: where the two boxes lie over each other in this variable, they may share no state.
        svg.area(area, filled("white", 1.0));
        svg.area(area, unsafe_paint(column.common.is_some()));
    }

    /// The number of the no-go box, under the panel.
    fn number(&self, svg: &mut Svg, panel: &Panel, column: &Column) {
        let at = (self.centre(column), panel.values.at + 13.0);
        let words = format!("no-go {}", column.number + 1);
        svg.text(at, Anchor::Middle, SMALL, &words);
    }

    /// Marks the common part, if there is one.
    fn common(&self, svg: &mut Svg, i: usize, panel: &Panel, column: &Column) {
        let Some(common) = &column.common else {
            return;
        };
        let area = Area {
            x: self.x(column),
            y: (panel.y(common.lower[i]), panel.y(common.upper[i])),
        };
        let paint = Paint {
            class: "common",
            ..common_paint()
        };
        svg.area(area, paint);
        let style = format!("{LABEL} fill=\"{FAILED}\"");
        let at = (self.centre(column), label_y(panel, area));
        svg.text(at, Anchor::Middle, &style, "common part");
    }

    /// One line for each no-go box; gives where the lines end.
    fn lines(&self, svg: &mut Svg, top: f64) -> f64 {
        let mut y = top;
        for column in &self.columns {
            let style = if column.common.is_some() { BOLD } else { SMALL };
            for line in cut(&self.line(column), BOLD_LETTERS) {
                svg.text((LEFT, y), Anchor::Start, style, &line);
                y += LINE;
            }
        }
        y
    }

    /// `no-go 2 "front buffer": shares position 580.0..590.0 mm`, or in which variables it lies apart.
    fn line(&self, column: &Column) -> String {
        let variables = 0..self.sheet.n();
        let unsafe_box = self.names.unsafe_box(column.number);
        if let Some(common) = &column.common {
            let sides = listed_sides(self.names, common, variables, unit_sides);
            return format!("{unsafe_box}: shares {sides}");
        }
        let apart: Vec<&str> = variables
            .filter(|&i| !overlap_in(&column.unsafe_box, &self.sheet.recovery, i))
            .map(|i| self.names.variable(i))
            .collect();
        format!(
            "{unsafe_box}: shares no state, apart in {}",
            apart.join(", ")
        )
    }
}
