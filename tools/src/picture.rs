//! The boxes of an attempt over time: one panel for each variable, one above the other. Where the bands have laws,
//! a last panel has the commands.

use crate::attempts::{Attempt, Attempts, Ending};
use crate::names::Names;
use crate::panels::{
    cut, heading, legend, panel_height, with_forbidden, Labels, Panel, BOLD, BOLD_LETTERS, FAILED,
    FRAME, GAP, LEFT, LETTERS, LINE, RECOVERY, RIGHT, SMALL, UNSAFE, WIDTH,
};
use crate::plain_law::{commands_over, hull};
use crate::sheet_text::range;
use crate::show::{command_range, ending, ticks_before, unit_sides};
use crate::svg::{
    decimal, edged, filled, multiples, nice_step, outlined, Anchor, Area, Scale, Svg,
};
use second_guard::boxes::StateBox;
use second_guard::reach::{Law, Step};
use second_guard::sheet::{Band, CommandRange, Kind, Sheet, FIRST_EDGE, SIDE_LIMIT};

const TOP: f64 = 112.0;
/// The height of the panel of commands.
const COMMANDS: f64 = 90.0;

const COMMAND: &str = "#2b6cb0";
const BASELINE: &str = "#b7791f";
/// The colours of a question's commands and of the plain law.
const LAWS: [(&str, bool); 2] = [(COMMAND, false), (BASELINE, true)];
const EDGE: &str = "#4a5568";
const SWITCH: &str = "#1a202c";

const OVER_BOXES: &str =
    r##"font-size="11" font-weight="bold" stroke="white" stroke-width="3" paint-order="stroke""##;

/// What is drawn: an attempt, and the ticks of each of its phases.
struct Drawing<'a> {
    sheet: &'a Sheet,
    names: &'a Names,
    attempt: &'a Attempt,
    /// The ticks under the command; 0 for a recovery check.
    switch: u32,
    /// All ticks.
    ticks: u32,
    time: Scale,
}

/// The picture of one attempt, with two lines above it and what became of every width below.
pub fn picture(
    title: &str,
    answer: &str,
    found: &Attempts,
    attempt: &Attempt,
    sheet: &Sheet,
    names: &Names,
) -> String {
    let drawing = Drawing::new(attempt, sheet, names);
    let mut svg = Svg::default();
    drawing.head(&mut svg, title, answer);
    let mut bottom = TOP;
    for variable in 0..sheet.n() {
        bottom = drawing.panel(&mut svg, variable, bottom) + GAP;
    }
    if sheet.kind() == Kind::Following {
        bottom = drawing.commands(&mut svg, bottom) + GAP;
    }
    drawing.phases(&mut svg);
    drawing.time_axis(&mut svg, bottom - GAP);
    let end = drawing.widths(&mut svg, found, bottom);
    svg.finish(WIDTH, end + LINE)
}

impl<'a> Drawing<'a> {
    fn new(attempt: &'a Attempt, sheet: &'a Sheet, names: &'a Names) -> Drawing<'a> {
        let first = attempt.steps.first().map(|step| step.law);
        let (switch, ticks) = match first {
            Some(Law::Baseline) => (0, sheet.rho),
            _ => (sheet.delta, sheet.delta + sheet.alpha),
        };
        Drawing {
            sheet,
            names,
            attempt,
            switch: switch as u32,
            ticks: ticks as u32,
            time: Scale {
                from: 0.0,
                to: f64::from(ticks),
                at: LEFT,
                length: WIDTH - LEFT - RIGHT,
            },
        }
    }
}

impl Drawing<'_> {
    fn head(&self, svg: &mut Svg, title: &str, answer: &str) {
        heading(svg, title);
        let width = self.attempt.width;
        let line = format!("answer: {answer}. Drawn: the attempt at width {width}.");
        svg.text((LEFT, 40.0), Anchor::Start, "", &line);
        let entries = [
            (filled(COMMAND, 0.35), "command"),
            (filled(BASELINE, 0.35), "plain law"),
            (filled(RECOVERY, 0.18), "recovery box"),
            (filled(UNSAFE, 0.45), "no-go"),
            (filled(UNSAFE, 0.12), "no-go only with other variables"),
            (outlined(EDGE, 1.0, "1 3"), "band"),
            (outlined(FAILED, 2.5, ""), "first box that fails"),
        ];
        legend(svg, 58.0, &entries);
    }

    /// A panel whose values hold every box drawn, the recovery box and what is forbidden nearby.
    fn panel_at(&self, i: usize, top: f64) -> Panel {
        let recovery = &self.sheet.recovery;
        let (mut lower, mut upper) = (recovery.lower[i], recovery.upper[i]);
        for step in &self.attempt.steps {
            lower = lower.min(step.swept.lower[i]);
            upper = upper.max(step.swept.upper[i]);
        }
        let values = with_forbidden(self.sheet, i, (lower, upper));
        Panel::new(
            values,
            top,
            panel_height(self.sheet.n(), self.most_labels(i)),
        )
    }

    /// The lines of words beside variable i's panel: the recovery box, and at most all that has a side or an edge.
    fn most_labels(&self, i: usize) -> usize {
        let boxes = self.sheet.unsafe_boxes().iter();
        let bounded = boxes.filter(|unsafe_box| !is_free(unsafe_box, i)).count();
        let bands = match i == self.sheet.band_variable as usize {
            true => self.sheet.bands().len(),
            false => 0,
        };
        1 + bounded + bands
    }

    /// Variable i's panel; gives where it ends.
    fn panel(&self, svg: &mut Svg, i: usize, top: f64) -> f64 {
        let panel = self.panel_at(i, top);
        let named = &self.names.variables[i];
        panel.name(svg, named);
        let mut labels = Labels::default();
        self.recovery(svg, i, &panel, &mut labels);
        self.unsafe_boxes(svg, i, &panel, &mut labels);
        self.band_edges(svg, i, &panel, &mut labels);
        self.boxes(svg, i, &panel);
        self.switch_line(svg, &panel);
        self.failure(svg, i, &panel);
        panel.finish(svg, named, labels);
        panel.values.at
    }

    /// The commands of each step's ticks: the question's, and those that the bands' laws have over its swept box.
    /// Gives where the panel ends.
    fn commands(&self, svg: &mut Svg, top: f64) -> f64 {
        let CommandRange { least, greatest } = self.sheet.commands;
        let head = (i64::from(least), i64::from(greatest));
        let panel = Panel::new(head, top, COMMANDS);
        let named = &self.names.command;
        panel.name(svg, named);
        let mut labels = Labels::default();
        for (colour, baseline) in LAWS {
            self.commands_of(svg, colour, baseline, &panel, &mut labels);
        }
        self.switch_line(svg, &panel);
        panel.finish(svg, named, labels);
        panel.values.at
    }

    /// The commands of one law, each step's over its ticks, and the least and the greatest of them.
    fn commands_of(
        &self,
        svg: &mut Svg,
        colour: &'static str,
        baseline: bool,
        panel: &Panel,
        labels: &mut Labels,
    ) {
        let mut shapes = Vec::new();
        let mut all: Option<CommandRange> = None;
        for index in (0..self.attempt.steps.len()).filter(|&k| self.is_baseline(k) == baseline) {
            let commands = self.step_commands(index);
            let (from, to) = self.step_x(index);
            let y = |command: i32| panel.y(i64::from(command));
            let (low, high) = (y(commands.least), y(commands.greatest));
            shapes.push(vec![(from, low), (to, low), (to, high), (from, high)]);
            all = Some(all.map_or(commands, |all| hull(all, commands)));
        }
        svg.shapes(&shapes, edged(colour, 0.35, 1.2));
        if let Some(CommandRange { least, greatest }) = all {
            let law = if baseline { "plain law" } else { "command" };
            let amount = self.names.command.amount(&command_range(least, greatest));
            let middle = (panel.y(i64::from(least)) + panel.y(i64::from(greatest))) / 2.0;
            labels.add(middle, colour, format!("{law}: {amount}"));
        }
    }

    fn is_baseline(&self, index: usize) -> bool {
        self.attempt.steps[index].law == Law::Baseline
    }

    fn step_commands(&self, index: usize) -> CommandRange {
        let step = &self.attempt.steps[index];
        match step.law {
            Law::Baseline => commands_over(self.sheet, &step.swept),
            Law::Span { least, greatest } => CommandRange { least, greatest },
        }
    }

    fn recovery(&self, svg: &mut Svg, i: usize, panel: &Panel, labels: &mut Labels) {
        panel.recovery(svg, self.sheet, i, labels);
        // Only at the last tick does the box have to be within the recovery box.
        let recovery = &self.sheet.recovery;
        let end = panel.frame().x.1 + 4.0;
        let (lower, upper) = (panel.y(recovery.lower[i]), panel.y(recovery.upper[i]));
        svg.line((end, lower), (end, upper), outlined(RECOVERY, 4.0, ""));
    }

    /// Strong where every other variable's swept box meets the no-go box too, faint elsewhere.
    fn unsafe_boxes(&self, svg: &mut Svg, i: usize, panel: &Panel, labels: &mut Labels) {
        for (j, unsafe_box) in self.sheet.unsafe_boxes().iter().enumerate() {
            let (lower, upper) = (unsafe_box.lower[i], unsafe_box.upper[i]);
            let values = &panel.values;
            let seen = lower as f64 <= values.to && upper as f64 >= values.from;
            if is_free(unsafe_box, i) || !seen {
                continue;
            }
            let y = (values.place(lower as f64), values.place(upper as f64));
            for (from, to, strong) in self.spans(unsafe_box, i) {
                let x = (
                    self.time.place(f64::from(from)),
                    self.time.place(f64::from(to)),
                );
                let opacity = if strong { 0.45 } else { 0.12 };
                svg.rect(Area { x, y }, filled(UNSAFE, opacity));
            }
            labels.add((y.0 + y.1) / 2.0, UNSAFE, self.names.unsafe_box(j));
        }
    }

    /// Spans of ticks, and whether a no-go box is met there in every variable but one.
    fn spans(&self, unsafe_box: &StateBox, but: usize) -> Vec<(u32, u32, bool)> {
        let others = |swept: &StateBox| {
            (0..self.sheet.n()).filter(|&i| i != but).all(|i| {
                swept.lower[i] <= unsafe_box.upper[i] && unsafe_box.lower[i] <= swept.upper[i]
            })
        };
        let alone = (0..self.sheet.n()).all(|i| i == but || is_free(unsafe_box, i));
        let mut spans: Vec<(u32, u32, bool)> = Vec::new();
        let mut tick = 0;
        let steps = self.attempt.steps.iter();
        let rest = (self.ticks - self.covered(), alone);
        for (ticks, strong) in steps.map(|s| (s.ticks, others(&s.swept))).chain([rest]) {
            match spans.last_mut() {
                Some(last) if last.2 == strong => last.1 += ticks,
                _ => spans.push((tick, tick + ticks, strong)),
            }
            tick += ticks;
        }
        spans
    }

    /// The ticks that the steps cover.
    fn covered(&self) -> u32 {
        ticks_before(self.attempt, self.attempt.steps.len())
    }

    fn band_edges(&self, svg: &mut Svg, i: usize, panel: &Panel, labels: &mut Labels) {
        if i != self.sheet.band_variable as usize {
            return;
        }
        let bands = self.sheet.bands();
        let frame = panel.frame();
        for (k, band) in bands.iter().enumerate() {
            let next = bands.get(k + 1).map_or(SIDE_LIMIT, |b| i64::from(b.edge));
            let y = |side: i64| panel.values.place(side as f64);
            let (lower, upper) = (y(i64::from(band.edge)), y(next));
            if (lower - upper).abs() < 1.0 {
                continue;
            }
            if band.edge != FIRST_EDGE && panel.values.holds(f64::from(band.edge)) {
                let dots = outlined(EDGE, 1.0, "1 3");
                svg.line((frame.x.0, lower), (frame.x.1, lower), dots);
            }
            labels.add((lower + upper) / 2.0, EDGE, self.plain_law(band));
        }
    }

    /// The plain law has all commands of the safety range, or by the band's law some of them.
    fn plain_law(&self, band: &Band) -> String {
        let commands = range(band.safety.least, band.safety.greatest);
        let commands = self.names.command.amount(&commands);
        match self.sheet.kind() {
            Kind::Fixed => format!("plain law: {commands}"),
            Kind::Following => format!("plain law within {commands}"),
        }
    }

    /// Every step: its swept box, where its states lie tick by tick, and its end box.
    fn boxes(&self, svg: &mut Svg, i: usize, panel: &Panel) {
        for (colour, baseline) in LAWS {
            let mut swept = Vec::new();
            let mut inside = Vec::new();
            let mut ends = Vec::new();
            for (index, step) in self.attempt.steps.iter().enumerate() {
                if self.is_baseline(index) != baseline {
                    continue;
                }
                let (from, to) = self.step_x(index);
                swept.push(quad(i, panel, (from, &step.swept), (to, &step.swept)));
                inside.push(quad(i, panel, (from, &step.start), (to, &step.end)));
                ends.push(quad(i, panel, (to, &step.end), (to, &step.end)));
            }
            svg.shapes(&swept, filled(colour, 0.22));
            svg.shapes(&inside, edged(colour, 0.35, 0.8));
            svg.shapes(&ends, outlined(colour, 1.2, ""));
        }
        if let Some(first) = self.attempt.steps.first() {
            let start = quad(i, panel, (LEFT, &first.start), (LEFT, &first.start));
            svg.shapes(&[start], outlined(SWITCH, 4.0, ""));
        }
    }

    /// Where a step begins and ends.
    fn step_x(&self, index: usize) -> (f64, f64) {
        let from = ticks_before(self.attempt, index);
        let to = from + self.attempt.steps[index].ticks;
        let x = |tick: u32| self.time.place(f64::from(tick));
        (x(from), x(to))
    }

    /// Marks the first box that fails, and says why in the panels of the variables at fault.
    fn failure(&self, svg: &mut Svg, i: usize, panel: &Panel) {
        let Some(index) = self.attempt.steps.len().checked_sub(1) else {
            return;
        };
        let step = &self.attempt.steps[index];
        let (from, to) = self.step_x(index);
        match self.attempt.ending {
            Ending::Success | Ending::Spent => {}
            Ending::Unsafe(j) => {
                let shape = quad(i, panel, (from, &step.swept), (to, &step.swept));
                let words = format!("meets no-go {}", j + 1);
                let at_fault = !is_free(&self.sheet.unsafe_boxes()[j], i);
                self.mark(svg, panel, shape, at_fault.then_some(&words));
            }
            Ending::Outside(_) => {
                let shape = quad(i, panel, (to - 3.0, &step.end), (to + 3.0, &step.end));
                let words = "not within the recovery box";
                if !self.inside(step, i) {
                    self.mark(svg, panel, shape, Some(words));
                }
            }
        }
    }

    /// Outlines a shape, thick and with words if there are any.
    fn mark(&self, svg: &mut Svg, panel: &Panel, shape: Vec<(f64, f64)>, words: Option<&str>) {
        let ((from, _), (to, highest)) = (shape[0], shape[2]);
        let width = if words.is_some() { 2.5 } else { 1.0 };
        svg.shapes(&[shape], outlined(FAILED, width, ""));
        let (x, anchor) = if to < self.time.at + self.time.length / 2.0 {
            (to + 8.0, Anchor::Start)
        } else {
            (from - 8.0, Anchor::End)
        };
        let y = (highest + 12.0).clamp(panel.top() + 14.0, panel.values.at - 6.0);
        if let Some(words) = words {
            let style = format!("{OVER_BOXES} fill=\"{FAILED}\"");
            svg.text((x, y), anchor, &style, words);
        }
    }

    /// The end box is within the recovery box in this variable.
    fn inside(&self, step: &Step, i: usize) -> bool {
        let recovery = &self.sheet.recovery;
        recovery.lower[i] <= step.end.lower[i] && step.end.upper[i] <= recovery.upper[i]
    }

    /// The line between the command's ticks and the plain law's.
    fn switch_line(&self, svg: &mut Svg, panel: &Panel) {
        if self.switch == 0 {
            return;
        }
        let x = self.time.place(f64::from(self.switch));
        let frame = panel.frame();
        let dashes = outlined(SWITCH, 1.2, "6 3");
        svg.line((x, frame.y.0), (x, frame.y.1), dashes);
    }

    /// The names of the phases, above the first panel.
    fn phases(&self, svg: &mut Svg) {
        let style = |colour: &str| format!(r##"font-weight="bold" fill="{colour}""##);
        let y = TOP - GAP + 6.0;
        let first = self.attempt.steps.first().map(|step| step.law);
        let Some(Law::Span { least, greatest }) = first else {
            svg.text((LEFT, y), Anchor::Start, &style(BASELINE), "plain law");
            return;
        };
        let commands = command_range(least, greatest);
        let words = self.names.command.with_amount(&commands);
        svg.text((LEFT, y), Anchor::Start, &style(COMMAND), &words);
        let x = self.time.place(f64::from(self.switch));
        let x = x.max(LEFT + 24.0 + 8.0 * words.len() as f64);
        let words = format!("plain law from tick {}", self.switch);
        svg.text((x, y), Anchor::Start, &style(BASELINE), &words);
    }

    fn time_axis(&self, svg: &mut Svg, bottom: f64) {
        let step = nice_step(f64::from(self.ticks), 10.0).max(1.0);
        for tick in multiples(0.0, f64::from(self.ticks), step) {
            let x = self.time.place(tick);
            svg.line((x, bottom), (x, bottom + 4.0), outlined(FRAME, 1.0, ""));
            svg.text(
                (x, bottom + 16.0),
                Anchor::Middle,
                SMALL,
                &decimal(tick, step),
            );
        }
        let words = match &self.names.tick {
            Some(unit) => format!("ticks of {unit}"),
            None => "ticks".into(),
        };
        let x = self.time.at + self.time.length + 14.0;
        svg.text((x, bottom + 16.0), Anchor::Start, SMALL, &words);
    }

    /// One line for each width that was tried; gives where the lines end.
    fn widths(&self, svg: &mut Svg, found: &Attempts, top: f64) -> f64 {
        let mut y = top + LINE;
        for attempt in &found.all {
            let (style, letters) = match attempt.width == self.attempt.width {
                true => (BOLD, BOLD_LETTERS),
                false => (SMALL, LETTERS),
            };
            let words = ending(attempt, self.sheet, self.names, unit_sides);
            for line in cut(&format!("width {}: {words}", attempt.width), letters) {
                svg.text((LEFT, y), Anchor::Start, style, &line);
                y += LINE;
            }
        }
        y
    }
}

/// The four corners between two boxes at two places, in variable i.
fn quad(i: usize, panel: &Panel, from: (f64, &StateBox), to: (f64, &StateBox)) -> Vec<(f64, f64)> {
    vec![
        (from.0, panel.y(from.1.lower[i])),
        (to.0, panel.y(to.1.lower[i])),
        (to.0, panel.y(to.1.upper[i])),
        (from.0, panel.y(from.1.upper[i])),
    ]
}

/// A no-go box takes every value of this variable.
fn is_free(unsafe_box: &StateBox, i: usize) -> bool {
    unsafe_box.lower[i] == -SIDE_LIMIT && unsafe_box.upper[i] == SIDE_LIMIT
}
