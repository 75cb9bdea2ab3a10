//! A sheet as text: what its lines say, and the one form in which the tool writes each of them.

use crate::archive;
use crate::box_order::{ascending, counterparts};
use crate::names::{Item, Named, Names};
use crate::refusal::sheet_fault;
use crate::tokens::{split_comment, Fault, Unit};
use second_guard::boxes::StateBox;
use second_guard::sheet::{Band, BandLaw, Kind, Row, Sheet, FIRST_EDGE, SIDE_LIMIT};

/// A line as it was written.
#[derive(Clone, Debug)]
pub struct SourceLine {
    pub text: String,
    pub item: Option<Item>,
}

/// A sheet with its names and lines.
#[derive(Clone, Debug)]
pub struct SheetText {
    pub sheet: Sheet,
    pub names: Names,
    pub lines: Vec<SourceLine>,
}

/// A sheet's values with plain names, every line in the tool's own form.
pub fn from_sheet(sheet: &Sheet) -> SheetText {
    let names = Names::plain(sheet);
    let lines = items(sheet)
        .into_iter()
        .map(|item| SourceLine {
            text: line(sheet, &names, item),
            item: Some(item),
        })
        .collect();
    SheetText {
        sheet: *sheet,
        names,
        lines,
    }
}

/// The lines of a sheet that hold its values, in the order of the file.
fn items(sheet: &Sheet) -> Vec<Item> {
    let n = sheet.n();
    let mut items: Vec<Item> = (0..n).map(Item::Variable).collect();
    items.extend([Item::Command, Item::Times, Item::BandVariable]);
    for k in 0..sheet.bands().len() {
        items.push(Item::Band(k));
        if sheet.kind() == Kind::Following {
            items.push(Item::Law(k));
        }
        items.extend((0..n).map(|i| Item::Row(k, i)));
    }
    items.extend((0..sheet.unsafe_boxes().len()).map(Item::Unsafe));
    items.push(Item::Recovery);
    items
}

impl SheetText {
    /// All lines.
    pub fn text(&self) -> String {
        self.lines
            .iter()
            .map(|line| format!("{}\n", line.text))
            .collect()
    }

    /// The line that holds an item, counted from 1.
    pub fn line_of(&self, item: Item) -> Option<usize> {
        let at = self.lines.iter().position(|line| line.item == Some(item))?;
        Some(at + 1)
    }

    /// The bands have laws. The values do not say it where the first law's divisor is 0.
    pub fn has_laws(&self) -> bool {
        self.line_of(Item::Law(0)).is_some()
    }

    fn kind(&self) -> Kind {
        match self.has_laws() {
            true => Kind::Following,
            false => Kind::Fixed,
        }
    }

    /// The lines of the no-go boxes, in the order of the file.
    pub fn unsafe_lines(&self) -> Vec<usize> {
        (0..self.names.unsafe_boxes.len())
            .filter_map(|j| self.line_of(Item::Unsafe(j)))
            .collect()
    }

    /// Box j becomes the no-go box that has number `order[j]`, with its name. No line is moved.
    fn renumber(&mut self, order: &[usize]) {
        let (boxes, names) = (self.sheet.unsafe_boxes, self.names.unsafe_boxes.clone());
        self.names.unsafe_boxes = order.iter().map(|&k| names[k].clone()).collect();
        for (slot, &k) in self.sheet.unsafe_boxes.iter_mut().zip(order) {
            *slot = boxes[k];
        }
        self.renumber_lines(order);
    }

    fn renumber_lines(&mut self, order: &[usize]) {
        for line in &mut self.lines {
            if let Some(Item::Unsafe(k)) = line.item {
                line.item = order.iter().position(|&old| old == k).map(Item::Unsafe);
            }
        }
    }

    /// Numbers the no-go boxes as the file has them. No line is moved.
    pub fn sort_boxes(&mut self) {
        let order = ascending(self.sheet.unsafe_boxes(), self.sheet.n());
        self.renumber(&order);
    }

    /// This text with the lines of its no-go boxes in the order of the file. They share the places that they
    /// have, and every other line stays.
    pub fn in_file_order(&self) -> SheetText {
        let lines = self.unsafe_lines();
        let mut places = lines.clone();
        places.sort_unstable();
        let mut text = self.clone();
        for (place, line) in places.into_iter().zip(lines) {
            text.lines[place - 1] = self.lines[line - 1].clone();
        }
        text
    }

    /// The sheet's bytes, by the archive's writer. What it refuses is a fault with its line.
    pub fn bytes(&self) -> Result<Vec<u8>, Fault> {
        let found = sheet_fault(&self.sheet, self.kind(), &self.names);
        match (archive::write_as(self.kind(), &self.sheet), found) {
            (Ok(bytes), None) => Ok(bytes),
            (Err(number), Some(test)) if number == test.refusal => Err(Fault {
                line: self.line_of(test.place),
                refusal: Some(number),
                what: test.words(|item| self.line_of(item)),
            }),
            (answer, found) => Err(Fault::general(format!(
                "the archive's writer and this tool differ: {:?} and {:?}",
                answer.map(|bytes| bytes.len()),
                found.map(|test| test.refusal)
            ))),
        }
    }

    /// This text with another sheet's values: lines whose values are the same stay as they are. The no-go
    /// boxes stand in the order of that sheet; one that is equal to a box of this text keeps its line.
    pub fn with_values(&self, sheet: &Sheet) -> Result<SheetText, Fault> {
        let counts = |s: &Sheet| (s.variables, s.band_count, s.unsafe_count);
        if counts(sheet) != counts(&self.sheet) {
            return Err(Fault::general(
                "the sheets differ in their number of variables, bands or no-go boxes",
            ));
        }
        if sheet.kind() != self.kind() {
            return Err(Fault::general(
                "one sheet has a law in each band, and the other has none",
            ));
        }
        let mut like = self.clone();
        let (new, old) = (sheet.unsafe_boxes(), self.sheet.unsafe_boxes());
        like.renumber(&counterparts(new, old, sheet.n()));
        let like = like.in_file_order();
        let lines = like
            .lines
            .iter()
            .map(|old| SourceLine {
                text: like.line_with(old, sheet),
                item: old.item,
            })
            .collect();
        Ok(SheetText {
            sheet: *sheet,
            names: like.names,
            lines,
        })
    }

    fn line_with(&self, old: &SourceLine, sheet: &Sheet) -> String {
        let Some(item) = old.item else {
            return old.text.clone();
        };
        let new = line(sheet, &self.names, item);
        if new == line(&self.sheet, &self.names, item) {
            return old.text.clone();
        }
        rewritten(&old.text, &new)
    }
}

/// A new line in the place of an old one: indent and comment stay.
pub fn rewritten(old: &str, new: &str) -> String {
    let (body, comment) = split_comment(old);
    let indent = &body[..body.len() - body.trim_start().len()];
    let gap = if comment.is_empty() { "" } else { "  " };
    format!("{indent}{}{gap}{comment}", new.trim_start())
}

/// The line for an item in the tool's own form.
fn line(sheet: &Sheet, names: &Names, item: Item) -> String {
    match item {
        Item::Title => format!("sheet \"{}\"", names.title()),
        Item::Tick => names.tick.iter().map(|u| format!("tick {u}")).collect(),
        Item::Variable(i) => {
            let Named { name, unit } = &names.variables[i];
            format!("variable {name}  cap {}{}", sheet.caps[i], unit_part(unit))
        }
        Item::Command => {
            let Named { name, unit } = &names.command;
            let range = range(sheet.commands.least, sheet.commands.greatest);
            format!("command {name}  {range}{}", unit_part(unit))
        }
        Item::Times => format!(
            "times  delta {}  alpha {}  rho {}",
            sheet.delta, sheet.alpha, sheet.rho
        ),
        Item::BandVariable => {
            format!("bands by {}", names.variable(sheet.band_variable as usize))
        }
        Item::Band(k) => band_line(&sheet.bands[k]),
        Item::Law(k) => law_line(&sheet.bands[k].law, names),
        Item::Row(k, i) => row_line(&sheet.bands[k].rows[i], names, i),
        Item::Unsafe(j) => {
            let name = names.unsafe_boxes[j].iter();
            let name: String = name.map(|name| format!(" \"{name}\"")).collect();
            format!("no-go{name}{}", open_sides(&sheet.unsafe_boxes[j], names))
        }
        Item::Recovery => format!("recovery{}", closed_sides(&sheet.recovery, names)),
    }
}

fn band_line(band: &Band) -> String {
    let edge = match band.edge {
        FIRST_EDGE => "lowest".into(),
        edge => edge.to_string(),
    };
    let safety = range(band.safety.least, band.safety.greatest);
    format!("band from {edge}  safety {safety}")
}

fn law_line(law: &BandLaw, names: &Names) -> String {
    let sum = sum(&law.coefficients, 0, law.constant, names);
    format!("  law {} = ({sum}) / {}", names.command.name, law.divisor)
}

fn row_line(row: &Row, names: &Names, i: usize) -> String {
    let sum = sum(&row.a, row.b, row.c, names);
    let spread = match row.d {
        0 => String::new(),
        d => format!(" +- {d}"),
    };
    format!(
        "  change {} = ({sum}{spread}) / {}",
        names.variable(i),
        row.q
    )
}

fn unit_part(unit: &Option<Unit>) -> String {
    unit.iter().map(|unit| format!("  unit {unit}")).collect()
}

pub fn range(lower: impl std::fmt::Display, upper: impl std::fmt::Display) -> String {
    format!("{lower}..{upper}")
}

/// Each variable's name and sides.
pub fn closed_sides(sides: &StateBox, names: &Names) -> String {
    named_sides(sides, names, range)
}

/// The same for a no-go box: sides at its limits are left out.
fn open_sides(sides: &StateBox, names: &Names) -> String {
    named_sides(sides, names, |lower, upper| {
        match (lower == -SIDE_LIMIT, upper == SIDE_LIMIT) {
            (true, true) => "any".into(),
            (true, false) => format!("..{upper}"),
            (false, true) => format!("{lower}.."),
            (false, false) => range(lower, upper),
        }
    })
}

fn named_sides(sides: &StateBox, names: &Names, range: impl Fn(i64, i64) -> String) -> String {
    let named = names.variables.iter().enumerate();
    named
        .map(|(i, v)| format!("  {} {}", v.name, range(sides.lower[i], sides.upper[i])))
        .collect()
}

/// `2 s - p + 4 u + 7`: terms with coefficient 0 are left out.
fn sum(coefficients: &[i32], command: i32, constant: i32, names: &Names) -> String {
    let coefficients = names.variables.iter().zip(coefficients.iter().copied());
    let command = (&names.command, command);
    let mut text = String::new();
    for (named, coefficient) in coefficients.chain([command]) {
        let name = match coefficient.unsigned_abs() {
            1 => named.name.clone(),
            size => format!("{size} {}", named.name),
        };
        push_term(&mut text, coefficient, &name);
    }
    push_term(&mut text, constant, &constant.unsigned_abs().to_string());
    if text.is_empty() {
        text.push('0');
    }
    text
}

/// Adds a term with its sign, unless it is 0.
fn push_term(text: &mut String, value: i32, size: &str) {
    let sign = match (value.signum(), text.is_empty()) {
        (0, _) => return,
        (1, true) => "",
        (1, false) => " + ",
        (_, true) => "-",
        (_, false) => " - ",
    };
    text.push_str(sign);
    text.push_str(size);
}
