//! Reads a sheet's text.

use crate::names::{Item, Named, Names};
use crate::sheet_text::{SheetText, SourceLine};
use crate::tokens::{Cursor, Fault, Token};
use second_guard::sheet::{BandLaw, CommandRange, Row, Sheet, FIRST_EDGE, SIDE_LIMIT};

/// Words with a meaning in a place where a name may stand.
const RESERVED: [&str; 8] = [
    "any",
    "allowance",
    "by",
    "cap",
    "command",
    "no-go",
    "refused",
    "unit",
];

const ALL_OR_NONE: &str = "every band has a law, or none has";

/// Reads all lines and numbers the no-go boxes as the file has them, in whatever order they stand. Values are
/// not tested here: `SheetText::bytes` does that.
pub fn parse(text: &str) -> Result<SheetText, Fault> {
    let mut parser = Parser::new();
    for (index, line) in text.lines().enumerate() {
        let mut cursor = Cursor::new(index + 1, line)?;
        let item = match cursor.take() {
            None => None,
            Some(Token::Word(word)) => Some(parser.item(&word, &mut cursor)?),
            Some(_) => return cursor.fault("a line begins with a word"),
        };
        cursor.end()?;
        if parser.full {
            // A count is out of range, and the guard refuses that before anything else.
            return Err(parser.count_fault(item, line));
        }
        parser.text.lines.push(SourceLine {
            text: line.into(),
            item,
        });
    }
    parser.complete()
}

/// What a quotient gives: how much a variable changes, or the command.
#[derive(Clone, Copy, PartialEq, Eq)]
enum Quotient {
    Change,
    Law,
}

impl Quotient {
    fn example(self) -> &'static str {
        match self {
            Quotient::Change => "a change reads like: change x = (2 y - x + 5 +- 3) / 40",
            Quotient::Law => "a law reads like: law u = (-3 x - y + 1200) / 40",
        }
    }
}

struct Parser {
    text: SheetText,
    /// The line just read is one variable, band or no-go box too many.
    full: bool,
}

impl Parser {
    fn new() -> Parser {
        let sheet = Sheet::default();
        let mut names = Names::plain(&sheet);
        names.command.name.clear();
        Parser {
            text: SheetText {
                sheet,
                names,
                lines: Vec::new(),
            },
            full: false,
        }
    }

    /// One line: its first word says what it is.
    fn item(&mut self, word: &str, cursor: &mut Cursor) -> Result<Item, Fault> {
        let item = match word {
            "sheet" => self.title(cursor),
            "tick" => self.tick(cursor),
            "variable" => self.variable(cursor),
            "command" => self.command(cursor),
            "times" => self.times(cursor),
            "bands" => self.band_variable(cursor),
            "band" => self.band(cursor),
            "law" => self.law(cursor),
            "change" => self.row(cursor),
            "no-go" => self.unsafe_box(cursor),
            "recovery" => self.recovery(cursor),
            _ => cursor.fault(format!("'{word}' begins no line of a sheet")),
        }?;
        if !self.full && self.text.line_of(item).is_some() {
            return cursor.fault("this stands in an earlier line too");
        }
        Ok(item)
    }

    fn title(&mut self, cursor: &mut Cursor) -> Result<Item, Fault> {
        self.text.names.title = cursor.take_quoted();
        match self.text.names.title {
            Some(_) => Ok(Item::Title),
            None => cursor.fault("a title in quotes is missing"),
        }
    }

    fn tick(&mut self, cursor: &mut Cursor) -> Result<Item, Fault> {
        match cursor.take() {
            Some(Token::Unit(unit)) => self.text.names.tick = Some(unit),
            _ => return cursor.fault("a tick's length is missing, as in tick 5 ms"),
        }
        Ok(Item::Tick)
    }

    /// A name that is not taken yet.
    fn new_name(&self, cursor: &mut Cursor) -> Result<String, Fault> {
        let name = cursor.name()?;
        let names = &self.text.names;
        if RESERVED.contains(&name.as_str()) {
            return cursor.fault(format!("'{name}' cannot be a name"));
        }
        if names.command.name == name || names.variables.iter().any(|v| v.name == name) {
            return cursor.fault(format!("the name '{name}' is taken"));
        }
        Ok(name)
    }

    fn variable(&mut self, cursor: &mut Cursor) -> Result<Item, Fault> {
        let i = self.text.sheet.n();
        if self.text.sheet.band_count > 0 {
            return cursor.fault("variables stand before the bands");
        }
        let name = self.new_name(cursor)?;
        cursor.word("cap")?;
        let cap = cursor.number()?;
        let unit = cursor.unit()?;
        self.text.names.variables.push(Named { name, unit });
        self.text.sheet.variables += 1;
        match self.text.sheet.caps.get_mut(i) {
            Some(slot) => *slot = cap,
            None => self.full = true,
        }
        Ok(Item::Variable(i))
    }

    fn command(&mut self, cursor: &mut Cursor) -> Result<Item, Fault> {
        let name = self.new_name(cursor)?;
        let (least, greatest) = cursor.range()?;
        let unit = cursor.unit()?;
        self.text.sheet.commands = CommandRange { least, greatest };
        self.text.names.command = Named { name, unit };
        Ok(Item::Command)
    }

    fn times(&mut self, cursor: &mut Cursor) -> Result<Item, Fault> {
        cursor.word("delta")?;
        self.text.sheet.delta = cursor.number()?;
        cursor.word("alpha")?;
        self.text.sheet.alpha = cursor.number()?;
        cursor.word("rho")?;
        self.text.sheet.rho = cursor.number()?;
        Ok(Item::Times)
    }

    /// The index of a variable by its name.
    fn index(&self, cursor: &Cursor, name: &str) -> Result<usize, Fault> {
        match self.text.names.index(name) {
            Some(i) => Ok(i),
            None => cursor.fault(format!("no variable is named '{name}'")),
        }
    }

    fn band_variable(&mut self, cursor: &mut Cursor) -> Result<Item, Fault> {
        cursor.word("by")?;
        let name = cursor.name()?;
        self.text.sheet.band_variable = self.index(cursor, &name)? as i32;
        Ok(Item::BandVariable)
    }

    fn band(&mut self, cursor: &mut Cursor) -> Result<Item, Fault> {
        let k = self.text.sheet.band_count as usize;
        self.band_complete()?;
        cursor.word("from")?;
        let edge = if cursor.take_word("lowest") {
            FIRST_EDGE
        } else {
            cursor.number()?
        };
        cursor.word("safety")?;
        let (least, greatest) = cursor.range()?;
        self.text.sheet.band_count += 1;
        match self.text.sheet.bands.get_mut(k) {
            Some(band) => {
                band.edge = edge;
                band.safety = CommandRange { least, greatest };
            }
            None => self.full = true,
        }
        Ok(Item::Band(k))
    }

    /// The band whose law and rows are being read.
    fn last_band(&self) -> Option<usize> {
        (self.text.sheet.band_count as usize).checked_sub(1)
    }

    /// The last band, if there is one, has a law if the first one has, and a row for each variable.
    fn band_complete(&self) -> Result<(), Fault> {
        let Some(k) = self.last_band() else {
            return Ok(());
        };
        let fault = |what: String| {
            Err(Fault {
                line: self.text.line_of(Item::Band(k)),
                refusal: None,
                what,
            })
        };
        if self.text.has_laws() && !self.has(Item::Law(k)) {
            return fault(format!(
                "this band has no law, the first band has: {ALL_OR_NONE}"
            ));
        }
        for (i, variable) in self.text.names.variables.iter().enumerate() {
            if !self.has(Item::Row(k, i)) {
                return fault(format!("this band has no change of '{}'", variable.name));
            }
        }
        Ok(())
    }

    /// An earlier line holds this item.
    fn has(&self, item: Item) -> bool {
        self.text.line_of(item).is_some()
    }

    fn law(&mut self, cursor: &mut Cursor) -> Result<Item, Fault> {
        let name = cursor.name()?;
        let command = &self.text.names.command.name;
        if name != *command {
            return cursor.fault(format!(
                "a law gives the command, and '{name}' is not its name"
            ));
        }
        let Some(k) = self.last_band() else {
            return cursor.fault("a law comes after its band's line");
        };
        if k > 0 && !self.text.has_laws() {
            return cursor.fault(format!("the first band has no law: {ALL_OR_NONE}"));
        }
        if (0..self.text.sheet.n()).any(|i| self.has(Item::Row(k, i))) {
            return cursor.fault("a law comes before the changes of its band");
        }
        let Row { a, c, q, .. } = self.quotient(cursor, Quotient::Law)?;
        self.text.sheet.bands[k].law = BandLaw {
            coefficients: a,
            constant: c,
            divisor: q,
        };
        Ok(Item::Law(k))
    }

    fn row(&mut self, cursor: &mut Cursor) -> Result<Item, Fault> {
        let name = cursor.name()?;
        let i = self.index(cursor, &name)?;
        let Some(k) = self.last_band() else {
            return cursor.fault("a change comes after its band's line");
        };
        self.text.sheet.bands[k].rows[i] = self.quotient(cursor, Quotient::Change)?;
        Ok(Item::Row(k, i))
    }

    /// `= (2 y - x + 5 +- 3) / 40`. A law has neither the command nor a spread.
    fn quotient(&self, cursor: &mut Cursor, of: Quotient) -> Result<Row, Fault> {
        if !cursor.take_sign("=") || !cursor.take_sign("(") {
            return cursor.fault(of.example());
        }
        let mut row = self.terms(cursor, of)?;
        cursor.sign("/")?;
        row.q = cursor.number()?;
        Ok(row)
    }

    /// Terms with their signs, then the spread, to the closing bracket.
    fn terms(&self, cursor: &mut Cursor, of: Quotient) -> Result<Row, Fault> {
        let mut row = Row::default();
        let mut seen = Vec::new();
        let mut first = true;
        while !cursor.take_sign(")") {
            if cursor.take_sign("+-") {
                if of == Quotient::Law {
                    return cursor.fault("a law has no spread: '+-' cannot stand here");
                }
                row.d = cursor.number()?;
                cursor.sign(")")?;
                break;
            }
            let negative = cursor.take_sign("-");
            if !negative && !cursor.take_sign("+") && !first {
                return cursor.fault("'+', '-', '+-' or ')' is missing");
            }
            first = false;
            let (size, name) = term(cursor)?;
            if seen.contains(&name) {
                return cursor.fault("two terms of one kind");
            }
            let value = if negative { -size } else { size };
            *self.slot(&mut row, cursor, name.as_deref(), of)? = value;
            seen.push(name);
        }
        if first {
            return cursor.fault("terms are missing; 0 stands for none");
        }
        Ok(row)
    }

    /// Where a term's number goes; a term without a name is the constant.
    fn slot<'a>(
        &self,
        row: &'a mut Row,
        cursor: &Cursor,
        name: Option<&str>,
        of: Quotient,
    ) -> Result<&'a mut i32, Fault> {
        let Some(name) = name else {
            return Ok(&mut row.c);
        };
        match (name == self.text.names.command.name, of) {
            (true, Quotient::Change) => Ok(&mut row.b),
            (true, Quotient::Law) => cursor.fault(format!(
                "'{name}' is the command: it cannot stand in its own law"
            )),
            (false, _) => Ok(&mut row.a[self.index(cursor, name)?]),
        }
    }

    fn unsafe_box(&mut self, cursor: &mut Cursor) -> Result<Item, Fault> {
        let j = self.text.sheet.unsafe_count as usize;
        let name = cursor.take_quoted();
        let limit = SIDE_LIMIT as i32;
        let sides = self
            .text
            .names
            .sides(cursor, |c| c.open_range(-limit, limit))?;
        self.text.names.unsafe_boxes.push(name);
        self.text.sheet.unsafe_count += 1;
        match self.text.sheet.unsafe_boxes.get_mut(j) {
            Some(slot) => *slot = sides,
            None => self.full = true,
        }
        Ok(Item::Unsafe(j))
    }

    fn recovery(&mut self, cursor: &mut Cursor) -> Result<Item, Fault> {
        self.text.sheet.recovery = self.text.names.sides(cursor, Cursor::range)?;
        Ok(Item::Recovery)
    }

    /// The archive's refusal of a count that is too great.
    fn count_fault(mut self, item: Option<Item>, line: &str) -> Fault {
        self.text.lines.push(SourceLine {
            text: line.into(),
            item,
        });
        match self.text.bytes() {
            Err(fault) => fault,
            Ok(_) => Fault::general("the archive accepts a count that is too great"),
        }
    }

    /// Every line that a sheet needs is there. What is counted may be missing: the guard refuses it.
    fn complete(mut self) -> Result<SheetText, Fault> {
        let needed = [
            (Item::Command, "command"),
            (Item::Times, "times"),
            (Item::BandVariable, "bands by"),
            (Item::Recovery, "recovery"),
        ];
        for (item, word) in needed {
            if self.text.line_of(item).is_none() {
                return Err(Fault::general(format!("a line '{word}' is missing")));
            }
        }
        self.band_complete()?;
        self.text.sort_boxes();
        Ok(self.text)
    }
}

/// A number, a name, or a number and a name.
fn term(cursor: &mut Cursor) -> Result<(i32, Option<String>), Fault> {
    let size = cursor.take_number()?;
    let times = cursor.take_sign("*");
    let named = matches!(cursor.peek(), Some(Token::Word(_)));
    match size {
        Some(size) if !named && !times => Ok((size, None)),
        Some(size) => Ok((size, Some(cursor.name()?))),
        None if named => Ok((1, Some(cursor.name()?))),
        None => cursor.fault("a term is missing"),
    }
}
