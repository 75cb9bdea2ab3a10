//! What the lines of a sheet's text say, and the names in them, which the sheet's bytes do not hold.

use crate::tokens::{Cursor, Fault, Token, Unit};
use second_guard::boxes::StateBox;
use second_guard::sheet::Sheet;

/// What a line says.
#[derive(Clone, Copy, Debug, PartialEq, Eq)]
pub enum Item {
    Title,
    Tick,
    /// Variable i and its cap.
    Variable(usize),
    Command,
    Times,
    BandVariable,
    /// Band k's edge and safety range.
    Band(usize),
    /// Band k's law, where the sheet's bands have one.
    Law(usize),
    /// Band k's row for variable i.
    Row(usize, usize),
    Unsafe(usize),
    Recovery,
}

#[derive(Clone, Debug, PartialEq)]
pub struct Named {
    pub name: String,
    pub unit: Option<Unit>,
}

/// What a sheet's bytes do not hold.
#[derive(Clone, Debug, PartialEq)]
pub struct Names {
    pub title: Option<String>,
    pub tick: Option<Unit>,
    pub variables: Vec<Named>,
    pub command: Named,
    pub unsafe_boxes: Vec<Option<String>>,
}

impl Named {
    fn plain(name: impl Into<String>) -> Named {
        Named {
            name: name.into(),
            unit: None,
        }
    }

    /// The name, and its unit in brackets.
    pub fn with_unit(&self) -> String {
        match &self.unit {
            Some(unit) => format!("{} [{unit}]", self.name),
            None => self.name.clone(),
        }
    }

    /// Numbers with the unit: `-20..25 N`, or `-20..25 × 0.1 N` where a step is not 1.
    pub fn amount(&self, numbers: &str) -> String {
        match &self.unit {
            Some(unit) if unit.factor() == 1.0 => format!("{numbers} {}", unit.name),
            Some(unit) => format!("{numbers} × {unit}"),
            None => numbers.into(),
        }
    }

    /// `force -20..25 N`.
    pub fn with_amount(&self, numbers: &str) -> String {
        format!("{} {}", self.name, self.amount(numbers))
    }
}

impl Names {
    /// Names for a sheet that comes without: x1, x2 and so on, and u for the command.
    pub fn plain(sheet: &Sheet) -> Names {
        Names {
            title: None,
            tick: None,
            variables: (1..=sheet.n())
                .map(|i| Named::plain(format!("x{i}")))
                .collect(),
            command: Named::plain("u"),
            unsafe_boxes: vec![None; sheet.unsafe_boxes().len()],
        }
    }

    pub fn variable(&self, i: usize) -> &str {
        &self.variables[i].name
    }

    /// `no-go 1 "end stop"` for box 0.
    pub fn unsafe_box(&self, j: usize) -> String {
        match &self.unsafe_boxes[j] {
            Some(name) => format!("no-go {} \"{name}\"", j + 1),
            None => format!("no-go {}", j + 1),
        }
    }

    /// The title, or a word for it.
    pub fn title(&self) -> &str {
        self.title.as_deref().unwrap_or("sheet")
    }

    /// The index of a variable by its name.
    pub fn index(&self, name: &str) -> Option<usize> {
        self.variables.iter().position(|v| v.name == name)
    }

    /// What stands behind each variable's name, in any order.
    pub fn each<T>(
        &self,
        cursor: &mut Cursor,
        read: impl Fn(&mut Cursor) -> Result<T, Fault>,
    ) -> Result<Vec<T>, Fault> {
        let mut found: Vec<Option<T>> = self.variables.iter().map(|_| None).collect();
        while let Some(Token::Word(name)) = cursor.peek() {
            let Some(i) = self.index(name) else { break };
            cursor.take();
            let what = read(cursor)?;
            if found[i].replace(what).is_some() {
                return cursor.fault(format!("'{}' stands here twice", self.variable(i)));
            }
        }
        let missing = |i| {
            Fault::text(
                cursor.line,
                format!("a range for '{}' is missing", self.variable(i)),
            )
        };
        let found = found.into_iter().enumerate();
        found
            .map(|(i, what)| what.ok_or_else(|| missing(i)))
            .collect()
    }

    /// A range for each variable, each after its name, in any order.
    pub fn sides(
        &self,
        cursor: &mut Cursor,
        range: impl Fn(&mut Cursor) -> Result<(i32, i32), Fault>,
    ) -> Result<StateBox, Fault> {
        Ok(box_of(self.each(cursor, range)?))
    }
}

/// The box with these sides, the lower and the upper one of each variable.
pub fn box_of(sides: impl IntoIterator<Item = (impl Into<i64>, impl Into<i64>)>) -> StateBox {
    let mut found = StateBox::default();
    for (i, (lower, upper)) in sides.into_iter().enumerate() {
        found.lower[i] = lower.into();
        found.upper[i] = upper.into();
    }
    found
}
