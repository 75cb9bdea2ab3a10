//! Questions as text, one to a line.

use crate::archive::{self, Answer};
use crate::listing::sentence;
use crate::names::{box_of, Names};
use crate::questions::{cut, whole_length, AskedQuestion, AskedReadings, Commands};
use crate::readings::{self, Measured, Reading};
use crate::refusal::{question_fault, reading_fault, readings_fault, Test};
use crate::sheet_text::{closed_sides, rewritten};
use crate::tokens::{Cursor, Fault};
use second_guard::sheet::{CommandRange, Sheet};

/// What a line asks.
#[derive(Clone, Debug, PartialEq, Eq)]
pub enum Asked {
    Question(AskedQuestion),
    /// By the drive's readings. If one of them is refused there is no box, and no file has such a question.
    Readings(AskedReadings),
    /// Bytes that are no question: another mark, or a short tail.
    Bytes(Vec<u8>),
}

#[derive(Clone, Debug)]
pub struct Ask {
    pub title: Option<String>,
    pub asked: Asked,
    /// The number with which the guard refuses it, where the line says so.
    pub refused: Option<u32>,
}

/// A line as it was written, and which question it holds.
#[derive(Clone, Debug)]
struct SourceLine {
    text: String,
    ask: Option<usize>,
}

#[derive(Clone, Debug)]
pub struct AsksText {
    pub asks: Vec<Ask>,
    lines: Vec<SourceLine>,
}

/// Reads all lines. What the guard refuses is a fault, unless the line says `refused` and the number.
pub fn parse(text: &str, sheet: &Sheet, names: &Names) -> Result<AsksText, Fault> {
    let sheet_bytes = archive::write(sheet).map_err(|number| Fault {
        line: None,
        refusal: Some(number),
        what: "the sheet".into(),
    })?;
    let mut asks = Vec::new();
    let mut lines = Vec::new();
    for (index, line) in text.lines().enumerate() {
        let mut cursor = Cursor::with_decimals(index + 1, line)?;
        let ask = if cursor.is_empty() {
            None
        } else {
            let ask = ask(&mut cursor, names)?;
            cursor.end()?;
            test_place(asks.last(), &ask, sheet.n(), cursor.line)?;
            test_refusal(&ask, &sheet_bytes, sheet, names, cursor.line)?;
            asks.push(ask);
            Some(asks.len() - 1)
        };
        lines.push(SourceLine {
            text: line.into(),
            ask,
        });
    }
    Ok(AsksText { asks, lines })
}

fn ask(cursor: &mut Cursor, names: &Names) -> Result<Ask, Fault> {
    let bytes = cursor.take_word("bytes");
    if !bytes && !cursor.take_word("ask") {
        return cursor.fault("a question's line begins with 'ask', or with 'bytes'");
    }
    let title = if bytes { None } else { cursor.take_quoted() };
    let asked = if bytes {
        Asked::Bytes(hex(cursor)?)
    } else {
        question(cursor, names)?
    };
    let refused = if cursor.take_word("refused") {
        Some(cursor.unsigned()?)
    } else {
        None
    };
    Ok(Ask {
        title,
        asked,
        refused,
    })
}

fn question(cursor: &mut Cursor, names: &Names) -> Result<Asked, Fault> {
    let measured = names.each(cursor, readings::measured)?;
    cursor.word("command")?;
    let commands = commands(cursor)?;
    cursor.word("allowance")?;
    let allowance = cursor.unsigned()?;
    Ok(match sides_alone(&measured) {
        Some(sides) => Asked::Question(AskedQuestion {
            allowance,
            commands,
            measured: box_of(sides),
        }),
        None => Asked::Readings(AskedReadings {
            allowance,
            commands,
            readings: measured.into_iter().map(Measured::reading).collect(),
        }),
    })
}

/// The sides of all variables; nothing where one has a reading.
fn sides_alone(measured: &[Measured]) -> Option<Vec<(i32, i32)>> {
    let sides = measured.iter().map(|measured| match measured {
        Measured::Sides(lower, upper) => Some((*lower, *upper)),
        Measured::Reading(_) => None,
    });
    sides.collect()
}

/// `25` is one command, and `25..25` a span.
fn commands(cursor: &mut Cursor) -> Result<Commands, Fault> {
    let least = cursor.number()?;
    if !cursor.take_sign("..") {
        return Ok(Commands::One(least));
    }
    let greatest = cursor.number()?;
    Ok(Commands::Span(CommandRange { least, greatest }))
}

/// Bytes in hex within quotes.
fn hex(cursor: &mut Cursor) -> Result<Vec<u8>, Fault> {
    let text = cursor.take_quoted().unwrap_or_default();
    let digits: Option<Vec<u8>> = text
        .chars()
        .map(|c| c.to_digit(16).map(|digit| digit as u8))
        .collect();
    match digits {
        Some(digits) if !digits.is_empty() && digits.len() % 2 == 0 => {
            Ok(digits.chunks(2).map(|d| d[0] * 16 + d[1]).collect())
        }
        _ => cursor.fault("bytes are pairs of hex digits in quotes"),
    }
}

/// Bytes that are no question stand last, since no cut ends them; and they do not begin with a whole question.
fn test_place(before: Option<&Ask>, ask: &Ask, n: usize, line: usize) -> Result<(), Fault> {
    if before.is_some_and(|ask| matches!(ask.asked, Asked::Bytes(_))) {
        let what = "the bytes before are no question: nothing may follow them";
        return Err(Fault::text(line, what));
    }
    let Asked::Bytes(bytes) = &ask.asked else {
        return Ok(());
    };
    match whole_length(bytes, n) {
        Some(length) if length <= bytes.len() => Err(Fault::text(
            line,
            format!("the first {length} bytes are a question: it is written with 'ask'"),
        )),
        _ => Ok(()),
    }
}

/// The archive's refusal of a question has to be what its line says.
fn test_refusal(
    ask: &Ask,
    sheet_bytes: &[u8],
    sheet: &Sheet,
    names: &Names,
    line: usize,
) -> Result<(), Fault> {
    let answer = ask.answer(sheet_bytes, sheet).map_err(|fault| Fault {
        line: Some(line),
        ..fault
    })?;
    let answer = answer.refusal();
    let found = ask.fault(sheet, names);
    if answer != found.as_ref().map(|fault| fault.0) {
        return Err(Fault::general(format!(
            "line {line}: the archive and this tool differ: {answer:?} and {found:?}"
        )));
    }
    match (found, ask.refused) {
        (Some((number, _)), Some(said)) if u32::from(number) == said => Ok(()),
        (Some((number, what)), _) => Err(Fault {
            line: Some(line),
            refusal: Some(number),
            what: format!("{what} (to ask it all the same, end the line with: refused {number})"),
        }),
        (None, Some(number)) => Err(Fault::text(
            line,
            format!("the guard does not refuse this with {number}"),
        )),
        (None, None) => Ok(()),
    }
}

impl Ask {
    /// The question that stands in the file: by readings it has their box.
    pub fn question(&self) -> Option<AskedQuestion> {
        match &self.asked {
            Asked::Question(question) => Some(*question),
            Asked::Readings(asked) => asked.question(),
            Asked::Bytes(_) => None,
        }
    }

    /// The bytes as they stand in the file; nothing where a reading is refused.
    pub fn bytes(&self, sheet: &Sheet) -> Option<Vec<u8>> {
        match &self.asked {
            Asked::Bytes(bytes) => Some(bytes.clone()),
            _ => self.question().map(|question| question.bytes(sheet.n())),
        }
    }

    /// The archive's answer. By readings it has to be that to the question with their box.
    pub fn answer(&self, sheet_bytes: &[u8], sheet: &Sheet) -> Result<Answer, Fault> {
        let bytes = self.bytes(sheet);
        let by_bytes = bytes.map(|bytes| archive::decide(sheet_bytes, &bytes));
        let Asked::Readings(asked) = &self.asked else {
            return Ok(by_bytes.expect("no reading is refused"));
        };
        let by_readings = asked.answer(sheet_bytes);
        compare_with_box(by_readings, by_bytes.unwrap_or(by_readings))
    }

    /// The number of the refusal, and what is wrong in words.
    fn fault(&self, sheet: &Sheet, names: &Names) -> Option<(u8, String)> {
        match &self.asked {
            Asked::Bytes(_) => Some((12, "these bytes are no question".into())),
            Asked::Question(question) => question_fault(sheet, names, question).map(said),
            Asked::Readings(asked) => readings_fault(sheet, names, asked).map(said),
        }
    }

    /// What stands behind the title.
    fn body(&self, names: &Names) -> String {
        let (measured, commands, allowance) = match &self.asked {
            Asked::Question(question) => (
                closed_sides(&question.measured, names),
                question.commands,
                question.allowance,
            ),
            Asked::Readings(asked) => (
                named_readings(&asked.readings, names),
                asked.commands,
                asked.allowance,
            ),
            Asked::Bytes(bytes) => {
                let hex: String = bytes.iter().map(|byte| format!("{byte:02x}")).collect();
                return format!(" \"{hex}\"");
            }
        };
        format!("{measured}  command {commands}  allowance {allowance}")
    }

    /// The line in the tool's own form.
    fn line(&self, names: &Names) -> String {
        let title: String = self.title.iter().map(|t| format!(" \"{t}\"")).collect();
        let refused: String = self
            .refused
            .iter()
            .map(|number| format!("  refused {number}"))
            .collect();
        let kind = match &self.asked {
            Asked::Bytes(_) => "bytes",
            _ => "ask",
        };
        format!("{kind}{title}{}{refused}", self.body(names))
    }
}

/// Each variable's name and reading.
fn named_readings(readings: &[Reading], names: &Names) -> String {
    let named = names.variables.iter().zip(readings);
    named
        .map(|(v, reading)| format!("  {} {reading}", v.name))
        .collect()
}

/// A failing test's number and words.
fn said(test: Test<()>) -> (u8, String) {
    (test.refusal, test.words(|()| None))
}

/// Readings are answered as their box is.
fn compare_with_box(by_readings: Answer, by_box: Answer) -> Result<Answer, Fault> {
    if by_readings == by_box {
        return Ok(by_readings);
    }
    Err(Fault::general(format!(
        "the archive's answers to readings and to their box differ: {}; {}",
        sentence(by_readings),
        sentence(by_box)
    )))
}

/// One question's bytes, as the program cuts them from its file.
fn from_bytes(bytes: &[u8], sheet_bytes: &[u8], sheet: &Sheet) -> Ask {
    let asked = match AskedQuestion::from_bytes(bytes, sheet.n()) {
        Some(question) => Asked::Question(question),
        None => Asked::Bytes(bytes.to_vec()),
    };
    Ask {
        title: None,
        asked,
        refused: archive::decide(sheet_bytes, bytes).refusal().map(u32::from),
    }
}

/// The questions of a file's bytes, each line in the tool's own form.
pub fn from_file(bytes: &[u8], sheet_bytes: &[u8], sheet: &Sheet, names: &Names) -> AsksText {
    let asks: Vec<Ask> = cut(bytes, sheet.n())
        .map(|bytes| from_bytes(bytes, sheet_bytes, sheet))
        .collect();
    let lines = asks
        .iter()
        .enumerate()
        .map(|(index, ask)| SourceLine {
            text: ask.line(names),
            ask: Some(index),
        })
        .collect();
    AsksText { asks, lines }
}

impl AsksText {
    /// All lines.
    pub fn text(&self) -> String {
        self.lines
            .iter()
            .map(|line| format!("{}\n", line.text))
            .collect()
    }

    /// The line of a question, counted from 1.
    pub fn line_of(&self, index: usize) -> Option<usize> {
        let at = self.lines.iter().position(|line| line.ask == Some(index))?;
        Some(at + 1)
    }

    /// The bytes of the file. A refused reading gives no box to write, whatever its line says: that is a fault.
    pub fn packed(&self, sheet: &Sheet, names: &Names) -> Result<Vec<u8>, Fault> {
        for (index, ask) in self.asks.iter().enumerate() {
            let Asked::Readings(asked) = &ask.asked else {
                continue;
            };
            if let Some((number, what)) = reading_fault(names, asked).map(said) {
                return Err(Fault {
                    line: self.line_of(index),
                    refusal: Some(number),
                    what: format!(
                        "{what} (there is no box to write: asks.bin cannot have this question)"
                    ),
                });
            }
        }
        Ok(self.bytes(sheet))
    }

    /// The bytes of a file whose questions all have a box.
    pub fn bytes(&self, sheet: &Sheet) -> Vec<u8> {
        let questions = self.asks.iter().map(|ask| ask.bytes(sheet));
        questions
            .flat_map(|bytes| bytes.expect("no reading is refused"))
            .collect()
    }

    /// This text with other questions: lines that ask the same stay as they are.
    pub fn with_asks(&self, other: &AsksText, names: &Names) -> Result<AsksText, Fault> {
        if self.asks.len() != other.asks.len() {
            return Err(Fault::general(
                "the files differ in their number of questions",
            ));
        }
        let mut asks = other.asks.clone();
        for (new, old) in asks.iter_mut().zip(&self.asks) {
            new.title.clone_from(&old.title);
        }
        let lines = self
            .lines
            .iter()
            .map(|line| SourceLine {
                text: match line.ask {
                    Some(index) if !self.asks[index].asks_as(&asks[index]) => {
                        rewritten(&line.text, &asks[index].line(names))
                    }
                    _ => line.text.clone(),
                },
                ask: line.ask,
            })
            .collect();
        Ok(AsksText { asks, lines })
    }
}

impl Ask {
    /// The same question with the same refusal, whatever the titles.
    fn asks_as(&self, other: &Ask) -> bool {
        let same_question = self.question().is_some() && self.question() == other.question();
        (same_question || self.asked == other.asked) && self.refused == other.refused
    }
}

#[cfg(test)]
mod tests {
    use super::*;

    #[test]
    fn another_answer_to_the_box_is_an_error() {
        let answer = Answer((4 << 32) + 4);
        assert_eq!(compare_with_box(answer, answer), Ok(answer));
        assert!(compare_with_box(answer, Answer(answer.0 + 1)).is_err());
    }
}
