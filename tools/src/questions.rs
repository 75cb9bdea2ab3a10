//! A question's bytes: what its mark says of its commands, its length, and how a file of questions is cut. A question
//! by the drive's readings has the bytes of the one with their box.

use crate::archive::{self, box_in, pairs, Answer};
use crate::names::box_of;
use crate::readings::Reading;
use crate::sheet_text::range;
use guard_bindings::format::{
    question_length, span_question_length, QUESTION_HEAD, SPAN_QUESTION_HEAD,
};
use second_guard::boxes::StateBox;
use second_guard::decision::Question;
use second_guard::sheet::CommandRange;
use std::fmt;

const ONE: [u8; 2] = *b"QS";
const SPAN: [u8; 2] = *b"QR";

/// The commands that a question names. A span with equal ends has other bytes than its one command.
#[derive(Clone, Copy, Debug, PartialEq, Eq)]
pub enum Commands {
    One(i32),
    Span(CommandRange),
}

impl Commands {
    /// The commands that the ticks of a kept period may use.
    pub fn span(self) -> CommandRange {
        match self {
            Commands::One(command) => CommandRange::one(command),
            Commands::Span(span) => span,
        }
    }

    /// The mark, and the commands as they follow the allowance.
    fn fields(self) -> ([u8; 2], Vec<i32>) {
        match self {
            Commands::One(command) => (ONE, vec![command]),
            Commands::Span(span) => (SPAN, vec![span.least, span.greatest]),
        }
    }
}

/// `25`, or `-20..25`.
impl fmt::Display for Commands {
    fn fmt(&self, out: &mut fmt::Formatter<'_>) -> fmt::Result {
        match self {
            Commands::One(command) => write!(out, "{command}"),
            Commands::Span(span) => write!(out, "{}", range(span.least, span.greatest)),
        }
    }
}

/// The bytes before a question's pairs.
fn head(allowance: u32, commands: Commands) -> Vec<u8> {
    let (mark, commands) = commands.fields();
    let mut bytes = mark.to_vec();
    bytes.extend(allowance.to_be_bytes());
    bytes.extend(commands.into_iter().flat_map(i32::to_be_bytes));
    bytes
}

/// What a question's bytes hold.
#[derive(Clone, Copy, Debug, PartialEq, Eq)]
pub struct AskedQuestion {
    pub allowance: u32,
    pub commands: Commands,
    pub measured: StateBox,
}

impl AskedQuestion {
    pub fn bytes(&self, n: usize) -> Vec<u8> {
        let mut bytes = head(self.allowance, self.commands);
        bytes.extend(pairs(&self.measured, n).expect("sides of 32 bits"));
        bytes
    }

    /// The question that these bytes are; nothing where the mark is unknown or has another length.
    pub fn from_bytes(bytes: &[u8], n: usize) -> Option<AskedQuestion> {
        if whole_length(bytes, n) != Some(bytes.len()) {
            return None;
        }
        let four = |at: usize| bytes[at..at + 4].try_into().expect("four bytes");
        let number = |at: usize| i32::from_be_bytes(four(at));
        let least = number(6);
        let (commands, head) = if bytes.starts_with(&ONE) {
            (Commands::One(least), QUESTION_HEAD)
        } else {
            let greatest = number(10);
            let span = CommandRange { least, greatest };
            (Commands::Span(span), SPAN_QUESTION_HEAD)
        };
        Some(AskedQuestion {
            allowance: u32::from_be_bytes(four(2)),
            commands,
            measured: box_in(&bytes[head..]),
        })
    }

    /// The question as the second guard has it.
    pub fn values(&self) -> Question {
        Question {
            allowance: self.allowance,
            span: self.commands.span(),
            measured: self.measured,
        }
    }
}

/// A question by the drive's readings, one for each variable.
#[derive(Clone, Debug, PartialEq, Eq)]
pub struct AskedReadings {
    pub allowance: u32,
    pub commands: Commands,
    pub readings: Vec<Reading>,
}

impl AskedReadings {
    /// The archive's answer by the readings themselves.
    pub fn answer(&self, sheet_bytes: &[u8]) -> Answer {
        let (kinds, values): (Vec<u8>, Vec<[f32; 2]>) =
            self.readings.iter().map(Reading::call).unzip();
        let head = head(self.allowance, self.commands);
        archive::decide_readings(sheet_bytes, &head, &kinds, values.as_flattened())
    }

    /// The question with the readings' box; nothing where one of them is refused.
    pub fn question(&self) -> Option<AskedQuestion> {
        let sides: Option<Vec<(i64, i64)>> = self.readings.iter().map(Reading::sides).collect();
        Some(AskedQuestion {
            allowance: self.allowance,
            commands: self.commands,
            measured: box_of(sides?),
        })
    }
}

/// The length of a question with the mark that these bytes begin with; nothing where the mark is unknown.
pub fn whole_length(bytes: &[u8], n: usize) -> Option<usize> {
    match bytes.first_chunk() {
        Some(&ONE) => Some(question_length(n)),
        Some(&SPAN) => Some(span_question_length(n)),
        _ => None,
    }
}

/// The questions of a file, cut by mark: each takes its own length, or what is left where that is less.
/// An unknown mark takes all the rest, and so does a single byte.
pub fn cut(file: &[u8], n: usize) -> impl Iterator<Item = &[u8]> {
    let mut rest = file;
    std::iter::from_fn(move || {
        let length = whole_length(rest, n).unwrap_or(rest.len());
        let (question, after) = rest.split_at(length.min(rest.len()));
        rest = after;
        (!question.is_empty()).then_some(question)
    })
}

#[cfg(test)]
mod tests {
    use super::*;

    /// A question of one variable with this mark, and a byte that tells it from others.
    fn question(mark: &[u8], length: usize, byte: u8) -> Vec<u8> {
        let mut question = vec![byte; length];
        question[..mark.len()].copy_from_slice(mark);
        question
    }

    /// Both kinds in turn, and then this rest.
    fn pieces(rest: &[u8]) -> Vec<Vec<u8>> {
        let (one, span) = (question(b"QS", 18, 1), question(b"QR", 22, 2));
        let file = [&span, &one, &one, &span, rest].map(<[u8]>::to_vec);
        file.into_iter().filter(|piece| !piece.is_empty()).collect()
    }

    #[test]
    fn a_file_is_cut_by_mark() {
        let rests = [
            Vec::new(),
            // A short tail of each mark, down to the mark alone.
            question(b"QS", 17, 3),
            question(b"QR", 21, 3),
            question(b"QR", 18, 3),
            b"QS".to_vec(),
            b"QR".to_vec(),
            // One byte, and unknown marks: shorter, longer, and with a question behind them.
            b"Q".to_vec(),
            question(b"QX", 18, 3),
            question(b"SH", 2, 3),
            [question(b"QX", 22, 3), question(b"QS", 18, 4)].concat(),
            [vec![0], question(b"QS", 18, 4)].concat(),
        ];
        for rest in rests {
            let expected = pieces(&rest);
            let file = expected.concat();
            let found: Vec<&[u8]> = cut(&file, 1).collect();
            assert_eq!(found, expected);
        }
        assert_eq!(cut(&[], 1).count(), 0);
    }

    #[test]
    fn each_mark_has_its_own_length() {
        for (mark, length) in [(ONE, 18), (SPAN, 22)] {
            for other in 0..40 {
                let bytes = question(&mark[..other.min(2)], other, 0);
                let read = AskedQuestion::from_bytes(&bytes, 1);
                assert_eq!(read.is_some(), other == length);
            }
        }
        assert_eq!(AskedQuestion::from_bytes(&question(b"QX", 18, 0), 1), None);
    }
}
