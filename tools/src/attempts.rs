//! The attempts that an answer comes of: the boxes of each step from the second guard, and why each
//! width ended. The answer and every box are compared with the archive's.

use crate::archive::{self, Answer};
use crate::listing::sentence;
use crate::questions::{AskedQuestion, Commands};
use crate::tokens::Fault;
use second_guard::decision::{trace, trace_recovery, Faults, Question, Trace};
use second_guard::reach::{reach, Step};
use second_guard::sheet::{CommandRange, Sheet};

/// What is attempted.
#[derive(Clone, Copy, Debug)]
pub enum Subject<'a> {
    Recovery,
    Question(&'a Question),
}

/// How an attempt ended.
#[derive(Clone, Copy, Debug, PartialEq, Eq)]
pub enum Ending {
    Success,
    /// The last step's swept box meets this no-go box, the first of those it meets.
    Unsafe(usize),
    /// The last end box leaves the recovery box in this variable, the first of those.
    Outside(usize),
    /// A round was due with the allowance used up.
    Spent,
}

/// One attempt at one width; a step that was not finished is left out.
#[derive(Clone, Debug)]
pub struct Attempt {
    pub width: u32,
    pub steps: Vec<Step>,
    pub rounds: u64,
    pub ending: Ending,
}

/// An answer and the attempts that led to it, the widest first.
#[derive(Clone, Debug)]
pub struct Attempts {
    pub answer: Answer,
    pub all: Vec<Attempt>,
}

impl Attempts {
    pub fn last(&self) -> &Attempt {
        self.all.last().expect("there is a first width")
    }
}

/// All attempts at a recovery check or a question, compared with the archive.
pub fn attempts(sheet_bytes: &[u8], sheet: &Sheet, subject: Subject) -> Result<Attempts, Fault> {
    let mut width = first_width(sheet, subject);
    let mut left = match subject {
        Subject::Recovery => u64::MAX,
        Subject::Question(question) => u64::from(question.allowance),
    };
    let mut all = Vec::new();
    loop {
        let attempt = cut(sheet, width, steps(sheet, subject, width), left);
        left -= attempt.rounds;
        let ending = attempt.ending;
        all.push(attempt);
        if width == 1 || matches!(ending, Ending::Success | Ending::Spent) {
            break;
        }
        width /= 2;
    }
    let found = Attempts {
        answer: answer(sheet_bytes, sheet, subject)?,
        all,
    };
    compare_answer(&found)?;
    for step in found.all.iter().flat_map(|attempt| &attempt.steps) {
        compare_step(sheet_bytes, sheet, step)?;
    }
    Ok(found)
}

fn first_width(sheet: &Sheet, subject: Subject) -> u32 {
    match subject {
        Subject::Recovery => sheet.rho as u32,
        Subject::Question(_) => sheet.delta.max(sheet.alpha) as u32,
    }
}

/// The steps of an attempt at one width, without an allowance.
fn steps(sheet: &Sheet, subject: Subject, width: u32) -> Trace {
    match subject {
        Subject::Recovery => trace_recovery(sheet, width),
        Subject::Question(question) => trace(sheet, question, width, Faults::default()),
    }
}

/// The attempt with a number of rounds left.
fn cut(sheet: &Sheet, width: u32, trace: Trace, left: u64) -> Attempt {
    if trace.rounds <= left {
        return Attempt {
            width,
            rounds: trace.rounds,
            ending: ending(sheet, &trace),
            steps: trace.steps,
        };
    }
    let mut rounds = 0;
    let finished = trace.steps.iter().take_while(|step| {
        rounds += u64::from(step.rounds);
        rounds <= left
    });
    Attempt {
        width,
        steps: finished.copied().collect(),
        rounds: left,
        ending: Ending::Spent,
    }
}

fn ending(sheet: &Sheet, trace: &Trace) -> Ending {
    let last = trace.steps.last().expect("every phase has a tick");
    if trace.succeeded {
        return Ending::Success;
    }
    if let Some(j) = sheet
        .unsafe_boxes()
        .iter()
        .position(|unsafe_box| unsafe_box.meets(&last.swept))
    {
        return Ending::Unsafe(j);
    }
    let outside = (0..sheet.n()).find(|&i| {
        last.end.lower[i] < sheet.recovery.lower[i] || last.end.upper[i] > sheet.recovery.upper[i]
    });
    Ending::Outside(outside.expect("a failed attempt has a cause"))
}

/// The archive's answer.
fn answer(sheet_bytes: &[u8], sheet: &Sheet, subject: Subject) -> Result<Answer, Fault> {
    let Subject::Question(question) = subject else {
        return Ok(archive::recovery(sheet_bytes));
    };
    let decide = |commands| {
        let asked = AskedQuestion {
            allowance: question.allowance,
            commands,
            measured: question.measured,
        };
        archive::decide(sheet_bytes, &asked.bytes(sheet.n()))
    };
    let by_span = decide(Commands::Span(question.span));
    let CommandRange { least, greatest } = question.span;
    if least == greatest {
        compare_marks(by_span, decide(Commands::One(least)))?;
    }
    Ok(by_span)
}

/// A span of one command is answered as that command is.
fn compare_marks(by_span: Answer, by_command: Answer) -> Result<(), Fault> {
    if by_span == by_command {
        return Ok(());
    }
    Err(Fault::general(format!(
        "the archive's answers to a span of one command and to that command differ: {}; {}",
        sentence(by_span),
        sentence(by_command)
    )))
}

/// The archive's answer is what the second guard's attempts come to.
fn compare_answer(found: &Attempts) -> Result<(), Fault> {
    let code = match found.last().ending {
        Ending::Success => 0,
        Ending::Unsafe(_) | Ending::Outside(_) => 1,
        Ending::Spent => 2,
    };
    let width = u64::from(found.last().width);
    let rounds: u64 = found.all.iter().map(|attempt| attempt.rounds).sum();
    let expected = Answer((code << 48) + (width << 32) + rounds);
    if found.answer == expected {
        return Ok(());
    }
    Err(Fault::general(format!(
        "the archive and the second guard differ: {}; {}",
        sentence(found.answer),
        sentence(expected)
    )))
}

/// The archive reaches the step's boxes, or refuses to, as the second guard does.
fn compare_step(sheet_bytes: &[u8], sheet: &Sheet, step: &Step) -> Result<(), Fault> {
    let n = sheet.n();
    let ticks = step.ticks;
    let archived = archive::reach(sheet_bytes, n, ticks, ticks, step.law, &step.start);
    let second = reach(sheet, ticks, ticks, step.law, &step.start)
        .map(|reach| (reach.end, reach.swept))
        .map_err(|refusal| refusal.number());
    let same_step = second.is_err() || second == Ok((step.end, step.swept));
    if archived == second && same_step {
        return Ok(());
    }
    Err(Fault::general(format!(
        "the archive and the second guard differ: {archived:?}; {second:?}; in {step:?}"
    )))
}

#[cfg(test)]
mod tests {
    use super::*;
    use second_guard::boxes::StateBox;
    use second_guard::reach::Law;

    /// Sheet A of document 01 and its first question.
    fn sheet_a() -> (Sheet, Question) {
        let mut sheet = Sheet {
            variables: 1,
            band_count: 1,
            unsafe_count: 1,
            delta: 4,
            alpha: 4,
            rho: 4,
            commands: CommandRange {
                least: -25,
                greatest: 25,
            },
            ..Sheet::default()
        };
        sheet.caps[0] = 5;
        sheet.bands[0].edge = -2_000_000;
        let row = &mut sheet.bands[0].rows[0];
        (row.a[0], row.b, row.q) = (-1, 4, 20);
        (
            sheet.unsafe_boxes[0].lower[0],
            sheet.unsafe_boxes[0].upper[0],
        ) = (130, 2_000_000);
        (sheet.recovery.lower[0], sheet.recovery.upper[0]) = (-100, 100);
        let question = Question {
            allowance: 100,
            span: CommandRange::one(25),
            measured: StateBox::default(),
        };
        (sheet, question)
    }

    /// The sheet, and the attempts at its question with these commands.
    fn found(least: i32, greatest: i32) -> (Vec<u8>, Sheet, Attempts) {
        let (sheet, mut question) = sheet_a();
        question.span = CommandRange { least, greatest };
        let bytes = archive::write(&sheet).expect("an accepted sheet");
        let found = attempts(&bytes, &sheet, Subject::Question(&question)).expect("no difference");
        (bytes, sheet, found)
    }

    #[test]
    fn another_answer_is_an_error() {
        let (_, _, mut found) = found(25, 25);
        assert_eq!(found.answer, Answer((4 << 32) + 4));
        found.answer = Answer((4 << 32) + 5);
        assert!(compare_answer(&found).is_err());
    }

    #[test]
    fn another_answer_to_the_other_mark_is_an_error() {
        let answer = Answer((4 << 32) + 4);
        assert!(compare_marks(answer, answer).is_ok());
        assert!(compare_marks(answer, Answer(answer.0 + 1)).is_err());
    }

    #[test]
    fn another_box_is_an_error() {
        for (least, greatest) in [(25, 25), (-20, 25)] {
            let (bytes, sheet, found) = found(least, greatest);
            let mut step = found.last().steps[0];
            assert!(compare_step(&bytes, &sheet, &step).is_ok());
            step.end.upper[0] += 1;
            assert!(compare_step(&bytes, &sheet, &step).is_err());
        }
    }

    /// The boxes of a span are not those of its ends, nor those of a narrower span.
    #[test]
    fn another_span_is_an_error() {
        let (bytes, sheet, found) = found(-20, 25);
        for (least, greatest) in [(-20, -20), (25, 25), (-5, 25), (-20, 5)] {
            let mut step = found.last().steps[0];
            step.law = Law::Span { least, greatest };
            assert!(compare_step(&bytes, &sheet, &step).is_err());
        }
    }

    #[test]
    fn a_start_that_no_reach_takes_is_refused_by_both() {
        for (least, greatest) in [(25, 25), (-20, 25)] {
            let (bytes, sheet, found) = found(least, greatest);
            let mut step = found.last().steps[0];
            step.start.upper[0] = 1_000_001;
            assert!(compare_step(&bytes, &sheet, &step).is_ok());
        }
    }

    #[test]
    fn an_allowance_cuts_the_attempt() {
        let (sheet, mut question) = sheet_a();
        let bytes = archive::write(&sheet).expect("an accepted sheet");
        for allowance in 0..4 {
            question.allowance = allowance;
            let subject = Subject::Question(&question);
            let found = attempts(&bytes, &sheet, subject).expect("no difference");
            assert_eq!(found.last().ending, Ending::Spent);
        }
    }
}
