//! Questions about spans of commands (document 02, paper 4): decisions on spans of every extent, what a
//! guard would answer that bounds only a part of a span, spans that are refused, and faults beside
//! others. A span of one command is asked beside every question about one command, in all parts.

use super::faults::{Cases, Cause};
use super::{Matching, PAIRS};
use matching::archive::{self, Answer};
use matching::generate::{bytes_of, near, question_bytes, sheet_bytes, span_bytes, Case};
use matching::spans::{any_span, spanned, wrong_span, Extent, EXTENTS, WRONGS};
use matching::spoil::span_fault;
use matching::tally::{hex, KindId, Tally};
use second_guard::decision::{decide_watched, Bounded, Decision, Faults, Question};
use second_guard::reach::NoWatch;
use second_guard::sheet::{CommandRange, Sheet};

/// How many sheets have their boxes placed for a span.
const SPANNED_SHEETS: usize = 20_000;
/// How many sheets are asked about wrong spans and lengths.
const WRONG_SHEETS: usize = 1_300;

/// A question's marks, the last of them any other.
const MARKS: [&str; 3] = ["QS", "QR", "another mark"];
const CODES: [&str; 4] = ["keep", "finest", "spent", "refused"];

/// What of a span a wrong guard bounds.
const PARTS: [(Bounded, &str); 3] = [
    (Bounded::Inner, "the inner end"),
    (Bounded::Least, "the least command alone"),
    (Bounded::Greatest, "the greatest command alone"),
];

/// Questions with the length of another mark, or of none.
const LENGTHS: [&str; 4] = [
    "QR with the length of QS",
    "QS with the length of QR",
    "QR cut",
    "QR with more bytes",
];

pub(super) struct Kinds {
    /// By mark and code; of another mark there are only refusals.
    by_mark: Vec<Vec<KindId>>,
    /// A span of one command beside the question about it, by code.
    as_command: [KindId; CODES.len()],
    by_extent: [[KindId; 3]; EXTENTS.len()],
    both_signs: KindId,
    other_if: [KindId; PARTS.len()],
    ends_kept: KindId,
    wrong: [KindId; WRONGS.len()],
    lengths: [KindId; LENGTHS.len()],
    one_less: KindId,
    exactly_enough: KindId,
}

impl Kinds {
    pub(super) fn new(tally: &mut Tally) -> Kinds {
        let mut of_mark = |mark: &str, codes: &[&str]| {
            let name = |code: &&str| tally.kind(format!("{mark}: {code}"), 2_000);
            codes.iter().map(name).collect::<Vec<_>>()
        };
        let by_mark = vec![
            of_mark(MARKS[0], &CODES),
            of_mark(MARKS[1], &CODES),
            of_mark(MARKS[2], &CODES[3..]),
        ];
        let as_command = CODES.map(|code| {
            let name = format!("QR with one command as QS: {code}");
            tally.kind(name, 5_000)
        });
        let mut answers = |of: Extent| {
            let name = |code: &str| format!("{}: {code}", of.text());
            [0, 1, 2].map(|code| tally.kind(name(CODES[code]), 500))
        };
        Kinds {
            by_mark,
            as_command,
            by_extent: EXTENTS.map(&mut answers),
            both_signs: tally.kind("QR: rows with b above 0 and below 0", 5_000),
            other_if: PARTS.map(|(_, part)| {
                let name = format!("QR: another answer by {part}");
                tally.kind(name, 2_000)
            }),
            ends_kept: tally.kind("QR: handed over, its two ends kept", 200),
            wrong: WRONGS.map(|wrong| {
                let name = format!("refused by 14: a span {}", wrong.text());
                tally.kind(name, 1_000)
            }),
            lengths: LENGTHS.map(|what| tally.kind(format!("refused by 12: {what}"), 1_000)),
            one_less: tally.kind("QR: allowance one less than needed", 2_000),
            exactly_enough: tally.kind("QR: allowance exactly enough", 2_000),
        }
    }
}

/// The place of a question's mark among `MARKS`.
fn mark_place(question: &[u8]) -> usize {
    match question.get(..2) {
        Some(b"QS") => 0,
        Some(b"QR") => 1,
        _ => 2,
    }
}

/// The code of an answer, as a place.
fn code_place(answer: Answer) -> usize {
    answer.code() as usize
}

/// The decision of a guard that bounds only a part of a span.
fn decided_by(sheet: &Sheet, question: &Question, bounded: Bounded) -> Decision {
    let faults = Faults {
        bounded,
        ..Faults::default()
    };
    decide_watched(sheet, question, faults, &mut NoWatch)
}

fn has_both_signs(sheet: &Sheet) -> bool {
    let rows = || {
        sheet
            .bands()
            .iter()
            .flat_map(|band| &band.rows[..sheet.n()])
    };
    rows().any(|row| row.b > 0) && rows().any(|row| row.b < 0)
}

impl Matching {
    /// Counts an answer under its question's mark. Beside a question about one command a span of that
    /// command is asked, refused or not: the archive answers both alike.
    pub(super) fn by_mark(&mut self, sheet: &[u8], question: &[u8], found: Answer) {
        let (mark, code) = (mark_place(question), code_place(found));
        let of_mark = &self.kinds.spans.by_mark[mark];
        let kind = of_mark[code.min(of_mark.len() - 1)];
        self.tally.saw(kind);
        if mark != 0 || question.len() < 10 {
            return;
        }
        let ends = [&question[6..10], &question[6..10]].concat();
        let span = [b"QR", &question[2..6], &ends, &question[10..]].concat();
        let by_span = archive::decide(sheet, &span);
        let kind = self.kinds.spans.as_command[code];
        self.tally.check(kind, by_span == found, || {
            format!("{by_span:x?} not {found:x?}: {} {}", hex(sheet), hex(&span))
        });
    }

    /// Sheets whose boxes are placed for a span, with this span and others.
    pub(super) fn spans(&mut self) {
        for _ in 0..SPANNED_SHEETS {
            let (case, span) = spanned(&mut self.random);
            let bytes = sheet_bytes(&case.sheet);
            self.span_around(&case, &bytes, span);
            for _ in 0..3 {
                let question = Question {
                    allowance: self.random.spread(1, 1_000_000) as u32,
                    span: any_span(&mut self.random, &case.sheet),
                    measured: near(&mut self.random, &case),
                };
                self.span_decision(&case.sheet, &bytes, &question);
            }
        }
    }

    /// The decision with all rounds that it needs, and with the allowances around them.
    fn span_around(&mut self, case: &Case, bytes: &[u8], span: CommandRange) {
        let mut question = Question {
            allowance: 1_000_000,
            span,
            measured: case.measured,
        };
        let decision = self.span_decision(&case.sheet, bytes, &question);
        let (Decision::Keep { rounds, .. } | Decision::Finest { rounds, .. }) = decision else {
            unreachable!("a million rounds are enough");
        };
        question.allowance = rounds as u32;
        let right = self.span_decision(&case.sheet, bytes, &question) == decision;
        let kinds = &self.kinds.spans;
        self.tally
            .check(kinds.exactly_enough, right, || "not the same".into());
        question.allowance = rounds as u32 - 1;
        let less = self.span_decision(&case.sheet, bytes, &question);
        let right = matches!(less, Decision::Spent { rounds: count, .. } if count == rounds - 1);
        let kinds = &self.kinds.spans;
        self.tally
            .check(kinds.one_less, right, || "not spent".into());
    }

    /// A decision on a span, of one command or more, asked by `QR`.
    fn span_decision(&mut self, sheet: &Sheet, bytes: &[u8], question: &Question) -> Decision {
        let Question {
            allowance,
            span,
            measured,
        } = *question;
        let asked = span_bytes(allowance, span, &measured, sheet.n());
        let decision = decided_by(sheet, question, Bounded::Outer);
        let wanted = Answer(decision.pack());
        let kinds = self.kinds_of_span(sheet, question, decision);
        self.compare_decision(&kinds, bytes, &asked, wanted);
        if span.least == span.greatest {
            // The same by `QS`.
            self.compare_decision(&[], bytes, &bytes_of(question, sheet.n()), wanted);
        }
        decision
    }

    /// The kinds of a decision on a span.
    fn kinds_of_span(&self, sheet: &Sheet, question: &Question, decision: Decision) -> Vec<KindId> {
        let (kinds, answer) = (&self.kinds.spans, Answer(decision.pack()));
        let extent = Extent::of(question.span, sheet);
        let mut seen = vec![kinds.by_extent[extent.place()][code_place(answer)]];
        seen.extend(has_both_signs(sheet).then_some(kinds.both_signs));
        let others = PARTS.map(|(bounded, _)| decided_by(sheet, question, bounded));
        for (other, kind) in others.iter().zip(kinds.other_if) {
            seen.extend((*other != decision).then_some(kind));
        }
        let kept = |other: &Decision| matches!(other, Decision::Keep { .. });
        let handed_over = matches!(decision, Decision::Finest { .. });
        if handed_over && others[1..].iter().all(kept) {
            seen.push(kinds.ends_kept);
        }
        seen
    }

    /// Spans that are refused, and questions with another mark's length.
    pub(super) fn wrong_spans(&mut self) {
        for _ in 0..WRONG_SHEETS {
            let (case, span) = spanned(&mut self.random);
            let (sheet, n) = (&case.sheet, case.sheet.n());
            let bytes = sheet_bytes(sheet);
            for (place, wrong) in WRONGS.into_iter().enumerate() {
                if !wrong.can_be(sheet) {
                    continue;
                }
                let ends = wrong_span(&mut self.random, sheet, wrong);
                let asked = span_bytes(500, ends, &case.measured, n);
                let kind = self.kinds.spans.wrong[place];
                let answer = self.call_decide(&[kind], &bytes, &asked);
                assert_eq!(answer.refusal(), Some(14), "{ends:?}");
            }
            let question = question_bytes(500, case.command, &case.measured, n);
            let asked = span_bytes(500, span, &case.measured, n);
            self.wrong_lengths(&bytes, &question, &asked);
        }
    }

    fn wrong_lengths(&mut self, bytes: &[u8], question: &[u8], span: &[u8]) {
        let cut = self.random.below(span.len());
        let more = self.random.pick(&[1, 4, 8]);
        let asked = [
            span[..question.len()].to_vec(),
            [question, &span[span.len() - 4..]].concat(),
            span[..cut].to_vec(),
            [span, &vec![0; more]].concat(),
        ];
        for (place, asked) in asked.iter().enumerate() {
            let kind = self.kinds.spans.lengths[place];
            let answer = self.call_decide(&[kind], bytes, asked);
            assert_eq!(answer.refusal(), Some(12));
        }
    }

    /// Two faults in a question about a span, and one beside a fault of the sheet.
    pub(super) fn span_faults(&mut self) {
        let cases: Vec<(Case, CommandRange)> =
            (0..400).map(|_| spanned(&mut self.random)).collect();
        for (first, second) in [(12, 13), (12, 14), (12, 15), (13, 14), (13, 15), (14, 15)] {
            let kind = self.pair("span", &first.to_string(), &second.to_string());
            for _ in 0..PAIRS {
                let (case, span) = cases[self.random.below(cases.len())];
                let mut asked = span_bytes(500, span, &case.measured, case.sheet.n());
                // The length goes last, so that the other places stay.
                span_fault(&mut self.random, &case.sheet, second).apply(&mut asked);
                span_fault(&mut self.random, &case.sheet, first).apply(&mut asked);
                let answer = self.call_decide(&[kind], &sheet_bytes(&case.sheet), &asked);
                assert_eq!(answer.refusal(), Some(first));
            }
        }
        let cases = Cases {
            of: "",
            all: cases.into_iter().map(|(case, _)| case).collect(),
        };
        for first in (1..=11).chain([20, 22]) {
            for second in [12, 13, 14, 15] {
                self.sheet_and_span(&cases, Cause::Any(first), second);
            }
        }
    }

    /// A question about any span with a fault of this number.
    pub(super) fn faulty_span(&mut self, case: &Case, number: u8) -> Vec<u8> {
        let span = any_span(&mut self.random, &case.sheet);
        let mut asked = span_bytes(500, span, &case.measured, case.sheet.n());
        span_fault(&mut self.random, &case.sheet, number).apply(&mut asked);
        asked
    }
}
