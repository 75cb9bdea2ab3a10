//! Spans of commands (document 02, paper 4), and cases whose boxes are placed for the attempt under one.

use crate::generate::{model, pick_command, shape_for, times, widths, Case};
use crate::random::Random;
use second_guard::boxes::VARIABLES;
use second_guard::sheet::{CommandRange, Sheet};

/// How much of the head's commands a span has.
#[derive(Clone, Copy, Debug, PartialEq, Eq)]
pub enum Extent {
    /// One command.
    One,
    /// At most a tenth, and more than one.
    Narrow,
    /// More than a tenth, and not all.
    Wide,
    /// All of several.
    Whole,
}

/// All of them.
pub const EXTENTS: [Extent; 4] = [Extent::One, Extent::Narrow, Extent::Wide, Extent::Whole];

impl Extent {
    pub fn of(span: CommandRange, sheet: &Sheet) -> Extent {
        let size = |range: CommandRange| i64::from(range.greatest) - i64::from(range.least);
        if size(span) == 0 {
            Extent::One
        } else if span == sheet.commands {
            Extent::Whole
        } else if 10 * size(span) <= size(sheet.commands) {
            Extent::Narrow
        } else {
            Extent::Wide
        }
    }

    pub fn place(self) -> usize {
        EXTENTS
            .iter()
            .position(|&of| of == self)
            .expect("one of all")
    }

    pub fn text(self) -> &'static str {
        match self {
            Extent::One => "a span of one command",
            Extent::Narrow => "a narrow span",
            Extent::Wide => "a wide span",
            Extent::Whole => "the head's whole range",
        }
    }
}

/// A span of the sheet's commands: one command, all, a few around one, or any.
pub fn any_span(random: &mut Random, sheet: &Sheet) -> CommandRange {
    let CommandRange { least, greatest } = sheet.commands;
    let middle = pick_command(random, sheet);
    match random.below(8) {
        0 => CommandRange::one(middle),
        1 => sheet.commands,
        2..=4 => {
            let most = (i64::from(greatest) - i64::from(least)) / 20;
            let room = random.spread(1, most.max(1)) as i32;
            CommandRange {
                least: (middle - room).max(least),
                greatest: (middle + room).min(greatest),
            }
        }
        _ => {
            let (one, other) = (random.int(least, greatest), random.int(least, greatest));
            CommandRange {
                least: one.min(other),
                greatest: one.max(other),
            }
        }
    }
}

/// A case of everyday times, and a span for which its boxes are placed.
pub fn spanned(random: &mut Random) -> (Case, CommandRange) {
    let most = random.pick(&[4, 12, 12, 40, 40, 120]);
    let times = times(random, most);
    let mut case = model(random, times, VARIABLES);
    let span = any_span(random, &case.sheet);
    let halvings = random.below(widths(&case.sheet).len());
    shape_for(random, &mut case, span, halvings);
    (case, span)
}

/// What is wrong with a span.
#[derive(Clone, Copy, Debug, PartialEq, Eq)]
pub enum Wrong {
    /// Both ends within the head's commands.
    Reversed,
    LeastBelow,
    GreatestAbove,
    /// All of it beyond one end of the head's commands.
    Beyond,
    /// Reversed, and an end outside.
    ReversedOutside,
}

/// All of them.
pub const WRONGS: [Wrong; 5] = [
    Wrong::Reversed,
    Wrong::LeastBelow,
    Wrong::GreatestAbove,
    Wrong::Beyond,
    Wrong::ReversedOutside,
];

impl Wrong {
    /// The sheet has such spans: where its head has one command, none is reversed within it.
    pub fn can_be(self, sheet: &Sheet) -> bool {
        self != Wrong::Reversed || sheet.commands.least < sheet.commands.greatest
    }

    pub fn text(self) -> &'static str {
        match self {
            Wrong::Reversed => "reversed",
            Wrong::LeastBelow => "least below the range",
            Wrong::GreatestAbove => "greatest above the range",
            Wrong::Beyond => "all beyond one end",
            Wrong::ReversedOutside => "reversed and outside",
        }
    }
}

/// A span that is wrong in this way; where there is none, one that is reversed and outside.
pub fn wrong_span(random: &mut Random, sheet: &Sheet, wrong: Wrong) -> CommandRange {
    let CommandRange { least, greatest } = sheet.commands;
    let inside = random.int(least, greatest);
    let below = random.pick(&[least - 1, least - 1, i32::MIN]);
    let above = random.pick(&[greatest + 1, greatest + 1, i32::MAX]);
    let (least, greatest) = match wrong {
        Wrong::Reversed if wrong.can_be(sheet) => {
            let from = random.int(least + 1, greatest);
            (from, random.int(least, from - 1))
        }
        Wrong::LeastBelow => (below, inside),
        Wrong::GreatestAbove => (inside, above),
        Wrong::Beyond => random.pick(&[(below, least - 1), (greatest + 1, above)]),
        _ => random.pick(&[(above, inside), (inside, below), (above, below)]),
    };
    CommandRange { least, greatest }
}
