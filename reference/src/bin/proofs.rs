//! Prints examples of `examples.txt` and `limits.txt` as a file of proofs: `print_proofs sheet` those of reading and writing,
//! `print_proofs reach` those of the reach, `print_proofs decision` the decisions, recovery checks and listings,
//! `print_proofs readings` the decisions by readings. The definitions compute each of them; a test holds the printed files to
//! those in the repository.

use second_guard::boxes::VARIABLES;
use second_guard::sheet::UNSAFE_AT;
use std::collections::HashMap;

/// One line of `examples.txt` or `limits.txt`.
struct Example<'a> {
    name: &'a str,
    call: &'a str,
    fields: HashMap<&'a str, &'a str>,
}

impl<'a> Example<'a> {
    fn parse(line: &'a str) -> Self {
        let mut words = line.split(' ');
        let name = words.next().expect("a name");
        let call = words.next().expect("a call");
        let fields = words
            .map(|word| word.split_once('=').expect("key=value"))
            .collect();
        Example { name, call, fields }
    }

    fn field(&self, key: &str) -> &'a str {
        self.fields[key]
    }

    fn refused(&self) -> Option<&'a str> {
        self.fields.get("refused").copied()
    }
}

fn bytes(hex: &str) -> Vec<u8> {
    (0..hex.len() / 2)
        .map(|i| u8::from_str_radix(&hex[2 * i..2 * i + 2], 16).expect("hex"))
        .collect()
}

/// A list as antt writes it.
fn list(items: impl Iterator<Item = String>) -> String {
    items.fold(String::new(), |text, item| text + &item + " ∷ ") + "[]"
}

fn byte_list(hex: &str) -> String {
    list(bytes(hex).into_iter().map(|b| b.to_string()))
}

fn integer(z: i64) -> String {
    if z < 0 {
        format!("negsuc {}", -1 - z)
    } else {
        format!("pos {z}")
    }
}

/// A box with the sides of its variables, as the definitions hold it.
fn box_list(sides: &[(i64, i64)]) -> String {
    let side = |i: usize, upper: bool| match sides.get(i) {
        Some(&(l, h)) => integer(if upper { h } else { l }),
        None => integer(0),
    };
    list((0..VARIABLES).map(|i| side(i, false)).chain((0..VARIABLES).map(|i| side(i, true))))
}

/// Sides as `examples.txt` has them in an answer: `-1..2,-3..4`.
fn printed_sides(text: &str) -> Vec<(i64, i64)> {
    let number = |s: &str| s.parse::<i64>().expect("a number");
    text.split(',')
        .map(|pair| pair.split_once("..").expect("a pair"))
        .map(|(l, h)| (number(l), number(h)))
        .collect()
}

/// Sides as a question has them: pairs of four bytes each.
fn coded_sides(hex: &str) -> Vec<(i64, i64)> {
    let number = |b: &[u8]| i64::from(i32::from_be_bytes([b[0], b[1], b[2], b[3]]));
    bytes(hex)
        .chunks(8)
        .map(|pair| (number(&pair[..4]), number(&pair[4..])))
        .collect()
}

/// A file as a line writes it: what it starts from, then each change, `@PLACE:HEX`, `<LENGTH` or `+HEX`, by its first letter.
fn parts(text: &str) -> (&str, Vec<(&str, &str)>) {
    let starts: Vec<usize> = text.match_indices(['@', '<', '+']).map(|(at, _)| at).collect();
    let ends = starts.iter().skip(1).copied().chain([text.len()]);
    let changes = starts.iter().zip(ends).map(|(&at, end)| text[at..end].split_at(1)).collect();
    (&text[..starts.first().copied().unwrap_or(text.len())], changes)
}

/// `PLACE:WHAT` of a change.
fn placed(change: &str) -> (&str, &str) {
    change.split_once(':').expect("a place")
}

/// The files that an example is about.
const FILES: [&str; 5] = ["sheet", "numbers", "question", "asks", "head"];

/// What the files of some examples start from, in the order of their first use.
struct Bases<'a> {
    /// Those that a line of `limits.txt` names, with their bytes in hex.
    named: Vec<(&'a str, &'a str)>,
    used: Vec<&'a str>,
    /// Sheets in hex.
    sheets: Vec<&'a str>,
}

impl<'a> Bases<'a> {
    fn new(named: Vec<(&'a str, &'a str)>, examples: &[Example<'a>]) -> Self {
        let mut bases = Bases { named, used: Vec::new(), sheets: Vec::new() };
        for example in examples {
            for key in FILES {
                let Some(text) = example.fields.get(key) else {
                    continue;
                };
                let base = parts(text).0;
                let seen = if bases.hex(base).is_some() {
                    &mut bases.used
                } else if key == "sheet" {
                    &mut bases.sheets
                } else {
                    continue;
                };
                if !seen.contains(&base) {
                    seen.push(base);
                }
            }
        }
        bases
    }

    /// The bytes of a named file.
    fn hex(&self, base: &str) -> Option<&'a str> {
        self.named.iter().find(|(name, _)| *name == base).map(|(_, hex)| *hex)
    }

    /// What antt calls it; other bytes are written out.
    fn term(&self, base: &str) -> String {
        match base {
            "A" => "file_a".into(),
            "Q" => "question_a".into(),
            _ if self.hex(base).is_some() => base.into(),
            _ => match self.sheets.iter().position(|sheet| *sheet == base) {
                Some(number) => format!("sheet{number}"),
                None => format!("({})", byte_list(base)),
            },
        }
    }

    /// The file that the text stands for.
    fn file(&self, text: &str) -> String {
        let (base, changes) = parts(text);
        changes.into_iter().fold(self.term(base), |file, (kind, change)| match kind {
            "@" => {
                let (place, new) = placed(change);
                format!("(sets {file} {place} ({}))", byte_list(new))
            }
            "<" => format!("(take {change} {file})"),
            _ => format!("({file} ++ ({}))", byte_list(change)),
        })
    }

    /// A slot as the definitions name it: a lower side of a no-go box by the box's number.
    fn slot(slot: &str) -> String {
        let place: usize = slot.parse().expect("a slot");
        let Some(side) = place.checked_sub(UNSAFE_AT) else {
            return slot.into();
        };
        match (side / (2 * VARIABLES), side % (2 * VARIABLES)) {
            (j, 0) => format!("(unsafe_slot {j})"),
            (j, i) if i < VARIABLES => format!("(unsafe_slot {j} + {i})"),
            _ => panic!("an upper side has no name yet"),
        }
    }

    /// A sheet's numbers: those of a file, with others in some slots.
    fn numbers(&self, text: &str) -> String {
        let (base, changes) = parts(text);
        changes.into_iter().fold(format!("(values {})", self.term(base)), |numbers, (_, change)| {
            let (slot, number) = placed(change);
            let number = integer(number.parse().expect("a number"));
            format!("(sets {numbers} {} ({number} ∷ []))", Self::slot(slot))
        })
    }

    /// The definitions that an example's files open.
    fn opened(&self, example: &Example) -> String {
        let bases = FILES.iter().filter_map(|key| example.fields.get(key)).map(|text| parts(text).0);
        let terms = bases.map(|base| self.term(base));
        terms.filter(|term| term != "file_a" && !term.starts_with('(')).fold(String::new(), |all, term| all + &term + " ")
    }
}

fn law(example: &Example) -> String {
    match example.field("law") {
        "0" => "Baseline".into(),
        _ => format!("(one_command ({}))", integer(example.field("command").parse().expect("a number"))),
    }
}

/// An example's two sides: what the definitions are asked, and what the second guard said.
fn row(example: &Example, bases: &Bases) -> (String, String) {
    let number = |key| example.field(key).to_string();
    match example.call {
        "read" => (format!("refusal {}", bases.file(example.field("sheet"))), number("refusal")),
        "write" => {
            let numbers = bases.numbers(example.field("numbers"));
            let (room, place) = (example.field("room"), example.field("place"));
            (format!("write_refusal {numbers} (replicate {room} 0) {place}"), number("refusal"))
        }
        "reach" => (reach_given(example, bases), reach_said(example)),
        "check" => (format!("check_recovery {}", bases.file(example.field("sheet"))), reply_said(example)),
        "decide" => {
            let (sheet, question) = (example.field("sheet"), example.field("question"));
            (format!("decide {} {}", bases.file(sheet), bases.file(question)), reply_said(example))
        }
        "readings" => {
            let (sheet, head) = (bases.file(example.field("sheet")), bases.file(example.field("head")));
            (format!("decide_readings {sheet} {head} {}", readings(example)), reply_said(example))
        }
        "listing" => {
            let (sheet, asks) = (example.field("sheet"), example.field("asks"));
            let said = list(listing_text(example).bytes().map(|b| b.to_string()));
            (format!("listing {} {}", bases.file(sheet), bases.file(asks)), said)
        }
        call => panic!("no such call: {call}"),
    }
}

/// The readings of a call's slices: the kinds, and the floats by their bits.
fn readings(example: &Example) -> String {
    let float = |bits: &[u8]| format!("float {}", u32::from_be_bytes([bits[0], bits[1], bits[2], bits[3]]));
    let floats = list(bytes(example.field("values")).chunks(4).map(float));
    format!("(readings_in ({}) ({floats}) N)", byte_list(example.field("kinds")))
}

/// The box that an example's readings come to, where it says so: what the definitions are asked, and what the second guard said.
fn box_row(example: &Example) -> Option<(String, String)> {
    let sides = printed_sides(example.fields.get("box")?);
    Some((format!("readings_box {} {}", sides.len(), readings(example)), box_list(&sides)))
}

fn reach_given(example: &Example, bases: &Bases) -> String {
    format!(
        "reach_file {} {} {} {} ({})",
        bases.file(example.field("sheet")),
        example.field("ticks"),
        example.field("width"),
        law(example),
        box_list(&coded_sides(example.field("start")))
    )
}

fn reach_said(example: &Example) -> String {
    match example.refused() {
        Some(number) => format!("refused {number}"),
        None => format!(
            "answered ({}) ({}) {}",
            box_list(&printed_sides(example.field("end"))),
            box_list(&printed_sides(example.field("swept"))),
            example.field("rounds")
        ),
    }
}

fn reply_said(example: &Example) -> String {
    match example.refused() {
        Some(number) => format!("refused {number}"),
        None => format!(
            "answered {} {} {}",
            ["keep", "finest", "spent"][example.field("code").parse::<usize>().expect("a code")],
            example.field("width"),
            example.field("rounds")
        ),
    }
}

/// A listing as it is printed.
fn listing_text(example: &Example) -> String {
    example.field("text").replace('_', " ").replace('/', "\n")
}

const SHEET: &str = "\
use mathlib.Core.Path.{◌≡◌, refl}
use mathlib.Core.List.{List, [], ◌∷◌, ◌++◌}
use Prim.Native.Nat.{ℕ, ◌+◌}
use lib.IntN.{pos, negsuc}
use lib.ListN.{take, replicate}
use lib.Seq.{sets}
use Rattle.sheet_spec.specs.Slots.{unsafe_slot}
use Rattle.sheet_spec.specs.Sheet.{refusal, values, write_refusal}
use Rattle.sheet_spec.specs.SheetA.{file_a}
use Rattle.sheet_spec.proofs.Everything.{everything}
";

const REACH: &str = "\
use mathlib.Core.Path.{◌≡◌, refl}
use mathlib.Core.List.{List, [], ◌∷◌}
use Prim.Native.Nat.{ℕ}
use lib.IntN.{ℤ, pos, negsuc}
use lib.ListN.{take}
use lib.Seq.{sets}
use Rattle.sheet_spec.specs.SheetA.{file_a}
use Rattle.machine_spec.specs.declared.Law.TheVariants.{Baseline}
use Rattle.machine_spec.specs.Machine.{one_command}
use Rattle.boxes_spec.specs.Reach.{Answer, refused, reach_file}
use Rattle.boxes_spec.proofs.Everything.{everything}

abbrev answered : List ℤ → List ℤ → ℕ → Answer
answered E W c = record { refusal = 0; end = E; swept = W; rounds = c }
";

const DECISION: &str = "\
use mathlib.Core.Path.{◌≡◌, refl}
use mathlib.Core.List.{List, [], ◌∷◌, ◌++◌}
use Prim.Native.Nat.{ℕ}
use lib.ListN.{take}
use lib.Seq.{sets}
use Rattle.sheet_spec.specs.SheetA.{file_a}
use Rattle.decision_spec.specs.Decision.{keep, finest, spent, refused, answered, decide, check_recovery}
use Rattle.decision_spec.specs.Listing.{listing}
use Rattle.decision_spec.proofs.Everything.{everything}
";

const READINGS: &str = "\
use mathlib.Core.Path.{◌≡◌, refl}
use mathlib.Core.List.{List, [], ◌∷◌}
use Prim.Native.Nat.{ℕ}
use lib.IntN.{pos, negsuc}
use lib.ListN.{take}
use lib.Seq.{sets}
use lib.Ieee.{Float, binary32, of_bits}
use Rattle.sheet_spec.specs.Slots.{N}
use Rattle.sheet_spec.specs.SheetA.{file_a}
use Rattle.readings_spec.specs.Exact.{finite, scaled, rounded, between}
use Rattle.readings_spec.specs.Reading.{reading_side, value_in, tolerance_in, reading_refusal, readings_refusal, readings_box}
use Rattle.decision_spec.specs.Numbers.{number_bytes, sides_of}
use Rattle.decision_spec.specs.Decision.{keep, finest, spent, refused, answered}
use Rattle.decision_spec.specs.Readings.{with_box, decide_readings}
use Rattle.decision_spec.specs.ReadingsCall.{reading_of, reading_in, readings_in}
use Rattle.decision_spec.proofs.Everything as decision

-- opens the definitions of readings too
unfoldable everything : ℕ
unfolding decision.everything of_bits finite scaled rounded between reading_side value_in tolerance_in reading_refusal readings_refusal readings_box number_bytes sides_of with_box decide_readings reading_of reading_in readings_in
everything = 0

-- the float with these bits
abbrev float : ℕ → Float
float b = of_bits binary32 b
";

fn print(examples: &[Example], header: &str, bases: &Bases) {
    println!("-- Worked examples of reference/examples.txt and limits.txt: what the definitions give, beside what the second guard gives.");
    println!("-- This file is written by `print_proofs` of reference/, and a test there compares it. Assumes nothing.");
    print!("{header}");
    for base in &bases.used {
        let (name, bytes) = (bases.term(base), byte_list(bases.hex(base).expect("a named file")));
        match *base {
            "A" => println!("\n-- sheet A is the second guard's\nsame_A : {name} ≡ {bytes}\nunfolding {name}\nsame_A = refl"),
            _ => println!("\nunfoldable {name} : List ℕ\n{name} = {bytes}"),
        }
    }
    for (number, sheet) in bases.sheets.iter().enumerate() {
        println!("\nunfoldable sheet{number} : List ℕ\nsheet{number} = {}", byte_list(sheet));
    }
    for example in examples {
        let name = example.name;
        let (given, said) = row(example, bases);
        println!();
        if example.call == "listing" {
            for line in listing_text(example).lines() {
                println!("-- {line}");
            }
        }
        println!("{name} : {given} ≡ {said}");
        println!("unfolding {}everything\n{name} = refl", bases.opened(example));
        if let Some((given, said)) = box_row(example) {
            println!("\n{name}_box : {given} ≡ {said}\nunfolding everything\n{name}_box = refl");
        }
    }
}

fn lines(text: &str) -> impl Iterator<Item = Example<'_>> {
    text.lines().filter(|line| !line.is_empty() && !line.starts_with('#')).map(Example::parse)
}

fn main() {
    let part = std::env::args().nth(1).unwrap_or_default();
    let limits = lines(include_str!("../../limits.txt"));
    let (files, limits): (Vec<Example>, Vec<Example>) = limits.partition(|line| line.call == "file");
    let named: Vec<(&str, &str)> = files.iter().map(|file| (file.name, file.field("bytes"))).collect();
    let examples = lines(include_str!("../../examples.txt")).chain(limits);
    let of = |calls: &'static [&str]| examples.filter(|example| calls.contains(&example.call)).collect::<Vec<Example>>();
    let (examples, header) = match part.as_str() {
        "sheet" => (of(&["read", "write"]), SHEET),
        "reach" => (of(&["reach"]), REACH),
        "decision" => (of(&["decide", "check", "listing"]), DECISION),
        "readings" => (of(&["readings"]), READINGS),
        _ => {
            eprintln!("usage: print_proofs sheet|reach|decision|readings");
            std::process::exit(2);
        }
    };
    print(&examples, header, &Bases::new(named, &examples));
}
