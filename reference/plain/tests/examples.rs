//! The worked examples of the second guard, `examples.txt` and `limits.txt`: the plain guard has the same answers.

use plain_guard::decision::{unpack, REFUSED};
use plain_guard::reach::StateBox;
use plain_guard::readings::measured_box;
use plain_guard::{Point, Reading};
use std::collections::HashMap;

type Words<'a> = HashMap<&'a str, &'a str>;

const EXAMPLES: &str = include_str!("../../examples.txt");
const LIMITS: &str = include_str!("../../limits.txt");

/// What a change of a file starts with: `@PLACE:HEX` is with these bytes from the place on, `<LENGTH` the first bytes alone,
/// `+HEX` with these bytes after it.
const CHANGES: [char; 3] = ['@', '<', '+'];

fn hex(text: &str) -> Vec<u8> {
    (0..text.len() / 2)
        .map(|i| u8::from_str_radix(&text[2 * i..2 * i + 2], 16).expect("hex"))
        .collect()
}

/// The bytes of a file that `limits.txt` names, or those in hex.
fn base(text: &str) -> Vec<u8> {
    let name = format!("{text} file bytes=");
    let named = LIMITS.lines().find_map(|line| line.strip_prefix(&name));
    hex(named.unwrap_or(text))
}

fn file(text: &str) -> Vec<u8> {
    let (start, mut rest) = text.split_at(text.find(CHANGES).unwrap_or(text.len()));
    let mut bytes = base(start);
    while let Some(kind) = rest.chars().next() {
        let end = rest[1..].find(CHANGES).map_or(rest.len(), |at| at + 1);
        let change = &rest[1..end];
        match kind {
            '@' => {
                let (place, new) = change.split_once(':').expect("a place");
                let (place, new) = (place.parse::<usize>().expect("a place"), hex(new));
                bytes[place..place + new.len()].copy_from_slice(&new);
            }
            '<' => bytes.truncate(change.parse().expect("a length")),
            _ => bytes.extend(hex(change)),
        }
        rest = &rest[end..];
    }
    bytes
}

fn bytes(words: &Words, key: &str) -> Vec<u8> {
    file(words[key])
}

fn number(words: &Words, key: &str) -> i32 {
    words[key].parse().expect("a number")
}

/// n pairs of sides of four bytes each.
fn sides(bytes: &[u8]) -> StateBox {
    let side = |at: usize| {
        let four = bytes[at..at + 4].try_into().expect("four bytes");
        i64::from(i32::from_be_bytes(four))
    };
    (0..bytes.len() / 8)
        .map(|i| (side(8 * i), side(8 * i + 4)))
        .collect()
}

fn box_text(sides: &StateBox) -> String {
    let side = |(lower, upper): &(i64, i64)| format!("{lower}..{upper}");
    sides.iter().map(side).collect::<Vec<_>>().join(",")
}

fn verdict(packed: u64) -> String {
    match unpack(packed) {
        (REFUSED, number, _) => format!("refused={number}"),
        (code, width, rounds) => format!("code={code} width={width} rounds={rounds}"),
    }
}

/// A reading per kind, each a byte, and per two floats, each by its bits: 1 is a value with its tolerance, 2 a pair.
/// Any other kind, or one whose floats are not there, is no reading.
fn reading_list(words: &Words) -> Vec<Reading> {
    let float =
        |four: &[u8]| f32::from_bits(u32::from_be_bytes(four.try_into().expect("four bytes")));
    let floats: Vec<f32> = hex(words["values"]).chunks(4).map(float).collect();
    let kinds = hex(words["kinds"]);
    let mut readings = Vec::new();
    for (i, kind) in kinds.iter().enumerate() {
        readings.push(match (kind, floats.get(2 * i..2 * i + 2)) {
            (1, Some(&[value, tolerance])) => Reading::Point(Point { value, tolerance }),
            (2, Some(&[lower, upper])) => Reading::Pair(lower, upper),
            _ => Reading::Missing,
        });
    }
    readings
}

/// The answer, and before it the box where the line has one.
fn readings(words: &Words) -> String {
    let (sheet, head, readings) = (
        bytes(words, "sheet"),
        bytes(words, "head"),
        reading_list(words),
    );
    let packed = plain_guard::decide_readings(&sheet, &head, &readings);
    if !words.contains_key("box") {
        return verdict(packed);
    }
    let n = plain_guard::read(&sheet).expect("an accepted sheet").n;
    let sides = measured_box(&readings, n).expect("no reading is refused");
    let sides = sides
        .iter()
        .map(|&(lower, upper)| (i64::from(lower), i64::from(upper)));
    format!("box={} {}", box_text(&sides.collect()), verdict(packed))
}

fn reach(words: &Words) -> String {
    let run = || {
        let sheet = plain_guard::read(&bytes(words, "sheet"))?;
        let command = (words["law"] != "0").then(|| number(words, "command"));
        let (ticks, width) = (number(words, "ticks") as u32, number(words, "width") as u32);
        let start = sides(&bytes(words, "start"));
        plain_guard::reach(&sheet, ticks, width, command, &start)
    };
    match run() {
        Ok((end, swept, rounds)) => format!(
            "end={} swept={} rounds={rounds}",
            box_text(&end),
            box_text(&swept)
        ),
        Err(number) => format!("refused={number}"),
    }
}

/// Slots of a sheet's numbers: rho, the bands, a law's constant and divisor in a band, and the no-go
/// boxes with six lower and six upper sides each.
const RHO: usize = 6;
const BANDS: usize = 15;
const BAND: usize = 71;
const CONSTANT: usize = 9;
const DIVISOR: usize = 10;
const NO_GO: usize = 595;

/// Puts a number into its slot.
fn set(sheet: &mut plain_guard::Sheet, slot: usize, number: i32) {
    if slot == RHO {
        sheet.rho = number as u16;
    } else if slot < NO_GO {
        let place = slot.checked_sub(BANDS).expect("a law number");
        let law = &mut sheet.band[place / BAND].law;
        match place % BAND {
            at @ 3..=8 => law.coefficients[at - 3] = number as i16,
            CONSTANT => law.constant = number,
            DIVISOR => law.divisor = number,
            _ => panic!("no law number: slot {slot}"),
        }
    } else {
        let place = slot - NO_GO;
        let pair = &mut sheet.no_go_box[place / 12][place % 6];
        match place % 12 {
            0..=5 => pair.0 = number,
            _ => pair.1 = number,
        }
    }
}

/// A named sheet's numbers, with others in some slots.
fn write(words: &Words) -> String {
    let mut parts = words["numbers"].split('@');
    let name = parts.next().expect("a name");
    let mut sheet = plain_guard::read(&base(name)).expect("an accepted sheet");
    for part in parts {
        let (slot, number) = part.split_once(':').expect("a slot");
        let number = number.parse().expect("a number");
        set(&mut sheet, slot.parse().expect("a slot"), number);
    }
    let mut buffer = vec![0; words["room"].parse().expect("a length")];
    let place = words["place"].parse().expect("a place");
    let written = plain_guard::write_at(&sheet, &mut buffer, place);
    format!("refusal={}", written.err().unwrap_or(0))
}

fn listing(words: &Words) -> String {
    let (sheet, asks) = (bytes(words, "sheet"), bytes(words, "asks"));
    let text = String::from_utf8(plain_guard::listing(Some(&sheet), Some(&asks))).expect("text");
    format!("text={}", text.replace(' ', "_").replace('\n', "/"))
}

/// Compares the lines of a file, and says how many there are.
fn compare(text: &str) -> usize {
    let mut seen = 0;
    for line in text
        .lines()
        .filter(|line| !line.is_empty() && !line.starts_with('#'))
    {
        let words: Words = line
            .split(' ')
            .filter_map(|part| part.split_once('='))
            .collect();
        let sheet = || bytes(&words, "sheet");
        let answer = match line.split(' ').nth(1) {
            Some("file") => continue,
            Some("read") => format!("refusal={}", plain_guard::read(&sheet()).err().unwrap_or(0)),
            Some("write") => write(&words),
            Some("decide") => verdict(plain_guard::decide(&sheet(), &bytes(&words, "question"))),
            Some("readings") => readings(&words),
            Some("check") => verdict(plain_guard::recovery(&sheet())),
            Some("reach") => reach(&words),
            Some("listing") => listing(&words),
            _ => panic!("no such call: {line}"),
        };
        assert!(line.ends_with(&format!(" {answer}")), "{answer}: {line}");
        seen += 1;
    }
    seen
}

#[test]
fn the_examples_have_the_same_answers() {
    assert!(compare(EXAMPLES) >= 14);
}

#[test]
fn the_limits_have_the_same_answers() {
    assert!(compare(LIMITS) >= 150);
}
