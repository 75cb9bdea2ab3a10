//! What is wrong with a file that the archive refuses: its length, a mark, or which number of which record.

use crate::file::{self, File, Mark};
use crate::names::{Item, Names};
use crate::overlap::{self, OVERLAP};
use crate::record_order::ORDER;
use crate::records::parts;
use crate::refusal::sheet_fault_of;
use crate::tokens::Fault;
use second_guard::sheet::{length, Kind, Sheet};

/// The refusals of a file by its head alone, by its length and by a record's mark.
const HEAD: u8 = 1;
const COUNTS: u8 = 2;
const COMMANDS: u8 = 4;
const LENGTH: u8 = 5;
const MARK: u8 = 7;

/// A refusal of a file, in words or with its length.
pub fn fault(number: u8, file: &[u8], words: Option<String>) -> Fault {
    Fault {
        line: None,
        refusal: Some(number),
        what: words.unwrap_or_else(|| format!("{} bytes", file.len())),
    }
}

/// The fault of bytes that the archive refuses with this number. Records have their numbers in these bytes.
pub fn refused(number: u8, file: &[u8]) -> Fault {
    let words = match number {
        HEAD => None,
        COUNTS..=COMMANDS => file::head(file).and_then(|sheet| head_words(number, &sheet)),
        LENGTH => file::head(file).map(|sheet| length_words(file, &sheet)),
        ORDER => parts(file).and_then(|parts| parts.at_fault(&parts.standing())),
        // With every other number a file's counts and its length are in range.
        _ => file::read(file).and_then(|file| words(number, &file)),
    };
    fault(number, file, words)
}

/// The values of a file that the archive refuses with 22.
pub fn overlapping(file: &[u8]) -> Option<Sheet> {
    file::read(file).map(|file| file.sheet)
}

/// A number of the head before its caps. No name is needed where a count is out of range.
fn head_words(number: u8, sheet: &Sheet) -> Option<String> {
    let names = match number {
        COUNTS => Names::plain(&Sheet::default()),
        _ => Names::plain(sheet),
    };
    sheet_fault_of(number, sheet, Kind::Fixed, &names).map(|test| test.words(|_| None))
}

/// The length that the counts and the first band's mark ask for, and that of the other mark.
fn length_words(bytes: &[u8], sheet: &Sheet) -> String {
    let first_mark = file::first_band_mark(bytes);
    let counts = [sheet.variables, sheet.band_count, sheet.unsafe_count];
    let [n, bands, boxes] = counts.map(|count| count as usize);
    let of = |kind| length(kind, n, bands, boxes);
    let kind = file::kind_of(first_mark);
    let (why, other) = match (kind, first_mark) {
        (Kind::Following, _) => ("its first band is marked BF", Kind::Fixed),
        (Kind::Fixed, Some(_)) => ("its first band is not marked BF", Kind::Following),
        (Kind::Fixed, None) => ("it ends before its first band's mark", Kind::Following),
    };
    format!(
        "{} bytes; {why}, so it has to have {} ({} with bands marked {})",
        bytes.len(),
        of(kind),
        of(other),
        other.mark().escape_ascii()
    )
}

fn words(number: u8, file: &File) -> Option<String> {
    match number {
        MARK => file.marks.iter().find_map(mark_words),
        OVERLAP => Some(overlap_words(&file.sheet)),
        _ => value_words(number, file),
    }
}

/// What a mark has to be, where it is another one.
fn mark_words(mark: &Mark) -> Option<String> {
    if mark.found == mark.expected {
        return None;
    }
    let expected = mark.expected.escape_ascii();
    let expected = match mark.record {
        Item::Band(0) => "BD or BF".into(),
        Item::Band(_) => format!("{expected} as the first band is"),
        _ => expected.to_string(),
    };
    let (record, found) = (place(mark.record), mark.found.escape_ascii());
    Some(format!(
        "{record} is marked {found}, it has to be {expected}"
    ))
}

/// What the recovery record shares with which no-go records.
fn overlap_words(sheet: &Sheet) -> String {
    let named = |j: usize| place(Item::Unsafe(j));
    overlap::words(sheet, &Names::plain(sheet), &place(Item::Recovery), named)
        .into_iter()
        .map(|(words, _)| words)
        .collect()
}

/// The first number that the archive refuses so, and its record.
fn value_words(number: u8, file: &File) -> Option<String> {
    let names = Names::plain(&file.sheet);
    let test = sheet_fault_of(number, &file.sheet, file.kind, &names)?;
    let words = test.words(|_| None);
    Some(match test.place {
        Item::Row(k, i) => {
            let name = names.variable(i);
            format!("band {}, change of {name}: {words}", k + 1)
        }
        Item::Band(_) | Item::Law(_) | Item::Unsafe(_) | Item::Recovery => {
            format!("{}: {words}", place(test.place))
        }
        _ => words,
    })
}

/// A record, or a part of it.
fn place(item: Item) -> String {
    match item {
        Item::Band(k) => format!("band {}", k + 1),
        Item::Law(k) => format!("band {}, law", k + 1),
        Item::Unsafe(j) => format!("no-go record {}", j + 1),
        _ => "the recovery record".into(),
    }
}
