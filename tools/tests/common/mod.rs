//! What the tests share: the examples, the program, and a simple source of numbers.
#![allow(dead_code)]

pub mod machines;
pub mod sheets;

use second_guard::boxes::VARIABLES;
use second_guard::sheet::Sheet;
use sheet_tool::{asks_text, sheet_parser};
use std::path::PathBuf;
use std::process::Command;

/// The path of a file of examples/.
pub fn example(name: &str) -> String {
    let examples = concat!(env!("CARGO_MANIFEST_DIR"), "/../examples/");
    format!("{examples}{name}")
}

pub fn example_text(name: &str) -> String {
    std::fs::read_to_string(example(name)).expect("the example is there")
}

/// An example's values, its sheet's bytes and its questions' bytes.
pub fn load(name: &str) -> (Sheet, Vec<u8>, Vec<u8>) {
    let text = sheet_parser::parse(&example_text(&format!("{name}.txt"))).expect("a sheet");
    let bytes = text.bytes().expect("an accepted sheet");
    let asks = example_text(&format!("{name}.asks.txt"));
    let asks = asks_text::parse(&asks, &text.sheet, &text.names).expect("questions");
    let asks_bytes = asks.bytes(&text.sheet);
    (text.sheet, bytes, asks_bytes)
}

/// Every variable of every band has the first one's cap and row, so that the sheet may have any number of them.
pub fn with_equal_variables(mut sheet: Sheet) -> Sheet {
    sheet.caps = [sheet.caps[0]; VARIABLES];
    for band in &mut sheet.bands {
        band.rows = [band.rows[0]; VARIABLES];
    }
    sheet
}

/// Runs the program: whether it succeeded, and what it printed.
pub fn shell(words: &[&str]) -> (bool, String, String) {
    let output = Command::new(env!("CARGO_BIN_EXE_sheet"))
        .args(words)
        .output()
        .expect("the program runs");
    let text = |bytes| String::from_utf8(bytes).expect("text");
    (
        output.status.success(),
        text(output.stdout),
        text(output.stderr),
    )
}

/// Runs the program, which has to succeed.
pub fn sheet(words: &[&str]) -> String {
    let (success, out, message) = shell(words);
    assert!(success, "sheet {words:?}: {message}");
    out
}

/// A new folder that is removed again.
pub struct Folder(pub PathBuf);

impl Folder {
    pub fn new(name: &str) -> Folder {
        let folder = format!("sheet-tool-{name}-{}", std::process::id());
        let path = std::env::temp_dir().join(folder);
        std::fs::create_dir_all(&path).expect("the folder is made");
        Folder(path)
    }

    pub fn file(&self, name: &str) -> String {
        self.0.join(name).to_str().expect("a plain path").into()
    }
}

impl Drop for Folder {
    fn drop(&mut self) {
        // What is left of the folder does no harm.
        let _ = std::fs::remove_dir_all(&self.0);
    }
}

/// A text whose lines of no-go boxes share their places in another order; the other lines stay.
pub fn shuffled(text: &str, numbers: &mut Numbers) -> String {
    let is_box = |line: &&str| line.starts_with("no-go");
    let mut boxes: Vec<&str> = text.lines().filter(is_box).collect();
    for last in (1..boxes.len()).rev() {
        boxes.swap(last, numbers.whole(0, last as i64) as usize);
    }
    let mut boxes = boxes.into_iter();
    text.lines()
        .map(|line| match is_box(&line) {
            true => boxes.next().expect("as many lines"),
            false => line,
        })
        .map(|line| format!("{line}\n"))
        .collect()
}

/// Puts other letters into a text, each taken from somewhere else in it.
pub fn damaged(text: &str, numbers: &mut Numbers) -> String {
    let mut letters: Vec<char> = text.chars().collect();
    let last = letters.len() as i64 - 1;
    for _ in 0..numbers.whole(1, 4) {
        let (to, from) = (numbers.whole(0, last), numbers.whole(0, last));
        letters[to as usize] = letters[from as usize];
    }
    letters.into_iter().collect()
}

/// The numbers from 0 to `count` - 1 in another order.
pub fn random_order(count: usize, numbers: &mut Numbers) -> Vec<usize> {
    let mut order: Vec<usize> = (0..count).collect();
    for last in (1..count).rev() {
        order.swap(last, numbers.whole(0, last as i64) as usize);
    }
    order
}

/// Where no-go record j begins in a sheet's bytes; the recovery record is the one after the last.
pub fn record_at(bytes: &[u8], j: usize) -> usize {
    let count = usize::from(bytes[4]);
    bytes.len() - record_length(bytes) * (count + 1 - j)
}

fn record_length(bytes: &[u8]) -> usize {
    2 + 8 * usize::from(bytes[2])
}

/// A sheet's bytes whose no-go record j is the one that had number `order[j]`.
pub fn with_records(bytes: &[u8], order: &[usize]) -> Vec<u8> {
    let length = record_length(bytes);
    let mut moved = bytes.to_vec();
    for (j, &k) in order.iter().enumerate() {
        let taken = &bytes[record_at(bytes, k)..][..length];
        moved[record_at(bytes, j)..][..length].copy_from_slice(taken);
    }
    moved
}

/// Numbers that look random and are the same each time.
pub struct Numbers(pub u64);

impl Numbers {
    fn next(&mut self) -> u64 {
        self.0 = self.0.wrapping_mul(6_364_136_223_846_793_005);
        self.0 = self.0.wrapping_add(1_442_695_040_888_963_407);
        self.0 >> 33
    }

    /// From `least` to `greatest`, both counted.
    pub fn whole(&mut self, least: i64, greatest: i64) -> i64 {
        let span = (greatest - least) as u64 + 1;
        least + (self.next() % span) as i64
    }

    pub fn real(&mut self, least: f64, greatest: f64) -> f64 {
        let part = self.next() as f64 / (1u64 << 31) as f64;
        least + part * (greatest - least)
    }
}
