//! Pictures of sheets with any counts: every panel and every line of words has its own place.

mod common;

use common::sheets::random_sheet;
use common::{example, sheet, Numbers};
use second_guard::sheet::{Kind, Sheet};
use sheet_tool::attempts::{attempts, Subject};
use sheet_tool::overlap_picture::overlap_picture;
use sheet_tool::picture::picture;
use sheet_tool::{archive, sheet_text};

/// The value of an attribute that is a number.
fn number(element: &str, name: &str) -> f64 {
    let (_, rest) = element.split_once(&format!(" {name}=\"")).expect(name);
    let (value, _) = rest.split_once('"').expect("a closed attribute");
    value.parse().expect("a number")
}

/// The frames of the panels, from the top down: where each begins and ends.
fn frames(picture: &str) -> Vec<(f64, f64)> {
    let is_frame = |line: &&str| line.starts_with("<rect x=\"80.0\"") && line.contains("#a0aec0");
    let ends = |line: &str| {
        let top = number(line, "y");
        (top, top + number(line, "height"))
    };
    picture.lines().filter(is_frame).map(ends).collect()
}

/// Where the words at the right of the panels stand.
fn labels(picture: &str) -> Vec<f64> {
    let is_label = |line: &&str| line.starts_with("<text x=\"794.0\"");
    picture
        .lines()
        .filter(is_label)
        .map(|line| number(line, "y"))
        .collect()
}

/// The words of each line that begins at the left edge.
fn lines(picture: &str) -> Vec<&str> {
    let is_line = |line: &&str| line.starts_with("<text x=\"80.0\"");
    picture
        .lines()
        .filter(is_line)
        .map(|line| line.split(['<', '>']).nth(2).expect("words"))
        .collect()
}

/// Panels lie apart, words beside them too, and nothing is below the last line.
fn is_laid_out(picture: &str, panels: usize) {
    let frames = frames(picture);
    assert_eq!(frames.len(), panels);
    assert!(
        frames.windows(2).all(|two| two[0].1 + 30.0 < two[1].0),
        "{frames:?}"
    );
    let mut labels = labels(picture);
    labels.sort_by(f64::total_cmp);
    assert!(
        labels.windows(2).all(|two| two[1] - two[0] > 11.9),
        "{labels:?}"
    );
    let height = number(picture, "height");
    assert!(frames.iter().all(|frame| frame.1 < height));
    assert!(labels.iter().all(|label| *label < height));
    let longest = lines(picture).into_iter().map(|line| line.chars().count());
    assert!(longest.max() <= Some(140));
}

/// The picture of a sheet's recovery check.
fn drawn(sheet: &Sheet) -> String {
    let bytes = archive::write(sheet).expect("a sheet");
    let found = attempts(&bytes, sheet, Subject::Recovery).expect("no difference");
    let names = sheet_text::from_sheet(sheet).names;
    let drawable = found.all.iter().rfind(|attempt| !attempt.steps.is_empty());
    picture(
        "title",
        "answer",
        &found,
        drawable.expect("a step"),
        sheet,
        &names,
    )
}

/// A sheet with commands that follow the state has one panel more, for the commands.
#[test]
fn every_panel_has_its_place() {
    let mut numbers = Numbers(20);
    for _ in 0..200 {
        let mut sheet = random_sheet(&mut numbers);
        sheet.rho = numbers.whole(1, 20) as i32;
        let of_commands = usize::from(sheet.kind() == Kind::Following);
        is_laid_out(&drawn(&sheet), sheet.n() + of_commands);
    }
}

#[test]
fn every_panel_of_an_overlap_has_its_place() {
    let mut numbers = Numbers(21);
    for _ in 0..200 {
        let mut sheet = random_sheet(&mut numbers);
        sheet.unsafe_boxes[0] = sheet.recovery;
        let text = sheet_text::from_sheet(&sheet);
        let refusal = text.bytes().expect_err("a refused sheet").to_string();
        is_laid_out(&overlap_picture(&refusal, &sheet, &text.names), sheet.n());
    }
}

/// Up to four variables have panels as high as ever; with more the whole picture still has a page's shape.
#[test]
fn six_panels_fit_a_page() {
    let mut numbers = Numbers(22);
    let mut sheets = (0..).map(|_| random_sheet(&mut numbers));
    for n in 1..=6 {
        let few = |sheet: &Sheet| sheet.n() == n && sheet.unsafe_count < 4 && sheet.band_count < 4;
        let mut sheet = sheets.find(few).expect("one of many");
        sheet.rho = 9;
        let picture = drawn(&sheet);
        let heights: Vec<f64> = frames(&picture)
            .iter()
            .map(|frame| frame.1 - frame.0)
            .collect();
        let expected = if n <= 4 { 190.0 } else { 130.0 };
        assert!(heights[..n]
            .iter()
            .all(|height| (height - expected).abs() < 0.2));
        assert!(number(&picture, "height") < 1.42 * number(&picture, "width"));
    }
}

/// Sheets without laws have no panel of commands.
#[test]
fn sheets_without_laws_are_drawn_as_before() {
    for (name, n) in [("sheet_a", 1), ("leg_press", 2), ("pendulum", 4)] {
        let drawn = sheet(&["picture", &example(&format!("{name}.txt"))]);
        assert_eq!(frames(&drawn).len(), n);
        assert!(!drawn.contains(">plain law within "));
    }
}
