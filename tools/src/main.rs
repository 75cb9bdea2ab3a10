//! The program `sheet`.

use second_guard::decision::Question;
use second_guard::sheet::Sheet;
use sheet_tool::archive::{self, Answer};
use sheet_tool::asks_text::{self, Ask, Asked, AsksText};
use sheet_tool::attempts::{attempts, Attempt, Attempts, Subject};
use sheet_tool::file_refusal;
use sheet_tool::listing::{listing_of, recovery_sentence, sentence};
use sheet_tool::names::Names;
use sheet_tool::overlap::OVERLAP;
use sheet_tool::overlap_picture::overlap_picture;
use sheet_tool::picture::picture;
use sheet_tool::record_order;
use sheet_tool::sheet_parser;
use sheet_tool::sheet_text::{self, SheetText};
use sheet_tool::show::{show, show_readings};
use sheet_tool::tokens::Fault;
use std::path::Path;
use std::process::ExitCode;

const USAGE: &str = "\
sheet pack SHEET [ASKS] [--to FOLDER]     write sheet.bin, and asks.bin, into the folder or here
sheet order SHEET.bin [--to FOLDER]       write sheet.bin with the no-go records in ascending order
sheet text sheet.bin [asks.bin]           print the sheet's text, or the questions'
      [--like SHEET [ASKS]]               with names and comments from there
sheet list SHEET [ASKS]                   print the floor listing
sheet show SHEET [ASKS [NUMBER]]          show the recovery check, or the decisions, step by step
sheet picture SHEET [ASKS NUMBER]         draw the recovery check, or one decision, as SVG
      [--width WIDTH]                     at this width, not the last one

SHEET and ASKS are text, or bytes where the name ends in .bin.
A question's text may have the drive's readings: x 2999.5 +- 0.25, x 2999.2..3000.1 or x none. show says which box
came of them; a refused reading gives none, so pack does not write it.
A text may have its no-go boxes in any order; the file has them in ascending order.
A sheet whose recovery box shares a state with a no-go box is refused; its picture has the boxes alone.
Where the bands have laws, show and picture have the least and the greatest command that they give over each
step's swept box.
";

/// Why the program fails. Of a sheet whose recovery box shares a state with a no-go box, it has the picture too.
struct Failure {
    message: String,
    picture: String,
}

impl From<String> for Failure {
    fn from(message: String) -> Failure {
        Failure {
            message,
            picture: String::new(),
        }
    }
}

/// Every use but `picture` leaves the picture out.
impl From<Failure> for String {
    fn from(failure: Failure) -> String {
        failure.message
    }
}

fn main() -> ExitCode {
    let words: Vec<String> = std::env::args().skip(1).collect();
    match run(&words) {
        Ok(text) => {
            print!("{text}");
            ExitCode::SUCCESS
        }
        Err(Failure { message, picture }) => {
            print!("{picture}");
            eprintln!("{message}");
            ExitCode::FAILURE
        }
    }
}

fn run(words: &[String]) -> Result<String, Failure> {
    let Some((verb, words)) = words.split_first() else {
        return Err(Failure::from(USAGE.to_string()));
    };
    let (words, option) = match words.iter().position(|word| word.starts_with("--")) {
        Some(at) => (&words[..at], Some((words[at].as_str(), &words[at + 1..]))),
        None => (words, None),
    };
    match (verb.as_str(), words, option) {
        ("picture", [sheet, which @ ..], None) => draw(sheet, which, None),
        ("picture", [sheet, which @ ..], Some(("--width", [width]))) => {
            draw(sheet, which, Some(width))
        }
        (verb, words, option) => Ok(print(verb, words, option)?),
    }
}

/// What every use but a picture prints.
fn print(
    verb: &str,
    words: &[String],
    option: Option<(&str, &[String])>,
) -> Result<String, String> {
    match (verb, words, option) {
        ("pack", [sheet, asks @ ..], None) if asks.len() < 2 => pack(sheet, asks.first(), "."),
        ("pack", [sheet, asks @ ..], Some(("--to", [folder]))) if asks.len() < 2 => {
            pack(sheet, asks.first(), folder)
        }
        ("order", [sheet], None) => order(sheet, "."),
        ("order", [sheet], Some(("--to", [folder]))) => order(sheet, folder),
        ("text", [sheet], None) => Ok(load_sheet(sheet)?.text.in_file_order().text()),
        ("text", [sheet], Some(("--like", [like]))) => text_like(sheet, like),
        ("text", [sheet, asks], None) => Ok(load_both(sheet, asks)?.1.text()),
        ("text", [sheet, asks], Some(("--like", [like, asks_like]))) => {
            asks_text_like(sheet, asks, like, asks_like)
        }
        ("list", [sheet], None) => Ok(listing_of(&load_sheet(sheet)?.bytes, [].into_iter())),
        ("list", [sheet, asks], None) => list(sheet, asks),
        ("show", [sheet], None) => show_recovery(sheet),
        ("show", [sheet, asks], None) => show_asks(sheet, asks, None),
        ("show", [sheet, asks, number], None) => show_asks(sheet, asks, Some(number)),
        _ => Err(USAGE.into()),
    }
}

/// A sheet's text and its bytes.
struct Loaded {
    text: SheetText,
    bytes: Vec<u8>,
}

fn in_file(path: &str) -> impl Fn(Fault) -> String + '_ {
    move |fault| format!("{path}: {fault}")
}

fn read_bytes(path: &str) -> Result<Vec<u8>, String> {
    std::fs::read(path).map_err(|error| format!("{path}: {error}"))
}

fn read_text(path: &str) -> Result<String, String> {
    std::fs::read_to_string(path).map_err(|error| format!("{path}: {error}"))
}

/// The failure to load a sheet with this fault. Where that is the overlap of boxes, they are drawn.
fn refused(path: &str, fault: Fault, boxes: impl FnOnce() -> Option<(Sheet, Names)>) -> Failure {
    let words = fault.to_string();
    let overlapping = (fault.refusal == Some(OVERLAP)).then(boxes).flatten();
    let picture = overlapping.map(|(sheet, names)| overlap_picture(&words, &sheet, &names));
    Failure {
        message: in_file(path)(fault),
        picture: picture.unwrap_or_default(),
    }
}

fn load_sheet(path: &str) -> Result<Loaded, Failure> {
    if path.ends_with(".bin") {
        return load_sheet_bytes(path);
    }
    let text = sheet_parser::parse(&read_text(path)?).map_err(in_file(path))?;
    let boxes = || Some((text.sheet, text.names.clone()));
    let bytes = text.bytes().map_err(|fault| refused(path, fault, boxes))?;
    Ok(Loaded { text, bytes })
}

fn load_sheet_bytes(path: &str) -> Result<Loaded, Failure> {
    let bytes = read_bytes(path)?;
    let boxes = || {
        let sheet = file_refusal::overlapping(&bytes)?;
        Some((sheet, Names::plain(&sheet)))
    };
    let sheet = archive::read(&bytes)
        .map_err(|number| refused(path, file_refusal::refused(number, &bytes), boxes))?;
    let text = sheet_text::from_sheet(&sheet);
    Ok(Loaded { text, bytes })
}

fn load_asks(sheet: &Loaded, path: &str) -> Result<AsksText, String> {
    let SheetText {
        sheet: values,
        names,
        ..
    } = &sheet.text;
    if path.ends_with(".bin") {
        let bytes = read_bytes(path)?;
        return Ok(asks_text::from_file(&bytes, &sheet.bytes, values, names));
    }
    asks_text::parse(&read_text(path)?, values, names).map_err(in_file(path))
}

fn load_both(sheet: &str, asks: &str) -> Result<(Loaded, AsksText), Failure> {
    let sheet = load_sheet(sheet)?;
    let asks = load_asks(&sheet, asks)?;
    Ok((sheet, asks))
}

fn packed_asks(sheet: &Loaded, path: &str) -> Result<Vec<u8>, String> {
    let SheetText {
        sheet: values,
        names,
        ..
    } = &sheet.text;
    let asks = load_asks(sheet, path)?;
    asks.packed(values, names).map_err(in_file(path))
}

fn pack(sheet: &str, asks: Option<&String>, folder: &str) -> Result<String, String> {
    let loaded = load_sheet(sheet)?;
    let asks = asks.map(|path| packed_asks(&loaded, path)).transpose()?;
    write_bytes(folder, "sheet.bin", &loaded.bytes)?;
    if let Some(asks) = asks {
        write_bytes(folder, "asks.bin", &asks)?;
    }
    Ok(said_order(sheet, &loaded.text))
}

/// A line that says how the no-go boxes are put in order; nothing where the text has them so.
fn said_order(path: &str, text: &SheetText) -> String {
    let lines = text.unsafe_lines();
    if lines.is_sorted() {
        return String::new();
    }
    said_put_in_order(path, "lines", &lines)
}

/// `old.bin: no-go boxes put in order: sheet.bin has them in the order of records 3, 1, 2`.
fn said_put_in_order(path: &str, of: &str, numbers: &[usize]) -> String {
    let numbers: Vec<String> = numbers.iter().map(usize::to_string).collect();
    let numbers = numbers.join(", ");
    format!("{path}: no-go boxes put in order: sheet.bin has them in the order of {of} {numbers}\n")
}

/// Writes a sheet's bytes with their no-go records in ascending order, and says what their order was.
fn order(path: &str, folder: &str) -> Result<String, String> {
    let bytes = read_bytes(path)?;
    let Some(ordered) = record_order::in_order(&bytes).map_err(in_file(path))? else {
        write_bytes(folder, "sheet.bin", &bytes)?;
        return Ok(format!(
            "{path}: no-go boxes in order already: sheet.bin has the same bytes\n"
        ));
    };
    write_bytes(folder, "sheet.bin", &ordered.bytes)?;
    let numbers: Vec<usize> = ordered.order.iter().map(|j| j + 1).collect();
    Ok(said_put_in_order(path, "records", &numbers))
}

fn write_bytes(folder: &str, name: &str, bytes: &[u8]) -> Result<(), String> {
    let path = Path::new(folder).join(name);
    std::fs::write(&path, bytes).map_err(|error| format!("{}: {error}", path.display()))
}

fn text_like(sheet: &str, like: &str) -> Result<String, String> {
    let sheet = load_sheet(sheet)?;
    let like_text = load_sheet(like)?.text;
    let text = like_text
        .with_values(&sheet.text.sheet)
        .map_err(in_file(like))?;
    Ok(text.text())
}

fn asks_text_like(sheet: &str, asks: &str, like: &str, asks_like: &str) -> Result<String, String> {
    let (_, asks) = load_both(sheet, asks)?;
    let (sheet_like, asks_like_text) = load_both(like, asks_like)?;
    let text = asks_like_text
        .with_asks(&asks, &sheet_like.text.names)
        .map_err(in_file(asks_like))?;
    Ok(text.text())
}

fn list(sheet: &str, path: &str) -> Result<String, String> {
    let (Loaded { text, bytes }, asks) = load_both(sheet, path)?;
    let answers = asks.asks.iter().map(|ask| ask.answer(&bytes, &text.sheet));
    let answers: Result<Vec<Answer>, Fault> = answers.collect();
    let answers = answers.map_err(in_file(path))?;
    Ok(listing_of(&bytes, answers.into_iter()))
}

fn show_recovery(path: &str) -> Result<String, String> {
    let Loaded { text, bytes } = load_sheet(path)?;
    let found = attempts(&bytes, &text.sheet, Subject::Recovery).map_err(in_file(path))?;
    Ok(format!(
        "{}, recovery check: {}\n{}",
        text.names.title(),
        recovery_sentence(found.answer),
        show(&found, &text.sheet, &text.names)
    ))
}

/// The questions to show: all, or the one with this number.
fn chosen(asks: &AsksText, number: Option<&String>) -> Result<Vec<usize>, String> {
    let Some(number) = number else {
        return Ok((0..asks.asks.len()).collect());
    };
    match number.parse::<usize>() {
        Ok(number) if (1..=asks.asks.len()).contains(&number) => Ok(vec![number - 1]),
        _ => Err(format!("there is no question {number}")),
    }
}

/// `2 "gentle push"`.
fn heading(index: usize, ask: &Ask) -> String {
    match &ask.title {
        Some(title) => format!("{} \"{title}\"", index + 1),
        None => (index + 1).to_string(),
    }
}

/// `, force -20..25 N`; nothing where the bytes are no question.
fn commands(ask: &Ask, names: &Names) -> String {
    let commands = match &ask.asked {
        Asked::Bytes(_) => return String::new(),
        Asked::Question(question) => question.commands,
        Asked::Readings(asked) => asked.commands,
    };
    format!(", {}", names.command.with_amount(&commands.to_string()))
}

fn show_asks(sheet: &str, path: &str, number: Option<&String>) -> Result<String, String> {
    let (Loaded { text, bytes }, asks) = load_both(sheet, path)?;
    let mut shown = String::new();
    for index in chosen(&asks, number)? {
        let ask = &asks.asks[index];
        let answer = ask.answer(&bytes, &text.sheet).map_err(in_file(path))?;
        let heading = format!("{}{}", heading(index, ask), commands(ask, &text.names));
        shown.push_str(&format!("question {heading}: {}\n", sentence(answer)));
        if let Asked::Readings(asked) = &ask.asked {
            let line = asks.line_of(index);
            shown.push_str(&show_readings(&asked.readings, &text.names, line));
        }
        if let (Some(question), None) = (question(ask), ask.refused) {
            let found = attempts(&bytes, &text.sheet, Subject::Question(&question))
                .map_err(in_file(sheet))?;
            shown.push_str(&show(&found, &text.sheet, &text.names));
        }
    }
    Ok(shown)
}

/// The picture of the recovery check, or of one question's decision. Where the recovery box shares a state with
/// a no-go box there is neither, and the boxes are drawn.
fn draw(path: &str, which: &[String], width: Option<&String>) -> Result<String, Failure> {
    let (sheet, heading, question) = match which {
        [] => (load_sheet(path)?, "recovery check".into(), None),
        [asks, number] => {
            let (sheet, asks) = load_both(path, asks)?;
            let (heading, question) = drawn_question(&asks, number)?;
            (sheet, heading, Some(question))
        }
        _ => return Err(Failure::from(USAGE.to_string())),
    };
    Ok(draw_attempt(path, &sheet, &heading, question, width)?)
}

/// The question that is drawn, with the words above it.
fn drawn_question(asks: &AsksText, number: &String) -> Result<(String, Question), String> {
    let index = chosen(asks, Some(number))?[0];
    let ask = &asks.asks[index];
    let question = question(ask).filter(|_| ask.refused.is_none());
    let question = question.ok_or("a refused question has no picture")?;
    Ok((format!("question {}", heading(index, ask)), question))
}

fn draw_attempt(
    path: &str,
    Loaded { text, bytes }: &Loaded,
    heading: &str,
    question: Option<Question>,
    width: Option<&String>,
) -> Result<String, String> {
    let subject = question
        .as_ref()
        .map_or(Subject::Recovery, Subject::Question);
    let found = attempts(bytes, &text.sheet, subject).map_err(in_file(path))?;
    let heading = format!("{}, {heading}", text.names.title());
    let answer = match subject {
        Subject::Recovery => recovery_sentence(found.answer),
        Subject::Question(_) => sentence(found.answer),
    };
    let attempt = drawn_attempt(&found, width)?;
    Ok(picture(
        &heading,
        &answer,
        &found,
        attempt,
        &text.sheet,
        &text.names,
    ))
}

/// The attempt at the width that is asked for, or the last one that got through a step.
fn drawn_attempt<'a>(found: &'a Attempts, width: Option<&String>) -> Result<&'a Attempt, String> {
    let mut drawable = found.all.iter().filter(|a| !a.steps.is_empty());
    let attempt = match width {
        Some(width) => drawable.find(|a| a.width.to_string() == *width),
        None => drawable.next_back(),
    };
    attempt.ok_or_else(|| {
        let widths: Vec<String> = found.all.iter().map(|a| a.width.to_string()).collect();
        format!("no step at this width; tried were {}", widths.join(", "))
    })
}

fn question(ask: &Ask) -> Option<Question> {
    ask.question().map(|question| question.values())
}
