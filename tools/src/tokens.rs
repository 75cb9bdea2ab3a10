//! Lines of text: comments, tokens, units, and faults that name their line.

use crate::causes::cause_with_readings;
use std::fmt;

/// What is wrong, in which line, and the number with which the guard refuses it if it does.
#[derive(Clone, Debug, PartialEq, Eq)]
pub struct Fault {
    pub line: Option<usize>,
    pub refusal: Option<u8>,
    pub what: String,
}

impl Fault {
    /// A fault of the text itself.
    pub fn text(line: usize, what: impl Into<String>) -> Fault {
        Fault {
            line: Some(line),
            refusal: None,
            what: what.into(),
        }
    }

    /// A fault that is no line's.
    pub fn general(what: impl Into<String>) -> Fault {
        Fault {
            line: None,
            refusal: None,
            what: what.into(),
        }
    }
}

impl fmt::Display for Fault {
    fn fmt(&self, out: &mut fmt::Formatter<'_>) -> fmt::Result {
        if let Some(line) = self.line {
            write!(out, "line {line}: ")?;
        }
        if let Some(number) = self.refusal {
            write!(out, "refused {number} ({}): ", cause_with_readings(number))?;
        }
        write!(out, "{}", self.what)
    }
}

/// How much one step of a whole number is: `0.1 mm`.
#[derive(Clone, Debug, PartialEq)]
pub struct Unit {
    /// As it was written.
    pub scale: String,
    pub name: String,
}

impl Unit {
    pub fn factor(&self) -> f64 {
        self.scale.parse().expect("the scale was tested")
    }
}

impl fmt::Display for Unit {
    fn fmt(&self, out: &mut fmt::Formatter<'_>) -> fmt::Result {
        write!(out, "{} {}", self.scale, self.name)
    }
}

#[derive(Clone, Debug, PartialEq)]
pub enum Token {
    Word(String),
    Quoted(String),
    Number(i64),
    /// A number with a point or an exponent, as it was written.
    Decimal(String),
    /// The unit's part of a line, always the last token.
    Unit(Unit),
    Sign(&'static str),
}

/// Signs, the longer ones first. The second form of some is what a printed page has.
const SIGNS: [(&str, &str); 11] = [
    ("..", ".."),
    ("+-", "+-"),
    ("±", "+-"),
    ("+", "+"),
    ("-", "-"),
    ("−", "-"),
    ("*", "*"),
    ("/", "/"),
    ("=", "="),
    ("(", "("),
    (")", ")"),
];

/// The line without its comment, and the comment with its `#`.
pub fn split_comment(line: &str) -> (&str, &str) {
    let mut quoted = false;
    for (at, letter) in line.char_indices() {
        match letter {
            '"' => quoted = !quoted,
            '#' if !quoted => return line.split_at(at),
            _ => {}
        }
    }
    (line, "")
}

/// A name: letters, digits and `_`. `no-go` is one word too.
fn word_length(text: &str) -> usize {
    if text.starts_with("no-go") {
        return "no-go".len();
    }
    text.find(|letter: char| !letter.is_alphanumeric() && letter != '_')
        .unwrap_or(text.len())
}

fn digits_length(text: &str) -> usize {
    text.find(|letter: char| !letter.is_ascii_digit())
        .unwrap_or(text.len())
}

/// A number's length: its digits, a point with digits behind it, and an exponent. Two points are a sign.
fn decimal_length(text: &str) -> usize {
    let whole = digits_length(text);
    let fraction = text[whole..].strip_prefix('.').map_or(0, digits_length);
    let length = match fraction {
        0 => whole,
        digits => whole + 1 + digits,
    };
    length + exponent_length(&text[length..])
}

fn exponent_length(text: &str) -> usize {
    let Some(rest) = text.strip_prefix(['e', 'E']) else {
        return 0;
    };
    let digits = rest.strip_prefix(['+', '-']).unwrap_or(rest);
    match digits_length(digits) {
        0 => 0,
        length => text.len() - digits.len() + length,
    }
}

/// The token of a number of this text.
fn number_token(number: usize, text: &str) -> Result<Token, Fault> {
    let too_long = || Fault::text(number, format!("{text} has too many digits"));
    if digits_length(text) == text.len() {
        return text.parse().map(Token::Number).map_err(|_| too_long());
    }
    match text.split_once(['e', 'E']) {
        Some((_, exponent)) if exponent.parse::<i32>().is_err() => Err(too_long()),
        _ => Ok(Token::Decimal(text.into())),
    }
}

/// The unit after the word `unit`: a positive decimal number and a name.
fn unit(number: usize, text: &str) -> Result<Unit, Fault> {
    let text = text.trim();
    let (scale, name) = text.split_once(char::is_whitespace).unwrap_or((text, ""));
    let positive = scale.parse().is_ok_and(|s: f64| s.is_finite() && s > 0.0);
    if !positive || name.is_empty() {
        let what = format!("'{text}' is no unit: a positive number and a name, as in 0.1 mm");
        return Err(Fault::text(number, what));
    }
    Ok(Unit {
        scale: scale.into(),
        name: name.trim().into(),
    })
}

/// The tokens of a line, the comment left out. The length of a number at the front of a text depends on which numbers
/// the line may have.
fn tokens(
    number: usize,
    line: &str,
    number_length: fn(&str) -> usize,
) -> Result<Vec<Token>, Fault> {
    let mut rest = split_comment(line).0.trim();
    let mut found = Vec::new();
    while let Some(first) = rest.chars().next() {
        let length = if let Some(quoted) = rest.strip_prefix('"') {
            let length = quoted
                .find('"')
                .ok_or_else(|| Fault::text(number, "a \" is not closed"))?;
            found.push(Token::Quoted(quoted[..length].into()));
            length + 2
        } else if first.is_ascii_digit() {
            let length = number_length(rest);
            found.push(number_token(number, &rest[..length])?);
            length
        } else if first.is_alphabetic() || first == '_' {
            let length = word_length(rest);
            let word = &rest[..length];
            let before_unit = word == "unit" || (word == "tick" && found.is_empty());
            found.push(Token::Word(word.into()));
            if before_unit {
                found.push(Token::Unit(unit(number, &rest[length..])?));
                return Ok(found);
            }
            length
        } else if let Some((written, sign)) = SIGNS.iter().find(|s| rest.starts_with(s.0)) {
            found.push(Token::Sign(sign));
            written.len()
        } else {
            return Err(Fault::text(number, format!("'{first}' is not expected")));
        };
        rest = rest[length..].trim_start();
    }
    Ok(found)
}

/// Takes the tokens of one line from the front.
pub struct Cursor {
    pub line: usize,
    tokens: std::vec::IntoIter<Token>,
}

impl Cursor {
    /// A line whose numbers are whole: in a sheet's sum `2e3` is twice a variable `e3`.
    pub fn new(line: usize, text: &str) -> Result<Cursor, Fault> {
        Ok(Cursor {
            line,
            tokens: tokens(line, text, digits_length)?.into_iter(),
        })
    }

    /// A line whose numbers may have a point and an exponent.
    pub fn with_decimals(line: usize, text: &str) -> Result<Cursor, Fault> {
        Ok(Cursor {
            line,
            tokens: tokens(line, text, decimal_length)?.into_iter(),
        })
    }

    pub fn fault<T>(&self, what: impl Into<String>) -> Result<T, Fault> {
        Err(Fault::text(self.line, what))
    }

    pub fn peek(&self) -> Option<&Token> {
        self.tokens.as_slice().first()
    }

    pub fn is_empty(&self) -> bool {
        self.peek().is_none()
    }

    pub fn take(&mut self) -> Option<Token> {
        self.tokens.next()
    }

    /// Takes the sign if it is next.
    pub fn take_sign(&mut self, sign: &str) -> bool {
        let next = matches!(self.peek(), Some(Token::Sign(found)) if *found == sign);
        if next {
            self.take();
        }
        next
    }

    pub fn sign(&mut self, sign: &str) -> Result<(), Fault> {
        if self.take_sign(sign) {
            Ok(())
        } else {
            self.fault(format!("'{sign}' is missing"))
        }
    }

    /// Takes the word if it is next.
    pub fn take_word(&mut self, word: &str) -> bool {
        let next = matches!(self.peek(), Some(Token::Word(found)) if found == word);
        if next {
            self.take();
        }
        next
    }

    pub fn word(&mut self, word: &str) -> Result<(), Fault> {
        if self.take_word(word) {
            Ok(())
        } else {
            self.fault(format!("'{word}' is missing"))
        }
    }

    pub fn name(&mut self) -> Result<String, Fault> {
        match self.take() {
            Some(Token::Word(name)) => Ok(name),
            _ => self.fault("a name is missing"),
        }
    }

    pub fn take_quoted(&mut self) -> Option<String> {
        match self.peek() {
            Some(Token::Quoted(text)) => {
                let text = text.clone();
                self.take();
                Some(text)
            }
            _ => None,
        }
    }

    /// Takes a number if it is next.
    fn take_whole(&mut self) -> Option<i64> {
        match self.peek() {
            Some(&Token::Number(value)) => {
                self.take();
                Some(value)
            }
            _ => None,
        }
    }

    /// The number in 32 bits; a greater one stands nowhere in a sheet or a question.
    pub fn fitting(&self, value: i64) -> Result<i32, Fault> {
        match i32::try_from(value) {
            Ok(value) => Ok(value),
            Err(_) => self.fault(format!("{value} does not fit 32 bits")),
        }
    }

    /// Takes a number without a sign if it is next.
    pub fn take_number(&mut self) -> Result<Option<i32>, Fault> {
        match self.take_whole() {
            Some(value) => Ok(Some(self.fitting(value)?)),
            None => Ok(None),
        }
    }

    /// A whole number without a sign.
    pub fn unsigned(&mut self) -> Result<u32, Fault> {
        match self.take_whole().map(u32::try_from) {
            Some(Ok(value)) => Ok(value),
            Some(Err(_)) => self.fault("a number does not fit 32 bits"),
            None => self.no_whole("a whole number without a sign is missing"),
        }
    }

    /// A whole number with or without a sign.
    pub fn number(&mut self) -> Result<i32, Fault> {
        let negative = self.take_sign("-");
        match self.take_whole() {
            Some(size) => self.fitting(if negative { -size } else { size }),
            None => self.no_whole("a whole number is missing"),
        }
    }

    /// A number that is next, but is not whole, is named.
    fn no_whole<T>(&self, missing: &str) -> Result<T, Fault> {
        match self.peek() {
            Some(Token::Decimal(text)) => self.fault(format!("'{text}' is no whole number")),
            _ => self.fault(missing),
        }
    }

    /// `5..9`, or `5` for `5..5`.
    pub fn range(&mut self) -> Result<(i32, i32), Fault> {
        let lower = self.number()?;
        let upper = if self.take_sign("..") {
            self.number()?
        } else {
            lower
        };
        Ok((lower, upper))
    }

    /// A range that may leave sides out: `5..`, `..9` and `any`.
    pub fn open_range(&mut self, lowest: i32, highest: i32) -> Result<(i32, i32), Fault> {
        if self.take_word("any") {
            return Ok((lowest, highest));
        }
        if self.take_sign("..") {
            return Ok((lowest, self.number()?));
        }
        let lower = self.number()?;
        if !self.take_sign("..") {
            return Ok((lower, lower));
        }
        let closed = matches!(self.peek(), Some(Token::Number(_) | Token::Sign("-")));
        let upper = if closed { self.number()? } else { highest };
        Ok((lower, upper))
    }

    /// A unit at the end of the line, if there is one.
    pub fn unit(&mut self) -> Result<Option<Unit>, Fault> {
        if !self.take_word("unit") {
            return Ok(None);
        }
        match self.take() {
            Some(Token::Unit(unit)) => Ok(Some(unit)),
            _ => self.fault("a unit is missing"),
        }
    }

    pub fn end(&mut self) -> Result<(), Fault> {
        match self.take() {
            None => Ok(()),
            Some(token) => self.fault(format!("{} is not expected here", describe(&token))),
        }
    }
}

fn describe(token: &Token) -> String {
    match token {
        Token::Word(word) => format!("'{word}'"),
        Token::Quoted(text) => format!("\"{text}\""),
        Token::Number(value) => format!("'{value}'"),
        Token::Decimal(text) => format!("'{text}'"),
        Token::Unit(unit) => format!("'{unit}'"),
        Token::Sign(sign) => format!("'{sign}'"),
    }
}
