//! The model of the command survey: what it prints for its arguments and a text on standard input, or
//! the fault that it tells. From what is said of it in words, and the model of the survey.

use crate::model::{self, Book};
use crate::survey_model;
use crate::types::Opening;
use std::fmt;

/// What it takes where neither is given: the tolerance and the method.
const TOLERANCE: i32 = 25;
const METHOD: i32 = 0;

/// The faults, in the order in which they are looked for.
#[derive(Clone, Debug, PartialEq, Eq)]
pub enum Fault {
    /// Not 2 to 4 arguments, or an option among them.
    Usage,
    /// An argument that is no whole number.
    Argument(String),
    Method,
    Tolerance,
    /// A word of the text that is no whole number, counted from 1.
    Word(usize, String),
    /// Refusal 21: the number of values, the lowest point and the pitch as they were typed.
    Misplaced(usize, String, String),
    /// Refusal 7: which value, counted from 1.
    OutOfRange(u32),
}

/// The words on standard error, without their line end.
impl fmt::Display for Fault {
    fn fmt(&self, f: &mut fmt::Formatter) -> fmt::Result {
        match self {
            Fault::Usage => {
                return f.write_str("usage: survey LOWEST PITCH [TOLERANCE [METHOD]] < VALUES")
            }
            _ => f.write_str("survey: ")?,
        }
        match self {
            Fault::Usage => Ok(()),
            Fault::Argument(word) => write!(
                f,
                "{} is no whole number: give it in digits alone, with no leading zero, as 6000 for \
                 60.00 degrees",
                quoted(word)
            ),
            Fault::Method => f.write_str("the method is not 0, 1 or 2"),
            Fault::Tolerance => f.write_str("the tolerance is not from 1 to 5000"),
            Fault::Word(place, word) => write!(
                f,
                "value {place}, {}, is no whole number: give it in digits alone, with a minus where it \
                 is below 0, and no leading zero",
                quoted(word)
            ),
            Fault::Misplaced(values, lowest, pitch) => write!(
                f,
                "refused, 21: a survey has 2 to 600 values, a pitch of 1 or more and points from 0 to \
                 60000; this one has {} from {} by {}",
                counted(*values),
                quoted(lowest),
                quoted(pitch)
            ),
            Fault::OutOfRange(place) => {
                write!(f, "refused, 7: value {place} is not from -10000 to 10000")
            }
        }
    }
}

/// A word between quotes, its control characters as question marks.
fn quoted(word: &str) -> String {
    let shown = word.replace(|c: char| c.is_ascii_control(), "?");
    format!("'{shown}'")
}

fn counted(values: usize) -> String {
    match values {
        1 => "1 value".to_string(),
        0..=600 => format!("{values} values"),
        _ => "more than 600 values".to_string(),
    }
}

/// The whole number that a word is in its one spelling. Where 32 bits have no room for it, it is the
/// nearest that they have.
fn number(word: &str) -> Option<i32> {
    let (negative, digits) = match word.strip_prefix('-') {
        Some(digits) => (true, digits),
        None => (false, word),
    };
    let digits_alone = digits.chars().all(|digit| digit.is_ascii_digit());
    let zero_first = digits.starts_with('0') && (negative || digits != "0");
    if digits.is_empty() || !digits_alone || zero_first {
        return None;
    }
    let nearest = if negative { i32::MIN } else { i32::MAX };
    Some(word.parse().unwrap_or(nearest))
}

/// The words of a text that are values, up to one too many.
fn words(text: &str) -> Vec<&str> {
    let words = text.split([' ', '\t', '\n', '\r']);
    words.filter(|word| !word.is_empty()).take(601).collect()
}

/// What the command prints, or the fault.
pub fn survey(arguments: &[String], text: &str) -> Result<String, Fault> {
    let is_option = |argument: &String| argument.starts_with("--");
    if !(2..=4).contains(&arguments.len()) || arguments.iter().any(is_option) {
        return Err(Fault::Usage);
    }
    let read = |argument: &String| number(argument).ok_or(Fault::Argument(argument.clone()));
    let numbers: Vec<i32> = arguments.iter().map(read).collect::<Result<_, _>>()?;
    let (lowest, pitch) = (numbers[0], numbers[1]);
    let tolerance = numbers.get(2).copied().unwrap_or(TOLERANCE);
    let method = numbers.get(3).copied().unwrap_or(METHOD);
    match model::refused_opening(&Opening::new(method, 0, 60_000, tolerance)) {
        None => (),
        Some(1) => return Err(Fault::Method),
        Some(_) => return Err(Fault::Tolerance),
    }
    let values = values(text)?;
    let pairs = survey_model::lower_points(lowest, pitch, &values);
    let pairs = pairs.map_err(|refusal| match refusal.number {
        7 => Fault::OutOfRange(refusal.place + 1),
        _ => Fault::Misplaced(values.len(), arguments[0].clone(), arguments[1].clone()),
    })?;
    let sheet = |lower: u32| {
        let (lower, place) = (lower as i32, (lower as i32 - lowest) / pitch);
        let opening = Opening::new(method, lower, lower + pitch, tolerance);
        begun(opening, &values[place as usize..][..2])
    };
    let last = lowest + (values.len() as i32 - 1) * pitch;
    let all = format!("values: {}, from {lowest} to {last}\n", values.len());
    Ok(all + &printed(pitch, &pairs, sheet))
}

/// The values of a text, or the fault of the first word that is none.
fn values(text: &str) -> Result<Vec<i32>, Fault> {
    let words = words(text).into_iter().enumerate();
    let value = |(place, word)| number(word).ok_or(Fault::Word(place + 1, word.to_string()));
    words.map(value).collect()
}

/// The clean sheet of a search with its first two values.
fn begun(opening: Opening, two: &[i32]) -> String {
    let sheet = model::clean(&Book::of(opening, two).search());
    let sheet = sheet.expect("a book holds accepted answers");
    String::from_utf8(sheet).expect("a clean sheet is plain text")
}

/// A line with the number of pairs, and for each of them a line and its sheet.
fn printed(pitch: i32, pairs: &[u32], sheet: impl Fn(u32) -> String) -> String {
    let mut printed = format!("pairs: {}\n", pairs.len());
    for (place, &lower) in pairs.iter().enumerate() {
        let (place, upper) = (place + 1, lower + pitch as u32);
        printed += &format!("pair {place}: {lower} to {upper}\n{}", sheet(lower));
    }
    printed
}
