//! Trial sheets: how they are written, and every way in which a file can be damaged.

use crate::cases;
use crate::model::{self, Reading};
use crate::rng::Rng;
use crate::types::{Opening, SLOTS};
use std::fmt::{self, Debug};

/// A record with its ending.
type Record = Vec<u8>;

/// The sheet of an opening and answers, in the plainest spelling.
pub fn write(opening: &Opening, answers: &[(i32, i32)]) -> Vec<u8> {
    records(opening, answers, false, &mut |n| n.to_string()).concat()
}

/// The same in some spelling that the reader takes: leading zeros, −0, quotes, a share of 0 as a fifth
/// field, and no CR LF at the end.
pub fn write_spelt(opening: &Opening, answers: &[(i32, i32)], rng: &mut Rng) -> Vec<u8> {
    joined(&spelt(opening, answers, rng), rng)
}

/// Each record with its CR LF.
fn spelt(opening: &Opening, answers: &[(i32, i32)], rng: &mut Rng) -> Vec<Record> {
    // no field between quotes, some, or all
    let bare = rng.below(3);
    let share_of_0 = rng.once_in(2);
    records(opening, answers, share_of_0, &mut |n| match spell(n, rng) {
        field if bare == 0 || (bare == 1 && rng.once_in(2)) => field,
        field => format!("\"{field}\""),
    })
}

/// The records one after the other, the last with its CR LF or without.
fn joined(sheet: &[Record], rng: &mut Rng) -> Vec<u8> {
    let mut text = sheet.concat();
    if rng.once_in(2) && text.ends_with(b"\r\n") {
        text.truncate(text.len() - 2);
    }
    text
}

/// A share of 0 is a field of its own only if `share_of_0` says so.
fn records(
    opening: &Opening,
    answers: &[(i32, i32)],
    share_of_0: bool,
    spell: &mut impl FnMut(i32) -> String,
) -> Vec<Record> {
    let Opening {
        method,
        first,
        second,
        tolerance,
        share,
    } = *opening;
    let mut rows = vec![vec![method, first, second, tolerance]];
    if share_of_0 || share != 0 {
        rows[0].push(share);
    }
    rows.extend(answers.iter().map(|&(point, value)| vec![point, value]));
    let mut record = |row: &Vec<i32>| {
        let fields: Vec<String> = row.iter().map(|&n| spell(n)).collect();
        (fields.join(",") + "\r\n").into_bytes()
    };
    rows.iter().map(&mut record).collect()
}

/// A number with up to 5 digits, now and then with leading zeros or as −0.
fn spell(n: i32, rng: &mut Rng) -> String {
    let minus = n < 0 || (n == 0 && rng.once_in(4));
    let width = if rng.once_in(4) { rng.below(6) } else { 0 };
    let sign = if minus { "-" } else { "" };
    format!("{sign}{:0width$}", n.unsigned_abs())
}

/// A text for the eye: odd bytes as escapes, and a new line after each CR LF.
pub fn show(text: &[u8]) -> String {
    text.escape_ascii().to_string().replace(r"\r\n", "\\r\\n\n")
}

/// Bytes that are shown so where they are printed.
#[derive(Clone, PartialEq, Eq)]
pub struct Text(pub Vec<u8>);

impl Debug for Text {
    fn fmt(&self, f: &mut fmt::Formatter) -> fmt::Result {
        f.write_str(&show(&self.0))
    }
}

/// A text of any kind: whole, damaged, too long, with too many records, or not a sheet at all.
pub fn any_text(rng: &mut Rng) -> Vec<u8> {
    any_text_of(cases::any_opening(rng), model::TODAY, rng)
}

/// Such a text with this opening, asked by this reading of its method.
pub fn any_text_of(opening: Opening, reading: Reading, rng: &mut Rng) -> Vec<u8> {
    let mut sheet = any_records(opening, reading, rng);
    match rng.below(16) {
        0 => return sized(&sheet.concat(), rng),
        1 => return counted(sheet, rng),
        2 => return soup(rng),
        3..=6 => return joined(&sheet, rng),
        7..=11 => damage_record(&mut sheet, rng),
        _ => (),
    }
    let mut text = joined(&sheet, rng);
    for _ in 0..rng.below(3) {
        damage_bytes(&mut text, rng);
    }
    text
}

/// A sheet in good form. Its opening or one of its answers may be one to refuse.
fn any_records(opening: Opening, reading: Reading, rng: &mut Rng) -> Vec<Record> {
    if model::refused_opening(&opening).is_some() {
        let answers = [(0, cases::any_value(rng)), (100, cases::any_value(rng))];
        return spelt(&opening, &answers[..rng.below(3)], rng);
    }
    let mut answers = cases::to_its_stop(reading.book(opening), rng).pairs();
    if rng.once_in(4) {
        answers.truncate(rng.below(answers.len()));
    }
    if rng.once_in(4) && !answers.is_empty() {
        let at = rng.below(answers.len());
        let (point, value) = &mut answers[at];
        match rng.below(3) {
            0 => *point = cases::any_point(&opening, *point, rng),
            1 => *value = rng.pick(&[10_001, -10_001, 99_999, -99_999]),
            _ => *value = -*value,
        }
    }
    spelt(&opening, &answers, rng)
}

/// A text of 4,096 bytes or about that: too many records, one long record, or any bytes.
fn sized(start: &[u8], rng: &mut Rng) -> Vec<u8> {
    let length = rng.pick(&[4_095, 4_096, 4_097, 4_098, 9_000]);
    let fill: &[u8] = rng.pick(&[b"0,0\r\n", b"0", b",", b"\r", b"\n", b"\r\n", b"\xff"]);
    let bytes = start.iter().chain(fill.iter().cycle());
    bytes.copied().take(length).collect()
}

/// A sheet with one answer record fewer than a search has slots, up to three more than it has. One may
/// be out of form.
fn counted(mut sheet: Vec<Record>, rng: &mut Rng) -> Vec<u8> {
    let answers = SLOTS - 1 + rng.below(5);
    sheet.resize(1 + answers, b"7,-7\r\n".to_vec());
    if rng.once_in(2) {
        let back = rng.below(5);
        let odd = rng.pick(&[&b"7,-7"[..], b"\r\n", b"7\r\n", b"7,-7,7\r\n"]);
        sheet[answers - back] = odd.to_vec();
    }
    sheet.concat()
}

/// A byte of each kind that a sheet is made of, two digits, and the one that no sheet has.
pub const BYTES: [u8; 8] = *b"05-,\"\r\n\0";

/// One of the texts of so many of these bytes.
pub fn ending(which: usize, length: u32) -> Vec<u8> {
    let digit = |place| which / BYTES.len().pow(place) % BYTES.len();
    (0..length).map(|place| BYTES[digit(place)]).collect()
}

/// Any bytes, mostly those of which sheets are made.
fn soup(rng: &mut Rng) -> Vec<u8> {
    let length = rng.pick(&[0, 1, 2, 3, 5, 10, 30, 100]);
    (0..length).map(|_| any_byte(rng)).collect()
}

fn any_byte(rng: &mut Rng) -> u8 {
    match rng.below(8) {
        0 => rng.bits() as u8,
        1 => 128 | rng.bits() as u8,
        _ => rng.pick(b"0123456789,,,--\r\r\n\n \"+.\t\0"),
    }
}

/// Drops, doubles, swaps or cuts a record, or does damage to its ending or one of its fields.
fn damage_record(sheet: &mut Vec<Record>, rng: &mut Rng) {
    let (at, other) = (rng.below(sheet.len()), rng.below(sheet.len()));
    match rng.below(8) {
        0 => drop(sheet.remove(at)),
        1 => sheet.insert(at, sheet[at].clone()),
        2 => sheet.swap(at, other),
        3 => {
            let length = rng.below(sheet[at].len());
            sheet[at].truncate(length);
        }
        4 | 5 => {
            let length = sheet[at].len() - 2;
            sheet[at].truncate(length);
            sheet[at].extend(rng.pick(&ENDINGS));
        }
        _ => damage_field(&mut sheet[at], rng),
    }
}

/// Endings of a record. Only the last makes a further record, which is empty but for its ending.
const ENDINGS: [&[u8]; 9] = [
    b"",
    b"\r",
    b"\n",
    b"\n\r",
    b"\r\r\n",
    b"\n\r\n",
    b" \r\n",
    b",\r\n",
    b"\r\n\r\n",
];

/// Fields out of form, and a few that are odd but in form.
pub const FIELDS: [&[u8]; 34] = [
    b"",
    b"-",
    b"--1",
    b"+1",
    b" 1",
    b"1 ",
    b"\"1\"",
    b"\"-1\"",
    b"\"00001\"",
    b"\"",
    b"\"\"",
    b"\"10",
    b"10\"",
    b"\"-\"",
    b"-\"1\"",
    b"\"1\"2",
    b"\"\"1\"\"",
    b"\" 1\"",
    b"\"1,2\"",
    b"\"000001\"",
    b"1-",
    b"1.0",
    b"1e3",
    b"0x1",
    b"123456",
    b"000001",
    b"-000001",
    b"1,1",
    b",",
    b"\xb5",
    b"\xe2\x88\x921",
    b"-0",
    b"-00000",
    b"00000",
];

/// Puts something else in the place of a field, leaves a field out, or adds up to three.
fn damage_field(record: &mut Record, rng: &mut Rng) {
    let line = &record[..record.len() - 2];
    let mut fields: Vec<&[u8]> = line.split(|&byte| byte == b',').collect();
    let at = rng.below(fields.len());
    match rng.below(6) {
        0 => drop(fields.remove(at)),
        1 => fields.push(rng.pick(&FIELDS)),
        2 => {
            let field: &[u8] = rng.pick(&[b"0", b"7", b"100", b"101"]);
            fields.extend([field; 3].iter().take(1 + rng.below(3)));
        }
        _ => fields[at] = rng.pick(&FIELDS),
    }
    *record = [&fields.join(&b','), &b"\r\n"[..]].concat();
}

/// Flips a bit, writes over, drops or inserts a byte, or cuts or lengthens the text.
fn damage_bytes(text: &mut Vec<u8>, rng: &mut Rng) {
    let at = rng.below(text.len() + 1);
    let inside = at < text.len();
    match rng.below(8) {
        0 if inside => text[at] ^= 1 << rng.below(8),
        1 if inside => text[at] = any_byte(rng),
        2 if inside => drop(text.remove(at)),
        3 => text.truncate(at),
        4 => text.truncate(text.len().saturating_sub(1 + rng.below(2))),
        5 => text.extend(rng.pick(&[&b"\r"[..], b"\n", b"\r\n", b" ", b"0,0", b"\0"])),
        _ => text.insert(at, any_byte(rng)),
    }
}
