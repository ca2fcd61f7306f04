//! The model of the panel, from request 2026-09, the layout of the Modbus Application Protocol and
//! the model of single searches, and from nothing else. Plain like it: what becomes of a request is
//! judged first, check by check in the request's order; then the reply is made as a list of bytes,
//! and copied.

use crate::model;
use crate::types::{Report, Search, Written};

/// What becomes of a request.
#[derive(Clone, Copy, Debug, PartialEq, Eq)]
pub enum Outcome {
    /// Refusal 18: the lent reply buffer is shorter than 16 bytes.
    BufferTooShort,
    /// An empty request gets an empty reply.
    Empty,
    /// Exception 04: the held search is itself refused.
    SearchRefused,
    /// Exception 01: the function is another than 03 and 06.
    AnotherFunction,
    /// Exception 03: the length is wrong.
    WrongLength,
    /// Exception 03: the quantity is outside 1 to 125.
    WrongQuantity,
    /// Exception 02: a read goes past register 6.
    ReadPast,
    /// Exception 02: a write is to another register than 6.
    WriteElsewhere,
    /// Exception 03: the search refuses the value.
    ValueRefused,
    /// So many registers are read from this address on.
    Read { address: usize, quantity: usize },
    /// This value is entered for this point, the one called for.
    Entry { point: i32, value: i32 },
}

/// What becomes of a request to a held search, with so many bytes for the reply. The first check that
/// applies decides.
pub fn outcome(search: &Search, request: &[u8], size: usize) -> Outcome {
    if size < 16 {
        return Outcome::BufferTooShort;
    }
    let Some((function, rest)) = request.split_first() else {
        return Outcome::Empty;
    };
    if model::ask(search).kind == Report::REFUSED {
        return Outcome::SearchRefused;
    }
    match function {
        3 => of_read(rest),
        6 => of_write(search, rest),
        _ => Outcome::AnotherFunction,
    }
}

/// A word of two bytes: the high one comes first.
fn word(high: u8, low: u8) -> i32 {
    256 * i32::from(high) + i32::from(low)
}

/// Function 03, without its first byte: an address and a quantity.
fn of_read(rest: &[u8]) -> Outcome {
    let &[a, b, c, d] = rest else {
        return Outcome::WrongLength;
    };
    let (address, quantity) = (word(a, b), word(c, d));
    if !(1..=125).contains(&quantity) {
        return Outcome::WrongQuantity;
    }
    if address + quantity - 1 > 6 {
        return Outcome::ReadPast;
    }
    Outcome::Read {
        address: address as usize,
        quantity: quantity as usize,
    }
}

/// Function 06, without its first byte: an address and a value.
fn of_write(search: &Search, rest: &[u8]) -> Outcome {
    let &[a, b, c, d] = rest else {
        return Outcome::WrongLength;
    };
    if word(a, b) != 6 {
        return Outcome::WriteElsewhere;
    }
    let value = twos_complement(word(c, d));
    // After the stop no point is called for, and every value is refused.
    let point = model::ask(search).point as i32;
    let mut tried = *search;
    if model::enter(&mut tried, point, value).kind == Report::REFUSED {
        return Outcome::ValueRefused;
    }
    Outcome::Entry { point, value }
}

/// The number that a word stands for in two's complement.
fn twos_complement(word: i32) -> i32 {
    if word < 32_768 {
        word
    } else {
        word - 65_536
    }
}

/// Registers 0 to 6 of a search that is not refused: flags, point called for, lower, upper, better,
/// answers taken, value entry.
fn registers(search: &Search) -> [u32; 7] {
    let report = model::ask(search);
    let taken = report.taken;
    match report.kind {
        Report::NEXT => [1, report.point, 0, 0, 0, taken, 0],
        _ => [2, 0, report.lower, report.upper, report.better, taken, 0],
    }
}

/// The reply to a read: the function, the number of bytes that follow, and the registers, the high
/// byte of each first.
fn read_reply(search: &Search, address: usize, quantity: usize) -> Vec<u8> {
    let mut reply = vec![3, (2 * quantity) as u8];
    for register in &registers(search)[address..address + quantity] {
        reply.push((register / 256) as u8);
        reply.push((register % 256) as u8);
    }
    reply
}

/// The reply of an exception: the function with its top bit set, and the exception's number.
fn exception(request: &[u8], number: u8) -> Vec<u8> {
    vec![request[0] | 128, number]
}

/// A request answered from the host's own search. The reply stands at the beginning of its buffer, and
/// the bytes past it stay.
pub fn panel(search: &mut Search, request: &[u8], buffer: &mut [u8]) -> Written {
    let reply = match outcome(search, request, buffer.len()) {
        Outcome::BufferTooShort => return Written::refuse(18, 0),
        Outcome::Empty => vec![],
        Outcome::SearchRefused => exception(request, 4),
        Outcome::AnotherFunction => exception(request, 1),
        Outcome::WrongLength | Outcome::WrongQuantity => exception(request, 3),
        Outcome::ReadPast | Outcome::WriteElsewhere => exception(request, 2),
        Outcome::ValueRefused => exception(request, 3),
        Outcome::Read { address, quantity } => read_reply(search, address, quantity),
        Outcome::Entry { point, value } => {
            model::enter(search, point, value);
            request.to_vec()
        }
    };
    buffer[..reply.len()].copy_from_slice(&reply);
    Written::bytes(reply.len() as u32)
}
