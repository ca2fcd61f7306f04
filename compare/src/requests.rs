//! Requests of a panel: how they are laid out, and every way in which they can be wrong.

use crate::cases;
use crate::rng::Rng;
use crate::types::REGISTERS;
use std::fmt::{self, Debug};

/// The functions that a search answers.
pub const READ: u8 = 3;
pub const WRITE: u8 = 6;

/// The register that values are written to.
pub const VALUE_ENTRY: u16 = 6;

/// The request that reads all seven registers.
pub const READ_ALL: [u8; 5] = read(0, REGISTERS as u16);

/// The request that reads so many registers from this address on.
pub const fn read(address: u16, quantity: u16) -> [u8; 5] {
    laid_out(READ, address, quantity)
}

/// The request that writes a word to the register at this address.
pub const fn write(address: u16, word: u16) -> [u8; 5] {
    laid_out(WRITE, address, word)
}

/// The request that enters a value, which a word must have room for.
pub fn enter(value: i32) -> [u8; 5] {
    let value = i16::try_from(value).expect("a word has room for the value");
    write(VALUE_ENTRY, value as u16)
}

/// The value that a request enters if it is one of function 06 to register 6.
pub fn entered(request: &[u8]) -> Option<i32> {
    match *request {
        [WRITE, 0, 6, high, low] => Some(i16::from_be_bytes([high, low]).into()),
        _ => None,
    }
}

/// A function and two words, the high byte of each first.
const fn laid_out(function: u8, address: u16, word: u16) -> [u8; 5] {
    let ([a, b], [c, d]) = (address.to_be_bytes(), word.to_be_bytes());
    [function, a, b, c, d]
}

/// Bytes that are shown by pairs of digits where they are printed.
#[derive(Clone, PartialEq, Eq)]
pub struct Bytes(pub Vec<u8>);

impl Debug for Bytes {
    fn fmt(&self, f: &mut fmt::Formatter) -> fmt::Result {
        let pairs: Vec<String> = self.0.iter().map(|byte| format!("{byte:02X}")).collect();
        f.write_str(&pairs.join(" "))
    }
}

/// Quantities at and around the limits of a read and of a byte, a word with a sign, and one without.
pub fn quantities() -> Vec<u16> {
    let around = [
        0..=130,
        254..=258,
        511..=513,
        32_767..=32_769,
        65_529..=65_535,
    ];
    with_exchanged(around.into_iter().flatten())
}

/// Addresses at and around the same limits.
pub fn addresses() -> Vec<u16> {
    let around = [0..=10, 255..=257, 32_767..=32_769, 65_528..=65_535];
    with_exchanged(around.into_iter().flatten())
}

/// Words at and around the limits of a value: 0, 10,000 and −10,000, and the limits of a byte and of
/// a word with a sign.
pub fn words() -> Vec<u16> {
    let around: [(i32, i32); 8] = [
        (-2, 2),
        (126, 130),
        (254, 258),
        (9_998, 10_002),
        (-10_002, -9_998),
        (-258, -254),
        (32_766, 32_767),
        (-32_768, -32_766),
    ];
    let values = around.into_iter().flat_map(|(low, high)| low..=high);
    with_exchanged(values.map(|value| value as u16))
}

/// These and the same with their bytes exchanged, each once.
fn with_exchanged(words: impl Iterator<Item = u16>) -> Vec<u16> {
    let both = words.flat_map(|word| [word, word.swap_bytes()]);
    let mut list: Vec<u16> = both.collect();
    list.sort_unstable();
    list.dedup();
    list
}

/// A read that is answered.
pub fn proper_read(rng: &mut Rng) -> [u8; 5] {
    let address = rng.below(REGISTERS);
    let quantity = 1 + rng.below(REGISTERS - address);
    read(address as u16, quantity as u16)
}

/// Where quantities, addresses and words come to a limit.
const QUANTITY_LIMITS: [u16; 6] = [0, 7, 125, 256, 32_768, 65_535];
const ADDRESS_LIMITS: [u16; 4] = [0, 6, 256, 65_535];
const WORD_LIMITS: [u16; 5] = [0, 10_000, 32_768, 55_536, 256];

/// A word at or around one of these; now and then with its bytes exchanged, or any word.
fn around(limits: &[u16], rng: &mut Rng) -> u16 {
    let near = rng.between(-3, 3) as u16;
    let word = rng.pick(limits).wrapping_add(near);
    match rng.below(8) {
        0 => word.swap_bytes(),
        1 => rng.bits() as u16,
        _ => word,
    }
}

/// A request of five bytes, of function 03 or 06, whose words are any: often right, often at a limit.
fn of_five_bytes(rng: &mut Rng) -> [u8; 5] {
    match rng.below(8) {
        0 | 1 => proper_read(rng),
        2 => limits_of_reads(rng),
        3 => read(rng.below(8) as u16, 1 + rng.below(8) as u16),
        4 => limits_of_writes(rng),
        5 => limits_of_values(rng),
        _ => enter(value(rng)),
    }
}

fn limits_of_reads(rng: &mut Rng) -> [u8; 5] {
    read(around(&ADDRESS_LIMITS, rng), around(&QUANTITY_LIMITS, rng))
}

fn limits_of_writes(rng: &mut Rng) -> [u8; 5] {
    write(around(&ADDRESS_LIMITS, rng), around(&WORD_LIMITS, rng))
}

fn limits_of_values(rng: &mut Rng) -> [u8; 5] {
    write(VALUE_ENTRY, around(&WORD_LIMITS, rng))
}

/// A value that a word has room for, mostly in range.
fn value(rng: &mut Rng) -> i32 {
    cases::any_value(rng).clamp(i16::MIN.into(), i16::MAX.into())
}

/// A request in which mostly something is wrong: no byte, any bytes, another function, a wrong length,
/// a quantity, an address or a value out of range.
pub fn mistake(rng: &mut Rng) -> Vec<u8> {
    let mut request = of_five_bytes(rng).to_vec();
    match rng.below(8) {
        0 => request.clear(),
        1 => request = some_bytes(12, rng),
        2 => request[0] = rng.bits() as u8,
        3 => request.truncate(1 + rng.below(4)),
        4 => request.extend(some_bytes(4, rng)),
        5 => request = limits_of_reads(rng).to_vec(),
        6 => request = limits_of_writes(rng).to_vec(),
        _ => request = limits_of_values(rng).to_vec(),
    }
    request
}

/// Any bytes, from 1 to so many.
fn some_bytes(most: usize, rng: &mut Rng) -> Vec<u8> {
    let length = 1 + rng.below(most);
    rng.bytes(length)
}

/// A request of any kind.
pub fn any(rng: &mut Rng) -> Vec<u8> {
    match rng.below(3) {
        0 => mistake(rng),
        _ => of_five_bytes(rng).to_vec(),
    }
}
