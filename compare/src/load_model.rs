//! The model of the trial load, from request 2026-11 and the model of single searches, and from
//! nothing else. Plain like it: the draws are an endless list, whose first four give the opening and
//! all others a value each, and the trial book takes the values until it stops.

use crate::model::Book;
use crate::types::{Answered, Opening, Report};
use std::iter;

/// The generator of Park and Miller: each draw is 16,807 times the last, modulo 2,147,483,647.
pub fn draw(last: u32) -> u32 {
    (16_807 * u64::from(last) % 2_147_483_647) as u32
}

/// The draws from a seed, which is itself none.
pub fn draws(seed: u32) -> impl Iterator<Item = u32> {
    iter::successors(Some(draw(seed)), |&last| Some(draw(last)))
}

/// The opening that the first four draws give. p is 0.
pub fn opening(draws: [u32; 4]) -> Opening {
    let x0 = draws[0] % 60_001;
    let x1 = match draws[1] % 60_001 {
        x1 if x1 == x0 => (x0 + 1) % 60_001,
        x1 => x1,
    };
    let tolerance = 1 + draws[2] % 5_000;
    let method = 1 + draws[3] % 2;
    Opening::new(method as i32, x0 as i32, x1 as i32, tolerance as i32)
}

/// The value that a draw gives after these. A second one of the first's strict sign is negated.
fn value(draw: u32, before: &[i32]) -> i32 {
    let value = (draw % 20_001) as i32 - 10_000;
    match *before {
        [first] if first > 0 && value > 0 => -value,
        [first] if first < 0 && value < 0 => -value,
        _ => value,
    }
}

/// The load of a seed: its search, and the report on it. Refusal 20 is checked before anything is
/// drawn.
pub fn load(seed: u32) -> Answered {
    if !(1..=2_147_483_646).contains(&seed) {
        return Answered::refuse(20);
    }
    let mut draws = draws(seed);
    let mut next = || draws.next().expect("the draws have no end");
    let mut book = Book::new(opening([next(), next(), next(), next()]));
    let mut report = book.report();
    while report.kind == Report::NEXT {
        let value = value(next(), &book.values());
        report = book.offer(report.point as i32, value);
    }
    Answered {
        report,
        search: book.search(),
    }
}
