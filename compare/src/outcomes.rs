//! Runs of outcomes: how they are laid out, and of every kind that a host may lend.

use crate::rng::Rng;
use crate::types::{Outcome, SLOTS};

/// Kinds from 2 on, methods from 3 on, and answers and quotes: at and around their own limits, and
/// those of 8 bits and of 16, with a sign and without.
pub const KINDS_REFUSED: [u16; 11] = [
    2, 3, 4, 255, 256, 257, 32_767, 32_768, 32_769, 65_534, 65_535,
];
pub const METHODS_OTHER: [u16; 13] = [
    3, 4, 5, 255, 256, 257, 258, 32_768, 32_769, 32_770, 65_533, 65_534, 65_535,
];
pub const ANSWERS: [u16; 14] = [
    0, 1, 2, 3, 4, 62, 77, 78, 255, 256, 32_767, 32_768, 65_534, 65_535,
];

/// A kind from 2 on.
fn refused_kind(rng: &mut Rng) -> u16 {
    match rng.below(4) {
        0 => (rng.bits() as u16).max(Outcome::REFUSED),
        _ => rng.pick(&KINDS_REFUSED),
    }
}

/// A method from 3 on.
fn other_method(rng: &mut Rng) -> u16 {
    match rng.below(4) {
        0 => (rng.bits() as u16).max(3),
        _ => rng.pick(&METHODS_OTHER),
    }
}

fn any_method(rng: &mut Rng) -> u16 {
    match rng.below(4) {
        3 => other_method(rng),
        method => method as u16,
    }
}

/// Answers or a quote: often at a limit, often such as a search has.
fn any_answers(rng: &mut Rng) -> u16 {
    match rng.below(4) {
        0 => rng.pick(&ANSWERS),
        1 => rng.bits() as u16,
        _ => rng.below(SLOTS + 1) as u16,
    }
}

fn any_outcome(rng: &mut Rng) -> Outcome {
    let kind = match rng.below(3) {
        2 => refused_kind(rng),
        kind => kind as u16,
    };
    let method = any_method(rng);
    Outcome::new(kind, method, any_answers(rng), any_answers(rng))
}

/// A run of so many outcomes: of every kind, all alike, of one method, all refused, or with the
/// highest totals.
pub fn run_of(outcomes: usize, rng: &mut Rng) -> Vec<Outcome> {
    let mut run: Vec<Outcome> = (0..outcomes).map(|_| any_outcome(rng)).collect();
    let one = any_outcome(rng);
    match rng.below(8) {
        0 => run.fill(one),
        1 => run.iter_mut().for_each(|o| o.method = one.method),
        2 => run.iter_mut().for_each(|o| o.kind = refused_kind(rng)),
        3 => return highest_run_of(outcomes, rng),
        _ => (),
    }
    run
}

/// A run of so many outcomes of one method, none of them refused, whose totals are the highest.
pub fn highest_run_of(outcomes: usize, rng: &mut Rng) -> Vec<Outcome> {
    let method = any_method(rng);
    let mut one = || Outcome::new(rng.below(2) as u16, method, u16::MAX, u16::MAX);
    (0..outcomes).map(|_| one()).collect()
}

/// How many outcomes a run has: mostly a few.
pub fn some_outcomes(rng: &mut Rng) -> usize {
    let most = rng.pick(&[8, 16, 32, 100]);
    rng.below(most)
}

/// The run as it is lent.
pub fn numbers(run: &[Outcome]) -> Vec<u16> {
    run.iter().flat_map(|outcome| outcome.numbers()).collect()
}

/// So many numbers of any size.
pub fn any_numbers(length: usize, rng: &mut Rng) -> Vec<u16> {
    (0..length).map(|_| rng.bits() as u16).collect()
}

/// The beginning of a run for the eye, and its length.
pub fn show(numbers: &[u16]) -> String {
    let shown = &numbers[..numbers.len().min(400)];
    format!("a run of {} numbers: {shown:?}", numbers.len())
}

/// Every kind from 2 on is refused.
pub fn is_refused(outcome: &Outcome) -> bool {
    outcome.kind >= Outcome::REFUSED
}

/// An outcome that makes no other report than this one.
pub fn booked_alike(outcome: &Outcome, rng: &mut Rng) -> Outcome {
    let mut other = *outcome;
    if is_refused(outcome) {
        other.kind = refused_kind(rng);
        other.answers = any_answers(rng);
        other.quoted = any_answers(rng);
    }
    if outcome.method >= 3 {
        other.method = other_method(rng);
    }
    other
}
