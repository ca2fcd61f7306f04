//! The model of the dispatcher, from requests 2026-04 and 2026-05 and the model of single searches,
//! and from nothing else. Slow and plain like it: whose turn it is, is found anew in every call, from
//! a list of all the dryers in the order in which they are asked.

use crate::model;
use crate::types::{Answer, Dispatcher, Opening, Report, Search, NOBODY};

/// A dryer's count of served answers remains as it is once this is reached or passed.
const CEILING: u32 = 1_000_000_000;

/// Accepted and unfinished: a point is called for.
fn unfinished(search: &Search) -> bool {
    model::ask(search).kind == Report::NEXT
}

/// All dryers in the order in which they are asked: round from the one after the last served, or
/// from dryer 0 if none was.
fn order(last: u32) -> Vec<u32> {
    match last {
        0..=5 => (last + 1..=5).chain(0..=last).collect(),
        _ => (0..=5).collect(),
    }
}

/// The dryer that has the turn, or nobody.
pub fn turn(dispatcher: &Dispatcher) -> u32 {
    let mut asked = order(dispatcher.last).into_iter();
    let next = asked.find(|&dryer| unfinished(&dispatcher.searches[dryer as usize]));
    next.unwrap_or(NOBODY)
}

/// Refusal 14: the dryer is not 0 to 5.
fn no_dryer(dryer: u32) -> bool {
    !(0..=5).contains(&dryer)
}

/// A fresh search at a dryer, whose count is not cleared. If something is refused, the dispatcher
/// stays as it is.
pub fn open(dispatcher: &mut Dispatcher, dryer: u32, opening: &Opening) -> Report {
    if no_dryer(dryer) {
        return Report::refuse(14, 0);
    }
    let search = &mut dispatcher.searches[dryer as usize];
    if unfinished(search) {
        return Report::refuse(16, 0);
    }
    model::open(search, opening)
}

/// An answer for a dryer, which is counted there. If something is refused, the dispatcher stays as it
/// is.
pub fn enter(dispatcher: &mut Dispatcher, dryer: u32, answer: Answer) -> Report {
    if no_dryer(dryer) {
        return Report::refuse(14, 0);
    }
    if turn(dispatcher) != dryer {
        return Report::refuse(15, 0);
    }
    let search = &mut dispatcher.searches[dryer as usize];
    let report = model::enter(search, answer.point, answer.value);
    if report.kind != Report::REFUSED {
        dispatcher.last = dryer;
        let count = &mut dispatcher.counts[dryer as usize];
        *count = counted(*count);
    }
    report
}

/// A dryer's count after one more answer served there.
fn counted(count: u32) -> u32 {
    if count >= CEILING {
        count
    } else {
        count + 1
    }
}

/// The report of a dryer.
pub fn ask(dispatcher: &Dispatcher, dryer: u32) -> Report {
    if no_dryer(dryer) {
        return Report::refuse(14, 0);
    }
    model::ask(&dispatcher.searches[dryer as usize])
}
