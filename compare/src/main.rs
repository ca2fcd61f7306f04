//! The comparison: the proved library against the model, from a fixed seed. Each part tells how many
//! cases it tried, of what, and what the library answered. It ends with the number of cases and exit
//! status 0, or with the first mismatch and exit status 1.

#![forbid(unsafe_code)]

use compare::cases::{self, Oven};
use compare::checks::{agree, agree_on_report, list_as_sheet, search_as_sheet, Checked, Tally};
use compare::clean::clean_sheets;
use compare::limits::limits;
use compare::model::{self, Book};
use compare::oven::dispatchers;
use compare::rng::Rng;
use compare::types::{Opening, Report, Search};
use compare::{
    beam, ffi, load, old_default, panel, panel_runs, season, season_sheets, shares, sheets, survey,
    survey_refusals,
};
use std::process::ExitCode;
use std::time::Instant;

const SEED: u64 = 1975;
const LISTS: usize = 500_000;
const RUNS: usize = 250_000;
const HELD: usize = 250_000;
const SHEETS: usize = 600_000;

/// The longest of the ends of a sheet that are all tried.
const ENDING: u32 = 7;

/// The states that the beam keeps for a search that is not the widest, and how many such there are.
const NARROW: usize = 20;
const NARROW_SEARCHES: usize = 60;

/// How often each of the widest search's orders is left on the way and answered otherwise.
const BRANCHES: usize = 10;

/// A part of the comparison.
type Part = fn(&mut Rng, &mut Tally) -> Checked;

fn main() -> ExitCode {
    println!("compare: seed {SEED}; what answers is {}", ffi::WHO);
    if ffi::version() != ffi::VERSION {
        println!(
            "compare: the library's interface is of version {}",
            ffi::version()
        );
        return ExitCode::FAILURE;
    }
    match compare(&mut Rng::new(SEED)) {
        Ok(cases) => {
            println!("compare: {cases} cases, 0 mismatches");
            ExitCode::SUCCESS
        }
        Err(mismatch) => {
            println!("{mismatch}");
            println!("compare: a mismatch; the cases after it were not tried");
            ExitCode::FAILURE
        }
    }
}

/// The parts, in their order.
fn parts() -> [(&'static str, Part); 26] {
    [
        ("lists of values", lists),
        ("runs of the trial book, from a fresh search", runs),
        ("calls in a row on searches that hold anything", held),
        ("sheets", any_sheets),
        ("sheets that end in every short way", every_ending),
        ("orders of values that make searches long", long_orders),
        ("quotes", quotes),
        ("searches with numbers at and around the limits", limits),
        ("clean sheets, into buffers of many lengths", clean_sheets),
        ("calls on dispatchers, one after the other", dispatchers),
        ("openings of every share, right and wrong", shares::openings),
        (
            "pairs of answers at the edges of the tolerance",
            shares::pairs,
        ),
        ("runs with a share", shares::runs),
        ("sheets with fields too many, or a share", shares::records),
        ("clean sheets with a share and without", shares::round_trips),
        ("old searches changed over", old_default::searches),
        ("old sheets, made new", old_default::texts),
        ("openings with the house default", old_default::house),
        ("requests to the panel", panel::requests),
        ("requests to the panel, in runs", panel_runs::runs),
        ("runs of outcomes", season::runs),
        (
            "outcomes of sheets, and seasons",
            season_sheets::sheet_outcomes,
        ),
        ("draws", load::draws),
        ("trial loads of seeds", load::loads),
        ("surveys, into lists of many lengths", survey::surveys),
        ("surveys with something wrong", survey_refusals::refusals),
    ]
}

/// All parts in turn, and the number of cases.
fn compare(rng: &mut Rng) -> Result<u64, String> {
    let mut cases = 0;
    for (name, part) in parts() {
        let start = Instant::now();
        let mut tally = Tally::default();
        part(rng, &mut tally)?;
        let seconds = start.elapsed().as_secs_f32();
        println!("{} {name} ({seconds:.1} s); {tally}", tally.cases);
        cases += tally.cases;
    }
    Ok(cases)
}

/// A call on a held search.
#[derive(Clone, Copy, Debug)]
enum Call {
    Open(Opening),
    Ask,
    Enter(i32, i32),
}

/// A held search as a sheet, then whole; and the call on it.
fn search_and_call(search: &Search, call: Call) -> String {
    format!("{}\ncall: {call:?}", search_as_sheet(search))
}

/// The search over lists of values.
fn lists(rng: &mut Rng, tally: &mut Tally) -> Checked {
    for _ in 0..LISTS {
        let (opening, values) = cases::any_list(rng);
        list_agrees(&opening, &values, tally)?;
        tally.cases += 1;
    }
    Ok(())
}

fn list_agrees(opening: &Opening, values: &[i32], tally: &mut Tally) -> Checked {
    let reports = (model::values(opening, values), ffi::values(opening, values));
    agree_on_report(opening, reports, tally, || list_as_sheet(opening, values))
}

/// Runs of calls as the trial book speaks of them.
fn runs(rng: &mut Rng, tally: &mut Tally) -> Checked {
    for _ in 0..RUNS {
        run_agrees(rng, tally)?;
        tally.cases += 1;
    }
    Ok(())
}

/// One run, with every call's report and the whole search after it. Now and then an opening that is
/// refused is offered to the search on its way, and changes nothing.
fn run_agrees(rng: &mut Rng, tally: &mut Tally) -> Checked {
    let mut book = Book::new(cases::accepted_opening(rng));
    let oven = Oven::new(book.opening(), rng);
    let mut search = cases::any_search(rng);
    let before = search;
    let opened = ffi::open(&mut search, book.opening());
    let input = || search_and_call(&before, Call::Open(*book.opening()));
    search_agrees(&book, opened, &search, tally, input)?;
    let mut calls_after_stop = rng.below(4);
    while !rng.once_in(64) {
        let (point, value) = match book.called() {
            Some(called) => offer(&book, &oven, called, rng),
            None if calls_after_stop == 0 => break,
            None => {
                calls_after_stop -= 1;
                (cases::point(rng), cases::any_value(rng))
            }
        };
        call_agrees(&mut book, &mut search, (point, value), tally)?;
        if rng.once_in(16) {
            refused_opening_agrees(&book, &mut search, rng, tally)?;
        }
    }
    ends_agree(&book, rng, tally)
}

/// A refused opening offered to a search on its way: the refusal is the model's, and the search stays
/// the book's.
fn refused_opening_agrees(
    book: &Book,
    search: &mut Search,
    rng: &mut Rng,
    tally: &mut Tally,
) -> Checked {
    let before = *search;
    let opening = cases::refused_opening(rng);
    let input = || search_and_call(&before, Call::Open(opening));
    let mut model = book.search();
    let reports = (
        model::open(&mut model, &opening),
        ffi::open(search, &opening),
    );
    agree(reports.0, reports.1, input)?;
    tally.count(&reports.1);
    search_agrees(book, ffi::ask(search), search, tally, input)
}

/// An answer to offer: mostly the one called for.
fn offer(book: &Book, oven: &Oven, called: i32, rng: &mut Rng) -> (i32, i32) {
    let value = oven.value(book, called, rng);
    match rng.below(16) {
        0 => (cases::any_point(book.opening(), called, rng), value),
        1 => (called, cases::any_value(rng)),
        2 => {
            let point = cases::any_point(book.opening(), called, rng);
            (point, cases::any_value(rng))
        }
        _ => (called, value),
    }
}

/// One call of a run.
fn call_agrees(
    book: &mut Book,
    search: &mut Search,
    (point, value): (i32, i32),
    tally: &mut Tally,
) -> Checked {
    let before = *search;
    let input = || search_and_call(&before, Call::Enter(point, value));
    let answered = ffi::entered(before, point, value);
    let reports = (book.offer(point, value), ffi::enter(search, point, value));
    agree_on_report(book.opening(), reports, tally, input)?;
    agree(
        (reports.0, book.search()),
        (answered.report, answered.search),
        input,
    )?;
    search_agrees(book, ffi::ask(search), search, tally, input)
}

/// The search and its report, after the call that `input` tells of, are the book's.
fn search_agrees(
    book: &Book,
    report: Report,
    search: &Search,
    tally: &mut Tally,
    input: impl Fn() -> String,
) -> Checked {
    agree(book.search(), *search, &input)?;
    agree_on_report(book.opening(), (book.report(), report), tally, input)
}

/// The list of the book's values and a sheet of its answers get the book's report.
fn ends_agree(book: &Book, rng: &mut Rng, tally: &mut Tally) -> Checked {
    let (opening, values) = (book.opening(), book.values());
    let reports = (book.report(), ffi::values(opening, &values));
    agree_on_report(opening, reports, tally, || list_as_sheet(opening, &values))?;
    let text = sheets::write_spelt(opening, &book.pairs(), rng);
    let reports = (book.report(), ffi::sheet(&text));
    agree_on_report(opening, reports, tally, || sheets::show(&text))
}

/// Searches that hold anything.
fn held(rng: &mut Rng, tally: &mut Tally) -> Checked {
    for _ in 0..HELD {
        held_agrees(rng, tally)?;
        tally.cases += 1;
    }
    Ok(())
}

/// A few calls on a search that holds anything, each on the model's copy and on the library's, with
/// its report, the whole search after it, and that search's report.
fn held_agrees(rng: &mut Rng, tally: &mut Tally) -> Checked {
    let mut model = cases::any_search(rng);
    let mut library = model;
    for _ in 0..1 + rng.below(5) {
        let before = model;
        let call = any_call(&model, rng);
        let reports = match call {
            Call::Open(opening) => (
                model::open(&mut model, &opening),
                ffi::open(&mut library, &opening),
            ),
            Call::Ask => (model::ask(&model), ffi::ask(&library)),
            Call::Enter(point, value) => (
                model::enter(&mut model, point, value),
                ffi::enter(&mut library, point, value),
            ),
        };
        let input = || search_and_call(&before, call);
        agree_on_report(&model.opening, reports, tally, input)?;
        agree(model, library, input)?;
        if let Call::Enter(point, value) = call {
            let answered = ffi::entered(before, point, value);
            agree(
                (reports.0, model),
                (answered.report, answered.search),
                input,
            )?;
        }
        let reports = (model::ask(&model), ffi::ask(&library));
        let input = || search_and_call(&model, Call::Ask);
        agree_on_report(&model.opening, reports, tally, input)?;
    }
    Ok(())
}

/// A call for a search that holds anything: mostly an answer, and that mostly at the point called
/// for.
fn any_call(search: &Search, rng: &mut Rng) -> Call {
    match rng.below(8) {
        0 => return Call::Open(cases::any_opening(rng)),
        1 => return Call::Ask,
        _ => (),
    }
    let report = model::ask(search);
    let called = match report.kind {
        Report::NEXT => report.point as i32,
        _ => 0,
    };
    let point = match rng.below(8) {
        0 => cases::any_point(&search.opening, called, rng),
        _ => called,
    };
    Call::Enter(point, cases::any_value(rng))
}

/// Sheets, whole and damaged.
fn any_sheets(rng: &mut Rng, tally: &mut Tally) -> Checked {
    for _ in 0..SHEETS {
        sheet_agrees(&sheets::any_text(rng), tally)?;
    }
    Ok(())
}

/// The last field of an opening, with a share and without, and of an answer, and what may stand after
/// it: every text of up to `ENDING` bytes of those that sheets are made of.
fn every_ending(_: &mut Rng, tally: &mut Tally) -> Checked {
    for start in [&b"1,0,100,"[..], b"1,0,100,1,", b"1,0,100,1\r\n0,"] {
        for length in 0..=ENDING {
            for which in 0..sheets::BYTES.len().pow(length) {
                sheet_agrees(&[start, &sheets::ending(which, length)].concat(), tally)?;
            }
        }
    }
    Ok(())
}

fn sheet_agrees(text: &[u8], tally: &mut Tally) -> Checked {
    let (model, library) = (model::sheet(text), ffi::sheet(text));
    agree(model, library, || sheets::show(text))?;
    tally.count(&library);
    tally.cases += 1;
    Ok(())
}

/// Orders of values that make searches long.
fn long_orders(rng: &mut Rng, tally: &mut Tally) -> Checked {
    for (name, method) in [("M", 1), ("R", 2)] {
        let opening = cases::widest(method);
        let orders = beam::longest(&opening, beam::WIDE, rng);
        orders_agree(&opening, &orders, tally)?;
        branches_agree(&opening, &orders, rng, tally)?;
        let most = model::quote(&opening).most;
        let longest = &orders[0];
        println!(
            "longest search by {name} found: {} answers, the bound is {most}: {longest:?}",
            longest.len()
        );
    }
    for _ in 0..NARROW_SEARCHES {
        let opening = cases::accepted_opening(rng);
        let orders = beam::longest(&opening, NARROW, rng);
        orders_agree(&opening, &orders, tally)?;
    }
    Ok(())
}

/// Each order as a run of calls, and as lists of 1, 2, 3 and so on of its values.
fn orders_agree(opening: &Opening, orders: &[Vec<i32>], tally: &mut Tally) -> Checked {
    for order in orders {
        let mut book = Book::new(*opening);
        let mut search = book.search();
        for (n, &value) in order.iter().enumerate() {
            let called = book.called().expect("no order is longer than its search");
            call_agrees(&mut book, &mut search, (called, value), tally)?;
            list_agrees(opening, &order[..=n], tally)?;
        }
        tally.cases += 1;
    }
    Ok(())
}

/// Each order left at some place, with an oven for the rest of the way.
fn branches_agree(
    opening: &Opening,
    orders: &[Vec<i32>],
    rng: &mut Rng,
    tally: &mut Tally,
) -> Checked {
    for order in orders.iter().flat_map(|order| [order; BRANCHES]) {
        let kept = &order[..rng.below(order.len())];
        let branch = cases::answered_from(*opening, kept, rng);
        list_agrees(opening, &branch.values(), tally)?;
        tally.cases += 1;
    }
    Ok(())
}

/// The quote for every distance by each method and many tolerances, with any share, and for openings
/// of any kind.
fn quotes(rng: &mut Rng, tally: &mut Tally) -> Checked {
    let tolerances = [1, 2, 3, 4, 5, 7, 10, 50, 99, 100, 1_000, 4_999, 5_000];
    for distance in 1..=cases::HIGHEST {
        let low = rng.between(0, cases::HIGHEST - distance);
        let high = low + distance;
        for tolerance in tolerances {
            let share = cases::share(rng);
            for method in 0..=2 {
                let upwards = Opening::new(method, low, high, tolerance);
                let downwards = Opening::new(method, high, low, tolerance);
                quote_agrees(&upwards.with_share(share), tally)?;
                quote_agrees(&downwards.with_share(share), tally)?;
            }
        }
    }
    for _ in 0..100_000 {
        quote_agrees(&cases::any_opening(rng), tally)?;
    }
    Ok(())
}

fn quote_agrees(opening: &Opening, tally: &mut Tally) -> Checked {
    let (model, library) = (model::quote(opening), ffi::quote(opening));
    agree(model, library, || list_as_sheet(opening, &[]))?;
    tally.count_quotation(&library);
    tally.cases += 1;
    Ok(())
}
