//! The house default, which is R since request 2026-08 and was M before: the comparison's parts on
//! old searches and old sheets, which are changed over, and on openings with method 0 today.

use crate::cases;
use crate::checks::{agree, agree_on_report, list_as_sheet, Checked, Kinds, Tally};
use crate::clean::{with_junk, written};
use crate::model::{self, Book, Reading, OLD, TODAY};
use crate::rng::Rng;
use crate::sheets::{self, Text};
use crate::types::{Answer, Dispatcher, Opening, Quotation, Report, Search, DRYERS, SLOTS};
use crate::{beam, ffi};
use std::hint::black_box;

/// How many old searches are tried that hold anything; old books, at each stage of their way; and of
/// the longest orders that the beam finds with so many states, by M and by R each, tried so too.
const HELD: usize = 150_000;
const BOOKS: usize = 8_000;
const LONG: usize = 300;
const ORDERS: usize = 50;

/// How many old texts of any kind, and how many old sheets in a spelling that the reader takes.
const TEXTS: usize = 150_000;
const SPELT: usize = 50_000;

/// How many lists of values with method 0 today, and how many runs to the stop.
const LISTS: usize = 150_000;
const RUNS: usize = 10_000;

/// Old searches and sheets were asked by M under method 0. Some here are asked by R.
const READINGS: [Reading; 3] = [OLD, OLD, TODAY];

/// What the old reading tells of a search or a sheet, and today's beside it.
const BOTH: [&str; 10] = [
    "0 accepted, today alike",
    "0 accepted, today sent to another setting",
    "0 accepted, today another stop or none",
    "0 accepted, today refused",
    "0 refused, today alike",
    "0 refused, today otherwise",
    "0 refused, today accepted",
    "1 accepted",
    "2 accepted",
    "not 0, refused",
];

/// No sheet is of this kind: where both readings take its points, they have the same bracket.
const ANOTHER_STOP: &str = BOTH[2];

/// Which of them it is, by the method.
fn both(method: i32, old: &Report, today: &Report) -> &'static str {
    let refused = |report: &Report| report.kind == Report::REFUSED;
    let place = match (method, refused(old), refused(today)) {
        (0, false, false) if old == today => 0,
        (0, false, false) if (old.kind, today.kind) == (Report::NEXT, Report::NEXT) => 1,
        (0, false, false) => 2,
        (0, false, true) => 3,
        (0, true, true) if old == today => 4,
        (0, true, true) => 5,
        (0, true, false) => 6,
        (1, false, _) => 7,
        (2, false, _) => 8,
        _ => 9,
    };
    BOTH[place]
}

/// What an accepted old search with method 0 is besides.
const ACCEPTED: [&str; 5] = [
    "on its way",
    "stopped",
    "with a share",
    "without",
    "with numbers in its fresh slots",
];

/// What old searches were tried, and what was told of them.
struct Told<'a> {
    tally: &'a mut Tally,
    both: Kinds,
    accepted: Kinds,
}

impl Told<'_> {
    fn new(tally: &mut Tally) -> Told<'_> {
        Told {
            tally,
            both: Kinds::new(&BOTH),
            accepted: Kinds::new(&ACCEPTED),
        }
    }

    /// One more search, as it was held, and what the old reading tells of it.
    fn count(&mut self, search: &Search, old: &Report) {
        let Opening { method, share, .. } = search.opening;
        self.tally.cases += 1;
        self.tally.count(old);
        self.both.count(both(method, old, &model::ask(search)));
        if method == 0 && old.kind != Report::REFUSED {
            let [on_its_way, stopped, shared, without, in_use] = ACCEPTED;
            let going = old.kind == Report::NEXT;
            self.accepted
                .count(if going { on_its_way } else { stopped });
            self.accepted
                .count(if share > 0 { shared } else { without });
            let fresh = &search.slots[search.count as usize..];
            if fresh.iter().any(|&slot| slot != 0) {
                self.accepted.count(in_use);
            }
        }
    }
}

/// Old searches of every kind, changed over.
pub fn searches(rng: &mut Rng, tally: &mut Tally) -> Checked {
    let mut told = Told::new(tally);
    for _ in 0..HELD {
        let opening = cases::old_opening(rng);
        let search = cases::any_search_of(opening, rng.pick(&READINGS), rng);
        search_agrees(&search, &mut told)?;
    }
    for _ in 0..BOOKS {
        let opening = with_method(&cases::accepted_opening(rng), 0);
        let book = cases::to_its_stop(OLD.book(opening), rng);
        stages_agree(&book, rng, &mut told)?;
    }
    for method in [1, 2] {
        let orders = beam::longest(&cases::widest(method), LONG, rng);
        for order in orders.iter().take(ORDERS) {
            for n in 0..=order.len() {
                let search = holding(cases::widest(0), &order[..n]);
                search_agrees(&with_junk(&search, rng), &mut told)?;
            }
        }
    }
    told.both.all_came("old searches")?;
    told.accepted.all_came("old searches, 0 accepted")
}

fn with_method(opening: &Opening, method: i32) -> Opening {
    Opening { method, ..*opening }
}

/// The search that holds these values, accepted or not.
fn holding(opening: Opening, values: &[i32]) -> Search {
    let mut search = Search::fresh(opening);
    search.slots[..values.len()].copy_from_slice(values);
    search.count = values.len() as u32;
    search
}

/// An old book's search after none of its answers, after the first, and so on. Changed over, it takes
/// the next answer as the old book did.
fn stages_agree(book: &Book, rng: &mut Rng, told: &mut Told) -> Checked {
    let (opening, values, pairs) = (*book.opening(), book.values(), book.pairs());
    for n in 0..=values.len() {
        let search = with_junk(&holding(opening, &values[..n]), rng);
        let mut changed = search_agrees(&search, told)?;
        if let Some(&(point, value)) = pairs.get(n) {
            let after = OLD.values(&opening, &values[..=n]);
            let entered = ffi::enter(&mut changed, point, value);
            agree(after, entered, || shown(&search))?;
        }
    }
    Ok(())
}

/// An old search for the eye, with the points of the old reading if it is accepted.
fn shown(search: &Search) -> String {
    let sheet = OLD
        .clean(search)
        .map_or(String::new(), |s| sheets::show(&s));
    format!("an old search, asked by M with 0:\n{sheet}held as {search:?}")
}

/// One old search changed over: the report, and all that it and its neighbours in memory hold then,
/// are the model's. It gives the search as it is then.
fn search_agrees(search: &Search, told: &mut Told) -> Result<Search, String> {
    let input = || shown(search);
    let mut model = *search;
    let old = model::change_over(&mut model);
    let mut lent = [*search; 3];
    let report = ffi::change_over(&mut lent[1]);
    // Looked at anew: the compiler may take for granted that what is not lent stays.
    let lent = *black_box(&lent);
    agree((old, [*search, model, *search]), (report, lent), input)?;
    let changed = lent[1];
    // The old reading of 0 is the library's of 1.
    let Opening { method, .. } = search.opening;
    let number = if method == 0 { 1 } else { method };
    let same = Search {
        opening: with_method(&search.opening, number),
        ..*search
    };
    agree(report, ffi::ask(&same), input)?;
    if report.kind == Report::REFUSED {
        agree(*search, changed, input)?;
    } else {
        agree(same, changed, input)?;
        changed_agrees(search, &changed, &report)?;
    }
    told.count(search, &report);
    Ok(changed)
}

/// An accepted old search and what it was changed to. The library writes of it what the model
/// makes of the old clean sheet, and reports on that as the old reading did. To change it over again alters
/// nothing.
fn changed_agrees(search: &Search, changed: &Search, report: &Report) -> Checked {
    let input = || shown(search);
    let old_sheet = OLD.clean(search).map_err(|_| input())?;
    let new_sheet = model::old_default(&old_sheet);
    agree(OLD.sheet(&old_sheet), ffi::sheet(&new_sheet), input)?;
    agree(Text(new_sheet), written(changed), input)?;
    agree(*report, ffi::ask(changed), input)?;
    let mut again = *changed;
    let report_again = ffi::change_over(&mut again);
    agree((*report, *changed), (report_again, again), input)
}

/// Old texts of every kind.
pub fn texts(rng: &mut Rng, tally: &mut Tally) -> Checked {
    let possible = BOTH.into_iter().filter(|&kind| kind != ANOTHER_STOP);
    let mut kinds = Kinds::new(&possible.collect::<Vec<_>>());
    for _ in 0..TEXTS {
        let opening = cases::old_opening(rng);
        let text = sheets::any_text_of(opening, rng.pick(&READINGS), rng);
        text_agrees(&text, tally, &mut kinds)?;
    }
    for _ in 0..SPELT {
        let opening = with_method(&cases::accepted_opening(rng), 0);
        let book = rng.pick(&READINGS).book(opening);
        let pairs = cases::to_its_stop(book, rng).pairs();
        let some = &pairs[..rng.below(pairs.len() + 1)];
        let text = sheets::write_spelt(&opening, some, rng);
        text_agrees(&text, tally, &mut kinds)?;
    }
    for zero in zeros() {
        for rest in AFTER_THE_METHOD {
            text_agrees(format!("{zero}{rest}").as_bytes(), tally, &mut kinds)?;
        }
    }
    kinds.all_came("old sheets")
}

/// Every spelling of 0: with a minus and without, in quotes and without; and with a digit too many
/// or none.
pub fn zeros() -> Vec<String> {
    let mut zeros = Vec::new();
    for digits in 0..=6 {
        let size = "0".repeat(digits);
        for sign in ["", "-"] {
            zeros.extend([format!("{sign}{size}"), format!("\"{sign}{size}\"")]);
        }
    }
    zeros
}

/// What may stand after the method. The first is document 01's sheet by M, and the second the same
/// with its wrong point; the third is asked by R.
pub const AFTER_THE_METHOD: [&str; 7] = [
    ",0,100,1\r\n0,-50\r\n100,100\r\n33,-10\r\n41,-2\r\n43,1\r\n",
    ",0,100,1\r\n0,-50\r\n100,100\r\n33,-10\r\n41,-2\r\n42,1\r\n",
    ",0,100,1\r\n0,-50\r\n100,100\r\n33,-10\r\n40,-5\r\n",
    ",0,100,1,0",
    ",0,100,1,101",
    ",7,7,1",
    "",
];

/// The text with a method in the place of its first field, if that is a spelling of 0 and the text
/// not too long.
fn in_the_place_of_0(text: &[u8], method: &str) -> Option<Vec<u8>> {
    let end = text.iter().position(|&byte| byte == b',')?;
    let (first, rest) = text.split_at(end);
    let taken = text.len() <= 4_096 && is_0(first);
    taken.then(|| [method.as_bytes(), rest].concat())
}

/// Whether a field is a spelling of 0.
fn is_0(field: &[u8]) -> bool {
    let bare = match field {
        [b'"', bare @ .., b'"'] => bare,
        _ => field,
    };
    let digits = bare.strip_prefix(b"-").unwrap_or(bare);
    (1..=5).contains(&digits.len()) && digits.iter().all(|&digit| digit == b'0')
}

/// One text: its reports by both readings, and for an accepted one the sheet that the model makes
/// of it. What the program itself makes of texts is compared in `bin/programs.rs`.
fn text_agrees(text: &[u8], tally: &mut Tally, kinds: &mut Kinds) -> Checked {
    let input = || format!("an old sheet:\n{}", sheets::show(text));
    let (old, today) = (OLD.sheet(text), ffi::sheet(text));
    agree(TODAY.sheet(text), today, input)?;
    let with_0 = readings_agree(text, (&old, &today))?;
    let method = match OLD.read(text) {
        Ok(book) => {
            new_sheet_agrees(&book, &model::old_default(text), input)?;
            agree(with_0, book.opening().method == 0, input)?;
            book.opening().method
        }
        Err(_) if with_0 => 0,
        Err(_) => -1,
    };
    let kind = both(method, &old, &today);
    agree(false, kind == ANOTHER_STOP, input)?;
    kinds.count(kind);
    tally.count(&old);
    tally.cases += 1;
    Ok(())
}

/// The old reading of 0 is the library's of 1, and today's is its of 2. Without 0 they are the same.
/// Tells whether the text has it.
fn readings_agree(text: &[u8], (old, today): (&Report, &Report)) -> Result<bool, String> {
    let input = || format!("an old sheet:\n{}", sheets::show(text));
    let by = |method| in_the_place_of_0(text, method);
    match (by("1"), by("2")) {
        (Some(by_m), Some(by_r)) => {
            agree(*old, ffi::sheet(&by_m), input)?;
            agree(*today, ffi::sheet(&by_r), input)?;
            Ok(true)
        }
        _ => {
            agree(old, today, input)?;
            Ok(false)
        }
    }
}

/// The new sheet of an accepted old one: the library reports on it as the old reading did, and writes
/// it of the old search changed over. Its method is 1 or 2 as it must be.
fn new_sheet_agrees(book: &Book, new: &[u8], input: impl Fn() -> String) -> Checked {
    agree(book.report(), ffi::sheet(new), &input)?;
    let mut search = book.search();
    let report = ffi::change_over(&mut search);
    agree(book.report(), report, &input)?;
    agree(Text(new.to_vec()), written(&search), &input)?;
    let first: &[u8] = if book.opening().method == 2 {
        b"2,"
    } else {
        b"1,"
    };
    agree(true, new.starts_with(first), &input)
}

/// What M would tell of a list with method 0, which is by R.
const BESIDE_M: [&str; 2] = ["told alike by M", "told otherwise by M"];

/// Openings with method 0 today: quotes, lists, and runs.
pub fn house(rng: &mut Rng, tally: &mut Tally) -> Checked {
    let mut kinds = Kinds::new(&BESIDE_M);
    for _ in 0..LISTS {
        let (opening, values) = cases::any_list(rng);
        quote_is_by_r(&opening, tally)?;
        list_is_by_r(&opening, &values, tally, &mut kinds)?;
        tally.cases += 1;
    }
    for _ in 0..RUNS {
        let opening = with_method(&cases::accepted_opening(rng), 2);
        run_is_by_r(&cases::answered(opening, rng), tally)?;
        tally.cases += 1;
    }
    kinds.all_came("lists with 0 today")
}

/// The quote with 0 is that with 2: 2 + 5t, of the same t as by M; or both are refused alike.
fn quote_is_by_r(opening: &Opening, tally: &mut Tally) -> Checked {
    let [house, m, r] = [0, 1, 2].map(|method| ffi::quote(&with_method(opening, method)));
    let input = || list_as_sheet(&with_method(opening, 0), &[]);
    agree(model::quote(&with_method(opening, 0)), house, input)?;
    agree(r, house, input)?;
    match house.kind {
        Quotation::QUOTED => agree((m.t, 2 + 5 * m.t), (house.t, house.most), input)?,
        _ => agree(m, house, input)?,
    }
    tally.count_quotation(&house);
    Ok(())
}

/// The report of a list with 0 is that with 2, and so is that of the search that holds it.
fn list_is_by_r(
    opening: &Opening,
    values: &[i32],
    tally: &mut Tally,
    kinds: &mut Kinds,
) -> Checked {
    let all = [0, 1, 2].map(|method| with_method(opening, method));
    let [house, m, r] = all.map(|opening| ffi::values(&opening, values));
    let input = || list_as_sheet(&all[0], values);
    let reports = (model::values(&all[0], values), house);
    agree_on_report(&all[0], reports, tally, input)?;
    agree(r, house, input)?;
    if values.len() <= SLOTS {
        agree(r, ffi::ask(&holding(all[0], values)), input)?;
    }
    kinds.count(BESIDE_M[usize::from(m != house)]);
    Ok(())
}

/// A run with 0 in a search and at a dryer, answer by answer, beside R's book, which has 2: the
/// reports are the book's, and but for the method so are the search and its clean sheet at the end.
fn run_is_by_r(book: &Book, tally: &mut Tally) -> Checked {
    let opening = with_method(book.opening(), 0);
    let input = || list_as_sheet(&opening, &book.values());
    let dryer = opening.tolerance as u32 % DRYERS as u32;
    let mut search = Search::fresh(*book.opening());
    let mut dispatcher = Dispatcher::fresh();
    let told = ffi::open(&mut search, &opening);
    agree(TODAY.values(book.opening(), &[]), told, input)?;
    agree(
        told,
        ffi::dispatch_open(&mut dispatcher, dryer, &opening),
        input,
    )?;
    for (n, &(point, value)) in book.pairs().iter().enumerate() {
        let report = TODAY.values(book.opening(), &book.values()[..=n]);
        let entered = ffi::enter(&mut search, point, value);
        agree_on_report(&opening, (report, entered), tally, input)?;
        let answer = Answer::new(point, value);
        let served = ffi::dispatch_enter(&mut dispatcher, dryer, answer);
        agree(report, served, input)?;
        agree(search, dispatcher.searches[dryer as usize], input)?;
    }
    let by_r = Search {
        opening: *book.opening(),
        ..search
    };
    agree(book.search(), by_r, input)?;
    let (Text(with_0), Text(with_2)) = (written(&search), written(&by_r));
    let rest = with_2.get(1..).unwrap_or_default();
    agree(Text([b"0", rest].concat()), Text(with_0), input)
}
