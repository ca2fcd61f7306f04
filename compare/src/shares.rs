//! Shares: the comparison's parts on openings whose tolerance grows with the point, of request
//! 2026-07.

use crate::cases::{self, HIGHEST};
use crate::checks::{agree, agree_on_report, list_as_sheet, search_as_sheet, Checked, Tally};
use crate::clean::written;
use crate::model::{self, Book};
use crate::rng::Rng;
use crate::sheets::{self, Text, FIELDS};
use crate::types::{Dispatcher, Opening, Report, Search};
use crate::{beam, dispatcher, ffi};

/// Shares far out of range. Cut to 8 or 16 bits, or without their sign, some of them would be in it.
const SHARES_FAR: [i32; 9] = [
    i32::MIN,
    i32::MIN + 50,
    -65_486,
    -206,
    -100,
    306,
    1_000,
    65_586,
    i32::MAX,
];

/// The other numbers of an opening, right and wrong.
const METHODS: [i32; 5] = [-1, 0, 1, 2, 3];
const ENDS: [(i32, i32); 7] = [
    (0, HIGHEST),
    (HIGHEST, 0),
    (HIGHEST - 1_000, HIGHEST),
    (7, 7),
    (-1, 5),
    (5, HIGHEST + 1),
    (-1, -1),
];
const TOLERANCES: [i32; 4] = [0, 1, 5_000, 5_001];

/// Every share from below its range to above it, and some far out of it, with the other numbers
/// right and wrong in every combination.
pub fn openings(_: &mut Rng, tally: &mut Tally) -> Checked {
    for share in (-2..=103).chain(SHARES_FAR) {
        for method in METHODS {
            for (first, second) in ENDS {
                for tolerance in TOLERANCES {
                    let opening = Opening::new(method, first, second, tolerance);
                    opening_agrees(&opening.with_share(share), tally)?;
                }
            }
        }
    }
    Ok(())
}

/// The quote, which a share in range does not alter; the sheet of the opening alone; a search and a
/// dispatcher that are opened so; and a search that holds the opening.
fn opening_agrees(opening: &Opening, tally: &mut Tally) -> Checked {
    let input = || list_as_sheet(opening, &[]);
    let quote = ffi::quote(opening);
    agree(model::quote(opening), quote, input)?;
    if (0..=100).contains(&opening.share) {
        agree(ffi::quote(&opening.with_share(0)), quote, input)?;
    }
    let text = sheets::write(opening, &[]);
    agree(model::sheet(&text), ffi::sheet(&text), input)?;
    let on_its_way = Book::of(Opening::new(1, 0, 100, 1), &[-50, 100]).search();
    let (mut model, mut library) = (on_its_way, on_its_way);
    let report = ffi::open(&mut library, opening);
    agree(model::open(&mut model, opening), report, input)?;
    agree(model, library, input)?;
    let (mut model, mut library) = (Dispatcher::fresh(), Dispatcher::fresh());
    let dispatched = ffi::dispatch_open(&mut library, 3, opening);
    agree(dispatcher::open(&mut model, 3, opening), dispatched, input)?;
    agree(model, library, input)?;
    let held = Search::fresh(*opening);
    agree(model::ask(&held), ffi::ask(&held), input)?;
    tally.count_quotation(&quote);
    tally.count(&report);
    tally.cases += 1;
    Ok(())
}

/// How many places are tried for each share at which the tolerance grows by 1.
const PLACES: usize = 10;

/// In how many parts the first estimate cuts the bracket.
const PARTS: [i32; 3] = [3, 4, 7];

/// Two answers with the better end at a place where the tolerance grows by 1, or just below it, and
/// the bracket about as wide as the stop or the shortest step allows.
pub fn pairs(rng: &mut Rng, tally: &mut Tally) -> Checked {
    let mut altered = [0; MISTAKES.len()];
    for share in 1..=100 {
        for _ in 0..PLACES {
            // The share adds so much from this place on, and less below it.
            let more = rng.between(1, share * HIGHEST / 1_000);
            let place = (1_000 * more + share - 1) / share;
            let tolerance = rng.pick(&[1, 2, 25, 100, 1_000, 5_000]);
            for better in [place - 1, place] {
                pairs_at(better, (tolerance, share), tally, &mut altered)?;
            }
        }
    }
    let told: Vec<String> = MISTAKES
        .iter()
        .zip(altered)
        .map(|(name, times)| format!("{name} {times}"))
        .collect();
    println!(
        "reports that another tolerance would alter: {}",
        told.join(", ")
    );
    agree(false, altered.contains(&0), || {
        "each mistake in the tolerance alters a report".into()
    })
}

/// The pairs with this better end, upwards and downwards, answered first and second.
fn pairs_at(
    better: i32,
    (tolerance, share): (i32, i32),
    tally: &mut Tally,
    altered: &mut [u64; MISTAKES.len()],
) -> Checked {
    let there = tolerance + share * better / 1_000;
    for parts in PARTS {
        let (stop, step) = (2 * there, parts * there);
        let widths = [
            stop - 1,
            stop,
            stop + 1,
            step - 1,
            step,
            step + 1,
            step + parts,
        ];
        for other in widths.iter().flat_map(|w| [better - w, better + w]) {
            if !(0..=HIGHEST).contains(&other) {
                continue;
            }
            for better_first in [true, false] {
                let pair = Pair {
                    better,
                    other,
                    tolerance,
                    share,
                    parts,
                    better_first,
                };
                pair.agrees(there, tally)?;
                pair.count_altered(there, altered);
            }
        }
    }
    Ok(())
}

/// What may be taken for the tolerance at the better end, by mistake.
const MISTAKES: [&str; 9] = [
    "at the other end",
    "at the lower end",
    "at the upper end",
    "in the middle",
    "at the first end",
    "at the second end",
    "without the share",
    "rounded up",
    "of whole thousands",
];

/// Two answers on either side of target, the value at the better end of size 1, and that at the other
/// so large that the first estimate lies at one of so many parts of the bracket from the better end.
#[derive(Clone, Copy)]
struct Pair {
    better: i32,
    other: i32,
    tolerance: i32,
    share: i32,
    parts: i32,
    better_first: bool,
}

impl Pair {
    /// What stands for the first end and for the second.
    fn in_order<T>(&self, at_better: T, at_other: T) -> [T; 2] {
        match self.better_first {
            true => [at_better, at_other],
            false => [at_other, at_better],
        }
    }

    fn opening(&self) -> Opening {
        let [first, second] = self.in_order(self.better, self.other);
        // R for 3 and 7 parts, M for 4: the first estimate is linear by both.
        let method = 1 + self.parts % 2;
        Opening::new(method, first, second, self.tolerance).with_share(self.share)
    }

    /// The report, if this is the tolerance at the better end.
    fn report(&self, tolerance: i32) -> Report {
        let Pair { better, other, .. } = *self;
        let width = (other - better).abs();
        if width <= 2 * tolerance {
            let (lower, upper) = (better.min(other), better.max(other));
            Report::stop(lower as u32, upper as u32, better as u32, 2)
        } else {
            let step = tolerance.max(width / self.parts);
            Report::next((better + step * (other - better).signum()) as u32, 2)
        }
    }

    /// The list, and the search entered answer by answer, get the report, by the model too.
    fn agrees(&self, tolerance: i32, tally: &mut Tally) -> Checked {
        let opening = self.opening();
        let values = self.in_order(-1, self.parts - 1);
        let input = || list_as_sheet(&opening, &values);
        let report = self.report(tolerance);
        agree(report, model::values(&opening, &values), input)?;
        agree(report, ffi::values(&opening, &values), input)?;
        let mut search = Search::fresh(opening);
        ffi::enter(&mut search, opening.first, values[0]);
        let entered = ffi::enter(&mut search, opening.second, values[1]);
        agree(report, entered, input)?;
        tally.count(&entered);
        tally.cases += 1;
        Ok(())
    }

    /// Counts the mistakes by which the report would be another.
    fn count_altered(&self, tolerance: i32, altered: &mut [u64; MISTAKES.len()]) {
        let Pair { better, other, .. } = *self;
        let at = |point: i32| self.tolerance + self.share * point / 1_000;
        let [first, second] = self.in_order(better, other);
        let mistaken = [
            at(other),
            at(better.min(other)),
            at(better.max(other)),
            at((better + other) / 2),
            at(first),
            at(second),
            self.tolerance,
            self.tolerance + (self.share * better + 999) / 1_000,
            self.tolerance + self.share * (better / 1_000),
        ];
        let report = self.report(tolerance);
        for (times, mistaken) in altered.iter_mut().zip(mistaken) {
            *times += u64::from(self.report(mistaken) != report);
        }
    }
}

/// How many runs are answered by ovens; and the shares of long ones, with the states that the beam
/// keeps for them.
const RUNS: usize = 60_000;
const LONG_SHARES: [i32; 5] = [1, 2, 10, 50, 100];
const LONG: usize = 400;

/// Runs to the stop with a share, by ovens, and by orders of values that make searches long.
pub fn runs(rng: &mut Rng, tally: &mut Tally) -> Checked {
    for _ in 0..RUNS {
        let share = rng.between(1, 100);
        let opening = cases::opening_without_share(rng).with_share(share);
        let book = cases::answered(opening, rng);
        run_agrees(&opening, &book.values(), tally)?;
    }
    for (name, method) in [("M", 1), ("R", 2)] {
        let mut longest = [0; LONG_SHARES.len()];
        for (place, share) in LONG_SHARES.into_iter().enumerate() {
            for (first, second) in [(0, HIGHEST), (HIGHEST, 0)] {
                let opening = Opening::new(method, first, second, 1).with_share(share);
                let orders = beam::longest(&opening, LONG, rng);
                for order in &orders {
                    run_agrees(&opening, order, tally)?;
                }
                longest[place] = longest[place].max(orders[0].len());
            }
        }
        let most = model::quote(&cases::widest(method)).most;
        println!(
            "longest by {name} found with shares {LONG_SHARES:?}: {longest:?}, the bound is {most}"
        );
    }
    Ok(())
}

/// One run: the quote is from the tolerance alone, and after each answer the report is the book's,
/// within the quote, and a stop when it must be one; the search is the book's at the end, and the
/// list of the values gets the same report.
fn run_agrees(opening: &Opening, values: &[i32], tally: &mut Tally) -> Checked {
    let input = || list_as_sheet(opening, values);
    let quote = model::quote(&opening.with_share(0));
    agree(quote, ffi::quote(opening), input)?;
    let mut book = Book::new(*opening);
    let mut search = Search::fresh(*opening);
    for &value in values {
        let point = book.called().expect("no value comes after the stop");
        let report = ffi::enter(&mut search, point, value);
        agree_on_report(opening, (book.offer(point, value), report), tally, input)?;
        stops_in_time(&book, &report, input)?;
    }
    agree(book.search(), search, input)?;
    agree(book.report(), ffi::values(opening, values), input)?;
    tally.cases += 1;
    Ok(())
}

/// A search stops when its bracket is no wider than twice the tolerance at the better end, and at no
/// other time.
fn stops_in_time(book: &Book, report: &Report, input: impl Fn() -> String) -> Checked {
    let Opening {
        tolerance, share, ..
    } = *book.opening();
    let twice_at = |b: i64| 2 * (i64::from(tolerance) + i64::from(share) * b / 1_000);
    let stopped = report.kind == Report::STOP;
    let told = || format!("{}\nnarrow enough? {report:?}", input());
    match book.ends() {
        Some((better, other)) => {
            let width = (better.point - other.point).abs() as i64;
            agree(width <= twice_at(better.point as i64), stopped, told)
        }
        None => agree(false, stopped, told),
    }
}

/// The fourth field of a first record: in form, out of form, and a tolerance out of range.
const FOURTH: [&str; 7] = ["1", "\"25\"", "00001", "-0", "5001", "000001", ""];

/// What may stand after a first record of four or five fields: its end, more fields, or answers of
/// one to five.
const AFTER: [&str; 16] = [
    "",
    "\r\n",
    "\r",
    "\n",
    " \r\n",
    ",",
    ",\r\n",
    ",0\r\n",
    ",0,0\r\n",
    ",x\r\n",
    "\r\n0,-5",
    "\r\n0,-5\r\n",
    "\r\n0\r\n",
    "\r\n0,-5,0\r\n",
    "\r\n0,-5,0,0",
    "\r\n0,-5,0,0,0\r\n",
];

/// Fields for answers: the first is the point called for, the second a value; the others are 0 in other
/// spellings, one of them with a digit too many, nothing, and a letter.
const OF_ANSWER: [&str; 7] = ["0", "-5", "\"0\"", "-00000", "000000", "", "x"];

/// The most fields that are tried in an answer.
const MOST_FIELDS: u32 = 5;

/// First records in every spelling of a fifth field and without one; and answers of one field to
/// five, after an opening with a share and one without.
pub fn records(_: &mut Rng, tally: &mut Tally) -> Checked {
    for fourth in FOURTH {
        for after in AFTER {
            text_agrees(format!("1,0,100,{fourth}{after}").as_bytes(), tally)?;
            for fifth in fifth_fields() {
                let start = format!("1,0,100,{fourth},").into_bytes();
                text_agrees(&[&start, &fifth[..], after.as_bytes()].concat(), tally)?;
            }
        }
    }
    for opening in ["1,0,100,1", "1,0,100,1,7"] {
        for count in 1..=MOST_FIELDS {
            for which in 0..OF_ANSWER.len().pow(count) {
                let fields = fields_of_answer(which, count);
                text_agrees(format!("{opening}\r\n{fields}\r\n").as_bytes(), tally)?;
            }
        }
    }
    Ok(())
}

/// Every field of `FIELDS`, and the shares from below their range to above it, plain, in quotes, with
/// leading zeros up to five digits, and up to six.
fn fifth_fields() -> Vec<Vec<u8>> {
    let mut fields: Vec<Vec<u8>> = FIELDS.iter().map(|field| field.to_vec()).collect();
    for share in -2..=103_i32 {
        let (sign, size) = (if share < 0 { "-" } else { "" }, share.abs());
        let spelt = [
            format!("{share}"),
            format!("\"{share}\""),
            format!("{sign}{size:05}"),
            format!("\"{sign}{size:05}\""),
            format!("{sign}{size:06}"),
        ];
        fields.extend(spelt.map(String::into_bytes));
    }
    fields
}

/// One of the answers of so many fields.
fn fields_of_answer(which: usize, count: u32) -> String {
    let field = |place| OF_ANSWER[which / OF_ANSWER.len().pow(place) % OF_ANSWER.len()];
    let fields: Vec<&str> = (0..count).map(field).collect();
    fields.join(",")
}

/// The report of a text. Of an accepted one, the library writes the search that the model reads as
/// the model cleans the text.
fn text_agrees(text: &[u8], tally: &mut Tally) -> Checked {
    let input = || sheets::show(text);
    let report = ffi::sheet(text);
    agree(model::sheet(text), report, input)?;
    if let Ok(book) = model::read(text) {
        let clean = Text(model::clean_text(text));
        agree(clean, written(&book.search()), input)?;
    }
    tally.count(&report);
    tally.cases += 1;
    Ok(())
}

/// The shares with which clean sheets are tried, and how many books with each, at every stage.
const CLEAN_SHARES: [i32; 4] = [0, 1, 10, 100];
const BOOKS: usize = 2_500;

/// Spellings of a share of 0.
const ZEROS: [&str; 6] = ["0", "-0", "00000", "-00000", "\"0\"", "\"-000\""];

/// Books at every stage of their way, written clean and read again.
pub fn round_trips(rng: &mut Rng, tally: &mut Tally) -> Checked {
    for share in CLEAN_SHARES {
        for _ in 0..BOOKS {
            let opening = cases::opening_without_share(rng).with_share(share);
            let values = cases::answered(opening, rng).values();
            for n in 0..=values.len() {
                round_trip_agrees(&Book::of(opening, &values[..n]), tally)?;
            }
        }
    }
    Ok(())
}

/// What the library writes is the clean sheet, in four fields or five; it gets the book's report, and
/// reads as its search. A share of 0 as a fifth field, in any spelling, makes no difference.
fn round_trip_agrees(book: &Book, tally: &mut Tally) -> Checked {
    let search = book.search();
    let input = || search_as_sheet(&search);
    let Text(text) = written(&search);
    let end = text.iter().position(|&byte| byte == b'\r');
    let (first, rest) = text.split_at(end.unwrap_or(text.len()));
    let commas = first.iter().filter(|&&byte| byte == b',').count();
    let share = book.opening().share;
    agree(if share == 0 { 3 } else { 4 }, commas, input)?;
    let plainest = sheets::write(book.opening(), &book.pairs());
    agree(Text(plainest), Text(text.clone()), input)?;
    let report = ffi::sheet(&text);
    agree(book.report(), report, input)?;
    agree(Ok(search), model::read(&text).map(|b| b.search()), input)?;
    for zero in ZEROS.iter().filter(|_| share == 0) {
        let five = [first, b",", zero.as_bytes(), rest].concat();
        agree(report, ffi::sheet(&five), || sheets::show(&five))?;
        let clean = Text(model::clean_text(&five));
        agree(Text(text.clone()), clean, || sheets::show(&five))?;
    }
    tally.count(&report);
    tally.cases += 1;
    Ok(())
}
