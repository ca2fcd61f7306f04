//! The dryer panel in runs: the comparison's part on lists of requests to one search, by crews that
//! behave and by ones that do not, with what request 2026-09 claims of the search after each.

use crate::cases::{self, Oven};
use crate::checks::{agree, Checked, Kinds, Tally};
use crate::ffi;
use crate::model::Book;
use crate::panel::{enough, name, request_agrees, size, Answered, Case, OUTCOMES};
use crate::panel_model::Outcome;
use crate::requests::{self, READ, READ_ALL};
use crate::rng::Rng;
use crate::types::{Opening, Report, Search, Written, LONGEST_REPLY, REGISTERS};

/// How many runs. In every second one a request in so many is mostly a mistake.
const RUNS: usize = 30_000;
const MISTAKES: usize = 3;

/// The outcomes that runs have: their search is never refused.
fn outcomes_of_runs() -> Vec<&'static str> {
    let of_refused = name(&Outcome::SearchRefused);
    let others = OUTCOMES.into_iter().filter(|&kind| kind != of_refused);
    others.collect()
}

/// Runs of requests, each to the stop and somewhat further.
pub fn runs(rng: &mut Rng, tally: &mut Tally) -> Checked {
    let mut outcomes = Kinds::new(&outcomes_of_runs());
    let mut entered = 0;
    for _ in 0..RUNS {
        let mut crew = Crew::new(cases::accepted_opening(rng), rng)?;
        let badly = rng.once_in(2);
        while crew.unfinished() || !rng.once_in(4) {
            let (request, size) = if badly && rng.once_in(MISTAKES) {
                (crew.mistake(rng), size(rng))
            } else {
                (crew.proper(rng), enough(rng))
            };
            let answered = crew.request_agrees(&request, size, rng)?;
            tally.cases += 1;
            tally.count_written(&answered.written);
            outcomes.count(name(&answered.outcome));
        }
        entered += crew.values.len();
    }
    println!("{RUNS} runs of requests to the stop, with {entered} values entered");
    outcomes.all_came("requests in runs")
}

/// A crew at the panel of a dryer.
struct Crew {
    search: Search,
    /// The same search, its values entered by `busdekker_enter`.
    twin: Search,
    /// The values whose requests came back, which tells that they were entered.
    values: Vec<i32>,
    book: Book,
    oven: Oven,
    /// The registers as the panel shows them.
    shown: [u32; REGISTERS],
}

impl Crew {
    /// A crew with a fresh search of an accepted opening.
    fn new(opening: Opening, rng: &mut Rng) -> Result<Self, String> {
        let mut crew = Crew {
            search: cases::any_search(rng),
            twin: Search::fresh(opening),
            values: vec![],
            book: Book::new(opening),
            oven: Oven::new(&opening, rng),
            shown: [0; REGISTERS],
        };
        ffi::open(&mut crew.search, &opening);
        crew.claims_hold(|| format!("a fresh search of {opening:?}"))?;
        Ok(crew)
    }

    /// Whether the panel shows that a value is awaited.
    fn unfinished(&self) -> bool {
        self.shown[0] == 1
    }

    /// The point that the panel shows as called for.
    fn point(&self) -> i32 {
        self.shown[1] as i32
    }

    /// What a crew asks that behaves: it reads, or enters the value that the oven has for the point
    /// called for.
    fn proper(&self, rng: &mut Rng) -> Vec<u8> {
        let request = match rng.below(4) {
            0 => READ_ALL,
            1 => requests::proper_read(rng),
            _ if self.unfinished() => requests::enter(self.value(rng)),
            _ => READ_ALL,
        };
        request.to_vec()
    }

    /// The oven's value, taken over to the other side where it would be refused.
    fn value(&self, rng: &mut Rng) -> i32 {
        let value = self.oven.value(&self.book, self.point(), rng);
        let same_side = matches!(self.values[..], [first] if first * value > 0);
        if same_side {
            -value
        } else {
            value
        }
    }

    /// A request in which mostly something is wrong. The first value again is refused as a second
    /// one, unless it is 0; and after the stop every value is.
    fn mistake(&self, rng: &mut Rng) -> Vec<u8> {
        match (rng.below(4), self.values.first()) {
            (0, Some(&first)) => requests::enter(first).to_vec(),
            _ => requests::mistake(rng),
        }
    }

    /// One request, and what then holds of the run.
    fn request_agrees(
        &mut self,
        request: &[u8],
        size: usize,
        rng: &mut Rng,
    ) -> Result<Answered, String> {
        let search = self.search;
        let case = Case {
            search: &search,
            request,
            size,
        };
        let answered = request_agrees(&case, rng)?;
        self.search = answered.after.searches[1];
        let offered = requests::entered(request).filter(|_| size >= LONGEST_REPLY);
        if let Some(value) = offered {
            self.offered(value, &answered, || case.show())?;
        }
        self.claims_hold(|| case.show())?;
        Ok(answered)
    }

    /// A value was offered for the point that the panel shows. Its request comes back if
    /// `busdekker_enter` takes it into the twin, and only then.
    fn offered(&mut self, value: i32, answered: &Answered, input: impl Fn() -> String) -> Checked {
        let point = self.point();
        let report = ffi::enter(&mut self.twin, point, value);
        let length = answered.written.length as usize;
        let came_back = answered.after.reply(length) == requests::enter(value);
        agree(report.kind != Report::REFUSED, came_back, input)?;
        if came_back {
            self.values.push(value);
            self.book.offer(point, value);
        }
        Ok(())
    }

    /// The search is that of the values entered: the twin and the book's, every slot of it. The panel
    /// shows the report of the list of those values, and to read it alters nothing. They are no more
    /// than the opening was quoted.
    fn claims_hold(&mut self, input: impl Fn() -> String) -> Checked {
        agree(self.twin, self.search, &input)?;
        agree(self.book.search(), self.search, &input)?;
        let opening = &self.search.opening;
        let report = ffi::values(opening, &self.values);
        let most = ffi::quote(opening).most as usize;
        self.shown = shown(&mut self.search, &input)?;
        agree(registers(&report), self.shown, &input)?;
        agree(self.twin, self.search, &input)?;
        let room = most.checked_sub(self.values.len());
        let kept = room.is_some_and(|room| room > 0 || !self.unfinished());
        agree(true, kept, || {
            format!("{}\nthe bound of {most} answers", input())
        })
    }
}

/// The registers that a report is shown as. Its kind is 1 where a value is awaited and 2 after the
/// stop, as the flags are, and a number that its kind has not is 0.
fn registers(report: &Report) -> [u32; REGISTERS] {
    [
        report.kind,
        report.point,
        report.lower,
        report.upper,
        report.better,
        report.taken,
        0,
    ]
}

/// All seven registers as the library shows them.
fn shown(search: &mut Search, input: impl Fn() -> String) -> Result<[u32; REGISTERS], String> {
    let mut reply = [0; LONGEST_REPLY];
    let written = ffi::panel(search, &READ_ALL, &mut reply);
    let [function, bytes, words @ ..] = reply;
    let head = (written, function, bytes);
    agree((Written::bytes(16), READ, 14), head, input)?;
    let mut registers = [0; REGISTERS];
    for (register, word) in registers.iter_mut().zip(words.chunks_exact(2)) {
        *register = u32::from(word[0]) << 8 | u32::from(word[1]);
    }
    Ok(registers)
}
