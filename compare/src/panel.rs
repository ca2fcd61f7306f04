//! The dryer panel: the comparison's part on its requests, each by itself.

use crate::cases::{self, COUNT_ABOVE};
use crate::checks::{agree, search_as_sheet, Checked, Kinds, Tally};
use crate::clean::with_junk;
use crate::model::{self, Book};
use crate::panel_model::{self, Outcome};
use crate::requests::{self, Bytes, READ, READ_ALL, VALUE_ENTRY, WRITE};
use crate::rng::Rng;
use crate::types::{Opening, Report, Search, Written, LONGEST_REPLY, REGISTERS, SLOTS};
use crate::{beam, ffi};
use std::hint::black_box;
use std::ops::Range;

/// How many searches are tried that hold anything; books, at each stage of their way; and of the
/// longest orders that the beam finds with so many states, by M and by R each, tried so too.
const HELD: usize = 200_000;
const BOOKS: usize = 5_000;
const LONG: usize = 100;
const ORDERS: usize = 20;

/// The longest of the requests whose length is every one in turn. By the Modbus Application Protocol
/// none is longer than 253 bytes.
const LONGEST_REQUEST: usize = 300;

/// The bytes on each side of the request and of the reply's buffer that must not be touched either.
const MARGIN: usize = 16;

/// Functions that are tried with every length: the two that are answered, those beside them, others
/// that the Modbus Application Protocol has, and those around the top bit.
const FUNCTIONS: [u8; 16] = [
    0, 1, 2, READ, 4, 5, WRITE, 7, 16, 43, 127, 128, 131, 134, 144, 255,
];

/// Lengths of requests that every function is tried with.
const LENGTHS: [usize; 14] = [1, 2, 3, 4, 5, 6, 7, 8, 10, 16, 253, 254, 256, 261];

/// Sizes of the reply's buffer that are tried beside 0 to 40.
const LARGER_SIZES: [usize; 6] = [64, 253, 255, 256, 260, 1_000];

/// What becomes of a request, as it is told in the part's line.
pub const OUTCOMES: [&str; 11] = [
    "18",
    "empty",
    "04",
    "01",
    "03 by length",
    "03 by quantity",
    "02 by read",
    "02 by write",
    "03 by value",
    "reads",
    "entries",
];

/// Which of them it is.
pub fn name(outcome: &Outcome) -> &'static str {
    let place = match outcome {
        Outcome::BufferTooShort => 0,
        Outcome::Empty => 1,
        Outcome::SearchRefused => 2,
        Outcome::AnotherFunction => 3,
        Outcome::WrongLength => 4,
        Outcome::WrongQuantity => 5,
        Outcome::ReadPast => 6,
        Outcome::WriteElsewhere => 7,
        Outcome::ValueRefused => 8,
        Outcome::Read { .. } => 9,
        Outcome::Entry { .. } => 10,
    };
    OUTCOMES[place]
}

/// A request to a search, with so many bytes for the reply.
#[derive(Clone, Copy)]
pub struct Case<'a> {
    pub search: &'a Search,
    pub request: &'a [u8],
    pub size: usize,
}

impl Case<'_> {
    /// The case for the eye.
    pub fn show(&self) -> String {
        let search = search_as_sheet(self.search);
        let request = Bytes(self.request.to_vec());
        let (length, size) = (self.request.len(), self.size);
        format!("{search}\nrequest of {length} bytes: {request:?}\ninto {size} bytes")
    }

    /// The two words of a request of five bytes.
    fn words(&self) -> Option<(u32, u32)> {
        match *self.request {
            [_, a, b, c, d] => {
                let word = |high, low| u16::from_be_bytes([high, low]).into();
                Some((word(a, b), word(c, d)))
            }
            _ => None,
        }
    }

    /// Whether a request of any length names a register that it could not read or write.
    fn at_wrong_address(&self) -> bool {
        match *self.request {
            [READ, high, low, ..] => (high, low) > (0, 6),
            [WRITE, high, low, ..] => (high, low) != (0, 6),
            _ => false,
        }
    }

    /// The refusal of the value of a request to write, whatever register it is for; 0 if there is
    /// none.
    fn refusal(&self) -> u32 {
        let value = self.words().map_or(0, |(_, word)| word as u16 as i16);
        let mut tried = *self.search;
        let point = model::ask(self.search).point as i32;
        model::enter(&mut tried, point, value.into()).number
    }
}

/// What a request has besides: another cause behind the one that is told, or where the search stands.
/// The order of the checks shows in the first of them.
const BESIDES: [&str; 19] = [
    "18 of an empty request",
    "18 of a refused search",
    "empty of a refused search",
    "04 of an accepted function",
    "04 of another function",
    "04 at a wrong length",
    "01 at a wrong length",
    "01 from 128 on",
    "03 by length, at a wrong address too",
    "03 by quantity, past register 6 too",
    "02 by read, begun in a register",
    "02 by read, past 65,535",
    "02 by write, the value refused too",
    "03 by value out of range",
    "03 by value on the first's side",
    "03 by value after the stop",
    "reads before the stop",
    "reads at the stop",
    "entries that stop",
];

/// Which of them a request with this outcome has.
fn besides(case: &Case, outcome: &Outcome) -> Vec<&'static str> {
    let report = model::ask(case.search);
    let refused = report.kind == Report::REFUSED;
    let wrong_length = case.request.len() != 5;
    let function = case.request.first().copied().unwrap_or(0);
    let accepted_function = [READ, WRITE].contains(&function);
    let (address, quantity) = case.words().unwrap_or((0, 0));
    let places: Vec<(usize, bool)> = match outcome {
        Outcome::BufferTooShort => vec![(0, case.request.is_empty()), (1, refused)],
        Outcome::Empty => vec![(2, refused)],
        Outcome::SearchRefused => vec![
            (3, accepted_function && !wrong_length),
            (4, !accepted_function),
            (5, accepted_function && wrong_length),
        ],
        Outcome::AnotherFunction => vec![(6, wrong_length), (7, function >= 128)],
        Outcome::WrongLength => vec![(8, case.at_wrong_address())],
        Outcome::WrongQuantity => vec![(9, address + quantity > 7)],
        Outcome::ReadPast => vec![(10, address < 7), (11, address + quantity > 65_535)],
        Outcome::WriteElsewhere => vec![(12, case.refusal() != 0)],
        Outcome::ValueRefused => {
            let number = case.refusal();
            vec![(13, number == 7), (14, number == 8), (15, number == 5)]
        }
        Outcome::Read { .. } => {
            let stopped = report.kind == Report::STOP;
            vec![(16, !stopped), (17, stopped)]
        }
        Outcome::Entry { point, value } => {
            let mut after = *case.search;
            let stops = model::enter(&mut after, *point, *value).kind == Report::STOP;
            vec![(18, stops)]
        }
    };
    let came = places.into_iter().filter(|(_, came)| *came);
    came.map(|(place, _)| BESIDES[place]).collect()
}

/// All that is lent, with what stands beside it in memory: the search between two others, the request
/// and the reply's buffer each between bytes of any kind.
#[derive(Clone, Debug, PartialEq)]
pub struct Lent {
    pub searches: [Search; 3],
    request: Bytes,
    buffer: Bytes,
}

impl Lent {
    /// The buffer's own bytes are any too.
    fn new(case: &Case, rng: &mut Rng) -> Self {
        let (before, after) = (rng.bytes(MARGIN), rng.bytes(MARGIN));
        Lent {
            searches: [*case.search; 3],
            request: Bytes([&before, case.request, &after].concat()),
            buffer: Bytes(rng.bytes(case.size + 2 * MARGIN)),
        }
    }

    /// The model's panel or the library's gets what is lent.
    fn call(&mut self, panel: fn(&mut Search, &[u8], &mut [u8]) -> Written) -> Written {
        let (request, buffer) = (&self.request.0, &mut self.buffer.0);
        let (asked, lent) = (within(request), within(buffer));
        panel(&mut self.searches[1], &request[asked], &mut buffer[lent])
    }

    /// The first so many bytes of the buffer.
    pub fn reply(&self, length: usize) -> &[u8] {
        &self.buffer.0[within(&self.buffer.0)][..length]
    }

    /// The bytes past the first so many, with those beside the buffer.
    fn rest(&self, length: usize) -> (&[u8], &[u8]) {
        let (before, lent) = self.buffer.0.split_at(MARGIN);
        (before, &lent[length..])
    }
}

/// The bytes without those on each side.
fn within(bytes: &[u8]) -> Range<usize> {
    MARGIN..bytes.len() - MARGIN
}

/// What became of a request: what was told, and all that was lent afterwards.
pub struct Answered {
    pub outcome: Outcome,
    pub written: Written,
    pub after: Lent,
}

/// One request. What is told is the model's, and so is every number of the search and its neighbours
/// and every byte of the request, of the buffer and around them. And apart from the model: the
/// request stays, and the bytes past the reply; the search stays too, unless a value is entered, and
/// then it is what `busdekker_enter` leaves.
pub fn request_agrees(case: &Case, rng: &mut Rng) -> Result<Answered, String> {
    let input = || case.show();
    let outcome = panel_model::outcome(case.search, case.request, case.size);
    let before = Lent::new(case, rng);
    let (mut model, mut library) = (before.clone(), before.clone());
    let told = model.call(panel_model::panel);
    let written = library.call(ffi::panel);
    // Looked at anew: the compiler may take for granted that what is not lent stays.
    let after = black_box(&library);
    agree((told, &model), (written, after), input)?;
    let length = written.length as usize;
    agree(&before.request, &after.request, input)?;
    agree(before.rest(length), after.rest(length), input)?;
    let mut entered = *case.search;
    if let Outcome::Entry { point, value } = outcome {
        ffi::enter(&mut entered, point, value);
    }
    agree(entered, after.searches[1], input)?;
    Ok(Answered {
        outcome,
        written,
        after: library,
    })
}

/// What requests were tried, each by itself, and what became of them.
struct Told<'a> {
    tally: &'a mut Tally,
    outcomes: Kinds,
    besides: Kinds,
}

impl Told<'_> {
    fn new(tally: &mut Tally) -> Told<'_> {
        Told {
            tally,
            outcomes: Kinds::new(&OUTCOMES),
            besides: Kinds::new(&BESIDES),
        }
    }

    /// One more request, which is compared and counted.
    fn agrees(&mut self, search: &Search, request: &[u8], size: usize, rng: &mut Rng) -> Checked {
        let case = Case {
            search,
            request,
            size,
        };
        let answered = request_agrees(&case, rng)?;
        self.tally.cases += 1;
        self.tally.count_written(&answered.written);
        self.outcomes.count(name(&answered.outcome));
        for kind in besides(&case, &answered.outcome) {
            self.besides.count(kind);
        }
        Ok(())
    }
}

/// Requests of every kind to searches of every kind, each by itself.
pub fn requests(rng: &mut Rng, tally: &mut Tally) -> Checked {
    let mut told = Told::new(tally);
    let stages = stages(rng);
    let all = [&stages[..], &refused_searches(rng)].concat();
    every_function(&all, rng, &mut told)?;
    every_length(&all, rng, &mut told)?;
    every_size(&all, rng, &mut told)?;
    reads_at_limits(&all, rng, &mut told)?;
    writes_at_limits(&all, rng, &mut told)?;
    every_word(&stages, rng, &mut told)?;
    every_value(&stages, rng, &mut told)?;
    for _ in 0..HELD {
        let request = requests::any(rng);
        told.agrees(&cases::any_search(rng), &request, size(rng), rng)?;
    }
    books(rng, &mut told)?;
    told.outcomes.all_came("requests to the panel")?;
    told.besides.all_came("of these requests")
}

/// A size of the reply's buffer: mostly enough.
pub fn size(rng: &mut Rng) -> usize {
    match rng.below(16) {
        0 => rng.below(LONGEST_REPLY),
        1 => LONGEST_REPLY,
        2 => 41 + rng.below(300),
        _ => enough(rng),
    }
}

/// A size of the reply's buffer that is always enough.
pub fn enough(rng: &mut Rng) -> usize {
    LONGEST_REPLY + rng.below(25)
}

/// Searches at each stage: fresh, after one answer, after two, on their way and at the stop.
/// Document 01's trial by M, then with a first value above target and on target; and a roaster from
/// above, by R with a share. What the fresh slots hold is any.
fn stages(rng: &mut Rng) -> Vec<Search> {
    let dryer = Opening::new(1, 0, 100, 1);
    let roaster = Opening::new(2, 60_000, 18_000, 25).with_share(2);
    let by_hand = Book::of(dryer, &[-50, 100, -10, -2, 1]);
    let mut searches = vec![
        Book::of(dryer, &[7]).search(),
        Book::of(dryer, &[0]).search(),
    ];
    for book in [by_hand, cases::answered(roaster, rng)] {
        let values = book.values();
        for n in [0, 1, 2, values.len() - 1, values.len()] {
            searches.push(Book::of(*book.opening(), &values[..n]).search());
        }
    }
    let with_junk = |search: &Search| with_junk(search, rng);
    searches.iter().map(with_junk).collect()
}

/// Searches that are refused: by their count, by their opening, and by their values.
fn refused_searches(rng: &mut Rng) -> Vec<Search> {
    let short = Opening::new(1, 0, 2, 1);
    let holding = |opening, count, first| {
        let mut search = Search::fresh(opening);
        search.count = count;
        search.slots[..2].copy_from_slice(&[first, 1]);
        search
    };
    vec![
        holding(short, COUNT_ABOVE, -1),
        holding(short, u32::MAX, -1),
        holding(cases::refused_opening(rng), 0, -1),
        holding(short, 1, 10_001),
        holding(short, 2, 1),
        holding(short, 3, -1),
        holding(short, SLOTS as u32, -1),
    ]
}

/// Every function, with requests that are otherwise right and of many lengths.
fn every_function(searches: &[Search], rng: &mut Rng, told: &mut Told) -> Checked {
    for search in searches {
        for function in 0..=u8::MAX {
            for length in LENGTHS {
                let request = of_length(function, length, rng);
                told.agrees(search, &request, enough(rng), rng)?;
            }
        }
    }
    Ok(())
}

/// Every length for some functions.
fn every_length(searches: &[Search], rng: &mut Rng, told: &mut Told) -> Checked {
    for search in searches {
        for function in FUNCTIONS {
            for length in 0..=LONGEST_REQUEST {
                let request = of_length(function, length, rng);
                told.agrees(search, &request, enough(rng), rng)?;
            }
        }
    }
    Ok(())
}

/// A request of this function and length: the beginning of one that is answered, or in every second
/// one of any, then any bytes.
fn of_length(function: u8, length: usize, rng: &mut Rng) -> Vec<u8> {
    let mut request = match function {
        _ if rng.once_in(2) => rng.bytes(5),
        WRITE => requests::enter(rng.between(-100, 100)).to_vec(),
        _ => requests::proper_read(rng).to_vec(),
    };
    request[0] = function;
    request.extend(rng.bytes(length.saturating_sub(request.len())));
    request.truncate(length);
    request
}

/// Every size of the buffer, with requests of every outcome.
fn every_size(searches: &[Search], rng: &mut Rng, told: &mut Told) -> Checked {
    let every_outcome = [
        &[][..],
        &[0],
        &[READ],
        &[WRITE],
        &[0x83, 0, 0, 0, 1],
        &READ_ALL,
        &requests::read(6, 1),
        &requests::read(0, 0),
        &requests::read(0, 8),
        &requests::write(5, 0),
        &requests::enter(10_001),
        &requests::enter(0),
        &requests::enter(-3),
        &requests::enter(3),
    ];
    for search in searches {
        for request in every_outcome {
            for size in (0..=40).chain(LARGER_SIZES) {
                told.agrees(search, request, size, rng)?;
            }
        }
    }
    Ok(())
}

/// Reads with quantities and addresses at and around the limits, in every combination.
fn reads_at_limits(searches: &[Search], rng: &mut Rng, told: &mut Told) -> Checked {
    for address in requests::addresses() {
        for quantity in requests::quantities() {
            let request = requests::read(address, quantity);
            for search in searches {
                told.agrees(search, &request, enough(rng), rng)?;
            }
        }
    }
    Ok(())
}

/// Writes with values and addresses at and around the limits, in every combination.
fn writes_at_limits(searches: &[Search], rng: &mut Rng, told: &mut Told) -> Checked {
    for address in requests::addresses() {
        for word in requests::words() {
            let request = requests::write(address, word);
            for search in searches {
                told.agrees(search, &request, enough(rng), rng)?;
            }
        }
    }
    Ok(())
}

/// Every word as the quantity and as the address of a read, and as the address of a write.
fn every_word(searches: &[Search], rng: &mut Rng, told: &mut Told) -> Checked {
    for word in 0..=u16::MAX {
        let small = rng.below(REGISTERS + 1) as u16;
        for request in [
            requests::read(small, word),
            requests::read(word, small),
            requests::write(word, small),
        ] {
            let search = rng.pick(searches);
            told.agrees(&search, &request, enough(rng), rng)?;
        }
    }
    Ok(())
}

/// Every word as a value, to each search.
fn every_value(searches: &[Search], rng: &mut Rng, told: &mut Told) -> Checked {
    for search in searches {
        for word in 0..=u16::MAX {
            let request = requests::write(VALUE_ENTRY, word);
            told.agrees(search, &request, enough(rng), rng)?;
        }
    }
    Ok(())
}

/// Books and long orders at each stage of their way.
fn books(rng: &mut Rng, told: &mut Told) -> Checked {
    for _ in 0..BOOKS {
        let book = cases::answered(cases::accepted_opening(rng), rng);
        stages_agree(book.opening(), &book.values(), rng, told)?;
    }
    for method in [1, 2] {
        let opening = cases::widest(method);
        for order in beam::longest(&opening, LONG, rng).iter().take(ORDERS) {
            stages_agree(&opening, order, rng, told)?;
        }
    }
    Ok(())
}

/// The search after none of its values, after the first, and so on: all registers are read, the next
/// value is entered, and something else is asked.
fn stages_agree(opening: &Opening, values: &[i32], rng: &mut Rng, told: &mut Told) -> Checked {
    for n in 0..=values.len() {
        let search = with_junk(&Book::of(*opening, &values[..n]).search(), rng);
        let next = values.get(n).copied().unwrap_or(0);
        let requests = [
            READ_ALL.to_vec(),
            requests::enter(next).to_vec(),
            requests::any(rng),
        ];
        for request in requests {
            told.agrees(&search, &request, size(rng), rng)?;
        }
    }
    Ok(())
}
