//! The same search as a Rust programmer would write it for speed: a running state, 64-bit
//! arithmetic, nothing on the heap. It is the benchmark's baseline.

use crate::types::{
    Answer, Answered, Dispatcher, MethodTally, Opening, Outcome, Quotation, Report, Search,
    SeasonReport, Surveyed, Written, DRYERS, FEWEST_SURVEYED, LARGEST_SEED, LONGEST_CLEAN_SHEET,
    LONGEST_REPLY, MOST_OUTCOMES, MOST_SURVEYED, NOBODY, OUTCOME_NUMBERS, REGISTERS, SLOTS,
    TALLIES,
};

const HIGHEST_POINT: i32 = 60_000;
const LARGEST_TOLERANCE: i32 = 5_000;
const LARGEST_SHARE: i32 = 100;
const LARGEST_VALUE: i32 = 10_000;
const LONGEST_TEXT: usize = 4_096;
const SERVED_CEILING: u32 = 1_000_000_000;
const LARGEST_QUANTITY: usize = 125;
const VALUE_ENTRY: u16 = 6;
const OTHER: u16 = 3;
const MULTIPLIER: u64 = 16_807;
const MODULUS: u64 = (1 << 31) - 1;

/// A point and its value.
#[derive(Clone, Copy, PartialEq, Eq, Hash)]
struct Sample {
    x: i64,
    f: i64,
}

const NONE: Sample = Sample { x: 0, f: 0 };

/// A search on its way. `call` is the point called for, of no meaning once it has stopped.
/// `last_is_b` tells which end was answered last.
#[derive(Clone, Copy, PartialEq, Eq, Hash)]
pub struct Walk {
    a: Sample,
    b: Sample,
    c: Sample,
    d: Sample,
    second: i64,
    tolerance: i64,
    share: i64,
    length: i64,
    call: i64,
    taken: u32,
    streak: u32,
    is_r: bool,
    last_is_b: bool,
    stopped: bool,
}

impl Walk {
    /// The walk at its beginning, or the number of the refusal.
    pub fn new(opening: &Opening) -> Result<Walk, u32> {
        check(opening)?;
        Ok(Walk {
            a: NONE,
            b: NONE,
            c: NONE,
            d: NONE,
            second: i64::from(opening.second),
            tolerance: i64::from(opening.tolerance),
            share: i64::from(opening.share),
            length: 0,
            call: i64::from(opening.first),
            taken: 0,
            streak: 0,
            is_r: opening.method != 1,
            last_is_b: false,
            stopped: false,
        })
    }

    /// The walk after these values, or the refusal.
    fn along(opening: &Opening, values: &[i32]) -> Result<Walk, Report> {
        let mut walk = Walk::new(opening).map_err(|number| Report::refuse(number, 0))?;
        for &value in values {
            walk.take(value)
                .map_err(|number| Report::refuse(number, walk.taken))?;
        }
        Ok(walk)
    }

    pub fn stopped(&self) -> bool {
        self.stopped
    }

    pub fn taken(&self) -> u32 {
        self.taken
    }

    /// The bracket's length; 0 below two answers.
    pub fn length(&self) -> i64 {
        self.length
    }

    /// The tolerance at the better end, from two answers on.
    pub fn tolerance_at_b(&self) -> i64 {
        self.tolerance + self.share * self.b.x / 1_000
    }

    /// The steps since the last that halved.
    pub fn streak(&self) -> u32 {
        self.streak
    }

    /// The value at the better end.
    pub fn better_value(&self) -> i64 {
        self.b.f
    }

    pub fn report(&self) -> Report {
        if self.stopped {
            let (b, c) = (self.b.x, self.c.x);
            Report::stop(b.min(c) as u32, b.max(c) as u32, b as u32, self.taken)
        } else {
            Report::next(self.call as u32, self.taken)
        }
    }

    /// Takes the value at the point called for, or gives the refusal's number.
    pub fn take(&mut self, value: i32) -> Result<(), u32> {
        if self.stopped {
            return Err(5);
        }
        if !(-LARGEST_VALUE..=LARGEST_VALUE).contains(&value) {
            return Err(7);
        }
        let new = Sample {
            x: self.call,
            f: i64::from(value),
        };
        match self.taken {
            0 => {
                self.b = new;
                self.call = self.second;
            }
            1 => {
                if self.b.f * new.f > 0 {
                    return Err(8);
                }
                self.begin(new);
            }
            _ => self.step(new),
        }
        self.taken += 1;
        if self.taken >= 2 {
            self.look();
        }
        Ok(())
    }

    /// Takes an answer that names its point, or gives the refusal's number.
    fn take_at(&mut self, point: i32, value: i32) -> Result<(), u32> {
        if !self.stopped && i64::from(point) != self.call {
            return Err(6);
        }
        self.take(value)
    }

    /// The bracket of the first two answers, of which the first stands in `b`.
    fn begin(&mut self, new: Sample) {
        self.last_is_b = new.f.abs() <= self.b.f.abs();
        if self.last_is_b {
            self.c = self.b;
            self.b = new;
        } else {
            self.c = new;
        }
        self.a = self.c;
        self.length = (self.b.x - self.c.x).abs();
    }

    /// The bracket after a third answer or a later one.
    fn step(&mut self, new: Sample) {
        let (old_a, old_b, old_length) = (self.a, self.b, self.length);
        let (last, other) = if self.last_is_b {
            (self.b, self.c)
        } else {
            (self.c, self.b)
        };
        let with_last = last.f * new.f <= 0;
        let partner = if with_last { last } else { other };
        self.last_is_b = new.f.abs() <= partner.f.abs();
        if self.last_is_b {
            (self.a, self.b, self.c, self.d) = (old_b, new, partner, old_a);
        } else {
            self.d = if partner.x == old_b.x { old_a } else { old_b };
            (self.a, self.b, self.c) = (new, partner, new);
        }
        self.length = (self.b.x - self.c.x).abs();
        let halved = 2 * self.length <= old_length + 1;
        self.streak = if halved { 0 } else { self.streak + 1 };
    }

    /// Sees whether the search has stopped, and if not, which point is called for.
    fn look(&mut self) {
        let tolerance = self.tolerance_at_b();
        self.stopped = self.length <= 2 * tolerance;
        if !self.stopped {
            let d = self.displacement(tolerance);
            self.call = self.b.x + if self.c.x > self.b.x { d } else { -d };
        }
    }

    /// The distance of the next point from b, by the tolerance there.
    fn displacement(&self, tolerance: i64) -> i64 {
        let half = self.length / 2;
        let bisecting = if self.is_r { 4 } else { 3 };
        if self.streak == bisecting {
            return half;
        }
        let is_linear = if self.is_r {
            self.taken == 2
        } else {
            self.streak < 2
        };
        let (mut num, mut den) = if is_linear {
            self.linear()
        } else {
            self.rational()
        };
        if self.is_r && self.streak == 3 {
            num *= 2;
        }
        if self.c.x > self.b.x {
            num = -num;
        }
        if den < 0 {
            (num, den) = (-num, -den);
        }
        if num < 0 || 2 * num > self.length * den {
            half
        } else if num <= tolerance * den {
            tolerance
        } else {
            num / den
        }
    }

    /// How far the linear estimate lies below b: numerator and denominator.
    fn linear(&self) -> (i64, i64) {
        let Walk { a, b, .. } = self;
        (b.f * (b.x - a.x), b.f - a.f)
    }

    /// How far the rational estimate lies below b: numerator and denominator.
    fn rational(&self) -> (i64, i64) {
        let Walk { a, b, d, .. } = self;
        let s = b.f * (a.f - d.f) * (b.x - d.x);
        let q = s - a.f * (b.f - d.f) * (a.x - d.x);
        (s * (b.x - a.x), q)
    }
}

/// Refusals 1 to 4 and 17.
fn check(opening: &Opening) -> Result<(), u32> {
    let points = 0..=HIGHEST_POINT;
    if !(0..=2).contains(&opening.method) {
        Err(1)
    } else if !points.contains(&opening.first) || !points.contains(&opening.second) {
        Err(2)
    } else if opening.first == opening.second {
        Err(3)
    } else if !(1..=LARGEST_TOLERANCE).contains(&opening.tolerance) {
        Err(4)
    } else if !(0..=LARGEST_SHARE).contains(&opening.share) {
        Err(17)
    } else {
        Ok(())
    }
}

/// A fresh search in the host's own, which stays as it is if the opening is refused.
pub fn open(search: &mut Search, opening: &Opening) -> Report {
    match Walk::new(opening) {
        Ok(walk) => {
            *search = Search::fresh(*opening);
            walk.report()
        }
        Err(number) => Report::refuse(number, 0),
    }
}

/// The walk of what a search holds, or the refusal.
fn held(search: &Search) -> Result<Walk, Report> {
    match search.slots.get(..search.count as usize) {
        Some(list) => Walk::along(&search.opening, list),
        None => Err(Report::refuse(9, 0)),
    }
}

/// The report of a held search.
pub fn ask(search: &Search) -> Report {
    match held(search) {
        Ok(walk) => walk.report(),
        Err(refusal) => refusal,
    }
}

/// An old search of the host's own, whose method 0 is M, in today's numbers: 0 becomes 1. If what it
/// holds is refused, it stays as it is.
pub fn change_over(search: &mut Search) -> Report {
    let method = search.opening.method;
    if method == 0 {
        search.opening.method = 1;
    }
    let report = ask(search);
    if report.kind == Report::REFUSED {
        search.opening.method = method;
    }
    report
}

/// An answer entered into the host's own search.
pub fn enter(search: &mut Search, point: i32, value: i32) -> Report {
    match held(search) {
        Ok(walk) => offer(search, walk, point, value),
        Err(refusal) => refusal,
    }
}

/// An answer entered into a search whose held values make this walk.
#[inline]
fn offer(search: &mut Search, mut walk: Walk, point: i32, value: i32) -> Report {
    match walk.take_at(point, value) {
        Ok(()) => {
            search.slots[search.count as usize] = value;
            search.count += 1;
            walk.report()
        }
        Err(number) => Report::refuse(number, search.count),
    }
}

/// The same by value.
pub fn entered(mut search: Search, point: i32, value: i32) -> Answered {
    let report = enter(&mut search, point, value);
    Answered { report, search }
}

/// The report of the search over a list of values.
pub fn values(opening: &Opening, values: &[i32]) -> Report {
    match Walk::along(opening, values) {
        Ok(walk) => walk.report(),
        Err(refusal) => refusal,
    }
}

/// t and the most answers that may be needed.
pub fn quote(opening: &Opening) -> Quotation {
    match check(opening) {
        Ok(()) => {
            let width = opening.first.abs_diff(opening.second);
            let whole = (width - 1) / (2 * opening.tolerance as u32);
            let t = u32::BITS - whole.leading_zeros();
            let steps = if opening.method == 1 { 4 } else { 5 };
            Quotation::quote(t, 2 + steps * t)
        }
        Err(number) => Quotation::refuse(number),
    }
}

/// The program's report of a sheet. Places are record numbers.
pub fn sheet(text: &[u8]) -> Report {
    if text.len() > LONGEST_TEXT {
        return Report::refuse(10, 0);
    }
    let mut answers = [(0, 0); SLOTS];
    let (opening, count) = match read(text, &mut answers) {
        Ok(read) => read,
        Err(refusal) => return refusal,
    };
    let mut walk = match Walk::new(&opening) {
        Ok(walk) => walk,
        Err(number) => return Report::refuse(number, 1),
    };
    for &(point, value) in &answers[..count] {
        if let Err(number) = walk.take_at(point, value) {
            return Report::refuse(number, walk.taken + 2);
        }
    }
    walk.report()
}

/// The outcome of a sheet in four numbers. Its first record is read once more for it.
pub fn sheet_outcome(text: &[u8]) -> Outcome {
    let opening = match text.len() {
        0..=LONGEST_TEXT => Reader { rest: text }.opening(),
        _ => None,
    };
    let method = match &opening {
        Some(opening) if (0..=2).contains(&opening.method) => opening.method as u16,
        _ => OTHER,
    };
    let report = sheet(text);
    let kind = match report.kind {
        Report::STOP => Outcome::STOPPED,
        Report::NEXT => Outcome::UNFINISHED,
        _ => return Outcome::new(Outcome::REFUSED, method, 0, 0),
    };
    let most = opening.map_or(0, |opening| quote(&opening).most);
    Outcome::new(kind, method, report.taken as u16, most as u16)
}

/// The season report on a run of outcomes, four numbers for each, in one walk over them.
pub fn season(numbers: &[u16]) -> SeasonReport {
    let (run, rest) = numbers.as_chunks::<OUTCOME_NUMBERS>();
    if run.len() > MOST_OUTCOMES || !rest.is_empty() {
        return SeasonReport::refuse(19);
    }
    let mut tallies = [MethodTally::default(); TALLIES];
    for &[kind, method, answers, quoted] in run {
        let tally = &mut tallies[usize::from(method.min(OTHER))];
        match kind {
            Outcome::STOPPED => tally.stopped += 1,
            Outcome::UNFINISHED => tally.unfinished += 1,
            _ => {
                tally.refused += 1;
                continue;
            }
        }
        tally.answers += u32::from(answers);
        tally.quoted += u32::from(quoted);
        tally.largest = tally.largest.max(answers.into());
    }
    SeasonReport::season(run.len() as u32, tallies)
}

/// Reads the records: the opening and how many answers there are, or refusal 11 or 12.
fn read(text: &[u8], answers: &mut [(i32, i32); SLOTS]) -> Result<(Opening, usize), Report> {
    let mut reader = Reader { rest: text };
    let opening = reader.opening().ok_or(Report::refuse(12, 1))?;
    let mut count = 0;
    while !reader.rest.is_empty() {
        let record = count as u32 + 2;
        let slot = answers.get_mut(count).ok_or(Report::refuse(11, record))?;
        *slot = reader.answer().ok_or(Report::refuse(12, record))?;
        count += 1;
    }
    Ok((opening, count))
}

/// Reads from the front of what is left. None where the form is wrong, and reading ends there.
struct Reader<'a> {
    rest: &'a [u8],
}

impl Reader<'_> {
    fn opening(&mut self) -> Option<Opening> {
        let method = self.field()?;
        let first = self.field()?;
        let second = self.field()?;
        let opening = Opening::new(method, first, second, self.unquoted()?);
        let share = match self.rest.strip_prefix(b",") {
            Some(rest) => {
                self.rest = rest;
                self.unquoted()?
            }
            None => 0,
        };
        self.line_end()?;
        Some(opening.with_share(share))
    }

    fn answer(&mut self) -> Option<(i32, i32)> {
        let point = self.field()?;
        let value = self.unquoted()?;
        self.line_end()?;
        Some((point, value))
    }

    /// A field and the comma after it.
    fn field(&mut self) -> Option<i32> {
        let number = self.unquoted()?;
        self.rest = self.rest.strip_prefix(b",")?;
        Some(number)
    }

    /// The CR LF of a record, or the end of the text.
    fn line_end(&mut self) -> Option<()> {
        if !self.rest.is_empty() {
            self.rest = self.rest.strip_prefix(b"\r\n")?;
        }
        Some(())
    }

    /// A number, or one between two double quotes.
    fn unquoted(&mut self) -> Option<i32> {
        let [b'"', rest @ ..] = self.rest else {
            return self.number();
        };
        self.rest = rest;
        let number = self.number()?;
        self.rest = self.rest.strip_prefix(b"\"")?;
        Some(number)
    }

    fn number(&mut self) -> Option<i32> {
        let (minus, rest) = match self.rest {
            [b'-', rest @ ..] => (true, rest),
            rest => (false, rest),
        };
        let mut size = 0;
        let mut digits = 0;
        while let Some(byte @ b'0'..=b'9') = rest.get(digits) {
            if digits == 5 {
                return None;
            }
            size = size * 10 + i32::from(byte - b'0');
            digits += 1;
        }
        if digits == 0 {
            return None;
        }
        self.rest = &rest[digits..];
        Some(if minus { -size } else { size })
    }
}

/// The clean sheet of a held search, written at the beginning of the buffer. It is spelt on the
/// stack while the search is walked, and copied when nothing can be refused any more: that is
/// quicker than to keep the points, add up the length and then write.
pub fn write(search: &Search, buffer: &mut [u8]) -> Written {
    let mut text = [0; LONGEST_CLEAN_SHEET];
    let length = match spell(search, &mut text) {
        Ok(length) => length,
        Err(refusal) => return Written::refuse(refusal.number, refusal.place),
    };
    match buffer.get_mut(..length) {
        Some(sheet) => {
            sheet.copy_from_slice(&text[..length]);
            Written::bytes(length as u32)
        }
        None => Written::refuse(13, 0),
    }
}

/// The clean sheet of a held search and its length, or the refusal.
fn spell(search: &Search, text: &mut [u8; LONGEST_CLEAN_SHEET]) -> Result<usize, Report> {
    let values = search.slots.get(..search.count as usize);
    let values = values.ok_or(Report::refuse(9, 0))?;
    let mut walk = Walk::new(&search.opening).map_err(|number| Report::refuse(number, 0))?;
    let mut writer = Writer { text, length: 0 };
    writer.opening(&search.opening);
    for &value in values {
        let point = walk.call as i32;
        walk.take(value)
            .map_err(|number| Report::refuse(number, walk.taken))?;
        writer.answer(point, value);
    }
    Ok(writer.length)
}

/// Writes after what is written already.
struct Writer<'a> {
    text: &'a mut [u8; LONGEST_CLEAN_SHEET],
    length: usize,
}

impl Writer<'_> {
    fn opening(&mut self, opening: &Opening) {
        self.number(opening.method);
        self.byte(b',');
        self.number(opening.first);
        self.byte(b',');
        self.number(opening.second);
        self.byte(b',');
        self.number(opening.tolerance);
        if opening.share != 0 {
            self.byte(b',');
            self.number(opening.share);
        }
        self.line_end();
    }

    fn answer(&mut self, point: i32, value: i32) {
        self.number(point);
        self.byte(b',');
        self.number(value);
        self.line_end();
    }

    fn number(&mut self, number: i32) {
        if number < 0 {
            self.byte(b'-');
        }
        let mut size = number.unsigned_abs();
        let end = self.length + digits(size);
        for digit in self.text[self.length..end].iter_mut().rev() {
            *digit = b'0' + (size % 10) as u8;
            size /= 10;
        }
        self.length = end;
    }

    fn line_end(&mut self) {
        self.byte(b'\r');
        self.byte(b'\n');
    }

    fn byte(&mut self, byte: u8) {
        self.text[self.length] = byte;
        self.length += 1;
    }
}

/// How many digits a number of at most five has.
fn digits(size: u32) -> usize {
    match size {
        0..=9 => 1,
        10..=99 => 2,
        100..=999 => 3,
        1_000..=9_999 => 4,
        _ => 5,
    }
}

/// A panel's request answered from the host's own search, the reply written at the beginning of its
/// buffer.
pub fn panel(search: &mut Search, request: &[u8], buffer: &mut [u8]) -> Written {
    let Some(reply) = buffer.first_chunk_mut() else {
        return Written::refuse(18, 0);
    };
    let Some(function) = request.first() else {
        return Written::bytes(0);
    };
    let length = answer(search, request, reply).unwrap_or_else(|exception| {
        [reply[0], reply[1]] = [function | 0x80, exception];
        2
    });
    Written::bytes(length as u32)
}

/// The reply to a request that is not empty and its length, or the exception's number.
fn answer(
    search: &mut Search,
    request: &[u8],
    reply: &mut [u8; LONGEST_REPLY],
) -> Result<usize, u8> {
    let walk = held(search).map_err(|_| 4)?;
    let function = request[0];
    if function != 3 && function != 6 {
        return Err(1);
    }
    let &[_, a, b, c, d] = request else {
        return Err(3);
    };
    let address = u16::from_be_bytes([a, b]);
    if function == 3 {
        let quantity = u16::from_be_bytes([c, d]).into();
        return show(&walk.report(), address.into(), quantity, reply);
    }
    if address != VALUE_ENTRY {
        return Err(2);
    }
    let (point, value) = (walk.call as i32, i16::from_be_bytes([c, d]).into());
    if offer(search, walk, point, value).kind == Report::REFUSED {
        return Err(3);
    }
    reply[..request.len()].copy_from_slice(request);
    Ok(request.len())
}

/// The reply to a read and its length, or the exception's number.
fn show(
    report: &Report,
    address: usize,
    quantity: usize,
    reply: &mut [u8; LONGEST_REPLY],
) -> Result<usize, u8> {
    if !(1..=LARGEST_QUANTITY).contains(&quantity) {
        return Err(3);
    }
    let registers = registers(report);
    let read = registers.get(address..address + quantity).ok_or(2)?;
    [reply[0], reply[1]] = [3, 2 * quantity as u8];
    for (word, register) in reply[2..].chunks_exact_mut(2).zip(read) {
        word.copy_from_slice(&register.to_be_bytes());
    }
    Ok(2 + 2 * quantity)
}

/// The registers of a search that reports so. A number that the report's kind has not is 0.
fn registers(report: &Report) -> [u16; REGISTERS] {
    let flags = if report.kind == Report::NEXT { 1 } else { 2 };
    [
        flags,
        report.point as u16,
        report.lower as u16,
        report.upper as u16,
        report.better as u16,
        report.taken as u16,
        0,
    ]
}

/// The draw after this one, or the first after a seed. 2^31 is 1 modulo the modulus: the bits of the
/// product above the lowest 31 are added to these, and nothing is divided.
pub fn draw(last: u32) -> u32 {
    let product = MULTIPLIER * u64::from(last);
    let sum = (product & MODULUS) + (product >> 31);
    let draw = if sum < MODULUS { sum } else { sum - MODULUS };
    draw as u32
}

/// The trial load of a seed, walked while its values are drawn.
pub fn load(seed: u32) -> Answered {
    if !(1..=LARGEST_SEED).contains(&seed) {
        return Answered::refuse(20);
    }
    let mut last = seed;
    let mut modulo = |divisor: i32| {
        last = draw(last);
        (last % divisor as u32) as i32
    };
    let opening = drawn_opening(&mut modulo);
    let mut walk = Walk::new(&opening).expect("what is drawn is in range");
    let mut search = Search::fresh(opening);
    while !walk.stopped {
        let mut value = modulo(2 * LARGEST_VALUE + 1) - LARGEST_VALUE;
        if walk.taken == 1 && walk.b.f * i64::from(value) > 0 {
            value = -value;
        }
        search.slots[walk.taken as usize] = value;
        walk.take(value).expect("what is drawn is accepted");
    }
    search.count = walk.taken;
    let report = walk.report();
    Answered { report, search }
}

/// The opening of a trial load, from what the next draws are modulo some number.
#[inline]
fn drawn_opening(modulo: &mut impl FnMut(i32) -> i32) -> Opening {
    let points = HIGHEST_POINT + 1;
    let first = modulo(points);
    let mut second = modulo(points);
    if second == first {
        second = (first + 1) % points;
    }
    let tolerance = 1 + modulo(LARGEST_TOLERANCE);
    let method = 1 + modulo(2);
    Opening::new(method, first, second, tolerance)
}

/// A survey. Its pairs are counted before any is written, for a list that is too short stays as it is.
pub fn survey(lowest: i32, pitch: i32, values: &[i32], list: &mut [u32]) -> Surveyed {
    if !well_placed(lowest, pitch, values.len()) {
        return Surveyed::refuse(21, 0);
    }
    let in_range = -LARGEST_VALUE..=LARGEST_VALUE;
    if let Some(place) = values.iter().position(|value| !in_range.contains(value)) {
        return Surveyed::refuse(7, place as u32);
    }
    let is_pair = |two: &[i32]| two[0] * two[1] <= 0;
    let pairs = values.windows(2).filter(|two| is_pair(two)).count();
    let Some(list) = list.get_mut(..pairs) else {
        return Surveyed::refuse(22, 0);
    };
    let points = (lowest as u32..).step_by(pitch as usize);
    let neighbours = values.windows(2).zip(points);
    let lower = neighbours.filter(|(two, _)| is_pair(two));
    for (place, (_, point)) in list.iter_mut().zip(lower) {
        *place = point;
    }
    Surveyed::found(pairs as u32)
}

/// Whether a survey of so many values has enough of them and not too many, and its points in range.
fn well_placed(lowest: i32, pitch: i32, values: usize) -> bool {
    if !(FEWEST_SURVEYED..=MOST_SURVEYED).contains(&values) || pitch < 1 || lowest < 0 {
        return false;
    }
    let last = i64::from(lowest) + (values as i64 - 1) * i64::from(pitch);
    last <= i64::from(HIGHEST_POINT)
}

/// The dryer that has the oven's turn, with the walk of its search.
fn turn_walk(dispatcher: &Dispatcher) -> Option<(usize, Walk)> {
    let first = match dispatcher.last as usize {
        last @ 0..DRYERS => last + 1,
        _ => 0,
    };
    (first..first + DRYERS).find_map(|place| {
        let dryer = place % DRYERS;
        let walk = held(&dispatcher.searches[dryer]).ok()?;
        (!walk.stopped).then_some((dryer, walk))
    })
}

/// The dryer that has the oven's turn, or nobody.
pub fn dispatch_turn(dispatcher: &Dispatcher) -> u32 {
    turn_walk(dispatcher).map_or(NOBODY, |(dryer, _)| dryer as u32)
}

/// A fresh search at a dryer whose search is not on its way.
pub fn dispatch_open(dispatcher: &mut Dispatcher, dryer: u32, opening: &Opening) -> Report {
    let Some(search) = dispatcher.searches.get_mut(dryer as usize) else {
        return Report::refuse(14, 0);
    };
    match held(search) {
        Ok(walk) if !walk.stopped => Report::refuse(16, 0),
        _ => open(search, opening),
    }
}

/// An answer for the dryer that has the turn. The walk that finds the turn takes it.
pub fn dispatch_enter(dispatcher: &mut Dispatcher, dryer: u32, answer: Answer) -> Report {
    if dryer as usize >= DRYERS {
        return Report::refuse(14, 0);
    }
    let walk = match turn_walk(dispatcher) {
        Some((turn, walk)) if turn == dryer as usize => walk,
        _ => return Report::refuse(15, 0),
    };
    let search = &mut dispatcher.searches[dryer as usize];
    let report = offer(search, walk, answer.point, answer.value);
    if report.kind != Report::REFUSED {
        dispatcher.last = dryer;
        let count = &mut dispatcher.counts[dryer as usize];
        if *count < SERVED_CEILING {
            *count += 1;
        }
    }
    report
}

/// The report of a dryer.
pub fn dispatch_ask(dispatcher: &Dispatcher, dryer: u32) -> Report {
    match dispatcher.searches.get(dryer as usize) {
        Some(search) => ask(search),
        None => Report::refuse(14, 0),
    }
}
