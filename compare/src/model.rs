//! The model, from document 01 and the requests since, and from nothing else. Slow and plain:
//! exact fractions, brackets kept in a list, the streak found by looking back over that list, and
//! every report worked out from the beginning. The functions outside `Reading` read method 0 as it
//! is read today.

use crate::types::{Opening, Quotation, Report, Search, Written, SLOTS};
use std::cmp::Ordering;
use std::ops::RangeInclusive;

/// The algorithms.
#[derive(Clone, Copy, Debug, PartialEq, Eq)]
enum Algorithm {
    M,
    R,
}

/// How methods are read: the algorithm that the house default, method 0, stands for.
#[derive(Clone, Copy, Debug, PartialEq, Eq)]
pub struct Reading {
    house: Algorithm,
}

/// Since request 2026-08 the house default is R.
pub const TODAY: Reading = Reading {
    house: Algorithm::R,
};

/// Until then it was M, and old sheets and old searches are read so.
pub const OLD: Reading = Reading {
    house: Algorithm::M,
};

impl Reading {
    /// The algorithm of a method that is not refused.
    fn algorithm(self, method: i32) -> Algorithm {
        match method {
            0 => self.house,
            1 => Algorithm::M,
            2 => Algorithm::R,
            _ => panic!("method {method} stands for no algorithm"),
        }
    }
}

/// An exact fraction. The denominator is above 0.
#[derive(Clone, Copy, Debug)]
struct Ratio {
    num: i128,
    den: i128,
}

impl Ratio {
    /// `den` is of either sign, and not 0.
    fn new(num: i128, den: i128) -> Self {
        assert_ne!(den, 0);
        Ratio {
            num: num * den.signum(),
            den: den.abs(),
        }
    }

    fn whole(num: i128) -> Self {
        Ratio::new(num, 1)
    }

    fn times(self, n: i128) -> Self {
        Ratio::new(self.num * n, self.den)
    }

    fn floor(self) -> i128 {
        self.num.div_euclid(self.den)
    }
}

impl PartialEq for Ratio {
    fn eq(&self, other: &Self) -> bool {
        self.num * other.den == other.num * self.den
    }
}

impl PartialOrd for Ratio {
    fn partial_cmp(&self, other: &Self) -> Option<Ordering> {
        (self.num * other.den).partial_cmp(&(other.num * self.den))
    }
}

/// An answer: a point and its value F(p).
#[derive(Clone, Copy, Debug, PartialEq, Eq)]
pub struct Answer {
    pub point: i128,
    pub value: i128,
}

/// A bracket: b is the better end, c the other. d is absent before the third answer.
#[derive(Clone, Copy, Debug)]
struct Bracket {
    a: Answer,
    b: Answer,
    c: Answer,
    d: Option<Answer>,
}

impl Bracket {
    /// L.
    fn length(&self) -> i128 {
        (self.b.point - self.c.point).abs()
    }

    /// 1 if c is above b, −1 if below.
    fn direction(&self) -> i128 {
        (self.c.point - self.b.point).signum()
    }
}

/// Rule 1.
fn first_bracket(at0: Answer, at1: Answer) -> Bracket {
    let (b, c) = if at1.value.abs() <= at0.value.abs() {
        (at1, at0)
    } else {
        (at0, at1)
    };
    let (a, d) = (c, None);
    Bracket { a, b, c, d }
}

/// Rule 6: `x` is the new answer, `before` the one just before it.
fn next_bracket(old: &Bracket, before: Answer, x: Answer) -> Bracket {
    let partner = if before.value * x.value <= 0 {
        before
    } else if before == old.b {
        old.c
    } else {
        old.b
    };
    let (a, b, c) = if x.value.abs() <= partner.value.abs() {
        (old.b, x, partner)
    } else {
        (x, partner, x)
    };
    let d = if b == x || b == old.b { old.a } else { old.b };
    let d = Some(d);
    Bracket { a, b, c, d }
}

/// The brackets after the second answer, the third and so on. None below two answers.
fn brackets(answers: &[Answer]) -> Vec<Bracket> {
    let mut list = Vec::new();
    for k in 1..answers.len() {
        list.push(match list.last() {
            None => first_bracket(answers[0], answers[1]),
            Some(old) => next_bracket(old, answers[k - 1], answers[k]),
        });
    }
    list
}

/// Rule 7: whether a step halves.
fn halves(old: &Bracket, new: &Bracket) -> bool {
    2 * new.length() <= old.length() + 1
}

/// Rule 7: s, by looking back over the brackets to the last halving step, or to the first of all.
fn streak(list: &[Bracket]) -> usize {
    let steps = list.windows(2).rev();
    steps.take_while(|pair| !halves(&pair[0], &pair[1])).count()
}

/// Rule 4: u, or none where D is to be L/2 rounded down.
fn linear(now: &Bracket) -> Option<Ratio> {
    let (a, b) = (now.a, now.b);
    if b.value == a.value {
        return (b.value == 0).then_some(Ratio::whole(0));
    }
    let from_b = Ratio::new(-b.value * (b.point - a.point), b.value - a.value);
    Some(from_b.times(now.direction()))
}

/// Rule 5: u, or none where D is to be L/2 rounded down.
fn rational(now: &Bracket) -> Option<Ratio> {
    let (a, b) = (now.a, now.b);
    let d = now.d.expect("d is there from the third answer on");
    let s = b.value * (a.value - d.value) * (b.point - d.point);
    let q = s - a.value * (b.value - d.value) * (a.point - d.point);
    if q == 0 {
        return (s == 0).then_some(Ratio::whole(0));
    }
    let from_b = Ratio::new(-s * (b.point - a.point), q);
    Some(from_b.times(now.direction()))
}

/// Rule 8: u for the next step, or none where D is to be L/2 rounded down.
fn estimate(algorithm: Algorithm, list: &[Bracket]) -> Option<Ratio> {
    let now = &list[list.len() - 1];
    let s = streak(list);
    match algorithm {
        Algorithm::M => match s {
            0 | 1 => linear(now),
            2 => rational(now),
            3 => None,
            _ => panic!("M with a streak of {s}"),
        },
        Algorithm::R => match s {
            _ if list.len() == 1 => linear(now),
            0..=2 => rational(now),
            3 => rational(now).map(|u| u.times(2)),
            4 => None,
            _ => panic!("R with a streak of {s}"),
        },
    }
}

/// Rule 3: D, from the tolerance at b.
fn displacement(u: Option<Ratio>, length: i128, tolerance: i128) -> i128 {
    let (zero, least) = (Ratio::whole(0), Ratio::whole(tolerance));
    let half = Ratio::new(length, 2);
    match u {
        Some(u) if zero <= u && u <= least => tolerance,
        Some(u) if least < u && u <= half => u.floor(),
        _ => half.floor(),
    }
}

/// Request 2026-07: the tolerance at a point, τ plus the whole part of p·b/1,000.
fn tolerance_at(opening: &Opening, b: Answer) -> i128 {
    let part = Ratio::new(i128::from(opening.share) * b.point, 1_000);
    i128::from(opening.tolerance) + part.floor()
}

/// Where a search stands: at the stop with this bracket, or with this point called for.
enum Stand {
    Stop(Bracket),
    Call(i128),
}

/// Rules 1 to 8 applied to answers that were all accepted, of an accepted opening.
fn stand(reading: Reading, opening: &Opening, answers: &[Answer]) -> Stand {
    let list = brackets(answers);
    let now = match (answers.len(), list.last()) {
        (0, _) => return Stand::Call(opening.first.into()),
        (_, None) => return Stand::Call(opening.second.into()),
        (_, Some(now)) => now,
    };
    let tolerance = tolerance_at(opening, now.b);
    // Rule 2.
    if now.length() <= 2 * tolerance {
        return Stand::Stop(*now);
    }
    let u = estimate(reading.algorithm(opening.method), &list);
    let d = displacement(u, now.length(), tolerance);
    Stand::Call(now.b.point + d * now.direction())
}

/// The report of answers that were all accepted.
fn report_of(reading: Reading, opening: &Opening, answers: &[Answer]) -> Report {
    let taken = answers.len() as u32;
    match stand(reading, opening, answers) {
        Stand::Call(point) => Report::next(point as u32, taken),
        Stand::Stop(Bracket { b, c, .. }) => {
            let (lower, upper) = (b.point.min(c.point), b.point.max(c.point));
            Report::stop(lower as u32, upper as u32, b.point as u32, taken)
        }
    }
}

/// Refusals 1 to 4, and then 17: the first that applies.
pub fn refused_opening(opening: &Opening) -> Option<u32> {
    let end = 0..=60_000;
    if ![0, 1, 2].contains(&opening.method) {
        Some(1)
    } else if !end.contains(&opening.first) || !end.contains(&opening.second) {
        Some(2)
    } else if opening.first == opening.second {
        Some(3)
    } else if !(1..=5_000).contains(&opening.tolerance) {
        Some(4)
    } else if !(0..=100).contains(&opening.share) {
        Some(17)
    } else {
        None
    }
}

/// Refusal 7: the value is out of range.
fn out_of_range(value: i32) -> bool {
    !(-10_000..=10_000).contains(&value)
}

/// Refusal 8: a second answer whose value has the sign of the first.
fn same_side(answers: &[Answer], value: i32) -> bool {
    answers.len() == 1 && answers[0].value * i128::from(value) > 0
}

/// The search over a list of values: the answers that they make, or the refusal and its index.
fn walk(reading: Reading, opening: &Opening, values: &[i32]) -> Result<Vec<Answer>, Report> {
    if let Some(number) = refused_opening(opening) {
        return Err(Report::refuse(number, 0));
    }
    let mut answers = Vec::new();
    for (index, &value) in values.iter().enumerate() {
        let refuse = |number| Err(Report::refuse(number, index as u32));
        let Stand::Call(point) = stand(reading, opening, &answers) else {
            return refuse(5);
        };
        if out_of_range(value) {
            return refuse(7);
        }
        if same_side(&answers, value) {
            return refuse(8);
        }
        let value = value.into();
        answers.push(Answer { point, value });
    }
    Ok(answers)
}

impl Reading {
    /// The report of the search over a list of values.
    pub fn values(self, opening: &Opening, values: &[i32]) -> Report {
        match walk(self, opening, values) {
            Ok(answers) => report_of(self, opening, &answers),
            Err(refusal) => refusal,
        }
    }
}

/// The report of the search over a list of values.
pub fn values(opening: &Opening, values: &[i32]) -> Report {
    TODAY.values(opening, values)
}

/// A fresh search in the host's own, which stays as it is if the opening is refused.
pub fn open(search: &mut Search, opening: &Opening) -> Report {
    if refused_opening(opening).is_none() {
        *search = Search::fresh(*opening);
    }
    values(opening, &[])
}

/// The values that a search holds. Refusal 9 if it says that it holds more than it has slots.
fn held(search: &Search) -> Result<&[i32], Report> {
    let count = search.count as usize;
    search.slots.get(..count).ok_or(Report::refuse(9, 0))
}

impl Reading {
    /// The report of a held search.
    pub fn ask(self, search: &Search) -> Report {
        match held(search) {
            Ok(list) => self.values(&search.opening, list),
            Err(refusal) => refusal,
        }
    }
}

/// The report of a held search.
pub fn ask(search: &Search) -> Report {
    TODAY.ask(search)
}

/// An answer entered into the host's own search.
pub fn enter(search: &mut Search, point: i32, value: i32) -> Report {
    match offered(search, point, value) {
        Some(refusal) => refusal,
        None => {
            search.slots[search.count as usize] = value;
            search.count += 1;
            ask(search)
        }
    }
}

/// The refusal, if there is one, of an answer offered to a held search. What is held comes first.
fn offered(search: &Search, point: i32, value: i32) -> Option<Report> {
    let answers = match held(search).and_then(|list| walk(TODAY, &search.opening, list)) {
        Ok(answers) => answers,
        Err(refusal) => return Some(refusal),
    };
    let refuse = |number| Some(Report::refuse(number, search.count));
    match stand(TODAY, &search.opening, &answers) {
        Stand::Stop(_) => refuse(5),
        Stand::Call(called) if called != i128::from(point) => refuse(6),
        Stand::Call(_) if out_of_range(value) => refuse(7),
        Stand::Call(_) if same_side(&answers, value) => refuse(8),
        Stand::Call(_) => None,
    }
}

impl Reading {
    /// Demand 3's t, the least for which τ·2^(t+1) reaches the distance, and the most answers. Both
    /// are from τ alone, whatever p is.
    pub fn quote(self, opening: &Opening) -> Quotation {
        if let Some(number) = refused_opening(opening) {
            return Quotation::refuse(number);
        }
        let distance = i64::from(opening.first.abs_diff(opening.second));
        let enough = |t: &u32| i64::from(opening.tolerance) << (t + 1) >= distance;
        let t = (0..).find(enough).expect("there is a least t");
        let steps = match self.algorithm(opening.method) {
            Algorithm::M => 4,
            Algorithm::R => 5,
        };
        Quotation::quote(t, 2 + steps * t)
    }
}

/// t and the most answers.
pub fn quote(opening: &Opening) -> Quotation {
    TODAY.quote(opening)
}

/// The trial book: a list of answers. It is fed the opening and the answers offered, nothing else.
pub struct Book {
    reading: Reading,
    opening: Opening,
    answers: Vec<Answer>,
}

impl Reading {
    /// The book of an accepted opening.
    pub fn book(self, opening: Opening) -> Book {
        assert_eq!(refused_opening(&opening), None);
        Book {
            reading: self,
            opening,
            answers: Vec::new(),
        }
    }

    /// The book of an accepted opening and values that are all accepted, each offered at the point
    /// called for.
    pub fn book_of(self, opening: Opening, values: &[i32]) -> Book {
        let mut book = self.book(opening);
        for &value in values {
            let point = book.called().expect("no value comes after the stop");
            book.offer(point, value);
        }
        assert_eq!(book.values(), values);
        book
    }
}

impl Book {
    /// The book of an accepted opening.
    pub fn new(opening: Opening) -> Self {
        TODAY.book(opening)
    }

    /// The book of an accepted opening and values that are all accepted.
    pub fn of(opening: Opening, values: &[i32]) -> Self {
        TODAY.book_of(opening, values)
    }

    pub fn answers(&self) -> &[Answer] {
        &self.answers
    }

    /// The answers as a host enters them: points and values.
    pub fn pairs(&self) -> Vec<(i32, i32)> {
        let pair = |x: &Answer| (x.point as i32, x.value as i32);
        self.answers.iter().map(pair).collect()
    }

    pub fn opening(&self) -> &Opening {
        &self.opening
    }

    /// The values in order.
    pub fn values(&self) -> Vec<i32> {
        self.answers.iter().map(|x| x.value as i32).collect()
    }

    pub fn report(&self) -> Report {
        report_of(self.reading, &self.opening, &self.answers)
    }

    /// The point called for; none at the stop.
    pub fn called(&self) -> Option<i32> {
        match stand(self.reading, &self.opening, &self.answers) {
            Stand::Call(point) => Some(point as i32),
            Stand::Stop(_) => None,
        }
    }

    /// The last two ends, the better one first; none below two answers.
    pub fn ends(&self) -> Option<(Answer, Answer)> {
        brackets(&self.answers).last().map(|now| (now.b, now.c))
    }

    /// An offered answer is tried against the row "Each answer in turn", in its order.
    pub fn offer(&mut self, point: i32, value: i32) -> Report {
        let n = self.answers.len();
        let called = self.called();
        let new = Answer {
            point: point.into(),
            value: value.into(),
        };
        let signs = || (self.answers[0].value.signum(), new.value.signum());
        let row = [
            (5, called.is_none()),
            (6, called != Some(point)),
            (7, new.value.abs() > 10_000),
            (8, n == 1 && matches!(signs(), (1, 1) | (-1, -1))),
        ];
        if let Some((number, _)) = row.iter().find(|(_, applies)| *applies) {
            return Report::refuse(*number, n as u32);
        }
        self.answers.push(new);
        self.report()
    }

    /// What the search holds after the run.
    pub fn search(&self) -> Search {
        let mut search = Search::fresh(self.opening);
        search.count = self.answers.len() as u32;
        let slots = search.slots.iter_mut();
        slots.zip(self.values()).for_each(|(slot, v)| *slot = v);
        search
    }
}

impl Reading {
    /// The clean sheet of a held search, its method as held, or the refusal of the search itself.
    pub fn clean(self, search: &Search) -> Result<Vec<u8>, Report> {
        let answers = walk(self, &search.opening, held(search)?)?;
        Ok(clean_records(&search.opening, &answers))
    }
}

/// The clean sheet of a held search, or the refusal of the search itself.
pub fn clean(search: &Search) -> Result<Vec<u8>, Report> {
    TODAY.clean(search)
}

/// The clean sheet of a held search written into a lent buffer. Past the sheet, and where
/// something is refused, the buffer stays as it is.
pub fn write(search: &Search, buffer: &mut [u8]) -> Written {
    let sheet = match clean(search) {
        Ok(sheet) => sheet,
        Err(refusal) => return Written::refuse(refusal.number, refusal.place),
    };
    if buffer.len() < sheet.len() {
        return Written::refuse(13, 0);
    }
    buffer[..sheet.len()].copy_from_slice(&sheet);
    Written::bytes(sheet.len() as u32)
}

/// What the program `clean` writes for a text: the clean sheet of the search that it is, or the
/// record of the refusal.
pub fn clean_text(text: &[u8]) -> Vec<u8> {
    match read(text) {
        Ok(book) => clean_records(&book.opening, &book.answers),
        Err(refusal) => refuse_record(&refusal),
    }
}

/// The record that a program writes for a sheet that is refused.
fn refuse_record(refusal: &Report) -> Vec<u8> {
    format!("{refusal}\r\n").into_bytes()
}

/// Request 2026-08: the opening under which an old search goes on. The house default of its day
/// has become method 1; methods 1 and 2 are kept.
fn changed_over(old: &Opening) -> Opening {
    match old.method {
        0 => Opening { method: 1, ..*old },
        _ => *old,
    }
}

/// Request 2026-08: what the program `old_default` writes for a text. It is read with 0 as M, and
/// its clean sheet has method 1 in the place of 0; or it is the record of that reading's refusal.
pub fn old_default(text: &[u8]) -> Vec<u8> {
    match OLD.read(text) {
        Ok(book) => clean_records(&changed_over(&book.opening), &book.answers),
        Err(refusal) => refuse_record(&refusal),
    }
}

/// The same for the host's own search, which stays as it is if the old reading refuses it. The
/// report is that of the old reading.
pub fn change_over(search: &mut Search) -> Report {
    let report = OLD.ask(search);
    if report.kind != Report::REFUSED {
        search.opening = changed_over(&search.opening);
    }
    report
}

/// The opening with its method as held, and its share if it is not 0; then every answer with its
/// point.
fn clean_records(opening: &Opening, answers: &[Answer]) -> Vec<u8> {
    let o = opening;
    let mut head = vec![o.method, o.first, o.second, o.tolerance];
    if o.share != 0 {
        head.push(o.share);
    }
    let head: Vec<i128> = head.into_iter().map(i128::from).collect();
    let mut text = clean_record(&head);
    for answer in answers {
        text += &clean_record(&[answer.point, answer.value]);
    }
    text.into_bytes()
}

/// No quotes, no leading zeros, no −0, CR LF at the end: numbers as Rust prints them.
fn clean_record(numbers: &[i128]) -> String {
    let fields: Vec<String> = numbers.iter().map(i128::to_string).collect();
    fields.join(",") + "\r\n"
}

impl Reading {
    /// The sheet reader: the program's report of a text. Places are record numbers.
    pub fn sheet(self, text: &[u8]) -> Report {
        match self.read(text) {
            Ok(book) => book.report(),
            Err(refusal) => refusal,
        }
    }

    /// The book that a text is, its answers all taken, or the refusal. Places are record numbers.
    pub fn read(self, text: &[u8]) -> Result<Book, Report> {
        let rows = rows(text)?;
        let opening = opening_of(&rows[0]);
        if let Some(number) = refused_opening(&opening) {
            return Err(Report::refuse(number, 1));
        }
        let mut answers: Vec<Answer> = Vec::new();
        for (row, record) in rows[1..].iter().zip(2..) {
            let (point, value) = (i128::from(row[0]), i128::from(row[1]));
            let cause = match stand(self, &opening, &answers) {
                Stand::Stop(_) => 5,
                Stand::Call(called) if point != called => 6,
                Stand::Call(_) if !(-10_000..=10_000).contains(&value) => 7,
                Stand::Call(_) if answers.len() == 1 && answers[0].value * value > 0 => 8,
                Stand::Call(_) => {
                    answers.push(Answer { point, value });
                    continue;
                }
            };
            return Err(Report::refuse(cause, record));
        }
        Ok(Book {
            reading: self,
            opening,
            answers,
        })
    }
}

/// The program's report of a text.
pub fn sheet(text: &[u8]) -> Report {
    TODAY.sheet(text)
}

/// The book that a text is, or the refusal.
pub fn read(text: &[u8]) -> Result<Book, Report> {
    TODAY.read(text)
}

/// The opening in the first record of a text, in range or not, and whatever stands in the others. None
/// where the form of that record is wrong, where it is absent, and where the text is too long to be
/// read.
pub fn first_record(text: &[u8]) -> Option<Opening> {
    if text.len() > 4_096 {
        return None;
    }
    let record = *records(text).first()?;
    row(record, 4..=5).map(|head| opening_of(&head))
}

/// The opening of a first record of four numbers or five; with four, the share is 0.
fn opening_of(head: &[i32]) -> Opening {
    let share = if head.len() == 5 { head[4] } else { 0 };
    Opening::new(head[0], head[1], head[2], head[3]).with_share(share)
}

/// The whole text and each record in turn: the numbers of each record, or refusal 10, 11 or 12.
fn rows(text: &[u8]) -> Result<Vec<Vec<i32>>, Report> {
    if text.len() > 4_096 {
        return Err(Report::refuse(10, 0));
    }
    let mut rows = Vec::new();
    for record in records(text) {
        let number = rows.len() + 1;
        // Record 1 is the opening: this is the record of the first answer that has no slot.
        if number == SLOTS + 2 {
            return Err(Report::refuse(11, number as u32));
        }
        let fields = if number == 1 { 4..=5 } else { 2..=2 };
        match row(record, fields) {
            Some(row) => rows.push(row),
            None => return Err(Report::refuse(12, number as u32)),
        }
    }
    match rows.len() {
        0 => Err(Report::refuse(12, 1)),
        _ => Ok(rows),
    }
}

/// The records: each begins where a byte is left and runs through the next CR LF, or to the end.
fn records(text: &[u8]) -> Vec<&[u8]> {
    let mut list = Vec::new();
    let mut rest = text;
    while !rest.is_empty() {
        let next = rest.windows(2).position(|pair| pair == b"\r\n");
        let (record, after) = rest.split_at(next.map_or(rest.len(), |at| at + 2));
        list.push(record);
        rest = after;
    }
    list
}

/// The numbers of a record that has so many fields. Only the last record can lack its CR LF, and there
/// it is optional.
fn row(record: &[u8], fields: RangeInclusive<usize>) -> Option<Vec<i32>> {
    let line = record.strip_suffix(b"\r\n").unwrap_or(record);
    let row: Option<Vec<i32>> = line.split(|&byte| byte == b',').map(field).collect();
    row.filter(|row| fields.contains(&row.len()))
}

/// A number, or one between two double quotes.
fn field(field: &[u8]) -> Option<i32> {
    match field {
        [b'"', inner @ .., b'"'] => number(inner),
        _ => number(field),
    }
}

/// An optional minus and 1 to 5 digits.
fn number(field: &[u8]) -> Option<i32> {
    let (sign, digits) = match field.strip_prefix(b"-") {
        Some(digits) => (-1, digits),
        None => (1, field),
    };
    let form = (1..=5).contains(&digits.len()) && digits.iter().all(u8::is_ascii_digit);
    let size = |sum, digit: &u8| sum * 10 + i32::from(digit - b'0');
    form.then(|| sign * digits.iter().fold(0, size))
}
