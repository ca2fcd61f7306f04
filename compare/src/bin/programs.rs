//! The programs clean, zeroin and old_default and the commands season, load and survey beside the
//! model: load is run on many seeds, survey on surveys that are typed in every way, each of the others
//! on texts of every kind, from a fixed seed, and what they write is compared. It ends with the number
//! of runs and exit status 0, or with the first mismatch and exit status 1.

#![forbid(unsafe_code)]

use compare::checks::{agree, Checked};
use compare::model::{self, Book, Reading, OLD, TODAY};
use compare::rng::Rng;
use compare::sheets::{self, Text};
use compare::survey_command::{self, Fault};
use compare::types::{MethodTally, Opening, Report, SeasonReport, LARGEST_SEED, TALLIES};
use compare::{beam, cases, load_model, season_model, surveys};
use std::io::{ErrorKind, Write};
use std::path::{Path, PathBuf};
use std::process::{Command, ExitCode, Output, Stdio};
use std::{env, fs, process};

const SEED: u64 = 1975;
const TEXTS: usize = 1_500;
const OLD_TEXTS: usize = 600;

/// How many of the longest orders that the beam finds are tried, by M and by R each.
const ORDERS: usize = 10;

/// How many of the texts are put into files for season; the most of them in one season; and how
/// many seasons of each number of sheets.
const FILES: usize = 400;
const MOST_SHEETS: usize = 60;
const SEASONS: usize = 3;

/// The seeds from 1 on whose loads are tried, and every which of them zeroin reads.
const SEEDS: u32 = 10_000;
const READ_BACK: u32 = 10;

/// How often survey is run; and of one run with pairs in so many zeroin reads the sheet of a pair.
const SURVEYS: usize = 3_000;
const READ_A_PAIR: usize = 4;

fn main() -> ExitCode {
    match programs(&mut Rng::new(SEED)) {
        Ok(tried) => {
            println!("programs: {tried}, 0 mismatches");
            ExitCode::SUCCESS
        }
        Err(words) => {
            println!("programs: {words}");
            ExitCode::FAILURE
        }
    }
}

/// Every text on the three programs, and some of them on season; then load, and then survey. What was
/// tried is told in words.
fn programs(rng: &mut Rng) -> Result<String, String> {
    let mut three = Programs {
        clean: built("clean", "make target/bin/clean")?,
        zeroin: built("zeroin", "make target/bin/zeroin")?,
        old_default: built("old_default", "make target/bin/old_default")?,
        runs: 0,
    };
    let season = built("season", "make target/bin/season")?;
    let load = built("load", "make target/bin/load")?;
    let survey = built("survey", "make target/bin/survey")?;
    let texts = [texts(rng), old_texts(rng)].concat();
    let mut accepted = 0;
    let mut old = Old::default();
    for text in &texts {
        three.text_agrees(text)?;
        accepted += usize::from(model::read(text).is_ok());
        old.count(text);
    }
    let (runs, all) = (three.runs, texts.len());
    let old = old.told()?;
    let seasons = seasons(&season, &texts, rng)?;
    let loads = loads(&load, &three.zeroin)?;
    let surveys = surveys(&survey, &three.zeroin, rng)?;
    Ok(format!(
        "{runs} runs of clean, zeroin and old_default on {all} texts, {accepted} of them sheets to \
         clean; {old}; {seasons}; {loads}; {surveys}"
    ))
}

/// How many texts the old reading and today's tell different things of.
#[derive(Default)]
struct Old {
    /// Old sheets with method 0.
    with_0: usize,
    /// Of those, the ones that today's reading refuses, and those that it sends to another setting.
    refused_today: usize,
    sent_elsewhere: usize,
    /// Texts that both refuse, each with another record.
    refused_otherwise: usize,
    /// Texts that only the old reading refuses.
    refused_then: usize,
}

impl Old {
    fn count(&mut self, text: &[u8]) {
        let (old, today) = (OLD.sheet(text), TODAY.sheet(text));
        let refused = |report: &Report| report.kind == Report::REFUSED;
        let differ = usize::from(old != today);
        let method = OLD.read(text).map(|book| book.opening().method);
        self.with_0 += usize::from(method == Ok(0));
        match (refused(&old), refused(&today)) {
            (false, true) => self.refused_today += differ,
            (false, false) => self.sent_elsewhere += differ,
            (true, true) => self.refused_otherwise += differ,
            (true, false) => self.refused_then += differ,
        }
    }

    /// In words. It is a mistake if one of the numbers is 0.
    fn told(&self) -> Result<String, String> {
        let Old {
            with_0,
            refused_today,
            sent_elsewhere,
            refused_otherwise,
            refused_then,
        } = self;
        let words = format!(
            "{with_0} are old sheets with method 0, of which today {refused_today} are refused \
             and {sent_elsewhere} sent to another setting; {refused_otherwise} are refused with \
             another record than today, and {refused_then} are refused as old sheets only"
        );
        let all = [
            with_0,
            refused_today,
            sent_elsewhere,
            refused_otherwise,
            refused_then,
        ];
        match all.contains(&&0) {
            true => Err(format!("not every kind of text was tried: {words}")),
            false => Ok(words),
        }
    }
}

/// Texts of every kind: whole and damaged, the spellings of books on their way, clean sheets of
/// books on their way, and both of long searches.
fn texts(rng: &mut Rng) -> Vec<Vec<u8>> {
    let mut texts = Vec::new();
    for _ in 0..TEXTS / 3 {
        texts.push(sheets::any_text(rng));
        let book = on_its_way(cases::accepted_opening(rng), TODAY, rng);
        texts.push(sheets::write_spelt(book.opening(), &book.pairs(), rng));
        let book = on_its_way(cases::accepted_opening(rng), TODAY, rng);
        texts.push(clean_sheet(&book));
    }
    for method in [1, 2] {
        let opening = cases::widest(method);
        let orders = beam::longest(&opening, beam::WIDE, rng);
        for order in orders.iter().take(ORDERS) {
            let book = Book::of(opening, order);
            texts.push(sheets::write_spelt(&opening, &book.pairs(), rng));
            texts.push(clean_sheet(&book));
        }
    }
    texts
}

/// Document 01's sheet by M, its wrong point, and one by R, all with method 0; the old reading and
/// today's refuse the second at different records.
const WORKED: [&[u8]; 3] = [
    b"0,0,100,1\r\n0,-50\r\n100,100\r\n33,-10\r\n41,-2\r\n43,1\r\n",
    b"0,0,100,1\r\n0,-50\r\n100,100\r\n33,-10\r\n41,-2\r\n42,1\r\n",
    b"0,0,100,1\r\n0,-50\r\n100,100\r\n33,-10\r\n40,-5\r\n",
];

/// Old texts, nearly all with method 0, asked by M and by R: the spellings of books on their way,
/// whole and damaged ones, and long ones by M.
fn old_texts(rng: &mut Rng) -> Vec<Vec<u8>> {
    let mut texts: Vec<Vec<u8>> = WORKED.iter().map(|text| text.to_vec()).collect();
    for _ in 0..OLD_TEXTS / 6 {
        for reading in [OLD, OLD, TODAY] {
            let opening = with_0(&cases::accepted_opening(rng));
            let book = on_its_way(opening, reading, rng);
            texts.push(sheets::write_spelt(&opening, &book.pairs(), rng));
            texts.push(sheets::any_text_of(cases::old_opening(rng), reading, rng));
        }
    }
    let opening = cases::widest(0);
    let orders = beam::longest(&cases::widest(1), beam::WIDE, rng);
    for order in orders.iter().take(ORDERS) {
        let pairs = OLD.book_of(opening, order).pairs();
        texts.push(sheets::write_spelt(&opening, &pairs, rng));
    }
    texts
}

fn with_0(opening: &Opening) -> Opening {
    Opening {
        method: 0,
        ..*opening
    }
}

/// The book of an accepted search after some of its answers, or at its stop, asked by this reading of
/// its method.
fn on_its_way(opening: Opening, reading: Reading, rng: &mut Rng) -> Book {
    let values = cases::to_its_stop(reading.book(opening), rng).values();
    reading.book_of(opening, &values[..rng.below(values.len() + 1)])
}

fn clean_sheet(book: &Book) -> Vec<u8> {
    model::clean(&book.search()).expect("a book holds accepted answers")
}

/// Where a program is left that this line builds.
fn built(name: &str, by: &str) -> Result<PathBuf, String> {
    let repository = Path::new(env!("CARGO_MANIFEST_DIR")).join("..");
    let program = repository.join("target/bin").join(name);
    match program.is_file() {
        true => Ok(program),
        false => Err(format!("target/bin/{name} is not there; `{by}` builds it")),
    }
}

/// The three programs, and how often they were run.
struct Programs {
    clean: PathBuf,
    zeroin: PathBuf,
    old_default: PathBuf,
    runs: u64,
}

impl Programs {
    /// The programs write what the model says. Of an accepted sheet the clean one is clean already,
    /// and zeroin says the same of it.
    fn text_agrees(&mut self, text: &[u8]) -> Checked {
        self.old_text_agrees(text)?;
        let clean = self.cleaned(text)?;
        same("clean", text, &model::clean_text(text), &clean)?;
        let record = self.record(text)?;
        let report = format!("{}\r\n", model::sheet(text));
        same("zeroin", text, report.as_bytes(), &record)?;
        if model::read(text).is_err() {
            return Ok(());
        }
        same("clean", &clean, &clean, &self.cleaned(&clean)?)?;
        same("zeroin", &clean, &record, &self.record(&clean)?)
    }

    /// old_default writes what the model says. Of an accepted old sheet with method 0 the new one
    /// makes zeroin say what the old reading did, and neither clean nor old_default alters it.
    fn old_text_agrees(&mut self, text: &[u8]) -> Checked {
        let new = self.made_new(text)?;
        same("old_default", text, &model::old_default(text), &new)?;
        match OLD.read(text) {
            Ok(book) if book.opening().method == 0 => {
                let report = format!("{}\r\n", book.report());
                same("zeroin", &new, report.as_bytes(), &self.record(&new)?)?;
                same("clean", &new, &new, &self.cleaned(&new)?)?;
                same("old_default", &new, &new, &self.made_new(&new)?)
            }
            _ => Ok(()),
        }
    }

    fn made_new(&mut self, text: &[u8]) -> Result<Vec<u8>, String> {
        self.runs += 1;
        run(&self.old_default, text)
    }

    fn cleaned(&mut self, text: &[u8]) -> Result<Vec<u8>, String> {
        self.runs += 1;
        run(&self.clean, text)
    }

    fn record(&mut self, text: &[u8]) -> Result<Vec<u8>, String> {
        self.runs += 1;
        run(&self.zeroin, text)
    }
}

/// A mismatch unless a program, run on this text, wrote what is expected.
fn same(program: &str, text: &[u8], expected: &[u8], written: &[u8]) -> Checked {
    let shown = |bytes: &[u8]| Text(bytes.to_vec());
    let input = || format!("{program} with standard input {:?}", shown(text));
    agree(shown(expected), shown(written), input)
}

/// What a program writes when it is given a text.
fn run(program: &Path, text: &[u8]) -> Result<Vec<u8>, String> {
    let output = output(&mut Command::new(program), text);
    written(program, output, || {
        format!("standard input: {}", sheets::show(text))
    })
}

/// What a program wrote. Words on standard error are a mistake, and so is an end by a signal.
fn written(
    program: &Path,
    output: std::io::Result<Output>,
    input: impl Fn() -> String,
) -> Result<Vec<u8>, String> {
    let name = program.display();
    let output = output.map_err(|e| format!("{name} cannot be run: {e}"))?;
    if !output.status.success() || !output.stderr.is_empty() {
        let words = sheets::show(&output.stderr);
        let (status, input) = (output.status, input());
        return Err(format!(
            "{name} ended with {status} and the words {words:?}, on {input}"
        ));
    }
    Ok(output.stdout)
}

/// The output of a command that is given a text.
fn output(command: &mut Command, text: &[u8]) -> std::io::Result<Output> {
    let mut child = command
        .stdin(Stdio::piped())
        .stdout(Stdio::piped())
        .stderr(Stdio::piped())
        .spawn()?;
    // A pipe takes more than the longest of the texts, and the end of it is told by its closing.
    let mut input = child.stdin.take().expect("standard input is a pipe");
    match input.write_all(text) {
        // A program that has read enough to refuse a text need not read the rest.
        Err(e) if e.kind() != ErrorKind::BrokenPipe => return Err(e),
        _ => drop(input),
    }
    child.wait_with_output()
}

/// A folder for sheets, which goes with this.
struct Folder(PathBuf);

impl Folder {
    fn new() -> Result<Self, String> {
        let folder = env::temp_dir().join(format!("compare-programs-{}", process::id()));
        fs::create_dir(&folder).map_err(|e| format!("{}: {e}", folder.display()))?;
        Ok(Folder(folder))
    }

    /// A text in a file of its own.
    fn keep(&self, name: &str, text: &[u8]) -> Result<PathBuf, String> {
        let file = self.0.join(name);
        fs::write(&file, text).map_err(|e| format!("{}: {e}", file.display()))?;
        Ok(file)
    }
}

impl Drop for Folder {
    fn drop(&mut self) {
        // Left behind it does no harm.
        let _ = fs::remove_dir_all(&self.0);
    }
}

/// A file, and the text in it.
type Sheet<'a> = (PathBuf, &'a [u8]);

/// season on many sets of sheets, from one sheet on. What was tried is told in words.
fn seasons(program: &Path, texts: &[Vec<u8>], rng: &mut Rng) -> Result<String, String> {
    let folder = Folder::new()?;
    let mut sheets: Vec<Sheet> = Vec::new();
    for n in 0..FILES {
        let text = &texts[rng.below(texts.len())];
        sheets.push((folder.keep(&format!("{n}.csv"), text)?, text));
    }
    let mut runs = 0;
    for count in (1..=MOST_SHEETS).flat_map(|count| [count; SEASONS]) {
        let one = |_| &sheets[rng.below(sheets.len())];
        let set: Vec<&Sheet> = (0..count).map(one).collect();
        runs += season_agrees(program, &set)?;
    }
    let all: Vec<&Sheet> = sheets.iter().collect();
    runs += season_agrees(program, &all)?;
    let sheets = all_kinds(&model_season(&all))?;
    Ok(format!("{runs} runs of season on {FILES} files, {sheets}"))
}

/// How many of the sheets are of each kind, in words. It is a mistake if there is no sheet of one,
/// by one of the methods, or none that is booked as other.
fn all_kinds(report: &SeasonReport) -> Result<String, String> {
    let sum = |of: fn(&MethodTally) -> u32| report.tallies.iter().map(of).sum::<u32>();
    let [by_0, by_1, by_2, other] = report.tallies;
    let words = format!(
        "{} stopped, {} unfinished and {} refused, {} of these with none of the methods",
        sum(|t| t.stopped),
        sum(|t| t.unfinished),
        sum(|t| t.refused),
        other.refused
    );
    let kinds = [by_0, by_1, by_2].map(|t| [t.stopped, t.unfinished, t.refused]);
    match kinds.concat().contains(&0) || other.refused == 0 {
        true => Err(format!("not every kind of sheet was tried: {words}")),
        false => Ok(words),
    }
}

/// The model's report on the season of these sheets.
fn model_season(set: &[&Sheet]) -> SeasonReport {
    let outcomes = set
        .iter()
        .map(|(_, text)| season_model::sheet_outcome(text));
    let numbers: Vec<u16> = outcomes.flat_map(|outcome| outcome.numbers()).collect();
    season_model::season(&numbers)
}

/// season prints what the model says of a set of sheets, in columns and as comma-separated values.
/// It gives the number of runs.
fn season_agrees(program: &Path, set: &[&Sheet]) -> Result<u64, String> {
    let report = model_season(set);
    let in_columns = table(&report, ["0 house", "1 M", "2 R", "other"], columns);
    let as_csv = table(&report, ["0", "1", "2", "other"], record);
    for (option, expected) in [(None, in_columns), (Some("--csv"), as_csv)] {
        let sheets = set.iter().map(|(_, text)| Text(text.to_vec()));
        let sheets: Vec<Text> = sheets.collect();
        let input = || format!("season with the option {option:?} on the sheets {sheets:?}");
        let mut command = Command::new(program);
        command.args(option).args(set.iter().map(|(file, _)| file));
        let printed = written(program, command.stdin(Stdio::null()).output(), input)?;
        agree(Text(expected.into_bytes()), Text(printed), input)?;
    }
    Ok(2)
}

/// What is told of each method, in this order.
const HEAD: [&str; 6] = [
    "stopped",
    "unfinished",
    "refused",
    "answers",
    "quoted",
    "largest",
];

/// A line of what season prints: its first field and the others.
type Line = fn(&str, [String; 6]) -> String;

/// The head and a line for each method, which has this name.
fn table(report: &SeasonReport, names: [&str; TALLIES], line: Line) -> String {
    let mut lines = line("method", HEAD.map(String::from));
    for (name, tally) in names.iter().zip(report.tallies) {
        lines += &line(name, tally.numbers().map(|number| number.to_string()));
    }
    lines
}

/// A line in columns: the first begins at the left, 7 wide, and the others end at the right, 12
/// wide.
fn columns(first: &str, others: [String; 6]) -> String {
    let others = others.map(|other| format!("{other:>12}")).concat();
    format!("{first:<7}{others}\n")
}

/// A record of RFC 4180.
fn record(first: &str, others: [String; 6]) -> String {
    format!("{first},{}\r\n", others.join(","))
}

/// load on many seeds: it writes the clean sheet that the model has for the load. zeroin reads some of
/// them, and its record is the load's report. What was tried is told in words.
fn loads(program: &Path, zeroin: &Path) -> Result<String, String> {
    let (mut runs, mut read) = (0, 0);
    for seed in (1..=SEEDS).chain([LARGEST_SEED]) {
        let load = load_model::load(seed);
        let sheet = model::clean(&load.search).map_err(|refusal| format!("{refusal} of {seed}"))?;
        let input = || format!("load with the seed {seed}");
        let mut command = Command::new(program);
        command.arg(seed.to_string()).stdin(Stdio::null());
        let printed = written(program, command.output(), input)?;
        agree(Text(sheet), Text(printed.clone()), input)?;
        runs += 1;
        if seed.is_multiple_of(READ_BACK) || seed == LARGEST_SEED {
            let report = format!("{}\r\n", load.report);
            let record = run(zeroin, &printed)?;
            same("zeroin", &printed, report.as_bytes(), &record)?;
            read += 1;
        }
    }
    Ok(format!(
        "{runs} runs of load, {read} of them read by zeroin"
    ))
}

/// What survey is given: its arguments, and the text on standard input.
type Typed = (Vec<String>, String);

/// What comes of a run of survey, as it is told.
const OUTCOMES: [&str; 11] = [
    "no pair",
    "one pair",
    "more pairs",
    "a refusal 21",
    "a refusal 21 for more than 600 values",
    "a refusal 7",
    "a word that is no number",
    "an argument that is none",
    "a wrong method",
    "a wrong tolerance",
    "the usage",
];

/// Which of them it is.
fn outcome(expected: &Result<String, Fault>) -> usize {
    match expected {
        Ok(printed) if printed.contains("\npairs: 0\n") => 0,
        Ok(printed) if printed.contains("\npairs: 1\n") => 1,
        Ok(_) => 2,
        Err(Fault::Misplaced(0..=600, ..)) => 3,
        Err(Fault::Misplaced(..)) => 4,
        Err(Fault::OutOfRange(_)) => 5,
        Err(Fault::Word(..)) => 6,
        Err(Fault::Argument(_)) => 7,
        Err(Fault::Method) => 8,
        Err(Fault::Tolerance) => 9,
        Err(Fault::Usage) => 10,
    }
}

/// survey on many surveys: it prints what the model says, or tells the fault in the model's words.
/// zeroin reads the sheet of a pair now and then. What was tried is told in words; it is a mistake if
/// one of the outcomes never came.
fn surveys(program: &Path, zeroin: &Path, rng: &mut Rng) -> Result<String, String> {
    let mut came = [0; OUTCOMES.len()];
    let mut read = 0;
    for _ in 0..SURVEYS {
        let expected = survey_agrees(program, &any_typed(rng))?;
        came[outcome(&expected)] += 1;
        let sheets = sheets_of_pairs(&expected.unwrap_or_default());
        if !sheets.is_empty() && rng.once_in(READ_A_PAIR) {
            pair_agrees(zeroin, &sheets[rng.below(sheets.len())])?;
            read += 1;
        }
    }
    let told = OUTCOMES.iter().zip(came);
    let told: Vec<String> = told.map(|(name, n)| format!("{name} {n}")).collect();
    let words = format!(
        "{SURVEYS} runs of survey: {}; {read} sheets of pairs read by zeroin",
        told.join(", ")
    );
    match came.contains(&0) || read == 0 {
        true => Err(format!("not every outcome of survey was tried: {words}")),
        false => Ok(words),
    }
}

/// One run of survey: the exit status, what is printed and the words on standard error are the model's.
/// It gives what the model says.
fn survey_agrees(program: &Path, typed: &Typed) -> Result<Result<String, Fault>, String> {
    let (arguments, text) = typed;
    let expected = survey_command::survey(arguments, text);
    let (status, printed, words) = match &expected {
        Ok(printed) => (0, printed.clone(), String::new()),
        Err(fault) => (1, String::new(), format!("{fault}\n")),
    };
    let output = output(Command::new(program).args(arguments), text.as_bytes());
    let output = output.map_err(|e| format!("{} cannot be run: {e}", program.display()))?;
    let shown = |text: String| Text(text.into_bytes());
    agree(
        (Some(status), shown(printed), shown(words)),
        (
            output.status.code(),
            Text(output.stdout),
            Text(output.stderr),
        ),
        || format!("survey with the arguments {arguments:?} and standard input {text:?}"),
    )?;
    Ok(expected)
}

/// The sheets of the pairs in what survey prints: two lines tell how many values and pairs there are,
/// and the sheet of each pair stands in the three lines after its own.
fn sheets_of_pairs(printed: &str) -> Vec<String> {
    let lines: Vec<&str> = printed.split_inclusive('\n').skip(2).collect();
    lines.chunks(4).map(|four| four[1..].concat()).collect()
}

/// zeroin reads the sheet of a pair as the model does, and it is not refused.
fn pair_agrees(zeroin: &Path, sheet: &str) -> Checked {
    let report = model::sheet(sheet.as_bytes());
    agree(true, report.kind != Report::REFUSED, || sheet.to_string())?;
    let record = run(zeroin, sheet.as_bytes())?;
    let expected = format!("{report}\r\n");
    same("zeroin", sheet.as_bytes(), expected.as_bytes(), &record)
}

/// Words that are no number in the one spelling, and none that is an option; some that only an argument
/// can be, and some that only a value can.
const NO_NUMBERS: [&str; 20] = [
    "-", "+1", "01", "-01", "00", "-0", "1.5", "1,5", "1e3", "0x10", "x1", "1x", "-x", "1-1", "½",
    "１", "%s%n", "'1'", "1\u{b}2", "\u{7f}",
];
const NO_ARGUMENTS: [&str; 5] = ["", " ", " 5", "5 ", "5\r\n"];
const NO_VALUES: [&str; 4] = ["--1", "1\0", "\0", "\u{c}5"];

/// Numbers that 32 bits have no room for. Cut to 32 bits or 64, some of them would be in range.
const LARGE: [&str; 9] = [
    "2147483648",
    "-2147483649",
    "4294967296",
    "4294967297",
    "-4294967295",
    "9223372036854775808",
    "18446744073709551617",
    "-18446744073709551615",
    "100000000000000000000000000000000000000000000000000000000000000000000001",
];

/// What may be typed: mostly right.
fn any_typed(rng: &mut Rng) -> Typed {
    let mut survey = surveys::some_survey(rng);
    if rng.once_in(3) {
        surveys::spoil(&mut survey, rng);
    }
    let mut arguments = arguments(survey.lowest, survey.pitch, rng);
    let place = rng.below(arguments.len());
    match rng.below(24) {
        0 => arguments.truncate(rng.below(2)),
        1 => arguments.resize(5, "1".to_string()),
        2 => arguments[place] = rng.pick(&["--help", "--1", "--"]).to_string(),
        3 => arguments[place] = rng.pick(&NO_NUMBERS).to_string(),
        4 => arguments[place] = rng.pick(&NO_ARGUMENTS).to_string(),
        5 => arguments[place] = rng.pick(&LARGE).to_string(),
        _ => (),
    }
    (arguments, typed(&survey.values, rng))
}

/// The lowest point and the pitch, and often a tolerance, and then often a method.
fn arguments(lowest: i32, pitch: i32, rng: &mut Rng) -> Vec<String> {
    let tolerance = match rng.below(12) {
        0 => rng.pick(&[0, -1, 5_001, i32::MIN, i32::MAX]),
        1..=4 => rng.pick(&[1, 25, 5_000]),
        _ => rng.between(1, 5_000),
    };
    let method = match rng.below(12) {
        0 => rng.pick(&[-1, 3, i32::MIN, i32::MAX]),
        _ => rng.between(0, 2),
    };
    let mut numbers = vec![lowest, pitch, tolerance, method];
    numbers.truncate(2 + rng.below(3));
    numbers.iter().map(i32::to_string).collect()
}

/// The values as they may be typed, with any white space before, between and after them; now and then
/// one is no number, or one that 32 bits have no room for.
fn typed(values: &[i32], rng: &mut Rng) -> String {
    let mut words: Vec<String> = values.iter().map(i32::to_string).collect();
    if !words.is_empty() {
        let place = rng.below(words.len());
        match rng.below(24) {
            0 => words[place] = rng.pick(&NO_NUMBERS).to_string(),
            1 => words[place] = rng.pick(&NO_VALUES).to_string(),
            2 => words[place] = rng.pick(&LARGE).to_string(),
            _ => (),
        }
    }
    let mut text = rng.pick(&["", "", "\n", " \t\r\n"]).to_string();
    let between = rng.pick(&[" ", "\n", "\r\n", "\t"]);
    for (place, word) in words.iter().enumerate() {
        if place > 0 {
            text += rng.pick(&[between, between, between, "  ", "\n\n", " \r \t\n"]);
        }
        text += word;
    }
    text + rng.pick(&["", "\n", "\r\n", " \n\t"])
}
