//! What a crew saves: the trials that M and R need, through the proved library, beside halving and the methods that people would use
//! instead, whose figures are kept in savings/kept.csv.

#![forbid(unsafe_code)]

use compare::counts::{self, Needed, Row, HERE, METHODS, TOLERANCES};
use compare::curves::{self, Curve, GROUPS};
use compare::{picture, tables};
use std::collections::HashMap;
use std::path::{Path, PathBuf};
use std::process::ExitCode;
use std::{env, fs};

const USAGE: &str = "usage: savings            prints the tables, puts them into docs/PERFORMANCE.md and draws docs/trials.svg
       savings --check    says whether the kept figures, the tables and the picture are still these
       savings --values FILE          writes the curves' values, for the methods that are run by hand
       savings --keep TRIED WORDS     keeps the figures of the settings tried; the words say how they came about";

/// What went wrong, in words.
type Outcome<T> = Result<T, String>;

/// A file of the repository.
fn of_repository(name: &str) -> PathBuf {
    Path::new(env!("CARGO_MANIFEST_DIR")).join("..").join(name)
}

fn read(path: &Path) -> Outcome<String> {
    fs::read_to_string(path).map_err(|e| format!("{} cannot be read: {e}", path.display()))
}

fn write(path: &Path, text: &str) -> Outcome<()> {
    fs::write(path, text).map_err(|e| format!("{} cannot be written: {e}", path.display()))
}

const KEPT: &str = "compare/savings/kept.csv";
const PICTURE: &str = "docs/trials.svg";
const TABLES: &str = "docs/PERFORMANCE.md";
const AGAIN: &str = "run compare/savings/by-hand, and then savings, to count and draw anew";

/// A curve's name with its group.
fn title(curve: &Curve) -> String {
    format!("{} {}", GROUPS[curve.group], curve.name)
}

/// The line of the kept file that says which values were counted on.
fn values_line(curves: &[Curve]) -> String {
    format!("# values {:016x}", curves::sum(curves))
}

// ---- by hand

/// The values of every curve, a line each.
fn values(curves: &[Curve]) -> String {
    let line = |curve: &Curve| {
        let values: Vec<String> = curve.values.iter().map(i32::to_string).collect();
        format!("{},{}\n", title(curve), values.join(","))
    };
    curves.iter().map(line).collect()
}

/// The settings tried, by method, curve and tolerance.
type Tried = HashMap<(String, String, i32), Vec<i32>>;

fn read_tried(text: &str) -> Option<Tried> {
    let line = |line: &str| {
        let mut fields = line.split(',');
        let (method, curve) = (fields.next()?.to_string(), fields.next()?.to_string());
        let tolerance = fields.next()?.parse().ok()?;
        let settings: Option<Vec<i32>> = fields.map(|f| f.parse().ok()).collect();
        Some(((method, curve, tolerance), settings?))
    };
    text.lines().map(line).collect()
}

/// The file that keeps the figures.
fn kept(curves: &[Curve], tried: &Tried, words: &str) -> Outcome<String> {
    let mut lines = vec![format!("# {words}"), values_line(curves)];
    let mut heads = vec!["group".to_string(), "curve".into(), "tolerance".into()];
    heads.extend(METHODS[..HERE].iter().map(|m| m.to_string()));
    heads.extend(
        METHODS[HERE..]
            .iter()
            .flat_map(|m| [format!("{m} to its end"), format!("{m} to hold")]),
    );
    lines.push(heads.join(","));
    for curve in curves {
        for tolerance in TOLERANCES {
            let mut by_hand = [Needed {
                to_end: 0,
                to_hold: 0,
            }; METHODS.len() - HERE];
            for (needed, method) in by_hand.iter_mut().zip(&METHODS[HERE..]) {
                let key = (method.to_string(), title(curve), tolerance);
                let settings = tried.get(&key).ok_or(format!("no settings of {key:?}"))?;
                *needed = counts::needed(curve, settings, tolerance);
            }
            let row = Row {
                group: curve.group,
                curve: curve.name.clone(),
                tolerance,
                here: counts::here(curve, tolerance),
                by_hand,
            };
            lines.push(row.line());
        }
    }
    Ok(lines.join("\n") + "\n")
}

// ---- tables and picture

/// The kept figures, if they are of these curves and those of M, R and halving are what is counted now.
fn checked_rows(curves: &[Curve]) -> Outcome<Vec<Row>> {
    let text = read(&of_repository(KEPT))?;
    let mut lines = text.lines().filter(|line| !line.starts_with('#')).skip(1);
    if !text.lines().any(|line| line == values_line(curves)) {
        return Err(format!("{KEPT} was counted on other values; {AGAIN}"));
    }
    let mut rows = Vec::new();
    for curve in curves {
        for tolerance in TOLERANCES {
            let line = lines.next().unwrap_or("");
            let row =
                Row::read(line).ok_or(format!("{KEPT}: '{line}' is no row of it; {AGAIN}"))?;
            if (row.group, &row.curve, row.tolerance) != (curve.group, &curve.name, tolerance) {
                return Err(format!(
                    "{KEPT}: '{line}' is not of {} at {tolerance}; {AGAIN}",
                    title(curve)
                ));
            }
            let now = counts::here(curve, tolerance);
            if row.here != now {
                return Err(format!(
                    "{KEPT}: '{line}', but M, R and halving need {now:?} now; {AGAIN}"
                ));
            }
            rows.push(row);
        }
    }
    lines.next().map_or(Ok(rows), |line| {
        Err(format!("{KEPT}: '{line}' is of no curve; {AGAIN}"))
    })
}

/// A document with a text between two marks, in the place of what stood there.
fn put_between(document: &str, name: &str, text: &str) -> Outcome<String> {
    let (from, to) = (
        format!("<!-- {name} -->\n"),
        format!("<!-- end of {name} -->\n"),
    );
    let missing = || format!("{TABLES} has no marks for {name}");
    let (before, rest) = document.split_once(&from).ok_or_else(missing)?;
    let (_, after) = rest.split_once(&to).ok_or_else(missing)?;
    Ok(format!("{before}{from}\n{text}\n{to}{after}"))
}

/// The document and the picture as they should be, and the tables by themselves.
fn shown(rows: &[Row]) -> Outcome<(String, String, String)> {
    let (groups, paper) = (tables::by_group(rows), tables::beside_the_paper(rows));
    let document = put_between(&read(&of_repository(TABLES))?, "trials", &groups)?;
    let document = put_between(&document, "paper", &paper)?;
    Ok((document, picture::drawn(rows), format!("{groups}\n{paper}")))
}

/// Puts the tables and the picture into their places, and gives the tables.
fn draw(curves: &[Curve]) -> Outcome<String> {
    let (document, picture, tables) = shown(&checked_rows(curves)?)?;
    write(&of_repository(TABLES), &document)?;
    write(&of_repository(PICTURE), &picture)?;
    Ok(tables)
}

/// Compares what is kept, the tables and the picture with what is counted now.
fn check(curves: &[Curve]) -> Outcome<String> {
    let rows = checked_rows(curves)?;
    let (document, picture, _) = shown(&rows)?;
    for (name, text) in [(TABLES, document), (PICTURE, picture)] {
        if read(&of_repository(name))? != text {
            return Err(format!("{name} does not show {KEPT}; run savings"));
        }
    }
    Ok(format!(
        "savings: {} curves, {} figures as kept\n",
        curves.len(),
        HERE * rows.len()
    ))
}

/// Keeps the figures of the settings tried.
fn keep(curves: &[Curve], file: &str, words: &str) -> Outcome<String> {
    let tried = read_tried(&read(Path::new(file))?)
        .ok_or_else(|| format!("{file} is no list of settings tried"))?;
    write(&of_repository(KEPT), &kept(curves, &tried, words)?)?;
    Ok(String::new())
}

fn run(words: &[&str]) -> Outcome<String> {
    let curves = curves::all();
    match words {
        [] => draw(&curves),
        ["--check"] => check(&curves),
        ["--values", file] => write(Path::new(file), &values(&curves)).map(|()| String::new()),
        ["--keep", file, words] => keep(&curves, file, words),
        _ => Err(USAGE.to_string()),
    }
}

fn main() -> ExitCode {
    let words: Vec<String> = env::args().skip(1).collect();
    let words: Vec<&str> = words.iter().map(String::as_str).collect();
    match run(&words) {
        Ok(text) => {
            print!("{text}");
            ExitCode::SUCCESS
        }
        Err(words) => {
            eprintln!("savings: {words}");
            ExitCode::FAILURE
        }
    }
}
