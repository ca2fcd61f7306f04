//! The trials needed, as tables of docs/PERFORMANCE.md.

use crate::algol;
use crate::counts::{self, Row, HERE, METHODS, TOLERANCES};
use crate::curves::{self, GROUPS};
use std::fmt::Write;

/// The mean and the most of some counts.
#[derive(Clone, Copy)]
pub struct Summary {
    pub mean: f64,
    pub most: u32,
}

/// A summary of one count of the rows of a group at a tolerance.
pub fn summary(rows: &[Row], group: usize, tolerance: i32, count: impl Fn(&Row) -> u32) -> Summary {
    let counts: Vec<u32> = rows
        .iter()
        .filter(|row| row.group == group && row.tolerance == tolerance)
        .map(count)
        .collect();
    Summary {
        mean: f64::from(counts.iter().sum::<u32>()) / counts.len() as f64,
        most: counts.into_iter().max().unwrap_or(0),
    }
}

/// The trials to two that hold the target, by the number of a method.
pub fn to_hold(row: &Row, method: usize) -> u32 {
    if method < HERE {
        row.here[method]
    } else {
        row.by_hand[method - HERE].to_hold
    }
}

/// The trials to a method's own end.
pub fn to_end(row: &Row, method: usize) -> u32 {
    if method < HERE {
        row.here[method]
    } else {
        row.by_hand[method - HERE].to_end
    }
}

/// A table's cell: the mean and the most.
fn cell(table: &mut String, s: Summary) {
    write!(table, " {:.1}, {} |", s.mean, s.most).expect("a string takes all");
}

/// A table's line of `---`.
fn rule(columns: usize) -> String {
    format!("{}|\n", "|---".repeat(columns))
}

/// Trials by tolerance, group and method: the mean and the most, to two trials that hold the target, and by a method's own end.
pub fn by_group(rows: &[Row]) -> String {
    let mut table = String::from("| Tolerance | Group | Curves |");
    for (method, name) in METHODS.iter().enumerate() {
        table += &format!(" {name} |");
        if method >= HERE {
            table += " its own end |";
        }
    }
    table += "\n";
    table += &rule(3 + 2 * METHODS.len() - HERE);
    for tolerance in TOLERANCES {
        for (group, name) in GROUPS.iter().enumerate() {
            let curves = rows.iter().filter(|r| r.group == group).count() / TOLERANCES.len();
            table += &format!("| {tolerance} | {name} | {curves} |");
            for method in 0..METHODS.len() {
                let of = |count: fn(&Row, usize) -> u32| {
                    summary(rows, group, tolerance, |row| count(row, method))
                };
                cell(&mut table, of(to_hold));
                if method >= HERE {
                    cell(&mut table, of(to_end));
                }
            }
            table += "\n";
        }
        let most = |method| counts::most(method, tolerance);
        let blank = " |".repeat(2 * (METHODS.len() - HERE));
        table += &format!(
            "| {tolerance} | **never more than** | | {} | {} | {} |{blank}\n",
            most(0),
            most(1),
            most(2)
        );
    }
    table
}

/// The paper's totals for M and R, the same by its own procedures in double precision, and ours at a tolerance of 1.
pub fn beside_the_paper(rows: &[Row]) -> String {
    let mut table = String::from(
        "| Table | M, paper | M, double precision | M, here | R, paper | R, double precision | R, here | Equal to the paper in double precision |\n",
    );
    table += &rule(8);
    let functions = curves::functions();
    for (group, name) in GROUPS.iter().enumerate().take(4) {
        let mut columns = String::new();
        let mut equal = 0;
        for rational in [false, true] {
            let (mut paper, mut double) = (0, 0);
            for (f, printed) in functions.iter().zip(algol::TABLES) {
                if f.group == group {
                    let printed = if rational { printed.1 } else { printed.0 };
                    let counted = algol::evaluations(f, rational);
                    paper += printed;
                    double += counted;
                    equal += u32::from(printed == counted);
                }
            }
            let ours: u32 = rows
                .iter()
                .filter(|row| row.group == group && row.tolerance == 1)
                .map(|row| row.here[usize::from(rational)])
                .sum();
            columns += &format!(" {paper} | {double} | {ours} |");
        }
        let of = 2 * functions.iter().filter(|f| f.group == group).count();
        table += &format!("| {name} |{columns} {equal} of {of} |\n");
    }
    table
}
