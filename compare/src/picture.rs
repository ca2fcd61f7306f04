//! The trials needed, as a picture: docs/trials.svg.

use crate::counts::{self, Row, HERE, METHODS, TOLERANCES};
use crate::curves::GROUPS;
use crate::tables::{summary, to_end, to_hold};

/// A colour for each method, told apart by everyone.
const COLOURS: [&str; METHODS.len()] = [
    "#0072b2", "#56b4e9", "#999999", "#d55e00", "#e69f00", "#cc79a7",
];

const WIDTH: u32 = 960;
const LEFT: u32 = 50;
const BAR: u32 = 22;
/// From one group to the next.
const GROUP: u32 = 180;
/// From one tolerance to the next.
const PANEL: u32 = 250;
const TOP: u32 = 90;
/// The height of a panel's bars.
const TALL: f64 = 180.0;

fn text(x: f64, y: f64, rest: &str, words: &str) -> String {
    format!("<text x=\"{x:.1}\" y=\"{y:.1}\" {rest}>{words}</text>\n")
}

/// One method's bar in a group: to two trials that hold the target; the line across it is the method's own end.
fn bar(rows: &[Row], tolerance: i32, group: usize, method: usize, base: f64, unit: f64) -> String {
    let x = f64::from(LEFT + group as u32 * GROUP + method as u32 * (BAR + 3));
    let mean = |count: fn(&Row, usize) -> u32| {
        summary(rows, group, tolerance, |row| count(row, method)).mean
    };
    let tall = mean(to_hold) * unit;
    let (top, end) = (base - tall, base - mean(to_end) * unit);
    let mut drawn = format!(
        "<rect x=\"{x:.1}\" y=\"{top:.1}\" width=\"{BAR}\" height=\"{tall:.1}\" fill=\"{}\"/>\n",
        COLOURS[method]
    );
    if method >= HERE {
        drawn += &format!(
            "<line x1=\"{x:.1}\" y1=\"{end:.1}\" x2=\"{:.1}\" y2=\"{end:.1}\" stroke=\"#000000\" stroke-width=\"2\"/>\n",
            x + f64::from(BAR)
        );
    }
    let middle = x + f64::from(BAR) / 2.0;
    let label = format!("{:.1}", mean(to_hold));
    drawn
        + &text(
            middle,
            top.min(end) - 4.0,
            "font-size=\"11\" text-anchor=\"middle\"",
            &label,
        )
}

/// A group's bars and its name, above a base line.
fn bars(rows: &[Row], tolerance: i32, group: usize, base: f64, unit: f64) -> String {
    let drawn: String = (0..METHODS.len())
        .map(|method| bar(rows, tolerance, group, method, base, unit))
        .collect();
    let middle = f64::from(LEFT + group as u32 * GROUP + 3 * (BAR + 3));
    let name = match GROUPS[group] {
        "dryer" => "a made-up dryer".to_string(),
        of_paper => format!("group {of_paper}"),
    };
    drawn
        + &text(
            middle,
            base + 16.0,
            "font-size=\"12\" text-anchor=\"middle\"",
            &name,
        )
}

/// The panel of one tolerance.
fn panel(rows: &[Row], place: usize, tolerance: i32) -> String {
    let base = f64::from(TOP) + f64::from(PANEL) * place as f64 + TALL + 20.0;
    let longest = (0..GROUPS.len())
        .flat_map(|group| (0..METHODS.len()).map(move |method| (group, method)))
        .map(|(group, method)| summary(rows, group, tolerance, |row| to_hold(row, method)).mean)
        .fold(1.0, f64::max);
    let unit = (TALL - 30.0) / longest;
    let [m, r, halving] = [0, 1, 2].map(|method| counts::most(method, tolerance));
    let mut drawn = text(
        f64::from(LEFT),
        base - TALL,
        "font-size=\"14\" font-weight=\"bold\"",
        &format!("Tolerance {tolerance}: never more than {m} by M, {r} by R, {halving} by halving"),
    );
    for group in 0..GROUPS.len() {
        drawn += &bars(rows, tolerance, group, base, unit);
    }
    drawn += &format!(
        "<line x1=\"{LEFT}\" y1=\"{base:.1}\" x2=\"{}\" y2=\"{base:.1}\" stroke=\"#000000\"/>\n",
        WIDTH - 20
    );
    drawn
}

/// The whole picture.
pub fn drawn(rows: &[Row]) -> String {
    let height = TOP + PANEL * TOLERANCES.len() as u32;
    let mut svg = format!(
        "<svg xmlns=\"http://www.w3.org/2000/svg\" width=\"{WIDTH}\" height=\"{height}\" viewBox=\"0 0 {WIDTH} {height}\" font-family=\"sans-serif\">\n\
         <title>Trials needed, by method and group of curves</title>\n\
         <rect width=\"{WIDTH}\" height=\"{height}\" fill=\"#ffffff\"/>\n"
    );
    svg += &text(
        f64::from(LEFT),
        28.0,
        "font-size=\"17\" font-weight=\"bold\"",
        "Trials until two hold the target, no further apart than twice the tolerance (means)",
    );
    for (method, name) in METHODS.iter().enumerate() {
        let x = LEFT + method as u32 * 145;
        svg += &format!(
            "<rect x=\"{x}\" y=\"44\" width=\"14\" height=\"14\" fill=\"{}\"/>\n",
            COLOURS[method]
        );
        svg += &text(f64::from(x + 20), 56.0, "font-size=\"13\"", name);
    }
    svg += &text(
        f64::from(LEFT),
        80.0,
        "font-size=\"12\"",
        "The black line across a bar: where that method ends by itself, with an estimate only (SciPy) or with two ends (Boost).",
    );
    for (place, tolerance) in TOLERANCES.into_iter().enumerate() {
        svg += &panel(rows, place, tolerance);
    }
    svg + "</svg>\n"
}
