//! How many trials a method needs on a curve, and the figures that are kept of the methods which are run by hand.

use crate::cases::HIGHEST;
use crate::curves::{Curve, GROUPS};
use crate::ffi;
use crate::types::{Opening, Report, Search};

/// The tolerances at which trials are counted.
pub const TOLERANCES: [i32; 3] = [1, 25, 500];

/// The methods: those that are run here, then those that are run by hand.
pub const METHODS: [&str; 6] = [
    "M",
    "R",
    "halving",
    "SciPy brentq",
    "SciPy toms748",
    "Boost toms748_solve",
];

/// How many of the methods are run here.
pub const HERE: usize = 3;

/// The whole range, by M (0) or R (1).
fn opening(method: usize, tolerance: i32) -> Opening {
    Opening::new(method as i32 + 1, 0, HIGHEST, tolerance)
}

/// The most answers that the library quotes for M (0) or R (1), and that halving takes (2).
pub fn most(method: usize, tolerance: i32) -> u32 {
    let quoted = ffi::quote(&opening(method.min(1), tolerance));
    if method == 2 {
        2 + quoted.t
    } else {
        quoted.most
    }
}

/// Two values hold the target between them: not both above it, not both below.
fn opposed(v: i32, w: i32) -> bool {
    i64::from(v) * i64::from(w) <= 0
}

// ---- the methods that are run here

/// M (0) or R (1) through the proved library.
fn searched(curve: &Curve, method: usize, tolerance: i32) -> u32 {
    let opening = opening(method, tolerance);
    let mut search = Search::fresh(opening);
    let mut report = ffi::open(&mut search, &opening);
    while report.kind == Report::NEXT {
        let value = curve.values[report.point as usize];
        report = ffi::enter(&mut search, report.point as i32, value);
    }
    assert_eq!(report.kind, Report::STOP, "{}: {report}", curve.name);
    report.taken
}

/// Halving: the middle of the bracket, until it is no wider than twice the tolerance.
fn halved(curve: &Curve, tolerance: i32) -> u32 {
    let (mut low, mut high) = (0, HIGHEST);
    let mut taken = 2;
    while high - low > 2 * tolerance {
        let middle = (low + high) / 2;
        taken += 1;
        if opposed(curve.values[low as usize], curve.values[middle as usize]) {
            high = middle;
        } else {
            low = middle;
        }
    }
    taken
}

/// The trials that M, R and halving need.
pub fn here(curve: &Curve, tolerance: i32) -> [u32; HERE] {
    [
        searched(curve, 0, tolerance),
        searched(curve, 1, tolerance),
        halved(curve, tolerance),
    ]
}

// ---- the methods that are run by hand, from the settings that they tried

/// What a method that is run by hand needs: the trials to its own end, and those to two trials that hold the target between them, no
/// further apart than twice the tolerance.
#[derive(Clone, Copy, Debug, PartialEq, Eq)]
pub struct Needed {
    pub to_end: u32,
    pub to_hold: u32,
}

/// The settings tried on a curve, in order of size, each once: nobody dries a setting again.
struct Tried<'a> {
    curve: &'a Curve,
    settings: Vec<i32>,
}

impl Tried<'_> {
    fn add(&mut self, setting: i32) {
        if let Err(place) = self.settings.binary_search(&setting) {
            self.settings.insert(place, setting);
        }
    }

    fn count(&self) -> u32 {
        self.settings.len() as u32
    }

    fn value(&self, setting: i32) -> i32 {
        self.curve.values[setting as usize]
    }

    /// The closest two that hold the target between them, lower and upper.
    fn closest(&self) -> Option<(i32, i32)> {
        self.settings
            .windows(2)
            .map(|pair| (pair[0], pair[1]))
            .filter(|&(low, high)| opposed(self.value(low), self.value(high)))
            .min_by_key(|(low, high)| high - low)
    }

    /// Two of them are close enough.
    fn hold(&self, tolerance: i32) -> bool {
        self.closest()
            .is_some_and(|(low, high)| high - low <= 2 * tolerance)
    }

    /// How many trials it takes from here until two hold: one at twice the tolerance from the better of the closest two, towards the
    /// other, as its estimate suggests, and then halving.
    fn held_at(&mut self, tolerance: i32) -> u32 {
        let mut guessed = false;
        while !self.hold(tolerance) {
            let (low, high) = self.closest().expect("the two ends hold the target");
            let better_low = self.value(low).abs() <= self.value(high).abs();
            self.add(match (guessed, better_low) {
                (true, _) => (low + high) / 2,
                (false, true) => low + 2 * tolerance,
                (false, false) => high - 2 * tolerance,
            });
            guessed = true;
        }
        self.count()
    }
}

/// Counts from the settings that a method tried, in its order, both ends among them. Whoever watches it may stop it as soon as two of its
/// trials hold; where it ends before that, the search for the second trial goes on without it.
pub fn needed(curve: &Curve, settings: &[i32], tolerance: i32) -> Needed {
    let mut tried = Tried {
        curve,
        settings: Vec::new(),
    };
    let mut watched = None;
    for &setting in settings {
        tried.add(setting);
        if watched.is_none() && tried.hold(tolerance) {
            watched = Some(tried.count());
        }
    }
    Needed {
        to_end: tried.count(),
        to_hold: watched.unwrap_or_else(|| tried.held_at(tolerance)),
    }
}

// ---- the figures kept

/// The figures of one curve at one tolerance.
#[derive(Clone, Debug, PartialEq, Eq)]
pub struct Row {
    pub group: usize,
    pub curve: String,
    pub tolerance: i32,
    pub here: [u32; HERE],
    pub by_hand: [Needed; METHODS.len() - HERE],
}

impl Row {
    /// As a line of the file that keeps them.
    pub fn line(&self) -> String {
        let by_hand = self.by_hand.iter().flat_map(|n| [n.to_end, n.to_hold]);
        let counts: Vec<String> = self
            .here
            .iter()
            .copied()
            .chain(by_hand)
            .map(|n| n.to_string())
            .collect();
        format!(
            "{},{},{},{}",
            GROUPS[self.group],
            self.curve,
            self.tolerance,
            counts.join(",")
        )
    }

    /// From such a line.
    pub fn read(line: &str) -> Option<Row> {
        let fields: Vec<&str> = line.split(',').collect();
        let counts: Vec<u32> = fields
            .get(3..)?
            .iter()
            .map_while(|f| f.parse().ok())
            .collect();
        let [m, r, halving, rest @ ..] = counts.as_slice() else {
            return None;
        };
        let pairs: Vec<Needed> = rest
            .chunks_exact(2)
            .map(|pair| Needed {
                to_end: pair[0],
                to_hold: pair[1],
            })
            .collect();
        Some(Row {
            group: GROUPS.iter().position(|g| *g == fields[0])?,
            curve: fields[1].to_string(),
            tolerance: fields[2].parse().ok()?,
            here: [*m, *r, *halving],
            by_hand: pairs.try_into().ok()?,
        })
    }
}
