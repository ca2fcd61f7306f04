//! Looks for orders of values that make a search run long: a beam over the sign and the size of
//! each next value. It moves the running state of plain.rs, which is quick; what it finds is tried
//! on the model and on the library afterwards.

use crate::plain::Walk;
use crate::rng::Rng;
use crate::types::Opening;
use std::cmp::Reverse;
use std::collections::HashSet;

/// The states that the beam keeps to find the longest searches that we know: 57 answers by M and
/// 69 by R, over the whole range at τ = 1. With 50,000 it finds none that is longer.
pub const WIDE: usize = 1_500;

/// A state of the beam: the search so far, its last value, and the state before, by its place.
struct Node {
    walk: Walk,
    value: i32,
    parent: usize,
}

/// The orders of values found that make this search run longest, each up to its stop.
pub fn longest(opening: &Opening, width: usize, rng: &mut Rng) -> Vec<Vec<i32>> {
    let start = Walk::new(opening).expect("the beam begins with an accepted opening");
    let mut levels = vec![vec![Node {
        walk: start,
        value: 0,
        parent: 0,
    }]];
    loop {
        let next = children(&levels[levels.len() - 1], opening, width, rng);
        if next.is_empty() {
            break;
        }
        levels.push(next);
    }
    let last = levels.len() - 1;
    (0..levels[last].len())
        .map(|place| history(&levels, last, place))
        .collect()
}

/// The best states one value further on, at most `width` of them and no two alike.
fn children(nodes: &[Node], opening: &Opening, width: usize, rng: &mut Rng) -> Vec<Node> {
    let mut next = Vec::new();
    for (parent, node) in nodes.iter().enumerate() {
        for value in candidates(&node.walk, rng) {
            let mut walk = node.walk;
            if walk.take(value).is_ok() {
                next.push(Node {
                    walk,
                    value,
                    parent,
                });
            }
        }
    }
    next.sort_by_cached_key(|node| Reverse(promise(&node.walk, opening)));
    let mut seen = HashSet::new();
    let new = |node: &Node| seen.insert(node.walk);
    next.into_iter().filter(new).take(width).collect()
}

/// How long a state may still run: so many steps for each halving that is left until the bracket is
/// as wide as the tolerance at its better end, less the steps gone since the last. It is 2 to that
/// power, and the width 256 times as large, so as to be a whole number.
fn promise(walk: &Walk, opening: &Opening) -> u128 {
    let steps = if opening.method == 1 { 4 } else { 5 };
    let width = 256 * walk.length() / walk.tolerance_at_b();
    (width as u128).pow(steps) << (steps - walk.streak().min(steps))
}

/// Values worth a try: of either sign, near the better end's size and of every size.
fn candidates(walk: &Walk, rng: &mut Rng) -> Vec<i32> {
    let better = walk.better_value().unsigned_abs() as i32;
    let mut sizes = vec![
        0,
        1,
        2,
        better - 1,
        better,
        better + 1,
        better / 2,
        better * 2,
    ];
    sizes.extend((0..8).map(|_| rng.size()));
    sizes.push(10_000);
    sizes.retain(|size| (0..=10_000).contains(size));
    sizes.iter().flat_map(|&size| [size, -size]).collect()
}

/// The values that led to a state.
fn history(levels: &[Vec<Node>], level: usize, mut place: usize) -> Vec<i32> {
    let mut values = Vec::new();
    for nodes in levels[1..=level].iter().rev() {
        values.push(nodes[place].value);
        place = nodes[place].parent;
    }
    values.reverse();
    values
}
