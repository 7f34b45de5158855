//! Two random tables, most of them alike.

use crate::make::{self, Shape};
use crate::random::Random;
use crate::table::{Table, STATES, TRANSITIONS, WORD};

/// Small tables of one kind or another, of which there are eight.
pub fn small(random: &mut Random, kind: usize) -> (Table, Table) {
    let shape = Shape {
        states: random.between(1, 7),
        codes: random.between(1, 2),
        steps: random.between(1, 3),
        width: random.between(1, 5),
        weight: [1, 3, 6, 10_000][random.below(4)],
    };
    let edits = random.below(4);
    let table = make::random(random, shape);
    match kind {
        0 => (table, make::random(random, shape)),
        1 => {
            let other = make::edited(random, &table, edits, 2);
            (table, make::shuffled(random, &other))
        }
        2 => (make::edited(random, &table, edits, 2), table),
        3 | 4 => {
            let other = make::doubled(random, &table).unwrap_or_else(|| table.clone());
            let other = make::edited(random, &other, edits / 2, 2);
            match kind {
                3 => (table, other),
                _ => (other, table),
            }
        }
        5 | 6 => {
            let (p, q) = (random.between(1, 4), random.between(2, 5));
            let (first, second) = match random.below(3) {
                0 => make::cycles(p, q),
                1 => make::counter(q),
                _ => make::chain(p + 1),
            };
            let second = make::edited(random, &second, edits / 2, 2);
            (first, make::shuffled(random, &second))
        }
        _ => layers(random),
    }
}

/// One state against up to twelve layers of equal width.
fn layers(random: &mut Random) -> (Table, Table) {
    let width = random.between(1, 5);
    let most = TRANSITIONS / (width * width) + 1;
    let most = most.min(STATES / width).min(12);
    let layers = random.between(2, most.max(2));
    make::layers(random, layers, width)
}

/// Bounds for a table of many states.
pub fn large_shape(random: &mut Random, width: usize) -> Shape {
    Shape {
        states: STATES,
        codes: random.between(1, 3),
        steps: random.between(1, 3),
        width,
        weight: [1, 3, 6, 10_000][random.below(4)],
    }
}

/// Tables of 65 to 128 states, of one kind or another, of which there are
/// four.
pub fn large(random: &mut Random, kind: usize) -> (Table, Table) {
    let states = random.between(WORD + 1, STATES);
    let width = random.between(1, 5);
    let shape = large_shape(random, width);
    let edits = random.below(5);
    let table = make::random_of(random, states, shape);
    match kind {
        0 => {
            let states = random.between(WORD + 1, STATES);
            (table, make::random_of(random, states, shape))
        }
        1 => {
            let other = make::edited(random, &table, edits, 3);
            (table, make::shuffled(random, &other))
        }
        2 => (make::edited(random, &table, edits, 3), table),
        _ => {
            // Two sets of copies, with fewer transitions for that.
            let few = Shape {
                steps: 2,
                width: 2,
                ..shape
            };
            let count = random.between(20, WORD);
            let table = make::random_of(random, count, few);
            let first = make::copied(random, &table, states);
            let states = random.between(WORD + 1, STATES);
            let second = make::copied(random, &table, states);
            (first, make::edited(random, &second, edits, 3))
        }
    }
}

/// All pairs of states, or so many of them, half with equal numbers.
pub fn chosen(random: &mut Random, tables: &(Table, Table), count: usize) -> Vec<(usize, usize)> {
    let (p, q) = (tables.0.states.len(), tables.1.states.len());
    if p * q <= count {
        return (0..p * q).map(|at| (at / q, at % q)).collect();
    }
    let mut one = |k: usize| match (random.below(p), random.below(q)) {
        (s, _) if k % 2 == 0 => (s, s % q),
        any => any,
    };
    (0..count).map(&mut one).collect()
}
