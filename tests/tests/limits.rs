//! Tables at the limits: 128 states, 256 transitions, 512 entries, totals of
//! 65,535, and such of 64 states; against the second program with a maximum
//! flow of its own.

use pod_tests::answer::{Lengths, Pair};
use pod_tests::library::check;
use pod_tests::make::{self, Shape};
use pod_tests::random::Random;
use pod_tests::stack::deep;
use pod_tests::table::{Table, Transition, ENTRIES, STATES, STEPS, TOTAL, WORD};
use pod_tests::tree::LONGEST;

/// The lengths from two below to two above.
fn around(length: usize) -> impl Iterator<Item = usize> {
    length.saturating_sub(2)..=length + 2
}

#[derive(Debug, Default)]
struct Seen {
    pairs: usize,
    kept: usize,
    /// Pairs by rank, higher ones last.
    ranks: [usize; 9],
    too_long: usize,
    split: usize,
    replayed: usize,
}

/// Judges some pairs of states of two tables.
fn sample(random: &mut Random, pair: &Pair, count: usize, seen: &mut Seen) {
    let (height, width) = (pair.first.states.len(), pair.second.states.len());
    for k in 0..count {
        let (s, mut t) = (random.below(height), random.below(width));
        if k % 2 == 1 && s < width {
            t = s;
        }
        let (s, t) = if k == 0 { (0, 0) } else { (s, t) };
        let mut lengths = pair.lengths(s, t);
        lengths.tree += random.below(3);
        lengths.flow += random.below(3);
        let judged = check(pair, s, t, lengths, random.number());
        let rank = pair.rank(s, t) as usize;
        seen.pairs += 1;
        seen.ranks[rank.min(8)] += 1;
        seen.kept += (rank == 0) as usize;
        seen.too_long += (judged.answer.number == 23) as usize;
        seen.split += (rank == 0 && pair.must_split(s, t)) as usize;
        if judged.answer.rank > 0 && judged.tree.len() < 2_000 {
            seen.replayed += 1;
            judged.replayed(pair, s, t);
        }
    }
}

/// A table of 30 to 85 states and one of up to 128 that does the same.
fn doubled(random: &mut Random) -> (Table, Table) {
    let shape = Shape {
        states: 2 * STATES / 3,
        codes: 3,
        steps: 3,
        width: 5,
        weight: 3_000,
    };
    loop {
        let table = make::random(random, shape);
        if table.states.len() > 30 {
            if let Some(other) = make::doubled(random, &table) {
                return (table, other);
            }
        }
    }
}

/// A table of many states, 64 or 128, and one that is nearly the same.
fn near(random: &mut Random, round: usize) -> (Table, Table) {
    let (codes, wide) = ([1, 2, 6, 40][round % 4], round.is_multiple_of(3));
    let (most_codes, edits) = (codes.min(6), random.below(5));
    let states = [WORD, STATES][round / 60 % 2];
    if round % 10 == 9 {
        let first = make::sized(random, states, codes, wide);
        return (first, make::sized(random, states, codes, wide));
    }
    let (table, other) = match round % 5 {
        4 => doubled(random),
        _ => {
            let table = make::sized(random, states, codes, wide);
            let other = make::edited(random, &table, edits, most_codes);
            (table, other)
        }
    };
    match round % 2 {
        0 => (table, other),
        _ => (other, table),
    }
}

#[test]
fn near_copies() {
    let mut random = Random::new(31);
    let mut seen = Seen::default();
    for round in 0..300 {
        let pair = Pair::of(&near(&mut random, round));
        sample(&mut random, &pair, 10, &mut seen);
    }
    println!("{seen:?}");
    assert!(seen.kept > 400 && seen.pairs - seen.kept > 400);
    assert!(seen.ranks[1..5].iter().all(|&count| count > 20));
    assert!(seen.split > 50 && seen.replayed > 400);
}

/// A table of so many states in a line of layers, transitions mostly leading
/// to the layer after.
fn line(random: &mut Random, count: usize, codes: usize) -> Table {
    let layer = random.between(2, 6);
    // Two transitions a state, and no more entries than there may be.
    let width = ENTRIES / (2 * count);
    let mut states = vec![Vec::new(); count];
    for (s, steps) in states.iter_mut().enumerate() {
        for _ in 0..2 {
            let next = (s / layer + 1) * layer;
            let mut targets: Vec<u8> = (next..(next + layer).min(count)).map(|t| t as u8).collect();
            targets.retain(|_| !random.once_in(3));
            targets.truncate(width);
            if targets.is_empty() {
                targets.push(count as u8 - 1);
            }
            let weights = make::weights(random, targets.len(), 60);
            steps.push(Transition {
                code: 10 * (1 + random.below(codes)) as u16,
                entries: targets.into_iter().zip(weights).collect(),
            });
        }
    }
    states[count - 1].pop();
    Table::new(states)
}

#[test]
fn long_lines() {
    // Deep ranks, trees of all lengths up to those that are refused.
    let mut random = Random::new(32);
    let mut seen = Seen::default();
    for round in 0..200 {
        let table = line(&mut random, [WORD, STATES][round / 3 % 2], 1 + round % 3);
        let edits = random.between(1, 4);
        let other = make::edited(&mut random, &table, edits, 2);
        let pair = Pair::of(&(table, other));
        deep(|| sample(&mut random, &pair, 12, &mut seen));
    }
    println!("{seen:?}");
    assert!(seen.ranks.iter().all(|&count| count > 30));
    assert!(seen.too_long > 50 && seen.replayed > 500);
}

#[test]
fn longest_flow() {
    // One state holds 255 transitions and all 512 entries; the buffer must
    // have 393,982 bytes, and 393,981 are refused.
    let mut random = Random::new(33);
    for round in 0..6 {
        let mut table = Table::new(vec![Vec::new(); STATES]);
        let mut left = ENTRIES;
        for k in 0..STEPS {
            let width = (left - (STEPS - 1 - k)).min([4, STATES][round % 2]);
            left -= width;
            let weights = make::weights(&mut random, width, TOTAL - round as u64);
            table.states[0].push(Transition {
                code: [7, k as u16][round / 2 % 2],
                entries: (0..).zip(weights).collect(),
            });
        }
        let table = Table::new(table.states);
        let mut states = table.states.clone();
        states[0].reverse();
        let pair = Pair::of(&(table, Table::new(states)));
        let full = pair.lengths(0, 0);
        assert_eq!((full.flow, pair.rank(0, 0)), (393_982, 0));
        for flow in around(full.flow) {
            let answer = check(&pair, 0, 0, Lengths { flow, ..full }, flow as u64).answer;
            let due = if flow < 393_982 {
                (21, 393_982)
            } else {
                (0, 0)
            };
            assert_eq!((answer.number, answer.needed), due);
        }
    }
}

#[test]
fn lengths_around_the_need() {
    let mut random = Random::new(34);
    let mut seen = [0; 24];
    for round in 0..40 {
        let tables = match round % 3 {
            0 => near(&mut random, round),
            _ => {
                let table = line(&mut random, [WORD, STATES][round % 2], 2);
                let other = make::edited(&mut random, &table, 2, 2);
                (table, other)
            }
        };
        let pair = Pair::of(&tables);
        for k in 0..2 {
            let least = pair.first.states.len().min(pair.second.states.len());
            let s = random.below(least);
            let t = if k == 0 { s } else { random.below(least) };
            let full = pair.lengths(s, t);
            let mut judge = |lengths| {
                let answer = check(&pair, s, t, lengths, random.number()).answer;
                seen[answer.number as usize] += 1;
            };
            for ranks in around(full.ranks).chain([0, 1, 255, 256]) {
                judge(Lengths { ranks, ..full });
            }
            for flow in around(full.flow).chain([0, 1]) {
                judge(Lengths { flow, ..full });
            }
            for tree in around(full.tree).chain([0, 1, LONGEST as usize]) {
                judge(Lengths { tree, ..full });
            }
        }
    }
    println!("by number: {seen:?}");
    let least = [500, 300, 50, 50, 10];
    let seen = [seen[0], seen[20], seen[21], seen[22], seen[23]];
    assert!(seen.iter().zip(least).all(|(&seen, least)| seen > least));
}
