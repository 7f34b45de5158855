//! Deep trees: every depth there is, combs with the deep part in every
//! place, wide nodes, and trees as long as a tree may be. As in all tests,
//! no call may take more stack than promised.

use pod_tests::answer::{Lengths, Pair};
use pod_tests::library::{check, Judged};
use pod_tests::make;
use pod_tests::random::Random;
use pod_tests::stack::{deep, used, PROMISED};
use pod_tests::table::{parse, Table, Transition, ENTRIES, LONE, PAIRS, STATES, TRANSITIONS, WORD};
use pod_tests::tree::{replay, LONGEST};
use std::collections::BTreeSet;
use std::hint::black_box;
use std::ops::RangeInclusive;

/// What the trees of a test came to.
#[derive(Default)]
struct Seen {
    depths: BTreeSet<usize>,
    /// Bytes of the longest tree.
    longest: usize,
    /// The most transitions of a node.
    widest: u8,
    too_long: usize,
    replayed: usize,
    /// The most bytes of stack that a call took.
    stack: usize,
}

impl Seen {
    /// Judges the call for a pair that is not kept, and the tree's depth; a
    /// short tree is replayed.
    fn judge(&mut self, pair: &Pair, (s, t): (usize, usize)) -> Judged {
        let salt = (STATES * s + t) as u64;
        let judged = check(pair, s, t, pair.lengths(s, t), salt);
        self.stack = self.stack.max(judged.stack);
        if judged.answer.number == 23 {
            self.too_long += 1;
            return judged;
        }
        // Any table will do to see the shape.
        let shape = replay(&judged.tree, &parse(&LONE).unwrap()).unwrap();
        assert_eq!(shape.depth as u32, pair.rank(s, t));
        self.depths.insert(shape.depth);
        self.longest = self.longest.max(judged.tree.len());
        self.widest = self.widest.max(shape.widest);
        if judged.tree.len() < 1_200 {
            self.replayed += 1;
            judged.replayed(pair, s, t);
        }
        judged
    }

    /// The depths that no tree had.
    fn missing(&self, depths: RangeInclusive<usize>) -> Vec<usize> {
        depths
            .filter(|depth| !self.depths.contains(depth))
            .collect()
    }

    fn print(&self, name: &str) {
        println!(
            "{name}: {} depths to {}, {} bytes, {} wide, {} too long, {} replayed, stack {}",
            self.depths.len(),
            self.depths.last().unwrap(),
            self.longest,
            self.widest,
            self.too_long,
            self.replayed,
            self.stack
        );
    }
}

/// The pairs that are not kept, those of the lowest rank first.
fn lost(pair: &Pair) -> Vec<(usize, usize)> {
    let width = pair.second.states.len();
    let pairs = 0..pair.ranking.ranks.len();
    let mut pairs: Vec<_> = pairs.map(|at| (at / width, at % width)).collect();
    pairs.retain(|&(s, t)| pair.rank(s, t) > 0);
    pairs.sort_by_key(|&(s, t)| pair.rank(s, t));
    pairs
}

#[test]
fn stack_is_counted() {
    fn take<const N: usize>() {
        black_box(&mut [1u8; N]);
    }
    assert!(used(|| ()) < 256);
    let near = |bytes: usize, taken: usize| (taken..taken + 512).contains(&bytes);
    assert!(near(used(take::<1_000>), 1_000));
    assert!(near(used(take::<PROMISED>), PROMISED));
    assert!(near(used(take::<100_000>), 100_000));
    assert!(near(used(take::<{ PROMISED + 1_000 }>), PROMISED + 1_000));
    assert!(used(take::<1_000_000>) > PROMISED);
    assert!(used(|| ()) < 256);
}

#[test]
fn every_depth() {
    deep(|| {
        let pair = Pair::of(&make::counter(WORD));
        let mut seen = Seen::default();
        for (s, t) in lost(&pair) {
            let judged = seen.judge(&pair, (s, t));
            if pair.rank(s, t).is_multiple_of(512) {
                judged.replayed(&pair, s, t);
            }
        }
        seen.print("counter");
        assert_eq!(seen.missing(1..=4_096), []);

        let full = pair.lengths(0, 0);
        assert_eq!((pair.rank(0, 0), full.tree), (4_096, 28_673));
        let tree = full.tree - 1;
        let short = check(&pair, 0, 0, Lengths { tree, ..full }, 2);
        assert_eq!((short.answer.number, short.answer.needed), (22, 28_673));
    });
}

/// The levels of the deepest tree that can be written: each takes 7 bytes.
const DEEPEST: usize = (LONGEST as usize - 1) / 7;

#[test]
fn deepest_trees() {
    // Every pair has a rank of its own, up to 16,384, and from 9,363 on no
    // tree can be written.
    assert_eq!(DEEPEST, 9_362);
    deep(|| {
        let pair = Pair::of(&make::counter(STATES));
        let lost = lost(&pair);
        assert_eq!((pair.ranking.rounds(), lost.len()), (16_384, PAIRS));
        let mut seen = Seen::default();
        for at in (0..PAIRS).step_by(PAIRS / 64) {
            seen.judge(&pair, lost[at]);
        }
        for rank in [DEEPEST - 1, DEEPEST, DEEPEST + 1, DEEPEST + 2, PAIRS] {
            let (s, t) = lost[rank - 1];
            let judged = seen.judge(&pair, (s, t));
            let number = if rank > DEEPEST { 23 } else { 0 };
            assert_eq!(
                (pair.rank(s, t), judged.answer.number),
                (rank as u32, number)
            );
        }
        seen.print("large counter");
        assert_eq!((seen.depths.last(), seen.longest), (Some(&DEEPEST), 65_535));

        let (s, t) = lost[DEEPEST - 1];
        let full = pair.lengths(s, t);
        check(&pair, s, t, full, 3).replayed(&pair, s, t);
        let tree = full.tree - 1;
        let short = check(&pair, s, t, Lengths { tree, ..full }, 2);
        assert_eq!((short.answer.number, short.answer.needed), (22, 65_535));
        let ranks = full.ranks - 1;
        let short = check(&pair, s, t, Lengths { ranks, ..full }, 2);
        assert_eq!((short.answer.number, short.answer.needed), (20, 16_384));
    });
}

#[test]
fn chains_and_cycles() {
    deep(|| {
        for states in [WORD, STATES] {
            let pair = Pair::of(&make::chain(states));
            let mut seen = Seen::default();
            for at in lost(&pair) {
                seen.judge(&pair, at);
            }
            seen.print("chain");
            assert_eq!(seen.missing(1..=states - 1), []);
        }

        let pair = Pair::of(&make::cycles(63, 64));
        assert_eq!((pair.ranking.rounds(), pair.ranking.kept), (4_032, 64));
        let mut lost = lost(&pair);
        let (s, t) = lost.pop().unwrap();
        let mut seen = Seen::default();
        seen.judge(&pair, (s, t)).replayed(&pair, s, t);
        for &at in lost.iter().step_by(31) {
            seen.judge(&pair, at);
        }
        seen.print("cycles");
        assert_eq!(seen.depths.last(), Some(&4_032));

        let pair = Pair::of(&make::cycles(127, 128));
        assert_eq!((pair.ranking.rounds(), pair.ranking.kept), (16_256, 128));
        let mut seen = Seen::default();
        for &at in self::lost(&pair).iter().step_by(223) {
            seen.judge(&pair, at);
        }
        seen.print("large cycles");
        assert!(seen.depths.len() > 40 && seen.too_long > 15);
    });
}

/// Where a comb is deep: the place of the child with a node among those of
/// the first transition, and in that node the place of the transition that
/// again has such a child. For depths from 3, where all transitions have as
/// many children.
fn places(tree: &[u8]) -> (usize, usize) {
    let (children, rest) = (tree[3] as usize, &tree[4..]);
    let has_node = |child: &[u8]| child[3] > 0;
    let child = rest.chunks(4).position(has_node).unwrap();
    let mut steps = rest[4 * child + 4..].chunks(3 + 4 * children);
    let goes_on = |step: &[u8]| step[3..].chunks_exact(4).any(has_node);
    (child, steps.position(goes_on).unwrap())
}

#[test]
fn combs() {
    deep(|| {
        let mut seen = Seen::default();
        let mut judge = |tables, leaves: (usize, usize), stuck: (usize, usize), rank| {
            let pair = Pair::of(&make::comb(tables, leaves, stuck));
            assert_eq!(pair.ranking.rounds(), rank);
            let mut lost = lost(&pair);
            lost.retain(|&(s, t)| pair.rank(s, t) > 2);
            for &at in lost.iter().rev().step_by(lost.len() / 24 + 1) {
                let judged = seen.judge(&pair, at);
                if judged.answer.number == 0 {
                    assert_eq!(places(&judged.tree), (leaves.0, stuck.0));
                    assert_eq!(judged.tree[3] as usize, leaves.0 + 1 + leaves.1);
                }
            }
        };
        // The deep child first, in the middle, last.
        judge(make::cycles(37, 40), (0, 2), (0, 0), 37 * 40);
        judge(make::cycles(61, 64), (1, 1), (0, 0), 61 * 64);
        judge(make::cycles(37, 40), (2, 0), (0, 0), 37 * 40);
        // The deep transition of its node first, in the middle, last.
        for leaves in [(0, 2), (1, 1), (2, 0)] {
            for stuck in [(0, 3), (2, 1), (3, 0)] {
                judge(make::cycles(23, 24), leaves, stuck, 23 * 24);
                judge(make::chain(60), leaves, stuck, 59);
            }
            judge(make::cycles(13, 29), leaves, (7, 8), 13 * 29);
            judge(make::chain(8), leaves, (50, 0), 7);
            // Numbers from 64 on alone: the deep transition, or all others.
            judge(make::chain(5), leaves, (120, 0), 4);
            judge(make::chain(5), leaves, (0, 120), 4);
            judge(make::cycles(7, 5), leaves, (70, 20), 7 * 5);
        }
        for leaves in [(64, 1), (100, 10), (1, 64)] {
            judge(make::chain(5), leaves, (0, 0), 4);
            judge(make::cycles(3, 4), leaves, (64, 0), 3 * 4);
        }
        judge(make::cycles(123, 128), (1, 1), (0, 0), 123 * 128);
        seen.print("combs");
        assert_eq!((seen.depths.last(), seen.widest), (Some(&3_936), 121));
        assert!(seen.longest > 60_000 && seen.too_long > 0);
        assert!(seen.replayed > 100);
    });
}

#[test]
fn fans() {
    // All children of a transition are deep and have equal lengths.
    let mut seen = Seen::default();
    for width in 2..=22 {
        for layers in 2.. {
            let tables = make::fan(layers, width);
            let (states, entries) = (tables.0.states.len(), tables.0.entries());
            if states > STATES || entries > ENTRIES {
                break;
            }
            if seen.judge(&Pair::of(&tables), (0, 0)).answer.number == 23 {
                break;
            }
        }
    }
    seen.print("fans");
    assert_eq!(seen.missing(1..=12), []);
    assert!(seen.longest > 45_000 && seen.too_long > 0);
    assert!(seen.replayed > 30);
}

#[test]
fn wide_nodes() {
    // All transitions of a node are deep and have equal lengths: from 2 to
    // 127 of them.
    let mut seen = Seen::default();
    for width in 2..STATES {
        for layers in 1.. {
            let tables = make::layered(&[vec![1], vec![width; layers]].concat());
            let (states, steps) = (tables.1.states.len(), tables.1.transitions());
            if states > STATES || steps > TRANSITIONS {
                break;
            }
            if seen.judge(&Pair::of(&tables), (0, 0)).answer.number == 23 {
                break;
            }
        }
    }
    // And all states: the second table lists the code that comes next, and
    // none of its states has it.
    for states in [WORD, WORD + 1, STATES] {
        let all = Transition {
            code: 10,
            entries: (0..states as u8).map(|t| (t, 1)).collect(),
        };
        let first = Table::new(vec![vec![make::to(10, 1)], vec![make::to(20, 1)]]);
        let second = make::padded(Table::new(vec![vec![all]]), states);
        let second = make::listing(second, &first.codes);
        seen.judge(&Pair::of(&(first, second)), (0, 0));
        assert!(seen.widest as usize >= states);
    }
    seen.print("wide nodes");
    assert_eq!(seen.widest, 128);
    assert_eq!(seen.missing(2..=13), []);
    assert!(seen.longest > 59_000 && seen.too_long > 0);
    assert!(seen.replayed > 60);
}

#[test]
fn mixed_trees() {
    // Combs with their states in any order, so that the deep part is now
    // here, now there, and with small changes.
    let mut random = Random::new(41);
    let mut seen = Seen::default();
    deep(|| {
        for round in 0..120 {
            let n = random.between(3, 20);
            let tables = match round % 3 {
                0 => make::cycles(n, random.between(3, 20)),
                1 => make::counter(n),
                _ => make::chain(2 * n),
            };
            let mut some = || (random.below(5), random.below(5));
            let (leaves, stuck) = match some() {
                (0, 0) => ((0, 0), (0, 0)),
                leaves => (leaves, some()),
            };
            let (first, second) = make::comb(tables, leaves, stuck);
            let edits = random.below(3);
            let second = make::edited(&mut random, &second, edits, 2);
            let first = make::shuffled(&mut random, &first);
            let second = make::shuffled(&mut random, &second);
            let pair = Pair::of(&(first, second));
            let lost = lost(&pair);
            for k in 0..12.min(lost.len()) {
                // Mostly the deeper ones.
                let last = lost.len() - 1;
                let at = lost[last - random.below(lost.len()) * (k % 4) / 4];
                seen.judge(&pair, at);
            }
        }
    });
    seen.print("mixed trees");
    assert_eq!(seen.missing(2..=40), []);
    assert!(seen.depths.range(100..).count() > 50);
    assert!(seen.widest > 6 && seen.too_long > 5 && seen.replayed > 300);
}

#[test]
fn longest_trees() {
    // A level of such a comb takes 67 bytes, the last one 3 and 4 for each
    // end, so that there is a tree of every length.
    let mut seen = Seen::default();
    let mut written = Vec::new();
    let mut refused = Vec::new();
    deep(|| {
        for length in LONGEST - 3..=LONGEST + 3 {
            let fits = |ends: &u64| (length - 4 - 4 * ends).is_multiple_of(67);
            let ends = (1..=67).find(fits).unwrap();
            let below = (length % 16) as usize;
            let tables = make::cycles_to(16, 63, ends as usize);
            let pair = Pair::of(&make::comb(tables, (below, 15 - below), (0, 0)));
            let mut lost = lost(&pair);
            lost.retain(|&(s, t)| pair.trees.length(s, t) == length);
            let (s, t) = lost[0];
            let judged = seen.judge(&pair, (s, t));
            match judged.answer.number {
                0 => written.push(length),
                _ => refused.push(length),
            }
            let full = pair.lengths(s, t);
            for tree in [0, full.tree - 1, full.tree + 1, 70_000] {
                check(&pair, s, t, Lengths { tree, ..full }, length);
            }
        }
    });
    seen.print("longest trees");
    assert_eq!(written, [65_532, 65_533, 65_534, 65_535]);
    assert_eq!(refused, [65_536, 65_537, 65_538]);
}

#[test]
fn longest_thin_trees() {
    // A level takes 7 bytes and the last one 4 more for each end but the
    // first: every length, all of them nearly as deep as can be.
    let mut seen = Seen::default();
    deep(|| {
        for length in LONGEST - 3..=LONGEST + 3 {
            let fits = |ends: &u64| (length + 3 - 4 * ends).is_multiple_of(7);
            let ends = (1..=7).find(fits).unwrap();
            let pair = Pair::of(&make::cycles_to(121, 128, ends as usize));
            let of_length = |&&(s, t): &&(usize, usize)| pair.trees.length(s, t) == length;
            let (s, t) = *lost(&pair).iter().find(of_length).unwrap();
            let judged = seen.judge(&pair, (s, t));
            let number = if length > LONGEST { 23 } else { 0 };
            assert_eq!(judged.answer.number, number);
            let full = pair.lengths(s, t);
            for tree in [full.tree - 1, full.tree + 1] {
                check(&pair, s, t, Lengths { tree, ..full }, length);
            }
        }
    });
    seen.print("longest thin trees");
    assert_eq!((seen.longest, seen.too_long), (65_535, 3));
    assert_eq!(seen.missing(DEEPEST - 1..=DEEPEST), []);
}

#[test]
fn longest_wide_trees() {
    let mut random = Random::new(35);
    let mut nearest = (0, u64::MAX);
    for _ in 0..40_000 {
        let mut widths = vec![1];
        let mut steps = 0;
        let mut states = 1;
        loop {
            let width = random.between(1, 5);
            steps += widths[widths.len() - 1] * width;
            states += width;
            if steps > TRANSITIONS || states > STATES || widths.len() > 14 {
                break;
            }
            widths.push(width);
        }
        let (mut length, mut product) = (1, 1);
        for width in &widths {
            product *= *width as u64;
            length += 7 * product;
        }
        let near = length.abs_diff(LONGEST) < 1_500;
        let record = length <= LONGEST && length > nearest.0;
        let record = record || length > LONGEST && length < nearest.1;
        if !near || !record {
            continue;
        }
        match length <= LONGEST {
            true => nearest.0 = length,
            false => nearest.1 = length,
        }
        let pair = Pair::of(&make::layered(&widths));
        assert_eq!(pair.trees.length(0, 0), length);
        let judged = check(&pair, 0, 0, pair.lengths(0, 0), length);
        let number = if length > LONGEST { 23 } else { 0 };
        assert_eq!(judged.answer.number, number);
        let lengths = Lengths {
            tree: 70_000,
            ..pair.lengths(0, 0)
        };
        check(&pair, 0, 0, lengths, length);
    }
    println!("nearest to the limit: {nearest:?}");
    assert!(nearest.0 > 65_000 && nearest.1 < 66_000);
}
