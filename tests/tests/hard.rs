//! Tables that are made to be hard for the check, in sizes that the second
//! program can take: flows that stand for many rounds and then lose a pair,
//! and trees in which one pair occurs many times.

use pod_tests::alike;
use pod_tests::answer::Pair;
use pod_tests::hard;
use pod_tests::library::check;
use pod_tests::random::Random;
use pod_tests::table::Table;

/// What the calls of a test came to.
#[derive(Default)]
struct Seen {
    rounds: u32,
    flows: usize,
    trees: usize,
    too_long: usize,
    /// Bytes of the longest tree.
    longest: usize,
}

impl Seen {
    /// Judges the call for the starts and for some other pairs of states.
    fn judge(&mut self, random: &mut Random, tables: &(Table, Table), count: usize) {
        let pair = Pair::of(tables);
        self.rounds = self.rounds.max(pair.ranking.rounds());
        let mut chosen = alike::chosen(random, tables, count);
        chosen.push((0, 0));
        for (s, t) in chosen {
            let judged = check(&pair, s, t, pair.lengths(s, t), random.number());
            match (judged.answer.number, pair.rank(s, t)) {
                (23, _) => self.too_long += 1,
                (_, 0) => self.flows += 1,
                _ => self.trees += 1,
            }
            self.longest = self.longest.max(judged.tree.len());
        }
    }
}

#[test]
fn flows_in_every_round() {
    let mut random = Random::new(61);
    let mut seen = Seen::default();
    for round in 0..60 {
        let n = random.between(5, 12);
        let width = random.between(n.min(5), n);
        let tables = hard::many_flows(round, n, width, random.between(n + 2, 3 * n));
        seen.judge(&mut random, &tables, 12);
    }
    // Each of n² rounds takes one pair of the counters away.
    assert!(seen.rounds >= 144, "{} rounds", seen.rounds);
    assert!(seen.trees > 600, "{} trees", seen.trees);
}

#[test]
fn bands() {
    let mut random = Random::new(62);
    let mut seen = Seen::default();
    for round in 0..60 {
        let n = random.between(3, 14);
        let tables = hard::bands(round, n, random.between(2 * n + 4, 3 * n + 8));
        seen.judge(&mut random, &tables, 12);
    }
    let (flows, trees) = (seen.flows, seen.trees);
    assert!(flows > 20 && trees > 300, "{flows} flows, {trees} trees");
}

#[test]
fn near_copies() {
    let mut random = Random::new(63);
    let mut seen = Seen::default();
    for round in 0..12 {
        let states = random.between(20, 60);
        let busy = random.between(10, states);
        let tables = hard::near_copy(round, states, random.between(busy.max(30), 100), busy);
        seen.judge(&mut random, &tables, 12);
    }
    let (flows, trees) = (seen.flows, seen.trees);
    assert!(flows > 10 && trees > 30, "{flows} flows, {trees} trees");
}

#[test]
fn echoes() {
    let mut random = Random::new(64);
    let mut seen = Seen::default();
    for doublings in 1..=12 {
        for width in 2..=5 {
            let before = [0, 1, 7][random.below(3)];
            let tables = hard::echoes(doublings, width, before, 64);
            seen.judge(&mut random, &tables, 6);
        }
    }
    // Trees from some bytes to the longest, and some that are too long.
    assert!(seen.longest > 50_000, "{} bytes", seen.longest);
    let (trees, too_long) = (seen.trees, seen.too_long);
    assert!(
        trees > 60 && too_long > 3,
        "{trees} trees, {too_long} too long"
    );
}
