//! Tables of 65 to 128 states, whose sets of states take a second word of 64
//! bits: sizes on either side of a word, sets that lie in one word alone, and
//! random tables.

use pod_tests::alike;
use pod_tests::answer::{Answer, Lengths, Pair};
use pod_tests::library::{check, Call, FIELDS};
use pod_tests::make::{self, Shape};
use pod_tests::random::Random;
use pod_tests::stack::deep;
use pod_tests::table::{below, parse, Table, LONE, STATES, WORD};
use pod_tests::tree::LONGEST;

/// What the judged pairs of states came to.
#[derive(Debug, Default)]
struct Seen {
    pairs: usize,
    kept: usize,
    /// Pairs by rank, higher ones last.
    ranks: [usize; 7],
    too_long: usize,
    split: usize,
    replayed: usize,
}

impl Seen {
    /// Judges the call for a pair of states.
    fn judge(&mut self, pair: &Pair, (s, t): (usize, usize)) {
        let salt = (s * STATES + t) as u64;
        let judged = check(pair, s, t, pair.lengths(s, t), salt);
        let rank = pair.rank(s, t) as usize;
        self.pairs += 1;
        self.ranks[rank.min(6)] += 1;
        self.kept += (rank == 0) as usize;
        self.too_long += (judged.answer.number == 23) as usize;
        self.split += (rank == 0 && pair.must_split(s, t)) as usize;
        if judged.answer.rank > 0 && judged.tree.len() < 2_000 {
            self.replayed += 1;
            judged.replayed(pair, s, t);
        }
    }

    /// Judges some pairs, of which one in three has equal numbers.
    fn sample(&mut self, random: &mut Random, pair: &Pair, count: usize) {
        let (p, q) = (pair.first.states.len(), pair.second.states.len());
        for k in 0..count {
            let s = random.below(p);
            let t = if k % 3 == 0 { s % q } else { random.below(q) };
            self.judge(pair, (s, t));
        }
    }
}

/// Transitions of few targets are tried by all subsets.
fn pair((first, second): &(Table, Table)) -> Pair {
    let pair = Pair::new(4, &first.bytes(), &second.bytes());
    pair.ok().unwrap()
}

#[test]
fn sizes() {
    // Copies of one table with so many states each: the last state of a
    // word, the first of the next, and the last of all.
    let sizes = [1, 63, 64, 65, 127, 128];
    let mut random = Random::new(51);
    let mut seen = Seen::default();
    for (p, q) in sizes.iter().flat_map(|&p| sizes.map(|q| (p, q))) {
        for round in 0..4 {
            let states = random.between(1, p.min(q).min(40));
            let shape = Shape {
                steps: 2,
                ..alike::large_shape(&mut random, 2)
            };
            let table = make::random_of(&mut random, states, shape);
            let first = make::copied(&mut random, &table, p);
            let second = make::copied(&mut random, &table, q);
            let second = make::edited(&mut random, &second, round, 3);
            let pair = pair(&(first, second));
            assert_eq!(pair.ranking.ranks.len(), p * q);
            for (s, t) in [(0, 0), (p - 1, q - 1), (p - 1, 0), (0, q - 1)] {
                seen.judge(&pair, (s, t));
            }
            for at in [WORD - 1, WORD].into_iter().filter(|&at| at < p.min(q)) {
                seen.judge(&pair, (at, at));
            }
            seen.sample(&mut random, &pair, 6);
        }
    }
    println!("{seen:?}");
    assert!(seen.kept > 300 && seen.pairs - seen.kept > 300);
    assert!(seen.replayed > 200);
}

#[test]
fn refused_beyond_the_limits() {
    let lone = LONE.to_vec();
    let idle = |states: usize| Table::new(vec![Vec::new(); states]).bytes();
    let busy = |shares: [usize; 2]| {
        let steps = |share| vec![make::to(1, 0); share];
        Table::new(shares.map(steps).to_vec()).bytes()
    };
    let lengths = Lengths {
        ranks: 2 * STATES,
        flow: 20,
        tree: 20,
    };
    let refused = [(idle(129), 4), (busy([255, 2]), 5), (busy([128, 129]), 5)];
    for (table, number) in refused {
        for (first, second, at) in [(&table, &lone, 1), (&lone, &table, 2), (&table, &table, 1)] {
            let call = Call::new((first, second), (0, 0), lengths, FIELDS, 3);
            assert_eq!(call.refusal(), Answer::refusal(number, at, 0));
        }
    }
    for table in [
        idle(65),
        idle(128),
        busy([129, 0]),
        busy([255, 1]),
        busy([128, 128]),
    ] {
        let pair = Pair::new(1, &table, &table).ok().unwrap();
        let judged = check(&pair, 0, 0, pair.lengths(0, 0), 4);
        assert_eq!((judged.answer.number, judged.answer.verdict), (0, 1));
    }
}

/// The ranks of the pairs from (s, t) on, so many rows and columns of them.
fn block(pair: &Pair, (s, t): (usize, usize), (p, q): (usize, usize)) -> Vec<u32> {
    let row = |i: usize| (0..q).map(move |j| pair.rank(s + i, t + j));
    (0..p).flat_map(row).collect()
}

#[test]
fn states_of_the_second_word_alone() {
    // Two tables, whose states lie now low, now from 64 on, up to the last:
    // what becomes of a pair does not depend on its numbers. What lies below
    // can do nothing, or is a table of its own. All second tables list the
    // same codes.
    let mut random = Random::new(52);
    let mut seen = Seen::default();
    let mut high_rows = 0;
    let lone = parse(&LONE).unwrap();
    for round in 0..60 {
        let (n, edits) = (random.between(2, 30), random.below(4));
        let shape = alike::large_shape(&mut random, 4);
        let first = make::random_of(&mut random, n, shape);
        let second = make::edited(&mut random, &first, edits, 3);
        let listed = |table| make::listing(table, &[10, 20, 30]);
        let own = pair(&(first.clone(), listed(second.clone())));
        let low = match round % 3 {
            0 => make::random_of(&mut random, n, shape),
            _ => lone.clone(),
        };
        let last = STATES - n;
        for (i, j) in [
            (n, WORD),
            (WORD, n),
            (WORD, WORD),
            (last, WORD - 1),
            (last, last),
        ] {
            let raised = (
                make::raised(&first, i, &low),
                listed(make::raised(&second, j, &low)),
            );
            let pair = pair(&raised);
            assert_eq!(block(&pair, (i, j), (n, n)), block(&own, (0, 0), (n, n)));
            assert_eq!(pair.rank(0, 0), own.rank(0, 0));
            assert_eq!(pair.lengths(0, 0).tree, own.lengths(0, 0).tree);
            let kept = pair.ranking.last()[i..].iter();
            let high = kept.filter(|&&row| row > 0 && row & below(WORD) == 0);
            high_rows += high.count();
            for (s, t) in [(0, 0), (i, j), (0, j), (i + n - 1, j + n - 1)] {
                seen.judge(&pair, (s, t));
            }
            let (s, t) = (i + random.below(n), j + random.below(n));
            seen.judge(&pair, (s, t));
        }
    }
    println!("{seen:?}, {high_rows} rows of high states alone");
    assert!(high_rows > 1_000);
    assert!(seen.kept > 300 && seen.pairs - seen.kept > 300);
    assert!(seen.split > 20 && seen.replayed > 200);
}

/// The tree of the starts of two tables by `flags`: the members of the set
/// are told apart from all others by their own codes.
fn flag_tree(weights: &[u16], in_set: &[bool]) -> Vec<u8> {
    let others = in_set.iter().filter(|member| !**member).count();
    let mut bytes = vec![1, 0, 0, weights.len() as u8];
    for (at, weight) in weights.iter().enumerate() {
        let state = at + 1;
        bytes.push(state as u8);
        bytes.extend(weight.to_le_bytes());
        let steps = if in_set[at] { others } else { 0 };
        bytes.push(steps as u8);
        let [low, high] = make::flag(state).to_le_bytes();
        let step = [low, high, 1, state as u8, 1, 0, 0];
        bytes.extend(step.repeat(steps));
    }
    bytes
}

#[test]
fn sets_in_either_word() {
    // One transition to all states. The members of the set of the largest
    // excess lie in one word, or in both, and those that they are told apart
    // from are all others.
    let mut random = Random::new(53);
    for states in [64, 65, 66, 100, 127, 128] {
        let ranges = [
            1..64,
            64..128,
            1..65,
            65..128,
            63..66,
            1..2,
            127..128,
            100..110,
        ];
        let mut sets: Vec<Vec<bool>> = ranges
            .map(|range| (1..states).map(|s| range.contains(&s)).collect())
            .to_vec();
        sets.extend((0..8).map(|k| (1..states).map(|_| random.once_in(2 + k)).collect()));
        for set in sets {
            let count = set.iter().filter(|member| **member).count();
            if count == 0 || count == set.len() {
                continue;
            }
            // More weight on each member than the other table has.
            let heavy = |member: &bool| if *member { 5 } else { 3 };
            let weights: Vec<u16> = set.iter().map(heavy).collect();
            let first = make::flags(&weights);
            let second = make::flags(&vec![1; states - 1]);
            let pair = pair(&(first, second));
            assert_eq!(
                (pair.rank(0, 0), pair.ranking.kept as usize),
                (2, states - 1)
            );
            let judged = check(&pair, 0, 0, pair.lengths(0, 0), 6);
            assert!(judged.tree.len() < LONGEST as usize);
            assert_eq!(judged.tree, flag_tree(&weights, &set));
            judged.replayed(&pair, 0, 0);
        }
    }
}

#[test]
fn flows_in_either_word() {
    // The same with weights in proportion: each target goes whole to itself.
    for states in [64, 65, 66, 100, 127, 128] {
        let weights = |scale: usize| -> Vec<u16> {
            let weight = |s: usize| (scale * (1 + s % 5)) as u16;
            (1..states).map(weight).collect()
        };
        let pair = pair(&(make::flags(&weights(2)), make::flags(&weights(3))));
        assert_eq!((pair.rank(0, 0), pair.ranking.kept as usize), (0, states));
        let judged = check(&pair, 0, 0, pair.lengths(0, 0), 7);
        assert_eq!(
            (judged.split, judged.answer.written as usize),
            (0, 4 + 6 * (states - 1))
        );
    }
}

#[test]
fn random_tables() {
    let mut random = Random::new(54);
    let mut seen = Seen::default();
    deep(|| {
        for round in 0..400 {
            let pair = pair(&alike::large(&mut random, round % 4));
            seen.judge(&pair, (0, 0));
            seen.sample(&mut random, &pair, 8);
        }
    });
    println!("{seen:?}");
    assert!(seen.kept > 500 && seen.pairs - seen.kept > 500);
    assert!(seen.ranks[1..].iter().all(|&count| count > 20));
    assert!(seen.split > 50 && seen.replayed > 500);
}
