//! Pairs of small tables: every answer and every lent buffer, against the
//! second program, which tries all subsets.

use pod_tests::alike;
use pod_tests::answer::{Answer, Lengths, Pair};
use pod_tests::fit::SUBSETS;
use pod_tests::library::{check, Call, FIELDS};
use pod_tests::make::{self, Shape};
use pod_tests::random::Random;
use pod_tests::table::{parse, Table, Transition, C, LONE, P, WIDE, ZEROS_C, ZEROS_P};

const ROOMY: Lengths = Lengths {
    ranks: 12,
    flow: 60,
    tree: 30,
};

fn pair(first: &[u8], second: &[u8]) -> Pair {
    Pair::new(SUBSETS, first, second).ok().unwrap()
}

/// Judges a call with so much room, and gives the answer.
fn answer(first: &[u8], second: &[u8], lengths: Lengths) -> Answer {
    check(&pair(first, second), 0, 0, lengths, 1).answer
}

#[test]
fn examples() {
    let with = |ranks, flow, tree| Lengths { ranks, flow, tree };
    let refusal = |number, needed| Answer::refusal(number, 0, needed);
    assert_eq!(answer(&P, &C, with(8, 0, 19)), refusal(20, 9));
    assert_eq!(answer(&P, &C, with(9, 0, 18)), refusal(22, 19));
    assert_eq!(answer(&C, &P, with(9, 39, 0)), refusal(21, 40));

    let judged = check(&pair(&P, &C), 0, 0, with(9, 0, 19), 2);
    let tree = [1, 10, 0, 2, 1, 3, 0, 1, 20, 0, 1, 1, 1, 0, 0, 2, 1, 0, 0];
    assert_eq!(judged.tree, tree);
    let due = Answer {
        rounds: 2,
        kept: 4,
        rank: 2,
        written: 19,
        ..Answer::default()
    };
    assert_eq!(judged.answer, due);

    let judged = check(&pair(&C, &P), 0, 0, with(9, 40, 0), 3);
    assert_eq!((judged.answer.verdict, judged.answer.written), (1, 22));
    assert_eq!(judged.split, 1);

    let equal = answer(&P, &P, ROOMY);
    assert_eq!((equal.rounds, equal.kept, equal.verdict), (1, 5, 1));
    let lone = answer(&LONE, &LONE, ROOMY);
    assert_eq!((lone.rounds, lone.kept, lone.verdict), (0, 1, 1));
    assert_eq!(lone.written, 1);
}

#[test]
fn refused_before_buffers() {
    let call = |first: &[u8], second: &[u8], pair, lengths| {
        Call::new((first, second), pair, lengths, FIELDS, 5).refusal()
    };
    let none = Lengths {
        ranks: 0,
        flow: 0,
        tree: 0,
    };
    for lengths in [none, ROOMY] {
        for pair in [(0, 0), (3, 3), (usize::MAX, 0)] {
            let refusal = Answer::refusal;
            assert_eq!(call(&P[..7], &C, pair, lengths), refusal(1, 1, 0));
            assert_eq!(call(&P[..7], &C[..0], pair, lengths), refusal(1, 1, 0));
            assert_eq!(call(&P, &C[..7], pair, lengths), refusal(1, 2, 0));
            let long = [&C[..], &[0]].concat();
            assert_eq!(call(&P, &long, pair, lengths), refusal(2, 2, 0));
            assert_eq!(call(&long, &C[..5], pair, lengths), refusal(2, 1, 0));
        }
        let far = usize::MAX;
        for pair in [
            (3, 0),
            (0, 3),
            (3, 3),
            (64, 0),
            (0, 128),
            (far, 0),
            (0, far),
        ] {
            let outside = Answer::refusal(11, 0, 0);
            assert_eq!(call(&P, &C, pair, lengths), outside);
        }
        // State 256 is not state 0, nor is 2³².
        for state in [256, 1 << 16, 1 << 32] {
            let outside = Answer::refusal(11, 0, 0);
            assert_eq!(call(&P, &C, (state, 0), lengths), outside);
            assert_eq!(call(&P, &C, (0, state), lengths), outside);
        }
    }
}

#[test]
fn refused_tables() {
    // A damaged table as first, as second and as both, also with weights of
    // 0 in them.
    let mut random = Random::new(20);
    let mut seen = [0; 3];
    for round in 0..6_000 {
        let mut tables = match round % 2 {
            0 => [P.to_vec(), C.to_vec()],
            _ => [ZEROS_P.to_vec(), ZEROS_C.to_vec()],
        };
        for (k, table) in tables.iter_mut().enumerate() {
            if round % 3 != k {
                let at = random.below(table.len());
                match random.below(3) {
                    0 => table.truncate(at),
                    1 => table[at] = random.byte() % 24,
                    _ => table.insert(at, random.byte() % 24),
                }
            }
        }
        let salt = round as u64;
        let [first, second] = &tables;
        match Pair::new(SUBSETS, first, second) {
            Ok(pair) => drop(check(&pair, 0, 0, pair.lengths(0, 0), salt)),
            Err(due) => {
                let call = Call::new((first, second), (0, 0), ROOMY, FIELDS, salt);
                assert_eq!(call.refusal(), due);
                seen[due.table as usize] += 1;
            }
        }
    }
    assert!(seen[1] > 1_000 && seen[2] > 1_000, "{seen:?}");
}

#[test]
fn short_answers() {
    for length in 0..FIELDS {
        for (first, second) in [(&P[..], &C[..]), (&C, &P), (&P[..3], &C)] {
            let call = Call::new((first, second), (0, 0), ROOMY, length, 9);
            assert!(call.untouched());
        }
    }
}

/// What the pairs of states came to.
#[derive(Debug, Default)]
struct Seen {
    pairs: usize,
    kept: usize,
    /// Pairs by rank, higher ones last.
    ranks: [usize; 12],
    yes: usize,
    too_long: usize,
    /// Kept pairs that need a target shared out over several.
    split: usize,
    replayed: usize,
    /// Trees with a node of several transitions.
    wide: usize,
    /// Refusals 20, 21, 22.
    short: [usize; 3],
}

impl Seen {
    fn count(&mut self, pair: &Pair, s: usize, t: usize) {
        let rank = pair.rank(s, t) as usize;
        self.pairs += 1;
        self.ranks[rank.min(11)] += 1;
        self.kept += (rank == 0) as usize;
        self.split += (rank == 0 && pair.must_split(s, t)) as usize;
    }
}

#[test]
fn random_pairs() {
    let mut random = Random::new(21);
    let mut seen = Seen::default();
    for round in 0..20_000 {
        let kind = if round % 25 == 24 { 7 } else { round % 7 };
        let (first, mut second) = alike::small(&mut random, kind);
        if random.once_in(8) {
            second = make::listing_more(&mut random, WIDE, second);
        }
        let (first, second) = (first.bytes(), second.bytes());
        let pair = pair(&first, &second);
        seen.yes += (pair.rank(0, 0) == 0) as usize;
        for s in 0..pair.first.states.len() {
            for t in 0..pair.second.states.len() {
                // Tables of many states: some of their pairs.
                if pair.second.states.len() > 12 && !random.once_in(4) {
                    continue;
                }
                seen.count(&pair, s, t);
                one(&mut random, &pair, s, t, &mut seen);
            }
        }
    }
    println!("{seen:?}");
    let Seen { pairs, kept, .. } = seen;
    assert!(pairs > 200_000 && kept > pairs / 5 && kept < 4 * pairs / 5);
    assert!(seen.ranks[1..7].iter().all(|&count| count > 2_000));
    assert!(seen.ranks[7..].iter().all(|&count| count > 1_000));
    assert!(seen.yes > 4_000 && seen.yes < 16_000);
    assert!(seen.too_long > 400 && seen.split > 8_000);
    assert!(seen.replayed > 60_000 && seen.wide > 6_000);
    assert!(seen.short.iter().all(|&count| count > 1_000));
}

/// One pair of states with just enough room or a little more, and now and
/// then with too little.
fn one(random: &mut Random, pair: &Pair, s: usize, t: usize, seen: &mut Seen) {
    let mut lengths = pair.lengths(s, t);
    lengths.ranks += random.below(3);
    lengths.flow += random.below(3);
    lengths.tree += random.below(3);
    let judged = check(pair, s, t, lengths, random.number());
    seen.too_long += (judged.answer.number == 23) as usize;
    if judged.answer.rank > 0 && (judged.tree.len() < 200 || random.once_in(16)) {
        seen.replayed += 1;
        seen.wide += (judged.replayed(pair, s, t).widest > 1) as usize;
    }
    if random.once_in(4) {
        let full = pair.lengths(s, t);
        let mut lengths = full;
        match random.below(3) {
            0 => lengths.ranks = random.below(full.ranks),
            1 => lengths.flow = random.below(full.flow),
            _ => lengths.tree = random.below(full.tree.max(1)),
        }
        let number = check(pair, s, t, lengths, random.number()).answer.number;
        if let 20..=22 = number {
            seen.short[number as usize - 20] += 1;
        }
    }
}

#[test]
fn wide_pairs() {
    // Up to 13 entries to a transition, all subsets tried.
    let mut random = Random::new(22);
    let (mut kept, mut pairs) = (0, 0);
    for _ in 0..300 {
        let shape = Shape {
            states: 13,
            codes: 1,
            steps: 1,
            width: 13,
            weight: 4,
        };
        let first = make::random(&mut random, shape);
        let second = make::edited(&mut random, &first, 2, 1);
        let pair = pair(&first.bytes(), &second.bytes());
        for s in 0..pair.first.states.len() {
            for t in 0..pair.second.states.len() {
                let judged = check(&pair, s, t, pair.lengths(s, t), 5);
                pairs += 1;
                kept += (judged.answer.number == 0 && judged.answer.rank == 0) as usize;
                if judged.answer.rank > 0 && judged.tree.len() < 1_000 {
                    judged.replayed(&pair, s, t);
                }
            }
        }
    }
    println!("{pairs} pairs, {kept} kept");
    assert!(kept > 5_000 && pairs - kept > 5_000);
}

#[test]
fn sixteen_entries() {
    // As many entries as subsets are tried for, in one transition.
    let mut random = Random::new(24);
    let (mut kept, mut fallen) = (0, 0);
    for round in 0..60 {
        let shape = Shape {
            states: 1,
            codes: 2,
            steps: 2,
            width: 1,
            weight: 1,
        };
        let mut states = Vec::new();
        while states.len() < 16 {
            let mut steps = make::random(&mut random, shape).states.remove(0);
            for step in &mut steps {
                step.entries[0].0 = random.between(1, 15) as u8;
            }
            states.push(steps);
        }
        let weights = make::weights(&mut random, 16, [16, 20, 65_535][round % 3]);
        states[0] = vec![Transition {
            code: 7,
            entries: (0..).zip(weights).collect(),
        }];
        let first = Table::new(states);
        let second = make::edited(&mut random, &first, 1 + round % 5, 2);
        let pair = pair(&first.bytes(), &second.bytes());
        let judged = check(&pair, 0, 0, pair.lengths(0, 0), round as u64);
        match judged.answer.rank {
            0 => kept += 1,
            _ => {
                fallen += 1;
                judged.replayed(&pair, 0, 0);
            }
        }
    }
    println!("{kept} kept, {fallen} fallen");
    assert!(kept >= 10 && fallen >= 10);
}

#[test]
fn every_length() {
    // All lengths of one buffer, the others long enough.
    for (first, second) in [(&P, &C), (&C, &P), (&P, &P)] {
        let pair = pair(&first[..], &second[..]);
        for s in 0..3 {
            for t in 0..3 {
                let full = pair.lengths(s, t);
                for ranks in 0..full.ranks + 3 {
                    check(&pair, s, t, Lengths { ranks, ..full }, ranks as u64);
                }
                for flow in 0..full.flow + 3 {
                    check(&pair, s, t, Lengths { flow, ..full }, flow as u64);
                }
                for tree in 0..full.tree + 3 {
                    check(&pair, s, t, Lengths { tree, ..full }, tree as u64);
                }
            }
        }
    }
}

#[test]
fn same_table_twice() {
    // Every table keeps all pairs of a state with itself.
    let mut random = Random::new(23);
    for round in 0..300 {
        let (table, _) = alike::small(&mut random, round % 7);
        let bytes = table.bytes();
        assert_eq!(parse(&bytes).unwrap(), table);
        let pair = pair(&bytes, &bytes);
        for s in 0..table.states.len() {
            let judged = check(&pair, s, s, pair.lengths(s, s), round as u64);
            assert_eq!((judged.answer.verdict, judged.answer.rank), (1, 0));
        }
    }
}
