//! Codes of two bytes and up to 1,024 of them: how they are counted, ordered
//! and looked up, and that both bytes count in every place.

use pod_tests::answer::{Answer, Lengths, Pair};
use pod_tests::fit::SUBSETS;
use pod_tests::library::{check, number, Call, FIELDS};
use pod_tests::make::{self, Shape};
use pod_tests::random::Random;
use pod_tests::table::{field, largest, parse, Table, C, CODES, LONE, P, TRANSITIONS, WIDE};

/// Codes that are alike in one byte, in none, or in the two exchanged.
const SOME_CODES: [u16; 14] = [
    0, 1, 255, 256, 257, 511, 512, 0x1234, 0x3412, 0x7fff, 0x8000, 0xfeff, 0xff00, 0xffff,
];

/// A table of one state that lists codes and takes others.
fn table(codes: Vec<u16>, taken: &[u16]) -> Vec<u8> {
    let states = vec![taken.iter().map(|&code| make::to(code, 0)).collect()];
    Table { codes, states }.bytes()
}

/// So many codes: the lowest, the highest, and some from 0 to 65,535.
fn lists(count: usize) -> [Vec<u16>; 3] {
    let low = (0..count as u16).collect();
    let high = (0..count as u16).map(|k| u16::MAX - k).rev().collect();
    let far = |k: usize| (k * 65_535 / (count - 1).max(1)) as u16;
    [low, high, (0..count).map(far).collect()]
}

#[test]
fn counts_that_pass() {
    for count in [1, 2, 254, 255, 256, 257, 511, 512, 1_023, 1_024] {
        for codes in lists(count) {
            let (first, last) = (codes[0], codes[count - 1]);
            let bytes = table(codes.clone(), &[last, first, codes[count / 2]]);
            assert_eq!(bytes[..2], field(2, count));
            assert_eq!(number(&bytes), 0, "{count} codes");
            assert_eq!(number(&[&bytes[..], &[0]].concat()), 2, "{count} codes");
            // Cut at every byte: in the count and in each code too.
            for length in 0..bytes.len() {
                assert_eq!(number(&bytes[..length]), 1, "{length} of {count} codes");
            }
        }
    }
    assert_eq!(number(&LONE), 0);
}

#[test]
fn counts_too_large() {
    // Told by the count alone, be the codes there, cut off or missing.
    for count in [
        1_025, 1_026, 1_279, 1_280, 2_048, 4_096, 32_768, 65_281, 65_535,
    ] {
        for codes in lists(count) {
            let last = codes[count - 1];
            let bytes = table(codes, &[last]);
            assert_eq!(bytes[..2], field(2, count));
            let some = [2, 3, 4, 2 + count, 1 + 2 * count, 2 + 2 * count];
            for length in some.into_iter().chain([bytes.len()]) {
                assert_eq!(number(&bytes[..length]), 3, "{length} of {count} codes");
            }
            assert_eq!(number(&bytes[..1]), 1);
        }
    }
    // Either table of a pair, before anything that is lent is looked at.
    let many = table(lists(1_025)[0].clone(), &[]);
    let none = Lengths {
        ranks: 0,
        flow: 0,
        tree: 0,
    };
    for many in [&many[..], &many[..2]] {
        for (first, second, at) in [(many, &P[..], 1), (&P, many, 2), (many, many, 1)] {
            let call = Call::new((first, second), (9, 9), none, FIELDS, 5);
            assert_eq!(call.refusal(), Answer::refusal(3, at, 0));
        }
    }
}

#[test]
fn half_a_count() {
    for byte in [0, 1, 2, 4, 5, 255] {
        assert_eq!(number(&[byte]), 1);
    }
}

#[test]
fn order_of_codes() {
    for a in SOME_CODES {
        for b in SOME_CODES {
            let due = if a < b { 0 } else { 3 };
            assert_eq!(number(&table(vec![a, b], &[])), due, "{a}, {b}");
        }
    }
    // Two codes exchanged, and one repeated, at the ends of a long list.
    for codes in lists(CODES) {
        for k in [0, 1, 255, 256, CODES / 2, CODES - 3, CODES - 2] {
            let mut other = codes.clone();
            other.swap(k, k + 1);
            assert_eq!(number(&table(other, &[])), 3, "at {k}");
            let mut other = codes.clone();
            other[k] = other[k + 1];
            assert_eq!(number(&table(other, &[])), 3, "at {k}");
        }
    }
}

#[test]
fn codes_looked_up() {
    // A code is listed only if both of its bytes are.
    for a in SOME_CODES {
        for b in SOME_CODES {
            let due = if a == b { 0 } else { 6 };
            assert_eq!(number(&table(vec![a], &[b])), due, "{a}, {b}");
            assert_eq!(number(&table(vec![a], &[a, b])), due, "{a}, {b}");
        }
    }
    // Each of a long list, as many at a time as there are transitions.
    for count in [255, 256, 257, 1_024] {
        let [.., codes] = lists(count);
        for taken in codes.chunks(TRANSITIONS / 2) {
            assert_eq!(number(&table(codes.clone(), taken)), 0);
            // Between two neighbours there are codes that are not listed.
            for at in [0, taken.len() / 2, taken.len() - 1] {
                let mut taken = taken.to_vec();
                taken[at] ^= 0x20;
                assert_eq!(number(&table(codes.clone(), &taken)), 6);
            }
        }
    }
}

#[test]
fn largest_table() {
    let mut random = Random::new(71);
    for codes in lists(CODES) {
        let mut table = make::limit(&mut random, 4, true);
        let last = codes[CODES - 1];
        let steps = table.states.iter_mut().flatten();
        steps.for_each(|step| step.code = last);
        table.codes = codes;
        let bytes = table.bytes();
        assert_eq!((bytes.len(), largest(WIDE)), (4_487, 4_487));
        assert_eq!(number(&bytes), 0);
        for length in 0..bytes.len() {
            assert_eq!(number(&bytes[..length]), 1, "{length} bytes");
        }
        assert_eq!(number(&[&bytes[..], &[0]].concat()), 2);
        let pair = Pair::new(0, &bytes, &bytes).ok().unwrap();
        let judged = check(&pair, 0, 0, pair.lengths(0, 0), 1);
        assert_eq!(judged.answer.verdict, 1);
    }
}

/// The tables P and C with other codes than 10 and 20.
fn examples(codes: [u16; 2]) -> [Table; 2] {
    let code = |code: u16| codes[code as usize / 10 - 1];
    [P, C].map(|bytes| make::recoded(&parse(&bytes).unwrap(), code))
}

#[test]
fn codes_in_trees() {
    for a in SOME_CODES {
        for b in SOME_CODES.into_iter().filter(|&b| b != a) {
            let [p, c] = examples([a, b]);
            let pair = Pair::new(SUBSETS, &p.bytes(), &c.bytes()).ok().unwrap();
            assert_eq!(pair.ranking.ranks, [2, 1, 1, 1, 0, 1, 0, 0, 0]);
            let judged = check(&pair, 0, 0, pair.lengths(0, 0), a.into());
            let ([a, a_high], [b, b_high]) = (a.to_le_bytes(), b.to_le_bytes());
            let tree = [
                1, a, a_high, 2, 1, 3, 0, 1, b, b_high, 1, 1, 1, 0, 0, 2, 1, 0, 0,
            ];
            assert_eq!(judged.tree, tree);
            judged.replayed(&pair, 0, 0);
        }
    }
}

#[test]
fn codes_unlike_in_one_byte() {
    // P against P with another code for the first step, which is alike in
    // one byte or has the two exchanged. Where P's own code is listed too, the
    // starts fall at once; where it is not, after a step by it, for no start
    // has code 7.
    for code in SOME_CODES {
        let others = [code ^ 1, code ^ 0x80, code ^ 0x100, code ^ 0x8000];
        for other in others.into_iter().chain([code, code.swap_bytes()]) {
            let [[p, _], [q, _]] = [code, other].map(|code| examples([code, 7]));
            let listing = make::listing(q.clone(), &[code]);
            for (q, rank) in [(listing, 1), (q, 2)] {
                let pair = Pair::new(SUBSETS, &p.bytes(), &q.bytes()).ok().unwrap();
                let judged = check(&pair, 0, 0, pair.lengths(0, 0), 3);
                let due = if code == other { 0 } else { rank };
                assert_eq!(judged.answer.rank, due, "{code}, {other}");
            }
        }
    }
}

/// What the pairs of states came to.
#[derive(Debug, Default)]
struct Seen {
    kept: usize,
    fallen: usize,
    replayed: usize,
    /// Trees with a code above 255.
    high: usize,
}

impl Seen {
    fn judge(&mut self, pair: &Pair, (s, t): (usize, usize), salt: u64) {
        let judged = check(pair, s, t, pair.lengths(s, t), salt);
        match judged.answer.rank {
            0 => self.kept += 1,
            _ => self.fallen += 1,
        }
        if judged.answer.rank > 0 && judged.tree.len() < 200 {
            self.replayed += 1;
            self.high += (judged.tree[2] > 0) as usize;
            judged.replayed(pair, s, t);
        }
    }
}

/// So many codes, no two alike, in any order.
fn any_codes(random: &mut Random, count: usize) -> Vec<u16> {
    let mut codes = Vec::new();
    while codes.len() < count {
        let code = random.number() as u16;
        if !codes.contains(&code) {
            codes.push(code);
        }
    }
    codes
}

#[test]
fn random_codes() {
    // The same two tables with codes of one byte, with codes that differ in
    // the high byte alone, and with any: all ranks are equal. Both list all
    // codes, so that it does not matter which others the second lists.
    let mut random = Random::new(72);
    let mut seen = Seen::default();
    for round in 0..600 {
        let shape = Shape {
            states: random.between(2, 6),
            codes: 3,
            steps: 3,
            width: 3,
            weight: 4,
        };
        let first = make::random(&mut random, shape);
        let second = make::edited(&mut random, &first, round % 4, shape.codes);
        let [first, second] = [first, second].map(|table| make::listing(table, &[10, 20, 30]));
        let any = any_codes(&mut random, shape.codes);
        let low = random.byte() as u16;
        let ranks = Pair::of(&(first.clone(), second.clone())).ranking.ranks;
        let codes: [&dyn Fn(u16) -> u16; 3] = [&|code| code, &|code| 256 * code + low, &|code| {
            any[code as usize / 10 - 1]
        }];
        for code in codes {
            let [first, second] = [&first, &second].map(|table| {
                let table = make::recoded(table, code);
                match random.once_in(4) {
                    true => make::listing_more(&mut random, WIDE, table),
                    false => table,
                }
            });
            let pair = Pair::new(SUBSETS, &first.bytes(), &second.bytes());
            let pair = pair.ok().unwrap();
            assert_eq!(pair.ranking.ranks, ranks);
            for s in 0..first.states.len() {
                for t in 0..second.states.len() {
                    seen.judge(&pair, (s, t), round as u64);
                }
            }
        }
    }
    println!("{seen:?}");
    assert!(seen.kept > 5_000 && seen.fallen > 5_000);
    assert!(seen.replayed > 5_000 && seen.high > 3_000);
}

#[test]
fn many_codes() {
    // Large tables whose transitions take codes from a long list.
    let mut random = Random::new(73);
    let mut seen = Seen::default();
    for round in 0..40 {
        let codes = [300, CODES][round % 2];
        let any = any_codes(&mut random, codes);
        let table = make::sized(&mut random, [64, 128][round / 2 % 2], codes, round % 3 == 0);
        let other = make::edited(&mut random, &table, round % 3, codes);
        let [first, second] = [table, other].map(|table| {
            let mut table = make::recoded(&table, |code| any[code as usize / 10 - 1]);
            table.codes = any.clone();
            table.codes.sort();
            table
        });
        let states = first.states.len();
        let pair = Pair::of(&(first, second));
        for k in 0..12 {
            let s = random.below(states);
            let t = if k % 2 == 0 { s } else { random.below(states) };
            seen.judge(&pair, (s, t), round as u64);
        }
    }
    println!("{seen:?}");
    assert!(seen.kept > 50 && seen.fallen > 100);
    assert!(seen.replayed > 50 && seen.high > 50);
}
