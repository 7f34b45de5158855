//! Chains of contracts: a pod is judged against the contract of its family,
//! and that against the analyser's. Where the middle table lists every code
//! that both others list, and so where all three list the same, a pair that
//! falls in round r has over every state between a part that falls by round r,
//! and two yeses give a yes.

use pod_tests::alike;
use pod_tests::answer::{Answer, Lengths, Pair};
use pod_tests::library::{check, Judged};
use pod_tests::make;
use pod_tests::random::Random;
use pod_tests::stack::deep;
use pod_tests::table::{parse, Table, C, LONE, P, STILL};

/// A call for any pair, half of the time with no room for a flow or a tree.
/// Ranks are filled in either way.
fn call(random: &mut Random, first: &Table, second: &Table) -> Judged {
    let pair = Pair::of(&(first.clone(), second.clone()));
    let s = random.below(first.states.len());
    let t = random.below(second.states.len());
    let mut lengths = pair.lengths(s, t);
    if random.once_in(2) {
        lengths = Lengths {
            flow: 0,
            tree: 0,
            ..lengths
        };
    }
    let judged = check(&pair, s, t, lengths, random.number() >> 8);
    let number = judged.answer.number;
    assert!(number == 0 || (21..=23).contains(&number));
    judged
}

/// What came of the triples tried.
#[derive(Debug, Default)]
struct Count {
    /// Calls that were refused a flow or a tree.
    refused: usize,
    /// Outer pairs that fall, over each state of the middle table.
    fallen: usize,
    /// Those of them of which no part falls before round r.
    tight: usize,
    /// Those of them without a part that falls by round r.
    broken: usize,
    /// Triples in whose first two calls the starts are kept, and those of them
    /// in whose third they are not.
    passed: usize,
    revoked: usize,
}

impl Count {
    /// Makes the three calls and looks at every triple of states.
    fn add(&mut self, random: &mut Random, [a, b, c]: [&Table; 3]) {
        let calls = [call(random, a, b), call(random, b, c), call(random, a, c)];
        self.refused += calls.iter().filter(|call| call.answer.number > 0).count();
        let sizes = [a, b, c].map(|table| table.states.len());
        let rank = |call: usize, s: usize, t: usize| {
            let width = sizes[[1, 2, 2][call]];
            calls[call].ranks[s * width + t]
        };
        for (s, t) in (0..sizes[0]).flat_map(|s| (0..sizes[2]).map(move |t| (s, t))) {
            let r = rank(2, s, t);
            for u in (0..sizes[1]).filter(|_| r > 0) {
                let parts = [rank(0, s, u), rank(1, u, t)];
                let by = |round: u16| parts.iter().any(|part| (1..=round).contains(part));
                self.fallen += 1;
                self.tight += (by(r) && !by(r - 1)) as usize;
                self.broken += !by(r) as usize;
            }
        }
        let kept = [0, 1, 2].map(|call| rank(call, 0, 0) == 0);
        for (call, kept) in calls.iter().zip(kept) {
            let said = call.answer.number == 0 && kept;
            assert_eq!(call.answer.verdict, said as u32);
        }
        self.passed += (kept[0] && kept[1]) as usize;
        self.revoked += (kept[0] && kept[1] && !kept[2]) as usize;
    }
}

/// Codes that most random tables have.
const CODES: [u16; 2] = [10, 20];

/// Tables made for each other, or each looser than the one before.
fn triple(random: &mut Random, kind: usize) -> [Table; 3] {
    let (first, second) = alike::small(random, kind % 8);
    match kind / 8 % 3 {
        0 => {
            let third = make::edited(random, &second, 2, 2);
            [first, second, third]
        }
        1 => {
            let second = make::showing(random, &first, &CODES);
            let third = make::showing(random, &second, &CODES);
            [first, second, third]
        }
        _ => {
            let third = make::showing(random, &second, &CODES);
            [first, second, make::edited(random, &third, 1, 2)]
        }
    }
}

/// All codes of the tables.
fn codes(tables: &[Table; 3]) -> Vec<u16> {
    let mut codes: Vec<u16> = tables
        .iter()
        .flat_map(|table| table.codes.clone())
        .collect();
    codes.sort();
    codes.dedup();
    codes
}

/// The tables with the same codes listed.
fn listing_the_same(tables: [Table; 3]) -> [Table; 3] {
    let all = codes(&tables);
    tables.map(|table| make::listing(table, &all))
}

#[test]
fn same_codes() {
    let mut random = Random::new(141);
    let mut count = Count::default();
    for kind in 0..2_400 {
        let tables = listing_the_same(triple(&mut random, kind));
        count.add(&mut random, tables.each_ref());
    }
    println!("{count:?}");
    assert_eq!((count.broken, count.revoked), (0, 0));
    assert!(count.refused > 3_000 && count.fallen > 100_000);
    assert!(count.tight > 50_000 && count.passed > 1_000);
}

#[test]
fn many_states() {
    let mut random = Random::new(142);
    let mut count = Count::default();
    deep(|| {
        for kind in 0..16 {
            let (first, mut second) = alike::large(&mut random, kind % 4);
            let third = match kind / 4 % 2 {
                0 => make::edited(&mut random, &second, 4, 3),
                _ => {
                    second = make::showing(&mut random, &first, &CODES);
                    make::showing(&mut random, &second, &CODES)
                }
            };
            let tables = listing_the_same([first, second, third]);
            count.add(&mut random, tables.each_ref());
        }
    });
    println!("{count:?}");
    assert_eq!((count.broken, count.revoked), (0, 0));
    assert!(count.fallen > 1_000_000 && count.tight > 1_000_000);
    assert!(count.passed > 8);
}

/// The tables in each of which a code is listed or gone as the bits of a
/// number say that is drawn from these for each code; bit 1 is the middle one.
fn governing(random: &mut Random, tables: [Table; 3], ways: &[usize]) -> ([Table; 3], usize) {
    let mut tables = listing_the_same(tables);
    let mut drawn = 0;
    for code in codes(&tables) {
        let way = ways[random.below(ways.len())];
        drawn |= 1 << way;
        for (k, table) in tables.iter_mut().enumerate() {
            if way >> k & 1 == 0 {
                *table = make::without(table.clone(), &[code]);
            }
        }
    }
    (tables, drawn)
}

/// The first and the last table list a code, and the one between does not.
const MISSED: usize = 0b101;

#[test]
fn codes_listed_between() {
    // Any lists of codes will do, if the middle table has what both others
    // have.
    let mut random = Random::new(143);
    let (mut count, mut unlike) = (Count::default(), 0);
    let ways: Vec<usize> = (0..8).filter(|&way| way != MISSED).collect();
    for kind in 0..2_400 {
        let tables = triple(&mut random, kind);
        let (tables, drawn) = governing(&mut random, tables, &ways);
        unlike += (drawn & !0b1000_0001 != 0) as usize;
        count.add(&mut random, tables.each_ref());
    }
    println!("{count:?}, {unlike} with unlike lists");
    assert_eq!((count.broken, count.revoked), (0, 0));
    assert!(unlike > 1_500 && count.fallen > 10_000);
    assert!(count.tight > 5_000 && count.passed > 1_500);
}

#[test]
fn a_code_missed_between() {
    // The middle table does not list code 0A: it lets the pod do as it likes
    // by that code, and need not answer for it itself.
    let (pod, family) = (parse(&STILL).unwrap(), parse(&LONE).unwrap());
    let analyser = make::listing(family.clone(), &pod.codes);
    let answer = |first: &Table, second: &Table| {
        let pair = Pair::of(&(first.clone(), second.clone()));
        check(&pair, 0, 0, pair.lengths(0, 0), 1).answer
    };
    assert_eq!(answer(&pod, &family).verdict, 1);
    assert_eq!(answer(&family, &analyser).verdict, 1);
    let no = Answer {
        rounds: 1,
        rank: 1,
        written: 8,
        ..Answer::default()
    };
    assert_eq!(answer(&pod, &analyser), no);
    // If the middle table lists it, the first call already says no.
    let family = make::listing(family, &pod.codes);
    assert_eq!(answer(&pod, &family), no);

    // Chains of random tables break so, ranks and verdicts.
    let mut random = Random::new(144);
    let mut count = Count::default();
    for kind in 0..1_200 {
        let tables = triple(&mut random, kind);
        let (tables, _) = governing(&mut random, tables, &[0b111, MISSED]);
        count.add(&mut random, tables.each_ref());
    }
    println!("{count:?}");
    assert!(count.broken > 10_000 && count.revoked > 50);
}

#[test]
fn bound_is_reached() {
    // Over a table between P and C both parts fall in the round of the whole,
    // 2: a chain whose parts had to fall a round before would break.
    let [first, third] = [&P, &C].map(|bytes| parse(bytes).unwrap());
    let mut second = first.clone();
    second.states[0][0].entries[0].1 = 2;
    let mut random = Random::new(145);
    let mut count = Count::default();
    count.add(&mut random, [&first, &second, &third]);
    let rank = |s: &Table, t: &Table| Pair::of(&(s.clone(), t.clone())).rank(0, 0);
    let ranks = [(&first, &second), (&second, &third), (&first, &third)].map(|(s, t)| rank(s, t));
    assert_eq!((ranks, count.broken), ([2, 2, 2], 0));
    assert!(count.tight > 0);
}
