//! The second program against itself and against worked examples. Nothing
//! here needs the library.

use pod_tests::alike;
use pod_tests::answer::{Lengths, Pair, Shown};
use pod_tests::fit::{by_flow, by_subsets, Fit, SUBSETS};
use pod_tests::flow::judge;
use pod_tests::make::{self, Shape};
use pod_tests::program::{input, output};
use pod_tests::random::Random;
use pod_tests::ranks::{fit_steps, fits_some, rank, Relation};
use pod_tests::table::{
    has, largest, members, parse, parse_at, widen, Set, Table, Transition, C, ENTRIES, LONE,
    NARROW, OLD_C, OLD_LONE, OLD_P, P, PAIRS, SHOWING_C, STATES, STILL, WIDE, WORD, ZEROS_C,
    ZEROS_P,
};
use pod_tests::tree::{replay, LONGEST};

const P_C: &str = "tables 3 3
row 0 2 1 1
row 1 1 0 1
row 2 0 0 0
rounds 2 kept 4 verdict no
tree 01 0a 00 02 01 03 00 01 14 00 01 01 01 00 00 02 01 00 00
";

#[test]
fn worked_examples() {
    assert_eq!(output(&input(&P, &C)), P_C);
    let equal = output(&input(&P, &P));
    assert!(equal.contains("row 0 0 1 1\nrow 1 1 0 1\nrow 2 0 0 0\nrounds 1 kept 5 verdict yes\n"));
    assert!(output(&input(&C, &P)).ends_with("verdict yes\n"));
    let lone = output(&input(&LONE, &LONE));
    assert_eq!(lone, "tables 1 1\nrow 0 0\nrounds 0 kept 1 verdict yes\n");
    assert_eq!(output(&[]), "refused 1 1\n");
    assert_eq!(parse(&P[..28]), Err(1));
    assert_eq!(parse(&[&P[..], &[0]].concat()), Err(2));
    let mut exchanged = P;
    exchanged.swap(2, 4);
    assert_eq!(parse(&exchanged), Err(3));
}

/// What is found of bytes as the flow of the starts.
fn judged(pair: &Pair, bytes: &[u8]) -> Result<usize, String> {
    let (first, contract) = (&pair.first, &pair.contract);
    judge(SUBSETS, first, contract, pair.ranking.last(), (0, 0), bytes)
}

#[test]
fn worked_flow() {
    let pair = Pair::new(SUBSETS, &C, &P).ok().unwrap();
    assert_eq!(pair.lengths(0, 0).flow, 40);
    let mut bytes = vec![1, 0, 3, 0];
    for (from, to, amount) in [(1, 1, 4), (2, 1, 2), (2, 2, 2)] {
        bytes.extend([from, to, amount, 0, 0, 0]);
    }
    assert_eq!(bytes.len(), 22);
    assert_eq!(judged(&pair, &bytes), Ok(1));
    // Each byte matters.
    for at in 0..bytes.len() {
        let mut other = bytes.clone();
        other[at] ^= 1;
        assert!(judged(&pair, &other).is_err(), "byte {at}");
        assert!(judged(&pair, &bytes[..at]).is_err());
    }
}

#[test]
fn subsets_against_flow() {
    let mut random = Random::new(1);
    let (mut fits, mut fails, mut sets) = (0, 0, 0);
    for round in 0..60_000 {
        let most = if round % 100 == 0 { 12 } else { 6 };
        let (p, q) = (random.between(1, most), random.between(1, most));
        let top = [2, 5, 60, 5000][random.below(4)];
        let mut weights =
            |n: usize| -> Vec<u64> { (0..n).map(|_| random.between(1, top) as u64).collect() };
        let (m, n) = (weights(p), weights(q));
        let sparse = random.between(1, 4);
        let related: Vec<Set> = (0..p)
            .map(|_| {
                let row = (0..q).filter(|_| random.below(5) >= sparse);
                row.fold(0, |row, j| row | 1 << j)
            })
            .collect();
        let fit = by_subsets(&m, &n, &related);
        assert_eq!(fit, by_flow(&m, &n, &related), "{m:?} {n:?} {related:?}");
        fits += fit.fits() as usize;
        fails += !fit.fits() as usize;
        sets += (fit.cut.iter().filter(|member| **member).count() > 1) as usize;
    }
    println!("{fits} fit, {fails} do not, {sets} by a set of several");
    assert!(fits > 5_000 && fails > 5_000 && sets > 5_000);
}

#[test]
fn subsets_against_flow_on_many_targets() {
    // A few places of the first list, up to as many of the second as there
    // are states: wide sets, and sets with members from 64 on alone.
    let mut random = Random::new(5);
    let (mut fits, mut fails) = (0, 0);
    for round in 0..3_000 {
        let (p, q) = (random.between(1, 8), random.between(WORD + 1, STATES));
        let from = if round % 2 == 0 { 0 } else { WORD };
        let weight = |n: usize| [1, n / p, n][random.below(3)].max(1) as u64;
        let m: Vec<u64> = vec![q; p].into_iter().map(weight).collect();
        let n: Vec<u64> = (0..q).map(|j| (j >= from) as u64).collect();
        let dense = random.between(1, 10);
        let mut row = || {
            let related = (from..q).filter(|_| random.below(10) < dense);
            related.fold(0, |row, j| row | 1 << j)
        };
        let related: Vec<Set> = (0..p).map(|_| row()).collect();
        let fit: Fit = by_subsets(&m, &n, &related);
        assert_eq!(fit, by_flow(&m, &n, &related), "{m:?} {n:?} {related:?}");
        fits += fit.fits() as usize;
        fails += !fit.fits() as usize;
    }
    println!("{fits} fit, {fails} do not");
    assert!(fits > 500 && fails > 500);
}

/// What a round keeps of a relation, by the definition.
fn kept_of(first: &Table, contract: &Table, before: &Relation) -> Relation {
    let keeps = |s: usize, t: usize| {
        let mut steps = first.states[s].iter();
        steps.all(|m| fits_some(4, before, m, &contract.states[t]))
    };
    let row = |s: usize| {
        let kept = members(before[s]).filter(|&t| keeps(s, t));
        kept.fold(0, |row, t| row | 1 << t)
    };
    (0..before.len()).map(row).collect()
}

#[test]
fn rounds_by_the_definition() {
    // Each relation is what a round makes of the one before, the last one of
    // itself: the kept pairs are a simulation.
    let mut random = Random::new(6);
    let mut rounds = 0;
    for states in [5, 20, 64, 65, 100, 127, 128].repeat(3) {
        let shape = Shape {
            states,
            codes: 2,
            steps: 3,
            width: 3,
            weight: 3,
        };
        let first = make::random_of(&mut random, states, shape);
        let second = make::edited(&mut random, &first, 3, shape.codes);
        let contract = second.completed(&first.codes);
        let ranking = Pair::of(&(first.clone(), second)).ranking;
        let mut relations = ranking.relations.clone();
        relations.push(ranking.last().clone());
        for two in relations.windows(2) {
            assert_eq!(kept_of(&first, &contract, &two[0]), two[1]);
        }
        for (at, &rank) in ranking.ranks.iter().enumerate() {
            let related = |k: usize| has(relations[k][at / states], at % states);
            match rank as usize {
                0 => assert!(related(relations.len() - 1)),
                rank => assert!(related(rank - 1) && !related(rank)),
            }
        }
        rounds += ranking.rounds();
    }
    println!("{rounds} rounds");
    assert!(rounds > 80);
}

#[test]
fn trees_replayed() {
    let mut random = Random::new(2);
    let shape = Shape {
        states: 5,
        codes: 2,
        steps: 2,
        width: 3,
        weight: 3,
    };
    for _ in 0..2_000 {
        let first = make::random(&mut random, shape);
        let second = make::edited(&mut random, &first, 2, shape.codes);
        let pair = Pair::new(SUBSETS, &first.bytes(), &second.bytes());
        let pair = pair.ok().unwrap();
        let other = Pair::new(0, &first.bytes(), &second.bytes()).ok().unwrap();
        assert_eq!(pair.ranking.ranks, other.ranking.ranks);
        for s in 0..first.states.len() {
            for t in 0..second.states.len() {
                let lengths = pair.lengths(s, t);
                let Shown::Tree(bytes) = pair.expect(s, t, lengths).shown else {
                    continue;
                };
                assert_eq!(bytes.len(), lengths.tree);
                assert_eq!(other.trees.bytes(s, t), bytes);
                let own = replay(&bytes, &first).unwrap();
                let against = replay(&bytes, &pair.contract).unwrap();
                assert!(has(own.followers, s));
                assert!(!has(against.followers, t));
                assert_eq!(own.depth, pair.rank(s, t) as usize);
            }
        }
    }
}

#[test]
fn tables_there_and_back() {
    let mut random = Random::new(3);
    for round in 0..200 {
        let states = [WORD, STATES][round / 2 % 2];
        let table = make::sized(&mut random, states, 1 + round % 3, round % 2 == 0);
        for width in [NARROW, WIDE] {
            let table = make::listing_more(&mut random, width, table.clone());
            assert_eq!(parse_at(width, &table.bytes_at(width)), Ok(table));
        }
    }
}

#[test]
fn layouts() {
    assert_eq!((largest(NARROW), largest(WIDE)), (2_437, 4_487));
    for (old, wide) in [(&OLD_P[..], &P[..]), (&OLD_C, &C), (&OLD_LONE, &LONE)] {
        assert_eq!(parse_at(NARROW, old), parse(wide));
        assert_eq!(parse(wide).unwrap().bytes_at(NARROW), old);
        assert_eq!(widen(old).unwrap(), wide);
    }
    assert_eq!(widen(&P), Err(4));
    assert_eq!(parse(&OLD_P), Err(3));
    // The two bytes of a code, and the count before the codes.
    let table =
        |count: [u8; 2], codes: &[u8]| parse(&[&count, codes, &[1, 0, 0, 0, 0, 0]].concat());
    assert_eq!(table([2, 0], &[2, 1, 1, 2]).unwrap().codes, [258, 513]);
    assert_eq!(table([2, 0], &[1, 2, 2, 1]), Err(3));
    assert_eq!(parse(&[0, 4]), Err(1));
    assert_eq!(parse(&[1, 4]), Err(3));
    assert_eq!(parse(&[4]), Err(1));
}

#[test]
fn weights_of_zero() {
    let mut random = Random::new(8);
    for (zeros, table) in [(ZEROS_P, P), (ZEROS_C, C)] {
        let (zeros, table) = (parse(&zeros).unwrap(), parse(&table).unwrap());
        assert_eq!(zeros.supported(), table);
        assert_eq!(make::sprinkled(&mut random, &table, ENTRIES), zeros);
    }
    assert_eq!(output(&input(&ZEROS_P, &ZEROS_C)), P_C);
    let number = |weights: &[u16]| parse(&make::weighing(weights).bytes()).err();
    assert_eq!(number(&[0, 65_535, 0]), None);
    assert_eq!(number(&[65_535, 0, 1]), Some(10));
    assert_eq!(number(&[0, 0]), Some(10));
    let entries = vec![(1, 0), (1, 0)];
    assert_eq!(parse(&make::one_step(2, entries).bytes()), Err(9));
    // All entries count in the length asked, and none of weight 0 may stand
    // in a record.
    let pair = Pair::new(SUBSETS, &ZEROS_C, &ZEROS_P).ok().unwrap();
    assert_eq!(pair.lengths(0, 0).flow, 58);
    for (from, to) in [(0, 0), (0, 1), (1, 0), (2, 0)] {
        let bytes = [1, 0, 1, 0, from, to, 1, 0, 0, 0];
        let found = judged(&pair, &bytes);
        assert_eq!(found, Err("record of no target".to_string()));
    }
}

#[test]
fn zeros_taken_for_targets() {
    // They would change no rank: nothing is sent to them, and nothing is
    // missed. Trees would have more children and larger sets.
    let mut random = Random::new(9);
    let mut larger = [0; 2];
    for round in 0..1_000 {
        let (first, second) = alike::small(&mut random, round % 7);
        let dropped = Pair::of(&(first.clone(), second.clone()));
        let [first, second] = [first, second].map(|table| make::sprinkled(&mut random, &table, 4));
        let contract = second.completed(&first.codes);
        for subsets in [0, SUBSETS] {
            let ranking = rank(subsets, &first, &contract);
            assert_eq!(ranking.ranks, dropped.ranking.ranks);
        }
        let tables = (first, second);
        let pair = Pair::of(&tables);
        assert_eq!(pair.ranking.ranks, dropped.ranking.ranks);
        let wrong = pair.wrong_trees(&tables);
        let columns = pair.second.states.len();
        for at in (0..pair.ranking.ranks.len()).filter(|&at| pair.ranking.ranks[at] > 0) {
            let (s, t) = (at / columns, at % columns);
            let length = pair.trees.length(s, t);
            assert_eq!(length, dropped.trees.length(s, t));
            if length < 1_000 {
                assert_eq!(pair.trees.bytes(s, t), dropped.trees.bytes(s, t));
            }
            for (count, wrong) in larger.iter_mut().zip(&wrong) {
                *count += (wrong.length(s, t) > length) as usize;
            }
        }
    }
    println!("{larger:?} larger trees");
    assert!(larger.iter().all(|&count| count > 1_000));
}

#[test]
fn partial_contracts() {
    // Codes that are not listed, in order, after what each state has. Code 30
    // is listed, though no transition has it.
    let states = vec![vec![make::to(20, 1)], Vec::new()];
    let table = make::listing(Table::new(states), &[30]);
    let due = [
        vec![make::to(20, 1), make::to(5, 0), make::to(40, 0)],
        vec![make::to(5, 1), make::to(40, 1)],
    ];
    let completed = table.completed(&[5, 20, 30, 40]);
    assert_eq!(completed.states, due);
    assert_eq!(completed.codes, [20, 30]);
    assert_eq!(table.completed(&[20, 30]), table);

    assert_eq!(output(&input(&SHOWING_C, &P)), output(&input(&C, &P)));
    let yes = "tables 1 1\nrow 0 0\nrounds 0 kept 1 verdict yes\n";
    assert_eq!(output(&input(&STILL, &LONE)), yes);
    let listing = make::listing(parse(&LONE).unwrap(), &[10]).bytes();
    assert!(output(&input(&STILL, &listing)).ends_with("\ntree 01 0a 00 01 00 01 00 00\n"));
}

#[test]
fn flow_of_an_added_step() {
    let bytes = |place| [1, place, 1, 0, 0, 0, 1, 0, 0, 0];
    let pair = Pair::new(SUBSETS, &STILL, &LONE).ok().unwrap();
    assert_eq!(pair.lengths(0, 0).flow, 10);
    assert_eq!(judged(&pair, &bytes(255)), Ok(0));
    for at in 0..10 {
        for bit in 0..8 {
            let mut other = bytes(255);
            other[at] ^= 1 << bit;
            assert!(judged(&pair, &other).is_err(), "byte {at}");
        }
        assert!(judged(&pair, &bytes(255)[..at]).is_err());
    }
    // A listed transition has a place of its own.
    let pair = Pair::new(SUBSETS, &STILL, &STILL).ok().unwrap();
    assert_eq!(judged(&pair, &bytes(0)), Ok(0));
    let wrong = Err("place".to_string());
    assert_eq!(judged(&pair, &bytes(255)), wrong);
}

#[test]
fn added_steps_by_the_rule() {
    // A step by a code that is not listed fits exactly if all its targets are
    // related to the state itself, and is told apart by those that are not.
    let mut random = Random::new(10);
    let (mut fits, mut sets) = (0, 0);
    for round in 0..1_000 {
        let (first, second) = alike::small(&mut random, round % 7);
        let first = make::showing(&mut random, &first, &[5, 15, 300]);
        let pair = Pair::of(&(first, second));
        let mut answered = |before: &Relation, m: &Transition, t: usize| {
            if pair.second.codes.contains(&m.code) {
                return fits_some(4, before, m, &pair.second.states[t]);
            }
            let targets = m.entries.iter().map(|entry| entry.0 as usize);
            let apart: Vec<bool> = targets.map(|to| !has(before[to], t)).collect();
            let cut = fit_steps(SUBSETS, before, m, &make::to(m.code, t)).cut;
            assert_eq!(cut, apart);
            let count = apart.iter().filter(|apart| **apart).count();
            fits += (count == 0) as usize;
            sets += (count > 0 && count < apart.len()) as usize;
            count == 0
        };
        for two in pair.ranking.relations.windows(2) {
            for (s, ms) in pair.first.states.iter().enumerate() {
                for t in members(two[0][s]) {
                    let keeps = ms.iter().all(|m| answered(&two[0], m, t));
                    assert_eq!(keeps, has(two[1][s], t));
                }
            }
        }
    }
    println!("{fits} fit, {sets} do not by some of their targets");
    assert!(fits > 5_000 && sets > 300);
}

#[test]
fn bound_on_ranks_is_tight() {
    for n in 1..=12 {
        let (first, second) = make::counter(n);
        let pair = Pair::new(SUBSETS, &first.bytes(), &second.bytes());
        let pair = pair.ok().unwrap();
        assert_eq!(pair.rank(0, 0) as usize, n * n);
        assert_eq!(pair.lengths(0, 0).tree, 7 * n * n + 1);
    }
}

#[test]
fn largest_rank() {
    // 16,384: every pair has a rank of its own. No tree of more than 9,362
    // levels can be written.
    let pair = Pair::of(&make::counter(STATES));
    let mut ranks = pair.ranking.ranks.clone();
    ranks.sort();
    assert!(ranks.into_iter().eq(1..=16_384));
    assert_eq!(
        (pair.rank(0, 0), pair.trees.length(0, 0)),
        (16_384, 114_689)
    );
    let written = |at: &usize| pair.trees.length(at / STATES, at % STATES) <= LONGEST;
    let written = (0..PAIRS).filter(written).map(|at| pair.ranking.ranks[at]);
    assert_eq!(written.max(), Some(9_362));
}

#[test]
fn lengths_of_long_trees() {
    let mut random = Random::new(4);
    let (first, second) = make::layers(&mut random, 9, 4);
    let pair = Pair::new(SUBSETS, &first.bytes(), &second.bytes());
    let pair = pair.ok().unwrap();
    let lengths = Lengths {
        ranks: PAIRS,
        flow: 0,
        tree: LONGEST as usize,
    };
    assert_eq!(pair.expect(0, 0, lengths).answer.number, 23);
}
