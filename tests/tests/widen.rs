//! Old tables, whose codes and their count have one byte, made wide: every
//! byte of the answer and of the buffer, and what the check finds for them.

use pod_tests::answer::{Answer, Pair};
use pod_tests::fit::SUBSETS;
use pod_tests::library::{check, widen, Widened, FIELDS};
use pod_tests::make::{self, Shape};
use pod_tests::random::Random;
use pod_tests::spoil::faulty;
use pod_tests::table::{
    largest, parse, parse_at, Table, C, ENTRIES, LONE, NARROW, OLD_C, OLD_LONE, OLD_P, P, STATES,
    STEPS, WORD,
};

/// More than any wide table takes.
const ROOMY: usize = 5_000;

/// The number in the answer to an old table, all else held too.
fn number(old: &[u8]) -> u32 {
    widen(old, ROOMY, old.len() as u64).0.number
}

/// A table of so many states without transitions.
fn idle(states: usize) -> Table {
    Table::new(vec![Vec::new(); states])
}

/// A table whose states have so many transitions each, all to the start.
fn busy(shares: &[usize]) -> Table {
    let steps = |&share| vec![make::to(1, 0); share];
    Table::new(shares.iter().map(steps).collect())
}

#[test]
fn examples() {
    let pairs = [(&OLD_P[..], &P[..]), (&OLD_C, &C), (&OLD_LONE, &LONE)];
    for (old, wide) in pairs {
        let done = Answer {
            written: wide.len() as u32,
            ..Answer::default()
        };
        for more in 0..3 {
            let due = (done, wide.to_vec());
            assert_eq!(widen(old, wide.len() + more, more as u64), due);
        }
        let (short, _) = widen(old, wide.len() - 1, 1);
        assert_eq!(short, Answer::refusal(27, 0, wide.len() as u32));
    }
    let (refused, _) = widen(&[], 0, 1);
    assert_eq!(refused, Answer::refusal(1, 1, 0));
    let mut exchanged = OLD_P;
    exchanged.swap(1, 2);
    assert_eq!(number(&exchanged), 3);
}

#[test]
fn every_length() {
    // All lengths of the buffer, for tables and for one that is refused,
    // which comes before a buffer that is too short.
    for out in 0..40 {
        for (old, needed) in [(&OLD_P[..], 29), (&OLD_C, 29), (&OLD_LONE, 8)] {
            let due = if out < needed { (27, needed) } else { (0, 0) };
            let (answer, _) = widen(old, out, out as u64);
            assert_eq!((answer.number, answer.needed as usize), due);
        }
        let (answer, _) = widen(&OLD_P[..23], out, out as u64);
        assert_eq!(answer, Answer::refusal(1, 1, 0));
    }
}

#[test]
fn lengths_around_the_need() {
    let mut random = Random::new(87);
    for round in 0..300 {
        let (table, _) = tables(&mut random, round);
        let table = match round % 3 {
            0 => make::sized(&mut random, WORD, 25, true),
            _ => make::listing_more(&mut random, NARROW, table),
        };
        let (old, needed) = (table.bytes_at(NARROW), table.bytes().len());
        for out in needed - 3..=needed + 3 {
            let (answer, _) = widen(&old, out, out as u64);
            assert_eq!(answer.number, if out < needed { 27 } else { 0 });
        }
    }
}

#[test]
fn short_answers() {
    let long = [&OLD_P[..], &[0]].concat();
    for old in [&OLD_P[..], &OLD_P[..9], &long, &[]] {
        for out in [0, 28, 29, 40] {
            for answer in 0..FIELDS {
                assert!(Widened::new(old, out, answer, 7).untouched());
            }
            // Eight numbers, and one or two more, which stay.
            for salt in 0..3 {
                widen(old, out, salt);
            }
        }
    }
}

#[test]
fn order_of_refusals() {
    // Each table has two faults; the first in order is given.
    assert_eq!(number(&[2, 5, 5]), 3);
    assert_eq!(number(&[2, 5]), 1);
    assert_eq!(number(&[255, 5, 5]), 1);
    assert_eq!(number(&[0, 0]), 4);
    assert_eq!(number(&[0, 128]), 1);
    assert_eq!(number(&[0, 129]), 4);
    assert_eq!(number(&[0, 2, 0]), 1);
    assert_eq!(number(&[0, 1, 1, 0]), 1);
    assert_eq!(number(&[0, 1, 1, 0, 0]), 5);
    assert_eq!(number(&[0, 1, 1, 1, 0, 7]), 1);
    assert_eq!(number(&[0, 1, 1, 1, 0, 7, 0]), 6);
    assert_eq!(number(&[1, 7, 1, 1, 1, 0, 7, 0]), 8);
    assert_eq!(number(&[1, 7, 1, 2, 2, 0, 7, 0, 8, 1]), 8);
    assert_eq!(number(&[1, 7, 1, 2, 2, 0, 8, 1, 7, 0]), 6);
    assert_eq!(number(&[1, 7, 1, 1, 1, 0, 7, 1, 1]), 1);
    assert_eq!(number(&[1, 7, 1, 1, 1, 0, 7, 1, 2, 0]), 7);
    assert_eq!(number(&[1, 7, 1, 1, 1, 0, 7, 1, 1, 0, 9, 0]), 1);
    assert_eq!(number(&[1, 7, 1, 1, 1, 0, 7, 1, 1, 0, 9, 0, 0]), 9);
    assert_eq!(number(&[1, 7, 1, 1, 1, 0, 7, 1, 1, 0, 0, 0, 0, 1]), 10);
    assert_eq!(number(&[1, 7, 1, 1, 1, 0, 7, 1, 1, 0, 0, 1, 0, 1]), 2);
    // A later entry's 9 after an earlier one's 10, and before the 10 of a
    // total of 0.
    let with = |entries: &[u8]| {
        let count = entries.len() as u8 / 3;
        number(&[&[1, 7, 2, 1, 0, 1, 0, 7, count, count, 0], entries].concat())
    };
    assert_eq!(with(&[0, 255, 255, 1, 1, 0, 1, 1, 0]), 10);
    assert_eq!(with(&[1, 0, 0, 1, 0, 0]), 9);
}

#[test]
fn truncations() {
    let mut random = Random::new(81);
    let mut tables = vec![idle(STATES), busy(&[STEPS, 1]), make::full(ENTRIES)];
    for states in [WORD, STATES] {
        let table = make::sized(&mut random, states, 25, true);
        tables.push(make::listing_more(&mut random, NARROW, table));
    }
    let tables = tables.iter().map(|table| table.bytes_at(NARROW));
    for old in tables.chain([OLD_P.to_vec(), OLD_LONE.to_vec()]) {
        assert_eq!(number(&old), 0);
        for length in 0..old.len() {
            assert_eq!(number(&old[..length]), 1, "{length} of {old:02x?}");
        }
        for more in [vec![0], vec![255], vec![0; 300]] {
            assert_eq!(number(&[&old[..], &more].concat()), 2);
        }
    }
}

#[test]
fn all_codes() {
    // 255 codes are as many as an old table can list.
    let lists: [Vec<u16>; 2] = [(0..=254).collect(), (1..=255).collect()];
    for codes in lists {
        let taken = [codes[254], codes[0], codes[127]];
        let states = vec![taken.map(|code| make::to(code, 0)).to_vec()];
        let table = Table { codes, states };
        let old = table.bytes_at(NARROW);
        assert_eq!(old[0], 255);
        for out in table.bytes().len() - 2..=table.bytes().len() + 2 {
            widen(&old, out, out as u64);
        }
        let (answer, wide) = widen(&old, ROOMY, 1);
        assert_eq!((answer.number, &wide[..2]), (0, &[255, 0][..]));
    }
    let codes = (0..=254).collect();
    let states = vec![vec![make::to(255, 0)]];
    assert_eq!(number(&Table { codes, states }.bytes_at(NARROW)), 6);
}

#[test]
fn limits() {
    let number = |table: Table| number(&table.bytes_at(NARROW));
    for states in [1, 64, 65, 128] {
        assert_eq!(number(idle(states)), 0, "{states} states");
    }
    for states in [0, 129, 255] {
        assert_eq!(number(idle(states)), 4, "{states} states");
    }
    for shares in [[128, 0], [129, 0], [255, 0], [255, 1], [128, 128]] {
        assert_eq!(number(busy(&shares)), 0, "{shares:?}");
    }
    for shares in [[255, 2], [128, 129], [255, 255]] {
        assert_eq!(number(busy(&shares)), 5, "{shares:?}");
    }
    assert_eq!(number(make::full(512)), 0);
    assert_eq!(number(make::full(513)), 7);
    assert_eq!(number(make::weighing(&[65_534, 1])), 0);
    assert_eq!(number(make::weighing(&[65_535, 1])), 10);
    assert_eq!(number(make::weighing(&[1, 0])), 0);
    assert_eq!(number(make::weighing(&[0, 0])), 10);
}

#[test]
fn largest_table() {
    let mut random = Random::new(82);
    let mut table = make::limit(&mut random, 25, true);
    table.codes = (1..=255).collect();
    let old = table.bytes_at(NARROW);
    assert_eq!((old.len(), largest(NARROW)), (2_437, 2_437));
    for out in [0, 1, 2_437, 2_948, 2_949, 2_950] {
        let (answer, wide) = widen(&old, out, out as u64);
        match out {
            2_949.. => assert_eq!((answer.written, wide.len()), (2_949, 2_949)),
            _ => assert_eq!(answer, Answer::refusal(27, 0, 2_949)),
        }
    }
}

#[test]
fn damaged() {
    let mut random = Random::new(83);
    let mut seen = [0; 28];
    for round in 0..200_000 {
        let old = faulty(&mut random, NARROW);
        // Mostly about as long as the wide bytes.
        let near = (old.len() + old.len() / 4).saturating_sub(10);
        let out = match random.below(4) {
            0 => random.below(ROOMY),
            _ => near + random.below(20),
        };
        let (answer, wide) = widen(&old, out, round);
        seen[answer.number as usize] += 1;
        // Whatever is widened is an old table, byte for byte.
        if answer.number == 0 {
            let table = parse_at(NARROW, &old).unwrap();
            assert_eq!(table.bytes_at(NARROW), old);
            assert_eq!(parse(&wide), Ok(table));
        }
    }
    println!("by number, done first: {seen:?}");
    assert!(seen[..11].iter().all(|&count| count > 1_000), "{seen:?}");
    assert!(seen[27] > 1_000, "{seen:?}");
}

#[test]
fn noise() {
    let mut random = Random::new(84);
    for round in 0..50_000 {
        let old: Vec<u8> = (0..random.below(40)).map(|_| random.byte() % 4).collect();
        widen(&old, random.below(80), round);
    }
}

/// Appends a node with its codes in one byte, and gives the bytes that it
/// takes with two.
fn narrowed(tree: &[u8], out: &mut Vec<u8>) -> usize {
    let mut at = 1;
    out.push(tree[0]);
    for _ in 0..tree[0] {
        let (code, children) = (&tree[at..at + 2], tree[at + 2]);
        assert_eq!(code[1], 0);
        out.extend([code[0], children]);
        at += 3;
        for _ in 0..children {
            out.extend(&tree[at..at + 3]);
            at += 3;
            at += narrowed(&tree[at..], out);
        }
    }
    at
}

/// Two tables with codes of one byte.
fn tables(random: &mut Random, round: usize) -> (Table, Table) {
    let shape = Shape {
        states: random.between(2, 7),
        codes: random.between(1, 25),
        steps: 3,
        width: 3,
        weight: 4,
    };
    let first = make::random(random, shape);
    let second = match round % 4 {
        0 => make::random(random, shape),
        _ => make::edited(random, &first, round % 4, shape.codes),
    };
    match round % 3 {
        0 => (first, make::listing_more(random, NARROW, second)),
        1 => (second, first),
        _ => (first, second),
    }
}

/// The wide bytes that the library makes of an old table.
fn widened(table: &Table) -> Vec<u8> {
    let old = table.bytes_at(NARROW);
    let (answer, wide) = widen(&old, ROOMY, old.len() as u64);
    assert_eq!(answer.number, 0);
    wide
}

#[test]
fn widened_then_checked() {
    // What the check finds for the widened tables is what the second program
    // finds for the tables that the old bytes hold. Trees are those of the
    // old layout but for the width of their codes.
    let mut random = Random::new(85);
    let (mut kept, mut trees) = (0, 0);
    for round in 0..1_500 {
        let (first, second) = tables(&mut random, round);
        let wide = (widened(&first), widened(&second));
        let held = |table: &Table| parse_at(NARROW, &table.bytes_at(NARROW)).unwrap();
        let held = (held(&first), held(&second));
        let pair = Pair::in_bytes(SUBSETS, wide, held);
        for s in 0..first.states.len() {
            for t in 0..second.states.len() {
                let judged = check(&pair, s, t, pair.lengths(s, t), round as u64);
                if judged.answer.number > 0 || judged.answer.rank == 0 {
                    kept += (judged.answer.number == 0) as usize;
                    continue;
                }
                trees += 1;
                let mut tree = Vec::new();
                assert_eq!(narrowed(&judged.tree, &mut tree), judged.tree.len());
                assert_eq!(tree, pair.trees.bytes_at(NARROW, s, t));
            }
        }
    }
    println!("{kept} kept, {trees} trees");
    assert!(kept > 4_000 && trees > 5_000);
}

#[test]
fn widened_against_wide() {
    // A widened table on either side of one with codes above 255: ranks are
    // those of the tables held, whichever layout they come in.
    let mut random = Random::new(86);
    let (mut kept, mut fallen) = (0, 0);
    for round in 0..500 {
        let (old, other) = tables(&mut random, round);
        // Of the codes, one half moves up.
        let other = make::recoded(&other, |code| code + 256 * (code / 10 % 2));
        let wide = (widened(&old), other.bytes());
        let swapped = (wide.1.clone(), wide.0.clone());
        let held = (old.clone(), other.clone());
        for pair in [
            Pair::in_bytes(SUBSETS, wide, held),
            Pair::in_bytes(SUBSETS, swapped, (other, old)),
        ] {
            for s in 0..pair.first.states.len() {
                let t = random.below(pair.second.states.len());
                let judged = check(&pair, s, t, pair.lengths(s, t), round as u64);
                match judged.answer.rank {
                    0 => kept += 1,
                    _ => fallen += 1,
                }
            }
        }
    }
    println!("{kept} kept, {fallen} fallen");
    assert!(kept > 500 && fallen > 500);
}
