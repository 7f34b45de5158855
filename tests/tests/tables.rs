//! Lone tables: what is accepted, and each refusal in its turn.

use pod_tests::answer::table_answer;
use pod_tests::library::{check_table, check_table_short, number, FIELDS};
use pod_tests::make;
use pod_tests::random::Random;
use pod_tests::spoil::faulty;
use pod_tests::table::{parse, Table, Transition, C, LONE, P, STATES, STEPS, WIDE, WORD};

/// A table of so many states without transitions.
fn idle(states: usize) -> Vec<u8> {
    Table::new(vec![Vec::new(); states]).bytes()
}

/// A table whose states have so many transitions each, all to the start.
fn busy(shares: &[usize]) -> Vec<u8> {
    let states = shares
        .iter()
        .map(|&share| vec![make::to(1, 0); share])
        .collect();
    Table::new(states).bytes()
}

fn full(entries: usize) -> Vec<u8> {
    make::full(entries).bytes()
}

fn weighing(weights: &[u16]) -> Vec<u8> {
    make::weighing(weights).bytes()
}

#[test]
fn boundaries() {
    for states in [1, 63, 64, 65, 127, 128] {
        assert_eq!(number(&idle(states)), 0, "{states} states");
    }
    for states in [0, 129, 192, 255] {
        assert_eq!(number(&idle(states)), 4, "{states} states");
    }
    assert_eq!(number(&full(512)), 0);
    assert_eq!(number(&full(513)), 7);
    assert_eq!(number(&weighing(&[65_535])), 0);
    assert_eq!(number(&weighing(&[65_534, 1])), 0);
    assert_eq!(number(&weighing(&[65_535, 1])), 10);
    assert_eq!(number(&weighing(&[32_768, 32_768])), 10);
    assert_eq!(number(&weighing(&[65_535, 65_535])), 10);
    assert_eq!(number(&weighing(&[1, 0])), 0);
    assert_eq!(number(&weighing(&[0, 0])), 10);
}

#[test]
fn boundaries_of_transitions() {
    // Up to 255 in a state, up to 256 in all.
    for shares in [
        &[128][..],
        &[129],
        &[254],
        &[255],
        &[255, 1],
        &[1, 255],
        &[128, 128],
    ] {
        assert_eq!(number(&busy(shares)), 0, "{shares:?}");
    }
    assert_eq!(number(&busy(&[2; 128])), 0);
    for shares in [
        &[255, 2][..],
        &[2, 255],
        &[128, 129],
        &[255, 0, 1, 1],
        &[255, 255],
    ] {
        assert_eq!(number(&busy(shares)), 5, "{shares:?}");
    }
    assert_eq!(number(&busy(&[[2; 127].as_slice(), &[3]].concat())), 5);
    // A state's count is cut to its byte, and the sum is another.
    assert_eq!(number(&busy(&[256])), 5);
    assert_eq!(number(&busy(&[257])), 5);
}

#[test]
fn boundaries_of_targets() {
    // Every state is a target, the one after the last is none.
    for states in [63, 64, 65, 127, 128] {
        let mut list = vec![Vec::new(); states];
        let entries = (0..states as u8).map(|target| (target, 1)).collect();
        list[states - 1].push(Transition { code: 1, entries });
        let mut table = Table::new(list);
        assert_eq!(number(&table.bytes()), 0, "{states} states");
        table.states[states - 1][0].entries[states - 1].0 += 1;
        assert_eq!(number(&table.bytes()), 9, "{states} states");
    }
}

#[test]
fn examples() {
    for table in [&P[..], &C, &LONE] {
        assert_eq!(number(table), 0);
        assert_eq!(number(&[table, &[0]].concat()), 2);
    }
    assert_eq!(number(&[]), 1);
    assert_eq!(number(&P[..28]), 1);
    let mut exchanged = P;
    exchanged.swap(2, 4);
    assert_eq!(number(&exchanged), 3);
}

#[test]
fn sums_never_wrap() {
    // 2 × 128 transitions, 0 counted; 256 × 256 would be 0 as well.
    let bytes = [0, 0, 2, 128, 128, 0, 0, 0, 0];
    assert_eq!(number(&bytes), 5);
    let mut bytes = vec![0, 0, STATES as u8];
    bytes.extend([STEPS as u8; STATES]);
    bytes.extend(((STATES * STEPS) as u16).to_le_bytes());
    assert_eq!(number(&bytes), 5);
    // 255 and 1, 0 counted.
    assert_eq!(number(&[0, 0, 2, 255, 1, 0, 0, 0, 0]), 5);
    // Two transitions of 128 entries, 0 counted.
    let bytes = [1, 0, 9, 0, 1, 2, 2, 0, 9, 0, 128, 9, 0, 128, 0, 0];
    assert_eq!(number(&bytes), 7);
}

#[test]
fn order_of_refusals() {
    // Each table has two faults; the first in order is given.
    assert_eq!(number(&[2, 0, 5, 0, 5, 0]), 3);
    assert_eq!(number(&[2, 0, 5, 0, 5]), 1);
    assert_eq!(number(&[2, 0, 5, 0]), 1);
    assert_eq!(number(&[0, 0, 0]), 4);
    assert_eq!(number(&[0, 0, 65]), 1);
    assert_eq!(number(&[0, 0, 128]), 1);
    assert_eq!(number(&[0, 0, 129]), 4);
    assert_eq!(number(&[0, 0, 2, 0]), 1);
    assert_eq!(number(&[0, 0, 1, 1, 0]), 1);
    assert_eq!(number(&[0, 0, 1, 1, 0, 0]), 5);
    assert_eq!(number(&[0, 0, 1, 1, 1, 0]), 1);
    assert_eq!(number(&[0, 0, 1, 1, 1, 0, 7]), 1);
    assert_eq!(number(&[0, 0, 1, 1, 1, 0, 7, 0]), 1);
    assert_eq!(number(&[0, 0, 1, 1, 1, 0, 7, 0, 0]), 6);
    // Code 7 listed; then the states, then the rest.
    let one = |states: &[u8], rest: &[u8]| number(&[&[1, 0, 7, 0], states, rest].concat());
    assert_eq!(one(&[1, 1], &[1, 0, 7, 0, 0]), 8);
    assert_eq!(one(&[1, 2], &[2, 0, 7, 0, 0, 8, 0, 1]), 8);
    assert_eq!(one(&[1, 2], &[2, 0, 8, 0, 1, 7, 0, 0]), 6);
    assert_eq!(one(&[1, 1], &[1, 0, 7, 0, 1, 1]), 1);
    assert_eq!(one(&[1, 1], &[1, 0, 7, 0, 1, 2, 0]), 7);
    assert_eq!(one(&[1, 1], &[1, 0, 7, 0, 1, 1, 0, 9, 0]), 1);
    assert_eq!(one(&[1, 1], &[1, 0, 7, 0, 1, 1, 0, 9, 0, 0]), 9);
    assert_eq!(one(&[1, 1], &[1, 0, 7, 0, 1, 1, 0, 0, 0, 0, 1]), 10);
    assert_eq!(one(&[1, 1], &[1, 0, 7, 0, 1, 1, 0, 0, 1, 0, 1]), 2);
    // A later entry's 9 after an earlier one's 10, and before the 10 of a
    // total of 0, unless that is of an earlier transition.
    let three = [1, 0, 7, 0, 3, 3, 0, 0, 255, 255, 1, 1, 0, 1, 1, 0];
    assert_eq!(one(&[2, 1, 0], &three), 10);
    let two = [1, 0, 7, 0, 2, 2, 0, 1, 0, 0, 1, 0, 0];
    assert_eq!(one(&[2, 1, 0], &two), 9);
    let apart = [2, 0, 7, 0, 1, 7, 0, 1, 2, 0, 1, 0, 0, 9, 0, 0];
    assert_eq!(one(&[2, 1, 1], &apart), 10);
}

#[test]
fn truncations() {
    let mut random = Random::new(11);
    let mut tables = vec![P.to_vec(), C.to_vec(), LONE.to_vec()];
    tables.extend([idle(64), idle(STATES), busy(&[128]), busy(&[STEPS, 1])]);
    tables.extend([full(512), weighing(&[65_534, 1])]);
    for states in [WORD, STATES] {
        tables.push(make::sized(&mut random, states, 3, true).bytes());
        tables.push(make::counter(states).1.bytes());
    }
    for table in tables {
        assert_eq!(number(&table), 0);
        for length in 0..table.len() {
            assert_eq!(number(&table[..length]), 1, "{length} of {table:02x?}");
        }
        for more in [vec![0], vec![255], vec![0; 300]] {
            assert_eq!(number(&[&table[..], &more].concat()), 2);
        }
    }
}

#[test]
fn short_answers() {
    for table in [&P[..], &P[..9], &[]] {
        for length in 0..FIELDS {
            assert!(check_table_short(table, length));
        }
    }
}

#[test]
fn damaged() {
    let mut random = Random::new(12);
    let mut seen = [0; 11];
    for round in 0..200_000 {
        let bytes = faulty(&mut random, WIDE);
        let due = table_answer(&bytes);
        let answer = check_table(&bytes, round);
        assert_eq!(answer, due, "{bytes:02x?}");
        seen[due.number as usize] += 1;
        // Whatever is accepted is a table, byte for byte.
        if let Ok(table) = parse(&bytes) {
            assert_eq!(table.bytes(), bytes);
        }
    }
    println!("by number, accepted first: {seen:?}");
    assert!(seen.iter().all(|&count| count > 1_000), "{seen:?}");
}

#[test]
fn noise() {
    // Small numbers, of which many have a high byte of 0.
    let mut random = Random::new(13);
    let mut seen = [0; 11];
    for round in 0..50_000 {
        let mut byte = |_| random.byte() % 4 * (random.byte() % 2);
        let bytes: Vec<u8> = (0..40).map(&mut byte).collect();
        let bytes = &bytes[..random.below(40)];
        let due = table_answer(bytes);
        assert_eq!(check_table(bytes, round), due);
        seen[due.number as usize] += 1;
    }
    println!("by number, accepted first: {seen:?}");
    assert!(seen[..8].iter().all(|&count| count > 20), "{seen:?}");
}
