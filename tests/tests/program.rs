//! The program podcheck: its output to the letter.

use pod_tests::alike;
use pod_tests::make::{self, Shape};
use pod_tests::program::{input, output, output_by};
use pod_tests::random::Random;
use pod_tests::ranks::rank;
use pod_tests::stack::deep;
use pod_tests::table::{
    largest, parse, Table, Transition, C, CODES, ENTRIES, LONE, OLD_C, OLD_P, P, SHOWING_C, STATES,
    STEPS, STILL, WIDE, WORD, ZEROS_C, ZEROS_P,
};
use std::io::Write;
use std::path::{Path, PathBuf};
use std::process::{Child, Command, Stdio};

/// The program, or another one to hold against the same.
fn program() -> PathBuf {
    let here = PathBuf::from(env!("CARGO_MANIFEST_DIR"));
    match std::env::var_os("PODCHECK") {
        Some(path) => path.into(),
        None => here.join("../crates/podcheck/out/podcheck"),
    }
}

fn started() -> Child {
    Command::new(program())
        .stdin(Stdio::piped())
        .stdout(Stdio::piped())
        .spawn()
        .expect("podcheck runs")
}

fn run(input: &[u8]) -> String {
    let mut child = started();
    // The program need not read what it ignores.
    let mut stdin = child.stdin.take().unwrap();
    let written = stdin.write_all(input);
    drop(stdin);
    let done = child.wait_with_output().unwrap();
    assert!(done.status.code().is_some(), "ended by a signal");
    if let Err(error) = written {
        assert_eq!(error.kind(), std::io::ErrorKind::BrokenPipe);
    }
    String::from_utf8(done.stdout).unwrap()
}

/// Writes the input in parts, with time between them for the program to read.
fn run_in_parts(parts: &[&[u8]]) -> String {
    let mut child = started();
    let mut stdin = child.stdin.take().unwrap();
    for part in parts {
        stdin.write_all(part).unwrap();
        std::thread::sleep(std::time::Duration::from_millis(20));
    }
    drop(stdin);
    String::from_utf8(child.wait_with_output().unwrap().stdout).unwrap()
}

/// For tables that are too large to try all subsets.
fn held_large(first: &Table, second: &Table) -> String {
    let bytes = input(&first.bytes(), &second.bytes());
    let text = run(&bytes);
    assert!(text == output_by(0, &bytes), "{bytes:02x?}");
    text
}

fn held(input: &[u8]) -> String {
    let text = run(input);
    assert_eq!(text, output(input), "{input:02x?}");
    text
}

#[test]
fn example() {
    let text = run(&input(&P, &C));
    let due = "tables 3 3
row 0 2 1 1
row 1 1 0 1
row 2 0 0 0
rounds 2 kept 4 verdict no
tree 01 0a 00 02 01 03 00 01 14 00 01 01 01 00 00 02 01 00 00
";
    assert_eq!(text, due);
    held(&input(&P, &P));
    held(&input(&C, &P));
    held(&input(&LONE, &LONE));
}

#[test]
fn example_files() {
    // The inputs in examples/. With an entry for every state in each of P's
    // transitions the text is the same, and so it is with a code for C's
    // display that the contract does not list.
    let file = |name: &str| {
        let folder = Path::new(env!("CARGO_MANIFEST_DIR")).join("../examples");
        std::fs::read(folder.join(name)).unwrap()
    };
    assert_eq!(file("p_c.bin"), input(&P, &C));
    assert_eq!(file("c_p.bin"), input(&C, &P));
    assert_eq!(file("zeros.bin"), input(&ZEROS_P, &C));
    assert_eq!(file("partial.bin"), input(&SHOWING_C, &P));
    let text = held(&file("c_p.bin"));
    assert!(text.ends_with("verdict yes\n"));
    assert_eq!(run(&file("partial.bin")), text);
    let text = held(&file("p_c.bin"));
    assert!(text.ends_with("\ntree 01 0a 00 02 01 03 00 01 14 00 01 01 01 00 00 02 01 00 00\n"));
    assert_eq!(run(&file("zeros.bin")), text);
}

#[test]
fn weights_of_zero() {
    let mut random = Random::new(47);
    for tables in [[P, C], [C, P], [P, P]] {
        let tables = tables.map(|bytes| parse(&bytes).unwrap());
        let (_, zeros) = same_with_zeros(&mut random, &tables, ENTRIES);
        assert_eq!(zeros, [3, 3]);
    }
    let (mut yes, mut no) = (0, 0);
    for round in 0..60 {
        let (first, second) = match round % 10 {
            9 => alike::large(&mut random, round / 10 % 4),
            kind => alike::small(&mut random, kind % 8),
        };
        let entries = first.entries() + second.entries();
        let (text, zeros) = same_with_zeros(&mut random, &[first, second], entries);
        // Those with such entries on both sides.
        let both = zeros.iter().all(|&count| count > 0);
        yes += (both && text.contains("verdict yes\n")) as usize;
        no += (both && text.contains("\ntree 01 ")) as usize;
    }
    println!("{yes} yes, {no} no");
    assert!(yes > 10 && no > 10);
    let zero = make::weighing(&[0, 0]).bytes();
    assert_eq!(held(&input(&zero, &zero)), "refused 1 10\n");
    assert_eq!(held(&input(&P, &zero)), "refused 2 10\n");
}

/// The text for two tables, which stays the same with up to so many entries of
/// weight 0 more on one side or on both, and how many there were.
fn same_with_zeros(random: &mut Random, tables: &[Table; 2], count: usize) -> (String, [usize; 2]) {
    let [first, second] = tables;
    let [p, q] = [first, second].map(|table| make::sprinkled(random, table, count));
    let text = held_large(first, second);
    for (first, second) in [(&p, second), (first, &q), (&p, &q)] {
        assert_eq!(held_large(first, second), text);
    }
    let zeros = [
        p.entries() - first.entries(),
        q.entries() - second.entries(),
    ];
    (text, zeros)
}

#[test]
fn partial_contracts() {
    // Codes that the contract does not list, beside others.
    assert!(held(&input(&STILL, &LONE)).ends_with("\nrounds 0 kept 1 verdict yes\n"));
    assert_eq!(held(&input(&SHOWING_C, &P)), held(&input(&C, &P)));
    let mut random = Random::new(48);
    let (mut yes, mut no) = (0, 0);
    for round in 0..120 {
        let (first, second) = match round % 10 {
            9 => alike::large(&mut random, round / 10 % 4),
            kind => alike::small(&mut random, kind % 8),
        };
        let first = make::showing(&mut random, &first, &[5, 15, 300]);
        let text = held_large(&first, &second);
        let listing = held_large(&first, &make::listing(second, &first.codes));
        // Those whose answer is another with all codes listed.
        yes += (text != listing && text.contains("verdict yes\n")) as usize;
        no += (text != listing && text.contains("\ntree 01 ")) as usize;
    }
    println!("{yes} yes, {no} no");
    assert!(yes > 20 && no > 20);
}

#[test]
fn old_tables() {
    // The first two bytes of either are a count of 2,562 codes.
    assert_eq!(held(&input(&OLD_P, &OLD_C)), "refused 1 3\n");
    assert_eq!(held(&input(&P, &OLD_C)), "refused 2 3\n");
}

#[test]
fn codes_of_two_bytes() {
    let table = |bytes: &[u8]| parse(bytes).unwrap();
    let high = |code: u16| 256 * code + 255;
    let (p, c) = (
        make::recoded(&table(&P), high),
        make::recoded(&table(&C), high),
    );
    let text = held(&input(&p.bytes(), &c.bytes()));
    assert!(text.ends_with("\ntree 01 ff 0a 02 01 03 00 01 ff 14 01 01 01 00 00 02 01 00 00\n"));
    // All codes listed, of which the last is used.
    let mut all = Table::new(vec![vec![make::to(u16::MAX, 0)]]);
    all.codes = (0..CODES as u16).map(|k| u16::MAX - k).rev().collect();
    assert!(held_large(&all, &all).ends_with("verdict yes\n"));
    let lone = make::listing(table(&LONE), &[u16::MAX]);
    assert!(held_large(&all, &lone).ends_with("\ntree 01 ff ff 01 00 01 00 00\n"));
    all.codes.insert(0, 0);
    assert_eq!(held_large(&all, &all), "refused 1 3\n");
}

#[test]
fn cut_at_every_byte() {
    for whole in [input(&P, &C), input(&C, &P), input(&LONE, &P)] {
        for length in 0..=whole.len() {
            let text = held(&whole[..length]);
            assert_eq!(text.starts_with("refused"), length < whole.len());
        }
    }
}

#[test]
fn what_follows_is_ignored() {
    let whole = input(&P, &C);
    for more in [1, 2, 29, 5_000, 200_000] {
        let longer = [&whole[..], &vec![7; more]].concat();
        assert_eq!(held(&longer), output(&whole));
    }
}

/// Where the length of the second table stands, after P.
const SECOND: usize = 2 + P.len();

#[test]
fn lengths_that_lie() {
    // A length above or below that of the table it stands before.
    for length in [0, 28, 30, 65_535] {
        let mut bytes = input(&P, &C);
        bytes[..2].copy_from_slice(&u16::to_le_bytes(length));
        held(&bytes);
    }
    for length in [0, 1, 28, 30, 255, 65_535] {
        let mut bytes = input(&P, &C);
        bytes[SECOND..SECOND + 2].copy_from_slice(&u16::to_le_bytes(length));
        held(&bytes);
        bytes.extend([0; 300]);
        held(&bytes);
    }
    // The longest input that is read.
    held(&input(&[0; 65_535], &[0; 65_535]));
    held(&input(&[&P[..], &[0; 65_000]].concat(), &C));
    held(&input(&P, &[&C[..], &[0; 65_506]].concat()));
}

#[test]
fn damaged() {
    let mut random = Random::new(41);
    let mut refused = 0;
    for round in 0..300 {
        let mut bytes = match round % 2 {
            0 => input(&P, &C),
            _ => input(&ZEROS_P, &ZEROS_C),
        };
        for _ in 0..random.between(1, 3) {
            let at = random.below(bytes.len());
            bytes[at] = [0, 1, 2, 3, 10, 20, 255, random.byte()][random.below(8)];
        }
        refused += held(&bytes).starts_with("refused") as usize;
    }
    println!("{refused} refused");
    assert!(refused > 100 && refused < 290);
}

#[test]
fn random_tables() {
    let mut random = Random::new(42);
    let (mut yes, mut no) = (0, 0);
    for round in 0..250 {
        let shape = Shape {
            states: random.between(2, 12),
            codes: random.between(1, 3),
            steps: 3,
            width: random.between(1, 5),
            weight: [1, 4, 13_000][random.below(3)],
        };
        let first = make::random(&mut random, shape);
        let edits = random.below(6);
        let second = match round % 3 {
            0 => make::random(&mut random, shape),
            _ => make::edited(&mut random, &first, edits, 3),
        };
        let text = held(&input(&first.bytes(), &second.bytes()));
        yes += text.contains("verdict yes\n") as usize;
        no += text.contains("\ntree ") as usize;
    }
    println!("{yes} yes, {no} no");
    assert!(yes > 50 && no > 50);
}

/// Two accepted tables with their lengths, one byte less than what is read
/// at first.
const TWO_TABLES: usize = 2 * (2 + LARGEST);
const LARGEST: usize = largest(WIDE);

#[test]
fn input_around_two_tables() {
    let mut random = Random::new(44);
    let mut full = |codes| {
        let mut table = make::limit(&mut random, codes, true);
        table.codes = (1..=CODES as u16).collect();
        table.bytes()
    };
    let whole = input(&full(1), &full(2));
    assert_eq!(whole.len(), TWO_TABLES);
    let due = output_by(0, &whole);
    assert!(due.starts_with("tables 128 128\n"));
    assert_eq!(run(&whole[..TWO_TABLES - 1]), "refused 2 1\n");
    for more in 0..4 {
        let longer = [&whole[..], &vec![7; more]].concat();
        assert!(run(&longer) == due, "{more}");
        for at in [2 + LARGEST + 2, TWO_TABLES - 1, TWO_TABLES, longer.len()] {
            assert!(run_in_parts(&[&longer[..at], &longer[at..]]) == due, "{at}");
        }
    }
}

#[test]
fn input_around_what_is_read_first() {
    let small = input(&P, &C);
    for length in TWO_TABLES - 1..=TWO_TABLES + 3 {
        // What follows the second table.
        let mut bytes = small.clone();
        bytes.resize(length, 7);
        assert_eq!(held(&bytes), output(&small));
        // A second table that goes on to the end, or beyond it.
        for more in [0, 1, 60_000] {
            let stated = (length - SECOND - 2 + more) as u16;
            bytes[SECOND..SECOND + 2].copy_from_slice(&stated.to_le_bytes());
            assert_eq!(held(&bytes), "refused 2 2\n");
        }
        // A first table up to there, and the second after it.
        for first in length - 4..=length {
            let table = [&P[..], &vec![0; first - P.len()]].concat();
            assert_eq!(held(&input(&table, &C)), "refused 1 2\n");
        }
        // A first table that goes on to the end, or beyond it.
        for more in [0, 1, 60_000] {
            let stated = (length - 2 + more) as u16;
            bytes[..2].copy_from_slice(&stated.to_le_bytes());
            assert_eq!(held(&bytes), "refused 1 2\n");
        }
    }
}

#[test]
fn pairs_around_the_short_buffers() {
    let few = [
        (24, 24),
        (64, 9),
        (9, 64),
        (24, 25),
        (60, 10),
        (10, 60),
        (128, 4),
        (5, 120),
    ];
    let many = [
        (43, 14),
        (14, 43),
        (25, 25),
        (64, 10),
        (10, 64),
        (128, 5),
        (5, 128),
    ];
    assert!(few.iter().all(|(p, q)| p * q <= 600));
    assert!(many.iter().all(|(p, q)| p * q > 600));
    let mut random = Random::new(45);
    for sizes in [&few[..], &many] {
        let (mut yes, mut no) = (0, 0);
        for (&(p, q), round) in sizes.iter().flat_map(|size| (0..6).map(move |n| (size, n))) {
            let shape = Shape {
                states: p.min(q),
                codes: 2,
                steps: 2,
                width: 3,
                weight: 4,
            };
            let first = make::random(&mut random, shape);
            let second = make::edited(&mut random, &first, 2 * round, 2);
            let text = held_large(&make::padded(first, p), &make::padded(second, q));
            assert!(text.starts_with(&format!("tables {p} {q}\n")));
            yes += text.contains("verdict yes\n") as usize;
            no += text.contains("\ntree ") as usize;
        }
        println!("{yes} yes, {no} no");
        assert!(yes > 5 && no > 5);
    }
    // Ranks up to 575 and 600.
    for (p, states) in [(23, 24), (24, 25)] {
        let (first, second) = make::cycles(p, 25);
        let text = held_large(&first, &second);
        assert!(text.starts_with(&format!("tables {states} 25\n")));
        assert!(text.contains(&format!("\nrounds {} ", p * 25)));
    }
}

#[test]
fn trees_around_the_short_buffers() {
    for (p, q, ends, length) in [(6, 23, 15, 1_023), (5, 29, 3, 1_024), (9, 16, 5, 1_025)] {
        let (first, second) = make::cycles_to(p, q, ends);
        // As few states as there are, as many as 600 pairs allow, one more.
        for states in [first.states.len(), 600 / q, 600 / q + 1] {
            let first = make::padded(first.clone(), states);
            let text = held_large(&first, &second);
            assert!(text.starts_with(&format!("tables {states} {q}\n")));
            let tree = text.lines().last().unwrap();
            assert!(tree.starts_with("tree 01 "));
            assert_eq!(tree.split(' ').count() - 1, length);
        }
    }
}

#[test]
fn large_tables() {
    let held = held_large;
    let mut random = Random::new(43);
    for round in 0..24 {
        let states = [WORD, STATES][round / 12];
        let first = make::sized(&mut random, states, 1 + round % 4, round % 3 == 0);
        let second = make::edited(&mut random, &first, round % 3, 2);
        held(&first, &second);
    }
    let mut refused = 0;
    for round in 0..30 {
        let (first, second) = make::layers(&mut random, 4 + round % 6, 4);
        refused += held(&first, &second).ends_with("\ntree refused 23\n") as usize;
    }
    assert!(refused > 2 && refused < 28, "{refused}");
    let (first, second) = make::cycles(63, 64);
    assert!(held(&first, &second).contains("rounds 4032 kept 64"));
    let (first, second) = make::cycles(127, 128);
    assert!(held(&first, &second).contains("rounds 16256 kept 128"));
    let (first, second) = make::counter(64);
    assert!(held(&first, &second).contains("rounds 4096 kept 0 verdict no\ntree "));
    for states in [WORD, STATES] {
        let (first, second) = make::chain(states);
        held(&first, &second);
    }
}

#[test]
fn states_of_the_second_word() {
    // The verdict does not depend on how the states are numbered.
    let mut random = Random::new(46);
    let (mut yes, mut no) = (0, 0);
    for round in 0..40 {
        let shape = Shape {
            states: 40,
            codes: 2,
            steps: 3,
            width: 4,
            weight: 5,
        };
        let first = make::random(&mut random, shape);
        let second = make::edited(&mut random, &first, round % 4, 2);
        let low = held_large(&first, &second);
        let lone = Table::new(vec![Vec::new()]);
        let raised = |table: &Table, from| make::raised(table, from, &lone);
        for from in [WORD - 1, WORD, STATES - first.states.len()] {
            let text = held_large(&raised(&first, from), &raised(&second, from));
            let same = |words: &str| text.contains(words) == low.contains(words);
            assert!(same("verdict yes\n") && same("\ntree 01 "));
        }
        yes += low.contains("verdict yes\n") as usize;
        no += low.contains("\ntree ") as usize;
    }
    println!("{yes} yes, {no} no");
    assert!(yes > 5 && no > 5);
}

#[test]
fn largest_rank() {
    // 16,384, with a tree of 114,689 bytes.
    let (first, second) = make::counter(STATES);
    let text = held_large(&first, &second);
    assert!(text.ends_with("\nrounds 16384 kept 0 verdict no\ntree refused 23\n"));
    assert!(text.contains("row 0 16384 "));
    // The deepest tree that is written, and one level more.
    let ranks = rank(0, &first, &second).ranks;
    for (rank, length) in [(9_362, Some(65_535)), (9_363, None)] {
        let at = ranks.iter().position(|&other| other == rank).unwrap();
        let first = make::started(&first, at / STATES);
        let second = make::started(&second, at % STATES);
        deep(|| {
            let text = held_large(&first, &second);
            assert!(text.contains(&format!("row 0 {rank} ")));
            match length {
                Some(length) => assert_eq!(text.lines().last().unwrap().len(), 4 + 3 * length),
                None => assert!(text.ends_with("\ntree refused 23\n")),
            }
        });
    }
}

#[test]
fn boundaries() {
    let idle = |states: usize| Table::new(vec![Vec::new(); states]);
    let lone = idle(1);
    for states in [64, 65, 127, 128] {
        let text = held_large(&idle(states), &lone);
        assert!(text.ends_with(&format!("\nrounds 0 kept {states} verdict yes\n")));
        let text = held_large(&lone, &idle(states));
        assert!(text.starts_with(&format!("tables 1 {states}\nrow 0 0 ")));
    }
    assert_eq!(held_large(&idle(129), &lone), "refused 1 4\n");
    assert_eq!(held_large(&lone, &idle(129)), "refused 2 4\n");
    let busy = |shares: [usize; 2]| -> Table {
        let steps = |share| -> Vec<Transition> { vec![make::to(10, 0); share] };
        Table::new(shares.map(steps).to_vec())
    };
    for shares in [[128, 0], [129, 0], [STEPS, 0], [STEPS, 1], [128, 128]] {
        assert!(held_large(&busy(shares), &busy(shares)).contains("verdict yes"));
    }
    for shares in [[STEPS, 2], [128, 129]] {
        assert_eq!(held_large(&busy(shares), &lone), "refused 1 5\n");
    }
}
