//! Makes the inputs that podcheck and its peers are measured on: NAME.in in
//! the folder given, with NAME.out, the text that is due.

#![allow(dead_code)]

#[path = "../tests/src/answer.rs"]
mod answer;
#[path = "../tests/src/fit.rs"]
mod fit;
#[path = "../tests/src/flow.rs"]
mod flow;
#[path = "../tests/src/hard.rs"]
mod hard;
#[path = "../tests/src/make.rs"]
mod make;
#[path = "../tests/src/program.rs"]
mod program;
#[path = "../tests/src/random.rs"]
mod random;
#[path = "../tests/src/ranks.rs"]
mod ranks;
#[path = "../tests/src/table.rs"]
mod table;
#[path = "../tests/src/tree.rs"]
mod tree;

use make::Shape;
use random::Random;
use std::path::Path;
use table::{parse, Table, Transition, C, CODES, ENTRIES, NARROW, OLD_P, P, STATES, TRANSITIONS};

/// Two random tables: of some tries those with most rounds among those whose
/// starts are told apart late.
fn latest(seed: u64, tries: usize, make: impl Fn(&mut Random) -> (Table, Table)) -> (Table, Table) {
    let mut random = Random::new(seed);
    let mut best = None;
    let mut most = (false, 0);
    for _ in 0..tries {
        let (first, second) = make(&mut random);
        let ranking = ranks::rank(0, &first, &second.completed(&first.codes));
        let rounds = (ranking.ranks[0] > 1, ranking.rounds());
        if best.is_none() || rounds > most {
            most = rounds;
            best = Some((first, second));
        }
    }
    best.unwrap()
}

/// The same of a table and a near copy.
fn near(seed: u64, tries: usize, make: impl Fn(&mut Random) -> Table) -> (Table, Table) {
    latest(seed, tries, |random| {
        let first = make(random);
        let second = make::edited(random, &first, 3, 2);
        (first, second)
    })
}

fn of_states(states: usize) -> impl Fn(&mut Random) -> Table {
    let shape = Shape {
        states,
        codes: 2,
        steps: 2,
        width: 4,
        weight: 9,
    };
    move |random| loop {
        let table = make::random(random, shape);
        if table.states.len() == states {
            return table;
        }
    }
}

/// A step to all states from `lowest` on.
fn wide(random: &mut Random, lowest: usize, states: usize) -> Transition {
    let weights = make::weights(random, states - lowest, 65_500);
    Transition {
        code: 20,
        entries: (lowest as u8..).zip(weights).collect(),
    }
}

/// State 0 steps to all states from `lowest` on in so many ways; the others
/// are a chain, which tells two more of them apart in every round. In the
/// second table a little weight lies one state lower, which only the last
/// rounds show.
fn fan(states: usize, lowest: usize, ways: usize) -> (Table, Table) {
    let mut random = Random::new(6);
    let mut list: Vec<_> = (0..states - 1).map(|i| vec![make::to(10, i)]).collect();
    let start = (0..ways).map(|_| wide(&mut random, lowest, states));
    list.insert(0, start.collect());
    let first = Table::new(list.clone());
    for step in &mut list[0] {
        let [.., (_, one), (_, last)] = &mut step.entries[..] else {
            panic!("two targets");
        };
        *one += 1;
        *last = (*last - 1).max(1);
    }
    list[0].reverse();
    (first, Table::new(list))
}

/// A step to state 1, which can do something, and to state 2, which can not.
fn split(live: u16, dead: u16) -> Transition {
    Transition {
        code: 10,
        entries: vec![(1, live), (2, dead)],
    }
}

/// The starts have so many like-coded steps. Each of the first fits only the
/// last of the second, and the last of the first fits none: all are tried
/// with all, in the rounds and again for the tree.
fn many(steps: usize) -> (Table, Table) {
    let table = |most: Transition, last: Transition| {
        let mut start = vec![most; steps - 1];
        start.push(last);
        Table::new(vec![start, vec![make::to(20, 1)], Vec::new()])
    };
    let first = table(split(2, 1), split(4, 1));
    (first, table(split(1, 1), split(3, 1)))
}

/// The table with a start before its states that steps to all of them.
fn watched(table: Table) -> Table {
    let mut list = table.states;
    let entries = (1..=list.len() as u8).map(|state| (state, 1)).collect();
    for entry in list.iter_mut().flatten().flat_map(|step| &mut step.entries) {
        entry.0 += 1;
    }
    list.insert(0, vec![Transition { code: 30, entries }]);
    Table::new(list)
}

/// A counter that the starts watch: each of its rounds takes one pair away,
/// which puts the starts in doubt, and they fit until the last rounds.
fn watched_counter(states: usize) -> (Table, Table) {
    let (first, second) = make::counter(states);
    (watched(first), watched(second))
}

/// As many codes and transitions as there may be, all by the last code: most
/// of the work is to look codes up.
fn listed() -> (Table, Table) {
    let codes: Vec<u16> = (0..CODES as u16).map(|k| 64 * k + 63).collect();
    let steps = vec![make::to(codes[CODES - 1], 0); TRANSITIONS / 2];
    let table = Table {
        codes,
        states: vec![steps; 2],
    };
    (table.clone(), table)
}

/// What a tester writes that watches many outcomes of each step, most of which
/// never occur: 512 entries, and few of them with a weight.
fn watching(random: &mut Random) -> Table {
    let table = of_states(32)(random);
    make::sprinkled(random, &make::padded(table, STATES), ENTRIES)
}

/// A pod with two codes more than its contract governs, by which most of its
/// states stay as they are.
fn showing(random: &mut Random) -> (Table, Table) {
    let contract = of_states(64)(random);
    let pod = make::showing(random, &contract, &[15, 30]);
    (pod, make::edited(random, &contract, 3, 2))
}

/// The largest table of the old layout.
fn largest_old() -> Vec<u8> {
    let mut table = make::limit(&mut Random::new(7), 25, true);
    table.codes = (1..=255).collect();
    table.bytes_at(NARROW)
}

/// Writes an input and the text that is due.
fn write(folder: &Path, name: &str, input: &[u8]) {
    let path = folder.join(name);
    let output = program::output_by(0, input);
    std::fs::write(path.with_extension("in"), input).unwrap();
    std::fs::write(path.with_extension("out"), output).unwrap();
}

fn main() {
    let folder = std::env::args().nth(1).expect("a folder");
    let folder = Path::new(&folder);
    let limit =
        |states, codes| move |random: &mut Random| make::sized(random, states, codes, false);
    let cases = [
        ("P,C", (parse(&P).unwrap(), parse(&C).unwrap())),
        ("8 states", near(1, 40, of_states(8))),
        ("24 states", near(2, 40, of_states(24))),
        ("limits", near(3, 8, limit(64, 4))),
        ("limits, one code", near(4, 40, limit(64, 1))),
        ("limits, 64 targets", fan(64, 0, 7)),
        ("fan of 64", fan(64, 0, 1)),
        ("chain of 63", make::chain(64)),
        ("cycles of 63, 64", make::cycles(63, 64)),
        ("counter to 4096", make::counter(64)),
        ("128 states", near(3, 8, limit(128, 4))),
        ("128, one code", near(4, 40, limit(128, 1))),
        ("128 targets", fan(128, 0, 3)),
        ("127 targets", fan(128, 1, 3)),
        ("fan of 128", fan(128, 0, 1)),
        ("chain of 127", make::chain(128)),
        ("cycles of 127, 128", make::cycles(127, 128)),
        // The deepest tree of cycles that can be written.
        ("cycles of 80, 117", make::cycles(80, 117)),
        ("counter to 16384", make::counter(128)),
        ("255 steps", many(255)),
        ("watched counter", watched_counter(63)),
        ("1024 codes", listed()),
        ("zeros", near(5, 40, watching)),
        ("half the codes", latest(6, 40, showing)),
        // The worst that a search over their parameters came to, for podcheck
        // as it was then, or what is said of them and the worst.
        ("64, near copy", hard::near_copy(800, 64, 72, 56)),
        ("64, flows of 32", hard::many_flows(1, 32, 32, 64)),
        ("64, flows of 16", hard::many_flows(1, 32, 16, 64)),
        ("64, flows of 56", hard::many_flows(7, 56, 56, 64)),
        ("64, echoes", hard::echoes(11, 4, 0, 64)),
        ("64, late echoes", hard::echoes(11, 4, 40, 64)),
        ("64, bands", hard::bands(400, 20, 64)),
        ("128, near copy", hard::near_copy(522, 128, 96, 84)),
        ("128, flows of 64", hard::many_flows(1, 64, 64, 128)),
        ("128, flows of 16", hard::many_flows(1, 64, 16, 128)),
        ("128, flows of 80", hard::many_flows(706, 80, 80, 128)),
        ("128, echoes", hard::echoes(11, 2, 0, 128)),
        ("128, late echoes", hard::echoes(11, 3, 100, 128)),
        ("128, bands", hard::bands(688, 16, 128)),
    ];
    for (name, (first, second)) in cases {
        let input = program::input(&first.bytes(), &second.bytes());
        write(folder, name, &input);
    }
    // podcheck refuses these; firmware/run widens them.
    let old = program::input(&OLD_P, &largest_old());
    write(folder, "old tables", &old);
}
