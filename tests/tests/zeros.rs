//! Entries of weight 0: where they are accepted, that they count in the length
//! of a flow buffer, and that they are no targets in anything else.

use pod_tests::alike;
use pod_tests::answer::{table_answer, Answer, Lengths, Pair};
use pod_tests::fit::SUBSETS;
use pod_tests::library::{self, check, check_table, widen};
use pod_tests::make::{self, Shape};
use pod_tests::random::Random;
use pod_tests::spoil;
use pod_tests::stack::deep;
use pod_tests::table::{
    largest, parse, parse_at, Table, Transition, ENTRIES, NARROW, STATES, STEPS, TOTAL, WIDE, WORD,
    ZEROS_C, ZEROS_P,
};
use pod_tests::tree::LONGEST;

/// P in the old layout with an entry for every state in each transition.
const OLD_ZEROS_P: [u8; 33] = [
    0x02, 0x0a, 0x14, 0x03, 0x01, 0x01, 0x00, 0x02, 0x00, 0x0a, 0x03, 0x14, 0x03, 0x06, 0x00, 0x00,
    0x00, 0x00, 0x01, 0x03, 0x00, 0x02, 0x01, 0x00, 0x00, 0x00, 0x00, 0x01, 0x01, 0x00, 0x02, 0x00,
    0x00,
];

/// The number in the answers to a table in either layout.
fn number(table: &Table) -> u32 {
    let (wide, old) = (table.bytes(), table.bytes_at(NARROW));
    let number = library::number(&wide);
    let (answer, _) = widen(&old, largest(WIDE), number as u64);
    assert_eq!(answer.number, number, "{table:?}");
    assert_eq!(table_answer(&wide).number, number, "{table:?}");
    number
}

/// The same for a start with one transition, with these weights.
fn weighed(weights: &[u16]) -> u32 {
    number(&make::weighing(weights))
}

/// The same for a table of three states whose start has these entries.
fn listed(entries: &[(u8, u16)]) -> u32 {
    number(&make::one_step(3, entries.to_vec()))
}

#[test]
fn totals_that_pass() {
    for weights in [&[0, 1][..], &[1, 0], &[0, 0, 3], &[3, 0, 0], &[0, 3, 0]] {
        assert_eq!(weighed(weights), 0, "{weights:?}");
    }
    for weights in [&[0, 65_535, 0][..], &[65_535, 0], &[65_534, 0, 1, 0]] {
        assert_eq!(weighed(weights), 0, "{weights:?}");
    }
    // All but one, which stands in every place.
    for place in 0..STATES {
        for weight in [1, 256, 65_535] {
            let mut weights = [0; STATES];
            weights[place] = weight;
            assert_eq!(weighed(&weights), 0, "{weight} at {place}");
        }
    }
}

#[test]
fn totals_of_zero_and_above() {
    for count in 1..=STATES {
        assert_eq!(weighed(&vec![0; count]), 10, "{count} entries");
    }
    for weights in [&[65_535, 0, 1][..], &[65_535, 1, 0], &[0, 65_535, 0, 1, 0]] {
        assert_eq!(weighed(weights), 10, "{weights:?}");
    }
    assert_eq!(weighed(&[32_768, 0, 32_768]), 10);
    assert_eq!(weighed(&[0, 65_535, 65_535, 65_535]), 10);
    // In each of some transitions, and in the last of many.
    for at in [0, 1, 2, STEPS - 1] {
        let mut table = Table::new(vec![vec![make::to(7, 0); STEPS]]);
        assert_eq!(number(&table), 0);
        table.states[0][at].entries[0].1 = 0;
        assert_eq!(number(&table), 10, "transition {at}");
    }
}

#[test]
fn targets_ascend() {
    // Repeated or lower, at an entry of weight 0, after one, or both.
    for (one, two) in [(0, 0), (0, 1), (1, 0), (5, 0), (0, 65_535)] {
        for (a, b) in [(0, 0), (1, 1), (2, 2), (1, 0), (2, 0), (2, 1)] {
            assert_eq!(listed(&[(a, one), (b, two)]), 9, "{a} {one}, {b} {two}");
            assert_eq!(listed(&[(a, one), (b, two), (2, 1)]), 9);
        }
    }
    assert_eq!(listed(&[(0, 1), (2, 0), (1, 1)]), 9);
    assert_eq!(listed(&[(1, 1), (2, 0), (1, 0)]), 9);
    assert_eq!(listed(&[(0, 0), (1, 0), (2, 1)]), 0);
    // No state.
    for state in [3, 4, 127, 128, 255] {
        assert_eq!(listed(&[(0, 1), (state, 0)]), 9, "state {state}");
        assert_eq!(listed(&[(state, 0)]), 9, "state {state}");
    }
    for states in [1, 63, 64, 65, 127, 128] {
        let last = states as u8 - 1;
        let table = |state| make::one_step(states, vec![(0, 1), (state, 0)]);
        assert_eq!(number(&table(last)), if last > 0 { 0 } else { 9 });
        assert_eq!(number(&table(last + 1)), 9);
    }
}

#[test]
fn order_of_refusals() {
    // A 9 of a later entry comes before a total of 0, and after one above
    // 65,535.
    assert_eq!(listed(&[(0, 0), (0, 0)]), 9);
    assert_eq!(listed(&[(0, 0), (1, 0), (3, 0)]), 9);
    assert_eq!(listed(&[(0, 65_535), (1, 1), (1, 0)]), 10);
    assert_eq!(listed(&[(0, 65_535), (0, 1)]), 9);
    // A total of 0 comes before any fault of the next transition, and after
    // those of the one before.
    let two = |one: &[(u8, u16)], two: &[(u8, u16)]| {
        let mut table = make::one_step(3, one.to_vec());
        let entries = two.to_vec();
        table.states[1].push(Transition { code: 1, entries });
        number(&table)
    };
    assert_eq!(two(&[(0, 0)], &[(3, 0)]), 10);
    assert_eq!(two(&[(3, 0)], &[(0, 0)]), 9);
    assert_eq!(two(&[(0, 0), (1, 1)], &[(3, 0)]), 9);
    assert_eq!(two(&[(0, 0), (1, 1)], &[(0, 0)]), 10);
    // A total of 0 comes after bytes that are missing and before bytes that
    // follow.
    let zero = make::weighing(&[0, 0]);
    for (bytes, number) in [
        (zero.bytes(), library::number as fn(&[u8]) -> u32),
        (zero.bytes_at(NARROW), |old| widen(old, 0, 1).0.number),
    ] {
        let (last, all) = (bytes.len() - 1, &bytes[..]);
        assert_eq!(number(&all[..last]), 1);
        assert_eq!(number(&[all, &[0]].concat()), 10);
    }
}

#[test]
fn limits_of_entries() {
    let mut random = Random::new(90);
    for n in [2, 1_000] {
        let [full, more] =
            [512, 513].map(|count| make::emptied(&mut random, &make::full(count), n));
        assert_eq!((full.entries(), number(&full)), (512, 0));
        assert_eq!((more.entries(), number(&more)), (513, 7));
        assert!(full.supported().entries() < 400);
    }
    // Transitions to all states, of which the last gets all weight.
    let entries = |count: u8| (0..count).map(|t| (t, (t + 1 == count) as u16)).collect();
    let step = |count| Transition {
        code: 1,
        entries: entries(count),
    };
    let mut table = make::padded(Table::new(vec![vec![step(128); 4]]), STATES);
    assert_eq!((table.entries(), number(&table)), (512, 0));
    table.states[1].push(step(1));
    assert_eq!((table.entries(), number(&table)), (513, 7));
    // 7 comes before any total.
    let steps = table.states.iter_mut().flatten();
    let entries = steps.flat_map(|step| &mut step.entries);
    entries.for_each(|entry| entry.1 = 0);
    assert_eq!(number(&table), 7);
    table.states[1].pop();
    assert_eq!(number(&table), 10);
}

/// All lists of so many entries of a table of three states, no state among
/// the targets, by three weights.
fn lists(count: usize) -> Vec<Vec<(u8, u16)>> {
    if count == 0 {
        return vec![Vec::new()];
    }
    let mut lists = Vec::new();
    for list in self::lists(count - 1) {
        for target in 0..=3 {
            for weight in [0, 1, 65_535] {
                lists.push([&list[..], &[(target, weight)]].concat());
            }
        }
    }
    lists
}

#[test]
fn every_short_transition() {
    // The first fault by its place: 9 at an entry, 10 at one, 10 at the end.
    let mut seen = [0; 4];
    for entries in (1..=3).flat_map(lists) {
        let total = |count: usize| -> u64 {
            let weights = entries[..count].iter().map(|entry| entry.1 as u64);
            weights.sum()
        };
        let falls = |i: &usize| *i > 0 && entries[*i].0 <= entries[*i - 1].0;
        let nine = (0..entries.len()).find(|i| entries[*i].0 > 2 || falls(i));
        let ten = (0..entries.len()).find(|i| total(i + 1) > TOTAL);
        let (kind, due) = match (nine, ten) {
            (Some(nine), ten) if ten.is_none_or(|ten| nine <= ten) => (1, 9),
            (_, Some(_)) => (2, 10),
            _ if total(entries.len()) == 0 => (3, 10),
            _ => (0, 0),
        };
        assert_eq!(listed(&entries), due, "{entries:?}");
        seen[kind] += 1;
    }
    assert_eq!(seen, [31, 1_722, 124, 7]);
}

#[test]
fn cut_and_longer() {
    let mut random = Random::new(91);
    let large = make::emptied(&mut random, &make::limit(&mut Random::new(7), 25, true), 4);
    for table in [parse(&ZEROS_P).unwrap(), large] {
        assert_eq!(number(&table), 0);
        let (wide, old) = (table.bytes(), table.bytes_at(NARROW));
        for length in 0..wide.len() {
            assert_eq!(library::number(&wide[..length]), 1, "{length} bytes");
        }
        for length in 0..old.len() {
            let (answer, _) = widen(&old[..length], 0, 1);
            assert_eq!(answer.number, 1, "{length} bytes");
        }
        assert_eq!(library::number(&[&wide[..], &[0]].concat()), 2);
    }
}

/// The tables as they are, and without the entries of weight 0 of the first,
/// of the second, and of both.
fn ways((first, second): &(Table, Table)) -> [(Table, Table); 4] {
    let (p, q) = (first.supported(), second.supported());
    [
        (first.clone(), second.clone()),
        (p.clone(), second.clone()),
        (first.clone(), q.clone()),
        (p, q),
    ]
}

fn tables(first: &[u8], second: &[u8]) -> (Table, Table) {
    (parse(first).unwrap(), parse(second).unwrap())
}

/// The tables, judged as they are.
fn pair(subsets: usize, tables: &(Table, Table)) -> Pair {
    let (first, second) = (tables.0.bytes(), tables.1.bytes());
    Pair::new(subsets, &first, &second).ok().unwrap()
}

#[test]
fn example_of_a_tree() {
    // With C's entry for state 0 taken for a target, the node below state 1
    // would have two transitions.
    let tree = [1, 10, 0, 2, 1, 3, 0, 1, 20, 0, 1, 1, 1, 0, 0, 2, 1, 0, 0];
    let done = Answer {
        rounds: 2,
        kept: 4,
        rank: 2,
        written: 19,
        ..Answer::default()
    };
    let tables = tables(&ZEROS_P, &ZEROS_C);
    for tables in ways(&tables) {
        let pair = pair(SUBSETS, &tables);
        assert_eq!(pair.ranking.ranks, [2, 1, 1, 1, 0, 1, 0, 0, 0]);
        let lengths = |tree| Lengths {
            ranks: 9,
            flow: 0,
            tree,
        };
        let judged = check(&pair, 0, 0, lengths(19), 1);
        assert_eq!((judged.answer, &judged.tree[..]), (done, &tree[..]));
        judged.replayed(&pair, 0, 0);
        let short = check(&pair, 0, 0, lengths(18), 2).answer;
        assert_eq!(short, Answer::refusal(22, 0, 19));
    }
    let wrong = pair(SUBSETS, &tables).wrong_trees(&tables);
    assert_eq!(wrong.map(|trees| trees.length(0, 0)), [19 + 3 * 4, 19 + 7]);
}

#[test]
fn example_of_a_flow() {
    let mut flow = vec![1, 0, 3, 0];
    for (from, to, amount) in [(1, 1, 4), (2, 1, 2), (2, 2, 2)] {
        flow.extend([from, to, amount, 0, 0, 0]);
    }
    let due = [58, 40, 58, 40];
    for (tables, needed) in ways(&tables(&ZEROS_C, &ZEROS_P)).iter().zip(due) {
        let pair = pair(SUBSETS, tables);
        let lengths = |flow| Lengths {
            ranks: 9,
            flow,
            tree: 0,
        };
        let judged = check(&pair, 0, 0, lengths(needed), 1);
        assert_eq!((judged.answer.verdict, &judged.flow), (1, &flow));
        for length in 0..needed {
            let short = check(&pair, 0, 0, lengths(length), 2).answer;
            assert_eq!(short, Answer::refusal(21, 0, needed as u32));
        }
    }
}

#[test]
fn example_of_equal_tables() {
    for tables in ways(&tables(&ZEROS_P, &ZEROS_P)) {
        let pair = pair(SUBSETS, &tables);
        assert_eq!(pair.ranking.ranks, [0, 1, 1, 1, 0, 1, 0, 0, 0]);
        let answer = check(&pair, 0, 0, pair.lengths(0, 0), 1).answer;
        assert_eq!((answer.rounds, answer.kept, answer.verdict), (1, 5, 1));
    }
}

#[test]
fn longest_flow() {
    // 255 transitions of a state, with all 512 entries and a weight in each:
    // the buffer must have 393,982 bytes, and without the others 196,606.
    let steps = (0..STEPS).map(|k| make::to(7, k % STATES)).collect();
    let table = make::padded(Table::new(vec![steps]), STATES);
    let table = make::sprinkled(&mut Random::new(92), &table, ENTRIES);
    assert_eq!(table.entries(), ENTRIES);
    let due = [393_982, 196_606, 393_982, 196_606];
    for (tables, needed) in ways(&(table.clone(), table)).iter().zip(due) {
        let pair = pair(0, tables);
        let full = pair.lengths(0, 0);
        assert_eq!(full.flow, needed);
        for flow in [0, needed / 2, needed - 1, needed, needed + 1] {
            let answer = check(&pair, 0, 0, Lengths { flow, ..full }, 1).answer;
            let short = (21, needed as u32);
            let due = if flow < needed { short } else { (0, 0) };
            assert_eq!((answer.number, answer.needed), due);
        }
    }
}

#[test]
fn sets_of_either_word() {
    // The first table has more weight on each member of a set. The members
    // are told apart from the other targets, and not from those states that
    // the second table lists with weight 0.
    let mut random = Random::new(93);
    let mut larger = 0;
    for round in 0..60 {
        let states = [4, 64, 65, 66, 100, 128][round % 6];
        // Each state is a member, a target, or of weight 0; and none of the
        // three is missing.
        let mut kinds: Vec<usize> = (1..states).map(|_| random.below(3)).collect();
        (0..3).for_each(|kind| kinds[kind] = kind);
        let count = |kind| kinds.iter().filter(|&&other| other == kind).count();
        let (members, others) = (count(0), count(1));
        let weights = |by: [u16; 3]| kinds.iter().map(|&kind| by[kind]).collect::<Vec<_>>();
        let first = make::flags(&weights([5, 3, 0]));
        let tables = (first, make::flags(&weights([1, 1, 0])));
        let mut pair = pair(4, &tables);
        let length = 4 + 4 * (members + others) + 7 * members * others;
        let [_, wrong] = pair.wrong_trees(&tables);
        larger += (wrong.length(0, 0) as usize > length) as usize;
        for tables in ways(&tables) {
            pair.hand(&tables);
            let full = pair.lengths(0, 0);
            let judged = check(&pair, 0, 0, full, round as u64);
            assert_eq!((judged.answer.rank, judged.tree.len()), (2, length));
            assert_eq!(judged.tree[3] as usize, members + others);
            let tree = length - 1;
            let short = check(&pair, 0, 0, Lengths { tree, ..full }, 1).answer;
            assert_eq!(short, Answer::refusal(22, 0, length as u32));
        }
    }
    assert_eq!(larger, 60);
}

/// What calls for pairs of states came to.
#[derive(Debug, Default)]
struct Seen {
    kept: usize,
    fallen: usize,
    /// Trees that are too long.
    too_long: usize,
    /// Kept pairs whose first state lists a weight of 0, and those whose
    /// second state does.
    flows: [usize; 2],
    /// Trees that would have more children if a state with a weight of 0 were
    /// a target, and those that would have larger sets.
    trees: [usize; 2],
}

/// Calls for a pair of states with just enough room, and with a byte too
/// little for what is shown. Left out are the length of a flow, which is free,
/// and that of its buffer, which the entries of weight 0 make longer.
fn calls(pair: &Pair, (s, t): (usize, usize)) -> ([Answer; 2], Vec<u8>) {
    let salt = (STATES * s + t) as u64;
    let full = pair.lengths(s, t);
    let mut judged = check(pair, s, t, full, salt);
    let less = Lengths {
        flow: full.flow - 1,
        tree: full.tree.saturating_sub(1),
        ..full
    };
    let mut short = check(pair, s, t, less, salt).answer;
    if pair.rank(s, t) == 0 {
        assert_eq!((short.number, short.needed as usize), (21, full.flow));
        short.needed = 0;
        judged.answer.written = 0;
    }
    ([judged.answer, short], judged.tree)
}

/// Whether a state lists a weight of 0.
fn lists_zero(steps: &[Transition]) -> bool {
    let mut entries = steps.iter().flat_map(|step| &step.entries);
    entries.any(|entry| entry.1 == 0)
}

impl Seen {
    /// Judges calls for pairs of states. With the entries of weight 0 dropped
    /// on one side or on both they come to the same.
    fn judge(&mut self, subsets: usize, tables: &(Table, Table), chosen: &[(usize, usize)]) {
        let mut pair = pair(subsets, tables);
        let [due, others @ ..] = ways(tables).map(|tables| -> Vec<_> {
            pair.hand(&tables);
            chosen.iter().map(|&at| calls(&pair, at)).collect()
        });
        assert!(others.iter().all(|other| *other == due), "{tables:?}");
        let wrong = pair.wrong_trees(tables);
        for &(s, t) in chosen {
            if pair.rank(s, t) == 0 {
                self.kept += 1;
                self.flows[0] += lists_zero(&tables.0.states[s]) as usize;
                self.flows[1] += lists_zero(&tables.1.states[t]) as usize;
                continue;
            }
            let length = pair.trees.length(s, t);
            self.fallen += 1;
            self.too_long += (length > LONGEST) as usize;
            for (count, wrong) in self.trees.iter_mut().zip(&wrong) {
                *count += (wrong.length(s, t) > length) as usize;
            }
        }
    }

    /// Says what was seen, which must be more than so many of each kind.
    fn above(&self, least: usize) {
        println!("{self:?}");
        let counts = [&[self.kept, self.fallen][..], &self.flows, &self.trees];
        assert!(counts.concat().iter().all(|&count| count > least));
    }
}

/// The tables with some entries of weight 0 more on each side, or none.
fn sprinkled(random: &mut Random, (first, second): (Table, Table)) -> (Table, Table) {
    let mut more = |table: Table| {
        let count = random.below(2 * table.entries() + 3);
        make::sprinkled(random, &table, count)
    };
    (more(first), more(second))
}

#[test]
fn small_tables() {
    let mut random = Random::new(94);
    let mut seen = Seen::default();
    for round in 0..2_000 {
        let tables = alike::small(&mut random, round % 8);
        let tables = sprinkled(&mut random, tables);
        let chosen = alike::chosen(&mut random, &tables, 16);
        seen.judge(SUBSETS, &tables, &chosen);
    }
    seen.above(2_000);
}

/// A table most of whose entries have weight 0, and one that is nearly the
/// same.
fn emptied(random: &mut Random, table: &Table, edits: usize) -> (Table, Table) {
    let first = make::emptied(random, table, 3);
    let second = make::edited(random, &first, edits, 2);
    (first, second)
}

#[test]
fn wide_tables() {
    // Up to 13 entries to a transition, all subsets tried. An edit may give
    // weight to an entry that had none.
    let mut random = Random::new(95);
    let mut seen = Seen::default();
    for round in 0..300 {
        let shape = Shape {
            states: 13,
            codes: 2,
            steps: 2,
            width: 13,
            weight: [1, 4, 5_000][round % 3],
        };
        let table = make::random(&mut random, shape);
        let tables = emptied(&mut random, &table, 1 + round % 4);
        let chosen = alike::chosen(&mut random, &tables, 24);
        seen.judge(SUBSETS, &tables, &chosen);
    }
    seen.above(500);
}

#[test]
fn large_tables() {
    let mut random = Random::new(96);
    let mut seen = Seen::default();
    deep(|| {
        for round in 0..100 {
            let tables = alike::large(&mut random, round % 4);
            let tables = sprinkled(&mut random, tables);
            let chosen = alike::chosen(&mut random, &tables, 8);
            seen.judge(4, &tables, &chosen);
        }
    });
    seen.above(80);
}

#[test]
fn limits() {
    // 512 entries, all totals 65,535.
    let mut random = Random::new(97);
    let mut seen = Seen::default();
    for round in 0..60 {
        let (states, codes) = ([WORD, STATES][round / 3 % 2], [1, 2, 6][round % 3]);
        let table = make::sized(&mut random, states, codes, round % 4 == 0);
        let tables = emptied(&mut random, &table, round % 5);
        assert_eq!(tables.0.entries(), ENTRIES);
        let chosen = alike::chosen(&mut random, &tables, 10);
        deep(|| seen.judge(0, &tables, &chosen));
    }
    seen.above(80);
}

#[test]
fn deep_trees() {
    let mut random = Random::new(98);
    let mut seen = Seen::default();
    let cases = [
        make::chain(STATES),
        make::cycles(31, 32),
        make::counter(WORD),
        make::comb(make::cycles(23, 24), (1, 1), (2, 1)),
        make::layered(&[1, 6, 6, 6, 6, 7]),
    ];
    for (first, second) in cases {
        let [first, second] =
            [first, second].map(|table| make::sprinkled(&mut random, &table, ENTRIES));
        let tables = (first, second);
        let mut chosen = alike::chosen(&mut random, &tables, 30);
        chosen[0] = (0, 0);
        deep(|| seen.judge(0, &tables, &chosen));
    }
    seen.above(5);
    assert!(seen.trees.iter().all(|&count| count > 80) && seen.too_long > 5);
}

#[test]
fn widened_then_checked() {
    let (answer, wide) = widen(&OLD_ZEROS_P, 38, 1);
    assert_eq!((answer.written, &wide[..]), (38, &ZEROS_P[..]));
    let (short, _) = widen(&OLD_ZEROS_P, 37, 1);
    assert_eq!(short, Answer::refusal(27, 0, 38));
    let mut random = Random::new(99);
    let (mut kept, mut fallen) = (0, 0);
    for round in 0..2_000 {
        let tables = alike::small(&mut random, round % 8);
        let tables = sprinkled(&mut random, tables);
        let [first, second] = [&tables.0, &tables.1].map(|table| {
            let (_, wide) = widen(&table.bytes_at(NARROW), largest(WIDE), round as u64);
            assert_eq!(parse(&wide).as_ref(), Ok(table));
            wide
        });
        let chosen = alike::chosen(&mut random, &tables, 8);
        let pair = Pair::in_bytes(SUBSETS, (first, second), tables.clone());
        for (s, t) in chosen {
            let judged = check(&pair, s, t, pair.lengths(s, t), round as u64);
            let zeros = lists_zero(&tables.0.states[s]) && lists_zero(&tables.1.states[t]);
            match judged.answer.rank {
                0 => kept += zeros as usize,
                _ => fallen += zeros as usize,
            }
        }
    }
    println!("{kept} kept, {fallen} fallen");
    assert!(kept > 800 && fallen > 1_000);
}

#[test]
fn damaged() {
    let mut random = Random::new(100);
    for width in [NARROW, WIDE] {
        let mut seen = [0; 11];
        let mut zeros = 0;
        for round in 0..50_000 {
            let table = spoil::sound(&mut random, width);
            let count = random.below(table.entries() + 3);
            let table = make::sprinkled(&mut random, &table, count);
            let bytes = spoil::broken(&mut random, width, table);
            let answer = match width {
                NARROW => widen(&bytes, largest(WIDE), round).0,
                _ => check_table(&bytes, round),
            };
            match parse_at(width, &bytes) {
                Ok(table) => {
                    assert_eq!(table.bytes_at(width), bytes);
                    assert_eq!(answer.number, 0, "{bytes:02x?}");
                    zeros += (table != table.supported()) as usize;
                }
                Err(due) => assert_eq!(answer, Answer::refusal(due, 1, 0), "{bytes:02x?}"),
            }
            seen[answer.number as usize] += 1;
        }
        println!("by number, accepted first: {seen:?}, {zeros} of them with zeros");
        assert!(seen.iter().all(|&count| count > 300) && zeros > 3_000);
    }
}
