//! Tables that are made to be hard for the check: rounds that each put many
//! wide steps in doubt, trees that meet one pair thousands of times.

use crate::make;
use crate::random::Random;
use crate::table::{Table, Transition, ENTRIES};

/// A table of so many states and a near copy. There are `steps` transitions by
/// one code with 512 entries in all; only the first `busy` states have any.
pub fn near_copy(seed: u64, states: usize, steps: usize, busy: usize) -> (Table, Table) {
    let mut random = Random::new(seed);
    let mut list = vec![Vec::new(); states];
    for k in 0..steps {
        let width = ENTRIES * (k + 1) / steps - ENTRIES * k / steps;
        let targets = make::targets(&mut random, states, width);
        let weights = make::weights(&mut random, width, 65_000);
        let entries = targets.into_iter().zip(weights).collect();
        let state = if k < busy { k } else { random.below(busy) };
        list[state].push(Transition { code: 10, entries });
    }
    let first = Table::new(list);
    let second = make::edited(&mut random, &first, 3, 1);
    (first, second)
}

/// The table behind so many starts, each with one step to `width` of its
/// states, which weigh the same but for a few percent.
fn watched_by(random: &mut Random, table: &Table, starts: usize, width: usize) -> Table {
    let states = table.states.len();
    let mut list = table.states.clone();
    for entry in list.iter_mut().flatten().flat_map(|step| &mut step.entries) {
        entry.0 += starts as u8;
    }
    let weight = 60_000 / width;
    let mut start = || {
        let targets = make::targets(random, states, width);
        let entry = |target| {
            let less = random.below(weight / 20 + 1);
            (target + starts as u8, (weight - less) as u16)
        };
        let entries = targets.into_iter().map(entry).collect();
        vec![Transition { code: 30, entries }]
    };
    let mut all: Vec<_> = (0..starts).map(|_| start()).collect();
    all.append(&mut list);
    Table::new(all)
}

/// A counter of n states, each of whose n² rounds takes one pair away, and as
/// many starts as there is room for that look at `width` states of it. With
/// all n of them every pair of starts is in doubt in every round until the
/// last ones, and as the second counter's states are numbered in another order,
/// only a flow can tell that they still fit.
pub fn many_flows(seed: u64, n: usize, width: usize, states: usize) -> (Table, Table) {
    let mut random = Random::new(seed);
    let (first, second) = make::counter(n);
    let second = make::shuffled(&mut random, &second);
    let room = |table: &Table| ((ENTRIES - table.entries()) / width).min(states - n);
    let (p, q) = (room(&first), room(&second));
    let first = watched_by(&mut random, &first, p, width);
    let second = watched_by(&mut random, &second, q, width);
    (make::padded(first, states), make::padded(second, states))
}

/// A step by code 10.
fn step(entries: &[(usize, usize)]) -> Transition {
    let entry = |&(state, weight): &(usize, usize)| (state as u8, weight as u16);
    Transition {
        code: 10,
        entries: entries.iter().map(entry).collect(),
    }
}

/// The tree of the starts meets one pair so many times, as a power of 2, whose
/// second state has as many like-coded steps as there is room for, each to the
/// same `width` states. A line of states in the first table leads to the pair's
/// first state, layers of two states in the second to the other, and each layer
/// doubles.
pub fn echoes(doublings: usize, width: usize, before: usize, states: usize) -> (Table, Table) {
    let first = Table::new(echoes_first(doublings, before));
    let second = Table::new(echoes_second(doublings, width, states));
    (make::padded(first, states), make::padded(second, states))
}

/// Of the steps of the last in line so many fit the last of the like-coded
/// steps and no other; the one after them fits none.
fn echoes_first(doublings: usize, before: usize) -> Vec<Vec<Transition>> {
    let last = doublings + 1;
    let mut list: Vec<_> = (0..last).map(|i| vec![make::to(10, i + 1)]).collect();
    let (u, v, end) = (last + 1, last + 2, last + 3);
    let fitting = |k: usize| step(&[(u, 3_500 - k), (v, 6_500 + k)]);
    let mut steps: Vec<_> = (0..before).map(fitting).collect();
    steps.push(step(&[(u, 3), (v, 1)]));
    list.push(steps);
    list.extend([vec![make::to(20, end)], vec![make::to(21, end)], Vec::new()]);
    list
}

/// Of the targets of the like-coded steps only u can take the first and only v
/// the last.
fn echoes_second(doublings: usize, width: usize, states: usize) -> Vec<Vec<Transition>> {
    let last = 2 * doublings + 1;
    let mut list = vec![vec![make::to(10, 1), make::to(10, 2)]];
    for i in 1..last {
        let next = i + 2 - (i + 1) % 2;
        list.push(match next < last {
            true => vec![make::to(10, next), make::to(10, next + 1)],
            false => vec![make::to(10, last)],
        });
    }
    let used = list.iter().flatten().count() + 2 * width;
    let count = (2 * states - used).min((ENTRIES - used) / width);
    let partner = |k: usize| {
        let low = if k + 1 < count { 4_000 + k } else { 3_000 };
        let mut entries = vec![(last + 1, low)];
        let middle = (7_000 - low) / (width - 2).max(1);
        entries.extend((2..width).map(|i| (last + i, middle)));
        let sum: usize = entries.iter().map(|entry| entry.1).sum();
        entries.push((last + width, 10_000 - sum));
        step(&entries)
    };
    list.push((0..count).map(partner).collect());
    let end = last + width + 1;
    for i in 1..=width {
        let codes = [(20, i < width), (21, i > 1)];
        let codes = codes.into_iter().filter(|code| code.1);
        list.push(codes.map(|(code, _)| make::to(code, end)).collect());
    }
    list.push(Vec::new());
    list
}

/// State i of n in the first table is related to states i and i + 1 of n + 1 in
/// the second, which are numbered from the other end, and as many starts as
/// there is room for step to all of them. What is sent to the first state that
/// will do must be sent on along the whole line. Their own steps lead to state
/// 1, which is related to no state 1, so that they all fall in round 2 and the
/// starts are looked at twice.
pub fn bands(seed: u64, n: usize, states: usize) -> (Table, Table) {
    let mut random = Random::new(seed);
    let own = |i: usize| make::to(100 + i as u16, 1);
    let mut first = vec![Vec::new()];
    first.extend((0..n).map(|i| vec![own(i)]));
    let mut second = vec![Vec::new(); n + 2];
    for i in 0..n {
        second[n + 1 - i].push(own(i));
        second[n - i].push(own(i));
    }
    let (p, q) = ((ENTRIES - n) / n, (ENTRIES - 2 * n) / (n + 1));
    let unit = 40_000 / n;
    let mut weight = || unit - random.below(unit / 20 + 1);
    for _ in 0..p.min(states - first.len()) {
        let entries = (1..=n as u8).map(|i| (i, weight() as u16)).collect();
        first.push(vec![Transition { code: 30, entries }]);
    }
    for _ in 0..q.min(states - second.len()) {
        let mut sums = vec![0; n + 2];
        for i in 1..=n {
            let half = weight() / 2;
            sums[i] += half;
            sums[i + 1] += half;
        }
        let entries = (1..=n + 1).map(|i| (i as u8, sums[i] as u16)).collect();
        second.push(vec![Transition { code: 30, entries }]);
    }
    let last = |list: Vec<_>| (list.len() - 1, Table::new(list));
    let [first, second] = [last(first), last(second)].map(|(start, table)| {
        let table = make::started(&table, start);
        make::padded(table, states)
    });
    (first, second)
}
