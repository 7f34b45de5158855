//! Tables made at random, and tables made for a purpose.

use crate::random::Random;
use crate::table::{
    most_codes, top, Table, Transition, ENTRIES, STATES, STEPS, TOTAL, TRANSITIONS,
};

/// Bounds for a random table.
#[derive(Clone, Copy)]
pub struct Shape {
    pub states: usize,
    pub codes: usize,
    /// Transitions of a state, at most.
    pub steps: usize,
    /// Entries of a transition, at most.
    pub width: usize,
    pub weight: usize,
}

/// The codes of the tables made here: 25 of them have one byte.
fn code(number: usize) -> u16 {
    (10 * (number + 1)) as u16
}

/// A transition to one state.
pub fn to(code: u16, state: usize) -> Transition {
    Transition {
        code,
        entries: vec![(state as u8, 1)],
    }
}

/// A table of so many states whose start has one transition, with these
/// entries.
pub fn one_step(states: usize, entries: Vec<(u8, u16)>) -> Table {
    let start = vec![Transition { code: 1, entries }];
    padded(Table::new(vec![start]), states)
}

/// The same with these weights, and with as many states.
pub fn weighing(weights: &[u16]) -> Table {
    one_step(weights.len(), (0..).zip(weights.iter().copied()).collect())
}

/// A table of so many entries, four or fewer to a transition.
pub fn full(entries: usize) -> Table {
    let mut states = vec![Vec::new(); STATES];
    for i in 0..entries.div_ceil(4) {
        let width = (entries - 4 * i).min(4) as u8;
        let entries = (0..width).map(|target| (target, 1)).collect();
        states[i % STATES].push(Transition { code: 1, entries });
    }
    Table::new(states)
}

/// So many of a list, in any order.
fn some<T>(random: &mut Random, mut list: Vec<T>, count: usize) -> Vec<T> {
    for i in 0..count {
        let j = random.between(i, list.len() - 1);
        list.swap(i, j);
    }
    list.truncate(count);
    list
}

pub fn targets(random: &mut Random, states: usize, count: usize) -> Vec<u8> {
    let mut targets = some(random, (0..states as u8).collect(), count);
    targets.sort();
    targets
}

fn random_step(random: &mut Random, shape: Shape, states: usize) -> Transition {
    let count = random.between(1, shape.width.min(states));
    let targets = targets(random, states, count);
    let entry = |target| (target, random.between(1, shape.weight) as u16);
    let entries = targets.into_iter().map(entry).collect();
    Transition {
        code: code(random.below(shape.codes)),
        entries,
    }
}

/// Any table within the shape.
pub fn random(random: &mut Random, shape: Shape) -> Table {
    let states = random.between(1, shape.states);
    random_of(random, states, shape)
}

/// Any table of so many states, otherwise within the shape. Transitions
/// that are too much for a table are left out.
pub fn random_of(random: &mut Random, states: usize, shape: Shape) -> Table {
    let (mut transitions, mut entries) = (0, 0);
    let mut list = Vec::new();
    for _ in 0..states {
        let count = random.between(0, shape.steps);
        let mut steps: Vec<_> = (0..count)
            .map(|_| random_step(random, shape, states))
            .collect();
        steps.retain(|step| {
            let width = step.entries.len();
            let room = transitions < TRANSITIONS && entries + width <= ENTRIES;
            transitions += room as usize;
            entries += width * room as usize;
            room
        });
        list.push(steps);
    }
    Table::new(list)
}

/// A table that behaves the same and has so many states, no fewer: each new
/// one copies an old one, and a step leads to any copy of its target.
pub fn copied(random: &mut Random, table: &Table, states: usize) -> Table {
    let old = table.states.len();
    let mut list = table.states.clone();
    for s in old..states {
        list.push(table.states[s % old].clone());
    }
    for entry in list.iter_mut().flatten().flat_map(|step| &mut step.entries) {
        let copies = (states - 1 - entry.0 as usize) / old;
        entry.0 += (old * random.between(0, copies)) as u8;
    }
    for step in list.iter_mut().flatten() {
        step.entries.sort();
    }
    Table::new(list)
}

/// The table with its states numbered from `from` on, and a start that does
/// what the old start does. Numbers between them are left to `below`, a
/// table of no more states, whose start is gone.
pub fn raised(table: &Table, from: usize, below: &Table) -> Table {
    let mut raised = table.states.clone();
    for entry in raised
        .iter_mut()
        .flatten()
        .flat_map(|step| &mut step.entries)
    {
        entry.0 += from as u8;
    }
    let mut list = below.states.clone();
    list.resize(from, Vec::new());
    list[0] = raised[0].clone();
    list.extend(raised);
    Table::new(list)
}

/// The same table with more states, which can do nothing, up to a number.
pub fn padded(mut table: Table, states: usize) -> Table {
    table.states.resize(states, Vec::new());
    table
}

/// The same table with some codes listed that no transition uses, for a
/// layout of that width.
pub fn listing_more(random: &mut Random, width: usize, table: Table) -> Table {
    let more = random.between(0, most_codes(width) - table.codes.len());
    let code = |_| random.below(top(width) + 1) as u16;
    let more: Vec<u16> = (0..more).map(code).collect();
    listing(table, &more)
}

/// The same table with these codes in its list too.
pub fn listing(mut table: Table, codes: &[u16]) -> Table {
    table.codes.extend(codes);
    table.codes.sort();
    table.codes.dedup();
    table
}

/// The table without some codes: they are neither listed nor taken.
pub fn without(mut table: Table, codes: &[u16]) -> Table {
    table.codes.retain(|code| !codes.contains(code));
    for steps in &mut table.states {
        steps.retain(|step| !codes.contains(&step.code));
    }
    table
}

/// The table with a step more in most states, by one of these codes, as far
/// as there is room: two in three lead back to the state itself.
pub fn showing(random: &mut Random, table: &Table, codes: &[u16]) -> Table {
    let states = table.states.len();
    let shape = Shape {
        states,
        codes: 1,
        steps: 1,
        width: 3,
        weight: [1, 4, 20_000][random.below(3)],
    };
    let mut table = table.clone();
    for s in 0..states {
        let mut step = random_step(random, shape, states);
        if !random.once_in(3) {
            step.entries = vec![(s as u8, step.entries[0].1)];
        }
        step.code = codes[random.below(codes.len())];
        let entries = table.entries() + step.entries.len();
        let steps = table.states[s].len();
        let room = table.transitions() < TRANSITIONS && steps < STEPS && entries <= ENTRIES;
        if room && !random.once_in(4) {
            table.states[s].insert(random.between(0, steps), step);
        }
    }
    listing(Table::new(table.states), &table.codes)
}

/// The table with a door before each of its states, numbered after all of
/// them: each step leads to the doors of its targets, and a door opens by this
/// code. At most 64 states.
pub fn doors(table: &Table, code: u16) -> Table {
    let states = table.states.len();
    let mut list = table.states.clone();
    for entry in list.iter_mut().flatten().flat_map(|step| &mut step.entries) {
        entry.0 += states as u8;
    }
    list.extend((0..states).map(|s| vec![to(code, s)]));
    listing(Table::new(list), &table.codes)
}

/// The same table with up to so many entries of weight 0 more, for states
/// that a transition does not list, as far as there is room for them.
pub fn sprinkled(random: &mut Random, table: &Table, count: usize) -> Table {
    let mut table = table.clone();
    let room = ENTRIES - table.entries();
    let states = table.states.len() as u8;
    let mut steps: Vec<&mut Transition> = table.states.iter_mut().flatten().collect();
    let mut free = Vec::new();
    for (k, step) in steps.iter().enumerate() {
        let listed = |state: &u8| step.entries.iter().any(|entry| entry.0 == *state);
        let others = (0..states).filter(|state| !listed(state));
        free.extend(others.map(|state| (k, state)));
    }
    let count = count.min(room).min(free.len());
    for (k, state) in some(random, free, count) {
        steps[k].entries.push((state, 0));
    }
    steps.iter_mut().for_each(|step| step.entries.sort());
    table
}

/// A table with the same targets listed and the same totals, in which most
/// entries have weight 0: of each transition one stays with all that the
/// others lose, and of these each stays once in `n` times.
pub fn emptied(random: &mut Random, table: &Table, n: usize) -> Table {
    let mut table = table.clone();
    for step in table.states.iter_mut().flatten() {
        let stays = random.below(step.entries.len());
        for i in 0..step.entries.len() {
            if i != stays && !random.once_in(n) {
                step.entries[stays].1 += std::mem::take(&mut step.entries[i].1);
            }
        }
    }
    table
}

/// The table with other codes; unlike ones must stay unlike.
pub fn recoded(table: &Table, code: impl Fn(u16) -> u16) -> Table {
    let mut table = table.clone();
    for step in table.states.iter_mut().flatten() {
        step.code = code(step.code);
    }
    table.codes = table.codes.into_iter().map(code).collect();
    table.codes.sort();
    table
}

/// Renumbers the states, the start too.
pub fn shuffled(random: &mut Random, table: &Table) -> Table {
    let states = table.states.len();
    let place = some(random, (0..states).collect(), states);
    let mut list = vec![Vec::new(); states];
    for (s, steps) in table.states.iter().enumerate() {
        let mut steps = steps.clone();
        for step in &mut steps {
            for entry in &mut step.entries {
                entry.0 = place[entry.0 as usize] as u8;
            }
            step.entries.sort();
        }
        list[place[s]] = steps;
    }
    Table::new(list)
}

/// The table with the numbers of the start and of state s exchanged.
pub fn started(table: &Table, s: usize) -> Table {
    let mut list = table.states.clone();
    list.swap(0, s);
    for step in list.iter_mut().flatten() {
        for entry in &mut step.entries {
            entry.0 = match entry.0 as usize {
                0 => s as u8,
                target if target == s => 0,
                _ => entry.0,
            };
        }
        step.entries.sort();
    }
    Table::new(list)
}

/// Changes something small: a weight, a target, a code, the scale of a
/// transition, or the list of a state.
pub fn edit(random: &mut Random, table: &mut Table, codes: usize) {
    let states = table.states.len();
    let s = random.below(states);
    let room = table.transitions() < TRANSITIONS && table.states[s].len() < STEPS;
    let entries = table.entries();
    if table.states[s].is_empty() {
        if room && entries < ENTRIES {
            table.states[s].push(to(code(random.below(codes)), random.below(states)));
        }
    } else {
        let k = random.below(table.states[s].len());
        let i = random.below(table.states[s][k].entries.len());
        let step = &mut table.states[s][k];
        match random.below(9) {
            0..=2 => {
                let room = TOTAL - step.total() + step.entries[i].1 as u64;
                let weight = step.entries[i].1 as usize;
                let weight = random.between(1, weight + 2);
                step.entries[i].1 = weight.min(room as usize) as u16;
            }
            3 | 4 => {
                let target = random.below(states) as u8;
                if step.entries.iter().all(|entry| entry.0 != target) {
                    step.entries[i].0 = target;
                    step.entries.sort();
                }
            }
            5 => step.code = code(random.below(codes)),
            6 => {
                if 3 * step.total() <= TOTAL {
                    step.entries.iter_mut().for_each(|entry| entry.1 *= 3);
                }
            }
            7 => {
                table.states[s].remove(k);
            }
            _ => {
                let copy = step.clone();
                if room && entries + copy.entries.len() <= ENTRIES {
                    table.states[s].push(copy);
                }
            }
        }
    }
    *table = Table::new(std::mem::take(&mut table.states));
}

/// A table that some edits lead to.
pub fn edited(random: &mut Random, table: &Table, edits: usize, codes: usize) -> Table {
    let mut table = table.clone();
    for _ in 0..edits {
        edit(random, &mut table, codes);
    }
    table
}

/// A table that behaves the same, though some states are doubled and the
/// weight that led to one is shared out over both. Nothing if that is too
/// much for a table.
pub fn doubled(random: &mut Random, table: &Table) -> Option<Table> {
    let states = table.states.len();
    let mut copies: Vec<Vec<usize>> = (0..states).map(|s| vec![s]).collect();
    let mut next = states;
    for list in &mut copies {
        if random.once_in(2) {
            list.push(next);
            next += 1;
        }
    }
    let mut list = vec![Vec::new(); next];
    for (s, steps) in table.states.iter().enumerate() {
        for &copy in &copies[s] {
            list[copy] = steps
                .iter()
                .map(|step| shared(random, step, &copies))
                .collect();
        }
    }
    let table = Table::new(list);
    let narrow = |step: &Transition| step.total() <= TOTAL;
    let fits = next <= STATES && table.transitions() <= TRANSITIONS && table.entries() <= ENTRIES;
    (fits && table.states.iter().flatten().all(narrow)).then_some(table)
}

fn shared(random: &mut Random, step: &Transition, copies: &[Vec<usize>]) -> Transition {
    let scale = random.between(2, 4) as u16;
    let mut entries = Vec::new();
    for &(target, weight) in &step.entries {
        let weight = weight.saturating_mul(scale);
        match copies[target as usize][..] {
            [a, b] if weight > 1 && !random.once_in(4) => {
                let part = random.between(1, weight as usize - 1) as u16;
                entries.extend([(a as u8, part), (b as u8, weight - part)]);
            }
            ref all => entries.push((all[random.below(all.len())] as u8, weight)),
        }
    }
    entries.sort();
    Transition {
        code: step.code,
        entries,
    }
}

/// Two tables of these states. The second lists all codes of the first.
fn like_listed(first: Vec<Vec<Transition>>, second: Vec<Vec<Transition>>) -> (Table, Table) {
    let first = Table::new(first);
    let second = listing(Table::new(second), &first.codes);
    (first, second)
}

/// A ring of n states by one code.
fn ring(n: usize) -> Vec<Vec<Transition>> {
    (0..n).map(|i| vec![to(code(0), (i + 1) % n)]).collect()
}

/// Two cycles, of p and q states. The last state of the first has a step
/// that the last of the second lacks, so for coprime lengths the ranks go
/// up to p × q. That step leads to one more state, which can do nothing.
pub fn cycles(p: usize, q: usize) -> (Table, Table) {
    cycles_to(p, q, 1)
}

/// The same where that step leads to several states. For coprime lengths
/// the tree of the start states has 7 × p × q - 3 bytes and 4 for each.
pub fn cycles_to(p: usize, q: usize, ends: usize) -> (Table, Table) {
    let (mut first, mut second) = (ring(p), ring(q));
    first[p - 1].push(Transition {
        code: code(1),
        entries: (p..p + ends).map(|end| (end as u8, 1)).collect(),
    });
    first.resize(p + ends, Vec::new());
    for steps in &mut second[..q - 1] {
        steps.push(to(code(1), 0));
    }
    like_listed(first, second)
}

/// Two tables of n states each with ranks up to n². Both turn in a cycle of
/// n states, so the pairs fall in n orbits of n, each orbit set off by the
/// last pair of the one before: state 0 of the first steps to 1 by a second
/// code, which all states of the second but 0 take standing still. States
/// are then numbered so that the last pair is (0, 0).
pub fn counter(n: usize) -> (Table, Table) {
    let at = |i: usize| (i + n - 1) % n;
    let mut first = vec![Vec::new(); n];
    for i in 0..n {
        first[at(i)].push(to(code(0), at((i + 1) % n)));
    }
    first[at(0)].push(to(code(1), at(1 % n)));
    let mut second = ring(n);
    for (j, steps) in second.iter_mut().enumerate().skip(1) {
        steps.push(to(code(1), j));
    }
    like_listed(first, second)
}

/// Two chains by one code, the second a state shorter: the starts differ
/// only after all of it.
pub fn chain(n: usize) -> (Table, Table) {
    let chain = |n: usize| -> Vec<Vec<Transition>> {
        let step = |i| match i + 1 < n {
            true => vec![to(code(0), i + 1)],
            false => Vec::new(),
        };
        (0..n).map(step).collect()
    };
    like_listed(chain(n), chain(n - 1))
}

/// The table with more states, which can do nothing, some numbered below all
/// others and some above: every step by the first code leads to each of them
/// with weight 1, and with `weight` to its one target of before.
fn joined(table: Table, (below, above): (usize, usize), weight: u16) -> Table {
    let end = below + table.states.len();
    let mut list = vec![Vec::new(); end + above];
    for (s, mut steps) in table.states.into_iter().enumerate() {
        for step in &mut steps {
            step.entries
                .iter_mut()
                .for_each(|entry| entry.0 += below as u8);
            if step.code == code(0) {
                step.entries[0].1 = weight;
                let more = (0..below).chain(end..end + above);
                step.entries.extend(more.map(|state| (state as u8, 1)));
                step.entries.sort();
            }
        }
        list[below + s] = steps;
    }
    Table::new(list)
}

/// Chains, cycles or counters with the same ranks, whose trees are combs.
/// Each step has one deep child, after leaves.0 others without transitions
/// and before leaves.1 more; in its node the one deep transition is after
/// stuck.0 others and before stuck.1 more. Without leaves there can be no
/// stuck states: a leaf of the first table takes what leads to them.
pub fn comb(
    (first, second): (Table, Table),
    leaves: (usize, usize),
    stuck: (usize, usize),
) -> (Table, Table) {
    let weight = 300 * (stuck.0 + stuck.1).max(1) as u16;
    (joined(first, leaves, 300), joined(second, stuck, weight))
}

/// The code of a state that `flags` tells apart.
pub fn flag(state: usize) -> u16 {
    state as u16
}

/// State 0 steps by code 0 to all others, with these weights; each of them
/// has a code of its own, by which it stands still.
pub fn flags(weights: &[u16]) -> Table {
    let entries: Vec<(u8, u16)> = (1..).zip(weights.iter().copied()).collect();
    let mut states = vec![vec![Transition { code: 0, entries }]];
    states.extend((1..=weights.len()).map(|s| vec![to(flag(s), s)]));
    Table::new(states)
}

/// Layers of `width` states, each with a step to all states of the next,
/// against a chain that is a layer shorter: all children are deep.
pub fn fan(layers: usize, width: usize) -> (Table, Table) {
    let step = |s: usize| {
        let next = (s / width + 1) * width;
        Transition {
            code: code(0),
            entries: (next..next + width).map(|t| (t as u8, 1)).collect(),
        }
    };
    let mut first: Vec<_> = (0..(layers - 1) * width).map(|s| vec![step(s)]).collect();
    first.resize(layers * width, Vec::new());
    (Table::new(first), chain(layers).1)
}

/// One state that goes on for ever against layers whose states each have
/// so many like-coded steps: widths[k] is the number of states of layer k.
/// A step of a tree takes 7 bytes, so that of the start states has 1 + 7 ×
/// (1 + w1 + w1 w2 + ..) bytes.
pub fn layered(widths: &[usize]) -> (Table, Table) {
    let mut second = Vec::new();
    for (k, &width) in widths.iter().enumerate() {
        let next = second.len() + width;
        let count = widths.get(k + 1).copied().unwrap_or(0);
        let steps: Vec<Transition> = (0..count).map(|j| to(code(0), next + j)).collect();
        second.extend(vec![steps; width]);
    }
    (Table::new(vec![vec![to(code(0), 0)]]), Table::new(second))
}

/// One state with steps to itself against layers of states: each step has
/// several like-coded ones to tell apart, so trees grow with every layer.
pub fn layers(random: &mut Random, layers: usize, width: usize) -> (Table, Table) {
    let twin = random.once_in(2);
    let entries = match twin {
        true => vec![(0, 1), (1, random.between(1, 3) as u16)],
        false => vec![(0, 1)],
    };
    let step = Transition {
        code: code(0),
        entries,
    };
    let first = vec![vec![step]; 1 + twin as usize];
    let mut second = vec![Vec::new(); layers * width];
    for (at, steps) in second.iter_mut().enumerate().take((layers - 1) * width) {
        let next = (at / width + 1) * width;
        for j in 0..width {
            if random.once_in(8) && j > 0 {
                continue;
            }
            let mut step = to(code(0), next + j);
            if random.once_in(6) && j + 1 < width {
                step.entries.push(((next + j + 1) as u8, 1));
            }
            steps.push(step);
        }
    }
    (Table::new(first), Table::new(second))
}

/// Weights whose total is just `total`, none of them 0.
pub fn weights(random: &mut Random, count: usize, total: u64) -> Vec<u16> {
    let mut left = total as usize - count;
    let mut list = vec![1; count];
    for (i, weight) in list.iter_mut().enumerate() {
        let share = match i + 1 == count {
            true => left,
            false => random.below(2 * left / (count - i) + 1).min(left),
        };
        *weight += share as u16;
        left -= share;
    }
    list
}

/// A table at the limits: see `sized`.
pub fn limit(random: &mut Random, codes: usize, wide: bool) -> Table {
    sized(random, STATES, codes, wide)
}

/// A table of so many states, from 32 on, twice as many transitions and 512
/// entries, all totals 65,535. With `wide`, as many transitions as can lead to
/// all states. With one or two codes some states have no transition, for
/// otherwise nearly all pairs are kept.
pub fn sized(random: &mut Random, states: usize, codes: usize, wide: bool) -> Table {
    let transitions = (2 * states).min(TRANSITIONS);
    let even = ENTRIES / transitions;
    let mut widths = vec![if wide { 1 } else { even }; transitions];
    if wide {
        let most = (ENTRIES - transitions) / (states - 1);
        (0..most).for_each(|k| widths[2 * k] = states);
    }
    // What is left over goes to any transition with room.
    while widths.iter().sum::<usize>() < ENTRIES {
        let k = random.below(transitions);
        widths[k] += (widths[k] < states) as usize;
    }
    if !wide {
        for _ in 0..transitions {
            let (j, k) = (random.below(transitions), random.below(transitions));
            if j != k && widths[j] > 1 && widths[k] < states {
                widths[j] -= 1;
                widths[k] += 1;
            }
        }
    }
    let mut list = vec![Vec::new(); states];
    for (k, width) in widths.into_iter().enumerate() {
        let targets = targets(random, states, width);
        let weights = weights(random, width, TOTAL);
        let state = match codes {
            1 | 2 => random.below(states),
            _ => k / 2,
        };
        list[state].push(Transition {
            code: code(random.below(codes)),
            entries: targets.into_iter().zip(weights).collect(),
        });
    }
    Table::new(list)
}
