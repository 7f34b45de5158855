//! Tables with faults, made at random: in what they hold, or in bytes.

use crate::make::{self, Shape};
use crate::random::Random;
use crate::table::{most_codes, Table, Transition, STATES, TRANSITIONS, WORD};

/// Bytes of a random table in the layout of that width, with some faults or
/// none.
pub fn faulty(random: &mut Random, width: usize) -> Vec<u8> {
    let table = sound(random, width);
    broken(random, width, table)
}

/// A random table for the layout of that width, now and then a large one.
pub fn sound(random: &mut Random, width: usize) -> Table {
    let shape = Shape {
        states: random.between(1, 9),
        codes: random.between(1, 4),
        steps: 3,
        width: 4,
        weight: [3, 300, 16_000][random.below(3)],
    };
    let table = match random.below(500) {
        0 => make::limit(random, 4, false),
        1 => make::limit(random, 4, true),
        2 => make::sized(random, WORD, 4, true),
        _ => make::random(random, shape),
    };
    match random.once_in(16) {
        true => make::listing_more(random, width, table),
        false => table,
    }
}

/// The bytes of a table, with some faults or none.
pub fn broken(random: &mut Random, width: usize, mut table: Table) -> Vec<u8> {
    let kind = random.below(5);
    for _ in 0..random.below(3) * (kind > 1) as usize {
        spoil(random, width, &mut table);
    }
    let mut bytes = table.bytes_at(width);
    for _ in 0..random.below(3) * (kind < 3) as usize {
        damage(random, &mut bytes);
    }
    bytes
}

/// Breaks a rule, or only nearly.
fn spoil(random: &mut Random, width: usize, table: &mut Table) {
    let s = random.below(table.states.len());
    let states = table.states.len();
    match random.below(10) {
        0 => {
            let count = table.codes.len();
            if count > 1 {
                let k = random.below(count - 1);
                match random.once_in(2) {
                    true => table.codes.swap(k, k + 1),
                    false => table.codes[k] = table.codes[k + 1],
                }
            }
        }
        1 => drop(table.codes.pop()),
        2 => {
            let more = random
                .between(STATES - 4, STATES + 2)
                .saturating_sub(states);
            (0..more).for_each(|_| table.states.push(Vec::new()));
        }
        3 => {
            // Half of the limit each, now and then in one state.
            let code = table.codes.first().copied().unwrap_or(0);
            for s in [s, random.below(states)] {
                let more = random.between(TRANSITIONS / 2 - 8, TRANSITIONS / 2 + 2);
                table.states[s].extend(vec![make::to(code, 0); more]);
            }
        }
        4 => {
            // As many codes as can be listed, or a few more or fewer.
            let count = most_codes(width) + random.below(5) - 2;
            table.codes.extend(0..count as u16);
            table.codes.sort();
            table.codes.dedup();
            table.codes.truncate(count);
        }
        _ if table.states[s].is_empty() => {
            let code = random.byte().into();
            table.states[s].push(make::to(code, 0));
        }
        _ => {
            let k = random.below(table.states[s].len());
            spoil_step(random, width, states, &mut table.states[s][k]);
        }
    }
}

/// The same for a transition of a table of so many states.
fn spoil_step(random: &mut Random, width: usize, states: usize, step: &mut Transition) {
    let (kind, count) = (random.below(8), step.entries.len());
    match kind {
        0 => step.entries.clear(),
        1 => {
            let (state, weight) = (random.below(states + 2), random.below(2));
            step.entries.push((state as u8, weight as u16));
        }
        2 => step.code ^= 1 << random.below(8 * width),
        _ if count == 0 => {}
        3 | 4 => step.entries[random.below(count)].1 = 0,
        5 => step.entries.iter_mut().for_each(|entry| entry.1 = 0),
        _ => step.entries[random.below(count)].1 = random.between(65_530, 65_535) as u16,
    }
}

/// Changes bytes without a thought for what they mean.
fn damage(random: &mut Random, bytes: &mut Vec<u8>) {
    let at = random.below(bytes.len().max(1));
    match random.below(8) {
        0 => bytes.truncate(at),
        1 => bytes.push(random.byte()),
        2 => bytes.insert(at, random.byte()),
        _ if bytes.is_empty() => {}
        3 => drop(bytes.remove(at)),
        4 => bytes[at] = random.byte(),
        5 => bytes[at] = bytes[at].wrapping_add(1),
        6 => bytes[at] = bytes[at].wrapping_sub(1),
        _ => bytes.swap(at, 0),
    }
}
