//! Whether the flows of a kept pair are right, whatever their amounts.

use crate::ranks::{between, fit_steps, weights, Relation};
use crate::table::{has, Set, Table, Transition};

/// The length that the flow buffer must have for a state of the first table,
/// whose entries of weight 0 count too.
pub fn needed(first: &Table, second: &Table, s: usize) -> u32 {
    let steps = &first.states[s];
    let room = |m: &Transition| 3 + 6 * m.entries.len() * second.states.len();
    1 + steps.iter().map(room).sum::<usize>() as u32
}

/// The place of an added transition. No state lists enough to have one there.
const ADDED: u8 = u8::MAX;

fn rule(holds: bool, words: &str) -> Result<(), String> {
    if holds {
        Ok(())
    } else {
        Err(words.to_string())
    }
}

fn take<const N: usize>(bytes: &mut &[u8]) -> Result<[u8; N], String> {
    let (taken, rest) = bytes.split_first_chunk().ok_or("flow ends early")?;
    *bytes = rest;
    Ok(*taken)
}

/// Says what is wrong with the flows of (s, t), or how many targets of s
/// are shared out over more than one. The second table is the completed one.
pub fn judge(
    subsets: usize,
    first: &Table,
    contract: &Table,
    kept: &Relation,
    (s, t): (usize, usize),
    mut bytes: &[u8],
) -> Result<usize, String> {
    let (ms, ns) = (&first.states[s], &contract.states[t]);
    let [count] = take(&mut bytes)?;
    rule(count as usize == ms.len(), "count of transitions")?;
    let mut split = 0;
    for m in ms {
        let [place] = take(&mut bytes)?;
        let fits = |n: &Transition| n.code == m.code && fit_steps(subsets, kept, m, n).fits();
        let partner = ns.iter().position(fits).ok_or("no partner")?;
        let due = match contract.codes.contains(&m.code) {
            true => partner,
            false => ADDED as usize,
        };
        rule(place as usize == due, "place")?;
        let count = u16::from_le_bytes(take(&mut bytes)?);
        let mut records = Vec::new();
        for _ in 0..count {
            let [from, to] = take(&mut bytes)?;
            records.push((from, to, u32::from_le_bytes(take(&mut bytes)?)));
        }
        split += shares(kept, m, &ns[partner], &records)?;
    }
    rule(bytes.is_empty(), "bytes after the flows")?;
    Ok(split)
}

/// Holds the records of one transition against the definition of fitting.
fn shares(
    kept: &Relation,
    m: &Transition,
    n: &Transition,
    records: &[(u8, u8, u32)],
) -> Result<usize, String> {
    let in_order = |two: &[(u8, u8, u32)]| (two[0].0, two[0].1) < (two[1].0, two[1].1);
    rule(records.windows(2).all(in_order), "order of records")?;
    for &(from, to, amount) in records {
        rule(amount > 0, "amount of zero")?;
        let known = |step: &Transition, state| step.entries.iter().any(|entry| entry.0 == state);
        rule(known(m, from) && known(n, to), "record of no target")?;
        rule(has(kept[from as usize], to as usize), "pair not kept")?;
    }
    let mut split = 0;
    for &(state, weight) in &m.entries {
        let sent = records.iter().filter(|record| record.0 == state);
        split += (sent.clone().count() > 1) as usize;
        let sent: u64 = sent.map(|record| record.2 as u64).sum();
        rule(sent == weight as u64 * n.total(), "sent out")?;
    }
    for &(state, weight) in &n.entries {
        let taken = records.iter().filter(|record| record.1 == state);
        let taken: u64 = taken.map(|record| record.2 as u64).sum();
        rule(taken == weight as u64 * m.total(), "taken in")?;
    }
    Ok(split)
}

/// Whether no flow of (s, t) sends each target's weight whole to one other.
/// Transitions of more than 8 entries are not looked at.
pub fn must_split(
    subsets: usize,
    first: &Table,
    contract: &Table,
    kept: &Relation,
    (s, t): (usize, usize),
) -> bool {
    let ns = &contract.states[t];
    let narrow = |m: &&Transition| m.entries.len() <= 8;
    first.states[s].iter().filter(narrow).any(|m| {
        let mut fits = ns
            .iter()
            .filter(|n| n.code == m.code && fit_steps(subsets, kept, m, n).fits());
        let n = fits.next().unwrap();
        let mut room: Vec<u64> = weights(n).iter().map(|w| w * m.total()).collect();
        !whole(&weights(m), n.total(), &between(kept, m, n), &mut room)
    })
}

/// Tries to place the weights, each in a room that is large enough.
fn whole(m: &[u64], scale: u64, related: &[Set], room: &mut [u64]) -> bool {
    let Some((weight, rest)) = m.split_first() else {
        return true;
    };
    (0..room.len()).any(|j| {
        if !has(related[0], j) || room[j] < weight * scale {
            return false;
        }
        room[j] -= weight * scale;
        let placed = whole(rest, scale, &related[1..], room);
        room[j] += weight * scale;
        placed
    })
}
