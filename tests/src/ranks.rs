//! Rounds, one after the other, and the ranks they give.

use crate::fit::{fit, Fit};
use crate::table::{below, has, members, Set, Table, Transition};

/// A relation between the states of two tables: t is in the set of s.
pub type Relation = Vec<Set>;

pub struct Ranking {
    /// The relation of every round up to the first that drops nothing.
    pub relations: Vec<Relation>,
    /// The rank of (s, t) stands at s × states of the second + t.
    pub ranks: Vec<u16>,
    pub kept: u32,
}

impl Ranking {
    /// The largest rank.
    pub fn rounds(&self) -> u32 {
        self.ranks.iter().copied().max().unwrap_or(0) as u32
    }

    /// The relation of kept pairs.
    pub fn last(&self) -> &Relation {
        self.relations.last().unwrap()
    }
}

pub fn weights(step: &Transition) -> Vec<u64> {
    step.entries.iter().map(|entry| entry.1 as u64).collect()
}

/// The relation on places of two transitions that one on states gives.
pub fn between(relation: &Relation, m: &Transition, n: &Transition) -> Vec<Set> {
    let row = |s: u8| {
        let related = |j: &usize| has(relation[s as usize], n.entries[*j].0 as usize);
        (0..n.entries.len())
            .filter(related)
            .fold(0, |row, j| row | 1 << j)
    };
    m.entries.iter().map(|entry| row(entry.0)).collect()
}

/// How m fits n in a relation; codes are not looked at.
pub fn fit_steps(subsets: usize, relation: &Relation, m: &Transition, n: &Transition) -> Fit {
    fit(subsets, &weights(m), &weights(n), &between(relation, m, n))
}

/// Whether m fits some transition of the same code.
pub fn fits_some(subsets: usize, relation: &Relation, m: &Transition, ns: &[Transition]) -> bool {
    ns.iter()
        .any(|n| n.code == m.code && fit_steps(subsets, relation, m, n).fits())
}

/// The targets of a state.
fn targets(steps: &[Transition]) -> Set {
    let entries = steps.iter().flat_map(|step| &step.entries);
    entries.fold(0, |set, entry| set | 1 << entry.0)
}

/// Goes through the rounds until one drops nothing. A pair is looked at
/// again only if the round before dropped a pair of targets of the two: its
/// transitions fit as they did otherwise.
pub fn rank(subsets: usize, first: &Table, second: &Table) -> Ranking {
    let width = second.states.len();
    let [reaches, reached] = [first, second].map(|table| -> Vec<Set> {
        let states = table.states.iter();
        states.map(|steps| targets(steps)).collect()
    });
    let mut relations = vec![vec![below(width); first.states.len()]];
    let mut ranks = vec![0; first.states.len() * width];
    // What the round before dropped; the first round looks at all pairs.
    let mut dropped = vec![0; first.states.len()];
    loop {
        let round = relations.len();
        let before = &relations[round - 1];
        let mut after = before.clone();
        for (s, ms) in first.states.iter().enumerate() {
            let gone = members(reaches[s]).fold(0, |gone, to| gone | dropped[to]);
            if round > 1 && gone == 0 {
                continue;
            }
            for t in members(before[s]) {
                let ns = &second.states[t];
                let again = round == 1 || gone & reached[t] != 0;
                if again && !ms.iter().all(|m| fits_some(subsets, before, m, ns)) {
                    after[s] &= !(1 << t);
                    ranks[s * width + t] = round as u16;
                }
            }
        }
        if after == *before {
            break;
        }
        dropped = before.iter().zip(&after).map(|(b, a)| b & !a).collect();
        relations.push(after);
    }
    let kept = relations.last().unwrap();
    let kept = kept.iter().map(|row| row.count_ones()).sum();
    Ranking {
        relations,
        ranks,
        kept,
    }
}
