//! The tree of a pair: its length, its bytes, and a follower that replays
//! bytes on a table.

use crate::fit::fit;
use crate::ranks::{fit_steps, fits_some, weights, Ranking, Relation};
use crate::table::{below, field, members, Set, Table, Transition, WIDE};

/// The longest tree that is written.
pub const LONGEST: u64 = 65_535;

/// The transition that a node has for a member of its set.
struct Step {
    /// Its place in the state.
    place: usize,
    /// For each target the states it must be told apart from.
    sets: Vec<Set>,
}

/// The trees of all pairs of two tables.
pub struct Trees {
    first: Table,
    /// States of the second table.
    columns: usize,
    steps: Vec<Option<Step>>,
    /// Bytes of each pair's transition, no further than `u64` goes.
    lengths: Vec<u64>,
}

impl Trees {
    pub fn new(subsets: usize, first: &Table, second: &Table, ranking: &Ranking) -> Trees {
        let columns = second.states.len();
        let mut trees = Trees {
            first: first.clone(),
            columns,
            steps: ranking.ranks.iter().map(|_| None).collect(),
            lengths: vec![0; ranking.ranks.len()],
        };
        let mut pairs: Vec<usize> = (0..ranking.ranks.len()).collect();
        pairs.retain(|&pair| ranking.ranks[pair] > 0);
        pairs.sort_by_key(|&pair| ranking.ranks[pair]);
        for pair in pairs {
            let (s, t) = (pair / columns, pair % columns);
            let before = &ranking.relations[ranking.ranks[pair] as usize - 1];
            let step = step(subsets, before, &first.states[s], &second.states[t]);
            trees.lengths[pair] = trees.length_of(s, &step);
            trees.steps[pair] = Some(step);
        }
        trees
    }

    fn length_of(&self, s: usize, step: &Step) -> u64 {
        let m = &self.first.states[s][step.place];
        let mut length = WIDE as u64 + 1;
        for (&(state, _), &set) in m.entries.iter().zip(&step.sets) {
            length = length.saturating_add(4);
            for t in members(set) {
                let child = self.lengths[state as usize * self.columns + t];
                assert!(child > 0);
                length = length.saturating_add(child);
            }
        }
        length
    }

    /// The length of the tree of a pair that is not kept.
    pub fn length(&self, s: usize, t: usize) -> u64 {
        self.lengths[s * self.columns + t].saturating_add(1)
    }

    /// The bytes of the tree of a pair that is not kept.
    pub fn bytes(&self, s: usize, t: usize) -> Vec<u8> {
        assert!(self.length(s, t) <= LONGEST);
        self.bytes_at(WIDE, s, t)
    }

    /// The same with codes of so many bytes.
    pub fn bytes_at(&self, width: usize, s: usize, t: usize) -> Vec<u8> {
        let mut bytes = Vec::new();
        self.node(width, s, 1 << t, &mut bytes);
        bytes
    }

    fn node(&self, width: usize, s: usize, set: Set, bytes: &mut Vec<u8>) {
        bytes.push(set.count_ones() as u8);
        for t in members(set) {
            let step = self.steps[s * self.columns + t].as_ref().unwrap();
            let m = &self.first.states[s][step.place];
            bytes.extend(field(width, m.code.into()));
            bytes.push(m.entries.len() as u8);
            for (&(state, weight), &set) in m.entries.iter().zip(&step.sets) {
                bytes.push(state);
                bytes.extend(weight.to_le_bytes());
                self.node(width, state as usize, set, bytes);
            }
        }
    }
}

/// The transition chosen for a pair that falls after the round `before`.
fn step(subsets: usize, before: &Relation, ms: &[Transition], ns: &[Transition]) -> Step {
    let stuck = |m: &Transition| !fits_some(subsets, before, m, ns);
    let place = ms.iter().position(stuck).unwrap();
    let m = &ms[place];
    let mut sets = vec![0; m.entries.len()];
    for n in ns.iter().filter(|n| n.code == m.code) {
        let cut = fit_steps(subsets, before, m, n).cut;
        let in_cut = |i: &usize| cut[*i];
        let related = (0..cut.len())
            .filter(in_cut)
            .fold(0, |row, i| row | before[m.entries[i].0 as usize]);
        let apart = n.entries.iter().fold(0, |set, entry| set | 1 << entry.0) & !related;
        for i in (0..cut.len()).filter(in_cut) {
            sets[i] |= apart;
        }
    }
    Step { place, sets }
}

/// What replaying a tree on a table shows.
#[derive(Clone, Copy, Debug, PartialEq)]
pub struct Replay {
    /// The states that can follow the tree.
    pub followers: Set,
    /// The most transitions on a path.
    pub depth: usize,
    /// The most transitions of a node.
    pub widest: u8,
}

/// Replays a tree; nothing if the bytes are not just one tree.
pub fn replay(bytes: &[u8], table: &Table) -> Option<Replay> {
    let mut reader = Reader { bytes, table };
    let replay = reader.node()?;
    reader.bytes.is_empty().then_some(replay)
}

struct Reader<'a> {
    bytes: &'a [u8],
    table: &'a Table,
}

impl Reader<'_> {
    fn take<const N: usize>(&mut self) -> Option<[u8; N]> {
        let (taken, rest) = self.bytes.split_first_chunk()?;
        self.bytes = rest;
        Some(*taken)
    }

    fn node(&mut self) -> Option<Replay> {
        let mut followers = below(self.table.states.len());
        let mut depth = 0;
        let [steps] = self.take()?;
        let mut widest = steps;
        for _ in 0..steps {
            let code = u16::from_le_bytes(self.take()?);
            let [count] = self.take()?;
            let mut children = Vec::with_capacity(count as usize);
            for _ in 0..count {
                let [_, low, high] = self.take()?;
                let child = self.node()?;
                depth = depth.max(1 + child.depth);
                widest = widest.max(child.widest);
                let weight = u16::from_le_bytes([low, high]) as u64;
                children.push((weight, child.followers));
            }
            if children.is_empty() || children.iter().any(|child| child.0 == 0) {
                return None;
            }
            followers &= self.can_take(code, &children);
        }
        Some(Replay {
            followers,
            depth,
            widest,
        })
    }

    /// The states that have a transition which a tree's transition fits.
    fn can_take(&self, code: u16, children: &[(u64, Set)]) -> Set {
        let m: Vec<u64> = children.iter().map(|child| child.0).collect();
        let mut states = 0;
        for (t, ns) in self.table.states.iter().enumerate() {
            let fits = |n: &Transition| {
                let follows = |child: &(u64, Set)| {
                    let targets = n.entries.iter().enumerate();
                    targets.fold(0, |row, (j, entry)| row | (child.1 >> entry.0 & 1) << j)
                };
                let related: Vec<Set> = children.iter().map(follows).collect();
                fit(6, &m, &weights(n), &related).fits()
            };
            if ns.iter().any(|n| n.code == code && fits(n)) {
                states |= 1 << t;
            }
        }
        states
    }
}
