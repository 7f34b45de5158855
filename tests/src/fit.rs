//! Whether one transition fits another, and the set that shows why not: once
//! by trying every set, once by a maximum flow.
//!
//! A transition is its list of weights here. The relation is one mask for
//! each place of the first list: bit j stands for place j of the second.

use crate::table::{has, Set};

/// What is left over at best. The transition fits exactly if that is nothing.
#[derive(Clone, Debug, PartialEq)]
pub struct Fit {
    /// The largest excess of a set, the empty one counted.
    pub excess: u64,
    /// The places of the smallest of the sets with the largest excess.
    pub cut: Vec<bool>,
}

impl Fit {
    pub fn fits(&self) -> bool {
        self.excess == 0
    }
}

/// The largest first list for which all subsets are tried.
pub const SUBSETS: usize = 16;

/// By subsets where there are at most `subsets` weights, by a flow where
/// there are more.
pub fn fit(subsets: usize, m: &[u64], n: &[u64], related: &[Set]) -> Fit {
    if m.len() <= subsets {
        by_subsets(m, n, related)
    } else {
        by_flow(m, n, related)
    }
}

fn excess(m: &[u64], n: &[u64], related: &[Set], set: usize) -> i64 {
    let members = || (0..m.len()).filter(|i| set >> i & 1 == 1);
    let weight: u64 = members().map(|i| m[i]).sum();
    let reached = members().fold(0, |reached, i| reached | related[i]);
    let covered: u64 = (0..n.len())
        .filter(|&j| has(reached, j))
        .map(|j| n[j])
        .sum();
    let (t, u): (u64, u64) = (m.iter().sum(), n.iter().sum());
    (u * weight) as i64 - (t * covered) as i64
}

/// Tries every set of places of `m`.
pub fn by_subsets(m: &[u64], n: &[u64], related: &[Set]) -> Fit {
    assert!(m.len() <= SUBSETS);
    let mut largest = 0;
    let mut common = 0;
    for set in 1..1 << m.len() {
        let excess = excess(m, n, related, set);
        if excess > largest {
            largest = excess;
            common = set;
        } else if excess == largest {
            common &= set;
        }
    }
    // The sets in common are one of them.
    assert_eq!(excess(m, n, related, common), largest);
    Fit {
        excess: largest as u64,
        cut: (0..m.len()).map(|i| common >> i & 1 == 1).collect(),
    }
}

struct Edge {
    to: usize,
    room: u64,
    /// The edge after this one from the same node.
    next: usize,
}

/// A network in which edge e and edge e ^ 1 run against each other.
struct Network {
    edges: Vec<Edge>,
    /// Each node's first edge, and the one to be tried next.
    heads: Vec<usize>,
    tries: Vec<usize>,
    levels: Vec<usize>,
    queue: Vec<usize>,
}

const NONE: usize = usize::MAX;

impl Network {
    fn new(nodes: usize, edges: usize) -> Network {
        Network {
            edges: Vec::with_capacity(2 * edges),
            heads: vec![NONE; nodes],
            tries: vec![NONE; nodes],
            levels: vec![NONE; nodes],
            queue: Vec::with_capacity(nodes),
        }
    }

    fn join(&mut self, from: usize, to: usize, room: u64) {
        for (from, to, room) in [(from, to, room), (to, from, 0)] {
            let next = self.heads[from];
            self.heads[from] = self.edges.len();
            self.edges.push(Edge { to, room, next });
        }
    }

    /// Levels of the nodes that have a way from `source`.
    fn spread(&mut self, source: usize) {
        self.levels.fill(NONE);
        self.levels[source] = 0;
        self.queue.clear();
        self.queue.push(source);
        let mut done = 0;
        while done < self.queue.len() {
            let node = self.queue[done];
            done += 1;
            let mut e = self.heads[node];
            while e != NONE {
                let Edge { to, room, next } = self.edges[e];
                if room > 0 && self.levels[to] == NONE {
                    self.levels[to] = self.levels[node] + 1;
                    self.queue.push(to);
                }
                e = next;
            }
        }
    }

    /// Sends up to `amount` from `node` to `sink` down the levels.
    fn send(&mut self, node: usize, sink: usize, amount: u64) -> u64 {
        if node == sink {
            return amount;
        }
        let mut sent = 0;
        while self.tries[node] != NONE {
            let e = self.tries[node];
            let Edge { to, room, next } = self.edges[e];
            if room > 0 && self.levels[to] == self.levels[node] + 1 {
                let passed = self.send(to, sink, room.min(amount - sent));
                self.edges[e].room -= passed;
                self.edges[e ^ 1].room += passed;
                sent += passed;
                if sent == amount {
                    break;
                }
            }
            self.tries[node] = next;
        }
        sent
    }

    /// The value of a maximum flow (Dinic). Levels are left as they are at
    /// its end: a node has one if the residual network has a way to it.
    fn flow(&mut self, source: usize, sink: usize) -> u64 {
        let mut value = 0;
        loop {
            self.spread(source);
            if self.levels[sink] == NONE {
                return value;
            }
            self.tries.copy_from_slice(&self.heads);
            value += self.send(source, sink, u64::MAX);
        }
    }
}

/// By a maximum flow: what it leaves behind is the largest excess, and what
/// can be reached from its source is the smallest set.
pub fn by_flow(m: &[u64], n: &[u64], related: &[Set]) -> Fit {
    let (t, u): (u64, u64) = (m.iter().sum(), n.iter().sum());
    let (source, sink) = (m.len() + n.len(), m.len() + n.len() + 1);
    let pairs: u32 = related.iter().map(|row| row.count_ones()).sum();
    let mut network = Network::new(sink + 1, m.len() + n.len() + pairs as usize);
    for (i, weight) in m.iter().enumerate() {
        network.join(source, i, weight * u);
        for j in (0..n.len()).filter(|&j| has(related[i], j)) {
            network.join(i, m.len() + j, t * u);
        }
    }
    for (j, weight) in n.iter().enumerate() {
        network.join(m.len() + j, sink, weight * t);
    }
    let value = network.flow(source, sink);
    Fit {
        excess: t * u - value,
        cut: (0..m.len()).map(|i| network.levels[i] != NONE).collect(),
    }
}
