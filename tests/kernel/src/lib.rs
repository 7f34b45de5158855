//! The flow kernel, problems for it, two other ways to the answer, all subsets and a maximum flow of its own, and a flow
//! that grows along depth-first paths.

// A slice passes as a pointer and a length.
extern "C" {
    fn transport_flow(
        m: *const u16, p: usize, n: *const u16, q: usize, rel: *const u64, rows: usize,
        x: *mut u32, cells: usize, cut: *mut u64, cuts: usize, paths: *mut u32, counts: usize,
    ) -> u32;
}

pub fn flow(m: &[u16], n: &[u16], rel: &[u64], x: &mut [u32], cut: &mut [u64], paths: &mut [u32]) -> u32 {
    // SAFETY: pointers and lengths of slices that outlive the call.
    unsafe {
        transport_flow(
            m.as_ptr(), m.len(), n.as_ptr(), n.len(), rel.as_ptr(), rel.len(),
            x.as_mut_ptr(), x.len(), cut.as_mut_ptr(), cut.len(), paths.as_mut_ptr(), paths.len(),
        )
    }
}

/// The most targets on a side, the cells that hold their amounts, and the bits of a word and the words of a set of
/// them.
pub const SIDE: usize = 128;
pub const CELLS: usize = SIDE * SIDE;
pub const WORD: usize = u64::BITS as usize;
pub const WORDS: usize = SIDE / WORD;

/// The most that the weights on a side come to.
pub const WHOLE: u64 = 65_535;

/// A set of targets: bit j stands for target j.
pub type Set = u128;
const _: () = assert!(SIDE == Set::BITS as usize);

/// Sets in words, the low one of each first.
pub fn words(sets: &[Set]) -> Vec<u64> {
    sets.iter().flat_map(|set| [*set as u64, (set >> WORD) as u64]).collect()
}

pub struct Random(pub u64);

impl Random {
    pub fn next(&mut self) -> u64 {
        self.0 ^= self.0 << 13;
        self.0 ^= self.0 >> 7;
        self.0 ^= self.0 << 17;
        self.0
    }

    pub fn below(&mut self, n: u64) -> u64 {
        (self.next() >> 11) % n
    }
}

#[derive(Clone, Debug)]
pub struct Problem {
    pub m: Vec<u16>,
    pub n: Vec<u16>,
    pub rel: Vec<Set>,
}

/// What is right: the most that can be sent, and the smallest set of the largest excess.
#[derive(Debug, PartialEq, Eq)]
pub struct Right {
    pub sent: u64,
    pub cut: Set,
}

pub fn total(w: &[u16]) -> u64 {
    w.iter().map(|&w| w as u64).sum()
}

impl Problem {
    /// Weights up to `most`, the last raised to make the total `whole` where it is below that.
    pub fn weights(random: &mut Random, count: usize, most: u64, whole: Option<u64>) -> Vec<u16> {
        let mut w: Vec<u16> = (0..count).map(|_| random.below(most + 1) as u16).collect();
        while total(&w) > WHOLE {
            w.iter_mut().for_each(|w| *w /= 2);
        }
        if let (Some(whole), Some(last)) = (whole, w.len().checked_sub(1)) {
            w[last] += (whole - total(&w)) as u16;
        }
        w
    }

    pub fn random(random: &mut Random, rows: usize, columns: usize, percent: u64, most: u64, whole: Option<u64>) -> Problem {
        let m = Problem::weights(random, rows, most, whole);
        let n = Problem::weights(random, columns, most, whole);
        // Bits past the columns don't matter.
        let rel = (0..rows)
            .map(|_| (0..SIDE).fold(0, |row, j| row | ((random.below(100) < percent) as Set) << j))
            .collect();
        Problem { m, n, rel }
    }

    pub fn related(&self, i: usize, j: usize) -> bool {
        self.rel[i] >> j & 1 == 1
    }

    /// The same targets with `by` more before them on each side, each of weight 0 and related to none.
    pub fn shifted(&self, by: usize) -> Problem {
        let weights = |w: &[u16]| [&vec![0; by], w].concat();
        let rel = self.rel.iter().map(|row| row << by);
        Problem { m: weights(&self.m), n: weights(&self.n), rel: vec![0; by].into_iter().chain(rel).collect() }
    }

    /// By the definition: the gain of every set of rows.
    pub fn by_subsets(&self) -> Right {
        let (t, u) = (total(&self.m), total(&self.n));
        let mut most = 0;
        let mut cut = Set::MAX;
        for set in 0..(1 as Set) << self.m.len() {
            let inside: u64 = (0..self.m.len()).filter(|i| set >> i & 1 == 1).map(|i| self.m[i] as u64).sum();
            let touched = (0..self.m.len()).filter(|i| set >> i & 1 == 1).fold(0, |all, i| all | self.rel[i]);
            let out: u64 = (0..self.n.len()).filter(|j| touched >> j & 1 == 0).map(|j| self.n[j] as u64).sum();
            let gain = u * inside + t * out;
            if gain > most || set == 0 {
                most = gain;
                cut = set;
            } else if gain == most {
                cut &= set;
            }
        }
        Right { sent: 2 * t * u - most, cut }
    }

    /// By a maximum flow over an explicit network (Dinic), and what its residual network reaches from the source.
    pub fn by_network(&self) -> Right {
        let (p, q) = (self.m.len(), self.n.len());
        let (t, u) = (total(&self.m), total(&self.n));
        let (source, sink) = (p + q, p + q + 1);
        let mut network = Network::new(p + q + 2);
        for i in 0..p {
            network.edge(source, i, self.m[i] as u64 * u);
            for j in (0..q).filter(|&j| self.related(i, j)) {
                network.edge(i, p + j, u64::MAX / 2);
            }
        }
        for j in 0..q {
            network.edge(p + j, sink, self.n[j] as u64 * t);
        }
        let sent = network.run(source, sink);
        let level = network.levels(source);
        Right { sent, cut: (0..p).filter(|&i| level[i] != usize::MAX).fold(0, |cut, i| cut | 1 << i) }
    }

    /// Runs the kernel, which takes the problem. Returns its cut and the number of its augmenting paths. The word after each stays as it
    /// was.
    pub fn answer(&self, x: &mut [u32]) -> (Set, u32) {
        let (mut cut, mut paths) = ([7; WORDS + 1], [7; 2]);
        assert_eq!(flow(&self.m, &self.n, &words(&self.rel), x, &mut cut, &mut paths), 1, "refused: {self:?}");
        assert_eq!((cut[WORDS], paths[1]), (7, 7), "{self:?}");
        (cut[0] as Set | (cut[1] as Set) << WORD, paths[0])
    }

    /// Runs the kernel over filled memory and checks everything that it leaves there. Returns its answer in the oracles' terms.
    pub fn by_kernel(&self) -> Right {
        let (p, q) = (self.m.len(), self.n.len());
        let (t, u) = (total(&self.m), total(&self.n));
        let mut x: Vec<u32> = (0..CELLS as u32 + 4).map(|k| k.wrapping_mul(2654435761)).collect();
        let before = x.clone();
        let (cut, _) = self.answer(&mut x);
        for k in 0..x.len() {
            let (i, j) = (k / SIDE, k % SIDE);
            if i < p && j < q {
                assert!(x[k] == 0 || self.related(i, j), "amount off the relation at {i} {j}: {self:?}");
            } else {
                assert_eq!(x[k], before[k], "cell {i} {j} changed: {self:?}");
            }
        }
        let cell = |i: usize, j: usize| x[i * SIDE + j] as u64;
        let rows: Vec<u64> = (0..p).map(|i| (0..q).map(|j| cell(i, j)).sum()).collect();
        let columns: Vec<u64> = (0..q).map(|j| (0..p).map(|i| cell(i, j)).sum()).collect();
        for i in 0..p {
            let whole = self.m[i] as u64 * u;
            assert!(if cut == 0 { rows[i] == whole } else { rows[i] <= whole }, "row {i}: {self:?}");
        }
        for j in 0..q {
            let whole = self.n[j] as u64 * t;
            assert!(if cut == 0 { columns[j] == whole } else { columns[j] <= whole }, "column {j}: {self:?}");
        }
        Right { sent: rows.iter().sum(), cut }
    }

    /// The number of augmenting paths that the kernel takes.
    pub fn paths(&self) -> usize {
        self.answer(&mut vec![0; CELLS]).1 as usize
    }

    /// What a flow sends that grows along depth-first paths, and how many it takes. It starts as the kernel does.
    pub fn by_depth(&self) -> (u64, usize) {
        let mut depth = Depth::start(self);
        let mut count = 0;
        loop {
            let before = count;
            for i in 0..self.m.len() {
                count += (depth.a[i] > 0 && depth.augment(i)) as usize;
            }
            if count == before {
                return (depth.x.iter().flatten().sum(), count);
            }
        }
    }
}

// A flow, what each row and column has left, and the rows and columns of the path so far or behind it.
struct Depth<'a> {
    problem: &'a Problem,
    x: Vec<Vec<u64>>,
    a: Vec<u64>,
    b: Vec<u64>,
    rows: Vec<bool>,
    columns: Vec<bool>,
}

impl Depth<'_> {
    fn start(problem: &Problem) -> Depth<'_> {
        let (t, u) = (total(&problem.m), total(&problem.n));
        let mut a: Vec<u64> = problem.m.iter().map(|&w| w as u64 * u).collect();
        let mut b: Vec<u64> = problem.n.iter().map(|&w| w as u64 * t).collect();
        let mut x = vec![vec![0; b.len()]; a.len()];
        for i in 0..a.len() {
            for j in (0..b.len()).filter(|&j| problem.related(i, j)) {
                let d = a[i].min(b[j]);
                x[i][j] = d;
                a[i] -= d;
                b[j] -= d;
            }
        }
        Depth { problem, x, a, b, rows: Vec::new(), columns: Vec::new() }
    }

    fn augment(&mut self, root: usize) -> bool {
        self.rows = vec![false; self.a.len()];
        self.columns = vec![false; self.b.len()];
        let sent = self.send(root, self.a[root]);
        self.a[root] -= sent;
        sent > 0
    }

    // The first related column that is free, or whose first user can send on, takes as much as the whole path carries.
    fn send(&mut self, i: usize, most: u64) -> u64 {
        self.rows[i] = true;
        for j in 0..self.b.len() {
            if self.columns[j] || !self.problem.related(i, j) {
                continue;
            }
            self.columns[j] = true;
            let sent = self.take(j, most);
            if sent > 0 {
                self.x[i][j] += sent;
                return sent;
            }
        }
        0
    }

    fn take(&mut self, j: usize, most: u64) -> u64 {
        if self.b[j] > 0 {
            let sent = most.min(self.b[j]);
            self.b[j] -= sent;
            return sent;
        }
        for k in 0..self.a.len() {
            if self.rows[k] || self.x[k][j] == 0 {
                continue;
            }
            let sent = self.send(k, most.min(self.x[k][j]));
            if sent > 0 {
                self.x[k][j] -= sent;
                return sent;
            }
        }
        0
    }
}

struct Network {
    next: Vec<Vec<usize>>,
    to: Vec<usize>,
    left: Vec<u64>,
}

impl Network {
    fn new(nodes: usize) -> Network {
        Network { next: vec![Vec::new(); nodes], to: Vec::new(), left: Vec::new() }
    }

    // An edge and the edge back share a pair of numbers that differ in the last bit.
    fn edge(&mut self, from: usize, to: usize, capacity: u64) {
        for (a, b, c) in [(from, to, capacity), (to, from, 0)] {
            self.next[a].push(self.to.len());
            self.to.push(b);
            self.left.push(c);
        }
    }

    fn levels(&self, source: usize) -> Vec<usize> {
        let mut level = vec![usize::MAX; self.next.len()];
        let mut queue = vec![source];
        level[source] = 0;
        let mut head = 0;
        while head < queue.len() {
            let node = queue[head];
            head += 1;
            for &edge in &self.next[node] {
                let to = self.to[edge];
                if self.left[edge] > 0 && level[to] == usize::MAX {
                    level[to] = level[node] + 1;
                    queue.push(to);
                }
            }
        }
        level
    }

    fn send(&mut self, node: usize, sink: usize, most: u64, level: &[usize], tried: &mut [usize]) -> u64 {
        if node == sink {
            return most;
        }
        while tried[node] < self.next[node].len() {
            let edge = self.next[node][tried[node]];
            let to = self.to[edge];
            if self.left[edge] > 0 && level[to] == level[node] + 1 {
                let sent = self.send(to, sink, most.min(self.left[edge]), level, tried);
                if sent > 0 {
                    self.left[edge] -= sent;
                    self.left[edge ^ 1] += sent;
                    return sent;
                }
            }
            tried[node] += 1;
        }
        0
    }

    fn run(&mut self, source: usize, sink: usize) -> u64 {
        let mut all = 0;
        loop {
            let level = self.levels(source);
            if level[sink] == usize::MAX {
                return all;
            }
            let mut tried = vec![0; self.next.len()];
            loop {
                let sent = self.send(source, sink, u64::MAX / 2, &level, &mut tried);
                if sent == 0 {
                    break;
                }
                all += sent;
            }
        }
    }
}
