// The flow kernel as one would write it in Rust: a greedy start, then shortest augmenting paths over masks.
use crate::set::Set;

// Most targets on a side, and so the length of a row of amounts.
pub const MOST: usize = 128;

// Rows and columns are below N.
struct State<'a, S, const N: usize> {
    rel: &'a [[u64; 2]],
    x: &'a mut [u32],
    a: [u32; N],
    b: [u32; N],
    users: [S; N],
    from: [u8; N],
    via: [u8; N],
    short: S,
    free: S,
}

impl<S: Set, const N: usize> State<'_, S, N> {
    // The columns that row i is related to.
    fn row(&self, i: usize) -> S {
        S::of(&self.rel[i])
    }

    fn add(&mut self, i: usize, j: usize, d: u32) {
        self.x[i * MOST + j] += d;
        self.users[j] |= S::one(i);
    }

    fn take(&mut self, i: usize, j: usize, d: u32) {
        let cell = &mut self.x[i * MOST + j];
        *cell -= d;
        if *cell == 0 {
            self.users[j] &= !S::one(i);
        }
    }

    fn settle(&mut self, i: usize, j: usize, d: u32) {
        self.a[i] -= d;
        self.b[j] -= d;
        if self.a[i] == 0 {
            self.short &= !S::one(i);
        }
        if self.b[j] == 0 {
            self.free &= !S::one(j);
        }
    }

    fn fill(&mut self) {
        for i in 0..self.rel.len() {
            for j in (self.row(i) & self.free).members() {
                if self.a[i] == 0 {
                    break;
                }
                let d = self.a[i].min(self.b[j]);
                self.add(i, j, d);
                self.settle(i, j, d);
            }
        }
    }

    // The row with a free column that is nearest to a short row, or the rows reached.
    fn search(&mut self) -> Result<usize, S> {
        let mut reached = self.short;
        let mut seen = S::empty();
        let mut level = self.short;
        while !level.is_empty() {
            if let Some(r) = level.members().find(|&r| !(self.row(r) & self.free).is_empty()) {
                return Ok(r);
            }
            let mut next = S::empty();
            for r in level.members() {
                let columns = self.row(r) & !seen;
                seen |= columns;
                for j in columns.members() {
                    let new = self.users[j] & !reached;
                    reached |= new;
                    next |= new;
                    for i in new.members() {
                        self.from[i] = r as u8;
                        self.via[i] = j as u8;
                    }
                }
            }
            level = next;
        }
        Err(reached)
    }

    fn push(&mut self, r: usize, j: usize, roots: S) {
        let mut d = self.b[j];
        let mut i = r;
        while !roots.has(i) {
            d = d.min(self.x[i * MOST + self.via[i] as usize]);
            i = self.from[i] as usize;
        }
        d = d.min(self.a[i]);
        let mut i = r;
        let mut c = j;
        while !roots.has(i) {
            let e = self.via[i] as usize;
            self.take(i, e, d);
            self.add(i, c, d);
            c = e;
            i = self.from[i] as usize;
        }
        self.add(i, c, d);
        self.settle(i, j, d);
    }
}

fn supplies<S: Set, const N: usize>(w: &[u16], other: u32) -> ([u32; N], S) {
    let mut left = [0u32; N];
    let mut positive = S::empty();
    for (i, &w) in w.iter().enumerate() {
        left[i] = w as u32 * other;
        if left[i] != 0 {
            positive |= S::one(i);
        }
    }
    (left, positive)
}

fn total(w: &[u16]) -> u32 {
    w.iter().map(|&w| w as u32).sum()
}

fn flow_in<S: Set, const N: usize>(m: &[u16], n: &[u16], rel: &[[u64; 2]], x: &mut [u32]) -> S {
    let (a, short) = supplies(m, total(n));
    let (b, free) = supplies(n, total(m));
    for row in x.chunks_exact_mut(MOST).take(m.len()) {
        row[..n.len()].fill(0);
    }
    let mut s = State {
        rel: &rel[..m.len()],
        x,
        a,
        b,
        users: [S::empty(); N],
        from: [0; N],
        via: [0; N],
        short,
        free,
    };
    s.fill();
    loop {
        match s.search() {
            Err(reached) => return reached,
            Ok(r) => {
                let j = (s.row(r) & s.free).members().next().unwrap();
                let roots = s.short;
                s.push(r, j, roots);
            }
        }
    }
}

// Row i of the relation is words 2 i and 2 i + 1. Nothing if the input is refused.
pub fn flow(m: &[u16], n: &[u16], rel: &[u64], x: &mut [u32]) -> Option<u128> {
    let targets = m.len().max(n.len());
    let (rel, _) = rel.as_chunks();
    if targets > MOST || rel.len() < m.len() || x.len() < MOST * MOST || total(m) > 65535 || total(n) > 65535 {
        return None;
    }
    if targets <= 64 {
        return Some(flow_in::<u64, 64>(m, n, rel, x) as u128);
    }
    Some(flow_in::<u128, MOST>(m, n, rel, x))
}
