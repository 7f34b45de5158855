//! A plain podcheck in Rust, to measure the proved one against, made as
//! strong as it could be: it takes megabytes of memory and keeps there what
//! it has found. A flow stands until a pair that it uses is lost, and is
//! mended then; the step that a pair fell by is noted when it falls; a pair of
//! the tree is worked out once, and its text is copied wherever it comes back.

// The library's own start reads the map of the process's memory, which takes
// 0.1 million instructions.
#![no_main]

mod set;

use set::Set;
use std::fs::File;
use std::io::{Read, Write};
use std::mem::ManuallyDrop;
use std::ops::Range;
use std::os::fd::FromRawFd;

const CODES: usize = 1_024;
const STATES: usize = 128;
const TRANSITIONS: usize = 256;
const ENTRIES: usize = 512;
const TOTAL: u32 = 65_535;
const LONGEST: usize = 65_535;
const RANKS: usize = STATES * STATES;

/// The number that the first two bytes hold.
fn two(bytes: &[u8]) -> u16 {
    u16::from_le_bytes([bytes[0], bytes[1]])
}

/// A step without its entries of weight 0.
#[derive(Clone, Copy)]
struct Step<S> {
    code: u16,
    /// Which of the codes that steps of the second table have, or one of the
    /// two below.
    class: u16,
    state: u8,
    /// Its place among the steps of its state with its code, and whether it
    /// is the only one.
    place: u8,
    alone: bool,
    start: u16,
    end: u16,
    total: u32,
    targets: S,
    /// A number that unlike steps seldom share.
    mixed: u32,
}

/// The class of a code that no step of the second table has, and of one that
/// the second table does not list.
const UNUSED: u16 = u16::MAX - 1;
const ADDED: u16 = u16::MAX;

impl<S> Step<S> {
    fn entries(&self) -> Range<usize> {
        self.start as usize..self.end as usize
    }

    fn width(&self) -> usize {
        self.entries().len()
    }
}

struct Table<'a, S> {
    codes: &'a [u8],
    states: usize,
    steps: Vec<Step<S>>,
    entries: Vec<(u8, u16)>,
}

struct Cursor<'a>(&'a [u8]);

impl<'a> Cursor<'a> {
    fn take(&mut self, count: usize) -> Result<&'a [u8], u32> {
        let (taken, rest) = self.0.split_at_checked(count).ok_or(1u32)?;
        self.0 = rest;
        Ok(taken)
    }

    fn two(&mut self) -> Result<usize, u32> {
        Ok(two(self.take(2)?) as usize)
    }
}

/// The sections of a table, of which all but the last are known to be right.
struct Sections<'a> {
    codes: &'a [u8],
    shares: &'a [u8],
    heads: &'a [u8],
    entries: &'a [u8],
    longer: bool,
}

impl<'a> Sections<'a> {
    fn read(bytes: &'a [u8]) -> Result<Self, u32> {
        let mut cursor = Cursor(bytes);
        let count = cursor.two()?;
        if count > CODES {
            return Err(3);
        }
        let codes = cursor.take(2 * count)?;
        let mut all = codes.chunks_exact(2).map(two);
        if let Some(code) = all.next() {
            let mut last = code;
            if all.any(|code| std::mem::replace(&mut last, code) >= code) {
                return Err(3);
            }
        }
        let count = cursor.take(1)?[0] as usize;
        if !(1..=STATES).contains(&count) {
            return Err(4);
        }
        let shares = cursor.take(count)?;
        let count = cursor.two()?;
        let sum: usize = shares.iter().map(|&share| share as usize).sum();
        if count > TRANSITIONS || count != sum {
            return Err(5);
        }
        let heads = cursor.take(3 * count)?;
        let sum = Self::check_heads(codes, heads)?;
        let count = cursor.two()?;
        if count > ENTRIES || count != sum {
            return Err(7);
        }
        let entries = cursor.take(3 * count)?;
        Ok(Sections {
            codes,
            shares,
            heads,
            entries,
            longer: !cursor.0.is_empty(),
        })
    }

    /// The number of entries that the transitions announce.
    fn check_heads(codes: &[u8], heads: &[u8]) -> Result<usize, u32> {
        let mut sum = 0;
        let mut known = None;
        for head in heads.chunks_exact(3) {
            let code = two(head);
            if known != Some(code) && !lists(codes, code) {
                return Err(6);
            }
            known = Some(code);
            if head[2] == 0 {
                return Err(8);
            }
            sum += head[2] as usize;
        }
        Ok(sum)
    }
}

/// Whether a list of codes, in bytes and ascending, has one.
fn lists(codes: &[u8], code: u16) -> bool {
    let (mut low, mut high) = (0, codes.len() / 2);
    while low < high {
        let middle = (low + high) / 2;
        match two(&codes[2 * middle..]) {
            found if found == code => return true,
            found if found < code => low = middle + 1,
            _ => high = middle,
        }
    }
    false
}

impl<'a, S: Set> Table<'a, S> {
    fn parse(bytes: &'a [u8]) -> Result<Self, u32> {
        let sections = Sections::read(bytes)?;
        let mut table = Table {
            codes: sections.codes,
            states: sections.shares.len(),
            steps: Vec::with_capacity(sections.heads.len() / 3),
            entries: Vec::with_capacity(sections.entries.len() / 3),
        };
        let mut heads = sections.heads.chunks_exact(3);
        let mut entries = Cursor(sections.entries);
        for (state, &share) in sections.shares.iter().enumerate() {
            let from = table.steps.len();
            for head in heads.by_ref().take(share as usize) {
                let bytes = entries.take(3 * head[2] as usize)?;
                let step = table.parse_step(state as u8, two(head), bytes)?;
                table.add(from, step);
            }
        }
        match sections.longer {
            true => Err(2),
            false => Ok(table),
        }
    }

    fn parse_step(&mut self, state: u8, code: u16, bytes: &[u8]) -> Result<Step<S>, u32> {
        let start = self.entries.len() as u16;
        let (mut total, mut lowest, mut mixed) = (0, 0, 0u32);
        let mut targets = S::empty();
        for entry in bytes.chunks_exact(3) {
            let target = entry[0];
            if target as usize >= self.states || target < lowest {
                return Err(9);
            }
            lowest = target + 1;
            let weight = two(&entry[1..]);
            total += weight as u32;
            if total > TOTAL {
                return Err(10);
            }
            if weight > 0 {
                targets |= S::one(target as usize);
                self.entries.push((target, weight));
                mixed = mixed.wrapping_mul(0x9e37_79b1) ^ (weight as u32) << 8 ^ target as u32;
            }
        }
        if total == 0 {
            return Err(10);
        }
        let end = self.entries.len() as u16;
        Ok(Step {
            code,
            class: UNUSED,
            state,
            place: 0,
            alone: true,
            start,
            end,
            total,
            targets,
            mixed,
        })
    }

    /// Adds a step of the state whose steps begin at `from`, unless the state
    /// has an equal one: that would fit and be fitted likewise.
    fn add(&mut self, from: usize, step: Step<S>) {
        let equal = |other: &Step<S>| {
            other.mixed == step.mixed
                && other.code == step.code
                && self.entries[other.entries()] == self.entries[step.entries()]
        };
        if self.steps[from..].iter().any(equal) {
            self.entries.truncate(step.start as usize);
        } else {
            self.steps.push(step);
        }
    }
}

/// The steps of a state of the second table with one code.
#[derive(Clone, Copy)]
struct Group {
    start: u16,
    count: u8,
}

/// An entry of a table, by the state that it leads to.
#[derive(Clone, Copy)]
struct Use {
    step: u16,
    entry: u16,
}

/// The entries of a table in the order of the states that they lead to.
struct Uses<const N: usize> {
    ends: [u16; N],
    list: [Use; ENTRIES],
}

impl<const N: usize> Uses<N> {
    fn fill<S: Set>(&mut self, table: &Table<S>) {
        for &(target, _) in &table.entries {
            self.ends[target as usize] += 1;
        }
        let mut sum = 0;
        for end in &mut self.ends[..table.states] {
            sum += *end;
            *end = sum - *end;
        }
        for (k, step) in table.steps.iter().enumerate() {
            for entry in step.entries() {
                let end = &mut self.ends[table.entries[entry].0 as usize];
                let (step, entry) = (k as u16, entry as u16);
                self.list[*end as usize] = Use { step, entry };
                *end += 1;
            }
        }
    }

    /// The places in the list of what leads to a state.
    fn places(&self, state: usize) -> Range<usize> {
        let start = match state {
            0 => 0,
            _ => self.ends[state - 1],
        };
        start as usize..self.ends[state] as usize
    }

    /// The first word of 64 places that these lie in, with their bits, and
    /// whether they all lie in it.
    fn span(&self, state: usize) -> (usize, u64, bool) {
        let places = self.places(state);
        let word = places.start / 64;
        let end = places.end.min(64 * word + 64);
        let mask = match places.is_empty() {
            true => 0,
            false => !0 << (places.start % 64) & !0 >> (64 * word + 64 - end),
        };
        (word, mask, end == places.end)
    }
}

/// The weights of all sets of a step's targets, if there are at most four.
type Sums = [u32; 16];

fn sum_up(sums: &mut Sums, entries: &[(u8, u16)]) {
    if entries.len() > SMALL {
        return;
    }
    for set in 1..1usize << entries.len() {
        let weight = entries[set.trailing_zeros() as usize].1 as u32;
        sums[set] = sums[set & (set - 1)] + weight;
    }
}

const SMALL: usize = 4;

/// What the second table's steps are looked up by.
struct Index<S, const N: usize> {
    /// Of each class the code, the states that have a step with it, and these
    /// steps.
    codes: [u16; TRANSITIONS],
    classes: usize,
    having: [S; TRANSITIONS],
    groups: [[Group; N]; TRANSITIONS],
    /// Where the entry of a step that leads to a state stands in the list of
    /// entries by states, if there is one.
    entry_at: [[u16; N]; TRANSITIONS],
    /// By classes, the states with a step that leads to a state.
    behind: [[S; N]; TRANSITIONS],
}

impl<S: Set, const N: usize> Index<S, N> {
    /// Brings steps with the same code together. They stay in the order of
    /// their states.
    fn fill(&mut self, second: &mut Table<S>) {
        second.steps.sort_by_key(|step| step.code);
        for n in 0..second.steps.len() {
            let step = &mut second.steps[n];
            let mut class = self.classes;
            if class == 0 || self.codes[class - 1] != step.code {
                self.codes[class] = step.code;
                self.classes += 1;
            } else {
                class -= 1;
            }
            step.class = class as u16;
            let t = step.state as usize;
            self.having[class] |= S::one(t);
            let group = &mut self.groups[class][t];
            if group.count == 0 {
                group.start = n as u16;
            }
            step.place = group.count;
            group.count += 1;
            if group.count > 1 {
                step.alone = false;
                second.steps[n - 1].alone = false;
            }
        }
    }

    /// Finds the classes of the first table's steps.
    fn classify(&self, first: &mut Table<S>, second: &Table<S>) {
        let mut known = None;
        for step in &mut first.steps {
            let class = match known {
                Some((code, class)) if code == step.code => class,
                _ => match self.codes[..self.classes].binary_search(&step.code) {
                    Ok(class) => class as u16,
                    Err(_) if lists(second.codes, step.code) => UNUSED,
                    Err(_) => ADDED,
                },
            };
            step.class = class;
            known = Some((step.code, class));
        }
    }
}

/// Two steps that a flow runs between, m of the first table and n of the second.
#[derive(Clone, Copy)]
struct Ends<'a, S, const N: usize> {
    /// The number of m, and its first entry.
    m: usize,
    start: usize,
    totals: (u32, u32),
    sources: &'a [(u8, u16)],
    sinks: &'a [(u8, u16)],
    /// The targets of n, and the entries that lead to them.
    columns: S,
    entry_at: &'a [u16; N],
}

/// Flows between all steps that were compared. Rows are places of a step of
/// the first table, columns are states of the second. An amount is there only
/// where its row is a user of its column.
struct Flow<S, const N: usize> {
    /// By the entries of both tables, those of the second as they are listed
    /// by states.
    amounts: [[u32; ENTRIES]; ENTRIES],
    /// By steps of the first and entries of the second.
    users: [[S; ENTRIES]; TRANSITIONS],
    /// A bit for each two entries, set where a loss of their pair may matter.
    watch: [[u64; ENTRIES / 64]; ENTRIES],
    /// What is needed only while a flow is worked at: what a row has left to
    /// send, what a column can still take, and the way to either.
    left: [u32; N],
    room: [u32; N],
    row_of: [u8; N],
    column_of: [u8; N],
}

/// The columns of a row by their places.
fn by_place<S: Set>(row: S, sinks: &[(u8, u16)]) -> u8 {
    let bits = sinks.iter().rev();
    bits.fold(0, |bits, sink| 2 * bits + row.has(sink.0 as usize) as u8)
}

impl<S: Set, const N: usize> Ends<'_, S, N> {
    fn small(&self) -> bool {
        self.sources.len() <= SMALL && self.sinks.len() <= SMALL
    }

    /// The same as `cut` below for few targets: all sets are tried.
    fn small_cut(&self, (from, to): (&Sums, &Sums), rows: &[S]) -> usize {
        let mut reached = [0u8; 16];
        let (mut cut, mut most) = (0, 0);
        for (i, &row) in rows.iter().enumerate() {
            let columns = by_place(row, self.sinks);
            for rest in 0..1 << i {
                let reach = reached[rest] | columns;
                let set = rest | 1 << i;
                reached[set] = reach;
                let sent = (self.totals.1 * from[set]) as i64;
                let excess = sent - (self.totals.0 * to[reach as usize]) as i64;
                if excess > most {
                    (most, cut) = (excess, set);
                } else if excess == most {
                    cut &= set;
                }
            }
        }
        cut
    }
}

/// The rows that have something left, and the columns that have room.
#[derive(Clone, Copy)]
struct Rest<S> {
    short: S,
    open: S,
}

impl<S: Set, const N: usize> Flow<S, N> {
    /// The rows of the smallest set with the largest excess; none if m fits n.
    /// All columns of each row are given.
    fn cut(&mut self, ends: &Ends<S, N>, rows: &[S]) -> S {
        for &(j, weight) in ends.sinks {
            self.room[j as usize] = weight as u32 * ends.totals.0;
            self.users[ends.m][ends.entry_at[j as usize] as usize] = S::empty();
        }
        let mut rest = Rest {
            short: S::empty(),
            open: ends.columns,
        };
        for (i, &row) in rows.iter().enumerate() {
            self.serve(ends, i, row, &mut rest);
        }
        self.augment(ends, rest, |i| rows[i])
    }

    /// Lets a row send what it can.
    fn serve(&mut self, ends: &Ends<S, N>, i: usize, row: S, rest: &mut Rest<S>) {
        let mut amount = ends.sources[i].1 as u32 * ends.totals.1;
        let (d, bit) = (ends.start + i, S::one(i));
        let (amounts, watch) = (&mut self.amounts[d], &mut self.watch[d]);
        let users = &mut self.users[ends.m];
        let mut open = row & rest.open;
        while !open.is_empty() {
            let j = open.lowest();
            let e = ends.entry_at[j] as usize;
            let room = self.room[j];
            users[e] |= bit;
            watch[e / 64] |= 1 << (e % 64);
            if amount < room {
                amounts[e] = amount;
                self.room[j] = room - amount;
                return;
            }
            amounts[e] = room;
            amount -= room;
            rest.open &= !S::one(j);
            if amount == 0 {
                return;
            }
            open &= rest.open;
        }
        self.left[i] = amount;
        rest.short |= bit;
    }

    /// Shortest augmenting paths until there is none, or nothing left to send.
    fn augment(&mut self, ends: &Ends<S, N>, mut rest: Rest<S>, row: impl Fn(usize) -> S) -> S {
        while !rest.short.is_empty() {
            let mut ways = rest.short.members();
            let direct = ways.find(|&i| !(row(i) & rest.open).is_empty());
            let found = match direct {
                Some(i) => Ok(i),
                None => self.find(ends, rest, &row),
            };
            match found {
                Ok(i) => {
                    let end = (row(i) & rest.open).lowest();
                    self.row_of[end] = i as u8;
                    self.push(ends, end, &mut rest);
                }
                Err(cut) => return cut,
            }
        }
        S::empty()
    }

    /// The first row on the way from the short ones that is related to an open
    /// column, if no short one is; else all rows that there is a way to.
    fn find(
        &mut self,
        ends: &Ends<S, N>,
        rest: Rest<S>,
        row: impl Fn(usize) -> S,
    ) -> Result<usize, S> {
        let (mut rows, mut columns, mut level) = (rest.short, S::empty(), rest.short);
        let users = &self.users[ends.m];
        while !level.is_empty() {
            let mut next = S::empty();
            while !level.is_empty() {
                let i = level.pop();
                let mut new = row(i) & !columns;
                columns |= new;
                while !new.is_empty() {
                    let j = new.pop();
                    let mut users = users[ends.entry_at[j] as usize] & !rows;
                    rows |= users;
                    next |= users;
                    self.row_of[j] = i as u8;
                    while !users.is_empty() {
                        let k = users.pop();
                        self.column_of[k] = j as u8;
                        if !(row(k) & rest.open).is_empty() {
                            return Ok(k);
                        }
                    }
                }
            }
            level = next;
        }
        Err(rows)
    }

    /// Moves as much as possible along the path that ends in column `end`.
    fn push(&mut self, ends: &Ends<S, N>, end: usize, rest: &mut Rest<S>) {
        let mut amount = self.room[end];
        let mut i = self.row_of[end] as usize;
        while !rest.short.has(i) {
            let j = self.column_of[i] as usize;
            amount = amount.min(self.amounts[ends.start + i][ends.entry_at[j] as usize]);
            i = self.row_of[j] as usize;
        }
        amount = amount.min(self.left[i]);
        self.left[i] -= amount;
        if self.left[i] == 0 {
            rest.short &= !S::one(i);
        }
        self.room[end] -= amount;
        if self.room[end] == 0 {
            rest.open &= !S::one(end);
        }
        self.shift(ends, end, i, amount);
    }

    /// Moves an amount along the path from row `first` to column `end`.
    fn shift(&mut self, ends: &Ends<S, N>, end: usize, first: usize, amount: u32) {
        let users = &mut self.users[ends.m];
        let mut j = end;
        loop {
            let e = ends.entry_at[j] as usize;
            let i = self.row_of[j] as usize;
            let cell = &mut self.amounts[ends.start + i][e];
            if users[e].has(i) {
                *cell += amount;
            } else {
                *cell = amount;
                users[e] |= S::one(i);
                self.watch[ends.start + i][e / 64] |= 1 << (e % 64);
            }
            if i == first {
                return;
            }
            j = self.column_of[i] as usize;
            let e = ends.entry_at[j] as usize;
            let cell = &mut self.amounts[ends.start + i][e];
            *cell -= amount;
            if *cell == 0 {
                users[e] &= !S::one(i);
            }
        }
    }
}

/// What comparing two steps has shown: that one fits the other by a flow, or
/// so that all pairs of their targets have to be watched.
#[derive(Clone, Copy, PartialEq)]
enum Fit {
    Not,
    Watched,
    Flow,
}

/// Sets that all targets of a step are related to, and that contain what some
/// target is related to.
#[derive(Clone, Copy)]
struct Bounds<S> {
    every: S,
    some: S,
}

/// An amount that is lost with its pair of targets.
#[derive(Clone, Copy)]
struct Hit {
    entries: (u16, u16),
    /// The next that the same two steps lost.
    next: u32,
}

const NONE: u32 = u32::MAX;

/// A step of the first table that lost an amount or a pair that it counted on
/// in a state of the second, and the last amount lost.
#[derive(Clone, Copy, PartialEq)]
struct Doubt {
    m: u16,
    t: u8,
    hit: u32,
}

/// All that is large. It starts as zeros, which a fresh page has of itself.
struct Memory<S, const N: usize> {
    index: Index<S, N>,
    flow: Flow<S, N>,
    uses: [Uses<N>; 2],
    sums: [[Sums; TRANSITIONS]; 2],
    /// Of each class the entries that are watched at first: those of steps at
    /// place 0, and of small steps, since to begin with these later costs more.
    watched: [[u64; ENTRIES / 64]; TRANSITIONS],
    /// The pairs of the round before, and those that it lost, where they are
    /// needed as sets.
    relation: [S; N],
    lost: [S; N],
    /// What falls while all steps are looked at.
    gone: [S; N],
    ranks: [[u16; N]; N],
    /// The step of the first table that a pair fell by, from round 2 on.
    failed: [[u8; N]; N],
    /// The pairs in the order in which they fell.
    fallen: [(u8, u8); RANKS],
    /// By steps of the first table and states of the second: twice the place
    /// of the step that is fitted, and 1 more if by a flow; and how many before
    /// that are known not to be. At first it is the one at place 0, for all
    /// targets are related. Without a flow all pairs of targets are watched.
    partner: [[u16; N]; TRANSITIONS],
    tried: [[u8; N]; TRANSITIONS],
    /// Where the doubt about a step and a state is listed, if it is.
    listed: [[u16; N]; TRANSITIONS],
    /// Room for the rows of two steps.
    rows: [S; N],
    /// Where the text of a pair's transition is, and how long.
    copies: [[(u32, u32); N]; N],
    text: Text,
}

impl<S, const N: usize> Memory<S, N> {
    fn new() -> Box<Self> {
        // All of it is numbers, for which zeros are right.
        unsafe { Box::<Self>::new_zeroed().assume_init() }
    }
}

struct Rounds<'a, S, const N: usize> {
    first: &'a Table<'a, S>,
    second: &'a Table<'a, S>,
    memory: &'a mut Memory<S, N>,
    hits: Vec<Hit>,
    doubts: Vec<Doubt>,
    all: S,
    /// Whether there are steps whose codes the second table does not list.
    added: bool,
    round: u16,
    /// How many pairs fell so far.
    count: usize,
}

impl<S: Set, const N: usize> Rounds<'_, S, N> {
    /// Fills in the ranks, and gives the number of rounds.
    fn run(&mut self) -> u16 {
        self.first_round();
        let mut from = 0;
        while from < self.count {
            let lost = from..self.count;
            from = self.count;
            self.round += 1;
            if self.round == 2 {
                self.link();
            }
            if 64 * lost.len() > self.first.states * self.second.states {
                self.scan(lost);
            } else {
                self.mark(lost);
                self.settle();
            }
            for &(s, t) in &self.memory.fallen[from..self.count] {
                self.memory.relation[s as usize] &= !S::one(t as usize);
            }
        }
        self.round - 1
    }

    /// With all pairs related only codes count.
    fn first_round(&mut self) {
        let relation = &mut self.memory.relation;
        relation[..self.first.states].fill(self.all);
        for step in &self.first.steps {
            match step.class {
                ADDED => {}
                UNUSED => relation[step.state as usize] = S::empty(),
                class => relation[step.state as usize] &= self.memory.index.having[class as usize],
            }
        }
        self.round = 1;
        for s in 0..self.first.states {
            for t in (self.all & !self.memory.relation[s]).members() {
                self.fall(s, t, 0);
            }
        }
    }

    /// A pair falls by step m. It falls by the first step that fails it, and
    /// steps may be looked at in any order.
    fn fall(&mut self, s: usize, t: usize, m: usize) {
        self.memory.failed[s][t] = m as u8;
        if self.memory.ranks[s][t] == 0 {
            self.memory.ranks[s][t] = self.round;
            self.memory.fallen[self.count] = (s as u8, t as u8);
            self.count += 1;
        }
    }

    /// A round after one in which many pairs were lost: looks at all steps
    /// whose targets lost one.
    fn scan(&mut self, lost: Range<usize>) {
        self.hits.clear();
        for &(s, t) in &self.memory.fallen[lost] {
            self.memory.lost[s as usize] |= S::one(t as usize);
        }
        let first = self.first;
        for (m, step) in first.steps.iter().enumerate() {
            let memory = &mut *self.memory;
            let (mut every, mut some, mut gone) = (self.all, S::empty(), S::empty());
            for &(target, _) in &first.entries[step.entries()] {
                every &= memory.relation[target as usize];
                some |= memory.relation[target as usize];
                gone |= memory.lost[target as usize];
            }
            if gone.is_empty() {
                continue;
            }
            let bounds = Bounds { every, some };
            for t in self.affected(m, bounds, gone).members() {
                self.scan_step(m, t, bounds, gone);
            }
        }
        self.memory.lost = [S::empty(); N];
        self.memory.gone = [S::empty(); N];
    }

    /// The states for which m may have lost its partner, if pairs were lost
    /// between targets of m and states in `gone`.
    fn affected(&self, m: usize, bounds: Bounds<S>, gone: S) -> S {
        let (memory, step) = (&*self.memory, &self.first.steps[m]);
        let s = step.state as usize;
        let left = memory.relation[s] & !memory.gone[s];
        let class = match step.class {
            ADDED => return left & !bounds.every,
            UNUSED => return S::empty(),
            class => class as usize,
        };
        let mut behind = left;
        if 2 * gone.count() < left.count() {
            let behind_one = |j: usize| memory.index.behind[class][j];
            behind &= gone
                .members()
                .fold(S::empty(), |set, j| set | behind_one(j));
        }
        let mut affected = S::empty();
        let (groups, partners) = (&memory.index.groups[class], &memory.partner[m]);
        for t in behind.members() {
            let n = (groups[t].start + (partners[t] >> 1)) as usize;
            let columns = self.second.steps[n].targets;
            if !(columns & gone).is_empty() && !(columns & !bounds.every).is_empty() {
                affected |= S::one(t);
            }
        }
        affected
    }

    /// Decides about m and t anew.
    fn scan_step(&mut self, m: usize, t: usize, bounds: Bounds<S>, gone: S) {
        let step = &self.first.steps[m];
        let partner = self.memory.partner[m][t];
        let mut hit = NONE;
        if partner & 1 == 1 {
            let group = self.memory.index.groups[step.class as usize][t];
            let n = (group.start + (partner >> 1)) as usize;
            hit = self.lost_amounts(m, n, self.second.steps[n].targets & gone);
            if hit == NONE {
                return;
            }
        }
        if !self.still_fits(m, t, hit, bounds) {
            let s = step.state as usize;
            self.memory.gone[s] |= S::one(t);
            self.fall(s, t, m);
        }
    }

    /// Lists the amounts that a flow lost in these columns.
    fn lost_amounts(&mut self, m: usize, n: usize, columns: S) -> u32 {
        let (memory, step) = (&*self.memory, &self.first.steps[m]);
        let mut hit = NONE;
        for j in columns.members() {
            let e = memory.index.entry_at[n][j];
            for i in memory.flow.users[m][e as usize].members() {
                let d = step.start + i as u16;
                let target = self.first.entries[d as usize].0;
                if memory.lost[target as usize].has(j) {
                    let (entries, next) = ((d, e), hit);
                    hit = self.hits.len() as u32;
                    self.hits.push(Hit { entries, next });
                }
            }
        }
        hit
    }

    /// Looks for a step of t that m fits, from the first that is not known not
    /// to be fitted.
    fn search(&mut self, m: usize, t: usize, group: Group, bounds: Bounds<S>) -> bool {
        let tried = self.memory.tried[m][t];
        // Among many, the one that was found for the step before comes first.
        if group.count - tried > 8 && m > 0 {
            let place = (self.memory.partner[m - 1][t] >> 1) as u8;
            if (tried..group.count).contains(&place) && self.takes(m, t, group, place, bounds) {
                return true;
            }
        }
        for place in tried..group.count {
            if self.takes(m, t, group, place, bounds) {
                self.memory.tried[m][t] = place;
                return true;
            }
        }
        false
    }

    /// Whether m fits the step of a group; if so it is m's partner from now on.
    #[inline(always)]
    fn takes(&mut self, m: usize, t: usize, group: Group, place: u8, bounds: Bounds<S>) -> bool {
        let n = group.start as usize + place as usize;
        let columns = self.second.steps[n].targets;
        if !(columns & !bounds.some).is_empty() {
            return false;
        }
        let fit = match (columns & !bounds.every).is_empty() {
            true => Fit::Watched,
            false => self.compare(m, n),
        };
        if fit == Fit::Not {
            return false;
        }
        if fit == Fit::Watched && place > 0 && self.second.steps[n].width() > SMALL {
            self.watch_all(m, n);
        }
        self.memory.partner[m][t] = 2 * place as u16 + (fit == Fit::Flow) as u16;
        true
    }

    fn watch_all(&mut self, m: usize, n: usize) {
        let memory = &mut *self.memory;
        for &(j, _) in &self.second.entries[self.second.steps[n].entries()] {
            let e = memory.index.entry_at[n][j as usize] as usize;
            for d in self.first.steps[m].entries() {
                memory.flow.watch[d][e / 64] |= 1 << (e % 64);
            }
        }
    }

    /// Watches no pair of two steps.
    fn watch_none(&mut self, m: usize, n: usize) {
        let memory = &mut *self.memory;
        let mut words = [0u64; ENTRIES / 64];
        for &(j, _) in &self.second.entries[self.second.steps[n].entries()] {
            let e = memory.index.entry_at[n][j as usize] as usize;
            words[e / 64] |= 1 << (e % 64);
        }
        for bits in &mut memory.flow.watch[self.first.steps[m].entries()] {
            for (bits, word) in bits.iter_mut().zip(&words) {
                *bits &= !word;
            }
        }
    }

    /// Compares two steps anew.
    fn compare(&mut self, m: usize, n: usize) -> Fit {
        let (from, to) = (&self.first.steps[m], &self.second.steps[n]);
        if from.width() <= SMALL && to.width() <= SMALL {
            return match self.small_fits(m, n) {
                true => Fit::Watched,
                false => Fit::Not,
            };
        }
        let memory = &mut *self.memory;
        let sources = &self.first.entries[from.entries()];
        let columns = to.targets;
        let rows = &mut memory.rows[..sources.len()];
        let (mut some, mut every) = (S::empty(), columns);
        for (row, &(target, _)) in rows.iter_mut().zip(sources) {
            *row = memory.relation[target as usize] & columns;
            if row.is_empty() {
                return Fit::Not;
            }
            some |= *row;
            every &= *row;
        }
        if some != columns {
            return Fit::Not;
        }
        if every == columns {
            return Fit::Watched;
        }
        let ends = ends(self.first, self.second, &memory.index, m, n);
        match memory.flow.cut(&ends, rows).is_empty() {
            true => Fit::Flow,
            false => Fit::Not,
        }
    }

    /// Whether m fits n, for few targets: no set must have an excess.
    fn small_fits(&self, m: usize, n: usize) -> bool {
        let memory = &*self.memory;
        let (from, to) = (&self.first.steps[m], &self.second.steps[n]);
        let (sent, taken) = (&memory.sums[0][m], &memory.sums[1][n]);
        let sinks = &self.second.entries[to.entries()];
        let mut reached = [0u8; 16];
        for (i, &(target, _)) in self.first.entries[from.entries()].iter().enumerate() {
            let columns = by_place(memory.relation[target as usize], sinks);
            for rest in 0..1 << i {
                let reach = reached[rest] | columns;
                let set = rest | 1 << i;
                reached[set & 15] = reach;
                if to.total * sent[set & 15] > from.total * taken[reach as usize & 15] {
                    return false;
                }
            }
        }
        true
    }

    /// Finds out which entries lead to which states, and sets the bits of what
    /// is watched at first.
    fn link(&mut self) {
        let memory = &mut *self.memory;
        memory.uses[0].fill(self.first);
        memory.uses[1].fill(self.second);
        let watched = &mut memory.watched;
        for (e, to) in memory.uses[1].list[..self.second.entries.len()]
            .iter()
            .enumerate()
        {
            let n = &self.second.steps[to.step as usize];
            let j = self.second.entries[to.entry as usize].0;
            memory.index.entry_at[to.step as usize][j as usize] = e as u16;
            memory.index.behind[n.class as usize][j as usize] |= S::one(n.state as usize);
            if n.place == 0 || n.width() <= SMALL {
                watched[n.class as usize][e / 64] |= 1 << (e % 64);
            }
        }
        for (m, step) in self.first.steps.iter().enumerate() {
            sum_up(&mut memory.sums[0][m], &self.first.entries[step.entries()]);
            if let Some(words) = watched.get(step.class as usize) {
                memory.flow.watch[step.entries()].fill(*words);
            }
        }
        for (n, step) in self.second.steps.iter().enumerate() {
            sum_up(&mut memory.sums[1][n], &self.second.entries[step.entries()]);
        }
    }

    /// Puts in doubt what rested on pairs that were lost.
    fn mark(&mut self, lost: Range<usize>) {
        self.hits.clear();
        self.doubts.clear();
        for k in lost {
            let (s, t) = self.memory.fallen[k];
            self.mark_pair(s as usize, t as usize);
        }
    }

    fn mark_pair(&mut self, s: usize, t: usize) {
        let (word, mask, whole) = self.memory.uses[1].span(t);
        for k in self.memory.uses[0].places(s) {
            let Use { step, entry } = self.memory.uses[0].list[k];
            let (m, d) = (step as usize, entry as usize);
            // The bits of the entries that lead to t stand together.
            let mut bits = self.memory.flow.watch[d][word] & mask;
            while bits != 0 {
                self.mark_entries(m, d, 64 * word + bits.trailing_zeros() as usize);
                bits &= bits - 1;
            }
            if !whole {
                for e in 64 * (word + 1)..self.memory.uses[1].places(t).end {
                    if self.memory.flow.watch[d][e / 64] >> (e % 64) & 1 == 1 {
                        self.mark_entries(m, d, e);
                    }
                }
            }
            if self.added && self.first.steps[m].class == ADDED {
                doubt(&mut self.memory.listed, &mut self.doubts, m, t);
            }
        }
    }

    /// The pair of two entries is lost, d of step m and e.
    fn mark_entries(&mut self, m: usize, d: usize, e: usize) {
        let memory = &mut *self.memory;
        let n = &self.second.steps[memory.uses[1].list[e].step as usize];
        let step = &self.first.steps[m];
        let (s, t) = (step.state as usize, n.state as usize);
        let partner = memory.partner[m][t];
        let rank = memory.ranks[s][t];
        if partner >> 1 != n.place as u16 || rank != 0 && rank != self.round {
            return;
        }
        if partner & 1 == 1 {
            let i = d - step.start as usize;
            if memory.flow.users[m][e].has(i) {
                let doubt = doubt(&mut memory.listed, &mut self.doubts, m, t);
                let (entries, next) = ((d as u16, e as u16), doubt.hit);
                doubt.hit = self.hits.len() as u32;
                self.hits.push(Hit { entries, next });
            }
        } else if n.alone && (step.width() == 1 || n.width() == 1) {
            // A lone target has to be related to all others.
            if rank == 0 || m < memory.failed[s][t] as usize {
                self.fall(s, t, m);
            }
        } else {
            doubt(&mut memory.listed, &mut self.doubts, m, t);
        }
    }

    /// Decides what is in doubt.
    fn settle(&mut self) {
        let bounds = Bounds {
            every: S::empty(),
            some: self.all,
        };
        for k in 0..self.doubts.len() {
            let Doubt { m, t, hit } = self.doubts[k];
            let (m, t) = (m as usize, t as usize);
            let s = self.first.steps[m].state as usize;
            let rank = self.memory.ranks[s][t];
            let open = rank == 0 || rank == self.round && m < self.memory.failed[s][t] as usize;
            if open && !self.still_fits(m, t, hit, bounds) {
                self.fall(s, t, m);
            }
        }
    }

    fn still_fits(&mut self, m: usize, t: usize, hit: u32, bounds: Bounds<S>) -> bool {
        let step = &self.first.steps[m];
        if step.class == ADDED {
            return false;
        }
        let partner = self.memory.partner[m][t];
        let group = self.memory.index.groups[step.class as usize][t];
        let n = (group.start + (partner >> 1)) as usize;
        if partner & 1 == 1 {
            if self.mend(m, n, hit) {
                return true;
            }
        } else if step.width() > 1
            && self.second.steps[n].width() > 1
            && (self.second.steps[n].targets & !bounds.some).is_empty()
        {
            if step.width() * self.second.steps[n].width() > 64 {
                self.watch_none(m, n);
            }
            let fit = self.compare(m, n);
            if fit != Fit::Not {
                self.memory.partner[m][t] |= (fit == Fit::Flow) as u16;
                return true;
            }
        }
        if group.count == 1 {
            return false;
        }
        if self.memory.tried[m][t] as u16 == partner >> 1 {
            self.memory.tried[m][t] += 1;
        }
        self.search(m, t, group, bounds)
    }

    /// Sends the amounts that a flow lost by other ways.
    fn mend(&mut self, m: usize, n: usize, mut hit: u32) -> bool {
        let memory = &mut *self.memory;
        let ends = ends(self.first, self.second, &memory.index, m, n);
        let flow = &mut memory.flow;
        let (mut short, mut open) = (S::empty(), S::empty());
        while hit != NONE {
            let Hit { entries, next } = self.hits[hit as usize];
            let (d, e) = (entries.0 as usize, entries.1 as usize);
            let entry = memory.uses[1].list[e].entry as usize;
            let (i, j) = (d - ends.start, self.second.entries[entry].0 as usize);
            let amount = flow.amounts[d][e];
            flow.users[m][e] &= !S::one(i);
            flow.left[i] = amount + if short.has(i) { flow.left[i] } else { 0 };
            flow.room[j] = amount + if open.has(j) { flow.room[j] } else { 0 };
            short |= S::one(i);
            open |= S::one(j);
            hit = next;
        }
        let relation = &memory.relation;
        let row = |i: usize| relation[ends.sources[i].0 as usize] & ends.columns;
        flow.augment(&ends, Rest { short, open }, row).is_empty()
    }
}

/// The doubt about step m in state t, listed if it is not yet.
fn doubt<'a, const N: usize>(
    listed: &mut [[u16; N]; TRANSITIONS],
    doubts: &'a mut Vec<Doubt>,
    m: usize,
    t: usize,
) -> &'a mut Doubt {
    let place = listed[m][t] as usize;
    let new = |doubt: &Doubt| doubt.m as usize != m || doubt.t as usize != t;
    if doubts.get(place).is_none_or(new) {
        listed[m][t] = doubts.len() as u16;
        let (m, t) = (m as u16, t as u8);
        doubts.push(Doubt { m, t, hit: NONE });
    }
    &mut doubts[listed[m as usize][t as usize] as usize]
}

fn ends<'a, S: Set, const N: usize>(
    first: &'a Table<S>,
    second: &'a Table<S>,
    index: &'a Index<S, N>,
    m: usize,
    n: usize,
) -> Ends<'a, S, N> {
    let (from, to) = (&first.steps[m], &second.steps[n]);
    Ends {
        m,
        start: from.start as usize,
        totals: (from.total, to.total),
        sources: &first.entries[from.entries()],
        sinks: &second.entries[to.entries()],
        columns: to.targets,
        entry_at: &index.entry_at[n],
    }
}

/// Writes the tree of a pair as text.
struct Tree<'a, S, const N: usize> {
    first: &'a Table<'a, S>,
    second: &'a Table<'a, S>,
    memory: &'a mut Memory<S, N>,
    /// The sets of the transitions that are being written.
    sets: Vec<S>,
    /// Bytes that are written or known to come.
    length: usize,
}

/// The tree is too long.
struct TooLong;

impl<S: Set, const N: usize> Tree<'_, S, N> {
    fn node(&mut self, s: usize, set: S) -> Result<(), TooLong> {
        self.memory.text.byte(set.count() as u8);
        for t in set.members() {
            self.transition(s, t)?;
        }
        Ok(())
    }

    fn count(&mut self, bytes: usize) -> Result<(), TooLong> {
        self.length += bytes;
        match self.length > LONGEST {
            true => Err(TooLong),
            false => Ok(()),
        }
    }

    fn transition(&mut self, s: usize, t: usize) -> Result<(), TooLong> {
        let (start, length) = self.memory.copies[s][t];
        if length > 0 {
            self.count(length as usize / 3)?;
            self.memory.text.copy(start as usize, length as usize);
            return Ok(());
        }
        let m = self.chosen(s, t);
        let step = &self.first.steps[m];
        self.count(3 + 4 * step.width())?;
        let text = &mut self.memory.text;
        let start = text.at;
        text.two(step.code);
        text.byte(step.width() as u8);
        if let &[(target, weight)] = &self.first.entries[step.entries()] {
            text.byte(target);
            text.two(weight);
            let rank = self.memory.ranks[s][t];
            let set = self.lone_set(step.class, target as usize, t, rank);
            self.node(target as usize, set)?;
        } else {
            self.children(m, s, t)?;
        }
        let length = self.memory.text.at - start;
        self.memory.copies[s][t] = (start as u32, length as u32);
        Ok(())
    }

    fn children(&mut self, m: usize, s: usize, t: usize) -> Result<(), TooLong> {
        let base = self.sets.len();
        self.choose_sets(m, s, t);
        for (k, entry) in self.first.steps[m].entries().enumerate() {
            let (target, weight) = self.first.entries[entry];
            self.memory.text.byte(target);
            self.memory.text.two(weight);
            self.node(target as usize, self.sets[base + k])?;
        }
        self.sets.truncate(base);
        Ok(())
    }

    /// The step that a pair fell by.
    fn chosen(&self, s: usize, t: usize) -> usize {
        if self.memory.ranks[s][t] > 1 {
            return self.memory.failed[s][t] as usize;
        }
        let steps = &self.first.steps;
        let from = steps.partition_point(|step| (step.state as usize) < s);
        let fails = |step: &Step<S>| match step.class {
            ADDED => false,
            UNUSED => true,
            class => !self.memory.index.having[class as usize].has(t),
        };
        from + steps[from..]
            .iter()
            .position(fails)
            .expect("a pair that fell")
    }

    /// Puts the sets of a pair's transition on the stack of sets. Not inlined,
    /// since the calls above are as deep as there are ranks.
    #[inline(never)]
    fn choose_sets(&mut self, m: usize, s: usize, t: usize) {
        let (base, step) = (self.sets.len(), &self.first.steps[m]);
        let sources = &self.first.entries[step.entries()];
        let rank = self.memory.ranks[s][t];
        self.sets.resize(base + sources.len(), S::empty());
        if step.class == ADDED {
            for (set, &(target, _)) in self.sets[base..].iter_mut().zip(sources) {
                if fell_before(&self.memory.ranks[target as usize], t, rank) {
                    *set = S::one(t);
                }
            }
        } else if rank > 1 {
            let group = self.memory.index.groups[step.class as usize][t];
            for place in 0..group.count {
                let n = group.start as usize + place as usize;
                self.tell_apart(m, n, rank, base);
            }
        }
    }

    /// The set of a lone target: it is the cut.
    fn lone_set(&self, class: u16, target: usize, t: usize, rank: u16) -> S {
        if class == ADDED {
            return S::one(t);
        }
        if rank == 1 {
            return S::empty();
        }
        let ranks = &self.memory.ranks[target];
        let group = self.memory.index.groups[class as usize][t];
        let mut set = S::empty();
        for n in &self.second.steps[group.start as usize..][..group.count as usize] {
            for &(j, _) in &self.second.entries[n.entries()] {
                if fell_before(ranks, j as usize, rank) {
                    set |= S::one(j as usize);
                }
            }
        }
        set
    }

    /// Adds to the sets what the members of a cut are told apart from.
    fn tell_apart(&mut self, m: usize, n: usize, rank: u16, base: usize) {
        let memory = &mut *self.memory;
        let ends = ends(self.first, self.second, &memory.index, m, n);
        let rows = &mut memory.rows[..ends.sources.len()];
        for (row, &(target, _)) in rows.iter_mut().zip(ends.sources) {
            let ranks = &memory.ranks[target as usize];
            *row = ends.columns;
            for &(j, _) in ends.sinks {
                if fell_before(ranks, j as usize, rank) {
                    *row &= !S::one(j as usize);
                }
            }
        }
        let cut = match ends.small() {
            true => {
                let sums = (&memory.sums[0][m], &memory.sums[1][n]);
                S::of(&[ends.small_cut(sums, rows) as u64, 0])
            }
            false => memory.flow.cut(&ends, rows),
        };
        let related = cut.members().fold(S::empty(), |set, i| set | rows[i]);
        for i in cut.members() {
            self.sets[base + i] |= ends.columns & !related;
        }
    }
}

/// Whether a pair is lost before the round of this rank. Rank 0 is no round.
fn fell_before<const N: usize>(ranks: &[u16; N], t: usize, rank: u16) -> bool {
    ranks[t].wrapping_sub(1) < rank - 1
}

/// The text of a space and a number, with its length in the highest byte.
static NUMBERS: [u64; RANKS + 1] = numbers();

const fn numbers() -> [u64; RANKS + 1] {
    let mut list = [0; RANKS + 1];
    let mut k = 0;
    while k <= RANKS {
        let (mut text, mut length, mut rest) = (b'0' as u64 + k as u64 % 10, 1, k / 10);
        while rest > 0 {
            text = text << 8 | (b'0' as u64 + rest as u64 % 10);
            rest /= 10;
            length += 1;
        }
        list[k] = text << 8 | b' ' as u64 | (length + 1) << 56;
        k += 1;
    }
    list
}

/// The text of a space and a byte in hexadecimal digits.
static BYTES: [[u8; 4]; 256] = bytes();

const fn bytes() -> [[u8; 4]; 256] {
    let digits = b"0123456789abcdef";
    let mut list = [[b' '; 4]; 256];
    let mut k = 0;
    while k < 256 {
        list[k][1] = digits[k / 16];
        list[k][2] = digits[k % 16];
        k += 1;
    }
    list
}

/// Room for all ranks and the longest tree, and for what is written beyond an
/// end before it is known.
const TEXT: usize = 16 * STATES + 6 * RANKS + 3 * LONGEST + 4_096;

struct Text {
    bytes: [u8; TEXT],
    at: usize,
}

impl Text {
    fn words(&mut self, words: &str) {
        self.bytes[self.at..self.at + words.len()].copy_from_slice(words.as_bytes());
        self.at += words.len();
    }

    /// A space and a number. What lies beyond its end is overwritten later.
    fn number(&mut self, number: usize) {
        let text = NUMBERS[number];
        self.bytes[self.at..self.at + 8].copy_from_slice(&text.to_le_bytes());
        self.at += (text >> 56) as usize;
    }

    fn byte(&mut self, byte: u8) {
        self.bytes[self.at..self.at + 4].copy_from_slice(&BYTES[byte as usize]);
        self.at += 3;
    }

    fn two(&mut self, number: u16) {
        let [low, high] = number.to_le_bytes();
        self.byte(low);
        self.byte(high);
    }

    /// Repeats a part. Long ones go in pieces: the C library would copy them
    /// by an instruction that is counted for every byte.
    fn copy(&mut self, start: usize, length: usize) {
        for from in (start..start + length).step_by(1_024) {
            let end = (from + 1_024).min(start + length);
            self.bytes.copy_within(from..end, self.at);
            self.at += end - from;
        }
    }
}

fn take_table<'a>(input: &mut &'a [u8]) -> &'a [u8] {
    let Some((length, rest)) = input.split_first_chunk() else {
        return &[];
    };
    let length = u16::from_le_bytes(*length) as usize;
    let (table, rest) = rest.split_at(length.min(rest.len()));
    *input = rest;
    table
}

/// How many states a table names, be it a right one or not.
fn states(table: &[u8]) -> usize {
    let codes = table.get(..2).map_or(0, two) as usize;
    let place = 2 + 2 * codes;
    table.get(place).map_or(0, |&count| count as usize)
}

fn answer(mut input: &[u8]) -> Result<(), (u32, u32)> {
    let (first, second) = (take_table(&mut input), take_table(&mut input));
    if states(first).max(states(second)) <= 64 {
        compare::<u64, 64>(first, second)
    } else {
        compare::<u128, STATES>(first, second)
    }
}

fn compare<S: Set, const N: usize>(first: &[u8], second: &[u8]) -> Result<(), (u32, u32)> {
    let mut first = Table::<S>::parse(first).map_err(|number| (1, number))?;
    let mut second = Table::<S>::parse(second).map_err(|number| (2, number))?;
    let mut memory = Memory::<S, N>::new();
    memory.index.fill(&mut second);
    memory.index.classify(&mut first, &second);
    let mut rounds = Rounds {
        first: &first,
        second: &second,
        memory: &mut memory,
        hits: Vec::new(),
        doubts: Vec::new(),
        all: S::below(second.states),
        added: first.steps.iter().any(|step| step.class == ADDED),
        round: 0,
        count: 0,
    };
    let (rounds, lost) = (rounds.run(), rounds.count);
    print_ranks(&mut memory, (first.states, second.states), rounds, lost);
    if memory.ranks[0][0] > 0 {
        print_tree(&first, &second, &mut memory);
    }
    write(&memory.text.bytes[..memory.text.at]);
    Ok(())
}

fn print_ranks<S, const N: usize>(
    memory: &mut Memory<S, N>,
    (height, width): (usize, usize),
    rounds: u16,
    lost: usize,
) {
    let text = &mut memory.text;
    text.words("tables");
    text.number(height);
    text.number(width);
    for (s, ranks) in memory.ranks[..height].iter().enumerate() {
        text.words("\nrow");
        text.number(s);
        for &rank in &ranks[..width] {
            text.number(rank as usize);
        }
    }
    text.words("\nrounds");
    text.number(rounds as usize);
    text.words(" kept");
    text.number(height * width - lost);
    text.words(" verdict ");
    let yes = memory.ranks[0][0] == 0;
    text.words(if yes { "yes\n" } else { "no\n" });
}

fn print_tree<S: Set, const N: usize>(
    first: &Table<S>,
    second: &Table<S>,
    memory: &mut Memory<S, N>,
) {
    memory.text.words("tree");
    let start = memory.text.at;
    let mut tree = Tree {
        first,
        second,
        memory,
        sets: Vec::with_capacity(2 * ENTRIES),
        length: 1,
    };
    if tree.node(0, S::one(0)).is_err() {
        memory.text.at = start;
        memory.text.words(" refused 23");
    }
    memory.text.words("\n");
}

/// A file that stays open.
fn file(descriptor: i32) -> ManuallyDrop<File> {
    ManuallyDrop::new(unsafe { File::from_raw_fd(descriptor) })
}

fn write(bytes: &[u8]) {
    _ = file(1).write_all(bytes);
}

#[no_mangle]
extern "C" fn main() -> i32 {
    let mut input = vec![0; 1 << 18];
    let mut length = 0;
    while let Ok(count @ 1..) = file(0).read(&mut input[length..]) {
        length += count;
    }
    if let Err((table, number)) = answer(&input[..length]) {
        write(format!("refused {table} {number}\n").as_bytes());
    }
    0
}
