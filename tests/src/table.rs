//! Tables, and reading and writing them in bytes, in either layout.

#[derive(Clone, Debug, PartialEq)]
pub struct Transition {
    pub code: u16,
    /// States with their weights. One of weight 0 is no target.
    pub entries: Vec<(u8, u16)>,
}

#[derive(Clone, Debug, PartialEq)]
pub struct Table {
    pub codes: Vec<u16>,
    pub states: Vec<Vec<Transition>>,
}

/// The limits of a table; that of a state's transitions is what a count of
/// one byte can say.
pub const STATES: usize = 128;
pub const TRANSITIONS: usize = 256;
pub const ENTRIES: usize = 512;
pub const CODES: usize = 1_024;
pub const STEPS: usize = u8::MAX as usize;
pub const TOTAL: u64 = 65_535;

/// The bytes of a code, and of the count of codes, in the old layout and in
/// the wide one. The two differ in nothing else.
pub const NARROW: usize = 1;
pub const WIDE: usize = 2;

/// The largest number that a field of so many bytes can hold.
pub const fn top(width: usize) -> usize {
    (1 << (8 * width)) - 1
}

/// The most codes of a table.
pub const fn most_codes(width: usize) -> usize {
    match top(width) {
        top if top < CODES => top,
        _ => CODES,
    }
}

/// The bytes of a table with as many codes as can be and all else at the
/// limits.
pub const fn largest(width: usize) -> usize {
    let actions = width + width * most_codes(width);
    actions + 1 + STATES + 2 + (width + 1) * TRANSITIONS + 2 + 3 * ENTRIES
}

/// The largest rank, and the number of pairs of two tables at the limits.
pub const PAIRS: usize = STATES * STATES;

/// The states that one word of a set in memory has bits for. Tables of that
/// size are tried beside the largest.
pub const WORD: usize = u64::BITS as usize;

/// A set of states, or of places in a list of targets: bit t stands for t.
pub type Set = u128;
const _: () = assert!(STATES <= Set::BITS as usize);

/// The set of the numbers below `count`.
pub fn below(count: usize) -> Set {
    (0..count).fold(0, |set, t| set | 1 << t)
}

pub fn has(set: Set, t: usize) -> bool {
    set >> t & 1 == 1
}

/// The members of a set, ascending.
pub fn members(mut set: Set) -> impl Iterator<Item = usize> {
    std::iter::from_fn(move || {
        let t = set.trailing_zeros();
        set &= set.wrapping_sub(1);
        (t < Set::BITS).then_some(t as usize)
    })
}

pub const P: [u8; 29] = [
    0x02, 0x00, 0x0a, 0x00, 0x14, 0x00, 0x03, 0x01, 0x01, 0x00, 0x02, 0x00, 0x0a, 0x00, 0x02, 0x14,
    0x00, 0x01, 0x03, 0x00, 0x01, 0x03, 0x00, 0x02, 0x01, 0x00, 0x01, 0x01, 0x00,
];

pub const C: [u8; 29] = [
    0x02, 0x00, 0x0a, 0x00, 0x14, 0x00, 0x03, 0x01, 0x01, 0x00, 0x02, 0x00, 0x0a, 0x00, 0x02, 0x14,
    0x00, 0x01, 0x03, 0x00, 0x01, 0x01, 0x00, 0x02, 0x01, 0x00, 0x01, 0x01, 0x00,
];

/// The same with an entry for every state in each transition: those that the
/// examples above do not list have weight 0.
pub const ZEROS_P: [u8; 38] = [
    0x02, 0x00, 0x0a, 0x00, 0x14, 0x00, 0x03, 0x01, 0x01, 0x00, 0x02, 0x00, 0x0a, 0x00, 0x03, 0x14,
    0x00, 0x03, 0x06, 0x00, 0x00, 0x00, 0x00, 0x01, 0x03, 0x00, 0x02, 0x01, 0x00, 0x00, 0x00, 0x00,
    0x01, 0x01, 0x00, 0x02, 0x00, 0x00,
];

pub const ZEROS_C: [u8; 38] = [
    0x02, 0x00, 0x0a, 0x00, 0x14, 0x00, 0x03, 0x01, 0x01, 0x00, 0x02, 0x00, 0x0a, 0x00, 0x03, 0x14,
    0x00, 0x03, 0x06, 0x00, 0x00, 0x00, 0x00, 0x01, 0x01, 0x00, 0x02, 0x01, 0x00, 0x00, 0x00, 0x00,
    0x01, 0x01, 0x00, 0x02, 0x00, 0x00,
];

/// C with a code for the display, 1E, by which every state stays as it is.
pub const SHOWING_C: [u8; 49] = [
    0x03, 0x00, 0x0a, 0x00, 0x14, 0x00, 0x1e, 0x00, 0x03, 0x02, 0x02, 0x01, 0x05, 0x00, 0x0a, 0x00,
    0x02, 0x1e, 0x00, 0x01, 0x14, 0x00, 0x01, 0x1e, 0x00, 0x01, 0x1e, 0x00, 0x01, 0x06, 0x00, 0x01,
    0x01, 0x00, 0x02, 0x01, 0x00, 0x00, 0x01, 0x00, 0x01, 0x01, 0x00, 0x01, 0x01, 0x00, 0x02, 0x01,
    0x00,
];

/// The smallest table: one state, no action.
pub const LONE: [u8; 8] = [0, 0, 1, 0, 0, 0, 0, 0];

/// One state that stands still by code 0A.
pub const STILL: [u8; 16] = [
    0x01, 0x00, 0x0a, 0x00, 0x01, 0x01, 0x01, 0x00, 0x0a, 0x00, 0x01, 0x01, 0x00, 0x00, 0x01, 0x00,
];

/// P, C and the smallest table in the old layout.
pub const OLD_P: [u8; 24] = [
    0x02, 0x0a, 0x14, 0x03, 0x01, 0x01, 0x00, 0x02, 0x00, 0x0a, 0x02, 0x14, 0x01, 0x03, 0x00, 0x01,
    0x03, 0x00, 0x02, 0x01, 0x00, 0x01, 0x01, 0x00,
];

pub const OLD_C: [u8; 24] = [
    0x02, 0x0a, 0x14, 0x03, 0x01, 0x01, 0x00, 0x02, 0x00, 0x0a, 0x02, 0x14, 0x01, 0x03, 0x00, 0x01,
    0x01, 0x00, 0x02, 0x01, 0x00, 0x01, 0x01, 0x00,
];

pub const OLD_LONE: [u8; 7] = [0, 1, 0, 0, 0, 0, 0];

impl Transition {
    pub fn total(&self) -> u64 {
        self.entries.iter().map(|&(_, weight)| weight as u64).sum()
    }
}

impl Table {
    /// A table that lists just the codes it uses.
    pub fn new(states: Vec<Vec<Transition>>) -> Table {
        let mut codes: Vec<u16> = states.iter().flatten().map(|step| step.code).collect();
        codes.sort();
        codes.dedup();
        Table { codes, states }
    }

    pub fn transitions(&self) -> usize {
        self.states.iter().map(|steps| steps.len()).sum()
    }

    pub fn entries(&self) -> usize {
        let steps = self.states.iter().flatten();
        steps.map(|step| step.entries.len()).sum()
    }

    /// The table without its entries of weight 0: what is judged.
    pub fn supported(&self) -> Table {
        let mut table = self.clone();
        for step in table.states.iter_mut().flatten() {
            step.entries.retain(|&(_, weight)| weight > 0);
        }
        table
    }

    /// The table with a transition to itself, weight 1, after those of each
    /// state for each of these codes that the table does not list. Its list
    /// stays: a transition is an added one if its code is not in it.
    pub fn completed(&self, codes: &[u16]) -> Table {
        let mut table = self.clone();
        for &code in codes.iter().filter(|&code| !self.codes.contains(code)) {
            for (t, steps) in table.states.iter_mut().enumerate() {
                let entries = vec![(t as u8, 1)];
                steps.push(Transition { code, entries });
            }
        }
        table
    }

    /// The table in bytes, whether it keeps the rules or not. Codes and
    /// counts are cut to their fields.
    pub fn bytes_at(&self, width: usize) -> Vec<u8> {
        let mut bytes = field(width, self.codes.len());
        for &code in &self.codes {
            bytes.extend(field(width, code.into()));
        }
        bytes.push(self.states.len() as u8);
        bytes.extend(self.states.iter().map(|steps| steps.len() as u8));
        bytes.extend(field(2, self.transitions()));
        for step in self.states.iter().flatten() {
            bytes.extend(field(width, step.code.into()));
            bytes.push(step.entries.len() as u8);
        }
        bytes.extend(field(2, self.entries()));
        for (target, weight) in self.states.iter().flatten().flat_map(|step| &step.entries) {
            bytes.push(*target);
            bytes.extend(weight.to_le_bytes());
        }
        bytes
    }

    /// The same in the wide layout.
    pub fn bytes(&self) -> Vec<u8> {
        self.bytes_at(WIDE)
    }
}

/// A number in so many bytes, low byte first; what does not fit is cut off.
pub fn field(width: usize, number: usize) -> Vec<u8> {
    number.to_le_bytes()[..width].to_vec()
}

/// The number that a field holds.
fn value(field: &[u8]) -> usize {
    let digits = field.iter().rev();
    digits.fold(0, |number, &digit| 256 * number + digit as usize)
}

struct Bytes<'a> {
    rest: &'a [u8],
}

impl<'a> Bytes<'a> {
    /// The next `count` bytes; refusal 1 if they are not all there.
    fn take(&mut self, count: usize) -> Result<&'a [u8], u32> {
        if self.rest.len() < count {
            return Err(1);
        }
        let (taken, rest) = self.rest.split_at(count);
        self.rest = rest;
        Ok(taken)
    }

    fn number(&mut self, width: usize) -> Result<usize, u32> {
        Ok(value(self.take(width)?))
    }
}

fn rule(holds: bool, number: u32) -> Result<(), u32> {
    if holds {
        Ok(())
    } else {
        Err(number)
    }
}

/// The table that the bytes hold, or the number of the refusal.
pub fn parse_at(width: usize, bytes: &[u8]) -> Result<Table, u32> {
    let mut bytes = Bytes { rest: bytes };

    let count = bytes.number(width)?;
    rule(count <= CODES, 3)?;
    let codes = bytes.take(width * count)?.chunks(width);
    let codes: Vec<u16> = codes.map(|code| value(code) as u16).collect();
    rule(codes.windows(2).all(|two| two[0] < two[1]), 3)?;

    let count = bytes.number(1)?;
    rule((1..=STATES).contains(&count), 4)?;
    let shares = bytes.take(count)?;

    let count = bytes.number(2)?;
    let sum: usize = shares.iter().map(|&share| share as usize).sum();
    rule(count <= TRANSITIONS && count == sum, 5)?;
    // Each transition's code and how many entries it has.
    let steps = bytes.take((width + 1) * count)?.chunks(width + 1);
    let steps = steps.map(|step| (value(&step[..width]) as u16, step[width] as usize));
    let steps: Vec<(u16, usize)> = steps.collect();
    for (code, share) in &steps {
        rule(codes.contains(code), 6)?;
        rule(*share >= 1, 8)?;
    }

    let count = bytes.number(2)?;
    let sum: usize = steps.iter().map(|step| step.1).sum();
    rule(count <= ENTRIES && count == sum, 7)?;
    let entries = bytes.take(3 * count)?;

    let mut steps = steps.into_iter();
    let mut entries = entries.chunks(3);
    let mut states = Vec::new();
    for &share in shares {
        let mut list = Vec::new();
        for (code, share) in steps.by_ref().take(share as usize) {
            let of_step = entries.by_ref().take(share);
            list.push(transition(code, of_step, shares.len())?);
        }
        states.push(list);
    }

    rule(bytes.rest.is_empty(), 2)?;
    Ok(Table { codes, states })
}

/// The same in the wide layout.
pub fn parse(bytes: &[u8]) -> Result<Table, u32> {
    parse_at(WIDE, bytes)
}

/// The wide bytes of the table that old bytes hold, or the number of the
/// refusal.
pub fn widen(old: &[u8]) -> Result<Vec<u8>, u32> {
    Ok(parse_at(NARROW, old)?.bytes())
}

fn transition<'a>(
    code: u16,
    bytes: impl Iterator<Item = &'a [u8]>,
    states: usize,
) -> Result<Transition, u32> {
    let mut entries: Vec<(u8, u16)> = Vec::new();
    let mut total = 0;
    for entry in bytes {
        let target = entry[0];
        rule((target as usize) < states, 9)?;
        rule(entries.last().is_none_or(|last| last.0 < target), 9)?;
        let weight = u16::from_le_bytes([entry[1], entry[2]]);
        total += weight as u64;
        rule(total <= TOTAL, 10)?;
        entries.push((target, weight));
    }
    rule(total > 0, 10)?;
    Ok(Transition { code, entries })
}
