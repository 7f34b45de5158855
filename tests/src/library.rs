//! Calls of the library, every lent buffer filled beforehand with a pattern
//! and standing between guards, and none with more stack than promised.

use crate::answer::Answer;
#[cfg(feature = "check")]
use crate::answer::{widen_answer, Expected, Lengths, Pair, Shown};
#[cfg(feature = "check")]
use crate::flow::judge;
use crate::stack::{used, PROMISED};
#[cfg(feature = "check")]
use crate::table::has;
#[cfg(feature = "check")]
use crate::tree::{replay, Replay};

extern "C" {
    fn pod_check_table(table: *const u8, len: usize, answer: *mut u32, answer_len: usize);
    #[cfg(feature = "check")]
    fn pod_check(
        first: *const u8,
        first_len: usize,
        second: *const u8,
        second_len: usize,
        s: usize,
        t: usize,
        ranks: *mut u16,
        ranks_len: usize,
        flow: *mut u8,
        flow_len: usize,
        tree: *mut u8,
        tree_len: usize,
        answer: *mut u32,
        answer_len: usize,
    );
    #[cfg(feature = "check")]
    fn pod_widen(
        old: *const u8,
        old_len: usize,
        out: *mut u8,
        out_len: usize,
        answer: *mut u32,
        answer_len: usize,
    );
}

/// Fields of an answer.
pub const FIELDS: usize = 8;
const GUARD: usize = 8;

/// A buffer to lend: a pattern that depends on the place and on `salt`, with
/// guards before and after.
struct Lent<T> {
    all: Vec<T>,
    length: usize,
    salt: u64,
    make: fn(u64) -> T,
}

impl<T: Copy + PartialEq> Lent<T> {
    fn new(length: usize, salt: u64, make: fn(u64) -> T) -> Lent<T> {
        let mut lent = Lent {
            all: Vec::new(),
            length,
            salt,
            make,
        };
        lent.all = (0..length + 2 * GUARD).map(|at| lent.pattern(at)).collect();
        lent
    }

    fn pattern(&self, at: usize) -> T {
        (self.make)((self.salt + at as u64).wrapping_mul(0x9e37_79b9_7f4a_7c15) >> 24)
    }

    fn part(&mut self) -> &mut [T] {
        &mut self.all[GUARD..GUARD + self.length]
    }

    /// The first `count` elements, if all others are as they were lent.
    fn filled(&self, count: usize) -> Option<&[T]> {
        let clean = |at: usize| self.all[at] == self.pattern(at);
        let rest = GUARD + count.min(self.length)..self.all.len();
        let clean = (0..GUARD).all(clean) && rest.into_iter().all(clean);
        clean.then(|| &self.all[GUARD..GUARD + count.min(self.length)])
    }
}

/// Makes a call, and gives the bytes of stack that it took.
fn bounded(call: impl FnOnce()) -> usize {
    let stack = used(call);
    assert!(stack <= PROMISED, "at least {stack} bytes of stack");
    stack
}

fn answer_of(answer: &Lent<u32>) -> Answer {
    let fields = answer.filled(FIELDS).expect("numbers beyond the answer");
    Answer {
        number: fields[0],
        table: fields[1],
        needed: fields[2],
        rounds: fields[3],
        kept: fields[4],
        verdict: fields[5],
        rank: fields[6],
        written: fields[7],
    }
}

/// The answer to a lone table.
pub fn check_table(table: &[u8], salt: u64) -> Answer {
    let mut answer = Lent::new(FIELDS + (salt % 3) as usize, salt, |p| p as u32);
    let part = answer.part();
    // SAFETY: pointers and lengths are those of live slices.
    bounded(|| unsafe {
        pod_check_table(table.as_ptr(), table.len(), part.as_mut_ptr(), part.len())
    });
    answer_of(&answer)
}

/// The number in the answer to a lone table; the table must be told with it,
/// and all else be 0.
pub fn number(table: &[u8]) -> u32 {
    let answer = check_table(table, table.len() as u64);
    let refused = (answer.number > 0) as u32;
    assert_eq!(answer, Answer::refusal(answer.number, refused, 0));
    answer.number
}

/// Whether a lone table's answer buffer of this length is left as lent.
pub fn check_table_short(table: &[u8], length: usize) -> bool {
    let mut answer = Lent::new(length, 7, |p| p as u32);
    let part = answer.part();
    // SAFETY: as above.
    bounded(|| unsafe {
        pod_check_table(table.as_ptr(), table.len(), part.as_mut_ptr(), part.len())
    });
    answer.filled(0).is_some()
}

/// Buffers after an old table was widened.
#[cfg(feature = "check")]
pub struct Widened {
    out: Lent<u8>,
    answer: Lent<u32>,
}

#[cfg(feature = "check")]
impl Widened {
    /// Widens an old table with buffers of these lengths.
    pub fn new(old: &[u8], out: usize, answer: usize, salt: u64) -> Widened {
        let mut widened = Widened {
            out: Lent::new(out, salt, |p| p as u8),
            answer: Lent::new(answer, salt + 1, |p| p as u32),
        };
        let (out, answer) = (widened.out.part(), widened.answer.part());
        // SAFETY: pointers and lengths are those of live slices, no two of
        // which overlap.
        bounded(|| unsafe {
            pod_widen(
                old.as_ptr(),
                old.len(),
                out.as_mut_ptr(),
                out.len(),
                answer.as_mut_ptr(),
                answer.len(),
            )
        });
        widened
    }

    /// Whether nothing that was lent has changed.
    pub fn untouched(&self) -> bool {
        self.answer.filled(0).is_some() && self.out.filled(0).is_some()
    }
}

/// Widens an old table, holds the answer and all bytes of the buffer against
/// what they must be, and gives the answer with the bytes written.
#[cfg(feature = "check")]
pub fn widen(old: &[u8], out: usize, salt: u64) -> (Answer, Vec<u8>) {
    let widened = Widened::new(old, out, FIELDS + (salt % 3) as usize, salt);
    let (due, wide) = widen_answer(old, out);
    let answer = answer_of(&widened.answer);
    assert_eq!(answer, due, "{out} bytes for {old:02x?}");
    let written = widened.out.filled(wide.len());
    let written = written.expect("bytes changed beyond those written");
    assert_eq!(written, wide, "{out} bytes for {old:02x?}");
    (answer, wide)
}

/// Buffers after a call.
#[cfg(feature = "check")]
pub struct Call {
    ranks: Lent<u16>,
    flow: Lent<u8>,
    tree: Lent<u8>,
    answer: Lent<u32>,
    /// Bytes of stack taken.
    stack: usize,
}

#[cfg(feature = "check")]
impl Call {
    /// Calls the check with buffers of these lengths.
    pub fn new(
        tables: (&[u8], &[u8]),
        (s, t): (usize, usize),
        lengths: Lengths,
        answer: usize,
        salt: u64,
    ) -> Call {
        let mut call = Call {
            ranks: Lent::new(lengths.ranks, salt, |p| p as u16),
            flow: Lent::new(lengths.flow, salt + 1, |p| p as u8),
            tree: Lent::new(lengths.tree, salt + 2, |p| p as u8),
            answer: Lent::new(answer, salt + 3, |p| p as u32),
            stack: 0,
        };
        let (ranks, flow, tree) = (call.ranks.part(), call.flow.part(), call.tree.part());
        let answer = call.answer.part();
        // SAFETY: pointers and lengths are those of live slices, no two of
        // which overlap where one of them is written.
        call.stack = bounded(|| unsafe {
            pod_check(
                tables.0.as_ptr(),
                tables.0.len(),
                tables.1.as_ptr(),
                tables.1.len(),
                s,
                t,
                ranks.as_mut_ptr(),
                ranks.len(),
                flow.as_mut_ptr(),
                flow.len(),
                tree.as_mut_ptr(),
                tree.len(),
                answer.as_mut_ptr(),
                answer.len(),
            )
        });
        call
    }

    /// Whether nothing that was lent has changed.
    pub fn untouched(&self) -> bool {
        self.answer.filled(0).is_some() && self.buffers_untouched()
    }

    fn buffers_untouched(&self) -> bool {
        let tree_and_flow = self.flow.filled(0).is_some() && self.tree.filled(0).is_some();
        self.ranks.filled(0).is_some() && tree_and_flow
    }

    /// The answer of a call that refuses a table or a pair and so changes
    /// no buffer.
    pub fn refusal(&self) -> Answer {
        assert!(self.buffers_untouched(), "a refusal changed a buffer");
        answer_of(&self.answer)
    }
}

/// What a judged call came to.
#[cfg(feature = "check")]
pub struct Judged {
    pub answer: Answer,
    /// As they were left; none where they were not filled in.
    pub ranks: Vec<u16>,
    /// Targets whose weight had to be shared out over several.
    pub split: usize,
    pub flow: Vec<u8>,
    pub tree: Vec<u8>,
    /// Bytes of stack taken.
    pub stack: usize,
}

#[cfg(feature = "check")]
impl Judged {
    /// A tree is followed by its first state, not by its second, and its
    /// depth is the rank.
    pub fn replayed(&self, pair: &Pair, s: usize, t: usize) -> Replay {
        let own = replay(&self.tree, &pair.first).unwrap();
        let other = replay(&self.tree, &pair.contract).unwrap();
        assert!(has(own.followers, s));
        assert!(!has(other.followers, t));
        assert_eq!(own.depth as u32, pair.rank(s, t));
        own
    }
}

/// Calls the library for a pair of states and holds everything it leaves
/// behind against what it must.
#[cfg(feature = "check")]
pub fn check(pair: &Pair, s: usize, t: usize, lengths: Lengths, salt: u64) -> Judged {
    let tables = (&pair.bytes.0[..], &pair.bytes.1[..]);
    let call = Call::new(tables, (s, t), lengths, FIELDS + (salt % 3) as usize, salt);
    let answer = answer_of(&call.answer);
    match compare(pair, (s, t), pair.expect(s, t, lengths), &call, answer) {
        Ok(judged) => judged,
        Err(words) => panic!(
            "{words}: states {s} {t}, {lengths:?}, {answer:?},\n first {:02x?}\nsecond {:02x?}",
            tables.0, tables.1
        ),
    }
}

#[cfg(feature = "check")]
fn compare(
    pair: &Pair,
    (s, t): (usize, usize),
    expected: Expected,
    call: &Call,
    answer: Answer,
) -> Result<Judged, String> {
    let ranks = call.ranks.filled(match expected.ranked {
        true => pair.ranking.ranks.len(),
        false => 0,
    });
    let ranks = ranks.ok_or("ranks changed beyond the pairs")?;
    if expected.ranked && ranks != pair.ranking.ranks {
        return Err(format!("ranks {:?} not {:?}", ranks, pair.ranking.ranks));
    }

    let mut due = expected.answer;
    let (mut flow_length, mut tree_length) = (0, 0);
    match &expected.shown {
        Shown::Nothing => {}
        Shown::Flow => {
            due.written = answer.written;
            flow_length = answer.written as usize;
        }
        Shown::Tree(bytes) => tree_length = bytes.len(),
    }
    if answer != due {
        return Err(format!("answer, due {due:?}"));
    }
    let flow = call.flow.filled(flow_length);
    let flow = flow.ok_or("flow buffer changed beyond the flow")?;
    let tree = call.tree.filled(tree_length);
    let tree = tree.ok_or("tree buffer changed beyond the tree")?;

    let mut split = 0;
    match expected.shown {
        Shown::Nothing => {}
        Shown::Flow => {
            if flow_length > flow.len() {
                return Err("flow longer than its buffer".to_string());
            }
            let (first, contract) = (&pair.first, &pair.contract);
            let kept = pair.ranking.last();
            split = judge(pair.subsets, first, contract, kept, (s, t), flow)?;
        }
        Shown::Tree(bytes) if tree != bytes => {
            return Err(format!("tree {tree:02x?} not {bytes:02x?}"));
        }
        Shown::Tree(_) => {}
    }
    Ok(Judged {
        answer,
        ranks: ranks.to_vec(),
        split,
        flow: flow.to_vec(),
        tree: tree.to_vec(),
        stack: call.stack,
    })
}
