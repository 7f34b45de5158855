//! Stacks: how much of one a call of the library takes, and a deep one for
//! the second program, which goes down a tree by recursion.

use std::arch::asm;
use std::cell::RefCell;

/// The most bytes of stack that a call takes on x86-64.
pub const PROMISED: usize = 200 << 10;

/// Bytes that are counted, and bytes that there are: a call that takes too
/// much is told by its count, while nothing else is overwritten.
const COUNTED: usize = 2 * PROMISED;
const LENT: usize = 2 << 20;

/// As wide as a stack must be aligned.
type Word = u128;
const WORD: usize = size_of::<Word>();
const PAINT: Word = 0x9e37_79b9_7f4a_7c15_f39c_c060_5ced_c834;

thread_local! {
    static STACK: RefCell<Vec<Word>> = RefCell::new(vec![PAINT; LENT / WORD]);
}

extern "C" fn run<F: FnOnce()>(call: &mut Option<F>) {
    call.take().unwrap()();
}

/// Makes a call on a painted stack of its own, and gives the bytes from the
/// stack's start to the last that has lost its paint. That is exact to a
/// word, and costs far less than a thread with a small stack for each call.
pub fn used<F: FnOnce()>(call: F) -> usize {
    STACK.with_borrow_mut(|stack| {
        let mut call = Some(call);
        // SAFETY: the call starts at the end of words that are good to write
        // until it is done, and the old stack is back then. It can't unwind:
        // a panic ends the process in `run`.
        unsafe {
            asm!(
                "xchg rsp, r12",
                "call {run}",
                "mov rsp, r12",
                run = in(reg) run::<F>,
                in("rdi") &mut call,
                inout("r12") stack.as_mut_ptr_range().end => _,
                clobber_abi("C"),
            );
        }
        let counted = &mut stack[(LENT - COUNTED) / WORD..];
        let painted = counted.iter().take_while(|&&word| word == PAINT).count();
        counted[painted..].fill(PAINT);
        COUNTED - painted * WORD
    })
}

/// Runs on a stack for trees of thousands of levels.
pub fn deep(work: impl FnOnce() + Send) {
    std::thread::scope(|scope| {
        let builder = std::thread::Builder::new().stack_size(64 << 20);
        let thread = builder.spawn_scoped(scope, work).unwrap();
        thread.join().unwrap();
    });
}
