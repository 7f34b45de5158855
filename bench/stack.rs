//! Calls the library on inputs of podcheck's, all buffers on the heap, and prints the bytes of stack that each call takes.

#![allow(dead_code)]

#[path = "../tests/src/stack.rs"]
mod stack;

use std::path::Path;

/// The buffers of the largest call.
const RANKS: usize = 128 * 128;
const FLOW: usize = 393_982;
const TREE: usize = 65_535;

extern "C" {
    fn pod_check(
        first: *const u8,
        first_len: usize,
        second: *const u8,
        second_len: usize,
        s: usize,
        t: usize,
        ranks: *mut u16,
        ranks_len: usize,
        flow: *mut u8,
        flow_len: usize,
        tree: *mut u8,
        tree_len: usize,
        answer: *mut u32,
        answer_len: usize,
    );
}

fn table(input: &[u8]) -> (&[u8], &[u8]) {
    let length = usize::from(input[0]) + 256 * usize::from(input[1]);
    input[2..].split_at(length)
}

fn call(input: &[u8]) -> usize {
    let (first, rest) = table(input);
    let (second, _) = table(rest);
    let mut ranks = vec![0u16; RANKS];
    let mut flow = vec![0u8; FLOW];
    let mut tree = vec![0u8; TREE];
    let mut answer = vec![0u32; 8];
    // SAFETY: every pointer is good for the length beside it, and the buffers do not overlap.
    stack::used(|| unsafe {
        pod_check(
            first.as_ptr(),
            first.len(),
            second.as_ptr(),
            second.len(),
            0,
            0,
            ranks.as_mut_ptr(),
            ranks.len(),
            flow.as_mut_ptr(),
            flow.len(),
            tree.as_mut_ptr(),
            tree.len(),
            answer.as_mut_ptr(),
            answer.len(),
        );
    })
}

fn main() {
    for name in std::env::args().skip(1) {
        let path = Path::new(&name);
        let input = std::fs::read(path).unwrap();
        println!("{}: {}", path.file_stem().unwrap().display(), call(&input));
    }
}
