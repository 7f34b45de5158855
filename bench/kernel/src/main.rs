// Runs one kernel on the problems of one size. The script counts the instructions inside `kernel` and `plain`.
mod plain;
#[path = "../../set.rs"]
mod set;

use plain::MOST;
use set::Set;

// A slice passes as a pointer and a length.
extern "C" {
    fn transport_flow(
        m: *const u16, p: usize, n: *const u16, q: usize, rel: *const u64, rows: usize,
        x: *mut u32, cells: usize, cut: *mut u64, cuts: usize, paths: *mut u32, counts: usize,
    ) -> u32;
}

#[no_mangle]
#[inline(never)]
pub fn bench_kernel(m: &[u16], n: &[u16], rel: &[u64], x: &mut [u32]) -> Option<u128> {
    let (mut cut, mut paths) = ([0; 2], 0);
    // SAFETY: pointers and lengths of slices, of an array and of a number, that outlive the call.
    let taken = unsafe {
        transport_flow(
            m.as_ptr(), m.len(), n.as_ptr(), n.len(), rel.as_ptr(), rel.len(),
            x.as_mut_ptr(), x.len(), cut.as_mut_ptr(), cut.len(), &mut paths, 1,
        )
    };
    (taken == 1).then(|| u128::of(&cut))
}

#[no_mangle]
#[inline(never)]
pub fn bench_plain(m: &[u16], n: &[u16], rel: &[u64], x: &mut [u32]) -> Option<u128> {
    plain::flow(m, n, rel, x)
}

struct Random(u64);

impl Random {
    fn next(&mut self) -> u64 {
        self.0 ^= self.0 << 13;
        self.0 ^= self.0 >> 7;
        self.0 ^= self.0 << 17;
        self.0
    }

    fn below(&mut self, n: u64) -> u64 {
        (self.next() >> 11) % n
    }
}

// The two words of row i: its own column, and of the others so many in a hundred.
fn row(random: &mut Random, size: usize, percent: u64, i: usize) -> [u64; 2] {
    let mut words = [0; 2];
    words[i / 64] |= 1 << (i % 64);
    for j in 0..size {
        words[j / 64] |= ((random.below(100) < percent) as u64) << (j % 64);
    }
    words
}

fn main() {
    let args: Vec<String> = std::env::args().collect();
    let size: usize = args[2].parse().unwrap();
    let percent: u64 = args[3].parse().unwrap();
    let rounds: usize = args[4].parse().unwrap();
    // The total is at most 65,535.
    let most = (65_535 / size as u64).min(1000);
    let mut random = Random(0x9e37_79b9_7f4a_7c15);
    let mut x = vec![0u32; MOST * MOST];
    let mut sum: u128 = 0;
    for _ in 0..rounds {
        let m: Vec<u16> = (0..size).map(|_| 1 + random.below(most) as u16).collect();
        let n: Vec<u16> = (0..size).map(|_| 1 + random.below(most) as u16).collect();
        let rel: Vec<u64> = (0..size).flat_map(|i| row(&mut random, size, percent, i)).collect();
        let cut = if args[1] == "plain" { bench_plain(&m, &n, &rel, &mut x) } else { bench_kernel(&m, &n, &rel, &mut x) };
        sum = sum.wrapping_mul(31).wrapping_add(cut.expect("a flow"));
    }
    println!("{sum:032x}");
}
