//! The flow kernel against all subsets and against a maximum flow of its own, at the limits, and on problems made to be slow,
//! where its augmenting paths are counted.

use kernel_tests::{flow, total, words, Problem, Random, Right, Set, CELLS, SIDE, WHOLE, WORD, WORDS};

// The kernel is right, and takes no more augmenting paths than there are targets.
fn agree(problem: &Problem, right: Right) {
    assert_eq!(problem.by_kernel(), right, "{problem:?}");
    let (paths, targets) = (problem.paths(), problem.m.len() + problem.n.len());
    assert!(paths <= targets, "{paths} paths: {problem:?}");
}

#[test]
fn ten_thousand_problems_against_all_subsets() {
    let mut random = Random(0x1234_5678_9abc_def1);
    for k in 0..10_000 {
        let rows = if k % 20 == 0 { 12 } else { random.below(8) as usize };
        let columns = random.below(13) as usize;
        let percent = [0, 10, 25, 50, 75, 100][random.below(6) as usize];
        let most = [1, 3, 10, 5000][random.below(4) as usize];
        let problem = Problem::random(&mut random, rows, columns, percent, most, None);
        agree(&problem, problem.by_subsets());
    }
}

// Random problems of up to so many targets on a side, one in four with all of them.
fn against_a_network(seed: u64, problems: usize, side: usize) {
    let mut random = Random(seed);
    for k in 0..problems {
        let mut targets = || if k % 4 == 0 { side } else { 1 + random.below(side as u64) as usize };
        let (rows, columns) = (targets(), targets());
        let percent = [1, 2, 3, 5, 10, 30, 100][random.below(7) as usize];
        let most = [1, 2, 100, 2000][random.below(4) as usize];
        let whole = if k % 3 == 0 { Some(WHOLE) } else { None };
        let problem = Problem::random(&mut random, rows, columns, percent, most, whole);
        agree(&problem, problem.by_network());
    }
}

#[test]
fn up_to_64_targets_against_a_network() {
    against_a_network(0xfeed_beef_cafe_f00d, 10_000, WORD);
}

#[test]
fn up_to_128_targets_against_a_network() {
    against_a_network(0xfeed_beef_cafe_f00d, 3_000, SIDE);
}

// Problems whose targets with a weight, related ones and members of the cut lie in the second word alone, and across the two.
#[test]
fn targets_of_the_second_word_alone() {
    let mut random = Random(0x0bad_cafe_1234_5678);
    let mut cuts = 0;
    for k in 0..1_000 {
        let side = 1 + random.below(WORD as u64) as usize;
        let percent = [2, 5, 10, 30, 100][random.below(5) as usize];
        let most = [1, 2, 100, 1000][random.below(4) as usize];
        let problem = Problem::random(&mut random, side, side, percent, most, None);
        for by in [WORD, SIDE - side, 33 + k % 31] {
            let shifted = problem.shifted(by);
            let (own, right) = (problem.by_network(), shifted.by_network());
            assert_eq!((right.sent, right.cut), (own.sent, own.cut << by));
            cuts += (right.cut != 0 && by == WORD) as usize;
            agree(&shifted, right);
        }
    }
    assert!(cuts > 100, "{cuts} cuts");
}

// Rows of the first word each send all they have to their own column; what is amiss lies in the second word, or the other way around.
#[test]
fn cuts_in_one_word() {
    let mut random = Random(0x5eed_0000_0000_0001);
    for k in 0..400 {
        let (most, percent) = ([1, 9, 300][k % 3], [0, 3, 10, 40][k % 4]);
        let part = Problem::random(&mut random, WORD, WORD, percent, most, Some(20_000));
        let own = Problem { m: part.m.clone(), n: part.m.clone(), rel: (0..WORD).map(|i| 1 << i).collect() };
        let cut = part.by_network().cut;
        for (low, high, right) in [(&own, &part, cut << WORD), (&part, &own, cut)] {
            // No row of one word is related to a column of the other.
            let low_rows = low.rel.iter().map(|row| row & Set::from(u64::MAX));
            let rel = low_rows.chain(high.rel.iter().map(|row| row << WORD)).collect();
            let problem = Problem { m: [&low.m[..], &high.m].concat(), n: [&low.n[..], &high.n].concat(), rel };
            assert_eq!(problem.by_network().cut, right);
            assert!(percent > 0 || right != 0);
            agree(&problem, problem.by_network());
        }
    }
}

#[test]
fn the_oracles_agree() {
    let mut random = Random(7);
    for _ in 0..1_000 {
        let problem = Problem::random(&mut random, 8, 9, 30, 10, None);
        assert_eq!(problem.by_subsets(), problem.by_network());
    }
}

// Row i goes to columns i and i + 1, the last row to column 0: the greedy start leaves one path, through every row.
fn chain(size: usize, weight: impl Fn(usize) -> u16) -> Problem {
    let m: Vec<u16> = (0..size).map(&weight).collect();
    let n = m.clone();
    let rel = (0..size).map(|i| if i + 1 == size { 1 } else { 3 << i }).collect();
    Problem { m, n, rel }
}

#[test]
fn long_paths() {
    for size in 2..=SIDE {
        let weights: [fn(usize) -> u16; 5] = [
            |_| 1, |_| 500, |i| 1 + (i as u16 * 37) % 900, |i| if i % 2 == 0 { 1 } else { 1000 }, |i| SIDE as u16 + 1 - i as u16,
        ];
        for weight in weights {
            let problem = chain(size, weight);
            agree(&problem, problem.by_network());
        }
    }
}

// Pairs of rows that have large amounts left after the greedy start, which can move only along a chain of rows for each,
// one chain longer than the other, to the last column. A narrow row and its two narrow columns join the rows of a pair:
// depth-first paths go through them, forth from the one row and back from the other, and carry one unit.
fn zigzag(pairs: usize, chain: usize, whole: u64) -> Problem {
    let (rows, columns) = (2 * chain + 4, 2 * chain + 3);
    let last = pairs * columns;
    let large = (whole as usize / pairs - 2) / (rows - 1);
    let mut problem = Problem { m: vec![large as u16; pairs * rows], n: vec![large as u16; last + 1], rel: vec![0; pairs * rows] };
    for pair in 0..pairs {
        let (row, column) = (pair * rows, pair * columns);
        problem.m[row] = 1;
        problem.rel[row] = 3 << column;
        for side in 0..2 {
            problem.n[column + side] = 1;
            let links = column + 2 + side * chain;
            problem.rel[row + rows - 2 + side] = 1 << (column + side) | 1 << links;
            for l in 0..chain + side {
                let next = if l + 1 < chain + side { links + l + 1 } else { last };
                problem.rel[row + 1 + side * chain + l] = 1 << (links + l) | 1 << next;
            }
        }
        problem.m[row + rows - 1] += 1;
    }
    // The end of the first chain sends what remains to the last column at the start.
    problem.m[chain] += (whole - total(&problem.m)) as u16;
    problem.n[last] += (whole - total(&problem.n)) as u16;
    problem
}

// With large amounts of 10, of 100, and as large as there can be.
fn zigzags(pairs: usize, chain: usize) -> [Problem; 3] {
    let whole = |large: usize| (pairs * (large * (2 * chain + 3) + 2)) as u64;
    [whole(10), whole(100), WHOLE].map(|whole| zigzag(pairs, chain, whole))
}

// Pairs and chains with 6, 20 and, six times each, 60 to 64 and 120 to 128 rows.
const ZIGZAGS: [(usize, usize); 14] = [
    (1, 1), (1, 8), (1, 30), (2, 14), (4, 6), (5, 4), (8, 2), (10, 1),
    (1, 62), (2, 30), (4, 14), (8, 6), (16, 2), (20, 1),
];

#[test]
fn zigzags_against_a_network() {
    for (pairs, chain) in ZIGZAGS {
        for problem in zigzags(pairs, chain) {
            agree(&problem, problem.by_network());
        }
    }
}

#[test]
fn paths_do_not_grow_with_the_amounts() {
    for (pairs, chain) in ZIGZAGS {
        let problems = zigzags(pairs, chain);
        let [few, some, most] = problems.each_ref().map(Problem::paths);
        let targets = problems[0].m.len() + problems[0].n.len();
        assert!(few == some && some == most, "{pairs} pairs, {chain} links: {few}, {some}, {most} paths");
        assert!(0 < most && most <= targets / 5, "{pairs} pairs, {chain} links: {most} paths with {targets} targets");
        // The bound says something: depth-first paths from the same start send as much, by a thousand and more.
        let (sent, count) = problems[2].by_depth();
        assert_eq!(sent, WHOLE * WHOLE);
        let least = if problems[2].m.len() > WORD { 1_000 } else { 2_000 };
        assert!(count > least, "{pairs} pairs, {chain} links: {count} depth-first paths");
    }
}

#[test]
fn the_largest_amounts() {
    let one = Problem { m: vec![65_535], n: vec![65_535], rel: vec![1] };
    assert_eq!(one.by_kernel(), Right { sent: WHOLE * WHOLE, cut: 0 });
    let last = one.shifted(SIDE - 1);
    assert_eq!(last.by_kernel(), Right { sent: WHOLE * WHOLE, cut: 0 });
    let apart = Problem { rel: vec![2], ..one };
    assert_eq!(apart.by_kernel(), Right { sent: 0, cut: 1 });
    assert_eq!(apart.shifted(SIDE - 1).by_kernel(), Right { sent: 0, cut: 1 << (SIDE - 1) });
}

#[test]
fn no_targets() {
    for (m, n) in [(vec![], vec![]), (vec![], vec![5]), (vec![5], vec![])] {
        let rel = vec![Set::MAX; m.len()];
        let problem = Problem { m, n, rel };
        agree(&problem, problem.by_subsets());
    }
}

// Every row is in the cut, and the cut's words are all ones: numbers that no refusal may share.
#[test]
fn a_full_cut_is_no_refusal() {
    let problem = Problem { m: vec![1; SIDE], n: vec![1; SIDE], rel: vec![0; SIDE] };
    let (mut x, mut cut, mut paths) = (vec![7; CELLS], [7; WORDS], [7]);
    assert_eq!(flow(&problem.m, &problem.n, &words(&problem.rel), &mut x, &mut cut, &mut paths), 1);
    assert_eq!((cut, paths), ([u64::MAX; WORDS], [0]));
    assert!(x.iter().all(|&v| v == 0));
    agree(&problem, problem.by_network());
}

#[test]
fn what_the_kernel_does_not_take_is_refused() {
    let full = vec![u64::MAX; WORDS * (SIDE + 1)];
    let refuse = |m: &[u16], n: &[u16], rel: &[u64], cells: usize, cuts: usize, counts: usize| {
        let (mut x, mut cut, mut paths) = (vec![7; cells], vec![7; cuts], vec![7; counts]);
        assert_eq!(flow(m, n, rel, &mut x, &mut cut, &mut paths), 0);
        assert!(x == vec![7; cells] && cut == vec![7; cuts] && paths == vec![7; counts]);
    };
    refuse(&[1; SIDE + 1], &[1], &full, 2 * CELLS, WORDS, 1);
    refuse(&[1], &[1; SIDE + 1], &full, 2 * CELLS, WORDS, 1);
    refuse(&[1; 3], &[1], &full[..3 * WORDS - 1], CELLS, WORDS, 1);
    refuse(&[1; 3], &[1], &full, CELLS - 1, WORDS, 1);
    refuse(&[65_535, 1], &[1], &full, CELLS, WORDS, 1);
    refuse(&[1], &[65_535, 1], &full, CELLS, WORDS, 1);
    refuse(&[65_535; SIDE], &[1], &full, CELLS, WORDS, 1);
    refuse(&[1; 3], &[1], &full, CELLS, WORDS - 1, 1);
    refuse(&[1; 3], &[1], &full, CELLS, WORDS, 0);
    let (mut x, mut cut, mut paths) = (vec![7; CELLS], vec![7; WORDS], vec![7; 1]);
    assert_eq!(flow(&[1; 3], &[1], &full[..3 * WORDS], &mut x, &mut cut, &mut paths), 1);
    for side in [WORD, WORD + 1, SIDE] {
        let m = vec![(WHOLE / side as u64) as u16; side];
        assert!(total(&m) <= WHOLE);
        let problem = Problem { n: m.clone(), m, rel: vec![Set::MAX; side] };
        assert_eq!(problem.by_kernel().cut, 0);
    }
}
