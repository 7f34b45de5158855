//! One transition against one, with numbers of targets on either side of
//! those at which a fit is decided in another way: all sets of at most four
//! targets, the corner rule first for more than sixteen, a flow for the rest.
//! And many against many: with more than sixteen partners a guess comes first.

use pod_tests::answer::Pair;
use pod_tests::library::check;
use pod_tests::make;
use pod_tests::random::Random;
use pod_tests::table::{Table, Transition};

/// What the starts came to, with few targets on the first side, on the second
/// side alone, on neither, and with many on the first.
#[derive(Debug, Default)]
struct Seen {
    kept: [usize; 4],
    fallen: [usize; 4],
    /// Starts that list a weight of 0, on either side.
    zeros: [usize; 2],
}

fn kind(p: usize, q: usize) -> usize {
    match (p, q) {
        (0..=4, _) => 0,
        (17.., _) => 3,
        (_, 0..=4) => 1,
        _ => 2,
    }
}

/// A start with these steps to states each of which has the codes of a set:
/// it is related to those that have all of its codes, which all tables list.
fn start(steps: Vec<Transition>, codes: &[u8]) -> Table {
    let last = codes.len() + 1;
    let mut states = vec![steps];
    states.extend(codes.iter().map(|set| {
        let has = (0..8).filter(|code| set >> code & 1 == 1);
        has.map(|code| make::to(code, last)).collect()
    }));
    states.push(Vec::new());
    make::listing(Table::new(states), &[0, 1, 2, 3, 4, 5, 6, 7])
}

/// A step to the states from 1 on. Those of weight 0 are listed or not.
fn step(random: &mut Random, weights: &[u16]) -> Transition {
    let least = random.below(2) as u16;
    let entries = (1..).zip(weights.iter().copied());
    Transition {
        code: 100,
        entries: entries.filter(|&(_, weight)| weight >= least).collect(),
    }
}

/// Places below a count, each at least once, in so many draws: ascending, so
/// that the corner rule finds the way, or in any order.
fn places(random: &mut Random, count: usize, draws: usize, ascend: bool) -> Vec<usize> {
    let mut list: Vec<usize> = (0..draws)
        .map(|k| if k < count { k } else { random.below(count) })
        .collect();
    if ascend {
        list.sort();
    } else {
        (1..draws).for_each(|k| list.swap(k, random.below(k + 1)));
    }
    list
}

/// Two starts with p and q targets that share out by parcels, and then so
/// many changes of the second side: a unit of weight moved, a code dropped.
/// Up to three states more have weight 0, on each side.
fn starts(random: &mut Random, p: usize, q: usize, changes: usize) -> (Table, Table) {
    let parcels = p.max(q) + random.below(3);
    let ascend = random.once_in(2);
    let from = places(random, p, parcels, ascend);
    let to = places(random, q, parcels, ascend);
    let (mut m, mut n) = (vec![0; p], vec![0; q]);
    let mut first: Vec<u8> = (0..p).map(|_| random.below(256) as u8 & 0x1b).collect();
    let mut second = vec![0; q];
    for (&i, &j) in from.iter().zip(&to) {
        let weight = random.between(1, 3) as u16;
        m[i] += weight;
        n[j] += weight;
        second[j] |= first[i];
    }
    for _ in 0..changes {
        let (j, k) = (random.below(q), random.below(q));
        if random.once_in(3) {
            second[j] &= !(1 << random.below(5));
        } else if n[j] > 1 {
            n[j] -= 1;
            n[k] += 1;
        }
    }
    for (weights, codes) in [(&mut m, &mut first), (&mut n, &mut second)] {
        let count = weights.len() + random.below(4);
        weights.resize(count, 0);
        codes.resize(count, 0x1b);
    }
    (
        start(vec![step(random, &m)], &first),
        start(vec![step(random, &n)], &second),
    )
}

#[test]
fn each_way() {
    let sizes = [1, 2, 3, 4, 5, 6, 9, 15, 16, 17, 18, 40];
    let mut random = Random::new(61);
    let mut seen = Seen::default();
    for (p, q) in sizes.iter().flat_map(|&p| sizes.map(|q| (p, q))) {
        for round in 0..12 {
            let (first, second) = starts(&mut random, p, q, round as usize / 3);
            let pair = Pair::new(9, &first.bytes(), &second.bytes());
            let pair = pair.ok().unwrap();
            seen.zeros[0] += (pair.first != first) as usize;
            seen.zeros[1] += (pair.second != second) as usize;
            let judged = check(&pair, 0, 0, pair.lengths(0, 0), round);
            match judged.answer.rank {
                0 => seen.kept[kind(p, q)] += 1,
                _ => {
                    seen.fallen[kind(p, q)] += 1;
                    judged.replayed(&pair, 0, 0);
                }
            }
            assert!(round / 3 > 0 || judged.answer.rank == 0);
        }
    }
    println!("{seen:?}");
    assert!(seen.kept.iter().all(|&count| count > 100));
    assert!(seen.fallen.iter().all(|&count| count > 30));
    assert!(seen.zeros.iter().all(|&count| count > 300));
}

/// A step with some weight on some of six states.
fn light(random: &mut Random) -> Transition {
    let mut weights = [0; 6];
    for _ in 0..random.between(1, 4) {
        weights[random.below(6)] += random.between(1, 2) as u16;
    }
    step(random, &weights)
}

#[test]
fn many_partners() {
    let codes = [0b000, 0b001, 0b010, 0b011, 0b101, 0b111];
    let mut random = Random::new(62);
    let (mut kept, mut fallen, mut zeros) = (0, 0, 0);
    for round in 0..400 {
        let count = random.between(14, 40);
        let first: Vec<_> = (0..count).map(|_| light(&mut random)).collect();
        // Most of the same steps in another order, and some others.
        let mut second = first.clone();
        (1..count).for_each(|k| second.swap(k, random.below(k + 1)));
        for _ in 0..random.below(30) {
            let at = random.below(count);
            second[at] = light(&mut random);
        }
        let (first, second) = (start(first, &codes), start(second, &codes));
        let pair = Pair::new(9, &first.bytes(), &second.bytes());
        let pair = pair.ok().unwrap();
        zeros += (pair.first != first && pair.second != second) as usize;
        let judged = check(&pair, 0, 0, pair.lengths(0, 0), round);
        match judged.answer.rank {
            0 => kept += 1,
            _ => {
                fallen += 1;
                judged.replayed(&pair, 0, 0);
            }
        }
    }
    println!("{kept} kept, {fallen} fallen, {zeros} with weights of 0");
    assert!(kept > 60 && fallen > 60 && zeros > 300);
}
