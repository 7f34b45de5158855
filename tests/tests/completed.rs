//! Contracts that govern only some codes. By each code that the first table
//! lists and the second does not, every state of the second has one transition
//! to itself, weight 1: in ranks, in trees, and in flows, where its place is
//! 255.

use pod_tests::alike;
use pod_tests::answer::{Answer, Lengths, Pair};
use pod_tests::fit::SUBSETS;
use pod_tests::library::{check, Judged};
use pod_tests::make::{self, Shape};
use pod_tests::random::Random;
use pod_tests::ranks::{fits_some, rank};
use pod_tests::stack::deep;
use pod_tests::table::{
    parse, Table, Transition, C, CODES, ENTRIES, LONE, P, STATES, STEPS, STILL, TRANSITIONS, WORD,
};
use pod_tests::tree::LONGEST;

/// Two tables, all subsets tried.
fn pair(first: &Table, second: &Table) -> Pair {
    let pair = Pair::new(SUBSETS, &first.bytes(), &second.bytes());
    pair.ok().unwrap()
}

/// A table of so many states that can do nothing, which lists these codes.
fn idle(states: usize, codes: &[u16]) -> Table {
    make::listing(Table::new(vec![Vec::new(); states]), codes)
}

/// A call with just enough room.
fn call(pair: &Pair, (s, t): (usize, usize)) -> Judged {
    check(pair, s, t, pair.lengths(s, t), (STATES * s + t) as u64)
}

/// Calls with all lengths of a buffer up to a few more than asked, the others
/// long enough.
fn every_length(pair: &Pair, (s, t): (usize, usize)) {
    let full = pair.lengths(s, t);
    for flow in 0..full.flow + 3 {
        let answer = check(pair, s, t, Lengths { flow, ..full }, flow as u64).answer;
        let short = pair.rank(s, t) == 0 && flow < full.flow;
        assert_eq!(answer.number, if short { 21 } else { 0 });
    }
    for tree in 0..full.tree + 3 {
        let answer = check(pair, s, t, Lengths { tree, ..full }, tree as u64).answer;
        let short = pair.rank(s, t) > 0 && tree < full.tree;
        assert_eq!(answer.number, if short { 22 } else { 0 });
    }
}

#[test]
fn example() {
    // A contract of one state without codes: kept, with a flow of 10 bytes.
    let pair = Pair::new(SUBSETS, &STILL, &LONE).ok().unwrap();
    let done = Answer {
        kept: 1,
        verdict: 1,
        written: 10,
        ..Answer::default()
    };
    let judged = call(&pair, (0, 0));
    let flow = [0x01, 0xff, 0x01, 0x00, 0x00, 0x00, 0x01, 0x00, 0x00, 0x00];
    assert_eq!((judged.answer, &judged.flow[..]), (done, &flow[..]));
    for flow in 0..10 {
        let lengths = Lengths {
            ranks: 1,
            flow,
            tree: 9,
        };
        let answer = check(&pair, 0, 0, lengths, 2).answer;
        assert_eq!(answer, Answer::refusal(21, 0, 10));
    }
    every_length(&pair, (0, 0));

    // The first table is never completed.
    let pair = Pair::new(SUBSETS, &LONE, &STILL).ok().unwrap();
    let judged = call(&pair, (0, 0));
    assert_eq!((judged.answer.verdict, &judged.flow[..]), (1, &[0][..]));

    // The same contract with the code in its list, by which it has no
    // transition: refused, with a tree of 8 bytes.
    let pair = self::pair(&parse(&STILL).unwrap(), &idle(1, &[10]));
    let done = Answer {
        rounds: 1,
        rank: 1,
        written: 8,
        ..Answer::default()
    };
    let judged = call(&pair, (0, 0));
    let tree = [0x01, 0x0a, 0x00, 0x01, 0x00, 0x01, 0x00, 0x00];
    assert_eq!((judged.answer, &judged.tree[..]), (done, &tree[..]));
    every_length(&pair, (0, 0));
}

/// What a table of one state does about a code.
#[derive(Clone, Copy, PartialEq)]
enum Has {
    Nothing,
    Listed,
    Taken,
}

const HAS: [Has; 3] = [Has::Nothing, Has::Listed, Has::Taken];

/// A state that stands still by those codes that it takes.
fn having(codes: &[(u16, Has)]) -> Table {
    let with = |has: &[Has]| -> Vec<u16> {
        let some = codes.iter().filter(|code| has.contains(&code.1));
        some.map(|code| code.0).collect()
    };
    let steps = with(&[Has::Taken]).into_iter();
    Table {
        codes: with(&[Has::Listed, Has::Taken]),
        states: vec![steps.map(|code| make::to(code, 0)).collect()],
    }
}

#[test]
fn listed_or_taken() {
    // Two codes, which each table lists, takes or does not have. A code that
    // is listed and not taken has no transition added, a code that the second
    // alone has changes nothing, and neither does one that the first alone
    // lists and does not take.
    let codes = [3, 0x203];
    let ways: Vec<[Has; 2]> = HAS.iter().flat_map(|&a| HAS.map(|b| [a, b])).collect();
    for (a, b) in ways.iter().flat_map(|a| ways.iter().map(move |b| (a, b))) {
        let [first, second] = [a, b].map(|has| having(&[(codes[0], has[0]), (codes[1], has[1])]));
        let pair = pair(&first, &second);
        let judged = call(&pair, (0, 0));
        let stuck = |k: &usize| a[*k] == Has::Taken && b[*k] == Has::Listed;
        match (0..2).find(stuck) {
            Some(k) => {
                let [low, high] = codes[k].to_le_bytes();
                assert_eq!(judged.tree, [1, low, high, 1, 0, 1, 0, 0]);
            }
            None => {
                let taken = (0..2).filter(|&k| a[k] == Has::Taken);
                let mut flow = vec![taken.clone().count() as u8];
                for k in taken {
                    let place = match b[k] {
                        Has::Taken => (k == 1 && b[0] == Has::Taken) as u8,
                        _ => 255,
                    };
                    flow.extend([place, 1, 0, 0, 0, 1, 0, 0, 0]);
                }
                assert_eq!(judged.flow, flow);
            }
        }
        every_length(&pair, (0, 0));
    }
}

/// The flow of a state over state t of a contract that lists none of its codes.
fn added_flow(steps: &[Transition], t: usize) -> Vec<u8> {
    let mut bytes = vec![steps.len() as u8];
    for step in steps {
        let targets = step.entries.iter().filter(|entry| entry.1 > 0);
        bytes.push(255);
        bytes.extend((targets.clone().count() as u16).to_le_bytes());
        for &(state, weight) in targets {
            bytes.extend([state, t as u8]);
            bytes.extend((weight as u32).to_le_bytes());
        }
    }
    bytes
}

/// Judges that every pair is kept, with these flows for some of them, and that
/// the flow buffer is asked for as ever.
fn all_kept(random: &mut Random, first: &Table, second: &Table) {
    let pair = Pair::of(&(first.clone(), second.clone()));
    let (p, q) = (first.states.len(), second.states.len());
    assert_eq!(pair.ranking.ranks, vec![0; p * q]);
    for k in 0..6 {
        let (s, t) = [(0, 0), (p - 1, q - 1), (random.below(p), random.below(q))][k.min(2)];
        let judged = call(&pair, (s, t));
        assert_eq!(judged.flow, added_flow(&first.states[s], t));
        let full = pair.lengths(s, t);
        let entries = first.states[s].iter().map(|step| step.entries.len());
        let asked = 1 + 3 * first.states[s].len() + 6 * q * entries.sum::<usize>();
        assert_eq!(full.flow, asked);
        let flow = asked - 1;
        let answer = check(&pair, s, t, Lengths { flow, ..full }, 1).answer;
        assert_eq!(answer, Answer::refusal(21, 0, asked as u32));
    }
}

#[test]
fn contracts_without_codes() {
    let mut random = Random::new(111);
    let sizes = [1, 2, 63, 64, 65, 127, 128];
    // One transition, with some weights.
    let most = [512; STATES - 1];
    for weights in [
        &[1][..],
        &[65_535],
        &[65_534, 1],
        &[0, 65_535, 0],
        &[1, 0, 256, 0, 255],
        &[1; STATES],
        &most,
    ] {
        for states in sizes {
            all_kept(&mut random, &make::weighing(weights), &idle(states, &[]));
        }
    }
    // And any table, with entries of weight 0 or without.
    for round in 0..60 {
        let (states, codes) = ([WORD, STATES][round % 2], [1, 3, 300][round / 2 % 3]);
        let table = match round % 5 {
            0 => alike::small(&mut random, round % 8).0,
            1 => make::sized(&mut random, states, codes, true),
            2 => make::emptied(&mut random, &make::full(ENTRIES), 3),
            3 => {
                let (table, _) = alike::large(&mut random, round % 4);
                make::sprinkled(&mut random, &table, ENTRIES)
            }
            _ => make::sized(&mut random, states, codes, false),
        };
        let contract = idle(sizes[round % 7], &[]);
        all_kept(&mut random, &table, &contract);
        // In the other order there is no transition to be answered, whether
        // codes are listed or not.
        let listing = make::listing(contract.clone(), &table.codes);
        for pod in [contract, listing] {
            let at = (random.below(pod.states.len()), 0);
            let judged = call(&Pair::of(&(pod, table.clone())), at);
            assert_eq!((judged.answer.verdict, &judged.flow[..]), (1, &[0][..]));
        }
    }
}

#[test]
fn longest_flow_buffer() {
    // 255 transitions of a state with all 512 entries, over 128 states: the
    // length asked is 393,982, as of a contract that lists the codes, and the
    // flow takes 3,838 of them.
    let mut random = Random::new(112);
    let steps = (0..STEPS).map(|k| Transition {
        code: k as u16,
        entries: (0..2 + (k < 2) as u8).map(|t| (t, 9)).collect(),
    });
    let first = make::padded(Table::new(vec![steps.collect()]), STATES);
    assert_eq!(first.entries(), ENTRIES);
    all_kept(&mut random, &first, &idle(STATES, &[]));
    let pair = Pair::of(&(first, idle(STATES, &[])));
    let full = pair.lengths(0, 127);
    for flow in [0, 3_838, 393_981, 393_982, 393_983] {
        let answer = check(&pair, 0, 127, Lengths { flow, ..full }, 1).answer;
        match flow < 393_982 {
            true => assert_eq!(answer, Answer::refusal(21, 0, 393_982)),
            false => assert_eq!((answer.number, answer.written), (0, 3_838)),
        }
    }
}

#[test]
fn places_beside_listed_ones() {
    // The contract has 255 transitions by as many codes, the last code first.
    // The pod's steps have some of these codes, and others between them.
    let mut random = Random::new(113);
    let listed = |k: usize| (3 * k + 1) as u16;
    let codes: Vec<u16> = (0..STEPS).rev().map(listed).collect();
    let still = |codes: &[u16]| -> Table {
        let steps = codes.iter().map(|&code| make::to(code, 0));
        Table::new(vec![steps.collect()])
    };
    let second = still(&codes);
    for round in 0..20 {
        let mut taken: Vec<usize> = (0..STEPS).collect();
        (1..STEPS).for_each(|k| taken.swap(k, random.below(k + 1)));
        let added: Vec<bool> = (0..STEPS).map(|_| random.below(20) < round).collect();
        let code = |k: usize| listed(taken[k]) + added[k] as u16;
        let first = still(&(0..STEPS).map(code).collect::<Vec<_>>());
        let judged = call(&Pair::of(&(first, second.clone())), (0, 0));
        let mut flow = vec![STEPS as u8];
        for k in 0..STEPS {
            let place = if added[k] { 255 } else { STEPS - 1 - taken[k] };
            flow.extend([place as u8, 1, 0, 0, 0, 1, 0, 0, 0]);
        }
        assert_eq!(judged.flow, flow);
    }
}

/// C with a display, code 1E, in state 2, which goes on to state 1 by it in one
/// case of four.
fn waking() -> Table {
    let mut table = parse(&C).unwrap();
    table.states[2].push(Transition {
        code: 0x1e,
        entries: vec![(1, 1), (2, 3)],
    });
    make::listing(table, &[0x1e])
}

#[test]
fn added_steps_in_trees() {
    // State 2 of the pod goes on to 1, which can do 14; the states 0 and 2 of
    // the contract P can not, nor do they become another by 1E.
    let (first, second) = (waking(), parse(&P).unwrap());
    let pair = pair(&first, &second);
    assert_eq!(pair.ranking.ranks, [3, 1, 1, 1, 0, 1, 2, 0, 2]);
    // A step by a code that is not listed above one that is.
    let one = [0x01, 0x14, 0x00, 0x01, 0x01, 0x01, 0x00, 0x00];
    let shows = [
        &[0x01, 0x1e, 0x00, 0x02, 0x01, 0x01, 0x00][..],
        &one,
        &[0x02, 0x03, 0x00, 0x00],
    ];
    for t in [0, 2] {
        let judged = call(&pair, (2, t));
        assert_eq!(judged.tree, shows.concat());
        judged.replayed(&pair, 2, t);
        every_length(&pair, (2, t));
    }
    // And that below a step by a listed one.
    let starts = [
        &[0x01, 0x0a, 0x00, 0x02, 0x01, 0x01, 0x00][..],
        &one,
        &[0x02, 0x01, 0x00],
        &shows.concat(),
    ];
    let judged = call(&pair, (0, 0));
    let done = Answer {
        rounds: 3,
        kept: 2,
        rank: 3,
        written: 37,
        ..Answer::default()
    };
    assert_eq!((judged.answer, judged.tree), (done, starts.concat()));
    every_length(&pair, (0, 0));
    // State 1 of the contract keeps up with state 2.
    let judged = call(&pair, (2, 1));
    let flow = [1, 255, 2, 0, 1, 1, 1, 0, 0, 0, 2, 1, 3, 0, 0, 0];
    assert_eq!(judged.flow, flow);
    every_length(&pair, (2, 1));
    // With the code listed nothing keeps up.
    let listing = make::listing(second, &[0x1e]);
    let pair = self::pair(&first, &listing);
    assert_eq!(pair.ranking.ranks, [2, 1, 1, 1, 0, 1, 1, 1, 1]);
    call(&pair, (0, 0));
    // The other way round the code is listed by the second table alone.
    for second in [first, parse(&C).unwrap()] {
        let pair = self::pair(&parse(&P).unwrap(), &second);
        assert_eq!(pair.ranking.ranks, [2, 1, 1, 1, 0, 1, 0, 0, 0]);
        assert_eq!(call(&pair, (0, 0)).tree.len(), 19);
    }
}

#[test]
fn chains_of_added_steps() {
    // The pod goes down a chain by codes that are not listed, to a state with a
    // code that is, and the contract has one state, without it.
    for n in [1, 2, 63, 64, 65, 127] {
        let mut list: Vec<_> = (1..=n).map(|s| vec![make::to(300 + s as u16, s)]).collect();
        list.push(vec![make::to(10, 0)]);
        let pair = Pair::of(&(Table::new(list), idle(1, &[10])));
        for s in 0..=n {
            let judged = call(&pair, (s, 0));
            let levels = n + 1 - s;
            assert_eq!(judged.answer.rank as usize, levels);
            assert_eq!(judged.tree.len(), 1 + 7 * levels);
            judged.replayed(&pair, s, 0);
        }
    }
}

#[test]
fn doors_double_the_ranks() {
    // A door opens by a code that the contract does not list: it is told apart
    // from a state one round after what lies behind it.
    let mut random = Random::new(114);
    let mut cases = vec![
        (parse(&P).unwrap(), parse(&C).unwrap()),
        make::chain(WORD),
        make::cycles(23, 24),
        make::cycles(63, 64),
        make::cycles(50, 101),
        make::counter(WORD),
        make::comb(make::cycles(23, 24), (1, 1), (2, 1)),
        make::comb(make::chain(20), (3, 15), (9, 10)),
        make::layered(&[1, 6, 6, 6, 6, 7]),
        make::fan(5, 3),
    ];
    cases.extend((0..200).map(|round| alike::small(&mut random, round % 8)));
    let (mut kept, mut fallen, mut too_long, mut deepest) = (0, 0, 0, 0);
    for (round, tables) in cases.into_iter().enumerate() {
        let doors = make::doors(&tables.0, [4, 15, 0x500][round % 3]);
        let second = make::listing(tables.1, &tables.0.codes);
        let pair = Pair::of(&(tables.0, second.clone()));
        let doubled = Pair::of(&(doors, second));
        let (p, q) = (pair.first.states.len(), pair.second.states.len());
        for (s, t) in (0..p).flat_map(|s| (0..q).map(move |t| (s, t))) {
            let due = 2 * pair.rank(s, t);
            let ranks = (doubled.rank(s, t), doubled.rank(p + s, t));
            assert_eq!(ranks, (due.saturating_sub(1), due));
        }
        deep(|| {
            for k in 0..24 {
                let (s, t) = match k {
                    0 => (0, 0),
                    1 => (p, 0),
                    _ => (random.below(2 * p), random.below(q)),
                };
                let judged = call(&doubled, (s, t));
                if judged.answer.number == 23 {
                    too_long += 1;
                } else if judged.answer.rank == 0 {
                    kept += 1;
                } else {
                    fallen += 1;
                    deepest = deepest.max(judged.answer.rank);
                    if judged.tree.len() < 1_200 {
                        judged.replayed(&doubled, s, t);
                    }
                }
            }
        });
    }
    println!("{kept} kept, {fallen} fallen, {too_long} too long, rank {deepest}");
    assert!(kept > 1_500 && fallen > 1_500 && too_long > 40);
    assert!(deepest > 8_000);
}

#[test]
fn standing_still_changes_nothing() {
    // A step back to its own state by a code that the contract does not list
    // changes neither a rank nor a tree.
    let mut random = Random::new(115);
    let (mut kept, mut trees) = (0, 0);
    for round in 0..400 {
        let (first, second) = match round % 20 {
            19 => alike::large(&mut random, round / 20 % 4),
            kind => alike::small(&mut random, kind % 8),
        };
        let mut still = first.clone();
        for (s, steps) in still.states.iter_mut().enumerate() {
            let at = random.between(0, steps.len());
            steps.insert(at, make::to([7, 25, 0xff00][random.below(3)], s));
        }
        let still = Table::new(still.states);
        if still.transitions() > TRANSITIONS || still.entries() > ENTRIES {
            continue;
        }
        let without = Pair::of(&(first, second.clone()));
        let pair = Pair::of(&(still, second));
        assert_eq!(pair.ranking.ranks, without.ranking.ranks);
        let (p, q) = (pair.first.states.len(), pair.second.states.len());
        for _ in 0..16 {
            let (s, t) = (random.below(p), random.below(q));
            let judged = call(&pair, (s, t));
            if judged.answer.number == 23 {
                continue;
            }
            match judged.answer.rank {
                0 => kept += 1,
                _ => {
                    trees += 1;
                    assert_eq!(judged.tree, without.trees.bytes(s, t));
                }
            }
        }
    }
    println!("{kept} kept, {trees} trees");
    assert!(kept > 1_000 && trees > 1_000);
}

/// Codes that are alike in one byte, in none, or in the two exchanged.
const SOME_CODES: [u16; 14] = [
    0, 1, 255, 256, 257, 511, 512, 0x1234, 0x3412, 0x7fff, 0x8000, 0xfeff, 0xff00, 0xffff,
];

/// States that each stand still by one of these codes.
fn each_by(codes: &[u16]) -> Table {
    let states = codes.iter().enumerate();
    Table::new(states.map(|(s, &code)| vec![make::to(code, s)]).collect())
}

#[test]
fn codes_looked_up() {
    // A contract that lists codes and takes none. Of the pod's states those
    // fall whose code is one of them, in both bytes.
    let mut random = Random::new(116);
    let mut seen = [0; 2];
    let mut judge = |listed: &[u16], codes: &[u16]| {
        for codes in codes.chunks(STATES) {
            let pair = Pair::of(&(each_by(codes), idle(1, listed)));
            let fall = codes.iter().map(|code| listed.contains(code) as u16);
            assert_eq!(pair.ranking.ranks, fall.collect::<Vec<_>>());
            for s in [0, codes.len() / 2] {
                call(&pair, (s, 0));
            }
            for &rank in &pair.ranking.ranks {
                seen[rank as usize] += 1;
            }
        }
    };
    for code in SOME_CODES {
        judge(&[code], &SOME_CODES);
        judge(&[code & !1, code | 1], &SOME_CODES);
        let others: Vec<u16> = SOME_CODES.into_iter().filter(|&c| c != code).collect();
        judge(&others, &SOME_CODES);
    }
    // Long lists, each code of them and those around it.
    for count in [2, 3, 4, 5, 7, 8, 255, 256, 257, 1_023, 1_024] {
        let low: Vec<u16> = (0..count as u16).collect();
        let high = low.iter().rev().map(|k| u16::MAX - k).collect();
        let far = |&k: &u16| (k as usize * 65_535 / (count - 1)) as u16;
        let far = low.iter().map(far).collect();
        for listed in [low, high, far] {
            let mut codes = Vec::new();
            for at in [0, 1, 2, count / 2 - 1, count / 2, count - 2, count - 1] {
                let code = listed[at.min(count - 1)];
                codes.extend([code.wrapping_sub(1), code, code.wrapping_add(1)]);
                codes.push(code.swap_bytes());
            }
            codes.extend((0..300).map(|_| listed[random.below(count)] ^ random.below(2) as u16));
            judge(&listed, &codes);
        }
    }
    println!("{} kept, {} fallen", seen[0], seen[1]);
    assert!(seen.iter().all(|&count| count > 2_000));
}

#[test]
fn no_code_in_common() {
    // 1,024 codes on either side: every pair is kept, in both orders.
    let mut random = Random::new(117);
    for round in 0..4 {
        let states = [WORD, STATES][round % 2];
        let [even, odd] = [0, 1].map(|low| -> Table {
            let table = make::sized(&mut random, states, [6, CODES][round / 2], round % 2 == 0);
            let table = make::recoded(&table, |code| 2 * (code / 10) + low);
            let codes: Vec<u16> = (1..=CODES as u16).map(|k| 2 * k + low).collect();
            make::listing(table, &codes)
        });
        assert_eq!((even.codes.len(), odd.codes.len()), (CODES, CODES));
        all_kept(&mut random, &even, &odd);
        all_kept(&mut random, &odd, &even);
        // A contract that takes none of them and lists the upper half.
        let pair = Pair::of(&(even.clone(), idle(states, &even.codes[CODES / 2..])));
        let fallen = pair.ranking.ranks.iter().filter(|&&rank| rank > 0);
        assert_eq!(fallen.count() > 0, round / 2 == 1);
        for t in 0..6 {
            call(&pair, (random.below(states), t));
        }
    }
}

/// A step with some weight on some of six states.
fn light(random: &mut Random, code: u16) -> Transition {
    let mut weights = [0; 6];
    for _ in 0..random.between(1, 4) {
        weights[random.below(6)] += random.between(1, 2) as u16;
    }
    let entries = (1..).zip(weights).filter(|&(_, weight)| weight > 0);
    Transition {
        code,
        entries: entries.collect(),
    }
}

/// A start with these steps to six states, which have some of three codes.
fn start(steps: Vec<Transition>) -> Table {
    let mut states = vec![steps];
    for (at, set) in (1..).zip([0b000, 0b001, 0b010, 0b011, 0b101, 0b111]) {
        let has = (0..3).filter(|code| set >> code & 1 == 1);
        states.push(has.map(|code| make::to(code, at)).collect());
    }
    Table::new(states)
}

#[test]
fn many_partners() {
    // The starts have more than sixteen steps by a listed code, where the last
    // partner is the guess for the next step. Between them the pod has steps by
    // another code, most of them to state 1, which can do nothing. In the
    // contract state 1 has steps that all of the pod's would fit: those after
    // the start's.
    let mut random = Random::new(118);
    let (mut kept, mut fallen) = (0, [0; 2]);
    for _ in 0..800 {
        let count = random.between(17, 40);
        let mut first: Vec<_> = (0..count).map(|_| light(&mut random, 100)).collect();
        let mut second = first.clone();
        (1..count).for_each(|k| second.swap(k, random.below(k + 1)));
        for _ in 0..random.below(30) {
            let at = random.below(count);
            second[at] = light(&mut random, 100);
        }
        for _ in 0..random.between(1, 20) {
            let step = match random.once_in(80) {
                true => light(&mut random, 50),
                false => make::to(50, 1),
            };
            first.insert(random.between(0, first.len()), step);
        }
        let (first, mut second) = (start(first), start(second));
        second.states[1] = vec![make::to(100, 6); 2];
        let pair = Pair::of(&(first, second));
        let judged = call(&pair, (0, 0));
        let rank = judged.answer.rank as usize;
        if rank == 0 {
            kept += 1;
            continue;
        }
        judged.replayed(&pair, 0, 0);
        // The step of the tree, after one that fits an added transition.
        let (before, steps) = (&pair.ranking.relations[rank - 1], &pair.first.states[0]);
        let stuck = |m: &Transition| !fits_some(0, before, m, &pair.contract.states[0]);
        let place = steps.iter().position(stuck).unwrap();
        if steps[..place].iter().any(|step| step.code == 50) {
            fallen[(steps[place].code == 50) as usize] += 1;
        }
    }
    println!("{kept} kept, {fallen:?} fallen after an added step");
    assert!(kept > 60 && fallen[0] > 60 && fallen[1] > 20);
}

/// Adds the codes of the steps of a node and of those below it, with their
/// depths, and gives the bytes that it takes.
fn walk(node: &[u8], depth: usize, steps: &mut Vec<(usize, u16)>) -> usize {
    let mut at = 1;
    for _ in 0..node[0] {
        steps.push((depth, u16::from_le_bytes([node[at], node[at + 1]])));
        let children = node[at + 2];
        at += 3;
        for _ in 0..children {
            at += 3;
            at += walk(&node[at..], depth + 1, steps);
        }
    }
    at
}

/// What calls for pairs of states came to.
#[derive(Debug, Default)]
struct Seen {
    kept: usize,
    fallen: usize,
    /// Kept pairs with a step over an added transition, and those of them with
    /// a step over a listed one too.
    flows: [usize; 2],
    /// Pairs that are kept and would not be without added transitions, and
    /// those that would fall earlier.
    ranks: [usize; 2],
    /// Trees whose root has a step by a code that is not listed, and those with
    /// such a step below the root.
    trees: [usize; 2],
    /// Completed tables that were handed over themselves.
    handed: usize,
}

impl Seen {
    /// Judges calls for pairs of states: of these tables, with all codes of the
    /// first in the second's list, and with the completed table for the second.
    fn judge(&mut self, subsets: usize, tables: &(Table, Table), chosen: &[(usize, usize)]) {
        let (first, second) = tables;
        let of = |second: &Table| {
            let pair = Pair::new(subsets, &first.bytes(), &second.bytes());
            pair.ok().unwrap()
        };
        let pair = of(second);
        // Nothing is added where all codes are listed.
        let listed = of(&make::listing(second.clone(), &first.codes));
        let plain = rank(subsets, &pair.first, &pair.second);
        assert_eq!(listed.ranking.ranks, plain.ranks);
        let handed = make::listing(second.completed(&first.codes), &first.codes);
        let handed = within_limits(&handed).then(|| of(&handed));
        self.handed += handed.is_some() as usize;
        for &(s, t) in chosen {
            let plain = plain.ranks[s * second.states.len() + t] as u32;
            let judged = self.count(&pair, plain, (s, t));
            call(&listed, (s, t));
            let Some(handed) = &handed else {
                continue;
            };
            let other = call(handed, (s, t));
            assert_eq!(handed.ranking.ranks, pair.ranking.ranks);
            assert_eq!(shown(other), shown(judged));
        }
    }

    /// Calls with just enough room and with a byte too little for what is
    /// shown. `plain` is the rank without added transitions.
    fn count(&mut self, pair: &Pair, plain: u32, (s, t): (usize, usize)) -> Judged {
        let judged = call(pair, (s, t));
        let full = pair.lengths(s, t);
        let less = Lengths {
            flow: full.flow - 1,
            tree: full.tree.saturating_sub(1),
            ..full
        };
        let short = check(pair, s, t, less, 1).answer;
        let rank = pair.rank(s, t);
        if rank == 0 {
            assert_eq!(short, Answer::refusal(21, 0, full.flow as u32));
            let mut steps = pair.first.states[s].iter();
            let listed = |step: &Transition| pair.second.codes.contains(&step.code);
            let added = steps.clone().any(|step| !listed(step));
            self.kept += 1;
            self.flows[0] += added as usize;
            self.flows[1] += (added && steps.any(listed)) as usize;
            self.ranks[0] += (plain > 0) as usize;
            return judged;
        }
        assert!((1..=rank).contains(&plain));
        self.fallen += 1;
        self.ranks[1] += (plain < rank) as usize;
        if pair.trees.length(s, t) <= LONGEST {
            assert_eq!(short, Answer::refusal(22, 0, full.tree as u32));
            let mut steps = Vec::new();
            walk(&judged.tree, 0, &mut steps);
            steps.retain(|step| !pair.second.codes.contains(&step.1));
            self.trees[0] += steps.iter().any(|step| step.0 == 0) as usize;
            self.trees[1] += steps.iter().any(|step| step.0 > 0) as usize;
        }
        if judged.tree.len() < 200 && judged.answer.number == 0 {
            judged.replayed(pair, s, t);
        }
        judged
    }

    /// Says what was seen, which must be more than so many of each kind.
    fn above(&self, least: usize) {
        println!("{self:?}");
        let counts = [&[self.kept, self.fallen][..], &self.flows, &self.ranks];
        let counts = [counts.concat(), self.trees.to_vec()].concat();
        assert!(counts.iter().all(|&count| count > least));
    }
}

/// What is promised of a call: all but the amounts of a flow and its length.
fn shown(mut judged: Judged) -> (Answer, Vec<u8>) {
    if judged.answer.rank == 0 {
        judged.answer.written = 0;
    }
    (judged.answer, judged.tree)
}

fn within_limits(table: &Table) -> bool {
    let steps = table.states.iter().all(|steps| steps.len() <= STEPS);
    steps && table.transitions() <= TRANSITIONS && table.entries() <= ENTRIES
}

/// The tables with unlike lists. Most pods get steps by codes more, and the
/// contract may have one of these codes, list one and not take it, lose a code,
/// or have one of its own. Either may list some that no table takes, and have
/// entries of weight 0.
fn unlike(random: &mut Random, (first, second): (Table, Table)) -> (Table, Table) {
    let codes = [5, 15, 300];
    let first = match random.below(4) {
        0 => first,
        count => make::showing(random, &first, &codes[..count]),
    };
    let second = match random.below(8) {
        0 => make::showing(random, &second, &codes[1..2]),
        1 => make::listing(second, &codes[..1]),
        2 => make::without(second, &[10]),
        3 => make::without(second, &[20]),
        4 => make::showing(random, &second, &[400]),
        _ => second,
    };
    let mut more = |table: Table| {
        let zeros = random.below(2) * table.entries();
        let table = make::sprinkled(random, &table, zeros);
        let count = if random.once_in(20) { 400 } else { 0 };
        let codes: Vec<u16> = (0..count).map(|_| random.number() as u16).collect();
        make::listing(table, &codes)
    };
    (more(first), more(second))
}

#[test]
fn small_tables() {
    // In both orders, so that it is now the one, now the other whose codes the
    // other does not list.
    let mut random = Random::new(119);
    let mut seen = Seen::default();
    for round in 0..800 {
        let tables = alike::small(&mut random, round % 8);
        let tables = unlike(&mut random, tables);
        let swapped = (tables.1.clone(), tables.0.clone());
        for tables in [tables, swapped] {
            let chosen = alike::chosen(&mut random, &tables, 25);
            seen.judge(SUBSETS, &tables, &chosen);
        }
    }
    seen.above(250);
    assert!(seen.handed > 800);
}

#[test]
fn wide_tables() {
    // Up to 13 entries to a transition, all subsets tried.
    let mut random = Random::new(120);
    let mut seen = Seen::default();
    for round in 0..300 {
        let shape = Shape {
            states: 13,
            codes: 3,
            steps: 2,
            width: 13,
            weight: [1, 4, 5_000][round % 3],
        };
        let first = make::random(&mut random, shape);
        let second = make::edited(&mut random, &first, 1 + round % 4, 3);
        let tables = unlike(&mut random, (first, second));
        let chosen = alike::chosen(&mut random, &tables, 30);
        seen.judge(SUBSETS, &tables, &chosen);
    }
    seen.above(80);
}

#[test]
fn large_tables() {
    let mut random = Random::new(121);
    let mut seen = Seen::default();
    deep(|| {
        for round in 0..150 {
            let tables = alike::large(&mut random, round % 4);
            let tables = unlike(&mut random, tables);
            let chosen = alike::chosen(&mut random, &tables, 12);
            seen.judge(4, &tables, &chosen);
        }
    });
    seen.above(25);
}

#[test]
fn limits() {
    // 512 entries, all totals 65,535. The contract governs half of the codes,
    // and most steps of the pod by the others lead back to their own states.
    let mut random = Random::new(122);
    let mut seen = Seen::default();
    for round in 0..60 {
        let (states, codes) = ([WORD, STATES][round / 3 % 2], [2, 4, 6][round % 3]);
        let mut first = make::sized(&mut random, states, codes, round % 4 == 0);
        let free = first.codes[codes / 2..].to_vec();
        for (s, steps) in first.states.iter_mut().enumerate() {
            for step in steps.iter_mut().filter(|step| free.contains(&step.code)) {
                if !random.once_in(15) {
                    step.entries = vec![(s as u8, 65_535)];
                }
            }
        }
        let second = make::edited(&mut random, &first, round % 5, 1);
        let first = make::sprinkled(&mut random, &first, ENTRIES);
        assert_eq!(first.entries(), ENTRIES);
        let tables = (first, make::without(second, &free));
        let chosen = alike::chosen(&mut random, &tables, 10);
        deep(|| seen.judge(0, &tables, &chosen));
    }
    seen.above(12);
}

#[test]
fn one_code_more() {
    // With a code in the contract's list that it does not take, all states of
    // the pod that take it fall at once, and with any other nothing changes.
    let mut random = Random::new(123);
    let (mut changed, mut kept) = (0, 0);
    for round in 0..300 {
        let tables = alike::small(&mut random, round % 8);
        let (first, second) = unlike(&mut random, tables);
        let pair = pair(&first, &second);
        let (p, q) = (first.states.len(), second.states.len());
        for code in [5, 7, 10, 15, 20, 300, 400, 0xffff] {
            let listing = self::pair(&first, &make::listing(second.clone(), &[code]));
            let added = !second.codes.contains(&code);
            let taken = |s: usize| first.states[s].iter().any(|step| step.code == code);
            let (s, t) = (random.below(p), random.below(q));
            let [one, other] = [&pair, &listing].map(|pair| call(pair, (s, t)));
            if added && (0..p).any(taken) {
                changed += 1;
                kept += (taken(s) && one.answer.rank == 0) as usize;
                let due = if taken(s) { 1 } else { listing.rank(s, t) };
                assert_eq!(other.answer.rank, due);
            } else {
                assert_eq!(listing.ranking.ranks, pair.ranking.ranks);
                assert_eq!(shown(one), shown(other));
            }
        }
    }
    println!("{changed} lists changed the answer, {kept} of a kept pair");
    assert!(changed > 200 && kept > 50);
}
