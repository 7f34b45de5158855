//! What a call must answer and leave in the lent buffers.

use crate::flow::{must_split, needed};
use crate::ranks::{rank, Ranking};
use crate::table::{parse, widen, Table};
use crate::tree::{Trees, LONGEST};

#[derive(Clone, Copy, Debug, Default, PartialEq)]
pub struct Answer {
    pub number: u32,
    pub table: u32,
    pub needed: u32,
    pub rounds: u32,
    pub kept: u32,
    pub verdict: u32,
    pub rank: u32,
    pub written: u32,
}

impl Answer {
    pub fn refusal(number: u32, table: u32, needed: u32) -> Answer {
        Answer {
            number,
            table,
            needed,
            ..Answer::default()
        }
    }
}

/// The answer to a lone table.
pub fn table_answer(bytes: &[u8]) -> Answer {
    match parse(bytes) {
        Ok(_) => Answer::default(),
        Err(number) => Answer::refusal(number, 1, 0),
    }
}

/// The answer to an old table that is to be widened into a buffer of this
/// length, and the bytes that its start must hold then.
pub fn widen_answer(old: &[u8], out: usize) -> (Answer, Vec<u8>) {
    let refuse = |number, table, needed| (Answer::refusal(number, table, needed), Vec::new());
    match widen(old) {
        Err(number) => refuse(number, 1, 0),
        Ok(wide) if out < wide.len() => refuse(27, 0, wide.len() as u32),
        Ok(wide) => {
            let answer = Answer {
                written: wide.len() as u32,
                ..Answer::default()
            };
            (answer, wide)
        }
    }
}

/// Lengths of the buffers lent to a call.
#[derive(Clone, Copy, Debug)]
pub struct Lengths {
    pub ranks: usize,
    pub flow: usize,
    pub tree: usize,
}

/// What a call must leave behind. The length of a flow is free: `written` is
/// 0 where one is shown.
pub struct Expected {
    pub answer: Answer,
    /// Whether the ranks are filled in.
    pub ranked: bool,
    pub shown: Shown,
}

#[derive(PartialEq)]
pub enum Shown {
    Nothing,
    Flow,
    Tree(Vec<u8>),
}

/// All there is to know about two accepted tables.
pub struct Pair {
    pub bytes: (Vec<u8>, Vec<u8>),
    /// The first table with its entries of weight 0.
    listed: Table,
    /// The tables without these.
    pub first: Table,
    pub second: Table,
    /// The second completed for the codes of the first: what that is judged
    /// against.
    pub contract: Table,
    pub ranking: Ranking,
    pub trees: Trees,
    pub subsets: usize,
}

impl Pair {
    /// The two tables, or the answer that refuses one.
    pub fn new(subsets: usize, first: &[u8], second: &[u8]) -> Result<Pair, Answer> {
        let bytes = (first.to_vec(), second.to_vec());
        let first = parse(first).map_err(|number| Answer::refusal(number, 1, 0))?;
        let second = parse(second).map_err(|number| Answer::refusal(number, 2, 0))?;
        Ok(Pair::in_bytes(subsets, bytes, (first, second)))
    }

    /// Two tables that a call is handed in these bytes.
    pub fn in_bytes(subsets: usize, bytes: (Vec<u8>, Vec<u8>), tables: (Table, Table)) -> Pair {
        let (listed, second) = (tables.0, tables.1.supported());
        let first = listed.supported();
        let contract = second.completed(&first.codes);
        let ranking = rank(subsets, &first, &contract);
        let trees = Trees::new(subsets, &first, &contract, &ranking);
        Pair {
            bytes,
            listed,
            first,
            second,
            contract,
            ranking,
            trees,
            subsets,
        }
    }

    /// Hands the same tables over with these entries of weight 0.
    pub fn hand(&mut self, (first, second): &(Table, Table)) {
        assert_eq!(first.supported(), self.first);
        assert_eq!(second.supported(), self.second);
        self.bytes = (first.bytes(), second.bytes());
        self.listed = first.clone();
    }

    /// The trees of these tables if entries of weight 0 were targets: those
    /// of the first, and those of the second.
    pub fn wrong_trees(&self, (first, second): &(Table, Table)) -> [Trees; 2] {
        let contract = second.completed(&first.codes);
        [(first, &self.contract), (&self.first, &contract)]
            .map(|(first, second)| Trees::new(self.subsets, first, second, &self.ranking))
    }

    /// Two tables that keep the rules, of any size: all fits by a flow.
    pub fn of((first, second): &(Table, Table)) -> Pair {
        Pair::new(0, &first.bytes(), &second.bytes()).ok().unwrap()
    }

    pub fn rank(&self, s: usize, t: usize) -> u32 {
        self.ranking.ranks[s * self.second.states.len() + t] as u32
    }

    /// Whether a kept pair's flows can't do without sharing a target out.
    pub fn must_split(&self, s: usize, t: usize) -> bool {
        let (first, contract) = (&self.first, &self.contract);
        must_split(self.subsets, first, contract, self.ranking.last(), (s, t))
    }

    fn flow_needed(&self, s: usize) -> u32 {
        needed(&self.listed, &self.second, s)
    }

    /// The shortest buffers that serve a pair of states.
    pub fn lengths(&self, s: usize, t: usize) -> Lengths {
        let tree = match self.rank(s, t) {
            0 => 0,
            _ => self.trees.length(s, t).min(LONGEST) as usize,
        };
        Lengths {
            ranks: self.ranking.ranks.len(),
            flow: self.flow_needed(s) as usize,
            tree,
        }
    }

    fn refuse(number: u32, needed: u32) -> Expected {
        Expected {
            answer: Answer::refusal(number, 0, needed),
            ranked: number > 20,
            shown: Shown::Nothing,
        }
    }

    /// What the call for a pair of states must do.
    pub fn expect(&self, s: usize, t: usize, lengths: Lengths) -> Expected {
        if s >= self.first.states.len() || t >= self.second.states.len() {
            return Self::refuse(11, 0);
        }
        if lengths.ranks < self.ranking.ranks.len() {
            return Self::refuse(20, self.ranking.ranks.len() as u32);
        }
        let rank = self.rank(s, t);
        let shown = if rank == 0 {
            let needed = self.flow_needed(s);
            if lengths.flow < needed as usize {
                return Self::refuse(21, needed);
            }
            Shown::Flow
        } else {
            let length = self.trees.length(s, t);
            if length > LONGEST {
                return Self::refuse(23, 0);
            }
            if lengths.tree < length as usize {
                return Self::refuse(22, length as u32);
            }
            Shown::Tree(self.trees.bytes(s, t))
        };
        let answer = Answer {
            rounds: self.ranking.rounds(),
            kept: self.ranking.kept,
            verdict: (self.rank(0, 0) == 0) as u32,
            rank,
            written: match &shown {
                Shown::Tree(bytes) => bytes.len() as u32,
                _ => 0,
            },
            ..Answer::default()
        };
        Expected {
            answer,
            ranked: true,
            shown,
        }
    }
}
