//! What podcheck prints.

use crate::answer::Pair;
use crate::fit::SUBSETS;
use crate::tree::LONGEST;
use std::fmt::Write;

/// Standard input for two tables.
pub fn input(first: &[u8], second: &[u8]) -> Vec<u8> {
    let mut bytes = Vec::new();
    for table in [first, second] {
        bytes.extend((table.len() as u16).to_le_bytes());
        bytes.extend(table);
    }
    bytes
}

/// Takes a length and a table from standard input.
fn take<'a>(rest: &mut &'a [u8]) -> &'a [u8] {
    let Some((length, after)) = rest.split_first_chunk() else {
        return &[];
    };
    let length = u16::from_le_bytes(*length) as usize;
    let (table, after) = after.split_at(length.min(after.len()));
    *rest = after;
    table
}

/// The program's output. Fits are decided by subsets of up to `subsets`
/// entries.
pub fn output_by(subsets: usize, input: &[u8]) -> String {
    let mut rest = input;
    let first = take(&mut rest);
    let second = take(&mut rest);
    let pair = match Pair::new(subsets, first, second) {
        Ok(pair) => pair,
        Err(answer) => return format!("refused {} {}\n", answer.table, answer.number),
    };
    let width = pair.second.states.len();
    let mut text = format!("tables {} {width}\n", pair.first.states.len());
    for (s, row) in pair.ranking.ranks.chunks(width).enumerate() {
        write!(text, "row {s}").unwrap();
        for rank in row {
            write!(text, " {rank}").unwrap();
        }
        text.push('\n');
    }
    let (rounds, kept) = (pair.ranking.rounds(), pair.ranking.kept);
    let yes = pair.rank(0, 0) == 0;
    let verdict = if yes { "yes" } else { "no" };
    writeln!(text, "rounds {rounds} kept {kept} verdict {verdict}").unwrap();
    if yes {
        return text;
    }
    if pair.trees.length(0, 0) > LONGEST {
        return text + "tree refused 23\n";
    }
    text.push_str("tree");
    for byte in pair.trees.bytes(0, 0) {
        write!(text, " {byte:02x}").unwrap();
    }
    text + "\n"
}

pub fn output(input: &[u8]) -> String {
    output_by(SUBSETS, input)
}
