//! Figures for a class: a graph settled, and its row put into the record, in which rows are moved on by one.

use super::calls::Tables;
use super::settle::settle;
use super::{check_limits, check_room, Number};
use reducer::{Settled, MARK};

/// The words of a record: a count, five totals, sixteen rows of five.
const WORDS: usize = 86;
const MOST_GRAPHS: u64 = 1_000;
const TOO_LARGE: u64 = 1 << 40;

/// What is told of graphs: their number and five sums, and the improvement.
pub type Figures = ([u64; 6], [i64; 2]);

fn check_record(book: &[u64], full: u64) -> Result<(), Number> {
    let seen = &book[..book.len().min(WORDS)];
    if seen.first().is_some_and(|&count| count >= full) || seen.iter().any(|&word| word >= TOO_LARGE) {
        return Err(3);
    }
    Ok(())
}

fn check_length(book: &[u64]) -> Result<(), Number> {
    if book.len() < WORDS {
        return Err(4);
    }
    Ok(())
}

fn node_cells(nodes: &[u32]) -> u64 {
    nodes.chunks_exact(3).map(|words| if words[2] == MARK { 12 } else { 5 }).sum()
}

pub fn class(t: &mut Tables, scratch: usize, book: &mut [u64]) -> Result<Settled, Number> {
    check_record(book, MOST_GRAPHS)?;
    check_limits(t.inputs, t.nodes, t.outputs)?;
    check_room(t.nodes, t.outputs, t.view().room())?;
    check_length(book)?;
    let settled = settle(t, scratch)?;
    let (before, after) = (u64::from(settled.before), u64::from(settled.after));
    let kinds = node_cells(&t.node_table[..3 * t.nodes as usize]);
    let row = [before, after, settled.rounds.into(), 13 * before + kinds, 13 * after + kinds];
    book[0] += 1;
    book[1..6].iter_mut().zip(row).for_each(|(total, figure)| *total += figure);
    book.copy_within(6..WORDS - 5, 11);
    book[6..11].copy_from_slice(&row);
    Ok(settled)
}

pub fn figures(book: &[u64], latest: bool) -> Result<Figures, Number> {
    check_record(book, MOST_GRAPHS + 1)?;
    check_length(book)?;
    let sum = |k: usize| book[6..WORDS].iter().skip(k).step_by(5).sum();
    let told = if latest {
        [book[0].min(16), sum(0), sum(1), sum(2), sum(3), sum(4)]
    } else {
        [book[0], book[1], book[2], book[3], book[4], book[5]]
    };
    Ok((told, [told[1] as i64 - told[2] as i64, told[1] as i64]))
}
