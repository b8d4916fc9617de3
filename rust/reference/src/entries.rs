//! Every call as it is made from outside, on packed tables: the call on the graph of literals that they hold, whose bits are put
//! back in whole words. A refused call leaves everything.

use crate::calls::{Answer, Call};
use crate::graph::{check_limits, Graph, Number};
use crate::moves::Saving;
use crate::packed::{
    admit, check_lengths, check_locks, check_words, ones, unpack, words_for, Packed,
};
use crate::replay::{calls_of, told, Words};
use crate::settling::{settle, Settled};
use crate::{aiger, assignment, calls, class, evaluation, file, join, moves, preview};

/// The graph that is held, where 3, 4, 5 or 13 does not refuse it; `short` is a slice of the call's own, whose 4 is told with that of
/// the tables.
fn graph_of(p: &Packed, short: bool) -> Result<Graph, Number> {
    check_limits(p.inputs, p.nodes, p.outputs)?;
    check_lengths(p.nodes, p.outputs, p.lengths())?;
    if short {
        return Err(4);
    }
    check_words(p)?;
    check_locks(p)?;
    Ok(unpack(p))
}

/// C: the number of ones in the words that have the graph's bits.
pub fn count(p: &Packed) -> Result<u32, Number> {
    admit(p)?;
    let words = (
        words_for(3 * p.nodes as usize),
        words_for(p.outputs as usize),
    );
    Ok(ones(&p.node_bits[..words.0]) + ones(&p.output_bits[..words.1]))
}

/// I, N and O, which become the packed graph's.
pub fn load(file: &[u8], p: &mut Packed) -> Result<(u32, u32, u32), Number> {
    let g = file::parse(file, p.lengths().room())?;
    p.put(&g);
    Ok((g.inputs, g.nodes, g.outputs))
}

/// I, N and O, which become the packed graph's.
pub fn import(text: &[u8], p: &mut Packed) -> Result<(u32, u32, u32), Number> {
    let g = aiger::parse(text, p.lengths().room())?;
    p.put(&g);
    Ok((g.inputs, g.nodes, g.outputs))
}

pub fn write(p: &Packed, buffer: &mut [u8]) -> Result<usize, Number> {
    file::write(&graph_of(p, false)?, buffer)
}

pub fn export(p: &Packed, scratch: usize, buffer: &mut [u8]) -> Result<usize, Number> {
    aiger::export(&graph_of(p, false)?, scratch, buffer)
}

pub fn evaluate(
    p: &Packed,
    input_words: &[u64],
    scratch: usize,
    results: &mut [u64],
) -> Result<(), Number> {
    let short = input_words.len() < p.inputs as usize || results.len() < p.outputs as usize;
    evaluation::evaluate(&graph_of(p, short)?, input_words, scratch, results)
}

/// At a node and a word, of a move at the node that the word names and one at the node.
pub fn trial(p: &Packed, pair: (u32, u32), both: (u32, u32)) -> Result<i64, Number> {
    moves::trial(&graph_of(p, false)?, pair.0, pair.1, both.0, both.1)
}

pub fn preview(p: &Packed, root: u32, scratch: usize, bytes: &mut [u8]) -> Result<Saving, Number> {
    let short = (bytes.len() as u64) < u64::from(p.nodes);
    preview::preview(&graph_of(p, short)?, root, scratch, bytes)
}

/// The graph put back; what the finder has freed is put as 0 with the rest, and past the old N nothing changes.
fn put_back(p: &mut Packed, g: Graph) {
    let nodes = g.nodes;
    p.put(&Graph {
        nodes: p.nodes,
        ..g
    });
    p.nodes = nodes;
}

/// A call of a list. The finder's new N becomes the packed graph's.
pub fn step(p: &mut Packed, call: &Call, scratch: usize) -> Answer {
    let short = matches!(call, Call::Many { list, moves } if moves.len() < list.len());
    match graph_of(p, short) {
        Ok(mut g) => {
            let answer = calls::step(&mut g, call, scratch);
            put_back(p, g);
            answer
        }
        Err(number) => Answer::Refused(number),
    }
}

/// A file loaded and a list of calls made; I, N and O become those of the graph that the list leaves.
pub fn replay(
    file: &[u8],
    words: Words,
    p: &mut Packed,
    scratch: usize,
    answers: &mut [i64],
) -> Result<(u32, u32, u32), Number> {
    let calls = calls_of(words)?;
    if answers.len() < 3 * calls.len() {
        return Err(4);
    }
    load(file, p)?;
    for (call, three) in calls.iter().zip(answers.chunks_mut(3)) {
        three.copy_from_slice(&told(step(p, call, scratch)));
    }
    Ok((p.inputs, p.nodes, p.outputs))
}

/// A graph settled and entered into the record of a class. 3 for the record comes before all else, 4 for it with that of the tables.
pub fn class(p: &mut Packed, scratch: usize, book: &mut [u64]) -> Result<Settled, Number> {
    class::check_record(book, class::MOST_GRAPHS)?;
    let before = graph_of(p, book.len() < class::WORDS)?;
    let mut after = before.clone();
    let settled = settle(&mut after, scratch)?;
    p.put(&after);
    class::enter(book, class::row_of(&before, &after, settled));
    Ok(settled)
}

/// The number of the least assignment that gives a pattern, or that none does. 4 for the pattern comes with that of the tables.
pub fn assignment(p: &Packed, wanted: &[u8], scratch: usize) -> Result<Option<u32>, Number> {
    let short = wanted.len() < p.outputs as usize;
    assignment::assignment(&graph_of(p, short)?, wanted, scratch)
}

/// Two graphs joined: the first whole, the second whole, 19, and 3 and 4 of the joined one, whose I, N and O become the packed graph's.
pub fn join(p: &Packed, q: &Packed, lent: &mut Packed) -> Result<(u32, u32, u32), Number> {
    admit(p)?;
    admit(q)?;
    if p.outputs != q.inputs {
        return Err(19);
    }
    let nodes = p.nodes + q.nodes;
    check_limits(p.inputs, nodes, q.outputs)?;
    check_lengths(nodes, q.outputs, lent.lengths())?;
    lent.put(&join::joined(&unpack(p), &unpack(q)));
    Ok((p.inputs, nodes, q.outputs))
}
