//! The calls on slices that the caller lends.
//!
//! A table is lent as two slices: the indices of its literals, or [`MARK`], and [`crate::bit_words`] words with their complement bits.
//! That of place j, from 0, is bit j % 64 of word j / 64. The node table has three places a node by rising index, the output table one
//! an output. At a mark, and past the last literal in the word that it is in, a bit is 0. Moves turn bits alone: indices are written
//! only by what fills tables, by [`majority`] and by [`find`]. The locks have a byte a node: 1 for locked, 0 for free.
//!
//! Only the graph's part of tables, bits and locks is looked at; what stands after it is left, and a refused call leaves everything.
//! [`literal`] and [`set_literal`] read and set one place.

// What the functions of the C interface take is what these take.
#![allow(clippy::too_many_arguments)]

use crate::raw;
use crate::{Difference, Figures, Majority, Refusal, ReplayRefusal, Saving, Settled, Size, MARK};

/// A graph that is only read, for calls on two of them.
#[derive(Clone, Copy, Debug)]
pub struct Lent<'a> {
    pub size: Size,
    pub node_table: &'a [u32],
    pub node_bits: &'a [u64],
    pub output_table: &'a [u32],
    pub output_bits: &'a [u64],
    pub locks: &'a [u8],
}

/// The value where the number is 0, else its refusal.
pub(crate) fn answer<T>(number: u32, value: T) -> Result<T, Refusal> {
    match number {
        0 => Ok(value),
        refused => Err(Refusal::from_number(refused).expect("the library answers 0 to 19")),
    }
}

fn size_of([inputs, nodes, outputs]: [u32; 3]) -> Size {
    Size { inputs, nodes, outputs }
}

fn parted([own, others]: [i64; 2]) -> Saving {
    Saving { own, others }
}

fn replay_answer(number: u32, size: Size) -> Result<Size, ReplayRefusal> {
    match number {
        101 => Err(ReplayRefusal::LeftOver),
        102 => Err(ReplayRefusal::UnknownKind),
        105 => Err(ReplayRefusal::PartOutside),
        _ => answer(number, size).map_err(ReplayRefusal::Refused),
    }
}

/// The literal at a place of a table, 2 * index + complement bit, or [`MARK`]. A place that the table or its bits lack is refused, and so
/// is what no literal says: a mark with its bit set, and an index that is too large.
pub fn literal(table: &[u32], bits: &[u64], place: usize) -> Result<u32, Refusal> {
    let index = *table.get(place).ok_or(Refusal::ShortSlice)?;
    let word = *bits.get(place / 64).ok_or(Refusal::ShortSlice)?;
    match (index, (word >> (place % 64) & 1) as u32) {
        (MARK, 0) => Ok(MARK),
        (index, bit) if index < MARK / 2 => Ok(2 * index + bit),
        _ => Err(Refusal::BadLiteral),
    }
}

/// Sets a place of a table to a literal, 2 * index + complement bit, or to [`MARK`]. Where the table or its bits lack the place, nothing
/// has changed.
pub fn set_literal(table: &mut [u32], bits: &mut [u64], place: usize, literal: u32) -> Result<(), Refusal> {
    let index = table.get_mut(place).ok_or(Refusal::ShortSlice)?;
    let word = bits.get_mut(place / 64).ok_or(Refusal::ShortSlice)?;
    let (stored, bit) = if literal == MARK { (MARK, 0) } else { (literal / 2, u64::from(literal % 2)) };
    *index = stored;
    *word = *word & !(1 << (place % 64)) | bit << (place % 64);
    Ok(())
}

/// The payload of the field at the front of the bytes.
pub fn field(bytes: &[u8]) -> Result<&[u8], Refusal> {
    let mut payload = [0usize; 2];
    let number = unsafe { raw::reducer_field(bytes.as_ptr(), bytes.len(), &mut payload) };
    answer(number, ())?;
    Ok(&bytes[payload[0]..payload[0] + payload[1]])
}

/// Fills the front of both tables, of their bits and of the locks from a tagged file.
pub fn load(
    file: &[u8],
    node_table: &mut [u32],
    node_bits: &mut [u64],
    output_table: &mut [u32],
    output_bits: &mut [u64],
    locks: &mut [u8],
) -> Result<Size, Refusal> {
    let mut numbers = [0u32; 3];
    let number = unsafe {
        raw::reducer_load(
            file.as_ptr(),
            file.len(),
            node_table.as_mut_ptr(),
            node_table.len(),
            node_bits.as_mut_ptr(),
            node_bits.len(),
            output_table.as_mut_ptr(),
            output_table.len(),
            output_bits.as_mut_ptr(),
            output_bits.len(),
            locks.as_mut_ptr(),
            locks.len(),
            &mut numbers,
        )
    };
    answer(number, size_of(numbers))
}

/// Fills the front of the buffer with the graph's file; the file's length.
pub fn write(
    size: Size,
    node_table: &[u32],
    node_bits: &[u64],
    output_table: &[u32],
    output_bits: &[u64],
    locks: &[u8],
    buffer: &mut [u8],
) -> Result<usize, Refusal> {
    let mut length = 0usize;
    let number = unsafe {
        raw::reducer_write(
            size.inputs,
            size.nodes,
            size.outputs,
            node_table.as_ptr(),
            node_table.len(),
            node_bits.as_ptr(),
            node_bits.len(),
            output_table.as_ptr(),
            output_table.len(),
            output_bits.as_ptr(),
            output_bits.len(),
            locks.as_ptr(),
            locks.len(),
            buffer.as_mut_ptr(),
            buffer.len(),
            &mut length,
        )
    };
    answer(number, length)
}

/// Fills the front of both tables, of their bits and of the locks from an ASCII AIGER text: every node is free.
pub fn import(
    text: &[u8],
    node_table: &mut [u32],
    node_bits: &mut [u64],
    output_table: &mut [u32],
    output_bits: &mut [u64],
    locks: &mut [u8],
) -> Result<Size, Refusal> {
    let mut numbers = [0u32; 3];
    let number = unsafe {
        raw::reducer_import(
            text.as_ptr(),
            text.len(),
            node_table.as_mut_ptr(),
            node_table.len(),
            node_bits.as_mut_ptr(),
            node_bits.len(),
            output_table.as_mut_ptr(),
            output_table.len(),
            output_bits.as_mut_ptr(),
            output_bits.len(),
            locks.as_mut_ptr(),
            locks.len(),
            &mut numbers,
        )
    };
    answer(number, size_of(numbers))
}

/// Fills the front of the buffer with the graph's ASCII AIGER text; the text's length. Scratch is one word a node.
pub fn export(
    size: Size,
    node_table: &[u32],
    node_bits: &[u64],
    output_table: &[u32],
    output_bits: &[u64],
    locks: &[u8],
    scratch: &mut [u32],
    buffer: &mut [u8],
) -> Result<usize, Refusal> {
    let mut length = 0usize;
    let number = unsafe {
        raw::reducer_export(
            size.inputs,
            size.nodes,
            size.outputs,
            node_table.as_ptr(),
            node_table.len(),
            node_bits.as_ptr(),
            node_bits.len(),
            output_table.as_ptr(),
            output_table.len(),
            output_bits.as_ptr(),
            output_bits.len(),
            locks.as_ptr(),
            locks.len(),
            scratch.as_mut_ptr(),
            scratch.len(),
            buffer.as_mut_ptr(),
            buffer.len(),
            &mut length,
        )
    };
    answer(number, length)
}

/// Joins two graphs, output k of the first driving input k of the second, and fills the front of both tables, of their bits and of the locks.
pub fn join(
    first: Lent,
    second: Lent,
    node_table: &mut [u32],
    node_bits: &mut [u64],
    output_table: &mut [u32],
    output_bits: &mut [u64],
    locks: &mut [u8],
) -> Result<Size, Refusal> {
    let mut numbers = [0u32; 3];
    let number = unsafe {
        raw::reducer_join(
            first.size.inputs,
            first.size.nodes,
            first.size.outputs,
            first.node_table.as_ptr(),
            first.node_table.len(),
            first.node_bits.as_ptr(),
            first.node_bits.len(),
            first.output_table.as_ptr(),
            first.output_table.len(),
            first.output_bits.as_ptr(),
            first.output_bits.len(),
            first.locks.as_ptr(),
            first.locks.len(),
            second.size.inputs,
            second.size.nodes,
            second.size.outputs,
            second.node_table.as_ptr(),
            second.node_table.len(),
            second.node_bits.as_ptr(),
            second.node_bits.len(),
            second.output_table.as_ptr(),
            second.output_table.len(),
            second.output_bits.as_ptr(),
            second.output_bits.len(),
            second.locks.as_ptr(),
            second.locks.len(),
            node_table.as_mut_ptr(),
            node_table.len(),
            node_bits.as_mut_ptr(),
            node_bits.len(),
            output_table.as_mut_ptr(),
            output_table.len(),
            output_bits.as_mut_ptr(),
            output_bits.len(),
            locks.as_mut_ptr(),
            locks.len(),
            &mut numbers,
        )
    };
    answer(number, size_of(numbers))
}

/// Fills the front of the results with the outputs' words. Scratch is one word a node.
pub fn evaluate(
    size: Size,
    node_table: &[u32],
    node_bits: &[u64],
    output_table: &[u32],
    output_bits: &[u64],
    locks: &[u8],
    input_words: &[u64],
    scratch: &mut [u64],
    results: &mut [u64],
) -> Result<(), Refusal> {
    let number = unsafe {
        raw::reducer_evaluate(
            size.inputs,
            size.nodes,
            size.outputs,
            node_table.as_ptr(),
            node_table.len(),
            node_bits.as_ptr(),
            node_bits.len(),
            output_table.as_ptr(),
            output_table.len(),
            output_bits.as_ptr(),
            output_bits.len(),
            locks.as_ptr(),
            locks.len(),
            input_words.as_ptr(),
            input_words.len(),
            scratch.as_mut_ptr(),
            scratch.len(),
            results.as_mut_ptr(),
            results.len(),
        )
    };
    answer(number, ())
}

/// The least assignment, input 1 being its lowest bit, that gives a wanted byte an output: 0, 1, or 2 for either. None where no assignment
/// does. Scratch is one word a node.
pub fn assignment(
    size: Size,
    node_table: &[u32],
    node_bits: &[u64],
    output_table: &[u32],
    output_bits: &[u64],
    locks: &[u8],
    wanted: &[u8],
    scratch: &mut [u64],
) -> Result<Option<u32>, Refusal> {
    let mut found = [0u32; 2];
    let number = unsafe {
        raw::reducer_assignment(
            size.inputs,
            size.nodes,
            size.outputs,
            node_table.as_ptr(),
            node_table.len(),
            node_bits.as_ptr(),
            node_bits.len(),
            output_table.as_ptr(),
            output_table.len(),
            output_bits.as_ptr(),
            output_bits.len(),
            locks.as_ptr(),
            locks.len(),
            wanted.as_ptr(),
            wanted.len(),
            scratch.as_mut_ptr(),
            scratch.len(),
            &mut found,
        )
    };
    answer(number, (found[0] == 1).then_some(found[1]))
}

/// How many edges are complemented.
pub fn complemented_edges(
    size: Size,
    node_table: &[u32],
    node_bits: &[u64],
    output_table: &[u32],
    output_bits: &[u64],
    locks: &[u8],
) -> Result<u32, Refusal> {
    let mut count = 0u32;
    let number = unsafe {
        raw::reducer_count(
            size.inputs,
            size.nodes,
            size.outputs,
            node_table.as_ptr(),
            node_table.len(),
            node_bits.as_ptr(),
            node_bits.len(),
            output_table.as_ptr(),
            output_table.len(),
            output_bits.as_ptr(),
            output_bits.len(),
            locks.as_ptr(),
            locks.len(),
            &mut count,
        )
    };
    answer(number, count)
}

/// The best move of one node; what it saves.
pub fn node_call(
    size: Size,
    node_table: &[u32],
    node_bits: &mut [u64],
    output_table: &[u32],
    output_bits: &mut [u64],
    locks: &[u8],
    node: u32,
) -> Result<Saving, Refusal> {
    let mut saving = [0i64; 2];
    let number = unsafe {
        raw::reducer_node(
            size.inputs,
            size.nodes,
            size.outputs,
            node_table.as_ptr(),
            node_table.len(),
            node_bits.as_mut_ptr(),
            node_bits.len(),
            output_table.as_ptr(),
            output_table.len(),
            output_bits.as_mut_ptr(),
            output_bits.len(),
            locks.as_ptr(),
            locks.len(),
            node,
            &mut saving,
        )
    };
    answer(number, parted(saving))
}

/// The best moves of a node and of the one that its word (1 to 3) names; what they save.
pub fn pair_call(
    size: Size,
    node_table: &[u32],
    node_bits: &mut [u64],
    output_table: &[u32],
    output_bits: &mut [u64],
    locks: &[u8],
    node: u32,
    word: u32,
) -> Result<Saving, Refusal> {
    let mut saving = [0i64; 2];
    let number = unsafe {
        raw::reducer_pair(
            size.inputs,
            size.nodes,
            size.outputs,
            node_table.as_ptr(),
            node_table.len(),
            node_bits.as_mut_ptr(),
            node_bits.len(),
            output_table.as_ptr(),
            output_table.len(),
            output_bits.as_mut_ptr(),
            output_bits.len(),
            locks.as_ptr(),
            locks.len(),
            node,
            word,
            &mut saving,
        )
    };
    answer(number, parted(saving))
}

/// What two moves would save: one at the node that a word (1 to 3) of a node names, one at the node; below 0 where they lose. A move
/// that a node's kind lacks is refused by 15, one other than 0 at a locked node by 16.
pub fn trial(
    size: Size,
    node_table: &[u32],
    node_bits: &[u64],
    output_table: &[u32],
    output_bits: &[u64],
    locks: &[u8],
    pair: (u32, u32),
    moves: (u32, u32),
) -> Result<i64, Refusal> {
    let mut gain = 0i64;
    let number = unsafe {
        raw::reducer_trial(
            size.inputs,
            size.nodes,
            size.outputs,
            node_table.as_ptr(),
            node_table.len(),
            node_bits.as_ptr(),
            node_bits.len(),
            output_table.as_ptr(),
            output_table.len(),
            output_bits.as_ptr(),
            output_bits.len(),
            locks.as_ptr(),
            locks.len(),
            pair.0,
            pair.1,
            moves.0,
            moves.1,
            &mut gain,
        )
    };
    answer(number, gain)
}

/// The best moves of the tree of a root; what they save. Scratch is [`crate::scratch_words`] long.
pub fn tree_call(
    size: Size,
    node_table: &[u32],
    node_bits: &mut [u64],
    output_table: &[u32],
    output_bits: &mut [u64],
    locks: &[u8],
    root: u32,
    scratch: &mut [u32],
) -> Result<Saving, Refusal> {
    let mut saving = [0i64; 2];
    let number = unsafe {
        raw::reducer_tree(
            size.inputs,
            size.nodes,
            size.outputs,
            node_table.as_ptr(),
            node_table.len(),
            node_bits.as_mut_ptr(),
            node_bits.len(),
            output_table.as_ptr(),
            output_table.len(),
            output_bits.as_mut_ptr(),
            output_bits.len(),
            locks.as_ptr(),
            locks.len(),
            root,
            scratch.as_mut_ptr(),
            scratch.len(),
            &mut saving,
        )
    };
    answer(number, parted(saving))
}

/// What [`tree_call`] would save, with each node's move there in the first bytes of `moves`, a byte a node by rising index: 0 outside
/// the root's tree and at locked nodes. Scratch is [`crate::scratch_words`] long.
pub fn preview(
    size: Size,
    node_table: &[u32],
    node_bits: &[u64],
    output_table: &[u32],
    output_bits: &[u64],
    locks: &[u8],
    root: u32,
    moves: &mut [u8],
    scratch: &mut [u32],
) -> Result<Saving, Refusal> {
    let mut saving = [0i64; 2];
    let number = unsafe {
        raw::reducer_preview(
            size.inputs,
            size.nodes,
            size.outputs,
            node_table.as_ptr(),
            node_table.len(),
            node_bits.as_ptr(),
            node_bits.len(),
            output_table.as_ptr(),
            output_table.len(),
            output_bits.as_ptr(),
            output_bits.len(),
            locks.as_ptr(),
            locks.len(),
            root,
            moves.as_mut_ptr(),
            moves.len(),
            scratch.as_mut_ptr(),
            scratch.len(),
            &mut saving,
        )
    };
    answer(number, parted(saving))
}

/// The moves of the tree of a root after which most of its majorities have just one complemented input, then those that leave fewer
/// complemented edges; what they save, own alone and perhaps below 0. The root's readers do not turn. Scratch is
/// [`crate::scratch_words`] long.
pub fn resistive_call(
    size: Size,
    node_table: &[u32],
    node_bits: &mut [u64],
    output_table: &[u32],
    output_bits: &mut [u64],
    locks: &[u8],
    root: u32,
    scratch: &mut [u32],
) -> Result<Saving, Refusal> {
    let mut saving = [0i64; 2];
    let number = unsafe {
        raw::reducer_resistive(
            size.inputs,
            size.nodes,
            size.outputs,
            node_table.as_ptr(),
            node_table.len(),
            node_bits.as_mut_ptr(),
            node_bits.len(),
            output_table.as_ptr(),
            output_table.len(),
            output_bits.as_mut_ptr(),
            output_bits.len(),
            locks.as_ptr(),
            locks.len(),
            root,
            scratch.as_mut_ptr(),
            scratch.len(),
            &mut saving,
        )
    };
    answer(number, parted(saving))
}

/// Rounds of tree, node and pair calls until one saves nothing. Scratch is [`crate::scratch_words`] long.
pub fn settle(
    size: Size,
    node_table: &[u32],
    node_bits: &mut [u64],
    output_table: &[u32],
    output_bits: &mut [u64],
    locks: &[u8],
    scratch: &mut [u32],
) -> Result<Settled, Refusal> {
    let (mut figures, mut savings) = ([0u32; 3], [0i64; 2]);
    let number = unsafe {
        raw::reducer_settle(
            size.inputs,
            size.nodes,
            size.outputs,
            node_table.as_ptr(),
            node_table.len(),
            node_bits.as_mut_ptr(),
            node_bits.len(),
            output_table.as_ptr(),
            output_table.len(),
            output_bits.as_mut_ptr(),
            output_bits.len(),
            locks.as_ptr(),
            locks.len(),
            scratch.as_mut_ptr(),
            scratch.len(),
            &mut figures,
            &mut savings,
        )
    };
    let [rounds, before, after] = figures;
    let Saving { own, others } = parted(savings);
    answer(number, Settled { rounds, before, after, own, others })
}

/// Settles as [`settle`] does, and enters the figures into the record of a class, [`crate::CLASS_WORDS`] words that are 0 before the first
/// graph. A record that is full or holds what no class comes to is refused by 3 before all else. Scratch is [`crate::scratch_words`] long.
pub fn class(
    size: Size,
    node_table: &[u32],
    node_bits: &mut [u64],
    output_table: &[u32],
    output_bits: &mut [u64],
    locks: &[u8],
    scratch: &mut [u32],
    book: &mut [u64],
) -> Result<Settled, Refusal> {
    let (mut figures, mut savings) = ([0u32; 3], [0i64; 2]);
    let number = unsafe {
        raw::reducer_class(
            size.inputs,
            size.nodes,
            size.outputs,
            node_table.as_ptr(),
            node_table.len(),
            node_bits.as_mut_ptr(),
            node_bits.len(),
            output_table.as_ptr(),
            output_table.len(),
            output_bits.as_mut_ptr(),
            output_bits.len(),
            locks.as_ptr(),
            locks.len(),
            scratch.as_mut_ptr(),
            scratch.len(),
            book.as_mut_ptr(),
            book.len(),
            &mut figures,
            &mut savings,
        )
    };
    let [rounds, before, after] = figures;
    let Saving { own, others } = parted(savings);
    answer(number, Settled { rounds, before, after, own, others })
}

/// What the record of a class tells, of all its graphs or of the latest 16.
pub fn class_figures(book: &[u64], latest: bool) -> Result<Figures, Refusal> {
    let (mut figures, mut improvement) = ([0u64; 6], [0i64; 2]);
    let number =
        unsafe { raw::reducer_class_figures(book.as_ptr(), book.len(), latest.into(), &mut figures, &mut improvement) };
    let [graphs, before, after, rounds, cells_before, cells_after] = figures;
    let [fall, total_before] = improvement;
    answer(number, Figures { graphs, before, after, rounds, cells_before, cells_after, fall, total_before })
}

/// Many moves, all made or none: at each node of a list of rising indices the move at the same place. What they save; below 0 where
/// they lose. Moves past the list's end are not read.
pub fn many(
    size: Size,
    node_table: &[u32],
    node_bits: &mut [u64],
    output_table: &[u32],
    output_bits: &mut [u64],
    locks: &[u8],
    list: &[u32],
    moves: &[u8],
) -> Result<i64, Refusal> {
    let mut saving = 0i64;
    let number = unsafe {
        raw::reducer_many(
            size.inputs,
            size.nodes,
            size.outputs,
            node_table.as_ptr(),
            node_table.len(),
            node_bits.as_mut_ptr(),
            node_bits.len(),
            output_table.as_ptr(),
            output_table.len(),
            output_bits.as_mut_ptr(),
            output_bits.len(),
            locks.as_ptr(),
            locks.len(),
            list.as_ptr(),
            list.len(),
            moves.as_ptr(),
            moves.len(),
            &mut saving,
        )
    };
    answer(number, saving)
}

/// The moves that lead from the first graph to the second, in the first bytes of `moves`, a byte a node by rising index; or what differs
/// first, and then `moves` is left.
pub fn compare(first: Lent, second: Lent, moves: &mut [u8]) -> Result<Option<Difference>, Refusal> {
    let mut difference = [0u32; 2];
    let number = unsafe {
        raw::reducer_compare(
            first.size.inputs,
            first.size.nodes,
            first.size.outputs,
            first.node_table.as_ptr(),
            first.node_table.len(),
            first.node_bits.as_ptr(),
            first.node_bits.len(),
            first.output_table.as_ptr(),
            first.output_table.len(),
            first.output_bits.as_ptr(),
            first.output_bits.len(),
            first.locks.as_ptr(),
            first.locks.len(),
            second.size.inputs,
            second.size.nodes,
            second.size.outputs,
            second.node_table.as_ptr(),
            second.node_table.len(),
            second.node_bits.as_ptr(),
            second.node_bits.len(),
            second.output_table.as_ptr(),
            second.output_table.len(),
            second.output_bits.as_ptr(),
            second.output_bits.len(),
            second.locks.as_ptr(),
            second.locks.len(),
            moves.as_mut_ptr(),
            moves.len(),
            &mut difference,
        )
    };
    answer(number, Difference::of(difference))
}

/// Makes a node one majority of three lower indices, rising and none of them 0, where its value is one of theirs.
pub fn majority(
    size: Size,
    node_table: &mut [u32],
    node_bits: &mut [u64],
    output_table: &[u32],
    output_bits: &[u64],
    locks: &[u8],
    node: u32,
    [first, second, third]: [u32; 3],
    scratch: &mut [u32],
) -> Result<Majority, Refusal> {
    let mut told = 0u32;
    let number = unsafe {
        raw::reducer_majority(
            size.inputs,
            size.nodes,
            size.outputs,
            node_table.as_mut_ptr(),
            node_table.len(),
            node_bits.as_mut_ptr(),
            node_bits.len(),
            output_table.as_ptr(),
            output_table.len(),
            output_bits.as_ptr(),
            output_bits.len(),
            locks.as_ptr(),
            locks.len(),
            node,
            first,
            second,
            third,
            scratch.as_mut_ptr(),
            scratch.len(),
            &mut told,
        )
    };
    answer(number, Majority::of(told))
}

/// Finds hidden majorities and drops what is then unread; the new number of nodes. What is freed, node words and lock bytes, becomes 0.
pub fn find(
    size: Size,
    node_table: &mut [u32],
    node_bits: &mut [u64],
    output_table: &mut [u32],
    output_bits: &mut [u64],
    locks: &mut [u8],
    scratch: &mut [u32],
) -> Result<u32, Refusal> {
    let mut nodes = 0u32;
    let number = unsafe {
        raw::reducer_find(
            size.inputs,
            size.nodes,
            size.outputs,
            node_table.as_mut_ptr(),
            node_table.len(),
            node_bits.as_mut_ptr(),
            node_bits.len(),
            output_table.as_mut_ptr(),
            output_table.len(),
            output_bits.as_mut_ptr(),
            output_bits.len(),
            locks.as_mut_ptr(),
            locks.len(),
            scratch.as_mut_ptr(),
            scratch.len(),
            &mut nodes,
        )
    };
    answer(number, nodes)
}

/// Loads a file and makes a list of calls, three words each ([`crate::Call::words`]), on the loaded graph and locks; many calls take
/// parts of `list` and `moves`, majority calls three entries of `list`. The answers are three words a call: the refusal's number, or 0,
/// and what the call saves, own and others; of many moves one number, of a majority call its answer (0 made, 1 not majority, 2 not
/// covered) and of the finder the new number of nodes, each with 0 after it. The size is that of the graph that the list leaves.
pub fn replay(
    file: &[u8],
    calls: &[u32],
    node_table: &mut [u32],
    node_bits: &mut [u64],
    output_table: &mut [u32],
    output_bits: &mut [u64],
    locks: &mut [u8],
    list: &[u32],
    moves: &[u8],
    scratch: &mut [u32],
    answers: &mut [i64],
) -> Result<Size, ReplayRefusal> {
    let mut numbers = [0u32; 3];
    let number = unsafe {
        raw::reducer_replay(
            file.as_ptr(),
            file.len(),
            calls.as_ptr(),
            calls.len(),
            node_table.as_mut_ptr(),
            node_table.len(),
            node_bits.as_mut_ptr(),
            node_bits.len(),
            output_table.as_mut_ptr(),
            output_table.len(),
            output_bits.as_mut_ptr(),
            output_bits.len(),
            locks.as_mut_ptr(),
            locks.len(),
            list.as_ptr(),
            list.len(),
            moves.as_ptr(),
            moves.len(),
            scratch.as_mut_ptr(),
            scratch.len(),
            answers.as_mut_ptr(),
            answers.len(),
            &mut numbers,
        )
    };
    replay_answer(number, size_of(numbers))
}
