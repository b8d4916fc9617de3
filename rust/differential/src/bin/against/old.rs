//! The calls as the older library makes them. Its symbols are those of the C interface behind `old_`.

use differential::timing::samples::{as_one, part, Lent};
use reducer::{Saving, Settled};
use reference::graph::Graph;

type Sample = differential::timing::samples::Sample<Graph>;

/// Functions that take a graph, with what follows its locks.
macro_rules! of_graphs {
    ($($name:ident($($more:ident: $type:ty),*);)*) => {
        extern "C" {
            $(fn $name(
                inputs: u32,
                nodes: u32,
                outputs: u32,
                node_table: *mut u32,
                node_table_length: usize,
                output_table: *mut u32,
                output_table_length: usize,
                locks: *const u8,
                locks_length: usize,
                $($more: $type),*
            ) -> u32;)*
        }
    };
}

of_graphs! {
    old_reducer_write(buffer: *mut u8, buffer_length: usize, length: *mut usize);
    old_reducer_export(
        scratch: *mut u32, scratch_length: usize, buffer: *mut u8, buffer_length: usize, length: *mut usize
    );
    old_reducer_evaluate(
        input_words: *const u64, input_words_length: usize,
        scratch: *mut u64, scratch_length: usize, results: *mut u64, results_length: usize
    );
    old_reducer_count(count: *mut u32);
    old_reducer_node(node: u32, saving: *mut [i64; 2]);
    old_reducer_pair(node: u32, word: u32, saving: *mut [i64; 2]);
    old_reducer_many(
        list: *const u32, list_length: usize, moves: *const u8, moves_length: usize, saving: *mut i64
    );
    old_reducer_tree(root: u32, scratch: *mut u32, scratch_length: usize, saving: *mut [i64; 2]);
    old_reducer_preview(
        root: u32, moves: *mut u8, moves_length: usize, scratch: *mut u32, scratch_length: usize, saving: *mut [i64; 2]
    );
    old_reducer_settle(scratch: *mut u32, scratch_length: usize, figures: *mut [u32; 3], savings: *mut [i64; 2]);
}

/// Functions that fill tables and locks from bytes.
macro_rules! filling {
    ($($name:ident),*) => {
        extern "C" {
            $(fn $name(
                bytes: *const u8,
                bytes_length: usize,
                node_table: *mut u32,
                node_table_length: usize,
                output_table: *mut u32,
                output_table_length: usize,
                locks: *mut u8,
                locks_length: usize,
                numbers: *mut [u32; 3],
            ) -> u32;)*
        }
    };
}

filling!(old_reducer_load, old_reducer_import);

/// A call on a graph, with these arguments behind it; it is not refused.
macro_rules! on {
    ($name:ident, $g:expr $(, $more:expr)*) => {{
        let g = &mut *$g;
        let number = unsafe {
            $name(
                g.inputs,
                g.nodes,
                g.outputs,
                g.node_table.as_mut_ptr(),
                g.node_table.len(),
                g.output_table.as_mut_ptr(),
                g.output_table.len(),
                g.locks.as_ptr(),
                g.locks.len(),
                $($more),*
            )
        };
        assert_eq!(number, 0, "a call is refused");
    }};
}

/// How many nodes there are after tables and locks are filled.
macro_rules! fill {
    ($name:ident, $bytes:expr, $g:expr) => {{
        let (bytes, g, mut numbers) = ($bytes, $g, [0; 3]);
        let number = unsafe {
            $name(
                bytes.as_ptr(),
                bytes.len(),
                g.node_table.as_mut_ptr(),
                g.node_table.len(),
                g.output_table.as_mut_ptr(),
                g.output_table.len(),
                g.locks.as_mut_ptr(),
                g.locks.len(),
                &mut numbers,
            )
        };
        assert_eq!(number, 0, "a call is refused");
        numbers[1].into()
    }};
}

pub fn load(s: &mut Sample, _: &mut Lent) -> u64 {
    fill!(old_reducer_load, &s.file, &mut s.g)
}

pub fn import(s: &mut Sample, _: &mut Lent) -> u64 {
    fill!(old_reducer_import, &s.text, &mut s.g)
}

pub fn write(s: &mut Sample, l: &mut Lent) -> u64 {
    let mut length = 0;
    on!(old_reducer_write, &mut s.g, l.buffer.as_mut_ptr(), l.buffer.len(), &mut length);
    length as u64
}

pub fn export(s: &mut Sample, l: &mut Lent) -> u64 {
    let (mut length, scratch, buffer) = (0, &mut l.scratch, &mut l.buffer);
    on!(
        old_reducer_export,
        &mut s.g,
        scratch.as_mut_ptr(),
        scratch.len(),
        buffer.as_mut_ptr(),
        buffer.len(),
        &mut length
    );
    length as u64
}

pub fn evaluate(s: &mut Sample, l: &mut Lent) -> u64 {
    let (scratch, results) = (&mut l.long_scratch, &mut l.results);
    on!(
        old_reducer_evaluate,
        &mut s.g,
        l.words.as_ptr(),
        l.words.len(),
        scratch.as_mut_ptr(),
        scratch.len(),
        results.as_mut_ptr(),
        results.len()
    );
    results[0]
}

pub fn count(s: &mut Sample, _: &mut Lent) -> u64 {
    let mut count = 0;
    on!(old_reducer_count, &mut s.g, &mut count);
    count.into()
}

fn as_saving([own, others]: [i64; 2]) -> u64 {
    as_one(Saving { own, others })
}

pub fn node(s: &mut Sample, _: &mut Lent) -> u64 {
    let mut call = |v: u32| {
        let mut saving = [0; 2];
        on!(old_reducer_node, &mut s.g, v, &mut saving);
        as_saving(saving)
    };
    s.nodes.iter().map(|&v| call(v)).sum()
}

pub fn pair(s: &mut Sample, _: &mut Lent) -> u64 {
    let mut call = |v: u32| {
        let mut saving = [0; 2];
        on!(old_reducer_pair, &mut s.g, v, 1, &mut saving);
        as_saving(saving)
    };
    s.nodes.iter().map(|&v| call(v)).sum()
}

pub fn tree(s: &mut Sample, l: &mut Lent) -> u64 {
    let scratch = &mut l.scratch;
    let mut call = |v: u32| {
        let mut saving = [0; 2];
        on!(old_reducer_tree, &mut s.g, v, scratch.as_mut_ptr(), scratch.len(), &mut saving);
        as_saving(saving)
    };
    s.roots.iter().map(|&v| call(v)).sum()
}

pub fn preview(s: &mut Sample, l: &mut Lent) -> u64 {
    let (moves, scratch) = (&mut l.moves, &mut l.scratch);
    let mut call = |v: u32| {
        let mut saving = [0; 2];
        on!(
            old_reducer_preview,
            &mut s.g,
            v,
            moves.as_mut_ptr(),
            moves.len(),
            scratch.as_mut_ptr(),
            scratch.len(),
            &mut saving
        );
        as_saving(saving)
    };
    s.roots.iter().map(|&v| call(v)).sum()
}

fn moved(g: &mut Graph, list: &[u32], moves: &[u8]) -> u64 {
    let mut saving = 0;
    on!(old_reducer_many, g, list.as_ptr(), list.len(), moves.as_ptr(), moves.len(), &mut saving);
    part(saving)
}

pub fn many(s: &mut Sample, _: &mut Lent) -> u64 {
    moved(&mut s.g, &s.all.0, &s.all.1)
}

pub fn many_of_a_tenth(s: &mut Sample, _: &mut Lent) -> u64 {
    moved(&mut s.g, &s.tenth.0, &s.tenth.1)
}

pub fn settle(s: &mut Sample, l: &mut Lent) -> u64 {
    let (mut figures, mut savings, scratch) = ([0; 3], [0; 2], &mut l.scratch);
    on!(old_reducer_settle, &mut s.g, scratch.as_mut_ptr(), scratch.len(), &mut figures, &mut savings);
    let ([rounds, before, after], [own, others]) = (figures, savings);
    l.settled(Settled { rounds, before, after, own, others })
}
