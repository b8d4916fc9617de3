//! The calls as the proved library makes them. Each returns what it answers, for comparison.

use reference::packed::Packed;

use super::pairs::{Moved, Stages};
use super::patterns::{self, Pattern};
use super::samples::{as_one, part, Lent};
use super::woods;
use crate::interface::{filling, on_graph, on_graphs};
use reducer::{Saving, Settled, MARK};

type Sample = super::samples::Sample<Packed>;

/// What a call answers that is not refused.
fn accepted<T>(number: u32, told: T) -> T {
    assert_eq!(number, 0, "a call is refused");
    told
}

pub fn load(s: &mut Sample, _: &mut Lent) -> u64 {
    let mut numbers = [0; 3];
    let number = filling!(reducer_load, (s.file.as_ptr(), s.file.len()), &mut s.g, (&mut numbers));
    accepted(number, numbers[1].into())
}

pub fn write(s: &mut Sample, l: &mut Lent) -> u64 {
    let mut length = 0;
    let number = on_graph!(reducer_write, &mut s.g, l.buffer.as_mut_ptr(), l.buffer.len(), &mut length);
    accepted(number, length as u64)
}

pub fn import(s: &mut Sample, _: &mut Lent) -> u64 {
    let mut numbers = [0; 3];
    let number = filling!(reducer_import, (s.text.as_ptr(), s.text.len()), &mut s.g, (&mut numbers));
    accepted(number, numbers[1].into())
}

pub fn export(s: &mut Sample, l: &mut Lent) -> u64 {
    let mut length = 0;
    let (scratch, buffer) = (&mut l.scratch, &mut l.buffer);
    let number = on_graph!(
        reducer_export,
        &mut s.g,
        scratch.as_mut_ptr(),
        scratch.len(),
        buffer.as_mut_ptr(),
        buffer.len(),
        &mut length
    );
    accepted(number, length as u64)
}

pub fn evaluate(s: &mut Sample, l: &mut Lent) -> u64 {
    let (scratch, results) = (&mut l.long_scratch, &mut l.results);
    let number = on_graph!(
        reducer_evaluate,
        &mut s.g,
        l.words.as_ptr(),
        l.words.len(),
        scratch.as_mut_ptr(),
        scratch.len(),
        results.as_mut_ptr(),
        results.len()
    );
    accepted(number, results[0])
}

pub fn count(s: &mut Sample, _: &mut Lent) -> u64 {
    let mut count = 0;
    let number = on_graph!(reducer_count, &mut s.g, &mut count);
    accepted(number, count.into())
}

fn saved(number: u32, [own, others]: [i64; 2]) -> u64 {
    accepted(number, as_one(Saving { own, others }))
}

pub fn node(s: &mut Sample, _: &mut Lent) -> u64 {
    let mut call = |v: u32| {
        let mut saving = [0; 2];
        saved(on_graph!(reducer_node, &mut s.g, v, &mut saving), saving)
    };
    s.nodes.iter().map(|&v| call(v)).sum()
}

pub fn pair(s: &mut Sample, _: &mut Lent) -> u64 {
    let mut call = |v: u32| {
        let mut saving = [0; 2];
        saved(on_graph!(reducer_pair, &mut s.g, v, 1, &mut saving), saving)
    };
    s.nodes.iter().map(|&v| call(v)).sum()
}

pub fn tree(s: &mut Sample, l: &mut Lent) -> u64 {
    let scratch = &mut l.scratch;
    let mut call = |v: u32| {
        let mut saving = [0; 2];
        saved(on_graph!(reducer_tree, &mut s.g, v, scratch.as_mut_ptr(), scratch.len(), &mut saving), saving)
    };
    s.roots.iter().map(|&v| call(v)).sum()
}

pub fn preview(s: &mut Sample, l: &mut Lent) -> u64 {
    let (moves, scratch) = (&mut l.moves, &mut l.scratch);
    let mut call = |v: u32| {
        let mut saving = [0; 2];
        let number = on_graph!(
            reducer_preview,
            &mut s.g,
            v,
            moves.as_mut_ptr(),
            moves.len(),
            scratch.as_mut_ptr(),
            scratch.len(),
            &mut saving
        );
        saved(number, saving)
    };
    s.roots.iter().map(|&v| call(v)).sum()
}

fn moved(g: &mut Packed, list: &[u32], moves: &[u8]) -> u64 {
    let mut saving = 0;
    let number = on_graph!(reducer_many, g, list.as_ptr(), list.len(), moves.as_ptr(), moves.len(), &mut saving);
    accepted(number, part(saving))
}

pub fn many(s: &mut Sample, _: &mut Lent) -> u64 {
    moved(&mut s.g, &s.all.0, &s.all.1)
}

pub fn many_of_a_tenth(s: &mut Sample, _: &mut Lent) -> u64 {
    moved(&mut s.g, &s.tenth.0, &s.tenth.1)
}

pub fn settle(s: &mut Sample, l: &mut Lent) -> u64 {
    let (mut figures, mut savings, scratch) = ([0; 3], [0; 2], &mut l.scratch);
    let number = on_graph!(reducer_settle, &mut s.g, scratch.as_mut_ptr(), scratch.len(), &mut figures, &mut savings);
    let ([rounds, before, after], [own, others]) = (figures, savings);
    l.settled(accepted(number, Settled { rounds, before, after, own, others }))
}

/// The new N.
pub fn find(g: &mut Packed, scratch: &mut [u32]) -> u32 {
    let mut nodes = 0;
    let number = on_graph!(reducer_find, &mut *g, scratch.as_mut_ptr(), scratch.len(), &mut nodes);
    accepted(number, nodes)
}

/// At each of the roots.
pub fn resistive(s: &mut woods::Sample) -> u64 {
    let (g, scratch) = (&mut s.g, &mut s.scratch);
    let mut call = |v: u32| {
        let mut saving = [0; 2];
        saved(on_graph!(reducer_resistive, &mut *g, v, scratch.as_mut_ptr(), scratch.len(), &mut saving), saving)
    };
    s.roots.iter().map(|&v| call(v)).sum()
}

/// What differs.
pub fn compare(s: &mut Moved) -> u64 {
    let (moves, mut told) = (&mut s.moves, [0; 2]);
    let number = on_graphs!(reducer_compare, &mut s.first, &mut s.second, moves.as_mut_ptr(), moves.len(), &mut told);
    accepted(number, told[0].into())
}

pub fn assignment(s: &mut Pattern) -> u64 {
    let (mut found, scratch) = ([0; 2], &mut s.scratch);
    let (wanted, length) = (s.wanted.as_ptr(), s.wanted.len());
    let number =
        on_graph!(reducer_assignment, &mut s.g, wanted, length, scratch.as_mut_ptr(), scratch.len(), &mut found);
    accepted(number, patterns::told((found[0] == 1).then_some(found[1])))
}

/// The joined graph's N.
pub fn join(s: &mut Stages) -> u64 {
    let (lent, mut numbers) = (&mut s.joined, [0; 3]);
    let number = on_graphs!(
        reducer_join,
        &mut s.first,
        &mut s.second,
        lent.node_table.as_mut_ptr(),
        lent.node_table.len(),
        lent.node_bits.as_mut_ptr(),
        lent.node_bits.len(),
        lent.output_table.as_mut_ptr(),
        lent.output_table.len(),
        lent.output_bits.as_mut_ptr(),
        lent.output_bits.len(),
        lent.locks.as_mut_ptr(),
        lent.locks.len(),
        &mut numbers
    );
    accepted(number, numbers[1].into())
}

/// What the calls of a round save in both parts, where each call scans the tables.
fn round_by_calls(g: &mut Packed, scratch: &mut [u32]) -> [i64; 2] {
    const NO_ROOT: u32 = 7;
    let mut sums = [0; 2];
    let mut add = |number: u32, [own, others]: [i64; 2]| {
        accepted(number, ());
        sums = [sums[0] + own, sums[1] + others];
    };
    let nodes = g.inputs + 1..=g.inputs + g.nodes;
    for v in nodes.clone() {
        let mut saving = [0; 2];
        let number = on_graph!(reducer_tree, &mut *g, v, scratch.as_mut_ptr(), scratch.len(), &mut saving);
        add(if number == NO_ROOT { 0 } else { number }, saving);
    }
    for v in nodes.clone() {
        let mut saving = [0; 2];
        add(on_graph!(reducer_node, &mut *g, v, &mut saving), saving);
    }
    for v in nodes {
        let xor = g.node_table[3 * (v - g.inputs) as usize - 1] == MARK;
        for word in 1..=if xor { 2 } else { 3 } {
            let mut saving = [0; 2];
            add(on_graph!(reducer_pair, &mut *g, v, word, &mut saving), saving);
        }
    }
    sums
}

/// Settling as it would be without a state between its calls.
pub fn settle_by_calls(s: &mut Sample, l: &mut Lent) -> u64 {
    l.sums = [0; 2];
    let mut rounds = 0;
    loop {
        let [own, others] = round_by_calls(&mut s.g, &mut l.scratch);
        l.sums = [l.sums[0] + own, l.sums[1] + others];
        rounds += 1;
        if own + others == 0 {
            return rounds;
        }
    }
}
