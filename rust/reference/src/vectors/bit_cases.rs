//! Cases that tables of literals do not have: bits where none may be, too few or more words of them, indices that are too large.

use crate::file::file_of;
use crate::graph::MARK;
use crate::packed::{pack, set_bit, Lengths, Packed};
use crate::vectors::case::*;
use crate::vectors::file_cases::load_into;
use crate::vectors::samples::of;

/// A majority and an XOR that reads it: bits of the last literals are set.
fn two_nodes() -> Packed {
    pack(&of(2, &[[3, 4, 5], [7, 2, MARK]], &[9, 7]))
}

/// 22 nodes have 66 places, and there are 65 outputs: two words of bits each, and each last literal complemented.
fn two_words() -> Packed {
    let mut nodes = [[2, 4, 1]; 22];
    for (v, words) in nodes.iter_mut().enumerate().skip(1) {
        words[0] = 2 * (2 + v as u32) + 1;
    }
    pack(&of(2, &nodes, &[49; 65]))
}

/// A graph after one change.
fn with(mut p: Packed, change: impl FnOnce(&mut Packed)) -> Packed {
    change(&mut p);
    p
}

/// A bit past the last literal, first and last of its word, and bits in words that are not the graph's.
fn stray_bits() -> Vec<Packed> {
    let mut all = Vec::new();
    for place in [6, 7, 31, 32, 63] {
        all.push(with(two_nodes(), |p| set_bit(&mut p.node_bits, place)));
    }
    for place in [2, 3, 32, 63] {
        all.push(with(two_nodes(), |p| set_bit(&mut p.output_bits, place)));
    }
    for place in [66, 127] {
        all.push(with(two_words(), |p| set_bit(&mut p.node_bits, place)));
    }
    for place in [65, 127] {
        all.push(with(two_words(), |p| set_bit(&mut p.output_bits, place)));
    }
    for p in [two_nodes(), two_words(), pack(&of(1, &[], &[]))] {
        all.push(with(p, |p| {
            p.node_bits.push(u64::MAX);
            p.output_bits.extend([u64::MAX, 1 << 63]);
        }));
    }
    all
}

/// The mark's bit, and the same bit where the third word is a literal.
fn marked_bits() -> Vec<Packed> {
    let marked = |third| {
        with(two_nodes(), |p| {
            p.node_table[5] = third;
            set_bit(&mut p.node_bits, 5);
        })
    };
    vec![two_nodes(), marked(MARK), marked(0), marked(3), marked(4)]
}

/// Words of bits that are too few, with and without what is told before and after that.
fn too_few_words() -> Vec<Packed> {
    let mut all = vec![two_words()];
    let cuts: [fn(&mut Packed); 4] = [
        |p| p.node_bits.truncate(1),
        |p| p.node_bits.clear(),
        |p| p.output_bits.truncate(1),
        |p| p.output_bits.clear(),
    ];
    for cut in cuts {
        all.push(with(two_words(), cut));
        all.push(with(with(two_words(), cut), |p| p.inputs = 4_097));
        all.push(with(with(two_words(), cut), |p| p.node_table[0] = 3));
        all.push(with(with(two_words(), cut), |p| p.locks[0] = 2));
    }
    // As many as there are: indices behind them have no bit.
    all.push(with(two_words(), |p| p.node_table.extend([MARK, 7])));
    all
}

/// Indices whose literals are near the mark, or are none of 32 bits, with a bit and without.
fn large_indices() -> Vec<Packed> {
    let mut all = Vec::new();
    for index in [
        0x7fff_fffe,
        0x7fff_ffff,
        0x8000_0000,
        0x8000_0002,
        MARK - 1,
        MARK,
    ] {
        for bit in [0, 1] {
            for place in [0, 2, 4, 5] {
                all.push(with(two_nodes(), |p| {
                    p.node_table[place] = index;
                    p.node_bits[0] = bit << place;
                }));
            }
            all.push(with(two_nodes(), |p| {
                p.output_table[1] = index;
                p.output_bits[0] = bit << 1;
            }));
        }
    }
    all
}

/// A bit that is none of the graph's beside a lock that is none, and beside a length that is too short: 4, 5, 13 in that order.
fn with_other_faults() -> Vec<Packed> {
    let stray = || with(two_nodes(), |p| set_bit(&mut p.output_bits, 5));
    vec![
        with(stray(), |p| p.locks[1] = 2),
        with(stray(), |p| p.locks.truncate(1)),
        with(stray(), |p| p.outputs = 4_097),
        with(stray(), |p| p.node_table.truncate(5)),
        with(two_nodes(), |p| p.locks[1] = 2),
    ]
}

/// P1's file and one of two words of bits, into just enough words, fewer and more, over bits that are all set.
fn loads() -> Vec<Case> {
    let mut all = Vec::new();
    for (p, nodes, outputs) in [
        (of(3, &[[3, 5, 7]], &[9]), 1, 1),
        (crate::packed::unpack(&two_words()), 22, 65),
    ] {
        let (file, enough) = (file_of(&p), Lengths::of(nodes, outputs));
        for (node_bits, output_bits) in [(0, 0), (1, 0), (0, 1), (1, 2), (2, 1), (2, 2), (3, 4)] {
            let lengths = Lengths {
                node_bits,
                output_bits,
                ..enough
            };
            all.push(load_into(&file, lengths));
        }
    }
    all
}

/// The cases of the program, and those of single calls and evaluation.
pub fn packed_cases() -> (Vec<Case>, Vec<Case>) {
    let graphs = [
        stray_bits(),
        marked_bits(),
        too_few_words(),
        large_indices(),
        with_other_faults(),
    ]
    .concat();
    let (mut stored, mut direct) = (loads(), Vec::new());
    for p in graphs {
        stored.push(Case::lent(ADMIT, p.clone()));
        stored.push(Case::lent(EDGES, p.clone()));
        stored.push(Case {
            result: 1_000,
            ..Case::lent(WRITE, p.clone())
        });
        for op in [NODE, PAIR, TREE, SETTLE, MANY, FIND] {
            direct.push(Case {
                x: 4,
                y: 1,
                scratch: 8 * p.nodes,
                list: vec![3],
                moves: vec![1],
                ..Case::lent(op, p.clone())
            });
        }
        direct.push(Case {
            x: 5,
            scratch: 8 * p.nodes,
            list: vec![1, 2, 4],
            ..Case::lent(MAJORITY, p.clone())
        });
        direct.push(Case {
            longs: vec![0xf0, 0xcc],
            scratch: p.nodes,
            result: p.outputs.min(100),
            ..Case::lent(EVALUATE, p)
        });
    }
    (stored, direct)
}
