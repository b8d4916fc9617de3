//! Trials with every choice of some faults. Their number is known without any implementation: the first in the order 3, 4, 5, 13, 7, then
//! that of the named node's move, then that of the node's own.

use crate::call_faults::three_nodes;
use crate::lists::differ;
use crate::raw;
use reference::graph::MARK;
use reference::packed::{set_bit, Packed};

/// A trial in the making.
#[derive(Clone)]
struct Asked {
    g: Packed,
    node: u32,
    word: u32,
    both: (u32, u32),
}

/// Faults of what is tested before the moves.
const ORDER: [u32; 5] = [3, 4, 5, 13, 7];

/// A number, and what brings it about.
type Fault = (u32, fn(&mut Asked));

/// A move, and the number that it has at its node.
type Move = (u32, u32);

/// No two of a list can be had together.
static FAULTS: [&[Fault]; 6] = [
    &[
        (3, |asked| asked.g.inputs = 4_097),
        (3, |asked| asked.g.nodes = 100_001),
        (3, |asked| asked.g.outputs = u32::MAX),
    ],
    &[
        (4, |asked| asked.g.node_table.truncate(8)),
        (4, |asked| asked.g.output_table.truncate(1)),
        (4, |asked| asked.g.node_bits.clear()),
        (4, |asked| asked.g.output_bits.clear()),
    ],
    &[(4, |asked| asked.g.locks.truncate(2)), (13, |asked| asked.g.locks[0] = 2), (13, |asked| asked.g.locks[1] = 255)],
    &[
        (5, |asked| asked.g.node_table[0] = 3),
        (5, |asked| asked.g.node_table[7] = MARK),
        (5, |asked| set_bit(&mut asked.g.node_bits, 5)),
        (5, |asked| set_bit(&mut asked.g.output_bits, 2)),
    ],
    &[(7, |asked| asked.node = 2), (7, |asked| asked.node = 6), (7, |asked| asked.node = MARK)],
    &[(7, |asked| asked.word = 0), (7, |asked| asked.word = 4)],
];

/// Moves of an XOR and of a majority, free and locked; 0 for one that the node has.
static OF_XOR: [&[Move]; 2] = [
    &[(0, 0), (1, 0), (2, 0), (3, 0), (4, 15), (5, 15), (256, 15), (MARK, 15)],
    &[(0, 0), (1, 16), (2, 16), (3, 16), (4, 15), (256, 15), (MARK, 15)],
];
static OF_MAJORITY: [&[Move]; 2] = [
    &[(0, 0), (1, 0), (2, 15), (3, 15), (4, 15), (MARK, 15)],
    &[(0, 0), (1, 16), (2, 15), (3, 15), (256, 15), (MARK, 15)],
];

/// Words 1 and 3 of node 5, a majority, name input 1 and node 4, an XOR. Which of both nodes are locked.
fn without_faults(word: u32, locked: [bool; 2]) -> Asked {
    let locks = vec![0, u8::from(locked[0]), u8::from(locked[1]), 9];
    Asked { g: Packed { locks, ..three_nodes() }, node: 5, word, both: (0, 0) }
}

/// These faults, which are made last to first, since a table must have the word that is changed in it, and these moves.
fn check_one(asked: &Asked, faults: &[&Fault], named: &Move, own: &Move) -> Result<(), String> {
    let mut asked = Asked { both: (named.0, own.0), ..asked.clone() };
    let numbers: Vec<u32> = faults.iter().map(|fault| fault.0).collect();
    let of_moves = if asked.word == 1 { [0, own.1] } else { [named.1, own.1] };
    faults.iter().rev().for_each(|(_, make)| make(&mut asked));
    let before = ORDER.iter().find(|number| numbers.contains(number));
    let due = before.or_else(|| of_moves.iter().find(|&&number| number != 0)).copied().unwrap_or(0);
    let Asked { g, node, word, both } = asked;
    let what = format!("a trial at {:?} of the moves {both:?} with faults {numbers:?}", (node, word));
    let told = raw::trial(&g, (node, word), both).map_err(|wrong| format!("{what}: {wrong}"))?;
    differ(&what, &told.err().unwrap_or(0), &due)
}

/// These faults at both words, with either node locked and free, with every two moves.
fn check(faults: &[&Fault]) -> Result<u64, String> {
    let mut done = 0;
    for (word, named, own) in [1, 3].into_iter().flat_map(|word| [0, 1, 2, 3].map(|locks| (word, locks / 2, locks % 2)))
    {
        let asked = without_faults(word, [named == 1, own == 1]);
        for first in OF_XOR[named] {
            for second in OF_MAJORITY[own] {
                check_one(&asked, faults, first, second)?;
                done += 1;
            }
        }
    }
    Ok(done)
}

/// These faults with each choice of one or none of every list.
fn check_with(faults: &mut Vec<&'static Fault>, lists: &'static [&[Fault]]) -> Result<u64, String> {
    let Some((list, rest)) = lists.split_first() else {
        return check(faults);
    };
    let mut done = check_with(faults, rest)?;
    for fault in *list {
        faults.push(fault);
        done += check_with(faults, rest)?;
        faults.pop();
    }
    Ok(done)
}

pub fn check_faults() -> Result<u64, String> {
    check_with(&mut Vec::new(), &FAULTS)
}
