//! A preview with every choice of some faults. Its number is known without any implementation: the first in the order 3, 4, 5, 13, 7, 8.

use crate::call_faults::three_nodes;
use crate::lists::differ;
use crate::previews::check_one;
use reference::graph::MARK;
use reference::moves::Saving;
use reference::packed::{set_bit, Packed};

/// A preview in the making.
#[derive(Clone)]
struct Asked {
    g: Packed,
    root: u32,
    bytes: usize,
    scratch: usize,
}

/// In which order faults are told.
const ORDER: [u32; 6] = [3, 4, 5, 13, 7, 8];

/// A number, and what brings it about.
type Fault = (u32, fn(&mut Asked));

/// Faults of one thing each: no two of a list can be had together.
static FAULTS: [&[Fault]; 11] = [
    &[(3, |asked| asked.g.inputs = 4_097)],
    &[(3, |asked| asked.g.nodes = 100_001), (3, |asked| asked.g.nodes = u32::MAX)],
    &[(3, |asked| asked.g.outputs = 4_097)],
    &[(4, |asked| asked.g.node_table.truncate(8)), (4, |asked| asked.g.node_bits.clear())],
    &[(4, |asked| asked.g.output_table.truncate(1)), (4, |asked| asked.g.output_bits.clear())],
    &[(4, |asked| asked.bytes = 2), (4, |asked| asked.bytes = 0)],
    // Too few locks, locks that are none, and both.
    &[
        (4, |asked| asked.g.locks.truncate(2)),
        (13, |asked| asked.g.locks[0] = 2),
        (13, |asked| asked.g.locks[2] = 255),
        (4, |asked| asked.g.locks = vec![2, 2]),
    ],
    // A node that names itself, a mark where it may not be, one with its bit, and a bit past the last literal.
    &[
        (5, |asked| asked.g.node_table[0] = 3),
        (5, |asked| asked.g.node_table[1] = MARK),
        (5, |asked| set_bit(&mut asked.g.node_bits, 5)),
        (5, |asked| set_bit(&mut asked.g.node_bits, 63)),
    ],
    &[(5, |asked| asked.g.output_table[0] = 0x8000_0000), (5, |asked| set_bit(&mut asked.g.output_bits, 2))],
    // An input, no index, and a node that another reads.
    &[(7, |asked| asked.root = 2), (7, |asked| asked.root = 6), (7, |asked| asked.root = 3)],
    &[(8, |asked| asked.scratch = 23), (8, |asked| asked.scratch = 0)],
];

/// All three nodes are the tree of node 5, and free: its best moves save 2 among their words.
fn without_faults() -> Asked {
    let g = Packed { locks: vec![0, 0, 0, 9], ..three_nodes() };
    Asked { g, root: 5, bytes: 3, scratch: 24 }
}

/// These faults, which are made last to first, since a table must have the word that is changed in it.
fn check(faults: &[&Fault]) -> Result<(), String> {
    let mut asked = without_faults();
    faults.iter().rev().for_each(|(_, make)| make(&mut asked));
    let numbers: Vec<u32> = faults.iter().map(|fault| fault.0).collect();
    let first = ORDER.iter().find(|number| numbers.contains(number));
    let due = first.map_or(Ok(Saving { own: 2, others: 0 }), |&number| Err(number));
    let Asked { g, root, bytes, scratch } = asked;
    let told = check_one(&g, root, bytes, scratch).map_err(|wrong| format!("faults {numbers:?}: {wrong}"))?;
    differ(&format!("a preview with faults {numbers:?}"), &told.answer, &due)
}

/// These faults with each choice of one or none of every list: how many choices.
fn check_with(faults: &mut Vec<&'static Fault>, lists: &'static [&[Fault]]) -> Result<u64, String> {
    let Some((list, rest)) = lists.split_first() else {
        return check(faults).map(|_| 1);
    };
    let mut done = check_with(faults, rest)?;
    for fault in *list {
        faults.push(fault);
        done += check_with(faults, rest)?;
        faults.pop();
    }
    Ok(done)
}

pub fn check_faults() -> Result<u64, String> {
    check_with(&mut Vec::new(), &FAULTS)
}
