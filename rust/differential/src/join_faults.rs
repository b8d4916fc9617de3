//! A join with every choice of some faults of either graph and of what is lent for the joined one. Their number is known without any
//! implementation: 3, 4, 5, 13 of the first, 3, 4, 5, 13 of the second, 19, 3 and 4 of the joined one.

use crate::call_faults::three_nodes;
use crate::join::check_one;
use crate::lists::differ;
use reference::graph::MARK;
use reference::packed::{set_bit, Lengths, Packed};

/// A join in the making.
#[derive(Clone)]
struct Asked {
    graphs: [Packed; 2],
    lengths: Lengths,
}

/// Where in the order a fault is told, its number, and what brings it about.
type Fault = (u32, u32, fn(&mut Asked));

/// No two of a list can be had together.
static FAULTS: [&[Fault]; 10] = [
    &[
        (1, 3, |asked| asked.graphs[0].inputs = 4_097),
        (1, 3, |asked| asked.graphs[0].nodes = u32::MAX),
        (1, 3, |asked| asked.graphs[0].outputs = 4_097),
    ],
    &[
        (2, 4, |asked| asked.graphs[0].node_table.truncate(8)),
        (2, 4, |asked| asked.graphs[0].output_bits.clear()),
        (2, 4, |asked| asked.graphs[0].locks.truncate(2)),
    ],
    &[
        (3, 5, |asked| asked.graphs[0].node_table[0] = 3),
        (3, 5, |asked| set_bit(&mut asked.graphs[0].node_bits, 9)),
        (3, 5, |asked| asked.graphs[0].output_table[0] = 6),
    ],
    &[(4, 13, |asked| asked.graphs[0].locks[0] = 2)],
    &[
        (5, 3, |asked| asked.graphs[1].inputs = 4_097),
        (5, 3, |asked| asked.graphs[1].nodes = 100_001),
        (9, 19, |asked| asked.graphs[1].inputs = 3),
        (9, 19, |asked| asked.graphs[1].inputs = 4_096),
    ],
    &[(6, 4, |asked| asked.graphs[1].node_bits.clear()), (6, 4, |asked| asked.graphs[1].output_table.truncate(1))],
    &[
        (7, 5, |asked| asked.graphs[1].node_table[7] = MARK),
        (7, 5, |asked| set_bit(&mut asked.graphs[1].node_bits, 5)),
        (7, 5, |asked| set_bit(&mut asked.graphs[1].output_bits, 63)),
    ],
    &[(8, 13, |asked| asked.graphs[1].locks[2] = 255)],
    &[(11, 4, |asked| asked.lengths.node_words = 17), (11, 4, |asked| asked.lengths.node_bits = 0)],
    &[
        (11, 4, |asked| asked.lengths.output_words = 1),
        (11, 4, |asked| asked.lengths.output_bits = 0),
        (11, 4, |asked| asked.lengths.lock_bytes = 5),
    ],
];

fn without_faults() -> Asked {
    let lengths = Lengths { node_words: 20, node_bits: 1, output_words: 3, output_bits: 2, lock_bytes: 7 };
    Asked { graphs: [three_nodes(), three_nodes()], lengths }
}

/// These faults, which are made last to first, since a table must have the word that is changed in it.
fn check(faults: &[&Fault]) -> Result<(), String> {
    let mut asked = without_faults();
    faults.iter().rev().for_each(|(_, _, make)| make(&mut asked));
    let numbers: Vec<u32> = faults.iter().map(|fault| fault.1).collect();
    let first = faults.iter().min_by_key(|fault| fault.0);
    let due = first.map_or(Ok((2, 6, 2)), |fault| Err(fault.1));
    let what = format!("a join with faults {numbers:?}");
    let [g, h] = &asked.graphs;
    let told = check_one(g, h, asked.lengths).map_err(|wrong| format!("{what}: {wrong}"))?;
    differ(&what, &told, &due)
}

/// These faults with each choice of one or none of every list: how many choices.
fn check_with(faults: &mut Vec<&'static Fault>, lists: &'static [&[Fault]]) -> Result<u64, String> {
    let Some((list, rest)) = lists.split_first() else {
        return check(faults).map(|_| 1);
    };
    let mut done = check_with(faults, rest)?;
    for fault in *list {
        faults.push(fault);
        done += check_with(faults, rest)?;
        faults.pop();
    }
    Ok(done)
}

pub fn check_faults() -> Result<u64, String> {
    check_with(&mut Vec::new(), &FAULTS)
}
