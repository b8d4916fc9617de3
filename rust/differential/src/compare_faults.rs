//! A comparison with every choice of some faults of either graph. Their number is known without any implementation: 3 and 4 of the first graph,
//! 4 of the bytes, 3 and 4 of the second, 5 and 13 of the first, 5 and 13 of the second.

use crate::call_faults::three_nodes;
use crate::compare::check_one;
use crate::lists::differ;
use reference::graph::MARK;
use reference::packed::{set_bit, Packed};

/// A comparison in the making.
#[derive(Clone)]
struct Asked {
    graphs: [Packed; 2],
    bytes: usize,
}

/// Where in the order a fault is told, its number, and what brings it about.
type Fault = (u32, u32, fn(&mut Asked));

/// No two of a list can be had together.
static FAULTS: [&[Fault]; 9] = [
    &[
        (1, 3, |asked| asked.graphs[0].inputs = 4_097),
        (1, 3, |asked| asked.graphs[0].nodes = 100_001),
        (1, 3, |asked| asked.graphs[0].outputs = u32::MAX),
    ],
    &[
        (2, 4, |asked| asked.graphs[0].node_table.truncate(8)),
        (2, 4, |asked| asked.graphs[0].output_bits.clear()),
        (2, 4, |asked| asked.graphs[0].locks.truncate(2)),
    ],
    &[(3, 4, |asked| asked.bytes = 2), (3, 4, |asked| asked.bytes = 0)],
    &[(4, 3, |asked| asked.graphs[1].nodes = 100_001), (4, 3, |asked| asked.graphs[1].outputs = 4_097)],
    &[
        (5, 4, |asked| asked.graphs[1].node_bits.clear()),
        (5, 4, |asked| asked.graphs[1].output_table.truncate(1)),
        (5, 4, |asked| asked.graphs[1].locks.truncate(2)),
    ],
    &[
        (6, 5, |asked| asked.graphs[0].node_table[0] = 3),
        (6, 5, |asked| set_bit(&mut asked.graphs[0].node_bits, 9)),
        (6, 5, |asked| asked.graphs[0].output_table[0] = 6),
    ],
    &[(7, 13, |asked| asked.graphs[0].locks[0] = 2)],
    &[
        (8, 5, |asked| asked.graphs[1].node_table[7] = MARK),
        (8, 5, |asked| set_bit(&mut asked.graphs[1].node_bits, 5)),
        (8, 5, |asked| set_bit(&mut asked.graphs[1].output_bits, 63)),
    ],
    &[(9, 13, |asked| asked.graphs[1].locks[1] = 255)],
];

/// The second after move 1 at node 3 and move 3 at node 4: 2 4 3; XOR 6 5; 2 5 9.
fn without_faults() -> Asked {
    let first = three_nodes();
    let mut second = first.clone();
    second.node_bits[0] = 0b110_010_100;
    Asked { graphs: [first, second], bytes: 3 }
}

/// These faults, which are made last to first, since a table must have the word that is changed in it.
fn check(faults: &[&Fault]) -> Result<(), String> {
    let mut asked = without_faults();
    faults.iter().rev().for_each(|(_, _, make)| make(&mut asked));
    let numbers: Vec<u32> = faults.iter().map(|fault| fault.1).collect();
    let first = faults.iter().min_by_key(|fault| fault.0);
    let due = first.map_or(Ok([0, 0]), |fault| Err(fault.1));
    let what = format!("a comparison with faults {numbers:?}");
    let [g, h] = &asked.graphs;
    let told = check_one(g, h, asked.bytes).map_err(|wrong| format!("{what}: {wrong}"))?;
    differ(&what, &told, &due)
}

/// These faults with each choice of one or none of every list: how many choices.
fn check_with(faults: &mut Vec<&'static Fault>, lists: &'static [&[Fault]]) -> Result<u64, String> {
    let Some((list, rest)) = lists.split_first() else {
        return check(faults).map(|_| 1);
    };
    let mut done = check_with(faults, rest)?;
    for fault in *list {
        faults.push(fault);
        done += check_with(faults, rest)?;
        faults.pop();
    }
    Ok(done)
}

pub fn check_faults() -> Result<u64, String> {
    check_with(&mut Vec::new(), &FAULTS)
}
