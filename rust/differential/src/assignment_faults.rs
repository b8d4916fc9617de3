//! A search for an assignment with every choice of some faults. Their number is known without any implementation: the first in the order
//! 3, 4, 5, 13, 17, 18, 8.

use crate::assignment::check_one;
use crate::call_faults::three_nodes;
use crate::lists::differ;
use reference::graph::MARK;
use reference::packed::{set_bit, Packed};

/// A search in the making.
#[derive(Clone)]
struct Asked {
    g: Packed,
    wanted: Vec<u8>,
    scratch: usize,
}

const ORDER: [u32; 7] = [3, 4, 5, 13, 17, 18, 8];

/// A number, and what brings it about.
type Fault = (u32, fn(&mut Asked));

/// No two of a list can be had together.
static FAULTS: [&[Fault]; 8] = [
    &[
        (3, |asked| asked.g.inputs = 4_097),
        (3, |asked| asked.g.nodes = 100_001),
        (3, |asked| asked.g.outputs = u32::MAX),
        (17, |asked| asked.g.inputs = 17),
        (17, |asked| asked.g.inputs = 4_096),
    ],
    &[
        (4, |asked| asked.g.node_table.truncate(8)),
        (4, |asked| asked.g.output_table.truncate(1)),
        (4, |asked| asked.g.node_bits.clear()),
        (4, |asked| asked.g.output_bits.clear()),
    ],
    &[(4, |asked| asked.wanted.truncate(1)), (4, |asked| asked.wanted.clear())],
    &[(4, |asked| asked.g.locks.truncate(2)), (13, |asked| asked.g.locks[0] = 2), (13, |asked| asked.g.locks[2] = 255)],
    // Too high for any number of inputs.
    &[
        (5, |asked| asked.g.node_table[0] = 4_200),
        (5, |asked| asked.g.node_table[7] = MARK),
        (5, |asked| set_bit(&mut asked.g.node_bits, 9)),
    ],
    &[(5, |asked| asked.g.output_table[0] = 4_200), (5, |asked| set_bit(&mut asked.g.output_bits, 63))],
    &[(18, |asked| asked.wanted[0] = 3), (18, |asked| asked.wanted[1] = 255)],
    &[(8, |asked| asked.scratch = 2), (8, |asked| asked.scratch = 0)],
];

/// The second output, which is input 2's opposite, as 0: the least is number 2, and the first may be either.
fn without_faults() -> Asked {
    Asked { g: three_nodes(), wanted: vec![2, 0, 9], scratch: 3 }
}

/// These faults, which are made last to first, since a table must have the word that is changed in it.
fn check(faults: &[&Fault]) -> Result<(), String> {
    let mut asked = without_faults();
    faults.iter().rev().for_each(|(_, make)| make(&mut asked));
    let numbers: Vec<u32> = faults.iter().map(|fault| fault.0).collect();
    let first = ORDER.iter().find(|number| numbers.contains(number));
    let due = first.map_or(Ok(Some(2)), |&number| Err(number));
    let what = format!("an assignment with faults {numbers:?}");
    let Asked { g, wanted, scratch } = asked;
    let told = check_one(&g, &wanted, scratch).map_err(|wrong| format!("{what}: {wrong}"))?;
    differ(&what, &told, &due)
}

/// These faults with each choice of one or none of every list: how many choices.
fn check_with(faults: &mut Vec<&'static Fault>, lists: &'static [&[Fault]]) -> Result<u64, String> {
    let Some((list, rest)) = lists.split_first() else {
        return check(faults).map(|_| 1);
    };
    let mut done = check_with(faults, rest)?;
    for fault in *list {
        faults.push(fault);
        done += check_with(faults, rest)?;
        faults.pop();
    }
    Ok(done)
}

pub fn check_faults() -> Result<u64, String> {
    check_with(&mut Vec::new(), &FAULTS)
}
