//! A graph entered into a class with every choice of some faults. Their number is known without any implementation: 3 for the record, then the
//! first in the order 3, 4, 5, 13, 8, a record that is too short being a 4.

use crate::call_faults::three_nodes;
use crate::lists::differ;
use crate::raw;
use reference::graph::MARK;
use reference::packed::{set_bit, Packed};

/// A call in the making.
#[derive(Clone)]
struct Asked {
    g: Packed,
    scratch: usize,
    book: Vec<u64>,
}

const ORDER: [u32; 5] = [3, 4, 5, 13, 8];

/// A number, and what brings it about.
type Fault = (u32, fn(&mut Asked));

/// No two of a list can be had together.
static FAULTS: [&[Fault]; 8] = [
    &[
        (3, |asked| asked.book[0] = 1_000),
        (3, |asked| asked.book[0] = u64::MAX),
        (3, |asked| asked.book[5] = 1 << 40),
        (3, |asked| asked.book[40] = 1 << 63),
    ],
    &[(4, |asked| asked.book.truncate(85)), (4, |asked| asked.book.truncate(41))],
    &[
        (3, |asked| asked.g.inputs = 4_097),
        (3, |asked| asked.g.nodes = 100_001),
        (3, |asked| asked.g.outputs = u32::MAX),
    ],
    &[
        (4, |asked| asked.g.node_table.truncate(8)),
        (4, |asked| asked.g.output_table.truncate(1)),
        (4, |asked| asked.g.node_bits.clear()),
        (4, |asked| asked.g.output_bits.clear()),
    ],
    &[(4, |asked| asked.g.locks.truncate(2)), (13, |asked| asked.g.locks[0] = 2), (13, |asked| asked.g.locks[2] = 255)],
    &[
        (5, |asked| asked.g.node_table[0] = 3),
        (5, |asked| asked.g.node_table[7] = MARK),
        (5, |asked| set_bit(&mut asked.g.node_bits, 9)),
    ],
    &[(5, |asked| asked.g.output_table[0] = 6), (5, |asked| set_bit(&mut asked.g.output_bits, 63))],
    &[(8, |asked| asked.scratch = 23), (8, |asked| asked.scratch = 0)],
];

/// The 999 graphs before left nothing but their number.
fn without_faults() -> Asked {
    let mut book = vec![0; 88];
    book[0] = 999;
    book[86] = u64::MAX;
    Asked { g: three_nodes(), scratch: 24, book }
}

/// These faults, which are made last to first, since a table must have the word that is changed in it.
fn check(faults: &[&Fault]) -> Result<(), String> {
    let mut asked = without_faults();
    faults.iter().rev().for_each(|(_, make)| make(&mut asked));
    let numbers: Vec<u32> = faults.iter().map(|fault| fault.0).collect();
    let due = ORDER.iter().find(|number| numbers.contains(number));
    let what = format!("a graph entered with faults {numbers:?}");
    let Asked { g, scratch, book } = &asked;
    let (mut got, mut left) = (g.clone(), book.clone());
    let told = raw::class(&mut got, *scratch, &mut left).map_err(|wrong| format!("{what}: {wrong}"))?;
    differ(&what, &told.map(|_| ()), &due.map_or(Ok(()), |&number| Err(number)))?;
    match due {
        Some(_) => differ(&format!("what was lent, after {what}"), &(&got, &left), &(g, book)),
        None => differ(&what, &(left[0], left[86]), &(1_000, u64::MAX)),
    }
}

/// These faults with each choice of one or none of every list: how many choices.
fn check_with(faults: &mut Vec<&'static Fault>, lists: &'static [&[Fault]]) -> Result<u64, String> {
    let Some((list, rest)) = lists.split_first() else {
        return check(faults).map(|_| 1);
    };
    let mut done = check_with(faults, rest)?;
    for fault in *list {
        faults.push(fault);
        done += check_with(faults, rest)?;
        faults.pop();
    }
    Ok(done)
}

pub fn check_faults() -> Result<u64, String> {
    check_with(&mut Vec::new(), &FAULTS)
}
