//! The majority call and the finder with every choice of some faults. Their number is known without any implementation: the first in the
//! order 3, 4, 5, 13, 7, 16, 8 of those that the call can have.

use crate::lists::differ;
use crate::raw;
use reference::calls::{Answer, Call};
use reference::graph::MARK;
use reference::majority::Majority;
use reference::packed::{set_bit, Packed};

/// Both calls in the making.
#[derive(Clone)]
struct Asked {
    g: Packed,
    node: u32,
    three: [u32; 3],
    scratch: usize,
}

const ORDER: [u32; 7] = [3, 4, 5, 13, 7, 16, 8];
/// What only the majority call tests.
const OF_NODES: [u32; 2] = [7, 16];

/// A number, and what brings it about.
type Fault = (u32, fn(&mut Asked));

/// No two of a list can be had together.
static FAULTS: [&[Fault]; 8] = [
    &[
        (3, |asked| asked.g.inputs = 4_097),
        (3, |asked| asked.g.nodes = 100_001),
        (3, |asked| asked.g.outputs = u32::MAX),
    ],
    &[
        (4, |asked| asked.g.node_table.truncate(11)),
        (4, |asked| asked.g.output_table.clear()),
        (4, |asked| asked.g.node_bits.clear()),
        (4, |asked| asked.g.output_bits.clear()),
    ],
    &[
        (4, |asked| asked.g.locks.truncate(3)),
        (13, |asked| asked.g.locks[0] = 2),
        (13, |asked| asked.g.locks[3] = 255),
        (16, |asked| asked.g.locks[3] = 1),
    ],
    &[
        (5, |asked| asked.g.node_table[1] = 4),
        (5, |asked| asked.g.node_table[10] = MARK),
        (5, |asked| set_bit(&mut asked.g.node_bits, 12)),
        (5, |asked| set_bit(&mut asked.g.node_bits, 63)),
    ],
    &[(5, |asked| asked.g.output_table[0] = 8), (5, |asked| set_bit(&mut asked.g.output_bits, 1))],
    &[(7, |asked| asked.node = 3), (7, |asked| asked.node = 8), (7, |asked| asked.node = MARK)],
    &[
        (7, |asked| asked.three = [0, 2, 3]),
        (7, |asked| asked.three = [2, 1, 3]),
        (7, |asked| asked.three = [2, 2, 3]),
        (7, |asked| asked.three = [1, 3, 3]),
        (7, |asked| asked.three = [1, 3, 2]),
        (7, |asked| asked.three = [1, 2, 7]),
        (7, |asked| asked.three = [1, 2, MARK]),
        (7, |asked| asked.three = [MARK, MARK, MARK]),
    ],
    &[(8, |asked| asked.scratch = 31), (8, |asked| asked.scratch = 0)],
];

/// The import of the export of one majority, with words, bits and locks behind it.
fn without_faults() -> Asked {
    let g = Packed {
        inputs: 3,
        nodes: 4,
        outputs: 1,
        node_table: vec![0, 2, 3, 0, 1, 4, 0, 2, 3, 0, 5, 6, 99],
        node_bits: vec![0b110_000_100_110, 77],
        output_table: vec![7, 98],
        output_bits: vec![1, 76],
        locks: vec![0, 0, 0, 0, 9],
    };
    Asked { g, node: 7, three: [1, 2, 3], scratch: 32 }
}

/// Node 7 as 3 5 7, and all else as it was.
fn after_majority() -> Packed {
    let mut g = without_faults().g;
    g.node_table[9..12].copy_from_slice(&[1, 2, 3]);
    g.node_bits[0] = 0b111_000_100_110;
    g
}

/// That node alone.
fn after_find() -> Packed {
    Packed {
        nodes: 1,
        node_table: vec![1, 2, 3, 0, 0, 0, 0, 0, 0, 0, 0, 0, 99],
        node_bits: vec![0b111, 77],
        output_table: vec![4, 98],
        ..without_faults().g
    }
}

/// A call with these faults, which are made last to first, since a table must have the word that is changed in it.
fn check_call(faults: &[&Fault], asked: &Asked, call: Call, done: (Answer, Packed)) -> Result<(), String> {
    let has = |number: &&u32| faults.iter().any(|fault| fault.0 == **number);
    let tested = |number: &&u32| call != Call::Find || !OF_NODES.contains(number);
    let due = ORDER.iter().filter(tested).find(has);
    let what = format!("{call:?} with faults {:?}", faults.iter().map(|fault| fault.0).collect::<Vec<u32>>());
    let mut got = asked.g.clone();
    let told = raw::step(&mut got, &call, asked.scratch).map_err(|wrong| format!("{what}: {wrong}"))?;
    match due {
        Some(&number) => {
            differ(&what, &told, &Answer::Refused(number))?;
            differ(&format!("what was lent, after {what}"), &got, &asked.g)
        }
        None if faults.is_empty() => differ(&what, &(told, got), &done),
        // The finder where a node is locked, or where another node or triple is asked for.
        None => differ(&what, &matches!(told, Answer::Found(_)), &true),
    }
}

fn check(faults: &[&Fault]) -> Result<u64, String> {
    let mut asked = without_faults();
    faults.iter().rev().for_each(|(_, make)| make(&mut asked));
    let Asked { node, three, .. } = asked;
    let made = (Answer::Majority(Majority::Made), after_majority());
    check_call(faults, &asked, Call::Majority { node, three }, made)?;
    check_call(faults, &asked, Call::Find, (Answer::Found(1), after_find()))?;
    Ok(2)
}

/// These faults with each choice of one or none of every list: how many calls.
fn check_with(faults: &mut Vec<&'static Fault>, lists: &'static [&[Fault]]) -> Result<u64, String> {
    let Some((list, rest)) = lists.split_first() else {
        return check(faults);
    };
    let mut done = check_with(faults, rest)?;
    for fault in *list {
        faults.push(fault);
        done += check_with(faults, rest)?;
        faults.pop();
    }
    Ok(done)
}

pub fn check_faults() -> Result<u64, String> {
    check_with(&mut Vec::new(), &FAULTS)
}
