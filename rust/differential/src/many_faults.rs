//! Many moves with every choice of some faults. Their number is known without any implementation: the first in the order 3, 4, 5, 13,
//! and then that of the first entry at fault.

use crate::lists::differ;
use crate::many::check_one;
use reference::graph::MARK;
use reference::packed::{set_bit, Packed};

/// Moves in the making.
#[derive(Clone)]
struct Asked {
    g: Packed,
    list: Vec<u32>,
    moves: Vec<u8>,
}

/// Faults of what is tested before the entries.
const ORDER: [u32; 4] = [3, 4, 5, 13];

/// A number, and what brings it about.
type Fault = (u32, fn(&mut Asked));

/// An entry in another's place, and the number that it has where those before it are right.
type Entry = (u32, u32, u8);

/// No two of a list can be had together.
static FAULTS: [&[Fault]; 6] = [
    &[
        (3, |asked| asked.g.inputs = 4_097),
        (3, |asked| asked.g.nodes = 100_001),
        (3, |asked| asked.g.outputs = u32::MAX),
    ],
    &[
        (4, |asked| asked.g.node_table.truncate(11)),
        (4, |asked| asked.g.output_table.truncate(1)),
        (4, |asked| asked.g.node_bits.clear()),
        (4, |asked| asked.g.output_bits.clear()),
    ],
    &[
        (4, |asked| asked.g.locks.truncate(3)),
        (4, |asked| asked.g.locks = vec![2]),
        (13, |asked| asked.g.locks[0] = 2),
        (13, |asked| asked.g.locks[3] = 255),
    ],
    &[
        (5, |asked| asked.g.node_table[0] = 3),
        (5, |asked| asked.g.node_table[10] = MARK),
        (5, |asked| set_bit(&mut asked.g.node_bits, 8)),
        (5, |asked| set_bit(&mut asked.g.node_bits, 12)),
    ],
    &[(5, |asked| asked.g.output_table[0] = 0x7fff_ffff), (5, |asked| set_bit(&mut asked.g.output_bits, 2))],
    &[(4, |asked| asked.moves.truncate(3)), (4, |asked| asked.moves.clear())],
];

/// By place. Nodes 3 and 5 are free, a majority and an XOR; nodes 4 and 6 are locked, an XOR and a majority.
static ENTRIES: [&[Entry]; 4] = [
    &[(7, 2, 9), (7, 0, 0), (7, MARK, 1), (15, 3, 2), (15, 3, 255)],
    &[(7, 7, 4), (7, 2, 4), (14, 3, 4), (14, 3, 0), (15, 4, 4), (16, 4, 1), (16, 4, 2), (16, 4, 3)],
    &[(7, 1, 1), (14, 4, 4), (14, 4, 1), (14, 3, 2), (15, 5, 4), (15, 5, 128)],
    &[(7, 7, 1), (7, MARK, 2), (14, 5, 4), (14, 4, 1), (15, 6, 2), (15, 6, 3), (16, 6, 1)],
];

/// The nodes 3 5 2; XOR 7 4; XOR 6 9; 2 10 9 and the outputs 11 and 7. Every node is listed, and one move more than that.
fn without_faults() -> Asked {
    let g = Packed {
        inputs: 2,
        nodes: 4,
        outputs: 2,
        node_table: vec![1, 2, 1, 3, 2, MARK, 3, 4, MARK, 1, 5, 4],
        node_bits: vec![0b100_010_001_011, 77],
        output_table: vec![5, 3],
        output_bits: vec![0b11],
        locks: vec![0, 1, 0, 1, 9],
    };
    Asked { g, list: vec![3, 4, 5, 6], moves: vec![1, 0, 3, 0, 77] }
}

/// These faults, which are made last to first, since a table must have the word that is changed in it.
fn check(faults: &[&Fault], entries: [Option<&Entry>; 4]) -> Result<(), String> {
    let mut asked = without_faults();
    for (at, &&(_, node, number)) in entries.iter().enumerate().filter_map(|(at, entry)| Some((at, entry.as_ref()?))) {
        (asked.list[at], asked.moves[at]) = (node, number);
    }
    faults.iter().rev().for_each(|(_, make)| make(&mut asked));
    let numbers: Vec<u32> = faults.iter().map(|fault| fault.0).collect();
    let before = ORDER.iter().find(|number| numbers.contains(number)).copied();
    let due = before.or_else(|| entries.iter().flatten().next().map(|entry| entry.0));
    let what = || format!("faults {numbers:?} and entries {entries:?}");
    let told = check_one(&asked.g, &asked.list, &asked.moves).map_err(|wrong| format!("{}: {wrong}", what()))?;
    differ(&what(), &told, &due.map_or(Ok(3), Err))
}

/// These faults with each choice of one or none at every place.
fn check_entries(faults: &[&Fault]) -> Result<u64, String> {
    let choices = |at: usize| std::iter::once(None).chain(ENTRIES[at].iter().map(Some));
    let mut done = 0;
    for first in choices(0) {
        for second in choices(1) {
            for third in choices(2) {
                for fourth in choices(3) {
                    check(faults, [first, second, third, fourth])?;
                    done += 1;
                }
            }
        }
    }
    Ok(done)
}

/// These faults with each choice of one or none of every list: how many choices. With two faults before them, entries at fault are
/// tried one at a time.
fn check_with(faults: &mut Vec<&'static Fault>, lists: &'static [&[Fault]]) -> Result<u64, String> {
    let Some((list, rest)) = lists.split_first() else {
        return if faults.len() < 2 { check_entries(faults) } else { check_single(faults) };
    };
    let mut done = check_with(faults, rest)?;
    for fault in *list {
        faults.push(fault);
        done += check_with(faults, rest)?;
        faults.pop();
    }
    Ok(done)
}

fn check_single(faults: &[&Fault]) -> Result<u64, String> {
    let mut done = 0;
    for at in 0..4 {
        for entry in ENTRIES[at] {
            let mut entries = [None; 4];
            entries[at] = Some(entry);
            check(faults, entries)?;
            done += 1;
        }
    }
    Ok(done)
}

pub fn check_faults() -> Result<u64, String> {
    check_with(&mut Vec::new(), &FAULTS)
}
