//! Every call but the preview and many moves with every choice of some faults, those of a trial's moves apart. Its number is known without any implementation: the first in the
//! order 3, 4, 5, 13, 7, 8, 9 of those faults that the call can have. Each is lent what it must leave where it is refused.

use crate::raw;
use reference::calls::{Answer, Call};
use reference::graph::MARK;
use reference::packed::{set_bit, Packed};

/// A call in the making.
#[derive(Clone)]
struct Asked {
    g: Packed,
    node: u32,
    word: u32,
    input_words: usize,
    results: usize,
    /// How many words of scratch are missing.
    missing: usize,
    /// Bytes of the buffer to write to.
    room: usize,
}

#[derive(Clone, Copy, Debug, PartialEq, Eq)]
enum Which {
    Count,
    Write,
    Export,
    Evaluate,
    Node,
    Pair,
    Trial,
    Tree,
    Resistive,
    Settle,
}

use Which::*;

const ALL: &[Which] = &[Count, Write, Export, Evaluate, Node, Pair, Trial, Tree, Resistive, Settle];
/// Those that name a node, a word, and those that need scratch or a buffer.
const OF_NODES: &[Which] = &[Node, Pair, Trial, Tree, Resistive];
const OF_WORDS: &[Which] = &[Pair, Trial];
const WITH_SCRATCH: &[Which] = &[Export, Evaluate, Tree, Resistive, Settle];
const WRITING: &[Which] = &[Write, Export];

const ORDER: [u32; 7] = [3, 4, 5, 13, 7, 8, 9];

/// A number, the calls that it refuses, and what brings it about.
type Fault = (u32, &'static [Which], fn(&mut Asked));

/// Faults of one thing each: no two of a list can be had together.
static FAULTS: [&[Fault]; 9] = [
    &[
        (3, ALL, |asked| asked.g.inputs = 4_097),
        (3, ALL, |asked| asked.g.nodes = 100_001),
        (3, ALL, |asked| asked.g.outputs = u32::MAX),
    ],
    &[
        (4, ALL, |asked| asked.g.node_table.truncate(8)),
        (4, ALL, |asked| asked.g.output_table.truncate(1)),
        (4, ALL, |asked| asked.g.node_bits.clear()),
        (4, ALL, |asked| asked.g.output_bits.clear()),
    ],
    &[
        (4, ALL, |asked| asked.g.locks = vec![0, 2]),
        (13, ALL, |asked| asked.g.locks[0] = 2),
        (13, ALL, |asked| asked.g.locks[2] = 255),
    ],
    &[(4, &[Evaluate], |asked| asked.input_words = 1), (4, &[Evaluate], |asked| asked.results = 1)],
    // Indices not allowed, one of which would be the mark with its bit; a mark's bit, and one past the last literal of either table.
    &[
        (5, ALL, |asked| asked.g.node_table[0] = 3),
        (5, ALL, |asked| asked.g.node_table[7] = MARK),
        (5, ALL, |asked| asked.g.output_table[0] = 6),
        (5, ALL, |asked| {
            asked.g.node_table[8] = 0x7fff_ffff;
            set_bit(&mut asked.g.node_bits, 8);
        }),
        (5, ALL, |asked| set_bit(&mut asked.g.node_bits, 5)),
        (5, ALL, |asked| set_bit(&mut asked.g.node_bits, 9)),
        (5, ALL, |asked| set_bit(&mut asked.g.output_bits, 63)),
    ],
    &[
        (7, OF_NODES, |asked| asked.node = 2),
        (7, OF_NODES, |asked| asked.node = MARK),
        // A node that another reads.
        (7, &[Tree, Resistive], |asked| asked.node = 3),
    ],
    &[(7, OF_WORDS, |asked| asked.word = 0), (7, OF_WORDS, |asked| asked.word = 4)],
    &[(8, WITH_SCRATCH, |asked| asked.missing = 1)],
    &[(9, WRITING, |asked| asked.room = 30)],
];

/// The nodes 3 5 2; XOR 7 4; 2 5 8 and the outputs 11 and 5, with words behind them. All three nodes are the tree of node 5, and node 4 is
/// locked.
pub fn three_nodes() -> Packed {
    Packed {
        inputs: 2,
        nodes: 3,
        outputs: 2,
        node_table: vec![1, 2, 1, 3, 2, MARK, 1, 2, 4, MARK],
        node_bits: vec![0b010_001_011, u64::MAX],
        output_table: vec![5, 2, 99],
        output_bits: vec![0b11, 1 << 40],
        locks: vec![0, 1, 0, 9],
    }
}

fn without_faults() -> Asked {
    Asked { g: three_nodes(), node: 5, word: 3, input_words: 2, results: 2, missing: 0, room: 400 }
}

/// The number that the call answers, 0 where it is accepted. That a refused one has left every slice is seen where it is made.
fn number(which: Which, asked: &Asked) -> Result<u32, String> {
    let Asked { g, node, word, .. } = asked;
    let scratch = |needed: usize| needed.saturating_sub(asked.missing);
    let mut buffer = vec![0xee; asked.room];
    let (words, mut results) = (vec![5; asked.input_words], vec![0xbeef; asked.results]);
    let answer = match which {
        Count => raw::count(g)?.map(|_| ()),
        Write => raw::write(g, &mut buffer)?.map(|_| ()),
        Export => raw::export(g, scratch(3), &mut buffer)?.map(|_| ()),
        Evaluate => raw::evaluate(g, &words, scratch(3), &mut results)?,
        Trial => raw::trial(g, (*node, *word), (0, 1))?.map(|_| ()),
        Node => return stepped(g, Call::Node(*node), 0),
        Pair => return stepped(g, Call::Pair(*node, *word), 0),
        Tree => return stepped(g, Call::Tree(*node), scratch(24)),
        Resistive => return stepped(g, Call::Resistive(*node), scratch(24)),
        Settle => return stepped(g, Call::Settle, scratch(24)),
    };
    Ok(answer.err().unwrap_or(0))
}

fn stepped(g: &Packed, call: Call, scratch: usize) -> Result<u32, String> {
    match raw::step(&mut g.clone(), &call, scratch)? {
        Answer::Refused(number) => Ok(number),
        _ => Ok(0),
    }
}

/// These faults, which are made last to first, since a table must have the word that is changed in it: how many calls.
fn check(faults: &[&Fault]) -> Result<u64, String> {
    let mut asked = without_faults();
    faults.iter().rev().for_each(|(_, _, make)| make(&mut asked));
    for &which in ALL {
        let of_call = |wanted: &&u32| faults.iter().any(|fault| fault.0 == **wanted && fault.1.contains(&which));
        let due = ORDER.iter().find(of_call).copied().unwrap_or(0);
        let what = || format!("{which:?} with faults {:?}", faults.iter().map(|fault| fault.0).collect::<Vec<u32>>());
        let told = number(which, &asked).map_err(|wrong| format!("{}: {wrong}", what()))?;
        if told != due {
            return Err(format!("{}: {told}, and not {due}", what()));
        }
    }
    Ok(ALL.len() as u64)
}

/// These faults with each choice of one or none of every list.
fn check_with(faults: &mut Vec<&'static Fault>, lists: &'static [&[Fault]]) -> Result<u64, String> {
    let Some((list, rest)) = lists.split_first() else {
        return check(faults);
    };
    let mut done = check_with(faults, rest)?;
    for fault in *list {
        faults.push(fault);
        done += check_with(faults, rest)?;
        faults.pop();
    }
    Ok(done)
}

pub fn check_faults() -> Result<u64, String> {
    check_with(&mut Vec::new(), &FAULTS)
}
