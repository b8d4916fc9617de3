//! Graphs whose places end before, at and after the end of a word of bits, each with one fault of a known number, through every entry. Nothing
//! is asked of another implementation: no bit of theirs is set, so that no call saves anything.

use crate::lists::differ;
use crate::raw;
use reference::calls::{Answer, Call};
use reference::class::WORDS;
use reference::graph::MARK;
use reference::moves::Saving;
use reference::packed::{pack, set_bit, Lengths, Packed};
use reference::vectors::samples::of;

/// Nodes with 0, 3, 63, 66, 126, 129, 192 and 195 places, and outputs.
const NODES: [u32; 8] = [0, 1, 21, 22, 42, 43, 64, 65];
const OUTPUTS: [u32; 6] = [0, 1, 63, 64, 65, 128];
const INPUTS: u32 = 2;

/// Every third node is an XOR of input 1 and input 2, and each other a majority of both and the constant, with no bit set. Each slice is a
/// word or a byte longer than that.
fn graph(nodes: u32, outputs: u32) -> Packed {
    let needed = Lengths::of(nodes as usize, outputs as usize);
    let third = |v: u32| if v % 3 == 0 { MARK } else { 0 };
    let mut p = Packed {
        inputs: INPUTS,
        nodes,
        outputs,
        node_table: (0..nodes).flat_map(|v| [1, 2, third(v)]).collect(),
        node_bits: vec![0; needed.node_bits],
        output_table: (0..outputs).map(|o| o % (INPUTS + nodes + 1)).collect(),
        output_bits: vec![0; needed.output_bits],
        locks: vec![0; nodes as usize],
    };
    p.node_table.push(MARK - 1);
    p.node_bits.push(u64::MAX);
    p.output_table.push(MARK);
    p.output_bits.push(u64::MAX);
    p.locks.push(9);
    p
}

/// A fault: what it is, its number, or 0 for none, and the graph with it.
type Fault = (String, u32, Packed);

/// A stray bit of each table at each place, and every bit of the word behind.
fn strays(p: &Packed) -> Vec<Fault> {
    let needed = Lengths::of(p.nodes as usize, p.outputs as usize);
    let mut all = Vec::new();
    for place in needed.node_words..64 * needed.node_bits {
        let mut bad = p.clone();
        set_bit(&mut bad.node_bits, place);
        all.push((format!("bit {place} of the nodes"), 5, bad));
    }
    for place in needed.output_words..64 * needed.output_bits {
        let mut bad = p.clone();
        set_bit(&mut bad.output_bits, place);
        all.push((format!("bit {place} of the outputs"), 5, bad));
    }
    all
}

/// The bit of each mark.
fn marks(p: &Packed) -> Vec<Fault> {
    let marked = (0..3 * p.nodes as usize).filter(|&place| p.node_table[place] == MARK);
    let fault = |place: usize| {
        let mut bad = p.clone();
        set_bit(&mut bad.node_bits, place);
        (format!("the bit of the mark at {place}"), 5, bad)
    };
    marked.map(fault).collect()
}

/// Slices of each length below the one needed, or the last few of these, and just that length.
fn lengths(p: &Packed) -> Vec<Fault> {
    let needed = Lengths::of(p.nodes as usize, p.outputs as usize);
    let mut all = Vec::new();
    let mut add = |what: &str, needed: usize, cut: &dyn Fn(&mut Packed, usize)| {
        for length in needed.saturating_sub(4)..=needed {
            let mut lent = p.clone();
            cut(&mut lent, length);
            let number = if length < needed { 4 } else { 0 };
            all.push((format!("{length} of {what}"), number, lent));
        }
    };
    add("node_table", needed.node_words, &|p, length| p.node_table.truncate(length));
    add("node_bits", needed.node_bits, &|p, length| p.node_bits.truncate(length));
    add("output_table", needed.output_words, &|p, length| p.output_table.truncate(length));
    add("output_bits", needed.output_bits, &|p, length| p.output_bits.truncate(length));
    add("locks", needed.lock_bytes, &|p, length| p.locks.truncate(length));
    all
}

/// Indices too large at the first and the last places, with a bit and without. The mark is one where it is not a third word's.
fn indices(p: &Packed) -> Vec<Fault> {
    let mut all = Vec::new();
    let (places, outputs) = (3 * p.nodes as usize, p.outputs as usize);
    let ends = |count: usize| (0..count).filter(move |&place| place < 3 || place + 3 >= count);
    for index in [0x7fff_fffe, 0x7fff_ffff, 0x8000_0000, 0xffff_fffe, MARK] {
        for bit in [false, true] {
            for place in ends(places) {
                let mut bad = p.clone();
                bad.node_table[place] = index;
                bad.node_bits[place / 64] |= u64::from(bit) << (place % 64);
                let number = if index == MARK && place % 3 == 2 && !bit { 0 } else { 5 };
                all.push((format!("index {index} with bit {bit} at place {place}"), number, bad));
            }
            for place in ends(outputs) {
                let mut bad = p.clone();
                bad.output_table[place] = index;
                bad.output_bits[place / 64] |= u64::from(bit) << (place % 64);
                all.push((format!("index {index} with bit {bit} at output {place}"), 5, bad));
            }
        }
    }
    all
}

/// The number that a call on a node answers where the graph has no fault.
fn of_node(nodes: u32) -> u32 {
    if nodes == 0 {
        7
    } else {
        0
    }
}

fn number_of<T>(answer: Result<T, u32>) -> u32 {
    answer.err().unwrap_or(0)
}

/// The number that every entry answers, each with the one that it is due where there is no fault.
fn numbers(p: &Packed) -> Result<Vec<(u32, u32)>, String> {
    let (nodes, outputs) = (p.nodes as usize, p.outputs as usize);
    let (node, free, lost) = (INPUTS + 1, of_node(p.nodes), Saving::default());
    let mut bytes = vec![0xee; 40_000];
    let step = |call: Call| match raw::step(&mut p.clone(), &call, 8 * nodes)? {
        Answer::Refused(number) => Ok(number),
        Answer::Saving(saving) if saving == lost => Ok(0),
        Answer::Settled(settled) if settled.rounds == 1 && settled.before == settled.after => Ok(0),
        Answer::Total(0) => Ok(0),
        other => Err(format!("{call:?}: {other:?}")),
    };
    let steps = [
        (step(Call::Node(node))?, free),
        (step(Call::Pair(node, 1))?, free),
        (step(Call::Tree(node))?, free),
        (step(Call::Settle)?, 0),
        (step(Call::Many { list: vec![], moves: vec![] })?, 0),
        (step(Call::Resistive(node))?, free),
    ];
    let readings = [
        (number_of(raw::count(p)?), 0),
        (number_of(raw::evaluate(p, &[0xf0, 0xcc], nodes, &mut vec![7; outputs])?), 0),
        (number_of(raw::write(p, &mut bytes)?), 0),
        (number_of(raw::export(p, nodes, &mut bytes)?), 0),
        (number_of(raw::trial(p, (node, 1), (1, 1))?), free),
        (number_of(raw::preview(p, node, &mut vec![3; nodes], 8 * nodes)?), free),
        (number_of(raw::assignment(p, &vec![2; outputs], nodes)?), 0),
    ];
    let entered = number_of(raw::class(&mut p.clone(), 8 * nodes, &mut [0; WORDS])?);
    let other = graph(p.nodes, p.outputs);
    let compare = |g: &Packed, h: &Packed| Ok::<_, String>(number_of(raw::compare(g, h, &mut vec![3; nodes])?));
    // Stages without nodes, which put out what the graph wants, and which want what it puts out.
    let (before, behind) = (pack(&of(INPUTS, &[], &[2, 4])), pack(&of(p.outputs, &[], &[])));
    let join = |g: &Packed, h: &Packed| {
        Ok::<_, String>(number_of(raw::join(g, h, &mut raw::unfilled(Lengths::of(nodes, outputs)))?))
    };
    let on_two = [(compare(p, &other)?, 0), (compare(&other, p)?, 0), (join(p, &behind)?, 0), (join(&before, p)?, 0)];
    Ok([&steps[..], &readings, &[(entered, 0)], &on_two].concat())
}

fn check(size: (u32, u32), (what, number, lent): &Fault) -> Result<u64, String> {
    let what = format!("{} nodes and {} outputs, {what}", size.0, size.1);
    let told = numbers(lent).map_err(|wrong| format!("{what}: {wrong}"))?;
    for (at, &(told, free)) in told.iter().enumerate() {
        differ(&format!("{what}: entry {at}"), &told, &if *number == 0 { free } else { *number })?;
    }
    Ok(told.len() as u64)
}

pub fn check_faults() -> Result<u64, String> {
    let mut done = 0;
    for nodes in NODES {
        for outputs in OUTPUTS {
            let p = graph(nodes, outputs);
            let free = ("no fault".to_string(), 0, p.clone());
            let faults = [vec![free], strays(&p), marks(&p), lengths(&p), indices(&p)].concat();
            for fault in &faults {
                done += check((nodes, outputs), fault)?;
            }
        }
    }
    Ok(done)
}
