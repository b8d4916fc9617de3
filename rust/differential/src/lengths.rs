//! Lent slices of every length around the one needed, with canaries: what is past the graph stays, and so does everything
//! where a call is refused.

use crate::cases::Case;
use crate::lists::differ;
use crate::many;
use crate::previews;
use crate::raw;
use reference::calls::Call;
use reference::graph::Graph;
use reference::moves::Saving;
use reference::packed::{pack, Lengths, Packed};
use reference::random::Random;
use reference::{aiger, entries, file};

/// Lengths from a little less than this one to a little more.
fn around(length: usize) -> std::ops::RangeInclusive<usize> {
    length.saturating_sub(3)..=length + 2
}

/// A list of another length, canaries at its end.
fn resized<T: Clone>(list: &[T], length: usize, canary: T) -> Vec<T> {
    let mut next = list.to_vec();
    next.resize(length, canary);
    next
}

/// Lengths for so many nodes and outputs, and all around: of both index tables together, of both tables' bits, and of the locks.
fn all_lengths(nodes: usize, outputs: usize) -> Vec<Lengths> {
    let enough = Lengths::of(nodes, outputs);
    let mut all = Vec::new();
    for node_words in around(enough.node_words) {
        for output_words in around(enough.output_words) {
            all.push(Lengths { node_words, output_words, ..enough });
        }
    }
    for node_bits in around(enough.node_bits) {
        for output_bits in around(enough.output_bits) {
            all.push(Lengths { node_bits, output_bits, ..enough });
        }
    }
    for lock_bytes in around(nodes) {
        all.push(Lengths { lock_bytes, ..enough });
        let output_words = outputs.saturating_sub(1);
        all.push(Lengths { lock_bytes, node_words: 3 * nodes + 1, output_words, ..enough });
    }
    all
}

/// The graph with slices of all lengths around.
fn with_tables(g: &Graph) -> Vec<Packed> {
    let p = pack(g);
    let resize = |lengths: Lengths| Packed {
        node_table: resized(&p.node_table, lengths.node_words, 0xcafe_0001),
        node_bits: resized(&p.node_bits, lengths.node_bits, u64::MAX),
        output_table: resized(&p.output_table, lengths.output_words, 0xcafe_0002),
        output_bits: resized(&p.output_bits, lengths.output_bits, u64::MAX),
        locks: resized(&p.locks, lengths.lock_bytes, 200),
        ..p
    };
    all_lengths(g.nodes as usize, g.outputs as usize).into_iter().map(resize).collect()
}

/// One call on what may be no graph, with scratch of all lengths around.
pub fn check_calls(g: &Packed, call: &Call) -> Result<u64, String> {
    let mut done = 0;
    let scratches: Vec<usize> = match call {
        Call::Tree(_) | Call::Settle | Call::Majority { .. } | Call::Find | Call::Resistive(_) => {
            around(8 * g.nodes as usize).collect()
        }
        _ => vec![0],
    };
    for scratch in scratches {
        let mut due = g.clone();
        let mut got = g.clone();
        let answer = raw::step(&mut got, call, scratch)?;
        let what = format!("{call:?} with {:?}, scratch {scratch}", g.lengths());
        differ(&what, &answer, &entries::step(&mut due, call, scratch))?;
        differ(&format!("tables and locks after {what}"), &got, &due)?;
        done += 1;
    }
    match call {
        Call::Tree(root) => Ok(done + check_previews(g, *root)?),
        Call::Many { list, moves } => Ok(done + check_moves(g, list, moves)?),
        _ => Ok(done),
    }
}

/// Many moves on what may be no graph, with moves of all lengths around the list's, and with each front part of the list.
fn check_moves(g: &Packed, list: &[u32], moves: &[u8]) -> Result<u64, String> {
    let mut done = 0;
    for length in around(list.len()) {
        let _ = many::check_one(g, list, &resized(moves, length, 200))?;
        done += 1;
    }
    for end in 0..list.len() {
        let _ = many::check_one(g, &list[..end], moves)?;
        done += 1;
    }
    Ok(done)
}

/// Previews of what may be no graph, with a byte and a word of scratch too few, just enough, and more.
fn check_previews(g: &Packed, root: u32) -> Result<u64, String> {
    let nodes = g.nodes as usize;
    for bytes in [nodes.saturating_sub(1), nodes, nodes + 1] {
        for scratch in [(8 * nodes).saturating_sub(1), 8 * nodes, 8 * nodes + 1] {
            previews::check_one(g, root, bytes, scratch)?;
        }
    }
    Ok(9)
}

fn check_evaluation(g: &Packed, random: &mut Random) -> Result<u64, String> {
    let mut done = 0;
    let all: Vec<u64> = (0..g.inputs + 2).map(|_| random.word()).collect();
    for words in around(g.inputs as usize) {
        for results in around(g.outputs as usize) {
            for scratch in [g.nodes as usize, (g.nodes as usize).saturating_sub(1), g.nodes as usize + 1] {
                let mut due = vec![0xbeef; results];
                let mut got = due.clone();
                let answer = raw::evaluate(g, &all[..words.min(all.len())], scratch, &mut got)?;
                let what = format!("evaluation with {words} input words, {results} results, scratch {scratch}");
                differ(&what, &answer, &entries::evaluate(g, &all[..words.min(all.len())], scratch, &mut due))?;
                differ(&format!("results after {what}"), &got, &due)?;
                done += 1;
            }
        }
    }
    Ok(done)
}

fn check_writing(g: &Graph, lent: &Packed) -> Result<u64, String> {
    let mut done = 0;
    for room in around(18 + 22 * g.nodes as usize + 7 * g.outputs as usize).chain(around(file::file_of(g).len())) {
        let mut due = vec![0xee; room];
        let mut got = due.clone();
        differ(&format!("writing to {room} bytes"), &raw::write(lent, &mut got)?, &entries::write(lent, &mut due))?;
        differ(&format!("the buffer of {room} bytes"), &got, &due)?;
        done += 1;
    }
    Ok(done)
}

fn check_loading(g: &Graph) -> Result<u64, String> {
    let mut done = 0;
    let bytes = file::file_of(g);
    for lengths in all_lengths(g.nodes as usize, g.outputs as usize) {
        let mut due = raw::unfilled(lengths);
        let mut got = due.clone();
        let answer = entries::load(&bytes, &mut due);
        differ(&format!("loading into {lengths:?}"), &raw::load(&bytes, &mut got)?, &answer)?;
        differ(&format!("tables and locks after loading into {lengths:?}"), &got, &due)?;
        done += 1;
    }
    Ok(done)
}

fn check_importing(g: &Graph) -> Result<u64, String> {
    let mut done = 0;
    let text = aiger::text_of(g);
    let gates: usize = g.node_indices().map(|node| 1 + g.words_of(node)).sum();
    for lengths in all_lengths(gates, g.outputs as usize) {
        let mut due = raw::unfilled(lengths);
        let mut got = due.clone();
        let answer = entries::import(text.as_bytes(), &mut due);
        differ(&format!("importing into {lengths:?}"), &raw::import(text.as_bytes(), &mut got)?, &answer)?;
        differ(&format!("tables and locks after importing into {lengths:?}"), &got, &due)?;
        done += 1;
    }
    Ok(done)
}

/// Exports of what may be no graph, with enough scratch and room and with none.
fn check_exporting(what: &str, g: &Packed) -> Result<u64, String> {
    let size = reducer::Size { inputs: g.inputs, nodes: g.nodes, outputs: g.outputs };
    let (enough, long) = (g.nodes as usize, reducer::text_bytes(size));
    for (scratch, room) in [(enough, long), (0, long), (enough, 0), (0, 0)] {
        let mut due = vec![0xee; room];
        let mut got = due.clone();
        let what = format!("exporting {what}, with scratch {scratch} to {room} bytes");
        differ(&what, &raw::export(g, scratch, &mut got)?, &entries::export(g, scratch, &mut due))?;
        differ(&format!("the buffer after {what}"), &got, &due)?;
    }
    Ok(4)
}

/// Counting, evaluation, writing and exporting of what may be no graph.
fn check_readings(what: &str, g: &Packed) -> Result<u64, String> {
    differ(&format!("the count {what}"), &raw::count(g)?, &entries::count(g))?;
    let words = vec![0x5555; g.inputs as usize];
    let mut due = vec![1; g.outputs as usize];
    let mut got = due.clone();
    let number = entries::evaluate(g, &words, g.nodes as usize, &mut due);
    differ(&format!("evaluation {what}"), &raw::evaluate(g, &words, g.nodes as usize, &mut got)?, &number)?;
    differ(&format!("results {what}"), &got, &due)?;
    let mut due = vec![0xee; 18 + 22 * g.nodes as usize + 7 * g.outputs as usize];
    let mut got = due.clone();
    differ(&format!("writing {what}"), &raw::write(g, &mut got)?, &entries::write(g, &mut due))?;
    differ(&format!("the buffer after writing {what}"), &got, &due)?;
    Ok(3 + check_exporting(what, g)?)
}

/// Every entry that takes a graph, and the calls of a case, on what may be no graph: how many calls.
pub fn check_bad(case: &Case, bad: &Packed, what: &str) -> Result<u64, String> {
    let mut done = check_readings(what, bad)?;
    for step in &case.steps {
        done += check_calls(bad, &step.call).map_err(|wrong| format!("{what}: {wrong}"))?;
    }
    Ok(done)
}

/// How many calls were made.
pub fn check_lengths(case: &Case) -> Result<u64, String> {
    let (g, lent) = (&case.graph, &case.lent());
    let mut random = Random::new(case.seed);
    let mut done = check_loading(g)? + check_writing(g, lent)? + check_evaluation(lent, &mut random)?;
    done += check_importing(g)?;
    for lent in with_tables(g) {
        done += check_bad(case, &lent, "with slices of other lengths")?;
    }
    Ok(done)
}

/// Slices that are long enough for the limits, that are too short by one, and none.
const AT_LIMITS: [Lengths; 8] = {
    const fn of(nodes: usize, node_bits: usize, outputs: usize, output_bits: usize, lock_bytes: usize) -> Lengths {
        Lengths { node_words: nodes, node_bits, output_words: outputs, output_bits, lock_bytes }
    }
    [
        of(300_000, 4_688, 4_096, 64, 100_000),
        of(299_999, 4_688, 4_096, 64, 100_000),
        of(300_003, 4_687, 4_096, 64, 100_001),
        of(300_003, 4_688, 4_095, 64, 100_001),
        of(300_003, 4_689, 4_096, 63, 100_001),
        of(300_003, 4_689, 4_097, 65, 99_999),
        of(300_003, 4_689, 4_097, 65, 100_001),
        of(0, 0, 0, 0, 0),
    ]
};

/// Numbers at and past each limit, with slices that are long enough and ones that are not.
pub fn check_limits() -> Result<u64, String> {
    let mut done = 0;
    for inputs in [0, 4_096, 4_097, u32::MAX] {
        for nodes in [0, 100_000, 100_001, u32::MAX] {
            for outputs in [0, 4_096, 4_097, u32::MAX] {
                for lengths in AT_LIMITS {
                    let g = Packed {
                        inputs,
                        nodes,
                        outputs,
                        node_table: vec![0; lengths.node_words],
                        node_bits: vec![0; lengths.node_bits],
                        output_table: vec![0; lengths.output_words],
                        output_bits: vec![u64::MAX; lengths.output_bits],
                        locks: vec![1; lengths.lock_bytes],
                    };
                    done += check_limit(&g)?;
                }
            }
        }
    }
    Ok(done)
}

fn check_limit(g: &Packed) -> Result<u64, String> {
    let what = format!("I={} N={} O={} in {:?}", g.inputs, g.nodes, g.outputs, g.lengths());
    let due = entries::count(g);
    differ(&what, &raw::count(g)?, &due)?;
    let admitted = due.map(|_| ());
    let words = vec![0; 4_096];
    let mut results = vec![0; 4_096];
    let number = raw::evaluate(g, &words, 100_000, &mut results)?;
    differ(&format!("evaluation of {what}"), &number, &admitted)?;
    // Where the graph is refused, no buffer is looked at.
    let room = |enough: usize| if admitted.is_ok() { enough } else { 0 };
    let mut buffer = vec![0; room(18 + 2_200_000 + 7 * 4_096)];
    differ(&format!("writing {what}"), &raw::write(g, &mut buffer)?.map(|_| ()), &admitted)?;
    let mut text = vec![0; room(30 + 5 * 4_096 + 84 * 100_000 + 7 * 4_096)];
    differ(&format!("exporting {what}"), &raw::export(g, 100_000, &mut text)?.map(|_| ()), &admitted)?;
    Ok(4 + check_previews_at_limits(&what, g, admitted)?)
}

/// No word names a node, and no move saves anything.
fn check_previews_at_limits(what: &str, g: &Packed, admitted: Result<(), u32>) -> Result<u64, String> {
    let last = g.inputs.wrapping_add(g.nodes);
    for bytes in [100_000, 99_999] {
        let due = match admitted {
            Err(number) => Err(number),
            Ok(()) if bytes < g.nodes as usize => Err(4),
            Ok(()) if g.nodes == 0 => Err(7),
            Ok(()) => Ok(Saving::default()),
        };
        let mut moves = vec![0xee; bytes];
        let what = format!("the preview of {what} with {bytes} bytes");
        differ(&what, &raw::preview(g, last, &mut moves, 800_000)?, &due)?;
        let told = if due.is_ok() { g.nodes as usize } else { 0 };
        let kept = moves[..told].iter().all(|&byte| byte == 0) && moves[told..].iter().all(|&byte| byte == 0xee);
        differ(&format!("the bytes after {what}"), &kept, &true)?;
    }
    Ok(2)
}

/// Each lock byte of the graph, and each past it, set to what a lock may be and to what it may not.
pub fn check_locks(case: &Case) -> Result<u64, String> {
    let mut done = 0;
    let lent = case.lent();
    for place in 0..lent.locks.len() {
        for byte in [0, 1, 2, 3, 128, 255] {
            let mut bad = lent.clone();
            bad.locks[place] = byte;
            done += check_bad(case, &bad, &format!("with lock byte {byte} at place {place}"))?;
        }
    }
    Ok(done)
}
