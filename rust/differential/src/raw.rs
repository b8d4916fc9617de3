//! The C interface called as C calls it, with a canary where the call may leave a number. A refused call must have left that, and every
//! slice that it was lent; an accepted one has left what it may not write.

use std::sync::atomic::{AtomicU64, Ordering};

use reference::calls::{Answer, Call};
use reference::class::{Figures, WORDS};
use reference::majority::Majority;
use reference::moves::Saving;
use reference::packed::{Lengths, Packed};
use reference::replay::Words;
use reference::settling::Settled;

use crate::interface::{filling, on_graph, on_graphs};
use crate::savings;

const CANARY: u32 = 0xa5a5_a5a5;
const LONG_CANARY: usize = 0xa5a5_a5a5_a5a5;
const SIGNED_CANARY: i64 = -0x5a5a_5a5a_5a5a;

/// The numbers that a call can return, 0 for an accepted one.
pub const NUMBERS: [u32; 23] = [0, 1, 2, 3, 4, 5, 6, 7, 8, 9, 10, 11, 12, 13, 14, 15, 16, 17, 18, 19, 101, 102, 105];

/// How often each of them was returned.
pub static MET: [AtomicU64; 23] = [const { AtomicU64::new(0) }; 23];

/// What a call answered, or what was wrong with how it answered.
pub type Answered<T> = Result<Result<T, u32>, String>;

/// The values where the number is 0, and else that they are still the canary.
fn answered<T: PartialEq + std::fmt::Debug>(number: u32, told: T, canary: T) -> Answered<T> {
    let Some(at) = NUMBERS.iter().position(|&known| known == number) else {
        return Err(format!("the number {number}"));
    };
    MET[at].fetch_add(1, Ordering::Relaxed);
    match number {
        0 => Ok(Ok(told)),
        _ if told == canary => Ok(Err(number)),
        _ => Err(format!("refused by {number}, and yet told {told:?}")),
    }
}

/// That a slice is as it was where the call is refused.
fn left<T: PartialEq>(what: &str, number: u32, before: &[T], after: &[T]) -> Result<(), String> {
    if number != 0 && before != after {
        return Err(format!("refused by {number}, and yet {what} changed"));
    }
    Ok(())
}

/// That a slice is as it was from some place on, if it reaches there.
fn left_from<T: PartialEq>(what: &str, place: usize, before: &[T], after: &[T]) -> Result<(), String> {
    if before.get(place..) != after.get(place..) {
        return Err(format!("{what} changed from place {place} on"));
    }
    Ok(())
}

/// What a call may write of the graph that it is lent, where it is accepted.
#[derive(Clone, Copy, PartialEq, Eq)]
enum Written {
    Nothing,
    Bits,
    Everything,
}

/// That all else is as it was: behind the graph always, and the whole of it where the call is refused.
fn graph_left(number: u32, written: Written, before: &Packed, after: &Packed) -> Result<(), String> {
    let needed = Lengths::of(after.nodes as usize, after.outputs as usize);
    let from = |least: Written, place: usize| if number == 0 && written as u8 >= least as u8 { place } else { 0 };
    let (words, bits) = (Written::Everything, Written::Bits);
    left_from("the node table", from(words, needed.node_words), &before.node_table, &after.node_table)?;
    left_from("the nodes' bits", from(bits, needed.node_bits), &before.node_bits, &after.node_bits)?;
    left_from("the output table", from(words, needed.output_words), &before.output_table, &after.output_table)?;
    left_from("the outputs' bits", from(bits, needed.output_bits), &before.output_bits, &after.output_bits)?;
    left_from("the locks", from(words, needed.lock_bytes), &before.locks, &after.locks)
}

pub fn field(bytes: &[u8]) -> Answered<&[u8]> {
    let canary = [LONG_CANARY; 2];
    let mut payload = canary;
    let number = unsafe { reducer::raw::reducer_field(bytes.as_ptr(), bytes.len(), &mut payload) };
    match answered(number, payload, canary)? {
        Ok([start, length]) => match bytes.get(start..start + length) {
            Some(stretch) => Ok(Ok(stretch)),
            None => Err(format!("a stretch from {start} of {length} in {} bytes", bytes.len())),
        },
        Err(refused) => Ok(Err(refused)),
    }
}

/// Nothing of a graph yet: slices of these lengths, canaries everywhere, every bit being set.
pub fn unfilled(lengths: Lengths) -> Packed {
    Packed {
        inputs: 0,
        nodes: 0,
        outputs: 0,
        node_table: vec![0xcafe_0001; lengths.node_words],
        node_bits: vec![u64::MAX; lengths.node_bits],
        output_table: vec![0xcafe_0002; lengths.output_words],
        output_bits: vec![u64::MAX; lengths.output_bits],
        locks: vec![0xca; lengths.lock_bytes],
    }
}

/// I, N and O of what was filled, which become the graph's.
fn loaded(number: u32, numbers: [u32; 3], g: &mut Packed, before: &Packed) -> Answered<(u32, u32, u32)> {
    let answer = told_sizes(number, numbers, g)?;
    graph_left(number, Written::Everything, before, g)?;
    Ok(answer)
}

/// I, N and O, which become the graph's.
fn told_sizes(number: u32, numbers: [u32; 3], g: &mut Packed) -> Answered<(u32, u32, u32)> {
    let answer = answered(number, numbers, [CANARY; 3])?.map(|[inputs, nodes, outputs]| (inputs, nodes, outputs));
    if let Ok(told) = answer {
        (g.inputs, g.nodes, g.outputs) = told;
    }
    Ok(answer)
}

pub fn load(file: &[u8], g: &mut Packed) -> Answered<(u32, u32, u32)> {
    let (before, mut numbers) = (g.clone(), [CANARY; 3]);
    let number = filling!(reducer_load, (file.as_ptr(), file.len()), &mut *g, (&mut numbers));
    loaded(number, numbers, g, &before)
}

pub fn import(text: &[u8], g: &mut Packed) -> Answered<(u32, u32, u32)> {
    let (before, mut numbers) = (g.clone(), [CANARY; 3]);
    let number = filling!(reducer_import, (text.as_ptr(), text.len()), &mut *g, (&mut numbers));
    loaded(number, numbers, g, &before)
}

/// What is lent to a call that only reads: the graph itself, which is then seen to be as it was.
fn read(g: &Packed, call: impl FnOnce(&mut Packed) -> u32) -> Result<u32, String> {
    let mut lent = g.clone();
    let number = call(&mut lent);
    graph_left(number, Written::Nothing, g, &lent)?;
    Ok(number)
}

/// The same to a call that turns literals.
fn turn(g: &mut Packed, call: impl FnOnce(&mut Packed) -> u32) -> Result<u32, String> {
    let before = g.clone();
    let number = call(g);
    graph_left(number, Written::Bits, &before, g)?;
    Ok(number)
}

pub fn write(g: &Packed, buffer: &mut [u8]) -> Answered<usize> {
    let (before, mut length) = (buffer.to_vec(), LONG_CANARY);
    let number = read(g, |g| on_graph!(reducer_write, g, buffer.as_mut_ptr(), buffer.len(), &mut length))?;
    left("the buffer", number, &before, buffer)?;
    answered(number, length, LONG_CANARY)
}

/// With so many words of scratch, as all calls that need some.
pub fn export(g: &Packed, scratch: usize, buffer: &mut [u8]) -> Answered<usize> {
    let (before, mut length) = (buffer.to_vec(), LONG_CANARY);
    let mut lent = vec![CANARY; scratch];
    let call = |g: &mut Packed| {
        on_graph!(reducer_export, g, lent.as_mut_ptr(), lent.len(), buffer.as_mut_ptr(), buffer.len(), &mut length)
    };
    let number = read(g, call)?;
    left("the buffer", number, &before, buffer)?;
    left("scratch", number, &vec![CANARY; scratch], &lent)?;
    answered(number, length, LONG_CANARY)
}

pub fn evaluate(g: &Packed, input_words: &[u64], scratch: usize, results: &mut [u64]) -> Answered<()> {
    let before = results.to_vec();
    let mut lent = vec![u64::from(CANARY); scratch];
    let call = |g: &mut Packed| {
        on_graph!(
            reducer_evaluate,
            g,
            input_words.as_ptr(),
            input_words.len(),
            lent.as_mut_ptr(),
            lent.len(),
            results.as_mut_ptr(),
            results.len()
        )
    };
    let number = read(g, call)?;
    left("the results", number, &before, results)?;
    left("scratch", number, &vec![u64::from(CANARY); scratch], &lent)?;
    answered(number, (), ())
}

/// The number of the least assignment that gives a pattern, if one does.
pub fn assignment(g: &Packed, wanted: &[u8], scratch: usize) -> Answered<Option<u32>> {
    let mut found = [CANARY; 2];
    let mut lent = vec![u64::from(CANARY); scratch];
    let call = |g: &mut Packed| {
        on_graph!(reducer_assignment, g, wanted.as_ptr(), wanted.len(), lent.as_mut_ptr(), lent.len(), &mut found)
    };
    let number = read(g, call)?;
    left("scratch", number, &vec![u64::from(CANARY); scratch], &lent)?;
    match answered(number, found, [CANARY; 2])? {
        Ok([1, number]) => Ok(Ok(Some(number))),
        Ok([0, 0]) => Ok(Ok(None)),
        Ok(found) => Err(format!("an assignment found as {found:?}")),
        Err(number) => Ok(Err(number)),
    }
}

pub fn count(g: &Packed) -> Answered<u32> {
    let mut count = CANARY;
    let number = read(g, |g| on_graph!(reducer_count, g, &mut count))?;
    answered(number, count, CANARY)
}

/// What a call saved, in its two parts.
fn saved(number: u32, saving: [i64; 2]) -> Answered<Saving> {
    let answer = answered(number, saving, [SIGNED_CANARY; 2])?.map(|[own, others]| Saving { own, others });
    answer.iter().for_each(|&saving| savings::note(saving));
    Ok(answer)
}

pub fn node(g: &mut Packed, node: u32) -> Answered<Saving> {
    let mut saving = [SIGNED_CANARY; 2];
    let number = turn(g, |g| on_graph!(reducer_node, g, node, &mut saving))?;
    saved(number, saving)
}

pub fn pair(g: &mut Packed, node: u32, word: u32) -> Answered<Saving> {
    let mut saving = [SIGNED_CANARY; 2];
    let number = turn(g, |g| on_graph!(reducer_pair, g, node, word, &mut saving))?;
    saved(number, saving)
}

pub fn trial(g: &Packed, pair: (u32, u32), both: (u32, u32)) -> Answered<i64> {
    let mut gain = SIGNED_CANARY;
    let number = read(g, |g| on_graph!(reducer_trial, g, pair.0, pair.1, both.0, both.1, &mut gain))?;
    answered(number, gain, SIGNED_CANARY)
}

pub fn tree(g: &mut Packed, root: u32, scratch: usize) -> Answered<Saving> {
    let mut saving = [SIGNED_CANARY; 2];
    let mut lent = vec![CANARY; scratch];
    let number = turn(g, |g| on_graph!(reducer_tree, g, root, lent.as_mut_ptr(), lent.len(), &mut saving))?;
    left("scratch", number, &vec![CANARY; scratch], &lent)?;
    saved(number, saving)
}

pub fn resistive(g: &mut Packed, root: u32, scratch: usize) -> Answered<Saving> {
    let mut saving = [SIGNED_CANARY; 2];
    let mut lent = vec![CANARY; scratch];
    let number = turn(g, |g| on_graph!(reducer_resistive, g, root, lent.as_mut_ptr(), lent.len(), &mut saving))?;
    left("scratch", number, &vec![CANARY; scratch], &lent)?;
    saved(number, saving)
}

pub fn preview(g: &Packed, root: u32, moves: &mut [u8], scratch: usize) -> Answered<Saving> {
    let (before, mut saving) = (moves.to_vec(), [SIGNED_CANARY; 2]);
    let mut lent = vec![CANARY; scratch];
    let call = |g: &mut Packed| {
        on_graph!(reducer_preview, g, root, moves.as_mut_ptr(), moves.len(), lent.as_mut_ptr(), lent.len(), &mut saving)
    };
    let number = read(g, call)?;
    left("the moves", number, &before, moves)?;
    left("scratch", number, &vec![CANARY; scratch], &lent)?;
    saved(number, saving)
}

/// What settling tells.
fn settled(([rounds, before, after], [own, others]): ([u32; 3], [i64; 2])) -> Settled {
    Settled { rounds, before, after, own, others }
}

pub fn settle(g: &mut Packed, scratch: usize) -> Answered<Settled> {
    let canary = ([CANARY; 3], [SIGNED_CANARY; 2]);
    let mut told = canary;
    let mut lent = vec![CANARY; scratch];
    let number = turn(g, |g| on_graph!(reducer_settle, g, lent.as_mut_ptr(), lent.len(), &mut told.0, &mut told.1))?;
    left("scratch", number, &vec![CANARY; scratch], &lent)?;
    Ok(answered(number, told, canary)?.map(settled))
}

/// A graph settled and entered into the record of a class.
pub fn class(g: &mut Packed, scratch: usize, book: &mut [u64]) -> Answered<Settled> {
    let canary = ([CANARY; 3], [SIGNED_CANARY; 2]);
    let (before, mut told) = (book.to_vec(), canary);
    let mut lent = vec![CANARY; scratch];
    let call = |g: &mut Packed| {
        let (figures, savings) = (&mut told.0, &mut told.1);
        on_graph!(reducer_class, g, lent.as_mut_ptr(), lent.len(), book.as_mut_ptr(), book.len(), figures, savings)
    };
    let number = turn(g, call)?;
    left("scratch", number, &vec![CANARY; scratch], &lent)?;
    left("the record", number, &before, book)?;
    left_from("what stands behind the record", WORDS, &before, book)?;
    Ok(answered(number, told, canary)?.map(settled))
}

/// The figures of all graphs of a class where `latest` is 0, and else of the latest.
pub fn class_figures(book: &[u64], latest: u32) -> Answered<Figures> {
    let canary = ([u64::from(CANARY); 6], [SIGNED_CANARY; 2]);
    let mut told = canary;
    let call = reducer::raw::reducer_class_figures;
    let number = unsafe { call(book.as_ptr(), book.len(), latest, &mut told.0, &mut told.1) };
    Ok(answered(number, told, canary)?.map(|([count, sums @ ..], improvement)| Figures { count, sums, improvement }))
}

pub fn many(g: &mut Packed, list: &[u32], moves: &[u8]) -> Answered<i64> {
    let mut saving = SIGNED_CANARY;
    let call = |g: &mut Packed| {
        on_graph!(reducer_many, g, list.as_ptr(), list.len(), moves.as_ptr(), moves.len(), &mut saving)
    };
    let number = turn(g, call)?;
    answered(number, saving, SIGNED_CANARY)
}

/// The same to a call that only reads two graphs.
fn read_two(g: &Packed, h: &Packed, call: impl FnOnce(&mut Packed, &mut Packed) -> u32) -> Result<u32, String> {
    let (mut first, mut second) = (g.clone(), h.clone());
    let number = call(&mut first, &mut second);
    graph_left(number, Written::Nothing, g, &first)?;
    graph_left(number, Written::Nothing, h, &second)?;
    Ok(number)
}

/// What differs, and where. The moves are left where anything but moves does.
pub fn compare(g: &Packed, h: &Packed, moves: &mut [u8]) -> Answered<[u32; 2]> {
    let (before, mut told) = (moves.to_vec(), [CANARY; 2]);
    let call =
        |g: &mut Packed, h: &mut Packed| on_graphs!(reducer_compare, g, h, moves.as_mut_ptr(), moves.len(), &mut told);
    let number = read_two(g, h, call)?;
    left("the moves", number, &before, moves)?;
    answered(number, told, [CANARY; 2])
}

/// Two graphs joined into what is lent; I, N and O become its own.
pub fn join(g: &Packed, h: &Packed, joined: &mut Packed) -> Answered<(u32, u32, u32)> {
    let (before, mut numbers) = (joined.clone(), [CANARY; 3]);
    let lent = &mut *joined;
    let call = |g: &mut Packed, h: &mut Packed| {
        on_graphs!(
            reducer_join,
            g,
            h,
            lent.node_table.as_mut_ptr(),
            lent.node_table.len(),
            lent.node_bits.as_mut_ptr(),
            lent.node_bits.len(),
            lent.output_table.as_mut_ptr(),
            lent.output_table.len(),
            lent.output_bits.as_mut_ptr(),
            lent.output_bits.len(),
            lent.locks.as_mut_ptr(),
            lent.locks.len(),
            &mut numbers
        )
    };
    let number = read_two(g, h, call)?;
    loaded(number, numbers, joined, &before)
}

/// With so many words of scratch. Outputs and locks are only read.
pub fn majority(g: &mut Packed, node: u32, [x, y, z]: [u32; 3], scratch: usize) -> Answered<u32> {
    let (before, mut told) = (g.clone(), CANARY);
    let mut lent = vec![CANARY; scratch];
    let number = on_graph!(reducer_majority, &mut *g, node, x, y, z, lent.as_mut_ptr(), lent.len(), &mut told);
    graph_left(number, Written::Everything, &before, g)?;
    left_from("the output table", 0, &before.output_table, &g.output_table)?;
    left_from("the outputs' bits", 0, &before.output_bits, &g.output_bits)?;
    left_from("the locks", 0, &before.locks, &g.locks)?;
    left("scratch", number, &vec![CANARY; scratch], &lent)?;
    answered(number, told, CANARY)
}

/// The new N, which becomes the graph's.
pub fn find(g: &mut Packed, scratch: usize) -> Answered<u32> {
    let (before, mut nodes) = (g.clone(), CANARY);
    let mut lent = vec![CANARY; scratch];
    let number = on_graph!(reducer_find, &mut *g, lent.as_mut_ptr(), lent.len(), &mut nodes);
    graph_left(number, Written::Everything, &before, g)?;
    left_from("the outputs' bits", 0, &before.output_bits, &g.output_bits)?;
    left("scratch", number, &vec![CANARY; scratch], &lent)?;
    let answer = answered(number, nodes, CANARY)?;
    g.nodes = answer.unwrap_or(g.nodes);
    Ok(answer)
}

/// What the number of a majority call says.
fn majority_of(told: u32) -> Result<Majority, String> {
    let all = [Majority::Made, Majority::Not, Majority::NotCovered];
    let known = all.into_iter().find(|answer| answer.number() == told);
    known.ok_or(format!("a majority call answers {told}"))
}

/// With so many words of scratch.
pub fn replay(
    file: &[u8],
    words: Words,
    g: &mut Packed,
    scratch: usize,
    answers: &mut [i64],
) -> Answered<(u32, u32, u32)> {
    let Words { calls, list, moves } = words;
    let (before, told, mut numbers) = (g.clone(), answers.to_vec(), [CANARY; 3]);
    let mut lent = vec![CANARY; scratch];
    let number = filling!(
        reducer_replay,
        (file.as_ptr(), file.len(), calls.as_ptr(), calls.len()),
        &mut *g,
        (
            list.as_ptr(),
            list.len(),
            moves.as_ptr(),
            moves.len(),
            lent.as_mut_ptr(),
            lent.len(),
            answers.as_mut_ptr(),
            answers.len(),
            &mut numbers
        )
    );
    left("scratch", number, &vec![CANARY; scratch], &lent)?;
    left("the answers", number, &told, answers)?;
    // Of an accepted one, what stands behind the graph is looked at by the caller: words that the finder has freed are there too.
    if number != 0 {
        graph_left(number, Written::Nothing, &before, g)?;
    }
    told_sizes(number, numbers, g)
}

/// One call of a list, with so many words of scratch.
pub fn step(g: &mut Packed, call: &Call, scratch: usize) -> Result<Answer, String> {
    let answer = match *call {
        Call::Node(v) => node(g, v)?.map(Answer::Saving),
        Call::Pair(v, word) => pair(g, v, word)?.map(Answer::Saving),
        Call::Tree(root) => tree(g, root, scratch)?.map(Answer::Saving),
        Call::Settle => settle(g, scratch)?.map(Answer::Settled),
        Call::Many { ref list, ref moves } => many(g, list, moves)?.map(Answer::Total),
        Call::Majority { node, three } => match majority(g, node, three, scratch)? {
            Ok(told) => Ok(Answer::Majority(majority_of(told)?)),
            Err(number) => Err(number),
        },
        Call::Find => find(g, scratch)?.map(Answer::Found),
        Call::Resistive(root) => resistive(g, root, scratch)?.map(Answer::Saving),
    };
    Ok(answer.unwrap_or_else(Answer::Refused))
}
