//! Calls as words, three to each, and their answers.

use crate::calls::{Answer, Call};
use crate::graph::Number;

/// The words of the calls, and the list of nodes with their moves of which each many call takes a part, and each majority call three
/// entries.
#[derive(Clone, Copy, Debug)]
pub struct Words<'a> {
    pub calls: &'a [u32],
    pub list: &'a [u32],
    pub moves: &'a [u8],
}

/// A many call's part of the list, and of the moves what there is.
fn part(words: Words, start: u32, count: u32) -> Result<Call, Number> {
    if u64::from(start) + u64::from(count) > words.list.len() as u64 {
        return Err(105);
    }
    let (start, count) = (start as usize, count as usize);
    let moves = words.moves.iter().skip(start).take(count);
    Ok(Call::Many {
        list: words.list[start..start + count].to_vec(),
        moves: moves.copied().collect(),
    })
}

/// A majority call with three entries of the list.
fn triple(words: Words, node: u32, start: u32) -> Result<Call, Number> {
    match words.list.get(start as usize..).unwrap_or_default() {
        [first, second, third, ..] => Ok(Call::Majority {
            node,
            three: [*first, *second, *third],
        }),
        _ => Err(105),
    }
}

fn decoded(words: Words, call: &[u32]) -> Result<Call, Number> {
    match *call {
        [0, node, _] => Ok(Call::Node(node)),
        [1, node, word] => Ok(Call::Pair(node, word)),
        [2, root, _] => Ok(Call::Tree(root)),
        [3, _, _] => Ok(Call::Settle),
        [4, start, count] => part(words, start, count),
        [5, node, start] => triple(words, node, start),
        [6, _, _] => Ok(Call::Find),
        [7, root, _] => Ok(Call::Resistive(root)),
        _ => Err(102),
    }
}

/// The calls that the words say: 101 for words that are left over, then call by call 102 for a kind that is none and 105 for a part
/// past the end of the list.
pub fn calls_of(words: Words) -> Result<Vec<Call>, Number> {
    if words.calls.len() % 3 != 0 {
        return Err(101);
    }
    let calls = words.calls.chunks(3);
    calls.map(|call| decoded(words, call)).collect()
}

/// The number of an answer, 0 where accepted, and both parts of the saving; that of many moves is one number, and so are what a
/// majority call and the finder tell.
pub fn told(answer: Answer) -> [i64; 3] {
    match answer {
        Answer::Saving(saved) => [0, saved.own, saved.others],
        Answer::Settled(settled) => [0, settled.own, settled.others],
        Answer::Total(saved) => [0, saved, 0],
        Answer::Majority(answer) => [0, answer.number().into(), 0],
        Answer::Found(nodes) => [0, nodes.into(), 0],
        Answer::Refused(number) => [number.into(), 0, 0],
    }
}
