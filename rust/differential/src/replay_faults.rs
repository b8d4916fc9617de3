//! A replay with every choice of some faults. Its number is known without any implementation: 101, then that of the first call at
//! fault, then 4 for the answers, then what the file meets first.

use crate::lists::differ;
use crate::raw;
use reference::file::file_of;
use reference::graph::MARK;
use reference::packed::Lengths;
use reference::replay::Words;
use reference::vectors::samples::of;

/// A replay in the making.
struct Asked {
    file: Vec<u8>,
    calls: Vec<u32>,
    lengths: Lengths,
    answers: usize,
}

/// A number, and what brings it about.
type Fault = (u32, fn(&mut Asked));

/// The words of a call at this place.
fn call(asked: &mut Asked, at: usize, words: [u32; 3]) {
    asked.calls[3 * at..3 * at + 3].copy_from_slice(&words);
}

/// Faults of one thing each, in the order in which they are told: no two of a list can be had together.
static FAULTS: [&[Fault]; 8] = [
    &[(101, |asked| asked.calls.push(0)), (101, |asked| asked.calls.extend([8, 0]))],
    &[
        (102, |asked| call(asked, 0, [8, 0, 0])),
        (102, |asked| call(asked, 0, [MARK, 9, 9])),
        (105, |asked| call(asked, 0, [4, 0, 4])),
        (105, |asked| call(asked, 0, [4, 4, 0])),
        (105, |asked| call(asked, 0, [4, 1, MARK])),
        (105, |asked| call(asked, 0, [5, 4, 1])),
        (105, |asked| call(asked, 0, [5, 0, MARK])),
    ],
    &[
        (102, |asked| call(asked, 1, [9, 0, 0])),
        (105, |asked| call(asked, 1, [4, 3, 1])),
        (105, |asked| call(asked, 1, [4, MARK, 1])),
        (105, |asked| call(asked, 1, [4, MARK, MARK])),
    ],
    &[
        (102, |asked| call(asked, 2, [8, 4, 4])),
        (105, |asked| call(asked, 2, [5, 4, 2])),
        (105, |asked| call(asked, 2, [4, 2, 2])),
        (105, |asked| call(asked, 2, [4, 0, 65_536])),
    ],
    &[(4, |asked| asked.answers = 8), (4, |asked| asked.answers = 0)],
    &[(1, |asked| asked.file.clear()), (2, |asked| asked.file[0] = 2)],
    &[
        (4, |asked| asked.lengths.node_words = 2),
        (4, |asked| asked.lengths.node_bits = 0),
        (4, |asked| asked.lengths.output_bits = 0),
        (4, |asked| asked.lengths.lock_bytes = 0),
    ],
    &[(6, |asked| asked.file.push(0)), (1, |asked| asked.file.truncate(39))],
];

/// Node 4 turned, P1 settled, and node 4 turned again, by parts of a list whose first entry is no node.
fn without_faults() -> Asked {
    let file = file_of(&of(3, &[[3, 5, 7]], &[9]));
    Asked { file, calls: vec![4, 1, 1, 3, 7, 7, 4, 2, 1], lengths: Lengths::of(1, 1), answers: 9 }
}

/// These faults, which are made last to first, since a file must have the byte that is changed in it.
fn check(faults: &[&Fault]) -> Result<(), String> {
    let mut asked = without_faults();
    faults.iter().rev().for_each(|(_, make)| make(&mut asked));
    let numbers: Vec<u32> = faults.iter().map(|fault| fault.0).collect();
    let (lent, mut answers) = (raw::unfilled(asked.lengths), vec![-7; asked.answers]);
    let mut got = lent.clone();
    let words = Words { calls: &asked.calls, list: &[9, 4, 4], moves: &[0, 1, 1] };
    let told = raw::replay(&asked.file, words, &mut got, 8, &mut answers)?;
    let what = format!("a replay with faults {numbers:?}");
    match numbers.first() {
        Some(&number) => {
            differ(&what, &told, &Err(number))?;
            differ(&format!("what was lent, after {what}"), &got, &lent)?;
            differ("its answers", &answers, &vec![-7; asked.answers])
        }
        None => {
            differ(&what, &told, &Ok((3, 1, 1)))?;
            differ("its answers", &answers, &vec![0, 4, 0, 0, 0, 0, 0, -4, 0])?;
            differ("its nodes", &(got.node_table, got.node_bits), &(vec![1, 2, 3], vec![7]))?;
            differ("its output", &(got.output_table, got.output_bits), &(vec![4], vec![1]))
        }
    }
}

/// These faults with each choice of one or none of every list: how many choices.
fn check_with(faults: &mut Vec<&'static Fault>, lists: &'static [&[Fault]]) -> Result<u64, String> {
    let Some((list, rest)) = lists.split_first() else {
        return check(faults).map(|_| 1);
    };
    let mut done = check_with(faults, rest)?;
    for fault in *list {
        faults.push(fault);
        done += check_with(faults, rest)?;
        faults.pop();
    }
    Ok(done)
}

pub fn check_faults() -> Result<u64, String> {
    check_with(&mut Vec::new(), &FAULTS)
}
