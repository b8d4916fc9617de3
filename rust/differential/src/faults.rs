//! A text with every few of some faults. Its number is known without any implementation: that of the first line with a fault, and in a
//! line the first in the order 10, 11, 12, 3, 4, 5.

use crate::lists::differ;
use crate::texts::{check_text, TextCase};
use reference::aiger;
use reference::packed::Lengths;

const TEXT: [&[&str]; 7] =
    [&["aag", "4", "2", "0", "2", "2"], &["2"], &["4"], &["6"], &["9"], &["6", "4", "3"], &["8", "7", "2"]];

/// A number, and what brings it about: a word of a line, counted from 0, that is changed to another.
struct Fault {
    number: u32,
    line: usize,
    word: usize,
    instead: &'static str,
}

const fn fault(number: u32, line: usize, word: usize, instead: &'static str) -> Fault {
    Fault { number, line, word, instead }
}

static FAULTS: [Fault; 31] = [
    fault(10, 0, 0, "aig"),
    fault(10, 0, 5, "2\r"),
    fault(11, 0, 3, "1"),
    fault(12, 0, 1, "5"),
    fault(12, 0, 2, "7"),
    fault(3, 0, 4, "4097"),
    // There are no such words: a slice is too short instead.
    fault(4, 0, 6, ""),
    fault(4, 0, 7, ""),
    fault(4, 0, 8, ""),
    fault(4, 0, 9, ""),
    fault(10, 1, 0, "02"),
    fault(12, 1, 0, "4"),
    fault(10, 2, 0, "4 "),
    fault(12, 2, 0, "2"),
    fault(10, 3, 0, ""),
    fault(5, 3, 0, "10"),
    fault(10, 4, 0, "4294967296"),
    fault(5, 4, 0, "4294967295"),
    fault(10, 5, 2, "3\t"),
    fault(10, 5, 1, " 4"),
    fault(12, 5, 0, "8"),
    fault(12, 5, 0, "2"),
    fault(5, 5, 1, "6"),
    fault(5, 5, 2, "7"),
    fault(10, 6, 2, "2 0"),
    fault(10, 6, 0, "08"),
    fault(10, 6, 1, "4294967299"),
    fault(12, 6, 0, "9"),
    fault(12, 6, 0, "6"),
    fault(5, 6, 1, "8"),
    fault(5, 6, 2, "4294967295"),
];

/// The text with these faults; none where two of them change one word.
fn case(faults: &[&Fault]) -> Option<TextCase> {
    let mut lines: Vec<Vec<&str>> = TEXT.iter().map(|words| words.to_vec()).collect();
    let (mut lengths, mut changed) = (Lengths::of(2, 2), Vec::new());
    for fault in faults {
        let place = (fault.line, fault.word);
        if changed.contains(&place) {
            return None;
        }
        changed.push(place);
        match lines[fault.line].get_mut(fault.word) {
            Some(word) => *word = fault.instead,
            None if fault.word == 6 => lengths.node_words = 5,
            None if fault.word == 7 => lengths.lock_bytes = 1,
            None if fault.word == 8 => lengths.node_bits = 0,
            None => lengths.output_bits = 0,
        }
    }
    let text = lines.iter().flat_map(|words| (words.join(" ") + "\n").into_bytes()).collect();
    Some(TextCase { text, lengths })
}

fn due(faults: &[&Fault]) -> u32 {
    let order = |number: u32| [10, 11, 12, 3, 4, 5].iter().position(|&known| known == number);
    let first = faults.iter().min_by_key(|fault| (fault.line, order(fault.number)));
    first.map_or(0, |fault| fault.number)
}

fn check(faults: &[&Fault]) -> Result<u64, String> {
    let Some(case) = case(faults) else { return Ok(0) };
    let told = aiger::parse(&case.text, case.lengths.room()).map_or_else(|number| number, |_| 0);
    let what = format!("\"{}\"", case.text.escape_ascii());
    differ(&format!("the reference's number of {what}"), &told, &due(faults))?;
    check_text(&case).map_err(|wrong| format!("{what}: {wrong}"))?;
    Ok(1)
}

/// These faults, and with up to four in all each few of the rest.
fn check_with(faults: &mut Vec<&'static Fault>, rest: &'static [Fault]) -> Result<u64, String> {
    let mut done = check(faults)?;
    if faults.len() < 4 {
        for (at, fault) in rest.iter().enumerate() {
            faults.push(fault);
            done += check_with(faults, &rest[at + 1..])?;
            faults.pop();
        }
    }
    Ok(done)
}

pub fn check_faults() -> Result<u64, String> {
    check_with(&mut Vec::new(), &FAULTS)
}
