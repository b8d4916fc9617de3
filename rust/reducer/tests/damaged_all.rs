//! Damaged binary AIGER files: no crash and no hang, and what is accepted imports to the graph of its ASCII text, which another reader
//! here works out by itself. There are 2,000,000, in parts that are tried side by side.

use std::time::{Duration, Instant};

use reducer::{read, Graph};

mod damage;

use damage::{damaged, Random};

/// A decimal number up to this byte, and what follows it.
fn decimal(bytes: &[u8], end: u8) -> Option<(usize, &[u8])> {
    let digits = bytes.iter().position(|&byte| byte == end)?;
    let word = std::str::from_utf8(&bytes[..digits]).ok()?;
    let plain = word.bytes().all(|byte| byte.is_ascii_digit()) && (word == "0" || !word.starts_with('0'));
    Some((word.parse().ok().filter(|_| plain)?, &bytes[digits + 1..]))
}

fn delta(bytes: &[u8]) -> Option<(usize, &[u8])> {
    let many = 1 + bytes.iter().position(|&byte| byte < 128)?;
    let number =
        bytes[..many].iter().rev().try_fold(0usize, |sum, &byte| Some(sum.checked_mul(128)? + usize::from(byte & 127)));
    Some((number?, &bytes[many..]))
}

/// The file with a header of five counts, where it has up to four more that are all 0, as AIGER 1.9 has them.
fn five_counts(file: &[u8]) -> Vec<u8> {
    let end = file.iter().position(|&byte| byte == b'\n').unwrap_or(file.len());
    let words: Vec<&[u8]> = file[..end].split(|&byte| byte == b' ').collect();
    match (7..=10).contains(&words.len()) && words[6..].iter().all(|word| word == b"0") {
        true => [&words[..6].join(&b' '), &file[end..]].concat(),
        false => file.to_vec(),
    }
}

/// The ASCII text of a file with five counts, where it says one.
fn text_of(file: &[u8]) -> Option<String> {
    let mut rest = file.strip_prefix(b"aig ")?;
    let mut counts = [0; 5];
    for (at, count) in counts.iter_mut().enumerate() {
        (*count, rest) = decimal(rest, if at == 4 { b'\n' } else { b' ' })?;
    }
    let [last, inputs, latches, outputs, gates] = counts;
    let fits = latches == 0 && last == inputs + gates && inputs <= 4_096 && outputs <= 4_096 && gates <= 100_000;
    let mut text = fits.then(|| format!("aag {last} {inputs} 0 {outputs} {gates}\n"))?;
    (1..=inputs).for_each(|at| text += &format!("{}\n", 2 * at));
    for _ in 0..outputs {
        let literal;
        (literal, rest) = decimal(rest, b'\n')?;
        text += &format!("{literal}\n");
    }
    for at in 1..=gates {
        let own = 2 * (inputs + at);
        let (first, after) = delta(rest)?;
        let (second, after) = delta(after)?;
        let x = own.checked_sub(first)?;
        text += &format!("{own} {x} {}\n", x.checked_sub(second)?);
        rest = after;
    }
    Some(text)
}

/// Of so many damaged files: how many were accepted.
fn tried(seed: u64, many: usize) -> usize {
    let mut random = Random(seed);
    let mut accepted = 0;
    for _ in 0..many {
        let file = damaged(&mut random);
        let start = Instant::now();
        let got = read(&file);
        assert!(start.elapsed() < Duration::from_secs(2), "{}", file.escape_ascii());
        let due = text_of(&five_counts(&file)).and_then(|text| Graph::import(text.as_bytes()).ok());
        accepted += usize::from(got.is_ok());
        assert!(got.map(|got| got.graph).ok() == due, "{}", file.escape_ascii());
    }
    accepted
}

fn quarter(seed: u64) {
    let accepted = tried(seed, 500_000);
    assert!((25_000..475_000).contains(&accepted), "{accepted}");
    println!("accepted {accepted} of 500000");
}

#[test]
fn the_first_quarter() {
    quarter(1);
}

#[test]
fn the_second_quarter() {
    quarter(2);
}

#[test]
fn the_third_quarter() {
    quarter(3);
}

#[test]
fn the_last_quarter() {
    quarter(4);
}
