//! Damaged binary AIGER files: no crash and no hang, and what is accepted imports to the graph of its ASCII text, which another reader
//! here works out by itself.
//!
//! All 2,000,000: `cargo test --release --manifest-path rust/reducer/Cargo.toml --test damaged -- --ignored`

use std::time::{Duration, Instant};

use reducer::{aiger, Graph};

/// Numbers that a seed gives, by splitmix64.
struct Random(u64);

impl Random {
    fn next(&mut self) -> u64 {
        self.0 = self.0.wrapping_add(0x9e37_79b9_7f4a_7c15);
        let mut z = self.0;
        z = (z ^ z >> 30).wrapping_mul(0xbf58_476d_1ce4_e5b9);
        z = (z ^ z >> 27).wrapping_mul(0x94d0_49bb_1331_11eb);
        z ^ z >> 31
    }

    fn below(&mut self, end: usize) -> usize {
        (self.next() % end.max(1) as u64) as usize
    }
}

/// A binary file of random gates, with symbols and a comment.
fn whole(random: &mut Random) -> Vec<u8> {
    let (inputs, outputs, gates) = (random.below(200), random.below(5), random.below(40));
    let mut bytes = format!("aig {} {inputs} 0 {outputs} {gates}\n", inputs + gates).into_bytes();
    for _ in 0..outputs {
        bytes.extend(format!("{}\n", random.below(2 * (inputs + gates) + 2)).into_bytes());
    }
    for at in 1..=gates {
        let own = 2 * (inputs + at);
        let first = 1 + random.below(own);
        for delta in [first, random.below(own - first + 1)] {
            let mut left = delta;
            while left >= 128 {
                bytes.push(left as u8 | 128);
                left >>= 7;
            }
            bytes.push(left as u8);
        }
    }
    bytes.extend(b"i0 x\no0 sum[0]\nc\nmade by hand\n");
    bytes
}

const NUMBERS: [&str; 9] = ["0", "1", "7", "4096", "4097", "100001", "4294967295", "4294967296", "-1"];

/// One fault: a part cut off, a byte turned, put in or taken out, a run doubled, or a number of the header changed.
fn damage(bytes: &mut Vec<u8>, random: &mut Random) {
    let at = random.below(bytes.len());
    match random.below(7) {
        0 => bytes.truncate(at),
        1 if !bytes.is_empty() => bytes[at] ^= 1 << random.below(8),
        2 => bytes.insert(at, random.next() as u8),
        3 if !bytes.is_empty() => drop(bytes.remove(at)),
        4 => {
            let run = bytes[at..bytes.len().min(at + 1 + random.below(9))].to_vec();
            bytes.splice(at..at, run);
        }
        5 if !bytes.is_empty() => bytes[at] = [0, 10, 13, 32, 127, 128, 255][random.below(7)],
        _ => {
            let end = bytes.iter().position(|&byte| byte == b'\n').unwrap_or(bytes.len());
            let line = String::from_utf8_lossy(&bytes[..end]).into_owned();
            let mut words: Vec<&str> = line.split(' ').collect();
            let which = random.below(words.len());
            words[which] = NUMBERS[random.below(NUMBERS.len())];
            bytes.splice(..end, words.join(" ").into_bytes());
        }
    }
}

/// A decimal number up to this byte, and what follows it.
fn decimal(bytes: &[u8], end: u8) -> Option<(usize, &[u8])> {
    let digits = bytes.iter().position(|&byte| byte == end)?;
    let word = std::str::from_utf8(&bytes[..digits]).ok()?;
    let plain = word.bytes().all(|byte| byte.is_ascii_digit()) && (word == "0" || !word.starts_with('0'));
    Some((word.parse().ok().filter(|_| plain)?, &bytes[digits + 1..]))
}

fn delta(bytes: &[u8]) -> Option<(usize, &[u8])> {
    let many = 1 + bytes.iter().position(|&byte| byte < 128)?;
    let number =
        bytes[..many].iter().rev().try_fold(0usize, |sum, &byte| Some(sum.checked_mul(128)? + usize::from(byte & 127)));
    Some((number?, &bytes[many..]))
}

/// The ASCII text of a file that is none of AIGER 1.9, where it says one.
fn text_of(file: &[u8]) -> Option<String> {
    let mut rest = file.strip_prefix(b"aig ")?;
    let mut counts = [0; 5];
    for (at, count) in counts.iter_mut().enumerate() {
        (*count, rest) = decimal(rest, if at == 4 { b'\n' } else { b' ' })?;
    }
    let [last, inputs, latches, outputs, gates] = counts;
    let fits = latches == 0 && last == inputs + gates && inputs <= 4_096 && outputs <= 4_096 && gates <= 100_000;
    let mut text = fits.then(|| format!("aag {last} {inputs} 0 {outputs} {gates}\n"))?;
    (1..=inputs).for_each(|at| text += &format!("{}\n", 2 * at));
    for _ in 0..outputs {
        let literal;
        (literal, rest) = decimal(rest, b'\n')?;
        text += &format!("{literal}\n");
    }
    for at in 1..=gates {
        let own = 2 * (inputs + at);
        let (first, after) = delta(rest)?;
        let (second, after) = delta(after)?;
        let x = own.checked_sub(first)?;
        text += &format!("{own} {x} {}\n", x.checked_sub(second)?);
        rest = after;
    }
    Some(text)
}

/// Of so many damaged files: how many were accepted.
fn tried(seed: u64, many: usize) -> usize {
    let mut random = Random(seed);
    let mut accepted = 0;
    for _ in 0..many {
        let mut file = whole(&mut random);
        (0..1 + random.below(3)).for_each(|_| damage(&mut file, &mut random));
        if !file.starts_with(b"aig ") {
            file.splice(..0, *b"aig ");
        }
        let start = Instant::now();
        let read = aiger::plain(&file);
        assert!(start.elapsed() < Duration::from_secs(2), "{}", file.escape_ascii());
        // A header of AIGER 1.9 is read too; the other reader then finds the same once its zeros are taken out.
        let head = file.iter().position(|&byte| byte == b'\n').unwrap_or(0);
        let zeros = file[..head].ends_with(b" 0") && file[..head].iter().filter(|&&byte| byte == b' ').count() > 5;
        match (read, text_of(&file).and_then(|text| Graph::import(text.as_bytes()).ok())) {
            (Ok(plain), due) => {
                let graph = Graph::import(&plain.text).expect("what is accepted imports");
                assert!(due.is_some_and(|due| due == graph) || zeros, "{}", file.escape_ascii());
                accepted += 1;
            }
            (Err(_), due) => assert!(due.is_none(), "{}", file.escape_ascii()),
        }
    }
    accepted
}

#[test]
fn a_share() {
    let accepted = tried(1, 40_000);
    assert!((2_000..38_000).contains(&accepted), "{accepted}");
}

#[test]
#[ignore = "takes a minute"]
fn two_million() {
    let accepted = tried(2, 2_000_000);
    assert!((100_000..1_900_000).contains(&accepted), "{accepted}");
    println!("accepted {accepted} of 2000000");
}
