//! Files, whole and damaged, and fields.

use crate::cases::{lengths_near, random_graph};
use crate::exports::packed;
use crate::plain;
use crate::raw;
use crate::shrink::Shrink;
use crate::tables::filled;
use reference::entries;
use reference::file;
use reference::graph::Graph;
use reference::packed::{pack, Lengths};
use reference::random::Random;

/// A file, and how much is lent for it.
#[derive(Clone, Debug)]
pub struct FileCase {
    pub bytes: Vec<u8>,
    pub lengths: Lengths,
}

impl Shrink for FileCase {
    fn smaller(&self) -> Vec<FileCase> {
        let mut all = Vec::new();
        let with = |bytes: Vec<u8>| FileCase { bytes, ..self.clone() };
        for size in [self.bytes.len() / 2, 15, 11, 7, 3, 1] {
            for at in (0..self.bytes.len()).step_by(size.max(1)) {
                let end = (at + size).min(self.bytes.len());
                if size > 0 {
                    all.push(with([&self.bytes[..at], &self.bytes[end..]].concat()));
                }
            }
        }
        for at in 0..self.bytes.len() {
            if self.bytes[at] != 0 {
                let mut bytes = self.bytes.clone();
                bytes[at] = 0;
                all.push(with(bytes));
            }
        }
        all
    }

    fn show(&self) -> String {
        let hex: Vec<String> = self.bytes.iter().map(|byte| format!("{byte:02x}")).collect();
        format!("{:?}; {} bytes: {}\n", self.lengths, self.bytes.len(), hex.join(" "))
    }
}

/// Where each field of a well-formed file starts.
fn starts(bytes: &[u8]) -> Vec<usize> {
    let mut all = Vec::new();
    let mut at = 0;
    while at + 3 <= bytes.len() {
        all.push(at);
        at += 3 + bytes[at + 1] as usize * 256 + bytes[at + 2] as usize;
    }
    all
}

fn swap_fields(random: &mut Random, bytes: &[u8]) -> Vec<u8> {
    let mut ends = starts(bytes);
    ends.push(bytes.len());
    let count = ends.len() as u32 - 1;
    let field = |k: usize| &bytes[ends[k]..ends[k + 1].min(bytes.len())];
    let (a, b) = (random.below(count) as usize, random.below(count) as usize);
    (0..count as usize)
        .flat_map(|k| {
            field(if k == a {
                b
            } else if k == b {
                a
            } else {
                k
            })
            .to_vec()
        })
        .collect()
}

fn damage(random: &mut Random, bytes: &mut Vec<u8>) {
    let length = bytes.len() as u32;
    match random.below(12) {
        0 => bytes.truncate(random.below(length + 1) as usize),
        1 => {
            let more = random.between(1, 20);
            bytes.extend((0..more).map(|_| random.below(256) as u8));
        }
        2 if length > 0 => {
            let at = random.below(length) as usize;
            bytes[at] = random.below(256) as u8;
        }
        3 if length > 0 => {
            let at = random.below(length) as usize;
            bytes[at] ^= 1 << random.below(8);
        }
        4 if length > 3 => *bytes = swap_fields(random, bytes),
        5 if length > 3 => {
            // The tag or the length of a field.
            let all = starts(bytes);
            let at = all[random.below(all.len() as u32) as usize];
            bytes[at + random.below(3) as usize] = random.below(14) as u8;
        }
        6 if length >= 15 => {
            // A number of the head, at, past or near its limit.
            let k = random.below(3) as usize;
            let limit = [4_096u32, 100_000, 4_096][k];
            let number = match random.below(4) {
                0 => limit + 1,
                1 => limit,
                2 => u32::MAX - random.below(3),
                _ => random.below(12),
            };
            bytes[3 + 4 * k..7 + 4 * k].copy_from_slice(&number.to_be_bytes());
        }
        7 if length > 3 => {
            // A field doubled or left out.
            let all = starts(bytes);
            let at = all[random.below(all.len() as u32) as usize];
            let end = (at + 3 + bytes[at + 1] as usize * 256 + bytes[at + 2] as usize).min(bytes.len());
            let field = bytes[at..end].to_vec();
            if random.one_in(2) {
                bytes.drain(at..end);
            } else {
                bytes.splice(at..at, field);
            }
        }
        8 if length >= 4 => {
            // A literal near what is allowed.
            let all = starts(bytes);
            let at = all[random.below(all.len() as u32) as usize] + 3 + 4 * random.below(3) as usize;
            if at + 4 <= bytes.len() {
                bytes[at..at + 4].copy_from_slice(&random.below(40).to_be_bytes());
            }
        }
        9 | 10 if length > 3 => {
            // A lock before some field, mostly the end, at some index.
            let all = starts(bytes);
            let which = if random.one_in(3) { random.below(all.len() as u32) as usize } else { all.len() - 1 };
            let lock = [&[6, 0, 4], &random.below(14).to_be_bytes()[..]].concat();
            bytes.splice(all[which]..all[which], lock);
        }
        _ => {}
    }
}

/// A file, mostly damaged once or twice.
pub fn random_file(seed: u64) -> FileCase {
    let mut random = Random::new(seed);
    let g = random_graph(&mut random, 5, 6, 4);
    damaged_file(&mut random, &g)
}

/// The graph's file, mostly damaged once or twice, and slices of which one may be a word or a byte too short for it.
pub fn damaged_file(random: &mut Random, g: &Graph) -> FileCase {
    let mut bytes = file::file_of(g);
    for _ in 0..random.below(4) {
        damage(random, &mut bytes);
    }
    FileCase { bytes, lengths: lengths_near(random, g.nodes as usize, g.outputs as usize, 12) }
}

fn same<T: PartialEq + std::fmt::Debug>(what: &str, got: &T, due: &T) -> Result<(), String> {
    if got == due {
        Ok(())
    } else {
        Err(format!("{what}: {got:?}, and not {due:?}"))
    }
}

/// Loading, over bits that are all set, and the field call on every end of the file.
pub fn check_file(case: &FileCase) -> Result<(), String> {
    let mut due = raw::unfilled(case.lengths);
    let mut got = due.clone();
    let mut plainly = due.clone();
    let number = entries::load(&case.bytes, &mut due);
    same("loading", &raw::load(&case.bytes, &mut got)?, &number)?;
    same("the tables and locks", &got, &due)?;
    same("plain: loading", &plain::file::load(&case.bytes, filled(&mut plainly)), &number)?;
    (plainly.inputs, plainly.nodes, plainly.outputs) = (due.inputs, due.nodes, due.outputs);
    same("plain: the tables and locks", &plainly, &due)?;
    for at in 0..=case.bytes.len() {
        check_field(&case.bytes[at..])?;
    }
    check_owned(&case.bytes)
}

fn check_field(bytes: &[u8]) -> Result<(), String> {
    let due = match file::field_number(bytes) {
        0 => Ok(file::field(bytes)),
        number => Err(number),
    };
    let got = raw::field(bytes)?;
    same("a field", &got, &due)?;
    if let (Ok(a), Ok(b)) = (got, due) {
        same("where its payload stands", &a.as_ptr(), &b.as_ptr())?;
    }
    Ok(())
}

/// The owned graph of the Rust crate: it finds the room by itself, so that 4 is never met.
fn check_owned(bytes: &[u8]) -> Result<(), String> {
    let nodes = 100_000.min(bytes.len());
    let due = file::parse(bytes, Lengths::of(nodes, 4_096).room());
    match (reducer::Graph::load(bytes), due) {
        (Ok(g), Ok(due)) => {
            let written = g.write();
            same("an owned graph", &packed(g), &pack(&due))?;
            same("its file", &written, &Ok(bytes.to_vec()))
        }
        (Err(refusal), Err(number)) if number != 4 => same("an owned graph's refusal", &refusal.number(), &number),
        // The file says more nodes than it has bytes for: the owned one finds that the bytes end, or a field that is not due.
        (Err(_), Err(_)) => Ok(()),
        (got, due) => Err(format!("an owned graph: {got:?}, and not {due:?}")),
    }
}

/// Every cut of a file, and every single byte changed to each of a few values.
pub fn check_every_byte(seed: u64) -> Result<u64, String> {
    let mut random = Random::new(seed);
    let g = random_graph(&mut random, 3, 3, 2);
    let bytes = file::file_of(&g);
    let lengths =
        Lengths { node_words: 3 * g.nodes as usize + 2, ..Lengths::of(g.nodes as usize + 2, g.outputs as usize + 2) };
    let mut done = 0;
    let mut check = |bytes: Vec<u8>| {
        done += 1;
        crate::shrink::hold(seed, FileCase { bytes, lengths }, &check_file)
    };
    for end in 0..=bytes.len() {
        check(bytes[..end].to_vec())?;
    }
    for at in 0..bytes.len() {
        for byte in [0, 1, 2, 3, 4, 5, 6, 7, 8, 12, 0x7f, 0xff] {
            let mut changed = bytes.clone();
            changed[at] = byte;
            check(changed)?;
        }
    }
    Ok(done)
}
