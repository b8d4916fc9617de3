//! Files with fields 06 of every kind. Which number refuses each is known without any implementation.

use crate::files::{check_file, FileCase};
use crate::lists::differ;
use crate::raw;
use reference::packed::Lengths;

/// Indices of the constant, of inputs, of the three nodes, of nothing.
const INDICES: [u32; 9] = [0, 1, 2, 3, 4, 5, 6, 3 + 256, u32::MAX];

/// How many fields 06 a file has at most.
const MOST: usize = 4;

fn field(tag: u8, words: &[u32]) -> Vec<u8> {
    let payload: Vec<u8> = words.iter().flat_map(|word| word.to_be_bytes()).collect();
    [&[tag, 0, payload.len() as u8], &payload[..]].concat()
}

/// Two inputs, three nodes and two outputs.
fn front() -> Vec<Vec<u8>> {
    let nodes = [field(2, &[3, 5, 2]), field(3, &[7, 4]), field(2, &[2, 5, 8])];
    let outputs = [field(4, &[11]), field(4, &[5])];
    [&[field(1, &[2, 3, 2])][..], &nodes, &outputs].concat()
}

/// The number due, and where it is 0 the locks.
fn check(bytes: Vec<u8>, due: u32, locks: [u8; 3]) -> Result<u64, String> {
    let lengths = Lengths { lock_bytes: 5, ..Lengths::of(3, 2) };
    let mut lent = raw::unfilled(lengths);
    let what = format!("the file {:02x?}", bytes);
    let told = raw::load(&bytes, &mut lent)?;
    differ(&what, &told, &if due == 0 { Ok((2, 3, 2)) } else { Err(due) })?;
    let mut bytes_due = raw::unfilled(lengths).locks;
    if due == 0 {
        bytes_due[..3].copy_from_slice(&locks);
    }
    differ(&format!("the locks after {what}"), &lent.locks, &bytes_due)?;
    check_file(&FileCase { bytes, lengths }).map_err(|wrong| format!("{what}: {wrong}"))?;
    Ok(1)
}

/// These locks in order: nodes are 3 to 5, and each lock is above the one before.
fn check_named(named: &[u32]) -> Result<u64, String> {
    let locks: Vec<Vec<u8>> = named.iter().map(|&index| field(6, &[index])).collect();
    let bytes = [front().concat(), locks.concat(), field(5, &[])].concat();
    let nodes = named.iter().all(|index| (3..=5).contains(index));
    let rising = named.windows(2).all(|two| two[0] < two[1]);
    let locked = [3, 4, 5].map(|node| u8::from(named.contains(&node)));
    check(bytes, if nodes && rising { 0 } else { 13 }, locked)
}

fn check_all_named(named: &mut Vec<u32>) -> Result<u64, String> {
    let mut done = check_named(named)?;
    if named.len() < MOST {
        for index in INDICES {
            named.push(index);
            done += check_all_named(named)?;
            named.pop();
        }
    }
    Ok(done)
}

/// A lock before each field of a file with two locks, and after the end.
fn check_places() -> Result<u64, String> {
    let fields = [&front()[..], &[field(6, &[3]), field(6, &[5]), field(5, &[])]].concat();
    let mut done = 0;
    for at in 0..=fields.len() {
        let bytes = [fields[..at].concat(), field(6, &[4]), fields[at..].concat()].concat();
        done += match at {
            // Where the head, a node or an output is due.
            0..=5 => check(bytes, 2, [0; 3])?,
            // Before node 3's lock, after it, and after node 5's.
            6 | 8 => check(bytes, 13, [0; 3])?,
            7 => check(bytes, 0, [1, 1, 1])?,
            _ => check(bytes, 6, [0; 3])?,
        };
    }
    Ok(done)
}

/// Every cut, every other length, and every other tag where a lock may stand.
fn check_forms() -> Result<u64, String> {
    let start = front().concat();
    let whole = [start.clone(), field(6, &[3]), field(6, &[5]), field(5, &[])].concat();
    let mut done = 0;
    for end in 0..whole.len() {
        done += check(whole[..end].to_vec(), 1, [0; 3])?;
    }
    for length in (0..20).chain([0x0104, 0x0400, 0xffff]).filter(|&length| length != 4) {
        let mut bytes = whole.clone();
        bytes[start.len() + 1..start.len() + 3].copy_from_slice(&(length as u16).to_be_bytes());
        done += check(bytes, 2, [0; 3])?;
    }
    for tag in (0..=255).filter(|&tag| tag != 6) {
        let mut bytes = whole.clone();
        bytes[start.len()] = tag;
        done += check(bytes, 2, [0; 3])?;
    }
    Ok(done)
}

pub fn check_fields() -> Result<u64, String> {
    Ok(check_all_named(&mut Vec::new())? + check_places()? + check_forms()?)
}
