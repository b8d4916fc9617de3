//! The tagged file: a pass that checks all of it, then one that fills the tables and the locks.

use super::bits::{bit, bits_of, literals, words_for, Gather};
use super::{admit, check_limits, check_room, Filled, Number, Room, View};
use reducer::MARK;

fn four(bytes: &[u8], at: usize) -> u32 {
    u32::from_be_bytes([bytes[at], bytes[at + 1], bytes[at + 2], bytes[at + 3]])
}

fn payload_of(tag: u8) -> usize {
    match tag {
        1 | 2 => 12,
        3 => 8,
        4 | 6 => 4,
        5 => 0,
        _ => usize::MAX,
    }
}

/// The size of the field at the front, where a tag from `low` to `high` is due.
fn due(bytes: &[u8], low: u8, high: u8) -> Result<usize, Number> {
    if bytes.len() < 3 {
        return Err(1);
    }
    let length = bytes[1] as usize * 256 + bytes[2] as usize;
    if bytes[0] < low || bytes[0] > high || payload_of(bytes[0]) != length {
        return Err(2);
    }
    if bytes.len() < 3 + length {
        return Err(1);
    }
    Ok(3 + length)
}

/// The locks and the end, where `last` is the index that the first lock must be above and `most` the last node's.
fn check_end(mut rest: &[u8], mut last: u32, most: u32) -> Result<(), Number> {
    loop {
        let size = due(rest, 5, 6)?;
        if size == 3 {
            return if rest.len() > size { Err(6) } else { Ok(()) };
        }
        let index = four(rest, 3);
        if index <= last || index > most {
            return Err(13);
        }
        last = index;
        rest = &rest[size..];
    }
}

fn check(file: &[u8], room: Room) -> Result<(u32, u32, u32), Number> {
    due(file, 1, 1)?;
    let (inputs, nodes, outputs) = (four(file, 3), four(file, 7), four(file, 11));
    check_limits(inputs, nodes, outputs)?;
    check_room(nodes, outputs, room)?;
    let mut rest = &file[15..];
    for index in inputs + 1..inputs + 1 + nodes {
        let size = due(rest, 2, 3)?;
        if four(rest, 3) / 2 >= index || four(rest, 7) / 2 >= index || size == 15 && four(rest, 11) / 2 >= index {
            return Err(5);
        }
        rest = &rest[size..];
    }
    for _ in 0..outputs {
        let size = due(rest, 4, 4)?;
        if four(rest, 3) / 2 > inputs + nodes {
            return Err(5);
        }
        rest = &rest[size..];
    }
    check_end(rest, inputs, inputs + nodes)?;
    Ok((inputs, nodes, outputs))
}

/// Three literals of a node, its third index being the mark where the field is an XOR's; and what is left.
fn node<'a>(rest: &'a [u8], indices: &mut [u32]) -> (u32, &'a [u8]) {
    let (x, y) = (four(rest, 3), four(rest, 7));
    (indices[0], indices[1]) = (x / 2, y / 2);
    let two = x & 1 | (y & 1) << 1;
    if rest[0] == 3 {
        indices[2] = MARK;
        return (two, &rest[11..]);
    }
    let z = four(rest, 11);
    indices[2] = z / 2;
    (two | (z & 1) << 2, &rest[15..])
}

pub fn load(file: &[u8], lent: Filled) -> Result<(u32, u32, u32), Number> {
    let (inputs, nodes, outputs) = check(file, lent.room())?;
    let (places, outs) = (3 * nodes as usize, outputs as usize);
    let mut rest = &file[15..];
    let mut gathered = Gather::new(&mut lent.node_bits[..words_for(places)]);
    for indices in lent.node_table[..places].chunks_exact_mut(3) {
        let (bits, left) = node(rest, indices);
        gathered.three(bits);
        rest = left;
    }
    gathered.end();
    let mut gathered = Gather::new(&mut lent.output_bits[..words_for(outs)]);
    for index in &mut lent.output_table[..outs] {
        let literal = four(rest, 3);
        *index = literal / 2;
        gathered.one(literal & 1);
        rest = &rest[7..];
    }
    gathered.end();
    lent.locks[..nodes as usize].fill(0);
    while rest[0] == 6 {
        lent.locks[(four(rest, 3) - inputs - 1) as usize] = 1;
        rest = &rest[7..];
    }
    Ok((inputs, nodes, outputs))
}

fn put(buffer: &mut [u8], at: &mut usize, tag: u8, words: &[u32]) {
    let size = 3 + 4 * words.len();
    let field = &mut buffer[*at..*at + size];
    field[0] = tag;
    field[1] = 0;
    field[2] = 4 * words.len() as u8;
    for (bytes, word) in field[3..].chunks_exact_mut(4).zip(words) {
        bytes.copy_from_slice(&word.to_be_bytes());
    }
    *at += size;
}

fn length(g: &View) -> usize {
    let nodes: usize = g.indices().chunks_exact(3).map(|indices| if indices[2] == MARK { 11 } else { 15 }).sum();
    let locked = g.node_locks().iter().filter(|&&byte| byte == 1).count();
    18 + nodes + 7 * (g.outputs as usize + locked)
}

pub fn write(g: &View, buffer: &mut [u8]) -> Result<usize, Number> {
    admit(g)?;
    let length = length(g);
    if buffer.len() < length {
        return Err(9);
    }
    let mut at = 0;
    put(buffer, &mut at, 1, &[g.inputs, g.nodes, g.outputs]);
    for (v, indices) in g.indices().chunks_exact(3).enumerate() {
        let words = literals(indices, bits_of(g.bits(), v));
        if indices[2] == MARK {
            put(buffer, &mut at, 3, &words[..2]);
        } else {
            put(buffer, &mut at, 2, &words);
        }
    }
    for (o, &index) in g.outs().iter().enumerate() {
        put(buffer, &mut at, 4, &[2 * index + bit(g.out_bits(), o)]);
    }
    for (index, &byte) in (g.inputs + 1..).zip(g.node_locks()) {
        if byte == 1 {
            put(buffer, &mut at, 6, &[index]);
        }
    }
    put(buffer, &mut at, 5, &[]);
    Ok(length)
}
