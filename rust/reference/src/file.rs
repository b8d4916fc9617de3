//! The tagged file.

use crate::graph::{admit, check_limits, check_room, Graph, Number, Room, MARK};

/// The payload's length that a tag has.
fn length_of(tag: u8) -> Option<usize> {
    match tag {
        1 => Some(12),
        2 => Some(12),
        3 => Some(8),
        4 => Some(4),
        5 => Some(0),
        6 => Some(4),
        _ => None,
    }
}

/// The tag and payload of the field at the front, or the fault.
fn read_field<'a>(bytes: &'a [u8], due: &dyn Fn(u8) -> bool) -> Result<(u8, &'a [u8]), Number> {
    if bytes.len() < 3 {
        return Err(1);
    }
    let tag = bytes[0];
    let length = bytes[1] as usize * 256 + bytes[2] as usize;
    if !due(tag) || length_of(tag) != Some(length) {
        return Err(2);
    }
    if bytes.len() < 3 + length {
        return Err(1);
    }
    Ok((tag, &bytes[3..3 + length]))
}

pub fn field(bytes: &[u8]) -> &[u8] {
    match read_field(bytes, &|_| true) {
        Ok((_, payload)) => payload,
        Err(_) => &[],
    }
}

pub fn field_number(bytes: &[u8]) -> Number {
    match read_field(bytes, &|_| true) {
        Ok(_) => 0,
        Err(number) => number,
    }
}

fn numbers(payload: &[u8]) -> Vec<u32> {
    payload
        .chunks(4)
        .map(|four| four.iter().fold(0u32, |sum, &byte| sum * 256 + byte as u32))
        .collect()
}

/// The graph that a file holds, from front to back, where so much is lent for it; or the first fault.
pub fn parse(file: &[u8], room: Room) -> Result<Graph, Number> {
    let (_, payload) = read_field(file, &|tag| tag == 1)?;
    let mut at = 15;
    let head = numbers(payload);
    let (inputs, nodes, outputs) = (head[0], head[1], head[2]);
    check_limits(inputs, nodes, outputs)?;
    check_room(nodes, outputs, room)?;
    let mut node_table = Vec::new();
    for node in inputs + 1..=inputs + nodes {
        let (tag, payload) = read_field(&file[at..], &|tag| tag == 2 || tag == 3)?;
        at += 3 + payload.len();
        let mut words = numbers(payload);
        if words.iter().any(|literal| literal / 2 >= node) {
            return Err(5);
        }
        if tag == 3 {
            words.push(MARK);
        }
        node_table.extend(words);
    }
    let mut output_table = Vec::new();
    for _ in 0..outputs {
        let (_, payload) = read_field(&file[at..], &|tag| tag == 4)?;
        at += 3 + payload.len();
        let literal = numbers(payload)[0];
        if literal / 2 > inputs + nodes {
            return Err(5);
        }
        output_table.push(literal);
    }
    let mut locks = vec![0; nodes as usize];
    let mut last = inputs;
    loop {
        let (tag, payload) = read_field(&file[at..], &|tag| tag == 5 || tag == 6)?;
        at += 3 + payload.len();
        if tag == 5 {
            break;
        }
        let index = numbers(payload)[0];
        if index <= last || index > inputs + nodes {
            return Err(13);
        }
        locks[(index - inputs - 1) as usize] = 1;
        last = index;
    }
    if at != file.len() {
        return Err(6);
    }
    Ok(Graph {
        inputs,
        nodes,
        outputs,
        node_table,
        output_table,
        locks,
    })
}

/// I, N and O, with tables of literals and locks filled; refused, they are left alone.
pub fn load(
    file: &[u8],
    node_table: &mut [u32],
    output_table: &mut [u32],
    locks: &mut [u8],
) -> Result<(u32, u32, u32), Number> {
    let room = Room {
        node_words: node_table.len(),
        output_words: output_table.len(),
        lock_bytes: locks.len(),
    };
    let g = parse(file, room)?;
    node_table[..g.node_table.len()].copy_from_slice(&g.node_table);
    output_table[..g.output_table.len()].copy_from_slice(&g.output_table);
    locks[..g.locks.len()].copy_from_slice(&g.locks);
    Ok((g.inputs, g.nodes, g.outputs))
}

fn put_field(file: &mut Vec<u8>, tag: u8, words: &[u32]) {
    let length = 4 * words.len();
    file.push(tag);
    file.push((length / 256) as u8);
    file.push((length % 256) as u8);
    for word in words {
        file.extend(word.to_be_bytes());
    }
}

/// The file of an admitted graph.
pub fn file_of(g: &Graph) -> Vec<u8> {
    let mut file = Vec::new();
    put_field(&mut file, 1, &[g.inputs, g.nodes, g.outputs]);
    for node in g.node_indices() {
        let words: Vec<u32> = (0..g.words_of(node))
            .map(|word| g.word(node, word))
            .collect();
        put_field(&mut file, if words.len() == 2 { 3 } else { 2 }, &words);
    }
    for output in 0..g.outputs as usize {
        put_field(&mut file, 4, &[g.output_table[output]]);
    }
    for node in g.node_indices().filter(|&node| g.is_locked(node)) {
        put_field(&mut file, 6, &[node]);
    }
    put_field(&mut file, 5, &[]);
    file
}

/// The file's length, with the buffer's front filled; refused, the buffer is left alone.
pub fn write(g: &Graph, buffer: &mut [u8]) -> Result<usize, Number> {
    admit(g)?;
    let file = file_of(g);
    if buffer.len() < file.len() {
        return Err(9);
    }
    buffer[..file.len()].copy_from_slice(&file);
    Ok(file.len())
}
