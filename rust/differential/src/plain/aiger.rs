//! ASCII AIGER. Import: a pass that checks every byte, then one that fills the tables, all locks being 0. Export: the exact length from where literals
//! grow by a digit, then one pass that writes.

use super::bits::{bit, bits_of, words_for, Gather};
use super::{admit, check_limits, check_room, Filled, Number, Room, View};
use reducer::MARK;

/// What is left of the text.
struct Reader<'a> {
    text: &'a [u8],
    at: usize,
}

impl Reader<'_> {
    fn digit(&self) -> Option<u64> {
        let byte = *self.text.get(self.at)?;
        byte.is_ascii_digit().then(|| u64::from(byte - b'0'))
    }

    /// The number that is due, and this byte after it.
    fn number(&mut self, end: u8) -> Result<u32, Number> {
        let start = self.at;
        let mut value = 0;
        while let Some(digit) = self.digit() {
            value = 10 * value + digit;
            if value > u64::from(u32::MAX) {
                return Err(10);
            }
            self.at += 1;
        }
        let digits = self.at - start;
        if digits == 0 || digits > 1 && self.text[start] == b'0' || self.text.get(self.at) != Some(&end) {
            return Err(10);
        }
        self.at += 1;
        Ok(value as u32)
    }

    /// The same where it has been checked.
    fn checked(&mut self) -> u32 {
        let mut value = 0;
        while let Some(digit) = self.digit() {
            value = 10 * value + digit;
            self.at += 1;
        }
        self.at += 1;
        value as u32
    }
}

/// I, N and O of the header, and a reader at the line after it.
fn header(text: &[u8], room: Room) -> Result<(u32, u32, u32, Reader<'_>), Number> {
    if !text.starts_with(b"aag ") {
        return Err(10);
    }
    let mut reader = Reader { text, at: 4 };
    let last = reader.number(b' ')?;
    let inputs = reader.number(b' ')?;
    let latches = reader.number(b' ')?;
    let outputs = reader.number(b' ')?;
    let nodes = reader.number(b'\n')?;
    if latches != 0 {
        return Err(11);
    }
    if u64::from(last) != u64::from(inputs) + u64::from(nodes) {
        return Err(12);
    }
    check_limits(inputs, nodes, outputs)?;
    check_room(nodes, outputs, room)?;
    Ok((inputs, nodes, outputs, reader))
}

fn check_lines(reader: &mut Reader, inputs: u32, nodes: u32, outputs: u32) -> Result<(), Number> {
    for input in 1..=inputs {
        if reader.number(b'\n')? != 2 * input {
            return Err(12);
        }
    }
    for _ in 0..outputs {
        if reader.number(b'\n')? / 2 > inputs + nodes {
            return Err(5);
        }
    }
    for index in inputs + 1..=inputs + nodes {
        let own = reader.number(b' ')?;
        let x = reader.number(b' ')?;
        let y = reader.number(b'\n')?;
        if own != 2 * index {
            return Err(12);
        }
        if x / 2 >= index || y / 2 >= index {
            return Err(5);
        }
    }
    Ok(())
}

pub fn import(text: &[u8], lent: Filled) -> Result<(u32, u32, u32), Number> {
    let (inputs, nodes, outputs, mut reader) = header(text, lent.room())?;
    let start = reader.at;
    check_lines(&mut reader, inputs, nodes, outputs)?;
    reader.at = start;
    for _ in 0..inputs {
        reader.checked();
    }
    let (places, outs) = (3 * nodes as usize, outputs as usize);
    let mut gathered = Gather::new(&mut lent.output_bits[..words_for(outs)]);
    for index in &mut lent.output_table[..outs] {
        let literal = reader.checked();
        *index = literal / 2;
        gathered.one(literal & 1);
    }
    gathered.end();
    let mut gathered = Gather::new(&mut lent.node_bits[..words_for(places)]);
    for indices in lent.node_table[..places].chunks_exact_mut(3) {
        reader.checked();
        let (x, y) = (reader.checked(), reader.checked());
        indices.copy_from_slice(&[0, x / 2, y / 2]);
        gathered.three((x & 1) << 1 | (y & 1) << 2);
    }
    gathered.end();
    lent.locks[..nodes as usize].fill(0);
    Ok((inputs, nodes, outputs))
}

/// How many digits a literal or a number of the header has: none reaches 10 to the 6th.
fn width(number: u32) -> usize {
    const TENS: [u32; 5] = [10, 100, 1_000, 10_000, 100_000];
    1 + TENS.iter().map(|&ten| (number >= ten) as usize).sum::<usize>()
}

fn gates_of(indices: &[u32]) -> u32 {
    if indices[2] == MARK {
        3
    } else {
        4
    }
}

/// By number of digits less one: the first index whose literal in the text has more. Literals rise with the index, and 2 k and
/// 2 k + 1 have equally many digits.
fn cuts(g: &View) -> [u32; 5] {
    let mut cuts = [u32::MAX; 5];
    let mut reached = 0;
    let mut index = 0;
    let mut reach = |literal: u32| {
        while reached < 5 && width(literal) > reached + 1 {
            cuts[reached] = index;
            reached += 1;
        }
        index += 1;
    };
    (0..=g.inputs).for_each(|input| reach(2 * input));
    let mut last = g.inputs;
    for indices in g.indices().chunks_exact(3) {
        last += gates_of(indices);
        reach(2 * last);
    }
    cuts
}

/// The digits of the literal that stands for an index in the text.
fn width_of(cuts: &[u32; 5], index: u32) -> usize {
    1 + cuts.iter().map(|&cut| (index >= cut) as usize).sum::<usize>()
}

/// All numbers of the gates are parted or ended by a byte each.
fn gates_length(g: &View, cuts: &[u32; 5]) -> usize {
    let mut sum = 0;
    let mut own = 2 * (g.inputs + 1);
    for indices in g.indices().chunks_exact(3) {
        let of = |k: usize| width_of(cuts, indices[k]);
        let made = |k: u32| width(own + 2 * k);
        sum += if indices[2] == MARK {
            9 + 2 * (of(0) + of(1)) + 2 * (made(0) + made(1)) + made(2)
        } else {
            12 + of(0) + 2 * (of(1) + of(2)) + 2 * (made(0) + made(1) + made(2)) + made(3)
        };
        own += 2 * gates_of(indices);
    }
    sum
}

fn gates(g: &View) -> u32 {
    g.indices().chunks_exact(3).map(gates_of).sum()
}

fn length(g: &View) -> usize {
    let cuts = cuts(g);
    let gates = gates(g);
    let header = 10 + width(g.inputs + gates) + width(g.inputs) + width(g.outputs) + width(gates);
    let inputs: usize = (1..=g.inputs).map(|input| 1 + width(2 * input)).sum();
    let outputs: usize = g.outs().iter().map(|&index| 1 + width_of(&cuts, index)).sum();
    header + inputs + outputs + gates_length(g, &cuts)
}

/// The buffer, and how much of it is written.
struct Writer<'a> {
    buffer: &'a mut [u8],
    at: usize,
}

impl Writer<'_> {
    fn number(&mut self, number: u32, end: u8) {
        let width = width(number);
        let field = &mut self.buffer[self.at..self.at + width + 1];
        let mut rest = number;
        for byte in field[..width].iter_mut().rev() {
            *byte = b'0' + (rest % 10) as u8;
            rest /= 10;
        }
        field[width] = end;
        self.at += width + 1;
    }

    fn gate(&mut self, own: u32, x: u32, y: u32) {
        self.number(own, b' ');
        self.number(x, b' ');
        self.number(y, b'\n');
    }

    fn xor(&mut self, own: u32, x: u32, y: u32) {
        self.gate(own, x, y ^ 1);
        self.gate(own + 2, x ^ 1, y);
        self.gate(own + 4, own + 1, own + 3);
    }

    fn majority(&mut self, own: u32, x: u32, y: u32, z: u32) {
        self.gate(own, y ^ 1, z ^ 1);
        self.gate(own + 2, x, own + 1);
        self.gate(own + 4, y, z);
        self.gate(own + 6, own + 3, own + 5);
    }
}

/// The literal that stands for an index and a bit: a node's own is its last AND's, complemented.
fn literal(inputs: u32, literals: &[u32], index: u32, bit: u32) -> u32 {
    if index > inputs {
        literals[(index - inputs - 1) as usize] ^ bit
    } else {
        2 * index + bit
    }
}

fn write_nodes(g: &View, scratch: &[u32], writer: &mut Writer) {
    let mut own = 2 * (g.inputs + 1);
    for (v, indices) in g.indices().chunks_exact(3).enumerate() {
        let bits = bits_of(g.bits(), v);
        let of = |k: usize| literal(g.inputs, scratch, indices[k], bits >> k & 1);
        if indices[2] == MARK {
            writer.xor(own, of(0), of(1));
        } else {
            writer.majority(own, of(0), of(1), of(2));
        }
        own += 2 * gates_of(indices);
    }
}

pub fn export(g: &View, scratch: &mut [u32], buffer: &mut [u8]) -> Result<usize, Number> {
    admit(g)?;
    if scratch.len() < g.nodes as usize {
        return Err(8);
    }
    let length = length(g);
    if buffer.len() < length {
        return Err(9);
    }
    let mut last = g.inputs;
    for (indices, value) in g.indices().chunks_exact(3).zip(scratch.iter_mut()) {
        last += gates_of(indices);
        *value = 2 * last + 1;
    }
    let gates = last - g.inputs;
    buffer[..4].copy_from_slice(b"aag ");
    let mut writer = Writer { buffer, at: 4 };
    for number in [g.inputs + gates, g.inputs, 0, g.outputs] {
        writer.number(number, b' ');
    }
    writer.number(gates, b'\n');
    for input in 1..=g.inputs {
        writer.number(2 * input, b'\n');
    }
    for (o, &index) in g.outs().iter().enumerate() {
        writer.number(literal(g.inputs, scratch, index, bit(g.out_bits(), o)), b'\n');
    }
    write_nodes(g, scratch, &mut writer);
    Ok(length)
}
