//! ASCII AIGER: texts of ANDs read line by line, and graphs written as ANDs.

use crate::graph::{admit, check_limits, check_room, index_of, turned, Graph, Number, Room};

/// What a word of a line says, if it is a decimal number below 2 to the 32nd without leading zeros.
fn decimal(word: &[u8]) -> Option<u32> {
    let leading_zero = word.len() > 1 && word[0] == b'0';
    if leading_zero || !word.iter().all(u8::is_ascii_digit) {
        return None;
    }
    // No digits and too large a number do not parse.
    std::str::from_utf8(word).ok()?.parse().ok()
}

/// The lines that are left; what no newline ends is none.
struct Lines<'a> {
    rest: &'a [u8],
}

impl Lines<'_> {
    /// The numbers of the next line, just so many.
    fn numbers<const MANY: usize>(&mut self) -> Result<[u32; MANY], Number> {
        let end = self
            .rest
            .iter()
            .position(|&byte| byte == b'\n')
            .ok_or(10u32)?;
        let (line, after) = self.rest.split_at(end);
        self.rest = &after[1..];
        let words: Option<Vec<u32>> = line.split(|&byte| byte == b' ').map(decimal).collect();
        words.and_then(|words| words.try_into().ok()).ok_or(10)
    }
}

/// The graph that a text says, every node free, where so much is lent for it; or the first fault.
pub fn parse(text: &[u8], room: Room) -> Result<Graph, Number> {
    let rest = text.strip_prefix(b"aag ").ok_or(10u32)?;
    let mut lines = Lines { rest };
    let [last, inputs, latches, outputs, ands] = lines.numbers()?;
    if latches != 0 {
        return Err(11);
    }
    if last as u64 != inputs as u64 + ands as u64 {
        return Err(12);
    }
    check_limits(inputs, ands, outputs)?;
    check_room(ands, outputs, room)?;
    for input in 1..=inputs {
        if lines.numbers()? != [2 * input] {
            return Err(12);
        }
    }
    let mut output_table = Vec::new();
    for _ in 0..outputs {
        let [literal] = lines.numbers()?;
        if index_of(literal) > last {
            return Err(5);
        }
        output_table.push(literal);
    }
    let mut node_table = Vec::new();
    for and in inputs + 1..=last {
        let [own, x, y] = lines.numbers()?;
        if own != 2 * and {
            return Err(12);
        }
        if index_of(x) >= and || index_of(y) >= and {
            return Err(5);
        }
        node_table.extend([0, x, y]);
    }
    Ok(Graph {
        inputs,
        nodes: ands,
        outputs,
        node_table,
        output_table,
        locks: vec![0; ands as usize],
    })
}

/// ANDs in the making, by rising number.
struct Ands {
    inputs: u32,
    made: Vec<[u32; 2]>,
}

impl Ands {
    /// The literal of one AND more.
    fn and(&mut self, x: u32, y: u32) -> u32 {
        self.made.push([x, y]);
        2 * (self.inputs + self.made.len() as u32)
    }

    /// The literal that has the value of a majority.
    fn majority(&mut self, x: u32, y: u32, z: u32) -> u32 {
        let first = self.and(turned(y), turned(z));
        let second = self.and(x, turned(first));
        let third = self.and(y, z);
        turned(self.and(turned(second), turned(third)))
    }

    /// The literal that has the value of an XOR.
    fn xor(&mut self, x: u32, y: u32) -> u32 {
        let first = self.and(x, turned(y));
        let second = self.and(turned(x), y);
        turned(self.and(turned(first), turned(second)))
    }
}

/// The text of an admitted graph.
pub fn text_of(g: &Graph) -> String {
    let mut ands = Ands {
        inputs: g.inputs,
        made: Vec::new(),
    };
    // By index: the literal that has its value.
    let mut values: Vec<u32> = (0..=g.inputs).map(|index| 2 * index).collect();
    let named = |values: &[u32], literal: u32| values[index_of(literal) as usize] ^ (literal % 2);
    for node in g.node_indices() {
        let word = |word: usize| named(&values, g.word(node, word));
        let value = if g.is_xor(node) {
            ands.xor(word(0), word(1))
        } else {
            ands.majority(word(0), word(1), word(2))
        };
        values.push(value);
    }
    let many = ands.made.len() as u32;
    let mut lines = vec![format!(
        "aag {} {} 0 {} {many}",
        g.inputs + many,
        g.inputs,
        g.outputs
    )];
    lines.extend((1..=g.inputs).map(|input| (2 * input).to_string()));
    for &literal in &g.output_table[..g.outputs as usize] {
        lines.push(named(&values, literal).to_string());
    }
    for (at, [x, y]) in ands.made.iter().enumerate() {
        lines.push(format!("{} {x} {y}", 2 * (g.inputs + 1 + at as u32)));
    }
    lines.iter().map(|line| line.to_owned() + "\n").collect()
}

/// The text's length, with the buffer's front filled, given so many words of scratch; refused, the buffer is left alone.
pub fn export(g: &Graph, scratch: usize, buffer: &mut [u8]) -> Result<usize, Number> {
    admit(g)?;
    if scratch < g.nodes as usize {
        return Err(8);
    }
    let text = text_of(g);
    if buffer.len() < text.len() {
        return Err(9);
    }
    buffer[..text.len()].copy_from_slice(text.as_bytes());
    Ok(text.len())
}
