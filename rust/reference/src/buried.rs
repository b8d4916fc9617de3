//! Graphs as and-inverter tools leave them: ANDs mostly, with XORs, constants and repeats among them, and majorities written as four
//! ANDs.

use crate::generate::with_locks;
use crate::graph::{index_of, turned, Graph, MARK};
use crate::random::Random;

/// What nodes a graph is made of.
#[derive(Clone, Copy, Debug, PartialEq, Eq)]
enum Sort {
    Ands,
    AndsAndXors,
    /// Those, majorities in four ANDs, plain ones, repeats and constants.
    All,
}

/// A graph in the making.
pub struct Build {
    inputs: u32,
    node_table: Vec<u32>,
}

impl Build {
    pub fn new(inputs: u32) -> Build {
        Build {
            inputs,
            node_table: Vec::new(),
        }
    }

    pub fn nodes(&self) -> u32 {
        self.node_table.len() as u32 / 3
    }

    /// The highest index.
    pub fn last(&self) -> u32 {
        self.inputs + self.nodes()
    }

    /// The literal of one majority more.
    pub fn majority(&mut self, x: u32, y: u32, z: u32) -> u32 {
        self.node_table.extend([x, y, z]);
        2 * self.last()
    }

    pub fn xor(&mut self, x: u32, y: u32) -> u32 {
        self.majority(x, y, MARK)
    }

    pub fn and(&mut self, x: u32, y: u32) -> u32 {
        self.majority(0, x, y)
    }

    /// The literal that has the value of a majority, in four ANDs as an export writes it.
    pub fn hidden(&mut self, x: u32, y: u32, z: u32) -> u32 {
        let first = self.and(turned(y), turned(z));
        let second = self.and(x, turned(first));
        let third = self.and(y, z);
        turned(self.and(turned(second), turned(third)))
    }

    /// The same by XORs: x turned where both others differ from it.
    pub fn hidden_by_xors(&mut self, x: u32, y: u32, z: u32) -> u32 {
        let first = self.xor(x, y);
        let second = self.xor(x, z);
        let both = self.and(first, second);
        self.xor(both, x)
    }

    /// The same as adders have it: x and y, or z where they differ.
    pub fn carry(&mut self, x: u32, y: u32, z: u32) -> u32 {
        let both = self.and(x, y);
        let differ = self.xor(x, y);
        let carried = self.and(differ, z);
        turned(self.and(turned(both), turned(carried)))
    }

    /// The same of an XOR, in three ANDs.
    pub fn hidden_xor(&mut self, x: u32, y: u32) -> u32 {
        let first = self.and(x, turned(y));
        let second = self.and(turned(x), y);
        turned(self.and(turned(first), turned(second)))
    }

    /// The graph with these outputs, every node free.
    pub fn graph(self, output_table: Vec<u32>) -> Graph {
        let nodes = self.nodes();
        Graph {
            inputs: self.inputs,
            nodes,
            outputs: output_table.len() as u32,
            node_table: self.node_table,
            output_table,
            locks: vec![0; nodes as usize],
        }
    }

    /// Up to four nodes more, of three literals.
    fn grow(&mut self, random: &mut Random, sort: Sort, [x, y, z]: [u32; 3]) {
        let which = match sort {
            Sort::Ands => 0,
            Sort::AndsAndXors => [0, 0, 1][random.below(3) as usize],
            Sort::All => random.below(9),
        };
        match which {
            0 => self.and(x, y),
            1 => self.xor(x, y),
            2 => self.majority(x, y, x ^ random.bit()),
            3 => self.majority(random.bit(), x, random.bit()),
            4 => self.majority(x, y, z),
            5 => self.hidden_by_xors(x, y, z),
            6 => self.carry(x, y, z),
            _ => self.hidden(x, y, z),
        };
    }
}

/// A literal of an index below `end`: mostly one of the last `window`, else an input or the constant.
fn literal(random: &mut Random, inputs: u32, end: u32, window: u32) -> u32 {
    let index = if random.one_in(4) {
        random.below(inputs + 1)
    } else {
        random.between(end.saturating_sub(window), end - 1)
    };
    2 * index + random.bit()
}

/// Three such literals; tried again, a few times, while two of them name the same index or one names the constant.
fn three(random: &mut Random, inputs: u32, end: u32, window: u32) -> [u32; 3] {
    let mut three = [0; 3];
    for _ in 0..random.between(1, 6) {
        three = three.map(|_| literal(random, inputs, end, window));
        let [x, y, z] = three.map(index_of);
        if x != y && x != z && y != z && ![x, y, z].contains(&0) {
            break;
        }
    }
    three
}

/// An admitted graph with no, some or all nodes locked. Windows of a few literals make it deep.
pub fn buried(random: &mut Random, most_inputs: u32, nodes: u32, most_outputs: u32) -> Graph {
    let inputs = random.between(0, most_inputs);
    let sort = [Sort::Ands, Sort::AndsAndXors, Sort::All, Sort::All][random.below(4) as usize];
    let window = [3, 5, 9, 100][random.below(4) as usize];
    let mut build = Build::new(inputs);
    while build.nodes() < nodes {
        let end = build.last() + 1;
        let three = three(random, inputs, end, window);
        build.grow(random, sort, three);
    }
    let end = build.last() + 1;
    let outputs = random.below(most_outputs + 1);
    let outputs = (0..outputs)
        .map(|_| random.below(2 * end))
        .collect::<Vec<u32>>();
    let g = build.graph(outputs);
    with_locks(random, g)
}
