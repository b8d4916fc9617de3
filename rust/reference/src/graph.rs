//! The graph in its two tables with its locks, admission, and C.

pub const MARK: u32 = 4_294_967_295;
pub const MOST_INPUTS: u32 = 4_096;
pub const MOST_NODES: u32 = 100_000;
pub const MOST_OUTPUTS: u32 = 4_096;

/// A refusal is its number in the paper's table.
pub type Number = u32;

/// I, N and O with both lent tables and the lent locks, which may be longer (or, refused, shorter) than the graph.
#[derive(Clone, Debug, PartialEq, Eq)]
pub struct Graph {
    pub inputs: u32,
    pub nodes: u32,
    pub outputs: u32,
    pub node_table: Vec<u32>,
    pub output_table: Vec<u32>,
    /// A byte a node in index order: 1 for locked, 0 for free.
    pub locks: Vec<u8>,
}

/// How much is lent for a graph: words of both tables, and bytes of the locks.
#[derive(Clone, Copy, Debug, PartialEq, Eq)]
pub struct Room {
    pub node_words: usize,
    pub output_words: usize,
    pub lock_bytes: usize,
}

impl Room {
    /// Just enough for so many nodes and outputs.
    pub fn of(nodes: usize, outputs: usize) -> Room {
        Room {
            node_words: 3 * nodes,
            output_words: outputs,
            lock_bytes: nodes,
        }
    }
}

/// A place that holds a word: word 0 to 2 of a node, or an output.
#[derive(Clone, Copy, Debug, PartialEq, Eq)]
pub enum Place {
    OfNode(u32, usize),
    OfOutput(usize),
}

pub fn index_of(literal: u32) -> u32 {
    literal / 2
}

pub fn is_odd(literal: u32) -> bool {
    literal % 2 == 1
}

pub fn turned(literal: u32) -> u32 {
    literal ^ 1
}

/// An edge's part of C, the constant's edges among them.
pub fn adds(literal: u32) -> u32 {
    u32::from(is_odd(literal))
}

impl Graph {
    pub fn is_node(&self, index: u32) -> bool {
        index > self.inputs && index - self.inputs <= self.nodes
    }

    /// All nodes by rising index.
    pub fn node_indices(&self) -> std::ops::RangeInclusive<u32> {
        self.inputs + 1..=self.inputs + self.nodes
    }

    fn base(&self, node: u32) -> usize {
        3 * (node - self.inputs - 1) as usize
    }

    pub fn is_locked(&self, node: u32) -> bool {
        self.locks[(node - self.inputs - 1) as usize] == 1
    }

    /// The same graph with these nodes locked too.
    pub fn locked_at(mut self, nodes: &[u32]) -> Graph {
        for node in nodes {
            self.locks[(node - self.inputs - 1) as usize] = 1;
        }
        self
    }

    /// What is lent for it.
    pub fn room(&self) -> Room {
        Room {
            node_words: self.node_table.len(),
            output_words: self.output_table.len(),
            lock_bytes: self.locks.len(),
        }
    }

    pub fn word(&self, node: u32, word: usize) -> u32 {
        self.node_table[self.base(node) + word]
    }

    pub fn set_word(&mut self, node: u32, word: usize, literal: u32) {
        let at = self.base(node) + word;
        self.node_table[at] = literal;
    }

    pub fn is_xor(&self, node: u32) -> bool {
        self.word(node, 2) == MARK
    }

    /// How many literals the node has.
    pub fn words_of(&self, node: u32) -> usize {
        if self.is_xor(node) {
            2
        } else {
            3
        }
    }

    pub fn at(&self, place: Place) -> u32 {
        match place {
            Place::OfNode(node, word) => self.word(node, word),
            Place::OfOutput(output) => self.output_table[output],
        }
    }

    pub fn turn(&mut self, place: Place) {
        match place {
            Place::OfNode(node, word) => {
                let at = self.base(node) + word;
                self.node_table[at] = turned(self.node_table[at]);
            }
            Place::OfOutput(output) => {
                self.output_table[output] = turned(self.output_table[output])
            }
        }
    }

    /// Every edge, the nodes' first.
    pub fn edges(&self) -> Vec<Place> {
        let mut all = Vec::new();
        for node in self.node_indices() {
            for word in 0..self.words_of(node) {
                all.push(Place::OfNode(node, word));
            }
        }
        for output in 0..self.outputs as usize {
            all.push(Place::OfOutput(output));
        }
        all
    }

    /// C, of an admitted graph.
    pub fn c(&self) -> u32 {
        self.edges().iter().map(|&place| adds(self.at(place))).sum()
    }

    pub fn readers(&self, node: u32) -> Vec<Place> {
        self.edges()
            .into_iter()
            .filter(|&place| index_of(self.at(place)) == node)
            .collect()
    }

    /// Every word with its complement bit off, and every mark.
    pub fn wiring(&self) -> Vec<u32> {
        let mut all = Vec::new();
        for &word in &self.node_table[..3 * self.nodes as usize] {
            all.push(if word == MARK { MARK } else { word & !1 });
        }
        for &word in &self.output_table[..self.outputs as usize] {
            all.push(word & !1);
        }
        all
    }
}

pub fn check_limits(inputs: u32, nodes: u32, outputs: u32) -> Result<(), Number> {
    if inputs > MOST_INPUTS || nodes > MOST_NODES || outputs > MOST_OUTPUTS {
        Err(3)
    } else {
        Ok(())
    }
}

pub fn check_room(nodes: u32, outputs: u32, room: Room) -> Result<(), Number> {
    let short = (room.node_words as u64) < 3 * nodes as u64
        || (room.output_words as u64) < outputs as u64
        || (room.lock_bytes as u64) < nodes as u64;
    if short {
        Err(4)
    } else {
        Ok(())
    }
}

pub fn check_literals(g: &Graph) -> Result<(), Number> {
    for node in g.node_indices() {
        for word in 0..3 {
            let literal = g.word(node, word);
            let marked = word == 2 && literal == MARK;
            if !marked && index_of(literal) >= node {
                return Err(5);
            }
        }
    }
    for output in 0..g.outputs as usize {
        if index_of(g.output_table[output]) > g.inputs + g.nodes {
            return Err(5);
        }
    }
    Ok(())
}

pub fn check_locks(g: &Graph) -> Result<(), Number> {
    match g.locks[..g.nodes as usize].iter().all(|&byte| byte <= 1) {
        true => Ok(()),
        false => Err(13),
    }
}

/// 3, 4, 5, 13 in that order.
pub fn admit(g: &Graph) -> Result<(), Number> {
    check_limits(g.inputs, g.nodes, g.outputs)?;
    check_room(g.nodes, g.outputs, g.room())?;
    check_literals(g)?;
    check_locks(g)
}

pub fn complemented_edges(g: &Graph) -> Result<u32, Number> {
    admit(g)?;
    Ok(g.c())
}
