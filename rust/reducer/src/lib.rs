//! The inversion reducer for majority and XOR graphs, for Rust.
//!
//! Every function here calls one entry of the proved library. What the header of that library asks of a C caller
//! (pointers that are never null, slices that do not overlap) holds here by Rust's own rules, so that no call can
//! go wrong: it answers, or it is refused and has changed nothing.
//!
//! A [`Graph`] owns its tables and locks and lends what each call needs:
//!
//! ```no_run
//! let file = std::fs::read("graph.bin").unwrap();
//! let mut graph = reducer::Graph::load(&file).unwrap();
//! let settled = graph.settle().unwrap();
//! println!("{} complemented edges, before {}", settled.after, settled.before);
//! std::fs::write("settled.bin", graph.write().unwrap()).unwrap();
//! ```
//!
//! [`Graph::import`] and [`Graph::export`] do the same for ASCII AIGER, the text of and-inverter tools. [`read`] takes a file of either
//! form, AIGER as tools write it, binary or not, and tells the place where it refuses one, or what to run first on a file of another kind
//! ([`looks_like`]); the modules [`aiger`], [`names`], [`place`] and [`verilog`] have its parts.
//!
//! A node that is already laid out is locked ([`Graph::lock`]): no call turns it, and its file says so.
//!
//! [`Graph::many`] makes moves that the caller has chosen, all of them or none.
//!
//! [`Graph::find`] finds the majorities that and-inverter tools have hidden in ANDs, and [`Graph::majority`] makes a node one.
//!
//! [`Graph::resistive_call`] chooses a tree's moves for memories of resistive cells, which want majorities with just one complemented input.
//!
//! A [`Class`] settles graphs one after another and sums up their figures.
//!
//! [`Graph::compare`] tells the moves that lead from one graph to another.
//!
//! [`Graph::assignment_for`] finds the least assignment that gives a wanted output pattern.
//!
//! [`Graph::join`] puts two graphs together, the outputs of one driving the inputs of the other.
//!
//! A literal, as a file has it, is twice an index, and one more if it is complemented: [`Graph::new`] takes a graph so, and
//! [`Graph::node`] and [`Graph::output`] give it so. Its tables are kept as they are lent, indices and complement bits apart.
//!
//! The module [`lent`] has the same calls on slices that the caller lends, without a heap.

use std::fmt;

pub mod aiger;
pub mod lent;
mod looks;
pub mod names;
mod node;
pub mod place;
pub mod raw;
mod read;
pub mod verilog;

pub use looks::looks_like;
pub use names::Names;
pub use node::Node;
pub use place::{Place, Refused};
pub use read::{read, Format, Read};

/// What stands in the node table as the third index of an XOR, and in lists of literals as its third literal.
pub const MARK: u32 = 4_294_967_295;
/// The most inputs that a graph may have.
pub const MOST_INPUTS: u32 = 4_096;
/// The most nodes that a graph may have.
pub const MOST_NODES: u32 = 100_000;
/// The most outputs that a graph may have.
pub const MOST_OUTPUTS: u32 = 4_096;

/// The most inputs for which an assignment is looked for.
pub const MOST_SEARCHED: u32 = 16;
/// The words of the record of a class.
pub const CLASS_WORDS: usize = 86;
/// The most graphs that a class may have.
pub const MOST_GRAPHS: u64 = 1_000;

/// Why a call is refused. A refused call has changed nothing that it was lent.
#[derive(Clone, Copy, Debug, PartialEq, Eq, Hash)]
#[repr(u32)]
#[non_exhaustive]
pub enum Refusal {
    /// Fewer bytes are left than the due field's head of 3 bytes, or than its payload.
    MissingBytes = 1,
    /// A tag or a length is not the one due.
    WrongField = 2,
    /// There are too many inputs, nodes or outputs, or the record of a class is full or holds what no class comes to.
    OverLimit = 3,
    /// A lent table, its words of bits, slice of locks, input or result slice or record is too short, or there are fewer moves than nodes or
    /// wanted bytes than outputs.
    ShortSlice = 4,
    /// A literal names an index that is not allowed there, or a bit is set at a mark or past the last literal in the word that it is in.
    BadLiteral = 5,
    /// There are bytes after the end field.
    ExtraBytes = 6,
    /// That is not a node (in a list too), not a root (tree call, preview, resistive call), no such word of the node, or not three lower
    /// indices that rise from above 0 (majority call).
    NoSuchNode = 7,
    /// The scratch is too short.
    ShortScratch = 8,
    /// The buffer to write to is too short.
    ShortBuffer = 9,
    /// A header of AIGER text has no "aag", or a line lacks its decimal numbers.
    BadText = 10,
    /// The AIGER text has latches.
    HasLatches = 11,
    /// M is not I + A, or inputs or gate numbers do not rise by 2 from literal 2.
    WrongNumbering = 12,
    /// A lock byte is above 1, or a field 06 of a file has an index that is no node's or not above the one before.
    BadLock = 13,
    /// An index of a list of nodes is not above the one before.
    NotRising = 14,
    /// A move number is one that the node's kind lacks.
    NoSuchMove = 15,
    /// A move other than 0 is at a locked node, or a majority call at one.
    MoveOfLocked = 16,
    /// There are more than 16 inputs, where an assignment is looked for.
    ManyInputs = 17,
    /// A wanted byte is above 2.
    BadWanted = 18,
    /// The first graph's outputs and the second's inputs differ in number.
    StagesDiffer = 19,
}

impl Refusal {
    /// The refusal's number, 1 to 19.
    #[must_use]
    pub fn number(self) -> u32 {
        self as u32
    }

    /// The refusal that has this number, if there is one.
    #[must_use]
    pub fn from_number(number: u32) -> Option<Refusal> {
        match number {
            1 => Some(Refusal::MissingBytes),
            2 => Some(Refusal::WrongField),
            3 => Some(Refusal::OverLimit),
            4 => Some(Refusal::ShortSlice),
            5 => Some(Refusal::BadLiteral),
            6 => Some(Refusal::ExtraBytes),
            7 => Some(Refusal::NoSuchNode),
            8 => Some(Refusal::ShortScratch),
            9 => Some(Refusal::ShortBuffer),
            10 => Some(Refusal::BadText),
            11 => Some(Refusal::HasLatches),
            12 => Some(Refusal::WrongNumbering),
            13 => Some(Refusal::BadLock),
            14 => Some(Refusal::NotRising),
            15 => Some(Refusal::NoSuchMove),
            16 => Some(Refusal::MoveOfLocked),
            17 => Some(Refusal::ManyInputs),
            18 => Some(Refusal::BadWanted),
            19 => Some(Refusal::StagesDiffer),
            _ => None,
        }
    }
}

impl fmt::Display for Refusal {
    fn fmt(&self, f: &mut fmt::Formatter<'_>) -> fmt::Result {
        let why = match self {
            Refusal::MissingBytes => "the bytes end within a field",
            Refusal::WrongField => "a field has not the tag or the length that is due",
            Refusal::OverLimit => "there are too many inputs, nodes, outputs or graphs of a class",
            Refusal::ShortSlice => "a table or a slice of locks, inputs, results or moves is too short",
            Refusal::BadLiteral => "a literal names an index that is not allowed there",
            Refusal::ExtraBytes => "there are bytes after the end field",
            Refusal::NoSuchNode => "there is no such node, root or word",
            Refusal::ShortScratch => "the scratch is too short",
            Refusal::ShortBuffer => "the buffer is too short",
            Refusal::BadText => "the header has no \"aag\", or a line lacks its decimal numbers",
            Refusal::HasLatches => "there are latches",
            Refusal::WrongNumbering => "M is not I + A, or inputs or gate numbers do not rise by 2 from literal 2",
            Refusal::BadLock => "a lock byte is above 1, or a lock of a file is at no node or not above the one before",
            Refusal::NotRising => "an index of the list is not above the one before",
            Refusal::NoSuchMove => "a node of this kind has no such move",
            Refusal::MoveOfLocked => "a move other than 0 is at a locked node",
            Refusal::ManyInputs => "there are more than 16 inputs",
            Refusal::BadWanted => "a wanted byte is above 2",
            Refusal::StagesDiffer => "the first graph's outputs and the second's inputs differ in number",
        };
        write!(f, "refused {}: {why}", self.number())
    }
}

impl std::error::Error for Refusal {}

/// How many inputs, nodes and outputs a graph has.
#[derive(Clone, Copy, Debug, Default, PartialEq, Eq, Hash)]
pub struct Size {
    pub inputs: u32,
    pub nodes: u32,
    pub outputs: u32,
}

/// What a call saves, in two numbers, of which either may be below 0: complemented edges before less those after.
#[derive(Clone, Copy, Debug, Default, PartialEq, Eq, Hash)]
pub struct Saving {
    /// Among the words of the nodes that the call names: the node, both nodes of a pair, or all nodes of a tree.
    pub own: i64,
    /// Among all other edges: words of other nodes, and outputs.
    pub others: i64,
}

impl Saving {
    /// Among all edges.
    #[must_use]
    pub fn total(self) -> i64 {
        self.own + self.others
    }
}

/// What settling answers.
#[derive(Clone, Copy, Debug, PartialEq, Eq, Hash)]
pub struct Settled {
    /// The rounds made, with the last one, which saved nothing.
    pub rounds: u32,
    /// The complemented edges before.
    pub before: u32,
    /// The complemented edges after.
    pub after: u32,
    /// What its calls saved, each among the words of the nodes that it names.
    pub own: i64,
    /// What its calls saved, each among all other edges.
    pub others: i64,
}

/// What the record of a class tells of its graphs: sums over all of them, or over the latest 16.
#[derive(Clone, Copy, Debug, Default, PartialEq, Eq, Hash)]
pub struct Figures {
    /// How many graphs these are.
    pub graphs: u64,
    /// Their complemented edges before settling.
    pub before: u64,
    /// Their complemented edges after it.
    pub after: u64,
    /// The rounds made.
    pub rounds: u64,
    /// Their cells before, at 13 an inverter, 5 a majority and 12 an XOR.
    pub cells_before: u64,
    /// Their cells after.
    pub cells_after: u64,
    /// By how much the complemented edges fell.
    pub fall: i64,
    /// The complemented edges before, of which they fell.
    pub total_before: i64,
}

/// The record of a class: up to [`MOST_GRAPHS`] graphs settled one after another.
///
/// The words are the record's own. They may be kept and taken up again; what no class comes to is refused.
#[derive(Clone, Debug, PartialEq, Eq)]
pub struct Class {
    pub words: [u64; CLASS_WORDS],
}

impl Default for Class {
    fn default() -> Class {
        Class::new()
    }
}

impl Class {
    /// A class without graphs.
    #[must_use]
    pub fn new() -> Class {
        Class { words: [0; CLASS_WORDS] }
    }

    /// Settles a graph and enters its figures. A refused graph is not entered.
    pub fn enter(&mut self, graph: &mut Graph) -> Result<Settled, Refusal> {
        let mut scratch = graph.scratch();
        lent::class(
            graph.size,
            &graph.node_table,
            &mut graph.node_bits,
            &graph.output_table,
            &mut graph.output_bits,
            &graph.locks,
            &mut scratch,
            &mut self.words,
        )
    }

    /// The figures of all graphs that were entered.
    pub fn all(&self) -> Result<Figures, Refusal> {
        lent::class_figures(&self.words, false)
    }

    /// The figures of the latest 16 graphs, or of all while they are fewer.
    pub fn latest(&self) -> Result<Figures, Refusal> {
        lent::class_figures(&self.words, true)
    }
}

/// What a majority call answers.
#[must_use = "a node may not have been made a majority"]
#[derive(Clone, Copy, Debug, PartialEq, Eq, Hash)]
#[non_exhaustive]
pub enum Majority {
    /// The node is now one majority of the three.
    Made,
    /// Over the three its value is no majority's, with words complemented somehow; nothing has changed.
    Not,
    /// Some way from the node down to an input misses all three; nothing has changed.
    NotCovered,
}

impl Majority {
    /// The answer that has this number.
    pub(crate) fn of(number: u32) -> Majority {
        match number {
            0 => Majority::Made,
            1 => Majority::Not,
            _ => Majority::NotCovered,
        }
    }
}

/// Where a graph first differs from another so that no moves lead from one to the other. Places of tables count from 0.
#[derive(Clone, Copy, Debug, PartialEq, Eq, Hash)]
pub enum Difference {
    /// In the number of inputs.
    Inputs,
    /// In the number of nodes.
    Nodes,
    /// In the number of outputs.
    Outputs,
    /// In the index at this place of the node table: another wiring or kind.
    NodeIndex(usize),
    /// In the index at this place of the output table.
    OutputIndex(usize),
    /// In the complement bit at this place of the node table, which no moves explain where all places before it agree.
    NodeBit(usize),
    /// In the complement bit at this place of the output table, which no moves explain.
    OutputBit(usize),
}

impl Difference {
    /// What the two numbers of a comparison say; none where moves lead from one graph to the other.
    pub(crate) fn of([what, at]: [u32; 2]) -> Option<Difference> {
        match (what, at) {
            (0, _) => None,
            (1, 0) => Some(Difference::Inputs),
            (1, 1) => Some(Difference::Nodes),
            (1, _) => Some(Difference::Outputs),
            (2, place) => Some(Difference::NodeIndex(place as usize)),
            (3, place) => Some(Difference::OutputIndex(place as usize)),
            (4, place) => Some(Difference::NodeBit(place as usize)),
            (_, place) => Some(Difference::OutputBit(place as usize)),
        }
    }
}

impl fmt::Display for Difference {
    fn fmt(&self, f: &mut fmt::Formatter<'_>) -> fmt::Result {
        let table = |f: &mut fmt::Formatter<'_>, what: &str, of: &str, place: usize| {
            write!(f, "the {what} at place {place} of the {of} table differs")
        };
        match *self {
            Difference::Inputs => write!(f, "the numbers of inputs differ"),
            Difference::Nodes => write!(f, "the numbers of nodes differ"),
            Difference::Outputs => write!(f, "the numbers of outputs differ"),
            Difference::NodeIndex(place) => table(f, "index", "node", place),
            Difference::OutputIndex(place) => table(f, "index", "output", place),
            Difference::NodeBit(place) => table(f, "complement bit", "node", place),
            Difference::OutputBit(place) => table(f, "complement bit", "output", place),
        }
    }
}

/// What a comparison of two graphs tells.
#[must_use]
#[derive(Clone, Debug, PartialEq, Eq, Hash)]
pub enum Compared {
    /// The moves that lead from the first to the second, a byte a node by rising index.
    Moves(Vec<u8>),
    /// No moves do, as this shows first.
    Differ(Difference),
}

/// What a preview tells of a tree call that is not made.
#[must_use]
#[derive(Clone, Debug, PartialEq, Eq, Hash)]
pub struct Preview {
    /// What the tree call would save.
    pub saving: Saving,
    /// A byte a node by rising index: its move in the tree call, and 0 outside the tree and at locked nodes.
    pub moves: Vec<u8>,
}

/// A call of a list of calls.
#[derive(Clone, Copy, Debug, PartialEq, Eq, Hash)]
#[non_exhaustive]
pub enum Call {
    /// Of this node.
    Node(u32),
    /// Of this node, and of the one that its word (1 to 3) names.
    Pair(u32, u32),
    /// Of the tree of this root.
    Tree(u32),
    Settle,
    /// Of many nodes: so many entries, from a start on, of the list and the moves that the replay is given.
    Many {
        start: u32,
        count: u32,
    },
    /// Of this node, and of the three indices from a start on of the list that the replay is given.
    Majority {
        node: u32,
        start: u32,
    },
    Find,
    /// Of the tree of this root, for resistive memory.
    Resistive(u32),
}

impl Call {
    /// The three words that say the call: kind, node and word; of many moves kind, start and count; of a majority call kind, node and
    /// start.
    #[must_use]
    pub fn words(self) -> [u32; 3] {
        match self {
            Call::Node(node) => [0, node, 0],
            Call::Pair(node, word) => [1, node, word],
            Call::Tree(root) => [2, root, 0],
            Call::Settle => [3, 0, 0],
            Call::Many { start, count } => [4, start, count],
            Call::Majority { node, start } => [5, node, start],
            Call::Find => [6, 0, 0],
            Call::Resistive(root) => [7, root, 0],
        }
    }
}

/// What a call of a list answers.
#[must_use]
#[derive(Clone, Copy, Debug, PartialEq, Eq, Hash)]
#[non_exhaustive]
pub enum Told {
    /// What it saved; many moves save it all as own.
    Saved(Saving),
    /// Of a majority call.
    Majority(Majority),
    /// Of the finder: how many nodes there are then.
    Found(u32),
}

impl Told {
    /// What the two numbers of a call's answer say.
    fn of(call: Call, own: i64, others: i64) -> Told {
        match call {
            Call::Majority { .. } => Told::Majority(Majority::of(own as u32)),
            Call::Find => Told::Found(own as u32),
            _ => Told::Saved(Saving { own, others }),
        }
    }
}

/// A graph after a list of calls, and what each of them answered or was refused by.
pub type Replayed = (Graph, Vec<Result<Told, Refusal>>);

/// Why a replay is refused.
#[derive(Clone, Copy, Debug, PartialEq, Eq, Hash)]
#[non_exhaustive]
pub enum ReplayRefusal {
    /// The words of the list are not three a call.
    LeftOver,
    /// A call of the list has a kind above 7.
    UnknownKind,
    /// A many call's part, or a majority call's triple, reaches past the end of the list of nodes.
    PartOutside,
    /// The slice of answers is too short, or the file is refused.
    Refused(Refusal),
}

impl fmt::Display for ReplayRefusal {
    fn fmt(&self, f: &mut fmt::Formatter<'_>) -> fmt::Result {
        let (number, why) = match self {
            ReplayRefusal::LeftOver => (101, "words of the list are left over: they are not three a call"),
            ReplayRefusal::UnknownKind => (102, "a call of the list has a kind that is none"),
            ReplayRefusal::PartOutside => {
                (105, "a many call's part, or a majority call's triple, reaches past the end of the list")
            }
            ReplayRefusal::Refused(refusal) => return refusal.fmt(f),
        };
        write!(f, "refused {number}: {why}")
    }
}

impl std::error::Error for ReplayRefusal {
    fn source(&self) -> Option<&(dyn std::error::Error + 'static)> {
        match self {
            ReplayRefusal::Refused(refusal) => Some(refusal),
            _ => None,
        }
    }
}

/// How many words of complement bits so many literals have.
#[must_use]
pub fn bit_words(literals: usize) -> usize {
    literals.div_ceil(64)
}

/// How many words of scratch the tree call, its preview, the resistive call, settling, a class, the majority call and the finder need for
/// so many nodes.
#[must_use]
pub fn scratch_words(nodes: u32) -> usize {
    8 * nodes as usize
}

/// How many bytes are enough for the file of a graph of this size, all its nodes being locked.
#[must_use]
pub fn file_bytes(size: Size) -> usize {
    18 + 22 * size.nodes as usize + 7 * size.outputs as usize
}

/// How many bytes are enough for the ASCII AIGER text of a graph of this size.
#[must_use]
pub fn text_bytes(size: Size) -> usize {
    30 + 5 * size.inputs as usize + 84 * size.nodes as usize + 7 * size.outputs as usize
}

/// A graph that owns its tables and locks, in the form in which the module [`lent`] takes them.
///
/// The fields may be set to anything: a call on what is no graph is refused.
#[derive(Clone, Debug, Default, PartialEq, Eq)]
pub struct Graph {
    pub size: Size,
    /// Three indices a node, the third of an XOR being [`MARK`].
    pub node_table: Vec<u32>,
    /// Their complement bits: that of place j at bit j % 64 of word j / 64.
    pub node_bits: Vec<u64>,
    /// One index an output.
    pub output_table: Vec<u32>,
    /// Their complement bits.
    pub output_bits: Vec<u64>,
    /// A byte a node: 1 for locked, 0 for free. [`Graph::lock`] and [`Graph::unlock`] change them, and [`Graph::find`] moves them with their
    /// nodes.
    pub locks: Vec<u8>,
}

/// What the head of a file says at this place, at most `most`; 0 where the file is too short to say it.
fn head_number(file: &[u8], at: usize, most: u32) -> usize {
    let bytes = file.get(at..at + 4).and_then(|four| four.try_into().ok());
    bytes.map_or(0, |four| u32::from_be_bytes(four).min(most)) as usize
}

/// What the header of AIGER text says as its number `at` from 0, at most `most`; 0 where it says none.
fn header_number(text: &[u8], at: usize, most: u32) -> usize {
    // Longer than this is no header that is accepted.
    let front = &text[..text.len().min(64)];
    let line = front.split(|&byte| byte == b'\n').next().unwrap_or(front);
    let word = line.split(|&byte| byte == b' ').nth(1 + at).and_then(|word| std::str::from_utf8(word).ok());
    let number: u32 = word.and_then(|word| word.parse().ok()).unwrap_or(0);
    number.min(most) as usize
}

/// Makes a table of literals one of indices, and gives its complement bits.
fn packed(table: &mut [u32]) -> Vec<u64> {
    let mut bits = vec![0; bit_words(table.len())];
    for (place, word) in table.iter_mut().enumerate().filter(|(_, word)| **word != MARK) {
        bits[place / 64] |= u64::from(*word % 2) << (place % 64);
        *word /= 2;
    }
    bits
}

/// The first so many literals of a table.
fn literals(table: &[u32], bits: &[u64], many: usize) -> Result<Vec<u32>, Refusal> {
    (0..many).map(|place| lent::literal(table, bits, place)).collect()
}

impl Graph {
    /// The graph of these literals, three a node and one an output, every node free. The third literal of an XOR is [`MARK`]; what is
    /// left over of less than three makes no node.
    #[must_use]
    pub fn new(inputs: u32, mut node_literals: Vec<u32>, mut output_literals: Vec<u32>) -> Graph {
        let nodes = node_literals.len() / 3;
        node_literals.truncate(3 * nodes);
        // More than a number can say is over the limit all the same.
        let count = |many: usize| u32::try_from(many).unwrap_or(u32::MAX);
        let size = Size { inputs, nodes: count(nodes), outputs: count(output_literals.len()) };
        let (node_bits, output_bits) = (packed(&mut node_literals), packed(&mut output_literals));
        let (node_table, output_table) = (node_literals, output_literals);
        Graph { size, node_table, node_bits, output_table, output_bits, locks: vec![0; nodes] }
    }

    /// A graph with room for so many nodes and outputs, all of it 0.
    fn with_room(nodes: usize, outputs: usize) -> Graph {
        Graph {
            size: Size::default(),
            node_table: vec![0; 3 * nodes],
            node_bits: vec![0; bit_words(3 * nodes)],
            output_table: vec![0; outputs],
            output_bits: vec![0; bit_words(outputs)],
            locks: vec![0; nodes],
        }
    }

    /// Which node, from 0, has this index.
    fn place_of(&self, index: u32) -> Result<usize, Refusal> {
        let place = index.checked_sub(self.size.inputs).and_then(|above| above.checked_sub(1));
        place.filter(|&place| place < self.size.nodes).map(|place| place as usize).ok_or(Refusal::NoSuchNode)
    }

    /// The kind and the literals of the node of this index. Refused are an index that is no node's, tables that are too short for it,
    /// and what no literal says.
    pub fn node(&self, index: u32) -> Result<Node, Refusal> {
        let first = 3 * self.place_of(index)?;
        let at = |place| lent::literal(&self.node_table, &self.node_bits, place);
        match [at(first)?, at(first + 1)?, at(first + 2)?] {
            [MARK, ..] | [_, MARK, _] => Err(Refusal::BadLiteral),
            [x, y, MARK] => Ok(Node::Xor([x, y])),
            three => Ok(Node::Majority(three)),
        }
    }

    /// The literal of the output at this place, from 0, as [`Graph::evaluate`] has its words.
    pub fn output(&self, place: usize) -> Result<u32, Refusal> {
        if place >= self.size.outputs as usize {
            return Err(Refusal::NoSuchNode);
        }
        match lent::literal(&self.output_table, &self.output_bits, place)? {
            MARK => Err(Refusal::BadLiteral),
            literal => Ok(literal),
        }
    }

    /// The literals of all nodes, as [`Graph::new`] takes them.
    pub fn node_literals(&self) -> Result<Vec<u32>, Refusal> {
        literals(&self.node_table, &self.node_bits, 3 * self.size.nodes as usize)
    }

    /// The literals of all outputs, as [`Graph::new`] takes them.
    pub fn output_literals(&self) -> Result<Vec<u32>, Refusal> {
        literals(&self.output_table, &self.output_bits, self.size.outputs as usize)
    }

    /// Where the lock of the node of this index stands.
    fn lock_place(&self, index: u32) -> Result<usize, Refusal> {
        let place = self.place_of(index)?;
        // The field can have been set to fewer bytes.
        (place < self.locks.len()).then_some(place).ok_or(Refusal::ShortSlice)
    }

    /// Locks the node of this index: from then on no call turns it. An index that is no node's is refused, and nothing has changed.
    pub fn lock(&mut self, index: u32) -> Result<(), Refusal> {
        let place = self.lock_place(index)?;
        self.locks[place] = 1;
        Ok(())
    }

    /// Frees the node of this index, locked or not.
    pub fn unlock(&mut self, index: u32) -> Result<(), Refusal> {
        let place = self.lock_place(index)?;
        self.locks[place] = 0;
        Ok(())
    }

    /// Whether the node of this index is locked.
    pub fn is_locked(&self, index: u32) -> Result<bool, Refusal> {
        match self.locks[self.lock_place(index)?] {
            0 => Ok(false),
            1 => Ok(true),
            _ => Err(Refusal::BadLock),
        }
    }

    /// How many nodes are locked.
    #[must_use]
    pub fn locked(&self) -> u32 {
        let nodes = self.locks.iter().take(self.size.nodes as usize);
        nodes.filter(|&&byte| byte == 1).count() as u32
    }

    /// The graph that a tagged file holds.
    pub fn load(file: &[u8]) -> Result<Graph, Refusal> {
        // Room for what the head says. A head that says more than the limits is refused before room is looked at.
        let mut graph = Graph::with_room(head_number(file, 7, MOST_NODES), head_number(file, 11, MOST_OUTPUTS));
        let Graph { node_table, node_bits, output_table, output_bits, locks, .. } = &mut graph;
        graph.size = lent::load(file, node_table, node_bits, output_table, output_bits, locks)?;
        Ok(graph)
    }

    /// The graph that a tagged file holds after a list of calls, with what each call answered or was refused by. Many calls take parts of
    /// `list` and `moves`, majority calls three entries of `list`.
    pub fn replay(file: &[u8], calls: &[Call], list: &[u32], moves: &[u8]) -> Result<Replayed, ReplayRefusal> {
        let words: Vec<u32> = calls.iter().flat_map(|call| call.words()).collect();
        let nodes = head_number(file, 7, MOST_NODES);
        let mut graph = Graph::with_room(nodes, head_number(file, 11, MOST_OUTPUTS));
        let mut scratch = vec![0; scratch_words(nodes as u32)];
        let mut answers = vec![0; 3 * calls.len()];
        graph.size = lent::replay(
            file,
            &words,
            &mut graph.node_table,
            &mut graph.node_bits,
            &mut graph.output_table,
            &mut graph.output_bits,
            &mut graph.locks,
            list,
            moves,
            &mut scratch,
            &mut answers,
        )?;
        graph.cut(nodes);
        let told = |(three, call): (&[i64], &Call)| lent::answer(three[0] as u32, Told::of(*call, three[1], three[2]));
        let told = answers.chunks_exact(3).zip(calls).map(told).collect();
        Ok((graph, told))
    }

    /// The graph's tagged file.
    pub fn write(&self) -> Result<Vec<u8>, Refusal> {
        // A graph over the limits is refused before room is looked at, and gets none.
        self.complemented_edges()?;
        let mut file = vec![0; file_bytes(self.size)];
        let length = lent::write(
            self.size,
            &self.node_table,
            &self.node_bits,
            &self.output_table,
            &self.output_bits,
            &self.locks,
            &mut file,
        )?;
        file.truncate(length);
        Ok(file)
    }

    /// The graph that an ASCII AIGER text says: a majority of the constant and two literals for each AND, every node free.
    pub fn import(text: &[u8]) -> Result<Graph, Refusal> {
        // As for loading, room for what the header says.
        let mut graph = Graph::with_room(header_number(text, 4, MOST_NODES), header_number(text, 3, MOST_OUTPUTS));
        let Graph { node_table, node_bits, output_table, output_bits, locks, .. } = &mut graph;
        graph.size = lent::import(text, node_table, node_bits, output_table, output_bits, locks)?;
        Ok(graph)
    }

    /// The graph's ASCII AIGER text: four ANDs for each majority, three for each XOR. It says nothing of locks.
    pub fn export(&self) -> Result<Vec<u8>, Refusal> {
        self.complemented_edges()?;
        let mut scratch = vec![0; self.size.nodes as usize];
        let mut text = vec![0; text_bytes(self.size)];
        let length = lent::export(
            self.size,
            &self.node_table,
            &self.node_bits,
            &self.output_table,
            &self.output_bits,
            &self.locks,
            &mut scratch,
            &mut text,
        )?;
        text.truncate(length);
        Ok(text)
    }

    /// This graph joined with a second: output k of this one drives input k of the second. It has this graph's inputs, both lists of nodes in
    /// order with their locks, and the second's outputs; each has the second's value on this graph's outputs.
    pub fn join(&self, second: &Graph) -> Result<Graph, Refusal> {
        // More than the limits is refused, and gets no more room.
        let nodes = self.size.nodes.min(MOST_NODES) + second.size.nodes.min(MOST_NODES);
        let mut joined = Graph::with_room(nodes as usize, second.size.outputs.min(MOST_OUTPUTS) as usize);
        let Graph { node_table, node_bits, output_table, output_bits, locks, .. } = &mut joined;
        let (first, second) = (self.lent(), second.lent());
        joined.size = lent::join(first, second, node_table, node_bits, output_table, output_bits, locks)?;
        Ok(joined)
    }

    /// The outputs' words for one word an input: each of the 64 bit places is an assignment of its own.
    pub fn evaluate(&self, input_words: &[u64]) -> Result<Vec<u64>, Refusal> {
        let mut scratch = vec![0; self.size.nodes.min(MOST_NODES) as usize];
        let mut results = vec![0; self.size.outputs.min(MOST_OUTPUTS) as usize];
        lent::evaluate(
            self.size,
            &self.node_table,
            &self.node_bits,
            &self.output_table,
            &self.output_bits,
            &self.locks,
            input_words,
            &mut scratch,
            &mut results,
        )?;
        Ok(results)
    }

    /// The least assignment under which the outputs are as wanted, a byte an output: 0, 1, or 2 for either. Bit k of an assignment is input
    /// k + 1. None exactly where no assignment gives the pattern.
    pub fn assignment_for(&self, wanted: &[u8]) -> Result<Option<u32>, Refusal> {
        let mut scratch = vec![0; self.size.nodes.min(MOST_NODES) as usize];
        lent::assignment(
            self.size,
            &self.node_table,
            &self.node_bits,
            &self.output_table,
            &self.output_bits,
            &self.locks,
            wanted,
            &mut scratch,
        )
    }

    /// How many edges are complemented, those from the constant among them.
    pub fn complemented_edges(&self) -> Result<u32, Refusal> {
        lent::complemented_edges(
            self.size,
            &self.node_table,
            &self.node_bits,
            &self.output_table,
            &self.output_bits,
            &self.locks,
        )
    }

    /// Makes the best move of one node; what it saves.
    pub fn node_call(&mut self, node: u32) -> Result<Saving, Refusal> {
        lent::node_call(
            self.size,
            &self.node_table,
            &mut self.node_bits,
            &self.output_table,
            &mut self.output_bits,
            &self.locks,
            node,
        )
    }

    /// Makes the best moves of a node and of the one that its word (1 to 3) names; what they save.
    pub fn pair_call(&mut self, node: u32, word: u32) -> Result<Saving, Refusal> {
        lent::pair_call(
            self.size,
            &self.node_table,
            &mut self.node_bits,
            &self.output_table,
            &mut self.output_bits,
            &self.locks,
            node,
            word,
        )
    }

    /// What `named_move` at the node that a word (1 to 3) of a node names and `node_move` at the node would save: below 0 where
    /// they lose, 0 where the word names no node, and then `named_move` may be any. Nothing is changed. A move that a node's kind lacks
    /// is refused by 15, one other than 0 at a locked node by 16, those of `named_move` first.
    pub fn trial(&self, node: u32, word: u32, named_move: u32, node_move: u32) -> Result<i64, Refusal> {
        lent::trial(
            self.size,
            &self.node_table,
            &self.node_bits,
            &self.output_table,
            &self.output_bits,
            &self.locks,
            (node, word),
            (named_move, node_move),
        )
    }

    /// Makes the best moves of the tree of a root; what they save.
    pub fn tree_call(&mut self, root: u32) -> Result<Saving, Refusal> {
        let mut scratch = self.scratch();
        lent::tree_call(
            self.size,
            &self.node_table,
            &mut self.node_bits,
            &self.output_table,
            &mut self.output_bits,
            &self.locks,
            root,
            &mut scratch,
        )
    }

    /// Tells what [`Graph::tree_call`] would save and which moves it would make.
    pub fn preview(&self, root: u32) -> Result<Preview, Refusal> {
        let mut scratch = self.scratch();
        let mut moves = vec![0; self.size.nodes.min(MOST_NODES) as usize];
        let saving = lent::preview(
            self.size,
            &self.node_table,
            &self.node_bits,
            &self.output_table,
            &self.output_bits,
            &self.locks,
            root,
            &mut moves,
            &mut scratch,
        )?;
        Ok(Preview { saving, moves })
    }

    /// Makes the moves of the tree of a root after which most of its majorities have just one complemented input, an edge from the constant
    /// being one; of these moves those that leave fewer complemented edges. The root takes only moves that leave its readers unturned. What
    /// they save, all of it own, and perhaps below 0.
    pub fn resistive_call(&mut self, root: u32) -> Result<Saving, Refusal> {
        let mut scratch = self.scratch();
        lent::resistive_call(
            self.size,
            &self.node_table,
            &mut self.node_bits,
            &self.output_table,
            &mut self.output_bits,
            &self.locks,
            root,
            &mut scratch,
        )
    }

    /// Makes many moves, all of them or none: at each node of a list of rising indices the move at the same place. What they save,
    /// below 0 where they lose. The moves of a [`Preview`] are made by the list of all nodes.
    pub fn many(&mut self, list: &[u32], moves: &[u8]) -> Result<i64, Refusal> {
        lent::many(
            self.size,
            &self.node_table,
            &mut self.node_bits,
            &self.output_table,
            &mut self.output_bits,
            &self.locks,
            list,
            moves,
        )
    }

    /// The graph as calls on two take it.
    #[must_use]
    pub fn lent(&self) -> lent::Lent<'_> {
        lent::Lent {
            size: self.size,
            node_table: &self.node_table,
            node_bits: &self.node_bits,
            output_table: &self.output_table,
            output_bits: &self.output_bits,
            locks: &self.locks,
        }
    }

    /// The moves that lead from this graph to another of the same wiring, or what differs first. A locked node's move is told like any.
    pub fn compare(&self, second: &Graph) -> Result<Compared, Refusal> {
        let mut moves = vec![0; self.size.nodes.min(MOST_NODES) as usize];
        let difference = lent::compare(self.lent(), second.lent(), &mut moves)?;
        Ok(difference.map_or(Compared::Moves(moves), Compared::Differ))
    }

    /// Makes rounds of tree, node and pair calls until one saves nothing.
    pub fn settle(&mut self) -> Result<Settled, Refusal> {
        let mut scratch = self.scratch();
        lent::settle(
            self.size,
            &self.node_table,
            &mut self.node_bits,
            &self.output_table,
            &mut self.output_bits,
            &self.locks,
            &mut scratch,
        )
    }

    /// Makes a node one majority of three lower indices, rising and none of them 0, where over these as free variables its value is
    /// one's, with words complemented as needed; else nothing changes. Every index keeps its value.
    pub fn majority(&mut self, node: u32, three: [u32; 3]) -> Result<Majority, Refusal> {
        let mut scratch = self.scratch();
        lent::majority(
            self.size,
            &mut self.node_table,
            &mut self.node_bits,
            &self.output_table,
            &self.output_bits,
            &self.locks,
            node,
            three,
            &mut scratch,
        )
    }

    /// Finds hidden majorities: each free node by rising index is made the first majority, if there is one, of three indices within three
    /// words of it. Then free nodes that nothing reads are dropped until none is left, and the rest renumbered in order with their locks.
    /// Every output keeps its value. How many nodes there are then.
    pub fn find(&mut self) -> Result<u32, Refusal> {
        let mut scratch = self.scratch();
        let nodes = lent::find(
            self.size,
            &mut self.node_table,
            &mut self.node_bits,
            &mut self.output_table,
            &mut self.output_bits,
            &mut self.locks,
            &mut scratch,
        )?;
        let before = self.size.nodes as usize;
        self.size.nodes = nodes;
        self.cut(before);
        Ok(nodes)
    }

    /// Takes out what the finder has freed, of so many nodes that there were.
    fn cut(&mut self, before: usize) {
        let after = self.size.nodes as usize;
        self.node_table.drain(3 * after..3 * before);
        self.node_bits.drain(bit_words(3 * after)..bit_words(3 * before));
        self.locks.drain(after..before);
    }

    fn scratch(&self) -> Vec<u32> {
        vec![0; scratch_words(self.size.nodes.min(MOST_NODES))]
    }
}
