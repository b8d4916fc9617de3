//! Assignments for wanted outputs, by all three implementations.

use std::sync::atomic::{AtomicU64, Ordering};

use crate::cases::{lent, random_graph, show_graph, smaller_graphs};
use crate::exports::owned;
use crate::lists::differ;
use crate::plain;
use crate::raw;
use crate::shrink::Shrink;
use crate::tables::view;
use reference::assignment::numbered;
use reference::entries;
use reference::evaluation::output_values;
use reference::generate::{graph, with_locks, Shape, SHAPES};
use reference::graph::Graph;
use reference::packed::Packed;
use reference::random::Random;

/// Patterns that no assignment gives, that number 0 gives, that a later one gives in the first 64, and past these.
static MET: [AtomicU64; 4] = [const { AtomicU64::new(0) }; 4];

/// Whether each was met.
pub fn all_met() -> Result<(), String> {
    let [none, zero, near, far] = MET.each_ref().map(|count| count.load(Ordering::Relaxed));
    println!("patterns that no assignment gives: {none}; number 0: {zero}; 1 to 63: {near}; above: {far}");
    match [none, zero, near, far].contains(&0) {
        true => Err("FAILED: no pattern was without an assignment, or had number 0, or one up to 63 or above".into()),
        false => Ok(()),
    }
}

fn note(found: Option<u32>) {
    let at = match found {
        None => 0,
        Some(0) => 1,
        Some(1..64) => 2,
        Some(_) => 3,
    };
    MET[at].fetch_add(1, Ordering::Relaxed);
}

/// A graph, a pattern, and by how many words its scratch is longer than it needs to be.
#[derive(Clone, Debug)]
pub struct PatternCase {
    pub graph: Graph,
    pub wanted: Vec<u8>,
    pub slack: u64,
    pub spare: i64,
}

impl PatternCase {
    fn scratch(&self) -> usize {
        (i64::from(self.graph.nodes) + self.spare).max(0) as usize
    }
}

impl Shrink for PatternCase {
    fn smaller(&self) -> Vec<PatternCase> {
        let mut all = vec![];
        if self.slack != 0 {
            all.push(PatternCase { slack: 0, ..self.clone() });
        }
        if self.spare != 0 {
            all.push(PatternCase { spare: 0, ..self.clone() });
        }
        for at in 0..self.wanted.len() {
            let mut next = self.clone();
            next.wanted.remove(at);
            if at < next.graph.output_table.len() && next.graph.outputs > 0 {
                next.graph.output_table.remove(at);
                next.graph.outputs -= 1;
            }
            all.push(next);
        }
        let graphs = smaller_graphs(&self.graph).into_iter();
        all.extend(graphs.map(|(graph, _)| PatternCase { graph, ..self.clone() }));
        all
    }

    fn show(&self) -> String {
        let (graph, scratch) = (show_graph(&self.graph), self.scratch());
        format!("{graph}\nwanted {:?}, {scratch} words of scratch\n", self.wanted)
    }
}

/// A pattern: of bytes that are all 2, mostly 2 or mostly not, or what some assignment gives; at times damaged.
fn pattern(random: &mut Random, g: &Graph) -> Vec<u8> {
    let free = [1, 2, 4, 100][random.below(4) as usize];
    let mut wanted: Vec<u8> = match random.below(3) {
        0 => (0..g.outputs).map(|_| random.below(2) as u8).collect(),
        _ => {
            let inputs = numbered(g, random.word() as u32 & 0xffff);
            output_values(g, &inputs).into_iter().map(u8::from).collect()
        }
    };
    for byte in &mut wanted {
        if random.one_in(free) {
            *byte = 2;
        }
    }
    let at = random.below(g.outputs.max(1)) as usize;
    match random.below(12) {
        0 if g.outputs > 0 => wanted[at] = random.between(3, 255) as u8,
        1 => wanted.truncate(at),
        2 | 3 => wanted.extend((0..random.between(1, 3)).map(|_| random.below(256) as u8)),
        _ => {}
    }
    wanted
}

fn case(random: &mut Random, graph: Graph, seed: u64) -> PatternCase {
    let wanted = pattern(random, &graph);
    let spare = if random.one_in(12) { -1 } else { random.below(3) as i64 };
    PatternCase { graph, wanted, slack: seed + 1, spare }
}

/// Of few inputs, and at times of too many.
pub fn random_case(seed: u64) -> PatternCase {
    let mut random = Random::new(seed);
    let mut graph = random_graph(&mut random, 8, 12, 5);
    if random.one_in(24) {
        graph = random_graph(&mut random, 9, 3, 2);
        graph.inputs = [16, 17, 18, 4_096][random.below(4) as usize];
        graph.node_table.clear();
        graph.locks.clear();
        graph.nodes = 0;
    }
    case(&mut random, graph, seed)
}

/// Of up to 16 inputs.
pub fn longer_case(seed: u64) -> PatternCase {
    let mut random = Random::new(seed);
    let (inputs, nodes) = (7 + (seed % 10) as u32, random.between(10, 60));
    let shape = SHAPES[(seed % 8) as usize];
    let graph = graph(&mut random, shape, inputs, nodes, 8);
    let graph = with_locks(&mut random, graph);
    case(&mut random, graph, seed)
}

/// One search by all: what it answers.
pub fn check_one(g: &Packed, wanted: &[u8], scratch: usize) -> Result<Result<Option<u32>, u32>, String> {
    let answer = entries::assignment(g, wanted, scratch);
    differ("the assignment", &raw::assignment(g, wanted, scratch)?, &answer)?;
    let plainly = plain::assignment::assignment(&view(g), wanted, scratch);
    differ("plain: the assignment", &plainly, &answer)?;
    if scratch >= g.nodes as usize {
        let told = owned(g).assignment_for(wanted).map_err(reducer::Refusal::number);
        differ("an owned graph's assignment", &told, &answer)?;
    }
    if let Ok(found) = answer {
        note(found);
    }
    Ok(answer)
}

pub fn check_case(case: &PatternCase) -> Result<(), String> {
    let g = lent(&case.graph, case.slack);
    check_one(&g, &case.wanted, case.scratch()).map(|_| ())
}

/// Thousands of nodes: patterns of some assignment, and of an output that is both, against the plain implementation.
pub fn check_large(seed: u64) -> Result<u64, String> {
    let mut random = Random::new(seed);
    let shape = [Shape::Random, Shape::Chain, Shape::Xor, Shape::Tree][(seed % 4) as usize];
    let nodes = random.between(2_000, 20_000);
    let mut g = graph(&mut random, shape, 16, nodes, 12);
    let inputs = numbered(&g, random.word() as u32 & 0xffff);
    let given: Vec<u8> = output_values(&g, &inputs).into_iter().map(u8::from).collect();
    let any: Vec<u8> = (0..12).map(|_| random.below(3) as u8).collect();
    g.output_table[11] = g.output_table[10] ^ 1;
    let both = [[2; 10].as_slice(), &[1, 1]].concat();
    let lent = lent(&g, seed + 1);
    for wanted in [[&given[..11], &[2]].concat(), any, both] {
        let due = plain::assignment::assignment(&view(&lent), &wanted, nodes as usize);
        differ("the assignment", &raw::assignment(&lent, &wanted, nodes as usize)?, &due)?;
        if let Ok(Some(number)) = due {
            let gives = reference::assignment::gives(&g, &wanted, &numbered(&g, number));
            differ("whether it gives the pattern", &gives, &true)?;
        }
    }
    Ok(3)
}
