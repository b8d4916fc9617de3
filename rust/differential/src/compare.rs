//! Pairs of graphs compared by all three implementations: moved by random choices, then damaged or not, and of other sizes and wiring.

use std::sync::atomic::{AtomicU64, Ordering};

use crate::cases::{lent, random_graph, show_graph, smaller_graphs};
use crate::exports::owned;
use crate::lists::differ;
use crate::plain;
use crate::raw;
use crate::shrink::Shrink;
use crate::tables::view;
use reference::compare::{by_nodes, Compared};
use reference::generate::{graph, with_locks, SHAPES};
use reference::graph::{turned, Graph, MARK};
use reference::moves::{after, rows};
use reference::packed::Packed;
use reference::random::Random;

/// What the bytes hold before a comparison.
const CANARY: u8 = 0xee;

/// How often each answer was met, and moves told at a locked node.
static MET: [AtomicU64; 7] = [const { AtomicU64::new(0) }; 7];

/// Whether each was met.
pub fn all_met() -> Result<(), String> {
    let met = MET.each_ref().map(|count| count.load(Ordering::Relaxed));
    let [same, sizes, indices, outs, bits, out_bits, locked] = met;
    println!("comparisons that tell moves: {same}, at locked nodes: {locked}; that differ in sizes: {sizes}, indices: {indices}, outputs: {outs}, bits: {bits}, outputs' bits: {out_bits}");
    match met.contains(&0) {
        true => Err("FAILED: no comparison gave one of its answers, or a move at a locked node".into()),
        false => Ok(()),
    }
}

/// Two graphs, and how many bytes are lent beyond the first one's nodes.
#[derive(Clone, Debug)]
pub struct PairCase {
    pub first: Graph,
    pub second: Graph,
    pub slack: u64,
    pub spare: i64,
}

impl PairCase {
    fn lent(&self) -> [Packed; 2] {
        let second = if self.slack == 0 { 0 } else { self.slack + 1 };
        [lent(&self.first, self.slack), lent(&self.second, second)]
    }

    fn bytes(&self) -> usize {
        (i64::from(self.first.nodes) + self.spare).max(0) as usize
    }
}

impl Shrink for PairCase {
    fn smaller(&self) -> Vec<PairCase> {
        let mut all = vec![];
        if self.slack != 0 {
            all.push(PairCase { slack: 0, ..self.clone() });
        }
        if self.spare != 0 {
            all.push(PairCase { spare: 0, ..self.clone() });
        }
        let firsts = smaller_graphs(&self.first).into_iter();
        all.extend(firsts.map(|(first, _)| PairCase { first, ..self.clone() }));
        let seconds = smaller_graphs(&self.second).into_iter();
        all.extend(seconds.map(|(second, _)| PairCase { second, ..self.clone() }));
        // Both alike, where they are of one size.
        let both = smaller_graphs(&self.first).into_iter().zip(smaller_graphs(&self.second));
        all.extend(both.map(|((first, _), (second, _))| PairCase { first, second, ..self.clone() }));
        all
    }

    fn show(&self) -> String {
        let (first, second) = (show_graph(&self.first), show_graph(&self.second));
        let lengths = self.lent().map(|p| p.lengths());
        format!("{first}\n{second}\nlent: {lengths:?} and {} bytes\n", self.bytes())
    }
}

/// The graph after a random choice of moves, of locked nodes too.
pub fn moved(random: &mut Random, g: &Graph) -> Graph {
    let nodes: Vec<u32> = g.node_indices().filter(|_| !random.one_in(3)).collect();
    let list: Vec<usize> = nodes.iter().map(|&node| random.below(rows(g, node).len() as u32) as usize).collect();
    after(g, &nodes, &list)
}

/// One bit turned.
pub fn with_bit_turned(random: &mut Random, g: &mut Graph) {
    let table = if random.one_in(3) { &mut g.output_table } else { &mut g.node_table };
    let places: Vec<usize> = (0..table.len()).filter(|&place| table[place] != MARK).collect();
    if !places.is_empty() {
        let place = places[random.below(places.len() as u32) as usize];
        table[place] = turned(table[place]);
    }
}

/// One index, or one kind, made another.
fn rewired(random: &mut Random, g: &mut Graph) {
    if random.one_in(3) && g.outputs > 0 {
        let at = random.below(g.outputs) as usize;
        g.output_table[at] = random.below(2 * (g.inputs + g.nodes + 1));
    } else if g.nodes > 0 {
        let place = random.below(3 * g.nodes) as usize;
        let below = 2 * (g.inputs + 1 + place as u32 / 3);
        g.node_table[place] = if place % 3 == 2 && random.one_in(2) { MARK } else { random.below(below) };
    }
}

/// Another size, with enough behind it.
fn resized(random: &mut Random, g: &mut Graph) {
    match random.below(3) {
        0 => g.inputs += 1,
        1 if g.nodes > 0 => g.nodes -= 1,
        _ => {
            g.outputs += 1;
            g.output_table.push(0);
        }
    }
}

pub fn random_pair(seed: u64, most_nodes: u32) -> PairCase {
    let mut random = Random::new(seed);
    let first = random_graph(&mut random, 4, most_nodes, 4);
    let second = moved(&mut random, &first);
    let mut second = with_locks(&mut random, second);
    match random.below(12) {
        0..=4 => with_bit_turned(&mut random, &mut second),
        5 | 6 => rewired(&mut random, &mut second),
        7 => {
            rewired(&mut random, &mut second);
            with_bit_turned(&mut random, &mut second);
        }
        8 => resized(&mut random, &mut second),
        9 => second = random_graph(&mut random, 4, most_nodes, 4),
        _ => {}
    }
    let spare = if random.one_in(12) { -1 } else { random.below(3) as i64 };
    PairCase { first, second, slack: seed + 1, spare }
}

/// Whose bits take several words.
pub fn longer_pair(seed: u64) -> PairCase {
    let mut random = Random::new(seed);
    let nodes = random.between(20, 120);
    let outputs = random.between(50, 140);
    let first = graph(&mut random, SHAPES[(seed % 8) as usize], 8, nodes, outputs);
    let second = moved(&mut random, &first);
    let (first, mut second) = (with_locks(&mut random, first), with_locks(&mut random, second));
    if random.one_in(2) {
        with_bit_turned(&mut random, &mut second);
    }
    PairCase { first, second, slack: seed + 1, spare: 1 }
}

fn note(g: &Packed, told: [u32; 2], bytes: &[u8]) {
    MET[told[0] as usize].fetch_add(1, Ordering::Relaxed);
    let locked = |v: usize| g.locks[v] == 1 && bytes[v] != 0;
    if told[0] == 0 && (0..g.nodes as usize).any(locked) {
        MET[6].fetch_add(1, Ordering::Relaxed);
    }
}

/// What the Rust crate tells, in the numbers of the C interface.
fn owned_numbers(g: &Packed, h: &Packed) -> (Result<[u32; 2], u32>, Vec<u8>) {
    use reducer::{Compared, Difference};
    match owned(g).compare(&owned(h)) {
        Ok(Compared::Moves(moves)) => (Ok([0, 0]), moves),
        Ok(Compared::Differ(difference)) => {
            let told = match difference {
                Difference::Inputs => [1, 0],
                Difference::Nodes => [1, 1],
                Difference::Outputs => [1, 2],
                Difference::NodeIndex(place) => [2, place as u32],
                Difference::OutputIndex(place) => [3, place as u32],
                Difference::NodeBit(place) => [4, place as u32],
                Difference::OutputBit(place) => [5, place as u32],
            };
            (Ok(told), vec![])
        }
        Err(refusal) => (Err(refusal.number()), vec![]),
    }
}

/// One comparison by all, with so many bytes: what it answers.
pub fn check_one(g: &Packed, h: &Packed, bytes: usize) -> Result<Result<[u32; 2], u32>, String> {
    let mut due = vec![CANARY; bytes];
    let (mut got, mut plainly) = (due.clone(), due.clone());
    let answer = reference::compare::compare(g, h, &mut due);
    differ("the comparison", &raw::compare(g, h, &mut got)?, &answer)?;
    differ("the bytes after it", &got, &due)?;
    differ("plain: the comparison", &plain::compare::compare(&view(g), &view(h), &mut plainly), &answer)?;
    differ("plain: the bytes after it", &plainly, &due)?;
    if bytes >= g.nodes as usize {
        let (told, moves) = owned_numbers(g, h);
        differ("the comparison of owned graphs", &told, &answer)?;
        differ("the moves of owned graphs", &moves[..], &due[..moves.len()])?;
    }
    if let Ok(told) = answer {
        note(g, told, &due);
    }
    Ok(answer)
}

pub fn check_pair(case: &PairCase) -> Result<(), String> {
    let [g, h] = case.lent();
    check_one(&g, &h, case.bytes()).map(|_| ())
}

/// Large graphs, moved by a choice at all nodes and damaged in a bit or not: held to the plain implementation and to the reference's other way.
pub fn check_large(g: &Graph, seed: u64) -> Result<u64, String> {
    let mut random = Random::new(seed);
    for damaged in [false, true, true] {
        let mut made = reference::fast::Fast::new(g.clone());
        for node in g.node_indices() {
            made.make(node, random.below(rows(g, node).len() as u32) as usize);
        }
        if damaged {
            with_bit_turned(&mut random, &mut made.g);
        }
        let (first, second) = (lent(g, seed + 1), lent(&made.g, seed + 2));
        let (mut got, mut plainly) = (vec![CANARY; g.nodes as usize + 1], vec![CANARY; g.nodes as usize + 1]);
        let told = raw::compare(&first, &second, &mut got)?;
        differ("plain", &plain::compare::compare(&view(&first), &view(&second), &mut plainly), &told)?;
        let due = match by_nodes(g, &made.g) {
            Compared::Moves(moves) => (Ok([0, 0]), [moves, vec![CANARY]].concat()),
            Compared::Differ(told) => (Ok(told), vec![CANARY; g.nodes as usize + 1]),
        };
        differ("the comparison", &told, &due.0)?;
        if got != due.1 || plainly != due.1 {
            return Err("the bytes after a comparison differ".into());
        }
    }
    Ok(3)
}
