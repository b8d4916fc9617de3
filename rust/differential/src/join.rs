//! Two graphs joined by all three implementations, and the values of the joined one.

use std::sync::atomic::{AtomicU64, Ordering};

use crate::cases::{lengths_near, lent, show_graph, smaller_graphs};
use crate::exports::{owned, packed};
use crate::lists::differ;
use crate::plain;
use crate::raw;
use crate::shrink::Shrink;
use crate::tables::{filled, view};
use reference::entries;
use reference::evaluation::evaluate;
use reference::generate::{graph, with_locks, Shape, SHAPES};
use reference::graph::Graph;
use reference::packed::{unpack, words_for, Lengths, Packed};
use reference::random::Random;
use reference::vectors::samples::damaged;

/// Joins that are accepted, and complements that cancel where both edges have one.
static MET: [AtomicU64; 2] = [const { AtomicU64::new(0) }; 2];

/// Whether each was met.
pub fn all_met() -> Result<(), String> {
    let [accepted, cancelled] = MET.each_ref().map(|count| count.load(Ordering::Relaxed));
    println!("joins accepted: {accepted}; with complements that cancel: {cancelled}");
    match [accepted, cancelled].contains(&0) {
        true => Err("FAILED: no join was accepted, or no two complements met".into()),
        false => Ok(()),
    }
}

/// Two graphs, and what is lent for the joined one.
#[derive(Clone, Debug)]
pub struct JoinCase {
    pub first: Graph,
    pub second: Graph,
    pub lengths: Lengths,
    pub slack: u64,
}

impl JoinCase {
    fn lent(&self) -> [Packed; 2] {
        let second = if self.slack == 0 { 0 } else { self.slack + 1 };
        [lent(&self.first, self.slack), lent(&self.second, second)]
    }
}

impl Shrink for JoinCase {
    fn smaller(&self) -> Vec<JoinCase> {
        let mut all = vec![];
        if self.slack != 0 {
            all.push(JoinCase { slack: 0, ..self.clone() });
        }
        let firsts = smaller_graphs(&self.first).into_iter();
        all.extend(firsts.map(|(first, _)| JoinCase { first, ..self.clone() }));
        let seconds = smaller_graphs(&self.second).into_iter();
        all.extend(seconds.map(|(second, _)| JoinCase { second, ..self.clone() }));
        all
    }

    fn show(&self) -> String {
        let (first, second) = (show_graph(&self.first), show_graph(&self.second));
        let lent = self.lent().map(|p| p.lengths());
        format!("{first}\n{second}\nlent: {lent:?}, and for the joined one {:?}\n", self.lengths)
    }
}

fn random_part(random: &mut Random, inputs: u32, most_nodes: u32, outputs: u32) -> Graph {
    let shape = SHAPES[random.below(8) as usize];
    let nodes = random.below(most_nodes + 1);
    let g = graph(random, shape, inputs, nodes, outputs);
    with_locks(random, g)
}

/// Mostly two that meet; else damaged, one output or input too many, or with too little room.
pub fn random_join(seed: u64, most_nodes: u32, most_outputs: u32) -> JoinCase {
    let mut random = Random::new(seed);
    let [inputs, between, outputs] = [5, most_outputs, most_outputs].map(|most| random.below(most + 1));
    let more = if random.one_in(16) { random.below(2) } else { 0 };
    let first = random_part(&mut random, inputs, most_nodes, between + more);
    let second = random_part(&mut random, between, most_nodes, outputs);
    let lengths = lengths_near(&mut random, (first.nodes + second.nodes) as usize, outputs as usize, 40);
    let mut damage = |g: Graph| if random.one_in(12) { damaged(&mut random, g) } else { g };
    JoinCase { first: damage(first), second: damage(second), lengths, slack: seed + 1 }
}

/// The joined graph's values by 64 assignments, and the second's on the first's.
fn check_values(g: &Packed, h: &Packed, joined: &Packed, seed: u64) -> Result<(), String> {
    let mut random = Random::new(seed);
    let words: Vec<u64> = (0..g.inputs).map(|_| random.word()).collect();
    let values = |p: &Packed, words: &[u64]| {
        let mut results = vec![0; p.outputs as usize];
        let done = evaluate(&unpack(p), words, p.nodes as usize, &mut results);
        done.map(|()| results).map_err(|number| format!("a part of a join is refused by {number}"))
    };
    let due = values(h, &values(g, &words)?)?;
    if values(joined, &words)? != due {
        return Err("the joined graph's values are not the second's on the first's".into());
    }
    Ok(())
}

/// Whether a word of the second meets a complemented output of the first and is complemented itself.
fn cancels(g: &Packed, h: &Packed) -> bool {
    let (g, h) = (unpack(g), unpack(h));
    let odd = |index: u32| (1..=h.inputs).contains(&index) && g.output_table[index as usize - 1] % 2 == 1;
    h.edges().into_iter().any(|place| h.at(place) % 2 == 1 && odd(h.at(place) / 2))
}

/// The same by the Rust crate, which lends just as much as the joined graph needs.
fn check_owned(g: &Packed, h: &Packed, joined: &Packed) -> Result<(), String> {
    let got = packed(owned(g).join(&owned(h)).map_err(|refusal| refusal.to_string())?);
    let (places, outputs) = (3 * joined.nodes as usize, joined.outputs as usize);
    let mut due = joined.clone();
    due.node_table.truncate(places);
    due.node_bits.truncate(words_for(places));
    due.output_table.truncate(outputs);
    due.output_bits.truncate(words_for(outputs));
    due.locks.truncate(joined.nodes as usize);
    differ("the join of owned graphs", &got, &due)
}

/// One join by all, into slices of these lengths: what it answers.
pub fn check_one(g: &Packed, h: &Packed, lengths: Lengths) -> Result<Result<(u32, u32, u32), u32>, String> {
    let mut due = raw::unfilled(lengths);
    let (mut got, mut plainly) = (due.clone(), due.clone());
    let answer = entries::join(g, h, &mut due);
    differ("the join", &raw::join(g, h, &mut got)?, &answer)?;
    differ("the joined graph", &got, &due)?;
    differ("plain: the join", &plain::join::join(&view(g), &view(h), filled(&mut plainly)), &answer)?;
    (plainly.inputs, plainly.nodes, plainly.outputs) = (due.inputs, due.nodes, due.outputs);
    differ("plain: the joined graph", &plainly, &due)?;
    if answer.is_ok() {
        check_values(g, h, &got, 64)?;
        check_owned(g, h, &got)?;
        MET[0].fetch_add(1, Ordering::Relaxed);
        MET[1].fetch_add(u64::from(cancels(g, h)), Ordering::Relaxed);
    }
    Ok(answer)
}

pub fn check_join(case: &JoinCase) -> Result<(), String> {
    let [g, h] = case.lent();
    check_one(&g, &h, case.lengths).map(|_| ())
}

/// Parts of so many nodes, which together may be too many.
pub fn check_large(first: u32, second: u32, seed: u64) -> Result<u64, String> {
    let mut random = Random::new(seed);
    let shapes = [Shape::Random, Shape::Chain, Shape::Xor, Shape::Tree];
    let g = graph(&mut random, shapes[(seed % 4) as usize], 4_096, first, 4_096);
    let h = graph(&mut random, shapes[(seed / 4 % 4) as usize], 4_096, second, 4_096);
    let (g, h) = (with_locks(&mut random, g), with_locks(&mut random, h));
    let (g, h) = (lent(&g, seed + 1), lent(&h, seed + 2));
    let lengths = Lengths::of((first + second) as usize + 1, 4_097);
    let (mut got, mut due) = (raw::unfilled(lengths), raw::unfilled(lengths));
    let told = raw::join(&g, &h, &mut got)?;
    let answer = plain::join::join(&view(&g), &view(&h), filled(&mut due));
    differ("a large join", &told, &answer)?;
    if first + second > 100_000 {
        differ("too many nodes", &told, &Err(3))?;
    } else {
        (due.inputs, due.nodes, due.outputs) = (g.inputs, first + second, h.outputs);
        if got != due {
            return Err("the large joined graph differs".into());
        }
        check_values(&g, &h, &got, seed)?;
    }
    Ok(1)
}

/// As large as the limits allow, one node more, and smaller ones.
pub const LARGE: [(u32, u32); 8] = [
    (60_000, 40_000),
    (60_000, 40_001),
    (100_000, 0),
    (0, 100_000),
    (1, 100_000),
    (100_000, 100_000),
    (4_321, 9_999),
    (64, 20_000),
];
