//! Node, pair, tree and settling calls, and lists of them.

use crate::fast::Fast;
use crate::generate::{graph, locked_one_in, Shape, SHAPES};
use crate::graph::{Graph, MARK};
use crate::moves::{best, is_root, tree};
use crate::random::Random;
use crate::vectors::case::*;
use crate::vectors::samples::*;

/// Node, pair and tree calls as the paper's examples have them, and each way to be refused.
pub fn call_cases(random: &mut Random) -> Vec<Case> {
    let mut all = Vec::new();
    let mut add = |g: &Graph, op, x, y, scratch| {
        all.push(Case {
            x,
            y,
            scratch,
            ..Case::new(op, g)
        })
    };
    let p = worked();
    for (at, node) in [(0, 4), (2, 6), (2, 7), (3, 3), (4, 3), (5, 3), (7, 4)] {
        add(&p[at], NODE, node, 0, 0);
    }
    for (at, node, word) in [
        (2, 7, 1),
        (2, 7, 2),
        (2, 7, 3),
        (2, 6, 1),
        (1, 7, 1),
        (3, 3, 2),
        (3, 3, 3),
    ] {
        add(&p[at], PAIR, node, word, 0);
    }
    for (at, root, scratch) in [
        (1, 7, 16),
        (6, 3, 8),
        (2, 7, 16),
        (2, 7, 15),
        (2, 6, 16),
        (2, 6, 0),
        (2, 7, 0),
        (0, 4, 9),
    ] {
        add(&p[at], TREE, root, 0, scratch);
    }
    let locked = worked_locks();
    for (at, node) in [(0, 4), (1, 7), (4, 7), (5, 6), (6, 3), (7, 4)] {
        add(&locked[at], NODE, node, 0, 0);
    }
    for at in 1..6 {
        add(&locked[at], PAIR, 7, 1, 0);
        add(&locked[at], TREE, 7, 0, 16);
    }
    add(&locked[0], TREE, 4, 0, 8);
    add(&locked[1], TREE, 6, 0, 16);
    add(&locked[1], TREE, 7, 0, 15);
    let edges = [at_the_edges(), locks_at_the_edges()].concat();
    for (which, g) in edges.iter().enumerate() {
        let op = [NODE, PAIR, TREE][which % 3];
        add(
            g,
            op,
            4 + (which as u32 / 3) % 2,
            1,
            if which % 2 == 0 { 16 } else { 15 },
        );
    }
    for g in random_graphs(random, 32, 8) {
        let node = random.below(g.inputs + g.nodes + 2);
        let other = random.between(g.inputs, g.inputs + g.nodes);
        let scratch = 8 * g.nodes;
        add(&g, NODE, other, 0, 0);
        add(&g, PAIR, other, random.below(5), 0);
        add(&g, TREE, node, 0, scratch.saturating_sub(random.below(2)));
        add(&g, TREE, other, 0, scratch);
    }
    for node in [0, 3, MARK, MARK - 1, 1 << 31] {
        let g = of(2, &[[2, 4, 5]], &[6, 7]);
        add(&g, NODE, node, 0, 0);
        add(&g, PAIR, node, 1, 0);
        add(&g, TREE, node, 0, 8);
        add(&g, PAIR, 3, node, 0);
    }
    all
}

/// Pair calls where a wrong one would differ: both nodes move, the order of the moves compared decides, the
/// word's node is named twice, a lock at the word's node or at the node changes what the other does.
pub fn pair_cases(random: &mut Random) -> Vec<Case> {
    let mut all = Vec::new();
    let mut due = [10, 10, 10, 5, 5];
    while due != [0; 5] {
        let shape = SHAPES[random.below(8) as usize];
        let g = graph(random, shape, 2, 5, 4);
        let g = locked_one_in(random, g, 4);
        let node = random.between(g.inputs + 2, g.inputs + g.nodes);
        let word = random.below(g.words_of(node) as u32);
        let named = g.word(node, word as usize) / 2;
        if !g.is_node(named) {
            continue;
        }
        let moves = best(&g, &[named, node]);
        let other = best(&g, &[node, named]);
        let free = best(&freed(&g), &[named, node]);
        let twice = (0..g.words_of(node))
            .filter(|&at| g.word(node, at) / 2 == named)
            .count()
            > 1;
        let tells = [
            moves[0] != 0 && moves[1] != 0,
            [moves[1], moves[0]] != other[..],
            twice && moves[0] != 0,
            g.is_locked(named) && moves[1] != free[1],
            g.is_locked(node) && moves[0] != free[0],
        ];
        if let Some(kind) = (0..5).find(|&kind| tells[kind] && due[kind] > 0) {
            due[kind] -= 1;
            all.push(Case {
                x: node,
                y: word + 1,
                ..Case::new(PAIR, &g)
            });
        }
    }
    all
}

/// Trees of many nodes, of which one in so many is locked.
pub fn tree_cases(random: &mut Random) -> Vec<Case> {
    let mut all = Vec::new();
    for (shape, nodes, one_in) in [
        (Shape::Tree, 60, 1_000),
        (Shape::Tree, 60, 4),
        (Shape::Tree, 100, 10),
        (Shape::Chain, 80, 5),
        (Shape::Tree, 400, 20),
    ] {
        let g = graph(random, shape, 12, nodes, 1);
        let g = locked_one_in(random, g, one_in);
        let roots: Vec<u32> = g.node_indices().filter(|&node| is_root(&g, node)).collect();
        let largest = roots
            .iter()
            .copied()
            .max_by_key(|&root| tree(&g, root).len())
            .expect("a root");
        all.push(Case {
            x: largest,
            scratch: 8 * nodes,
            ..Case::new(TREE, &g)
        });
    }
    all
}

/// Settling with a part of each round left out: trees, nodes, pairs, or pairs at third words.
fn settled_without(g: &Graph, part: u32) -> (u32, Graph) {
    let mut fast = Fast::new(g.clone());
    let mut rounds = 0;
    loop {
        let mut saved = 0;
        for node in g
            .node_indices()
            .filter(|&node| part != 0 && is_root(g, node))
        {
            saved += fast.tree_call(node).total();
        }
        for node in g.node_indices().filter(|_| part != 1) {
            saved += fast.node_call(node).total();
        }
        for node in g.node_indices().filter(|_| part != 2) {
            let words = if part == 3 {
                2
            } else {
                g.words_of(node) as u32
            };
            for word in 1..=words {
                saved += fast.pair_call(node, word).total();
            }
        }
        rounds += 1;
        if saved == 0 {
            return (rounds, fast.g);
        }
    }
}

/// The same graph with no node locked.
fn freed(g: &Graph) -> Graph {
    Graph {
        locks: vec![0; g.locks.len()],
        ..g.clone()
    }
}

/// Graphs that locks matter to beyond the nodes that they are at: a free node ends with other words than without locks.
fn locked_graphs(random: &mut Random) -> Vec<Graph> {
    let mut all = Vec::new();
    while all.len() < 12 {
        let shape = SHAPES[random.below(8) as usize];
        let nodes = random.between(3, 9);
        let g = graph(random, shape, 3, nodes, 4);
        let g = locked_one_in(random, g, 4);
        let [kept, free] = [g.clone(), freed(&g)].map(|g| settled_without(&g, 4).1);
        let differs = |node: u32| (0..3).any(|word| kept.word(node, word) != free.word(node, word));
        if g.node_indices()
            .any(|node| !g.is_locked(node) && differs(node))
        {
            all.push(g);
        }
    }
    all
}

/// Graphs that each part of a round matters to.
fn telling_graphs(random: &mut Random) -> Vec<Graph> {
    let mut all = Vec::new();
    for part in 0..4 {
        let mut due = 5;
        while due > 0 {
            let shape = SHAPES[random.below(8) as usize];
            let nodes = random.between(3, 9);
            let g = graph(random, shape, 3, nodes, 4);
            let settled = settled_without(&g, 4);
            if settled_without(&g, part) != settled {
                all.push(g);
                due -= 1;
            }
        }
    }
    all
}

pub fn settle_cases(random: &mut Random) -> Vec<Case> {
    let mut all = Vec::new();
    let mut add = |g: &Graph, scratch| {
        all.push(Case {
            scratch,
            ..Case::new(SETTLE, g)
        })
    };
    for g in worked().iter().chain(&worked_locks()) {
        add(g, 8 * g.nodes);
        add(g, (8 * g.nodes).saturating_sub(1));
    }
    for g in &locks_at_the_edges() {
        add(g, 16);
    }
    for (which, g) in at_the_edges().iter().enumerate() {
        if which % 3 == 0 {
            add(g, 16);
        }
    }
    for g in random_graphs(random, 30, 9)
        .iter()
        .chain(&telling_graphs(random))
        .chain(&locked_graphs(random))
    {
        add(g, 8 * g.nodes + random.below(2));
    }
    for shape in SHAPES {
        let g = graph(random, shape, 8, 30, 8);
        add(&locked_one_in(random, g, 6), 240);
    }
    add(&graph(random, Shape::Tree, 12, 300, 4), 2_400);
    let g = graph(random, Shape::Random, 12, 300, 20);
    add(&locked_one_in(random, g, 10), 2_400);
    all
}

fn calls_on(random: &mut Random, g: &Graph, many: u32) -> Vec<u32> {
    let mut calls = Vec::new();
    for _ in 0..many {
        let last = g.inputs + g.nodes + random.below(2);
        let node = random.between(g.inputs, last);
        let words = 3 + random.below(2);
        calls.push([0, 0, 1, 1, 1, 2, 2, 2, 2, 3][random.below(10) as usize]);
        calls.push(node);
        calls.push(random.between(1, words));
    }
    calls
}

/// A list of twenty calls in one of these ways made one that is not replayed, or nearly so.
fn spoil(case: &mut Case, way: usize) {
    match way {
        0 => case.calls.push(0),
        1 => drop(case.calls.pop()),
        2 => case.calls[57] = 8,
        3 => case.calls[0] = MARK,
        4 => case.result = 59,
        5 => case.result = 0,
        6 => drop(case.bytes.pop()),
        7 => case.bytes.push(0),
        8 => case.bytes.clear(),
        9 => case.bytes[0] = 2,
        10 => case.g.node_table.truncate(89),
        11 => case.g.output_table.clear(),
        12 => case.calls.clear(),
        13 => case.g.locks.truncate(29),
        // A lock at a node that is none, before the end.
        14 => {
            let end = case.bytes.len() - 3;
            case.bytes.splice(end..end, [6, 0, 4, 0, 0, 0, 40]);
        }
        15 => drop(case.g.node_bits.pop()),
        16 => case.g.output_bits.clear(),
        _ => case.scratch = 0,
    }
}

/// Lists of calls on one graph, each by one replay of its file; and replays that are not made, for their words, the room for
/// answers, the file, the tables, their bits, the locks.
pub fn list_cases(random: &mut Random) -> Vec<Case> {
    let mut graphs = random_graphs(random, 42, 9);
    for shape in SHAPES {
        let g = graph(random, shape, 9, 30, 6);
        graphs.push(locked_one_in(random, g, 6));
    }
    let mut all: Vec<Case> = graphs
        .iter()
        .map(|g| {
            let calls = calls_on(random, g, 20);
            let scratch = (8 * g.nodes).saturating_sub(random.one_in(6) as u32);
            list_of(g, calls, scratch, 60 + random.below(3))
        })
        .collect();
    for way in 0..18 {
        let mut case = all[45 + way % 5].clone();
        spoil(&mut case, way);
        all.push(case);
    }
    all
}
