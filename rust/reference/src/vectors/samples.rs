//! Graphs that the cases share.

use crate::generate::{small, with_locks};
use crate::graph::{Graph, MARK};
use crate::random::Random;

/// Every node is free.
pub fn of(inputs: u32, nodes: &[[u32; 3]], outputs: &[u32]) -> Graph {
    Graph {
        inputs,
        nodes: nodes.len() as u32,
        outputs: outputs.len() as u32,
        node_table: nodes.concat(),
        output_table: outputs.to_vec(),
        locks: vec![0; nodes.len()],
    }
}

/// The paper's worked graphs, P4 being P3's.
pub fn worked() -> Vec<Graph> {
    vec![
        of(3, &[[3, 5, 7]], &[9]),
        of(5, &[[3, 5, 6], [13, 8, 11]], &[14]),
        of(5, &[[3, 5, 6], [12, 9, 10]], &[15]),
        of(2, &[[3, 5, MARK]], &[6]),
        of(2, &[[3, 4, MARK]], &[7]),
        of(2, &[[0, 3, 5]], &[6]),
        of(2, &[[2, 2, 5]], &[6]),
        of(3, &[[3, 5, 6]], &[9, 8]),
        of(1, &[], &[3]),
    ]
}

/// Worked graphs with locks: P1, P2 with each of its nodes locked and with both, P3 with each, P6, and a node that outputs read.
pub fn worked_locks() -> Vec<Graph> {
    let p = worked();
    let locked = |at: usize, nodes: &[u32]| p[at].clone().locked_at(nodes);
    vec![
        locked(0, &[4]),
        locked(1, &[6]),
        locked(1, &[7]),
        locked(1, &[6, 7]),
        locked(2, &[6]),
        locked(2, &[7]),
        locked(4, &[3]),
        locked(7, &[4]),
    ]
}

/// Graphs that are refused, or nearly, by 4 for their locks or by 13.
pub fn locks_at_the_edges() -> Vec<Graph> {
    let with = |g: Graph, locks: &[u8]| Graph {
        locks: locks.to_vec(),
        ..g
    };
    let p2 = of(5, &[[3, 5, 6], [13, 8, 11]], &[14]);
    let own_named = of(5, &[[3, 5, 6], [14, 8, 11]], &[14]);
    let far_output = of(5, &[[3, 5, 6], [13, 8, 11]], &[16]);
    let mut all = Vec::new();
    for locks in [
        &[][..],
        &[1],
        &[2],
        &[1, 1],
        &[2, 1],
        &[0, 2],
        &[1, 255],
        &[0, 1, 2],
        &[1, 0, 200, 255],
    ] {
        all.push(with(p2.clone(), locks));
    }
    // 5 comes before 13, wherever each is.
    for bad in [own_named, far_output] {
        all.push(with(bad.clone(), &[2, 0]));
        all.push(with(bad.clone(), &[2]));
        all.push(Graph {
            inputs: 4_097,
            ..with(bad, &[3])
        });
    }
    // No node has no lock.
    all.push(with(of(1, &[], &[3]), &[]));
    all.push(with(of(1, &[], &[3]), &[255]));
    all
}

/// Graphs that are refused, or nearly, by 3, 4 or 5.
pub fn at_the_edges() -> Vec<Graph> {
    let bare = |inputs, nodes, outputs| Graph {
        inputs,
        nodes,
        outputs,
        node_table: vec![],
        output_table: vec![],
        locks: vec![],
    };
    let mut all = vec![bare(0, 0, 0)];
    for (limit, at) in [(4_096, 0), (100_000, 1), (4_096, 2)] {
        for number in [limit, limit + 1, 65_536, MARK / 3 + 1, MARK - 1, MARK] {
            let mut three = [0; 3];
            three[at] = number;
            all.push(bare(three[0], three[1], three[2]));
        }
    }
    let mut wide = bare(4_096, 0, 4_096);
    wide.output_table = vec![0; 4_096];
    wide.output_table[0] = 8_193;
    all.push(wide.clone());
    wide.output_table[0] = 8_194;
    all.push(wide.clone());
    wide.output_table.pop();
    all.push(wide);
    for nodes in [
        [7, 7, 7],
        [8, 7, 7],
        [7, 8, 7],
        [7, 7, 8],
        [MARK, 7, 7],
        [7, MARK, 7],
        [7, 7, MARK],
    ] {
        all.push(of(3, &[nodes], &[9]));
    }
    for nodes in [
        [MARK, 7, MARK],
        [7, MARK, MARK],
        [7, 7, MARK - 1],
        [6, 6, 9],
        [6, 6, 10],
    ] {
        all.push(of(3, &[[0, 1, 2], nodes], &[11]));
    }
    for output in [9, 10, 11, MARK - 1, MARK] {
        all.push(of(3, &[[3, 5, 7]], &[0, output]));
        all.push(of(0, &[], &[output - 9]));
    }
    // Tables that are too short, with literals that would be refused; and limits above both.
    let bad = of(3, &[[3, 5, 7], [10, 10, 10]], &[12]);
    for words in 0..=6 {
        let mut short = bad.clone();
        short.node_table.truncate(words);
        all.push(short.clone());
        short.inputs = 4_097;
        all.push(short);
    }
    let mut short = bad.clone();
    short.output_table.clear();
    all.push(short);
    all
}

/// A graph with one word, or one lock, changed to almost anything.
pub fn damaged(random: &mut Random, mut g: Graph) -> Graph {
    if random.one_in(4) && !g.locks.is_empty() {
        let at = random.below(g.locks.len() as u32) as usize;
        g.locks[at] = random.below(256) as u8;
        return g;
    }
    let table = if random.one_in(3) {
        &mut g.output_table
    } else {
        &mut g.node_table
    };
    if !table.is_empty() {
        let at = random.below(table.len() as u32) as usize;
        table[at] = match random.below(4) {
            0 => MARK,
            1 => random.below(40),
            2 => table[at].wrapping_add(2 * random.below(6)),
            _ => random.word() as u32,
        };
    }
    g
}

pub fn random_graphs(random: &mut Random, many: u32, most_nodes: u32) -> Vec<Graph> {
    (0..many)
        .map(|_| {
            let g = small(random, 9, most_nodes, 6);
            with_locks(random, g)
        })
        .collect()
}

pub fn no_graph() -> Graph {
    of(0, &[], &[])
}
