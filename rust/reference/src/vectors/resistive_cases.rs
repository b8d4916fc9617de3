//! Trees for resistive memory, by themselves and in lists of calls.

use crate::generate::{graph, locked_one_in, moves_of, with_locks, Shape, SHAPES};
use crate::graph::{Graph, MARK};
use crate::moves::is_root;
use crate::random::Random;
use crate::vectors::case::*;
use crate::vectors::samples::*;

fn resistive(g: &Graph, root: u32, scratch: u32) -> Case {
    Case {
        x: root,
        scratch,
        ..Case::new(RESISTIVE, g)
    }
}

/// A majority below another, with no and with two complemented inputs; below an XOR; with the constant's edge; and two below one.
fn worked_resistive() -> Vec<Graph> {
    vec![
        of(3, &[[2, 4, 6], [8, 2, 4]], &[10]),
        of(3, &[[3, 5, 6], [9, 2, 4]], &[11]),
        of(3, &[[3, 5, 6], [8, 2, MARK]], &[10]),
        of(3, &[[3, 5, 7], [2, 4, 7], [8, 11, 1], [13, 3, MARK]], &[14]),
        of(3, &[[2, 4, 6], [3, 5, 0], [8, 10, 2]], &[13, 12]),
        of(2, &[[2, 4, MARK], [3, 6, MARK], [8, 2, 1]], &[10, 4]),
    ]
}

/// Every index of each, with no node locked and with each in turn, and scratch that is a word too short.
fn worked_cases() -> Vec<Case> {
    let mut all = Vec::new();
    for g in worked_resistive().iter().chain(&worked()) {
        let mut graphs = vec![g.clone()];
        graphs.extend(g.node_indices().map(|node| g.clone().locked_at(&[node])));
        for g in graphs {
            let (last, scratch) = (g.inputs + g.nodes, 8 * g.nodes);
            all.extend((g.inputs..=last + 1).map(|root| resistive(&g, root, scratch)));
            all.push(resistive(&g, last, scratch.saturating_sub(1)));
        }
    }
    for g in at_the_edges().iter().chain(&locks_at_the_edges()) {
        let root = g.inputs.wrapping_add(g.nodes);
        all.push(resistive(g, root, 8 * g.nodes.min(500)));
    }
    all
}

pub fn resistive_cases(random: &mut Random) -> Vec<Case> {
    let mut all = worked_cases();
    for g in random_graphs(random, 60, 9) {
        let roots = g.node_indices().filter(|&node| is_root(&g, node));
        all.extend(roots.map(|root| resistive(&g, root, 8 * g.nodes)));
        let bad = damaged(random, g);
        all.push(resistive(&bad, bad.inputs + bad.nodes, 8 * bad.nodes));
    }
    for at in 0..12 {
        let shape = [Shape::Tree, Shape::Chain, Shape::Xor][at % 3];
        let g = graph(random, shape, 7, 30 + at as u32, 3);
        let g = with_locks(random, g);
        all.push(resistive(&g, g.inputs + g.nodes, 8 * g.nodes));
    }
    all
}

/// Calls on trees for resistive memory with all other kinds but those that rewire.
pub fn resistive_list_cases(random: &mut Random) -> Vec<Case> {
    let mut all = Vec::new();
    for at in 0..32 {
        let g = match at {
            0..6 => worked_resistive()[at].clone(),
            _ => {
                let shape = SHAPES[at % 8];
                let g = graph(random, shape, 5, 4 + at as u32 / 2, 4);
                locked_one_in(random, g, 6)
            }
        };
        let (list, moves) = moves_of(random, &g, 2);
        let mut calls = Vec::new();
        for _ in 0..12 {
            let kind = [0, 1, 2, 3, 4, 7, 7, 7, 7, 7][random.below(10) as usize];
            calls.extend(match kind {
                4 => [4, 0, random.below(list.len() as u32 + 1)],
                _ => {
                    let node = random.between(g.inputs + 1, g.inputs + g.nodes);
                    [kind, node, random.between(1, 3)]
                }
            });
        }
        if at % 10 == 9 {
            calls[3 * (at % 12)] = 8;
        }
        all.push(Case {
            list,
            moves,
            ..list_of(&g, calls, 8 * g.nodes, 36)
        });
    }
    all
}
