//! Many moves together, by themselves and in lists of calls.

use crate::generate::{graph, locked_one_in, moves_of, SHAPES};
use crate::graph::{Graph, MARK};
use crate::random::Random;
use crate::vectors::case::*;
use crate::vectors::samples::*;

fn many(g: &Graph, list: &[u32], moves: &[u8]) -> Case {
    Case {
        list: list.to_vec(),
        moves: moves.to_vec(),
        ..Case::new(MANY, g)
    }
}

/// Every move at every node of the worked graphs, one more than there are.
fn worked_moves() -> Vec<Case> {
    let mut all = vec![many(&of(3, &[[2, 4, 6]], &[8]), &[4], &[1])];
    for g in worked().iter().chain(&worked_locks()) {
        all.push(many(g, &[], &[]));
        for node in g.inputs..=g.inputs + g.nodes + 1 {
            all.extend((0..5).map(|number| many(g, &[node], &[number])));
        }
    }
    all
}

/// Each way to be refused, and what is nearly refused. Node 3 is a majority, 4 an XOR that is locked, 5 an XOR.
fn refused_moves() -> Vec<Case> {
    let g = of(2, &[[2, 5, 4], [6, 3, MARK], [8, 7, MARK]], &[10, 9]).locked_at(&[4]);
    let entries: [(&[u32], &[u8]); 22] = [
        (&[3, 4, 5], &[1, 0, 3]),
        (&[3, 4, 5], &[1, 0, 3, 9, 255]),
        (&[3, 4, 5], &[1, 0]),
        (&[9], &[]),
        (&[3, 5], &[2, 3]),
        (&[3, 4, 5], &[1, 0, 4]),
        (&[3, 4, 5], &[1, 0, 255]),
        (&[3, 4, 5], &[1, 1, 3]),
        (&[3, 4, 5], &[1, 4, 3]),
        (&[4, 5], &[3, 4]),
        (&[3, 5, 4], &[1, 1, 0]),
        (&[5, 3], &[1, 2]),
        (&[3, 3], &[1, 1]),
        (&[3, 4, 4], &[0, 0, 1]),
        (&[3, 5, 6], &[1, 1, 0]),
        (&[2, 3], &[9, 1]),
        (&[3, 2], &[1, 9]),
        (&[5, 6], &[3, 9]),
        (&[MARK, 3], &[0, 1]),
        (&[3, 5, MARK], &[1, 2, 0]),
        (&[0], &[0]),
        (&[3, 5], &[0, 0]),
    ];
    let mut all: Vec<Case> = entries
        .iter()
        .map(|(list, moves)| many(&g, list, moves))
        .collect();
    for g in at_the_edges().iter().chain(&locks_at_the_edges()) {
        all.push(many(g, &[4, 5], &[1]));
        all.push(many(g, &[g.inputs.wrapping_add(1)], &[1]));
    }
    all
}

/// A random list, one entry of it damaged.
fn damaged_moves(random: &mut Random, g: &Graph) -> Case {
    let (mut list, mut moves) = moves_of(random, g, 2);
    let at = random.below(list.len().max(1) as u32) as usize;
    match random.below(5) {
        0 if !list.is_empty() => list[at] = random.below(g.inputs + g.nodes + 2),
        1 if !list.is_empty() => moves[at] = random.below(5) as u8,
        2 => moves.truncate(at),
        3 => moves.extend([9, 255]),
        _ => {}
    }
    many(g, &list, &moves)
}

pub fn many_cases(random: &mut Random) -> Vec<Case> {
    let mut all = worked_moves();
    all.extend(refused_moves());
    for g in random_graphs(random, 60, 9) {
        let (list, moves) = moves_of(random, &g, 2);
        all.push(many(&g, &list, &moves));
        all.push(damaged_moves(random, &g));
    }
    for shape in SHAPES {
        let g = graph(random, shape, 9, 100, 12);
        let g = locked_one_in(random, g, 8);
        let (list, moves) = moves_of(random, &g, 1);
        all.push(many(&g, &list, &moves));
    }
    all
}

/// Settled, its move taken back, and settled again.
fn p1_again() -> Case {
    let calls = vec![3, 0, 0, 4, 0, 1, 3, 0, 0];
    Case {
        list: vec![4],
        moves: vec![1],
        ..list_of(&worked()[0], calls, 8, 9)
    }
}

/// Calls of all kinds, many among them; each many call's part overlaps the next one's at times.
fn mixed(random: &mut Random, g: &Graph) -> Case {
    let (mut list, mut moves) = moves_of(random, g, 2);
    let (more, more_moves) = moves_of(random, g, 3);
    list.extend(more);
    moves.extend(more_moves);
    let mut calls = Vec::new();
    for _ in 0..20 {
        let kind = [0, 1, 2, 2, 3, 4, 4, 4, 4, 4][random.below(10) as usize];
        let (x, y) = if kind == 4 {
            let start = random.below(list.len() as u32 + 1);
            (start, random.below(list.len() as u32 - start + 1))
        } else {
            let last = g.inputs + g.nodes + random.below(2);
            (random.between(g.inputs, last), random.between(1, 3))
        };
        calls.extend([kind, x, y]);
    }
    if random.one_in(6) {
        moves.truncate(moves.len() / 2);
    }
    Case {
        list,
        moves,
        ..list_of(g, calls, 8 * g.nodes, 60 + random.below(3))
    }
}

/// Lists of calls with many moves among them, and replays that are not made, for a part that is outside or a kind that is none.
pub fn many_list_cases(random: &mut Random) -> Vec<Case> {
    let mut all = vec![p1_again()];
    let mut graphs = random_graphs(random, 40, 9);
    for shape in SHAPES {
        let g = graph(random, shape, 9, 30, 6);
        graphs.push(locked_one_in(random, g, 6));
    }
    all.extend(graphs.iter().map(|g| mixed(random, g)));
    for way in 0..12 {
        let mut case = all[45 - way % 4].clone();
        let length = case.list.len() as u32;
        let call = |case: &mut Case, at: usize, words: [u32; 3]| {
            case.calls[3 * at..3 * at + 3].copy_from_slice(&words)
        };
        match way {
            0 => call(&mut case, 19, [4, 0, length + 1]),
            1 => call(&mut case, 0, [4, length + 1, 0]),
            2 => call(&mut case, 7, [4, length, 1]),
            3 => call(&mut case, 7, [4, MARK, 1]),
            4 => call(&mut case, 7, [4, 1, MARK]),
            5 => call(&mut case, 7, [8, 0, 0]),
            6 => call(&mut case, 7, [4, length, 0]),
            7 => call(&mut case, 7, [4, 0, length]),
            8 => case.moves.clear(),
            9 => (case.list, case.moves) = (vec![], vec![]),
            10 => {
                case.moves.extend([9, 9]);
                case.result = 59;
            }
            _ => case.moves.extend([9, 9]),
        }
        all.push(case);
    }
    all
}
