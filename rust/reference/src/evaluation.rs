//! Values under one assignment, and evaluation as 64 assignments one after the other.

use crate::graph::{
    check_limits, check_literals, check_locks, check_room, index_of, is_odd, Graph, Number,
};

/// The value of a literal by plain recursion. For small graphs only: shared nodes are met again and again.
pub fn value_of_literal(g: &Graph, assignment: &[bool], literal: u32) -> bool {
    let index = index_of(literal);
    let value = if index == 0 {
        false
    } else if index <= g.inputs {
        assignment[index as usize - 1]
    } else {
        let x = value_of_literal(g, assignment, g.word(index, 0));
        let y = value_of_literal(g, assignment, g.word(index, 1));
        if g.is_xor(index) {
            x != y
        } else {
            let z = value_of_literal(g, assignment, g.word(index, 2));
            (x & y) | (x & z) | (y & z)
        }
    };
    value != is_odd(literal)
}

/// A node's value, from those of all lower indices.
pub fn node_value(g: &Graph, node: u32, below: &[bool]) -> bool {
    let of = |word: usize| {
        let literal = g.word(node, word);
        below[index_of(literal) as usize] != is_odd(literal)
    };
    if g.is_xor(node) {
        of(0) != of(1)
    } else {
        of(0) as u32 + of(1) as u32 + of(2) as u32 >= 2
    }
}

/// The value of every index by rising index.
pub fn values(g: &Graph, assignment: &[bool]) -> Vec<bool> {
    let mut all = vec![false];
    all.extend_from_slice(&assignment[..g.inputs as usize]);
    for node in g.node_indices() {
        all.push(node_value(g, node, &all));
    }
    all
}

pub fn output_values(g: &Graph, assignment: &[bool]) -> Vec<bool> {
    let all = values(g, assignment);
    g.output_table[..g.outputs as usize]
        .iter()
        .map(|&literal| all[index_of(literal) as usize] != is_odd(literal))
        .collect()
}

/// Evaluation with `scratch` words of scratch; `results` is left alone when refused.
pub fn evaluate(
    g: &Graph,
    input_words: &[u64],
    scratch: usize,
    results: &mut [u64],
) -> Result<(), Number> {
    check_limits(g.inputs, g.nodes, g.outputs)?;
    check_room(g.nodes, g.outputs, g.room())?;
    if input_words.len() < g.inputs as usize || results.len() < g.outputs as usize {
        return Err(4);
    }
    check_literals(g)?;
    check_locks(g)?;
    if scratch < g.nodes as usize {
        return Err(8);
    }
    let mut filled = vec![0u64; g.outputs as usize];
    for place in 0..64 {
        let assignment: Vec<bool> = input_words[..g.inputs as usize]
            .iter()
            .map(|word| (word >> place) % 2 == 1)
            .collect();
        for (output, &value) in output_values(g, &assignment).iter().enumerate() {
            if value {
                filled[output] += 1 << place;
            }
        }
    }
    results[..filled.len()].copy_from_slice(&filled);
    Ok(())
}
