//! Assignments for a wanted output, through the safe interface.

use reducer::{lent, Graph, Refusal, Size, MARK};

fn graph(inputs: u32, node_literals: &[u32], output_literals: &[u32]) -> Graph {
    Graph::new(inputs, node_literals.to_vec(), output_literals.to_vec())
}

/// A full adder: its sum and its carry.
fn adder() -> Graph {
    graph(3, &[2, 4, 6, 2, 4, MARK, 10, 6, MARK], &[12, 8])
}

#[test]
fn a_full_adder() {
    let least = |sum, carry| adder().assignment_for(&[sum, carry]).unwrap();
    assert_eq!([least(0, 0), least(1, 0), least(0, 1), least(1, 1)], [Some(0), Some(1), Some(3), Some(7)]);
    assert_eq!([least(2, 2), least(2, 1), least(1, 2), least(0, 2)], [Some(0), Some(3), Some(1), Some(0)]);
    // Later bytes are not read.
    assert_eq!(adder().assignment_for(&[0, 1, 9, 9]), Ok(Some(3)));
}

#[test]
fn none() {
    assert_eq!(graph(2, &[2, 4, MARK], &[6, 7]).assignment_for(&[1, 1]), Ok(None));
    assert_eq!(graph(0, &[], &[0]).assignment_for(&[1]), Ok(None));
    assert_eq!(graph(0, &[], &[1]).assignment_for(&[1]), Ok(Some(0)));
    assert_eq!(graph(3, &[], &[]).assignment_for(&[]), Ok(Some(0)));
    // All 16 inputs at 1, and none beside that.
    let and: Vec<u32> = (0..15).flat_map(|at| [0, if at == 0 { 2 } else { 2 * (16 + at) }, 2 * (at + 2)]).collect();
    let all = graph(16, &and, &[62, 63]);
    assert_eq!(all.assignment_for(&[1, 2]), Ok(Some(65_535)));
    assert_eq!(all.assignment_for(&[1, 1]), Ok(None));
    assert_eq!(all.assignment_for(&[0, 1]), Ok(Some(0)));
}

/// Each input by itself is one bit, input 1 the lowest.
#[test]
fn bits_of_inputs() {
    for input in 1..=16u32 {
        assert_eq!(graph(16, &[], &[2 * input]).assignment_for(&[1]), Ok(Some(1 << (input - 1))));
        let others: Vec<u32> = (1..=16).map(|other| 2 * other + u32::from(other == input)).collect();
        assert_eq!(graph(16, &[], &others).assignment_for(&[1; 16]), Ok(Some(65_535 - (1 << (input - 1)))));
    }
}

/// 3, 4, 5, 13, 17, 18 and 8 in that order, each with all that follow it.
#[test]
fn the_order_of_refusals() {
    let inputs: u32 = 17;
    let (mut g, wanted) = (graph(inputs, &[2, 4, 36], &[2]), [3u8]);
    g.size.inputs = 4_097;
    g.locks[0] = 2;
    let told = |g: &Graph, wanted: &[u8], scratch: &mut [u64]| {
        lent::assignment(
            g.size,
            &g.node_table,
            &g.node_bits,
            &g.output_table,
            &g.output_bits,
            &g.locks,
            wanted,
            scratch,
        )
    };
    assert_eq!(told(&g, &[], &mut []), Err(Refusal::OverLimit));
    g.size.inputs = inputs;
    assert_eq!(told(&g, &[], &mut []), Err(Refusal::ShortSlice));
    assert_eq!(told(&g, &wanted, &mut []), Err(Refusal::BadLiteral));
    g.node_table[2] = 3;
    assert_eq!(told(&g, &wanted, &mut []), Err(Refusal::BadLock));
    g.locks[0] = 1;
    assert_eq!(told(&g, &wanted, &mut []), Err(Refusal::ManyInputs));
    g.size = Size { inputs: 16, ..g.size };
    assert_eq!(told(&g, &wanted, &mut []), Err(Refusal::BadWanted));
    let mut scratch = [77; 1];
    assert_eq!(told(&g, &[1], &mut []), Err(Refusal::ShortScratch));
    assert_eq!((told(&g, &[3], &mut scratch), scratch), (Err(Refusal::BadWanted), [77]));
    assert_eq!(told(&g, &[1], &mut scratch), Ok(Some(1)));
}
