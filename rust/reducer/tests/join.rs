//! Stages joined, through the safe interface.

use reducer::{lent, Graph, Refusal, Size, MARK};

fn graph(inputs: u32, node_literals: &[u32], output_literals: &[u32]) -> Graph {
    Graph::new(inputs, node_literals.to_vec(), output_literals.to_vec())
}

#[test]
fn edges_that_meet() {
    let inverter = graph(1, &[], &[3]);
    assert_eq!(inverter.join(&inverter), Ok(graph(1, &[], &[2])));
    assert_eq!(graph(1, &[], &[2]).join(&inverter), Ok(inverter.clone()));
    assert_eq!(graph(1, &[], &[1]).join(&inverter), Ok(graph(1, &[], &[0])));
    assert_eq!(inverter.join(&graph(1, &[], &[1, 0])), Ok(graph(1, &[], &[1, 0])));
    let mut first = graph(3, &[3, 5, 7], &[9, 4]);
    first.lock(4).unwrap();
    let mut second = graph(2, &[2, 5, 0, 7, 3, MARK], &[8, 5]);
    second.lock(4).unwrap();
    let mut due = graph(3, &[3, 5, 7, 9, 5, 0, 11, 8, MARK], &[12, 5]);
    due.lock(4).unwrap();
    due.lock(6).unwrap();
    assert_eq!(first.join(&second), Ok(due));
    assert_eq!(graph(2, &[], &[]).join(&graph(0, &[], &[1])), Ok(graph(2, &[], &[1])));
}

/// One bit of a ripple adder: sums so far, the bits that are left and the carry, each time with one more bit added.
fn stage(width: u32) -> Graph {
    let (x, y, carry) = (2, 2 * (1 + width), 2 * (1 + 2 * width));
    let first = carry + 2;
    let nodes = [x, y, MARK, first, carry, MARK, x, y, carry];
    let turned = |from: u32, last: u32| (1..width).map(move |at| from + 2 * at).chain([last]);
    let outputs = turned(x, first + 2).chain(turned(y, y)).chain([first + 4]);
    graph(2 * width + 1, &nodes, &outputs.collect::<Vec<u32>>())
}

/// A stage joined with itself as often as the numbers have bits adds them.
#[test]
fn an_adder_of_stages() {
    let width = 3;
    let one = stage(width);
    let adder = one.join(&one).unwrap().join(&one).unwrap();
    assert_eq!(adder.size, Size { inputs: 7, nodes: 9, outputs: 7 });
    for assignment in 0..128u64 {
        let words: Vec<u64> = (0..7).map(|bit| assignment >> bit & 1).collect();
        let told = adder.evaluate(&words).unwrap();
        let sum = told[..3].iter().rev().fold(told[6] & 1, |sum, bit| 2 * sum + (bit & 1));
        assert_eq!(sum, assignment % 8 + assignment / 8 % 8 + assignment / 64);
    }
}

/// Each output has the second's value on the first's outputs, and settling parts and whole keeps it.
#[test]
fn settled_stages() {
    let [mut first, mut second] = [stage(2), stage(2)];
    let words = [0xaaaa_aaaa, 0xcccc_cccc, 0xf0f0_f0f0, 0xff00_ff00, 0xffff_0000];
    let due = second.evaluate(&first.evaluate(&words).unwrap()).unwrap();
    assert_eq!(first.join(&second).unwrap().evaluate(&words), Ok(due.clone()));
    first.settle().unwrap();
    second.settle().unwrap();
    let mut whole = first.join(&second).unwrap();
    let joined = whole.complemented_edges().unwrap();
    assert!(whole.settle().unwrap().after <= joined);
    assert_eq!(whole.evaluate(&words), Ok(due));
}

/// The first graph whole, the second whole, 19, then the joined one.
#[test]
fn the_order_of_refusals() {
    let good = graph(3, &[3, 5, 7], &[9]);
    let over = Graph { size: Size { inputs: 4_097, ..good.size }, ..good.clone() };
    let short = Graph { locks: vec![], ..good.clone() };
    let bad = graph(3, &[8, 7, 7], &[9]);
    let lock = Graph { locks: vec![2], ..good.clone() };
    let faults = [(&over, Refusal::OverLimit), (&short, Refusal::ShortSlice), (&bad, Refusal::BadLiteral)];
    let faults = [&faults[..], &[(&lock, Refusal::BadLock)]].concat();
    for (graph, due) in &faults {
        assert_eq!((graph.join(&good), good.join(graph)), (Err(*due), Err(*due)));
        assert!(faults.iter().all(|(other, _)| graph.join(other) == Err(*due)));
    }
    assert_eq!(good.join(&good), Err(Refusal::StagesDiffer));
    let half = graph(1, &[2; 150_003], &[2]);
    assert_eq!(half.join(&half), Err(Refusal::OverLimit));
    assert_eq!(half.join(&good), Err(Refusal::StagesDiffer));
    assert!(half.join(&graph(1, &[2; 149_997], &[2])).is_ok());
}

/// Only the joined graph's part is filled, and nothing where a slice is too short.
#[test]
fn lent_slices() {
    let (first, second) = (graph(3, &[3, 5, 7], &[9]), graph(1, &[2, 0, MARK], &[5, 3]));
    let room = [6, 1, 2, 1, 2];
    for short in 0..=room.len() {
        let many = |which: usize| if which == short { room[which] - 1 } else { room[which] };
        let mut tables = ([77u32; 7], [77u64; 2], [77u32; 3], [77u64; 2], [77u8; 3]);
        let joined = lent::join(
            first.lent(),
            second.lent(),
            &mut tables.0[..many(0)],
            &mut tables.1[..many(1)],
            &mut tables.2[..many(2)],
            &mut tables.3[..many(3)],
            &mut tables.4[..many(4)],
        );
        if short < room.len() {
            assert_eq!(joined, Err(Refusal::ShortSlice), "{short}");
            assert_eq!(tables, ([77; 7], [77; 2], [77; 3], [77; 2], [77; 3]));
        } else {
            assert_eq!(joined, Ok(Size { inputs: 3, nodes: 2, outputs: 2 }));
            assert_eq!(tables.0, [1, 2, 3, 4, 0, MARK, 77]);
            assert_eq!((tables.1, tables.2, tables.3), ([0b001_111, 77], [5, 4, 77], [0b01, 77]));
            assert_eq!(tables.4, [0, 0, 77]);
        }
    }
}
