//! Two graphs compared, through the safe interface.

use reducer::{lent, Compared, Difference, Graph, Refusal, Size, MARK};

fn graph(inputs: u32, node_literals: &[u32], output_literals: &[u32]) -> Graph {
    Graph::new(inputs, node_literals.to_vec(), output_literals.to_vec())
}

/// Node 3 is a majority, nodes 4 and 5 are XORs.
fn mixed() -> Graph {
    graph(2, &[2, 5, 4, 6, 3, MARK, 8, 7, MARK], &[10, 9])
}

/// Every choice of moves is told as it was made; it is undone by being made again.
#[test]
fn every_choice() {
    for at in 0..32u8 {
        let moves = [at % 2, at / 2 % 4, at / 8];
        let mut after = mixed();
        after.many(&[3, 4, 5], &moves).unwrap();
        assert_eq!(mixed().compare(&after), Ok(Compared::Moves(moves.to_vec())));
        assert_eq!(after.compare(&mixed()), Ok(Compared::Moves(moves.to_vec())));
    }
    assert_eq!(graph(1, &[], &[3]).compare(&graph(1, &[], &[3])), Ok(Compared::Moves(vec![])));
}

/// A settled graph: the moves that settling made lead there.
#[test]
fn settled_graphs() {
    for name in ["divider4", "multiplier4", "voter7", "alu_slice"] {
        let path = format!("{}/../../examples/{name}.aag", env!("CARGO_MANIFEST_DIR"));
        let before = Graph::import(&std::fs::read(path).unwrap()).unwrap();
        let mut settled = before.clone();
        settled.settle().unwrap();
        let Ok(Compared::Moves(moves)) = before.compare(&settled) else { panic!("{name}") };
        let nodes: Vec<u32> = (before.size.inputs + 1..=before.size.inputs + before.size.nodes).collect();
        let mut made = before.clone();
        made.many(&nodes, &moves).unwrap();
        assert_eq!(made, settled, "{name}");
    }
}

/// What differs first: sizes, then indices of both tables, then bits.
#[test]
fn differences() {
    let differs = |second: Graph| match mixed().compare(&second) {
        Ok(Compared::Differ(difference)) => difference,
        other => panic!("{other:?}"),
    };
    let (nodes, outputs) = ([2, 5, 4, 6, 3, MARK, 8, 7, MARK], [10, 9]);
    assert_eq!(differs(graph(3, &nodes, &outputs)), Difference::Inputs);
    assert_eq!(differs(graph(2, &nodes[..6], &[8])), Difference::Nodes);
    assert_eq!(differs(graph(2, &nodes, &[10])), Difference::Outputs);
    let node = |place: usize, literal: u32| {
        let mut other = nodes;
        other[place] = literal;
        differs(graph(2, &other, &[11, 9]))
    };
    assert_eq!(node(0, 4), Difference::NodeIndex(0));
    assert_eq!(node(5, 2), Difference::NodeIndex(5));
    assert_eq!(node(8, 6), Difference::NodeIndex(8));
    assert_eq!(differs(graph(2, &[3, 5, 4, 6, 3, MARK, 8, 7, MARK], &[8, 9])), Difference::OutputIndex(0));
    assert_eq!(differs(graph(2, &nodes, &[10, 7])), Difference::OutputIndex(1));
    // Word 2 of a majority tells by word 1; an XOR's words are always explained.
    assert_eq!(node(0, 3), Difference::NodeBit(1));
    assert_eq!(node(1, 4), Difference::NodeBit(1));
    assert_eq!(node(2, 5), Difference::NodeBit(2));
    assert_eq!(node(3, 7), Difference::OutputBit(1));
    assert_eq!(differs(graph(2, &nodes, &[11, 9])), Difference::OutputBit(0));
}

/// A locked node's move is told like any.
#[test]
fn locks_are_passed_over() {
    let mut after = mixed();
    after.many(&[3], &[1]).unwrap();
    let mut locked = mixed();
    locked.lock(3).unwrap();
    assert_eq!(locked.compare(&after), Ok(Compared::Moves(vec![1, 0, 0])));
    assert_eq!(after.compare(&locked), Ok(Compared::Moves(vec![1, 0, 0])));
}

#[test]
fn the_order_of_refusals() {
    let over = Graph { size: Size { inputs: 4_097, ..mixed().size }, ..mixed() };
    let short = Graph { locks: vec![0; 2], ..mixed() };
    let bad = graph(2, &[2, 5, 6, 6, 3, MARK, 8, 7, MARK], &[10, 9]);
    let lock = Graph { locks: vec![0, 2, 0], ..mixed() };
    let graphs = [(&over, Refusal::OverLimit), (&short, Refusal::ShortSlice), (&bad, Refusal::BadLiteral)];
    let graphs = [&graphs[..], &[(&lock, Refusal::BadLock)]].concat();
    for (at, (first, due)) in graphs.iter().enumerate() {
        assert_eq!((first.compare(&mixed()), mixed().compare(first)), (Err(*due), Err(*due)));
        for (other, (second, theirs)) in graphs.iter().enumerate() {
            // 3 and 4 of the second come before 5 and 13 of the first.
            let due = if at >= 2 && other < 2 { theirs } else { due };
            assert_eq!(first.compare(second), Err(*due), "{at} {other}");
        }
    }
    // Too few moves: after the first graph's slices, before the second's.
    let mut moves = [77; 4];
    let mut told = |first: &Graph, second: &Graph, many: usize| {
        (lent::compare(first.lent(), second.lent(), &mut moves[..many]), moves)
    };
    assert_eq!(told(&mixed(), &over, 2), (Err(Refusal::ShortSlice), [77; 4]));
    assert_eq!(told(&over, &mixed(), 2), (Err(Refusal::OverLimit), [77; 4]));
    assert_eq!(told(&bad, &mixed(), 2), (Err(Refusal::ShortSlice), [77; 4]));
    // Moves are left where graphs differ, and later bytes in any case.
    assert_eq!(told(&mixed(), &graph(1, &[], &[]), 4), (Ok(Some(Difference::Inputs)), [77; 4]));
    assert_eq!(told(&mixed(), &mixed(), 4), (Ok(None), [0, 0, 0, 77]));
}

#[test]
fn differences_in_words() {
    use Difference::{Inputs, NodeBit, NodeIndex, Nodes, OutputBit, OutputIndex, Outputs};
    let told =
        [Inputs, Nodes, Outputs, NodeIndex(0), OutputIndex(7), NodeBit(2), OutputBit(1)].map(|all| all.to_string());
    let due = [
        "the numbers of inputs differ",
        "the numbers of nodes differ",
        "the numbers of outputs differ",
        "the index at place 0 of the node table differs",
        "the index at place 7 of the output table differs",
        "the complement bit at place 2 of the node table differs",
        "the complement bit at place 1 of the output table differs",
    ];
    assert_eq!(told, due);
}
