//! Hidden majorities, through the safe interface.

use reducer::{lent, Call, Graph, Majority, Refusal, ReplayRefusal, Saving, Told, MARK};

fn graph(inputs: u32, node_literals: &[u32], output_literals: &[u32]) -> Graph {
    Graph::new(inputs, node_literals.to_vec(), output_literals.to_vec())
}

/// The import of the export of 2 4 6 -> 8.
fn imported() -> Graph {
    let text = graph(3, &[2, 4, 6], &[8]).export().unwrap();
    let g = Graph::import(&text).unwrap();
    assert_eq!(g, graph(3, &[0, 5, 7, 0, 2, 9, 0, 4, 6, 0, 11, 13], &[15]));
    g
}

#[test]
fn one_majority_comes_back() {
    let mut g = imported();
    assert_eq!(g.find(), Ok(1));
    assert_eq!(g, graph(3, &[3, 5, 7], &[9]));
    let settled = g.settle().unwrap();
    assert_eq!((settled.before, settled.after), (4, 0));
    assert_eq!(g, graph(3, &[2, 4, 6], &[8]));
    // Again there is nothing to find.
    assert_eq!(g.find(), Ok(1));
    assert_eq!(g, graph(3, &[2, 4, 6], &[8]));
}

#[test]
fn majorities_that_are_made() {
    let mut g = imported();
    let before = g.clone();
    assert_eq!(g.majority(7, [1, 2, 6]), Ok(Majority::NotCovered));
    assert_eq!(g.majority(7, [2, 3, 5]), Ok(Majority::Not));
    assert_eq!(g, before);
    assert_eq!(g.majority(7, [1, 2, 3]), Ok(Majority::Made));
    assert_eq!(g, graph(3, &[0, 5, 7, 0, 2, 9, 0, 4, 6, 3, 5, 7], &[15]));
    // By XORs, x complemented.
    let mut g = graph(3, &[3, 4, MARK, 3, 6, MARK, 0, 8, 10, 12, 3, MARK], &[14]);
    assert_eq!(g.majority(7, [1, 2, 3]), Ok(Majority::Made));
    assert_eq!(g.node_literals().unwrap()[9..], [3, 4, 6]);
}

#[test]
fn values_stay() {
    let mut g = imported();
    let words = [0xf0, 0xcc, 0xaa];
    assert_eq!(g.evaluate(&words), Ok(vec![0xe8]));
    g.find().unwrap();
    assert_eq!(g.evaluate(&words), Ok(vec![0xe8]));
}

/// A locked node is not made, and stays with all that it reads.
#[test]
fn locks_go_with_their_nodes() {
    let mut g = imported();
    g.lock(5).unwrap();
    assert_eq!(g.find(), Ok(3));
    let mut due = graph(3, &[0, 5, 7, 0, 2, 9, 3, 5, 7], &[13]);
    due.lock(5).unwrap();
    assert_eq!(g, due);
    let mut g = imported();
    g.lock(7).unwrap();
    let before = g.clone();
    assert_eq!(g.majority(7, [1, 2, 3]), Err(Refusal::MoveOfLocked));
    assert_eq!(g.find(), Ok(4));
    assert_eq!(g, before);
}

#[test]
fn what_is_refused() {
    let mut g = imported();
    let before = g.clone();
    for (node, three) in [
        (3, [1, 2, 3]),
        (8, [1, 2, 3]),
        (7, [0, 1, 2]),
        (7, [2, 1, 3]),
        (7, [1, 2, 2]),
        (7, [1, 2, 7]),
        (7, [1, 2, MARK]),
    ] {
        assert_eq!(g.majority(node, three), Err(Refusal::NoSuchNode), "{node} {three:?}");
    }
    assert_eq!(g, before);
    let mut scratch = vec![0; 31];
    let Graph { size, node_table, node_bits, output_table, output_bits, locks } = &mut g;
    let refused = lent::find(*size, node_table, node_bits, output_table, output_bits, locks, &mut scratch);
    assert_eq!(refused, Err(Refusal::ShortScratch));
    g.locks[3] = 2;
    assert_eq!((g.find(), g.majority(7, [1, 2, 3])), (Err(Refusal::BadLock), Err(Refusal::BadLock)));
    g.node_table[1] = 4;
    assert_eq!((g.find(), g.majority(7, [1, 2, 3])), (Err(Refusal::BadLiteral), Err(Refusal::BadLiteral)));
    g.size.inputs = 4_097;
    assert_eq!((g.find(), g.majority(7, [1, 2, 3])), (Err(Refusal::OverLimit), Err(Refusal::OverLimit)));
}

/// On slices that the caller lends: freed words and lock bytes are 0, and what stands behind the graph stays.
#[test]
fn lent_slices() {
    let mut g = imported();
    g.lock(6).unwrap();
    g.node_table.push(77);
    g.node_bits.push(5);
    g.locks.push(9);
    let behind = g.clone();
    let Graph { size, node_table, node_bits, output_table, output_bits, locks } = &mut g;
    let found = lent::find(*size, node_table, node_bits, output_table, output_bits, locks, &mut [0; 32]);
    assert_eq!(found, Ok(2));
    assert_eq!(g.node_table, [0, 2, 3, 1, 2, 3, 0, 0, 0, 0, 0, 0, 77]);
    assert_eq!((g.node_bits, g.locks), (vec![0b111_000, 5], vec![1, 0, 0, 0, 9]));
    assert_eq!((g.output_table, g.output_bits), (vec![5], vec![1]));
    // A graph of its own keeps what stood behind it, right behind what is left.
    let mut g = behind;
    assert_eq!(g.find(), Ok(2));
    assert_eq!(g.node_table, [0, 2, 3, 1, 2, 3, 77]);
    assert_eq!((g.node_bits, g.locks), (vec![0b111_000, 5], vec![1, 0, 9]));
}

/// A call that makes none, the finder, settling on what is left, and a call at a node that is no more.
#[test]
fn replays() {
    let (file, list) = (imported().write().unwrap(), [2, 3, 5, 1, 2, 6]);
    let three = |node, start| Call::Majority { node, start };
    let calls = [three(7, 3), three(7, 0), Call::Find, Call::Settle, Call::Node(7), three(4, 0)];
    let told = vec![
        Ok(Told::Majority(Majority::NotCovered)),
        Ok(Told::Majority(Majority::Not)),
        Ok(Told::Found(1)),
        Ok(Told::Saved(Saving { own: 3, others: 1 })),
        Err(Refusal::NoSuchNode),
        Err(Refusal::NoSuchNode),
    ];
    assert_eq!(Graph::replay(&file, &calls, &list, &[]), Ok((graph(3, &[2, 4, 6], &[8]), told)));
    assert_eq!(Graph::replay(&file, &[three(7, 4)], &list, &[]), Err(ReplayRefusal::PartOutside));
}
