//! Trees for resistive memory, through the safe interface.

use reducer::{lent, Call, Graph, Refusal, Saving, Told, MARK};

fn graph(inputs: u32, node_literals: &[u32], output_literals: &[u32]) -> Graph {
    Graph::new(inputs, node_literals.to_vec(), output_literals.to_vec())
}

/// Two majorities, the lower read by the upper: none has a complemented input.
fn plain() -> Graph {
    graph(3, &[2, 4, 6, 8, 2, 4], &[10])
}

/// The call leads from one graph to the other and saves so much of its own.
fn goes(mut g: Graph, root: u32, after: Graph, own: i64) {
    let before = g.complemented_edges().unwrap();
    assert_eq!(g.resistive_call(root), Ok(Saving { own, others: 0 }));
    assert_eq!(g, after);
    assert_eq!(i64::from(before) - i64::from(g.complemented_edges().unwrap()), own);
}

#[test]
fn worked_trees() {
    // Four complemented edges more, and one majority with just one.
    goes(plain(), 5, graph(3, &[3, 5, 7, 9, 2, 4], &[10]), -4);
    // The root may not turn its readers: P1 stays, and an XOR has move 1.
    goes(graph(3, &[3, 5, 7], &[9]), 4, graph(3, &[3, 5, 7], &[9]), 0);
    goes(graph(2, &[3, 5, MARK], &[7]), 3, graph(2, &[2, 4, MARK], &[7]), 2);
    goes(graph(2, &[3, 4, MARK], &[7]), 3, graph(2, &[3, 4, MARK], &[7]), 0);
    // The constant's edge is an input: both have just one then.
    goes(graph(2, &[1, 3, 4, 6, 2, 4], &[8]), 4, graph(2, &[0, 2, 5, 7, 2, 4], &[8]), 0);
    // Both have just one already, and no other choice has fewer complemented edges.
    goes(graph(3, &[3, 4, 6, 9, 2, 4], &[10]), 5, graph(3, &[3, 4, 6, 9, 2, 4], &[10]), 0);
}

#[test]
fn locked_nodes_stay() {
    let locked = |mut g: Graph, node| {
        g.lock(node).unwrap();
        g
    };
    goes(locked(plain(), 4), 5, locked(plain(), 4), 0);
    goes(locked(plain(), 5), 5, locked(graph(3, &[3, 5, 7, 9, 2, 4], &[10]), 5), -4);
}

#[test]
fn what_is_refused() {
    let mut g = plain();
    for root in [0, 3, 4, 6, u32::MAX] {
        assert_eq!(g.resistive_call(root), Err(Refusal::NoSuchNode), "{root}");
    }
    assert_eq!(g, plain());
    let mut scratch = [77; 15];
    let Graph { size, node_table, node_bits, output_table, output_bits, locks } = &mut g;
    let mut lent = |root, scratch: &mut [u32]| {
        lent::resistive_call(*size, node_table, node_bits, output_table, output_bits, locks, root, scratch)
    };
    assert_eq!(lent(4, &mut scratch), Err(Refusal::NoSuchNode));
    assert_eq!((lent(5, &mut scratch), scratch), (Err(Refusal::ShortScratch), [77; 15]));
    assert_eq!(lent(5, &mut [77; 16]), Ok(Saving { own: -4, others: 0 }));
    let mut g = plain();
    g.locks[1] = 2;
    assert_eq!(g.resistive_call(9), Err(Refusal::BadLock));
    g.node_table[0] = 4;
    assert_eq!(g.resistive_call(9), Err(Refusal::BadLiteral));
    g.locks.clear();
    assert_eq!(g.resistive_call(9), Err(Refusal::ShortSlice));
    g.size.inputs = 4_097;
    assert_eq!(g.resistive_call(9), Err(Refusal::OverLimit));
}

/// Its graph is no settled one: settling takes the call back, and the call settling.
#[test]
fn replays() {
    let calls = [Call::Resistive(5), Call::Settle, Call::Resistive(4), Call::Resistive(5)];
    let saved = |own| Ok(Told::Saved(Saving { own, others: 0 }));
    let told = vec![saved(-4), saved(4), Err(Refusal::NoSuchNode), saved(-4)];
    let due = graph(3, &[3, 5, 7, 9, 2, 4], &[10]);
    assert_eq!(Graph::replay(&plain().write().unwrap(), &calls, &[], &[]), Ok((due, told)));
}
