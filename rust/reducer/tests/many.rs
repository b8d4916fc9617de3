//! Many moves together, through the safe interface.

use reducer::{lent, Call, Graph, Refusal, ReplayRefusal, Saving, Size, Told, MARK};

fn graph(inputs: u32, node_table: &[u32], output_table: &[u32]) -> Graph {
    Graph::new(inputs, node_table.to_vec(), output_table.to_vec())
}

/// P2 of document 01: nodes 6 and 7.
fn p2() -> Graph {
    graph(5, &[3, 5, 6, 13, 8, 11], &[14])
}

/// Node 3 is a majority, nodes 4 and 5 are XORs, and node 4 is locked.
fn mixed() -> Graph {
    let mut g = graph(2, &[2, 5, 4, 6, 3, MARK, 8, 7, MARK], &[10, 9]);
    g.lock(4).unwrap();
    g
}

/// The moves lead from one graph to the other, and save so much.
fn goes(mut g: Graph, list: &[u32], moves: &[u8], after: Graph, saved: i64) {
    let before = g.complemented_edges().unwrap();
    assert_eq!(g.many(list, moves), Ok(saved), "{list:?} {moves:?}");
    assert_eq!(g, after, "{list:?} {moves:?}");
    assert_eq!(i64::from(before) - i64::from(g.complemented_edges().unwrap()), saved);
}

#[test]
fn worked_lists() {
    let one = graph(3, &[2, 4, 6], &[8]);
    goes(one.clone(), &[4], &[1], graph(3, &[3, 5, 7], &[9]), -4);
    goes(graph(3, &[3, 5, 7], &[9]), &[4], &[1], one.clone(), 4);
    goes(one.clone(), &[], &[], one.clone(), 0);
    goes(one.clone(), &[4], &[0], one, 0);
    goes(p2(), &[6, 7], &[1, 0], graph(5, &[2, 4, 7, 12, 8, 11], &[14]), 2);
    // The edge between the two is turned twice.
    goes(p2(), &[6, 7], &[1, 1], graph(5, &[2, 4, 7, 13, 9, 10], &[15]), 0);
    // Moves past the list's end are not read.
    goes(p2(), &[6], &[1, 9, 255], graph(5, &[2, 4, 7, 12, 8, 11], &[14]), 2);
}

#[test]
fn every_move_of_an_xor() {
    let xor = |x, y, reader| graph(2, &[x, y, MARK, reader, 2, 4], &[reader, 8]);
    for (number, after, saved) in
        [(0, xor(2, 4, 6), 0), (1, xor(3, 5, 6), -2), (2, xor(3, 4, 7), -3), (3, xor(2, 5, 7), -3)]
    {
        goes(xor(2, 4, 6), &[3], &[number], after.clone(), saved);
        goes(after, &[3], &[number], xor(2, 4, 6), -saved);
    }
}

/// Each of the words that name a node turns with it.
#[test]
fn a_node_named_twice() {
    let g = graph(2, &[2, 4, 0, 6, 7, 6], &[8, 7]);
    goes(g.clone(), &[3], &[1], graph(2, &[3, 5, 1, 7, 6, 7], &[8, 6]), -3);
    goes(g, &[3, 4], &[1, 1], graph(2, &[3, 5, 1, 6, 7, 6], &[9, 6]), -3);
}

/// A locked node may be listed with move 0, and its words turn where the node that they name turns.
#[test]
fn locked_nodes() {
    let mut after = graph(2, &[3, 4, 5, 7, 3, MARK, 8, 6, MARK], &[10, 9]);
    after.lock(4).unwrap();
    goes(mixed(), &[3, 4, 5], &[1, 0, 0], after, -1);
}

/// In an entry 7, 14, 15, 16, and an entry before all that follow; then nothing has changed.
#[test]
fn entries_refused() {
    for (list, moves, due) in [
        (&[2][..], &[9][..], Refusal::NoSuchNode),
        (&[6], &[9], Refusal::NoSuchNode),
        (&[3, u32::MAX], &[1, 0], Refusal::NoSuchNode),
        (&[3, 2], &[1, 0], Refusal::NoSuchNode),
        (&[5, 3], &[1, 9], Refusal::NotRising),
        (&[3, 3], &[1, 1], Refusal::NotRising),
        (&[3, 5, 4], &[1, 0, 1], Refusal::NotRising),
        (&[3], &[2], Refusal::NoSuchMove),
        (&[4], &[4], Refusal::NoSuchMove),
        (&[3, 5], &[1, 255], Refusal::NoSuchMove),
        (&[3, 4], &[1, 1], Refusal::MoveOfLocked),
        (&[4], &[2], Refusal::MoveOfLocked),
        (&[3, 4, 9], &[1, 3, 0], Refusal::MoveOfLocked),
        (&[3, 5, 5], &[1, 4, 0], Refusal::NoSuchMove),
        (&[9, 3], &[0, 2], Refusal::NoSuchNode),
        (&[3, 4, 5], &[1, 0], Refusal::ShortSlice),
        (&[9], &[], Refusal::ShortSlice),
    ] {
        let mut g = mixed();
        assert_eq!(g.many(list, moves), Err(due), "{list:?} {moves:?}");
        assert_eq!(g, mixed());
    }
    assert_eq!(graph(3, &[8, 7, 7], &[]).many(&[9], &[0]), Err(Refusal::BadLiteral));
    assert_eq!(graph(3, &[8, 7, 7], &[]).many(&[9], &[]), Err(Refusal::ShortSlice));
    let both = Graph { locks: vec![2], ..graph(3, &[8, 7, 7], &[]) };
    assert_eq!(both.clone().many(&[9], &[0]), Err(Refusal::BadLiteral));
    let bad = Graph { locks: vec![0, 2, 0], ..mixed() };
    assert_eq!(bad.clone().many(&[9], &[0]), Err(Refusal::BadLock));
    assert_eq!(bad.clone().many(&[9], &[]), Err(Refusal::ShortSlice));
    assert_eq!(graph(0, &vec![0; 300_003], &[]).many(&[0], &[]), Err(Refusal::OverLimit));
}

/// Only the graph's part of what is lent is looked at or changed.
#[test]
fn lent_slices() {
    let size = Size { inputs: 3, nodes: 1, outputs: 1 };
    let (nodes, outputs, locks) = ([1, 2, 3, 4, 9, MARK], [4, 8, MARK], [0, 7]);
    let (mut node_bits, mut output_bits) = ([0, 77], [0, 99]);
    let made = lent::many(size, &nodes, &mut node_bits, &outputs, &mut output_bits, &locks, &[4], &[1, 9]);
    assert_eq!((made, node_bits, output_bits), (Ok(-4), [7, 77], [1, 99]));
    for short in 0..5 {
        let cut = |which: usize, enough: usize| if which == short { enough - 1 } else { enough };
        let tables = (&nodes[..cut(0, 3)], &outputs[..cut(1, 1)]);
        let bits = (&mut node_bits[..cut(2, 1)], &mut output_bits[..cut(3, 1)]);
        let made = lent::many(size, tables.0, bits.0, tables.1, bits.1, &locks[..cut(4, 1)], &[4], &[1]);
        assert_eq!((made, node_bits, output_bits), (Err(Refusal::ShortSlice), [7, 77], [1, 99]), "{short}");
    }
}

#[test]
fn a_preview_applied() {
    let xors = graph(2, &[3, 4, MARK, 7, 5, MARK, 8, 5, MARK, 10, 5, MARK], &[13]);
    for (g, root) in [(p2(), 7), (xors, 6)] {
        let told = g.preview(root).unwrap();
        let (mut made, mut called) = (g.clone(), g.clone());
        let first = g.size.inputs + 1;
        let all: Vec<u32> = (first..first + g.size.nodes).collect();
        assert_eq!(made.many(&all, &told.moves), Ok(told.saving.total()));
        called.tree_call(root).unwrap();
        assert_eq!(made, called);
    }
}

/// P1 settled, its move taken back, and settled again; parts of a list with their moves.
#[test]
fn replaying_many() {
    let p1 = graph(3, &[3, 5, 7], &[9]).write().unwrap();
    let part = |start, count| Call::Many { start, count };
    let calls = [Call::Settle, part(1, 1), Call::Settle, part(0, 1), part(0, 2), part(1, 2), part(3, 0), part(2, 1)];
    let saved = |own, others| Ok(Told::Saved(Saving { own, others }));
    let (none, short) = (Err(Refusal::NoSuchNode), Err(Refusal::ShortSlice));
    let told = vec![saved(3, 1), saved(-4, 0), saved(3, 1), none, none, short, saved(0, 0), short];
    let settled = graph(3, &[2, 4, 6], &[8]);
    assert_eq!(Graph::replay(&p1, &calls, &[5, 4, 4], &[0, 1]), Ok((settled, told)));
    assert_eq!(Graph::replay(&p1, &calls, &[5, 4], &[0, 1]), Err(ReplayRefusal::PartOutside));
    assert_eq!(Graph::replay(&p1, &[part(0, 1)], &[], &[1]), Err(ReplayRefusal::PartOutside));
    assert_eq!(Graph::replay(&[], &[part(0, 1)], &[], &[1]), Err(ReplayRefusal::PartOutside));
}

/// As many moves as there can be, at once and back.
#[test]
fn largest_list() {
    let words = |node: u32| [2 * node - 1, 2 * (node % 4_096), if node % 3 == 0 { MARK } else { 2 * (node % 4_000) }];
    let node_table = (4_097..=104_096).flat_map(words).collect();
    let mut g = Graph::new(4_096, node_table, vec![2 * 104_096 + 1; 4_096]);
    let before = g.clone();
    let list: Vec<u32> = (4_097..=104_096).collect();
    let moves: Vec<u8> = list.iter().map(|node| if node % 3 == 0 { 1 + (node / 3 % 3) as u8 } else { 1 }).collect();
    let values = g.evaluate(&vec![0x5a5a_0ff0_1234_5678; 4_096]);
    let saved = g.many(&list, &moves).unwrap();
    assert_ne!(g, before);
    assert_eq!(g.evaluate(&vec![0x5a5a_0ff0_1234_5678; 4_096]), values);
    assert_eq!(g.many(&list, &moves), Ok(-saved));
    assert_eq!(g, before);
}
