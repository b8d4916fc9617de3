//! Locks of an owned graph, in its file and in lent slices.

use reducer::{lent, Graph, Refusal, Size};

/// P2 of document 01: nodes 6 and 7.
fn p2() -> Graph {
    Graph::new(5, vec![3, 5, 6, 13, 8, 11], vec![14])
}

const FREE: [u8; 55] = [
    1, 0, 12, 0, 0, 0, 5, 0, 0, 0, 2, 0, 0, 0, 1, 2, 0, 12, 0, 0, 0, 3, 0, 0, 0, 5, 0, 0, 0, 6, 2, 0, 12, 0, 0, 0, 13,
    0, 0, 0, 8, 0, 0, 0, 11, 4, 0, 4, 0, 0, 0, 14, 5, 0, 0,
];

/// P2's file with these bytes before its end.
fn with(fields: &[&[u8]]) -> Vec<u8> {
    [&FREE[..52], &fields.concat(), &FREE[52..]].concat()
}

fn lock(index: u8) -> [u8; 7] {
    [6, 0, 4, 0, 0, 0, index]
}

#[test]
fn locking_and_unlocking() {
    let mut g = p2();
    assert_eq!((g.locked(), g.is_locked(6), g.is_locked(7)), (0, Ok(false), Ok(false)));
    assert_eq!(g.lock(7), Ok(()));
    assert_eq!(g.lock(7), Ok(()));
    assert_eq!((g.locked(), g.is_locked(6), g.is_locked(7)), (1, Ok(false), Ok(true)));
    assert_eq!(g.lock(6), Ok(()));
    assert_eq!((g.locked(), &g.locks[..]), (2, &[1, 1][..]));
    assert_eq!(g.unlock(7), Ok(()));
    assert_eq!(g.unlock(7), Ok(()));
    assert_eq!((g.locked(), &g.locks[..]), (1, &[1, 0][..]));
    let kept = g.clone();
    for none in [0, 1, 5, 8, 9, u32::MAX] {
        assert_eq!(g.lock(none), Err(Refusal::NoSuchNode));
        assert_eq!(g.unlock(none), Err(Refusal::NoSuchNode));
        assert_eq!(g.is_locked(none), Err(Refusal::NoSuchNode));
    }
    assert_eq!(g, kept);
    assert_eq!(Graph::default().lock(1), Err(Refusal::NoSuchNode));
}

/// The fields may be set to anything.
#[test]
fn locks_that_are_none() {
    let short = Graph { locks: vec![1], ..p2() };
    assert_eq!((short.is_locked(6), short.is_locked(7), short.locked()), (Ok(true), Err(Refusal::ShortSlice), 1));
    assert_eq!(short.clone().lock(7), Err(Refusal::ShortSlice));
    assert_eq!(short.complemented_edges(), Err(Refusal::ShortSlice));
    let mut bad = Graph { locks: vec![1, 2, 1], ..p2() };
    assert_eq!((bad.is_locked(7), bad.locked()), (Err(Refusal::BadLock), 1));
    let before = bad.clone();
    assert_eq!(bad.complemented_edges(), Err(Refusal::BadLock));
    assert_eq!(bad.write(), Err(Refusal::BadLock));
    assert_eq!(bad.export(), Err(Refusal::BadLock));
    assert_eq!(bad.evaluate(&[0; 5]), Err(Refusal::BadLock));
    assert_eq!(bad.preview(9), Err(Refusal::BadLock));
    assert_eq!(bad.trial(9, 1, 0, 0), Err(Refusal::BadLock));
    assert_eq!(bad.node_call(9), Err(Refusal::BadLock));
    assert_eq!(bad.pair_call(9, 1), Err(Refusal::BadLock));
    assert_eq!(bad.tree_call(9), Err(Refusal::BadLock));
    assert_eq!(bad.settle(), Err(Refusal::BadLock));
    assert_eq!(bad, before);
    assert_eq!(bad.unlock(7), Ok(()));
    assert_eq!(bad.complemented_edges(), Ok(4));
    let literal = Graph { locks: vec![2, 2], ..Graph::new(5, vec![3, 5, 6, 14, 8, 11], vec![14]) };
    assert_eq!(literal.complemented_edges(), Err(Refusal::BadLiteral));
}

#[test]
fn files_with_locks() {
    for (nodes, fields) in
        [(&[][..], vec![]), (&[6], vec![lock(6)]), (&[7], vec![lock(7)]), (&[6, 7], vec![lock(6), lock(7)])]
    {
        let mut g = p2();
        nodes.iter().for_each(|&node| g.lock(node).unwrap());
        let fields: Vec<&[u8]> = fields.iter().map(|field| &field[..]).collect();
        assert_eq!(g.write(), Ok(with(&fields)));
        assert_eq!(Graph::load(&with(&fields)), Ok(g));
    }
    for (fields, due) in [
        (&[&lock(5)[..]][..], Refusal::BadLock),
        (&[&lock(8)], Refusal::BadLock),
        (&[&lock(6), &lock(6)], Refusal::BadLock),
        (&[&lock(7), &lock(6)], Refusal::BadLock),
        (&[&lock(6), &lock(7), &lock(8)], Refusal::BadLock),
        (&[&[6, 0, 3, 0, 0, 6]], Refusal::WrongField),
        (&[&[7, 0, 4, 0, 0, 0, 6]], Refusal::WrongField),
        (&[&lock(6), &[4, 0, 4, 0, 0, 0, 14]], Refusal::WrongField),
    ] {
        assert_eq!(Graph::load(&with(fields)), Err(due), "{fields:?}");
    }
    let both = with(&[&lock(6), &lock(7)]);
    for end in 0..both.len() {
        assert_eq!(Graph::load(&both[..end]), Err(Refusal::MissingBytes), "{end}");
    }
    assert_eq!(Graph::load(&[&both[..], &lock(7)].concat()), Err(Refusal::ExtraBytes));
    assert_eq!(Graph::load(&[&FREE[..45], &lock(6), &FREE[45..]].concat()), Err(Refusal::WrongField));
    assert_eq!(lent::field(&lock(6)), Ok(&[0, 0, 0, 6][..]));
    assert_eq!(lent::field(&lock(6)[..6]), Err(Refusal::MissingBytes));
}

/// No old byte stays, later ones do, and a refused file leaves all.
#[test]
fn loading_into_lent_locks() {
    let (mut node_table, mut node_bits, mut output_table, mut output_bits) = ([77; 6], [77; 1], [77; 1], [77; 1]);
    let mut load = |file: &[u8], locks: &mut [u8]| {
        let told = lent::load(file, &mut node_table, &mut node_bits, &mut output_table, &mut output_bits, locks);
        (told, (node_table, node_bits, output_table, output_bits))
    };
    let mut locks = [77; 3];
    for (file, bytes, due) in [
        (with(&[&lock(8)]), 3, Refusal::BadLock),
        (with(&[&lock(6)]), 1, Refusal::ShortSlice),
        (with(&[]), 0, Refusal::ShortSlice),
    ] {
        assert_eq!(load(&file, &mut locks[..bytes]), (Err(due), ([77; 6], [77], [77], [77])));
        assert_eq!(locks, [77; 3]);
    }
    let size = Size { inputs: 5, nodes: 2, outputs: 1 };
    let tables = ([1, 2, 3, 6, 4, 5], [0b101011], [7], [0]);
    assert_eq!(load(&with(&[&lock(7)]), &mut locks), (Ok(size), tables));
    assert_eq!(locks, [0, 1, 77]);
    assert_eq!(load(&with(&[]), &mut locks), (Ok(size), tables));
    assert_eq!(locks, [0, 0, 77]);
    let mut buffer = [77; 71];
    let mut write = |room: usize| {
        let (node_table, node_bits, output_table, output_bits) = &tables;
        let buffer = &mut buffer[..room];
        (lent::write(size, node_table, node_bits, output_table, output_bits, &[1, 1, 2], buffer), buffer.to_vec())
    };
    assert_eq!(write(68), (Err(Refusal::ShortBuffer), vec![77; 68]));
    assert_eq!(write(71), (Ok(69), [&with(&[&lock(6), &lock(7)])[..], &[77, 77]].concat()));
}

/// An import is free, and an export is the same with locks and without.
#[test]
fn texts_know_no_locks() {
    let mut g = Graph::new(3, vec![2, 4, 6], vec![8]);
    let text = g.export().unwrap();
    g.lock(4).unwrap();
    assert_eq!(g.export(), Ok(text.clone()));
    assert_eq!(g.evaluate(&[0xF0, 0xCC, 0xAA]), Ok(vec![0xE8]));
    assert_eq!(Graph::import(&text).unwrap().locks, [0; 4]);
}
