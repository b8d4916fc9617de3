use crate::fast::Fast;
use crate::generate::{graph, small, with_locks, with_tails, Shape};
use crate::graph::{Graph, MARK};
use crate::moves::{best, how_many, is_root, make, tree, tree_call, tree_call_by, Saving};
use crate::preview::{preview, preview_by};
use crate::random::Random;
use crate::trees::best_of_tree;
use crate::vectors::samples::of;

fn both(own: i64, others: i64) -> Saving {
    Saving { own, others }
}

/// What a preview at a root tells, with just enough bytes and scratch.
fn told(g: &Graph, root: u32) -> (Saving, Vec<u8>) {
    let mut moves = vec![77; g.nodes as usize];
    let saving = preview(g, root, 8 * g.nodes as usize, &mut moves);
    (saving.unwrap(), moves)
}

#[test]
fn worked_graphs() {
    assert_eq!(told(&of(3, &[[3, 5, 7]], &[9]), 4), (both(3, 1), vec![1]));
    let p2 = of(5, &[[3, 5, 6], [13, 8, 11]], &[14]);
    assert_eq!(told(&p2, 7), (both(2, 0), vec![1, 0]));
    let p3 = of(5, &[[3, 5, 6], [12, 9, 10]], &[15]);
    assert_eq!(told(&p3, 7), (both(1, 1), vec![1, 1]));
    let p8 = of(2, &[[2, 2, 5]], &[6]);
    assert_eq!(told(&p8, 3), (both(0, 0), vec![0]));
    let p9 = of(3, &[[3, 5, 6]], &[9, 8]);
    assert_eq!(told(&p9, 4), (both(1, 0), vec![1]));
}

#[test]
fn moves_of_xor() {
    assert_eq!(
        told(&of(2, &[[2, 4, MARK]], &[6]), 3),
        (both(0, 0), vec![0])
    );
    assert_eq!(
        told(&of(2, &[[3, 5, MARK]], &[6]), 3),
        (both(2, 0), vec![1])
    );
    assert_eq!(
        told(&of(2, &[[3, 4, MARK]], &[7]), 3),
        (both(1, 1), vec![2])
    );
    assert_eq!(
        told(&of(2, &[[2, 5, MARK]], &[7]), 3),
        (both(1, 1), vec![3])
    );
    // No move lowers C; 1 and 2 keep it, and are not taken.
    assert_eq!(
        told(&of(2, &[[3, 4, MARK]], &[6]), 3),
        (both(0, 0), vec![0])
    );
    // Nothing reads it.
    assert_eq!(told(&of(2, &[[3, 5, MARK]], &[]), 3), (both(2, 0), vec![1]));
    // The one choice that leaves no complemented edge: an edge that two moves turn ends as it was.
    let four = [[3, 4, MARK], [7, 5, MARK], [8, 5, MARK], [10, 5, MARK]];
    assert_eq!(
        told(&of(2, &four, &[13]), 6),
        (both(5, 1), vec![2, 3, 1, 3])
    );
}

/// Node 4 is a root that node 6 reads; node 5 is of node 6's tree.
#[test]
fn trees_beside_each_other() {
    let g = of(3, &[[3, 5, 7], [3, 5, MARK], [10, 8, 4]], &[9, 12]);
    assert_eq!(told(&g, 4), (both(3, 0), vec![1, 0, 0]));
    assert_eq!(told(&g, 6), (both(2, 0), vec![0, 1, 0]));
}

#[test]
fn later_bytes_stay() {
    let p2 = of(5, &[[3, 5, 6], [13, 8, 11]], &[14]);
    let mut moves = [9; 4];
    assert_eq!(preview(&p2, 7, 16, &mut moves), Ok(both(2, 0)));
    assert_eq!(moves, [1, 0, 9, 9]);
}

/// Each fault is put right in turn, and the next is told.
#[test]
fn refusals_in_order() {
    let refused = |g: &Graph, root, scratch, bytes, due| {
        let mut moves = vec![9; bytes];
        assert_eq!(preview(g, root, scratch, &mut moves), Err(due));
        assert_eq!(moves, vec![9; bytes]);
    };
    let mut g = of(5, &[[3, 5, 12], [13, 8, 11]], &[14]);
    g.outputs = 4_097;
    refused(&g, 5, 15, 1, 3);
    g.outputs = 2;
    refused(&g, 5, 15, 2, 4);
    g.outputs = 1;
    refused(&g, 5, 15, 1, 4);
    g.locks = vec![2];
    refused(&g, 5, 15, 2, 4);
    g.locks = vec![2, 0];
    refused(&g, 5, 15, 2, 5);
    g.node_table[2] = 6;
    refused(&g, 5, 15, 2, 13);
    g.locks = vec![0, 0, 2];
    for not in [0, 5, 6, 8, MARK] {
        refused(&g, not, 15, 2, 7);
    }
    refused(&g, 7, 15, 2, 8);
    assert_eq!(preview(&g, 7, 16, &mut [9; 2]), Ok(both(2, 0)));
    let no_nodes = of(1, &[], &[3]);
    refused(&no_nodes, 1, 0, 0, 7);
    refused(&no_nodes, 2, 0, 0, 7);
}

/// That the moves, made one by one from either end, give the tree call's graph.
fn lead_to(g: &Graph, moves: &[u8], after: &Graph) {
    let (mut up, mut down) = (g.clone(), g.clone());
    for (node, &number) in g.node_indices().zip(moves) {
        make(&mut up, node, number as usize);
    }
    for (node, &number) in g.node_indices().rev().zip(moves.iter().rev()) {
        make(&mut down, node, number as usize);
    }
    assert_eq!((&up, &down), (after, after), "{g:?}");
}

#[test]
fn previews_are_what_tree_calls_do() {
    let mut random = Random::new(9);
    let (mut previews, mut met) = (0, [0; 4]);
    for _ in 0..4_000 {
        let g = small(&mut random, 4, 8, 4);
        let g = with_locks(&mut random, g);
        let g = with_tails(&mut random, g, 3);
        for root in g.node_indices().filter(|&node| is_root(&g, node)) {
            let nodes = tree(&g, root);
            if how_many(&g, &nodes).is_none_or(|lists| lists > 1024) {
                continue;
            }
            let mut moves = vec![9; g.nodes as usize];
            let scratch = 8 * g.nodes as usize;
            let saving = preview_by(&g, root, scratch, &mut moves, &best);
            let mut after = g.clone();
            assert_eq!(saving, tree_call(&mut after, root, scratch), "{g:?}");
            lead_to(&g, &moves, &after);
            assert_eq!(told(&g, root), (saving.unwrap(), moves.clone()));
            for (node, &number) in g.node_indices().zip(&moves) {
                let may = nodes.contains(&node) && !g.is_locked(node);
                assert!(number == 0 || may, "{g:?}");
                met[number as usize] += 1;
            }
            previews += 1;
        }
    }
    assert!(previews > 10_000, "{previews}");
    assert!(met.iter().all(|&count| count > 500), "{met:?}");
}

#[test]
fn fast_previews() {
    let mut random = Random::new(10);
    for _ in 0..1_000 {
        let g = small(&mut random, 4, 9, 4);
        let g = with_locks(&mut random, g);
        let mut fast = Fast::new(g.clone());
        for root in g.node_indices() {
            assert_eq!(fast.is_root(root), is_root(&g, root));
            if is_root(&g, root) {
                assert_eq!(fast.preview(root), told(&g, root), "{g:?}");
                assert_eq!(fast.g, g);
            }
        }
    }
}

#[test]
fn large_trees() {
    let mut random = Random::new(11);
    let mut largest = 0;
    for _ in 0..6 {
        // An output reads the last node.
        let g = graph(&mut random, Shape::Tree, 20, 200, 1);
        let g = with_locks(&mut random, g);
        let (saving, moves) = told(&g, 220);
        let mut after = g.clone();
        let called = tree_call_by(&mut after, 220, 1_600, &best_of_tree);
        assert_eq!(called, Ok(saving));
        lead_to(&g, &moves, &after);
        assert_eq!(Fast::new(g.clone()).preview(220), (saving, moves));
        largest = largest.max(tree(&g, 220).len());
    }
    assert!(largest > 100, "{largest}");
}
