//! Comparisons: one way held to the other, and what moves explain and what they do not.

use crate::compare::*;
use crate::generate::{small, with_locks};
use crate::graph::{turned, Graph, MARK};
use crate::moves::{after, moves_at, rows};
use crate::packed::{pack, Packed};
use crate::random::Random;
use crate::vectors::samples::of;

fn p2() -> Graph {
    of(5, &[[3, 5, 6], [13, 8, 11]], &[14])
}

#[test]
fn by_hand() {
    let moves = |list: &[u8]| Compared::Moves(list.to_vec());
    let (g, settled) = (p2(), of(5, &[[2, 4, 7], [12, 8, 11]], &[14]));
    assert_eq!(by_trying(&g, &settled), moves(&[1, 0]));
    assert_eq!(by_trying(&settled, &g), moves(&[1, 0]));
    assert_eq!(by_trying(&g, &g), moves(&[0, 0]));
    // A locked node's move is told as any.
    assert_eq!(
        by_trying(&g.clone().locked_at(&[6]), &settled),
        moves(&[1, 0])
    );
    for (other, told) in [
        (of(4, &[[3, 5, 6], [13, 8, 11]], &[14]), [1, 0]),
        (of(5, &[[3, 5, 6]], &[]), [1, 1]),
        (of(5, &[[3, 5, 6], [13, 8, 11]], &[]), [1, 2]),
        (of(5, &[[3, 5, 6], [13, 6, 11]], &[2]), [2, 4]),
        (of(5, &[[3, 5, MARK], [13, 8, 11]], &[14]), [2, 2]),
        (of(5, &[[2, 4, 6], [13, 8, 11]], &[2]), [3, 0]),
        (of(5, &[[2, 5, 6], [13, 8, 11]], &[14]), [4, 1]),
        (of(5, &[[2, 4, 6], [13, 8, 11]], &[15]), [4, 2]),
        (of(5, &[[2, 4, 7], [12, 8, 10]], &[14]), [4, 5]),
        (of(5, &[[2, 4, 7], [12, 8, 11]], &[15]), [5, 0]),
    ] {
        assert_eq!(by_trying(&g, &other), Compared::Differ(told), "{other:?}");
        assert_eq!(by_nodes(&g, &other), Compared::Differ(told), "{other:?}");
    }
    let (xor, other) = (of(2, &[[3, 5, MARK]], &[6]), of(2, &[[3, 4, MARK]], &[7]));
    assert_eq!(by_trying(&xor, &other), moves(&[3]));
    assert_eq!(
        by_trying(&xor, &of(2, &[[3, 4, MARK]], &[6])),
        Compared::Differ([5, 0])
    );
    assert_eq!(
        by_trying(&of(1, &[], &[2]), &of(1, &[], &[3])),
        Compared::Differ([5, 0])
    );
}

/// Moved at random, then damaged in a bit or in an index, or not.
fn other(random: &mut Random, g: &Graph) -> Graph {
    let nodes: Vec<u32> = g.node_indices().collect();
    let list: Vec<usize> = nodes
        .iter()
        .map(|&node| random.below(rows(g, node).len() as u32) as usize)
        .collect();
    let mut next = after(g, &nodes, &list);
    let table = if random.one_in(3) {
        &mut next.output_table
    } else {
        &mut next.node_table
    };
    if !table.is_empty() && random.one_in(2) {
        let at = random.below(table.len() as u32) as usize;
        table[at] = match table[at] {
            MARK => 0,
            word if random.one_in(4) => word & 1,
            word => turned(word),
        };
    }
    next
}

#[test]
fn one_way_as_the_other() {
    let (mut random, mut met) = (Random::new(111), [0; 6]);
    for _ in 0..4_000 {
        let g = small(&mut random, 4, 5, 3);
        let g = with_locks(&mut random, g);
        let h = other(&mut random, &g);
        let told = by_trying(&g, &h);
        assert_eq!(by_nodes(&g, &h), told, "{g:?} and {h:?}");
        match told {
            Compared::Moves(moves) => {
                met[0] += 1;
                let nodes: Vec<u32> = g.node_indices().collect();
                let list: Vec<usize> = moves.iter().map(|&number| number.into()).collect();
                assert_eq!(after(&g, &nodes, &list), h);
            }
            Compared::Differ([what, _]) => met[what as usize] += 1,
        }
    }
    assert!(
        [0, 2, 3, 4, 5].iter().all(|&what| met[what] > 50),
        "{met:?}"
    );
}

/// What lists of permitted moves lead to is told by one list alone.
#[test]
fn moves_come_back() {
    let mut random = Random::new(1_110);
    for _ in 0..300 {
        let g = small(&mut random, 4, 40, 6);
        let g = with_locks(&mut random, g);
        let nodes: Vec<u32> = g.node_indices().collect();
        let pick =
            |random: &mut Random, node| random.below(moves_at(&g, node).len() as u32) as usize;
        let list: Vec<usize> = nodes.iter().map(|&node| pick(&mut random, node)).collect();
        let told = by_nodes(&g, &after(&g, &nodes, &list));
        assert_eq!(
            told,
            Compared::Moves(list.iter().map(|&number| number as u8).collect())
        );
    }
}

#[test]
fn refused_in_order() {
    let fine = pack(&p2());
    let with = |change: &dyn Fn(&mut Packed)| {
        let mut p = fine.clone();
        change(&mut p);
        p
    };
    let large = with(&|p| p.inputs = 4_097);
    let short = with(&|p| p.locks.truncate(1));
    let high = with(&|p| p.output_table[0] = 8);
    let locked = with(&|p| p.locks[0] = 2);
    let number = |p: &Packed, q: &Packed, bytes| compare(p, q, &mut vec![9; bytes]).unwrap_err();
    assert_eq!(number(&large, &short, 0), 3);
    assert_eq!(number(&short, &large, 2), 4);
    assert_eq!(number(&high, &large, 1), 4);
    assert_eq!(number(&high, &large, 2), 3);
    assert_eq!(number(&high, &short, 2), 4);
    assert_eq!(number(&high, &locked, 2), 5);
    assert_eq!(number(&locked, &high, 2), 13);
    assert_eq!(number(&fine, &high, 2), 5);
    assert_eq!(number(&fine, &locked, 2), 13);
    let mut bytes = [9; 3];
    assert_eq!(compare(&fine, &fine, &mut bytes), Ok([0, 0]));
    assert_eq!(bytes, [0, 0, 9]);
    let mut bytes = [9; 3];
    let less = pack(&of(5, &[], &[0]));
    assert_eq!(compare(&fine, &less, &mut bytes), Ok([1, 1]));
    assert_eq!(bytes, [9; 3]);
}
