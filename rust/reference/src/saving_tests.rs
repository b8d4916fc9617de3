use crate::calls::{step, Answer, Call};
use crate::generate::{small, with_locks};
use crate::graph::{adds, index_of, Graph, Place, MARK};
use crate::moves::{best, is_root, node_call, pair_call, tree, tree_call, Saving};
use crate::preview::preview;
use crate::random::Random;
use crate::settling::{settle, Settled};
use crate::vectors::samples::of;

fn saves(g: &Graph, call: Call, own: i64, others: i64) {
    let scratch = 8 * g.nodes as usize;
    let due = Saving { own, others };
    assert_eq!(step(&mut g.clone(), &call, scratch), Answer::Saving(due));
    if let Call::Tree(root) = call {
        let mut moves = vec![9; g.nodes as usize];
        assert_eq!(preview(g, root, scratch, &mut moves), Ok(due));
    }
}

fn p2() -> Graph {
    of(5, &[[3, 5, 6], [13, 8, 11]], &[14])
}

fn p3() -> Graph {
    of(5, &[[3, 5, 6], [12, 9, 10]], &[15])
}

#[test]
fn worked_graphs() {
    let p1 = of(3, &[[3, 5, 7]], &[9]);
    saves(&p1, Call::Node(4), 3, 1);
    saves(&p1, Call::Tree(4), 3, 1);
    saves(&p2(), Call::Tree(7), 2, 0);
    saves(&p3(), Call::Pair(7, 1), 1, 1);
    saves(&of(2, &[[3, 5, MARK]], &[6]), Call::Node(3), 2, 0);
    saves(&of(2, &[[3, 4, MARK]], &[7]), Call::Node(3), 1, 1);
    saves(&of(3, &[[3, 5, 6]], &[9, 8]), Call::Node(4), 1, 0);
}

#[test]
fn nothing_saved() {
    for node in [6, 7] {
        saves(&p3(), Call::Node(node), 0, 0);
    }
    saves(&of(2, &[[0, 3, 5]], &[6]), Call::Node(3), 0, 0);
    saves(&of(2, &[[2, 2, 5]], &[6]), Call::Tree(3), 0, 0);
    // A word that names an input, though the node's own move would save 4.
    saves(&of(3, &[[3, 5, 7]], &[9]), Call::Pair(4, 1), 0, 0);
    saves(&p3(), Call::Pair(7, 2), 0, 0);
}

/// Either part may lose what the other more than makes up for.
#[test]
fn a_part_that_loses() {
    saves(&of(3, &[[2, 4, 7]], &[9, 9, 9]), Call::Node(4), -1, 3);
    saves(&of(3, &[[3, 5, 7]], &[8]), Call::Tree(4), 3, -1);
}

/// The words of a pair's node that read the named node are own, once or twice.
#[test]
fn words_between_a_pair() {
    saves(&p2(), Call::Pair(7, 1), 2, 0);
    // Node 3 turns, and node 4, which names it twice, does not.
    let twice = of(2, &[[3, 5, 0], [7, 7, 2]], &[8, 7]);
    saves(&twice, Call::Pair(4, 1), 3, 1);
    saves(&twice, Call::Node(3), 1, 3);
}

/// Node 4 saves nothing until node 5's tree has turned what it reads node 4 by; then a node call does.
#[test]
fn settling_sums_over_its_calls() {
    let mut g = of(3, &[[3, 4, 6], [3, 5, 8]], &[9, 9, 11]);
    saves(&g, Call::Tree(4), 0, 0);
    saves(&g, Call::Tree(5), 1, 1);
    let settled = Settled {
        rounds: 2,
        before: 6,
        after: 2,
        own: 0,
        others: 4,
    };
    assert_eq!(settle(&mut g, 16), Ok(settled));
    assert_eq!(g, of(3, &[[2, 5, 7], [2, 4, 8]], &[8, 8, 10]));
}

/// The first two rounds lower C.
#[test]
fn settling_sums_over_its_rounds() {
    let mut g = of(2, &[[4, 5, MARK], [5, 7, 2], [9, 5, 9]], &[11]);
    let settled = Settled {
        rounds: 3,
        before: 7,
        after: 1,
        own: 3,
        others: 3,
    };
    assert_eq!(settle(&mut g, 24), Ok(settled));
    assert_eq!(g, of(2, &[[4, 4, MARK], [5, 6, 2], [8, 4, 8]], &[10]));
}

/// The complemented readers of these nodes that are not their own words.
fn odd_outside(g: &Graph, nodes: &[u32]) -> i64 {
    let outside = |place: &Place| !matches!(place, Place::OfNode(node, _) if nodes.contains(node));
    let names = |place: &Place| nodes.contains(&index_of(g.at(*place)));
    let places = g.edges().into_iter().filter(outside).filter(names);
    places.map(|place| i64::from(adds(g.at(place)))).sum()
}

/// What a call that names these nodes saves: together what C falls by, and outside what the odd readers there do.
fn outside_fall(g: &Graph, nodes: &[u32], call: impl Fn(&mut Graph) -> Saving) -> Saving {
    let mut after = g.clone();
    let saved = call(&mut after);
    assert_eq!(
        saved.total(),
        i64::from(g.c()) - i64::from(after.c()),
        "{g:?}"
    );
    let due = odd_outside(g, nodes) - odd_outside(&after, nodes);
    assert_eq!(saved.others, due, "{g:?} at {nodes:?}");
    saved
}

#[test]
fn others_are_the_odd_readers_outside() {
    let mut random = Random::new(12);
    let (mut lost, mut trees) = ([0; 2], 0);
    let mut met = |saved: Saving| {
        lost[0] += u32::from(saved.own < 0);
        lost[1] += u32::from(saved.others < 0);
    };
    for _ in 0..3_000 {
        let g = small(&mut random, 4, 7, 5);
        let g = with_locks(&mut random, g);
        for node in g.node_indices() {
            met(outside_fall(&g, &[node], |g| node_call(g, node).unwrap()));
            for word in 1..=g.words_of(node) as u32 {
                let named = index_of(g.word(node, word as usize - 1));
                if g.is_node(named) {
                    let call = |g: &mut Graph| pair_call(g, node, word).unwrap();
                    met(outside_fall(&g, &[named, node], call));
                }
            }
            if is_root(&g, node) {
                let call = |g: &mut Graph| tree_call(g, node, 56).unwrap();
                met(outside_fall(&g, &tree(&g, node), call));
                trees += u32::from(best(&g, &tree(&g, node)).len() > 2);
            }
        }
    }
    assert!(
        lost[0] > 100 && lost[1] > 100 && trees > 100,
        "{lost:?} {trees}"
    );
}
