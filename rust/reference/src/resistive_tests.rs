//! Trees for resistive memory: rows worked out by hand, the sentence that the call is bought by, and one way held to the other.

use crate::calls::{run, Call};
use crate::evaluation::output_values;
use crate::generate::{graph, with_locks, Shape, SHAPES};
use crate::graph::{Graph, MARK};
use crate::moves::{after, check_tree_call, how_many, is_root, tree, tree_call, Saving};
use crate::random::Random;
use crate::replay::{calls_of, told, Words};
use crate::resistive::*;
use crate::vectors::samples::{at_the_edges, locks_at_the_edges, of};

/// A graph, a root, the moves by falling index, what they save, the nodes afterwards, and such majorities before and after.
type Worked = (Graph, u32, &'static [usize], i64, Vec<u32>, usize, usize);

fn worked() -> [Worked; 8] {
    let plain = of(3, &[[2, 4, 6], [8, 2, 4]], &[10]);
    let below_xor = of(3, &[[3, 5, 6], [8, 2, MARK]], &[10]);
    let constant = of(3, &[[3, 5, 7], [2, 4, 7], [8, 11, 1], [13, 3, MARK]], &[14]);
    let turned = vec![3, 5, 7, 2, 4, 7, 9, 10, 0, 12, 3, MARK];
    let (p1, p5) = (of(3, &[[3, 5, 7]], &[9]), of(2, &[[3, 5, MARK]], &[6]));
    let locked = |g: &Graph| (g.clone().locked_at(&[4]), g.node_table.clone());
    let ((first, first_nodes), (second, second_nodes)) = (locked(&plain), locked(&below_xor));
    [
        (plain, 5, &[0, 1], -4, vec![3, 5, 7, 9, 2, 4], 0, 1),
        (first, 5, &[0, 0], 0, first_nodes, 0, 0),
        (below_xor, 5, &[0, 1], 0, vec![2, 4, 7, 9, 2, MARK], 0, 1),
        (second, 5, &[0, 0], 0, second_nodes, 0, 0),
        (constant, 7, &[0, 1, 0, 0], 2, turned, 1, 2),
        // Roots that may not turn their readers.
        (p1, 4, &[0], 0, vec![3, 5, 7], 0, 0),
        (p5, 3, &[1], 2, vec![2, 4, MARK], 0, 0),
        // One complemented edge, and that the constant's.
        (of(2, &[[1, 2, 4]], &[6]), 3, &[0], 0, vec![1, 2, 4], 1, 1),
    ]
}

#[test]
fn worked_by_hand() {
    for (g, root, list, saved, nodes, before, later) in worked() {
        let all = tree(&g, root);
        assert_eq!(best_by_trying(&g, &all), list, "{g:?}");
        assert_eq!(best_by_sums(&g, &all), list, "{g:?}");
        assert_eq!(singles(&g, &all), before);
        let mut next = g.clone();
        let told = resistive_call(&mut next, root, 8 * all.len(), 256);
        assert_eq!(
            told,
            Ok(Saving {
                own: saved,
                others: 0
            })
        );
        assert_eq!(
            (next.node_table.clone(), singles(&next, &all)),
            (nodes, later)
        );
        assert_eq!(next.output_table, g.output_table);
    }
}

/// A graph of a random shape with locks, and the trees of it that have at most so many lists.
fn small_trees(random: &mut Random, most: u64) -> (Graph, Vec<Vec<u32>>) {
    let shape = SHAPES[random.below(8) as usize];
    let (inputs, nodes) = (random.between(0, 4), random.between(1, 9));
    let g = graph(random, shape, inputs, nodes, 2);
    let g = with_locks(random, g);
    let roots = g.node_indices().filter(|&node| is_root(&g, node));
    let trees: Vec<Vec<u32>> = roots.map(|root| tree(&g, root)).collect();
    let few = |nodes: &Vec<u32>| how_many(&g, nodes).is_some_and(|lists| lists <= most);
    let trees = trees.into_iter().filter(few).collect();
    (g, trees)
}

/// Every permitted choice has fewer such majorities, or as many and at least the same C; those before the one taken are worse.
#[test]
fn no_permitted_choice_is_better() {
    let mut random = Random::new(109);
    for _ in 0..1_500 {
        let (g, trees) = small_trees(&mut random, 512);
        for nodes in trees {
            let mut taken = g.clone();
            resistive_call(&mut taken, nodes[0], 72, 512).unwrap();
            let due = (singles(&taken, &nodes), taken.c());
            let mut met = false;
            for list in permitted(&g, &nodes) {
                let next = after(&g, &nodes, &list);
                let (many, c) = (singles(&next, &nodes), next.c());
                let worse = many < due.0 || many == due.0 && c > due.1;
                met |= next == taken;
                assert!(worse || met && (many, c) == due, "{list:?} of {g:?}");
            }
            assert!(met, "{g:?}");
        }
    }
}

#[test]
fn sums_are_what_trying_gives() {
    let mut random = Random::new(1_090);
    let mut turned = 0;
    for _ in 0..3_000 {
        let (g, trees) = small_trees(&mut random, 4_096);
        for nodes in trees {
            let list = best_by_trying(&g, &nodes);
            assert_eq!(best_by_sums(&g, &nodes), list, "{g:?}");
            turned += u32::from(list.iter().any(|&number| number != 0));
        }
    }
    assert!(turned > 500, "only {turned} trees turn anything");
}

/// Locked nodes and the root's readers stand, outputs keep their values, and nothing is saved among other edges.
#[test]
fn what_stays() {
    let mut random = Random::new(10_900);
    let mut lost = 0;
    for at in 0..200 {
        let shape = [Shape::Tree, Shape::Chain, Shape::Xor][at % 3];
        let g = graph(&mut random, shape, 4, 24, 3);
        let g = with_locks(&mut random, g);
        for root in g.node_indices().filter(|&node| is_root(&g, node)) {
            let mut next = g.clone();
            let told = resistive_call(&mut next, root, 192, 256).unwrap();
            let readers = |g: &Graph| g.readers(root).iter().map(|&place| g.at(place)).collect();
            let both: [Vec<u32>; 2] = [readers(&g), readers(&next)];
            assert_eq!(both[0], both[1]);
            assert_eq!((next.wiring(), &next.locks), (g.wiring(), &g.locks));
            assert_eq!(told.others, 0);
            assert_eq!(told.own, i64::from(g.c()) - i64::from(next.c()));
            lost += u32::from(told.own < 0);
            for number in 0..16 {
                let assignment: Vec<bool> = (0..4).map(|input| number >> input & 1 == 1).collect();
                assert_eq!(
                    output_values(&next, &assignment),
                    output_values(&g, &assignment)
                );
            }
        }
    }
    assert!(lost > 0, "no saving is below 0");
}

#[test]
fn refused_as_the_tree_call_is() {
    for g in at_the_edges().iter().chain(&locks_at_the_edges()) {
        for root in [0, 3, 4, 5, 6, 7, MARK] {
            for scratch in [0, 7, 8, 15, 16] {
                let due = tree_call(&mut g.clone(), root, scratch).map(|_| ());
                let mut next = g.clone();
                let told = resistive_call(&mut next, root, scratch, 256);
                assert_eq!(told.map(|_| ()), due);
                assert!(told.is_ok() || next == *g);
            }
        }
    }
    let inner = of(3, &[[2, 4, 6], [8, 2, 4]], &[10]);
    assert_eq!(check_tree_call(&inner, 4, 16), Err(7));
    assert_eq!(resistive_call(&mut inner.clone(), 4, 0, 256), Err(7));
    assert_eq!(resistive_call(&mut inner.clone(), 5, 15, 256), Err(8));
}

/// Kind 7 of a list, whose third word is not looked at; a kind above it is none.
#[test]
fn in_a_list() {
    let words = |calls: &[u32]| {
        calls_of(Words {
            calls,
            list: &[],
            moves: &[],
        })
    };
    let calls = words(&[7, 5, 9, 2, 5, 0, 7, 4, 0, 7, 5, 0]).unwrap();
    assert_eq!(calls[0], Call::Resistive(5));
    assert_eq!(words(&[7, 5, 9, 8, 5, 0]), Err(102));
    let mut g = of(3, &[[2, 4, 6], [8, 2, 4]], &[10]);
    let answers: Vec<[i64; 3]> = run(&mut g, &calls, 16).into_iter().map(told).collect();
    assert_eq!(answers, [[0, -4, 0], [0, 4, 0], [7, 0, 0], [0, -4, 0]]);
    assert_eq!(g.node_table, [3, 5, 7, 9, 2, 4]);
}
