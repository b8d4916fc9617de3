use crate::calls::{step, Answer, Call};
use crate::evaluation::evaluate;
use crate::file::{file_of, write};
use crate::generate::{locked_one_in, small, with_locks, with_tails};
use crate::graph::{admit, complemented_edges, index_of, Graph, MARK};
use crate::moves::{after, best, is_root, rows, tree, trial, Saving};
use crate::preview::preview;
use crate::random::Random;
use crate::settling::{settle, Settled};
use crate::vectors::samples::of;

fn p1() -> Graph {
    of(3, &[[3, 5, 7]], &[9])
}

fn p2() -> Graph {
    of(5, &[[3, 5, 6], [13, 8, 11]], &[14])
}

fn p3() -> Graph {
    of(5, &[[3, 5, 6], [12, 9, 10]], &[15])
}

/// The call leads from one graph to the other and saves so much; the locks stay.
fn goes(g: &Graph, call: Call, node_table: &[u32], output_table: &[u32], own: i64, others: i64) {
    let mut got = g.clone();
    let answer = step(&mut got, &call, 8 * g.nodes as usize);
    assert_eq!(
        answer,
        Answer::Saving(Saving { own, others }),
        "{call:?} on {g:?}"
    );
    let due = Graph {
        node_table: node_table.to_vec(),
        output_table: output_table.to_vec(),
        ..g.clone()
    };
    assert_eq!(got, due, "{call:?} on {g:?}");
}

fn stays(g: &Graph, call: Call) {
    goes(g, call, &g.node_table, &g.output_table, 0, 0);
}

#[test]
fn a_locked_node_does_not_turn() {
    let locked = p1().locked_at(&[4]);
    stays(&locked, Call::Node(4));
    stays(&locked, Call::Tree(4));
    stays(&of(2, &[[3, 5, MARK]], &[6]).locked_at(&[3]), Call::Node(3));
    stays(&of(2, &[[3, 4, MARK]], &[7]).locked_at(&[3]), Call::Node(3));
    stays(&of(3, &[[3, 5, 6]], &[9, 8]).locked_at(&[4]), Call::Node(4));
}

#[test]
fn p2_with_locks() {
    for call in [
        Call::Tree(7),
        Call::Pair(7, 1),
        Call::Node(6),
        Call::Node(7),
    ] {
        stays(&p2().locked_at(&[6]), call.clone());
        stays(&p2().locked_at(&[6, 7]), call);
    }
    // Node 7's first word turns by node 6's move, locked or not.
    let after = [2, 4, 7, 12, 8, 11];
    let upper = p2().locked_at(&[7]);
    goes(&upper, Call::Tree(7), &after, &[14], 2, 0);
    goes(&upper, Call::Pair(7, 1), &after, &[14], 2, 0);
    goes(&upper, Call::Node(6), &after, &[14], 1, 1);
    stays(&upper, Call::Node(7));
}

#[test]
fn p3_with_locks() {
    for locked in [&[6][..], &[7], &[6, 7]] {
        let g = p3().locked_at(locked);
        stays(&g, Call::Pair(7, 1));
        stays(&g, Call::Tree(7));
    }
}

/// What a preview at a root tells.
fn told(g: &Graph, root: u32) -> (i64, i64, Vec<u8>) {
    let mut moves = vec![77; g.nodes as usize];
    let saving = preview(g, root, 8 * g.nodes as usize, &mut moves).unwrap();
    (saving.own, saving.others, moves)
}

/// Of the four XORs, none locked takes moves 2, 3, 1, 3 and saves all six complemented edges.
#[test]
fn previews_with_locks() {
    assert_eq!(told(&p2().locked_at(&[6]), 7), (0, 0, vec![0, 0]));
    assert_eq!(told(&p2().locked_at(&[7]), 7), (2, 0, vec![1, 0]));
    let four = [[3, 4, MARK], [7, 5, MARK], [8, 5, MARK], [10, 5, MARK]];
    let xors = of(2, &four, &[13]);
    assert_eq!(told(&xors, 6), (5, 1, vec![2, 3, 1, 3]));
    assert_eq!(
        told(&xors.clone().locked_at(&[5]), 6),
        (3, 1, vec![2, 0, 0, 3])
    );
    assert_eq!(
        told(&xors.clone().locked_at(&[6]), 6),
        (4, 0, vec![2, 3, 1, 0])
    );
    goes(
        &xors.clone().locked_at(&[5]),
        Call::Tree(6),
        &[2, 4, MARK, 6, 5, MARK, 8, 5, MARK, 10, 4, MARK],
        &[12],
        3,
        1,
    );
    stays(&xors.locked_at(&[3, 4, 5, 6]), Call::Tree(6));
}

/// A move other than 0 at a locked node is refused by 16.
#[test]
fn trials_with_locks() {
    let trials = |g: &Graph, moves: (u32, u32)| -> Vec<Result<i64, u32>> {
        let both = (0..moves.0).flat_map(|a| (0..moves.1).map(move |k| (a, k)));
        both.map(|(a, k)| trial(g, 4, 1, a, k)).collect()
    };
    const LOCKED: Result<i64, u32> = Err(16);
    let twice = of(2, &[[3, 5, 0], [7, 7, 3]], &[9]);
    assert_eq!(trials(&twice, (2, 2)), [0, 4, 3, 3].map(Ok));
    assert_eq!(
        trials(&twice.clone().locked_at(&[3]), (2, 2)),
        [Ok(0), Ok(4), LOCKED, LOCKED]
    );
    assert_eq!(
        trials(&twice.clone().locked_at(&[4]), (2, 2)),
        [Ok(0), LOCKED, Ok(3), LOCKED]
    );
    assert_eq!(
        trials(&twice.locked_at(&[3, 4]), (2, 2)),
        [Ok(0), LOCKED, LOCKED, LOCKED]
    );
    let xor = of(2, &[[2, 4, 0], [6, 2, MARK]], &[8]);
    assert_eq!(
        trials(&xor, (2, 4)),
        [0, -2, -2, -2, -4, -4, -4, -6].map(Ok)
    );
    assert_eq!(
        trials(&xor.clone().locked_at(&[3]), (1, 4)),
        [0, -2, -2, -2].map(Ok)
    );
    assert_eq!(trials(&xor.locked_at(&[4]), (2, 1)), [0, -4].map(Ok));
}

/// 15 before 16, and the named node's move before the node's.
#[test]
fn refused_trials() {
    let xor = of(2, &[[2, 4, 0], [6, 2, MARK]], &[8]);
    for (locked, both, due) in [
        (3, (2, 4), 15),
        (3, (1, 4), 16),
        (3, (0, 4), 15),
        (4, (2, 1), 15),
        (4, (1, 4), 15),
        (4, (1, 3), 16),
    ] {
        let g = xor.clone().locked_at(&[locked]);
        assert_eq!(
            trial(&g, 4, 1, both.0, both.1),
            Err(due),
            "{locked} {both:?}"
        );
    }
    // Word 2 names an input, which has no moves to be asked for.
    let g = xor.locked_at(&[4]);
    assert_eq!(trial(&g, 4, 2, 9, 0), Ok(0));
    assert_eq!(trial(&g, 4, 2, 9, 1), Err(16));
    assert_eq!(trial(&g, 4, 2, 9, 4), Err(15));
    assert_eq!(trial(&g, 4, 3, 9, 4), Err(7));
}

/// Free, a tree call at node 5 saves 2 and then a node call at node 4 saves 2 more.
#[test]
fn settling_with_locks() {
    let g = of(3, &[[3, 4, 6], [3, 5, 8]], &[9, 9, 11]);
    let settled = |rounds, after, own, others| Settled {
        rounds,
        before: 6,
        after,
        own,
        others,
    };
    let mut upper = g.clone().locked_at(&[5]);
    assert_eq!(settle(&mut upper, 16), Ok(settled(1, 6, 0, 0)));
    assert_eq!(upper, g.clone().locked_at(&[5]));
    let mut lower = g.locked_at(&[4]);
    assert_eq!(settle(&mut lower, 16), Ok(settled(2, 4, 1, 1)));
    assert_eq!(
        lower,
        of(3, &[[3, 4, 6], [2, 4, 9]], &[9, 9, 10]).locked_at(&[4])
    );
}

#[test]
fn refusals_in_order() {
    let with = |g: Graph, locks: &[u8]| Graph {
        locks: locks.to_vec(),
        ..g
    };
    let own_named = of(5, &[[3, 5, 12], [13, 8, 11]], &[14]);
    for (g, due) in [
        (with(p2(), &[0, 0]), Ok(())),
        (with(p2(), &[1, 1, 2, 200]), Ok(())),
        (with(p2(), &[0]), Err(4)),
        (with(p2(), &[]), Err(4)),
        (with(p2(), &[2]), Err(4)),
        (with(p2(), &[2, 0]), Err(13)),
        (with(p2(), &[0, 2]), Err(13)),
        (with(p2(), &[1, 255]), Err(13)),
        (with(own_named.clone(), &[2, 0]), Err(5)),
        (with(own_named.clone(), &[2]), Err(4)),
        (with(of(5, &[[3, 5, 6]], &[14]), &[2]), Err(5)),
        (
            Graph {
                outputs: 4_097,
                ..with(own_named, &[2])
            },
            Err(3),
        ),
        (with(of(1, &[], &[3]), &[]), Ok(())),
        (with(of(1, &[], &[3]), &[9]), Ok(())),
    ] {
        assert_eq!(admit(&g), due, "{g:?}");
        assert_eq!(complemented_edges(&g).map(|_| ()), due);
        assert_eq!(write(&g, &mut [0; 100]).map(|_| ()), due);
    }
    // 13 before 7, 8 and 9.
    let bad = with(p2(), &[2, 0]);
    for call in [Call::Node(9), Call::Pair(6, 4), Call::Tree(6), Call::Settle] {
        let mut got = bad.clone();
        assert_eq!(step(&mut got, &call, 15), Answer::Refused(13));
        assert_eq!(got, bad);
    }
    assert_eq!(trial(&bad, 9, 4, 0, 0), Err(13));
    assert_eq!(write(&bad, &mut [0; 3]), Err(13));
    assert_eq!(evaluate(&bad, &[0; 5], 0, &mut [0]), Err(13));
    assert_eq!(evaluate(&bad, &[0; 4], 2, &mut [0]), Err(4));
    assert_eq!(
        evaluate(&p2().locked_at(&[6]), &[0; 5], 1, &mut [0]),
        Err(8)
    );
    // A locked node is a node, and a locked root is a root.
    let locked = p2().locked_at(&[6, 7]);
    for (call, due) in [
        (Call::Tree(6), 7),
        (Call::Pair(7, 4), 7),
        (Call::Tree(7), 8),
    ] {
        assert_eq!(
            step(&mut locked.clone(), &call, 15),
            Answer::Refused(due),
            "{call:?}"
        );
    }
}

/// Every list of moves that the kinds of these nodes have, locks left out of account.
fn lists_of_kinds(g: &Graph, nodes: &[u32]) -> Vec<Vec<usize>> {
    let Some((&first, rest)) = nodes.split_first() else {
        return vec![vec![]];
    };
    let rest = lists_of_kinds(g, rest);
    let with = |number: usize| rest.iter().map(move |list| [&[number], &list[..]].concat());
    (0..rows(g, first).len()).flat_map(with).collect()
}

/// The first with the least C of the lists that leave locked nodes at move 0.
fn first_least(g: &Graph, nodes: &[u32]) -> Vec<usize> {
    let leaves = |list: &&Vec<usize>| {
        let mut moved = nodes.iter().zip(*list);
        moved.all(|(&node, &number)| number == 0 || g.locks[(node - g.inputs - 1) as usize] == 0)
    };
    let lists = lists_of_kinds(g, nodes);
    let mut permitted = lists.iter().filter(leaves);
    let mut least = permitted.next().expect("the list of zeros");
    for list in permitted {
        if after(g, nodes, list).c() < after(g, nodes, least).c() {
            least = list;
        }
    }
    least.clone()
}

/// What a node call, the pair calls of a node and a tree call are about.
fn concerned(g: &Graph, node: u32) -> Vec<Vec<u32>> {
    let words = (0..g.words_of(node)).map(|word| index_of(g.word(node, word)));
    let mut all: Vec<Vec<u32>> = words
        .filter(|&named| g.is_node(named))
        .map(|named| vec![named, node])
        .collect();
    all.push(vec![node]);
    if is_root(g, node) {
        all.push(tree(g, node));
    }
    all
}

#[test]
fn best_leaves_locked_nodes_alone() {
    let mut random = Random::new(21);
    let (mut tried, mut changed) = (0, 0);
    while tried < 6_000 {
        let g = small(&mut random, 4, 7, 4);
        let g = with_locks(&mut random, g);
        for node in g.node_indices() {
            for nodes in concerned(&g, node) {
                if nodes.len() > 4 {
                    continue;
                }
                let due = first_least(&g, &nodes);
                assert_eq!(best(&g, &nodes), due, "{g:?} at {nodes:?}");
                let free = Graph {
                    locks: vec![0; g.locks.len()],
                    ..g.clone()
                };
                let all = first_least(&free, &nodes);
                // No lock, no difference.
                if nodes.iter().all(|&node| !g.is_locked(node)) {
                    assert_eq!(all, due);
                }
                changed += u32::from(all != due);
                tried += 1;
            }
        }
    }
    assert!(changed > 500, "{changed}");
}

/// Where settling ends, no choice that leaves locked nodes alone lowers C at a node, a pair or a tree.
#[test]
fn the_end_of_settling() {
    let mut random = Random::new(22);
    let mut held_back = 0;
    for _ in 0..600 {
        let g = small(&mut random, 4, 7, 4);
        let mut g = locked_one_in(&mut random, g, 3);
        settle(&mut g, 56).unwrap();
        let mut more = false;
        for nodes in g.node_indices().flat_map(|node| concerned(&g, node)) {
            if nodes.len() > 4 {
                continue;
            }
            assert!(first_least(&g, &nodes).iter().all(|&number| number == 0));
            let free = Graph {
                locks: vec![0; g.locks.len()],
                ..g.clone()
            };
            more |= first_least(&free, &nodes) != vec![0; nodes.len()];
        }
        held_back += u32::from(more);
    }
    assert!(held_back > 100, "{held_back}");
}

/// Any call on a graph with all nodes locked is refused as on the free one, or saves and changes nothing.
#[test]
fn all_nodes_locked() {
    let mut random = Random::new(23);
    for _ in 0..600 {
        let g = small(&mut random, 4, 8, 4);
        let g = locked_one_in(&mut random, g, 1);
        let g = with_tails(&mut random, g, 3);
        let free = Graph {
            locks: vec![0; g.locks.len()],
            ..g.clone()
        };
        for node in 0..=g.inputs + g.nodes + 1 {
            for call in [
                Call::Node(node),
                Call::Pair(node, 1),
                Call::Pair(node, 3),
                Call::Tree(node),
                Call::Settle,
            ] {
                let mut got = g.clone();
                let answer = step(&mut got, &call, 64);
                assert_eq!(got, g);
                match (answer, step(&mut free.clone(), &call, 64)) {
                    (Answer::Refused(number), due) => assert_eq!(due, Answer::Refused(number)),
                    (Answer::Saving(saving), Answer::Saving(_)) => {
                        assert_eq!(saving, Saving::default())
                    }
                    (Answer::Settled(settled), Answer::Settled(_)) => {
                        let figures = (settled.rounds, settled.before, settled.after);
                        assert_eq!(figures, (1, g.c(), g.c()));
                        assert_eq!((settled.own, settled.others), (0, 0));
                    }
                    other => panic!("{other:?}"),
                }
            }
        }
    }
}

/// Bytes past the last node's change nothing, and are not changed.
#[test]
fn tails_of_locks() {
    let mut random = Random::new(24);
    for _ in 0..600 {
        let g = small(&mut random, 4, 8, 4);
        let g = with_locks(&mut random, g);
        let mut tailed = g.clone();
        tailed.locks.extend([1, 0, 2, 200, 255]);
        let calls: Vec<Call> = g.node_indices().map(Call::Tree).collect();
        let (mut plain, mut long) = (g.clone(), tailed.clone());
        for call in calls.into_iter().chain([Call::Settle]) {
            assert_eq!(step(&mut plain, &call, 64), step(&mut long, &call, 64));
        }
        assert_eq!(plain.node_table, long.node_table);
        assert_eq!(plain.output_table, long.output_table);
        assert_eq!(long.locks, tailed.locks);
        assert_eq!(file_of(&plain), file_of(&long));
    }
}
