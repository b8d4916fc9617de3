use crate::calls::{run, step, Answer, Call};
use crate::evaluation::{evaluate, output_values, value_of_literal, values};
use crate::fast::Fast;
use crate::file::{field, field_number, file_of, load, write};
use crate::generate::{graph, moves_of, small, with_locks, with_tails, Shape, SHAPES};
use crate::graph::{admit, complemented_edges, Graph, MARK};
use crate::moves::{
    all_lists, best, how_many, is_root, node_call, pair_call, tree, tree_call, tree_call_by,
};
use crate::random::Random;
use crate::settling::{settle, Settled};
use crate::trees::best_of_tree;
use crate::vectors::samples::of;

fn goes(mut before: Graph, call: Call, after: Graph, from: u32, to: u32) {
    assert_eq!(before.c(), from);
    let scratch = 8 * before.nodes as usize;
    match step(&mut before, &call, scratch) {
        Answer::Saving(saved) => assert_eq!(saved.total(), i64::from(from) - i64::from(to)),
        other => panic!("{other:?}"),
    }
    assert_eq!(before, after);
    assert_eq!(before.c(), to);
}

#[test]
fn p1_to_p10() {
    goes(
        of(3, &[[3, 5, 7]], &[9]),
        Call::Node(4),
        of(3, &[[2, 4, 6]], &[8]),
        4,
        0,
    );
    let p2 = of(5, &[[3, 5, 6], [13, 8, 11]], &[14]);
    goes(
        p2,
        Call::Tree(7),
        of(5, &[[2, 4, 7], [12, 8, 11]], &[14]),
        4,
        2,
    );
    let p3 = of(5, &[[3, 5, 6], [12, 9, 10]], &[15]);
    goes(
        p3.clone(),
        Call::Pair(7, 1),
        of(5, &[[2, 4, 7], [12, 8, 11]], &[14]),
        4,
        2,
    );
    goes(p3.clone(), Call::Node(6), p3.clone(), 4, 4);
    goes(p3.clone(), Call::Node(7), p3, 4, 4);
    goes(
        of(2, &[[3, 5, MARK]], &[6]),
        Call::Node(3),
        of(2, &[[2, 4, MARK]], &[6]),
        2,
        0,
    );
    assert_eq!(best(&of(2, &[[3, 5, MARK]], &[6]), &[3]), [1]);
    goes(
        of(2, &[[3, 4, MARK]], &[7]),
        Call::Node(3),
        of(2, &[[2, 4, MARK]], &[6]),
        2,
        0,
    );
    assert_eq!(best(&of(2, &[[3, 4, MARK]], &[7]), &[3]), [2]);
    let p7 = of(2, &[[0, 3, 5]], &[6]);
    goes(p7.clone(), Call::Node(3), p7, 2, 2);
    let xor_of_one = of(1, &[[1, 2, MARK]], &[4]);
    goes(xor_of_one.clone(), Call::Node(2), xor_of_one, 1, 1);
    let p8 = of(2, &[[2, 2, 5]], &[6]);
    goes(p8.clone(), Call::Tree(3), p8, 1, 1);
    goes(
        of(3, &[[3, 5, 6]], &[9, 8]),
        Call::Node(4),
        of(3, &[[2, 4, 7]], &[8, 9]),
        3,
        2,
    );
    for output in [3, 1] {
        let mut no_nodes = of(1, &[], &[output]);
        let settled = Settled {
            rounds: 1,
            before: 1,
            after: 1,
            own: 0,
            others: 0,
        };
        assert_eq!(settle(&mut no_nodes, 0), Ok(settled));
        assert_eq!(no_nodes, of(1, &[], &[output]));
    }
}

#[test]
fn the_report_of_p1() {
    let mut p1 = of(3, &[[3, 5, 7]], &[9]);
    assert_eq!(
        settle(&mut p1, 8),
        Ok(Settled {
            rounds: 2,
            before: 4,
            after: 0,
            own: 3,
            others: 1
        })
    );
    assert_eq!(p1, of(3, &[[2, 4, 6]], &[8]));
}

#[test]
fn edges_of_the_limits() {
    assert_eq!(admit(&of(3, &[[7, 7, 7]], &[9])), Ok(()));
    assert_eq!(admit(&of(3, &[[7, 7, 8]], &[9])), Err(5));
    assert_eq!(admit(&of(3, &[[MARK, 7, 7]], &[9])), Err(5));
    assert_eq!(admit(&of(3, &[[7, MARK, MARK]], &[9])), Err(5));
    assert_eq!(admit(&of(3, &[[7, 7, 7]], &[10])), Err(5));
    let file = file_of(&of(3, &[[3, 5, 7]], &[9]));
    assert_eq!(file.len(), 40);
    let (mut words, mut outputs, mut locks) = ([0; 3], [0; 1], [7; 2]);
    let mut loaded = |file: &[u8]| {
        let answer = load(file, &mut words, &mut outputs, &mut locks);
        (answer, words, outputs, locks)
    };
    assert_eq!(loaded(&file), (Ok((3, 1, 1)), [3, 5, 7], [9], [0, 7]));
    assert_eq!(loaded(&file[..39]).0, Err(1));
    assert_eq!(loaded(&[]).0, Err(1));
    let mut longer = file.clone();
    longer.push(5);
    assert_eq!(loaded(&longer).0, Err(6));
    assert_eq!(
        load(&file, &mut words[..2], &mut outputs, &mut locks),
        Err(4)
    );
    let full = of(0, &vec![[0, 1, MARK]; 100_000], &[]);
    let (mut table, mut locks) = (vec![7; 300_001], vec![7; 100_001]);
    let answer = load(&file_of(&full), &mut table, &mut [], &mut locks);
    assert_eq!(answer, Ok((0, 100_000, 0)));
    assert_eq!((table[300_000], locks[100_000]), (7, 7));
    assert_eq!(table[..300_000], full.node_table[..]);
    assert_eq!(locks[..100_000], full.locks[..]);
    assert_eq!(
        load(
            &file_of(&full),
            &mut table[..299_999],
            &mut [],
            &mut locks[..]
        ),
        Err(4)
    );
    let over = of(0, &vec![[0, 1, MARK]; 100_001], &[]);
    let mut table = vec![7; 300_003];
    assert_eq!(
        load(&file_of(&over), &mut table, &mut [], &mut locks),
        Err(3)
    );
    assert_eq!(admit(&over), Err(3));
    let mut results = [0; 2];
    let majority = of(3, &[[2, 4, 6]], &[8]);
    assert_eq!(
        evaluate(&majority, &[0xf0, 0xcc, 0xaa], 1, &mut results),
        Ok(())
    );
    assert_eq!(results, [0xe8, 0]);
}

#[test]
fn refusals() {
    let g = of(3, &[[3, 5, 7], [8, 8, MARK]], &[10]);
    let refused = |call, scratch, number| {
        let mut after = g.clone();
        assert_eq!(step(&mut after, &call, scratch), Answer::Refused(number));
        assert_eq!(after, g);
    };
    for not in [0, 3, 6, MARK] {
        refused(Call::Node(not), 0, 7);
        refused(Call::Pair(not, 1), 0, 7);
        refused(Call::Tree(not), 0, 7);
    }
    refused(Call::Pair(4, 0), 0, 7);
    refused(Call::Pair(4, 4), 0, 7);
    refused(Call::Pair(5, 3), 0, 7);
    refused(Call::Tree(5), 15, 8);
    refused(Call::Settle, 15, 8);
    assert!(is_root(&g, 4));
    let file = file_of(&g);
    let mut buffer = vec![1; file.len() - 1];
    assert_eq!(write(&g, &mut buffer), Err(9));
    let one = of(3, &[[3, 5, 7], [8, 6, MARK]], &[10]);
    assert_eq!(
        step(&mut one.clone(), &Call::Tree(4), 16),
        Answer::Refused(7)
    );
    assert_eq!(
        step(&mut one.clone(), &Call::Tree(4), 0),
        Answer::Refused(7)
    );
    assert_eq!(tree(&one, 5), [5, 4]);
}

#[test]
fn fields() {
    assert_eq!(field_number(&[]), 1);
    assert_eq!(field_number(&[9, 0]), 1);
    assert_eq!(field_number(&[9, 0, 0]), 2);
    assert_eq!(field_number(&[0, 0, 0]), 2);
    assert_eq!(field_number(&[4, 0, 5]), 2);
    assert_eq!(field_number(&[4, 1, 4, 0, 0, 0, 0]), 2);
    assert_eq!(field_number(&[4, 0, 4, 1, 2, 3]), 1);
    assert_eq!(field_number(&[4, 0, 4, 1, 2, 3, 4]), 0);
    assert_eq!(field(&[4, 0, 4, 1, 2, 3, 4, 5]), [1, 2, 3, 4]);
    assert_eq!(field(&[4, 0, 4, 1, 2, 3]), []);
    assert_eq!(field_number(&[5, 0, 0]), 0);
    assert_eq!(field(&[5, 0, 0]), []);
    assert_eq!(field_number(&[6, 0, 4, 0, 0, 0, 7]), 0);
    assert_eq!(field(&[6, 0, 4, 0, 0, 0, 7]), [0, 0, 0, 7]);
    assert_eq!(field_number(&[6, 0, 0]), 2);
    assert_eq!(field_number(&[6, 0, 4, 0, 0, 0]), 1);
    assert_eq!(field_number(&[7, 0, 4, 0, 0, 0, 7]), 2);
}

#[test]
fn the_blunders_of_the_paper() {
    // A pair's turned readers, all of them; the edge between the two is turned twice.
    let mut g = of(2, &[[3, 5, 3], [6, 3, 5]], &[7, 7, 7]);
    let before = g.c();
    let saved = pair_call(&mut g, 4, 1).unwrap();
    assert_eq!(saved.total(), i64::from(before) - i64::from(g.c()));
    // The mark is no complemented edge.
    assert_eq!(complemented_edges(&of(2, &[[2, 4, MARK]], &[6])), Ok(0));
    // A node named twice by one reader is a root.
    let twice = of(2, &[[2, 4, 2], [6, 6, 4]], &[8]);
    assert!(is_root(&twice, 3));
    assert_eq!(tree(&twice, 4), [4]);
    // A node named by an output alone is a root, an unread one too.
    assert!(is_root(&of(2, &[[2, 4, 2]], &[6]), 3));
    assert!(is_root(&of(2, &[[2, 4, 2]], &[]), 3));
}

#[test]
fn lists_come_in_order() {
    let g = of(2, &[[2, 4, 2], [6, 2, MARK]], &[]);
    let all = all_lists(&g, &[4, 3]);
    assert_eq!(all.len(), 8);
    assert!(all.windows(2).all(|two| two[0] < two[1]));
}

fn assignment(random: &mut Random, inputs: u32) -> Vec<bool> {
    (0..inputs).map(|_| random.bit() == 1).collect()
}

#[test]
fn trees_by_branches_are_the_best_lists() {
    let mut random = Random::new(1);
    let mut tried = 0;
    let mut deepest = 0;
    let mut several = 0;
    while tried < 12_000 {
        let shape = if random.one_in(2) {
            Shape::Tree
        } else {
            SHAPES[random.below(8) as usize]
        };
        let (inputs, outputs) = (random.below(5), random.below(5));
        let nodes = random.below(10);
        let g = graph(&mut random, shape, inputs, nodes, outputs);
        let g = with_locks(&mut random, g);
        for root in g.node_indices().filter(|&node| is_root(&g, node)) {
            let nodes = tree(&g, root);
            if how_many(&g, &nodes).is_none_or(|lists| lists > 1024) {
                continue;
            }
            assert_eq!(
                best_of_tree(&g, &nodes),
                best(&g, &nodes),
                "{g:?} at {root}"
            );
            tried += 1;
            deepest = deepest.max(nodes.len());
            several += (nodes.len() >= 4) as u32;
        }
    }
    assert!(deepest >= 7 && several > 1000, "{deepest} {several}");
}

#[test]
fn fast_calls_are_the_plain_calls() {
    let mut random = Random::new(2);
    for _ in 0..1_500 {
        let plain = small(&mut random, 4, 7, 4);
        let plain = with_locks(&mut random, plain);
        for node in plain.node_indices() {
            let mut fast = Fast::new(plain.clone());
            let mut slow = plain.clone();
            assert_eq!(Ok(fast.node_call(node)), node_call(&mut slow, node));
            assert_eq!(fast.g, slow);
            for word in 1..=plain.words_of(node) as u32 {
                let mut fast = Fast::new(plain.clone());
                let mut slow = plain.clone();
                assert_eq!(
                    Ok(fast.pair_call(node, word)),
                    pair_call(&mut slow, node, word)
                );
                assert_eq!(fast.g, slow);
            }
            if is_root(&plain, node) && how_many(&plain, &tree(&plain, node)) <= Some(256) {
                let mut fast = Fast::new(plain.clone());
                let mut slow = plain.clone();
                assert_eq!(Ok(fast.tree_call(node)), tree_call(&mut slow, node, 56));
                assert_eq!(fast.g, slow);
            }
        }
    }
}

#[test]
fn fast_settling_is_plain_settling() {
    let mut random = Random::new(3);
    let mut longest = 0;
    for _ in 0..1_500 {
        let plain = small(&mut random, 4, 10, 4);
        let mut plain = with_locks(&mut random, plain);
        let mut fast = Fast::new(plain.clone());
        let settled = settle(&mut plain, 80).unwrap();
        assert_eq!(fast.settle(), settled);
        assert_eq!(fast.g, plain);
        longest = longest.max(settled.rounds);
    }
    assert!(longest >= 3, "{longest}");
    for shape in SHAPES {
        for _ in 0..3 {
            let plain = graph(&mut random, shape, 9, 60, 9);
            let mut plain = with_locks(&mut random, plain);
            let mut fast = Fast::new(plain.clone());
            assert_eq!(Ok(fast.settle()), settle(&mut plain, 480));
            assert_eq!(fast.g, plain);
        }
    }
}

#[test]
fn large_trees() {
    let mut random = Random::new(4);
    let mut largest = 0;
    for _ in 0..12 {
        let g = graph(&mut random, Shape::Tree, 20, 400, 1);
        let g = with_locks(&mut random, g);
        for root in g.node_indices().filter(|&node| is_root(&g, node)) {
            let nodes = tree(&g, root);
            largest = largest.max(nodes.len());
            if nodes.len() > 100 {
                let mut slow = g.clone();
                let mut fast = Fast::new(g.clone());
                assert_eq!(
                    Ok(fast.tree_call(root)),
                    tree_call_by(&mut slow, root, 3_200, &best_of_tree)
                );
                assert_eq!(fast.g, slow);
            }
        }
    }
    assert!(largest > 200, "{largest}");
}

/// Calls keep values, wiring, tails and locks and report what they save; only many moves may raise C.
#[test]
fn what_calls_promise() {
    let mut random = Random::new(5);
    for _ in 0..2_000 {
        let g = small(&mut random, 5, 8, 4);
        let g = with_locks(&mut random, g);
        let g = with_tails(&mut random, g, 5);
        let calls: Vec<Call> = (0..8)
            .map(|_| {
                let node = random.below(g.inputs + g.nodes + 2);
                match random.below(10) {
                    0..=2 => Call::Node(node),
                    3..=4 => Call::Pair(node, random.below(5)),
                    5..=6 => Call::Tree(node),
                    7 => Call::Settle,
                    _ => {
                        let (list, moves) = moves_of(&mut random, &g, 2);
                        Call::Many { list, moves }
                    }
                }
            })
            .collect();
        let mut now = g.clone();
        for call in &calls {
            let before = now.clone();
            let answer = step(&mut now, call, 64);
            match answer {
                Answer::Saving(saved) => {
                    assert_eq!(i64::from(before.c()), i64::from(now.c()) + saved.total());
                }
                Answer::Settled(settled) => {
                    assert_eq!((settled.before, settled.after), (before.c(), now.c()));
                    let fall = settled.before - settled.after;
                    assert_eq!(i64::from(fall), settled.own + settled.others);
                    assert!(settled.rounds <= fall + 1);
                }
                Answer::Total(saved) => {
                    assert_eq!(i64::from(before.c()), i64::from(now.c()) + saved);
                }
                Answer::Refused(_) => assert_eq!(before, now),
                other => panic!("{call:?} answers {other:?}"),
            }
            assert_eq!(before.wiring(), now.wiring());
            assert_eq!(before.locks, now.locks);
            assert_eq!(
                before.node_table[3 * g.nodes as usize..],
                now.node_table[3 * g.nodes as usize..]
            );
            assert_eq!(
                before.output_table[g.outputs as usize..],
                now.output_table[g.outputs as usize..]
            );
        }
        assert_eq!(run(&mut g.clone(), &calls, 64).len(), calls.len());
        let bits = assignment(&mut random, g.inputs);
        assert_eq!(output_values(&g, &bits), output_values(&now, &bits));
    }
}

#[test]
fn values_two_ways() {
    let mut random = Random::new(6);
    for _ in 0..2_000 {
        let g = small(&mut random, 5, 9, 4);
        let bits = assignment(&mut random, g.inputs);
        let all = values(&g, &bits);
        for index in 0..=g.inputs + g.nodes {
            assert_eq!(value_of_literal(&g, &bits, 2 * index), all[index as usize]);
            assert_eq!(
                value_of_literal(&g, &bits, 2 * index + 1),
                !all[index as usize]
            );
        }
    }
}

#[test]
fn files_come_back() {
    let mut random = Random::new(7);
    for _ in 0..2_000 {
        let g = small(&mut random, 9, 9, 9);
        let g = with_locks(&mut random, g);
        let file = file_of(&g);
        let mut node_table = vec![1; 30];
        let mut output_table = vec![2; 12];
        let mut locks = vec![3; 11];
        let mut loaded = |file: &[u8]| load(file, &mut node_table, &mut output_table, &mut locks);
        assert_eq!(loaded(&file), Ok((g.inputs, g.nodes, g.outputs)));
        for cut in 0..file.len() {
            assert_eq!(loaded(&file[..cut]), Err(1));
        }
        let mut longer = file.clone();
        longer.push(random.below(256) as u8);
        assert_eq!(loaded(&longer), Err(6));
        assert_eq!(node_table[..g.node_table.len()], g.node_table[..]);
        assert_eq!(output_table[..g.output_table.len()], g.output_table[..]);
        assert_eq!(locks[..g.locks.len()], g.locks[..]);
        assert!(node_table[g.node_table.len()..]
            .iter()
            .all(|&word| word == 1));
        assert!(locks[g.locks.len()..].iter().all(|&byte| byte == 3));
        let mut buffer = vec![3; file.len() + 2];
        assert_eq!(write(&g, &mut buffer), Ok(file.len()));
        assert_eq!(buffer[..file.len()], file[..]);
        assert_eq!(buffer[file.len()..], [3, 3]);
    }
}
