use crate::calls::{step, Answer, Call};
use crate::entries::replay;
use crate::fast::Fast;
use crate::file::file_of;
use crate::generate::{moves_of, small, with_locks, with_tails};
use crate::graph::{adds, index_of, Graph, Place, MARK};
use crate::many::many;
use crate::moves::{is_root, make, rows, tree_call};
use crate::packed::pack;
use crate::preview::preview;
use crate::random::Random;
use crate::replay::{calls_of, Words};
use crate::vectors::samples::of;

/// The moves lead from one graph to the other and save so much; the locks stay.
fn goes(g: &Graph, listed: &[(u32, u8)], node_table: &[u32], output_table: &[u32], saved: i64) {
    let (list, moves): (Vec<u32>, Vec<u8>) = listed.iter().copied().unzip();
    let mut got = g.clone();
    assert_eq!(many(&mut got, &list, &moves), Ok(saved), "{listed:?}");
    let due = Graph {
        node_table: node_table.to_vec(),
        output_table: output_table.to_vec(),
        ..g.clone()
    };
    assert_eq!(got, due, "{listed:?}");
}

#[test]
fn worked_lists() {
    let one = of(3, &[[2, 4, 6]], &[8]);
    goes(&one, &[(4, 1)], &[3, 5, 7], &[9], -4);
    goes(&of(3, &[[3, 5, 7]], &[9]), &[(4, 1)], &[2, 4, 6], &[8], 4);
    goes(&one, &[(4, 0)], &[2, 4, 6], &[8], 0);
    goes(&one, &[], &[2, 4, 6], &[8], 0);
    let p2 = of(5, &[[3, 5, 6], [13, 8, 11]], &[14]);
    let after = [2, 4, 7, 12, 8, 11];
    goes(&p2, &[(6, 1), (7, 0)], &after, &[14], 2);
    goes(&p2, &[(6, 1)], &after, &[14], 2);
    // The edge between the two is turned twice.
    goes(&p2, &[(6, 1), (7, 1)], &[2, 4, 7, 13, 9, 10], &[15], 0);
}

#[test]
fn every_move_of_an_xor() {
    let g = of(2, &[[2, 4, MARK], [6, 2, 4]], &[6, 8]);
    for (number, [x, y], reader, saved) in [
        (0, [2, 4], 6, 0),
        (1, [3, 5], 6, -2),
        (2, [3, 4], 7, -3),
        (3, [2, 5], 7, -3),
    ] {
        let after = [x, y, MARK, reader, 2, 4];
        goes(&g, &[(3, number)], &after, &[reader, 8], saved);
    }
}

#[test]
fn a_node_named_twice() {
    let g = of(2, &[[2, 4, 0], [6, 7, 6]], &[8, 7]);
    goes(&g, &[(3, 1)], &[3, 5, 1, 7, 6, 7], &[8, 6], -3);
    goes(&g, &[(3, 1), (4, 1)], &[3, 5, 1, 6, 7, 6], &[9, 6], -3);
}

/// A locked node is listed with move 0, and its words turn where the node that they name does.
#[test]
fn locked_nodes() {
    let p2 = of(5, &[[3, 5, 6], [13, 8, 11]], &[14]);
    let after = [2, 4, 7, 12, 8, 11];
    goes(
        &p2.clone().locked_at(&[7]),
        &[(6, 1), (7, 0)],
        &after,
        &[14],
        2,
    );
    let mut lower = p2.locked_at(&[6]);
    let before = lower.clone();
    assert_eq!(many(&mut lower, &[6, 7], &[1, 0]), Err(16));
    assert_eq!(lower, before);
}

/// Each fault is put right in turn, and the next is told.
#[test]
fn refusals_in_order() {
    let refused = |g: &Graph, list: &[u32], moves: &[u8], due| {
        let mut got = g.clone();
        assert_eq!(many(&mut got, list, moves), Err(due), "{list:?} {moves:?}");
        assert_eq!(&got, g);
    };
    let mut g = of(2, &[[2, 6, 4], [6, 3, MARK], [8, 2, 4]], &[10, 9]);
    g.outputs = 4_097;
    g.locks = vec![2, 1];
    refused(&g, &[2], &[], 3);
    g.outputs = 3;
    refused(&g, &[2], &[9], 4);
    g.outputs = 2;
    refused(&g, &[2], &[9], 4);
    g.locks = vec![2, 1, 1];
    refused(&g, &[2], &[], 4);
    refused(&g, &[2], &[9], 5);
    g.node_table[1] = 5;
    refused(&g, &[2], &[9], 13);
    g.locks[0] = 0;
    for not in [0, 2, 6, MARK] {
        refused(&g, &[not], &[9], 7);
        refused(&g, &[4, not], &[0, 9], 7);
    }
    // In an entry 7, 14, 15, 16; and an entry before all that follow.
    refused(&g, &[5, 4], &[0, 9], 14);
    refused(&g, &[4, 4], &[0, 9], 14);
    refused(&g, &[4], &[4], 15);
    refused(&g, &[5], &[2], 15);
    refused(&g, &[3], &[255], 15);
    refused(&g, &[4], &[3], 16);
    refused(&g, &[5], &[1], 16);
    refused(&g, &[4, 9], &[3, 0], 16);
    refused(&g, &[3, 3, 9], &[2, 0, 0], 15);
    refused(&g, &[3, 4, 4], &[1, 0, 0], 14);
    refused(&g, &[3, 5, 4], &[1, 2, 0], 15);
    assert_eq!(many(&mut g.clone(), &[3, 4, 5], &[1, 0, 0]), Ok(-2));
    // Moves past the list's end are not read.
    assert_eq!(many(&mut g.clone(), &[3], &[1, 9, 255]), Ok(-2));
    assert_eq!(many(&mut of(1, &[], &[3]), &[], &[7]), Ok(0));
    refused(&of(1, &[], &[3]), &[2], &[0], 7);
}

/// Every order of these entries.
fn orders(entries: &[(u32, u8)]) -> Vec<Vec<(u32, u8)>> {
    if entries.is_empty() {
        return vec![vec![]];
    }
    let mut all = Vec::new();
    for at in 0..entries.len() {
        let mut rest = entries.to_vec();
        let first = rest.remove(at);
        for mut order in orders(&rest) {
            order.insert(0, first);
            all.push(order);
        }
    }
    all
}

#[test]
fn every_order_gives_the_same() {
    let mut random = Random::new(31);
    let mut made = 0;
    for _ in 0..600 {
        let g = small(&mut random, 4, 8, 4);
        let g = with_locks(&mut random, g);
        let (list, moves) = moves_of(&mut random, &g, 2);
        if list.len() > 5 {
            continue;
        }
        let mut due = g.clone();
        let saved = many(&mut due, &list, &moves).unwrap();
        let entries: Vec<(u32, u8)> = list.iter().copied().zip(moves.iter().copied()).collect();
        for order in orders(&entries) {
            let mut got = g.clone();
            for (node, number) in order {
                make(&mut got, node, number as usize);
            }
            assert_eq!(got, due, "{g:?} {entries:?}");
            made += 1;
        }
        assert_eq!(saved, i64::from(g.c()) - i64::from(due.c()));
    }
    assert!(made > 5_000, "{made}");
}

/// Word by word: turned by its own node's move, and by that of the node which it names.
#[test]
fn each_word_by_itself() {
    let mut random = Random::new(32);
    for _ in 0..3_000 {
        let g = small(&mut random, 4, 9, 5);
        let g = with_locks(&mut random, g);
        let g = with_tails(&mut random, g, 3);
        let (list, moves) = moves_of(&mut random, &g, 2);
        let row = |node: u32| {
            let at = list.iter().position(|&listed| listed == node)?;
            Some(&rows(&g, node)[moves[at] as usize])
        };
        let (mut due, mut saved) = (g.clone(), 0);
        for place in g.edges() {
            let own = match place {
                Place::OfNode(node, word) => row(node).is_some_and(|row| row.words[word]),
                Place::OfOutput(_) => false,
            };
            let read = row(index_of(g.at(place))).is_some_and(|row| row.readers);
            if own != read {
                due.turn(place);
            }
            saved += i64::from(adds(g.at(place))) - i64::from(adds(due.at(place)));
        }
        let mut got = g.clone();
        assert_eq!(many(&mut got, &list, &moves), Ok(saved), "{g:?}");
        assert_eq!(got, due, "{g:?} {list:?} {moves:?}");
        let mut fast = Fast::new(g.clone());
        assert_eq!(fast.many(&list, &moves), saved);
        assert_eq!(fast.g, due);
    }
}

/// The bytes of a preview with all nodes as the list: what the tree call does.
#[test]
fn a_preview_applied() {
    let mut random = Random::new(33);
    let mut applied = 0;
    for _ in 0..1_000 {
        let g = small(&mut random, 4, 8, 4);
        let g = with_locks(&mut random, g);
        let (all, scratch): (Vec<u32>, usize) = (g.node_indices().collect(), 64);
        for root in g.node_indices().filter(|&node| is_root(&g, node)) {
            let mut moves = vec![0; g.nodes as usize];
            let told = preview(&g, root, scratch, &mut moves).unwrap();
            let (mut got, mut due) = (g.clone(), g.clone());
            assert_eq!(many(&mut got, &all, &moves), Ok(told.total()));
            tree_call(&mut due, root, scratch).unwrap();
            assert_eq!(got, due, "{g:?}");
            applied += 1;
        }
    }
    assert!(applied > 2_000, "{applied}");
}

fn calls(words: &[u32], list: &[u32], moves: &[u8]) -> Result<Vec<Call>, u32> {
    calls_of(Words {
        calls: words,
        list,
        moves,
    })
}

#[test]
fn parts_of_a_list() {
    let (list, moves) = ([4, 5, 6, 4, 9], [1, 2, 3, 4, 5]);
    let part = |list: &[u32], moves: &[u8]| {
        Ok(vec![Call::Many {
            list: list.to_vec(),
            moves: moves.to_vec(),
        }])
    };
    assert_eq!(calls(&[4, 0, 5], &list, &moves), part(&list, &moves));
    assert_eq!(calls(&[4, 1, 2], &list, &moves), part(&[5, 6], &[2, 3]));
    assert_eq!(calls(&[4, 5, 0], &list, &moves), part(&[], &[]));
    // Of short moves each part has what is left.
    assert_eq!(
        calls(&[4, 1, 3], &list, &moves[..3]),
        part(&[5, 6, 4], &[2, 3])
    );
    assert_eq!(calls(&[4, 3, 2], &list, &moves[..2]), part(&[4, 9], &[]));
    assert_eq!(calls(&[4, 0, 2], &list, &[1, 2]), part(&[4, 5], &[1, 2]));
    for outside in [
        [4, 0, 6],
        [4, 6, 0],
        [4, 5, 1],
        [4, 1, MARK],
        [4, MARK, 1],
        [4, MARK, MARK],
    ] {
        assert_eq!(calls(&outside, &list, &moves), Err(105), "{outside:?}");
    }
    // Left over first; then call by call, the kind before the part.
    assert_eq!(calls(&[8, 0, 0, 4], &list, &moves), Err(101));
    assert_eq!(calls(&[8, 0, 0, 4, 6, 0], &list, &moves), Err(102));
    assert_eq!(calls(&[4, 6, 0, 8, 0, 0], &list, &moves), Err(105));
    assert_eq!(calls(&[8, 6, 0], &list, &moves), Err(102));
    assert_eq!(calls(&[3, 6, 9], &list, &moves), Ok(vec![Call::Settle]));
}

#[test]
fn triples_of_a_list() {
    let list = [4, 5, 6, 4, 9];
    let three = |node, three| Ok(vec![Call::Majority { node, three }]);
    assert_eq!(calls(&[5, 7, 0], &list, &[]), three(7, [4, 5, 6]));
    assert_eq!(calls(&[5, 0, 2], &list, &[1]), three(0, [6, 4, 9]));
    for start in [3, 4, 5, 6, MARK - 2, MARK] {
        assert_eq!(calls(&[5, 7, start], &list, &[]), Err(105), "{start}");
    }
    assert_eq!(calls(&[6, 9, 9], &[], &[]), Ok(vec![Call::Find]));
    assert_eq!(calls(&[8, 0, 0], &list, &[]), Err(102));
}

/// The import of the export of one majority: a call that makes none, the finder, settling on the one node that is left, and a call at a
/// node that is no more.
#[test]
fn find_and_settle() {
    let ands = [[0, 5, 7], [0, 2, 9], [0, 4, 6], [0, 11, 13]];
    let words = Words {
        calls: &[5, 7, 3, 5, 7, 0, 6, 0, 0, 3, 0, 0, 0, 7, 0, 5, 4, 0],
        list: &[2, 3, 5, 1, 2, 6],
        moves: &[],
    };
    let mut g = pack(&of(0, &[[77; 3]; 4], &[77]));
    g.locks = vec![77; 5];
    let mut answers = [77; 18];
    let file = file_of(&of(3, &ands, &[15]));
    let done = replay(&file, words, &mut g, 32, &mut answers);
    assert_eq!(done, Ok((3, 1, 1)));
    let due = [0, 2, 0, 0, 1, 0, 0, 1, 0, 0, 3, 1, 7, 0, 0, 7, 0, 0];
    assert_eq!(answers, due);
    assert_eq!(g.node_table, [1, 2, 3, 0, 0, 0, 0, 0, 0, 0, 0, 0]);
    assert_eq!((g.node_bits, g.output_table), (vec![0], vec![4]));
    assert_eq!((g.output_bits, g.locks), (vec![0], vec![0, 0, 0, 0, 77]));
}

/// P1 settled, its move taken back, and settled again.
#[test]
fn settle_many_settle() {
    let p1 = of(3, &[[3, 5, 7]], &[9]);
    let words = Words {
        calls: &[3, 0, 0, 4, 1, 1, 3, 0, 0, 4, 0, 1, 4, 0, 2],
        list: &[5, 4],
        moves: &[0, 1],
    };
    let mut g = pack(&of(0, &[[77; 3]], &[77]));
    let mut answers = [77; 16];
    let file = file_of(&p1);
    assert_eq!(replay(&file, words, &mut g, 8, &mut answers), Ok((3, 1, 1)));
    let due = [0, 3, 1, 0, -4, 0, 0, 3, 1, 7, 0, 0, 7, 0, 0, 77];
    assert_eq!(answers, due);
    assert_eq!(g, pack(&of(3, &[[2, 4, 6]], &[8])));
    // Refused, it leaves everything: 105, then 4 for the answers, then the file.
    let mut g = pack(&of(0, &[[77; 3]], &[77]));
    let before = g.clone();
    let mut answers = [77; 14];
    let outside = Words {
        list: &[5],
        ..words
    };
    for (file, words, due) in [
        (&file[..39], outside, 105),
        (&file[..39], words, 4),
        (
            &file[..39],
            Words {
                calls: &words.calls[..12],
                ..words
            },
            1,
        ),
    ] {
        assert_eq!(replay(file, words, &mut g, 8, &mut answers), Err(due));
        assert_eq!((&g, answers), (&before, [77; 14]));
    }
}

/// A move made twice is none, and what one list loses the same list saves again.
#[test]
fn made_twice() {
    let mut random = Random::new(34);
    for _ in 0..500 {
        let g = small(&mut random, 4, 9, 5);
        let g = with_locks(&mut random, g);
        let (list, moves) = moves_of(&mut random, &g, 2);
        let call = Call::Many { list, moves };
        let mut got = g.clone();
        let [first, second] = [0; 2].map(|_| step(&mut got, &call, 0));
        let (Answer::Total(x), Answer::Total(y)) = (first, second) else {
            panic!("{first:?}, {second:?}")
        };
        assert_eq!((x + y, got), (0, g));
    }
}
