use crate::buried::buried;
use crate::calls::{Answer, Call};
use crate::entries;
use crate::evaluation::values;
use crate::find::{near, triples};
use crate::generate::with_slack;
use crate::graph::{index_of, Graph, MARK};
use crate::majority::*;
use crate::packed::{pack, Packed};
use crate::random::Random;
use crate::vectors::samples::of;

/// The import of the export of one majority: 4 is not y and not z, 5 x and (y or z), 6 y and z, 7 none of 5 and 6.
fn imported() -> Graph {
    of(3, &[[0, 5, 7], [0, 2, 9], [0, 4, 6], [0, 11, 13]], &[15])
}

#[test]
fn classes() {
    let all: Vec<u8> = (0..=255).map(class_of).collect();
    let mut least = all.clone();
    least.sort();
    least.dedup();
    assert_eq!(least.len(), 14);
    let majorities: Vec<usize> = (0..256).filter(|&value| all[value] == 23).collect();
    assert_eq!(majorities, [23, 43, 77, 113, 142, 178, 212, 232]);
    // Constants, single variables, and the parity of three.
    assert_eq!((all[0], all[255]), (0, 0));
    for single in [170, 204, 240, 85, 51, 15] {
        assert_eq!(all[single], 15);
    }
    assert_eq!((all[150], all[105]), (105, 105));
    for value in 0..=255u8 {
        let class = all[value as usize];
        assert!(class <= value);
        for other in variants(value) {
            assert_eq!(all[other as usize], class, "{value} and {other}");
        }
    }
}

#[test]
fn worked_truth_values() {
    let g = imported();
    let over = [1, 2, 3];
    // AND of both complemented: where y and z are 0.
    assert_eq!(truth(&g, over, 4), Some(0b0000_0011));
    // x and (y or z): assignments 3, 5 and 7.
    assert_eq!(truth(&g, over, 5), Some(0b1010_1000));
    assert_eq!(truth(&g, over, 6), Some(0b1100_0000));
    assert_eq!(truth(&g, over, 7), Some(23));
    // Node 5 with node 4 as a variable: x and not it.
    assert_eq!(truth(&g, [1, 2, 4], 5), Some(0b0000_1010));
    // A way through node 4 to y and z, and one straight to x.
    assert_eq!(truth(&g, [1, 2, 6], 7), None);
    assert_eq!(truth(&g, [2, 3, 4], 5), None);
    assert_eq!(truth(&g, [2, 3, 5], 7), Some(!0b1111_1000));
}

/// Ways to the constant are covered, and so is all below one of the three.
#[test]
fn constants_are_covered() {
    let g = of(
        3,
        &[[0, 1, 1], [8, 2, 0], [0, 0, 1], [12, 2, 4], [13, 2, MARK]],
        &[],
    );
    assert_eq!(truth(&g, [1, 2, 3], 4), Some(255));
    assert_eq!(truth(&g, [1, 2, 3], 5), Some(170));
    // Node 6 is constant, and free all the same where it is one of the three.
    assert_eq!(truth(&g, [1, 2, 6], 7), Some(232));
    assert_eq!(truth(&g, [1, 2, 3], 7), Some(136));
    assert_eq!(truth(&g, [1, 2, 3], 8), Some(85));
    assert_eq!(truth(&g, [2, 3, 6], 8), None);
}

/// The call leads from one graph to the other by its answer.
fn goes(g: &Graph, node: u32, three: [u32; 3], answer: Majority, words: [u32; 3]) {
    let (mut got, mut due) = (g.clone(), g.clone());
    assert_eq!(majority(&mut got, node, three, 64), Ok(answer), "{three:?}");
    (0..3).for_each(|word| due.set_word(node, word, words[word]));
    assert_eq!(got, due, "{three:?}");
}

#[test]
fn worked_calls() {
    let g = imported();
    goes(&g, 7, [1, 2, 3], Majority::Made, [3, 5, 7]);
    goes(&g, 7, [2, 3, 5], Majority::Not, [0, 11, 13]);
    goes(&g, 7, [1, 2, 6], Majority::NotCovered, [0, 11, 13]);
    goes(&g, 5, [1, 2, 3], Majority::Not, [0, 2, 9]);
    // A plain majority is made again, its words by rising index.
    let g = of(3, &[[7, 2, 5], [2, 4, 6]], &[8, 10]);
    goes(&g, 4, [1, 2, 3], Majority::Made, [2, 5, 7]);
    goes(&g, 5, [1, 2, 3], Majority::Made, [2, 4, 6]);
    goes(&g, 5, [1, 2, 4], Majority::NotCovered, [2, 4, 6]);
    // By XORs: x + (x + y)(x + z), x complemented.
    let nodes = [[3, 4, MARK], [3, 6, MARK], [0, 8, 10], [12, 3, MARK]];
    goes(&of(3, &nodes, &[]), 7, [1, 2, 3], Majority::Made, [3, 4, 6]);
    // Deeper than three words: a row of buffers below the last.
    let nodes = [[0, 1, 2], [0, 1, 9], [10, 0, 1], [12, 4, 6]];
    goes(&of(3, &nodes, &[]), 7, [1, 2, 3], Majority::Made, [3, 4, 6]);
    goes(
        &of(3, &nodes, &[]),
        7,
        [2, 3, 5],
        Majority::Made,
        [4, 6, 10],
    );
}

/// Each choice of complemented words, and of a complemented value by way of a buffer.
#[test]
fn words_complemented_as_needed() {
    for c in 0..8 {
        let words = [2 + (c & 1), 4 + (c >> 1 & 1), 6 + (c >> 2)];
        let nodes = [words, [8, 8, 0], [1, 9, 9]];
        let g = of(3, &nodes, &[]);
        goes(&g, 5, [1, 2, 3], Majority::Made, words);
        goes(&g, 6, [1, 2, 3], Majority::Made, words.map(|word| word ^ 1));
    }
}

/// Each fault is put right in turn, and the next is told.
#[test]
fn refusals_in_order() {
    let refused = |g: &Graph, node, three, scratch, due| {
        let mut got = g.clone();
        assert_eq!(
            majority(&mut got, node, three, scratch),
            Err(due),
            "{three:?}"
        );
        assert_eq!(&got, g);
    };
    let mut g = imported();
    g.outputs = 4_097;
    g.locks = vec![2, 0, 0];
    g.node_table[10] = 14;
    refused(&g, 3, [0, 2, 3], 31, 3);
    g.outputs = 1;
    refused(&g, 3, [0, 2, 3], 31, 4);
    g.locks = vec![2, 0, 0, 1];
    refused(&g, 3, [0, 2, 3], 31, 5);
    g.node_table[10] = 11;
    refused(&g, 3, [0, 2, 3], 31, 13);
    g.locks[0] = 0;
    for not in [0, 3, 8, MARK] {
        refused(&g, not, [1, 2, 3], 31, 7);
    }
    for three in [
        [0, 2, 3],
        [1, 1, 3],
        [2, 1, 3],
        [1, 3, 3],
        [1, 3, 2],
        [1, 2, 7],
        [1, 2, 8],
        [1, 2, MARK],
        [MARK, 2, 3],
    ] {
        refused(&g, 7, three, 31, 7);
    }
    refused(&g, 7, [1, 2, 3], 31, 16);
    g.locks[3] = 0;
    refused(&g, 7, [1, 2, 3], 31, 8);
    assert_eq!(
        majority(&mut g.clone(), 7, [4, 5, 6], 32),
        Ok(Majority::Not)
    );
    assert_eq!(majority(&mut g, 7, [1, 2, 3], 32), Ok(Majority::Made));
}

/// The call on packed tables.
fn made(p: &mut Packed, node: u32, three: [u32; 3], scratch: usize) -> Answer {
    entries::step(p, &Call::Majority { node, three }, scratch)
}

/// What is lent behind the graph stays, and so does every bit beside the node's.
#[test]
fn on_packed_tables() {
    let mut p = pack(&imported());
    p.node_table.push(77);
    p.node_bits.push(5);
    p.locks.push(9);
    let before = p.clone();
    let answer = made(&mut p, 7, [1, 2, 6], 32);
    assert_eq!(
        (answer, &p),
        (Answer::Majority(Majority::NotCovered), &before)
    );
    let answer = made(&mut p, 7, [1, 2, 3], 32);
    assert_eq!(answer, Answer::Majority(Majority::Made));
    assert_eq!(p.node_table, [0, 2, 3, 0, 1, 4, 0, 2, 3, 1, 2, 3, 77]);
    assert_eq!(p.node_bits, [0b111_000_100_110, 5]);
    assert_eq!((p.locks, p.output_table), (vec![0, 0, 0, 0, 9], vec![7]));
    assert_eq!(p.nodes, 4);
}

/// Whether every way down meets one of the three, by walking all of them.
fn all_ways_meet(g: &Graph, three: [u32; 3], index: u32) -> bool {
    if index == 0 || three.contains(&index) {
        return true;
    }
    if index <= g.inputs {
        return false;
    }
    let below = |word: usize| index_of(g.word(index, word));
    (0..g.words_of(index)).all(|word| all_ways_meet(g, three, below(word)))
}

/// Under every assignment the node's value is the bit that the values of the three pick.
fn bits_fit(g: &Graph, three: [u32; 3], node: u32, value: u8) {
    for number in 0..1u32 << g.inputs {
        let assignment: Vec<bool> = (0..g.inputs).map(|at| number >> at & 1 == 1).collect();
        let all = values(g, &assignment);
        let k: u32 = (0..3).map(|j| u32::from(all[three[j] as usize]) << j).sum();
        assert_eq!(value >> k & 1 == 1, all[node as usize], "{g:?} {three:?}");
    }
}

#[test]
fn random_calls() {
    let mut random = Random::new(41);
    let mut met = [0; 3];
    for _ in 0..12_000 {
        let g = buried(&mut random, 4, 9, 4);
        let node = random.between(g.inputs + 1, g.inputs + g.nodes);
        let all = triples(&near(&g, node));
        if all.is_empty() || g.is_locked(node) {
            continue;
        }
        let three = all[random.below(all.len() as u32) as usize];
        let value = truth(&g, three, node);
        assert_eq!(value.is_some(), all_ways_meet(&g, three, node), "{g:?}");
        if let Some(value) = value {
            bits_fit(&g, three, node, value);
        }
        let lent = with_slack(&mut random, pack(&g), 3);
        let mut p = lent.clone();
        let answer = made(&mut p, node, three, 8 * g.nodes as usize);
        let Answer::Majority(answer) = answer else {
            panic!("{answer:?}")
        };
        met[answer.number() as usize] += 1;
        let mut due = g.clone();
        assert_eq!(make_majority(&mut due, node, three), answer);
        if answer == Majority::Made {
            // The same truth value, and every index's value as it was.
            assert_eq!(truth(&due, three, node), value);
        } else {
            assert_eq!((&due, &p), (&g, &lent));
        }
    }
    assert!(met.iter().all(|&many| many > 40), "{met:?}");
}
