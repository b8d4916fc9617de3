use crate::generate::{small, with_locks, with_slack};
use crate::graph::{self, Graph, MARK};
use crate::packed::*;
use crate::random::Random;
use crate::vectors::samples::of;

/// The least index whose literal would be the mark or more, and those around it and at the end.
const TOO_LARGE: [u32; 6] = [
    2_147_483_646,
    2_147_483_647,
    2_147_483_648,
    2_147_483_649,
    4_294_967_293,
    4_294_967_294,
];

/// Worked by hand: place j is at bit j mod 64 of word j div 64, and the mark stands in the index table with no bit.
#[test]
fn where_indices_and_bits_stand() {
    let p1 = pack(&of(3, &[[3, 5, 7]], &[9]));
    assert_eq!((p1.node_table, p1.node_bits), (vec![1, 2, 3], vec![7]));
    assert_eq!((p1.output_table, p1.output_bits), (vec![4], vec![1]));
    let p6 = pack(&of(2, &[[3, 4, MARK]], &[7]));
    assert_eq!((p6.node_table, p6.node_bits), (vec![1, 2, MARK], vec![1]));
    assert_eq!((p6.output_table, p6.output_bits), (vec![3], vec![1]));
    let none = pack(&of(1, &[], &[]));
    assert_eq!((none.node_bits, none.output_bits), (vec![], vec![]));
}

/// Node 21 of 22 has its first word at the last bit of a word, and its others in the next; an output has bit 64 too.
#[test]
fn bits_go_on_in_the_next_word() {
    let mut nodes = [[0, 2, 4]; 22];
    nodes[21] = [1, 3, 5];
    let mut outputs = [2; 65];
    outputs[64] = 3;
    outputs[1] = 1;
    let p = pack(&of(2, &nodes, &outputs));
    assert_eq!(p.node_bits, [1 << 63, 3]);
    assert_eq!(p.output_bits, [2, 1]);
    nodes[21] = [0, 3, MARK];
    assert_eq!(pack(&of(2, &nodes, &[])).node_bits, [0, 1]);
    assert_eq!(words_for(0), 0);
    assert_eq!(
        [1, 64, 65, 128, 300_000].map(words_for),
        [1, 1, 2, 2, 4_688]
    );
}

fn p6() -> Packed {
    pack(&of(2, &[[3, 4, MARK]], &[7]))
}

#[test]
fn a_bit_past_the_last_literal_is_a_5() {
    assert_eq!(admit(&p6()), Ok(()));
    for place in 3..64 {
        let mut p = p6();
        set_bit(&mut p.node_bits, place);
        assert_eq!(admit(&p), Err(5), "node place {place}");
    }
    for place in 1..64 {
        let mut p = p6();
        set_bit(&mut p.output_bits, place);
        assert_eq!(admit(&p), Err(5), "output place {place}");
    }
}

/// 64 nodes are 192 places, three full words, and 64 outputs one.
#[test]
fn full_words_have_no_bit_past_the_last_literal() {
    let p = pack(&of(1, &[[1, 3, 1]; 64], &[3; 64]));
    assert_eq!(
        (&p.node_bits[..], &p.output_bits[..]),
        (&[u64::MAX; 3][..], &[u64::MAX][..])
    );
    assert_eq!(admit(&p), Ok(()));
}

#[test]
fn the_marks_bit_is_a_5() {
    let mut p = p6();
    set_bit(&mut p.node_bits, 2);
    assert_eq!(admit(&p), Err(5));
    // The same bit at a literal is none.
    p.node_table[2] = 0;
    assert_eq!(admit(&p), Ok(()));
}

/// With and without its bit; the literal of 2147483647 with its bit would be the mark's word.
#[test]
fn indices_too_large_are_a_5() {
    for index in TOO_LARGE.into_iter().chain([3, MARK]) {
        for bit in [false, true] {
            for place in 0..3 {
                let mut p = pack(&of(2, &[[2, 4, 0]], &[6]));
                p.node_table[place] = index;
                p.node_bits[0] = u64::from(bit) << place;
                let marked = place == 2 && index == MARK && !bit;
                let due = if marked { Ok(()) } else { Err(5) };
                assert_eq!(admit(&p), due, "{index} with bit {bit} at {place}");
            }
            let mut p = pack(&of(2, &[[2, 4, 0]], &[6]));
            p.output_table[0] = if index == 3 { 4 } else { index };
            p.output_bits[0] = u64::from(bit);
            assert_eq!(admit(&p), Err(5), "output {index} with bit {bit}");
        }
    }
}

/// 21 nodes have 63 places and 22 have 66; 64 outputs are in one word and 65 in two.
#[test]
fn too_few_words_are_a_4() {
    for (nodes, node_bits) in [(0, 0), (1, 1), (21, 1), (22, 2), (43, 3), (64, 3)] {
        for (outputs, output_bits) in [(0, 0), (1, 1), (64, 1), (65, 2)] {
            let g = of(1, &vec![[0, 2, 0]; nodes], &vec![0; outputs]);
            let p = pack(&g);
            assert_eq!(
                (p.node_bits.len(), p.output_bits.len()),
                (node_bits, output_bits)
            );
            assert_eq!(admit(&p), Ok(()));
            let mut short = p.clone();
            if short.node_bits.pop().is_some() {
                assert_eq!(admit(&short), Err(4), "{nodes} nodes");
            }
            let mut short = p.clone();
            if short.output_bits.pop().is_some() {
                assert_eq!(admit(&short), Err(4), "{outputs} outputs");
            }
        }
    }
}

/// Each fault alone, and before those that are told after it.
#[test]
fn faults_are_told_in_order() {
    let faults: [(u32, fn(&mut Packed)); 4] = [
        (3, |p| p.outputs = 4_097),
        (4, |p| p.node_bits.clear()),
        (5, |p| set_bit(&mut p.output_bits, 9)),
        (13, |p| p.locks[0] = 2),
    ];
    for choice in 1..16 {
        let mut p = p6();
        let chosen: Vec<usize> = (0..4).filter(|fault| choice >> fault & 1 == 1).collect();
        chosen.iter().for_each(|&fault| faults[fault].1(&mut p));
        assert_eq!(admit(&p), Err(faults[chosen[0]].0), "faults {chosen:?}");
    }
}

/// What stands behind the graph, in index tables, words of bits and locks.
#[test]
fn words_past_the_last_are_not_looked_at() {
    let mut p = p6();
    p.node_table.extend([MARK, 7, 2_147_483_648]);
    p.node_bits.extend([u64::MAX, 5]);
    p.output_table.push(MARK);
    p.output_bits.push(u64::MAX);
    p.locks.push(200);
    assert_eq!(admit(&p), Ok(()));
    assert_eq!(unpack(&p), of(2, &[[3, 4, MARK]], &[7]));
    // No node and no output: then all words are past the last.
    (p.nodes, p.outputs) = (0, 0);
    p.node_bits[0] = u64::MAX;
    p.output_bits[0] = u64::MAX;
    assert_eq!(admit(&p), Ok(()));
    assert_eq!(unpack(&p), of(2, &[], &[]));
}

fn random_graph(random: &mut Random) -> Graph {
    let (nodes, outputs) = ([3, 30, 90][random.below(3) as usize], random.below(140));
    let g = small(random, 5, nodes, outputs);
    with_locks(random, g)
}

#[test]
fn unpacked_is_what_was_packed() {
    let mut random = Random::new(26);
    for _ in 0..2_000 {
        let g = random_graph(&mut random);
        let p = pack(&g);
        assert_eq!(
            p.lengths(),
            Lengths::of(g.nodes as usize, g.outputs as usize)
        );
        let lent = with_slack(&mut random, p, 3);
        assert_eq!(admit(&lent), Ok(()));
        assert_eq!(unpack(&lent), g);
    }
}

/// A graph with one literal or lock that may not be there is refused by the same number packed.
#[test]
fn packed_graphs_are_admitted_as_those_of_literals() {
    let mut random = Random::new(27);
    for _ in 0..4_000 {
        let mut g = random_graph(&mut random);
        let word = match random.below(4) {
            0 => MARK,
            1 => MARK - 1 - random.below(4),
            _ => random.below(2 * (g.inputs + g.nodes) + 6),
        };
        match random.below(5) {
            0 if g.nodes > 0 => g.locks[random.below(g.nodes) as usize] = 2,
            1 if g.outputs > 0 => g.output_table[random.below(g.outputs) as usize] = word,
            _ if g.nodes > 0 => g.node_table[random.below(3 * g.nodes) as usize] = word,
            _ => {}
        }
        assert_eq!(admit(&pack(&g)), graph::admit(&g), "{g:?}");
    }
}

/// The front is filled in whole words, the bits past the last literal cleared, and what stands behind is left.
#[test]
fn put_writes_whole_words_and_no_more() {
    let g = of(2, &[[3, 4, MARK]], &[7, 2]);
    let mut p = Packed {
        inputs: 0,
        nodes: 0,
        outputs: 0,
        node_table: vec![9; 4],
        node_bits: vec![u64::MAX; 2],
        output_table: vec![8; 3],
        output_bits: vec![u64::MAX; 2],
        locks: vec![7; 2],
    };
    p.put(&g);
    assert_eq!((p.inputs, p.nodes, p.outputs), (2, 1, 2));
    assert_eq!(p.node_table, [1, 2, MARK, 9]);
    assert_eq!(p.node_bits, [1, u64::MAX]);
    assert_eq!(p.output_table, [3, 1, 8]);
    assert_eq!(p.output_bits, [1, u64::MAX]);
    assert_eq!(p.locks, [0, 7]);
    assert_eq!(unpack(&p), g);
}
