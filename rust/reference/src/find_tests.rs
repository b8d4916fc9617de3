use crate::aiger::{parse, text_of};
use crate::buried::{buried, Build};
use crate::calls::{step, Answer, Call};
use crate::entries;
use crate::evaluation::output_values;
use crate::find::*;
use crate::generate::{with_slack, with_tails};
use crate::graph::{Graph, Room, MARK};
use crate::packed::{pack, unpack, Packed};
use crate::random::Random;
use crate::vectors::samples::of;

/// The finder leads from one graph to the other. Freed words and lock bytes are 0.
fn goes(g: &Graph, due: &Graph) {
    let mut got = g.clone();
    assert_eq!(find(&mut got, 8 * g.nodes as usize), Ok(due.nodes));
    let mut due = due.clone();
    due.node_table.resize(3 * g.nodes as usize, 0);
    due.locks.resize(g.nodes as usize, 0);
    assert_eq!(got, due);
}

/// The import of the export of 2 4 6 → 8.
fn imported() -> Graph {
    let text = text_of(&of(3, &[[2, 4, 6]], &[8]));
    let g = parse(text.as_bytes(), Room::of(4, 1)).unwrap();
    let ands = [[0, 5, 7], [0, 2, 9], [0, 4, 6], [0, 11, 13]];
    assert_eq!(g, of(3, &ands, &[15]));
    g
}

#[test]
fn the_export_of_one_majority() {
    goes(&imported(), &of(3, &[[3, 5, 7]], &[9]));
}

/// A locked node is not tried, and stays with all that it reads.
#[test]
fn locked_nodes() {
    let g = imported();
    goes(&g.clone().locked_at(&[7]), &g.clone().locked_at(&[7]));
    let due = of(3, &[[0, 5, 7], [0, 2, 9], [3, 5, 7]], &[13]);
    goes(&g.clone().locked_at(&[5]), &due.locked_at(&[5]));
    let due = of(3, &[[0, 4, 6], [3, 5, 7]], &[11]);
    goes(&g.clone().locked_at(&[6]), &due.locked_at(&[4]));
    // Of a locked majority nothing is changed, be it plain or not.
    let g = of(3, &[[6, 4, 2], [8, 1, 8]], &[]).locked_at(&[5]);
    goes(&g, &g);
}

#[test]
fn unread_nodes_are_dropped() {
    // 3 is read by 5 alone, 5 and 4 by nothing.
    let g = of(
        2,
        &[[0, 2, 4], [2, 4, MARK], [6, 3, MARK], [1, 3, 4]],
        &[13, 12],
    );
    goes(&g, &of(2, &[[1, 3, 4]], &[7, 6]));
    goes(&of(2, &[[0, 2, 4]], &[4, 1]), &of(2, &[], &[4, 1]));
    goes(&of(0, &[], &[]), &of(0, &[], &[]));
    goes(&of(1, &[[2, 2, 2]], &[]), &of(1, &[], &[]));
    // The locks go with their nodes.
    let g = of(1, &[[2, 2, 0], [2, 3, 0], [3, 3, 0], [8, 2, MARK]], &[]);
    let due = of(1, &[[2, 3, 0], [3, 3, 0], [6, 2, MARK]], &[]);
    goes(&g.locked_at(&[3, 5]), &due.locked_at(&[2, 4]));
}

/// Passed over are majorities of three different indices other than 0, whatever the order of their words.
#[test]
fn plain_majorities_stay() {
    let g = of(3, &[[7, 2, 5], [8, 2, 4]], &[8, 11]);
    goes(&g, &g);
    let passed = |words| is_plain(&of(3, &[words], &[]), 4);
    assert!(passed([2, 4, 6]) && passed([7, 3, 4]));
    for other in [
        [0, 2, 4],
        [2, 1, 4],
        [2, 3, 4],
        [2, 4, 2],
        [4, 2, 3],
        [2, 4, MARK],
    ] {
        assert!(!passed(other), "{other:?}");
    }
    // One that names an index twice is tried: it has the value of node 4.
    goes(
        &of(3, &[[2, 5, 6], [8, 8, 3]], &[10]),
        &of(3, &[[2, 5, 6]], &[8]),
    );
    goes(
        &of(3, &[[2, 5, 6], [9, 1, 9]], &[10]),
        &of(3, &[[3, 4, 7]], &[8]),
    );
}

#[test]
fn by_xors() {
    let nodes = [[2, 4, MARK], [2, 6, MARK], [0, 8, 10], [12, 2, MARK]];
    goes(&of(3, &nodes, &[14]), &of(3, &[[2, 4, 6]], &[8]));
    // The parity of three is none.
    let nodes = [[2, 4, MARK], [8, 6, MARK]];
    goes(&of(3, &nodes, &[10]), &of(3, &nodes, &[10]));
}

/// A buffer of x stands before four ANDs: x is within three words of the last, and 1 2 3 comes before 2 3 4. With one buffer more it
/// is not, and the lower buffer is taken.
#[test]
fn the_first_triple_within_three_words() {
    let nodes = [[0, 1, 2], [0, 5, 7], [0, 8, 11], [0, 4, 6], [0, 13, 15]];
    assert_eq!(near(&of(3, &nodes, &[]), 8), [1, 2, 3, 4, 5, 6, 7]);
    goes(&of(3, &nodes, &[17]), &of(3, &[[3, 5, 7]], &[9]));
    let nodes = [
        [0, 1, 2],
        [0, 1, 8],
        [0, 5, 7],
        [0, 10, 13],
        [0, 4, 6],
        [0, 15, 17],
    ];
    assert_eq!(near(&of(3, &nodes, &[]), 9), [2, 3, 4, 5, 6, 7, 8]);
    goes(
        &of(3, &nodes, &[19]),
        &of(3, &[[0, 1, 2], [5, 7, 9]], &[11]),
    );
}

#[test]
fn triples_in_rising_order() {
    let due = [[2, 3, 5], [2, 3, 9], [2, 5, 9], [3, 5, 9]];
    assert_eq!(triples(&[2, 3, 5, 9]), due);
    assert!(triples(&[1, 2]).is_empty());
}

/// A full adder in ANDs: its carry comes back, with the sum's two XORs left in three ANDs each, of which the carry shares none.
#[test]
fn a_full_adder() {
    let mut b = Build::new(3);
    let half = b.hidden_xor(2, 4);
    let sum = b.hidden_xor(half, 6);
    let carry = b.hidden(2, 4, 6);
    assert_eq!((half, sum, carry), (13, 19, 27));
    let due = [
        [0, 2, 5],
        [0, 3, 4],
        [0, 9, 11],
        [0, 13, 7],
        [0, 12, 6],
        [0, 15, 17],
        [3, 5, 7],
    ];
    goes(&b.graph(vec![sum, carry]), &of(3, &due, &[19, 21]));
}

/// Node 7 is a majority in four ANDs, 8 a locked buffer of it and 9 one of 8: from 9 the inputs are five words away, and three once
/// node 7 is made.
#[test]
fn on_the_graph_as_it_then_is() {
    let mut b = Build::new(3);
    let seven = b.hidden(2, 4, 6) ^ 1;
    let eight = b.majority(seven, seven, 0);
    let nine = b.majority(eight, 1, eight);
    let g = b.graph(vec![nine]).locked_at(&[8]);
    assert_eq!(near(&g, 9), [5, 6, 7, 8]);
    let due = of(3, &[[3, 5, 7], [8, 8, 0], [3, 5, 7]], &[12]);
    goes(&g, &due.locked_at(&[5]));
}

#[test]
fn refusals_in_order() {
    let refused = |g: &Graph, scratch, due| {
        let mut got = g.clone();
        assert_eq!(find(&mut got, scratch), Err(due));
        assert_eq!(&got, g);
    };
    let mut g = imported();
    g.inputs = 4_097;
    g.node_table[1] = 8;
    g.locks = vec![0, 0, 2];
    refused(&g, 31, 3);
    g.inputs = 3;
    refused(&g, 31, 4);
    g.locks.push(0);
    refused(&g, 31, 5);
    g.node_table[1] = 5;
    refused(&g, 31, 13);
    g.locks[2] = 0;
    refused(&g, 31, 8);
    assert_eq!(find(&mut g, 32), Ok(1));
}

/// The finder on packed tables.
fn found(p: &mut Packed, scratch: usize) -> Answer {
    entries::step(p, &Call::Find, scratch)
}

/// Freed indices, bits and lock bytes are 0; what stood behind the graph as it was lent stays.
#[test]
fn on_packed_tables() {
    let mut p = pack(&imported().locked_at(&[6]));
    p.node_table.extend([77, MARK]);
    p.node_bits.push(u64::MAX);
    p.output_table.push(78);
    p.output_bits.push(9);
    p.locks.extend([1, 9]);
    assert_eq!(found(&mut p, 31), Answer::Refused(8));
    assert_eq!(found(&mut p, 32), Answer::Found(2));
    let table = [0, 2, 3, 1, 2, 3, 0, 0, 0, 0, 0, 0, 77, MARK];
    assert_eq!(p.node_table, table);
    assert_eq!(p.node_bits, [0b111_000, u64::MAX]);
    assert_eq!((p.output_table, p.output_bits), (vec![5, 78], vec![1, 9]));
    assert_eq!((p.locks, p.nodes), (vec![1, 0, 0, 0, 1, 9], 2));
}

/// Over several words of bits: forty exports, of which ten ANDs of four stay.
#[test]
fn words_of_bits_that_empty() {
    let mut b = Build::new(3);
    let outputs: Vec<u32> = (0..40).map(|_| b.hidden(2, 4, 6)).collect();
    let mut p = pack(&b.graph(outputs));
    assert_eq!((p.node_table.len(), p.node_bits.len()), (480, 8));
    p.node_bits.push(3);
    assert_eq!(found(&mut p, 1_280), Answer::Found(40));
    let all = u64::MAX;
    assert_eq!(p.node_bits, [all, (1 << 56) - 1, 0, 0, 0, 0, 0, 0, 3]);
    assert!(p.node_table[..120]
        .chunks(3)
        .all(|words| words == [1, 2, 3]));
    assert!(p.node_table[120..].iter().all(|&word| word == 0));
    assert_eq!(p.output_table, (4..44).collect::<Vec<u32>>());
    assert_eq!(p.output_bits, [(1 << 40) - 1]);
}

/// Every output's value, what is left and what is not.
fn check_found(g: &Graph) -> u32 {
    let mut got = g.clone();
    let nodes = find(&mut got, 8 * g.nodes as usize).unwrap();
    assert!(nodes == got.nodes && nodes <= g.nodes);
    assert_eq!(unread(&got), None);
    for number in 0..1u32 << g.inputs {
        let assignment: Vec<bool> = (0..g.inputs).map(|at| number >> at & 1 == 1).collect();
        assert_eq!(
            output_values(g, &assignment),
            output_values(&got, &assignment),
            "{g:?}"
        );
    }
    let locked = |g: &Graph| g.node_indices().filter(|&node| g.is_locked(node)).count();
    assert_eq!(locked(&got), locked(g));
    let (places, freed) = (3 * nodes as usize, 3 * g.nodes as usize);
    assert!(got.node_table[places..freed].iter().all(|&word| word == 0));
    assert_eq!(got.node_table[freed..], g.node_table[freed..]);
    assert!(got.locks[nodes as usize..g.nodes as usize]
        .iter()
        .all(|&byte| byte == 0));
    assert_eq!(got.locks[g.nodes as usize..], g.locks[g.nodes as usize..]);
    got.node_indices()
        .filter(|&node| is_plain(&got, node))
        .count() as u32
}

#[test]
fn random_graphs() {
    let mut random = Random::new(42);
    let mut plain = 0;
    for _ in 0..2_000 {
        let g = buried(&mut random, 5, 12, 6);
        plain += check_found(&with_tails(&mut random, g.clone(), 3));
        let mut p = with_slack(&mut random, pack(&g), 3);
        let behind = p.node_table[3 * g.nodes as usize..].to_vec();
        found(&mut p, 8 * g.nodes as usize);
        assert_eq!(p.node_table[3 * g.nodes as usize..], behind);
        let mut due = g.clone();
        find(&mut due, 8 * g.nodes as usize).unwrap();
        due.node_table.truncate(3 * due.nodes as usize);
        due.locks.truncate(due.nodes as usize);
        assert_eq!(unpack(&p), due);
    }
    assert!(plain > 400, "{plain}");
}

/// In lists: outputs hold against the start, N never grows, and wiring, locks and N stay but by the two calls that rewire.
#[test]
fn lists_of_calls() {
    let mut random = Random::new(43);
    let mut rewired = 0;
    for _ in 0..600 {
        let g = buried(&mut random, 4, 10, 5);
        let mut now = g.clone();
        for _ in 0..6 {
            let before = now.clone();
            let node = random.below(g.inputs + g.nodes + 2);
            let near = triples(&near(&g, node));
            let three = near.get(random.below(near.len() as u32 + 1) as usize);
            let call = match random.below(5) {
                0 => Call::Node(node),
                1 => Call::Settle,
                2 => Call::Find,
                _ => Call::Majority {
                    node,
                    three: *three.unwrap_or(&[1, 2, 3]),
                },
            };
            let answer = step(&mut now, &call, 8 * g.nodes as usize);
            let rewires = matches!(answer, Answer::Majority(_) | Answer::Found(_));
            rewired += u32::from(now.wiring() != before.wiring());
            assert!(
                rewires
                    || (now.wiring(), &now.locks, now.nodes)
                        == (before.wiring(), &before.locks, before.nodes)
            );
            assert!(now.nodes <= before.nodes);
        }
        for number in 0..1u32 << g.inputs {
            let assignment: Vec<bool> = (0..g.inputs).map(|at| number >> at & 1 == 1).collect();
            assert_eq!(
                output_values(&g, &assignment),
                output_values(&now, &assignment)
            );
        }
    }
    assert!(rewired > 300, "{rewired}");
}
