//! Joins: inverters and an adder by hand, values on values, and refusals in order.

use crate::entries::join;
use crate::evaluation::output_values;
use crate::fast::Fast;
use crate::generate::{graph, with_locks, SHAPES};
use crate::graph::{admit, Graph, MARK};
use crate::join::joined;
use crate::packed::{pack, Lengths, Packed};
use crate::random::Random;
use crate::vectors::case::unfilled;
use crate::vectors::samples::of;

/// An inverter that meets an inverter is a wire, one alone stays; constants from either side.
#[test]
fn inverters() {
    let wires = |inputs, outputs: &[u32]| of(inputs, &[], outputs);
    let both =
        |first: Graph, second: &[u32]| joined(&first, &wires(first.outputs, second)).output_table;
    assert_eq!(both(wires(1, &[3]), &[3]), [2]);
    assert_eq!(both(wires(1, &[3]), &[2]), [3]);
    assert_eq!(both(wires(1, &[2]), &[3]), [3]);
    assert_eq!(both(wires(0, &[1]), &[3, 2, 1, 0]), [0, 1, 1, 0]);
    assert_eq!(both(wires(3, &[5, 5, 2]), &[4, 3, 7]), [5, 4, 3]);
}

/// Two stages of a ripple adder, which hand over the carry complemented, with locks.
#[test]
fn an_adder_in_stages() {
    let low = of(
        5,
        &[[3, 5, 7], [2, 4, MARK], [14, 6, MARK]],
        &[12, 8, 10, 16],
    );
    let high = of(4, &[[3, 4, 6], [3, 4, MARK], [12, 6, MARK]], &[8, 14, 10]);
    let both = joined(&low.locked_at(&[7]), &high.locked_at(&[5, 6]));
    let nodes = [
        [3, 5, 7],
        [2, 4, MARK],
        [14, 6, MARK],
        [13, 8, 10],
        [13, 8, MARK],
        [20, 10, MARK],
    ];
    assert_eq!(both, of(5, &nodes, &[16, 22, 18]).locked_at(&[7, 9, 10]));
}

#[test]
fn values_are_the_seconds_on_the_firsts() {
    let mut random = Random::new(113);
    for at in 0..800 {
        let [inputs, between, outputs] = [4, 5, 4].map(|most| random.below(most + 1));
        let [n, m] = [12, 12].map(|most| random.below(most + 1));
        let g = graph(&mut random, SHAPES[at % 8], inputs, n, between);
        let h = graph(&mut random, SHAPES[at / 8 % 8], between, m, outputs);
        let (g, h) = (with_locks(&mut random, g), with_locks(&mut random, h));
        let both = joined(&g, &h);
        assert_eq!(admit(&both), Ok(()));
        let settled = |g: &Graph| {
            let mut fast = Fast::new(g.clone());
            fast.settle();
            fast.g
        };
        let parts = joined(&settled(&g), &settled(&h));
        let whole = settled(&parts);
        assert!(whole.c() <= parts.c());
        for number in 0..1 << inputs {
            let assignment: Vec<bool> = (0..inputs).map(|k| number >> k & 1 == 1).collect();
            let due = output_values(&h, &output_values(&g, &assignment));
            assert_eq!(output_values(&both, &assignment), due);
            assert_eq!(output_values(&whole, &assignment), due);
        }
    }
}

#[test]
fn refused_in_order() {
    let (g, h) = (of(2, &[[2, 4, 1]], &[6, 3]), of(2, &[[2, 5, 0]], &[6]));
    let room = |nodes, outputs| unfilled(Lengths::of(nodes, outputs));
    let number = |p: &Packed, q: &Packed, mut lent: Packed| {
        let before = lent.clone();
        let told = join(p, q, &mut lent).unwrap_err();
        assert_eq!(lent, before);
        told
    };
    let with = |g: &Graph, change: &dyn Fn(&mut Packed)| {
        let mut p = pack(g);
        change(&mut p);
        p
    };
    let (p, q, none) = (pack(&g), pack(&h), || room(0, 0));
    assert_eq!(
        number(
            &with(&g, &|p| p.locks[0] = 2),
            &with(&h, &|q| q.inputs = 9_999),
            none()
        ),
        13
    );
    assert_eq!(number(&p, &with(&h, &|q| q.inputs = 9_999), none()), 3);
    assert_eq!(number(&p, &with(&h, &|q| q.locks[0] = 2), none()), 13);
    assert_eq!(number(&p, &with(&h, &|q| q.inputs = 3), none()), 19);
    assert_eq!(number(&p, &q, none()), 4);
    for short in [
        room(1, 1),
        room(2, 0),
        Packed {
            locks: vec![7],
            ..room(2, 1)
        },
    ] {
        assert_eq!(number(&p, &q, short), 4);
    }
    let wide = |nodes: usize| pack(&of(0, &vec![[0; 3]; nodes], &[]));
    assert_eq!(number(&wide(60_000), &wide(40_001), none()), 3);
    assert_eq!(number(&wide(60_000), &wide(40_000), none()), 4);
    let mut lent = room(3, 2);
    assert_eq!(join(&p, &q, &mut lent), Ok((2, 2, 1)));
    assert_eq!(lent.node_table, [1, 2, 0, 3, 1, 0, 1_006, 1_007, 1_008]);
    assert_eq!(lent.node_bits, [0b000_100]);
    assert_eq!(
        (lent.output_table, lent.output_bits),
        (vec![4, 2_001], vec![0])
    );
    assert_eq!(lent.locks, [0, 0, 102]);
}
