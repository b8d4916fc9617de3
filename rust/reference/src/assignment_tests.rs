//! Assignments for wanted outputs: adders by hand, and each answer looked at again.

use crate::assignment::*;
use crate::entries;
use crate::evaluation::{output_values, value_of_literal};
use crate::generate::{small, with_locks};
use crate::graph::{Graph, MARK};
use crate::packed::{pack, Packed};
use crate::random::Random;
use crate::vectors::samples::of;

/// The carry and the sum of three inputs.
fn full_adder() -> Graph {
    of(3, &[[2, 4, 6], [2, 4, MARK], [10, 6, MARK]], &[8, 12])
}

#[test]
fn an_adder_by_hand() {
    let g = full_adder();
    for (wanted, due) in [
        ([0, 0], Some(0)),
        ([0, 1], Some(1)),
        ([1, 0], Some(3)),
        ([1, 1], Some(7)),
        ([2, 1], Some(1)),
        ([1, 2], Some(3)),
        ([2, 2], Some(0)),
    ] {
        assert_eq!(assignment(&g, &wanted, 3), Ok(due), "{wanted:?}");
    }
    let opposite = of(3, &[[2, 4, 6]], &[8, 9]);
    assert_eq!(assignment(&opposite, &[1, 1], 1), Ok(None));
    assert_eq!(assignment(&opposite, &[1, 0], 1), Ok(Some(3)));
    // Input 1 is the lowest bit.
    let last = of(16, &[], &[2, 32]);
    assert_eq!(assignment(&last, &[1, 0], 0), Ok(Some(1)));
    assert_eq!(assignment(&last, &[0, 1], 0), Ok(Some(1 << 15)));
    // No inputs have one assignment, and no outputs are as wanted.
    assert_eq!(assignment(&of(0, &[], &[0, 1]), &[0, 1], 0), Ok(Some(0)));
    assert_eq!(assignment(&of(0, &[], &[0, 1]), &[2, 0], 0), Ok(None));
    assert_eq!(assignment(&of(9, &[], &[]), &[7], 0), Ok(Some(0)));
}

/// What is found gives the pattern by plain recursion, and nothing before it does.
#[test]
fn the_least_that_gives_it() {
    let (mut random, mut met) = (Random::new(112), [0; 3]);
    for _ in 0..4_000 {
        let g = small(&mut random, 6, 8, 3);
        let g = with_locks(&mut random, g);
        let wanted: Vec<u8> = (0..g.outputs).map(|_| random.below(3) as u8).collect();
        let found = assignment(&g, &wanted, 8).unwrap();
        met[match found {
            None => 0,
            Some(0) => 1,
            Some(_) => 2,
        }] += 1;
        for number in 0..1 << g.inputs {
            let inputs = numbered(&g, number);
            let outputs = g.output_table.iter().zip(&wanted);
            let mut as_wanted = outputs.map(|(&literal, &byte)| {
                byte == 2 || u8::from(value_of_literal(&g, &inputs, literal)) == byte
            });
            let gives = as_wanted.all(|fits| fits);
            assert!(!gives || found.is_some_and(|least| least <= number));
            assert!(gives || found != Some(number));
        }
    }
    assert!(met.iter().all(|&many| many > 200), "{met:?}");
}

/// The outputs of a number are given by it, or by one below.
#[test]
fn what_an_assignment_gives_is_found() {
    let mut random = Random::new(1_120);
    for _ in 0..40 {
        let g = small(&mut random, 12, 30, 5);
        let number = random.below(1 << g.inputs);
        let wanted: Vec<u8> = output_values(&g, &numbered(&g, number))
            .into_iter()
            .map(u8::from)
            .collect();
        assert!(least(&g, &wanted).is_some_and(|found| found <= number));
    }
}

#[test]
fn refused_in_order() {
    let fine = pack(&full_adder());
    let with = |change: &dyn Fn(&mut Packed)| {
        let mut p = fine.clone();
        change(&mut p);
        p
    };
    let number =
        |p: &Packed, wanted: &[u8], scratch| entries::assignment(p, wanted, scratch).unwrap_err();
    assert_eq!(number(&with(&|p| p.inputs = 4_097), &[], 0), 3);
    assert_eq!(number(&with(&|p| p.output_table[0] = 9), &[3], 0), 4);
    assert_eq!(number(&with(&|p| p.output_table[0] = 9), &[3, 3], 0), 5);
    let many = with(&|p| p.inputs = 17);
    assert_eq!(
        number(
            &Packed {
                locks: vec![2; 3],
                ..many.clone()
            },
            &[3, 3],
            0
        ),
        13
    );
    assert_eq!(number(&many, &[3, 3], 0), 17);
    assert_eq!(number(&with(&|p| p.inputs = 16), &[3, 3], 0), 18);
    assert_eq!(number(&fine, &[2, 3], 0), 18);
    assert_eq!(number(&fine, &[1, 1], 2), 8);
    // A byte past the last output is not looked at.
    assert_eq!(entries::assignment(&fine, &[1, 1, 9], 3), Ok(Some(7)));
}
