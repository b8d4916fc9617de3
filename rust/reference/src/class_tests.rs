//! Classes: figures held to sums over lists of rows, full records, and records from anywhere.

use crate::class::*;
use crate::entries::class;
use crate::fast::Fast;
use crate::generate::{small, with_locks};
use crate::graph::{Graph, MARK};
use crate::packed::{pack, unpack};
use crate::random::Random;
use crate::settling::settle;
use crate::vectors::samples::of;

fn p1() -> Graph {
    of(3, &[[3, 5, 7]], &[9])
}

#[test]
fn cells_of_a_graph() {
    assert_eq!(cells(&p1()), 4 * 13 + 5);
    let g = of(2, &[[3, 5, MARK], [1, 0, 6]], &[9, 8]);
    assert_eq!(cells(&g), 4 * 13 + 12 + 5);
    assert_eq!(cells(&of(1, &[], &[3])), 13);
}

/// P1, P1 with too little scratch, P5 and P10.
#[test]
fn a_class_by_hand() {
    let p5 = of(2, &[[3, 5, MARK]], &[6]);
    let p10 = of(1, &[], &[3]);
    let mut book = [0; 87];
    book[86] = 77;
    for (g, scratch) in [(p1(), 8), (p1(), 7), (p5, 8), (p10, 0)] {
        let done = class(&mut pack(&g), scratch, &mut book);
        assert_eq!(done.err(), (scratch == 7).then_some(8));
    }
    let due = Figures {
        count: 3,
        sums: [7, 1, 5, 108, 30],
        improvement: [6, 7],
    };
    assert_eq!(class_figures(&book, false), Ok(due));
    assert_eq!(class_figures(&book, true), Ok(due));
    assert_eq!(
        book[6..21],
        [1, 1, 1, 13, 13, 2, 0, 2, 38, 12, 4, 0, 2, 57, 5]
    );
    assert!(book[21..86].iter().all(|&word| word == 0) && book[86] == 77);
}

/// A thousand graphs with refused ones among them, and the next. The rows are those of single settlings by another way.
#[test]
fn always_as_worked_out_afresh() {
    let (mut random, mut book, mut rows) = (Random::new(110), vec![0; WORDS], Vec::new());
    while rows.len() < 1_000 {
        let g = small(&mut random, 4, 4, 3);
        let g = with_locks(&mut random, g);
        let scratch = (8 * g.nodes).saturating_sub(random.one_in(6) as u32) as usize;
        let before = book.clone();
        let mut p = pack(&g);
        match class(&mut p, scratch, &mut book) {
            Ok(settled) => {
                let mut fast = Fast::new(g.clone());
                assert_eq!(fast.settle(), settled);
                assert_eq!(unpack(&p), fast.g);
                rows.push(row_of(&g, &fast.g, settled));
            }
            Err(number) => assert_eq!((number, &book, p), (8, &before, pack(&g))),
        }
        assert_eq!(class_figures(&book, false), Ok(afresh(&rows)));
        assert_eq!(class_figures(&book, true), Ok(afresh(latest(&rows))));
    }
    let full = book.clone();
    // Whatever else is wrong.
    for mut p in [pack(&p1()), pack(&of(5_000, &[[99; 3]], &[]))] {
        assert_eq!(class(&mut p, 0, &mut book), Err(3));
        assert_eq!(class(&mut p, 0, &mut book[..40]), Err(3));
    }
    assert_eq!(book, full);
    assert_eq!(class_figures(&book, false), Ok(afresh(&rows)));
}

#[test]
fn records_that_are_refused() {
    for place in 0..WORDS + 2 {
        for (word, large) in [(TOO_LARGE - 1, false), (TOO_LARGE, true), (u64::MAX, true)] {
            let mut book = vec![0; WORDS + 2];
            book[place] = word;
            let refused = place < WORDS && (large || place == 0);
            // A short record has what it has.
            let seen = if refused && place < 50 {
                Err(3)
            } else {
                Err(4)
            };
            let short = &mut book[..50];
            assert_eq!(class_figures(short, false).map(|_| ()), seen);
            assert_eq!(class(&mut pack(&p1()), 0, short).map(|_| ()), seen);
            let due = if refused { Err(3) } else { Ok(()) };
            assert_eq!(class_figures(&book, true).map(|_| ()), due, "{place}");
            assert_eq!(class(&mut pack(&p1()), 8, &mut book).map(|_| ()), due);
        }
    }
    for (count, entered, read) in [
        (999, Ok(()), Ok(())),
        (1_000, Err(3), Ok(())),
        (1_001, Err(3), Err(3)),
    ] {
        let mut book = vec![count; 1];
        book.resize(WORDS, 0);
        assert_eq!(class_figures(&book, false).map(|_| ()), read);
        assert_eq!(class(&mut pack(&p1()), 8, &mut book).map(|_| ()), entered);
    }
    // The record's length is told with the tables', before what stands in them.
    let bad = of(3, &[[9, 5, 7]], &[9]);
    assert_eq!(class(&mut pack(&bad), 0, &mut [0; 85]), Err(4));
    assert_eq!(class(&mut pack(&bad), 0, &mut [0; 86]), Err(5));
    assert_eq!(class_figures(&[], false), Err(4));
}

#[test]
fn a_total_may_pass_the_limit_once() {
    let mut book = vec![0; WORDS];
    book[1] = TOO_LARGE - 1;
    assert!(class(&mut pack(&p1()), 8, &mut book).is_ok());
    assert_eq!(book[1], TOO_LARGE + 3);
    assert_eq!(class_figures(&book, false), Err(3));
    assert_eq!(class(&mut pack(&p1()), 8, &mut book), Err(3));
}

/// What settling refuses, a class refuses alike.
#[test]
fn refused_as_settling_is() {
    let mut random = Random::new(1_100);
    for _ in 0..2_000 {
        let g = small(&mut random, 3, 3, 2);
        let g = crate::vectors::samples::damaged(&mut random, g);
        let scratch = random.below(26) as usize;
        let due = settle(&mut g.clone(), scratch);
        let mut p = pack(&g);
        let told = class(&mut p, scratch, &mut [0; WORDS]);
        if crate::packed::admit(&p).is_ok() == crate::graph::admit(&g).is_ok() {
            assert_eq!(told, due);
        }
    }
}
