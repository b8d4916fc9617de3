//! Figures for a class, through the safe interface.

use reducer::{lent, Class, Figures, Graph, Refusal, Settled, Size, CLASS_WORDS, MARK, MOST_GRAPHS};

fn graph(inputs: u32, node_literals: &[u32], output_literals: &[u32]) -> Graph {
    Graph::new(inputs, node_literals.to_vec(), output_literals.to_vec())
}

fn p1() -> Graph {
    graph(3, &[3, 5, 7], &[9])
}

fn p2() -> Graph {
    graph(5, &[3, 5, 6, 13, 8, 11], &[14])
}

/// An XOR of two complemented inputs.
fn p5() -> Graph {
    graph(2, &[3, 5, MARK], &[6])
}

/// What the figures of graphs come to, worked out afresh.
fn afresh(graphs: &[Graph]) -> Figures {
    let mut told = Figures { graphs: graphs.len() as u64, ..Figures::default() };
    for graph in graphs {
        let Settled { rounds, before, after, .. } = graph.clone().settle().unwrap();
        let xors = graph.node_table.iter().filter(|&&index| index == MARK).count() as u64;
        let nodes = 5 * (u64::from(graph.size.nodes) - xors) + 12 * xors;
        let [before, after] = [before, after].map(u64::from);
        told.before += before;
        told.after += after;
        told.rounds += u64::from(rounds);
        told.cells_before += 13 * before + nodes;
        told.cells_after += 13 * after + nodes;
    }
    told.fall = told.before as i64 - told.after as i64;
    told.total_before = told.before as i64;
    told
}

#[test]
fn a_class_of_three() {
    let mut class = Class::new();
    assert_eq!((class.all(), class.latest()), (Ok(Figures::default()), Ok(Figures::default())));
    let mut g = p1();
    assert_eq!(class.enter(&mut g), p1().settle());
    assert_eq!(g, graph(3, &[2, 4, 6], &[8]));
    let one = Figures {
        graphs: 1,
        before: 4,
        after: 0,
        rounds: 2,
        cells_before: 57,
        cells_after: 5,
        fall: 4,
        total_before: 4,
    };
    assert_eq!((class.all(), class.latest()), (Ok(one), Ok(one)));
    class.enter(&mut p2()).unwrap();
    class.enter(&mut p5()).unwrap();
    let three = Figures {
        graphs: 3,
        before: 10,
        after: 2,
        rounds: 6,
        cells_before: 157,
        cells_after: 53,
        fall: 8,
        total_before: 10,
    };
    assert_eq!((class.all(), class.latest()), (Ok(three), Ok(three)));
    assert_eq!(afresh(&[p1(), p2(), p5()]), three);
}

/// After each graph of forty, refused ones among them.
#[test]
fn always_afresh() {
    let (mut class, mut entered) = (Class::default(), Vec::new());
    for at in 0..40 {
        let mut g = [p1(), p2(), p5(), graph(1, &[], &[3]), graph(2, &[2, 3, 4, 7, 6, 4], &[9, 8, 7])][at % 5].clone();
        if at % 7 == 3 {
            let refused = Graph { locks: vec![2; 3], ..g.clone() };
            let due = if g.size.nodes == 0 { Ok(()) } else { Err(Refusal::BadLock) };
            let kept = class.clone();
            assert_eq!(class.enter(&mut refused.clone()).map(|_| ()), due);
            if due.is_err() {
                assert_eq!(class, kept);
                continue;
            }
        } else {
            class.enter(&mut g.clone()).unwrap();
        }
        g.locks.truncate(g.size.nodes as usize);
        entered.push(g);
        assert_eq!(class.all(), Ok(afresh(&entered)));
        assert_eq!(class.latest(), Ok(afresh(&entered[entered.len().saturating_sub(16)..])));
    }
}

#[test]
fn one_more_than_a_thousand() {
    let mut class = Class::new();
    for _ in 0..MOST_GRAPHS {
        class.enter(&mut p1()).unwrap();
    }
    let (mut g, kept) = (p1(), class.clone());
    assert_eq!(class.enter(&mut g), Err(Refusal::OverLimit));
    assert_eq!((g, &class), (p1(), &kept));
    // Before any other check.
    assert_eq!(class.enter(&mut graph(0, &[9, 9, 9], &[])), Err(Refusal::OverLimit));
    assert_eq!(class.all().unwrap().graphs, 1_000);
    assert_eq!(class.latest(), Ok(afresh(&vec![p1(); 16])));
}

/// Books from anywhere are refused or give what they hold.
#[test]
fn other_books() {
    let large = 1u64 << 40;
    for place in 0..CLASS_WORDS {
        let mut class = Class::new();
        class.words[place] = large;
        let mut bad = graph(0, &[9, 9, 9], &[]);
        assert_eq!(class.enter(&mut bad), Err(Refusal::OverLimit), "{place}");
        assert_eq!((class.all(), class.latest()), (Err(Refusal::OverLimit), Err(Refusal::OverLimit)));
        class.words[place] = if place == 0 { 1_001 } else { large - 1 };
        assert_eq!(class.all().is_ok(), place != 0, "{place}");
        assert_eq!(class.enter(&mut p1()).is_ok(), place != 0, "{place}");
    }
    let full = Class { words: std::array::from_fn(|at| if at == 0 { 999 } else { large - 1 }) };
    let (all, latest) = (full.all().unwrap(), full.latest().unwrap());
    assert_eq!((all.graphs, all.cells_after, latest.graphs, latest.before), (999, large - 1, 16, 16 * (large - 1)));
}

#[test]
fn short_books() {
    let Graph { size, node_table, mut node_bits, output_table, mut output_bits, locks } = p1();
    let mut book = vec![0; CLASS_WORDS];
    let mut class = |size: Size, book: &mut [u64], scratch: &mut [u32]| {
        lent::class(size, &node_table, &mut node_bits, &output_table, &mut output_bits, &locks, scratch, book)
    };
    for short in [0, 1, CLASS_WORDS - 1] {
        assert_eq!(class(size, &mut book[..short], &mut [0; 8]), Err(Refusal::ShortSlice));
        assert_eq!(lent::class_figures(&vec![0; short], false), Err(Refusal::ShortSlice));
        assert_eq!(class(Size { inputs: 9_999, ..size }, &mut vec![1; short], &mut [0; 8]), Err(Refusal::OverLimit));
    }
    assert_eq!(class(size, &mut [u64::MAX], &mut [0; 8]), Err(Refusal::OverLimit));
    assert_eq!(lent::class_figures(&[u64::MAX], true), Err(Refusal::OverLimit));
    assert_eq!(class(size, &mut book, &mut [0; 7]), Err(Refusal::ShortScratch));
    // What stands behind the record stays.
    book.extend([7, u64::MAX]);
    assert!(class(size, &mut book, &mut [0; 8]).is_ok());
    assert_eq!(book[CLASS_WORDS..], [7, u64::MAX]);
    assert_eq!(lent::class_figures(&book, false).unwrap().graphs, 1);
}
