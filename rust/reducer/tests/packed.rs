//! Tables as they are lent, indices and complement bits apart: what is read from them, what is refused, and what stays.

use reducer::{bit_words, lent, Graph, Node, Refusal, Size, MARK};

fn graph(inputs: u32, nodes: &[u32], outputs: &[u32]) -> Graph {
    Graph::new(inputs, nodes.to_vec(), outputs.to_vec())
}

/// P2 of document 01: nodes 6 and 7.
fn p2() -> Graph {
    graph(5, &[3, 5, 6, 13, 8, 11], &[14])
}

/// A chain of so many nodes, every third an XOR, and so many outputs: bits of all kinds, over several words.
fn chain(nodes: u32, outputs: u32) -> Graph {
    let words = |at: u32| [2 * at + 4 + at % 2, 2 + at / 2 % 4, if at % 3 == 2 { MARK } else { at / 3 % 6 }];
    let table: Vec<u32> = (0..nodes).flat_map(words).collect();
    let ends: Vec<u32> = (0..outputs).map(|at| 2 * (at % (nodes + 3)) + at % 2).collect();
    graph(2, &table, &ends)
}

type Told = Result<(), Refusal>;
type Call<'a> = (&'static str, &'a dyn Fn(&mut Graph) -> Told);

/// What each call answers on a graph, and the graph after it. The node that is named is the last, a root.
fn every_call(graph: &Graph) -> Vec<(&'static str, Told, Graph)> {
    let last = graph.size.inputs.saturating_add(graph.size.nodes);
    let words = vec![0; graph.size.inputs.min(4_096) as usize];
    let (list, moves) = ([last], [1]);
    let calls: [Call; 11] = [
        ("count", &|g| g.complemented_edges().map(|_| ())),
        ("write", &|g| g.write().map(|_| ())),
        ("export", &|g| g.export().map(|_| ())),
        ("evaluate", &|g| g.evaluate(&words).map(|_| ())),
        ("node", &|g| g.node_call(last).map(|_| ())),
        ("pair", &|g| g.pair_call(last, 1).map(|_| ())),
        ("trial", &|g| g.trial(last, 1, 1, 1).map(|_| ())),
        ("tree", &|g| g.tree_call(last).map(|_| ())),
        ("preview", &|g| g.preview(last).map(|_| ())),
        ("many", &|g| g.many(&list, &moves).map(|_| ())),
        ("settle", &|g| g.settle().map(|_| ())),
    ];
    let made = |(name, call): Call| {
        let mut after = graph.clone();
        let told = call(&mut after);
        (name, told, after)
    };
    calls.map(made).into()
}

/// Every call is refused so, and has changed nothing.
fn all_refused(graph: &Graph, due: Refusal, what: &str) {
    for (name, told, after) in every_call(graph) {
        assert_eq!(told, Err(due), "{name}: {what}");
        assert_eq!(after, *graph, "{name}: {what}");
    }
}

#[test]
fn literals_in_their_tables() {
    let g = p2();
    assert_eq!((&g.node_table[..], &g.node_bits[..]), (&[1, 2, 3, 6, 4, 5][..], &[0b101011][..]));
    assert_eq!((&g.output_table[..], &g.output_bits[..]), (&[7][..], &[0][..]));
    assert_eq!(g.node(6), Ok(Node::Majority([3, 5, 6])));
    assert_eq!(g.node(7).unwrap().literals(), [13, 8, 11]);
    assert_eq!((g.output(0), g.output(1)), (Ok(14), Err(Refusal::NoSuchNode)));
    for none in [0, 5, 8, u32::MAX] {
        assert_eq!(g.node(none), Err(Refusal::NoSuchNode));
    }
    let xor = graph(2, &[3, 4, MARK], &[7]);
    assert_eq!((&xor.node_table[..], &xor.node_bits[..]), (&[1, 2, MARK][..], &[1][..]));
    assert_eq!((xor.node(3), xor.output(0)), (Ok(Node::Xor([3, 4])), Ok(7)));
    assert_eq!(xor.node(3).unwrap().literals(), [3, 4]);
    assert_eq!(xor.node_literals(), Ok(vec![3, 4, MARK]));
    // Less than three literals make no node, and leave no bit.
    assert_eq!(graph(3, &[2, 4, 6, 9, 11], &[8]), graph(3, &[2, 4, 6], &[8]));
    assert_eq!([0, 1, 64, 65, 128, 300_000].map(bit_words), [0, 1, 1, 2, 2, 4_688]);
}

/// What is given is given back, whatever it is, over the ends of words.
#[test]
fn literals_given_back() {
    for nodes in [0, 1, 21, 22, 42, 43, 64, 100] {
        let words: Vec<u32> = (0..3 * nodes).map(|at: u32| at.wrapping_mul(0x9E37_79B9) % (MARK - 2)).collect();
        let g = graph(9, &words, &words);
        assert_eq!((g.node_literals(), g.output_literals()), (Ok(words.clone()), Ok(words)));
        assert_eq!((g.node_bits.len(), g.output_bits.len()), (bit_words(3 * nodes as usize), g.node_bits.len()));
    }
    let marks = graph(9, &[MARK; 3], &[MARK; 2]);
    assert_eq!((marks.node_literals(), marks.output_literals()), (Ok(vec![MARK; 3]), Ok(vec![MARK; 2])));
    assert_eq!((marks.node(10), marks.output(1)), (Err(Refusal::BadLiteral), Err(Refusal::BadLiteral)));
    assert_eq!(marks.complemented_edges(), Err(Refusal::BadLiteral));
}

#[test]
fn places_set_and_read() {
    let (mut table, mut bits) = ([0; 66], [u64::MAX, 0]);
    for (place, literal) in [(0, 8), (0, 9), (63, 6), (64, 5), (65, 3), (65, MARK), (1, MARK), (2, MARK - 2)] {
        assert_eq!(lent::set_literal(&mut table, &mut bits, place, literal), Ok(()));
        assert_eq!(lent::literal(&table, &bits, place), Ok(literal), "{place}");
    }
    assert_eq!(bits, [u64::MAX >> 1 & !2, 1]);
    assert_eq!((table[0], table[1], table[2], table[3]), (4, MARK, 0x7FFF_FFFE, 0));
    assert_eq!((table[63], table[64], table[65]), (3, 2, MARK));
    let kept = (table, bits);
    for (length, words) in [(66, 1), (65, 2), (0, 2), (66, 0)] {
        let place = if words == 0 || length == 0 { 0 } else { 65 };
        assert_eq!(lent::literal(&table[..length], &bits[..words], place), Err(Refusal::ShortSlice));
        let set = lent::set_literal(&mut table[..length], &mut bits[..words], place, 3);
        assert_eq!((set, (table, bits)), (Err(Refusal::ShortSlice), kept));
    }
    assert_eq!(lent::literal(&table, &bits, usize::MAX), Err(Refusal::ShortSlice));
    // What no literal says: a mark with its bit, and indices that are too large.
    assert_eq!(lent::literal(&[MARK], &[1], 0), Err(Refusal::BadLiteral));
    for index in [0x7FFF_FFFF, 0x8000_0000, 0x8000_0001, MARK - 1] {
        assert_eq!([0, 1].map(|bit| lent::literal(&[index], &[bit], 0)), [Err(Refusal::BadLiteral); 2]);
    }
}

/// Each bit past the last literal in its word, of either table.
#[test]
fn stray_bits() {
    for g in [p2(), chain(22, 65), chain(43, 1)] {
        assert!(every_call(&g).iter().all(|(_, told, _)| told.is_ok()));
        let ends = [3 * g.size.nodes as usize, g.size.outputs as usize];
        for (which, end) in ends.into_iter().enumerate() {
            for place in end..64 * bit_words(end) {
                let mut bad = g.clone();
                let bits = [&mut bad.node_bits, &mut bad.output_bits];
                bits[which][place / 64] |= 1 << (place % 64);
                all_refused(&bad, Refusal::BadLiteral, &format!("table {which}, bit {place}"));
            }
        }
    }
    // The last of 300,000 literals is at bit 31 of its word.
    let largest = graph(0, &vec![0; 300_000], &[]);
    for (bit, due) in [(31, Ok(1)), (32, Err(Refusal::BadLiteral)), (63, Err(Refusal::BadLiteral))] {
        let mut g = largest.clone();
        g.node_bits[4_687] |= 1 << bit;
        assert_eq!(g.complemented_edges(), due, "{bit}");
    }
}

#[test]
fn bits_at_marks() {
    let g = chain(43, 3);
    for node in (2..43).step_by(3) {
        let place = 3 * node + 2;
        assert_eq!(g.node_table[place], MARK);
        let mut bad = g.clone();
        bad.node_bits[place / 64] |= 1 << (place % 64);
        all_refused(&bad, Refusal::BadLiteral, &format!("the mark of node {node}"));
        assert_eq!(bad.node(3 + node as u32), Err(Refusal::BadLiteral));
        assert_eq!(bad.node_literals(), Err(Refusal::BadLiteral));
    }
}

/// An index that its node or output may not name gets 5 with either bit, also where twice the index would wrap to one that it may.
#[test]
fn indices_too_large() {
    let g = chain(22, 2);
    for index in [0x7FFF_FFFE, 0x7FFF_FFFF, 0x8000_0000, 0x8000_0001, MARK - 1, MARK] {
        for (place, bit) in (0..68).flat_map(|place| [(place, 0), (place, 1)]) {
            let mut bad = g.clone();
            let (table, bits, at) = match place {
                0..66 => (&mut bad.node_table, &mut bad.node_bits, place),
                _ => (&mut bad.output_table, &mut bad.output_bits, place - 66),
            };
            let stays = bits[at / 64] & !(1 << (at % 64));
            (table[at], bits[at / 64]) = (index, stays | bit << (at % 64));
            if (index, bit, place % 3) == (MARK, 0, 2) && place < 66 {
                assert!(bad.complemented_edges().is_ok(), "a mark at place {place}");
            } else {
                all_refused(&bad, Refusal::BadLiteral, &format!("index {index} with bit {bit} at place {place}"));
            }
        }
    }
    // With 22 nodes the last index is 24; the last node may name 23, and an output 24.
    for (place, index, due) in [(63, 23, true), (63, 24, false), (66, 24, true), (66, 25, false)] {
        let mut g = g.clone();
        let table = if place < 66 { &mut g.node_table } else { &mut g.output_table };
        table[place % 66] = index;
        assert_eq!(g.complemented_edges().is_ok(), due, "{index} at place {place}");
    }
}

/// Limits first, then lengths, then literals and bits, then locks.
#[test]
fn too_few_words() {
    for g in [p2(), chain(22, 65), chain(64, 64)] {
        for words in 0..g.node_bits.len() {
            let mut short = g.clone();
            short.node_bits.truncate(words);
            all_refused(&short, Refusal::ShortSlice, &format!("{words} words for the nodes"));
            assert_eq!(short.node_literals(), Err(Refusal::ShortSlice));
        }
        for words in 0..g.output_bits.len() {
            let mut short = g.clone();
            short.output_bits.truncate(words);
            // A stray bit and a lock that is none are told later.
            short.node_bits[0] |= u64::MAX << 60;
            short.locks[0] = 2;
            all_refused(&short, Refusal::ShortSlice, &format!("{words} words for the outputs"));
            short.size.inputs = 4_097;
            all_refused(&short, Refusal::OverLimit, "limits come first");
        }
    }
    let none = Graph { size: Size { inputs: 0, nodes: u32::MAX, outputs: u32::MAX }, ..Graph::default() };
    all_refused(&none, Refusal::OverLimit, "nothing there");
    assert_eq!((none.node(1), none.output(0)), (Err(Refusal::ShortSlice), Err(Refusal::ShortSlice)));
    assert_eq!((none.node_literals(), none.output_literals()), (Err(Refusal::ShortSlice), Err(Refusal::ShortSlice)));
    let mut stray = Graph { locks: vec![0, 2], ..p2() };
    all_refused(&stray, Refusal::BadLock, "a lock that is none");
    stray.output_bits[0] = 2;
    all_refused(&stray, Refusal::BadLiteral, "bits come before locks");
}

/// Indices, words of bits and locks past the graph change no answer and stay.
#[test]
fn what_stands_after_the_graph() {
    for g in [p2(), chain(22, 65), chain(64, 64), graph(2, &[], &[])] {
        let mut long = g.clone();
        long.node_table.extend([MARK, 0x8000_0000, 3]);
        long.node_bits.extend([u64::MAX, 5]);
        long.output_table.extend([MARK, 99]);
        long.output_bits.extend([7, u64::MAX]);
        long.locks.extend([9, 1]);
        for ((name, told, after), (_, long_told, long_after)) in every_call(&g).into_iter().zip(every_call(&long)) {
            assert_eq!(long_told, told, "{name}");
            let Graph { node_table, node_bits, output_table, output_bits, locks, .. } = &long_after;
            let Graph { node_table: x, node_bits: p, output_table: y, output_bits: q, locks: l, .. } = &after;
            assert_eq!((&node_table[..x.len()], &node_table[x.len()..]), (&x[..], &[MARK, 0x8000_0000, 3][..]));
            assert_eq!((&node_bits[..p.len()], &node_bits[p.len()..]), (&p[..], &[u64::MAX, 5][..]), "{name}");
            assert_eq!((&output_table[..y.len()], &output_table[y.len()..]), (&y[..], &[MARK, 99][..]));
            assert_eq!((&output_bits[..q.len()], &output_bits[q.len()..]), (&q[..], &[7, u64::MAX][..]), "{name}");
            assert_eq!((&locks[..l.len()], &locks[l.len()..]), (&l[..], &[9, 1][..]));
        }
        assert_eq!(long.write(), g.write());
        assert_eq!((long.node_literals(), long.output_literals()), (g.node_literals(), g.output_literals()));
    }
}

/// A load, an import and a replay write their words of bits whole and leave all that follows.
#[test]
fn filling_clears_bits() {
    let g = graph(3, &[2, 5, 6, 9, 3, MARK], &[11, 8]);
    let (file, text) = (g.write().unwrap(), b"aag 5 3 0 2 2\n2\n4\n6\n11\n8\n8 5 6\n10 9 3\n".to_vec());
    let imported = graph(3, &[0, 5, 6, 0, 9, 3], &[11, 8]);
    for (which, due) in [(0, &g), (1, &imported), (2, &g)] {
        let (mut nodes, mut outputs, mut locks) = ([77; 8], [77; 3], [77; 3]);
        let (mut node_bits, mut output_bits) = ([u64::MAX; 2], [u64::MAX; 2]);
        let (table, bits) = ((&mut nodes, &mut outputs), (&mut node_bits, &mut output_bits));
        let told = match which {
            0 => lent::load(&file, table.0, bits.0, table.1, bits.1, &mut locks).ok(),
            1 => lent::import(&text, table.0, bits.0, table.1, bits.1, &mut locks).ok(),
            _ => {
                lent::replay(&file, &[], table.0, bits.0, table.1, bits.1, &mut locks, &[], &[], &mut [], &mut []).ok()
            }
        };
        assert_eq!(told, Some(g.size), "{which}");
        assert_eq!((&nodes[..6], &nodes[6..]), (&due.node_table[..], &[77, 77][..]), "{which}");
        assert_eq!((&outputs[..2], outputs[2], locks), (&due.output_table[..], 77, [0, 0, 77]), "{which}");
        assert_eq!(node_bits, [due.node_bits[0], u64::MAX], "{which}");
        assert_eq!(output_bits, [due.output_bits[0], u64::MAX], "{which}");
    }
}

/// The number of complemented edges is that of the ones, before settling and after, and the indices stay.
#[test]
fn ones_counted() {
    for name in ["multiplier4.mig", "divider4.aag", "ripple_adder8.aag", "voter7.aag"] {
        let bytes = std::fs::read(format!("{}/../../examples/{name}", env!("CARGO_MANIFEST_DIR"))).unwrap();
        let mut g = Graph::load(&bytes).or_else(|_| Graph::import(&bytes)).unwrap();
        let ones = |g: &Graph| g.node_bits.iter().chain(&g.output_bits).map(|word| word.count_ones()).sum::<u32>();
        let odd = |g: &Graph| {
            let literals = [g.node_literals().unwrap(), g.output_literals().unwrap()].concat();
            literals.iter().filter(|&&literal| literal != MARK && literal % 2 == 1).count() as u32
        };
        let before = g.clone();
        assert_eq!([ones(&g), odd(&g)], [g.complemented_edges().unwrap(); 2], "{name}");
        let settled = g.settle().unwrap();
        assert_eq!([ones(&g), odd(&g), settled.after], [g.complemented_edges().unwrap(); 3], "{name}");
        assert_eq!((&g.node_table, &g.output_table), (&before.node_table, &before.output_table), "{name}");
        assert!(settled.after < settled.before, "{name}");
    }
}

/// A move turns the bits of its node and of its readers and no others, at every place of every word.
#[test]
fn turns_at_every_place() {
    let g = chain(100, 130);
    let (nodes, outputs) = (g.node_literals().unwrap(), g.output_literals().unwrap());
    for at in 0..100u32 {
        let index = 3 + at;
        let turned = |literal: &u32| if literal / 2 == index { literal ^ 1 } else { *literal };
        let mut due: Vec<u32> = nodes.iter().map(turned).collect();
        // A majority's move 1, and an XOR's move 2, which turns its first word alone.
        let (number, words) = if at % 3 == 2 { (2, 1) } else { (1, 3) };
        due[3 * at as usize..][..words].iter_mut().for_each(|literal| *literal ^= 1);
        let mut made = g.clone();
        made.many(&[index], &[number]).unwrap();
        assert_eq!(made, graph(2, &due, &outputs.iter().map(turned).collect::<Vec<u32>>()), "{index}");
    }
}
