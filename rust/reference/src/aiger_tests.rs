use crate::aiger::{export, parse, text_of};
use crate::entries::import;
use crate::evaluation::output_values;
use crate::generate::{small, with_locks, with_tails};
use crate::graph::{Graph, Room, MARK};
use crate::packed::Lengths;
use crate::random::Random;
use crate::vectors::case::unfilled;
use crate::vectors::samples::of;

const MAJORITY: &str = "aag 7 3 0 1 4\n2\n4\n6\n15\n8 5 7\n10 2 9\n12 4 6\n14 11 13\n";
const XOR: &str = "aag 5 2 0 1 3\n2\n4\n11\n6 2 5\n8 3 4\n10 7 9\n";

fn number(text: &str) -> u32 {
    parse(text.as_bytes(), Room::of(3, 3)).map_or_else(|number| number, |_| 0)
}

#[test]
fn worked_texts() {
    assert_eq!(text_of(&of(3, &[[2, 4, 6]], &[8])), MAJORITY);
    assert_eq!(MAJORITY.len(), 52);
    assert_eq!(text_of(&of(2, &[[2, 4, MARK]], &[6])), XOR);
    let ands = [[0, 5, 7], [0, 2, 9], [0, 4, 6], [0, 11, 13]];
    assert_eq!(
        parse(MAJORITY.as_bytes(), Room::of(4, 1)),
        Ok(of(3, &ands, &[15]))
    );
    let ands = [[0, 2, 5], [0, 3, 4], [0, 7, 9]];
    assert_eq!(
        parse(XOR.as_bytes(), Room::of(3, 1)),
        Ok(of(2, &ands, &[11]))
    );
    assert_eq!(text_of(&of(0, &[], &[])), "aag 0 0 0 0 0\n");
    assert_eq!(text_of(&of(1, &[], &[3, 0])), "aag 1 1 0 2 0\n2\n3\n0\n");
    // A node that reads a node: its value is the last AND complemented, so that an odd word is even there.
    let two = of(1, &[[2, 3, MARK], [5, 2, 4]], &[6]);
    let due = "aag 8 1 0 1 7\n2\n17\n4 2 2\n6 3 3\n8 5 7\n10 3 8\n12 8 11\n14 2 9\n16 13 15\n";
    assert_eq!(text_of(&two), due);
}

#[test]
fn numbers() {
    assert_eq!(number("aag 0 0 0 1 0\n4294967295\n"), 5);
    assert_eq!(number("aag 0 0 0 1 0\n4294967296\n"), 10);
    assert_eq!(number("aag 0 0 0 1 0\n4294967297\n"), 10);
    assert_eq!(number("aag 0 0 0 1 0\n18446744073709551616\n"), 10);
    assert_eq!(number("aag 4294967295 0 0 0 4294967295\n"), 3);
    assert_eq!(number("aag 4294967296 0 0 0 4294967296\n"), 10);
    // I + A is 2 to the 32nd, and not 0.
    assert_eq!(number("aag 0 1 0 0 4294967295\n"), 12);
    for good in ["0", "1"] {
        assert_eq!(number(&format!("aag 0 0 0 1 0\n{good}\n")), 0);
    }
    for bad in [
        "", " ", "00", "01", "-1", "+1", "1 ", " 1", "1\r", "1\t", "a", "1a", "0x1", "1 1", "1.0",
    ] {
        assert_eq!(number(&format!("aag 0 0 0 1 0\n{bad}\n")), 10, "{bad:?}");
    }
}

#[test]
fn headers() {
    for bad in [
        "",
        "a",
        "aag",
        "aag\n",
        "aag ",
        "aag 0 0 0 0 0",
        "aag 0 0 0 0\n",
        "aag 0 0 0 0 0 0\n",
        "aag 0 0 0 0 0 \n",
        "aag  0 0 0 0 0\n",
        "aag\t0 0 0 0 0\n",
        "aag 0 0 0 0 0\r\n",
        "aag 00 0 0 0 0\n",
        " aag 0 0 0 0 0\n",
        "AAG 0 0 0 0 0\n",
        "aig 0 0 0 0 0\n",
        "aagx 0 0 0 0 0\n",
    ] {
        assert_eq!(number(bad), 10, "{bad:?}");
    }
    assert_eq!(number("aag 0 0 0 0 0\n"), 0);
    assert_eq!(number("aag 1 0 1 0 0\n"), 11);
    assert_eq!(number("aag 1 0 0 0 0\n"), 12);
    assert_eq!(number("aag 4097 4097 0 0 0\n"), 3);
    assert_eq!(number("aag 100001 0 0 0 100001\n"), 3);
    assert_eq!(number("aag 0 0 0 4097 0\n"), 3);
    assert_eq!(number("aag 4 0 0 0 4\n"), 4);
    assert_eq!(number("aag 0 0 0 4 0\n"), 4);
    // 10, 11, 12, 3, 4: each before those after it.
    assert_eq!(number("aag 1 4097 1 4097 01\n"), 10);
    assert_eq!(number("aag 1 4097 1 4097 1\n"), 11);
    assert_eq!(number("aag 1 4097 0 4097 1\n"), 12);
    assert_eq!(number("aag 4098 4097 0 4097 1\n"), 3);
    assert_eq!(number("aag 4100 4096 0 4096 4\n"), 4);
    // All of the header before the next line.
    assert_eq!(number("aag 4100 4096 0 4096 4\nx\n"), 4);
}

#[test]
fn lines() {
    let good = "aag 3 2 0 2 1\n2\n4\n6\n7\n6 5 2\n";
    assert_eq!(
        parse(good.as_bytes(), Room::of(1, 2)),
        Ok(of(2, &[[0, 5, 2]], &[6, 7]))
    );
    for cut in 0..good.len() {
        assert_eq!(number(&good[..cut]), 10, "cut to {cut} bytes");
    }
    for after in ["\n", "c", "8 2 2\n", "i0 a\nc\nby a tool\n", "\0", " "] {
        assert_eq!(number(&format!("{good}{after}")), 0, "{after:?}");
    }
    for (from, to, due) in [
        ("\n2\n4", "\n4\n2", 12),
        ("\n2\n4", "\n2\n5", 12),
        ("\n2\n4", "\n2\n6", 12),
        ("\n2\n", "\n0\n", 12),
        ("\n6\n7", "\n6\n8", 5),
        ("\n6\n7", "\n9\n7", 5),
        ("6 5 2", "8 5 2", 12),
        ("6 5 2", "2 5 2", 12),
        ("6 5 2", "7 5 2", 12),
        ("6 5 2", "6 6 2", 5),
        ("6 5 2", "6 5 7", 5),
        ("6 5 2", "6 5", 10),
        ("6 5 2", "6 5 2 0", 10),
        ("6 5 2", "6  5 2", 10),
        ("6 5 2", "8 6 6", 12),
        ("6 5 2", "8 6 06", 10),
        ("\n6\n7\n6", "\n8\n7\n8", 5),
        ("\n2\n4\n6", "\n2\n5\n8", 12),
    ] {
        assert!(good.contains(from));
        let bad = good.replacen(from, to, 1);
        assert_eq!(number(&bad), due, "{bad:?}");
    }
}

#[test]
fn refused_texts_leave_the_tables() {
    let lent = |lock_bytes| {
        unfilled(Lengths {
            lock_bytes,
            ..Lengths::of(2, 2)
        })
    };
    let imported = |text: &str, lock_bytes: usize| {
        let mut p = lent(lock_bytes);
        (import(text.as_bytes(), &mut p), p)
    };
    let bad = "aag 3 2 0 1 1\n2\n4\n6\n6 5 6\n";
    let good = "aag 3 2 0 1 1\n2\n4\n6\n6 5 4\n";
    assert_eq!(imported(bad, 2), (Err(5), lent(2)));
    assert_eq!(imported(good, 0), (Err(4), lent(0)));
    // The node is free, whatever its byte was.
    let (answer, p) = imported(good, 2);
    assert_eq!((answer, p.locks), (Ok((2, 1, 1)), vec![0, 101]));
    assert_eq!(
        (&p.node_table[..4], p.node_bits),
        (&[0, 2, 2, 1_003][..], vec![2])
    );
    assert_eq!((p.output_table, p.output_bits), (vec![3, 2_001], vec![0]));
}

#[test]
fn exports_refused() {
    let g = of(3, &[[2, 4, 6]], &[8]);
    let refused = |g: &Graph, scratch, room, due| {
        let mut buffer = vec![3; room];
        assert_eq!(export(g, scratch, &mut buffer), Err(due));
        assert_eq!(buffer, vec![3; room]);
    };
    refused(&g, 1, 51, 9);
    refused(&g, 0, 51, 8);
    let bad_lock = |g: Graph| Graph {
        locks: vec![2],
        ..g
    };
    refused(&bad_lock(g.clone()), 0, 0, 13);
    refused(&bad_lock(of(3, &[[2, 4, 8]], &[8])), 0, 0, 5);
    refused(&of(3, &[[2, 4, 8]], &[8]), 0, 0, 5);
    refused(
        &Graph {
            locks: vec![],
            ..g.clone()
        },
        0,
        0,
        4,
    );
    refused(
        &Graph {
            outputs: 2,
            ..g.clone()
        },
        0,
        0,
        4,
    );
    refused(
        &Graph {
            inputs: 4_097,
            outputs: 2,
            ..g.clone()
        },
        0,
        0,
        3,
    );
    let mut buffer = [3; 54];
    assert_eq!(export(&g, 1, &mut buffer), Ok(52));
    assert_eq!(buffer[..52], *MAJORITY.as_bytes());
    assert_eq!(buffer[52..], [3, 3]);
    // A text says nothing of locks.
    assert_eq!(text_of(&g.locked_at(&[4])), MAJORITY);
}

/// An export imports again, and every output has its value under every assignment.
#[test]
fn exports_come_back() {
    let mut random = Random::new(8);
    for _ in 0..2_000 {
        let g = small(&mut random, 5, 9, 5);
        let g = with_locks(&mut random, g);
        let g = with_tails(&mut random, g, 3);
        let again = parse(text_of(&g).as_bytes(), Room::of(36, 5)).unwrap();
        assert!(again.locks.iter().all(|&byte| byte == 0));
        assert_eq!((again.inputs, again.outputs), (g.inputs, g.outputs));
        let gates = g.node_indices().map(|node| 1 + g.words_of(node) as u32);
        assert_eq!(again.nodes, gates.sum());
        for bits in 0..1u32 << g.inputs {
            let bits: Vec<bool> = (0..g.inputs).map(|at| bits >> at & 1 == 1).collect();
            assert_eq!(
                output_values(&g, &bits),
                output_values(&again, &bits),
                "{g:?}"
            );
        }
    }
}

#[test]
fn limits() {
    let inputs: String = (1..=4_096)
        .map(|input| format!("{}\n", 2 * input))
        .collect();
    let outputs = "8193\n".repeat(4_096);
    let wide = format!("aag 4096 4096 0 4096 0\n{inputs}{outputs}");
    assert_eq!(
        parse(wide.as_bytes(), Room::of(0, 4_096)),
        Ok(of(4_096, &[], &[8_193; 4_096]))
    );
    assert_eq!(parse(wide.as_bytes(), Room::of(0, 4_095)), Err(4));
    let gates: String = (1..=100_000)
        .map(|gate| format!("{} {} 1\n", 2 * gate, 2 * gate - 1))
        .collect();
    let tall = format!("aag 100000 0 0 0 100000\n{gates}");
    let room = Room::of(100_000, 0);
    let g = parse(tall.as_bytes(), room).unwrap();
    assert_eq!(g.node_table[299_997..], [0, 199_999, 1]);
    for short in [
        Room {
            node_words: 299_999,
            ..room
        },
        Room {
            lock_bytes: 99_999,
            ..room
        },
    ] {
        assert_eq!(parse(tall.as_bytes(), short), Err(4));
    }
    let over = format!("aag 100001 0 0 0 100001\n{gates}200002 1 1\n");
    assert_eq!(parse(over.as_bytes(), Room::of(100_001, 0)), Err(3));
    // Every majority takes four ANDs: too many to import.
    let full = of(0, &vec![[0, 1, 0]; 25_001], &[]);
    let text = text_of(&full);
    assert_eq!(parse(text.as_bytes(), Room::of(100_004, 0)), Err(3));
}
