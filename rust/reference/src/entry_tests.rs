use crate::calls::{self, Answer, Call};
use crate::entries::*;
use crate::file::file_of;
use crate::generate::{moves_of, small, with_locks, with_slack};
use crate::graph::{Graph, MARK};
use crate::moves::Saving;
use crate::packed::{pack, set_bit, Packed};
use crate::random::Random;
use crate::replay::Words;
use crate::vectors::samples::of;
use crate::{aiger, evaluation, moves, preview};

/// Lent slices with anything in them, long enough for so many words and locks.
fn dirty(node_words: usize, output_words: usize, locks: usize) -> Packed {
    Packed {
        inputs: 0,
        nodes: 0,
        outputs: 0,
        node_table: vec![7; node_words],
        node_bits: vec![u64::MAX; node_words.div_ceil(64) + 1],
        output_table: vec![8; output_words],
        output_bits: vec![u64::MAX; output_words.div_ceil(64) + 1],
        locks: vec![9; locks],
    }
}

/// P2, worked by hand: 3 5 6; 13 8 11 → 14, and after the tree call 2 4 7; 12 8 11 → 14.
#[test]
fn p2_turns_bits_alone() {
    let mut p = pack(&of(5, &[[3, 5, 6], [13, 8, 11]], &[14]));
    let indices = p.node_table.clone();
    assert_eq!(
        (&indices[..], &p.node_bits[..]),
        (&[1, 2, 3, 6, 4, 5][..], &[0b101_011][..])
    );
    assert_eq!(count(&p), Ok(4));
    let answer = step(&mut p, &Call::Tree(7), 16);
    assert_eq!(answer, Answer::Saving(Saving { own: 2, others: 0 }));
    assert_eq!(
        (p.node_table.clone(), p.node_bits.clone()),
        (indices, vec![0b100_100])
    );
    assert_eq!(
        (&p.output_table[..], &p.output_bits[..]),
        (&[7][..], &[0][..])
    );
    assert_eq!(count(&p), Ok(2));
}

/// P1's file over bits that were all set: those past the last literal are 0 afterwards, and later words as they were.
#[test]
fn a_load_clears_old_bits() {
    let mut p = dirty(4, 2, 2);
    assert_eq!(
        load(&file_of(&of(3, &[[3, 4, 7]], &[9])), &mut p),
        Ok((3, 1, 1))
    );
    assert_eq!(
        (&p.node_table[..], &p.node_bits[..]),
        (&[1, 2, 3, 7][..], &[0b101, u64::MAX][..])
    );
    assert_eq!(
        (&p.output_table[..], &p.output_bits[..]),
        (&[4, 8][..], &[1, u64::MAX][..])
    );
    assert_eq!(p.locks, [0, 9]);
}

/// The same by an import: an AND of input 1 and input 2 complemented, and its complement as the output.
#[test]
fn an_import_clears_old_bits() {
    let mut p = dirty(4, 1, 1);
    assert_eq!(
        import(b"aag 3 2 0 1 1\n2\n4\n7\n6 2 5\n", &mut p),
        Ok((2, 1, 1))
    );
    assert_eq!(
        (&p.node_table[..], &p.node_bits[..]),
        (&[0, 1, 2, 7][..], &[0b100, u64::MAX][..])
    );
    assert_eq!(
        (&p.output_table[..], &p.output_bits[..]),
        (&[3][..], &[1, u64::MAX][..])
    );
}

/// A file of 22 nodes has 66 places: with one word of bits it is refused, and nothing has changed.
#[test]
fn loads_and_imports_want_words_of_bits() {
    let g = of(1, &[[0, 2, 3]; 22], &[2; 65]);
    let texts = (
        file_of(&g),
        aiger::text_of(&of(1, &[[0, 2, MARK]; 22], &[2; 65])),
    );
    let lent = dirty(300, 65, 100);
    for (node_bits, output_bits, short) in [(2, 2, false), (1, 2, true), (2, 1, true), (0, 0, true)]
    {
        let mut p = lent.clone();
        p.node_bits.truncate(node_bits);
        p.output_bits.truncate(output_bits);
        let before = p.clone();
        assert_eq!(load(&texts.0, &mut p).err(), short.then_some(4));
        assert_eq!(p == before, short);
        // Three ANDs for each XOR: 198 places, in four words.
        let mut p = before.clone();
        assert_eq!(import(texts.1.as_bytes(), &mut p), Err(4));
        assert_eq!(p, before);
    }
    let mut p = lent.clone();
    assert_eq!(p.node_bits.len(), 6);
    assert_eq!(import(texts.1.as_bytes(), &mut p), Ok((1, 66, 65)));
}

fn any_call(random: &mut Random, g: &Graph) -> Call {
    let node = random.below(g.inputs + g.nodes + 2);
    match random.below(5) {
        0 => Call::Node(node),
        1 => Call::Pair(node, random.below(5)),
        2 => Call::Tree(node),
        3 => Call::Settle,
        _ => {
            let (list, mut moves) = moves_of(random, g, 2);
            if random.one_in(4) {
                moves.pop();
            }
            Call::Many { list, moves }
        }
    }
}

/// Each call on packed tables is the call on literals, and leaves what stands behind the graph.
#[test]
fn calls_are_those_on_literals() {
    let mut random = Random::new(31);
    for _ in 0..3_000 {
        let mut g = small(&mut random, 4, 6, 4);
        g = with_locks(&mut random, g);
        let mut p = with_slack(&mut random, pack(&g), 2);
        for _ in 0..4 {
            let call = any_call(&mut random, &g);
            let scratch = 8 * g.nodes as usize;
            let mut due = p.clone();
            let answer = calls::step(&mut g, &call, scratch);
            due.put(&g);
            assert_eq!(step(&mut p, &call, scratch), answer, "{call:?}");
            assert_eq!(p, due, "{call:?}");
            assert_eq!(count(&p), Ok(g.c()));
        }
    }
}

/// Whether a call is refused by the number, everything being as it was.
fn refused(p: &Packed, number: u32) {
    let call = |call: Call| {
        let mut lent = p.clone();
        assert_eq!(
            step(&mut lent, &call, 16),
            Answer::Refused(number),
            "{call:?} of {p:?}"
        );
        assert_eq!(lent, *p, "{call:?}");
    };
    call(Call::Node(3));
    call(Call::Pair(3, 1));
    call(Call::Tree(3));
    call(Call::Settle);
    call(Call::Many {
        list: vec![3],
        moves: vec![1],
    });
    let (mut results, mut bytes) = ([5, 5], [6; 99]);
    assert_eq!(evaluate(p, &[1, 2], 2, &mut results), Err(number));
    assert_eq!(write(p, &mut bytes), Err(number));
    assert_eq!(export(p, 2, &mut bytes), Err(number));
    assert_eq!(preview(p, 3, 16, &mut bytes), Err(number));
    assert_eq!((results, bytes), ([5, 5], [6; 99]));
    assert_eq!(trial(p, (3, 1), (1, 1)), Err(number));
    assert_eq!(count(p), Err(number));
}

#[test]
fn every_call_looks_at_bits() {
    let p = pack(&of(2, &[[3, 4, MARK], [7, 2, 4]], &[9, 6]));
    let faults: [(u32, fn(&mut Packed)); 8] = [
        (5, |p| set_bit(&mut p.node_bits, 2)),
        (5, |p| set_bit(&mut p.node_bits, 6)),
        (5, |p| set_bit(&mut p.node_bits, 63)),
        (5, |p| set_bit(&mut p.output_bits, 2)),
        (5, |p| p.node_table[5] = 2_147_483_647),
        (5, |p| p.output_table[1] = 2_147_483_648),
        (4, |p| p.node_bits.clear()),
        (4, |p| p.output_bits.clear()),
    ];
    for (number, make) in faults {
        let mut bad = p.clone();
        make(&mut bad);
        refused(&bad, number);
    }
}

/// 4 for a slice of the call's own comes with that of the tables, before any bit is looked at.
#[test]
fn short_slices_come_before_bits() {
    let mut p = pack(&of(2, &[[3, 4, MARK]], &[7]));
    set_bit(&mut p.node_bits, 40);
    assert_eq!(evaluate(&p, &[1], 1, &mut [0]), Err(4));
    assert_eq!(evaluate(&p, &[1, 2], 1, &mut []), Err(4));
    assert_eq!(preview(&p, 3, 8, &mut []), Err(4));
    let call = Call::Many {
        list: vec![3],
        moves: vec![],
    };
    assert_eq!(step(&mut p, &call, 0), Answer::Refused(4));
    p.locks[0] = 2;
    assert_eq!(evaluate(&p, &[1, 2], 0, &mut [0]), Err(5));
    p.node_bits[0] = 1;
    assert_eq!(evaluate(&p, &[1, 2], 0, &mut [0]), Err(13));
    p.locks[0] = 0;
    assert_eq!(evaluate(&p, &[1, 2], 0, &mut [0]), Err(8));
}

/// Calls that only read.
#[test]
fn readings_are_those_of_literals() {
    let mut random = Random::new(32);
    for _ in 0..1_000 {
        let g = small(&mut random, 4, 6, 4);
        let p = with_slack(&mut random, pack(&g), 2);
        let words: Vec<u64> = (0..g.inputs).map(|_| random.word()).collect();
        let scratch = 8 * g.nodes as usize;
        let mut results = [vec![1; g.outputs as usize], vec![1; g.outputs as usize]];
        let due = evaluation::evaluate(&g, &words, scratch, &mut results[0]);
        assert_eq!(evaluate(&p, &words, scratch, &mut results[1]), due);
        assert_eq!(results[0], results[1]);
        let mut file = vec![0; 18 + 22 * g.nodes as usize + 7 * g.outputs as usize];
        let length = write(&p, &mut file).unwrap();
        assert_eq!(file[..length], file_of(&g));
        let mut text = vec![0; 2_000];
        let length = export(&p, scratch, &mut text).unwrap();
        assert_eq!(text[..length], *aiger::text_of(&g).as_bytes());
        let root = random.below(g.inputs + g.nodes + 2);
        let mut bytes = [vec![3; g.nodes as usize], vec![3; g.nodes as usize]];
        let due = preview::preview(&g, root, scratch, &mut bytes[0]);
        assert_eq!(preview(&p, root, scratch, &mut bytes[1]), due);
        assert_eq!(bytes[0], bytes[1]);
        assert_eq!(
            trial(&p, (root, 1), (1, 1)),
            moves::trial(&g, root, 1, 1, 1)
        );
    }
}

/// P1 loaded over old bits, settled, and its node turned: 2 4 6 → 8, and then 3 5 7 → 9 again.
#[test]
fn a_replay_leaves_packed_tables() {
    let mut p = dirty(3, 1, 1);
    let words = Words {
        calls: &[3, 0, 0, 4, 0, 1],
        list: &[4],
        moves: &[1],
    };
    let mut answers = [7; 7];
    let file = file_of(&of(3, &[[3, 5, 7]], &[9]));
    assert_eq!(replay(&file, words, &mut p, 8, &mut answers), Ok((3, 1, 1)));
    assert_eq!(answers, [0, 3, 1, 0, -4, 0, 7]);
    assert_eq!(
        (p.node_table, p.node_bits),
        (vec![1, 2, 3], vec![7, u64::MAX])
    );
    assert_eq!(
        (p.output_table, p.output_bits),
        (vec![4], vec![1, u64::MAX])
    );
    let mut short = dirty(3, 1, 1);
    short.output_bits.clear();
    let before = short.clone();
    assert_eq!(replay(&file, words, &mut short, 8, &mut answers), Err(4));
    assert_eq!((short, answers), (before, [0, 3, 1, 0, -4, 0, 7]));
}
