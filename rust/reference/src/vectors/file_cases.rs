//! Admission, counting, the tagged file and evaluation.

use crate::file::file_of;
use crate::generate::{graph, locked_one_in, SHAPES};
use crate::graph::{Graph, MARK};
use crate::packed::{words_for, Lengths};
use crate::random::Random;
use crate::vectors::case::*;
use crate::vectors::samples::*;

pub fn admission_cases(random: &mut Random) -> Vec<Case> {
    let mut graphs = worked();
    graphs.extend(worked_locks());
    graphs.extend(at_the_edges());
    graphs.extend(locks_at_the_edges());
    graphs.extend(random_graphs(random, 30, 10));
    graphs.extend(random_graphs(random, 4, 100));
    for g in random_graphs(random, 40, 8) {
        graphs.push(damaged(random, g));
    }
    graphs
        .iter()
        .flat_map(|g| [Case::new(ADMIT, g), Case::new(EDGES, g)])
        .collect()
}

pub fn field_cases(random: &mut Random) -> Vec<Case> {
    let mut all: Vec<Vec<u8>> = vec![
        vec![],
        vec![1],
        vec![9, 0],
        vec![9, 0, 0],
        vec![0, 0, 0],
        vec![255, 255, 255],
    ];
    for (tag, length) in [
        (1u8, 12u8),
        (2, 12),
        (3, 8),
        (4, 4),
        (5, 0),
        (6, 4),
        (7, 4),
        (0, 0),
    ] {
        for stated in [length, length + 1, length.wrapping_sub(1), 12, 0] {
            for high in [0, 1] {
                let mut bytes = vec![tag, high, stated];
                bytes.extend((0..length).map(|byte| byte ^ 0x5a));
                all.push(bytes.clone());
                bytes.extend([1, 2, 3]);
                all.push(bytes);
            }
        }
        for kept in 0..3 + length {
            let mut bytes = vec![tag, 0, length];
            bytes.extend((0..length).map(|_| random.below(256) as u8));
            all.push(bytes[..kept as usize].to_vec());
        }
    }
    all.into_iter()
        .map(|bytes| Case {
            bytes,
            ..Case::new(FIELD, &no_graph())
        })
        .collect()
}

/// Over bits that are all set.
pub fn load_into(file: &[u8], lengths: Lengths) -> Case {
    Case {
        bytes: file.to_vec(),
        ..Case::lent(LOAD, unfilled(lengths))
    }
}

/// With a bit for each word, and a lock byte for each node that the table has begun to have room for.
fn load_case(file: &[u8], node_words: usize, output_words: usize) -> Case {
    let lengths = Lengths {
        node_words,
        node_bits: words_for(node_words),
        output_words,
        output_bits: words_for(output_words),
        lock_bytes: node_words.div_ceil(3),
    };
    load_into(file, lengths)
}

fn lock_field(index: u32) -> Vec<u8> {
    [&[6, 0, 4][..], &index.to_be_bytes()].concat()
}

/// P2's file with these bytes between its output and its end.
fn p2_with(between: &[u8]) -> Vec<u8> {
    let file = file_of(&worked()[1]);
    let (front, end) = file.split_at(file.len() - 3);
    [front, between, end].concat()
}

/// Locks that a file says in order, and in no order; fields 06 where none may be, of other lengths and cut; and too few lock bytes.
fn locked_load_cases() -> Vec<Case> {
    let load = |file: &[u8], lock_bytes| {
        let lengths = Lengths {
            lock_bytes,
            ..Lengths::of(2, 1)
        };
        load_into(file, lengths)
    };
    let mut all = Vec::new();
    for named in [
        &[][..],
        &[6],
        &[7],
        &[6, 7],
        &[6, 6],
        &[7, 6],
        &[7, 7],
        &[6, 7, 7],
        &[6, 7, 8],
        &[0],
        &[5],
        &[5, 6],
        &[8],
        &[6, 8],
        &[MARK],
        &[6 + (1 << 8)],
    ] {
        let fields: Vec<u8> = named.iter().flat_map(|&index| lock_field(index)).collect();
        all.push(load(&p2_with(&fields), 3));
    }
    let both = p2_with(&[lock_field(6), lock_field(7)].concat());
    for lock_bytes in [0, 1, 2, 4] {
        all.push(load(&both, lock_bytes));
        all.push(load(&p2_with(&[]), lock_bytes));
    }
    for length in 53..both.len() - 3 {
        all.push(load(&both[..length], 3));
    }
    for between in [
        &[6, 0, 3, 0, 0, 6][..],
        &[6, 0, 5, 0, 0, 0, 0, 6],
        &[6, 1, 4, 0, 0, 0, 6],
        &[6, 0, 0],
        &[7, 0, 4, 0, 0, 0, 6],
        &[4, 0, 4, 0, 0, 0, 14],
        &[2, 0, 4, 0, 0, 0, 6],
    ] {
        all.push(load(&p2_with(between), 3));
    }
    // Among the nodes and before the output; after the end; a wrong lock with a wrong output before it, and bytes after it.
    for at in [15, 30, 45, 55] {
        let mut file = p2_with(&[]);
        file.splice(at..at, lock_field(6));
        all.push(load(&file, 3));
    }
    let mut bad_output = p2_with(&lock_field(9));
    bad_output[51] = 16;
    all.push(load(&bad_output, 3));
    all.push(load(&[p2_with(&lock_field(9)), vec![0]].concat(), 3));
    all
}

pub fn load_cases(random: &mut Random) -> Vec<Case> {
    let mut all = locked_load_cases();
    let p1 = file_of(&worked()[0]);
    for length in [40, 39, 0, 1, 2, 3, 15] {
        all.push(load_case(&p1[..length], 5, 3));
    }
    let mut longer = p1.clone();
    longer.push(0);
    all.push(load_case(&longer, 5, 3));
    for (node_words, output_words) in [(3, 1), (2, 1), (3, 0), (0, 0), (0, 1), (24, 9)] {
        all.push(load_case(&p1, node_words, output_words));
    }
    // Every graph at the edges as a file, whatever the graph's tables lack left out.
    for g in at_the_edges().iter().chain(&worked()) {
        if g.output_table.len() < 100 {
            all.push(load_case(&unchecked_file(g), 9, 3));
        }
    }
    let wide: Vec<u32> = (0..4_096).map(|output| 2 * output + 3).collect();
    let mut case = load_case(&file_of(&of(4_096, &[], &wide)), 0, 4_097);
    case.bytes[15 + 7 * 4_095 + 6] ^= 3;
    all.push(case.clone());
    case.g.output_table.truncate(4_095);
    case.bytes.truncate(50);
    all.push(case);
    // A majority field that carries the mark's number, an XOR field that carries it in front.
    let mut marked = file_of(&of(3, &[[2, 4, 7]], &[9]));
    marked[26..30].fill(255);
    all.push(load_case(&marked, 3, 1));
    let mut marked = file_of(&of(3, &[[2, 4, MARK]], &[9]));
    marked[18..22].fill(255);
    all.push(load_case(&marked, 3, 1));
    // Cut at every byte, and every byte of the frame changed.
    let mixed = file_of(&of(2, &[[3, 5, MARK], [6, 1, 2]], &[9, 6]).locked_at(&[3, 4]));
    for length in 0..=mixed.len() {
        all.push(load_case(&mixed[..length], 6, 2));
    }
    for at in 0..mixed.len() {
        let mut changed = mixed.clone();
        changed[at] = if random.one_in(2) {
            mixed[at] ^ 1
        } else {
            random.below(256) as u8
        };
        all.push(load_case(&changed, 6, 2));
    }
    for g in random_graphs(random, 24, 8) {
        let file = file_of(&g);
        let (nodes, outputs) = (3 * g.nodes as usize, g.outputs as usize);
        all.push(load_case(
            &file,
            nodes + random.below(3) as usize,
            outputs + random.below(3) as usize,
        ));
        all.push(load_case(
            &file,
            nodes.saturating_sub(random.below(2) as usize),
            outputs,
        ));
        all.push(load_case(
            &damaged_file(random, file.clone()),
            nodes + 3,
            outputs + 1,
        ));
        if random.one_in(4) {
            let more: Vec<u8> = file
                .iter()
                .chain(&file[..1 + random.below(20) as usize])
                .copied()
                .collect();
            all.push(load_case(&more, nodes, outputs));
        }
    }
    for shape in SHAPES {
        let g = graph(random, shape, 30, 60, 20);
        let g = locked_one_in(random, g, 4);
        let mut case = load_case(&file_of(&g), 183, 30);
        all.push(case.clone());
        case.bytes = damaged_file(random, case.bytes);
        all.push(case);
    }
    all
}

/// A file of whatever the tables hold, counts and literals as they come.
fn unchecked_file(g: &Graph) -> Vec<u8> {
    let mut file = vec![1, 0, 12];
    for number in [g.inputs, g.nodes, g.outputs] {
        file.extend(number.to_be_bytes());
    }
    for node in g.node_table.chunks(3) {
        let xor = node.len() == 3 && node[2] == MARK;
        let words = if xor { &node[..2] } else { node };
        file.extend([if xor { 3 } else { 2 }, 0, 4 * words.len() as u8]);
        words
            .iter()
            .for_each(|word| file.extend(word.to_be_bytes()));
    }
    for word in &g.output_table {
        file.extend([4, 0, 4]);
        file.extend(word.to_be_bytes());
    }
    file.extend([5, 0, 0]);
    file
}

fn damaged_file(random: &mut Random, mut file: Vec<u8>) -> Vec<u8> {
    let at = random.below(file.len() as u32) as usize;
    match random.below(5) {
        0 => file.truncate(at),
        1 => file.insert(at, random.below(7) as u8),
        2 => {
            file.remove(at);
        }
        3 => file[at] = file[at].wrapping_add(1),
        _ => file[at] = random.below(256) as u8,
    }
    file
}

pub fn write_cases(random: &mut Random) -> Vec<Case> {
    let mut all = Vec::new();
    let mut add = |g: &Graph, result: usize| {
        all.push(Case {
            result: result as u32,
            ..Case::new(WRITE, g)
        })
    };
    for g in at_the_edges().iter().chain(&locks_at_the_edges()) {
        add(g, 100);
    }
    for g in worked().iter().chain(&worked_locks()) {
        let length = file_of(g).len();
        [length, length - 1, length + 3, 0]
            .iter()
            .for_each(|&result| add(g, result));
    }
    for g in random_graphs(random, 20, 8) {
        let length = file_of(&g).len();
        add(&g, length + random.below(2) as usize);
        add(&g, length - 1 - random.below(3) as usize);
        add(&damaged(random, g), length + 12);
    }
    for shape in SHAPES {
        let g = graph(random, shape, 25, 50, 20);
        let g = locked_one_in(random, g, 4);
        let length = file_of(&g).len();
        add(&g, length + 5);
        add(&g, length - 1);
    }
    all
}

fn evaluate_case(g: &Graph, words: &[u64], scratch: u32, result: u32) -> Case {
    Case {
        longs: words.to_vec(),
        scratch,
        result,
        ..Case::new(EVALUATE, g)
    }
}

pub fn evaluate_cases(random: &mut Random) -> Vec<Case> {
    let mut all = vec![evaluate_case(
        &of(3, &[[2, 4, 6]], &[8]),
        &[0xf0, 0xcc, 0xaa],
        1,
        1,
    )];
    all.push(evaluate_case(
        &of(3, &[[2, 4, 6]], &[9, 8, 0, 1]),
        &[0xf0, 0xcc, 0xaa, 9],
        2,
        6,
    ));
    all.push(evaluate_case(
        &of(3, &[[3, 4, MARK], [8, 7, 1]], &[10, 11]),
        &[0xf0, 0xcc, 0xaa],
        2,
        2,
    ));
    for g in [at_the_edges(), locks_at_the_edges()].concat() {
        let words: Vec<u64> = (0..5).map(|_| random.word()).collect();
        all.push(evaluate_case(
            &g,
            &words,
            2,
            if g.outputs > 9 { 4_096 } else { 2 },
        ));
        if random.one_in(2) {
            all.push(evaluate_case(
                &g,
                &words[..random.below(4) as usize],
                random.below(3),
                random.below(3),
            ));
        }
    }
    let mut graphs = worked();
    graphs.extend(random_graphs(random, 40, 8));
    for shape in SHAPES {
        graphs.push(graph(random, shape, 12, 40, 12));
        graphs.push(graph(random, shape, 6, 15, 30));
    }
    for g in graphs {
        let words: Vec<u64> = (0..g.inputs + random.below(2))
            .map(|_| random.word())
            .collect();
        all.push(evaluate_case(
            &g,
            &words,
            g.nodes + random.below(2),
            g.outputs + random.below(3),
        ));
        if random.one_in(2) {
            all.push(evaluate_case(
                &g,
                &words,
                g.nodes.saturating_sub(1),
                g.outputs,
            ));
        }
        if random.one_in(3) {
            all.push(evaluate_case(
                &g,
                &words,
                g.nodes,
                g.outputs.saturating_sub(1),
            ));
            all.push(evaluate_case(
                &g,
                &words[..words.len().saturating_sub(1)],
                g.nodes,
                g.outputs,
            ));
        }
    }
    all
}
