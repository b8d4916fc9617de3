//! Times each call of the proved reducer beside the plain implementation's, in the same run, and prints a table.

use differential::timing::families::{Family, FAMILIES, HARD};
use differential::timing::found;
use differential::timing::pairs::{Moved, Stages};
use differential::timing::patterns::Pattern;
use differential::timing::races::{call, time, Call, Figure, Side};
use differential::timing::samples::Sample;
use differential::timing::single::race;
use differential::timing::woods::WOODS;
use differential::timing::{plain, proved, LEAST_RUNS, SHAPES, SIZES, SPREAD};
use reference::generate::Shape;
use reference::packed::Packed;

const TREE: &str = "tree";
const PREVIEW: &str = "preview";
const SETTLE: &str = "settle";
const SETTLE_LOCKED: &str = "settle, a tenth locked";

const CALLS: [Call<Packed, Packed>; 16] = [
    call("load", 1, proved::load, plain::load),
    call("write", 1, proved::write, plain::write),
    // Of as many ANDs as there are nodes, and to three or four for each node.
    call("import", 1, proved::import, plain::import),
    call("export", 1, proved::export, plain::export),
    call("evaluate", 1, proved::evaluate, plain::evaluate),
    call("count", 1, proved::count, plain::count),
    call("node", SPREAD, proved::node, plain::node),
    call("pair", SPREAD, proved::pair, plain::pair),
    // Beside the same programme in plain Rust, and beside one that sweeps all nodes.
    call(TREE, SPREAD, proved::tree, plain::tree),
    call("tree, by sweeps", SPREAD, proved::tree, plain::tree_by_sweeps),
    // At the roots of the tree call, so that its rows are to be read beside those of "tree".
    call(PREVIEW, SPREAD, proved::preview, plain::preview),
    // Every node listed, one in ten, and every node where a tenth is locked and has move 0.
    call("many", 1, proved::many, plain::many),
    call("many, a tenth listed", 1, proved::many_of_a_tenth, plain::many_of_a_tenth),
    Call { locked: true, ..call("many, a tenth locked", 1, proved::many, plain::many) },
    call(SETTLE, 1, proved::settle, plain::settle),
    Call { locked: true, ..call(SETTLE_LOCKED, 1, proved::settle, plain::settle) },
];

/// Of settling, which answers its rounds.
fn a_node_and_round(figure: &Figure, time: f64) -> f64 {
    time / (f64::from(figure.nodes) * figure.answers as f64)
}

fn print_figure(call: &Call<Packed, Packed>, shape: &str, figure: &Figure) {
    let calls = figure.graphs() * call.times as f64;
    let a_node = |time: f64| time / calls / f64::from(figure.nodes);
    let (rounds, a_round) = if [SETTLE, SETTLE_LOCKED].contains(&call.name) {
        let rounds = figure.answers as f64 / figure.graphs();
        (format!("{rounds:.1}"), format!("{:.1}", a_node_and_round(figure, figure.ours)))
    } else {
        (String::new(), String::new())
    };
    println!(
        "| {} | {shape} | {} | {:.1} | {:.1} | {:.2} | {:.2} | {rounds} | {a_round} | {:.2} |",
        call.name,
        figure.nodes,
        figure.ours / calls / 1e3,
        figure.theirs / calls / 1e3,
        a_node(figure.ours),
        a_node(figure.theirs),
        figure.ours / figure.theirs,
    );
}

/// How a shape's time for settling, a node and round, grows from the smallest size to the largest.
fn growth(shape: &str, figures: &[Figure]) -> String {
    let (small, large) = (&figures[0], &figures[figures.len() - 1]);
    let grown = |time: fn(&Figure) -> f64| a_node_and_round(large, time(large)) / a_node_and_round(small, time(small));
    let (proved, plain) = (grown(|figure| figure.ours), grown(|figure| figure.theirs));
    format!("{shape}: proved {proved:.2}, plain {plain:.2}")
}

/// The figures of a call on a shape, by size.
struct Row {
    call: &'static str,
    shape: &'static str,
    figures: [Figure; SIZES.len()],
}

/// For each shape that both were timed on, preview's times over the tree call's, by size. The tree call is made on what the one at the
/// root before has left.
fn preview_over_tree(rows: &[Row]) -> Vec<String> {
    let of = |call: &'static str| rows.iter().filter(move |row| row.call == call);
    let both =
        of(PREVIEW).flat_map(|told| of(TREE).filter(|made| made.shape == told.shape).map(move |made| (told, made)));
    let ratios = |told: &Row, made: &Row, time: fn(&Figure) -> f64| {
        let ratio = |at: usize| format!("{:.2}", time(&told.figures[at]) / time(&made.figures[at]));
        (0..SIZES.len()).map(ratio).collect::<Vec<String>>().join(", ")
    };
    let line = |(told, made): (&Row, &Row)| {
        let (proved, plain) = (ratios(told, made, |figure| figure.ours), ratios(told, made, |figure| figure.theirs));
        format!("{}: proved {proved}; plain {plain}", told.shape)
    };
    both.map(line).collect()
}

/// Small sizes only: the time grows with the square of the nodes.
const SMALL_SIZES: [u32; 3] = [500, 1_000, 2_000];

/// Settling by calls that scan beside settling as one call, once each.
fn before_and_after() {
    println!("\n| random graph, nodes | settled by scanning calls, ms | by the settling call, ms | ratio |\n|---|---|---|---|");
    for nodes in SMALL_SIZES {
        let batch = [Sample::new(nodes.into(), Shape::Random, nodes, false)];
        let [mut scanning, mut settling]: [Side<Packed>; 2] =
            [proved::settle_by_calls, proved::settle].map(|made| Side::new(made, &batch));
        scanning.run();
        (0..LEAST_RUNS).for_each(|_| settling.run());
        assert!(scanning.same(&settling), "settling by single calls differs");
        let (before, after) = (scanning.least / 1e6, settling.least / 1e6);
        println!("| {nodes} | {before:.1} | {after:.2} | {:.0} |", before / after);
    }
}

const FIND: &str = "find";

/// The finder's graphs have so many nodes; those that take time by their square, fewer.
const FOUND: [(&[Family], u32); 2] = [(&FAMILIES, 100_000), (&[HARD], 20_000)];

/// The finder on a graph of each family.
fn found() {
    println!("\n| graph | nodes | nodes after | find, proved, ms | plain, ms | proved, ns a node | plain, ns a node | ratio |");
    println!("|---|---|---|---|---|---|---|---|");
    for (families, nodes) in FOUND {
        for family in families {
            let found::Figure { before, after, times: [ours, theirs] } =
                found::time(family, nodes, [proved::find, plain::find]);
            let (a_node, ratio) = (|time: f64| time / f64::from(before), ours / theirs);
            println!(
                "| {} | {before} | {after} | {:.1} | {:.1} | {:.0} | {:.0} | {ratio:.2} |",
                family.name,
                ours / 1e6,
                theirs / 1e6,
                a_node(ours),
                a_node(theirs),
            );
        }
    }
}

/// Calls for resistive memory: their rows, each with so many trees of so many nodes.
const RESISTIVE: [(&str, u32, u32); 2] = [("resistive, one tree", 1, 100_000), ("resistive, many trees", 1_000, 100)];

const SINGLE_HEAD: &str =
    "\n| call | graph | nodes | proved, ms | plain, ms | proved, ns a node | plain, ns a node | ratio |\n|---|---|---|---|---|---|---|---|";

/// So many calls on a graph of so many nodes, which took these times together.
fn print_single(call: &str, graph: &str, nodes: u32, calls: usize, times: [f64; 2]) {
    let [ours, theirs] = times.map(|time| time / calls as f64);
    let a_node = |time: f64| time / f64::from(nodes);
    println!(
        "| {call} | {graph} | {nodes} | {:.2} | {:.2} | {:.1} | {:.1} | {:.2} |",
        ours / 1e6,
        theirs / 1e6,
        a_node(ours),
        a_node(theirs),
        ours / theirs,
    );
}

fn resistive(call: &str, trees: u32, nodes: u32) {
    println!("{SINGLE_HEAD}");
    for wood in &WOODS {
        let fresh = wood.sample(trees, nodes);
        let times = race(wood.name, &fresh, [proved::resistive, plain::resistive], |sample| sample.g);
        print_single(call, wood.name, fresh.g.nodes, fresh.roots.len(), times);
    }
}

const COMPARE: &str = "compare";

/// A graph and what it is after a move at each node.
fn compared() {
    println!("{SINGLE_HEAD}");
    for (name, shape) in SHAPES {
        let fresh = Moved::new(shape, 100_000);
        let times = race(name, &fresh, [proved::compare, plain::compare], |sample| sample.moves);
        print_single(COMPARE, name, fresh.first.nodes, 1, times);
    }
}

const ASSIGNMENT: &str = "assignment";

/// A pattern that none of the assignments of 16 inputs gives: 1,024 passes.
fn assigned() {
    println!("{SINGLE_HEAD}");
    for (name, shape) in SHAPES {
        let fresh = Pattern::new(shape, 100_000);
        let times = race(name, &fresh, [proved::assignment, plain::assignment], |_| ());
        print_single(ASSIGNMENT, name, fresh.g.nodes, 1, times);
    }
}

const JOIN: &str = "join";

fn joined() {
    println!("{SINGLE_HEAD}");
    for (name, shape) in SHAPES {
        let fresh = Stages::new(shape, 50_000);
        let times = race(name, &fresh, [proved::join, plain::join], |sample| sample.joined);
        print_single(JOIN, name, 2 * fresh.first.nodes, 1, times);
    }
}

const BEFORE: &str = "before";

const HEAD: &str = "| call | graph | nodes | proved, µs | plain, µs | proved, ns a node | plain, ns a node | \
    rounds | proved, ns a node and round | ratio |";

/// Times the calls named on the command line, or all; `find` is the finder, `before` settling without a state between calls. `tree
/// preview` times just these two, and says the ratio.
fn main() {
    println!("{HEAD}\n|---|---|---|---|---|---|---|---|---|---|");
    let wanted: Vec<String> = std::env::args().skip(1).collect();
    let mut rows = Vec::new();
    let chosen = |name: &str| wanted.is_empty() || wanted.iter().any(|word| word == name);
    for call in CALLS.iter().filter(|call| chosen(call.name)) {
        for (name, shape) in SHAPES {
            let figures = time(call, shape);
            figures.iter().for_each(|figure| print_figure(call, name, figure));
            rows.push(Row { call: call.name, shape: name, figures });
        }
    }
    let over = preview_over_tree(&rows);
    if !over.is_empty() {
        println!("\nPreview over tree, at {SIZES:?} nodes:\n{}", over.join("\n"));
    }
    let settled = rows.iter().filter(|row| row.call == SETTLE);
    let grown: Vec<String> = settled.map(|row| growth(row.shape, &row.figures)).collect();
    if !grown.is_empty() {
        let (small, large) = (SIZES[0], SIZES[SIZES.len() - 1]);
        println!("\nSettling, ns a node and round at {large} nodes over that at {small}: {}.", grown.join("; "));
    }
    if chosen(FIND) {
        found();
    }
    for (call, trees, nodes) in RESISTIVE.into_iter().filter(|row| chosen(row.0)) {
        resistive(call, trees, nodes);
    }
    if chosen(COMPARE) {
        compared();
    }
    if chosen(ASSIGNMENT) {
        assigned();
    }
    if chosen(JOIN) {
        joined();
    }
    if chosen(BEFORE) {
        before_and_after();
    }
}
