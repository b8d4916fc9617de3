//! The calls of both libraries, and the table of their times.

use crate::old;
use differential::timing::proved;
use differential::timing::races::{call, time, Call, Figure};
use differential::timing::{SHAPES, SPREAD};
use reference::graph::Graph;
use reference::packed::Packed;

const CALLS: [Call<Packed, Graph>; 15] = [
    call("settle", 1, proved::settle, old::settle),
    Call { locked: true, ..call("settle, a tenth locked", 1, proved::settle, old::settle) },
    call("tree", SPREAD, proved::tree, old::tree),
    call("preview", SPREAD, proved::preview, old::preview),
    call("evaluate", 1, proved::evaluate, old::evaluate),
    call("node", SPREAD, proved::node, old::node),
    call("pair", SPREAD, proved::pair, old::pair),
    call("count", 1, proved::count, old::count),
    call("load", 1, proved::load, old::load),
    call("write", 1, proved::write, old::write),
    call("import", 1, proved::import, old::import),
    call("export", 1, proved::export, old::export),
    call("many", 1, proved::many, old::many),
    call("many, a tenth listed", 1, proved::many_of_a_tenth, old::many_of_a_tenth),
    Call { locked: true, ..call("many, a tenth locked", 1, proved::many, old::many) },
];

fn print_figure(name: &str, times: usize, shape: &str, figure: &Figure) {
    let calls = figure.graphs() * times as f64;
    let a_node = |time: f64| time / calls / f64::from(figure.nodes);
    println!(
        "| {name} | {shape} | {} | {:.2} | {:.2} | {:.2} |",
        figure.nodes,
        a_node(figure.theirs),
        a_node(figure.ours),
        figure.ours / figure.theirs,
    );
}

/// The calls named on the command line, or all.
pub fn print() {
    println!("| call | graph | nodes | old, ns a node | new, ns a node | new / old |\n|---|---|---|---|---|---|");
    let wanted: Vec<String> = std::env::args().skip(1).collect();
    let chosen = |name: &str| wanted.is_empty() || wanted.iter().any(|word| word == name);
    for call in CALLS.iter().filter(|call| chosen(call.name)) {
        for (name, shape) in SHAPES {
            for figure in time(call, shape) {
                print_figure(call.name, call.times, name, &figure);
            }
        }
    }
}
