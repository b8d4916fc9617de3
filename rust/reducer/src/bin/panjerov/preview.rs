//! What `panjerov preview` tells.

use crate::figures::{Figures, Value};
use crate::locks::listed;
use crate::nodes::{output_of, words_of};
use crate::picture::Named;
use crate::progress::Progress;
use crate::savings;
use crate::trees::{Kinds, Trees};
use crate::words::Work;
use crate::Given;
use reducer::{Graph, Refusal, Saving};

/// What a move turns, by kind and number.
pub fn turns(xor: bool, number: u8) -> &'static str {
    match (xor, number) {
        (_, 0) => "nothing turns",
        (false, _) => "words 1, 2 and 3 and every reader turn",
        (true, 1) => "words 1 and 2 turn",
        (true, 2) => "word 1 and every reader turn",
        (true, _) => "word 2 and every reader turn",
    }
}

/// A line a root with what its tree has and would save.
fn roots_of(graph: &Graph, by_saving: bool, working: &Progress) -> Result<Given, Refusal> {
    let trees = Trees::of(graph);
    let kinds = trees.roots();
    let roots: Vec<u32> = kinds.iter().map(|(root, _)| *root).collect();
    let mut told: Vec<_> = kinds.into_iter().zip(savings::of(graph, &trees, &roots, working)?).collect();
    if by_saving {
        told.sort_by_key(|(_, saving)| std::cmp::Reverse(saving.total()));
    }
    let line = |((root, kinds), saving): &((u32, Kinds), Saving)| {
        format!("root {root} {} saving {}\n", kinds.told(), saving.total())
    };
    let text = format!("roots {}\n{}", told.len(), told.iter().map(line).collect::<String>());
    let listed: Value = told
        .iter()
        .map(|((root, kinds), saving)| Figures::of("root", *root).and(kinds.figures()).and(figures_of(*saving)))
        .collect();
    Ok(Given::of(text.into_bytes(), Figures::of("before", graph.complemented_edges()?).with("roots", listed)))
}

fn figures_of(saving: Saving) -> Figures {
    Figures::of("saving", saving.total()).with("own", saving.own).with("others", saving.others)
}

fn refused(graph: &Graph, index: u32, refusal: Refusal) -> String {
    match refusal {
        Refusal::NoSuchNode => Trees::of(graph).no_root(index),
        _ => refusal.to_string(),
    }
}

/// A line a node of the tree, in words.
fn lines(trees: &Trees, moved: &[(u32, u8)]) -> String {
    let line = |&(node, number): &(u32, u8)| {
        let xor = trees.is_xor(node);
        let kind = if xor { "xor" } else { "majority" };
        let locked = if trees.is_locked(node) { ", for it is locked" } else { "" };
        format!("node {node} {kind} move {number}: {}{locked}\n", turns(xor, number))
    };
    moved.iter().map(line).collect()
}

/// A line a node of the tree, as numbers alone; beside them the figures, and which nodes are locked.
fn only_numbers(trees: &Trees, moved: &[(u32, u8)], figures: Figures) -> Given {
    let locked: Vec<u32> = moved.iter().map(|&(node, _)| node).filter(|&node| trees.is_locked(node)).collect();
    let told = (!locked.is_empty()).then(|| format!("locked in the tree: {}", listed(&locked)));
    let text: String = moved.iter().map(|(node, number)| format!("{node} {number}\n")).collect();
    Given::of(text.into_bytes(), figures).told().saying(told)
}

/// The moves of a tree as figures.
fn moves_of(trees: &Trees, moved: &[(u32, u8)]) -> Value {
    let one = |&(node, number): &(u32, u8)| {
        let kind = if trees.is_xor(node) { "xor" } else { "majority" };
        let figures = Figures::of("node", node).with("kind", kind);
        figures.with("move", number).with("locked", trees.is_locked(node))
    };
    moved.iter().map(one).collect()
}

/// A line for each named input that a tree reads, and for each named output that reads its root.
fn names_at(named: Named, moved: &[(u32, u8)], root: u32) -> String {
    let (graph, names) = named;
    let mut read: Vec<u32> = moved.iter().flat_map(|&(node, _)| words_of(graph, node)).map(|word| word / 2).collect();
    read.sort_unstable();
    read.dedup();
    let inputs = read.into_iter().filter_map(|at| Some(format!("reads input {at} {}\n", names.input(at)?)));
    let outputs = (1..=graph.size.outputs).filter(|&at| output_of(graph, at) / 2 == root);
    let outputs = outputs.filter_map(|at| Some(format!("drives output {at} {}\n", names.output(at)?)));
    inputs.chain(outputs).collect()
}

fn tree_of(named: Named, root: u32, only_moves: bool) -> Result<Given, Refusal> {
    let graph = named.0;
    let told = graph.preview(root)?;
    let before = graph.complemented_edges()?;
    let after = i64::from(before) - told.saving.total();
    let figures = Figures::of("root", root).with("before", before).with("after", after);
    let figures = figures.and(figures_of(told.saving));
    let trees = Trees::of(graph);
    let mut kinds = Kinds::default();
    let mut moved = Vec::new();
    for node in trees.tree(root) {
        kinds.add(trees.is_xor(node), trees.is_locked(node));
        moved.push((node, told.moves[(node - graph.size.inputs - 1) as usize]));
    }
    let (lines, names) = (lines(&trees, &moved), names_at(named, &moved, root));
    let text = format!("{}\ntree {}\n{lines}{names}", figures.words(), kinds.told());
    let figures = figures.with("tree", kinds.figures()).with("moves", moves_of(&trees, &moved));
    Ok(match only_moves {
        true => only_numbers(&trees, &moved, figures),
        false => Given::of(text.into_bytes(), figures),
    })
}

/// The preview of a root's tree, or of none the roots.
pub fn of(named: Named, asked: &Work, working: &Progress) -> Result<Given, String> {
    match asked.root {
        Some(root) => tree_of(named, root, asked.only_moves).map_err(|refusal| refused(named.0, root, refusal)),
        None => roots_of(named.0, asked.by_saving, working).map_err(|refusal| refusal.to_string()),
    }
}
