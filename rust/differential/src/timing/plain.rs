//! The same calls in plain Rust.

use reference::packed::Packed;

use super::pairs::{Moved, Stages};
use super::patterns::{told, Pattern};
use super::samples::{as_one, part, Lent};
use super::woods;
use crate::plain::{
    aiger, assignment, calls, compare, complemented_edges, evaluate, file, find, join, many, preview, resistive,
    settle, sweeps, tree,
};
use crate::tables::{filled, tables, view, wired};

type Sample = super::samples::Sample<Packed>;

pub fn load(s: &mut Sample, _: &mut Lent) -> u64 {
    file::load(&s.file, filled(&mut s.g)).unwrap().1.into()
}

pub fn write(s: &mut Sample, l: &mut Lent) -> u64 {
    file::write(&view(&s.g), &mut l.buffer).unwrap() as u64
}

pub fn import(s: &mut Sample, _: &mut Lent) -> u64 {
    aiger::import(s.text.as_bytes(), filled(&mut s.g)).unwrap().1.into()
}

pub fn export(s: &mut Sample, l: &mut Lent) -> u64 {
    aiger::export(&view(&s.g), &mut l.scratch, &mut l.buffer).unwrap() as u64
}

pub fn evaluate(s: &mut Sample, l: &mut Lent) -> u64 {
    evaluate::evaluate(&view(&s.g), &l.words, &mut l.long_scratch, &mut l.results).unwrap();
    l.results[0]
}

pub fn count(s: &mut Sample, _: &mut Lent) -> u64 {
    complemented_edges(&view(&s.g)).unwrap().into()
}

pub fn node(s: &mut Sample, _: &mut Lent) -> u64 {
    let mut t = tables(&mut s.g);
    s.nodes.iter().map(|&v| as_one(calls::node_call(&mut t, v).unwrap())).sum()
}

pub fn pair(s: &mut Sample, _: &mut Lent) -> u64 {
    let mut t = tables(&mut s.g);
    s.nodes.iter().map(|&v| as_one(calls::pair_call(&mut t, v, 1).unwrap())).sum()
}

pub fn tree(s: &mut Sample, l: &mut Lent) -> u64 {
    let mut t = tables(&mut s.g);
    s.roots.iter().map(|&v| as_one(tree::tree_call(&mut t, v, l.scratch.len()).unwrap())).sum()
}

pub fn tree_by_sweeps(s: &mut Sample, l: &mut Lent) -> u64 {
    let mut t = tables(&mut s.g);
    s.roots.iter().map(|&v| as_one(sweeps::tree_call(&mut t, v, l.scratch.len()).unwrap())).sum()
}

pub fn preview(s: &mut Sample, l: &mut Lent) -> u64 {
    let g = view(&s.g);
    s.roots.iter().map(|&v| as_one(preview::preview(&g, v, &mut l.moves, l.scratch.len()).unwrap())).sum()
}

pub fn many(s: &mut Sample, _: &mut Lent) -> u64 {
    part(many::many(&mut tables(&mut s.g), &s.all.0, &s.all.1).unwrap())
}

pub fn many_of_a_tenth(s: &mut Sample, _: &mut Lent) -> u64 {
    part(many::many(&mut tables(&mut s.g), &s.tenth.0, &s.tenth.1).unwrap())
}

pub fn settle(s: &mut Sample, l: &mut Lent) -> u64 {
    let settled = settle::settle(&mut tables(&mut s.g), l.scratch.len());
    l.settled(settled.unwrap())
}

/// The new N.
pub fn find(g: &mut Packed, scratch: &mut [u32]) -> u32 {
    find::find(&mut wired(g), scratch.len()).unwrap()
}

/// At each of the roots.
pub fn resistive(s: &mut woods::Sample) -> u64 {
    let mut t = tables(&mut s.g);
    s.roots.iter().map(|&v| as_one(resistive::resistive_call(&mut t, v, s.scratch.len()).unwrap())).sum()
}

/// What differs.
pub fn compare(s: &mut Moved) -> u64 {
    compare::compare(&view(&s.first), &view(&s.second), &mut s.moves).unwrap()[0].into()
}

pub fn assignment(s: &mut Pattern) -> u64 {
    told(assignment::assignment(&view(&s.g), &s.wanted, s.scratch.len()).unwrap())
}

/// The joined graph's N.
pub fn join(s: &mut Stages) -> u64 {
    join::join(&view(&s.first), &view(&s.second), filled(&mut s.joined)).unwrap().1.into()
}
