//! Graphs to time the finder on: those that and-inverter tools leave, and those that are hard for it.

use reference::buried::Build;
use reference::graph::Graph;
use reference::packed::{pack, Packed};
use reference::random::Random;

/// Graphs of about so many nodes.
pub struct Family {
    pub name: &'static str,
    inputs: u32,
    grow: fn(&mut Build, &mut Random, u32),
}

const fn family(name: &'static str, inputs: u32, grow: fn(&mut Build, &mut Random, u32)) -> Family {
    Family { name, inputs, grow }
}

pub const FAMILIES: [Family; 19] = [
    family("ANDs of any two, 64 inputs", 64, ands_of_any),
    family("ANDs of any two, 4,096 inputs", 4_096, ands_of_any),
    family("ANDs of two of the last 200", 64, |b, r, n| ands_of_last(b, r, n, 200)),
    family("ANDs of two of the last 16", 64, |b, r, n| ands_of_last(b, r, n, 16)),
    family("XORs and ANDs of the last 16", 64, xors_and_ands),
    family("majorities of any three, in ANDs", 64, |b, r, n| majorities(b, r, n, u32::MAX)),
    family("majorities of the last 30, in ANDs", 64, |b, r, n| majorities(b, r, n, 30)),
    family("ripple adders in ANDs", 4_096, adders),
    family("array multiplier in ANDs", 192, multiplier),
    family("ANDs with the constant", 1, |b, _, n| constants(b, 2, n)),
    family("ANDs with the constant, no input", 1, |b, _, n| constants(b, 1, n)),
    family("XORs in a row over 3 inputs", 3, |b, r, n| row(b, r, n, 3)),
    family("XORs in a row over 64 inputs", 64, |b, r, n| row(b, r, n, 64)),
    family("ANDs in a row over 3 inputs", 3, ands_in_a_row),
    family("two wide", 2, two_wide),
    family("a row with an input at its bottom", 4, bottom),
    family("a long row, read with two inputs", 4_096, shared),
    family("a long row, read with two nodes", 64, between),
    family("buffers read from the top down", 4, falling),
];

/// Its time is known to grow with the square of its nodes.
pub const HARD: Family = family("a long row, read with its own nodes", 4, inside);

impl Family {
    /// With outputs at the last 4,096 nodes at most.
    pub fn graph(&self, nodes: u32) -> Graph {
        let mut build = Build::new(self.inputs);
        (self.grow)(&mut build, &mut Random::new(7), nodes);
        let (last, outputs) = (build.last(), build.nodes().min(4_096));
        build.graph((last + 1 - outputs..=last).map(|node| 2 * node).collect())
    }

    pub fn lent(&self, nodes: u32) -> Packed {
        pack(&self.graph(nodes))
    }
}

/// A literal of one of the last so many indices, the constant's not among them.
fn of_last(b: &Build, random: &mut Random, many: u32) -> u32 {
    2 * (b.last() - random.below(many.min(b.last()))) + random.bit()
}

/// One of two literals, or its complement.
fn either(random: &mut Random, literal: u32) -> u32 {
    literal ^ random.bit()
}

fn ands_of_any(b: &mut Build, random: &mut Random, nodes: u32) {
    ands_of_last(b, random, nodes, u32::MAX);
}

fn ands_of_last(b: &mut Build, random: &mut Random, nodes: u32, many: u32) {
    while b.nodes() < nodes {
        let (x, y) = (of_last(b, random, many), of_last(b, random, many));
        b.and(x, y);
    }
}

fn xors_and_ands(b: &mut Build, random: &mut Random, nodes: u32) {
    while b.nodes() < nodes {
        let (x, y) = (of_last(b, random, 16), of_last(b, random, 16));
        if random.one_in(2) {
            b.and(x, y);
        } else {
            b.xor(x, y);
        }
    }
}

/// Of inputs and majorities before, never of an AND within one.
fn majorities(b: &mut Build, random: &mut Random, nodes: u32, many: u32) {
    let mut made: Vec<u32> = (1..=b.last()).map(|input| 2 * input).collect();
    while b.nodes() + 4 <= nodes {
        let of = made.len() as u32;
        let [x, y, z] = [0; 3].map(|_| {
            let literal = made[(of - 1 - random.below(many.min(of))) as usize];
            either(random, literal)
        });
        made.push(b.hidden(x, y, z));
    }
}

/// One carry through all bits, the inputs used again and again.
fn adders(b: &mut Build, _: &mut Random, nodes: u32) {
    let (mut carry, mut k) = (0, 0);
    while b.nodes() + 10 <= nodes {
        let (x, y) = (2 + 2 * (k % 2_048), 2 + 2 * (2_048 + k % 2_048));
        let half = b.hidden_xor(x, y);
        b.hidden_xor(half, carry);
        carry = b.hidden(x, y, carry);
        k += 1;
    }
}

fn multiplier(b: &mut Build, _: &mut Random, nodes: u32) {
    const WIDTH: u32 = 96;
    let mut row = vec![0; WIDTH as usize];
    for i in 0..WIDTH {
        let mut carry = 0;
        for j in 0..WIDTH {
            if b.nodes() + 11 > nodes {
                return;
            }
            let product = b.and(2 + 2 * i, 2 + 2 * (WIDTH + j));
            let x = std::mem::take(&mut row[j as usize]);
            let half = b.hidden_xor(product, x);
            row[j as usize] = b.hidden_xor(half, carry);
            carry = b.hidden(product, x, carry);
        }
        row.remove(0);
        row.push(carry);
    }
}

fn constants(b: &mut Build, first: u32, nodes: u32) {
    let mut last = first;
    while b.nodes() < nodes {
        last = b.and(last, 1);
    }
}

fn row(b: &mut Build, random: &mut Random, nodes: u32, inputs: u32) {
    let mut last = 2;
    while b.nodes() < nodes {
        last = b.xor(last, 2 + random.below(2 * inputs));
    }
}

fn ands_in_a_row(b: &mut Build, random: &mut Random, nodes: u32) {
    let mut last = 2;
    while b.nodes() < nodes {
        let x = either(random, last);
        last = b.and(x, 2 + random.below(6));
    }
}

/// Each node reads the two before it.
fn two_wide(b: &mut Build, random: &mut Random, nodes: u32) {
    let (mut x, mut y) = (2, 4);
    while b.nodes() < nodes {
        let next = match random.below(2) {
            0 => b.and(either(random, x), either(random, y)),
            _ => b.xor(x, y),
        };
        (x, y) = (y, next);
    }
}

/// Over three inputs, with a fourth at the very bottom.
fn bottom(b: &mut Build, random: &mut Random, nodes: u32) {
    let mut last = 8;
    while b.nodes() < nodes {
        last = b.xor(last, 2 + 2 * random.below(3));
    }
}

/// XORs of the two before them, over input 1 alone, up to so many nodes; all of them.
fn long_row(b: &mut Build, random: &mut Random, nodes: u32) -> Vec<u32> {
    let mut all = vec![2, 2];
    while b.nodes() < nodes {
        let y = either(random, all[all.len() - 1]);
        all.push(b.xor(all[all.len() - 2], y));
    }
    all
}

fn shared(b: &mut Build, random: &mut Random, nodes: u32) {
    let all = long_row(b, random, nodes / 2);
    let last = all[all.len() - 1];
    while b.nodes() + 2 <= nodes {
        let [x, y] = [0; 2].map(|_| 4 + 2 * random.below(4_094));
        let both = b.majority(2, x, y);
        b.and(last, both);
    }
}

/// As the row grows, an AND stands beside each of its nodes.
fn between(b: &mut Build, random: &mut Random, nodes: u32) {
    let (mut x, mut y, mut own) = (2, 2, Vec::new());
    while b.nodes() < 2 * nodes / 3 {
        let next = b.xor(x, either(random, y));
        (x, y) = (y, next);
        own.push(b.and(4 + 2 * random.below(62), 4 + 2 * random.below(62)));
    }
    while b.nodes() + 2 <= nodes {
        let [p, q] = [0; 2].map(|_| own[random.below(own.len() as u32) as usize]);
        let both = b.majority(2, p, q);
        b.and(y, both);
    }
}

/// A row of buffers, and a row above it that reads them by falling index.
fn falling(b: &mut Build, _: &mut Random, nodes: u32) {
    let mut buffers = vec![2];
    while b.nodes() < nodes / 2 {
        buffers.push(b.and(buffers[buffers.len() - 1], 1));
    }
    let mut last = buffers.pop().unwrap_or(2);
    while b.nodes() < nodes {
        let below = buffers.pop().unwrap_or(2);
        last = b.xor(last, [below, 4, 6][b.nodes() as usize % 3]);
    }
}

/// Each reader asks whether the top of the row turns with another of its nodes.
fn inside(b: &mut Build, random: &mut Random, nodes: u32) {
    // Its top is then input 1 or its complement, and not a constant.
    let all = long_row(b, random, nodes / 6 * 3);
    let last = all[all.len() - 1];
    while b.nodes() + 2 <= nodes {
        let other = all[2 + random.below(all.len() as u32 - 3) as usize];
        let both = b.majority(2, other, 4);
        b.and(last, both);
    }
}
