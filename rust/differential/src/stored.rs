//! The stored cases of single calls and evaluation, which the program of crates/vectors does not run by themselves.

use crate::lists::differ;
use crate::raw;
use reference::calls::Call;
use reference::entries;
use reference::vectors::case::{Case, EVALUATE, FIND, MAJORITY, MANY, NODE, PAIR, RESISTIVE, TREE};
use reference::vectors::{cases, SEED};

fn check_evaluation(case: &Case) -> Result<(), String> {
    let mut due = vec![0xbeef; case.result as usize];
    let mut got = due.clone();
    let scratch = case.scratch as usize;
    let answer = raw::evaluate(&case.g, &case.longs, scratch, &mut got)?;
    differ("evaluation", &answer, &entries::evaluate(&case.g, &case.longs, scratch, &mut due))?;
    differ("results", &got, &due)
}

fn check_call(case: &Case) -> Result<(), String> {
    let call = match case.op {
        NODE => Call::Node(case.x),
        PAIR => Call::Pair(case.x, case.y),
        TREE => Call::Tree(case.x),
        MANY => Call::Many { list: case.list.clone(), moves: case.moves.clone() },
        MAJORITY => Call::Majority { node: case.x, three: [case.list[0], case.list[1], case.list[2]] },
        FIND => Call::Find,
        RESISTIVE => Call::Resistive(case.x),
        _ => Call::Settle,
    };
    let (mut got, mut due) = (case.g.clone(), case.g.clone());
    let answer = raw::step(&mut got, &call, case.scratch as usize)?;
    differ(&format!("{call:?}"), &answer, &entries::step(&mut due, &call, case.scratch as usize))?;
    differ(&format!("the tables after {call:?}"), &got, &due)
}

/// How many cases were run.
pub fn check_stored() -> Result<u64, String> {
    let (_, direct) = cases(SEED);
    for (at, case) in direct.iter().enumerate() {
        let checked = if case.op == EVALUATE { check_evaluation(case) } else { check_call(case) };
        checked.map_err(|wrong| format!("stored case {at}: {wrong}"))?;
    }
    Ok(direct.len() as u64)
}
