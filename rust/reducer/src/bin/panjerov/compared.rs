//! What `panjerov compare` and `panjerov sheets` tell.

use crate::figures::{Figures, Value};
use crate::files::{self, Input};
use crate::formats;
use crate::locks;
use crate::sheets;
use crate::turned::{self, Apart};
use crate::words::Work;
use crate::Given;
use reducer::{Graph, Refusal};

/// Both counts, and how far the second graph is from settled.
fn figures(graphs: [&Graph; 2], moves: &[u8]) -> Result<Figures, Refusal> {
    let [before, after] = [graphs[0].complemented_edges()?, graphs[1].complemented_edges()?];
    let settled = graphs[1].clone().settle()?;
    let (saving, left) = (i64::from(before) - i64::from(after), settled.before - settled.after);
    let moved = moves.iter().filter(|&&number| number != 0).count();
    let edges = Figures::of("before", before).with("after", after).with("saving", saving);
    Ok(edges.with("moved", moved).with("left", left).with("moves", sheets::moves_of(graphs[0], moves)))
}

/// The moves that lead from a graph to another, or the first place that no moves explain.
pub fn compare(asked: &Work, before: &Input, first: &Graph) -> Result<Given, String> {
    let after = files::read(asked.after.as_deref())?;
    let second = formats::graph_of(&after)?;
    let (graphs, names) = ([first, &second.graph], [&before.name[..], &after.name]);
    let different = |why: String| Given::different(why, Figures::of("moves", Value::Nothing));
    let given = match turned::moves(first, &second.graph) {
        Ok(moves) => {
            let figures = figures(graphs, &moves).map_err(|refusal| refusal.to_string())?;
            let told = [locks::differ(graphs, names), locks::turned(first, &moves, names[0])];
            let list = sheets::list_of(first, &moves).into_bytes();
            Given::of(list, figures).told().saying(told.into_iter().flatten())
        }
        Err(Apart::Wiring(why)) => different(format!("other wiring: {why}")),
        Err(Apart::Bit(_, what)) => different(format!("no moves: {what}")),
        Err(Apart::Refused(why)) => return Err(why),
    };
    Ok(Given { first: second.lines, ..given })
}

/// The short form of a sheet, or whether two end in the same graph.
pub fn sheets(asked: &Work, graph: &Graph) -> Result<Given, String> {
    let sheet = files::read_moves(asked.moves.as_deref())?;
    let Some(other) = &asked.other else {
        let (text, figures) = sheets::short(graph, &sheet)?;
        return Ok(Given::of(text.into_bytes(), figures).told());
    };
    let other = files::read_moves(other.as_deref())?;
    Ok(match sheets::first_difference(graph, [&sheet, &other])? {
        None => Given::of(b"same\n".to_vec(), Figures::of("same", true)),
        Some((node, why)) => Given::different(why, Figures::of("same", false).with("node", node)),
    })
}
