//! Sheets of moves, in any order and with repetitions: their short form, and whether two of them end in the same graph.

use crate::apply::{self, Entry};
use crate::figures::{Figures, Value};
use crate::files::Input;
use crate::nodes::is_xor;
use reducer::Graph;

/// What all moves of a sheet at each node come to, by node from 0.
///
/// Two equal moves cancel, and of an XOR's moves 1, 2 and 3 two different ones make the third: by numbers that is exclusive or.
fn combined(graph: &Graph, entries: &[Entry]) -> Vec<u8> {
    let mut moves = vec![0; graph.size.nodes as usize];
    for entry in entries {
        moves[(entry.node - graph.size.inputs - 1) as usize] ^= entry.byte();
    }
    moves
}

/// The entries of a sheet on a graph that the library has admitted, and what they come to at each node.
fn read(graph: &Graph, sheet: &Input) -> Result<(Vec<Entry>, Vec<u8>), String> {
    let entries = apply::listed(sheet)?;
    apply::each_is_a_move(graph, sheet, &entries)?;
    let moves = combined(graph, &entries);
    Ok((entries, moves))
}

/// Moves, a byte a node by rising index, as a list that `apply` takes: nodes with move 0 are left out.
pub fn list_of(graph: &Graph, moves: &[u8]) -> String {
    let moved = (graph.size.inputs + 1..).zip(moves).filter(|(_, &number)| number != 0);
    moved.map(|(node, number)| format!("{node} {number}\n")).collect()
}

/// The same moves as figures.
pub fn moves_of(graph: &Graph, moves: &[u8]) -> Value {
    let moved = (graph.size.inputs + 1..).zip(moves).filter(|(_, &number)| number != 0);
    moved.map(|(node, &number)| Figures::of("node", node).with("move", number)).collect()
}

/// The short form of a sheet, and its figures.
pub fn short(graph: &Graph, sheet: &Input) -> Result<(String, Figures), String> {
    let (entries, moves) = read(graph, sheet)?;
    let text = list_of(graph, &moves);
    let short = Input { name: sheet.name.clone(), bytes: text.clone().into_bytes(), ..Input::default() };
    let made = apply::make(&mut graph.clone(), &short)?;
    Ok((text, Figures::of("lines", entries.len()).and(made).with("moves", moves_of(graph, &moves))))
}

/// The moves of a node in a sheet, and what they make.
fn told(node: u32, entries: &[Entry], made: u8, sheet: &Input) -> String {
    let moves: Vec<String> =
        entries.iter().filter(|entry| entry.node == node).map(|entry| entry.number.to_string()).collect();
    let listed = match &moves[..] {
        [] => "no moves make".into(),
        [one] => format!("{one} makes"),
        [.., last] if moves.len() <= 8 => format!("{} and {last} make", moves[..moves.len() - 1].join(", ")),
        _ => format!("{} moves make", moves.len()),
    };
    format!("{listed} {made} in {}", sheet.name)
}

/// The first node whose moves come to another in two sheets, and what they come to; none where both end in the same graph.
pub fn first_difference(graph: &Graph, sheets: [&Input; 2]) -> Result<Option<(u32, String)>, String> {
    let [first, second] = sheets.map(|sheet| read(graph, sheet));
    let (first, second) = (first?, second?);
    let mut nodes = (graph.size.inputs + 1..).zip(first.1.iter().zip(&second.1));
    Ok(nodes.find(|(_, (x, y))| x != y).map(|(node, (&x, &y))| {
        let kind = if is_xor(graph, node) { "xor" } else { "majority" };
        let [first, second] = [told(node, &first.0, x, sheets[0]), told(node, &second.0, y, sheets[1])];
        (node, format!("node {node} {kind}: {first}, {second}"))
    }))
}

#[cfg(test)]
mod tests {
    use super::*;
    use reducer::MARK;

    fn sheet(name: &str, lines: &str) -> Input {
        Input { name: name.into(), bytes: lines.into(), ..Input::default() }
    }

    /// Node 3 is a majority, nodes 4 and 5 are XORs.
    fn mixed() -> Graph {
        Graph::new(2, vec![2, 5, 4, 6, 3, MARK, 8, 7, MARK], vec![10, 9])
    }

    /// Every sheet of three lines ends where its short form does, move by move and by the library's many moves.
    #[test]
    fn short_forms() {
        let lines = ["3 0", "3 1", "4 0", "4 1", "4 2", "4 3", "5 1", "5 2", "5 3"];
        for at in 0..lines.len().pow(3) {
            let three = [at / 81, at / 9 % 9, at % 9].map(|which| lines[which]);
            let mut one_by_one = mixed();
            for line in three {
                apply::make(&mut one_by_one, &sheet("line", line)).unwrap();
            }
            let (text, _) = short(&mixed(), &sheet("sheet", &three.join("\n"))).unwrap();
            let mut at_once = mixed();
            apply::make(&mut at_once, &sheet("short", &text)).unwrap();
            assert_eq!(at_once, one_by_one, "{three:?}");
        }
    }

    /// Two sheets are the same just where they end in the same graph.
    #[test]
    fn same_sheets() {
        let ends = |lines: [&str; 2]| {
            let mut graph = mixed();
            lines.iter().for_each(|line| drop(apply::make(&mut graph, &sheet("line", line)).unwrap()));
            graph
        };
        let lines = ["3 0", "3 1", "4 1", "4 2", "4 3", "5 2"];
        for at in 0..lines.len().pow(4) {
            let [w, x, y, z] = [at / 216, at / 36 % 6, at / 6 % 6, at % 6].map(|which| lines[which]);
            let sheets = [sheet("a", &format!("{w}\n{x}\n")), sheet("b", &format!("{y}\n{z}\n"))];
            let told = first_difference(&mixed(), [&sheets[0], &sheets[1]]).unwrap();
            assert_eq!(told.is_none(), ends([w, x]) == ends([y, z]), "{told:?}");
        }
    }

    #[test]
    fn differences_in_words() {
        let told = |first: &str, second: &str| {
            first_difference(&mixed(), [&sheet("a", first), &sheet("b", second)]).unwrap().unwrap_or_default().1
        };
        assert_eq!(told("4 1\n3 1\n4 2\n", "4 3\n3 1"), "");
        assert_eq!(told("4 1\n4 2\n", "4 2\n"), "node 4 xor: 1 and 2 make 3 in a, 2 makes 2 in b");
        assert_eq!(told("3 1\n5 1\n", "5 2"), "node 3 majority: 1 makes 1 in a, no moves make 0 in b");
        let many = "3 1\n".repeat(9);
        assert_eq!(told("", &many), "node 3 majority: no moves make 0 in a, 9 moves make 1 in b");
        assert_eq!(told("5 1\n5 2\n5 2\n", ""), "node 5 xor: 1, 2 and 2 make 1 in a, no moves make 0 in b");
    }
}
