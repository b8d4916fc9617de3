//! Moves that a text lists, a line a node, and what `panjerov apply` tells of them.

use crate::figures::Figures;
use crate::files::Input;
use crate::locks;
use crate::nodes;
use reducer::{Graph, Refusal};

/// A line of the list, counted from 1.
#[derive(Clone, Copy, Debug, PartialEq, Eq)]
pub struct Entry {
    line: usize,
    pub node: u32,
    pub number: u32,
}

impl Entry {
    /// No kind has the moves that a byte cannot say, nor the last that it can.
    pub fn byte(&self) -> u8 {
        u8::try_from(self.number).unwrap_or(u8::MAX)
    }
}

/// Why a line lists no move. A long line is cut.
fn not_understood(line: &str) -> String {
    let mut shown: String = line.chars().take(40).collect();
    if shown.len() < line.len() {
        shown.push_str("...");
    }
    format!("a line is a node's index and its move, such as 7 1, and not {}", shown.escape_debug())
}

/// The entry of a line, or none where the line has none. What follows a # is a comment.
fn entry(line: usize, text: &str) -> Result<Option<Entry>, String> {
    let before = text.split('#').next().unwrap_or_default();
    let words: Vec<&str> = before.split_ascii_whitespace().collect();
    match words[..] {
        [] => Ok(None),
        [node, number] => match (locks::number(node), locks::number(number)) {
            (Some(node), Some(number)) => Ok(Some(Entry { line, node, number })),
            _ => Err(not_understood(text.trim())),
        },
        _ => Err(not_understood(text.trim())),
    }
}

/// The moves that are listed, or which line is not understood.
pub fn listed(moves: &Input) -> Result<Vec<Entry>, String> {
    let mut all = Vec::new();
    for (at, bytes) in moves.bytes.split(|&byte| byte == b'\n').enumerate() {
        let line = at + 1;
        let found = entry(line, &String::from_utf8_lossy(bytes));
        all.extend(found.map_err(|why| format!("{}, line {line}: {why}", moves.name))?);
    }
    Ok(all)
}

/// The number that refuses an entry, and why; the one before it is given.
fn fault_of(graph: &Graph, before: Option<&Entry>, &Entry { node, number, .. }: &Entry) -> Option<(Refusal, String)> {
    let Ok(locked) = graph.is_locked(node) else {
        return Some((Refusal::NoSuchNode, locks::no_node(graph.size, node)));
    };
    if let Some(last) = before.filter(|last| node <= last.node) {
        let why = format!("node {node} comes after node {}, and indices must rise", last.node);
        return Some((Refusal::NotRising, why));
    }
    let (kind, last) = if nodes::is_xor(graph, node) { ("an XOR", 3) } else { ("a majority", 1) };
    if number > last {
        let why = format!("node {node} is {kind}, whose moves are 0 to {last}, and not {number}");
        return Some((Refusal::NoSuchMove, why));
    }
    (locked && number != 0)
        .then(|| (Refusal::MoveOfLocked, format!("node {node} is locked, and cannot have move {number}")))
}

/// What refuses the list, with the line at fault where the same number is found there.
fn refused(graph: &Graph, moves: &Input, entries: &[Entry], refusal: Refusal) -> String {
    let before = |at: usize| at.checked_sub(1).map(|last| &entries[last]);
    let faults = entries.iter().enumerate().map(|(at, entry)| (entry, fault_of(graph, before(at), entry)));
    let first = faults.filter_map(|(entry, fault)| Some((entry.line, fault?))).next();
    match first {
        Some((line, (found, why))) if found == refusal => format!("{}, line {line}: {refusal}; {why}", moves.name),
        _ => format!("{}: {refusal}", moves.name),
    }
}

/// That each entry is a move of its node, in whatever order they are; what refuses the first that is none, with its line.
pub fn each_is_a_move(graph: &Graph, moves: &Input, entries: &[Entry]) -> Result<(), String> {
    let faults = entries.iter().map(|entry| (entry.line, fault_of(graph, None, entry)));
    match faults.filter_map(|(line, fault)| Some((line, fault?))).next() {
        Some((line, (refusal, why))) => Err(format!("{}, line {line}: {refusal}; {why}", moves.name)),
        None => Ok(()),
    }
}

/// Makes the moves that are listed, all or none, on a graph that the library has admitted; the figures.
pub fn make(graph: &mut Graph, moves: &Input) -> Result<Figures, String> {
    let entries = listed(moves)?;
    let (list, bytes): (Vec<u32>, Vec<u8>) = entries.iter().map(|entry| (entry.node, entry.byte())).unzip();
    let before = graph.complemented_edges().map_err(|refusal| refusal.to_string())?;
    let saving = graph.many(&list, &bytes).map_err(|refusal| refused(graph, moves, &entries, refusal))?;
    let after = i64::from(before) - saving;
    let moved = bytes.iter().filter(|&&number| number != 0).count();
    let edges = Figures::of("before", before).with("after", after).with("saving", saving);
    Ok(edges.with("listed", list.len()).with("moved", moved))
}

#[cfg(test)]
mod tests {
    use super::*;

    fn text(lines: &str) -> Input {
        Input { name: "moves".into(), bytes: lines.into(), ..Input::default() }
    }

    /// Node 3 is a majority, nodes 4 and 5 are XORs, and node 4 is locked.
    fn mixed() -> Graph {
        let mut g = Graph::new(2, vec![2, 5, 4, 6, 3, u32::MAX, 8, 7, u32::MAX], vec![10, 9]);
        g.lock(4).unwrap();
        g
    }

    #[test]
    fn lines() {
        let entries =
            |lines: &str| listed(&text(lines)).map(|all| all.iter().map(|e| (e.line, e.node, e.number)).collect());
        let due = |all: &[(usize, u32, u32)]| Ok(all.to_vec());
        assert_eq!(entries(""), due(&[]));
        assert_eq!(entries("\n\n# 3 1\n   # 4 1\n#\n"), due(&[]));
        assert_eq!(entries("3 1\n4 0\n"), due(&[(1, 3, 1), (2, 4, 0)]));
        assert_eq!(entries("# first\n\n  3\t1 \r\n#\r\n\r\n007 300"), due(&[(3, 3, 1), (6, 7, 300)]));
        assert_eq!(entries("4294967295 4294967295"), due(&[(1, u32::MAX, u32::MAX)]));
        assert_eq!(entries("3 1 # turned\n4 2# and\r\n5 0 ## 3 1\n"), due(&[(1, 3, 1), (2, 4, 2), (3, 5, 0)]));
        for bad in [
            "3",
            "3 1 0",
            "x 1",
            "3 x",
            "-3 1",
            "3 -1",
            "3 +1",
            "3,1",
            "3 # 1",
            "3 1 0 # no",
            "4294967296 0",
            "3 4294967296",
        ] {
            let why = format!("moves, line 2: a line is a node's index and its move, such as 7 1, and not {bad}");
            assert_eq!(entries(&format!("3 1\n{bad}\n9 9 9\n")), Err(why));
        }
        let long = "x".repeat(99);
        assert!(entries(&long).unwrap_err().ends_with(&format!("and not {}...", "x".repeat(40))));
    }

    /// The line that is told is the one that the library refuses: without it and what follows, the list is accepted.
    #[test]
    fn first_faults() {
        let words = ["2 0", "3 0", "3 1", "3 2", "4 0", "4 1", "4 4", "5 3", "5 256", "6 0"];
        let (mut accepted, mut refused) = (0, 0);
        for at in 0..words.len().pow(3) {
            let lines: Vec<&str> = [at / 100, at / 10 % 10, at % 10].map(|which| words[which]).to_vec();
            let mut g = mixed();
            let Err(why) = make(&mut g, &text(&lines.join("\n"))) else {
                accepted += 1;
                continue;
            };
            let line: usize = why.strip_prefix("moves, line ").and_then(|rest| rest[..1].parse().ok()).expect(&why);
            assert_eq!(g, mixed());
            assert!(make(&mut g, &text(&lines[..line - 1].join("\n"))).is_ok(), "{lines:?}: {why}");
            assert!(make(&mut mixed(), &text(&lines[..line].join("\n"))).is_err(), "{lines:?}: {why}");
            refused += 1;
        }
        assert!(accepted > 0 && refused > 900);
    }

    #[test]
    fn reasons() {
        let why = |lines: &str| make(&mut mixed(), &text(lines)).unwrap_err();
        let no_node = "refused 7: there is no such node, root or word; 6 is no node: nodes are 3 to 5";
        assert_eq!(why("# six\n6 9\n"), format!("moves, line 2: {no_node}"));
        let after = "refused 14: an index of the list is not above the one before";
        assert_eq!(
            why("4 0\n3 9\n"),
            format!("moves, line 2: {after}; node 3 comes after node 4, and indices must rise")
        );
        assert_eq!(
            why("3 1\n\n3 1\n"),
            format!("moves, line 3: {after}; node 3 comes after node 3, and indices must rise")
        );
        let lacks = "refused 15: a node of this kind has no such move";
        assert_eq!(
            why("3 2"),
            format!("moves, line 1: {lacks}; node 3 is a majority, whose moves are 0 to 1, and not 2")
        );
        assert_eq!(why("4 4"), format!("moves, line 1: {lacks}; node 4 is an XOR, whose moves are 0 to 3, and not 4"));
        assert_eq!(
            why("5 300"),
            format!("moves, line 1: {lacks}; node 5 is an XOR, whose moves are 0 to 3, and not 300")
        );
        let locked = "refused 16: a move other than 0 is at a locked node; node 4 is locked, and cannot have move 3";
        assert_eq!(why("3 1\n4 3\n"), format!("moves, line 2: {locked}"));
    }
}
