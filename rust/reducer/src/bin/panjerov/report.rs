//! What `panjerov report` gives: one page with figures, pictures and the nodes that turned, which needs nothing beside it.

use std::thread;

use crate::files::Input;
use crate::graphviz::{self, Form};
use crate::locks;
use crate::nodes::{is_xor, words_of};
use crate::parts::{count, Part, Wanted};
use crate::picture::{self, Named};
use crate::preview::turns;
use crate::resistive::single;
use crate::show::{depth, names_of};
use crate::turned;
use crate::{figures_of, Given};
use reducer::{Graph, Names, Settled};

/// The cells of an inverter, a majority and an XOR.
const CELLS: [u64; 3] = [13, 5, 12];
/// The most nodes that have a line each.
const MOST_LINES: usize = 500;
pub const MINUS: char = '\u{2212}';

pub const STYLE: &str = include_str!("report.css");
/// How to read the pictures.
const LEGEND: &str = include_str!("legend.html");
const ONE_MOVE: &str =
    "<p>All moves that settling made at a node come to one. An edge that the moves at both its ends turn ends \
                        as it was.</p>\n";

/// A graph before and after settling.
struct Report<'a> {
    name: String,
    before: &'a Graph,
    names: &'a Names,
    after: Graph,
    settled: Settled,
    /// By node: its move.
    moves: Vec<u8>,
}

pub fn escaped(text: &str) -> String {
    text.replace('&', "&amp;").replace('<', "&lt;").replace('>', "&gt;").replace('"', "&quot;")
}

/// With a comma before each three digits.
pub fn grouped(number: u64) -> String {
    let digits = number.to_string();
    let threes = digits.as_bytes().rchunks(3).rev().map(String::from_utf8_lossy);
    threes.collect::<Vec<_>>().join(",")
}

/// How far a number fell, and by how much of a hundred.
fn fall(before: u64, after: u64) -> String {
    match before - after {
        0 => "0".into(),
        fall => format!("{MINUS}{} ({MINUS}{} %)", grouped(fall), (200 * fall + before) / (2 * before)),
    }
}

/// How far a number went, up or down.
fn change(by: i64) -> String {
    let sign = if by < 0 { MINUS } else { '+' };
    match by.unsigned_abs() {
        0 => "0".into(),
        far => format!("{sign}{}", grouped(far)),
    }
}

/// Numbers in a row, with ends of each run alone.
fn runs(numbers: &[u32]) -> String {
    let follows = |x: &u32, y: &u32| *y == x + 1;
    let runs = numbers.chunk_by(follows).map(|run| match run {
        [first, .., last] => format!("{first} to {last}"),
        _ => run[0].to_string(),
    });
    runs.collect::<Vec<String>>().join(", ")
}

impl Report<'_> {
    fn nodes(&self) -> impl Iterator<Item = (u32, u8)> + '_ {
        (self.before.size.inputs + 1..).zip(self.moves.iter().copied())
    }

    /// The nodes whose move is not 0.
    fn turned(&self) -> Vec<(u32, u8)> {
        self.nodes().filter(|&(_, number)| number != 0).collect()
    }

    fn xors(&self) -> u64 {
        self.nodes().filter(|&(node, _)| is_xor(self.before, node)).count() as u64
    }

    /// That some nodes were locked, in the summary.
    fn locked_sentence(&self) -> String {
        match self.before.locked() {
            0 => String::new(),
            1 => " One node is locked and did not turn.".into(),
            locked => format!(" {} nodes are locked and did not turn.", grouped(locked.into())),
        }
    }

    fn summary(&self) -> String {
        let Settled { rounds, before, after, .. } = self.settled;
        let rounds = count(rounds as usize, "round");
        let edges =
            |many: u32| format!("{} complemented edge{}", grouped(many.into()), if many == 1 { "" } else { "s" });
        let settled = match before - after {
            0 => format!("Settling made {rounds} and found no move that lowers the {}.", edges(before)),
            saved => format!(
                "Settling made {rounds} and took the graph from {} to {}: {} cells fewer, with the same wiring and function.",
                edges(before),
                grouped(after.into()),
                grouped(CELLS[0] * u64::from(saved))
            ),
        };
        settled + &self.locked_sentence()
    }

    fn figures(&self) -> String {
        let Settled { rounds, before, after, own, others } = self.settled;
        let size = self.before.size;
        let (nodes, xors) = (u64::from(size.nodes), self.xors());
        let same = |what: &str, many: u64| format!("<tr><th>{what}<td>{0}<td>{0}<td>", grouped(many));
        let fell = |what: &str, [x, y]: [u64; 2]| {
            format!("<tr><th>{what}<td>{}<td>{}<td>{}", grouped(x), grouped(y), fall(x, y))
        };
        let went = |what: &str, [x, y]: [usize; 2]| {
            let [x, y] = [x as u64, y as u64];
            format!("<tr><th>{what}<td>{}<td>{}<td>{}", grouped(x), grouped(y), change(y as i64 - x as i64))
        };
        let part = |what: &str, saved: i64| format!("<tr><th>{what}<td><td><td>{}", change(-saved));
        let inverters = [before, after].map(|many| CELLS[0] * u64::from(many));
        let (majority_cells, xor_cells) = (CELLS[1] * (nodes - xors), CELLS[2] * xors);
        [
            "<table class=\"figures\">\n<tr><th><th>before<th>after<th>change".into(),
            same("inputs", size.inputs.into()),
            same("outputs", size.outputs.into()),
            same("nodes", nodes),
            same("of these majorities", nodes - xors),
            same("of these XORs", xors),
            same("of these locked", self.before.locked().into()),
            same("depth", depth(self.before).into()),
            fell("complemented edges", [before.into(), after.into()]).replace("<tr>", "<tr class=\"main\">"),
            part("among the words of the nodes that a call named", own),
            part("among all other edges", others),
            went("majorities with just one complemented input", [single(self.before), single(&self.after)]),
            fell("cells of inverters, 13 each", inverters),
            same("cells of majorities, 5 each", majority_cells),
            same("cells of XORs, 12 each", xor_cells),
            fell("all cells", inverters.map(|many| many + majority_cells + xor_cells))
                .replace("<tr>", "<tr class=\"main\">"),
            format!("<tr><th>rounds<td><td>{}<td>", grouped(rounds.into())),
            "</table>\n".into(),
        ]
        .join("\n")
    }

    /// A line a node that turned.
    fn lines(&self, turned: &[(u32, u8)]) -> String {
        let words = |graph: &Graph, node| {
            words_of(graph, node).map(|literal| literal.to_string()).collect::<Vec<_>>().join(" ")
        };
        let line = |&(node, number): &(u32, u8)| {
            let xor = is_xor(self.before, node);
            let (kind, what) = (if xor { "XOR" } else { "majority" }, turns(xor, number));
            let (before, after) = (words(self.before, node), words(&self.after, node));
            format!("<tr><td>{node}<td>{kind}<td>{number}<td class=\"text\">{what}<td>{before}<td>{after}\n")
        };
        let head = "<tr><th>node<th>kind<th>move<th>what the move turns<th>words before<th>words after\n";
        format!("<table class=\"turned\">\n{head}{}</table>\n", turned.iter().map(line).collect::<String>())
    }

    /// Many nodes that turned, by kind and move.
    fn lists(&self, turned: &[(u32, u8)]) -> String {
        let list = |(xor, number): (bool, u8)| {
            let of = |&&(node, own): &&(u32, u8)| (is_xor(self.before, node), own) == (xor, number);
            let nodes: Vec<u32> = turned.iter().filter(of).map(|&(node, _)| node).collect();
            let (kind, what) = (if xor { "XOR" } else { "majority" }, turns(xor, number));
            let many = grouped(nodes.len() as u64);
            format!("<p><strong>{kind}, move {number}: {what}; nodes: {many}</strong><br>{}</p>\n", runs(&nodes))
        };
        [(false, 1), (true, 1), (true, 2), (true, 3)].map(list).concat()
    }

    fn turned_section(&self) -> String {
        let turned = self.turned();
        let [some, all] = [turned.len(), self.moves.len()].map(|many| grouped(many as u64));
        let told = match turned.len() {
            0 => "<p>None.</p>\n".into(),
            1..=MOST_LINES => format!("{ONE_MOVE}{}", self.lines(&turned)),
            _ => format!("{ONE_MOVE}{}", self.lists(&turned)),
        };
        format!("<h2>Nodes that turned: {some} of {all}</h2>\n{told}")
    }

    fn locked_section(&self) -> String {
        let locked = locks::of(self.before);
        let [some, all] = [locked.len(), self.moves.len()].map(|many| grouped(many as u64));
        match locked.len() {
            0 => String::new(),
            _ => format!("<h2>Locked nodes: {some} of {all}</h2>\n<p>{}</p>\n", runs(&locked)),
        }
    }
}

/// The names of inputs and outputs, where there are any.
fn names_section(report: &Report) -> String {
    let row = |line: &str| {
        let (kind, rest) = line.split_once(' ').unwrap_or_default();
        let (number, name) = rest.split_once(' ').unwrap_or_default();
        format!("<tr><td>{kind}<td>{number}<td class=\"text\">{}\n", escaped(name))
    };
    let rows: String = names_of(report.before, report.names).lines().map(row).collect();
    match rows.is_empty() {
        true => String::new(),
        false => format!("<h2>Names</h2>\n<table class=\"turned\">\n{rows}</table>\n"),
    }
}

/// An SVG of Graphviz as a part of a page: without its head, and with names that no other picture has.
fn inlined(svg: &[u8], which: &str) -> String {
    let svg = String::from_utf8_lossy(svg).replace(" id=\"", &format!(" id=\"{which}_"));
    svg[svg.find("<svg").unwrap_or(0)..].trim_end().into()
}

/// Both pictures, or why there are none.
fn pictures(report: &Report, part: &Part) -> Result<String, String> {
    let texts = picture::both([report.before, &report.after], report.names, part)?;
    let made = thread::scope(|scope| {
        texts.map(|text| scope.spawn(|| graphviz::picture(text, Form::Svg))).map(|drawing| drawing.join())
    });
    let mut figures = String::new();
    for (svg, which) in made.into_iter().zip(["before", "after"]) {
        let svg = svg.map_err(|_| "Graphviz could not be asked".to_string())?.map_err(|failure| failure.to_string())?;
        figures += &format!("<figure>\n{}\n</figure>\n", inlined(&svg, which));
    }
    Ok(figures)
}

/// The pictures under their heading, and where there are none the line that says why.
fn picture_section(report: &Report, part: Result<Part, String>) -> (String, Option<String>) {
    let heading = "<h2>Before and after</h2>\n";
    match part.and_then(|part| pictures(report, &part)) {
        Ok(figures) => {
            let size = "<input type=\"checkbox\" id=\"size\"> <label for=\"size\">full size</label>\n";
            (format!("{heading}{LEGEND}{size}<div class=\"pictures\">\n{figures}</div>\n"), None)
        }
        Err(why) => {
            let none = format!("no pictures: {why}");
            (format!("{heading}<p class=\"none\">There are {}.</p>\n", escaped(&none)), Some(none))
        }
    }
}

fn page(report: &Report, pictures: &str) -> String {
    let name = escaped(&report.name);
    let head =
        format!("<meta charset=\"utf-8\">\n<title>{name}: complemented edges</title>\n<style>\n{STYLE}</style>\n");
    let top = format!("<h1>{name}</h1>\n<p class=\"summary\">{}</p>\n", report.summary());
    let sections = [report.turned_section(), report.locked_section(), names_section(report)].concat();
    let parts = [top, report.figures(), pictures.into(), sections].concat();
    format!("<!DOCTYPE html>\n<html lang=\"en\">\n<head>\n{head}</head>\n<body>\n{parts}</body>\n</html>\n")
}

/// Settles a graph and reports on it. A whole graph that is too large to draw has a page without pictures.
pub fn of(input: &Input, (graph, names): Named, wanted: Wanted) -> Result<Given, String> {
    let part = Part::of(graph, wanted);
    if let (Err(why), true) = (&part, wanted != Wanted::Whole) {
        return Err(format!("{}: {why}", input.name));
    }
    let mut after = graph.clone();
    let settled = after.settle().map_err(|refusal| refusal.to_string())?;
    let moves =
        turned::moves(graph, &after).map_err(|apart| format!("no moves lead to the settled graph: {apart:?}"))?;
    let drawn = part.as_ref().ok().and_then(|part| part.line());
    let report = Report { name: input.title(), before: graph, names, after, settled, moves };
    let (section, none) = picture_section(&report, part);
    let given = Given::of(page(&report, &section).into_bytes(), figures_of(graph, settled));
    Ok(given.told().saying(none.or(drawn)))
}

#[cfg(test)]
mod tests {
    use super::*;

    #[test]
    fn numbers() {
        let told = [0, 7, 999, 1_000, 65_536, 1_851_337].map(grouped);
        assert_eq!(told, ["0", "7", "999", "1,000", "65,536", "1,851,337"]);
        let fell = [(4, 4), (0, 0), (31, 8), (3, 1), (8, 7), (2_000, 0), (1_000, 999)]
            .map(|(x, y)| fall(x, y).replace(MINUS, "-"));
        assert_eq!(fell, ["0", "0", "-23 (-74 %)", "-2 (-67 %)", "-1 (-13 %)", "-2,000 (-100 %)", "-1 (-0 %)"]);
        assert_eq!(runs(&[]), "");
        assert_eq!(runs(&[4, 6, 7, 9, 10, 11]), "4, 6 to 7, 9 to 11");
    }

    #[test]
    fn signs_of_html() {
        assert_eq!(escaped("<a href=\"b\">&amp;"), "&lt;a href=&quot;b&quot;&gt;&amp;amp;");
        let svg =
            b"<?xml version=\"1.0\"?>\n<!DOCTYPE svg>\n<svg width=\"8pt\">\n<g id=\"node1\" class=\"node\"/>\n</svg>\n";
        assert_eq!(inlined(svg, "after"), "<svg width=\"8pt\">\n<g id=\"after_node1\" class=\"node\"/>\n</svg>");
    }
}
