//! ASCII AIGER texts, whole and damaged, for importing.

use crate::cases::{lengths_near, random_graph};
use crate::exports::packed;
use crate::lists::differ;
use crate::plain;
use crate::raw;
use crate::shrink::{hold, Shrink};
use crate::tables::filled;
use reference::graph::{Graph, Room};
use reference::packed::{pack, Lengths};
use reference::random::Random;
use reference::{aiger, entries};

/// A text, and how much is lent for it.
#[derive(Clone, Debug)]
pub struct TextCase {
    pub text: Vec<u8>,
    pub lengths: Lengths,
}

impl TextCase {
    fn with(&self, text: Vec<u8>) -> TextCase {
        TextCase { text, ..*self }
    }
}

impl Shrink for TextCase {
    fn smaller(&self) -> Vec<TextCase> {
        let mut all = Vec::new();
        let lines: Vec<&[u8]> = self.text.split_inclusive(|&byte| byte == b'\n').collect();
        for gone in 0..lines.len() {
            all.push(self.with([lines[..gone].concat(), lines[gone + 1..].concat()].concat()));
        }
        for at in 0..self.text.len() {
            all.push(self.with([&self.text[..at], &self.text[at + 1..]].concat()));
            if matches!(self.text[at], b'2'..=b'9') {
                let mut text = self.text.clone();
                text[at] -= 1;
                all.push(self.with(text));
            }
        }
        all
    }

    fn show(&self) -> String {
        let text = self.text.escape_ascii();
        format!("{:?}; the text \"{text}\"\n", self.lengths)
    }
}

/// A text in the making: its lines, each of words.
type Lines = Vec<Vec<String>>;

fn joined(lines: &Lines) -> Vec<u8> {
    lines.iter().flat_map(|words| (words.join(" ") + "\n").into_bytes()).collect()
}

/// A text of as many gates as the graph has nodes, each of a node's first two words; or the graph's export.
fn whole(random: &mut Random, g: &Graph) -> Lines {
    if random.one_in(4) {
        let text = aiger::text_of(g);
        return text.lines().map(|line| line.split(' ').map(String::from).collect()).collect();
    }
    let said = |numbers: &[u32]| numbers.iter().map(u32::to_string).collect::<Vec<String>>();
    let mut lines = vec![said(&[g.inputs + g.nodes, g.inputs, 0, g.outputs, g.nodes])];
    lines[0].insert(0, "aag".into());
    lines.extend((1..=g.inputs).map(|input| said(&[2 * input])));
    lines.extend((0..g.outputs as usize).map(|output| said(&[g.output_table[output]])));
    lines.extend(g.node_indices().map(|node| said(&[2 * node, g.word(node, 0), g.word(node, 1)])));
    lines
}

fn pick(random: &mut Random, many: usize) -> usize {
    random.below(many as u32) as usize
}

/// A number that is close to this one, to it modulo a power of 2, or to what 32 bits hold; or no number.
fn another(random: &mut Random, word: &str) -> String {
    let number: u128 = word.parse().unwrap_or(7);
    let near = match random.below(10) {
        0 => (1 << 32) - 1,
        1 => 1 << 32,
        2 => (1 << 32) + number,
        3 => (1 << 64) + number,
        4 => number + 1,
        5 => number + 2,
        6 => number.saturating_sub(1),
        7 => number.saturating_sub(2),
        8 => random.below(30).into(),
        _ => return ["", "00", "-1", "+1", "x", "1x", "0x1", "99999999999999999999999999"][pick(random, 8)].into(),
    };
    near.to_string()
}

/// I, O or A at, past or near its limit, and M with it.
fn limit(random: &mut Random, header: &mut [String]) {
    let (at, most) = [(2, 4_096), (4, 4_096), (5, 100_000)][pick(random, 3)];
    let number = [most, most + 1, u32::MAX, u32::MAX - 1, random.below(12)][pick(random, 5)];
    header[at] = number.to_string();
    let sum: u64 = [2, 5].iter().map(|&at| header[at].parse().unwrap_or(0)).sum();
    // In 32 bits at times: no M is I + A then.
    header[1] = if random.one_in(3) { (sum as u32).to_string() } else { sum.to_string() };
}

fn damage_lines(random: &mut Random, lines: &mut Lines) {
    let at = pick(random, lines.len());
    let place = pick(random, lines[at].len());
    match random.below(12) {
        0..=2 => lines[at][place] = another(random, &lines[at][place]),
        3 => lines[at][place].insert(0, '0'),
        4 if lines[at].len() > 1 => drop(lines[at].remove(place)),
        4 => lines[at][place].clear(),
        5 => lines[at].insert(place, random.below(9).to_string()),
        6 => {
            let other = pick(random, lines.len());
            lines.swap(at, other);
        }
        7 => drop(lines.remove(at)),
        8 => lines.insert(at, lines[at].clone()),
        9 if lines[0].len() == 6 => limit(random, &mut lines[0]),
        10 if lines[0].len() == 6 => lines[0][3] = random.between(1, 3).to_string(),
        11 => lines[0][0] = ["aig", "AAG", "aagx", "aa", "", "aag aag"][pick(random, 6)].into(),
        _ => {}
    }
}

fn damage_bytes(random: &mut Random, text: &mut Vec<u8>) {
    if text.is_empty() {
        return;
    }
    let at = pick(random, text.len());
    match random.below(8) {
        0 => text.truncate(at),
        1 => text[at] = random.below(256) as u8,
        2 => text.insert(at, b" \n\r\t0a9"[pick(random, 7)]),
        3 => drop(text.remove(at)),
        4 => text.extend(b"c\nby a tool\0\xff".iter().take(pick(random, 13))),
        5 => drop(text.pop()),
        6 => *text = text.iter().flat_map(|&byte| if byte == b'\n' { vec![b'\r', byte] } else { vec![byte] }).collect(),
        _ => {
            let part = text[at..].to_vec();
            text.extend(part);
        }
    }
}

/// A text, mostly damaged once or twice, and slices of which one may be a word or a byte too short for it.
pub fn random_text(seed: u64) -> TextCase {
    let mut random = Random::new(seed);
    let g = random_graph(&mut random, 5, 5, 4);
    let mut lines = whole(&mut random, &g);
    let gates = lines.len() - 1 - (g.inputs + g.outputs) as usize;
    for _ in 0..random.below(3) {
        if !lines.is_empty() {
            damage_lines(&mut random, &mut lines);
        }
    }
    let mut text = joined(&lines);
    if random.one_in(3) {
        damage_bytes(&mut random, &mut text);
    }
    TextCase { text, lengths: lengths_near(&mut random, gates, g.outputs as usize, 30) }
}

/// Tables that are too large are not shown.
fn same<T: PartialEq + std::fmt::Debug>(what: &str, got: &T, due: &T) -> Result<(), String> {
    differ(what, got, due).map_err(|wrong| if wrong.len() > 10_000 { format!("{what}: not those due") } else { wrong })
}

/// Importing, into lent tables and locks, over bits that are all set, and into owned ones.
pub fn check_text(case: &TextCase) -> Result<(), String> {
    let mut due = raw::unfilled(case.lengths);
    let mut got = due.clone();
    let mut plainly = due.clone();
    let answer = entries::import(&case.text, &mut due);
    same("importing", &raw::import(&case.text, &mut got)?, &answer)?;
    same("the tables and locks", &got, &due)?;
    same("plain: importing", &plain::aiger::import(&case.text, filled(&mut plainly)), &answer)?;
    (plainly.inputs, plainly.nodes, plainly.outputs) = (due.inputs, due.nodes, due.outputs);
    same("plain: the tables and locks", &plainly, &due)?;
    check_owned(&case.text)
}

/// The owned graph of the Rust crate: it finds the room by itself, so that 4 is never met.
fn check_owned(text: &[u8]) -> Result<(), String> {
    let got = reducer::Graph::import(text).map(packed);
    let most = usize::MAX;
    let due = aiger::parse(text, Room { node_words: most, output_words: most, lock_bytes: most });
    same("an owned graph", &got.map_err(reducer::Refusal::number), &due.map(|g| pack(&g)))
}

/// Every cut of a text, every byte changed to each of a few values, left out, or one put before it.
pub fn check_every_byte(seed: u64) -> Result<u64, String> {
    let mut random = Random::new(seed);
    let g = random_graph(&mut random, 3, 2, 2);
    let mut text = joined(&whole(&mut random, &g));
    text.extend(b"c\nend\n");
    let lengths = Lengths { node_words: 3 * 8 + 2, ..Lengths::of(9, g.outputs as usize + 2) };
    let mut done = 0;
    let mut check = |parts: [&[u8]; 3]| {
        done += 1;
        hold(seed, TextCase { text: parts.concat(), lengths }, &check_text)
    };
    for at in 0..text.len() {
        let (before, after) = text.split_at(at);
        check([before, &[], &[]])?;
        check([before, &[], &after[1..]])?;
        for byte in *b" \n\r\t01259a\0\xff" {
            check([before, &[byte], &after[1..]])?;
            check([before, &[byte], after])?;
        }
    }
    Ok(done)
}
