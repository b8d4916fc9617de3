//! Replays, held to the same calls made one by one by the other implementation.

use crate::cases::random_graph;
use crate::files::{damaged_file, FileCase};
use crate::hidden::{random_buried, random_majority};
use crate::lists::{differ, random_call};
use crate::raw;
use crate::shrink::Shrink;
use reference::calls::Call;
use reference::packed::Lengths;
use reference::random::Random;
use reference::replay::Words;
use reference::{entries, file};

/// A file, the words of a list of calls, the nodes and moves of its many calls, and how many words of scratch and of answers are lent.
#[derive(Clone, Debug)]
pub struct ReplayCase {
    pub file: FileCase,
    pub words: Vec<u32>,
    pub list: Vec<u32>,
    pub moves: Vec<u8>,
    pub scratch: usize,
    pub answers: usize,
}

impl Shrink for ReplayCase {
    fn smaller(&self) -> Vec<ReplayCase> {
        let mut all = Vec::new();
        for size in [3, 1] {
            for at in (0..self.words.len()).step_by(size) {
                let end = (at + size).min(self.words.len());
                all.push(ReplayCase { words: [&self.words[..at], &self.words[end..]].concat(), ..self.clone() });
            }
        }
        for end in 0..self.list.len() {
            all.push(ReplayCase { list: self.list[..end].to_vec(), ..self.clone() });
        }
        for end in 0..self.moves.len() {
            all.push(ReplayCase { moves: self.moves[..end].to_vec(), ..self.clone() });
        }
        all.extend(self.file.smaller().into_iter().map(|file| ReplayCase { file, ..self.clone() }));
        all
    }

    fn show(&self) -> String {
        let file = self.file.show();
        let ReplayCase { words, list, moves, scratch, answers, .. } = self;
        format!(
            "{file}calls {words:?}, list {list:?}, moves {moves:?}; {scratch} words of scratch, {answers} of answers\n"
        )
    }
}

impl ReplayCase {
    fn words(&self) -> Words<'_> {
        Words { calls: &self.words, list: &self.list, moves: &self.moves }
    }

    /// The words of a call; the entries of many moves are put behind the list.
    fn put(&mut self, random: &mut Random, call: Call) {
        // What a kind does not want is anything.
        let mut any = || random.below(9);
        let words = match call {
            Call::Node(node) => [0, node, any()],
            Call::Pair(node, word) => [1, node, word],
            Call::Tree(root) => [2, root, any()],
            Call::Settle => [3, any(), any()],
            Call::Majority { node, three } => {
                let start = self.list.len();
                self.list.extend(three);
                self.moves.extend([0; 3]);
                [5, node, start as u32]
            }
            Call::Find => [6, any(), any()],
            Call::Resistive(root) => [7, root, any()],
            Call::Many { list, mut moves } => {
                let start = self.list.len();
                moves.resize(list.len(), 0);
                self.list.extend(&list);
                self.moves.extend(moves);
                [4, start as u32, list.len() as u32]
            }
        };
        self.words.extend(words);
    }

    /// Another part of the list for one of the calls, within it or past its end, or a triple near its end.
    fn part(&mut self, random: &mut Random, outside: bool) {
        let length = self.list.len() as u32;
        let start = random.below(length + 1);
        let inside = [4, start, random.below(length - start + 1)];
        let past = [
            [4, start, length - start + 1],
            [4, length + 1, 0],
            [4, 1, u32::MAX],
            [4, u32::MAX, start],
            [4, u32::MAX, u32::MAX],
            [4, random.below(1 << 20), length + 1],
        ];
        let triple = [5, random.below(12), length.saturating_sub(random.below(5))];
        let part = match random.below(4) {
            0 => triple,
            _ if outside => past[random.below(6) as usize],
            _ => inside,
        };
        let call = 3 * random.below(self.words.len() as u32 / 3) as usize;
        self.words[call..call + 3].copy_from_slice(&part);
    }
}

/// Mostly a whole file and a list that can be made; else a damaged one, words left over, a kind that is none, a part that is outside, or
/// too few words lent.
pub fn random_replay(seed: u64) -> ReplayCase {
    let mut random = Random::new(seed);
    let g = match random.below(3) {
        0 => random_buried(&mut random, 9),
        _ => random_graph(&mut random, 6, 7, 4),
    };
    let file = if random.one_in(4) {
        damaged_file(&mut random, &g)
    } else {
        FileCase { bytes: file::file_of(&g), lengths: Lengths::of(g.nodes as usize + 1, g.outputs as usize) }
    };
    // Enough for trees and settling, or a word too little.
    let needed = 8 * g.nodes as usize;
    let scratch = if random.one_in(6) { needed.saturating_sub(1) } else { needed + random.below(3) as usize };
    let mut case = ReplayCase { file, words: vec![], list: vec![], moves: vec![], scratch, answers: 0 };
    let count = random.below(9);
    for _ in 0..count {
        let call = match random.below(8) {
            0 => random_majority(&mut random, &g),
            1 => Call::Find,
            _ => random_call(&mut random, &g),
        };
        case.put(&mut random, call);
    }
    case.answers = 3 * count as usize + random.below(4) as usize;
    damage(&mut random, &mut case, count);
    case
}

fn damage(random: &mut Random, case: &mut ReplayCase, count: u32) {
    if count > 0 && random.one_in(4) {
        case.part(random, false);
    }
    match random.below(8) {
        0 => case.moves.truncate(random.below(case.moves.len() as u32 + 1) as usize),
        1 => case.moves.push(random.below(256) as u8),
        _ => {}
    }
    for _ in 0..2 {
        match random.below(24) {
            0 => case.words.extend((0..random.between(1, 2)).map(|_| 0)),
            1 if count > 0 => case.words[3 * random.below(count) as usize] = random.between(8, 10),
            2 if count > 0 => case.words[3 * random.below(count) as usize] = u32::MAX,
            3 if count > 0 => case.answers = random.below(3 * count) as usize,
            4 => case.answers = 0,
            5 if count > 0 => case.part(random, true),
            _ => {}
        }
    }
}

/// What is answered, and every slice, held to the calls made one by one.
pub fn check_replay(case: &ReplayCase) -> Result<(), String> {
    let (mut due, mut answers) = (raw::unfilled(case.file.lengths), vec![-0xcafe_0004; case.answers]);
    let (mut got, mut told) = (due.clone(), answers.clone());
    let answer = raw::replay(&case.file.bytes, case.words(), &mut got, case.scratch, &mut told)?;
    let one_by_one = entries::replay(&case.file.bytes, case.words(), &mut due, case.scratch, &mut answers);
    differ("the replay", &answer, &one_by_one)?;
    differ("the tables and locks after the replay", &got, &due)?;
    differ("the answers of the replay", &told, &answers)
}
