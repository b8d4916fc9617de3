//! Classes: graphs entered one after another, with figures worked out afresh after each; and records from anywhere.

use std::sync::atomic::{AtomicU64, Ordering};

use crate::cases::{lent, random_graph};
use crate::exports::{owned, packed};
use crate::lists::differ;
use crate::plain;
use crate::raw;
use crate::tables::{tables, view};
use reference::class::{afresh, latest, row_of, Figures, Row, TOO_LARGE, WORDS};
use reference::entries;
use reference::graph::Graph;
use reference::packed::{unpack, Packed};
use reference::random::Random;
use reference::settling::Settled;
use reference::vectors::samples::damaged;

/// Graphs entered, graphs refused, and those refused for a full record.
static MET: [AtomicU64; 3] = [const { AtomicU64::new(0) }; 3];

/// Whether each was met.
pub fn all_met() -> Result<(), String> {
    let [entered, refused, full] = MET.each_ref().map(|count| count.load(Ordering::Relaxed));
    println!("graphs entered into classes: {entered}; refused: {refused}; after the thousandth: {full}");
    match [entered, refused, full].contains(&0) {
        true => Err("FAILED: no graph was entered into a class, or none was refused, or no class was full".into()),
        false => Ok(()),
    }
}

fn note(at: usize) {
    MET[at].fetch_add(1, Ordering::Relaxed);
}

/// What the plain implementation tells, as the crate `reference` has it.
pub fn plainly((told, improvement): plain::class::Figures) -> Figures {
    let [count, sums @ ..] = told;
    Figures { count, sums, improvement }
}

/// Both figures of a record by all implementations: what they are.
fn read(book: &[u64]) -> Result<[Result<Figures, u32>; 2], String> {
    let mut both = [Err(0); 2];
    for (at, latest) in [(0, 0), (1, 1)] {
        both[at] = raw::class_figures(book, latest)?;
        differ(&format!("the figures, latest {latest}"), &both[at], &reference::class::class_figures(book, at == 1))?;
        differ("plain: the figures", &plain::class::figures(book, at == 1).map(plainly), &both[at])?;
    }
    // Any other number is for the latest too.
    differ("the figures, latest 4,294,967,295", &raw::class_figures(book, u32::MAX)?, &both[1])?;
    Ok(both)
}

/// One call by the C interface and in plain Rust, held to the reference: what it answers.
fn enter(g: &mut Packed, scratch: usize, book: &mut [u64]) -> Result<Result<Settled, u32>, String> {
    let (mut due, mut due_book) = (g.clone(), book.to_vec());
    let (mut plain, mut plain_book) = (g.clone(), book.to_vec());
    let answer = raw::class(g, scratch, book)?;
    differ("a graph entered", &answer, &entries::class(&mut due, scratch, &mut due_book))?;
    differ("the graph entered", g, &due)?;
    differ("the record", book, &due_book[..])?;
    let told = plain::class::class(&mut tables(&mut plain), scratch, &mut plain_book).map(|settled| {
        let reducer::Settled { rounds, before, after, own, others } = settled;
        Settled { rounds, before, after, own, others }
    });
    differ("plain: a graph entered", &told, &answer)?;
    differ("plain: the graph entered", &plain, &due)?;
    differ("plain: the record", &plain_book, &due_book)?;
    Ok(answer)
}

/// A graph for a class, at times one that is refused.
fn handed(random: &mut Random, most_nodes: u32) -> (Packed, usize) {
    let g = random_graph(random, 4, most_nodes, 3);
    let g = if random.one_in(8) { damaged(random, g) } else { g };
    let scratch = (8 * g.nodes as usize).saturating_sub(random.one_in(8) as usize);
    (lent(&g, random.word() >> 32), scratch)
}

/// The same graphs entered by the Rust crate, whose scratch is as long as it must be.
fn check_owned(class: &mut reducer::Class, g: &Packed, due: (&Packed, &[u64])) -> Result<(), String> {
    let mut got = owned(g);
    let done = class.enter(&mut got);
    differ("an owned class enters a graph", &done.is_ok(), &true)?;
    differ("the graph that an owned class entered", &packed(got), due.0)?;
    differ("the record of an owned class", &class.words[..], due.1)
}

/// A class of so many graphs handed to it, from an empty record with words behind it: how many calls.
pub fn check_class(seed: u64) -> Result<u64, String> {
    let mut random = Random::new(seed);
    let (many, most_nodes) = if seed < 3 { (1_250, 2) } else { (random.between(1, 60), 6) };
    let mut book = vec![0; WORDS];
    book.extend((0..random.below(3)).map(|_| random.word()));
    let (tail, mut rows, mut class) = (book[WORDS..].to_vec(), Vec::<Row>::new(), reducer::Class::new());
    for _ in 0..many {
        let (mut g, scratch) = handed(&mut random, most_nodes);
        let before = g.clone();
        match enter(&mut g, scratch, &mut book)? {
            Ok(settled) => {
                rows.push(row_of(&unpack(&before), &unpack(&g), settled));
                check_owned(&mut class, &before, (&g, &book[..WORDS]))?;
                note(0);
            }
            Err(number) => {
                differ("3 after the thousandth, before all else", &(number == 3), &(rows.len() == 1_000))?;
                note(if rows.len() == 1_000 { 2 } else { 1 });
            }
        }
        let due = [Ok(afresh(&rows)), Ok(afresh(latest(&rows)))];
        differ("the figures worked out afresh", &read(&book)?, &due)?;
    }
    differ("what stands behind the record", &book[WORDS..], &tail[..])?;
    Ok(u64::from(many))
}

/// A word of a record that nobody should trust: mostly a small one.
fn any_word(random: &mut Random, wild: u32) -> u64 {
    if !random.one_in(wild) {
        return u64::from(random.below(1_002));
    }
    match random.below(5) {
        0 => TOO_LARGE - 1,
        1 => TOO_LARGE,
        2 => u64::MAX - u64::from(random.below(3)),
        3 => 1 << random.between(30, 63),
        _ => random.word() >> random.below(64),
    }
}

/// A record of any words and of any length near its own: read, entered into, and read again.
pub fn check_anywhere(seed: u64) -> Result<u64, String> {
    let mut random = Random::new(seed);
    let wild = [1, 20, 100, 1_000][random.below(4) as usize];
    let length = match random.below(4) {
        0 => random.below(90) as usize,
        _ => WORDS + random.below(3) as usize,
    };
    let mut book: Vec<u64> = (0..length).map(|_| any_word(&mut random, wild)).collect();
    for _ in 0..3 {
        let _ = read(&book)?;
        let (mut g, scratch) = handed(&mut random, 3);
        let _ = enter(&mut g, scratch, &mut book)?;
    }
    read(&book).map(|_| 3)
}

/// Large graphs, against the plain implementation.
pub fn check_large(graphs: &[Graph], seed: u64) -> Result<u64, String> {
    let (mut book, mut plain_book) = (vec![0; WORDS], vec![0; WORDS]);
    for (at, g) in graphs.iter().enumerate() {
        let (mut got, mut due) = (lent(g, seed + at as u64 + 1), lent(g, seed + at as u64 + 1));
        let scratch = 8 * g.nodes as usize;
        let before = plain::complemented(&view(&got));
        let told = raw::class(&mut got, scratch, &mut book)?.map(|settled| (settled.before, settled.after));
        let plain = plain::class::class(&mut tables(&mut due), scratch, &mut plain_book);
        differ("a large graph entered", &told, &plain.map(|settled| (settled.before, settled.after)))?;
        differ("C before", &told.map(|both| both.0), &Ok(before))?;
        differ("the record", &book, &plain_book)?;
        if got != due {
            return Err("the large graph entered differs".into());
        }
    }
    let due = plain::class::figures(&book, false).map(plainly);
    differ("the figures of large graphs", &raw::class_figures(&book, 0)?, &due)?;
    Ok(graphs.len() as u64)
}
