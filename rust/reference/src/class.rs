//! Figures for a class: graphs settled one after another. Worked out afresh they are sums over a list of rows; the record holds as much of
//! that list as the two sums want.

use crate::graph::{Graph, Number};
use crate::settling::Settled;

/// The words of a record: a count, five totals, and the rows of the latest sixteen graphs, the newest first.
pub const WORDS: usize = 86;
pub const MOST_GRAPHS: u64 = 1_000;
/// The least figure that no record may hold.
pub const TOO_LARGE: u64 = 1 << 40;
pub const LATEST: usize = 16;

/// C before and after settling, its rounds, and cells before and after.
pub type Row = [u64; 5];

/// 13 an inverter, 5 a majority, 12 an XOR.
pub fn cells(g: &Graph) -> u64 {
    let of_node = |node| if g.is_xor(node) { 12 } else { 5 };
    13 * u64::from(g.c()) + g.node_indices().map(of_node).sum::<u64>()
}

pub fn row_of(before: &Graph, after: &Graph, settled: Settled) -> Row {
    [
        before.c().into(),
        after.c().into(),
        settled.rounds.into(),
        cells(before),
        cells(after),
    ]
}

#[derive(Clone, Copy, Debug, PartialEq, Eq)]
pub struct Figures {
    pub count: u64,
    pub sums: Row,
    /// The fall of C, and the total before.
    pub improvement: [i64; 2],
}

fn figures(count: u64, rows: &[Row]) -> Figures {
    let sums = [0, 1, 2, 3, 4].map(|k| rows.iter().map(|row| row[k]).sum::<u64>());
    let [before, after] = [sums[0], sums[1]].map(|c| i64::try_from(c).expect("a small sum"));
    Figures {
        count,
        sums,
        improvement: [before - after, before],
    }
}

/// The figures of these graphs.
pub fn afresh(rows: &[Row]) -> Figures {
    figures(rows.len() as u64, rows)
}

/// The latest of rows that stand in the order of their graphs; all, while they are fewer than sixteen.
pub fn latest(rows: &[Row]) -> &[Row] {
    &rows[rows.len().saturating_sub(LATEST)..]
}

/// What the words of a record say.
struct Record {
    count: u64,
    totals: Row,
    /// The newest first.
    rows: Vec<Row>,
}

fn row_at(words: &[u64]) -> Row {
    words.try_into().expect("five words")
}

fn read(book: &[u64]) -> Record {
    Record {
        count: book[0],
        totals: row_at(&book[1..6]),
        rows: book[6..WORDS].chunks(5).map(row_at).collect(),
    }
}

/// 3 for a record that counts so many graphs or more, or holds a figure that is too large; one that is too short is looked at as far
/// as it goes.
pub fn check_record(book: &[u64], full: u64) -> Result<(), Number> {
    let words = &book[..book.len().min(WORDS)];
    let counts = words.first().is_some_and(|&count| count >= full);
    if counts || words.iter().any(|&figure| figure >= TOO_LARGE) {
        return Err(3);
    }
    Ok(())
}

/// One more row entered. What stands behind the record is left.
pub fn enter(book: &mut [u64], row: Row) {
    let mut record = read(book);
    record.rows.insert(0, row);
    record.rows.truncate(LATEST);
    book[0] = record.count + 1;
    for (k, total) in record.totals.iter().enumerate() {
        book[1 + k] = total + row[k];
    }
    book[6..WORDS].copy_from_slice(&record.rows.concat());
}

/// The figures that a record holds, of all graphs or of the latest; 3, then 4.
pub fn class_figures(book: &[u64], latest: bool) -> Result<Figures, Number> {
    check_record(book, MOST_GRAPHS + 1)?;
    if book.len() < WORDS {
        return Err(4);
    }
    let Record {
        count,
        totals,
        rows,
    } = read(book);
    Ok(if latest {
        figures(count.min(LATEST as u64), &rows)
    } else {
        figures(count, &[totals])
    })
}
