//! The sheet of a class: as text, as CSV and as JSON.

use crate::figures::literal;
use reducer::Figures;

/// The forms beside plain text.
#[derive(Clone, Copy, Debug, PartialEq, Eq)]
pub enum SheetForm {
    Csv,
    Json,
    Html,
}

/// A file of the class.
pub struct Row {
    pub title: String,
    /// Its figures, or why it is refused.
    pub told: Result<Figures, String>,
    /// Where its own report stands, seen from the page.
    pub report: Option<String>,
}

pub struct Sheet {
    pub rows: Vec<Row>,
    pub all: Figures,
    pub latest: Figures,
}

impl Sheet {
    pub fn refused(&self) -> usize {
        self.rows.iter().filter(|row| row.told.is_err()).count()
    }

    /// How the sums are called, and what they are.
    pub fn sums(&self) -> [(String, Figures); 2] {
        [("all", self.all), ("latest", self.latest)].map(|(name, sum)| (format!("{name} {}", sum.graphs), sum))
    }
}

const COLUMNS: [&str; 6] = ["before", "after", "fall", "rounds", "cells", "after"];

fn numbers(figures: &Figures) -> [String; 6] {
    let Figures { before, after, rounds, cells_before, cells_after, fall, .. } = *figures;
    [
        before.to_string(),
        after.to_string(),
        fall.to_string(),
        rounds.to_string(),
        cells_before.to_string(),
        cells_after.to_string(),
    ]
}

/// How far the complemented edges fell, in tenths of a percent, rounded.
pub fn tenths(figures: &Figures) -> i64 {
    let Figures { fall, total_before, .. } = *figures;
    if total_before == 0 {
        0
    } else {
        (2_000 * fall + total_before) / (2 * total_before)
    }
}

/// So many tenths in decimal.
pub fn percent(tenths: i64) -> String {
    format!("{}.{} %", tenths / 10, tenths % 10)
}

/// A line a file, sums at the foot, and how many were refused.
pub fn plain(sheet: &Sheet) -> String {
    let sums = sheet.sums();
    let titles = sheet.rows.iter().map(|row| &row.title).chain(sums.iter().map(|(title, _)| title));
    let first = titles.map(|title| title.chars().count()).max().unwrap_or(0).max(4);
    // The sums over all have the largest numbers.
    let widest = numbers(&sheet.all).map(|number| number.len());
    let line = |title: &str, cells: [&str; 6]| {
        let padded = cells.iter().zip(COLUMNS).zip(widest).map(|((cell, column), wide)| {
            let wide = wide.max(column.len());
            format!("  {cell:>wide$}")
        });
        format!("{title:<first$}{}\n", padded.collect::<String>())
    };
    let figured = |title: &str, figures: &Figures| {
        let cells = numbers(figures);
        line(title, [&cells[0], &cells[1], &cells[2], &cells[3], &cells[4], &cells[5]])
    };
    let rows = sheet.rows.iter().map(|row| match &row.told {
        Ok(figures) => figured(&row.title, figures),
        Err(why) => format!("{:<first$}  {why}\n", row.title),
    });
    let rows: String = rows.collect();
    let [all, latest] = sums.map(|(title, figures)| figured(&title, &figures));
    let fell = format!("fell by {} of {}, {}", sheet.all.fall, sheet.all.total_before, percent(tenths(&sheet.all)));
    format!("{}{rows}{all}{latest}{fell}; refused {}\n", line("file", COLUMNS), sheet.refused())
}

/// A word of CSV, in quotes where it must be.
fn quoted(word: &str) -> String {
    match word.contains([',', '"', '\n', '\r']) {
        true => format!("\"{}\"", word.replace('"', "\"\"")),
        false => word.into(),
    }
}

/// A line a file, then one for the sums over all and one for those over the latest; the first column says which.
pub fn csv(sheet: &Sheet) -> String {
    let sum = |what: &str, figures: &Figures| format!("{what},,{},{},\n", figures.graphs, numbers(figures).join(","));
    let rows = sheet.rows.iter().map(|row| match &row.told {
        Ok(figures) => format!("file,{},1,{},\n", quoted(&row.title), numbers(figures).join(",")),
        Err(why) => format!("refused,{},0,,,,,,,{}\n", quoted(&row.title), quoted(why)),
    });
    let rows: String = rows.collect();
    let head = "row,file,graphs,before,after,fall,rounds,cells_before,cells_after,reason\n";
    format!("{head}{rows}{}{}", sum("all", &sheet.all), sum("latest", &sheet.latest))
}

fn members(figures: &Figures) -> String {
    let names = ["before", "after", "fall", "rounds", "cells_before", "cells_after"];
    let told = names.iter().zip(numbers(figures)).map(|(name, number)| format!("\"{name}\": {number}"));
    told.collect::<Vec<String>>().join(", ")
}

/// One object: the files, the sums over all and those over the latest.
pub fn json(sheet: &Sheet) -> String {
    let rows = sheet.rows.iter().map(|row| match &row.told {
        Ok(figures) => format!("    {{\"file\": {}, {}}}", literal(&row.title), members(figures)),
        Err(why) => format!("    {{\"file\": {}, \"refused\": {}}}", literal(&row.title), literal(why)),
    });
    let rows = rows.collect::<Vec<String>>().join(",\n");
    let sum = |figures: &Figures| format!("{{\"graphs\": {}, {}}}", figures.graphs, members(figures));
    format!(
        "{{\n  \"files\": [\n{rows}\n  ],\n  \"all\": {},\n  \"latest\": {},\n  \"refused\": {}\n}}\n",
        sum(&sheet.all),
        sum(&sheet.latest),
        sheet.refused()
    )
}

#[cfg(test)]
mod tests {
    use super::*;

    #[test]
    fn words() {
        assert_eq!(["a b", "a,b", "a\"b", ""].map(quoted), ["a b", "\"a,b\"", "\"a\"\"b\"", ""]);
        let fell = |fall, total_before| percent(tenths(&Figures { fall, total_before, ..Figures::default() }));
        assert_eq!(
            [fell(0, 0), fell(0, 3), fell(1, 3), fell(2, 3), fell(3, 3)],
            ["0.0 %", "0.0 %", "33.3 %", "66.7 %", "100.0 %"]
        );
    }
}
