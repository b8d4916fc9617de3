//! The page of a class: its sheet with a bar a file.

use crate::class_sheet::{percent, tenths, Row, Sheet};
use crate::parts::count;
use crate::report::{escaped, grouped, MINUS, STYLE};
use reducer::Figures;

const CLASS_STYLE: &str = include_str!("class.css");
const HEAD: &str = "<tr><th>file<th>before<th>after<th>fall<th>rounds<th>cells before<th>cells after\
                    <th class=\"bars\">complemented edges before and after\n";
const NOTE: &str = "<p>Cells are 13 an inverter, 5 a majority and 12 an XOR. The latest are the last 16 files that were accepted, or all \
                    while they are fewer.</p>\n";

/// A path as the address of a link: every byte that may not stand there by its number.
fn address(path: &str) -> String {
    let sign = |byte: u8| match byte {
        b'a'..=b'z' | b'A'..=b'Z' | b'0'..=b'9' | b'-' | b'.' | b'_' | b'/' => char::from(byte).to_string(),
        _ => format!("%{byte:02X}"),
    };
    // With a dot before it no name is taken for a protocol.
    format!("./{}", path.bytes().map(sign).collect::<String>())
}

fn fall(figures: &Figures) -> String {
    match figures.fall {
        0 => "0".into(),
        fall => format!("{MINUS}{} ({MINUS}{})", grouped(fall.unsigned_abs()), percent(tenths(figures))),
    }
}

fn cells(figures: &Figures) -> String {
    let Figures { before, after, rounds, cells_before, cells_after, .. } = *figures;
    let [before, after, rounds, cells_before, cells_after] =
        [before, after, rounds, cells_before, cells_after].map(grouped);
    format!("<td>{before}<td>{after}<td>{}<td>{rounds}<td>{cells_before}<td>{cells_after}", fall(figures))
}

/// Two bars, as long as the complemented edges are many; the longest of all has so many.
fn bars(figures: &Figures, longest: u64) -> String {
    let bar = |which: &str, many: u64| {
        let [whole, part] = [100 * many / longest.max(1), 1_000 * many / longest.max(1) % 10];
        format!("<div class=\"{which}\" style=\"width: {whole}.{part}%\"></div>")
    };
    format!("<td class=\"bars\">{}{}", bar("was", figures.before), bar("is", figures.after))
}

fn row(row: &Row, longest: u64) -> String {
    let title = escaped(&row.title);
    let name = match &row.report {
        Some(path) => format!("<a href=\"{}\">{title}</a>", address(path)),
        None => title,
    };
    match &row.told {
        Ok(figures) => format!("<tr><th>{name}{}{}\n", cells(figures), bars(figures, longest)),
        Err(why) => format!("<tr class=\"refused\"><th>{name}<td colspan=\"7\">{}\n", escaped(why)),
    }
}

fn summary(sheet: &Sheet) -> String {
    let Figures { graphs, before, after, .. } = sheet.all;
    let refused = match sheet.refused() {
        0 => String::new(),
        many => format!(" Refused: {}.", grouped(many as u64)),
    };
    let edges = format!("{} complemented edges to {}", grouped(before), grouped(after));
    format!(
        "Settling took {} from {edges}, {} fewer.{refused}",
        count(graphs as usize, "graph"),
        percent(tenths(&sheet.all))
    )
}

pub fn of(sheet: &Sheet) -> String {
    let figures = |row: &Row| row.told.as_ref().map_or(0, |figures| figures.before);
    let longest = sheet.rows.iter().map(figures).max().unwrap_or(0);
    let rows: String = sheet.rows.iter().map(|one| row(one, longest)).collect();
    let sum = |(title, figures): (String, Figures)| {
        format!("<tr class=\"main\"><th>{title}{}<td class=\"bars\">\n", cells(&figures))
    };
    let sums = sheet.sums().map(sum).concat();
    let style = format!("{STYLE}{CLASS_STYLE}");
    let head =
        format!("<meta charset=\"utf-8\">\n<title>A class: complemented edges</title>\n<style>\n{style}</style>\n");
    let legend = "<p class=\"legend\"><span><span class=\"was\"></span> before</span> <span><span class=\"is\"></span> after</span></p>\n";
    let table = format!("<table class=\"figures class\">\n{HEAD}{rows}{sums}</table>\n");
    let top = format!("<h1>A class</h1>\n<p class=\"summary\">{}</p>\n{legend}", summary(sheet));
    format!("<!DOCTYPE html>\n<html lang=\"en\">\n<head>\n{head}</head>\n<body>\n{top}{table}{NOTE}</body>\n</html>\n")
}

#[cfg(test)]
mod tests {
    use super::*;

    #[test]
    fn addresses() {
        assert_eq!(address("ann/graph-1.mig.html"), "./ann/graph-1.mig.html");
        assert_eq!(address("a b#c?.html"), "./a%20b%23c%3F.html");
        assert_eq!(address("javascript:\u{e9}"), "./javascript%3A%C3%A9");
    }
}
