//! A class: graphs settled one after another, and their figures as the library's record tells them.

use std::collections::{HashMap, HashSet};
use std::fs;
use std::path::{Component, Path, PathBuf};

use crate::class_page;
use crate::class_sheet::{self, Row, Sheet, SheetForm};
use crate::files::{self, Input};
use crate::formats::{self, Format, Loaded};
use crate::parts::Wanted;
use crate::progress::Progress;
use crate::report;
use crate::words::Work;
use reducer::{Class, Figures, Refusal, MOST_GRAPHS};

/// A file that was handed in; none is standard input.
struct Handed {
    path: Option<PathBuf>,
    /// What it is called in the sheet: the end of its path that no other has.
    title: String,
}

/// The files of a folder and of the folders in it, by name. Passed over are hidden ones, links to folders, which may lead in a circle, and
/// the folder that is written to.
fn files_in(path: &Path, output: Option<&Path>, found: &mut Vec<PathBuf>) -> Result<(), String> {
    let cannot = |error| format!("cannot read the folder {}: {error}", path.display());
    let entries: Result<Vec<PathBuf>, _> =
        fs::read_dir(path).map_err(cannot)?.map(|entry| entry.map(|entry| entry.path())).collect();
    let mut entries = entries.map_err(cannot)?;
    entries.sort();
    let hidden = |path: &Path| path.file_name().is_some_and(|name| name.as_encoded_bytes().starts_with(b"."));
    let beside = |path: &Path| path.extension().is_some_and(|end| end == "names") && path.with_extension("").is_file();
    for entry in entries.into_iter().filter(|entry| !hidden(entry) && !beside(entry)) {
        if entry.is_file() {
            found.push(entry);
        } else if entry.is_dir() && !entry.is_symlink() && fs::canonicalize(&entry).ok().as_deref() != output {
            files_in(&entry, output, found)?;
        }
    }
    Ok(())
}

/// The last so many names of a path, those of parent folders being left out.
fn end_of(path: &Path, many: usize) -> String {
    let names: Vec<String> = path
        .components()
        .filter_map(|part| match part {
            Component::Normal(name) => Some(name.to_string_lossy().into_owned()),
            _ => None,
        })
        .collect();
    names[names.len().saturating_sub(many)..].join("/")
}

/// The ends of paths, as long as they must be to tell the paths apart.
fn titles(paths: &[PathBuf]) -> Vec<String> {
    let longest = paths.iter().map(|path| path.components().count()).max().unwrap_or(1);
    let ends = |many| paths.iter().map(|path| end_of(path, many)).collect::<Vec<String>>();
    let apart = |titles: &[String]| {
        let mut of = HashMap::new();
        titles.iter().zip(paths).all(|(title, path)| *of.entry(title.clone()).or_insert(path) == path)
    };
    (1..longest).map(ends).find(|titles| apart(titles)).unwrap_or_else(|| ends(longest))
}

/// The files of the words, in their order.
fn handed(words: &[Option<PathBuf>], output: Option<&Path>) -> Result<Vec<Handed>, String> {
    let output = output.and_then(|folder| fs::canonicalize(folder).ok());
    let mut found = Vec::new();
    for word in words {
        match word {
            Some(path) if path.is_dir() => files_in(path, output.as_deref(), &mut found)?,
            Some(path) => found.push(path.clone()),
            None => found.push(PathBuf::from("standard input")),
        }
    }
    let standard = |path: PathBuf| (path != Path::new("standard input") || !words.contains(&None)).then_some(path);
    let titles = titles(&found);
    Ok(found.into_iter().map(standard).zip(titles).map(|(path, title)| Handed { path, title }).collect())
}

/// Where what is made of a file is written.
struct Target {
    settled: PathBuf,
    report: PathBuf,
}

fn target(folder: &Path, title: &str) -> Target {
    Target { settled: folder.join(title), report: folder.join(format!("{title}.html")) }
}

/// That nothing is written twice to a place, and nothing over a file that was handed in.
fn places_are_free(folder: &Path, handed: &[Handed]) -> Result<(), String> {
    let known = |path: &PathBuf| fs::canonicalize(path).ok();
    let own: HashSet<PathBuf> = handed.iter().filter_map(|file| file.path.as_ref().and_then(known)).collect();
    let mut of: HashMap<PathBuf, &str> = HashMap::from([(folder.join(PAGE), "the page")]);
    for file in handed {
        let Target { settled, report } = target(folder, &file.title);
        for place in [settled, report] {
            if known(&place).is_some_and(|place| own.contains(&place)) {
                return Err(format!("{} would be replaced: -o wants another folder", place.display()));
            }
            if let Some(other) = of.insert(place, &file.title).filter(|other| *other != file.title) {
                return Err(format!(
                    "{other} and {} would be written to the same place in {}",
                    file.title,
                    folder.display()
                ));
            }
        }
    }
    Ok(())
}

/// The page of a class in its folder.
const PAGE: &str = "index.html";

fn write(place: &Path, bytes: &[u8]) -> Result<(), String> {
    let folder = place.parent().unwrap_or(Path::new("."));
    fs::create_dir_all(folder).map_err(|error| format!("cannot make the folder {}: {error}", folder.display()))?;
    files::write(Some(place), bytes)
}

/// By what the figures rose when a graph was entered.
fn rise(before: Figures, after: Figures) -> Figures {
    Figures {
        graphs: after.graphs - before.graphs,
        before: after.before - before.before,
        after: after.after - before.after,
        rounds: after.rounds - before.rounds,
        cells_before: after.cells_before - before.cells_before,
        cells_after: after.cells_after - before.cells_after,
        fall: after.fall - before.fall,
        total_before: after.total_before - before.total_before,
    }
}

fn told(refusal: Refusal) -> String {
    refusal.to_string()
}

/// Why a file is refused, without its name and in one line.
fn reason(why: String, name: &str) -> String {
    let rest = why.strip_prefix(name).map_or(&why[..], |rest| rest.trim_start_matches([':', ',', ' ']));
    rest.lines().next().unwrap_or_default().into()
}

/// A file that was settled: what was read, the settled graph as bytes, its names beside it, and what is said of reading and of writing.
struct Entered {
    input: Input,
    settled: Vec<u8>,
    beside: Option<String>,
    read: Vec<String>,
    written: Vec<String>,
}

/// Settles a file and enters it.
fn enter(class: &mut Class, file: &Handed) -> Result<Entered, String> {
    let input = files::read(file.path.as_deref())?;
    let Loaded { mut graph, names, lines: read, .. } =
        formats::graph_of(&input).map_err(|why| reason(why, &input.name))?;
    class.enter(&mut graph).map_err(|refusal| match class.all() {
        Ok(all) if all.graphs == MOST_GRAPHS => {
            format!("refused 3: a class has {MOST_GRAPHS} graphs, and this is one more")
        }
        _ => told(refusal),
    })?;
    let path = Path::new(&file.title);
    let format = Format::of_ending(path).unwrap_or(Format::Tagged);
    let (settled, written) = formats::bytes_of(&graph, &names, format, Some(path))?;
    let beside = formats::beside(&names, format, &settled);
    let written = written.into_iter().map(|line| format!("{}: {line}", file.title)).collect();
    Ok(Entered { input, settled, beside, read, written })
}

/// A file's row. What cannot be written ends the work; what cannot be read or settled is told in the row.
fn row(class: &mut Class, file: &Handed, asked: &Work, lines: &mut Vec<String>) -> Result<Row, String> {
    let before = class.all().map_err(told)?;
    let Entered { input, settled, beside, read, written } = match enter(class, file) {
        Ok(entered) => entered,
        Err(why) => return Ok(Row { title: file.title.clone(), told: Err(why), report: None }),
    };
    lines.extend(read);
    let mut link = None;
    if let Some(folder) = &asked.output {
        lines.extend(written);
        let Target { settled: place, report: page } = target(folder, &file.title);
        write(&place, &settled)?;
        files::write_beside(Some(&place), beside.as_deref())?;
        if asked.sheet == Some(SheetForm::Html) {
            let Loaded { graph, names, .. } = formats::graph_of(&input)?;
            write(&page, &report::of(&input, (&graph, &names), Wanted::Whole)?.bytes)?;
            link = Some(format!("{}.html", file.title));
        }
    }
    let told = Ok(rise(before, class.all().map_err(told)?));
    Ok(Row { title: file.title.clone(), told, report: link })
}

/// Gives the sheet in the form that is asked for. A page goes to its folder where there is one, and then the plain sheet is given.
fn give(sheet: &Sheet, asked: &Work) -> Result<(), String> {
    let text = match (asked.sheet, &asked.output) {
        (Some(SheetForm::Html), Some(folder)) => {
            write(&folder.join(PAGE), class_page::of(sheet).as_bytes())?;
            class_sheet::plain(sheet)
        }
        (Some(SheetForm::Html), None) => class_page::of(sheet),
        (Some(SheetForm::Csv), _) => class_sheet::csv(sheet),
        (Some(SheetForm::Json), _) => class_sheet::json(sheet),
        (None, _) => class_sheet::plain(sheet),
    };
    files::write(None, text.as_bytes())
}

/// Settles the files of a class and gives their sheet; whether all were accepted.
pub fn work(asked: &Work) -> Result<bool, String> {
    let handed = handed(&asked.files, asked.output.as_deref())?;
    if let Some(folder) = &asked.output {
        places_are_free(folder, &handed)?;
    }
    let working = Progress::of("settling files".into());
    let (mut class, mut rows, mut lines) = (Class::new(), Vec::new(), Vec::new());
    for (at, file) in handed.iter().enumerate() {
        working.reached(at + 1, handed.len());
        rows.push(row(&mut class, file, asked, &mut lines)?);
    }
    drop(working);
    lines.iter().filter(|_| !asked.quiet).for_each(|line| crate::say(line));
    let sheet = Sheet { rows, all: class.all().map_err(told)?, latest: class.latest().map_err(told)? };
    give(&sheet, asked)?;
    Ok(sheet.refused() == 0)
}

#[cfg(test)]
mod tests {
    use super::*;

    #[test]
    fn ends_of_paths() {
        let told = |paths: &[&str]| titles(&paths.iter().map(PathBuf::from).collect::<Vec<_>>()).join(" ");
        assert_eq!(told(&[]), "");
        assert_eq!(told(&["a", "b/c", "/d/e/f"]), "a c f");
        assert_eq!(told(&["x/ann/graph", "x/bob/graph"]), "ann/graph bob/graph");
        assert_eq!(told(&["x/ann/graph", "y/ann/graph", "z"]), "x/ann/graph y/ann/graph z");
        assert_eq!(told(&["a/g", "a/g"]), "g g");
        assert_eq!(told(&["../a/g", "a/g"]), "a/g a/g");
    }

    #[test]
    fn reasons() {
        assert_eq!(reason("a b: refused 5: why".into(), "a b"), "refused 5: why");
        assert_eq!(reason("a, line 3: refused 10: why".into(), "a"), "line 3: refused 10: why");
        assert_eq!(reason("a is AIGER in the binary format:\n    do so".into(), "a"), "is AIGER in the binary format:");
        assert_eq!(reason("cannot read a: no".into(), "a"), "cannot read a: no");
    }
}
