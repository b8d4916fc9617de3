//! The words of the command line.

use std::ffi::{OsStr, OsString};
use std::os::unix::ffi::OsStrExt;
use std::path::PathBuf;

use crate::class_sheet::SheetForm;
use crate::formats::Format;
use crate::graphviz::Form;
use crate::help;
use crate::locks::{self, Named};
use crate::near;
use crate::parts::Wanted;

#[derive(Clone, Copy, Debug, PartialEq, Eq)]
pub enum Command {
    Settle,
    Find,
    Resistive,
    Import,
    Export,
    Lock,
    Unlock,
    Show,
    Preview,
    Apply,
    Sheets,
    Compare,
    Equal,
    Assign,
    Join,
    Picture,
    Report,
    Class,
}

impl Command {
    const ALL: [Command; 18] = [
        Command::Settle,
        Command::Find,
        Command::Resistive,
        Command::Import,
        Command::Export,
        Command::Lock,
        Command::Unlock,
        Command::Show,
        Command::Preview,
        Command::Apply,
        Command::Sheets,
        Command::Compare,
        Command::Equal,
        Command::Assign,
        Command::Join,
        Command::Picture,
        Command::Report,
        Command::Class,
    ];

    fn named(name: &str) -> Option<Command> {
        Command::ALL.into_iter().find(|command| command.name() == name)
    }

    pub fn name(self) -> &'static str {
        match self {
            Command::Settle => "settle",
            Command::Find => "find",
            Command::Resistive => "resistive",
            Command::Import => "import",
            Command::Export => "export",
            Command::Lock => "lock",
            Command::Unlock => "unlock",
            Command::Show => "show",
            Command::Preview => "preview",
            Command::Apply => "apply",
            Command::Sheets => "sheets",
            Command::Compare => "compare",
            Command::Equal => "equal",
            Command::Assign => "assign",
            Command::Join => "join",
            Command::Picture => "picture",
            Command::Report => "report",
            Command::Class => "class",
        }
    }

    /// What it is at while it works.
    pub fn doing(self) -> &'static str {
        match self {
            Command::Settle => "settling",
            Command::Find => "finding majorities in",
            Command::Resistive => "choosing moves on",
            Command::Import => "importing",
            Command::Export => "exporting",
            Command::Lock => "locking nodes of",
            Command::Unlock => "freeing nodes of",
            Command::Show => "looking at",
            Command::Preview => "previewing",
            Command::Apply => "making moves on",
            Command::Sheets => "reading moves on",
            Command::Compare => "comparing",
            Command::Equal => "trying assignments of",
            Command::Assign => "looking for assignments of",
            Command::Join => "joining",
            Command::Picture => "drawing",
            Command::Report => "reporting on",
            Command::Class => "settling",
        }
    }

    fn sets_locks(self) -> bool {
        matches!(self, Command::Lock | Command::Unlock)
    }

    /// Whether the format of the graph that it gives can be asked for.
    pub fn takes_format(self) -> bool {
        let gives_one = matches!(self, Command::Settle | Command::Find | Command::Resistive | Command::Apply);
        gives_one || self.sets_locks() || matches!(self, Command::Join | Command::Export)
    }

    /// The exit status where it fails: of what answers by 0 and 1 another.
    pub fn failed(self) -> u8 {
        match self {
            Command::Sheets | Command::Compare | Command::Equal | Command::Assign => 2,
            _ => 1,
        }
    }

    /// Whether it takes the root of a tree after FILE.
    fn takes_root(self) -> bool {
        matches!(self, Command::Preview | Command::Resistive)
    }
}

/// A command with its files; none is standard input or standard output.
#[derive(Debug, PartialEq, Eq)]
pub struct Work {
    pub command: Command,
    pub input: Option<PathBuf>,
    pub output: Option<PathBuf>,
    /// Whether standard output is named, by `-o -`: then it is written to whatever it is.
    pub to_standard: bool,
    /// Whether the figures are given as JSON.
    pub json: bool,
    /// Whether nothing is said beside what is given, but for what goes wrong.
    pub quiet: bool,
    /// The format that is given; none is that of the ending of the output's name.
    pub to: Option<Format>,
    /// Whether names are left out of what is given.
    pub no_symbols: bool,
    /// Whether hidden majorities are found before settling.
    pub find: bool,
    /// Which nodes are locked or freed.
    pub nodes: Vec<Named>,
    /// Whose tree is previewed, or has its moves chosen; none is a list of the roots, or all of them.
    pub root: Option<u32>,
    /// Whether all roots are taken, or all assignments told.
    pub all: bool,
    /// Whether abc is asked too.
    pub abc: bool,
    /// Whether a preview gives its moves alone.
    pub only_moves: bool,
    /// Whether the roots of a preview are listed by falling saving.
    pub by_saving: bool,
    /// Where the moves to make, or those of a sheet, are listed; none is standard input.
    pub moves: Option<PathBuf>,
    /// The sheet beside it, if one is named.
    pub other: Option<Option<PathBuf>>,
    /// What is drawn.
    pub wanted: Wanted,
    /// What Graphviz makes of a picture; none is DOT text.
    pub form: Option<Form>,
    /// Whether two graphs are drawn.
    pub compare: bool,
    /// The second of two graphs; none is standard input.
    pub after: Option<PathBuf>,
    /// What is wanted of the outputs.
    pub pattern: Vec<String>,
    /// The files and folders of a class, or the stages after the first; none among them is standard input.
    pub files: Vec<Option<PathBuf>>,
    /// The form of a class's sheet; none is plain text.
    pub sheet: Option<SheetForm>,
}

impl Work {
    fn of(command: Command) -> Work {
        Work {
            command,
            input: None,
            output: None,
            to_standard: false,
            json: false,
            quiet: false,
            to: None,
            no_symbols: false,
            find: false,
            nodes: Vec::new(),
            root: None,
            all: false,
            abc: false,
            only_moves: false,
            by_saving: false,
            moves: None,
            other: None,
            wanted: Wanted::Whole,
            form: None,
            compare: false,
            after: None,
            pattern: Vec::new(),
            files: Vec::new(),
            sheet: None,
        }
    }
}

#[derive(Debug, PartialEq, Eq)]
pub enum Asked {
    Help(String),
    Work(Work),
}

/// The file that a word names, unless it is `-`.
fn file(word: OsString) -> Option<PathBuf> {
    (word != "-").then(|| word.into())
}

/// The help of the command that is named, or of the program where none is.
fn help_named(mut words: impl Iterator<Item = OsString>) -> Result<Asked, String> {
    let text = match words.next() {
        None => help::program(),
        Some(word) if ["help", "--help", "-h"].iter().any(|own| word == *own) => help::program(),
        Some(word) => {
            let name = word.to_string_lossy();
            help::of(Command::named(&name).ok_or_else(|| no_command(&name))?)
        }
    };
    match words.next() {
        None => Ok(Asked::Help(text)),
        Some(word) => {
            Err(format!("{} is one word too many; `panjerov help COMMAND` tells more of one", word.to_string_lossy()))
        }
    }
}

fn no_command(name: &str) -> String {
    let meant = near::meant(name, Command::ALL.iter().map(|command| command.name()));
    format!("there is no command {name}{meant}; `panjerov --help` tells them")
}

fn no_option(command: Command, option: &str) -> String {
    let told = help::of(command);
    format!("there is no option {option}{}", near::meant(option, help::options(&told)))
}

/// What `--version` tells.
fn version() -> String {
    format!("panjerov {}\n", env!("CARGO_PKG_VERSION"))
}

/// What is asked for, or what is wrong with the words.
pub fn asked(mut words: impl Iterator<Item = OsString>) -> Result<Asked, String> {
    let Some(first) = words.next() else {
        return Err("a command is missing; `panjerov --help` tells them".into());
    };
    let name = first.to_string_lossy();
    match &name[..] {
        "--help" | "-h" => return Ok(Asked::Help(help::program())),
        "--version" | "-V" => return Ok(Asked::Help(version())),
        "help" => return help_named(words),
        _ => {}
    }
    match Command::named(&name) {
        Some(command) => asked_of(command, words).map_err(|why| {
            let name = command.name();
            format!("{why}; `panjerov {name} --help` tells what {name} takes")
        }),
        None => Err(no_command(&name)),
    }
}

fn format_named(word: Option<OsString>) -> Result<Format, String> {
    let format = word.as_ref().and_then(|word| word.to_str()).and_then(Format::named);
    format.ok_or_else(|| "--to wants tagged, aiger, aig, verilog, dot, svg or png after it".into())
}

/// Puts a value where none is yet.
fn put<T>(place: &mut Option<T>, value: T, what: &str) -> Result<(), String> {
    match place.replace(value) {
        None => Ok(()),
        Some(_) => Err(format!("{what} is given twice")),
    }
}

fn number_named(word: &str, what: &str) -> Result<u32, String> {
    let digits = word.bytes().all(|byte| byte.is_ascii_digit());
    match word.parse() {
        Ok(number) if digits => Ok(number),
        _ => Err(format!("{what}, a number below 2 to the 32nd, and not {word}")),
    }
}

fn root_named(word: &str) -> Result<u32, String> {
    number_named(word, "ROOT is the index of a node")
}

/// Puts NODES, which are all words after FILE.
fn put_nodes(work: &mut Work, words: impl Iterator<Item = OsString>) -> Result<(), String> {
    for word in words {
        work.nodes.extend(locks::named(&word.to_string_lossy())?);
    }
    if work.nodes.is_empty() {
        return Err(locks::missing());
    }
    Ok(())
}

/// Puts MOVES, the one word after FILE.
fn put_moves(work: &mut Work, mut words: impl Iterator<Item = OsString>) -> Result<(), String> {
    let word =
        words.next().ok_or("MOVES is missing after FILE: a file with a line for each node, its index and its move")?;
    work.moves = file(word);
    if work.input.is_none() && work.moves.is_none() {
        return Err("only one of FILE and MOVES can be standard input".into());
    }
    no_more(words)
}

/// Puts SHEET and, if there is one, OTHER, after FILE.
fn put_sheets(work: &mut Work, mut words: impl Iterator<Item = OsString>) -> Result<(), String> {
    let sheet = words.next().ok_or("SHEET is missing after FILE: a file with lines of a node's index and its move")?;
    work.moves = file(sheet);
    work.other = words.next().map(file);
    let none = [work.input.is_none(), work.moves.is_none(), work.other == Some(None)];
    if none.into_iter().filter(|&none| none).count() > 1 {
        return Err("only one of FILE, SHEET and OTHER can be standard input".into());
    }
    no_more(words)
}

/// Puts PATTERN, which is all words after FILE.
fn put_pattern(work: &mut Work, words: impl Iterator<Item = OsString>) -> Result<(), String> {
    work.pattern = words.map(|word| word.to_string_lossy().into_owned()).collect();
    match work.pattern.is_empty() {
        true => Err("PATTERN is missing after FILE: 0, 1 or x for each output, or parts such as 3=1".into()),
        false => Ok(()),
    }
}

/// Puts the second of two graphs, the one word after the first.
fn put_after(work: &mut Work, mut words: impl Iterator<Item = OsString>) -> Result<(), String> {
    let name = if work.compare { "--compare" } else { work.command.name() };
    let both = if work.command == Command::Equal { "FIRST and SECOND" } else { "BEFORE and AFTER" };
    let word = words.next().ok_or_else(|| format!("{name} wants {both}"))?;
    work.after = file(word);
    if work.input.is_none() && work.after.is_none() {
        return Err(format!("only one of {both} can be standard input"));
    }
    no_more(words)
}

/// That no word is left.
fn no_more(mut words: impl Iterator<Item = OsString>) -> Result<(), String> {
    words.next().map_or(Ok(()), |word| Err(format!("{} is one word too many", word.to_string_lossy())))
}

/// That either one root is named or all are.
fn one_or_all(work: &Work) -> Result<(), String> {
    match (work.root, work.all) {
        (None, false) => Err("ROOT or --all is missing after FILE; `panjerov preview FILE` tells the roots".into()),
        (Some(root), true) => Err(format!("--all takes every root, and so cannot stand with {root}")),
        _ => Ok(()),
    }
}

/// That what a command gives can hold locks.
fn holds_locks(work: &Work) -> Result<(), String> {
    let name = work.command.name();
    let other = |format: &Format| *format != Format::Tagged;
    if let Some(format) = work.to.filter(other) {
        return Err(format!("{} cannot hold locks: {name} gives a tagged file", format.told()));
    }
    let ending = |path: &PathBuf| {
        Format::of_ending(path).filter(other).map(|format| (path.display().to_string(), format.told()))
    };
    match work.output.as_ref().and_then(ending) {
        Some((path, form)) => Err(format!(
            "{path} has the ending of {form}, which cannot hold locks: {name} gives a tagged file, so give it another name"
        )),
        None => Ok(()),
    }
}

/// Puts the stages after the first, which are all words after it.
fn put_stages(work: &mut Work, words: impl Iterator<Item = OsString>) -> Result<(), String> {
    work.files = words.map(file).collect();
    if work.files.is_empty() {
        return Err("join wants FIRST and SECOND".into());
    }
    match work.files.iter().chain([&work.input]).filter(|file| file.is_none()).count() {
        0 | 1 => Ok(()),
        _ => Err("only one stage can be standard input".into()),
    }
}

/// Puts the files and folders of a class, which are all words.
fn put_files(work: &mut Work, words: Vec<OsString>) -> Result<(), String> {
    if words.is_empty() {
        return Err("FILE is missing: files of graphs, or folders of them".into());
    }
    work.files = words.into_iter().map(file).collect();
    match work.files.iter().filter(|file| file.is_none()).count() {
        0 | 1 => Ok(()),
        _ => Err("only one FILE can be standard input".into()),
    }
}

/// Puts the words that are no options: FILE, and after it NODES, MOVES or the ROOT of a preview; or BEFORE and AFTER.
fn put_plain(work: &mut Work, plain: Vec<OsString>) -> Result<(), String> {
    if work.command == Command::Class {
        return put_files(work, plain);
    }
    let mut plain = plain.into_iter();
    work.input = plain.next().and_then(file);
    if work.command.sets_locks() {
        return put_nodes(work, plain);
    }
    match work.command {
        Command::Apply => return put_moves(work, plain),
        Command::Sheets => return put_sheets(work, plain),
        Command::Compare | Command::Equal => return put_after(work, plain),
        Command::Assign => return put_pattern(work, plain),
        Command::Join => return put_stages(work, plain),
        _ if work.compare => return put_after(work, plain),
        _ => {}
    }
    match plain.next() {
        Some(word) if work.command.takes_root() => work.root = Some(root_named(&word.to_string_lossy())?),
        Some(_) => return Err("FILE is given twice".into()),
        None => {}
    }
    no_more(plain)
}

/// Puts an option of what draws, with the word after it if it takes one.
fn put_drawing(work: &mut Work, option: &str, next: impl FnOnce() -> Option<OsString>) -> Result<(), String> {
    let number = |what: &str| {
        let word = next().ok_or(format!("{option} wants a number after it"))?;
        number_named(&word.to_string_lossy(), what)
    };
    let picture = work.command == Command::Picture;
    let wanted = match option {
        "--compare" if picture => {
            work.compare = true;
            return Ok(());
        }
        "--svg" if picture => return put(&mut work.form, Form::Svg, "what Graphviz makes"),
        "--png" if picture => return put(&mut work.form, Form::Png, "what Graphviz makes"),
        "--output" => Wanted::Output(number("--output wants which output is drawn (-o names a file)")?),
        "--root" => Wanted::Root(number("--root wants the index of a node")?),
        _ => return Err(no_option(work.command, option)),
    };
    match std::mem::replace(&mut work.wanted, wanted) {
        Wanted::Whole => Ok(()),
        _ => Err("what is drawn is given twice".into()),
    }
}

/// The words of a command line after its command.
struct Words<I> {
    rest: I,
    /// What is joined to an option, as FILE is in `-oFILE` and FORM in `--to=FORM`.
    joined: Option<OsString>,
}

impl<I: Iterator<Item = OsString>> Words<I> {
    /// What an option takes: what is joined to it, or the next word.
    fn value(&mut self) -> Option<OsString> {
        self.joined.take().or_else(|| self.rest.next())
    }

    /// The name of an option; what is joined to it is kept.
    fn option(&mut self, word: &OsStr) -> String {
        let bytes = word.as_bytes();
        let end = match bytes {
            [b'-', b'o', _, ..] => 2,
            [b'-', b'-', ..] => bytes.iter().position(|&byte| byte == b'=').unwrap_or(bytes.len()),
            _ => bytes.len(),
        };
        let rest = &bytes[end..];
        let value = if bytes.starts_with(b"--") { rest.strip_prefix(b"=") } else { Some(rest) };
        self.joined = value.filter(|_| !rest.is_empty()).map(|value| OsStr::from_bytes(value).into());
        OsStr::from_bytes(&bytes[..end]).to_string_lossy().into_owned()
    }
}

/// The order of a preview's roots.
fn sorted_by(word: Option<OsString>) -> Result<bool, String> {
    match word.as_ref().and_then(|word| word.to_str()) {
        Some("saving") => Ok(true),
        Some("index") => Ok(false),
        _ => Err("--sort wants saving or index after it".into()),
    }
}

fn sheet_named(option: &str) -> SheetForm {
    match option {
        "--csv" => SheetForm::Csv,
        "--json" => SheetForm::Json,
        _ => SheetForm::Html,
    }
}

/// Puts an option, with what it takes.
fn put_option(work: &mut Work, option: &str, words: &mut Words<impl Iterator<Item = OsString>>) -> Result<(), String> {
    let command = work.command;
    match option {
        "--csv" | "--json" | "--html" if command == Command::Class => {
            put(&mut work.sheet, sheet_named(option), "the form of the sheet")?
        }
        "--quiet" | "-q" => work.quiet = true,
        "--to" if command.takes_format() => put(&mut work.to, format_named(words.value())?, "--to")?,
        "--no-symbols" if command.takes_format() || command == Command::Import => work.no_symbols = true,
        "--all" if matches!(command, Command::Resistive | Command::Assign) => work.all = true,
        "--abc" if command == Command::Equal => work.abc = true,
        "--moves" if command == Command::Preview => work.only_moves = true,
        "--sort" if command == Command::Preview => work.by_saving = sorted_by(words.value())?,
        "--find" if command == Command::Settle => work.find = true,
        "--json" => work.json = true,
        _ if matches!(command, Command::Picture | Command::Report) => put_drawing(work, option, || words.value())?,
        _ => return Err(no_option(command, option)),
    }
    match words.joined.take() {
        None => Ok(()),
        Some(_) => Err(format!("{option} takes nothing, and so no =")),
    }
}

/// Where what is given goes.
fn put_output(work: &mut Work, output: Option<OsString>) -> Result<(), String> {
    work.to_standard = output.as_ref().is_some_and(|word| word == "-");
    work.output = output.and_then(file);
    match work.to_standard && work.json {
        true => Err("with --json standard output has the figures, and so -o wants a file".into()),
        false => Ok(()),
    }
}

fn asked_of(command: Command, words: impl Iterator<Item = OsString>) -> Result<Asked, String> {
    let mut work = Work::of(command);
    let (mut plain, mut output, mut only_files) = (Vec::new(), None, false);
    let mut words = Words { rest: words, joined: None };
    while let Some(word) = words.rest.next() {
        if only_files || word == "-" || !word.as_bytes().starts_with(b"-") {
            plain.push(word);
            continue;
        }
        match &words.option(&word)[..] {
            "--help" | "-h" => return Ok(Asked::Help(help::of(command))),
            "-o" => put(&mut output, words.value().ok_or("-o wants a file after it")?, "-o")?,
            "--" => only_files = true,
            option => put_option(&mut work, option, &mut words)?,
        }
    }
    put_plain(&mut work, plain)?;
    put_output(&mut work, output)?;
    fits(&work)?;
    Ok(Asked::Work(work))
}

/// That the words of a command fit each other.
fn fits(work: &Work) -> Result<(), String> {
    if work.only_moves && work.root.is_none() {
        return Err("--moves wants FILE and ROOT".into());
    }
    if work.by_saving && work.root.is_some() {
        return Err("--sort is for the list of all roots, and so cannot stand with ROOT".into());
    }
    match work.command {
        Command::Lock | Command::Unlock => holds_locks(work),
        Command::Resistive => one_or_all(work),
        _ => Ok(()),
    }
}

#[cfg(test)]
mod tests {
    use super::*;

    fn of(words: &[&str]) -> Result<Asked, String> {
        asked(words.iter().map(OsString::from))
    }

    fn work(command: Command, input: Option<&str>, output: Option<&str>, to: Option<Format>) -> Result<Asked, String> {
        let (input, output) = (input.map(PathBuf::from), output.map(PathBuf::from));
        Ok(Asked::Work(Work { input, output, to, ..Work::of(command) }))
    }

    fn preview(
        input: Option<&str>,
        output: Option<&str>,
        root: Option<u32>,
        only_moves: bool,
    ) -> Result<Asked, String> {
        let (input, output) = (input.map(PathBuf::from), output.map(PathBuf::from));
        Ok(Asked::Work(Work { input, output, root, only_moves, ..Work::of(Command::Preview) }))
    }

    #[test]
    fn files_and_options_in_any_order() {
        assert_eq!(of(&["show"]), work(Command::Show, None, None, None));
        assert_eq!(of(&["show", "-"]), work(Command::Show, None, None, None));
        assert_eq!(of(&["import", "a", "-o", "b"]), work(Command::Import, Some("a"), Some("b"), None));
        assert_eq!(of(&["export", "-o", "b", "a"]), work(Command::Export, Some("a"), Some("b"), None));
        let standard = Work { input: Some("a".into()), to_standard: true, ..Work::of(Command::Export) };
        assert_eq!(of(&["export", "-o", "-", "a"]), Ok(Asked::Work(standard)));
        assert_eq!(of(&["show", "--", "-o"]), work(Command::Show, Some("-o"), None, None));
        let settled = work(Command::Settle, Some("a"), None, Some(Format::Aiger));
        assert_eq!(of(&["settle", "--to", "aiger", "a"]), settled);
    }

    #[test]
    fn values_that_are_joined() {
        for (joined, apart) in [
            (&["settle", "a", "-ob"][..], &["settle", "a", "-o", "b"][..]),
            (&["settle", "a", "-o="], &["settle", "a", "-o", "="]),
            (&["settle", "a", "-o-"], &["settle", "a", "-o", "-"]),
            (&["settle", "--to=aiger", "a"], &["settle", "--to", "aiger", "a"]),
            (&["picture", "a", "--output=3", "--svg"], &["picture", "a", "--output", "3", "--svg"]),
            (&["report", "a", "--root=7"], &["report", "a", "--root", "7"]),
            (&["preview", "a", "--sort=saving"], &["preview", "a", "--sort", "saving"]),
            (&["show", "--", "-ob", "--to=x"], &["show", "--", "-ob", "--to=x"]),
        ] {
            assert_eq!(of(joined), of(apart), "{joined:?}");
        }
        assert_eq!(of(&["settle", "a", "-ob"]), work(Command::Settle, Some("a"), Some("b"), None));
        let takes_none = |option: &str| {
            let why = format!("{option} takes nothing, and so no =");
            Err(format!("{why}; `panjerov settle --help` tells what settle takes"))
        };
        assert_eq!(of(&["settle", "a", "--find=1"]), takes_none("--find"));
        assert_eq!(of(&["settle", "a", "--quiet="]), takes_none("--quiet"));
    }

    #[test]
    fn what_every_command_takes() {
        for command in Command::ALL.into_iter().filter(|&command| command != Command::Class) {
            let words = match command {
                Command::Settle | Command::Find | Command::Import | Command::Export => &["a"][..],
                Command::Show | Command::Picture | Command::Report => &["a"],
                _ => &["a", "7"],
            };
            let told = |options: &[&str]| match of(&[&[command.name()], words, options].concat()) {
                Ok(Asked::Work(work)) => Ok((work.json, work.quiet)),
                other => Err(format!("{other:?}")),
            };
            assert_eq!(told(&[]), Ok((false, false)));
            assert_eq!(told(&["--json"]), Ok((true, false)));
            assert_eq!(told(&["--quiet"]), Ok((false, true)));
            assert_eq!(told(&["-q", "--json"]), Ok((true, true)));
            assert!(told(&["--json", "-o", "-"]).is_err());
        }
    }

    #[test]
    fn words_that_are_misspelt() {
        let told = |name: &str| format!("there is no command {name}; `panjerov --help` tells them");
        assert_eq!(of(&["setle"]), Err(told("setle (did you mean settle?)")));
        assert_eq!(of(&["help", "setle"]), of(&["setle"]));
        assert_eq!(of(&["grind"]), Err(told("grind")));
        let tells = "`panjerov settle --help` tells what settle takes";
        let option = |name: &str| Err(format!("there is no option {name}; {tells}"));
        assert_eq!(of(&["settle", "a", "--fnd"]), option("--fnd (did you mean --find?)"));
        assert_eq!(of(&["settle", "a", "--jsno=1"]), option("--jsno (did you mean --json?)"));
        assert_eq!(of(&["settle", "a", "--verbose"]), option("--verbose"));
    }

    #[test]
    fn forms() {
        let of_name = |name: &str| Format::of_ending(&PathBuf::from(name));
        for (ending, word, format) in [
            ("aag", "aiger", Format::Aiger),
            ("aig", "aig", Format::BinaryAiger),
            ("mig", "tagged", Format::Tagged),
            ("v", "verilog", Format::Verilog),
            ("dot", "dot", Format::Dot),
            ("svg", "svg", Format::Svg),
            ("png", "png", Format::Png),
        ] {
            assert_eq!(
                (of_name(&format!("x.{ending}")), of_name(&format!("x.y.{}", ending.to_uppercase()))),
                (Some(format), Some(format))
            );
            assert_eq!(of(&["settle", "a", "--to", word]), work(Command::Settle, Some("a"), None, Some(format)));
            assert_eq!(of(&["export", "a", "--to", ending]), work(Command::Export, Some("a"), None, Some(format)));
        }
        assert_eq!((of_name("aag"), of_name(".aag"), of_name("x.aag/y"), of_name("x.")), (None, None, None, None));
        let bare = Work { input: Some("a".into()), no_symbols: true, ..Work::of(Command::Export) };
        assert_eq!(of(&["export", "--no-symbols", "a"]), Ok(Asked::Work(bare)));
    }

    #[test]
    fn what_is_found() {
        assert_eq!(of(&["find", "a", "-o", "b"]), work(Command::Find, Some("a"), Some("b"), None));
        let text = work(Command::Find, Some("a"), Some("b.aag"), Some(Format::Aiger));
        assert_eq!(of(&["find", "--to", "aiger", "a", "-o", "b.aag"]), text);
        let settled = Work { input: Some("a".into()), find: true, ..Work::of(Command::Settle) };
        assert_eq!(of(&["settle", "a", "--find"]), Ok(Asked::Work(settled)));
    }

    #[test]
    fn a_root_or_all() {
        let chosen = |input: Option<&str>, root, all, to| {
            Ok(Asked::Work(Work { input: input.map(PathBuf::from), root, all, to, ..Work::of(Command::Resistive) }))
        };
        assert_eq!(of(&["resistive", "a", "7"]), chosen(Some("a"), Some(7), false, None));
        assert_eq!(of(&["resistive", "-", "7", "--to", "tagged"]), chosen(None, Some(7), false, Some(Format::Tagged)));
        assert_eq!(of(&["resistive", "--all", "a"]), chosen(Some("a"), None, true, None));
        assert_eq!(of(&["resistive", "--all"]), chosen(None, None, true, None));
    }

    #[test]
    fn a_file_and_a_root() {
        assert_eq!(of(&["preview"]), preview(None, None, None, false));
        assert_eq!(of(&["preview", "7"]), preview(Some("7"), None, None, false));
        assert_eq!(of(&["preview", "a", "7"]), preview(Some("a"), None, Some(7), false));
        assert_eq!(of(&["preview", "-", "007", "--moves"]), preview(None, None, Some(7), true));
        assert_eq!(of(&["preview", "--moves", "a", "-o", "b", "0"]), preview(Some("a"), Some("b"), Some(0), true));
        assert_eq!(of(&["preview", "--", "-a", "4294967295"]), preview(Some("-a"), None, Some(u32::MAX), false));
    }

    #[test]
    fn files_and_nodes() {
        let set = |command, input: Option<&str>, output: Option<&str>, nodes: &[Named]| {
            let (input, output) = (input.map(PathBuf::from), output.map(PathBuf::from));
            Ok(Asked::Work(Work { input, output, nodes: nodes.to_vec(), ..Work::of(command) }))
        };
        let run = |first, last| Named::Run(first, last);
        assert_eq!(of(&["lock", "a", "7"]), set(Command::Lock, Some("a"), None, &[run(7, 7)]));
        let both = [run(7, 7), run(9, 12), run(14, 14)];
        assert_eq!(of(&["lock", "a", "7,9-12", "14", "-o", "b"]), set(Command::Lock, Some("a"), Some("b"), &both));
        assert_eq!(of(&["unlock", "-o", "b", "-", "7,", "9-12,14"]), set(Command::Unlock, None, Some("b"), &both));
        assert_eq!(of(&["unlock", "all", "all"]), set(Command::Unlock, Some("all"), None, &[Named::All]));
        let tagged = Work {
            input: Some("a".into()),
            to: Some(Format::Tagged),
            nodes: vec![run(7, 7)],
            ..Work::of(Command::Lock)
        };
        assert_eq!(of(&["lock", "a", "7", "--to", "tagged"]), Ok(Asked::Work(tagged)));
    }

    #[test]
    fn a_file_and_moves() {
        let apply = |input: Option<&str>, moves: Option<&str>, output: Option<&str>, to| {
            let [input, moves, output] = [input, moves, output].map(|name| name.map(PathBuf::from));
            Ok(Asked::Work(Work { input, moves, output, to, ..Work::of(Command::Apply) }))
        };
        assert_eq!(of(&["apply", "a", "b"]), apply(Some("a"), Some("b"), None, None));
        assert_eq!(of(&["apply", "a", "-", "-o", "c"]), apply(Some("a"), None, Some("c"), None));
        assert_eq!(of(&["apply", "-o", "a", "-", "b"]), apply(None, Some("b"), Some("a"), None));
        let tagged = apply(Some("a"), Some("-b"), None, Some(Format::Tagged));
        assert_eq!(of(&["apply", "--to", "tagged", "--", "a", "-b"]), tagged);
    }

    #[test]
    fn what_is_drawn() {
        let picture = |input: Option<&str>, output: Option<&str>, wanted, form| {
            let (input, output) = (input.map(PathBuf::from), output.map(PathBuf::from));
            Ok(Asked::Work(Work { input, output, wanted, form, ..Work::of(Command::Picture) }))
        };
        assert_eq!(of(&["picture"]), picture(None, None, Wanted::Whole, None));
        assert_eq!(of(&["picture", "a", "--svg"]), picture(Some("a"), None, Wanted::Whole, Some(Form::Svg)));
        let output = picture(Some("a"), Some("b"), Wanted::Output(3), Some(Form::Png));
        assert_eq!(of(&["picture", "--output", "3", "--png", "a", "-o", "b"]), output);
        assert_eq!(of(&["picture", "a", "--root", "7"]), picture(Some("a"), None, Wanted::Root(7), None));
        let reported = Work { input: Some("a".into()), wanted: Wanted::Output(2), ..Work::of(Command::Report) };
        assert_eq!(of(&["report", "a", "--output", "2"]), Ok(Asked::Work(reported)));
    }

    #[test]
    fn a_class_of_files() {
        let class = |files: &[Option<&str>], output: Option<&str>, sheet| {
            let files = files.iter().map(|file| file.map(PathBuf::from)).collect();
            Ok(Asked::Work(Work { files, output: output.map(PathBuf::from), sheet, ..Work::of(Command::Class) }))
        };
        assert_eq!(of(&["class", "a"]), class(&[Some("a")], None, None));
        assert_eq!(
            of(&["class", "a", "-", "7", "--csv"]),
            class(&[Some("a"), None, Some("7")], None, Some(SheetForm::Csv))
        );
        assert_eq!(of(&["class", "--html", "a", "-o", "b"]), class(&[Some("a")], Some("b"), Some(SheetForm::Html)));
        assert_eq!(of(&["class", "--json", "--", "-a"]), class(&[Some("-a")], None, Some(SheetForm::Json)));
    }

    #[test]
    fn sheets_and_two_graphs() {
        let path = |name: Option<&str>| name.map(PathBuf::from);
        let sheets = |input, moves, other: Option<Option<&str>>| {
            let (input, moves, other) = (path(input), path(moves), other.map(path));
            Ok(Asked::Work(Work { input, moves, other, ..Work::of(Command::Sheets) }))
        };
        assert_eq!(of(&["sheets", "a", "b"]), sheets(Some("a"), Some("b"), None));
        assert_eq!(of(&["sheets", "-", "b", "c"]), sheets(None, Some("b"), Some(Some("c"))));
        assert_eq!(of(&["sheets", "a", "b", "-"]), sheets(Some("a"), Some("b"), Some(None)));
        let compare = |input, after| {
            Ok(Asked::Work(Work { input: path(input), after: path(after), ..Work::of(Command::Compare) }))
        };
        assert_eq!(of(&["compare", "a", "b"]), compare(Some("a"), Some("b")));
        assert_eq!(of(&["compare", "-", "b"]), compare(None, Some("b")));
    }

    #[test]
    fn a_file_and_a_pattern() {
        let assign = |input: Option<&str>, pattern: &[&str], all| {
            let pattern = pattern.iter().map(|word| word.to_string()).collect();
            Ok(Asked::Work(Work { input: input.map(PathBuf::from), pattern, all, ..Work::of(Command::Assign) }))
        };
        assert_eq!(of(&["assign", "a", "01x"]), assign(Some("a"), &["01x"], false));
        assert_eq!(of(&["assign", "-", "3=1,4=0", "7=1", "--all"]), assign(None, &["3=1,4=0", "7=1"], true));
    }

    #[test]
    fn stages() {
        let join = |input: Option<&str>, files: &[Option<&str>], output: Option<&str>, to| {
            let files = files.iter().map(|file| file.map(PathBuf::from)).collect();
            let (input, output) = (input.map(PathBuf::from), output.map(PathBuf::from));
            Ok(Asked::Work(Work { input, files, output, to, ..Work::of(Command::Join) }))
        };
        assert_eq!(of(&["join", "a", "b", "-o", "c"]), join(Some("a"), &[Some("b")], Some("c"), None));
        assert_eq!(of(&["join", "a", "a", "-", "b"]), join(Some("a"), &[Some("a"), None, Some("b")], None, None));
        let text = join(None, &[Some("b")], Some("c.aag"), Some(Format::Aiger));
        assert_eq!(of(&["join", "-", "b", "--to", "aiger", "-o", "c.aag"]), text);
    }

    #[test]
    fn what_is_compared() {
        let compared = |input: Option<&str>, after: Option<&str>| {
            let (input, after) = (input.map(PathBuf::from), after.map(PathBuf::from));
            Ok(Asked::Work(Work { input, after, compare: true, ..Work::of(Command::Picture) }))
        };
        assert_eq!(of(&["picture", "--compare", "a", "b"]), compared(Some("a"), Some("b")));
        assert_eq!(of(&["picture", "a", "b", "--compare"]), compared(Some("a"), Some("b")));
        assert_eq!(of(&["picture", "--compare", "-", "b"]), compared(None, Some("b")));
        assert_eq!(of(&["picture", "--compare", "a", "-"]), compared(Some("a"), None));
    }

    #[test]
    fn help_that_is_asked_for() {
        for words in [&["help"][..], &["help", "help"], &["help", "--help"], &["help", "-h"]] {
            assert_eq!(of(words), of(&["--help"]), "{words:?}");
        }
        assert_eq!(of(&["-V"]), of(&["--version"]));
        assert_eq!(of(&["help", "settle"]), of(&["settle", "--help"]));
        assert_eq!(of(&["help", "grind"]), of(&["grind"]));
        let many = "show is one word too many; `panjerov help COMMAND` tells more of one";
        assert_eq!(of(&["help", "settle", "show"]), Err(many.into()));
    }

    #[test]
    fn what_is_not_understood() {
        for words in [
            &[][..],
            &["grind"],
            &["--to"],
            &["settle", "a", "b"],
            &["settle", "-o"],
            &["settle", "-o", "a", "-o", "b"],
            &["settle", "--to"],
            &["settle", "--to", "blif"],
            &["settle", "--to", "aiger", "--to", "aiger"],
            &["import", "--to", "tagged"],
            &["find", "a", "b"],
            &["find", "a", "--to", "blif"],
            &["show", "a", "--no-symbols"],
            &["find", "a", "--find"],
            &["show", "a", "--find"],
            &["show", "--verbose"],
            &["show", "-x"],
            &["show", "a", "7"],
            &["show", "--moves"],
            &["preview", "a", "b"],
            &["preview", "a", ""],
            &["preview", "a", "-"],
            &["preview", "a", "+7"],
            &["preview", "a", "-7"],
            &["preview", "a", "7.0"],
            &["preview", "a", "4294967296"],
            &["preview", "a", "7", "7"],
            &["preview", "--moves"],
            &["preview", "a", "--moves"],
            &["preview", "a", "7", "--to", "aiger"],
            &["preview", "a", "--sort"],
            &["preview", "a", "--sort", "root"],
            &["preview", "a", "7", "--sort", "saving"],
            &["settle", "a", "--sort", "saving"],
            &["resistive"],
            &["resistive", "a"],
            &["resistive", "a", "-o", "b"],
            &["resistive", "a", "7", "--all"],
            &["resistive", "a", "7", "8"],
            &["resistive", "a", "x"],
            &["resistive", "a", "7", "--moves"],
            &["settle", "a", "--all"],
            &["lock"],
            &["lock", "a"],
            &["lock", "7"],
            &["unlock", "a", "-o", "b"],
            &["lock", "a", ""],
            &["lock", "a", "7", "x"],
            &["lock", "a", "9-7"],
            &["lock", "a", "7", "--to", "aiger"],
            &["lock", "a", "7", "-o", "b.aag"],
            &["unlock", "a", "7", "-o", "b.AIG"],
            &["lock", "a", "7", "-o", "b.v"],
            &["lock", "a", "7", "--to", "verilog"],
            &["lock", "a", "7", "--moves"],
            &["apply"],
            &["apply", "a"],
            &["apply", "-", "-"],
            &["apply", "a", "b", "c"],
            &["apply", "a", "b", "--moves"],
            &["apply", "a", "b", "--to", "html"],
            &["apply", "a", "b", "--root", "7"],
            &["sheets"],
            &["sheets", "a"],
            &["sheets", "-", "-"],
            &["sheets", "a", "-", "-"],
            &["sheets", "a", "b", "c", "d"],
            &["sheets", "a", "b", "--to", "tagged"],
            &["compare"],
            &["compare", "a"],
            &["compare", "-", "-"],
            &["compare", "a", "b", "c"],
            &["compare", "a", "b", "--compare"],
            &["assign"],
            &["assign", "a"],
            &["assign", "a", "--all"],
            &["assign", "a", "01", "--to", "tagged"],
            &["join"],
            &["join", "a"],
            &["join", "-", "-"],
            &["join", "a", "-", "b", "-"],
            &["join", "a", "b", "--all"],
            &["class"],
            &["class", "-", "a", "-"],
            &["class", "a", "--csv", "--json"],
            &["class", "a", "--html", "--html"],
            &["class", "a", "--to", "aiger"],
            &["class", "a", "--svg"],
            &["settle", "a", "--csv"],
        ] {
            assert!(of(words).is_err(), "{words:?}");
        }
    }

    #[test]
    fn what_cannot_be_drawn() {
        for words in [
            &["preview", "a", "--svg"][..],
            &["preview", "a", "--output", "1"],
            &["picture", "a", "7"],
            &["picture", "a", "--to", "aiger"],
            &["picture", "--compare"],
            &["picture", "--compare", "a"],
            &["picture", "--compare", "-", "-"],
            &["picture", "--compare", "a", "b", "c"],
            &["show", "--compare", "a", "b"],
            &["report", "--compare", "a", "b"],
            &["report", "a", "b"],
            &["report", "a", "--svg"],
            &["report", "a", "--to", "aiger"],
            &["picture", "a", "--svg", "--png"],
            &["picture", "a", "--output"],
            &["picture", "a", "--output", "a.svg"],
            &["picture", "a", "--root"],
            &["picture", "a", "--root", "-7"],
            &["picture", "a", "--root", "7", "--output", "1"],
            &["picture", "a", "--root", "7", "--root", "7"],
        ] {
            assert!(of(words).is_err(), "{words:?}");
        }
    }
}
