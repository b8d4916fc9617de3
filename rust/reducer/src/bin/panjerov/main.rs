//! The program `panjerov`: settles graphs, one or a class of them, finds their hidden majorities, chooses moves for resistive memory, shows, draws and reports on
//! graphs, previews their trees, makes listed moves, compares
//! graphs and sheets of moves, finds assignments, joins stages, locks nodes, and makes tagged files of AIGER texts and back.

mod abc;
mod apply;
mod assign;
mod class;
mod class_page;
mod class_sheet;
mod compared;
mod drawing;
mod equal;
mod figures;
mod files;
mod formats;
mod found;
mod graphviz;
mod help;
mod hints;
mod join;
mod locks;
mod near;
mod nodes;
mod parts;
mod picture;
mod preview;
mod progress;
mod report;
mod resistive;
mod savings;
mod sheets;
mod show;
mod trees;
mod turned;
mod words;

use std::io::{self, Write};
use std::process::ExitCode;

use figures::Figures;
use files::Input;
use formats::{formed, Format, Loaded};
use progress::Progress;
use reducer::{Graph, Names, Settled};
use words::{Asked, Command, Work};

/// A line on standard error. Where that cannot be written to, nobody reads it.
fn say(line: &str) {
    let _ = writeln!(io::stderr(), "{line}");
}

/// The figures of settling.
fn figures_of(graph: &Graph, settled: Settled) -> Figures {
    let Settled { rounds, before, after, own, others } = settled;
    let edges = Figures::sizes(graph).with("before", before).with("after", after);
    edges.with("rounds", rounds).with("own", own).with("others", others).locked(graph)
}

/// What a command gives, its figures, what is said beside it, and the exit status.
struct Given {
    bytes: Vec<u8>,
    figures: Figures,
    /// What was put right or left out as files were read.
    first: Vec<String>,
    /// Lines of figures, which are said where these are not given as JSON.
    told: Vec<String>,
    /// All other lines.
    lines: Vec<String>,
    status: u8,
    /// What is given is a tagged file: what stands in the file of names beside it, which is empty where there are none.
    beside: Option<String>,
}

impl Given {
    fn of(bytes: Vec<u8>, figures: Figures) -> Given {
        Given { bytes, figures, first: vec![], told: vec![], lines: vec![], status: 0, beside: None }
    }

    /// With its figures in a line.
    fn told(mut self) -> Given {
        self.told.push(self.figures.words());
        self
    }

    /// With further lines.
    fn saying(mut self, lines: impl IntoIterator<Item = String>) -> Given {
        self.lines.extend(lines);
        self
    }

    /// The answer of a comparison that is not the same.
    fn different(line: String, figures: Figures) -> Given {
        let figures = figures.with("why", &line[..]);
        Given { status: 1, ..Given::of(format!("{line}\n").into_bytes(), figures) }
    }
}

/// A reason with the file that it is about.
fn of_file(input: &Input) -> impl Fn(String) -> String + '_ {
    move |why| format!("{}: {why}", input.name)
}

fn settled(asked: &Work, mut graph: Graph, names: &Names) -> Result<Given, String> {
    let found = if asked.find { Some(found::find(&mut graph)?) } else { None };
    let settled = graph.settle().map_err(|refusal| refusal.to_string())?;
    let figures = figures_of(&graph, settled);
    let told = [found.iter().flat_map(Figures::lines).collect(), vec![figures.words()]].concat();
    let figures = found.map_or(Figures::default(), |found| Figures::of("found", found)).and(figures);
    Ok(Given { told, ..formed(asked, &graph, names, Format::Tagged, figures)? })
}

fn applied(asked: &Work, mut graph: Graph, names: &Names) -> Result<Given, String> {
    let moves = files::read_moves(asked.moves.as_deref())?;
    let made = apply::make(&mut graph, &moves)?;
    let figures = Figures::sizes(&graph).and(made).locked(&graph);
    Ok(formed(asked, &graph, names, Format::Tagged, figures)?.told())
}

/// With nodes locked or freed.
fn relocked(asked: &Work, mut graph: Graph, names: &Names) -> Result<Given, String> {
    locks::set(&mut graph, &asked.nodes, asked.command == Command::Lock)?;
    let (sizes, locked) = (Figures::sizes(&graph), locks::of(&graph));
    let told = vec![format!("{} locked {}", sizes.words(), locks::told(&locked))];
    let figures = sizes.locked(&graph).with("locked_nodes", locked.into_iter().collect::<figures::Value>());
    Ok(Given { told, ..formed(asked, &graph, names, Format::Tagged, figures)? })
}

/// Sizes, complemented edges and locks.
fn counted(graph: &Graph) -> Result<Figures, String> {
    let figures = Figures::sizes(graph).complemented(graph).map_err(|refusal| refusal.to_string())?;
    Ok(figures.locked(graph))
}

fn joined(asked: &Work, input: &Input, first: Loaded) -> Result<Given, String> {
    let Loaded { graph: joined, names, lines, .. } = join::chain(input, first, &asked.files)?;
    let given = formed(asked, &joined, &names, Format::Tagged, counted(&joined)?)?.told();
    Ok(Given { first: lines, ..given })
}

/// What is asked for of a graph that was read, after the lines of its reading.
fn given(asked: &Work, input: &Input, working: &Progress) -> Result<Given, String> {
    let mut loaded = formats::graph_of(input)?;
    let lines = std::mem::take(&mut loaded.lines);
    let given = given_of(asked, input, loaded, working)?;
    Ok(Given { first: [lines, given.first].concat(), ..given })
}

fn given_of(asked: &Work, input: &Input, loaded: Loaded, working: &Progress) -> Result<Given, String> {
    if asked.command == Command::Join {
        return joined(asked, input, loaded);
    }
    let Loaded { mut graph, format: got, names, .. } = loaded;
    match asked.command {
        Command::Settle => settled(asked, graph, &names),
        Command::Find => {
            let figures = found::find(&mut graph)?;
            let told = figures.lines();
            Ok(Given { told, ..formed(asked, &graph, &names, Format::Tagged, figures)? })
        }
        Command::Resistive => {
            let figures = resistive::choose(&mut graph, asked.root, working).map_err(of_file(input))?;
            let told = figures.lines();
            Ok(Given { told, ..formed(asked, &graph, &names, Format::Tagged, figures)? })
        }
        Command::Apply => applied(asked, graph, &names),
        Command::Import => formed(asked, &graph, &names, Format::Tagged, counted(&graph)?),
        Command::Export => formed(asked, &graph, &names, Format::Aiger, counted(&graph)?),
        Command::Lock | Command::Unlock => relocked(asked, graph, &names).map_err(of_file(input)),
        Command::Show => {
            let figures = show::figures_of(&graph, &names, got)?;
            Ok(Given::of(show::text_of(&graph, &names, got)?.into_bytes(), figures))
        }
        Command::Preview => preview::of((&graph, &names), asked, working).map_err(of_file(input)),
        Command::Sheets => compared::sheets(asked, &graph),
        Command::Compare => compared::compare(asked, input, &graph),
        Command::Equal => equal::of(asked, input, (&graph, &names), working),
        Command::Assign => assign::of((&graph, &names), &asked.pattern, asked.all, working).map_err(of_file(input)),
        Command::Picture if asked.compare => drawing::compare(asked, input, (&graph, &names), got),
        Command::Picture => drawing::draw(asked, input, (&graph, &names)),
        Command::Report => report::of(input, (&graph, &names), asked.wanted),
        Command::Join | Command::Class => unreachable!("these have many files"),
    }
}

/// Writes what is given; with JSON of it the figures, and all else to a file alone.
fn write(asked: &Work, given: &Given) -> Result<(), String> {
    let path = asked.output.as_deref();
    if path.is_some() || !asked.json {
        files::for_terminals(path.is_none() && !asked.to_standard, &given.bytes)?;
        files::write(path, &given.bytes)?;
        files::write_beside(path, given.beside.as_deref())?;
    }
    if asked.json {
        files::write(None, format!("{}\n", given.figures.json()).as_bytes())?;
    }
    Ok(())
}

/// Does what is asked for; the exit status.
fn work(asked: &Work) -> Result<u8, String> {
    progress::silence(asked.quiet);
    if asked.command == Command::Class {
        return class::work(asked).map(|all| u8::from(!all));
    }
    let input = files::read(asked.input.as_deref())?;
    let working = Progress::of(format!("{} {}", asked.command.doing(), input.name));
    let given = given(asked, &input, &working)?;
    write(asked, &given)?;
    drop(working);
    let told = given.told.iter().filter(|_| !asked.json);
    let lines = given.first.iter().chain(told).chain(&given.lines);
    lines.filter(|_| !asked.quiet).for_each(|line| say(line));
    Ok(given.status)
}

fn run() -> Result<u8, (u8, String)> {
    match words::asked(std::env::args_os().skip(1)).map_err(|why| (2, why))? {
        Asked::Help(text) => files::write(None, text.as_bytes()).map(|()| 0),
        Asked::Work(asked) => return work(&asked).map_err(|why| (asked.command.failed(), why)),
    }
    .map_err(|why| (1, why))
}

fn main() -> ExitCode {
    match run() {
        Ok(status) => ExitCode::from(status),
        Err((status, why)) => {
            say(&format!("panjerov: {why}"));
            ExitCode::from(status)
        }
    }
}
