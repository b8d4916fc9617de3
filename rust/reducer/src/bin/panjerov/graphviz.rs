//! Graphviz, whose program `dot` makes pictures of DOT text.

use std::fmt;
use std::io::{self, Read, Write};
use std::process::{Child, Command, ExitStatus, Stdio};
use std::sync::mpsc::{channel, Receiver};
use std::thread::{self, Builder};
use std::time::{Duration, Instant};

#[derive(Clone, Copy, Debug, PartialEq, Eq)]
pub enum Form {
    Svg,
    Png,
}

/// How long it may take. What takes longer would hardly be looked at.
const LONGEST: Duration = Duration::from_secs(4);

/// Why there is no picture.
#[derive(Debug, PartialEq, Eq)]
pub enum Failure {
    Missing,
    Slow,
    Other(String),
}

impl fmt::Display for Failure {
    fn fmt(&self, f: &mut fmt::Formatter<'_>) -> fmt::Result {
        f.write_str(match self {
            Failure::Missing => "Graphviz is not there: no program dot was found; it comes with the package graphviz",
            Failure::Slow => {
                "Graphviz had not finished after 4 seconds and was stopped; --output K or --root R draws a part"
            }
            Failure::Other(why) => why,
        })
    }
}

fn started(form: Form) -> Result<Child, Failure> {
    let options: &[&str] = match form {
        Form::Svg => &["-Tsvg"],
        // At most 50 inches, which are 4,800 points, a side: a larger one takes seconds to write.
        Form::Png => &["-Tpng", "-Gsize=50,50"],
    };
    let mut command = Command::new("dot");
    command.args(options).stdin(Stdio::piped()).stdout(Stdio::piped()).stderr(Stdio::piped());
    command.spawn().map_err(|error| match error.kind() {
        io::ErrorKind::NotFound => Failure::Missing,
        _ => Failure::Other(format!("cannot run dot, the program of Graphviz: {error}")),
    })
}

/// All bytes that come from there, once they end. The thread is not waited for, since who holds the other end may never end.
fn all_of(from: Option<impl Read + Send + 'static>) -> Receiver<Vec<u8>> {
    let (told, heard) = channel();
    let _ = Builder::new().spawn(move || {
        let mut bytes = Vec::new();
        if from.is_some_and(|mut from| from.read_to_end(&mut bytes).is_ok()) {
            let _ = told.send(bytes);
        }
    });
    heard
}

fn feed(child: &mut Child, text: String) {
    let into = child.stdin.take();
    // A program that ends without reading all of it says why by its status.
    let _ = Builder::new().spawn(move || into.is_some_and(|mut into| into.write_all(text.as_bytes()).is_ok()));
}

/// How it ended; none where it was stopped at the deadline.
fn ended(child: &mut Child, deadline: Instant) -> io::Result<Option<ExitStatus>> {
    loop {
        if let Some(status) = child.try_wait()? {
            return Ok(Some(status));
        }
        if Instant::now() >= deadline {
            child.kill()?;
            child.wait()?;
            return Ok(None);
        }
        thread::sleep(Duration::from_millis(5));
    }
}

/// The picture of a DOT text, or why there is none.
pub fn picture(text: String, form: Form) -> Result<Vec<u8>, Failure> {
    let deadline = Instant::now() + LONGEST;
    let mut child = started(form)?;
    feed(&mut child, text);
    let (given, said) = (all_of(child.stdout.take()), all_of(child.stderr.take()));
    let status = ended(&mut child, deadline);
    let status = status.map_err(|error| Failure::Other(format!("cannot wait for Graphviz: {error}")))?;
    let left = || deadline.saturating_duration_since(Instant::now());
    match (status, given.recv_timeout(left())) {
        (Some(status), Ok(given)) if status.success() && !given.is_empty() => Ok(given),
        (Some(status), Ok(_)) => {
            let said = said.recv_timeout(left()).unwrap_or_default();
            let said = String::from_utf8_lossy(&said);
            Err(Failure::Other(format!("Graphviz made no picture ({status}): {}", said.trim_end())))
        }
        _ => Err(Failure::Slow),
    }
}
