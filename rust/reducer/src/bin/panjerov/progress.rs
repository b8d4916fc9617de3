//! A line on standard error while work takes more than a second.

use std::io::{self, IsTerminal, Write};
use std::sync::atomic::{AtomicBool, AtomicUsize, Ordering};
use std::sync::mpsc::{channel, Receiver, RecvTimeoutError, Sender};
use std::sync::Arc;
use std::thread::{Builder, JoinHandle};
use std::time::{Duration, Instant};

/// Whether nothing is said of work.
static SILENT: AtomicBool = AtomicBool::new(false);

/// Says nothing of work from here on, or something again.
pub fn silence(silent: bool) {
    SILENT.store(silent, Ordering::Relaxed);
}

/// How far the work is, of how much; of nothing where that is not known.
#[derive(Default)]
struct Reached {
    at: AtomicUsize,
    of: AtomicUsize,
}

impl Reached {
    fn told(&self) -> String {
        match self.of.load(Ordering::Relaxed) {
            0 | 1 => String::new(),
            of => format!(", {} of {of},", self.at.load(Ordering::Relaxed)),
        }
    }
}

/// Says from the first second on that the work goes on, until it is dropped.
pub struct Progress {
    /// Nothing is sent: the other end notices that it is gone.
    work: Option<Sender<()>>,
    thread: Option<JoinHandle<()>>,
    reached: Arc<Reached>,
}

/// On a terminal one line that is written over each second; else a line after 1, 2, 4 and so on.
fn keep_saying(what: &str, reached: &Reached, work: &Receiver<()>) {
    let terminal = io::stderr().is_terminal();
    let start = Instant::now();
    let mut seconds = 1;
    while work.recv_timeout(Duration::from_secs(seconds).saturating_sub(start.elapsed()))
        == Err(RecvTimeoutError::Timeout)
    {
        let line = format!("panjerov: {what}{} for {seconds} s", reached.told());
        let _ = if terminal { write!(io::stderr(), "\r{line}") } else { writeln!(io::stderr(), "{line}") };
        seconds = if terminal { seconds + 1 } else { 2 * seconds };
    }
    if terminal && seconds > 1 {
        let _ = write!(io::stderr(), "\r\x1b[K");
    }
}

impl Progress {
    pub fn of(what: String) -> Progress {
        let (work, notices) = channel();
        let reached = Arc::new(Reached::default());
        let told = reached.clone();
        // Without a thread there is work all the same, and silence.
        let spawn = || Builder::new().spawn(move || keep_saying(&what, &told, &notices)).ok();
        let thread = if SILENT.load(Ordering::Relaxed) { None } else { spawn() };
        Progress { work: Some(work), thread, reached }
    }

    /// The work is at this part, counted from 1, of so many.
    pub fn reached(&self, at: usize, of: usize) {
        self.reached.at.store(at, Ordering::Relaxed);
        self.reached.of.store(of, Ordering::Relaxed);
    }
}

impl Drop for Progress {
    fn drop(&mut self) {
        drop(self.work.take());
        if let Some(thread) = self.thread.take() {
            let _ = thread.join();
        }
    }
}
