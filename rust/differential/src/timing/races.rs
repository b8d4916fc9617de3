//! Two implementations at work on the same batches, in turn.

use std::time::Instant;

use reference::generate::Shape;
use reference::graph::Graph;

use super::samples::{batch, Form, Lent, Same, Sample};
use super::{on_processor, BATCH_NODES, ENOUGH, LEAST_RUNS, SIZES};

/// What a call answers as one number, on a sample of one form.
pub type Made<G> = fn(&mut Sample<G>, &mut Lent) -> u64;

/// A call by either implementation, how often it is made on each graph, and whether some nodes are locked.
pub struct Call<A, B> {
    pub name: &'static str,
    pub times: usize,
    pub locked: bool,
    pub ours: Made<A>,
    pub theirs: Made<B>,
}

/// On graphs without locks.
pub const fn call<A, B>(name: &'static str, times: usize, ours: Made<A>, theirs: Made<B>) -> Call<A, B> {
    Call { name, times, locked: false, ours, theirs }
}

/// One implementation at work on a batch of its own.
pub struct Side<G> {
    made: Made<G>,
    fresh: Vec<G>,
    samples: Vec<Sample<G>>,
    lent: Lent,
    pub answers: Vec<u64>,
    /// The least time of a run, in nanoseconds.
    pub least: f64,
}

impl<G: Form> Side<G> {
    pub fn new(made: Made<G>, batch: &[Sample<Graph>]) -> Side<G> {
        let samples: Vec<Sample<G>> = batch.iter().map(Sample::lent).collect();
        let fresh: Vec<G> = samples.iter().map(|sample| sample.g.clone()).collect();
        let lent = Lent::new(fresh[0].size());
        Side { made, fresh, samples, lent, answers: vec![0; batch.len()], least: f64::INFINITY }
    }

    /// All tables restored, then the call on each graph, timed as one.
    pub fn run(&mut self) {
        for (sample, fresh) in self.samples.iter_mut().zip(&self.fresh) {
            sample.g.restore(fresh);
        }
        let start = on_processor();
        for (sample, answer) in self.samples.iter_mut().zip(&mut self.answers) {
            *answer = (self.made)(sample, &mut self.lent);
        }
        let time = on_processor() - start;
        assert!(time > 0.0, "the clock stood still over a batch");
        self.least = self.least.min(time);
    }

    pub fn same<H>(&self, other: &Side<H>) -> bool
    where
        G: Same<H>,
    {
        let graphs = self.samples.iter().zip(&other.samples).all(|(ours, theirs)| ours.g.same(&theirs.g));
        graphs && self.lent.same(&other.lent) && self.answers == other.answers
    }
}

/// The least times of a batch, in nanoseconds, and the answers' sum.
pub struct Figure {
    pub nodes: u32,
    pub ours: f64,
    pub theirs: f64,
    pub answers: u64,
}

impl Figure {
    /// How many graphs the batch has.
    pub fn graphs(&self) -> f64 {
        f64::from(BATCH_NODES / self.nodes)
    }
}

/// Both implementations at work on a batch.
struct Race<A, B> {
    nodes: u32,
    ours: Side<A>,
    theirs: Side<B>,
}

impl<A: Form + Same<B>, B: Form> Race<A, B> {
    fn new(call: &Call<A, B>, shape: Shape, nodes: u32) -> Race<A, B> {
        let batch = batch(shape, nodes, call.locked);
        Race { nodes, ours: Side::new(call.ours, &batch), theirs: Side::new(call.theirs, &batch) }
    }

    fn run(&mut self, name: &str) {
        self.ours.run();
        self.theirs.run();
        assert!(self.ours.same(&self.theirs), "the two differ at {name}");
    }

    fn figure(&self) -> Figure {
        let answers = self.ours.answers.iter().fold(0u64, |sum, &answer| sum.wrapping_add(answer));
        Figure { nodes: self.nodes, ours: self.ours.least, theirs: self.theirs.least, answers }
    }
}

/// A figure for each size. The sizes take turns, so that what slows the machine for a while slows all of them.
pub fn time<A: Form + Same<B>, B: Form>(call: &Call<A, B>, shape: Shape) -> [Figure; SIZES.len()] {
    let mut races = SIZES.map(|nodes| Race::new(call, shape, nodes));
    let start = Instant::now();
    let mut runs = 0;
    while runs < LEAST_RUNS || start.elapsed() < ENOUGH {
        races.iter_mut().for_each(|race| race.run(call.name));
        runs += 1;
    }
    races.map(|race| race.figure())
}
