//! Times, taken in turns: each round goes through all that is timed, with short runs of each engine after another, and the best run of each is kept. So a
//! slow spell of the machine meets all engines, and no place of the tables alone.

use crate::models::{Model, ENGINES};
use common::random::Random;
use common::{library, shapes};
use std::hint::black_box;
use std::time::Instant;

pub const ROUNDS: usize = 6;
/// Runs of each engine in a round, and the nanoseconds that one is to take.
pub const RUNS: usize = 12;
const RUN: f64 = 1.0e6;

/// Nanoseconds a column, by engine.
pub type Times = [f64; ENGINES];

/// Calls on n columns of a description; `single`: n is 1, by the calls for single columns.
pub struct Case {
    pub name: String,
    pub description: Vec<u32>,
    pub n: usize,
    pub single: bool,
    pub best: Times,
}

/// A function of one number, ours and the platform's, on numbers from -reach to reach.
pub struct Function {
    pub name: &'static str,
    pub both: [fn(f32) -> f32; 2],
    pub reach: f32,
    pub best: [f64; 2],
}

fn elapsed(times: usize, mut call: impl FnMut()) -> f64 {
    let start = Instant::now();
    for _ in 0..times {
        call();
    }
    start.elapsed().as_nanos() as f64 / times as f64
}

impl Case {
    pub fn new(name: &str, description: Vec<u32>, n: usize, single: bool) -> Case {
        Case { name: name.to_string(), description, n, single, best: [f64::MAX; ENGINES] }
    }

    pub fn call(&self) -> String {
        if self.single {
            "column".into()
        } else {
            format!("block {}", self.n)
        }
    }

    fn round(&mut self) {
        let (n, single) = (self.n, self.single);
        let mut m = Model::new(&mut Random::new(5, n as u64), &self.description, n);
        m.check(single);
        let calls: Vec<usize> = (0..ENGINES).map(|e| (RUN / elapsed(3, || m.call(e, single))).max(2.0) as usize).collect();
        for _ in 0..RUNS {
            for e in 0..ENGINES {
                self.best[e] = self.best[e].min(elapsed(calls[e], || m.call(e, single)) / n as f64);
            }
        }
    }
}

impl Function {
    fn round(&mut self) {
        let mut r = Random::new(6, 0);
        let x: Vec<f32> = (0..4096).map(|_| r.signal() * self.reach).collect();
        for _ in 0..5 * RUNS {
            for (f, best) in self.both.iter().zip(&mut self.best) {
                let run = || {
                    for x in &x {
                        black_box(f(black_box(*x)));
                    }
                };
                *best = best.min(elapsed(1, run) / x.len() as f64);
            }
        }
    }
}

pub fn measure(cases: &mut [Case], functions: &mut [Function]) {
    for _ in 0..ROUNDS {
        cases.iter_mut().for_each(|c| c.round());
        functions.iter_mut().for_each(|f| f.round());
    }
}

/// Our sizes call on a description, in nanoseconds: what a call's checks cost at least.
pub fn checks(d: &[u32]) -> f64 {
    let mut sizes = [0; shapes::SIZES];
    let run = |sizes: &mut [u32; shapes::SIZES]| elapsed(1000, || assert_eq!(library::sizes(black_box(d), sizes), 0));
    (0..ROUNDS * RUNS).map(|_| run(&mut sizes)).fold(f64::MAX, f64::min)
}
