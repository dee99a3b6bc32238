//! Our library, the original Rust and the plain recurrence, held against each other. See run.sh.

mod play;
mod program;
mod same;
mod sample;
mod theirs;
mod tiny;

use common::desk::{Desk, DESCRIPTION, SIZES};
use common::random::Random;
use common::{invent, shapes};
use play::{Length, Play};
use same::Counts;
use std::time::Instant;

struct Run {
    seed: u64,
    desk: Desk,
    counts: Counts,
    started: Instant,
    told: u64,
}

impl Run {
    fn new(seed: u64) -> Run {
        Run { seed, desk: Desk::default(), counts: Counts::default(), started: Instant::now(), told: 0 }
    }

    /// A line every ten seconds.
    fn progress(&mut self, what: &str, done: u64, all: u64) {
        let now = self.started.elapsed().as_secs() / 10;
        if now > self.told {
            self.told = now;
            println!("{:>5} s: {what} {done} of {all}, {} columns, {} numbers", now * 10, self.counts.columns, self.counts.numbers);
        }
    }

    /// The answer of the sizes call is the rules'.
    fn same_sizes(&mut self, d: &[u32]) -> Result<Option<shapes::Array>, String> {
        self.desk.all[DESCRIPTION].set(d, true);
        self.desk.all[SIZES].set(&[9; 5], true);
        let number = self.desk.sizes();
        let (due, sizes, array) = match shapes::take_apart(d) {
            Ok(a) => (0, shapes::sizes(&a), Some(a)),
            Err(number) => (number, [9; 5], None),
        };
        if number != due || self.desk.all[SIZES].words() != sizes {
            return Err(format!("sizes: {number} {:?}, due: {due} {sizes:?}", self.desk.all[SIZES].words()));
        }
        Ok(array)
    }

    fn play(&mut self, mut r: Random, d: &[u32], length: Length) -> Result<(), String> {
        let Some(array) = self.same_sizes(d)? else { return Ok(()) };
        let kind = r.kind();
        let weights = invent::weights(&mut r, &array, kind);
        Play::new(r, d, &array, &weights, &mut self.desk, &mut self.counts)?.all(length)
    }

    /// `count` of the tiny descriptions from `first` up to `end`, evenly spread.
    fn tiny(&mut self, first: u64, end: u64, count: u64) -> Result<(), String> {
        let all = end - first;
        let count = count.min(all);
        for i in 0..count {
            let index = first + (i * all + self.seed % all) / count % all;
            let d = tiny::description(index);
            let r = Random::new(self.seed, index);
            self.play(r, &d, Length { calls: 3, work: 2000 }).map_err(|e| format!("tiny description {index}: {e}\n  {d:?}"))?;
            self.progress("tiny descriptions:", i, count);
        }
        Ok(())
    }

    /// Play `index` of the random ones: most of them small, so that there are many.
    fn random(&mut self, index: u64) -> Result<(), String> {
        let mut r = Random::new(self.seed, u64::MAX - index);
        let (reach, work) = match index % 64 {
            0 => (invent::WHOLE, 60_000_000),
            i if i % 4 == 0 => (invent::WHOLE, 4_000_000),
            _ => (invent::SMALL, 200_000),
        };
        let (d, _) = invent::description(&mut r, reach);
        self.play(r, &d, Length { calls: 12, work }).map_err(|e| format!("play {index}: {e}\n  {d:?}"))
    }

    /// Descriptions at the library's limits: the longest ring, the widest layers in blocks of 1024, the most weights.
    fn extremes(&mut self) -> Result<(), String> {
        let of = |channels: u32, layers: usize, y: &[u32]| [&[1, 32, channels, channels, 32, 16, 1, layers as u32], &y.repeat(layers)[..]].concat();
        let ring = [32, 16, 2048, 1, 1, 0, 0, 0, 0, 0, 1, 1, 0, 0, 0, 0, 0, 0, 0, 0, 0, 0, 0, 0];
        let wide = [32, 3, 9, 1, 1, 2, 0, 0, 2, 0, 1, 1, 32, 1, 1, 1, 1, 1, 1, 1, 1, 1, 1, 255];
        let heavy = [32, 7, 1, 1, 1, 1, 0, 0, 2, 0, 1, 1, 32, 1, 1, 1, 1, 1, 1, 1, 1, 1, 1, 255];
        for (i, d) in [of(32, 1, &ring), of(32, 1, &wide), of(32, 24, &heavy)].iter().enumerate() {
            assert!(shapes::take_apart(d).is_ok(), "the limits are missed");
            for again in 0..4 {
                let r = Random::new(self.seed, (1 << 40) + 4 * i as u64 + again);
                self.play(r, d, Length { calls: 6, work: 60_000_000 }).map_err(|e| format!("at the limits: {e}\n  {d:?}"))?;
            }
        }
        Ok(())
    }

    fn all(&mut self, plays: u64) -> Result<(), String> {
        self.extremes()?;
        self.tiny(0, tiny::PLAIN, 25 * plays)?;
        self.tiny(tiny::PLAIN, tiny::ALL, 5 * plays)?;
        for i in 0..plays {
            self.random(i)?;
            self.progress("plays:", i, plays);
        }
        Ok(())
    }
}

fn who() -> String {
    let theirs = if theirs::PRESENT { "the original Rust" } else { "(no original Rust)" };
    format!("the library, {theirs}, the plain recurrence")
}

fn report(run: &Run, result: &Result<(), String>) {
    let c = &run.counts;
    println!("compared: {}", who());
    println!(
        "{} plays, {} calls, {} of them refused, {} columns, {} numbers compared ({} NaN)",
        c.plays, c.calls, c.refused, c.columns, c.numbers, c.nans
    );
    match result {
        Ok(()) => println!("0 differences, seed {}, {:.0} s", run.seed, run.started.elapsed().as_secs_f32()),
        Err(e) => println!("1 difference, seed {}, and the run stopped there:\n  {e}", run.seed),
    }
}

fn main() {
    let args: Vec<String> = std::env::args().skip(1).collect();
    let number = |i: usize, otherwise: u64| args.get(i).map_or(otherwise, |a| a.parse().expect("a number"));
    if args.first().is_some_and(|a| a == "--sample") {
        return sample::write_all(&args[1], number(2, 1));
    }
    let mut run = Run::new(number(1, 1));
    let result = match args.first().map(String::as_str) {
        Some("--one") => run.random(number(2, 0)),
        Some("--tiny") => run.tiny(0, tiny::ALL, tiny::ALL),
        _ => run.all(number(0, 4000)),
    };
    report(&run, &result);
    if result.is_err() {
        std::process::exit(1);
    }
}
