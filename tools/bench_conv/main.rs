//! `conv` against the original's Conv1d: equal first, then timed. See run.sh.

#[allow(dead_code)]
#[path = "../../target/bench_conv/original.rs"]
mod conv;
mod ours;
mod random;
mod same;

use conv::Conv1d;
use ours::{Ours, Shape};
use random::Random;
use std::time::Instant;

const BLOCKS: [usize; 5] = [1, 16, 64, 256, 1024];
const ROUNDS: usize = 5;
const RUNS: usize = 30;

/// Nanoseconds a column: the original's single column or block, its block where that is another, and ours.
#[derive(Clone, Copy)]
struct Times {
    theirs: f64,
    block: f64,
    ours: f64,
}

fn time(best: &mut f64, calls: usize, columns: usize, mut call: impl FnMut()) {
    let start = Instant::now();
    for _ in 0..calls {
        call();
    }
    *best = best.min(start.elapsed().as_nanos() as f64 / (calls * columns) as f64);
}

/// Short runs, taken in turns, so that a slow spell of the machine meets both; the best is kept.
fn measure(r: &mut Random, best: &mut Times, outs: usize, dilation: usize, m: usize) {
    let s = Shape { ins: 16, outs, kernel: 3, dilation, groups: 1, bias: 1 };
    let weights: Vec<f32> = (0..s.kernel_count()).map(|_| r.signal() / 8.0).collect();
    let bias: Vec<f32> = (0..outs).map(|_| r.signal()).collect();
    let x: Vec<f32> = (0..s.ins * m).map(|_| r.signal()).collect();
    let mut y = vec![0.0f32; outs * m];
    let mut theirs = Conv1d::new(s.ins, outs, s.kernel, dilation, weights.clone(), Some(bias.clone()));
    let mut ours = Ours::new(&s, [weights, bias].concat(), m);
    ours.work[..x.len()].copy_from_slice(&x);
    let calls = (2000 / m).max(2);
    for _ in 0..RUNS {
        time(&mut best.block, calls, m, || theirs.process_block(&x, &mut y, m));
        if m == 1 {
            time(&mut best.theirs, calls, m, || theirs.process_sample(&x, &mut y));
        } else {
            best.theirs = best.block;
        }
        time(&mut best.ours, calls, m, || {
            ours.block(m);
        });
    }
}

/// For each block size and dilation.
fn measure_all(r: &mut Random, outs: usize, dilations: &[usize]) -> Vec<Vec<Times>> {
    let mut all = vec![vec![Times { theirs: f64::MAX, block: f64::MAX, ours: f64::MAX }; dilations.len()]; BLOCKS.len()];
    for _ in 0..ROUNDS {
        for (m, ts) in BLOCKS.iter().zip(&mut all) {
            for (d, best) in dilations.iter().zip(ts) {
                measure(r, best, outs, *d, *m);
            }
        }
    }
    all
}

/// The original's time / ours, over some dilations.
fn ratio(m: usize, ts: &[Times]) -> String {
    let sum = |f: fn(&Times) -> f64| ts.iter().map(f).sum::<f64>();
    let ours = sum(|t| t.ours);
    let one = sum(|t| t.theirs) / ours;
    if m == 1 {
        format!("{one:.2} ({:.2})", sum(|t| t.block) / ours)
    } else {
        format!("{one:.2}")
    }
}

fn row(cells: impl IntoIterator<Item = String>) {
    println!("| {} |", cells.into_iter().collect::<Vec<_>>().join(" | "));
}

fn main() {
    let mut r = Random(0x2545_f491_4f6c_dd1d);
    let cases = 1500;
    same::check(&mut r, cases);
    println!(
        "Before the timing: {cases} random shapes (groups 1 to 8, kernels 1 to 5, dilations 1 to 300, with and without bias; zeros of both signs,"
    );
    println!("subnormals, infinities and NaN among the numbers), five blocks each of 1 to 1024 columns: outputs, histories and places equal to the");
    println!("original's bit for bit, NaN as one. As many calls with one wrong size were refused with nothing touched.\n");
    let dilations: Vec<usize> = (0..10).map(|i| 1 << i).collect();
    let all = [16, 32].map(|outs| (outs, measure_all(&mut r, outs, &dilations)));
    println!(
        "Kernel 3, one group, with bias. Times are nanoseconds a column, the best of {} short runs of both taken in turns; a ratio is the",
        ROUNDS * RUNS
    );
    println!(
        "original's time / ours. Blocks of 1 are held against `process_sample` (in brackets: `process_block`), the others against `process_block`.\n"
    );
    println!("## Ratios\n");
    row(["channels", "block", "dilation 1", "dilation 32", "dilation 512", "1, 2, 4, .. 512 together"].map(String::from));
    row(["---"; 6].map(String::from));
    for (outs, blocks) in &all {
        for (m, ts) in BLOCKS.iter().zip(blocks) {
            row([format!("16 -> {outs}"), m.to_string(), ratio(*m, &ts[0..1]), ratio(*m, &ts[5..6]), ratio(*m, &ts[9..10]), ratio(*m, ts)]);
        }
    }
    println!("\n## Time a column against dilation: the original's / ours\n");
    row(["channels".into(), "block".into()].into_iter().chain(dilations.iter().map(|d| d.to_string())));
    row(vec!["---".to_string(); 12]);
    for (outs, blocks) in &all {
        for (m, ts) in BLOCKS.iter().zip(blocks) {
            row([format!("16 -> {outs}"), m.to_string()].into_iter().chain(ts.iter().map(|t| format!("{:.0} / {:.0}", t.theirs, t.ours))));
        }
    }
}
