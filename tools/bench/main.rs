//! One benchmark: our column and block calls against the Rust's, in one process, on the same inputs. See run.sh.

mod chart;
mod models;
mod timing;

use chart::Svg;
use common::library;
use models::{description, doubling, Shape, SHAPES};
use timing::{Case, Function};

const BLOCKS: [usize; 5] = [1, 16, 64, 256, 1024];

/// What grows: its name, its values, and the description for one of them.
type Growing = (&'static str, [u32; 6], fn(u32) -> Vec<u32>);

const GROWING: [Growing; 3] = [
    ("layers", [1, 2, 4, 8, 16, 24], |x| description(Shape::Tanh, 16, &doubling(x as usize))),
    ("channels", [1, 2, 4, 8, 16, 32], |x| description(Shape::Tanh, x, &doubling(10))),
    ("dilation", [1, 8, 64, 256, 1024, 2048], |x| description(Shape::Tanh, 16, &[x; 10])),
];
/// The calls by which growth is timed: columns, and whether they are single.
const GROWN: [(usize, bool); 3] = [(1, true), (16, false), (256, false)];

/// The four shapes, single columns and blocks.
fn shape_cases() -> Vec<Case> {
    let calls = || [(1, true)].into_iter().chain(BLOCKS.map(|n| (n, false)));
    let of = |(shape, name)| calls().map(move |(n, single)| Case::new(name, description(shape, 16, &doubling(10)), n, single));
    SHAPES.into_iter().flat_map(of).collect()
}

fn growth_cases() -> Vec<Case> {
    let mut all = vec![];
    for (n, single) in GROWN {
        for (what, values, of) in GROWING {
            all.extend(values.iter().map(|x| Case::new(&format!("{what} {x}"), of(*x), n, single)));
        }
    }
    all
}

fn functions() -> Vec<Function> {
    let exp: [fn(f32) -> f32; 2] = [library::exp, |x| x.exp()];
    let tanh: [fn(f32) -> f32; 2] = [library::tanh, |x| x.tanh()];
    let of = |(name, both)| [0.5, 4.0, 20.0].map(|reach| Function { name, both, reach, best: [f64::MAX; 2] });
    [("exp", exp), ("tanh", tanh)].into_iter().flat_map(of).collect()
}

fn row(cells: &[String]) {
    println!("| {} |", cells.join(" | "));
}

fn heading(cells: &[&str]) {
    row(&cells.iter().map(|c| c.to_string()).collect::<Vec<_>>());
    row(&vec!["---".to_string(); cells.len()]);
}

/// The times, and the Rust's / ours.
fn table(cases: &[Case]) {
    heading(&["what", "call", "ours", "Rust, our functions", "Rust, its own", "ratio, our functions", "ratio, its own"]);
    for c in cases {
        let t = c.best;
        let ratio = |e: usize| format!("{:.2}", t[e] / t[0]);
        row(&[c.name.clone(), c.call(), format!("{:.0}", t[0]), format!("{:.0}", t[1]), format!("{:.0}", t[2]), ratio(1), ratio(2)]);
    }
    println!();
}

fn shape_chart(cases: &[Case]) -> String {
    let mut svg = Svg::new(740.0, 450.0);
    for (i, of_shape) in cases.chunks(1 + BLOCKS.len()).enumerate() {
        let bar = |c: &Case| (c.call().replace("block ", ""), [c.best[1] / c.best[0], c.best[2] / c.best[0]]);
        let (x, y) = (20.0 + 365.0 * (i % 2) as f64, 26.0 + 200.0 * (i / 2) as f64);
        svg.ratios(x, y, &of_shape[0].name, &of_shape.iter().map(bar).collect::<Vec<_>>());
    }
    svg.key(20.0, 436.0, 1, &["Rust with our exp, tanh / ours", "Rust with its own / ours"]);
    svg.finish()
}

fn growth_chart(cases: &[Case]) -> String {
    let mut svg = Svg::new(740.0, 640.0);
    for (i, grown) in cases.chunks(GROWING[0].1.len()).enumerate() {
        let (what, values, _) = GROWING[i % GROWING.len()];
        let lines: Vec<Vec<f64>> = (0..models::ENGINES).map(|e| grown.iter().map(|c| c.best[e]).collect()).collect();
        let (x, y) = (40.0 + 240.0 * (i % 3) as f64, 26.0 + 200.0 * (i / 3) as f64);
        svg.growth(x, y, &format!("{what}, {}", grown[0].call()), &values, &lines);
    }
    svg.key(40.0, 626.0, 0, &["ours", "Rust with our exp, tanh", "Rust with its own"]);
    svg.finish()
}

fn function_table(all: &[Function]) {
    heading(&["function", "numbers", "ours", "platform's", "platform's / ours"]);
    for f in all {
        let [ours, own] = f.best;
        row(&[f.name.into(), format!("-{0} to {0}", f.reach), format!("{ours:.1}"), format!("{own:.1}"), format!("{:.2}", own / ours)]);
    }
}

fn main() {
    let dir = std::env::args().nth(1).expect("a folder for the charts");
    let (mut cases, mut functions) = (shape_cases(), functions());
    let shaped = cases.len();
    cases.extend(growth_cases());
    timing::measure(&mut cases, &mut functions);
    let (shapes, growth) = cases.split_at(shaped);
    println!(
        "Nanoseconds a column, the best of {} short runs of each engine, taken in turns; a ratio is the Rust's time / ours.\n",
        timing::ROUNDS * timing::RUNS
    );
    println!(
        "The Rust with our functions calls the exported exp and tanh for each number, where a block of ours goes over many: the last column, with its"
    );
    println!("own, is the one to go by.\n");
    println!("## Ten layers of 16 channels\n");
    table(shapes);
    println!("## Growth: mode None with Tanh\n");
    table(growth);
    println!("## exp and tanh, nanoseconds a call\n");
    function_table(&functions);
    println!("\nThe checks of a description of ten layers (the sizes call): {:.0} ns.", timing::checks(&cases[0].description));
    std::fs::write(format!("{dir}/speed.svg"), shape_chart(shapes)).unwrap();
    std::fs::write(format!("{dir}/growth.svg"), growth_chart(growth)).unwrap();
}
