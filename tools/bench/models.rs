//! The shapes that are timed, and the three engines on one of them: ours, the Rust with our exp and tanh, the Rust with its own.

use common::calls::{self, Block};
use common::library::{self, Buffers};
use common::random::{Kind, Random};
use common::shapes;
use common::{bits, invent};

/// How a layer gates, and what it has besides its convolution.
#[derive(Clone, Copy, PartialEq)]
pub enum Shape {
    Tanh,
    Gated,
    Full,
    Relu,
}

pub const SHAPES: [(Shape, &str); 4] = [
    (Shape::Tanh, "None, Tanh"),
    (Shape::Gated, "Gated, Tanh and Sigmoid"),
    (Shape::Full, "Blended, all sites, head1x1"),
    (Shape::Relu, "None, ReLU"),
];

/// Kernel 3, one group, layer1x1 with a bias.
fn layer(shape: Shape, channels: u32, dilation: u32) -> [u32; 24] {
    let mut y = [0; 24];
    (y[0], y[1], y[2], y[3], y[4], y[10], y[11]) = (channels, 3, dilation, 1, 1, 1, 1);
    match shape {
        Shape::Tanh => {}
        Shape::Relu => y[6] = 1,
        Shape::Gated => (y[5], y[8]) = (1, 2),
        Shape::Full => {
            (y[5], y[8], y[12], y[13], y[14]) = (2, 2, channels, 1, 1);
            y[15..23].fill(1);
            y[23] = 255;
        }
    }
    y
}

pub fn description(shape: Shape, channels: u32, dilations: &[u32]) -> Vec<u32> {
    let mut d = vec![1, 1, channels, channels, 8, 1, 1, dilations.len() as u32];
    d.extend(dilations.iter().flat_map(|s| layer(shape, channels, *s)));
    d
}

/// 1, 2, 4, .. 512, from the start again after ten layers.
pub fn doubling(layers: usize) -> Vec<u32> {
    (0..layers).map(|i| 1 << (i % 10)).collect()
}

/// All that the library is lent, in plain vectors.
pub struct Ours {
    description: Vec<u32>,
    weights: Vec<f32>,
    histories: Vec<f32>,
    positions: Vec<u32>,
    scratch: Vec<f32>,
}

/// The engines with the same weights, and n columns for each.
pub struct Model {
    ours: Ours,
    with_ours: original_ours::Original,
    with_own: original_own::Original,
    n: usize,
    given: Block,
    head_out: Vec<f32>,
    array_out: Vec<f32>,
}

pub const ENGINES: usize = 3;

impl Model {
    pub fn new(r: &mut Random, d: &[u32], n: usize) -> Model {
        let array = shapes::take_apart(d).expect("a sound description");
        let weights = invent::weights(r, &array, Kind::Ordinary);
        let mut numbers = |width: usize| r.numbers(Kind::Ordinary, width * n);
        let given = Block { input: numbers(array.input), condition: numbers(array.condition), head_in: numbers(array.head_in) };
        let with_ours = original_ours::Original::new(d, &weights);
        let with_own = original_own::Original::new(d, &weights);
        let l = calls::lengths(&array, n);
        let mut ours = Ours {
            description: d.to_vec(),
            weights,
            histories: vec![0.0; l.histories],
            positions: vec![0; l.positions],
            scratch: vec![0.0; l.scratch],
        };
        assert_eq!(library::reset(d, &mut ours.histories, &mut ours.positions), 0);
        Model { ours, with_ours, with_own, n, given, head_out: vec![0.0; l.head_out], array_out: vec![0.0; l.array_out] }
    }

    fn by_ours(&mut self, single: bool) {
        let (o, g) = (&mut self.ours, &self.given);
        let b = Buffers {
            description: &o.description,
            weights: &o.weights,
            histories: &mut o.histories,
            positions: &mut o.positions,
            input: &g.input,
            condition: &g.condition,
            head_in: &g.head_in,
            head_out: &mut self.head_out,
            array_out: &mut self.array_out,
            scratch: &mut o.scratch,
        };
        let number = if single { library::column(b) } else { library::block(b, self.n) };
        assert_eq!(number, 0);
    }

    /// One call of engine e on the n columns: 0 ours, 1 the Rust with our functions, 2 with its own.
    pub fn call(&mut self, e: usize, single: bool) {
        let (g, head, out, n) = (&self.given, &mut self.head_out[..], &mut self.array_out[..], self.n);
        match (e, single) {
            (0, _) => self.by_ours(single),
            (1, true) => self.with_ours.column(&g.input, &g.condition, &g.head_in, head, out),
            (1, false) => self.with_ours.block(&g.input, &g.condition, &g.head_in, head, out, n),
            (_, true) => self.with_own.column(&g.input, &g.condition, &g.head_in, head, out),
            (_, false) => self.with_own.block(&g.input, &g.condition, &g.head_in, head, out, n),
        }
    }

    /// Before any timing: ours and the Rust with our functions give the same, bit for bit.
    pub fn check(&mut self, single: bool) {
        for _ in 0..3 {
            self.call(0, single);
            let ours: Vec<u32> = self.head_out.iter().chain(&self.array_out).map(|x| bits(*x)).collect();
            self.call(1, single);
            let theirs: Vec<u32> = self.head_out.iter().chain(&self.array_out).map(|x| bits(*x)).collect();
            assert!(ours == theirs, "ours and the Rust differ: run tools/compare/run.sh");
        }
    }
}
