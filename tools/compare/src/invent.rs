//! Descriptions, weights and plans at random, over the whole space up to the library's limits.

use crate::random::{Kind, Random};
use crate::shapes::{self, Array, SITES};

/// How wide and how deep a description may become.
#[derive(Clone, Copy)]
pub struct Reach {
    pub width: usize,
    pub kernel: usize,
    pub dilation: usize,
    pub layers: usize,
}

pub const SMALL: Reach = Reach { width: 4, kernel: 4, dilation: 5, layers: 3 };
pub const WHOLE: Reach = Reach { width: 32, kernel: 16, dilation: 2048, layers: 24 };

/// Small more often than large, and each end of the range often.
fn within(r: &mut Random, most: usize) -> usize {
    match r.below(8) {
        0 => 1,
        1 => most,
        2..=4 => r.within(1, most.min(4)),
        5 | 6 => r.within(1, most.min(16)),
        _ => r.within(1, most),
    }
}

/// A number of groups that divides both sides.
fn groups(r: &mut Random, ins: usize, outs: usize) -> u32 {
    let all: Vec<usize> = (1..=32).filter(|g| ins % g == 0 && outs % g == 0).collect();
    r.pick(&all) as u32
}

fn slope(r: &mut Random) -> u32 {
    match r.below(4) {
        0 => r.word(),
        1 => r.pick(&[0, 0x8000_0000, 0x7f80_0000, 0xff80_0000, 0x7fc0_0000, 1, 0x3f80_0000]),
        _ => r.signal().to_bits(),
    }
}

fn activation(r: &mut Random, y: &mut [u32]) {
    y[0] = r.below(4) as u32;
    y[1] = if y[0] == 3 { slope(r) } else { 0 };
}

/// Layer1x1, head1x1 and the sites of a layer whose first places are set.
fn parts(r: &mut Random, condition: usize, channels: usize, head_in: usize, y: &mut [u32]) {
    let bottleneck = y[0] as usize;
    let mid = if y[5] == 0 { bottleneck } else { 2 * bottleneck };
    if bottleneck != channels || !r.once_in(3) {
        y[10] = groups(r, bottleneck, channels);
        y[11] = r.below(2) as u32;
    }
    if bottleneck != head_in || r.once_in(3) {
        y[12] = head_in as u32;
        y[13] = groups(r, bottleneck, head_in);
        y[14] = r.below(2) as u32;
    }
    let head = if y[12] == 0 { channels } else { head_in };
    let widths = [channels, mid, condition, mid, mid, bottleneck, channels, head];
    let seldom = r.pick(&[1, 2, 4, 8, 8]);
    for i in (0..SITES).filter(|_| r.once_in(seldom)).collect::<Vec<_>>() {
        let shift = r.below(2);
        y[15 + i] = groups(r, condition, widths[i] * (1 + shift));
        y[23] |= (shift << i) as u32;
    }
}

fn layer(r: &mut Random, reach: Reach, condition: usize, channels: usize, head_in: usize) -> [u32; 24] {
    let mut y = [0; 24];
    let other = within(r, reach.width);
    let bottleneck = r.pick(&[channels, channels, head_in, other]);
    y[0] = bottleneck as u32;
    y[1] = within(r, reach.kernel) as u32;
    y[2] = if r.once_in(2) { within(r, reach.dilation) } else { 1 << r.below(reach.dilation.ilog2() as usize + 1) } as u32;
    y[5] = r.below(3) as u32;
    let mid = bottleneck * if y[5] == 0 { 1 } else { 2 };
    y[3] = groups(r, channels, mid);
    y[4] = groups(r, condition, mid);
    activation(r, &mut y[6..8]);
    if y[5] != 0 {
        activation(r, &mut y[8..10]);
    }
    parts(r, condition, channels, head_in, &mut y);
    y
}

/// A description that is not refused.
pub fn description(r: &mut Random, reach: Reach) -> (Vec<u32>, Array) {
    loop {
        let mut d: Vec<u32> = (0..5).map(|_| within(r, reach.width) as u32).collect();
        let layers = within(r, reach.layers);
        d.extend([within(r, reach.kernel) as u32, r.below(2) as u32, layers as u32]);
        for _ in 0..layers {
            d.extend(layer(r, reach, d[1] as usize, d[2] as usize, d[3] as usize));
        }
        match shapes::take_apart(&d) {
            Ok(a) => return (d, a),
            Err(number) => assert_eq!(number, 5, "an invented description is refused: {d:?}"),
        }
    }
}

/// Weights so small that sums neither die nor explode over many layers.
pub fn weights(r: &mut Random, a: &Array, kind: Kind) -> Vec<f32> {
    let mut w = r.numbers(kind, a.weights);
    if kind != Kind::Any && kind != Kind::Zeros {
        for c in &a.convs {
            let scale = 1.5 / ((c.ins / c.groups * c.kernel) as f32).sqrt();
            w[c.weights_at..c.weights_at + c.kernels()].iter_mut().for_each(|x| *x *= scale);
        }
    }
    w
}

/// A plan that keeps its rule: turns of any stage that has room, their lengths in one of three tempers.
pub fn plan(r: &mut Random, stages: usize, n: usize) -> Vec<u32> {
    let mut reached = vec![0; stages];
    let mut plan = vec![];
    let temper = r.below(3);
    loop {
        let room = |s: usize| if s == 0 { n - reached[0] } else { reached[s - 1] - reached[s] };
        let open: Vec<usize> = (0..stages).filter(|s| room(*s) > 0).collect();
        if open.is_empty() {
            return plan;
        }
        let s = r.pick(&open);
        let count = match temper {
            0 => room(s),
            1 => r.within(1, room(s)),
            _ => r.within(1, room(s).min(3)),
        };
        reached[s] += count;
        plan.extend([s as u32, count as u32]);
    }
}
