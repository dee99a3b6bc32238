//! docs/RULES.md, 'The recurrence', written plainly: one stage on one column at a time, every rounding in the rules' order, no thought for speed.
//! Tanh and exp are the library's own.

use crate::library;
use crate::shapes::{Array, Layer, Site};

/// Histories and positions of all convolutions end to end.
#[derive(Clone, Debug, Default)]
pub struct Memory {
    pub histories: Vec<f32>,
    pub positions: Vec<u32>,
}

/// What one column holds between two stages, and at the end.
#[derive(Clone, Debug, Default)]
pub struct Column {
    pub signal: Vec<f32>,
    pub accumulator: Vec<f32>,
    pub head_out: Vec<f32>,
}

/// What is lent for reading: one column's input, condition and incoming head.
pub struct Given<'a> {
    pub input: &'a [f32],
    pub condition: &'a [f32],
    pub head_in: &'a [f32],
}

pub fn reset(a: &Array) -> Memory {
    Memory { histories: vec![0.0; a.histories], positions: a.convs.iter().map(|c| c.ring() as u32 - 1).collect() }
}

fn activate((code, slope): (u32, f32), x: f32) -> f32 {
    match code {
        0 => library::tanh(x),
        1 if x > 0.0 => x,
        1 => 0.0,
        2 => 1.0 / (1.0 + library::exp(-x)),
        _ if x > 0.0 => x,
        _ => slope * x,
    }
}

fn gate(y: &Layer, z: &[f32]) -> Vec<f32> {
    let one = |c: usize| {
        let p = activate(y.primary, z[c]);
        let s = || activate(y.secondary, z[c + y.bottleneck]);
        match y.mode {
            0 => p,
            1 => p * s(),
            _ => s() * p + (1.0 - s()) * z[c],
        }
    };
    (0..y.bottleneck).map(one).collect()
}

fn add(a: &[f32], b: &[f32]) -> Vec<f32> {
    a.iter().zip(b).map(|(x, y)| x + y).collect()
}

/// A description with its weights and its memory: what a sequence of calls runs on.
pub struct Engine<'a> {
    pub array: &'a Array,
    pub weights: &'a [f32],
    pub memory: Memory,
}

impl Engine<'_> {
    /// The next column of convolution `i`: stored, then summed tap by tap.
    fn convolve(&mut self, i: usize, x: &[f32]) -> Vec<f32> {
        let c = &self.array.convs[i];
        let (ring, ins) = (c.ring(), c.ins);
        let place = (self.memory.positions[i] as usize + 1) % ring;
        self.memory.positions[i] = place as u32;
        let history = &mut self.memory.histories[c.history_at..c.history_at + c.history()];
        history[place * ins..(place + 1) * ins].copy_from_slice(x);
        let w = &self.weights[c.weights_at..];
        let (per_in, per_out) = (ins / c.groups, c.outs / c.groups);
        let sum = |o: usize| {
            let mut sum = if c.bias { w[c.kernels() + o] } else { 0.0 };
            for k in 0..c.kernel {
                let column = (place + ring - (c.kernel - 1 - k) * c.dilation) % ring;
                for j in 0..per_in {
                    sum += w[(o * per_in + j) * c.kernel + k] * history[column * ins + o / per_out * per_in + j];
                }
            }
            sum
        };
        (0..c.outs).map(sum).collect()
    }

    /// x through a site where there is one.
    fn film(&mut self, site: Option<Site>, x: &[f32], condition: &[f32]) -> Vec<f32> {
        let Some(s) = site else { return x.to_vec() };
        let rows = self.convolve(s.conv, condition);
        let one = |i: usize| if s.shift { x[i] * rows[i] + rows[x.len() + i] } else { x[i] * rows[i] };
        (0..x.len()).map(one).collect()
    }

    fn layer(&mut self, y: &Layer, condition: &[f32], at: &mut Column) {
        let x = at.signal.clone();
        let conv_in = self.film(y.sites[0], &x, condition);
        let conv = self.convolve(y.conv, &conv_in);
        let conv = self.film(y.sites[1], &conv, condition);
        let mixin_in = self.film(y.sites[2], condition, condition);
        let mixin = self.convolve(y.mixin, &mixin_in);
        let mixin = self.film(y.sites[3], &mixin, condition);
        let z = self.film(y.sites[4], &add(&conv, &mixin), condition);
        let gated = self.film(y.sites[5], &gate(y, &z), condition);
        let to_head = match y.head1x1 {
            Some(h) => {
                let h = self.convolve(h, &gated);
                self.film(y.sites[7], &h, condition)
            }
            None => gated.clone(),
        };
        at.accumulator = add(&at.accumulator, &to_head);
        if let Some(l) = y.layer1x1 {
            let l = self.convolve(l, &gated);
            let l = self.film(if y.mode == 2 { y.sites[6] } else { None }, &l, condition);
            at.signal = add(&l, &x);
        }
    }

    pub fn stages(&self) -> usize {
        self.array.layers.len() + 2
    }

    /// Stage s on its next column.
    pub fn stage(&mut self, s: usize, given: &Given, at: &mut Column) {
        let array = self.array;
        if s == 0 {
            at.signal = self.convolve(0, given.input);
            at.accumulator = given.head_in.to_vec();
        } else if s <= array.layers.len() {
            self.layer(&array.layers[s - 1], given.condition, at);
        } else {
            at.head_out = self.convolve(array.convs.len() - 1, &at.accumulator);
        }
    }
}
