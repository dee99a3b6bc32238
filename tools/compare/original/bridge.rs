//! The original's LayerArray, built from our number description and weights, and its memory in our order.
//!
//! It reads the description for itself, place by place as docs/RULES.md numbers them, and shares nothing with the plain recurrence: a slip in one reading
//! shows as a difference.

use super::activation::Activation;
use super::array::LayerArray;
use super::conv::Conv1d;
use super::gating::Gating;
use super::layer::{Layer, LayerDims, LayerWeights};
use crate::model::GatingMode;

pub struct Original(LayerArray);

/// The weights that are not yet handed out.
struct Weights<'a>(&'a [f32]);

impl Weights<'_> {
    fn take(&mut self, count: usize) -> Vec<f32> {
        let (head, rest) = self.0.split_at(count);
        self.0 = rest;
        head.to_vec()
    }
    fn take_if(&mut self, there: bool, count: usize) -> Option<Vec<f32>> {
        there.then(|| self.take(count))
    }
}

fn activation(code: u32, slope: u32) -> Activation {
    match code {
        0 => Activation::Tanh,
        1 => Activation::Relu,
        2 => Activation::Sigmoid,
        _ => Activation::LeakyRelu(f32::from_bits(slope)),
    }
}

fn layer(condition: usize, channels: usize, y: &[u32], w: &mut Weights) -> Layer {
    let at = |i: usize| y[i] as usize;
    let mode = [GatingMode::None, GatingMode::Gated, GatingMode::Blended][at(5)];
    let gating = Gating::new(mode, activation(y[6], y[7]), activation(y[8], y[9]), at(0));
    let (bottleneck, mid) = (at(0), gating.input_rows());
    let widths = [channels, mid, condition, mid, mid, bottleneck, channels, if at(12) > 0 { at(12) } else { channels }];
    let dims = LayerDims {
        channels,
        bottleneck,
        condition_size: condition,
        kernel: at(1),
        dilation: at(2),
        groups_input: at(3),
        groups_input_mixin: at(4),
        layer1x1_groups: at(10).max(1),
        head1x1_groups: at(13).max(1),
        head1x1_out: (at(12) > 0).then_some(at(12)),
        film_shift: std::array::from_fn(|i| y[23] >> i & 1 == 1),
        film_groups: std::array::from_fn(|i| at(15 + i)),
    };
    let weights = LayerWeights {
        conv_w: w.take(mid * channels * at(1) / at(3)),
        conv_b: w.take(mid),
        mix_w: w.take(mid * condition / at(4)),
        layer1x1_w: w.take_if(at(10) > 0, channels * bottleneck / at(10).max(1)),
        layer1x1_b: w.take_if(at(11) > 0, channels),
        head1x1_w: w.take_if(at(12) > 0, at(12) * bottleneck / at(13).max(1)),
        head1x1_b: w.take_if(at(14) > 0, at(12)),
        films: std::array::from_fn(|i| {
            let rows = widths[i] * if y[23] >> i & 1 == 1 { 2 } else { 1 };
            (at(15 + i) > 0).then(|| (w.take(rows * condition / at(15 + i)), w.take(rows)))
        }),
    };
    Layer::new(dims, gating, weights)
}

impl Original {
    /// From a description that is not refused, with exactly its weights.
    pub fn new(description: &[u32], weights: &[f32]) -> Original {
        let at = |i: usize| description[i] as usize;
        let mut w = Weights(weights);
        let rechannel = w.take(at(0) * at(2));
        let layers = description[8..].chunks(24).map(|y| layer(at(1), at(2), y, &mut w)).collect();
        let head = w.take(at(3) * at(4) * at(5));
        let bias = w.take_if(at(6) == 1, at(4));
        assert!(w.0.is_empty(), "weights left over");
        Original(LayerArray::new(at(0), at(2), at(3), at(4), at(5), rechannel, layers, head, bias))
    }

    pub fn reset(&mut self) {
        self.0.reset();
    }

    pub fn column(&mut self, input: &[f32], condition: &[f32], head_in: &[f32], head_out: &mut [f32], array_out: &mut [f32]) {
        self.0.process_sample(input, condition, head_in, head_out, array_out);
    }

    pub fn block(&mut self, input: &[f32], condition: &[f32], head_in: &[f32], head_out: &mut [f32], array_out: &mut [f32], n: usize) {
        self.0.process_block(input, condition, head_in, head_out, array_out, n);
    }

    /// Every convolution, in the rules' order.
    fn convs(&mut self) -> Vec<&mut Conv1d> {
        let mut all = vec![&mut self.0.rechannel];
        for y in &mut self.0.layers {
            all.extend([&mut y.conv, &mut y.mixin]);
            all.extend(y.layer1x1.as_mut());
            all.extend(y.head1x1.as_mut());
            all.extend(y.films.iter_mut().flatten().map(|f| &mut f.cond_to_scale_shift));
        }
        all.push(&mut self.0.head_rechannel);
        all
    }

    /// Histories and positions end to end.
    pub fn memory(&mut self) -> (Vec<f32>, Vec<u32>) {
        let convs = self.convs();
        let histories = convs.iter().flat_map(|c| c.ring.iter().copied()).collect();
        (histories, convs.iter().map(|c| c.pos as u32).collect())
    }

    pub fn set_memory(&mut self, mut histories: &[f32], positions: &[u32]) {
        for (c, p) in self.convs().into_iter().zip(positions) {
            let (own, rest) = histories.split_at(c.ring.len());
            c.ring.copy_from_slice(own);
            c.pos = *p as usize;
            histories = rest;
        }
    }
}
