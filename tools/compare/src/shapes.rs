//! docs/RULES.md, 'Description' and refusals 1 to 5, written plainly: a description taken apart into its convolutions.

pub const MOST: usize = 1_048_576;
pub const HEAD: usize = 8;
pub const PLACES: usize = 24;
pub const SITES: usize = 8;
pub const SIZES: usize = 5;

/// The lowest and highest numbers of the array's eight and of a layer's twenty-four places. A slope's bits are free.
pub const ARRAY_LIMITS: [(u32, u32); HEAD] = [(1, 32), (1, 32), (1, 32), (1, 32), (1, 32), (1, 16), (0, 1), (1, 24)];
pub const LAYER_LIMITS: [(u32, u32); PLACES] = {
    let mut t = [(0, 32); PLACES];
    t[0] = (1, 32);
    t[1] = (1, 16);
    t[2] = (1, 2048);
    t[3] = (1, 32);
    t[4] = (1, 32);
    t[5] = (0, 2);
    t[6] = (0, 3);
    t[7] = (0, u32::MAX);
    t[8] = (0, 3);
    t[9] = (0, u32::MAX);
    t[11] = (0, 1);
    t[14] = (0, 1);
    t[23] = (0, 255);
    t
};

/// A convolution: its numbers, and where its weights and its history start.
#[derive(Clone, Debug)]
pub struct Conv {
    pub ins: usize,
    pub outs: usize,
    pub kernel: usize,
    pub dilation: usize,
    pub groups: usize,
    pub bias: bool,
    pub weights_at: usize,
    pub history_at: usize,
}

impl Conv {
    pub fn ring(&self) -> usize {
        (self.kernel - 1) * self.dilation + 1
    }
    pub fn kernels(&self) -> usize {
        self.outs * self.ins * self.kernel / self.groups
    }
    fn weights(&self) -> usize {
        self.kernels() + if self.bias { self.outs } else { 0 }
    }
    pub fn history(&self) -> usize {
        self.ins * self.ring()
    }
}

/// A FiLM site: its convolution's number, and whether it shifts.
#[derive(Clone, Copy, Debug)]
pub struct Site {
    pub conv: usize,
    pub shift: bool,
}

#[derive(Clone, Debug)]
pub struct Layer {
    pub bottleneck: usize,
    pub mode: u32,
    pub primary: (u32, f32),
    pub secondary: (u32, f32),
    pub conv: usize,
    pub mixin: usize,
    pub layer1x1: Option<usize>,
    pub head1x1: Option<usize>,
    pub sites: [Option<Site>; SITES],
}

#[derive(Clone, Debug, Default)]
pub struct Array {
    pub input: usize,
    pub condition: usize,
    pub channels: usize,
    pub head_in: usize,
    pub head_size: usize,
    pub convs: Vec<Conv>,
    pub layers: Vec<Layer>,
    pub weights: usize,
    pub histories: usize,
    pub widest: usize,
    pub depth: usize,
}

fn within(numbers: &[u32], limits: &[(u32, u32)]) -> bool {
    numbers.iter().zip(limits).all(|(x, (low, high))| low <= x && x <= high)
}

/// The zero rules of a layer.
fn zeros_kept(y: &[u32]) -> bool {
    let slopes = (y[6] == 3 || y[7] == 0) && (y[8] == 3 || y[9] == 0);
    let none = y[5] != 0 || (y[8] == 0 && y[9] == 0);
    let layer1x1 = y[10] != 0 || y[11] == 0;
    let head1x1 = if y[12] == 0 { y[13] == 0 && y[14] == 0 } else { y[13] != 0 };
    let shifts = (0..SITES).all(|i| y[15 + i] != 0 || y[23] >> i & 1 == 0);
    slopes && none && layer1x1 && head1x1 && shifts
}

impl Array {
    fn add(&mut self, ins: usize, outs: usize, kernel: usize, dilation: usize, groups: usize, bias: bool) -> usize {
        let c = Conv { ins, outs, kernel, dilation, groups, bias, weights_at: self.weights, history_at: self.histories };
        self.weights += c.weights();
        self.histories += c.history();
        self.convs.push(c);
        self.convs.len() - 1
    }

    fn add_layer(&mut self, y: &[u32]) {
        let at = |i: usize| y[i] as usize;
        let bottleneck = at(0);
        let mid = if y[5] == 0 { bottleneck } else { 2 * bottleneck };
        let (condition, channels) = (self.condition, self.channels);
        let head = if y[12] == 0 { channels } else { at(12) };
        let widths = [channels, mid, condition, mid, mid, bottleneck, channels, head];
        let conv = self.add(channels, mid, at(1), at(2), at(3), true);
        let mixin = self.add(condition, mid, 1, 1, at(4), false);
        let layer1x1 = (y[10] != 0).then(|| self.add(bottleneck, channels, 1, 1, at(10), y[11] == 1));
        let head1x1 = (y[12] != 0).then(|| self.add(bottleneck, at(12), 1, 1, at(13), y[14] == 1));
        let mut sites = [None; SITES];
        for i in 0..SITES {
            let shift = y[23] >> i & 1 == 1;
            let rows = widths[i] * if shift { 2 } else { 1 };
            sites[i] = (y[15 + i] != 0).then(|| Site { conv: self.add(condition, rows, 1, 1, at(15 + i), true), shift });
        }
        let (primary, secondary) = ((y[6], f32::from_bits(y[7])), (y[8], f32::from_bits(y[9])));
        self.layers.push(Layer { bottleneck, mode: y[5], primary, secondary, conv, mixin, layer1x1, head1x1, sites });
        self.widest = self.widest.max(mid).max(at(12));
        self.depth += (at(1) - 1) * at(2);
    }

    /// Refusal 4: the widths that meet in a layer.
    fn widths_meet(&self, y: &[u32]) -> bool {
        let head = if y[12] == 0 { y[0] } else { y[12] } as usize;
        (y[10] != 0 || y[0] as usize == self.channels) && head == self.head_in
    }
}

/// The description taken apart, or its refusal.
pub fn take_apart(d: &[u32]) -> Result<Array, u32> {
    if d.len() < HEAD || d.len() as u64 != HEAD as u64 + PLACES as u64 * d[7] as u64 {
        return Err(1);
    }
    let layers = || d[HEAD..].chunks(PLACES);
    if !within(&d[..HEAD], &ARRAY_LIMITS) || !layers().all(|y| within(y, &LAYER_LIMITS) && zeros_kept(y)) {
        return Err(2);
    }
    let at = |i: usize| d[i] as usize;
    let mut a = Array { input: at(0), condition: at(1), channels: at(2), head_in: at(3), head_size: at(4), ..Array::default() };
    a.widest = *d[..5].iter().max().unwrap() as usize;
    a.add(a.input, a.channels, 1, 1, 1, false);
    layers().for_each(|y| a.add_layer(y));
    a.add(a.head_in, a.head_size, at(5), 1, 1, d[6] == 1);
    if !a.convs.iter().all(|c| c.ins % c.groups == 0 && c.outs % c.groups == 0) {
        return Err(3);
    }
    if !layers().all(|y| a.widths_meet(y)) {
        return Err(4);
    }
    if a.weights > MOST || a.histories > MOST {
        return Err(5);
    }
    Ok(a)
}

/// What the sizes call tells.
pub fn sizes(a: &Array) -> [u32; 5] {
    [a.weights, a.histories, a.convs.len(), a.widest, a.depth].map(|x| x as u32)
}
