//! Short descriptions, one after another, every value of every small field: a number counts through them in mixed digits.

use common::shapes::SITES;

/// Takes digits off a number.
struct Digits(u64);

impl Digits {
    fn take(&mut self, base: u64) -> u32 {
        let d = self.0 % base;
        self.0 /= base;
        d as u32
    }
    /// 1 or 2.
    fn width(&mut self) -> u32 {
        1 + self.take(2)
    }
}

/// Slopes that are told apart by their bits: ordinary, -0, infinite.
const SLOPES: [u32; 3] = [0x3f00_0000, 0x8000_0000, 0x7f80_0000];

/// Activation codes 0 to 3, the last with one of the slopes.
const ACTIVATIONS: u64 = 6;

fn activation(digit: u32, y: &mut [u32]) {
    y[0] = digit.min(3);
    y[1] = if digit < 3 { 0 } else { SLOPES[digit as usize - 3] };
}

/// One layer without sites over widths 1 and 2: 2^7 arrays, all groups, modes, activations, layer1x1 and head1x1 there or absent. Many are refused.
pub const PLAIN: u64 = (1 << 7) * (1 << 5) * (1 + 2 * ACTIVATIONS) * ACTIVATIONS * 5 * 9;

pub fn plain(index: u64) -> Vec<u32> {
    let mut g = Digits(index);
    let mut y = [0; 24];
    let mode = g.take(1 + 2 * ACTIVATIONS);
    let primary = g.take(ACTIVATIONS);
    activation(primary, &mut y[6..8]);
    if mode > 0 {
        y[5] = 1 + (mode - 1) % 2;
        activation((mode - 1) / 2, &mut y[8..10]);
    }
    let layer1x1 = g.take(5);
    if layer1x1 > 0 {
        (y[10], y[11]) = (1 + (layer1x1 - 1) % 2, (layer1x1 - 1) / 2);
    }
    let head1x1 = g.take(9);
    if head1x1 > 0 {
        let h = head1x1 - 1;
        (y[12], y[13], y[14]) = (1 + h % 2, 1 + h / 2 % 2, h / 4);
    }
    for i in [2, 1, 3, 4, 0] {
        y[i] = g.width();
    }
    let mut d: Vec<u32> = (0..6).map(|_| g.width()).collect();
    d.extend([g.take(2), 1]);
    d.extend(y);
    d
}

/// All sites absent, there, or there with a shift, in each mode, with and without layer1x1 and head1x1, all widths different or groups of 2.
pub const SITED: u64 = 3u64.pow(SITES as u32) * 3 * 2 * 2 * 2;

pub fn sited(index: u64) -> Vec<u32> {
    let mut g = Digits(index);
    let mut y = [0; 24];
    let groups = 1 + g.take(2);
    let (condition, channels) = (2, 2 + groups);
    for i in 0..SITES {
        let site = g.take(3);
        y[15 + i] = if site == 0 { 0 } else { groups };
        y[23] |= (site / 2) << i;
    }
    y[5] = g.take(3);
    y[8] = if y[5] == 0 { 0 } else { 2 };
    let (layer1x1, head1x1) = (g.take(2), g.take(2));
    // layer1x1 absent: the bottleneck has to be as wide as the channels
    let bottleneck = if layer1x1 == 0 { channels } else { 2 * groups };
    let head_in = if head1x1 == 0 { bottleneck } else { 6 };
    (y[0], y[1], y[2], y[3], y[4]) = (bottleneck, 2, 1, groups, groups);
    (y[10], y[11]) = (layer1x1 * groups, layer1x1);
    (y[12], y[13], y[14]) = (head1x1 * 6, head1x1 * groups, head1x1);
    let mut d = vec![1, condition, channels, head_in, 1, 2, 1, 1];
    d.extend(y);
    d
}

/// Both together: first all without sites, then all with them.
pub const ALL: u64 = PLAIN + SITED;

pub fn description(index: u64) -> Vec<u32> {
    if index < PLAIN {
        plain(index)
    } else {
        sited(index - PLAIN)
    }
}
