//! Faults of the description: refusals 1 to 5.

use crate::call::Call;
use crate::faults::Fault;
use common::random::Random;
use common::shapes::{ARRAY_LIMITS, HEAD, LAYER_LIMITS, PLACES, SITES};

/// Where some layer begins, if any is whole.
fn layer(r: &mut Random, c: &Call) -> Option<usize> {
    let whole = c.description.len().saturating_sub(HEAD) / PLACES;
    (whole > 0).then(|| HEAD + PLACES * r.below(whole))
}

/// Changes the places of some layer, if it can.
fn in_layer(r: &mut Random, c: &mut Call, change: impl Fn(&mut Random, &mut [u32]) -> bool) -> bool {
    match layer(r, c) {
        Some(at) => change(r, &mut c.description[at..at + PLACES]),
        None => false,
    }
}

/// The length.
pub const LENGTH: [Fault; 7] = [
    Fault { name: "shorter than eight", number: 1, apply: |r, c| shortened(c, r.below(8)) },
    Fault { name: "one number less", number: 1, apply: |_, c| shortened(c, c.description.len().saturating_sub(1)) },
    Fault { name: "one number more", number: 1, apply: |r, c| lengthened(c, &[r.word()]) },
    Fault { name: "a layer more than said", number: 1, apply: |_, c| lengthened(c, &[1; PLACES]) },
    Fault { name: "one layer more said", number: 1, apply: |_, c| said_layers(c, |l| l.wrapping_add(1)) },
    Fault { name: "2^29 layers more said", number: 1, apply: |_, c| said_layers(c, |l| l.wrapping_add(1 << 29)) },
    Fault { name: "2^32 - 1 layers said", number: 1, apply: |_, c| said_layers(c, |_| u32::MAX) },
];

fn shortened(c: &mut Call, to: usize) -> bool {
    let shorter = to < c.description.len();
    c.description.truncate(to);
    shorter
}

fn lengthened(c: &mut Call, by: &[u32]) -> bool {
    c.description.extend(by);
    true
}

fn said_layers(c: &mut Call, to: fn(u32) -> u32) -> bool {
    match c.description.get_mut(7) {
        Some(l) => *l = to(*l),
        None => return false,
    }
    true
}

/// A number outside its limits, often by one.
fn outside(r: &mut Random, (low, high): (u32, u32)) -> u32 {
    let far = r.pick(&[high + 1, high + 1, high + 2, 1 << 31, u32::MAX]);
    if low > 0 && r.once_in(2) {
        low - 1
    } else {
        far
    }
}

/// Ranges and zero rules.
pub const NUMBERS: [Fault; 10] = [
    Fault { name: "array number out of range", number: 2, apply: array_number },
    Fault { name: "layer number out of range", number: 2, apply: |r, c| in_layer(r, c, layer_number) },
    Fault { name: "no layers", number: 2, apply: |_, c| layers_copied(c, 0) },
    Fault { name: "25 layers", number: 2, apply: |_, c| layers_copied(c, 25) },
    Fault { name: "slope without LeakyReLU", number: 2, apply: |r, c| in_layer(r, c, slope) },
    Fault { name: "secondary in mode None", number: 2, apply: |r, c| in_layer(r, c, secondary) },
    Fault { name: "bias without layer1x1", number: 2, apply: |r, c| in_layer(r, c, |_, y| set(y, &[(10, 0), (11, 1)])) },
    Fault { name: "groups or bias without head1x1", number: 2, apply: |r, c| in_layer(r, c, headless) },
    Fault { name: "head1x1 without groups", number: 2, apply: |r, c| in_layer(r, c, |_, y| set(y, &[(12, y[12].max(1)), (13, 0)])) },
    Fault { name: "shift without a site", number: 2, apply: |r, c| in_layer(r, c, siteless) },
];

fn set(y: &mut [u32], to: &[(usize, u32)]) -> bool {
    to.iter().for_each(|(at, x)| y[*at] = *x);
    true
}

fn array_number(r: &mut Random, c: &mut Call) -> bool {
    let at = r.below(7);
    let to = outside(r, ARRAY_LIMITS[at]);
    c.description.get_mut(at).map(|x| *x = to).is_some()
}

fn layer_number(r: &mut Random, y: &mut [u32]) -> bool {
    let at = r.below(PLACES);
    // the slopes have no range
    if at == 7 || at == 9 {
        return false;
    }
    set(y, &[(at, outside(r, LAYER_LIMITS[at]))])
}

fn layers_copied(c: &mut Call, count: usize) -> bool {
    if c.description.len() < HEAD + PLACES {
        return false;
    }
    let one = c.description[HEAD..HEAD + PLACES].to_vec();
    c.description.truncate(HEAD);
    c.description[7] = count as u32;
    c.description.extend(one.repeat(count));
    true
}

fn slope(r: &mut Random, y: &mut [u32]) -> bool {
    let at = r.pick(&[6, 8]);
    let bits = r.pick(&[1, 0x8000_0000, 0x3f80_0000, 0x7fc0_0000, u32::MAX]);
    set(y, &[(at, r.below(3) as u32), (at + 1, bits)])
}

fn secondary(r: &mut Random, y: &mut [u32]) -> bool {
    set(y, &[(5, 0), (8, 1 + r.below(3) as u32)])
}

fn headless(r: &mut Random, y: &mut [u32]) -> bool {
    let (groups, bias) = r.pick(&[(1, 0), (0, 1), (1, 1)]);
    set(y, &[(12, 0), (13, groups), (14, bias)])
}

fn siteless(r: &mut Random, y: &mut [u32]) -> bool {
    let i = r.below(SITES);
    set(y, &[(15 + i, 0), (23, y[23] | 1 << i)])
}

/// Groups, widths that meet, and how much there is of all.
pub const SHAPES: [Fault; 6] = [
    Fault { name: "groups do not divide", number: 3, apply: |r, c| groups(r, c, &[3, 4, 10, 13]) },
    Fault { name: "a site's groups do not divide", number: 3, apply: |r, c| groups(r, c, &[15, 16, 17, 18, 19, 20, 21, 22]) },
    Fault { name: "head-in is another width", number: 4, apply: head_in },
    Fault { name: "head1x1 is another width", number: 4, apply: |r, c| in_layer(r, c, head_width) },
    Fault { name: "layer1x1 missing", number: 4, apply: layer1x1_missing },
    Fault { name: "too many numbers", number: 5, apply: too_many },
];

/// The sides of the convolution at a place of the layer.
fn sides(d: &[u32], y: &[u32], place: usize) -> (u32, u32) {
    let mid = if y[5] == 0 { y[0] } else { y[0].wrapping_mul(2) };
    let head = if y[12] == 0 { d[2] } else { y[12] };
    match place {
        3 => (d[2], mid),
        4 => (d[1], mid),
        10 => (y[0], d[2]),
        13 => (y[0], y[12]),
        _ => {
            let i = place - 15;
            (d[1], [d[2], mid, d[1], mid, mid, y[0], d[2], head][i].wrapping_mul(1 + (y[23] >> i & 1)))
        }
    }
}

fn groups(r: &mut Random, c: &mut Call, places: &[usize]) -> bool {
    let (place, at) = (r.pick(places), layer(r, c));
    let Some(at) = at else { return false };
    let (ins, outs) = sides(&c.description, &c.description[at..at + PLACES], place);
    let uneven: Vec<u32> = (1..=32).filter(|g| ins % g != 0 || outs % g != 0).collect();
    if c.description[at + place] == 0 || uneven.is_empty() {
        return false;
    }
    c.description[at + place] = r.pick(&uneven);
    true
}

/// Another width than this, within the limits.
fn other(r: &mut Random, than: u32) -> u32 {
    let x = 1 + r.below(31) as u32;
    if x == than {
        32
    } else {
        x
    }
}

fn head_in(r: &mut Random, c: &mut Call) -> bool {
    let to = other(r, c.array.head_in as u32);
    c.description.get_mut(3).map(|x| *x = to).is_some()
}

fn head_width(r: &mut Random, y: &mut [u32]) -> bool {
    // site 7 follows the width: one group divides whatever it is
    y[12] != 0 && set(y, &[(12, other(r, y[12])), (13, 1), (22, y[22].min(1))])
}

fn layer1x1_missing(r: &mut Random, c: &mut Call) -> bool {
    let channels = c.array.channels as u32;
    in_layer(r, c, |_, y| y[10] != 0 && y[0] != channels && set(y, &[(10, 0), (11, 0)]))
}

/// Two layers whose histories are too long together; histories one above the limit; weights far above it.
fn too_many(r: &mut Random, c: &mut Call) -> bool {
    let plain = |bottleneck, kernel, dilation| {
        let mut y = [0; PLACES];
        set(&mut y, &[(0, bottleneck), (1, kernel), (2, dilation), (3, 1), (4, 1), (6, 1), (10, 1)]);
        y
    };
    let mut heavy = plain(32, 16, 1);
    set(&mut heavy, &[(5, 1), (23, 255)]);
    heavy[15..23].fill(1);
    let (head, layers) = match r.below(3) {
        0 => ([1, 1, 32, 32, 8, 1, 0, 2], vec![plain(32, 16, 2048); 2]),
        1 => ([31, 1, 32, 32, 8, 1, 0, 2], vec![plain(32, 16, 2048), plain(32, 3, 1021)]),
        _ => ([32, 32, 32, 32, 32, 16, 1, 24], vec![heavy; 24]),
    };
    c.description = [&head[..], &layers.concat()].concat();
    true
}
