//! Both on the same columns: outputs, histories and places equal bit for bit (NaN as one), and wrong sizes refused with nothing touched.

use crate::conv::Conv1d;
use crate::ours::{Ours, Shape};
use crate::random::Random;

/// A pattern, with every NaN as 7fc00000.
fn bits(x: f32) -> u32 {
    if x.is_nan() {
        0x7fc0_0000
    } else {
        x.to_bits()
    }
}

/// The original's history and position are private; its Debug form has them, and Rust prints a float so that it reads back the same.
fn memory(conv: &Conv1d) -> (Vec<f32>, usize) {
    let text = format!("{conv:?}");
    let after = |name: &str| &text[text.find(name).expect(name) + name.len()..];
    let ring = after(" ring: [");
    let ring = ring[..ring.find(']').unwrap()].split(", ").map(|x| x.parse().unwrap()).collect();
    let pos = after(" pos: ");
    (ring, pos[..pos.find(',').unwrap()].parse().unwrap())
}

fn shape(r: &mut Random) -> Shape {
    let groups = r.pick(&[1, 1, 1, 2, 3, 4, 8]);
    let per = |r: &mut Random| 1 + r.below((32 / groups).min(20));
    Shape {
        ins: groups * per(r),
        outs: groups * per(r),
        kernel: 1 + r.below(5),
        dilation: r.pick(&[1, 2, 3, 7, 40, 300]),
        groups,
        bias: r.below(2) as u32,
    }
}

/// One convolution over some blocks.
fn compare(r: &mut Random) {
    let s = shape(r);
    let weights: Vec<f32> = (0..s.kernel_count()).map(|_| r.any()).collect();
    let bias: Vec<f32> = (0..s.outs * s.bias as usize).map(|_| r.any()).collect();
    let theirs_bias = if s.bias == 1 { Some(bias.clone()) } else { None };
    let mut theirs = Conv1d::new_grouped(s.ins, s.outs, s.kernel, s.dilation, s.groups, weights.clone(), theirs_bias);
    let mut ours = Ours::new(&s, [weights, bias].concat(), 1024);
    for _ in 0..5 {
        let m = r.pick(&[1, 1, 2, 7, 15, 16, 17, 31, 32, 64, 100, 256, 300, 1000, 1024]);
        let x: Vec<f32> = (0..s.ins * m).map(|_| r.any()).collect();
        let mut y = vec![0.0f32; s.outs * m];
        if m == 1 && r.below(2) == 0 {
            theirs.process_sample(&x, &mut y);
        } else {
            theirs.process_block(&x, &mut y, m);
        }
        ours.work[..x.len()].copy_from_slice(&x);
        assert_eq!(ours.block(m), 0, "refused: {s:?} {m}");
        let out = ours.out(m);
        for (i, y) in y.iter().enumerate() {
            assert_eq!(bits(*y), bits(ours.work[out + i]), "output {i} of {s:?} {m}");
        }
        let (ring, pos) = memory(&theirs);
        assert_eq!(pos, ours.place, "place of {s:?} {m}");
        assert!(ring.iter().map(|x| bits(*x)).eq(ours.history.iter().map(|x| bits(*x))), "history of {s:?} {m}");
    }
}

/// One number of a good call made wrong.
fn refuse(r: &mut Random) {
    let s = shape(r);
    let count = s.kernel_count() + s.outs * s.bias as usize;
    let mut ours = Ours::new(&s, vec![1.0; count], 16);
    match r.below(9) {
        0 => ours.shape.ins += 1,
        1 => ours.shape.outs += 1,
        2 => ours.shape.kernel += 1,
        3 => ours.shape.groups = 33,
        4 => ours.shape.bias += 2,
        5 => ours.place = s.ring_length(),
        6 => ours.work.truncate((2 * s.ins + s.outs) * 16 - 1),
        7 => ours.history.push(0.0),
        _ => ours.weights.push(0.0),
    }
    let before = ours.clone();
    assert_eq!(ours.block(16), 1, "not refused: {:?}", ours.shape);
    assert!(ours.work == before.work && ours.history == before.history && ours.place == before.place);
}

pub fn check(r: &mut Random, cases: usize) {
    for _ in 0..cases {
        compare(r);
        refuse(r);
    }
}
