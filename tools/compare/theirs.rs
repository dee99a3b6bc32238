//! The original Rust with our exp, tanh and ReLU, where its source is there; an empty type where it is not, so that the rest reads the same.

use common::calls::{self, Answer, Block};
use common::random::Random;
use common::shapes::Array;

#[cfg(original)]
pub use original_ours::Original;

#[cfg(not(original))]
pub enum Original {}

#[cfg(not(original))]
impl Original {
    pub fn reset(&mut self) {
        match *self {}
    }
    pub fn column(&mut self, _: &[f32], _: &[f32], _: &[f32], _: &mut [f32], _: &mut [f32]) {
        match *self {}
    }
    pub fn block(&mut self, _: &[f32], _: &[f32], _: &[f32], _: &mut [f32], _: &mut [f32], _: usize) {
        match *self {}
    }
    pub fn memory(&mut self) -> (Vec<f32>, Vec<u32>) {
        match *self {}
    }
    pub fn set_memory(&mut self, _: &[f32], _: &[u32]) {
        match *self {}
    }
}

pub const PRESENT: bool = cfg!(original);

#[cfg(original)]
pub fn original(description: &[u32], weights: &[f32]) -> Option<Original> {
    Some(Original::new(description, weights))
}

#[cfg(not(original))]
pub fn original(_: &[u32], _: &[f32]) -> Option<Original> {
    None
}

/// n columns: as one block, or as smaller blocks and single columns.
pub fn run(t: &mut Original, r: &mut Random, a: &Array, n: usize, b: &Block) -> Answer {
    let whole = r.once_in(2);
    let (mut heads, mut arrays, mut done) = (vec![], vec![], 0);
    while done < n {
        let m = if whole { n } else { r.within(1, n - done) };
        let cut = |x: &[f32]| calls::planar(&(done..done + m).map(|t| calls::column_of(x, n, t)).collect::<Vec<_>>());
        let (input, condition, head_in) = (cut(&b.input), cut(&b.condition), cut(&b.head_in));
        let (mut head, mut out) = (vec![f32::NAN; a.head_size * m], vec![f32::NAN; a.channels * m]);
        if m == 1 && r.once_in(2) {
            t.column(&input, &condition, &head_in, &mut head, &mut out);
        } else {
            t.block(&input, &condition, &head_in, &mut head, &mut out, m);
        }
        heads.extend((0..m).map(|t| calls::column_of(&head, m, t)));
        arrays.extend((0..m).map(|t| calls::column_of(&out, m, t)));
        done += m;
    }
    Answer { head_out: calls::planar(&heads), array_out: calls::planar(&arrays) }
}
