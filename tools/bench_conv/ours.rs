//! `conv` as crate conv_call exports it, with the memory that it is lent.

#[link(name = "conv_call", kind = "static")]
extern "C" {
    fn conv_block(
        work: *mut f32,
        work_len: usize,
        history: *mut f32,
        history_len: usize,
        weights: *const f32,
        weights_len: usize,
        place: *mut usize,
        x: usize,
        out: usize,
        rows: usize,
        ins: usize,
        outs: usize,
        kernel: usize,
        dilation: usize,
        groups: usize,
        bias: u32,
        m: usize,
    ) -> u32;
}

#[derive(Clone, Debug)]
pub struct Shape {
    pub ins: usize,
    pub outs: usize,
    pub kernel: usize,
    pub dilation: usize,
    pub groups: usize,
    pub bias: u32,
}

impl Shape {
    pub fn ring_length(&self) -> usize {
        (self.kernel - 1) * self.dilation + 1
    }
    pub fn kernel_count(&self) -> usize {
        self.outs * self.ins * self.kernel / self.groups
    }
}

#[derive(Clone)]
pub struct Ours {
    pub shape: Shape,
    pub work: Vec<f32>,
    pub history: Vec<f32>,
    pub weights: Vec<f32>,
    pub place: usize,
}

impl Ours {
    /// From a reset: histories +0, the place ring length - 1. Room for blocks of up to `m` columns.
    pub fn new(shape: &Shape, weights: Vec<f32>, m: usize) -> Ours {
        let len = shape.ring_length();
        let room = (2 * shape.ins + shape.outs) * m;
        Ours { shape: shape.clone(), work: vec![0.0; room], history: vec![0.0; shape.ins * len], weights, place: len - 1 }
    }

    /// Where a block of m columns stands in work: the input first, then the rows, then the output.
    pub fn out(&self, m: usize) -> usize {
        2 * self.shape.ins * m
    }

    pub fn block(&mut self, m: usize) -> u32 {
        let s = self.shape.clone();
        let (x, rows, out) = (0, s.ins * m, self.out(m));
        // Safety: the slices are what their pointers and lengths say, and apart; the function tests every number.
        unsafe {
            conv_block(
                self.work.as_mut_ptr(),
                self.work.len(),
                self.history.as_mut_ptr(),
                self.history.len(),
                self.weights.as_ptr(),
                self.weights.len(),
                &mut self.place,
                x,
                out,
                rows,
                s.ins,
                s.outs,
                s.kernel,
                s.dilation,
                s.groups,
                s.bias,
                m,
            )
        }
    }
}
