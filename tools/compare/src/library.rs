//! The exported functions (include/wavenet.h), over slices. Every slice is what its pointer and length say, and all are apart: with that, every call is
//! safe, whatever the numbers are.

extern "C" {
    fn wavenet_sizes(description: *const u32, description_len: usize, sizes: *mut u32) -> u32;
    fn wavenet_reset(
        description: *const u32,
        description_len: usize,
        histories: *mut f32,
        histories_len: usize,
        positions: *mut u32,
        positions_len: usize,
    ) -> u32;
    fn wavenet_exp(x: f32) -> f32;
    fn wavenet_tanh(x: f32) -> f32;
}

macro_rules! calls {
    ($($name:ident ( $($last:ident : $type:ty),* );)*) => {
        extern "C" {
            $(fn $name(
                description: *const u32, description_len: usize,
                weights: *const f32, weights_len: usize,
                histories: *mut f32, histories_len: usize,
                positions: *mut u32, positions_len: usize,
                input: *const f32, input_len: usize,
                condition: *const f32, condition_len: usize,
                head_in: *const f32, head_in_len: usize,
                head_out: *mut f32, head_out_len: usize,
                array_out: *mut f32, array_out_len: usize,
                scratch: *mut f32, scratch_len: usize,
                $($last: $type),*
            ) -> u32;)*
        }
    };
}

calls! {
    wavenet_column();
    wavenet_block(n: usize);
    wavenet_planned(n: usize, plan: *const u32, plan_len: usize);
}

/// All that a column, block or planned block is lent.
pub struct Buffers<'a> {
    pub description: &'a [u32],
    pub weights: &'a [f32],
    pub histories: &'a mut [f32],
    pub positions: &'a mut [u32],
    pub input: &'a [f32],
    pub condition: &'a [f32],
    pub head_in: &'a [f32],
    pub head_out: &'a mut [f32],
    pub array_out: &'a mut [f32],
    pub scratch: &'a mut [f32],
}

/// One of the calls, with the buffers as pointers and lengths and then its own arguments.
macro_rules! call {
    ($name:ident, $b:expr $(, $more:expr)*) => {{
        let b = $b;
        // Safety: see the head of this file
        unsafe {
            $name(
                b.description.as_ptr(), b.description.len(),
                b.weights.as_ptr(), b.weights.len(),
                b.histories.as_mut_ptr(), b.histories.len(),
                b.positions.as_mut_ptr(), b.positions.len(),
                b.input.as_ptr(), b.input.len(),
                b.condition.as_ptr(), b.condition.len(),
                b.head_in.as_ptr(), b.head_in.len(),
                b.head_out.as_mut_ptr(), b.head_out.len(),
                b.array_out.as_mut_ptr(), b.array_out.len(),
                b.scratch.as_mut_ptr(), b.scratch.len(),
                $($more),*
            )
        }
    }};
}

pub fn column(b: Buffers) -> u32 {
    call!(wavenet_column, b)
}

pub fn block(b: Buffers, n: usize) -> u32 {
    call!(wavenet_block, b, n)
}

pub fn planned(b: Buffers, n: usize, plan: &[u32]) -> u32 {
    call!(wavenet_planned, b, n, plan.as_ptr(), plan.len())
}

pub fn sizes(description: &[u32], sizes: &mut [u32; 5]) -> u32 {
    // Safety: see the head of this file
    unsafe { wavenet_sizes(description.as_ptr(), description.len(), sizes.as_mut_ptr()) }
}

pub fn reset(description: &[u32], histories: &mut [f32], positions: &mut [u32]) -> u32 {
    // Safety: see the head of this file
    unsafe {
        wavenet_reset(description.as_ptr(), description.len(), histories.as_mut_ptr(), histories.len(), positions.as_mut_ptr(), positions.len())
    }
}

pub fn exp(x: f32) -> f32 {
    // Safety: a number in, a number out
    unsafe { wavenet_exp(x) }
}

pub fn tanh(x: f32) -> f32 {
    // Safety: a number in, a number out
    unsafe { wavenet_tanh(x) }
}
