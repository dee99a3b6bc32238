//! The faults, each with the refusal that it gives alone.

use crate::call::Call;
use crate::{asked, described};
use common::random::Random;

/// A fault that has no place in a call says so (false).
pub struct Fault {
    pub name: &'static str,
    pub number: u32,
    pub apply: fn(&mut Random, &mut Call) -> bool,
}

pub fn all() -> Vec<Fault> {
    described::LENGTH.into_iter().chain(described::NUMBERS).chain(described::SHAPES).chain(asked::BUFFERS).chain(asked::PLAN).collect()
}
