//! All buffers of a call, guarded, and the calls on them.

use crate::calls::{self, Lengths, Way};
use crate::lent::Lent;
use crate::library::{self, Buffers};
use crate::random::Random;
use crate::shapes::MOST;

/// The place of each buffer in `Desk::all`.
pub const NAMES: [&str; 12] =
    ["description", "weights", "histories", "positions", "input", "condition", "head_in", "head_out", "array_out", "scratch", "plan", "sizes"];
pub const DESCRIPTION: usize = 0;
pub const WEIGHTS: usize = 1;
pub const HISTORIES: usize = 2;
pub const POSITIONS: usize = 3;
pub const INPUT: usize = 4;
pub const CONDITION: usize = 5;
pub const HEAD_IN: usize = 6;
pub const HEAD_OUT: usize = 7;
pub const ARRAY_OUT: usize = 8;
pub const SCRATCH: usize = 9;
pub const PLAN: usize = 10;
pub const SIZES: usize = 11;

/// The words that a buffer may be asked to hold, with some to spare for wrong lengths.
const ROOMS: [usize; 12] = [1024, MOST, MOST, 512, 33_000, 33_000, 33_000, 33_000, 33_000, 2 * MOST, 200_000, 5];

pub struct Desk {
    pub all: [Lent; 12],
}

impl Default for Desk {
    fn default() -> Desk {
        Desk { all: ROOMS.map(|most| Lent::new(most + 4096)) }
    }
}

impl Desk {
    pub fn lengths(&self) -> Lengths {
        let of = |i: usize| self.all[i].len();
        Lengths {
            weights: of(WEIGHTS),
            histories: of(HISTORIES),
            positions: of(POSITIONS),
            input: of(INPUT),
            condition: of(CONDITION),
            head_in: of(HEAD_IN),
            head_out: of(HEAD_OUT),
            array_out: of(ARRAY_OUT),
            scratch: of(SCRATCH),
        }
    }

    /// The refusal that the rules give the call on what lies here now.
    pub fn due(&self, way: &Way) -> u32 {
        calls::refusal(self.all[DESCRIPTION].words(), way, &self.lengths(), self.all[POSITIONS].words())
    }

    /// A plan lies in its buffer before `call`.
    pub fn call(&mut self, way: &Way) -> u32 {
        let [description, weights, histories, positions, input, condition, head_in, head_out, array_out, scratch, plan, _] = &mut self.all;
        let b = Buffers {
            description: description.words(),
            weights: weights.floats(),
            histories: histories.floats_mut(),
            positions: positions.words_mut(),
            input: input.floats(),
            condition: condition.floats(),
            head_in: head_in.floats(),
            head_out: head_out.floats_mut(),
            array_out: array_out.floats_mut(),
            scratch: scratch.floats_mut(),
        };
        match way {
            Way::Column => library::column(b),
            Way::Block(n) => library::block(b, *n),
            Way::Planned(n, _) => library::planned(b, *n, plan.words()),
        }
    }

    pub fn sizes(&mut self) -> u32 {
        let [description, .., sizes] = &mut self.all;
        library::sizes(description.words(), sizes.words_mut().try_into().unwrap())
    }

    pub fn reset(&mut self) -> u32 {
        let [description, _, histories, positions, ..] = &mut self.all;
        library::reset(description.words(), histories.floats_mut(), positions.words_mut())
    }

    /// The output buffers and scratch for a call, full of rubbish: no answer may hang on it.
    pub fn lay_out(&mut self, r: &mut Random, l: &Lengths) {
        for (i, len) in [(HEAD_OUT, l.head_out), (ARRAY_OUT, l.array_out), (SCRATCH, l.scratch)] {
            let (at_end, rubbish) = (r.once_in(2), r.word());
            let words = self.all[i].lay(len, at_end);
            words.iter_mut().enumerate().for_each(|(i, w)| *w = rubbish.wrapping_mul(2 * i as u32 + 1));
        }
    }

    pub fn snapshot(&self) -> Vec<Vec<u32>> {
        self.all.iter().map(|b| b.words().to_vec()).collect()
    }

    /// The buffers that are not as the snapshot has them.
    pub fn changed(&self, before: &[Vec<u32>]) -> Vec<usize> {
        (0..NAMES.len()).filter(|i| self.all[*i].words() != before[*i]).collect()
    }

    pub fn zones_kept(&self) -> bool {
        self.all.iter().all(|b| b.zone_kept())
    }
}
