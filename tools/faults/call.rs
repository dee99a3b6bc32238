//! A call to be made: what is lent, and how many columns are asked for. Faults change it before it is laid on the desk.

use common::calls::{self, Way};
use common::desk::{self, Desk, NAMES};
use common::invent;
use common::random::{Kind, Random};
use common::shapes::{self, Array};

/// The five calls that can refuse.
pub const CALLS: [&str; 5] = ["sizes", "reset", "column", "block", "planned"];
pub const SIZES: usize = 0;
pub const RESET: usize = 1;
pub const COLUMN: usize = 2;
pub const PLANNED: usize = 4;

#[derive(Clone)]
pub struct Call {
    pub which: usize,
    pub description: Vec<u32>,
    /// of the description as it was before any fault
    pub array: Array,
    pub positions: Vec<u32>,
    pub n: usize,
    pub plan: Vec<u32>,
    /// by the desk's places
    pub lengths: [usize; NAMES.len()],
}

impl Call {
    /// A call that is not refused.
    pub fn sound(r: &mut Random, which: usize, description: &[u32], array: &Array) -> Call {
        let n = match which {
            COLUMN => 1,
            _ if r.once_in(10) => 0,
            _ => r.within(1, 6),
        };
        let l = calls::lengths(array, n);
        let plan = if which == PLANNED { invent::plan(r, array.layers.len() + 2, n) } else { vec![] };
        let scratch = l.scratch + r.pick(&[0, 0, 1, 50]);
        let lengths =
            [0, l.weights, l.histories, l.positions, l.input, l.condition, l.head_in, l.head_out, l.array_out, scratch, plan.len(), shapes::SIZES];
        let positions = array.convs.iter().map(|c| r.below(c.ring()) as u32).collect();
        Call { which, description: description.to_vec(), array: array.clone(), positions, n, plan, lengths }
    }

    pub fn way(&self) -> Way {
        match self.which {
            COLUMN => Way::Column,
            PLANNED => Way::Planned(self.n, self.plan.clone()),
            _ => Way::Block(self.n),
        }
    }

    /// Every buffer at its length: numbers of any kind in them, but for the description, the positions and the plan.
    pub fn lay(&self, r: &mut Random, desk: &mut Desk) {
        for (i, len) in self.lengths.iter().enumerate() {
            let (at_end, kind) = (r.once_in(2), r.pick(&[Kind::Ordinary, Kind::Any]));
            desk.all[i].set_floats(&r.numbers(kind, *len), at_end);
        }
        desk.all[desk::DESCRIPTION].set(&self.description, r.once_in(2));
        desk.all[desk::PLAN].set(&self.plan, r.once_in(2));
        let positions = desk.all[desk::POSITIONS].words_mut();
        positions.fill(0);
        positions.iter_mut().zip(&self.positions).for_each(|(to, p)| *to = *p);
    }

    /// The refusal that the rules give it.
    pub fn due(&self, desk: &Desk) -> u32 {
        match self.which {
            SIZES => shapes::take_apart(&self.description).map_or_else(|number| number, |_| 0),
            RESET => calls::reset_refusal(&self.description, self.lengths[desk::HISTORIES], self.lengths[desk::POSITIONS]),
            _ => desk.due(&self.way()),
        }
    }

    pub fn make(&self, desk: &mut Desk) -> u32 {
        match self.which {
            SIZES => desk.sizes(),
            RESET => desk.reset(),
            _ => desk.call(&self.way()),
        }
    }

    /// Whether this call gives the number at all.
    pub fn knows(&self, number: u32) -> bool {
        match self.which {
            SIZES => number <= 5,
            RESET => number <= 5 || number == 7,
            COLUMN => number <= 5 || number == 7 || number == 8,
            PLANNED => number <= 9,
            _ => number <= 8,
        }
    }
}
