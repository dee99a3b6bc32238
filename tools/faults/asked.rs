//! Faults of what is asked and lent: the number of columns, lengths, positions and plans, refusals 6 to 9.

use crate::call::{Call, COLUMN, PLANNED, RESET};
use crate::faults::Fault;
use common::desk::{HISTORIES, POSITIONS, SCRATCH, WEIGHTS};
use common::random::Random;

/// The number of columns, lengths and positions.
pub const BUFFERS: [Fault; 4] = [
    Fault { name: "n above 1024", number: 6, apply: many_columns },
    Fault { name: "a length is wrong", number: 7, apply: length },
    Fault { name: "scratch is short", number: 7, apply: short_scratch },
    Fault { name: "a position is at its ring length or above", number: 8, apply: position },
];

fn many_columns(r: &mut Random, c: &mut Call) -> bool {
    if c.which <= COLUMN {
        return false;
    }
    let high = 1usize << r.within(32, 63);
    c.n = r.pick(&[1025, 1026, 2048, 65_536, u32::MAX as usize, 1 << 32, 1 << 61, usize::MAX, usize::MAX - 1, high, high + c.n]);
    true
}

fn length(r: &mut Random, c: &mut Call) -> bool {
    let at = if c.which == RESET { r.within(HISTORIES, POSITIONS) } else { r.within(WEIGHTS, SCRATCH - 1) };
    let len = c.lengths[at];
    let to = r.pick(&[len + 1, len + 1, len.saturating_sub(1), 0, 2 * len, len + 64]);
    c.lengths[at] = to;
    to != len
}

fn short_scratch(r: &mut Random, c: &mut Call) -> bool {
    if c.which < COLUMN || c.n == 0 || c.n > 1024 {
        return false;
    }
    let least = 16 * c.array.widest * c.n;
    c.lengths[SCRATCH] = r.pick(&[least - 1, least - 1, least / 2, 0]);
    true
}

fn position(r: &mut Random, c: &mut Call) -> bool {
    let at = r.below(c.positions.len());
    let ring = c.array.convs[at].ring() as u32;
    c.positions[at] = r.pick(&[ring, ring, ring + 1, 1 << 31, u32::MAX]);
    c.which >= COLUMN
}

/// The plan.
pub const PLAN: [Fault; 7] = [
    Fault { name: "plan of odd length", number: 9, apply: |r, c| planned(r, c, odd) },
    Fault { name: "plan with a stage too large", number: 9, apply: |r, c| turn(r, c, |r, c, t| c.plan[t] = stage_too_large(r, c)) },
    Fault { name: "plan with a count of 0", number: 9, apply: |r, c| turn(r, c, |_, c, t| c.plan[t + 1] = 0) },
    Fault {
        name: "plan passes the stage before by one",
        number: 9,
        apply: |r, c| turn(r, c, |_, c, t| c.plan[t + 1] = c.plan[t + 1].wrapping_add(1)),
    },
    Fault { name: "plan ends before n", number: 9, apply: |r, c| turn(r, c, |_, c, t| drop(c.plan.drain(t..t + 2))) },
    Fault { name: "plan whose sums pass 2^32", number: 9, apply: |r, c| turn(r, c, wrapping) },
    Fault { name: "plan with a turn too many", number: 9, apply: |r, c| planned(r, c, turn_too_many) },
];

fn planned(r: &mut Random, c: &mut Call, change: fn(&mut Random, &mut Call)) -> bool {
    if c.which != PLANNED {
        return false;
    }
    change(r, c);
    true
}

/// Changes some turn; t is its place in the plan.
fn turn(r: &mut Random, c: &mut Call, change: fn(&mut Random, &mut Call, usize)) -> bool {
    if c.which != PLANNED || c.plan.len() < 2 {
        return false;
    }
    let t = 2 * r.below(c.plan.len() / 2);
    change(r, c, t);
    true
}

fn odd(r: &mut Random, c: &mut Call) {
    if c.plan.is_empty() || r.once_in(2) {
        c.plan.push(r.below(3) as u32);
    } else {
        c.plan.remove(r.below(c.plan.len()));
    }
}

fn stage_too_large(r: &mut Random, c: &Call) -> u32 {
    let stages = c.array.layers.len() as u32 + 2;
    r.pick(&[stages, stages, stages + 1, 255, 1 << 31, u32::MAX])
}

/// The turn in two whose counts are its own and 2^32 together.
fn wrapping(_: &mut Random, c: &mut Call, t: usize) {
    let (stage, count) = (c.plan[t], c.plan[t + 1]);
    c.plan.splice(t..t + 2, [stage, 1 << 31, stage, (1u32 << 31).wrapping_add(count)]);
}

fn turn_too_many(r: &mut Random, c: &mut Call) {
    let t = 2 * r.below(c.plan.len() / 2 + 1);
    let stage = r.below(c.array.layers.len() + 2) as u32;
    let count = r.pick(&[0, 1, 1, 1024, u32::MAX]);
    let t = t.min(c.plan.len());
    c.plan.splice(t..t, [stage, count]);
}
