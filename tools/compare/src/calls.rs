//! The calls of the library by docs/RULES.md, written plainly: refusals 6 to 9, the rule of plans, and what an accepted call leaves.

use crate::recurrence::{Column, Engine, Given};
use crate::shapes::{self, Array};

/// How n columns are asked for.
#[derive(Clone, Debug)]
pub enum Way {
    Column,
    Block(usize),
    Planned(usize, Vec<u32>),
}

impl Way {
    pub fn columns(&self) -> usize {
        match self {
            Way::Column => 1,
            Way::Block(n) | Way::Planned(n, _) => *n,
        }
    }
}

/// The lengths of all buffers that are lent.
#[derive(Clone, Debug)]
pub struct Lengths {
    pub weights: usize,
    pub histories: usize,
    pub positions: usize,
    pub input: usize,
    pub condition: usize,
    pub head_in: usize,
    pub head_out: usize,
    pub array_out: usize,
    pub scratch: usize,
}

/// The lengths that n columns need; scratch may be longer.
pub fn lengths(a: &Array, n: usize) -> Lengths {
    Lengths {
        weights: a.weights,
        histories: a.histories,
        positions: a.convs.len(),
        input: a.input * n,
        condition: a.condition * n,
        head_in: a.head_in * n,
        head_out: a.head_size * n,
        array_out: a.channels * n,
        scratch: 16 * a.widest * n,
    }
}

fn fit(need: &Lengths, l: &Lengths) -> bool {
    let memory = l.weights == need.weights && l.histories == need.histories && l.positions == need.positions;
    let given = l.input == need.input && l.condition == need.condition && l.head_in == need.head_in;
    memory && given && l.head_out == need.head_out && l.array_out == need.array_out && l.scratch >= need.scratch
}

/// The rule of plans: no stage further than the one before it, all at n at the end.
pub fn plan_kept(stages: usize, n: usize, plan: &[u32]) -> bool {
    if plan.len() % 2 != 0 {
        return false;
    }
    let mut reached = vec![0u64; stages];
    for turn in plan.chunks(2) {
        let (stage, count) = (turn[0] as usize, turn[1] as u64);
        if stage >= stages || count == 0 {
            return false;
        }
        let most = if stage == 0 { n as u64 } else { reached[stage - 1] };
        if reached[stage] + count > most {
            return false;
        }
        reached[stage] += count;
    }
    reached.iter().all(|r| *r == n as u64)
}

/// The refusal of a column, block or planned block; 0: accepted.
pub fn refusal(d: &[u32], way: &Way, l: &Lengths, positions: &[u32]) -> u32 {
    let a = match shapes::take_apart(d) {
        Ok(a) => a,
        Err(number) => return number,
    };
    if way.columns() > 1024 {
        return 6;
    }
    if !fit(&lengths(&a, way.columns()), l) {
        return 7;
    }
    if a.convs.iter().zip(positions).any(|(c, p)| *p as usize >= c.ring()) {
        return 8;
    }
    match way {
        Way::Planned(n, plan) if !plan_kept(a.layers.len() + 2, *n, plan) => 9,
        _ => 0,
    }
}

pub fn reset_refusal(d: &[u32], histories: usize, positions: usize) -> u32 {
    match shapes::take_apart(d) {
        Ok(a) if a.histories == histories && a.convs.len() == positions => 0,
        Ok(_) => 7,
        Err(number) => number,
    }
}

/// Planar blocks of n columns, given.
#[derive(Clone, Debug, Default)]
pub struct Block {
    pub input: Vec<f32>,
    pub condition: Vec<f32>,
    pub head_in: Vec<f32>,
}

/// Planar blocks of n columns, answered.
#[derive(Clone, Debug, Default)]
pub struct Answer {
    pub head_out: Vec<f32>,
    pub array_out: Vec<f32>,
}

/// Column t of a planar block of n.
pub fn column_of(block: &[f32], n: usize, t: usize) -> Vec<f32> {
    block.iter().skip(t).step_by(n).copied().collect()
}

/// Columns side by side as one planar block.
pub fn planar(columns: &[Vec<f32>]) -> Vec<f32> {
    let width = columns.first().map_or(0, |c| c.len());
    (0..width).flat_map(|j| columns.iter().map(move |c| c[j])).collect()
}

/// The turns of a call: a plan's own, and for a column or block every stage of a column and then the next column.
fn turns(way: &Way, stages: usize) -> Vec<(usize, usize)> {
    match way {
        Way::Planned(_, plan) => plan.chunks(2).map(|t| (t[0] as usize, t[1] as usize)).collect(),
        _ => (0..way.columns()).flat_map(|_| (0..stages).map(|s| (s, 1))).collect(),
    }
}

/// An accepted call.
pub fn run(e: &mut Engine, way: &Way, block: &Block) -> Answer {
    let n = way.columns();
    let cut = |b: &[f32]| (0..n).map(|t| column_of(b, n, t)).collect::<Vec<_>>();
    let (input, condition, head_in) = (cut(&block.input), cut(&block.condition), cut(&block.head_in));
    let mut columns = vec![Column::default(); n];
    let mut reached = vec![0; e.stages()];
    for (stage, count) in turns(way, e.stages()) {
        for t in reached[stage]..reached[stage] + count {
            let given = Given { input: &input[t], condition: &condition[t], head_in: &head_in[t] };
            e.stage(stage, &given, &mut columns[t]);
        }
        reached[stage] += count;
    }
    let head: Vec<_> = columns.iter().map(|c| c.head_out.clone()).collect();
    let signal: Vec<_> = columns.iter().map(|c| c.signal.clone()).collect();
    Answer { head_out: planar(&head), array_out: planar(&signal) }
}
