//! One play: a description with weights, and a sequence of calls from a reset or from any other memory, on three engines. After every call the outputs,
//! histories and positions of all three are equal, bit for bit with all NaNs as one.

use crate::same::{same_floats, same_words, Counts, Same};
use crate::theirs::{self, Original};
use common::calls::{self, Block, Way};
use common::desk::{Desk, ARRAY_OUT, CONDITION, DESCRIPTION, HEAD_IN, HEAD_OUT, HISTORIES, INPUT, NAMES, PLAN, POSITIONS, WEIGHTS};
use common::invent;
use common::random::{Kind, Random};
use common::recurrence::{self, Engine, Memory};
use common::shapes::Array;

/// How long a play is, and what its numbers are.
#[derive(Clone, Copy, Debug)]
pub struct Length {
    pub calls: usize,
    /// products of the convolutions in the whole play, about
    pub work: usize,
}

pub struct Play<'a> {
    r: Random,
    signal: Kind,
    description: &'a [u32],
    array: &'a Array,
    plain: Engine<'a>,
    theirs: Option<Original>,
    desk: &'a mut Desk,
    counts: &'a mut Counts,
}

impl<'a> Play<'a> {
    /// Everything reset, or, seldom, set to any admitted memory: the calls have to be right from there, too.
    pub fn new(
        mut r: Random,
        d: &'a [u32],
        array: &'a Array,
        weights: &'a [f32],
        desk: &'a mut Desk,
        counts: &'a mut Counts,
    ) -> Result<Play<'a>, String> {
        let signal = r.kind();
        let theirs = theirs::original(d, weights);
        let mut at_end = || r.once_in(2);
        desk.all[DESCRIPTION].set(d, at_end());
        desk.all[WEIGHTS].set_floats(weights, at_end());
        desk.all[HISTORIES].lay(array.histories, at_end()).fill(0x7fc0_1234);
        desk.all[POSITIONS].lay(array.convs.len(), at_end()).fill(77);
        desk.all[PLAN].lay(0, at_end());
        let plain = Engine { array, weights, memory: recurrence::reset(array) };
        let mut p = Play { r, signal, description: d, array, plain, theirs, desk, counts };
        p.reset()?;
        if p.r.once_in(4) {
            p.set_memory();
        }
        Ok(p)
    }

    fn reset(&mut self) -> Same {
        self.plain.memory = recurrence::reset(self.array);
        if let Some(t) = &mut self.theirs {
            t.reset();
        }
        match self.desk.reset() {
            0 => self.same_memory(),
            number => Err(format!("reset: refused {number}")),
        }
    }

    fn set_memory(&mut self) {
        let kind = self.r.kind();
        let histories = self.r.numbers(kind, self.array.histories);
        let positions: Vec<u32> = self.array.convs.iter().map(|c| self.r.below(c.ring()) as u32).collect();
        if let Some(t) = &mut self.theirs {
            t.set_memory(&histories, &positions);
        }
        self.desk.all[HISTORIES].floats_mut().copy_from_slice(&histories);
        self.desk.all[POSITIONS].words_mut().copy_from_slice(&positions);
        self.plain.memory = Memory { histories, positions };
    }

    fn same_memory(&mut self) -> Same {
        let m = &self.plain.memory;
        if let Some(t) = &mut self.theirs {
            let (histories, positions) = t.memory();
            same_words(self.counts, "positions", "the Rust", &m.positions, &positions)?;
            same_floats(self.counts, "histories", "the Rust", &m.histories, &histories)?;
        }
        same_words(self.counts, "positions", "ours", &m.positions, self.desk.all[POSITIONS].words())?;
        same_floats(self.counts, "histories", "ours", &m.histories, self.desk.all[HISTORIES].floats())
    }

    fn block(&mut self, n: usize) -> Block {
        let a = self.array;
        let mut numbers = |width: usize| self.r.numbers(self.signal, width * n);
        Block { input: numbers(a.input), condition: numbers(a.condition), head_in: numbers(a.head_in) }
    }

    /// Everything for a call of ours on its desk.
    fn lay(&mut self, way: &Way, b: &Block) {
        let n = way.columns();
        let mut l = calls::lengths(self.array, n);
        if self.r.once_in(4) {
            l.scratch += self.r.below(100);
        }
        self.desk.lay_out(&mut self.r, &l);
        let mut at_end = || self.r.once_in(2);
        for (i, x) in [(INPUT, &b.input), (CONDITION, &b.condition), (HEAD_IN, &b.head_in)] {
            self.desk.all[i].set_floats(x, at_end());
        }
        if let Way::Planned(_, plan) = way {
            self.desk.all[PLAN].set(plan, at_end());
        }
    }

    /// An accepted call on all three.
    pub fn accepted(&mut self, way: &Way) -> Same {
        let n = way.columns();
        let b = self.block(n);
        self.lay(way, &b);
        let number = self.desk.call(way);
        if number != 0 {
            return Err(format!("refused {number}"));
        }
        let answer = calls::run(&mut self.plain, way, &b);
        if let Some(t) = &mut self.theirs {
            let t = theirs::run(t, &mut self.r, self.array, n, &b);
            same_floats(self.counts, "head_out", "the Rust", &answer.head_out, &t.head_out)?;
            same_floats(self.counts, "array_out", "the Rust", &answer.array_out, &t.array_out)?;
        }
        same_floats(self.counts, "head_out", "ours", &answer.head_out, self.desk.all[HEAD_OUT].floats())?;
        same_floats(self.counts, "array_out", "ours", &answer.array_out, self.desk.all[ARRAY_OUT].floats())?;
        self.counts.columns += n as u64;
        self.only_lent(way, &b)
    }

    /// What is lent for reading is as it was, and nothing around any buffer was touched.
    fn only_lent(&mut self, way: &Way, b: &Block) -> Same {
        let asked = match way {
            Way::Planned(_, plan) => self.desk.all[PLAN].words() == plan,
            _ => true,
        };
        let kept = |i: usize, x: &[f32]| x.iter().map(|x| x.to_bits()).eq(self.desk.all[i].words().iter().copied());
        let described = self.desk.all[DESCRIPTION].words() == self.description;
        if !(asked
            && described
            && kept(INPUT, &b.input)
            && kept(CONDITION, &b.condition)
            && kept(HEAD_IN, &b.head_in)
            && kept(WEIGHTS, self.plain.weights))
        {
            return Err("a buffer lent for reading has changed".into());
        }
        if !self.desk.zones_kept() {
            return Err("written beside a buffer".into());
        }
        Ok(())
    }

    /// A call among the others that has to be refused: one length, position or plan wrong.
    fn refused(&mut self, way: &Way) -> Same {
        let b = self.block(way.columns());
        self.lay(way, &b);
        let way = self.spoil(way);
        let due = self.desk.due(&way);
        let before = self.desk.snapshot();
        let number = self.desk.call(&way);
        self.counts.refused += (number != 0) as u64;
        if number != due || due == 0 {
            return Err(format!("refusal {due} is due, {number} was given"));
        }
        if let Some(i) = self.desk.changed(&before).first() {
            return Err(format!("refused {number}, but {} has changed", NAMES[*i]));
        }
        self.mend();
        Ok(())
    }

    fn spoil(&mut self, way: &Way) -> Way {
        let i = self.r.within(INPUT, ARRAY_OUT);
        let len = self.desk.all[i].len() + 1;
        match (self.r.below(3), way) {
            (0, _) => {
                let p = self.r.below(self.array.convs.len());
                self.desk.all[POSITIONS].words_mut()[p] = self.array.convs[p].ring() as u32;
            }
            (1, Way::Block(_)) => return Way::Block(self.r.pick(&[1025, usize::MAX, 1 << 32, 1 << 61])),
            (1, Way::Planned(n, plan)) if *n > 0 => {
                self.desk.all[PLAN].set(&plan[1..], true);
                return Way::Planned(*n, plan[1..].to_vec());
            }
            _ => {
                self.desk.all[i].lay(len, true);
            }
        }
        way.clone()
    }

    fn mend(&mut self) {
        self.desk.all[POSITIONS].words_mut().copy_from_slice(&self.plain.memory.positions);
    }

    fn way(&mut self, most: usize) -> Way {
        let n = match self.r.below(40) {
            0 => most.min(1024),
            1 => 0,
            2..=9 => self.r.within(1, most.min(200)),
            _ => self.r.within(1, most.min(12)),
        };
        match self.r.below(3) {
            0 => Way::Column,
            1 => Way::Block(n),
            _ => Way::Planned(n, invent::plan(&mut self.r, self.plain.stages(), n)),
        }
    }

    /// A call of any kind; how many products it took, about.
    fn any(&mut self, most: usize) -> Result<usize, String> {
        let way = self.way(most);
        self.counts.calls += 1;
        let said = |e: String| format!("{e}\n  in {way:?}");
        match self.r.below(12) {
            0 => self.refused(&way).map_err(said)?,
            1 if self.r.once_in(3) => self.reset()?,
            _ => {
                self.accepted(&way).map_err(said)?;
                // the histories of a large description are read now and then only
                if self.array.histories < 20_000 || self.r.once_in(4) {
                    self.same_memory().map_err(said)?;
                }
            }
        }
        Ok(way.columns() * self.array.weights)
    }

    pub fn all(&mut self, length: Length) -> Same {
        let mut left = length.work;
        for _ in 0..self.r.within(1, length.calls) {
            let done = self.any((left / self.array.weights).max(1))?;
            left = left.saturating_sub(done);
        }
        self.counts.plays += 1;
        self.same_memory()
    }
}
