//! Bad input at scale: calls with no fault, one, or several. The refusal is the one that docs/RULES.md gives, and a refused call leaves every buffer, and
//! everything around it, byte for byte. See run.sh.

mod asked;
mod call;
mod described;
mod faults;

use call::{Call, CALLS};
use common::desk::{Desk, NAMES};
use common::random::Random;
use common::{invent, shapes};
use faults::Fault;
use std::time::Instant;

struct Run {
    r: Random,
    desk: Desk,
    faults: Vec<Fault>,
    /// refusals by call and number
    given: [[u64; 10]; 5],
    /// by fault: how often it was the only one
    alone: Vec<u64>,
    together: u64,
}

impl Run {
    /// The call made: the refusal is due, and a refused call touched nothing.
    fn make(&mut self, c: &Call) -> Result<u32, String> {
        c.lay(&mut self.r, &mut self.desk);
        let due = c.due(&self.desk);
        let before = self.desk.snapshot();
        let number = c.make(&mut self.desk);
        self.given[c.which][number.min(9) as usize] += 1;
        if number != due {
            return Err(format!("refusal {due} is due, {number} was given"));
        }
        if !self.desk.zones_kept() {
            return Err("written beside a buffer".into());
        }
        match self.desk.changed(&before).first() {
            Some(i) if number != 0 => Err(format!("refused {number}, but {} has changed", NAMES[*i])),
            _ => Ok(number),
        }
    }

    /// One fault alone gives its own number.
    fn one(&mut self, c: &mut Call) -> Result<(), String> {
        let i = self.r.below(self.faults.len());
        let Fault { name, number, apply } = self.faults[i];
        if !c.knows(number) || !apply(&mut self.r, c) {
            return Ok(());
        }
        self.alone[i] += 1;
        match self.make(c).map_err(|e| format!("{name}: {e}"))? {
            given if given == number => Ok(()),
            given => Err(format!("{name}: alone it should give {number}, not {given}")),
        }
    }

    /// Two to four faults together.
    fn several(&mut self, c: &mut Call) -> Result<(), String> {
        let mut names = vec![];
        for _ in 0..self.r.within(2, 4) {
            let f = &self.faults[self.r.below(self.faults.len())];
            if (f.apply)(&mut self.r, c) {
                names.push(f.name);
            }
        }
        self.together += 1;
        self.make(c).map(|_| ()).map_err(|e| format!("{}: {e}", names.join(" and ")))
    }

    fn any(&mut self, description: &[u32], array: &shapes::Array) -> Result<(), String> {
        let which = self.r.pick(&[0, 1, 2, 2, 3, 3, 3, 4, 4, 4, 4]);
        let mut c = Call::sound(&mut self.r, which, description, array);
        let said = |c: &Call, e| format!("{}, n = {}: {e}\n  lengths {:?}\n  plan {:?}\n  {:?}", CALLS[which], c.n, c.lengths, c.plan, c.description);
        let done = match self.r.below(10) {
            0 => self.make(&c).and_then(|number| if number == 0 { Ok(()) } else { Err(format!("a sound call is refused {number}")) }),
            1..=6 => self.one(&mut c),
            _ => self.several(&mut c),
        };
        done.map_err(|e| said(&c, e))
    }

    fn all(&mut self, calls: u64) -> Result<(), String> {
        for _ in 0..calls / 20 {
            let (d, a) = invent::description(&mut self.r, invent::SMALL);
            for _ in 0..20 {
                self.any(&d, &a)?;
            }
        }
        self.limits()
    }

    /// 'Run only': width 32 and 33, n 1024 and 1025, one large layer and two.
    fn limits(&mut self) -> Result<(), String> {
        let layer = |kernel, dilation| {
            let mut y = [0u32; shapes::PLACES];
            [(0, 32), (1, kernel), (2, dilation), (3, 1), (4, 1), (6, 1), (10, 1)].iter().for_each(|(at, x)| y[*at] = *x);
            y
        };
        let with = |channels, layers: &[[u32; shapes::PLACES]]| [&[1, 1, channels, 32, 1, 1, 0, layers.len() as u32][..], &layers.concat()].concat();
        let (small, large) = (layer(2, 1), layer(16, 2048));
        let sound = with(32, &[small]);
        let rows = [
            (sound.clone(), 1024, 0),
            (sound, 1025, 6),
            (with(33, &[small]), 1, 2),
            (with(32, &[large]), 1024, 0),
            (with(32, &[large, large]), 1, 5),
        ];
        for (d, n, number) in rows {
            let array = shapes::take_apart(&d).or_else(|_| shapes::take_apart(&with(32, &[small]))).unwrap();
            let mut c = Call::sound(&mut self.r, 3, &d, &array);
            let l = common::calls::lengths(&array, n);
            c.lengths[4..10].copy_from_slice(&[l.input, l.condition, l.head_in, l.head_out, l.array_out, l.scratch]);
            c.n = n;
            if self.make(&c)? != number {
                return Err(format!("at the limits: {number} is due with n = {n} for {d:?}"));
            }
        }
        Ok(())
    }

    fn report(&self) {
        println!("| call | accepted | {} |", (1..10).map(|i| i.to_string()).collect::<Vec<_>>().join(" | "));
        println!("|{}", " --- |".repeat(11));
        for (name, row) in CALLS.iter().zip(&self.given) {
            println!("| {name} | {} |", row.map(|x| x.to_string()).join(" | "));
        }
        let seldom = self.alone.iter().min().unwrap();
        let all: u64 = self.given.iter().flatten().sum();
        println!("{all} calls; {} faults, each alone at least {seldom} times; {} calls with several faults", self.faults.len(), self.together);
    }
}

fn main() {
    let number = |i: usize, otherwise: u64| std::env::args().nth(i).map_or(otherwise, |a| a.parse().expect("a number"));
    let (calls, seed, started) = (number(1, 200_000), number(2, 1), Instant::now());
    let faults = faults::all();
    let alone = vec![0; faults.len()];
    let mut run = Run { r: Random::new(seed, 0), desk: Desk::default(), faults, given: [[0; 10]; 5], alone, together: 0 };
    let result = run.all(calls);
    run.report();
    match result {
        Ok(()) => println!("0 wrong answers, nothing touched by a refusal, seed {seed}, {:.0} s", started.elapsed().as_secs_f32()),
        Err(e) => {
            println!("wrong, seed {seed}, and the run stopped there:\n  {e}");
            std::process::exit(1);
        }
    }
}
