//! The library from Rust: a Player owns its buffers and lends them, so that no length can be wrong and no buffer overlaps another. Plays case A of the
//! scope paper as one block, column by column, and by a plan.

mod ffi {
    macro_rules! calls {
        ($($name:ident($($last:ident: $type:ty),*);)*) => {
            extern "C" {
                $(pub fn $name(
                    description: *const u32, description_len: usize, weights: *const f32, weights_len: usize,
                    histories: *mut f32, histories_len: usize, positions: *mut u32, positions_len: usize,
                    input: *const f32, input_len: usize, condition: *const f32, condition_len: usize,
                    head_in: *const f32, head_in_len: usize, head_out: *mut f32, head_out_len: usize,
                    array_out: *mut f32, array_out_len: usize, scratch: *mut f32, scratch_len: usize, $($last: $type),*
                ) -> u32;)*
            }
        };
    }
    calls! {
        wavenet_block(n: usize);
        wavenet_planned(n: usize, plan: *const u32, plan_len: usize);
    }
    extern "C" {
        pub fn wavenet_sizes(description: *const u32, description_len: usize, sizes: *mut u32) -> u32;
        pub fn wavenet_reset(description: *const u32, description_len: usize, histories: *mut f32, histories_len: usize, positions: *mut u32, positions_len: usize) -> u32;
    }
}

/// A refusal: its number in docs/RULES.md, 1 to 9.
#[derive(Debug, PartialEq, Eq)]
pub struct Refused(pub u32);

fn answer(number: u32) -> Result<(), Refused> {
    if number == 0 { Ok(()) } else { Err(Refused(number)) }
}

/// What a block brings, planar: channel c of column t at c x n + t.
#[derive(Clone, Copy)]
pub struct Columns<'a> {
    pub input: &'a [f32],
    pub condition: &'a [f32],
    pub head_in: &'a [f32],
}

/// One layer array with its weights and its memory.
pub struct Player {
    description: Vec<u32>,
    weights: Vec<f32>,
    histories: Vec<f32>,
    positions: Vec<u32>,
    scratch: Vec<f32>,
    widest: usize,
}

impl Player {
    /// A player as after a reset; or the description's refusal, or 7 where the weights are not as many as it asks for.
    pub fn new(description: &[u32], weights: &[f32]) -> Result<Player, Refused> {
        let mut sizes = [0u32; 5];
        answer(unsafe { ffi::wavenet_sizes(description.as_ptr(), description.len(), sizes.as_mut_ptr()) })?;
        let [weight_count, histories, positions, widest, _depth] = sizes.map(|n| n as usize);
        if weights.len() != weight_count {
            return Err(Refused(7));
        }
        let mut player = Player {
            description: description.to_vec(),
            weights: weights.to_vec(),
            histories: vec![0.0; histories],
            positions: vec![0; positions],
            scratch: Vec::new(),
            widest,
        };
        player.reset()?;
        Ok(player)
    }

    pub fn reset(&mut self) -> Result<(), Refused> {
        let (d, h, p) = (&self.description, &mut self.histories, &mut self.positions);
        answer(unsafe { ffi::wavenet_reset(d.as_ptr(), d.len(), h.as_mut_ptr(), h.len(), p.as_mut_ptr(), p.len()) })
    }

    /// n columns: the head outputs and the array outputs, planar. With a plan, in its turns. Refused, the player is as it was.
    pub fn play(&mut self, n: usize, columns: Columns, plan: Option<&[u32]>) -> Result<(Vec<f32>, Vec<f32>), Refused> {
        if n > 1024 {
            return Err(Refused(6)); // before room is made for n columns
        }
        self.scratch.resize(self.scratch.len().max(16 * self.widest * n), 0.0);
        let (mut head, mut array) = (vec![0.0; self.description[4] as usize * n], vec![0.0; self.description[2] as usize * n]);
        let (d, w, h, p, s) = (&self.description, &self.weights, &mut self.histories, &mut self.positions, &mut self.scratch);
        let Columns { input, condition, head_in } = columns;
        macro_rules! call {
            ($name:ident, $($last:expr),*) => {
                ffi::$name(d.as_ptr(), d.len(), w.as_ptr(), w.len(), h.as_mut_ptr(), h.len(), p.as_mut_ptr(), p.len(), input.as_ptr(), input.len(),
                    condition.as_ptr(), condition.len(), head_in.as_ptr(), head_in.len(), head.as_mut_ptr(), head.len(), array.as_mut_ptr(), array.len(),
                    s.as_mut_ptr(), s.len(), $($last),*)
            };
        }
        let number = match plan {
            None => unsafe { call!(wavenet_block, n) },
            Some(plan) => unsafe { call!(wavenet_planned, n, plan.as_ptr(), plan.len()) },
        };
        answer(number).map(|()| (head, array))
    }
}

fn print(how: &str, head: &[f32], array: &[f32]) {
    println!("{how}");
    for (t, (h, a)) in head.iter().zip(array).enumerate() {
        println!("{t} {:08x} {:08x}", h.to_bits(), a.to_bits());
    }
}

fn main() -> Result<(), Refused> {
    let mut case_a = vec![1, 1, 1, 1, 1, 1, 0, 1, 1, 2, 2, 1, 1, 0, 1, 0, 0, 0, 1, 1];
    case_a.resize(32, 0);
    let (input, condition, head_in) = ([1.0, 2.0, 3.0, -4.0], [0.0, 1.0, 0.0, 0.0], [1.0, 0.0, 0.0, 0.0]);
    let all = Columns { input: &input, condition: &condition, head_in: &head_in };
    let mut player = Player::new(&case_a, &[2.0, 1.0, 0.5, -1.0, 1.0, 2.0, 0.5, 3.0])?;

    let (head, array) = player.play(4, all, None)?;
    print("a block of four:", &head, &array);

    player.reset()?;
    let (mut heads, mut arrays) = (Vec::new(), Vec::new());
    for t in 0..4 {
        let (head, array) = player.play(1, Columns { input: &input[t..=t], condition: &condition[t..=t], head_in: &head_in[t..=t] }, None)?;
        heads.extend(head);
        arrays.extend(array);
    }
    print("four columns, one at a time:", &heads, &arrays);

    player.reset()?;
    let (head, array) = player.play(4, all, Some(&[0, 2, 1, 1, 0, 2, 1, 3, 2, 4]))?;
    print("by the plan (0,2)(1,1)(0,2)(1,3)(2,4):", &head, &array);
    println!("by the plan (0,1)(1,2), in which the layer gets ahead: {:?}", player.play(4, all, Some(&[0, 1, 1, 2])).unwrap_err());
    Ok(())
}
