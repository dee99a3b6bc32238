//! docs/RULES.md, 'The program', written plainly: what `ampline` prints for a file, and how such a file is put together.

use common::calls::{self, Block, Way};
use common::recurrence::{self, Engine, Memory};
use common::{bits, shapes};

/// A file's parts; `bytes` joins them.
pub struct File {
    pub block: u16,
    pub columns: u32,
    pub description: Vec<u32>,
    pub weights: Vec<f32>,
    /// each column's input, condition and incoming head, one column after the other
    pub signal: Vec<f32>,
}

impl File {
    pub fn bytes(&self) -> Vec<u8> {
        let mut out = b"WNA".to_vec();
        out.extend(1u16.to_le_bytes());
        out.extend(self.block.to_le_bytes());
        out.extend((self.description.len() as u32).to_le_bytes());
        out.extend(self.columns.to_le_bytes());
        out.extend(self.description.iter().flat_map(|x| x.to_le_bytes()));
        out.extend(self.weights.iter().chain(&self.signal).flat_map(|x| x.to_le_bytes()));
        out
    }
}

/// The bytes that are not yet read.
struct Rest<'a>(&'a [u8]);

impl<'a> Rest<'a> {
    fn take(&mut self, count: usize) -> Result<&'a [u8], u32> {
        if self.0.len() < count {
            return Err(10);
        }
        let (head, rest) = self.0.split_at(count);
        self.0 = rest;
        Ok(head)
    }
    fn words(&mut self, count: usize) -> Result<Vec<u32>, u32> {
        Ok(self.take(4 * count)?.chunks(4).map(|b| u32::from_le_bytes(b.try_into().unwrap())).collect())
    }
    fn floats(&mut self, count: usize) -> Result<Vec<f32>, u32> {
        Ok(self.words(count)?.into_iter().map(f32::from_bits).collect())
    }
}

/// What is printed, line by line, and the memory at the end.
#[derive(Default)]
pub struct Printed {
    pub text: String,
    pub memory: Memory,
}

/// All that comes before the columns: description, weights, column count.
fn opening(rest: &mut Rest) -> Result<(shapes::Array, Vec<f32>, u32), u32> {
    let head = rest.take(15)?;
    let half = |i: usize| u16::from_le_bytes(head[i..i + 2].try_into().unwrap());
    let word = |i: usize| u32::from_le_bytes(head[i..i + 4].try_into().unwrap());
    let (version, block, count, columns) = (half(3), half(5), word(7), word(11));
    if &head[..3] != b"WNA" || version != 1 || block == 0 || block > 1024 {
        return Err(10);
    }
    if count > 584 {
        return Err(11);
    }
    let array = shapes::take_apart(&rest.words(count as usize)?)?;
    if array.weights > 16_384 || array.histories > 16_384 || array.widest * block as usize > 1024 {
        return Err(11);
    }
    let weights = rest.floats(array.weights)?;
    Ok((array, weights, columns))
}

/// The columns that are whole, and the refusal after them.
fn columns(rest: &mut Rest, array: &shapes::Array, weights: &[f32], count: u32, out: &mut Printed) -> Result<(), u32> {
    let mut e = Engine { array, weights, memory: recurrence::reset(array) };
    for index in 0..count {
        let Ok(block) = column(rest, array) else {
            out.memory = e.memory;
            return Err(10);
        };
        let answer = calls::run(&mut e, &Way::Column, &block);
        out.text += &index.to_string();
        for x in answer.head_out.iter().chain(&answer.array_out) {
            out.text += &format!(" {:08x}", bits(*x));
        }
        out.text += "\n";
    }
    out.memory = e.memory;
    if rest.0.is_empty() {
        Ok(())
    } else {
        Err(10)
    }
}

fn column(rest: &mut Rest, a: &shapes::Array) -> Result<Block, u32> {
    let all = rest.floats(a.input + a.condition + a.head_in)?;
    let (input, more) = all.split_at(a.input);
    let (condition, head_in) = more.split_at(a.condition);
    Ok(Block { input: input.to_vec(), condition: condition.to_vec(), head_in: head_in.to_vec() })
}

pub fn play(bytes: &[u8]) -> Printed {
    let (mut rest, mut out) = (Rest(bytes), Printed::default());
    let end = opening(&mut rest).and_then(|(array, weights, count)| columns(&mut rest, &array, &weights, count, &mut out).map(|()| count));
    out.text += &match end {
        Ok(count) => format!("end {count}\n"),
        Err(number) => format!("refused {number}\n"),
    };
    out
}
