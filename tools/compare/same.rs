//! What is compared, and how it is counted.

use common::bits;

/// What has been done so far.
#[derive(Default)]
pub struct Counts {
    pub plays: u64,
    pub calls: u64,
    pub refused: u64,
    pub columns: u64,
    pub numbers: u64,
    pub nans: u64,
}

/// The first difference, said in words.
pub type Same = Result<(), String>;

pub fn same_floats(counts: &mut Counts, what: &str, who: &str, a: &[f32], b: &[f32]) -> Same {
    counts.numbers += a.len() as u64;
    counts.nans += a.iter().filter(|x| x.is_nan()).count() as u64;
    if a.len() != b.len() {
        return Err(format!("{what}: {} numbers by the recurrence, {} by {who}", a.len(), b.len()));
    }
    match (0..a.len()).find(|i| bits(a[*i]) != bits(b[*i])) {
        Some(i) => Err(format!("{what}[{i}] is {:08x} by the recurrence, {:08x} by {who}", bits(a[i]), bits(b[i]))),
        None => Ok(()),
    }
}

pub fn same_words(counts: &mut Counts, what: &str, who: &str, a: &[u32], b: &[u32]) -> Same {
    counts.numbers += a.len() as u64;
    if a == b {
        Ok(())
    } else {
        Err(format!("{what}: {a:?} by the recurrence, {b:?} by {who}"))
    }
}
