//! What the comparison, the fault runs and the benchmark share: docs/RULES.md written down plainly (`shapes`, `recurrence`, `calls`), the exported
//! functions over guarded memory (`library`, `desk`, `lent`), and things to try (`random`, `invent`).

pub mod calls;
pub mod desk;
pub mod invent;
pub mod lent;
pub mod library;
pub mod random;
pub mod recurrence;
pub mod shapes;

/// A number's pattern, with every NaN as one.
pub fn bits(x: f32) -> u32 {
    if x.is_nan() {
        0x7fc0_0000
    } else {
        x.to_bits()
    }
}
