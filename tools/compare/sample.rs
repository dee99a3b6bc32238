//! Stored answers: files for the program `ampline` (CASE.wna), what it has to print (CASE.out), and the memory it ends with (CASE.memory). The outputs are
//! the original Rust's, found equal to the plain recurrence's; broken files have the plain program's answer alone.

use crate::program::{self, File};
use crate::theirs;
use common::invent::{self, Reach};
use common::random::{Kind, Random};
use common::{bits, shapes};
use std::fs;
use std::path::Path;

/// The largest file in bytes: the cases are kept in the repository.
const MOST_BYTES: usize = 6000;

/// Case A of docs/RULES.md.
fn case_a() -> File {
    let mut description = vec![1, 1, 1, 1, 1, 1, 0, 1, 1, 2, 2, 1, 1, 0, 1, 0, 0, 0, 1, 1];
    description.resize(32, 0);
    let weights = vec![2.0, 1.0, 0.5, -1.0, 1.0, 2.0, 0.5, 3.0];
    let signal = vec![1.0, 0.0, 1.0, 2.0, 1.0, 0.0, 3.0, 0.0, 0.0, -4.0, 0.0, 0.0];
    File { block: 4, columns: 4, description, weights, signal }
}

/// What a sound case is about: its reach, the kinds of its weights and of its signal, what its description and the outputs have to show.
struct Wish {
    name: &'static str,
    reach: Reach,
    weights: Kind,
    signal: Kind,
    wanted: fn(&[u32]) -> bool,
    shown: fn(&[u32]) -> bool,
}

/// A file within the program's limits and small enough to keep.
fn invented(r: &mut Random, wish: &Wish) -> File {
    loop {
        let (description, a) = invent::description(r, wish.reach);
        let bytes = 4 * (description.len() + a.weights);
        if !(wish.wanted)(&description) || a.histories > 16_384 || bytes > MOST_BYTES - 1000 {
            continue;
        }
        let width = a.input + a.condition + a.head_in;
        let columns = ((MOST_BYTES - bytes) / (4 * width)).min(40);
        let block = r.within(1, (1024 / a.widest).min(columns)) as u16;
        let weights = invent::weights(r, &a, wish.weights);
        let f = File { block, columns: columns as u32, description, weights, signal: r.numbers(wish.signal, columns * width) };
        if (wish.shown)(&outputs(&program::play(&f.bytes()).text)) {
            return f;
        }
    }
}

/// The patterns that are printed.
fn outputs(text: &str) -> Vec<u32> {
    text.split_whitespace().filter(|w| w.len() == 8).map(|w| u32::from_str_radix(w, 16).unwrap()).collect()
}

fn share(x: &[u32], of: impl Fn(u32) -> bool) -> f32 {
    x.iter().filter(|b| of(**b)).count() as f32 / x.len() as f32
}

fn few_nans(x: &[u32]) -> bool {
    share(x, |b| b == 0x7fc0_0000) < 0.5
}

/// The Rust's own print of a whole file, one column at a time.
fn by_theirs(f: &File) -> Option<String> {
    let a = shapes::take_apart(&f.description).unwrap();
    let mut t = theirs::original(&f.description, &f.weights)?;
    let mut text = String::new();
    for (i, c) in f.signal.chunks(a.input + a.condition + a.head_in).enumerate() {
        let (mut head, mut out) = (vec![0.0; a.head_size], vec![0.0; a.channels]);
        let (input, more) = c.split_at(a.input);
        t.column(input, &more[..a.condition], &more[a.condition..], &mut head, &mut out);
        text += &i.to_string();
        head.iter().chain(&out).for_each(|x| text += &format!(" {:08x}", bits(*x)));
        text += "\n";
    }
    Some(text + &format!("end {}\n", f.columns))
}

fn memory(p: &program::Printed) -> String {
    let floats: Vec<String> = p.memory.histories.iter().map(|x| format!("{:08x}", bits(*x))).collect();
    let places: Vec<String> = p.memory.positions.iter().map(|x| x.to_string()).collect();
    format!("histories {}\npositions {}\n", floats.join(" "), places.join(" "))
}

/// One case written; a sound one has the Rust's answer.
fn write(dir: &Path, name: &str, bytes: &[u8], sound: Option<&File>) {
    let printed = program::play(bytes);
    if let Some(text) = sound.and_then(by_theirs) {
        assert_eq!(text, printed.text, "{name}: the Rust prints something else");
    }
    fs::write(dir.join(format!("{name}.wna")), bytes).unwrap();
    fs::write(dir.join(format!("{name}.out")), &printed.text).unwrap();
    if sound.is_some() {
        fs::write(dir.join(format!("{name}.memory")), memory(&printed)).unwrap();
    }
}

/// Ordinary numbers, and what the description is about: places 8 to 31 are the first layer's.
fn shapes_wished() -> Vec<Wish> {
    let small = invent::SMALL;
    let wide = Reach { width: 32, ..small };
    let deep = Reach { width: 2, kernel: 3, dilation: 64, layers: 8 };
    let far = Reach { width: 2, kernel: 16, dilation: 40, layers: 2 };
    let wish = |name, reach, wanted| Wish { name, reach, weights: Kind::Ordinary, signal: Kind::Ordinary, wanted, shown: few_nans };
    vec![
        wish("none", small, |d| d[13] == 0 && d[7] == 1),
        wish("gated", small, |d| d[13] == 1 && d[14] == 0 && d[16] == 2),
        wish("blended", small, |d| d[13] == 2),
        wish("sites-none", small, |d| d[13] == 0 && d[23..31].iter().all(|g| *g > 0)),
        wish("sites-gated", small, |d| d[13] == 1 && d[23..31].iter().all(|g| *g > 0)),
        wish("sites-blended", small, |d| d[13] == 2 && d[18] > 0 && d[20] > 0 && d[23..31].iter().all(|g| *g > 0)),
        wish("site-6-gated", small, |d| d[13] == 1 && d[18] > 0 && d[29] > 0),
        wish("site-7-no-head", small, |d| d[20] == 0 && d[30] > 0),
        wish("groups", wide, |d| d[11] > 1 && d[12] > 1 && (d[18] > 1 || d[21] > 1)),
        wish("site-groups", small, |d| d[23..31].iter().filter(|g| **g > 1).count() > 2),
        wish("no-layer1x1", small, |d| d[18] == 0 && d[7] > 1),
        wish("head-kernel", small, |d| d[5] > 2 && d[6] == 0),
        wish("deep", deep, |d| d[7] > 5),
        wish("far", far, |d| d[9] > 8 && d[10] > 20),
        wish("wide", wide, |d| d[0] > 20 && d[7] == 1),
        wish("slopes", small, |d| d[14] == 3 && d[15] > 0x7f80_0000),
    ]
}

/// Odd numbers, and what has to come of them.
fn numbers_wished() -> Vec<Wish> {
    let wish = |name, weights, signal, wanted, shown| Wish { name, reach: invent::SMALL, weights, signal, wanted, shown };
    vec![
        wish("zeros", Kind::Zeros, Kind::Zeros, |d| d[6] == 1, |x| share(x, |b| b == 0x8000_0000) > 0.05 && few_nans(x)),
        wish("huge", Kind::Ordinary, Kind::Huge, |d| d[7] > 1, |x| share(x, |b| b << 1 == 0xff00_0000) > 0.02 && few_nans(x)),
        wish("subnormal", Kind::Small, Kind::Small, |d| d[7] > 1, |x| share(x, |b| b << 1 != 0 && b << 1 >> 24 == 0) > 0.02 && few_nans(x)),
        wish("wild", Kind::Ordinary, Kind::Wild, |d| d[7] > 1, |x| share(x, |b| b == 0x7fc0_0000) > 0.1 && few_nans(x)),
        wish("any-bits", Kind::Any, Kind::Any, |d| d[7] > 1, few_nans),
    ]
}

/// Files that are not whole or not sound.
fn broken() -> Vec<(&'static str, Vec<u8>)> {
    let whole = case_a().bytes();
    let changed = |at: usize, to: u8| {
        let mut b = whole.clone();
        b[at] = to;
        b
    };
    vec![
        ("empty", vec![]),
        ("short-header", whole[..14].to_vec()),
        ("magic", changed(0, b'w')),
        ("version", changed(3, 2)),
        ("block-0", changed(5, 0)),
        ("count-585", [&changed(7, 0x49)[..8], &[2], &whole[9..]].concat()),
        ("count-7", changed(7, 7)),
        ("short-description", whole[..100].to_vec()),
        ("zero-width", changed(15, 0)),
        ("groups-of-2", changed(15 + 4 * 11, 2)),
        ("bottleneck-2", changed(15 + 4 * 8, 2)),
        ("short-weights", whole[..15 + 4 * 39].to_vec()),
        ("cut-column", whole[..whole.len() - 1].to_vec()),
        ("columns-missing", whole[..15 + 4 * (32 + 8 + 6)].to_vec()),
        ("left-over", [&whole[..], &[0]].concat()),
        ("no-columns", changed(11, 0)[..15 + 4 * 40].to_vec()),
    ]
}

/// The program's own limits, at them and one past them.
fn limits() -> Vec<(&'static str, Vec<u8>)> {
    let a = case_a();
    let with = |block: u16, columns: u32, changes: &[(usize, u32)]| {
        let mut description = a.description.clone();
        changes.iter().for_each(|(at, to)| description[*at] = *to);
        File { block, columns, description, weights: a.weights.clone(), signal: a.signal.clone() }.bytes()
    };
    let layer = &[32, 16, 2048, 1, 1, 0, 1, 0, 0, 0, 1, 1, 0, 0, 0, 0, 0, 0, 0, 0, 0, 0, 0, 0];
    let two = [&[1, 1, 32, 32, 1, 1, 0, 2], &layer[..], &layer[..]].concat();
    vec![
        ("block-1024", with(1024, 4, &[])),
        ("block-1025", with(1025, 4, &[])),
        ("block-1024-w-2", with(1024, 4, &[(0, 2)])),
        ("histories-11", with(1, 4, &[(9, 9), (10, 2048)])),
        ("histories-5", File { block: 1, columns: 0, description: two, weights: vec![], signal: vec![] }.bytes()),
        ("columns-2-32", with(3, u32::MAX, &[])),
    ]
}

pub fn write_all(dir: &str, seed: u64) {
    let dir = Path::new(dir);
    fs::create_dir_all(dir).unwrap();
    let a = case_a();
    write(dir, "case-a", &a.bytes(), Some(&a));
    let wishes: Vec<Wish> = shapes_wished().into_iter().chain(numbers_wished()).collect();
    for (i, wish) in wishes.iter().enumerate() {
        let f = invented(&mut Random::new(seed, i as u64), wish);
        write(dir, wish.name, &f.bytes(), Some(&f));
    }
    let others: Vec<_> = broken().into_iter().chain(limits()).collect();
    others.iter().for_each(|(name, bytes)| write(dir, name, bytes, None));
    println!("{} sound files, {} broken ones or at a limit, in {}", 1 + wishes.len(), others.len(), dir.display());
}
