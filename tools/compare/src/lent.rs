//! A buffer to lend: a forbidden page before and after its area, so that one step too far on the hard side ends the program, and a painted zone on the
//! other side. The content lies flush with the end of the area or with its start, in turns.

use std::ffi::c_void;

extern "C" {
    fn mmap(at: *mut c_void, length: usize, protection: i32, flags: i32, file: i32, offset: i64) -> *mut c_void;
    fn mprotect(at: *mut c_void, length: usize, protection: i32) -> i32;
}

const PAGE: usize = 4096;
const NONE: i32 = 0;
const READ_WRITE: i32 = 3;
/// private, anonymous, no swap kept for it (Linux)
const FLAGS: i32 = 0x4022;
/// Words painted on the soft side.
const ZONE: usize = 64;
const PAINT: u32 = 0x5aa5_c33c;

/// Words of 32 bits: whole numbers or floats.
pub struct Lent {
    area: *mut u32,
    room: usize,
    start: usize,
    len: usize,
}

impl Lent {
    /// Room for at least `most` words. It lives as long as the program.
    pub fn new(most: usize) -> Lent {
        let room = ((most + ZONE) * 4).div_ceil(PAGE) * PAGE;
        // Safety: a fresh mapping of our own; only the part between the two forbidden pages is made writable and used
        let area = unsafe {
            let base = mmap(std::ptr::null_mut(), room + 2 * PAGE, NONE, FLAGS, -1, 0);
            assert!(base as isize != -1, "no memory");
            let area = base.byte_add(PAGE);
            assert!(mprotect(area, room, READ_WRITE) == 0, "no memory");
            area as *mut u32
        };
        Lent { area, room: room / 4, start: 0, len: 0 }
    }

    fn words_from(&self, start: usize, len: usize) -> &'static mut [u32] {
        assert!(start + len <= self.room);
        // Safety: within the area, which is never given back; each Lent hands out one such slice at a time to code of this crate
        unsafe { std::slice::from_raw_parts_mut(self.area.add(start), len) }
    }

    /// Where the painted zone is.
    fn zone(&self) -> &'static mut [u32] {
        if self.start == 0 {
            self.words_from(self.len, ZONE)
        } else {
            self.words_from(self.start - ZONE, ZONE)
        }
    }

    /// A content of `len` words, painted zone and all; its words are what they were in the area.
    pub fn lay(&mut self, len: usize, at_end: bool) -> &mut [u32] {
        assert!(len + ZONE <= self.room, "a buffer of {len} words is not foreseen");
        self.start = if at_end { self.room - len } else { 0 };
        self.len = len;
        self.zone().fill(PAINT);
        self.words_mut()
    }

    pub fn set(&mut self, words: &[u32], at_end: bool) {
        self.lay(words.len(), at_end).copy_from_slice(words);
    }

    pub fn set_floats(&mut self, floats: &[f32], at_end: bool) {
        self.lay(floats.len(), at_end);
        self.floats_mut().copy_from_slice(floats);
    }

    pub fn len(&self) -> usize {
        self.len
    }

    pub fn is_empty(&self) -> bool {
        self.len == 0
    }

    pub fn words(&self) -> &[u32] {
        self.words_from(self.start, self.len)
    }

    pub fn words_mut(&mut self) -> &mut [u32] {
        self.words_from(self.start, self.len)
    }

    pub fn floats(&self) -> &[f32] {
        let w = self.words();
        // Safety: every pattern of 32 bits is a float
        unsafe { std::slice::from_raw_parts(w.as_ptr() as *const f32, w.len()) }
    }

    pub fn floats_mut(&mut self) -> &mut [f32] {
        let w = self.words_mut();
        // Safety: every pattern of 32 bits is a float
        unsafe { std::slice::from_raw_parts_mut(w.as_mut_ptr() as *mut f32, w.len()) }
    }

    pub fn zone_kept(&self) -> bool {
        self.zone().iter().all(|w| *w == PAINT)
    }
}
