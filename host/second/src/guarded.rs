//! Memory that ends where no page is: a read or write past its end stops the program at once,
//! whatever language the library was compiled from.

use std::ffi::c_void;

extern "C" {
    fn mmap(address: *mut c_void, length: usize, protection: i32, flags: i32, file: i32, offset: i64) -> *mut c_void;
    fn mprotect(address: *mut c_void, length: usize, protection: i32) -> i32;
}

const PAGE: usize = 4096;
const NONE: i32 = 0;
const READ_WRITE: i32 = 3;
/// Private and anonymous, as Linux numbers them.
const FLAGS: i32 = 0x22;

/// Room for `size` bytes, whole pages, with a closed page on either side. Kept until the program ends.
pub struct Guarded {
    start: *mut u8,
    size: usize,
}

impl Guarded {
    pub fn new(size: usize) -> Guarded {
        let size = size.div_ceil(PAGE) * PAGE;
        // The whole is closed first, then its middle is opened.
        unsafe {
            let base = mmap(std::ptr::null_mut(), size + 2 * PAGE, NONE, FLAGS, -1, 0) as *mut u8;
            assert!(base as isize != -1, "no memory");
            let start = base.add(PAGE);
            assert!(mprotect(start as *mut c_void, size, READ_WRITE) == 0, "no memory");
            Guarded { start, size }
        }
    }

    fn place(&mut self, size: usize, at_end: bool) -> *mut u8 {
        assert!(size <= self.size, "guarded memory too small");
        unsafe { self.start.add(if at_end { self.size - size } else { 0 }) }
    }

    /// A copy of the bytes, flush with the closed page after it or before it.
    pub fn bytes(&mut self, bytes: &[u8], at_end: bool) -> &mut [u8] {
        let place = self.place(bytes.len(), at_end);
        unsafe {
            std::ptr::copy(bytes.as_ptr(), place, bytes.len());
            std::slice::from_raw_parts_mut(place, bytes.len())
        }
    }

    /// A copy of the cells, flush with the closed page after it or before it.
    pub fn cells(&mut self, cells: &[i32], at_end: bool) -> &mut [i32] {
        let place = self.place(4 * cells.len(), at_end) as *mut i32;
        unsafe {
            std::ptr::copy(cells.as_ptr(), place, cells.len());
            std::slice::from_raw_parts_mut(place, cells.len())
        }
    }
}

/// Copies of some texts, each flush with a closed page of its own room, by where they start. With `once` equal texts
/// are one and the same; an empty text is null half of the time.
pub fn lend<const N: usize>(rooms: &mut [Guarded; N], texts: [&[u8]; N], at_end: bool, once: bool) -> [*const u8; N] {
    let mut starts = [std::ptr::null(); N];
    for place in 0..N {
        let text = texts[place];
        let same = (0..place).find(|&earlier| once && texts[earlier] == text);
        starts[place] = match same {
            Some(earlier) => starts[earlier],
            None if text.is_empty() && at_end => std::ptr::null(),
            None => rooms[place].bytes(text, at_end).as_ptr(),
        };
    }
    starts
}

/// Stops the program where a text was written to.
///
/// # Safety
/// Each start is null, or good for its text's length.
pub unsafe fn assert_untouched<const N: usize>(starts: [*const u8; N], texts: [&[u8]; N]) {
    for (start, text) in starts.into_iter().zip(texts).filter(|(start, _)| !start.is_null()) {
        assert!(std::slice::from_raw_parts(start, text.len()) == text, "a text was written to");
    }
}
