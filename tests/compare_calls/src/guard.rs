//! Words that end, or begin, at a page that may not be touched: a word read or written outside is a crash, and so is a
//! word written that is lent to be read.

use std::cell::RefCell;
use std::collections::HashMap;
use std::ffi::c_void;
use std::ops::{Deref, DerefMut};
use std::ptr;

/// Where the words stand between the two pages that may not be touched.
#[derive(Clone, Copy, PartialEq, Eq, Debug)]
pub enum Flush {
    Left,
    Right,
}

/// What may be done with the words.
#[derive(Clone, Copy, PartialEq, Eq, Debug)]
pub enum Access {
    Read = 1,
    ReadWrite = 3,
}

const PAGE: usize = 4096;
const PROT_NONE: i32 = 0;
const MAP_PRIVATE_ANONYMOUS: i32 = 0x22;

extern "C" {
    fn mmap(at: *mut c_void, len: usize, prot: i32, flags: i32, fd: i32, offset: i64) -> *mut c_void;
    fn mprotect(at: *mut c_void, len: usize, prot: i32) -> i32;
}

pub struct Guarded {
    map: *mut u8,
    map_len: usize,
    words: *mut u32,
    len: usize,
    flush: Flush,
    access: Access,
}

thread_local! {
    /// Maps that are free again, by their length: a fresh one for all that is lent would take most of the time.
    static FREE: RefCell<HashMap<usize, Vec<*mut u8>>> = RefCell::default();
}

/// A fresh map whose first and last page may not be touched.
fn map_of(map_len: usize) -> *mut u8 {
    // SAFETY: a fresh anonymous map, to which no one refers yet.
    unsafe {
        let map = mmap(ptr::null_mut(), map_len, PROT_NONE, MAP_PRIVATE_ANONYMOUS, -1, 0).cast::<u8>();
        assert!(map as isize != -1, "mmap");
        allow(map, map_len, Access::ReadWrite);
        map
    }
}

/// # Safety
/// The map is one of `map_of`, of this length, and no one refers to its words.
unsafe fn allow(map: *mut u8, map_len: usize, access: Access) {
    let room = map_len - 2 * PAGE;
    if room > 0 {
        assert_eq!(mprotect(map.add(PAGE).cast(), room, access as i32), 0, "mprotect");
    }
}

impl Guarded {
    pub fn new(words: &[u32], flush: Flush) -> Self {
        let bytes = words.len() * 4;
        let room = bytes.next_multiple_of(PAGE);
        let map_len = room + 2 * PAGE;
        let free = FREE.with_borrow_mut(|free| free.get_mut(&map_len).and_then(Vec::pop));
        let map = free.unwrap_or_else(|| map_of(map_len));
        let start = match flush {
            Flush::Left => PAGE,
            Flush::Right => PAGE + room - bytes,
        };
        // SAFETY: the words stand inside the room of the map, which may be written and is no one else's.
        unsafe {
            let at = map.add(start).cast::<u32>();
            ptr::copy_nonoverlapping(words.as_ptr(), at, words.len());
            Self { map, map_len, words: at, len: words.len(), flush, access: Access::ReadWrite }
        }
    }

    /// Words that may only be read.
    pub fn read_only(words: &[u32], flush: Flush) -> Self {
        let mut guarded = Self::new(words, flush);
        guarded.allow(Access::Read);
        guarded
    }

    pub fn allow(&mut self, access: Access) {
        if access != self.access {
            // SAFETY: the map is this one's alone, and every reference to the words borrows `self`.
            unsafe { allow(self.map, self.map_len, access) };
            self.access = access;
        }
    }

    /// The first word, for a call that may write it only if that is allowed.
    pub fn first(&self) -> *mut u32 {
        self.words
    }

    pub fn flush(&self) -> Flush {
        self.flush
    }
}

impl Clone for Guarded {
    fn clone(&self) -> Self {
        Self::new(self, self.flush)
    }
}

impl Drop for Guarded {
    fn drop(&mut self) {
        self.allow(Access::ReadWrite);
        FREE.with_borrow_mut(|free| free.entry(self.map_len).or_default().push(self.map));
    }
}

impl Deref for Guarded {
    type Target = [u32];

    fn deref(&self) -> &[u32] {
        // SAFETY: `len` words stand at `words`, for as long as the map does.
        unsafe { std::slice::from_raw_parts(self.words, self.len) }
    }
}

impl DerefMut for Guarded {
    fn deref_mut(&mut self) -> &mut [u32] {
        self.allow(Access::ReadWrite);
        // SAFETY: as in `deref`, `self` is borrowed alone, and the words may be written.
        unsafe { std::slice::from_raw_parts_mut(self.words, self.len) }
    }
}
