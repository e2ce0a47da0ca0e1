//! Memory to lend, in which a step outside is seen.
use std::ffi::{c_int, c_void};

/// The kinds of numbers that tables have.
pub trait Word: Copy + Default + PartialEq {
    /// The number's low bits.
    fn cut(number: u64) -> Self;
}

impl Word for u64 {
    fn cut(number: u64) -> u64 {
        number
    }
}

impl Word for u32 {
    fn cut(number: u64) -> u32 {
        number as u32
    }
}

impl Word for u16 {
    fn cut(number: u64) -> u16 {
        number as u16
    }
}

impl Word for u8 {
    fn cut(number: u64) -> u8 {
        number as u8
    }
}

/// How memory is lent.
#[derive(Clone, Copy)]
pub enum Placing {
    /// Against a page that can't be read or written, past the end or before the start, with canaries up to such a page on the other side.
    Paged { at_end: bool },
    /// As a block of the heap of exactly its length, for valgrind to watch its edges.
    Heap,
}

/// A lent slice.
pub enum Lent<T> {
    Paged(Paged<T>),
    Heap(Box<[T]>),
}

impl<T: Word> Lent<T> {
    pub fn new(length: usize, placing: Placing) -> Lent<T> {
        match placing {
            Placing::Paged { at_end } => Lent::Paged(Paged::new(length, at_end)),
            Placing::Heap => Lent::Heap(vec![T::default(); length].into()),
        }
    }

    pub fn words(&mut self) -> &mut [T] {
        match self {
            // SAFETY: the pages have been mapped for `length` elements from `start`, which is aligned, and belong to `self`.
            Lent::Paged(paged) => unsafe {
                std::slice::from_raw_parts_mut(paged.start, paged.length)
            },
            Lent::Heap(words) => words,
        }
    }

    /// Are the canaries as they were?
    pub fn canaries_live(&self) -> bool {
        match self {
            Lent::Paged(paged) => paged.canaries().iter().all(|&byte| byte == CANARY),
            Lent::Heap(_) => true,
        }
    }
}

const PAGE: usize = 4096;
const CANARY: u8 = 0xA5;

/// Pages of which the first and the last can't be touched, with a slice at one end of what is between.
pub struct Paged<T> {
    first: *mut u8,
    pages: usize,
    start: *mut T,
    length: usize,
    at_end: bool,
}

const PROT_NONE: c_int = 0;
const PROT_READ_WRITE: c_int = 3;
const MAP_PRIVATE_ANONYMOUS: c_int = 0x22;

// SAFETY: these are the C library's, with the types and numbers of x86-64 Linux.
unsafe extern "C" {
    fn mmap(
        address: *mut c_void,
        length: usize,
        protection: c_int,
        flags: c_int,
        file: c_int,
        offset: i64,
    ) -> *mut c_void;
    fn mprotect(address: *mut c_void, length: usize, protection: c_int) -> c_int;
    fn munmap(address: *mut c_void, length: usize) -> c_int;
}

impl<T: Word> Paged<T> {
    fn new(length: usize, at_end: bool) -> Paged<T> {
        let bytes = length * size_of::<T>();
        let between = bytes.next_multiple_of(PAGE);
        let pages = between / PAGE + 2;
        // SAFETY: a new mapping is asked for, of `pages` pages, and what is done with it stays inside: `between` bytes after the first page.
        unsafe {
            let first = mmap(
                std::ptr::null_mut(),
                pages * PAGE,
                PROT_NONE,
                MAP_PRIVATE_ANONYMOUS,
                -1,
                0,
            );
            assert!(first.addr() != usize::MAX, "no memory");
            let first: *mut u8 = first.cast();
            let inside = first.add(PAGE);
            if between > 0 {
                let opened = mprotect(inside.cast(), between, PROT_READ_WRITE);
                assert!(opened == 0, "the pages can't be opened");
            }
            let (start, canaries) = if at_end {
                (inside.add(between - bytes), inside)
            } else {
                (inside, inside.add(bytes))
            };
            canaries.write_bytes(CANARY, between - bytes);
            Paged {
                first,
                pages,
                start: start.cast(),
                length,
                at_end,
            }
        }
    }

    /// The bytes between the slice and the page that it doesn't touch.
    fn canaries(&self) -> &[u8] {
        let bytes = self.length * size_of::<T>();
        let rest = (self.pages - 2) * PAGE - bytes;
        // SAFETY: the slice and these bytes together are the pages between the first and the last.
        unsafe {
            let from = if self.at_end {
                self.first.add(PAGE)
            } else {
                self.first.add(PAGE + bytes)
            };
            std::slice::from_raw_parts(from, rest)
        }
    }
}

impl<T> Drop for Paged<T> {
    fn drop(&mut self) {
        // SAFETY: this mapping is `self`'s own.
        let closed = unsafe { munmap(self.first.cast(), self.pages * PAGE) };
        assert!(closed == 0, "the pages can't be given back");
    }
}
