//! Slices of exact length against an inaccessible page, with canaries on the side where there is none. A byte read or written past the
//! page's side is a fault, which ends the program with the seed; one written on the other side is found by `intact`.
use std::{
    cell::RefCell,
    collections::HashMap,
    fs::File,
    ops::{Deref, DerefMut},
    os::fd::AsRawFd,
    ptr::null_mut,
    slice,
    sync::atomic::{AtomicU64, Ordering},
};

unsafe extern "C" {
    fn mmap(address: *mut u8, length: usize, protection: i32, flags: i32, file: i32, offset: i64) -> *mut u8;
    fn mprotect(address: *mut u8, length: usize, protection: i32) -> i32;
    fn munmap(address: *mut u8, length: usize) -> i32;
    fn signal(number: i32, handler: usize) -> usize;
    fn write(file: i32, bytes: *const u8, length: usize) -> isize;
    fn _exit(status: i32) -> !;
}
pub const PAGE: usize = 4096;
const NONE: i32 = 0;
const READ: i32 = 1;
const READ_WRITE: i32 = 3;
const PRIVATE_ANONYMOUS: i32 = 0x22;
const SHARED_FIXED: i32 = 0x11;
const CANARY: u8 = 0xa5;
/// Regions of more pages than this are given back and not kept for later.
const KEPT_PAGES: usize = 256;

/// What a fault prints.
pub static SEED: AtomicU64 = AtomicU64::new(0);

extern "C" fn fault(_: i32) {
    let print = |text: &[u8]| unsafe { write(1, text.as_ptr(), text.len()) };
    let (mut digits, mut from, mut seed) = ([0; 20], 20, SEED.load(Ordering::Relaxed));
    while from == 20 || seed != 0 {
        from -= 1;
        digits[from] = b'0' + (seed % 10) as u8;
        seed /= 10;
    }
    print(b"seed ");
    print(&digits[from..]);
    print(b": a byte outside of a lent slice was touched, or one written that is lent to be read\n0 passed, 1 failed\n");
    unsafe { _exit(1) }
}
/// SIGSEGV and SIGBUS print the seed and end with status 1.
pub fn report_faults() {
    for number in [11, 7] {
        unsafe { signal(number, fault as *const () as usize) };
    }
}

/// `length` bytes of pages, readable and writable, between two inaccessible pages.
fn map(length: usize) -> *mut u8 {
    unsafe {
        let all = mmap(null_mut(), length + 2 * PAGE, NONE, PRIVATE_ANONYMOUS, -1, 0);
        assert!(all as isize != -1, "mmap");
        let first = all.add(PAGE);
        assert_eq!(mprotect(first, length, READ_WRITE), 0);
        first
    }
}
thread_local! {
    static FREE: RefCell<HashMap<usize, Vec<*mut u8>>> = RefCell::default();
}

#[derive(Clone, Copy)]
pub enum Side {
    Before,
    Behind,
}

/// A slice of its own, right behind an inaccessible page (`Before`) or right before one (`Behind`).
pub struct Guarded<T> {
    first: *mut u8,
    pages: usize,
    at: *mut T,
    length: usize,
    frozen: bool,
}
impl<T: Copy> Guarded<T> {
    pub fn filled(side: Side, length: usize, value: T) -> Self {
        let guarded = Self::raw(side, length);
        for n in 0..length {
            unsafe { guarded.at.add(n).write(value) };
        }
        guarded
    }
    pub fn of(side: Side, values: &[T]) -> Self {
        let guarded = Self::raw(side, values.len());
        unsafe { guarded.at.copy_from_nonoverlapping(values.as_ptr(), values.len()) };
        guarded
    }
    fn raw(side: Side, length: usize) -> Self {
        let bytes = length * size_of::<T>();
        let pages = bytes.div_ceil(PAGE).max(1);
        let first = FREE.with_borrow_mut(|free| free.get_mut(&pages).and_then(Vec::pop)).unwrap_or_else(|| map(pages * PAGE));
        let rest = pages * PAGE - bytes;
        let (offset, canaries) = match side {
            Side::Before => (0, bytes),
            Side::Behind => (rest, 0),
        };
        unsafe {
            first.add(canaries).write_bytes(CANARY, rest);
            Self { first, pages, at: first.add(offset).cast(), length, frozen: false }
        }
    }
    /// Whether all canaries are as they were.
    pub fn intact(&self) -> bool {
        let (all, bytes) = (self.pages * PAGE, self.length * size_of::<T>());
        let before = self.at as usize - self.first as usize;
        let part = |from: usize, length: usize| unsafe { slice::from_raw_parts(self.first.add(from), length) };
        part(0, before).iter().chain(part(before + bytes, all - before - bytes)).all(|&byte| byte == CANARY)
    }
    /// From now on a byte written is a fault.
    pub fn frozen(mut self) -> Self {
        assert_eq!(unsafe { mprotect(self.first, self.pages * PAGE, READ) }, 0);
        self.frozen = true;
        self
    }
}
impl<T> Deref for Guarded<T> {
    type Target = [T];
    fn deref(&self) -> &[T] {
        unsafe { slice::from_raw_parts(self.at, self.length) }
    }
}
impl<T> DerefMut for Guarded<T> {
    fn deref_mut(&mut self) -> &mut [T] {
        assert!(!self.frozen);
        unsafe { slice::from_raw_parts_mut(self.at, self.length) }
    }
}
impl<T> Drop for Guarded<T> {
    fn drop(&mut self) {
        let length = self.pages * PAGE;
        unsafe {
            if self.pages > KEPT_PAGES {
                munmap(self.first.sub(PAGE), length + 2 * PAGE);
                return;
            }
            if self.frozen {
                assert_eq!(mprotect(self.first, length, READ_WRITE), 0);
            }
        }
        FREE.with_borrow_mut(|free| free.entry(self.pages).or_default().push(self.first));
    }
}

/// Files of whole pages, mapped one behind the other between two inaccessible pages, to be read only.
pub fn mapped(files: &[File]) -> Guarded<u8> {
    let lengths: Vec<usize> = files.iter().map(|file| file.metadata().unwrap().len() as usize).collect();
    let length: usize = lengths.iter().sum();
    assert!(length / PAGE > KEPT_PAGES);
    unsafe {
        let all = mmap(null_mut(), length + 2 * PAGE, NONE, PRIVATE_ANONYMOUS, -1, 0);
        assert!(all as isize != -1, "mmap");
        let first = all.add(PAGE);
        let mut at = first;
        for (file, length) in files.iter().zip(lengths) {
            assert_eq!(length % PAGE, 0);
            assert_eq!(mmap(at, length, READ, SHARED_FIXED, file.as_raw_fd(), 0), at);
            at = at.add(length);
        }
        Guarded { first, pages: length / PAGE, at: first, length, frozen: true }
    }
}
