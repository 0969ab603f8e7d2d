//! Memory between pages that cannot be touched: a call that reads or writes beyond a buffer that ends there is stopped at once.

use std::cell::RefCell;
use std::ptr;
use std::sync::atomic::{AtomicU64, Ordering};

/// The bytes that can be used, and those before and behind that cannot: a multiple of any usual page size.
pub const ROOM: usize = 1 << 19;

extern "C" {
    fn mmap(address: *mut u8, length: usize, protection: i32, flags: i32, file: i32, offset: i64) -> *mut u8;
    fn mprotect(address: *mut u8, length: usize, protection: i32) -> i32;
    fn signal(number: i32, handler: extern "C" fn(i32)) -> usize;
    fn write(file: i32, bytes: *const u8, length: usize) -> isize;
    fn _exit(status: i32) -> !;
}

const PROTECT_NONE: i32 = 0;
const PROTECT_READ_WRITE: i32 = 3;
const MAP_PRIVATE_ANONYMOUS: i32 = 0x22;
const MAP_NO_RESERVE: i32 = 0x4000;
const BUS_ERROR: i32 = 7;
const SEGMENTATION_FAULT: i32 = 11;

thread_local! {
    /// Areas that were given back.
    static FREE: RefCell<Vec<*mut u8>> = const { RefCell::new(Vec::new()) };
}

pub struct Fenced(*mut u8);

impl Fenced {
    pub fn take() -> Fenced {
        Fenced(FREE.with_borrow_mut(Vec::pop).unwrap_or_else(new_area))
    }

    pub fn bytes(&self) -> &[u8] {
        unsafe { std::slice::from_raw_parts(self.0, ROOM) }
    }

    pub fn bytes_mut(&mut self) -> &mut [u8] {
        unsafe { std::slice::from_raw_parts_mut(self.0, ROOM) }
    }
}

impl Drop for Fenced {
    fn drop(&mut self) {
        FREE.with_borrow_mut(|free| free.push(self.0));
    }
}

fn new_area() -> *mut u8 {
    unsafe {
        let area = mmap(ptr::null_mut(), 3 * ROOM, PROTECT_NONE, MAP_PRIVATE_ANONYMOUS, -1, 0);
        assert!(area as isize != -1, "no memory");
        assert_eq!(mprotect(area.add(ROOM), ROOM, PROTECT_READ_WRITE), 0, "no memory");
        area.add(ROOM)
    }
}

/// Zero bytes that take memory only where they are written. They stay for as long as the program runs.
pub fn huge_zeros(length: usize) -> &'static mut [u8] {
    unsafe {
        let flags = MAP_PRIVATE_ANONYMOUS | MAP_NO_RESERVE;
        let area = mmap(ptr::null_mut(), length, PROTECT_READ_WRITE, flags, -1, 0);
        assert!(area as isize != -1, "no memory");
        std::slice::from_raw_parts_mut(area, length)
    }
}

/// The case to be named when a fence is touched.
pub static CASE: AtomicU64 = AtomicU64::new(0);

extern "C" fn on_fault(_: i32) {
    let mut text = *b"compare: DIFFERENCE, memory outside the lent buffers was touched in case 0x0000000000000000\n";
    let (case, last) = (CASE.load(Ordering::Relaxed), text.len() - 2);
    for i in 0..16 {
        text[last - i] = b"0123456789abcdef"[(case >> (4 * i)) as usize & 15];
    }
    unsafe {
        write(1, text.as_ptr(), text.len());
        _exit(1);
    }
}

pub fn report_faults() {
    unsafe {
        signal(SEGMENTATION_FAULT, on_fault);
        signal(BUS_ERROR, on_fault);
    }
}
