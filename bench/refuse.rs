//! Preloaded into a program, refuses the one growth of memory that the variable REFUSE names,
//! counted from 1, and says so on standard error.
use std::sync::atomic::{AtomicU64, Ordering::SeqCst};

/// The growths made so far.
static MADE: AtomicU64 = AtomicU64::new(0);

/// The growth to refuse: 0 is none, the largest number is not read yet.
static REFUSED: AtomicU64 = AtomicU64::new(u64::MAX);

unsafe extern "C" {
    fn __libc_malloc(size: usize) -> *mut u8;
    fn __libc_realloc(old: *mut u8, size: usize) -> *mut u8;
    fn getenv(name: *const u8) -> *const u8;
    fn write(file: i32, bytes: *const u8, size: usize) -> isize;
}

/// The number that the variable REFUSE writes in decimal, or 0.
fn refused_growth() -> u64 {
    // SAFETY: both texts end with a zero byte.
    unsafe {
        let mut digit = getenv(b"REFUSE\0".as_ptr());
        let mut number = 0;
        while !digit.is_null() && (*digit).is_ascii_digit() {
            number = 10 * number + u64::from(*digit - b'0');
            digit = digit.add(1);
        }
        number
    }
}

/// Counts one growth, and tells whether it is the one to refuse.
fn is_refused() -> bool {
    if REFUSED.load(SeqCst) == u64::MAX {
        REFUSED.store(refused_growth(), SeqCst);
    }
    let is_refused = MADE.fetch_add(1, SeqCst) + 1 == REFUSED.load(SeqCst);
    if is_refused {
        let said = b"growth refused\n";
        // SAFETY: the bytes are there. Where they can't be written, nobody is told.
        unsafe { write(2, said.as_ptr(), said.len()) };
    }
    is_refused
}

#[unsafe(no_mangle)]
unsafe extern "C" fn malloc(size: usize) -> *mut u8 {
    if is_refused() {
        return std::ptr::null_mut();
    }
    // SAFETY: the C library's own.
    unsafe { __libc_malloc(size) }
}

#[unsafe(no_mangle)]
unsafe extern "C" fn realloc(old: *mut u8, size: usize) -> *mut u8 {
    if is_refused() {
        return std::ptr::null_mut();
    }
    // SAFETY: the C library's own.
    unsafe { __libc_realloc(old, size) }
}
