//! Loaded before the C library by `.ci/refusals` and `.ci/hostile-counts`: refuses one growth, read or write of a program, or cuts it
//! short, and reports the greatest size that it asked the allocator for.
//!
//! Variables of the environment say in which program (`REFUSE_IN`) which call (`REFUSE_WHAT`, the `REFUSE_AT`th) is refused,
//! and in which file that is reported (`REFUSE_TOLD`), by a letter and the number of the file that was read or written. The file
//! `REFUSE_MOST` gets a line of digits for each size that is greater than all before.
#![no_std]
#![allow(non_upper_case_globals)]

use core::ffi::{CStr, c_char, c_int, c_long, c_void};
use core::sync::atomic::{AtomicI64, AtomicPtr, AtomicUsize, Ordering::SeqCst};

unsafe extern "C" {
    fn __libc_malloc(size: usize) -> *mut c_void;
    fn __libc_realloc(old: *mut c_void, size: usize) -> *mut c_void;
    fn __libc_calloc(count: usize, size: usize) -> *mut c_void;
    fn getenv(name: *const c_char) -> *mut c_char;
    fn strtol(text: *const c_char, end: *mut *mut c_char, base: c_int) -> c_long;
    fn syscall(number: c_long, ...) -> c_long;
    fn abort() -> !;
    fn __errno_location() -> *mut c_int;
    static program_invocation_short_name: *mut c_char;
}

const READ: c_long = 0;
const WRITE: c_long = 1;
const OPEN: c_long = 2;
const CLOSE: c_long = 3;
const WRITE_CREATE_APPEND: c_int = 0o2101;
const INPUT_OUTPUT_ERROR: c_int = 5;

/// Which call is refused; null where none is in this program.
static WHAT: AtomicPtr<c_char> = AtomicPtr::new(core::ptr::null_mut());
/// Where it is told.
static TOLD: AtomicPtr<c_char> = AtomicPtr::new(core::ptr::null_mut());
/// How many such calls come until then, that one included; 0 once it has come.
static LEFT: AtomicI64 = AtomicI64::new(0);
/// Where the greatest size is written; null where it isn't to be.
static MOST_IN: AtomicPtr<c_char> = AtomicPtr::new(core::ptr::null_mut());
/// The greatest size so far.
static MOST: AtomicUsize = AtomicUsize::new(0);

#[used]
#[unsafe(link_section = ".init_array")]
static BEGIN: extern "C" fn() = begin;

extern "C" fn begin() {
    unsafe {
        let (program, at) = (getenv(c"REFUSE_IN".as_ptr()), getenv(c"REFUSE_AT".as_ptr()));
        let (what, told) = (getenv(c"REFUSE_WHAT".as_ptr()), getenv(c"REFUSE_TOLD".as_ptr()));
        if program.is_null() || CStr::from_ptr(program) != CStr::from_ptr(program_invocation_short_name) {
            return;
        }
        MOST_IN.store(getenv(c"REFUSE_MOST".as_ptr()), SeqCst);
        if at.is_null() || what.is_null() || told.is_null() {
            return;
        }
        LEFT.store(strtol(at, core::ptr::null_mut(), 10), SeqCst);
        TOLD.store(told, SeqCst);
        WHAT.store(what, SeqCst);
    }
}

/// Whether this call is to be refused, which is told then.
fn is_due(what: &CStr, letter: u8, file: c_int) -> bool {
    let wanted = WHAT.load(SeqCst);
    if wanted.is_null() || unsafe { CStr::from_ptr(wanted) } != what || LEFT.load(SeqCst) == 0 {
        return false;
    }
    if LEFT.fetch_sub(1, SeqCst) != 1 {
        return false;
    }
    put(TOLD.load(SeqCst), &[letter, b'0' + file as u8]);
    true
}

/// Writes a text behind what a file holds.
fn put(file: *const c_char, text: &[u8]) {
    unsafe {
        let opened = syscall(OPEN, file, WRITE_CREATE_APPEND, 0o600 as c_int);
        if opened >= 0 {
            syscall(WRITE, opened, text.as_ptr(), text.len());
            syscall(CLOSE, opened);
        }
    }
}

/// Notes that so many bytes are asked for: a line for each size that is greater than all before.
fn note(size: usize) {
    let file = MOST_IN.load(SeqCst);
    if file.is_null() || size <= MOST.fetch_max(size, SeqCst) {
        return;
    }
    let (mut digits, mut at, mut left) = ([b'\n'; 21], 20, size);
    while left > 0 {
        at -= 1;
        digits[at] = b'0' + (left % 10) as u8;
        left /= 10;
    }
    put(file, &digits[at..]);
}

#[unsafe(no_mangle)]
extern "C" fn malloc(size: usize) -> *mut c_void {
    note(size);
    if is_due(c"--fail-alloc", b'm', 0) {
        return core::ptr::null_mut();
    }
    unsafe { __libc_malloc(size) }
}

#[unsafe(no_mangle)]
extern "C" fn realloc(old: *mut c_void, size: usize) -> *mut c_void {
    note(size);
    if is_due(c"--fail-alloc", b'm', 0) {
        return core::ptr::null_mut();
    }
    unsafe { __libc_realloc(old, size) }
}

#[unsafe(no_mangle)]
extern "C" fn calloc(count: usize, size: usize) -> *mut c_void {
    note(count.saturating_mul(size));
    unsafe { __libc_calloc(count, size) }
}

/// Reads or writes, unless this call fails; of one that is cut short one byte.
fn transfer(call: c_long, letter: u8, file: c_int, at: *mut c_void, size: usize) -> isize {
    if is_due(c"--fail-io", letter, file) {
        unsafe { *__errno_location() = INPUT_OUTPUT_ERROR };
        return -1;
    }
    let size = if size > 1 && is_due(c"--short-io", letter, file) { 1 } else { size };
    unsafe { syscall(call, file as c_long, at, size) as isize }
}

#[unsafe(no_mangle)]
extern "C" fn read(file: c_int, at: *mut c_void, size: usize) -> isize {
    transfer(READ, b'r', file, at, size)
}

#[unsafe(no_mangle)]
extern "C" fn write(file: c_int, at: *mut c_void, size: usize) -> isize {
    transfer(WRITE, b'w', file, at, size)
}

#[unsafe(no_mangle)]
extern "C" fn __write(file: c_int, at: *mut c_void, size: usize) -> isize {
    transfer(WRITE, b'w', file, at, size)
}

#[panic_handler]
fn panics(_: &core::panic::PanicInfo) -> ! {
    unsafe { abort() }
}
