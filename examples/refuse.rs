//! Refuses memory to a program into which it is loaded (`LD_PRELOAD`), at the allocations of some numbers.
//!
//! Allocations are counted from 1, from just before the program's first instruction: the loader's are not among them.
//! REFUSE_FIRST and REFUSE_LAST say from which to which they are refused, with 0 none. REFUSE_COUNTS names a file of 16
//! bytes, which has at each moment how many were asked for and how many of these were refused; so it is right however
//! the program ends. The C library's own are counted too: those for a thread that is to be started, which isn't where
//! they are refused.
//!
//! In a debugger `break refused` stops at each refusal, with its callers.

use std::ffi::{CStr, c_char, c_int, c_void};
use std::ptr;
use std::sync::atomic::{AtomicPtr, AtomicU64, Ordering};

unsafe extern "C" {
    fn __libc_malloc(size: usize) -> *mut c_void;
    fn __libc_calloc(count: usize, size: usize) -> *mut c_void;
    fn __libc_realloc(block: *mut c_void, size: usize) -> *mut c_void;
    fn __libc_memalign(alignment: usize, size: usize) -> *mut c_void;
    fn __errno_location() -> *mut c_int;
    fn abort() -> !;
    fn getenv(name: *const c_char) -> *const c_char;
    fn open(name: *const c_char, flags: c_int, ...) -> c_int;
    fn close(file: c_int) -> c_int;
    fn mmap(
        address: *mut c_void,
        length: usize,
        protection: c_int,
        flags: c_int,
        file: c_int,
        offset: i64,
    ) -> *mut c_void;
}

const OPEN_TO_READ_AND_WRITE: c_int = 2;
const MAP_TO_READ_AND_WRITE: c_int = 3;
const MAP_SHARED: c_int = 1;
const NO_MEMORY: c_int = 12;

/// What the file of counts has.
#[repr(C)]
struct Counts {
    asked: AtomicU64,
    refused: AtomicU64,
}

/// Null until counting begins.
static COUNTS: AtomicPtr<Counts> = AtomicPtr::new(ptr::null_mut());
static FIRST: AtomicU64 = AtomicU64::new(0);
static LAST: AtomicU64 = AtomicU64::new(0);

/// A word of the environment, found without memory. It stays there, since the program doesn't change its environment.
fn word(name: &CStr) -> Option<&'static CStr> {
    let found = unsafe { getenv(name.as_ptr()) };
    if found.is_null() {
        return None;
    }
    Some(unsafe { CStr::from_ptr(found) })
}

fn number(name: &CStr) -> Option<u64> {
    word(name)?.to_str().ok()?.parse().ok()
}

/// The counts that the file of that name has.
fn counts_in(name: &CStr) -> Option<*mut Counts> {
    unsafe {
        let file = open(name.as_ptr(), OPEN_TO_READ_AND_WRITE);
        let place = mmap(
            ptr::null_mut(),
            size_of::<Counts>(),
            MAP_TO_READ_AND_WRITE,
            MAP_SHARED,
            file,
            0,
        );
        let opened = file >= 0 && close(file) == 0 && place.addr() != usize::MAX;
        opened.then_some(place.cast())
    }
}

fn start_counting() -> Option<()> {
    FIRST.store(number(c"REFUSE_FIRST")?, Ordering::SeqCst);
    LAST.store(number(c"REFUSE_LAST")?, Ordering::SeqCst);
    COUNTS.store(counts_in(word(c"REFUSE_COUNTS")?)?, Ordering::SeqCst);
    Some(())
}

/// Without its words it ends the program: else a run to which nothing is refused would pass for one to which something
/// is.
extern "C" fn begin() {
    if start_counting().is_none() {
        unsafe { abort() }
    }
}

/// The loader calls what stands in this section, the program's own last.
#[used]
#[unsafe(link_section = ".init_array")]
static BEGIN: extern "C" fn() = begin;

/// Counts an allocation. The answer is whether it is refused.
fn is_refused() -> bool {
    let Some(counts) = (unsafe { COUNTS.load(Ordering::SeqCst).as_ref() }) else {
        return false;
    };
    let number = counts.asked.fetch_add(1, Ordering::SeqCst) + 1;
    let refused = FIRST.load(Ordering::SeqCst) <= number && number <= LAST.load(Ordering::SeqCst);
    if refused {
        counts.refused.fetch_add(1, Ordering::SeqCst);
    }
    refused
}

/// What a refused call answers. It has a name, so that a debugger finds it.
#[unsafe(no_mangle)]
#[inline(never)]
extern "C" fn refused() -> *mut c_void {
    unsafe { *__errno_location() = NO_MEMORY };
    ptr::null_mut()
}

fn unless_refused(allocate: impl FnOnce() -> *mut c_void) -> *mut c_void {
    if is_refused() { refused() } else { allocate() }
}

#[unsafe(no_mangle)]
extern "C" fn malloc(size: usize) -> *mut c_void {
    unless_refused(|| unsafe { __libc_malloc(size) })
}

#[unsafe(no_mangle)]
extern "C" fn calloc(count: usize, size: usize) -> *mut c_void {
    unless_refused(|| unsafe { __libc_calloc(count, size) })
}

#[unsafe(no_mangle)]
extern "C" fn realloc(block: *mut c_void, size: usize) -> *mut c_void {
    unless_refused(|| unsafe { __libc_realloc(block, size) })
}

#[unsafe(no_mangle)]
extern "C" fn memalign(alignment: usize, size: usize) -> *mut c_void {
    unless_refused(|| unsafe { __libc_memalign(alignment, size) })
}

#[unsafe(no_mangle)]
extern "C" fn aligned_alloc(alignment: usize, size: usize) -> *mut c_void {
    memalign(alignment, size)
}

#[unsafe(no_mangle)]
extern "C" fn posix_memalign(answer: *mut *mut c_void, alignment: usize, size: usize) -> c_int {
    let block = memalign(alignment, size);
    if block.is_null() {
        return NO_MEMORY;
    }
    unsafe { *answer = block };
    0
}
