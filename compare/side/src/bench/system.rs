//! What the benchmark asks of the system, in unsafe code: the time that a thread has run, memory on huge pages, and a timer that says where a call
//! is.
#![allow(unsafe_code)]
use std::alloc::{GlobalAlloc, Layout, System};
use std::ffi::{c_int, c_void};
use std::ptr::null_mut;
use std::sync::atomic::{AtomicBool, AtomicUsize, Ordering::Relaxed};

extern "C" {
    fn mmap(address: *mut u8, length: usize, protection: c_int, flags: c_int, file: c_int, offset: i64) -> *mut u8;
    fn munmap(address: *mut u8, length: usize) -> c_int;
    fn madvise(address: *mut u8, length: usize, advice: c_int) -> c_int;
    fn clock_gettime(clock: c_int, time: *mut [i64; 2]) -> c_int;
    fn sigaction(signal: c_int, action: *const Action, before: *mut Action) -> c_int;
    fn setitimer(which: c_int, timer: *const Timer, before: *mut Timer) -> c_int;
}

const CLOCK_MONOTONIC: c_int = 1;
const CLOCK_THREAD_CPUTIME_ID: c_int = 3;

static RUNNING: AtomicBool = AtomicBool::new(false);

/// From now on only the time counts in which this thread runs: for a machine that is busy with something else.
pub fn count_running_time() {
    RUNNING.store(true, Relaxed);
}

pub fn counts_running_time() -> bool {
    RUNNING.load(Relaxed)
}

/// Seconds from some start.
pub fn now() -> f64 {
    let clock = if counts_running_time() { CLOCK_THREAD_CPUTIME_ID } else { CLOCK_MONOTONIC };
    let mut time = [0; 2];
    // SAFETY: the time is live, and two numbers of this length on every processor of 64 bits.
    unsafe { clock_gettime(clock, &mut time) };
    time[0] as f64 + time[1] as f64 * 1e-9
}

/// The length and alignment of a huge page.
const HUGE_PAGE: usize = 2 * 1024 * 1024;
const READ_WRITE: c_int = 3;
const PRIVATE_ANONYMOUS: c_int = 0x22;
const MADV_HUGEPAGE: c_int = 14;

static HUGE: AtomicBool = AtomicBool::new(false);
/// The addresses of what lies there now; 0 is free.
static MAPPED: [AtomicUsize; 64] = [const { AtomicUsize::new(0) }; 64];

/// What is built meanwhile lies on huge pages where it is long, and where the system grants them.
pub fn on_huge_pages<T>(build: impl FnOnce() -> T) -> T {
    HUGE.store(true, Relaxed);
    let built = build();
    HUGE.store(false, Relaxed);
    built
}

/// The system's allocator, but for `on_huge_pages`.
pub struct Allocator;

/// Worth a huge page.
fn large(length: usize) -> bool {
    length >= HUGE_PAGE / 4
}

/// Takes the place in the list over, if one holds `old`.
fn exchange(old: usize, new: usize) -> bool {
    MAPPED.iter().any(|place| place.compare_exchange(old, new, Relaxed, Relaxed).is_ok())
}

/// The huge pages of a length, and the bytes to map so that they can be had behind a byte of another page.
fn lengths(length: usize) -> (usize, usize) {
    let pages = length.next_multiple_of(HUGE_PAGE);
    (pages, pages + HUGE_PAGE)
}

/// A mapping of its own, which the system can tell about: a page in front of it, of the common kind, holds where it begins.
fn map(length: usize) -> Option<*mut u8> {
    let (pages, all) = lengths(length);
    // SAFETY: the mapping is new; the first huge page behind its first byte and as many as follow lie in it, and the word before them too.
    unsafe {
        let base = mmap(null_mut(), all, READ_WRITE, PRIVATE_ANONYMOUS, -1, 0);
        if base as usize == usize::MAX {
            return None;
        }
        let address = base.add(HUGE_PAGE - base as usize % HUGE_PAGE);
        // Advice only: smaps tells whether it was taken.
        madvise(address, pages, MADV_HUGEPAGE);
        address.cast::<*mut u8>().sub(1).write(base);
        Some(address)
    }
}

// SAFETY: what `map` has given is in the list until it is given back; all else is the system allocator's in every call.
unsafe impl GlobalAlloc for Allocator {
    unsafe fn alloc(&self, layout: Layout) -> *mut u8 {
        if large(layout.size()) && layout.align() <= HUGE_PAGE && HUGE.load(Relaxed) {
            if let Some(address) = map(layout.size()).filter(|address| exchange(0, *address as usize)) {
                return address;
            }
        }
        System.alloc(layout)
    }

    unsafe fn dealloc(&self, address: *mut u8, layout: Layout) {
        if large(layout.size()) && exchange(address as usize, 0) {
            let base = address.cast::<*mut u8>().sub(1).read();
            munmap(base, lengths(layout.size()).1);
        } else {
            System.dealloc(address, layout);
        }
    }

    unsafe fn alloc_zeroed(&self, layout: Layout) -> *mut u8 {
        if !HUGE.load(Relaxed) {
            return System.alloc_zeroed(layout);
        }
        let address = self.alloc(layout);
        if !address.is_null() {
            address.write_bytes(0, layout.size());
        }
        address
    }

    unsafe fn realloc(&self, address: *mut u8, layout: Layout, length: usize) -> *mut u8 {
        let mapped = large(layout.size()) && MAPPED.iter().any(|place| place.load(Relaxed) == address as usize);
        if !mapped && !HUGE.load(Relaxed) {
            return System.realloc(address, layout, length);
        }
        let moved = self.alloc(Layout::from_size_align_unchecked(length, layout.align()));
        if !moved.is_null() {
            address.copy_to_nonoverlapping(moved, layout.size().min(length));
            self.dealloc(address, layout);
        }
        moved
    }
}

/// C's `struct sigaction` and `struct itimerval` as Linux has them on this processor.
#[repr(C)]
struct Action {
    handler: usize,
    mask: [u64; 16],
    flags: c_int,
    restorer: usize,
}

#[repr(C)]
struct Timer {
    interval: [i64; 2],
    value: [i64; 2],
}

const SIGALRM: c_int = 14;
const SA_SIGINFO: c_int = 4;
const SA_RESTART: c_int = 0x1000_0000;
const ITIMER_REAL: c_int = 0;
/// Where a signal's context has the program counter, counted in words.
const COUNTER: usize = 21;
/// No divisor of what a system counts in, so that samples do not keep step with it.
const MICROSECONDS: i64 = 487;
/// More samples than this are not kept.
const MOST: usize = 1 << 16;

static PLACES: [AtomicUsize; MOST] = [const { AtomicUsize::new(0) }; MOST];
static TAKEN: AtomicUsize = AtomicUsize::new(0);

extern "C" fn take(_: c_int, _: *mut c_void, context: *mut c_void) {
    // SAFETY: the system gives the handler a context that holds the program counter at this word.
    let place = unsafe { *(context as *const usize).add(COUNTER) };
    if let Some(free) = PLACES.get(TAKEN.fetch_add(1, Relaxed)) {
        free.store(place, Relaxed);
    }
}

/// The addresses that were running at the ticks of a timer during a run, where this is known how to be asked.
pub fn sampled(run: impl FnOnce()) -> Option<Vec<usize>> {
    if !cfg!(all(target_os = "linux", target_env = "gnu", target_arch = "x86_64")) {
        return None;
    }
    TAKEN.store(0, Relaxed);
    let handler = take as extern "C" fn(c_int, *mut c_void, *mut c_void) as usize;
    let action = Action { handler, mask: [0; 16], flags: SA_SIGINFO | SA_RESTART, restorer: 0 };
    // SAFETY: the action and the timers are live; the handler only stores to atomics.
    let set = |microseconds: i64| unsafe { setitimer(ITIMER_REAL, &Timer { interval: [0, microseconds], value: [0, microseconds] }, null_mut()) };
    if unsafe { sigaction(SIGALRM, &action, null_mut()) } != 0 || set(MICROSECONDS) != 0 {
        return None;
    }
    run();
    set(0);
    Some(PLACES.iter().take(TAKEN.load(Relaxed)).map(|place| place.load(Relaxed)).collect())
}
