//! Memory is refused to the library at each place where it asks for some: the run says so, and goes on as if nothing had been.
//!
//! The library takes memory by `malloc` and `realloc`, which stand here; Rust's own allocations go past them.
#![cfg(all(target_os = "linux", target_env = "gnu"))]

mod scripts;

use std::alloc::{GlobalAlloc, Layout};
use std::cell::Cell;
use std::ffi::c_void;
use std::fs;
use std::path::Path;

use loqzemar::{End, Fault, Pod};
use scripts::Script;

extern "C" {
    fn __libc_malloc(size: usize) -> *mut c_void;
    fn __libc_memalign(align: usize, size: usize) -> *mut c_void;
    fn __libc_realloc(at: *mut c_void, size: usize) -> *mut c_void;
    fn free(at: *mut c_void);
}

struct Past;

// SAFETY: memory is the C library's, of the size and alignment that are asked for.
unsafe impl GlobalAlloc for Past {
    unsafe fn alloc(&self, layout: Layout) -> *mut u8 {
        __libc_memalign(layout.align().max(16), layout.size()).cast()
    }

    unsafe fn dealloc(&self, at: *mut u8, _: Layout) {
        free(at.cast());
    }
}

#[global_allocator]
static PAST: Past = Past;

thread_local! {
    // How many allocations of this thread succeed before one is refused, and how many were refused.
    static LEFT: Cell<usize> = const { Cell::new(usize::MAX) };
    static REFUSED: Cell<usize> = const { Cell::new(0) };
}

fn is_refused() -> bool {
    let left = LEFT.with(Cell::get);
    if left == 0 {
        REFUSED.with(|it| it.set(it.get() + 1));
        LEFT.with(|it| it.set(usize::MAX));
        return true;
    }
    if left != usize::MAX {
        LEFT.with(|it| it.set(left - 1));
    }
    false
}

/// # Safety
///
/// As the C library's.
#[no_mangle]
pub unsafe extern "C" fn malloc(size: usize) -> *mut c_void {
    if is_refused() {
        return std::ptr::null_mut();
    }
    __libc_malloc(size)
}

/// # Safety
///
/// As the C library's.
#[no_mangle]
pub unsafe extern "C" fn realloc(at: *mut c_void, size: usize) -> *mut c_void {
    if is_refused() {
        return std::ptr::null_mut();
    }
    __libc_realloc(at, size)
}

fn again<T>(mut work: impl FnMut() -> Result<T, Fault>) -> (T, usize) {
    let mut faults = 0;
    loop {
        match work() {
            Ok(done) => return (done, faults),
            Err(fault) => {
                assert_eq!(fault, Fault::NoMemory);
                faults += 1;
            }
        }
    }
}

/// Runs the script to its end, and refuses the allocation after so many; how many faults were told.
fn run(script: &Script, stored: &str, before: usize) -> usize {
    REFUSED.with(|it| it.set(0));
    LEFT.with(|it| it.set(before));
    let (mut pod, in_making): (Pod, usize) = again(|| script.pod());
    let (end, in_run) = again(|| pod.run());
    LEFT.with(|it| it.set(usize::MAX));
    assert!(matches!(end, End::Ended(_)));
    assert_eq!(pod.trace(), stored, "after {before} allocations");
    in_making + in_run
}

#[test]
fn memory_may_be_refused_at_each_place() {
    let top = std::env::var("LOQZEMAR_TOP").unwrap_or_else(|_| format!("{}/..", env!("CARGO_MANIFEST_DIR")));
    let mut total = 0;
    for name in ["server", "births", "conditions", "last_rites", "exit_calls"] {
        let path = Path::new(&top).join("crates/corpus/data").join(name);
        let script = Script::new(&fs::read_to_string(path.with_extension("script")).unwrap());
        let stored = fs::read_to_string(path.with_extension("trace")).unwrap();
        for before in 0.. {
            let faults = run(&script, &stored, before);
            assert_eq!(faults, REFUSED.with(Cell::get));
            total += faults;
            if faults == 0 {
                break;
            }
        }
    }
    assert!(total >= 50, "{total} allocations were refused");
}
