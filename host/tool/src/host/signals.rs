//! Signals: those that end the tool remove first what it has begun beside a file.
//!
//! A handler may do little: it reads atomics and calls functions that are safe in one (unlink,
//! signal, raise, _exit).

use std::ffi::{c_char, c_int, CString};
use std::os::unix::ffi::OsStrExt;
use std::path::Path;
use std::ptr;
use std::sync::atomic::{AtomicI32, AtomicPtr, AtomicU8, Ordering::SeqCst};

/// SIGHUP, SIGINT and SIGTERM.
const ENDING: [c_int; 3] = [1, 2, 15];
const SIGXFSZ: c_int = 25;
/// SIG_DFL and SIG_IGN.
const DEFAULT: usize = 0;
const IGNORE: usize = 1;

extern "C" {
    fn signal(number: c_int, handler: usize) -> usize;
    fn raise(number: c_int) -> c_int;
    fn unlink(path: *const c_char) -> c_int;
    fn _exit(status: c_int) -> !;
}

/// A signal ends the tool.
const OPEN: u8 = 0;
/// A signal is kept until a step is over that must not be cut in two.
const HELD: u8 = 1;
/// The image has been changed: a signal ends what is left with status 0, because any other says
/// that it is as it was.
const FINISHED: u8 = 2;

static PHASE: AtomicU8 = AtomicU8::new(OPEN);
/// The signal that was kept; 0 if none was.
static KEPT: AtomicI32 = AtomicI32::new(0);
/// The temporary files, a list that only grows.
static TEMPORARIES: AtomicPtr<Node> = AtomicPtr::new(ptr::null_mut());

struct Node {
    /// The path of a temporary file, null if this is free.
    path: AtomicPtr<c_char>,
    next: *const Node,
}

/// Sets how the tool takes signals. A signal that is ignored already, as under nohup, stays so. A
/// write past a file size limit fails as any other, in place of ending the process.
pub fn prepare() {
    // SAFETY: the standard C function, given a signal number and SIG_IGN.
    unsafe { signal(SIGXFSZ, IGNORE) };
    for number in ENDING {
        PHASE.store(HELD, SeqCst);
        // SAFETY: the standard C function, given a signal number and a handler.
        let before = unsafe { signal(number, ended as extern "C" fn(c_int) as usize) };
        if before == IGNORE {
            // SAFETY: as above.
            unsafe { signal(number, IGNORE) };
            let _ = KEPT.compare_exchange(number, 0, SeqCst, SeqCst);
        }
        release();
    }
}

/// Does a step that no signal may cut in two; one that comes meanwhile is obeyed after it.
pub fn held<T>(step: impl FnOnce() -> T) -> T {
    PHASE.store(HELD, SeqCst);
    let done = step();
    release();
    done
}

/// Does the step that changes an image, after which only status 0 is true.
pub fn finishing<T, E>(step: impl FnOnce() -> Result<T, E>) -> Result<T, E> {
    PHASE.store(HELD, SeqCst);
    let done = step();
    match done.is_ok() {
        true => PHASE.store(FINISHED, SeqCst),
        false => release(),
    }
    done
}

fn release() {
    PHASE.store(OPEN, SeqCst);
    let number = KEPT.swap(0, SeqCst);
    if number != 0 {
        // SAFETY: the standard C function, given a signal number.
        unsafe { raise(number) };
    }
}

extern "C" fn ended(number: c_int) {
    match PHASE.load(SeqCst) {
        HELD => KEPT.store(number, SeqCst),
        FINISHED => {
            remove_temporaries();
            // SAFETY: the POSIX function, which is safe in a handler.
            unsafe { _exit(0) }
        }
        _ => {
            remove_temporaries();
            // SAFETY: both are safe in a handler. The signal takes its default action, the end of
            // the process, when this returns.
            unsafe {
                signal(number, DEFAULT);
                raise(number);
            }
        }
    }
}

fn remove_temporaries() {
    let mut node: *const Node = TEMPORARIES.load(SeqCst);
    // SAFETY: nodes and paths are never freed, and a node's `next` is never written again.
    while let Some(temporary) = unsafe { node.as_ref() } {
        let path = temporary.path.load(SeqCst);
        if !path.is_null() {
            // SAFETY: the path is a C string; the function is safe in a handler.
            unsafe { unlink(path) };
        }
        node = temporary.next;
    }
}

/// A temporary file that a signal removes, as long as this lives.
pub struct Temporary(&'static Node);

impl Temporary {
    /// Enters the path of a file that has been made.
    pub fn enter(path: &Path) -> Temporary {
        // The path stays in memory: a handler may read it at any time. A path with a zero byte
        // is no file's.
        let path = CString::new(path.as_os_str().as_bytes());
        let path = path.map_or(ptr::null_mut(), CString::into_raw);
        let node = Box::leak(Box::new(Node {
            path: AtomicPtr::new(path),
            next: ptr::null(),
        }));
        let mut next = TEMPORARIES.load(SeqCst);
        loop {
            node.next = next;
            match TEMPORARIES.compare_exchange(next, node, SeqCst, SeqCst) {
                Ok(_) => break,
                Err(other) => next = other,
            }
        }
        Temporary(node)
    }
}

impl Drop for Temporary {
    fn drop(&mut self) {
        self.0.path.store(ptr::null_mut(), SeqCst);
    }
}
