//! Standard input and output as the tool was given them.

use std::ffi::c_int;
use std::fs::File;
use std::io::{self, Stdin};
use std::path::Path;
use std::sync::atomic::{AtomicBool, Ordering};

use crate::failure::{Failure, Outcome};

const F_GETFL: c_int = 3;
/// O_ACCMODE, O_RDONLY and O_WRONLY.
const ACCESS: c_int = 3;
const READ_ONLY: c_int = 0;
const WRITE_ONLY: c_int = 1;
/// The paths of standard input.
const INPUT: [&str; 3] = ["/dev/stdin", "/dev/fd/0", "/proc/self/fd/0"];

extern "C" {
    fn fcntl(file: c_int, command: c_int, ...) -> c_int;
}

static INPUT_CLOSED: AtomicBool = AtomicBool::new(false);
static OUTPUT_CLOSED: AtomicBool = AtomicBool::new(false);

/// Where standard input or output is closed, the runtime puts /dev/null there before `main`. Where
/// output is not open for writing, the library says that all was written, and where input is not
/// open for reading, that it is empty. So what is printed would be gone without a word, and an input
/// that is not there would be an empty one. The loader calls this function before both.
#[used]
#[cfg_attr(target_os = "linux", link_section = ".init_array")]
static LOOK: extern "C" fn() = look;

extern "C" fn look() {
    // SAFETY: the POSIX function, with a command that takes no argument.
    let [input, output] = [0, 1].map(|file| unsafe { fcntl(file, F_GETFL) });
    let only = |flags: c_int, access| flags < 0 || flags & ACCESS == access;
    INPUT_CLOSED.store(only(input, WRITE_ONLY), Ordering::Relaxed);
    OUTPUT_CLOSED.store(only(output, READ_ONLY), Ordering::Relaxed);
}

/// Whether standard output was closed, or not open for writing, when the tool began.
pub fn is_output_closed() -> bool {
    OUTPUT_CLOSED.load(Ordering::Relaxed)
}

/// Standard input, if it was open for reading when the tool began.
pub fn input() -> Outcome<Stdin> {
    match INPUT_CLOSED.load(Ordering::Relaxed) {
        true => Err(Failure::Host(format!("standard input: {CLOSED}"))),
        false => Ok(io::stdin()),
    }
}

/// A file, opened to be read. A path of standard input leads to a file only where that is open.
pub fn open(path: &Path) -> Outcome<File> {
    let is_input = INPUT.iter().any(|input| path == Path::new(input));
    if is_input && INPUT_CLOSED.load(Ordering::Relaxed) {
        return Err(Failure::host(path, CLOSED));
    }
    File::open(path).map_err(|error| Failure::host(path, error))
}

const CLOSED: &str = "it is not open for reading";
