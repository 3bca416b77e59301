//! Standard output and standard error, for programs whose exit status is 2 if the output cannot be written.

use std::ffi::c_int;
use std::io::{self, Write};
use std::process::ExitCode;
use std::sync::atomic::{AtomicBool, Ordering};

static UNWRITABLE: AtomicBool = AtomicBool::new(false);

extern "C" {
    fn fcntl(descriptor: c_int, command: c_int, ...) -> c_int;
}

const F_GETFL: c_int = 3;
const O_ACCMODE: c_int = 3;
const O_RDONLY: c_int = 0;

extern "C" fn look() {
    // Safety: it asks for the flags of a descriptor, and any descriptor may be asked about.
    let flags = unsafe { fcntl(1, F_GETFL) };
    let unwritable = flags < 0 || flags & O_ACCMODE == O_RDONLY;
    UNWRITABLE.store(unwritable, Ordering::Relaxed);
}

/// Runs before Rust's own start, which opens /dev/null in place of a closed standard output: what is written would be lost with no error.
/// So would what is written to one that is open for reading only, since `Stdout` passes over that error.
#[used]
#[link_section = ".init_array"]
static LOOK: extern "C" fn() = look;

/// A sentence on standard error, if there is one; the exit status of trouble. `eprintln` would panic on a full disk.
pub fn complain(words: &[u8]) -> ExitCode {
    let _ = io::stderr().write_all(&[words, b"\n"].concat());
    ExitCode::from(2)
}

/// Writes the output; gives the exit status.
pub fn print_all(program: &str, output: &[u8], status: u8) -> ExitCode {
    let mut out = io::stdout();
    let written = out.write_all(output).and_then(|()| out.flush());
    if written.is_err() || UNWRITABLE.load(Ordering::Relaxed) {
        return complain(format!("{program}: standard output cannot be written to").as_bytes());
    }
    ExitCode::from(status)
}
