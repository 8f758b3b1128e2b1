//! Prints so that lost output is noticed. `println!` panics where the disk is full, and says nothing where standard
//! output is closed: Rust's start-up opens /dev/null in its place.
use std::io::{self, Write};
use std::sync::atomic::{AtomicBool, Ordering};

static CLOSED: AtomicBool = AtomicBool::new(false);

/// The loader calls this before Rust's start-up.
#[used]
#[link_section = ".init_array"]
static LOOK: extern "C" fn() = look;

extern "C" fn look() {
    extern "C" {
        fn fcntl(descriptor: i32, command: i32, ...) -> i32;
    }
    const STANDARD_OUTPUT: i32 = 1;
    const F_GETFD: i32 = 1;
    // SAFETY: F_GETFD takes no further argument, and only asks.
    let answer = unsafe { fcntl(STANDARD_OUTPUT, F_GETFD) };
    CLOSED.store(answer == -1, Ordering::Relaxed);
}

pub fn print(text: &str) -> io::Result<()> {
    if CLOSED.load(Ordering::Relaxed) {
        return Err(io::Error::other("it is closed"));
    }
    let mut out = io::stdout().lock();
    out.write_all(text.as_bytes())?;
    out.flush()
}

/// A message on standard error; where that is lost as well, the exit status alone tells.
pub fn complain(why: &str) {
    let _ = writeln!(io::stderr(), "{why}");
}
