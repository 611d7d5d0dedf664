//! Whether standard output was closed when the program started: the one place with unsafe code.
//!
//! Before `main` the Rust runtime puts /dev/null in the place of a closed standard output, and whatever is written
//! would be lost. So the descriptor is looked at earlier, when the program is loaded.
use std::sync::atomic::{AtomicBool, Ordering};

static CLOSED: AtomicBool = AtomicBool::new(false);

pub fn at_start() -> bool {
    CLOSED.load(Ordering::Relaxed)
}

extern "C" {
    fn fcntl(descriptor: i32, command: i32, ...) -> i32;
}

extern "C" fn look_at_standard_output() {
    const GET_FLAGS: i32 = 1;
    // SAFETY: fcntl with F_GETFD only asks; any descriptor number is allowed.
    if unsafe { fcntl(1, GET_FLAGS) } == -1 {
        CLOSED.store(true, Ordering::Relaxed);
    }
}

#[used]
#[link_section = ".init_array"]
static LOOK_EARLY: extern "C" fn() = look_at_standard_output;
