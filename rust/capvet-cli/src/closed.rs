//! Which standard streams were closed when the program was started. Before `main` Rust opens `/dev/null` in their places. The
//! proved program doesn't: there a read fails, and so does a write. So on Linux they are looked at before Rust's own start.

#[cfg(target_os = "linux")]
pub use before_main::is_closed;

/// Whether the standard stream of this number was closed. Rust's start hides it.
#[cfg(not(target_os = "linux"))]
pub fn is_closed(_number: usize) -> bool {
    false
}

#[cfg(target_os = "linux")]
#[allow(unsafe_code)]
mod before_main {
    use std::os::raw::c_int;
    use std::sync::atomic::{AtomicBool, Ordering::Relaxed};

    extern "C" {
        fn fcntl(descriptor: c_int, command: c_int, ...) -> c_int;
    }

    // What asks for the flags of a descriptor, which one that is closed hasn't.
    const F_GETFD: c_int = 1;

    static CLOSED: [AtomicBool; 3] = [
        AtomicBool::new(false),
        AtomicBool::new(false),
        AtomicBool::new(false),
    ];

    // The C library calls what is in this section before `main`.
    #[used]
    #[link_section = ".init_array"]
    static LOOK: extern "C" fn() = look;

    extern "C" fn look() {
        for (number, closed) in (0..).zip(&CLOSED) {
            // SAFETY: this command takes no third argument, and any number as a descriptor.
            closed.store(unsafe { fcntl(number, F_GETFD) } < 0, Relaxed);
        }
    }

    /// Whether the standard stream of this number was closed.
    pub fn is_closed(number: usize) -> bool {
        CLOSED[number].load(Relaxed)
    }
}
