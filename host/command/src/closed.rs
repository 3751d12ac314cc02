//! Whether standard output was closed before the program began.
//!
//! What is written then goes nowhere, and nothing says so: before `main` the runtime puts /dev/null in its place. So
//! it is looked at earlier.

/// Whether there was no standard output.
pub fn from_the_start() -> bool {
    early::CLOSED.load(std::sync::atomic::Ordering::Relaxed)
}

#[cfg(target_os = "linux")]
mod early {
    use std::ffi::c_int;
    use std::sync::atomic::{AtomicBool, Ordering};

    pub static CLOSED: AtomicBool = AtomicBool::new(false);

    extern "C" {
        fn fcntl(descriptor: c_int, command: c_int, ...) -> c_int;
    }

    /// The flags of a descriptor, or -1 if it is none.
    const GET_FLAGS: c_int = 1;

    extern "C" fn look() {
        // SAFETY: the command takes no further argument, and only asks.
        let flags = unsafe { fcntl(1, GET_FLAGS) };
        CLOSED.store(flags == -1, Ordering::Relaxed);
    }

    /// The system calls what stands here before it starts the runtime.
    #[used]
    #[link_section = ".init_array"]
    static LOOK: extern "C" fn() = look;
}

/// Elsewhere it is not known.
#[cfg(not(target_os = "linux"))]
mod early {
    pub static CLOSED: std::sync::atomic::AtomicBool = std::sync::atomic::AtomicBool::new(false);
}
