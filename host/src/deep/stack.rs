//! How much stack the running thread has left, where the system tells.

/// The bytes below the caller that are left; none if that is not known, as on a stack of somebody's own
/// making.
#[cfg(all(target_os = "linux", target_arch = "x86_64"))]
pub(super) fn left() -> Option<usize> {
    thread_local! {
        /// Asking takes a while, on the first thread most.
        static BOUNDS: Option<linux::Bounds> = linux::bounds();
    }
    let here = 0_u8;
    let address = std::ptr::addr_of!(here) as usize;
    let bounds = BOUNDS.try_with(|bounds| *bounds).ok().flatten()?;
    (address < bounds.high).then(|| address.checked_sub(bounds.low)).flatten()
}

/// Elsewhere nobody is asked.
#[cfg(not(all(target_os = "linux", target_arch = "x86_64")))]
pub(super) fn left() -> Option<usize> {
    None
}

#[cfg(all(target_os = "linux", target_arch = "x86_64"))]
mod linux {
    use std::ffi::{c_int, c_void};
    use std::ptr::null_mut;

    /// `pthread_attr_t` has 56 bytes here.
    type Attributes = [u64; 7];

    extern "C" {
        fn pthread_self() -> usize;
        fn pthread_getattr_np(thread: usize, attributes: *mut Attributes) -> c_int;
        fn pthread_attr_getstack(
            attributes: *const Attributes,
            low: *mut *mut c_void,
            size: *mut usize,
        ) -> c_int;
        fn pthread_attr_destroy(attributes: *mut Attributes) -> c_int;
    }

    /// The addresses of a thread's stack.
    #[derive(Clone, Copy)]
    pub struct Bounds {
        pub low: usize,
        pub high: usize,
    }

    /// Those of the running thread; guard pages are not among them.
    pub fn bounds() -> Option<Bounds> {
        let (mut attributes, mut low, mut size) = (Attributes::default(), null_mut(), 0);
        // SAFETY: each pointer is to a live local of the type that the function writes; the attributes
        // are read and destroyed only after the first call has made them.
        let known = unsafe {
            pthread_getattr_np(pthread_self(), &mut attributes) == 0 && {
                let told = pthread_attr_getstack(&attributes, &mut low, &mut size) == 0;
                pthread_attr_destroy(&mut attributes);
                told
            }
        };
        let low = low as usize;
        known.then(|| Bounds { low, high: low.saturating_add(size) })
    }
}
