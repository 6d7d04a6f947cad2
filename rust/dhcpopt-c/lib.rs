//! The calls of include/dhcpopt.h over the crate `dhcpopt`. All unsafe code stands here and in `calls`: a pointer and a count become a slice.
//! What is relied on is what the header asks of every caller: no pointer is null, each has as many elements as it is said to have, and what a
//! call writes to overlaps nothing else that it is given.

#![no_std]
#![deny(unsafe_op_in_unsafe_fn)]

mod calls;

pub use calls::*;

/// Numbers that a call reads.
unsafe fn given<'a, T>(first: *const T, count: usize) -> &'a [T] {
    // SAFETY: the pointer is not null, and aligned as C has it for its type; `count` numbers stand there, which nothing writes during the call.
    unsafe { core::slice::from_raw_parts(first, count) }
}

/// Numbers that a call writes.
unsafe fn lent<'a, T>(first: *mut T, count: usize) -> &'a mut [T] {
    // SAFETY: as above; and they overlap nothing else that the call is given, so this is the only reference to them.
    unsafe { core::slice::from_raw_parts_mut(first, count) }
}

/// An array that a call reads.
unsafe fn given_array<'a, T>(array: *const T) -> &'a T {
    // SAFETY: the header has the array's length in the call's declaration, and the caller has an array of that length.
    unsafe { &*array }
}

/// An array that a call writes.
unsafe fn lent_array<'a, T>(array: *mut T) -> &'a mut T {
    // SAFETY: as above; and it overlaps nothing else that the call is given.
    unsafe { &mut *array }
}

/// No call panics: that is proved where a `usize` has 64 bits (docs/ARCHITECTURE.md). A static library needs a handler all the same. With the
/// feature `abort` it calls C's `abort`, else it stays here, and leaves it to a watchdog.
#[cfg(feature = "handler")]
#[panic_handler]
fn panic(_: &core::panic::PanicInfo) -> ! {
    #[cfg(feature = "abort")]
    {
        extern "C" {
            fn abort() -> !;
        }
        // SAFETY: C's abort takes nothing, and does not return.
        unsafe { abort() }
    }
    #[cfg(not(feature = "abort"))]
    loop {}
}

/// Some functions of the core library, which was compiled for programs that unwind, name this. Nothing unwinds here, and nothing calls it.
#[cfg(feature = "handler")]
#[no_mangle]
pub extern "C" fn rust_eh_personality() {}
