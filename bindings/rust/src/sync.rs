//! The synchronization primitives of the bank's protocol.
//!
//! They are those of the standard library. In the crate's unit tests they are the simulated ones of `interleave`, which
//! behave like these outside of a simulation. So the tests explore the code that runs, not a model of it.

#[cfg(test)]
pub(crate) use crate::interleave::{
    AtomicI64, AtomicU64, Instant, Thread, current, fence, nanoseconds, park_timeout, sleep,
    spin_loop, thread_number, uniform_draw, yield_now,
};
#[cfg(not(test))]
pub(crate) use real::*;

/// A value in its own cache lines: two, since processors fetch lines in pairs.
#[derive(Debug, Default)]
#[repr(align(128))]
pub(crate) struct Apart<T>(pub(crate) T);

#[cfg(not(test))]
mod real {
    pub(crate) use std::{
        hint::spin_loop,
        sync::atomic::{AtomicI64, AtomicU64, fence},
        thread::{Thread, current, park_timeout, sleep, yield_now},
        time::Instant,
    };

    /// Returns the time since some moment, which is the same one for all threads.
    pub(crate) fn nanoseconds() -> u64 {
        static START: std::sync::LazyLock<Instant> = std::sync::LazyLock::new(Instant::now);
        START.elapsed().as_nanos() as u64
    }

    /// Returns a number that no other running thread has.
    pub(crate) fn thread_number() -> u64 {
        std::thread_local!(static HERE: u8 = const { 0 });
        HERE.with(|here| std::ptr::from_ref(here).addr() as u64)
    }

    /// Returns a number that differs from call to call and from thread to thread.
    pub(crate) fn uniform_draw() -> u64 {
        use std::hash::{BuildHasher, Hasher};
        std::collections::hash_map::RandomState::new()
            .build_hasher()
            .finish()
    }
}
