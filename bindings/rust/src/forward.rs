//! Observers that forward to the crates `tracing` and `metrics`, as macros.
//!
//! An optional dependency would be simpler, but Cargo resolves optional dependencies even if their features are off, so a
//! build without a registry would fail. A macro names the crate of its caller, which also chooses the version.

#[cfg(feature = "metrics")]
mod metrics;
#[cfg(feature = "tracing")]
mod tracing;
