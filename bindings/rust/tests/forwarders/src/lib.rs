//! The observers of the tests, in a strict crate.

#![deny(missing_docs, warnings)]

esr::tracing_observer!(pub Traces);
esr::metrics_observer!(
    /// Its documentation may continue.
    pub Counts
);

#[cfg(feature = "real")]
mod subscriber;
#[cfg(feature = "real")]
pub use subscriber::recorded;
#[cfg(not(feature = "real"))]
pub use tracing::recorded;
