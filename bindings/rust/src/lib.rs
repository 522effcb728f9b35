//! `esr` is an epsilon-serializable transaction engine: updates over integers in memory, and reports that are off by at most
//! the limit that they declare and block updates only to keep limits. The engine is proved; this crate is plain Rust over its
//! C interface.
//!
//! [`Bank`] is shared by threads, names its items, retries, and renews itself:
//!
//! ```
//! use esr::Bank;
//!
//! let bank = Bank::builder().item("checking", 500).item("savings", 1500).open()?;
//! bank.transact(200, |transfer| {
//!     transfer.add("checking", -100)?;
//!     transfer.add("savings", 100)
//! })?;
//! let (sum, finding) = bank.report(200, |report| Ok(report.read("checking")? + report.read("savings")?))?;
//! assert_eq!((sum, finding.distance), (2000, 0));
//! // The exact values of one moment need no report.
//! assert_eq!(bank.snapshot()?.values().sum::<i64>(), 2000);
//! # Ok::<(), esr::Error>(())
//! ```
//!
//! For a total of the committed values take [`Bank::snapshot`], which is exact and takes microseconds. A report is for
//! reading work in progress, for a bound that is known beforehand, and for a certificate of the error afterwards.
//!
//! Values are in memory. [`BankBuilder::store`] keeps the committed ones in a database; no proof covers this.
//!
//! [`Engine`] executes one event at a time, without a lock:
//!
//! ```
//! use esr::Engine;
//!
//! // Two accounts. A report reads between the two halves of a transfer.
//! let mut engine = Engine::open(&[500, 1500])?;
//! let transfer = engine.begin_update(200)?;
//! let report = engine.begin_query(200)?;
//! engine.write(transfer, 0, 400)?;
//! let sum = engine.read(report, 0)? + engine.read(report, 1)?;
//! engine.write(transfer, 1, 1600)?;
//! engine.commit(transfer)?;
//! engine.commit(report)?;
//! // The sum is 1900, for which the report was charged; the nearest serial placement is 100 away.
//! assert_eq!(sum, 1900);
//! assert_eq!(engine.audit(report)?.to_string(), "distance 100 import 200 before -");
//! # Ok::<(), esr::Error>(())
//! ```
//!
//! Threads share an engine under the program's own lock, and [`transact()`] runs an update over such an engine. Without a
//! lock an engine cannot be shared:
//!
//! ```compile_fail,E0277
//! let engine = esr::Engine::open(&[0]).unwrap();
//! std::thread::scope(|threads| {
//!     threads.spawn(|| { let _ = &engine; });
//! });
//! ```
//!
//! Nor can a thread use an engine that it has moved to another:
//!
//! ```compile_fail,E0382
//! let mut engine = esr::Engine::open(&[0]).unwrap();
//! std::thread::spawn(move || engine.begin_update(0));
//! let _ = engine.begin_update(0);
//! ```

#![warn(missing_docs)]

mod bank;
mod engine;
mod error;
mod event;
#[cfg(any(feature = "tracing", feature = "metrics"))]
mod forward;
mod gate;
#[cfg(test)]
mod interleave;
mod metrics;
mod mirror;
mod observer;
mod options;
mod patience;
mod store;
mod sync;
mod sys;
mod transact;
mod turns;
mod twin;
mod waits;

pub use bank::{Bank, BankBuilder, BankQuery, BankUpdate, Closing, Item, ItemKey, Report};
pub use engine::{Engine, MAX_ENTRIES, MAX_ITEMS, MAX_TRANSACTIONS};
pub use error::{Error, Refused};
pub use event::{Account, Carried, Counts, Event, Finding, Refusal, Reply, Standing, Totals, Txn};
pub use metrics::{Active, Metrics};
pub use observer::{Audited, Ended, Observed, Observer, Outcome, Renewed};
pub use options::Options;
pub use patience::Patience;
pub use store::{Change, Store, StoreError, StoreOpening};
#[cfg(feature = "sqlite")]
pub use store::{SqliteStore, Synchronous};
pub use transact::{Update, transact};
