//! A stand-in for the crate `metrics`: the part that `esr::metrics_observer!` uses. It records the values.

use std::{
    collections::BTreeMap,
    sync::{Mutex, MutexGuard, PoisonError},
};

/// The unit of a metric.
#[derive(Clone, Copy, PartialEq, Eq, Debug)]
pub enum Unit {
    /// Seconds.
    Seconds,
}

/// What was recorded.
#[derive(Clone, PartialEq, Debug, Default)]
pub struct Recorded {
    /// For each described name, its kind, unit and text.
    pub described: Vec<(&'static str, &'static str, Option<Unit>, &'static str)>,
    /// The counters, by their names with labels.
    pub counters: BTreeMap<String, u64>,
    /// The gauges.
    pub gauges: BTreeMap<String, f64>,
    /// The values of the histograms.
    pub histograms: BTreeMap<String, Vec<f64>>,
}

static RECORDED: Mutex<Recorded> = Mutex::new(Recorded {
    described: Vec::new(),
    counters: BTreeMap::new(),
    gauges: BTreeMap::new(),
    histograms: BTreeMap::new(),
});

fn lock() -> MutexGuard<'static, Recorded> {
    RECORDED.lock().unwrap_or_else(PoisonError::into_inner)
}

/// Returns everything that the process has recorded so far.
pub fn recorded() -> Recorded {
    lock().clone()
}

/// Notes a description.
pub fn describe(kind: &'static str, name: &'static str, unit: Option<Unit>, text: &'static str) {
    lock().described.push((kind, name, unit, text));
}

/// A counter.
pub struct Counter(String);
/// A gauge.
pub struct Gauge(String);
/// A histogram.
pub struct Histogram(String);

fn key(name: &str, labels: &[(&str, &str)]) -> String {
    let labels: Vec<String> = labels
        .iter()
        .map(|(label, value)| format!("{label}=\"{value}\""))
        .collect();
    match labels.is_empty() {
        true => name.to_owned(),
        false => format!("{name}{{{}}}", labels.join(",")),
    }
}

impl Counter {
    /// Registers it.
    pub fn register(name: &str, labels: &[(&str, &str)]) -> Counter {
        let key = key(name, labels);
        lock().counters.entry(key.clone()).or_default();
        Counter(key)
    }

    /// Adds a number.
    pub fn increment(&self, more: u64) {
        *lock().counters.get_mut(&self.0).expect("it is registered") += more;
    }

    /// Sets it to a number, unless it is higher.
    pub fn absolute(&self, value: u64) {
        let mut recorded = lock();
        let counter = recorded
            .counters
            .get_mut(&self.0)
            .expect("it is registered");
        *counter = value.max(*counter);
    }
}

impl Gauge {
    /// Registers it.
    pub fn register(name: &str, labels: &[(&str, &str)]) -> Gauge {
        let key = key(name, labels);
        lock().gauges.entry(key.clone()).or_default();
        Gauge(key)
    }

    /// Adds a number.
    pub fn increment(&self, more: f64) {
        *lock().gauges.get_mut(&self.0).expect("it is registered") += more;
    }

    /// Subtracts a number.
    pub fn decrement(&self, less: f64) {
        self.increment(-less);
    }

    /// Sets it.
    pub fn set(&self, value: f64) {
        *lock().gauges.get_mut(&self.0).expect("it is registered") = value;
    }
}

impl Histogram {
    /// Registers it.
    pub fn register(name: &str, labels: &[(&str, &str)]) -> Histogram {
        let key = key(name, labels);
        lock().histograms.entry(key.clone()).or_default();
        Histogram(key)
    }

    /// Adds a value.
    pub fn record(&self, value: f64) {
        lock()
            .histograms
            .get_mut(&self.0)
            .expect("it is registered")
            .push(value);
    }
}

macro_rules! kinds {
    ($mark:tt $($name:ident $describe:ident $kind:ident),*) => { $(
        /// Registers a metric of this kind.
        #[macro_export]
        macro_rules! $name {
            ($mark name:expr $mark(, $mark label:literal => $mark value:expr)*) => {
                $mark crate::$kind::register($mark name, &[$mark(($mark label, $mark value)),*])
            };
        }
        /// Describes a metric of this kind.
        #[macro_export]
        macro_rules! $describe {
            ($mark name:expr, $mark unit:expr, $mark text:expr) => {
                $mark crate::describe(stringify!($name), $mark name, Some($mark unit), $mark text)
            };
            ($mark name:expr, $mark text:expr) => {
                $mark crate::describe(stringify!($name), $mark name, None, $mark text)
            };
        }
    )* };
}
kinds!($ counter describe_counter Counter, gauge describe_gauge Gauge, histogram describe_histogram Histogram);
