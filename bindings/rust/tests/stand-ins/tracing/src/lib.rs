//! A stand-in for the crate `tracing`: the part that `esr::tracing_observer!` uses. It records a line for each call, in the
//! format of `subscriber.rs`, which records those of the real crate.

use std::{cell::RefCell, collections::BTreeMap};

/// The fields of a span or an event that have a value.
pub type Fields = BTreeMap<&'static str, String>;

#[derive(Default)]
struct Log {
    spans: u64,
    entered: Vec<u64>,
    lines: Vec<String>,
}

thread_local! {
    static LOG: RefCell<Log> = RefCell::default();
}

/// Returns the lines that a function records on this thread.
pub fn recorded(run: impl FnOnce()) -> Vec<String> {
    LOG.take();
    run();
    LOG.take().lines
}

fn shown(fields: &Fields) -> String {
    fields
        .iter()
        .map(|(name, value)| format!(" {name}={value}"))
        .collect()
}

/// A value of a field.
pub trait Value {
    /// Returns how it is recorded, or `None` if it is empty.
    fn show(&self) -> Option<String>;
}

macro_rules! shown_as_debug {
    ($($kind:ty),*) => { $(impl Value for $kind { fn show(&self) -> Option<String> { Some(format!("{self:?}")) } })* };
}
shown_as_debug!(u64, bool, &str);

impl<T: Value> Value for Option<T> {
    fn show(&self) -> Option<String> {
        self.as_ref().and_then(Value::show)
    }
}

pub mod field {
    //! Values of fields.

    use super::Value;
    use std::fmt::{Debug, Display};

    /// No value yet.
    pub struct Empty;
    /// A value that is formatted.
    pub struct Formatted(String);

    impl Value for Empty {
        fn show(&self) -> Option<String> {
            None
        }
    }

    impl Value for Formatted {
        fn show(&self) -> Option<String> {
            Some(self.0.clone())
        }
    }

    /// Formats a value by `Display`.
    pub fn display(value: impl Display) -> Formatted {
        Formatted(value.to_string())
    }

    /// Formats a value by `Debug`.
    pub fn debug(value: impl Debug) -> Formatted {
        Formatted(format!("{value:?}"))
    }
}

pub mod span {
    //! Spans.

    use super::{Fields, LOG, Value, shown};

    /// A span, with the names of its fields.
    pub struct Span {
        number: u64,
        names: Vec<&'static str>,
    }

    /// A span that is entered. It is left and closed when it is dropped.
    pub struct EnteredSpan(Span);

    impl Span {
        /// Opens a span.
        pub fn open(head: &str, names: &[&'static str], fields: &Fields) -> Span {
            LOG.with_borrow_mut(|log| {
                log.spans += 1;
                let number = log.spans;
                log.lines
                    .push(format!("{number} opened: {head}{}", shown(fields)));
                Span {
                    number,
                    names: names.to_vec(),
                }
            })
        }

        /// Enters it.
        pub fn entered(self) -> EnteredSpan {
            LOG.with_borrow_mut(|log| log.entered.push(self.number));
            EnteredSpan(self)
        }
    }

    impl EnteredSpan {
        /// Records a value of a field. As in the real crate, a field that the span does not have is ignored.
        pub fn record(&self, name: &str, value: impl Value) {
            let number = self.0.number;
            if let (true, Some(value)) = (self.0.names.contains(&name), value.show()) {
                LOG.with_borrow_mut(|log| {
                    log.lines.push(format!("{number} recorded: {name}={value}"))
                });
            }
        }
    }

    impl Drop for EnteredSpan {
        fn drop(&mut self) {
            LOG.with_borrow_mut(|log| {
                assert_eq!(
                    log.entered.pop(),
                    Some(self.0.number),
                    "spans end in another order"
                );
                log.lines.push(format!("{} closed", self.0.number));
            });
        }
    }
}

/// Records an event.
pub fn event(head: &str, fields: &Fields) {
    LOG.with_borrow_mut(|log| {
        let inside = log.entered.last().copied().unwrap_or_default();
        log.lines
            .push(format!("{inside} event: {head}{}", shown(fields)));
    });
}

/// Returns the fields that have a value.
#[macro_export]
macro_rules! fields {
    ($($field:ident = $value:expr),*) => {
        <$crate::Fields as FromIterator<_>>::from_iter(
            [$((stringify!($field), $crate::Value::show(&$value))),*]
                .into_iter()
                .filter_map(|(name, value)| Some((name, value?))),
        )
    };
}

/// Opens a span of level `INFO`.
#[macro_export]
macro_rules! info_span {
    (target: $target:literal, $name:literal, $($field:ident = $value:expr),* $(,)?) => {
        $crate::span::Span::open(
            concat!("INFO ", $target, " ", $name),
            &[$(stringify!($field)),*],
            &$crate::fields!($($field = $value),*),
        )
    };
}

macro_rules! levels {
    ($mark:tt $($name:ident $level:literal),*) => { $(
        /// Records an event of this level.
        #[macro_export]
        macro_rules! $name {
            (target: $mark target:literal, $mark($mark field:ident = $mark value:expr,)* $mark text:literal) => {{
                let mut fields = $mark crate::fields!($mark($mark field = $mark value),*);
                fields.insert("message", $mark text.to_owned());
                $mark crate::event(concat!($level, " ", $mark target), &fields);
            }};
        }
    )* };
}
levels!($ debug "DEBUG", info "INFO", warn "WARN", error "ERROR");
