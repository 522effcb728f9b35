//! A subscriber of the real crate `tracing` that records a line for each span and event.

use std::{
    collections::BTreeMap,
    fmt::Debug,
    sync::{Arc, Mutex},
};
use tracing::{
    Event, Metadata, Subscriber,
    field::{Field, Visit},
    span::{Attributes, Id, Record},
};

/// Returns the lines that a function records on this thread.
pub fn recorded(run: impl FnOnce()) -> Vec<String> {
    let log = Log::default();
    tracing::subscriber::with_default(log.clone(), run);
    let state = log.state.lock().expect("no panic");
    state.lines.clone()
}

#[derive(Clone, Default)]
struct Log {
    state: Arc<Mutex<State>>,
}

#[derive(Default)]
struct State {
    spans: u64,
    entered: Vec<u64>,
    lines: Vec<String>,
}

#[derive(Default)]
struct Fields(BTreeMap<&'static str, String>);

impl Visit for Fields {
    fn record_debug(&mut self, field: &Field, value: &dyn Debug) {
        self.0.insert(field.name(), format!("{value:?}"));
    }
}

/// Returns the fields that a record or an event has, in the order of their names.
fn fields(record: impl FnOnce(&mut Fields)) -> String {
    let mut fields = Fields::default();
    record(&mut fields);
    let fields = fields.0.iter();
    let texts = fields.map(|(name, value)| format!(" {name}={value}"));
    texts.collect()
}

/// Returns the level, the target and, of a span, the name.
fn head(metadata: &Metadata<'_>) -> String {
    let name = metadata.is_span().then(|| format!(" {}", metadata.name()));
    format!(
        "{} {}{}",
        metadata.level(),
        metadata.target(),
        name.unwrap_or_default()
    )
}

impl Subscriber for Log {
    fn enabled(&self, _: &Metadata<'_>) -> bool {
        true
    }

    fn new_span(&self, span: &Attributes<'_>) -> Id {
        let mut state = self.state.lock().unwrap();
        state.spans += 1;
        let (number, head) = (state.spans, head(span.metadata()));
        let fields = fields(|fields| span.record(fields));
        state.lines.push(format!("{number} opened: {head}{fields}"));
        Id::from_u64(number)
    }

    fn record(&self, span: &Id, values: &Record<'_>) {
        let fields = fields(|fields| values.record(fields));
        let line = format!("{} recorded:{fields}", span.into_u64());
        self.state.lock().unwrap().lines.push(line);
    }

    fn record_follows_from(&self, _: &Id, _: &Id) {}

    fn event(&self, event: &Event<'_>) {
        let fields = fields(|fields| event.record(fields));
        let mut state = self.state.lock().unwrap();
        let inside = state.entered.last().copied().unwrap_or_default();
        let head = head(event.metadata());
        state.lines.push(format!("{inside} event: {head}{fields}"));
    }

    fn enter(&self, span: &Id) {
        self.state.lock().unwrap().entered.push(span.into_u64());
    }

    fn exit(&self, span: &Id) {
        let left = self.state.lock().unwrap().entered.pop();
        assert_eq!(left, Some(span.into_u64()), "spans end in another order");
    }

    fn try_close(&self, span: Id) -> bool {
        let line = format!("{} closed", span.into_u64());
        self.state.lock().unwrap().lines.push(line);
        true
    }
}
