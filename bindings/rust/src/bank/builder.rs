//! Opens a bank.

use super::{
    Bank, Closing,
    items::Items,
    state::{RESERVED_NUMBERS, State},
    watch::Observing,
};
use crate::{
    Engine, Error, Observer, Patience, Store, StoreOpening,
    gate::Lock,
    mirror::Mirror,
    store::{self, StoreQueue},
    sync::AtomicU64,
    twin::Twin,
};
use std::{error, fmt, time::Duration};

/// The work before a renewal.
pub(super) type BeforeRenewal =
    Box<dyn Fn(&mut Closing<'_>) -> Result<(), Box<dyn error::Error + Send + Sync>> + Send + Sync>;

/// The items and options of a bank that is to be opened.
///
/// ```
/// let builder = esr::Bank::builder().item("checking", 500).weighted_item("phones", 15, 900);
/// assert_eq!(builder.open()?.value("phones")?, 15);
/// # Ok::<(), esr::Error>(())
/// ```
#[must_use]
pub struct BankBuilder {
    names: Vec<String>,
    opening: Vec<i64>,
    weights: Vec<u32>,
    patience: Patience,
    observer: Option<Box<dyn Observer>>,
    before_renewal: Option<BeforeRenewal>,
    is_optimistic: bool,
    background_audits: Option<bool>,
    store: Option<Box<dyn Store + Send>>,
    store_patience: Duration,
}

impl Default for BankBuilder {
    fn default() -> BankBuilder {
        BankBuilder {
            names: Vec::new(),
            opening: Vec::new(),
            weights: Vec::new(),
            patience: Patience::default(),
            observer: None,
            before_renewal: None,
            is_optimistic: true,
            background_audits: None,
            store: None,
            store_patience: Duration::from_secs(10),
        }
    }
}

impl BankBuilder {
    /// Adds an item with its opening value.
    ///
    /// ```
    /// let bank = esr::Bank::builder().item("checking", 500).open()?;
    /// assert_eq!(bank.value("checking")?, 500);
    /// # Ok::<(), esr::Error>(())
    /// ```
    pub fn item(self, name: impl Into<String>, value: i64) -> BankBuilder {
        self.weighted_item(name, value, 1)
    }

    /// Adds items with their opening values.
    ///
    /// ```
    /// let bank = esr::Bank::builder().items([("checking", 500), ("savings", 1500)]).open()?;
    /// assert_eq!(bank.value("savings")?, 1500);
    /// # Ok::<(), esr::Error>(())
    /// ```
    pub fn items<N: Into<String>>(self, items: impl IntoIterator<Item = (N, i64)>) -> BankBuilder {
        let items = items.into_iter();
        items.fold(self, |builder, (name, value)| builder.item(name, value))
    }

    /// Adds an item whose differences are multiplied by a weight, 1 to 1,000. So limits can be amounts of money although
    /// items are pieces.
    ///
    /// ```
    /// // 15 phones at 900: the sale of one is a change of 900
    /// let bank = esr::Bank::builder().weighted_item("phones", 15, 900).open()?;
    /// bank.transact(900, |sale| sale.add("phones", -1))?;
    /// # Ok::<(), esr::Error>(())
    /// ```
    pub fn weighted_item(
        mut self,
        name: impl Into<String>,
        value: i64,
        weight: u32,
    ) -> BankBuilder {
        self.names.push(name.into());
        self.opening.push(value);
        self.weights.push(weight);
        self
    }

    /// Sets how long a transaction waits for others in total before its call fails: see [`Patience`].
    ///
    /// ```
    /// use esr::{Bank, Patience};
    /// use std::time::Duration;
    ///
    /// let bank = Bank::builder().item("checking", 500).patience(Patience::of(Duration::from_secs(1))).open()?;
    /// # Ok::<(), esr::Error>(())
    /// ```
    pub fn patience(mut self, patience: Patience) -> BankBuilder {
        self.patience = patience;
        self
    }

    /// Sets the observer, which is called when a transaction begins, is blocked, runs again or ends, at audits and at
    /// renewals. It replaces one that was set before.
    ///
    /// ```
    /// use esr::{Audited, Bank, Error, Observer};
    ///
    /// struct Warns;
    ///
    /// impl Observer for Warns {
    ///     fn audited(&self, audited: &Audited<'_>) {
    ///         if audited.finding.distance > 1_000 {
    ///             eprintln!("a report is off by {}", audited.finding.distance);
    ///         }
    ///     }
    /// }
    ///
    /// let bank = Bank::builder().item("checking", 500).observer(Warns).open()?;
    /// # Ok::<(), Error>(())
    /// ```
    pub fn observer(mut self, observer: impl Observer + 'static) -> BankBuilder {
        self.observer = Some(Box::new(observer));
        self
    }

    /// Sets the work that is done with a history before it is gone, such as audits. The work is passed the history and runs
    /// under the bank's lock, so it cannot use the bank itself. A panic of it counts as a failure: see
    /// [`try_before_renewal`](BankBuilder::try_before_renewal).
    ///
    /// ```
    /// use esr::{Bank, Error};
    ///
    /// let bank = Bank::builder()
    ///     .item("checking", 500)
    ///     .before_renewal(|closing| {
    ///         for report in closing.due().to_vec() {
    ///             println!("{}", closing.audit(report).expect("it has committed"));
    ///         }
    ///     })
    ///     .open()?;
    /// # Ok::<(), Error>(())
    /// ```
    pub fn before_renewal(
        self,
        work: impl Fn(&mut Closing<'_>) + Send + Sync + 'static,
    ) -> BankBuilder {
        self.try_before_renewal(move |closing| {
            work(closing);
            Ok(())
        })
    }

    /// Sets work before a renewal that may fail. A renewal whose work failed is retried after 100 ms. Until then the bank
    /// continues in the old history, of which a tenth is reserved for this; when that is used up, a begin fails with
    /// [`Error::RenewalFailed`]. [`Bank::renewal_failure`] returns the error of the work.
    ///
    /// ```
    /// use esr::Bank;
    /// use std::{fs::OpenOptions, io::Write};
    ///
    /// let bank = Bank::builder()
    ///     .item("checking", 500)
    ///     .try_before_renewal(|closing| {
    ///         let mut file = OpenOptions::new().append(true).open("/audits")?;
    ///         for report in closing.due().to_vec() {
    ///             writeln!(file, "{}", closing.audit(report)?)?;
    ///         }
    ///         Ok(())
    ///     })
    ///     .open()?;
    /// # Ok::<(), esr::Error>(())
    /// ```
    pub fn try_before_renewal(
        mut self,
        work: impl Fn(&mut Closing<'_>) -> Result<(), Box<dyn error::Error + Send + Sync>>
        + Send
        + Sync
        + 'static,
    ) -> BankBuilder {
        self.before_renewal = Some(Box::new(work));
        self
    }

    /// Sets whether [`Bank::transact`] runs bodies optimistically, which it does by default. With `false` every update runs
    /// as by [`Bank::transact_stepwise`].
    ///
    /// ```
    /// use esr::{Bank, Error};
    ///
    /// let bank = Bank::builder().item("checking", 500).optimistic(false).open()?;
    /// bank.transact(100, |update| update.add("checking", -100))?;
    /// assert_eq!(bank.metrics().optimistic_updates, 0);
    /// # Ok::<(), Error>(())
    /// ```
    pub fn optimistic(mut self, is_optimistic: bool) -> BankBuilder {
        self.is_optimistic = is_optimistic;
        self
    }

    /// Sets whether reports are audited on a thread of the bank, by a second engine that replays the same events. Then only
    /// the report's caller waits for an audit; otherwise an audit holds the lock for about half a microsecond for each
    /// transaction of the history. It costs the memory of a second engine, up to 16 MB for the events, a tenth of the
    /// throughput, and, while there are reports, the time to replay the events.
    ///
    /// By default the bank starts the thread when its first report begins. Before that it only logs the first 65,536 events
    /// of each history, in 1 MB, and after four histories in which no report has begun it logs nothing. If the history has
    /// events that are not logged when a report begins, the bank is renewed before that; active updates continue. If the
    /// thread cannot be started, or the work before this renewal fails, audits hold the lock until the next renewal.
    ///
    /// With `true` the bank starts the thread when it is opened, and is never renewed for it. With `false` audits always hold
    /// the lock.
    ///
    /// ```
    /// use esr::{Bank, Error};
    ///
    /// let bank = Bank::builder().item("checking", 500).background_audits(true).open()?;
    /// let (_, finding) = bank.report(100, |report| report.read("checking"))?;
    /// assert_eq!(finding.distance, 0);
    /// # Ok::<(), Error>(())
    /// ```
    pub fn background_audits(mut self, background_audits: bool) -> BankBuilder {
        self.background_audits = Some(background_audits);
        self
    }

    /// Keeps the committed values in a store, such as `SqliteStore` with the feature `sqlite`. Its values replace the opening
    /// values of the builder, and items that it does not have are added; items that only it has follow, with weight 1.
    /// [`Bank::store_opening`] returns how many there were.
    ///
    /// An update, a report, and a body that fails return once the store has all committed updates whose values they have
    /// read. [`Bank::value`] and [`Bank::snapshot`] return the store's values without waiting. A body itself reads values
    /// that may not be in the store yet. If a bank is dropped, its store is closed.
    ///
    /// ```
    /// use esr::{Bank, Change, Error, Store, StoreError};
    /// use std::sync::{Arc, Mutex};
    ///
    /// /// Keeps values as long as the program runs.
    /// #[derive(Clone, Default)]
    /// struct Shelf(Arc<Mutex<Vec<(String, i64)>>>);
    ///
    /// impl Store for Shelf {
    ///     fn open(&mut self, items: &[(&str, i64)]) -> Result<Vec<(String, i64)>, Error> {
    ///         let mut values = self.0.lock().unwrap();
    ///         for (name, value) in items {
    ///             if !values.iter().any(|(known, _)| known == name) {
    ///                 values.push((name.to_string(), *value));
    ///             }
    ///         }
    ///         Ok(values.clone())
    ///     }
    ///
    ///     fn write(&mut self, _: u64, changes: &[Change<'_>]) -> Result<(), StoreError> {
    ///         for (name, value) in self.0.lock().unwrap().iter_mut() {
    ///             *value = changes.iter().find(|change| change.name == name).map_or(*value, |change| change.new);
    ///         }
    ///         Ok(())
    ///     }
    ///
    ///     fn resolve(&mut self, _: u64) -> Result<bool, StoreError> {
    ///         Ok(true)
    ///     }
    ///
    ///     fn close(&mut self) {}
    /// }
    ///
    /// let shelf = Shelf::default();
    /// let bank = Bank::builder().item("pens", 40).store(shelf.clone()).open()?;
    /// bank.transact(0, |sale| sale.add("pens", -1))?;
    /// drop(bank);
    /// let bank = Bank::builder().item("pens", 40).store(shelf).open()?;
    /// assert_eq!((bank.value("pens")?, bank.store_opening().unwrap().replaced), (39, 1));
    /// # Ok::<(), Error>(())
    /// ```
    pub fn store(mut self, store: impl Store + Send + 'static) -> BankBuilder {
        self.store = Some(Box::new(store));
        self
    }

    /// Sets how long callers wait for a store that fails: 10 seconds by default. Then the bank stops: each call that returns a
    /// `Result` fails with [`Error::StoreStopped`], and no value is returned that the store may not have.
    ///
    /// ```
    /// use std::time::Duration;
    ///
    /// let bank = esr::Bank::builder().item("checking", 500).store_patience(Duration::from_secs(60)).open()?;
    /// # Ok::<(), esr::Error>(())
    /// ```
    pub fn store_patience(mut self, store_patience: Duration) -> BankBuilder {
        self.store_patience = store_patience;
        self
    }

    /// Opens the bank.
    ///
    /// ```
    /// let twice = esr::Bank::builder().item("checking", 500).item("checking", 1500).open();
    /// assert_eq!(twice.unwrap_err().to_string(), "two items of one name: checking");
    /// ```
    ///
    /// # Errors
    /// `NameTwice`, `TooManyItems`, `ValueOutOfRange`, `WeightOutOfRange`, `NoMemory`, and with a store `StoreUnfit`,
    /// `StoreInUse`.
    pub fn open(mut self) -> Result<Bank, Error> {
        match self.store.take() {
            Some(store) => self.open_over(store),
            None => self.open_engine(),
        }
    }

    fn open_over(self, mut store: Box<dyn Store + Send>) -> Result<Bank, Error> {
        // a store gets no items that no bank can have
        Items::new(self.names.clone())?;
        let label = |number: usize| self.names[number].clone();
        Engine::open_labelled(&self.opening, &self.weights, label)?;
        let names = self.names.iter().map(String::as_str);
        let given: Vec<(&str, i64)> = names.zip(self.opening.iter().copied()).collect();
        let stored = store.open(&given)?;
        let patience = self.store_patience;
        match self.open_with(stored) {
            Ok((mut bank, values, opening)) => {
                let names = bank.items.names().map(String::from).collect();
                let queue = StoreQueue::start(store, patience, names, &values)?;
                bank.store = Some(queue);
                bank.store_opening = Some(opening);
                Ok(bank)
            }
            Err(error) => {
                store.close();
                Err(error)
            }
        }
    }

    /// Opens the bank with the values of a store. Returns these too, and how they differed from those of the builder.
    fn open_with(
        mut self,
        stored: Vec<(String, i64)>,
    ) -> Result<(Bank, Vec<i64>, StoreOpening), Error> {
        let opening = store::merge(&mut self.names, &mut self.opening, stored)?;
        self.weights.resize(self.names.len(), 1);
        let values = self.opening.clone();
        Ok((self.open_engine()?, values, opening))
    }

    fn open_engine(self) -> Result<Bank, Error> {
        let items = Items::new(self.names)?;
        let label = |number: usize| items.name(number as u32).to_owned();
        let engine = Engine::open_labelled(&self.opening, &self.weights, label)?;
        let is_logged = self.background_audits != Some(false);
        let twin = is_logged.then(|| Twin::of(&self.opening, &self.weights));
        let (twin, mut feed) = twin.unzip();
        if let (Some(true), Some(twin), Some(feed)) = (self.background_audits, &twin, &mut feed) {
            feed.start_always(|| twin.start());
            if !feed.can_audit() {
                return Err(Error::NoMemory);
            }
        }
        let reserved = self.before_renewal.as_ref().map_or(0, |_| RESERVED_NUMBERS);
        Ok(Bank {
            items,
            patience: self.patience,
            observing: self.observer.map(Observing::of),
            state: Lock::new(State::new(engine, feed, reserved)),
            mirror: Mirror::of(&self.opening),
            ends: AtomicU64::new(0),
            dropped: AtomicU64::new(0),
            is_optimistic: self.is_optimistic,
            twin,
            before_renewal: self.before_renewal,
            store: None,
            store_opening: None,
        })
    }
}

impl fmt::Debug for BankBuilder {
    fn fmt(&self, f: &mut fmt::Formatter<'_>) -> fmt::Result {
        f.debug_struct("BankBuilder").finish_non_exhaustive()
    }
}
