//! Updates over an engine that threads share under a lock.

use crate::{
    Engine, Error, Event, Patience, Reply, Txn,
    patience::{Rounds, Waiting},
};
use std::sync::{Mutex, MutexGuard, PoisonError};

/// Takes the lock. A panic leaves no call half done, so poisoning does not matter.
fn lock(engine: &Mutex<Engine>) -> MutexGuard<'_, Engine> {
    engine.lock().unwrap_or_else(PoisonError::into_inner)
}

/// An update that [`transact`] has begun. Each call takes the lock for itself, so that others run in between.
///
/// ```
/// use esr::{Engine, Patience, transact};
/// use std::sync::Mutex;
///
/// let bank = Mutex::new(Engine::open(&[500])?);
/// let number = transact(&bank, 0, Patience::default(), |update| Ok(update.txn()))?;
/// assert_eq!(number.number(), 1);
/// # Ok::<(), esr::Error>(())
/// ```
#[derive(Debug)]
pub struct Update<'a> {
    engine: &'a Mutex<Engine>,
    txn: Txn,
    waiting: &'a mut Waiting,
    ended: bool,
}

impl Update<'_> {
    /// Returns the number of the update.
    ///
    /// ```
    /// use esr::{Engine, Patience, transact};
    /// use std::sync::Mutex;
    ///
    /// let bank = Mutex::new(Engine::open(&[500])?);
    /// let charged = transact(&bank, 0, Patience::default(), |update| {
    ///     Ok(bank.lock().unwrap().account(update.txn())?.charged)
    /// })?;
    /// assert_eq!(charged, 0);
    /// # Ok::<(), esr::Error>(())
    /// ```
    #[must_use]
    pub fn txn(&self) -> Txn {
        self.txn
    }

    fn step(
        &mut self,
        event: impl Fn(&mut Engine) -> Result<Reply, Error>,
    ) -> Result<Reply, Error> {
        let mut rounds = Rounds::default();
        loop {
            // the lock is released at the end of this line, and not held while waiting
            let reply = event(&mut lock(self.engine))?;
            match reply {
                Reply::Refused(why)
                    if why.may_pass_later() && self.waiting.pause_for_event(&mut rounds) => {}
                Reply::Refused(why) => return Err(why.into()),
                reply => return Ok(reply),
            }
        }
    }

    /// Reads an item.
    ///
    /// ```
    /// use esr::{Engine, Patience, transact};
    /// use std::sync::Mutex;
    ///
    /// let bank = Mutex::new(Engine::open(&[500])?);
    /// assert_eq!(transact(&bank, 0, Patience::default(), |update| update.read(0))?, 500);
    /// # Ok::<(), esr::Error>(())
    /// ```
    ///
    /// # Errors
    /// `Refused` if it is refused, or blocked at each retry; `HistoryFull`, `NoMemory`.
    pub fn read(&mut self, item: u32) -> Result<i64, Error> {
        let txn = self.txn;
        match self.step(|engine| engine.step(Event::Read { txn, item }))? {
            Reply::Value(value) => Ok(value),
            other => unreachable!("{other:?}"),
        }
    }

    /// Reads an item that the update is going to write: see [`Engine::read_for_update`].
    ///
    /// ```
    /// use esr::{Engine, Patience, transact};
    /// use std::sync::Mutex;
    ///
    /// let bank = Mutex::new(Engine::open(&[500])?);
    /// transact(&bank, 0, Patience::default(), |update| {
    ///     let left = update.read_for_update(0)? - 100;
    ///     update.write(0, left)
    /// })?;
    /// assert_eq!(bank.into_inner().unwrap().values()?, [400]);
    /// # Ok::<(), esr::Error>(())
    /// ```
    ///
    /// # Errors
    /// Those of [`read`](Update::read).
    pub fn read_for_update(&mut self, item: u32) -> Result<i64, Error> {
        let txn = self.txn;
        match self.step(|engine| engine.step_for_update(txn, item))? {
            Reply::Value(value) => Ok(value),
            other => unreachable!("{other:?}"),
        }
    }

    /// Writes an item.
    ///
    /// ```
    /// use esr::{Engine, Patience, transact};
    /// use std::sync::Mutex;
    ///
    /// let bank = Mutex::new(Engine::open(&[500])?);
    /// transact(&bank, 0, Patience::default(), |update| update.write(0, 400))?;
    /// assert_eq!(bank.into_inner().unwrap().values()?, [400]);
    /// # Ok::<(), esr::Error>(())
    /// ```
    ///
    /// # Errors
    /// Those of [`read`](Update::read).
    pub fn write(&mut self, item: u32, value: i64) -> Result<(), Error> {
        let txn = self.txn;
        self.step(|engine| engine.step(Event::Write { txn, item, value }))
            .map(drop)
    }

    fn commit(mut self) -> Result<(), Error> {
        let txn = self.txn;
        self.step(|engine| engine.step(Event::Commit { txn }))?;
        self.ended = true;
        Ok(())
    }
}

impl Drop for Update<'_> {
    fn drop(&mut self) {
        if !self.ended {
            // if the allocation fails, the update stays active until its engine is dropped
            let _ = lock(self.engine).abort(self.txn);
        }
    }
}

fn attempt<T>(
    engine: &Mutex<Engine>,
    limit: u64,
    waiting: &mut Waiting,
    body: &mut impl FnMut(&mut Update<'_>) -> Result<T, Error>,
) -> Result<T, Error> {
    let txn = lock(engine).begin_update(limit)?;
    let mut update = Update {
        engine,
        txn,
        waiting,
        ended: false,
    };
    let value = body(&mut update)?;
    update.commit()?;
    Ok(value)
}

/// Runs an update: begins it, runs the body, and commits. A blocked event is retried after growing pauses; after some time
/// the update is aborted and the body runs again, until its [`Patience`] has ended. Any other error of the body, and a
/// panic, aborts the update.
///
/// ```
/// use esr::{Engine, Patience, transact};
/// use std::sync::Mutex;
///
/// let bank = Mutex::new(Engine::open(&[500, 1500])?);
/// transact(&bank, 0, Patience::default(), |update| {
///     let checking = update.read_for_update(0)?;
///     let savings = update.read_for_update(1)?;
///     update.write(0, checking - 100)?;
///     update.write(1, savings + 100)
/// })?;
/// assert_eq!(bank.into_inner().unwrap().values()?, [400, 1600]);
/// # Ok::<(), esr::Error>(())
/// ```
///
/// # Errors
/// `Refused` with the last reason when patience has ended, and the errors of the body.
pub fn transact<T>(
    engine: &Mutex<Engine>,
    limit: u64,
    patience: Patience,
    mut body: impl FnMut(&mut Update<'_>) -> Result<T, Error>,
) -> Result<T, Error> {
    let mut waiting = Waiting::of_engine(patience);
    loop {
        match attempt(engine, limit, &mut waiting, &mut body) {
            // the body may also return a refusal of another transaction, which was waited for already
            Err(Error::Refused(refused))
                if refused.reason.may_pass_later()
                    && waiting.has_given_up()
                    && waiting.pause_for_attempt() => {}
            answer => return answer,
        }
    }
}
