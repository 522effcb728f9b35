//! The declarations of `esr.h`.

#[repr(C)]
pub(crate) struct Engine {
    is_open: bool,
    machine: *mut core::ffi::c_void,
}

pub(crate) const CLOSED: Engine = Engine {
    is_open: false,
    machine: core::ptr::null_mut(),
};

#[repr(C)]
#[derive(Clone, Copy, Default, Debug)]
pub(crate) struct Reply {
    pub kind: u32,
    pub refusal: u32,
    pub txn: u32,
    pub value: i64,
}

#[repr(C)]
#[derive(Clone, Copy, Default)]
pub(crate) struct Totals {
    pub high: u64,
    pub low: u64,
    pub entries: u64,
}

#[repr(C)]
#[derive(Clone, Copy, Default)]
pub(crate) struct Finding {
    pub distance: u64,
    pub import: u64,
    pub count: usize,
}

#[repr(C)]
#[derive(Clone, Copy, Default)]
pub(crate) struct Counts {
    pub entries: u64,
    pub transactions: u64,
    pub active: u64,
    pub entries_left: u64,
    pub transactions_left: u64,
}

#[repr(C)]
#[derive(Clone, Copy, Default)]
pub(crate) struct Account {
    pub query: bool,
    pub standing: u32,
    pub limit: u64,
    pub charged: u64,
}

#[repr(C)]
#[derive(Clone, Copy, Default, Debug)]
pub(crate) struct Event {
    pub kind: u32,
    pub txn: u32,
    pub item: u32,
    pub limit: u64,
    pub value: i64,
}

#[repr(C)]
#[derive(Clone, Copy, Default, Debug)]
pub(crate) struct Carried {
    pub old_txn: u32,
    pub new_txn: u32,
    pub settled: u64,
}

/// A call that writes a text about a query, by names of the items.
pub(crate) type QueryText = unsafe extern "C" fn(
    engine: &mut Engine,
    query: u32,
    names: *const u8,
    length: usize,
    bytes: *mut u8,
    room: usize,
    count: &mut usize,
) -> u32;

// A call without lists is safe: references meet the rules of `esr.h`, and no call has another condition. A list is passed
// as a pointer and a length.
unsafe extern "C" {
    pub(crate) fn esr_open_weighted(
        engine: &mut Engine,
        opening: *const i64,
        items: usize,
        weights: *const u32,
        weighted: usize,
    ) -> u32;
    pub(crate) safe fn esr_close(engine: &mut Engine);
    pub(crate) safe fn esr_begin_update(engine: &mut Engine, limit: u64, reply: &mut Reply) -> u32;
    pub(crate) safe fn esr_begin_query(
        engine: &mut Engine,
        limit: u64,
        strict: bool,
        reply: &mut Reply,
    ) -> u32;
    pub(crate) safe fn esr_read(engine: &mut Engine, txn: u32, item: u32, reply: &mut Reply)
    -> u32;
    pub(crate) safe fn esr_write(
        engine: &mut Engine,
        txn: u32,
        item: u32,
        value: i64,
        reply: &mut Reply,
    ) -> u32;
    pub(crate) safe fn esr_commit(engine: &mut Engine, txn: u32, reply: &mut Reply) -> u32;
    pub(crate) safe fn esr_abort(engine: &mut Engine, txn: u32, reply: &mut Reply) -> u32;
    pub(crate) safe fn esr_read_for_update(
        engine: &mut Engine,
        txn: u32,
        item: u32,
        reply: &mut Reply,
    ) -> u32;
    pub(crate) safe fn esr_counts_of(engine: &mut Engine, counts: &mut Counts) -> u32;
    pub(crate) safe fn esr_account_of(engine: &mut Engine, txn: u32, account: &mut Account) -> u32;
    pub(crate) safe fn esr_totals_of(engine: &mut Engine, totals: &mut Totals) -> u32;
    pub(crate) fn esr_values(
        engine: &mut Engine,
        values: *mut i64,
        room: usize,
        count: &mut usize,
    ) -> u32;
    pub(crate) fn esr_audit(
        engine: &mut Engine,
        query: u32,
        before: *mut u32,
        room: usize,
        finding: &mut Finding,
    ) -> u32;
    pub(crate) fn esr_bundle(
        engine: &mut Engine,
        query: u32,
        bytes: *mut u8,
        room: usize,
        count: &mut usize,
    ) -> u32;
    pub(crate) fn esr_do(
        engine: &mut Engine,
        events: *const Event,
        count: usize,
        replies: *mut Reply,
        room: usize,
        stop: bool,
        answered: &mut usize,
    ) -> u32;
    pub(crate) fn esr_history_script(
        engine: &mut Engine,
        names: *const u8,
        length: usize,
        bytes: *mut u8,
        room: usize,
        count: &mut usize,
    ) -> u32;
    pub(crate) fn esr_explain(
        engine: &mut Engine,
        query: u32,
        names: *const u8,
        length: usize,
        bytes: *mut u8,
        room: usize,
        count: &mut usize,
    ) -> u32;
    pub(crate) fn esr_picture(
        engine: &mut Engine,
        query: u32,
        names: *const u8,
        length: usize,
        bytes: *mut u8,
        room: usize,
        count: &mut usize,
    ) -> u32;
    pub(crate) fn esr_ledger(
        engine: &mut Engine,
        bytes: *mut u8,
        room: usize,
        count: &mut usize,
    ) -> u32;
    pub(crate) safe fn esr_renew(engine: &mut Engine) -> u32;
    pub(crate) safe fn esr_renew_aborting(engine: &mut Engine) -> u32;
    pub(crate) fn esr_renew_carrying(
        engine: &mut Engine,
        carried: *mut Carried,
        room: usize,
        count: &mut usize,
    ) -> u32;
}
