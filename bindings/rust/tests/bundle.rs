//! The bundles of a bank's reports: the checker of the library accepts each, with the distance that the audit found.

use esr::{Bank, Error, MAX_TRANSACTIONS, Options, Report};

/// The verdict of `esr.h`.
#[repr(C)]
#[derive(Default)]
struct Verdict {
    kind: u32,
    number: u64,
}

unsafe extern "C" {
    fn esr_check(bytes: *const u8, length: usize, verdict: &mut Verdict) -> u32;
}

/// Returns the kind of the verdict on a bundle, and its number.
fn verdict(bundle: &[u8]) -> (u32, u64) {
    let mut verdict = Verdict::default();
    // SAFETY: the pointer and the length are those of one slice, which the call reads.
    let status = unsafe { esr_check(bundle.as_ptr(), bundle.len(), &mut verdict) };
    assert_eq!(status, 0);
    (verdict.kind, verdict.number)
}

const VALID: u32 = 1;
const INVALID: u32 = 2;
const BAD: u32 = 3;

fn two_accounts() -> Bank {
    let items = [("checking", 500), ("savings", 1500)];
    let bank = Bank::builder().items(items).open();
    bank.expect("two accounts are within the limits")
}

/// Reads both accounts while an update is between its two writes, of which the report sees the first.
fn report_between(bank: &Bank, options: Options, moved: i64) -> Result<Report, Error> {
    bank.transact_stepwise(1_000, |update| {
        update.add("checking", -moved)?;
        let read = bank.report_unaudited(options.clone(), |r| r.read_all(["checking", "savings"]));
        update.add("savings", moved)?;
        Ok(read?.1)
    })
}

/// Each bundle is valid, and proves the distance of the audit. So it is in a bank that audits on another thread.
#[test]
fn bundles_prove_the_distance_of_the_audit() -> Result<(), Error> {
    let builder = Bank::builder().items([("checking", 500), ("savings", 1500)]);
    let background = builder.background_audits(true).open()?;
    for bank in [two_accounts(), background] {
        for (moved, options, distance) in [
            (0, Options::limit(0), 0),
            (100, Options::limit(200), 100),
            (7, Options::limit(1_000).strict(), 7),
        ] {
            let report = report_between(&bank, options, moved)?;
            assert_eq!(bank.audit(report)?.distance, distance);
            assert_eq!(verdict(&bank.bundle(report)?), (VALID, distance));
        }
    }
    Ok(())
}

/// The checker finds a bundle in which one number is another, and one that is cut off.
#[test]
fn a_changed_bundle_is_not_valid() -> Result<(), Error> {
    let bank = two_accounts();
    let report = report_between(&bank, Options::limit(200), 100)?;
    let bundle = bank.bundle(report)?;
    let text = String::from_utf8(bundle.clone()).expect("it is ASCII");
    let changed = text.replacen("\"worth\":100", "\"worth\":99", 1);
    assert_ne!(changed, text);
    assert_eq!(verdict(changed.as_bytes()).0, INVALID);
    assert_eq!(verdict(&bundle[1..]).0, BAD);
    Ok(())
}

/// A report of an earlier history, or of another bank, fails as it does for `explain`.
#[test]
fn a_report_that_the_history_does_not_have() -> Result<(), Error> {
    let (bank, other) = (two_accounts(), two_accounts());
    let (_, report) = bank.report_unaudited(0, |r| r.read("checking"))?;
    assert_eq!(other.bundle(report), Err(Error::NotACommittedQuery));
    for _ in 0..MAX_TRANSACTIONS {
        bank.transact(1, |update| update.add("checking", 1))?;
    }
    assert_eq!(bank.renewals(), 1);
    let error = bank.bundle(report).unwrap_err();
    assert_eq!(error, Error::ReportExpired);
    assert_eq!(Err(error.clone()), bank.explain(report));
    assert_eq!(
        error.to_string(),
        "the report's history was renewed: audit it in before_renewal or earlier"
    );
    Ok(())
}
