use esr::{Bank, Error};

esr::metrics_observer!(Counts);

fn main() -> Result<(), Error> {
    let bank = Bank::builder()
        .item("checking", 500)
        .observer(Counts::new())
        .open()?;
    bank.report(100, |report| report.read("checking"))?;
    Ok(())
}
