use esr::{Bank, Error};

esr::tracing_observer!(Traces);

fn main() -> Result<(), Error> {
    let bank = Bank::builder()
        .item("checking", 500)
        .observer(Traces)
        .open()?;
    bank.report(100, |report| report.read("checking"))?;
    Ok(())
}
