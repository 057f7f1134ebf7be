//! The published Rust, asked.

use crate::mapping;
use crate::model::{Answer, Call, Case, Choice, Opt, Reader, Record};
use std::cell::Cell;
use std::panic::{self, AssertUnwindSafe};
use swift_mt_message::errors::ParseError;
use swift_mt_message::fields::field50::*;
use swift_mt_message::fields::field59::*;
use swift_mt_message::traits::SwiftField;

type Reading = Result<(Record, String), ParseError>;

thread_local! {
    /// Whether this thread is within the published code.
    static ASKING: Cell<bool> = const { Cell::new(false) };
}

/// Keeps a panic of the published code off the terminal, and no other panic.
pub fn silence_panics() {
    let usual = panic::take_hook();
    panic::set_hook(Box::new(move |info| {
        if !ASKING.get() {
            usual(info);
        }
    }));
}

/// The Rust's answer; an error where its message is none that `mapping` knows.
pub fn answer(case: &Case) -> Result<Answer, String> {
    ASKING.set(true);
    let outcome = panic::catch_unwind(AssertUnwindSafe(|| ask(case)));
    ASKING.set(false);
    match outcome {
        Err(_) => Ok(Answer::Panicked),
        Ok(Ok((record, written))) => Ok(Answer::Read { record, written: written.into_bytes() }),
        Ok(Err(ParseError::InvalidFormat { message })) => {
            let (number, line) = mapping::refusal(case, &message)?;
            Ok(Answer::Refused { number, line })
        }
        Ok(Err(other)) => Err(format!("an error of another kind: {other:?}")),
    }
}

fn ask(case: &Case) -> Reading {
    match case.reader {
        Reader::Option(option) => ask_option(option, &case.body),
        Reader::Choice(choice) => ask_choice(choice, case),
    }
}

fn ask_option(option: Opt, body: &str) -> Reading {
    match option {
        Opt::N50 => parsed::<Field50NoOption>(body),
        Opt::A50 => parsed::<Field50A>(body),
        Opt::F50 => parsed::<Field50F>(body),
        Opt::K50 => parsed::<Field50K>(body),
        Opt::C50 => parsed::<Field50C>(body),
        Opt::L50 => parsed::<Field50L>(body),
        Opt::G50 => parsed::<Field50G>(body),
        Opt::H50 => parsed::<Field50H>(body),
        Opt::N59 => parsed::<Field59NoOption>(body),
        Opt::A59 => parsed::<Field59A>(body),
        Opt::F59 => parsed::<Field59F>(body),
    }
}

fn ask_choice(choice: Choice, case: &Case) -> Reading {
    match choice {
        Choice::InstructingParty => called::<Field50InstructingParty>(case),
        Choice::OrderingCustomerFGH => called::<Field50OrderingCustomerFGH>(case),
        Choice::OrderingCustomerAFK => called::<Field50OrderingCustomerAFK>(case),
        Choice::OrderingCustomerNCF => called::<Field50OrderingCustomerNCF>(case),
        Choice::Creditor => called::<Field50Creditor>(case),
        Choice::Beneficiary => called::<Field59>(case),
        Choice::Debtor => called::<Field59Debtor>(case),
    }
}

fn parsed<T: SwiftField + Taken>(body: &str) -> Reading {
    let value = T::parse(body)?;
    Ok((value.record(), value.to_swift_string()))
}

fn called<T: SwiftField + Taken>(case: &Case) -> Reading {
    match case.call {
        Call::Parse => parsed::<T>(&case.body),
        Call::NoLetter => with_variant::<T>(&case.body, None),
        Call::Letter(letter) => {
            let variant = char::from(letter).to_string();
            with_variant::<T>(&case.body, Some(&variant))
        }
    }
}

fn with_variant<T: SwiftField + Taken>(body: &str, variant: Option<&str>) -> Reading {
    let value = T::parse_with_variant(body, variant, None)?;
    Ok((value.record(), value.to_swift_string()))
}

/// A value of the Rust as a record.
trait Taken {
    fn record(&self) -> Record;
}

fn record(option: Opt, party: Option<&String>, bic: &str, names: &[String]) -> Record {
    Record {
        option,
        party: party.map(|text| text.clone().into_bytes()),
        bic: bic.as_bytes().to_vec(),
        names: names.iter().map(|name| name.clone().into_bytes()).collect(),
    }
}

impl Taken for Field50NoOption {
    fn record(&self) -> Record {
        record(Opt::N50, None, "", &self.name_and_address)
    }
}

impl Taken for Field50A {
    fn record(&self) -> Record {
        record(Opt::A50, self.party_identifier.as_ref(), &self.bic, &[])
    }
}

impl Taken for Field50F {
    fn record(&self) -> Record {
        record(Opt::F50, Some(&self.party_identifier), "", &self.name_and_address)
    }
}

impl Taken for Field50K {
    fn record(&self) -> Record {
        record(Opt::K50, self.account.as_ref(), "", &self.name_and_address)
    }
}

impl Taken for Field50C {
    fn record(&self) -> Record {
        record(Opt::C50, None, &self.bic, &[])
    }
}

impl Taken for Field50L {
    fn record(&self) -> Record {
        record(Opt::L50, Some(&self.party_identifier), "", &[])
    }
}

impl Taken for Field50G {
    fn record(&self) -> Record {
        record(Opt::G50, Some(&self.account), &self.bic, &[])
    }
}

impl Taken for Field50H {
    fn record(&self) -> Record {
        record(Opt::H50, Some(&self.account), "", &self.name_and_address)
    }
}

impl Taken for Field59NoOption {
    fn record(&self) -> Record {
        record(Opt::N59, self.account.as_ref(), "", &self.name_and_address)
    }
}

impl Taken for Field59A {
    fn record(&self) -> Record {
        record(Opt::A59, self.account.as_ref(), &self.bic, &[])
    }
}

impl Taken for Field59F {
    fn record(&self) -> Record {
        record(Opt::F59, self.party_identifier.as_ref(), "", &self.name_and_address)
    }
}

impl Taken for Field50InstructingParty {
    fn record(&self) -> Record {
        match self {
            Field50InstructingParty::C(field) => field.record(),
            Field50InstructingParty::L(field) => field.record(),
        }
    }
}

impl Taken for Field50OrderingCustomerFGH {
    fn record(&self) -> Record {
        match self {
            Field50OrderingCustomerFGH::F(field) => field.record(),
            Field50OrderingCustomerFGH::G(field) => field.record(),
            Field50OrderingCustomerFGH::H(field) => field.record(),
        }
    }
}

impl Taken for Field50OrderingCustomerAFK {
    fn record(&self) -> Record {
        match self {
            Field50OrderingCustomerAFK::A(field) => field.record(),
            Field50OrderingCustomerAFK::F(field) => field.record(),
            Field50OrderingCustomerAFK::K(field) => field.record(),
        }
    }
}

impl Taken for Field50OrderingCustomerNCF {
    fn record(&self) -> Record {
        match self {
            Field50OrderingCustomerNCF::NoOption(field) => field.record(),
            Field50OrderingCustomerNCF::C(field) => field.record(),
            Field50OrderingCustomerNCF::F(field) => field.record(),
        }
    }
}

impl Taken for Field50Creditor {
    fn record(&self) -> Record {
        match self {
            Field50Creditor::A(field) => field.record(),
            Field50Creditor::K(field) => field.record(),
        }
    }
}

impl Taken for Field59 {
    fn record(&self) -> Record {
        match self {
            Field59::A(field) => field.record(),
            Field59::F(field) => field.record(),
            Field59::NoOption(field) => field.record(),
        }
    }
}

impl Taken for Field59Debtor {
    fn record(&self) -> Record {
        match self {
            Field59Debtor::A(field) => field.record(),
            Field59Debtor::NoOption(field) => field.record(),
        }
    }
}
