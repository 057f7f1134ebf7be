//! What is asked and what is answered.

/// The eleven options, named by their tags.
#[derive(Clone, Copy, Debug, PartialEq, Eq, PartialOrd, Ord)]
pub enum Opt {
    N50,
    A50,
    F50,
    K50,
    C50,
    L50,
    G50,
    H50,
    N59,
    A59,
    F59,
}

impl Opt {
    pub const ALL: [Opt; 11] = [
        Opt::N50,
        Opt::A50,
        Opt::F50,
        Opt::K50,
        Opt::C50,
        Opt::L50,
        Opt::G50,
        Opt::H50,
        Opt::N59,
        Opt::A59,
        Opt::F59,
    ];

    pub fn name(self) -> &'static str {
        match self {
            Opt::N50 => "50",
            Opt::A50 => "50A",
            Opt::F50 => "50F",
            Opt::K50 => "50K",
            Opt::C50 => "50C",
            Opt::L50 => "50L",
            Opt::G50 => "50G",
            Opt::H50 => "50H",
            Opt::N59 => "59",
            Opt::A59 => "59A",
            Opt::F59 => "59F",
        }
    }

    /// The letter of the tag, if it has one.
    pub fn letter(self) -> Option<u8> {
        self.name().bytes().nth(2)
    }
}

/// The seven choices among options.
#[derive(Clone, Copy, Debug, PartialEq, Eq, PartialOrd, Ord)]
pub enum Choice {
    InstructingParty,
    OrderingCustomerFGH,
    OrderingCustomerAFK,
    OrderingCustomerNCF,
    Creditor,
    Beneficiary,
    Debtor,
}

impl Choice {
    pub const ALL: [Choice; 7] = [
        Choice::InstructingParty,
        Choice::OrderingCustomerFGH,
        Choice::OrderingCustomerAFK,
        Choice::OrderingCustomerNCF,
        Choice::Creditor,
        Choice::Beneficiary,
        Choice::Debtor,
    ];

    pub fn name(self) -> &'static str {
        match self {
            Choice::InstructingParty => "Field50InstructingParty",
            Choice::OrderingCustomerFGH => "Field50OrderingCustomerFGH",
            Choice::OrderingCustomerAFK => "Field50OrderingCustomerAFK",
            Choice::OrderingCustomerNCF => "Field50OrderingCustomerNCF",
            Choice::Creditor => "Field50Creditor",
            Choice::Beneficiary => "Field59",
            Choice::Debtor => "Field59Debtor",
        }
    }

    /// The options of the choice, in the order in which detection tries them.
    pub fn options(self) -> &'static [Opt] {
        match self {
            Choice::InstructingParty => &[Opt::C50, Opt::L50],
            Choice::OrderingCustomerFGH => &[Opt::F50, Opt::G50, Opt::H50],
            Choice::OrderingCustomerAFK => &[Opt::F50, Opt::A50, Opt::K50],
            Choice::OrderingCustomerNCF => &[Opt::C50, Opt::F50, Opt::N50],
            Choice::Creditor => &[Opt::A50, Opt::K50],
            Choice::Beneficiary => &[Opt::A59, Opt::F59, Opt::N59],
            Choice::Debtor => &[Opt::A59, Opt::N59],
        }
    }

    /// The option that a call picks; none where the call detects.
    pub fn picked(self, call: Call) -> Option<Opt> {
        let letter = match call {
            Call::Parse => return None,
            Call::NoLetter => None,
            Call::Letter(letter) => Some(letter),
        };
        let mut options = self.options().iter().copied();
        options.find(|option| option.letter() == letter)
    }
}

#[derive(Clone, Copy, Debug, PartialEq, Eq, PartialOrd, Ord)]
pub enum Reader {
    Option(Opt),
    Choice(Choice),
}

impl Reader {
    pub fn all() -> impl Iterator<Item = Reader> {
        let options = Opt::ALL.into_iter().map(Reader::Option);
        options.chain(Choice::ALL.into_iter().map(Reader::Choice))
    }

    pub fn name(self) -> &'static str {
        match self {
            Reader::Option(option) => option.name(),
            Reader::Choice(choice) => choice.name(),
        }
    }

    pub fn options(&self) -> &[Opt] {
        match self {
            Reader::Option(option) => std::slice::from_ref(option),
            Reader::Choice(choice) => choice.options(),
        }
    }

    /// The one option that reads the body; none where the call detects.
    pub fn picked(self, call: Call) -> Option<Opt> {
        match self {
            Reader::Option(option) => Some(option),
            Reader::Choice(choice) => choice.picked(call),
        }
    }
}

/// `parse`, or `parse_with_variant` with no letter or with one.
#[derive(Clone, Copy, Debug, PartialEq, Eq, PartialOrd, Ord)]
pub enum Call {
    Parse,
    NoLetter,
    Letter(u8),
}

#[derive(Clone, Debug, PartialEq, Eq, PartialOrd, Ord)]
pub struct Case {
    pub reader: Reader,
    pub call: Call,
    pub body: String,
}

impl Case {
    /// A case for an option's own reader.
    pub fn option(option: Opt, body: impl Into<String>) -> Case {
        Case { reader: Reader::Option(option), call: Call::Parse, body: body.into() }
    }

    pub fn choice(choice: Choice, call: Call, body: impl Into<String>) -> Case {
        Case { reader: Reader::Choice(choice), call, body: body.into() }
    }
}

#[derive(Clone, Debug, PartialEq, Eq)]
pub struct Record {
    pub option: Opt,
    /// The account or identifier; none where the body gave none.
    pub party: Option<Vec<u8>>,
    pub bic: Vec<u8>,
    pub names: Vec<Vec<u8>>,
}

#[derive(Clone, Debug, PartialEq, Eq)]
pub enum Answer {
    Read { record: Record, written: Vec<u8> },
    Refused { number: u8, line: usize },
    Panicked,
}
