//! Files a page of some parties and writes it to standard output.

use std::io::Write;
use std::process::ExitCode;
use yewdome::fields::{Field50H, Field50OrderingCustomerAFK, Field59, Field59F};
use yewdome::pages::{self, Party};
use yewdome::{Result, SwiftField};

fn parties() -> Result<Vec<Party>> {
    let customer = Field50OrderingCustomerAFK::parse(
        "/DE89370400440532013000\nMUELLER GMBH\nHAUPTSTRASSE 1\nBERLIN",
    )?;
    let holder = Field50H {
        account: "ACC-1".to_string(),
        name_and_address: vec!["HOLDER LTD".to_string(), "ZURICH".to_string()],
    };
    let bank = Field59::parse_with_variant("/FR7630006000011\nBNPAFRPP", Some("A"), Some("59"))?;
    let beneficiary = Field59F {
        party_identifier: None,
        name_and_address: vec!["1/CARLA BIANCHI".to_string(), "2/VIA ROMA 3".to_string()],
    };
    Ok(vec![customer.into(), holder.into(), bank.into(), beneficiary.into()])
}

/// The page, in just the space that it takes: each field with its LF, and 2 bytes for the end.
fn page() -> Result<Vec<u8>> {
    let parties = parties()?;
    let mut space = 2;
    for party in &parties {
        space += pages::measure(party)? + 1;
    }
    let mut buffer = vec![0; space];
    let mut position = 0;
    for party in &parties {
        position = pages::add(party, &mut buffer, position)?;
    }
    pages::close(&mut buffer, position)?;
    Ok(buffer)
}

fn main() -> ExitCode {
    let page = match page() {
        Ok(page) => page,
        Err(refusal) => {
            eprintln!("error: {refusal}");
            return ExitCode::FAILURE;
        }
    };
    match std::io::stdout().write_all(&page) {
        Ok(()) => ExitCode::SUCCESS,
        Err(error) => {
            eprintln!("error: the page cannot be written: {error}");
            ExitCode::FAILURE
        }
    }
}
