//! Values to file, and refusals to expect.

use yewdome::fields::*;
use yewdome::pages::Party;
use yewdome::{Result, SwiftField};

pub fn refused<T: std::fmt::Debug>(answer: Result<T>) -> u8 {
    answer.expect_err("this is refused").number()
}

pub fn parsed<T: SwiftField>(body: &str) -> T {
    T::parse(body).expect("the body is good")
}

/// A value of each option, which a page carries.
pub fn one_of_each() -> [Party; 11] {
    [
        parsed::<Field50NoOption>("PLAIN\nSTREET").into(),
        parsed::<Field50A>("/C/123\nDEUTDEFF").into(),
        parsed::<Field50F>("/12\n7/JANE ROE\n7/LOW ROAD").into(),
        parsed::<Field50K>("/DE89\nMUELLER GMBH").into(),
        parsed::<Field50C>("BNPAFRPPXXX").into(),
        parsed::<Field50L>("TREASURY 7").into(),
        parsed::<Field50G>("/99\nCHASUS33").into(),
        parsed::<Field50H>("/ACC~1\nHOLDER LTD").into(),
        parsed::<Field59NoOption>("/12\nBENEFICIARY SA").into(),
        parsed::<Field59A>("BNPAFRPP").into(),
        parsed::<Field59F>("1/CARLA BIANCHI\n2/VIA ROMA 3").into(),
    ]
}
