//! The smallest body, by leaving out parts, that still shows a difference.

use crate::check::{Checker, Failure};

pub fn smallest(mut failure: Failure) -> Failure {
    if !failure.alone {
        return failure;
    }
    let mut part = failure.body.len();
    while part > 0 {
        let mut at = 0;
        while at + part <= failure.body.len() {
            let mut body = failure.body.clone();
            body.drain(at..at + part);
            if !take(&mut failure, body) {
                at += 1;
            }
        }
        part /= 2;
    }
    for at in 0..failure.body.len() {
        let mut body = failure.body.clone();
        body[at] = b'A';
        take(&mut failure, body);
    }
    failure
}

/// Takes the body if it shows a difference too.
fn take(failure: &mut Failure, body: Vec<u8>) -> bool {
    match Checker::new().one(failure.reader, failure.call, &body) {
        Ok(()) => false,
        Err(what) => {
            (failure.body, failure.what) = (body, what);
            true
        }
    }
}
