//! Times the published Rust and our static library, in one process: one call each of a reader, a
//! choice that detects, measuring or writing, and pages of fields. Prints a table with both figures
//! and the ratio.
//!
//! In each round the Rust makes its calls and then ours makes as many; of all rounds the fastest
//! of each counts. What is lent is the same in each call, and holds what the last one left there.
//!
//! The Rust has no pages. For it a page is written by `to_swift_string` and LF into one `String`,
//! and read by its lines that start with a colon; it tests neither that a field reads back nor
//! where the page ends. To look a field up it finds the lines before it, and parses the field alone.
//!
//! With the name of a row as argument it makes a thousand of our calls of that row and times nothing,
//! for `valgrind --tool=callgrind` to count.

use party_answers::expected::without_empty_line;
use party_answers::model::{Answer, Case, Choice, Opt};
use party_answers::reference;
use party_compare::ours::{
    self, INDEX_LENGTH, LONGEST_FIELD, LONGEST_PAGE, MOST_ENTRIES, RECORD_LENGTH,
};
use std::hint::black_box;
use std::time::Instant;
use swift_mt_message::fields::field50::*;
use swift_mt_message::fields::field59::*;
use swift_mt_message::traits::SwiftField;

const ROUNDS: usize = 40;
const CALLS: usize = 10_000;
const COUNTED: usize = 1_000;
const TAG: &str = ":50K:";

const ACCOUNT_AND_NAMES: &str =
    "/DE89370400440532013000\nACME TRADING GMBH\nHAUPTSTRASSE 12\n60311 FRANKFURT AM MAIN";
const ACCOUNT_AND_NUMBERED: &str =
    "/DE89370400440532013000\n1/ACME TRADING GMBH\n2/HAUPTSTRASSE 12\n3/DE/60311 FRANKFURT";
const ACCOUNT_AND_BIC: &str = "/DE89370400440532013000\nDEUTDEFF500";
const NAMES: &str = "ACME TRADING GMBH\nHAUPTSTRASSE 12\n60311 FRANKFURT AM MAIN";
const BIC: &str = "DEUTDEFF500";
const NAME: &str = "ACME TRADING GMBH";

fn main() {
    if only().is_none() {
        println!("| what | bytes | Rust, ns | ours, ns | times as fast |");
        println!("|---|---|---|---|---|");
    }
    option::<Field50NoOption>(Opt::N50, NAMES);
    option::<Field50A>(Opt::A50, ACCOUNT_AND_BIC);
    option::<Field50F>(Opt::F50, ACCOUNT_AND_NUMBERED);
    option::<Field50K>(Opt::K50, ACCOUNT_AND_NAMES);
    option::<Field50C>(Opt::C50, BIC);
    option::<Field50L>(Opt::L50, NAME);
    option::<Field50G>(Opt::G50, ACCOUNT_AND_BIC);
    option::<Field50H>(Opt::H50, ACCOUNT_AND_NAMES);
    option::<Field59NoOption>(Opt::N59, ACCOUNT_AND_NAMES);
    option::<Field59A>(Opt::A59, ACCOUNT_AND_BIC);
    option::<Field59F>(Opt::F59, ACCOUNT_AND_NUMBERED);
    choice::<Field50InstructingParty>(Choice::InstructingParty, NAME);
    choice::<Field50OrderingCustomerFGH>(Choice::OrderingCustomerFGH, ACCOUNT_AND_NAMES);
    choice::<Field50OrderingCustomerAFK>(Choice::OrderingCustomerAFK, ACCOUNT_AND_NAMES);
    choice::<Field50OrderingCustomerNCF>(Choice::OrderingCustomerNCF, ACCOUNT_AND_NUMBERED);
    choice::<Field50Creditor>(Choice::Creditor, ACCOUNT_AND_NAMES);
    choice::<Field59>(Choice::Beneficiary, ACCOUNT_AND_NAMES);
    choice::<Field59Debtor>(Choice::Debtor, ACCOUNT_AND_NAMES);
    for fields in [1, 10, 100, (LONGEST_PAGE - 2) / (TAG.len() + ACCOUNT_AND_NAMES.len() + 1)] {
        page(fields);
    }
    indexed();
}

/// An option's rows: a body read, its record measured, for which the Rust writes it, and written.
fn option<T: SwiftField>(option: Opt, body: &str) {
    let name = option.name();
    if !is_asked(&format!("{name}, ")) {
        return;
    }
    let mut record = [0; RECORD_LENGTH];
    let value = T::parse(body).expect("the Rust reads it");
    assert_eq!(ours::read(option as u8, body.as_bytes(), &mut record), 0, "{name} is read");
    row(
        &format!("{name}, read"),
        body.len(),
        || drop(black_box(T::parse(black_box(body)))),
        || {
            black_box(ours::read(black_box(option as u8), black_box(body.as_bytes()), &mut record));
            black_box(&record);
        },
    );
    let text = field_text(option, body);
    let mut field = [0; LONGEST_FIELD];
    let length = ours::place(&record, &mut field) as usize;
    assert_eq!(field.get(..length), Some(&text[..]), "{name} is written");
    assert_eq!(ours::measure(&record) as usize, length, "{name} is measured");
    row(
        &format!("{name}, measured"),
        length,
        || _ = black_box(black_box(&value).to_swift_string().len()),
        || _ = black_box(ours::measure(black_box(&record))),
    );
    row(
        &format!("{name}, written"),
        length,
        || drop(black_box(black_box(&value).to_swift_string())),
        || {
            black_box(ours::place(black_box(&record), &mut field));
            black_box(&field);
        },
    );
}

/// What ours must write: the Rust's text, but for the empty line of 59F. The lines of the body that
/// 50F reads have the digits that the Rust writes.
fn field_text(option: Opt, body: &str) -> Vec<u8> {
    match reference::answer(&Case::option(option, body)) {
        Ok(Answer::Read { record, written }) => {
            without_empty_line(&record, &written).unwrap_or(written)
        }
        other => panic!("{}: {other:?}", option.name()),
    }
}

/// A choice's row: a body whose option it detects.
fn choice<T: SwiftField>(choice: Choice, body: &str) {
    let name = choice.name();
    if !is_asked(&format!("`{name}`")) {
        return;
    }
    let mut record = [0; RECORD_LENGTH];
    T::parse(body).expect("the Rust reads it");
    assert_eq!(ours::parse(choice as u8, body.as_bytes(), &mut record), 0, "{name} is read");
    row(
        &format!("`{name}`"),
        body.len(),
        || drop(black_box(T::parse(black_box(body)))),
        || {
            black_box(ours::parse(
                black_box(choice as u8),
                black_box(body.as_bytes()),
                &mut record,
            ));
            black_box(&record);
        },
    );
}

/// The rows of a page of so many fields 50K: filed and closed, and read to its end.
fn page(fields: usize) {
    if !is_asked(&format!("a page of {fields} ")) {
        return;
    }
    let value = Field50K::parse(ACCOUNT_AND_NAMES).expect("the Rust reads it");
    let mut record = [0; RECORD_LENGTH];
    ours::read(Opt::K50 as u8, ACCOUNT_AND_NAMES.as_bytes(), &mut record);
    let mut buffer = vec![0; LONGEST_PAGE];
    let text = written(&value, fields);
    let length = filed(&record, &mut buffer, fields);
    assert_eq!(&buffer[..length], text.as_bytes(), "the page is filed");
    assert_eq!((parsed(&text), read(&buffer[..length], &mut record)), (fields, fields));
    row(
        &format!("a page of {fields} filed"),
        length,
        || drop(black_box(written(black_box(&value), fields))),
        || _ = black_box(filed(black_box(&record), &mut buffer, fields)),
    );
    row(
        &format!("a page of {fields} read"),
        length,
        || _ = black_box(parsed(black_box(&text))),
        || _ = black_box(read(black_box(text.as_bytes()), &mut record)),
    );
}

/// The rows of a page of 256 fields 50K: filed without an index and with one, and fields looked up in
/// it.
fn indexed() {
    if !is_asked("a page of 256 ") && !is_asked("field ") {
        return;
    }
    let value = Field50K::parse(ACCOUNT_AND_NAMES).expect("the Rust reads it");
    let mut record = [0; RECORD_LENGTH];
    ours::read(Opt::K50 as u8, ACCOUNT_AND_NAMES.as_bytes(), &mut record);
    let mut buffer = vec![0; LONGEST_PAGE];
    let mut index = [0; INDEX_LENGTH];
    let text = written(&value, MOST_ENTRIES);
    let length = filed_indexed(&record, &mut buffer, &mut index);
    assert_eq!(&buffer[..length], text.as_bytes(), "the page is filed");
    assert_eq!(index[0] as usize, MOST_ENTRIES, "each field has its entry");
    row(
        "a page of 256 filed",
        length,
        || drop(black_box(written(black_box(&value), MOST_ENTRIES))),
        || _ = black_box(filed(black_box(&record), &mut buffer, MOST_ENTRIES)),
    );
    row(
        "a page of 256 filed with an index",
        length,
        || drop(black_box(written(black_box(&value), MOST_ENTRIES))),
        || _ = black_box(filed_indexed(black_box(&record), &mut buffer, &mut index)),
    );
    for k in [1, 100, 256] {
        let page = text.as_bytes();
        let moved = ours::look_up(page, &index, k, &mut record);
        assert_eq!(moved as usize, TAG.len() + ACCOUNT_AND_NAMES.len() + 1, "field {k} is found");
        row(
            &format!("field {k} of 256 looked up"),
            ACCOUNT_AND_NAMES.len(),
            || drop(black_box(nth(black_box(&text), black_box(k)))),
            || {
                let (page, k) = (black_box(page), black_box(k));
                black_box(ours::look_up(page, black_box(&index), k, &mut record));
                black_box(&record);
            },
        );
    }
}

/// Field k of a page, counted from 1, as the Rust finds and reads it.
fn nth(page: &str, k: usize) -> Option<Field50K> {
    let field = page.strip_suffix("\n-\n").unwrap_or(page).split("\n:").nth(k - 1)?;
    Field50K::parse(field.trim_start_matches(':').strip_prefix(&TAG[1..])?).ok()
}

/// A page as the Rust writes its fields.
fn written(value: &Field50K, fields: usize) -> String {
    let mut page = String::with_capacity(LONGEST_PAGE);
    for _ in 0..fields {
        page.push_str(&value.to_swift_string());
        page.push('\n');
    }
    page.push_str("-\n");
    page
}

/// How many of a page's fields the Rust reads.
fn parsed(page: &str) -> usize {
    let fields = page.strip_suffix("\n-\n").unwrap_or(page).split("\n:");
    let bodies = fields.filter_map(|field| field.trim_start_matches(':').strip_prefix(&TAG[1..]));
    bodies.filter(|body| black_box(Field50K::parse(body)).is_ok()).count()
}

/// Files and closes a page with ours, and gives its length.
fn filed(record: &[u8], buffer: &mut [u8], fields: usize) -> usize {
    let mut position = 0;
    for _ in 0..fields {
        position = ours::add(record, buffer, position) as usize;
    }
    ours::close(buffer, position) as usize
}

/// The same with an index, 256 fields.
fn filed_indexed(record: &[u8], buffer: &mut [u8], index: &mut [u32; INDEX_LENGTH]) -> usize {
    index[0] = 0;
    let mut position = 0;
    for _ in 0..MOST_ENTRIES {
        position = ours::add_indexed(record, buffer, position, index) as usize;
    }
    ours::close(buffer, position) as usize
}

/// How many records ours reads, up to the end.
fn read(page: &[u8], record: &mut [u8]) -> usize {
    let (mut at, mut records) = (0, 0);
    loop {
        let answer = ours::read_page(page, at, record);
        if answer >> 16 != 0 {
            return records;
        }
        at += answer as usize;
        records += 1;
    }
}

/// The row that is asked for.
fn only() -> Option<String> {
    std::env::args().nth(1)
}

/// Whether all rows are asked for, or one whose name starts so.
fn is_asked(start: &str) -> bool {
    only().is_none_or(|asked| asked.starts_with(start))
}

fn row(what: &str, bytes: usize, mut rust: impl FnMut(), mut ours: impl FnMut()) {
    if let Some(asked) = only() {
        if asked == what {
            (0..COUNTED).for_each(|_| ours());
            println!("{COUNTED} calls of {what}");
        }
        return;
    }
    let (mut theirs, mut own) = (f64::MAX, f64::MAX);
    let calls = (CALLS * LONGEST_FIELD / bytes).clamp(1, CALLS);
    for _ in 0..ROUNDS {
        theirs = theirs.min(each(calls, &mut rust));
        own = own.min(each(calls, &mut ours));
    }
    println!("| {what} | {bytes} | {theirs:.0} | {own:.0} | {:.1} |", theirs / own);
}

/// Nanoseconds a call.
fn each(calls: usize, call: &mut impl FnMut()) -> f64 {
    let start = Instant::now();
    for _ in 0..calls {
        call();
    }
    start.elapsed().as_nanos() as f64 / calls as f64
}
