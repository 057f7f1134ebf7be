//! Calls that no type makes, whole pages, and the header.

use super::*;
use crate::kept::{AFTER_BIC, BLANKS, CLOSING_CR, INNER_CR, LAST_LF};
use crate::pages::{Entry, LONGEST_BODY, LONGEST_FIELD, MOST_ENTRIES};
use crate::record::{FIRST_DIGIT, LENGTH};

const STALE: u8 = 0xa5;
const STALE_NUMBER: u64 = u64::from_be_bytes([STALE; 8]);
const BODY: &[u8] = b"/12\nACME";
const FIELD: &[u8] = b":50K:/12\nACME";
const PAGE: &[u8] = b":50K:/12\nACME\n-\n";
const OPTION_50A: u8 = 1;
const OPTION_50F: u8 = 2;
const OPTION_50K: u8 = 3;
const INSTRUCTING_PARTY: u8 = 0;
const AFK: u8 = 2;
const OPTIONS: u8 = 11;
const CHOICES: u8 = 7;

/// A record in so many bytes, 50K of the body, with stale bytes after it.
fn lent(length: usize) -> Vec<u8> {
    let record = read(OPTION_50K, BODY).expect("the body is good");
    let mut bytes = record.bytes().to_vec();
    bytes.resize(length, STALE);
    bytes
}

/// How many numbers an index is.
const NUMBERS: usize = 1 + 3 * MOST_ENTRIES;
const STALE_HALF: u32 = STALE_NUMBER as u32;

/// An index of raw numbers, as the library has it: these first, and stale ones after them.
fn index_of(first: &[u32]) -> Index {
    let mut numbers = [STALE_HALF; NUMBERS];
    numbers[..first.len()].copy_from_slice(first);
    // SAFETY: both are so many numbers of 32 bits; the sizes are compared when this is compiled.
    unsafe { std::mem::transmute::<[u32; NUMBERS], Index>(numbers) }
}

fn refused(answer: u32) -> u8 {
    accepted(answer).expect_err("this is refused").number()
}

/// The readers, each by the place of its option or choice.
type Reader = fn(u8, &mut [u8]) -> u32;
const READERS: [(Reader, u8); 6] = [
    (|option, record| party_read(option, BODY, record), OPTION_50K),
    (|choice, record| party_parse(choice, BODY, record), AFK),
    (|choice, record| party_parse_with_variant(choice, BODY, b'K', record), AFK),
    (|option, record| profile_read(option, BODY, record), OPTION_50K),
    (|choice, record| profile_parse(choice, BODY, record), AFK),
    (|choice, record| profile_parse_with_variant(choice, BODY, b'K', record), AFK),
];

#[test]
fn a_record_may_be_lent_in_more_bytes() {
    for length in [LENGTH, LENGTH + 1, 1000] {
        let record = lent(length);
        for (reader, place) in READERS {
            let mut out = vec![STALE; length];
            assert_eq!((reader(place, &mut out), out), (0, record.clone()));
        }
        let mut out = vec![STALE; length];
        assert_eq!((page_read(PAGE, 0, &mut out), out), (FIELD.len() as u64 + 1, record.clone()));
        let mut buffer = [STALE; PAGE.len()];
        assert_eq!(party_measure(&record), FIELD.len() as u32);
        assert_eq!(party_place(&record, &mut buffer), FIELD.len() as u32);
        assert_eq!(&buffer[..FIELD.len()], FIELD);
        let position = page_add(&record, &mut buffer, 0);
        assert_eq!(position, FIELD.len() as u32 + 1);
        assert_eq!(page_close(&mut buffer, position as usize), PAGE.len() as u32);
        assert_eq!(buffer, PAGE);
        let (mut buffer, mut index) = ([STALE; PAGE.len()], index_of(&[0]));
        assert_eq!(page_add_indexed(&record, &mut buffer, 0, &mut index), position);
        assert_eq!(&buffer[..FIELD.len()], FIELD);
        let mut out = vec![STALE; length];
        assert_eq!(page_look_up(PAGE, &index, 1, &mut out), FIELD.len() as u64 + 1);
        assert_eq!(out, record);
    }
}

#[test]
fn an_index_is_its_numbers() {
    assert_eq!((NUMBERS, std::mem::size_of::<Index>()), (769, 3076));
    assert_eq!((std::mem::size_of::<Entry>(), std::mem::align_of::<Index>()), (12, 4));
    let record = lent(LENGTH);
    let mut buffer = [STALE; 64];
    let mut index = index_of(&[0]);
    assert_eq!(page_add_indexed(&record, &mut buffer, 0, &mut index), 14);
    assert_eq!(index, index_of(&[1, 3, 0, 13]));
    assert_eq!(page_add_indexed(&record, &mut buffer, 14, &mut index), 28);
    assert_eq!(index, index_of(&[2, 3, 0, 13, 3, 14, 13]));
    assert_eq!(index.count, 2);
    let entries = [0, 14].map(|position| Entry { option: 3, position, length: 13 });
    assert_eq!(index.entries(), entries);
    let stale = Entry { option: STALE_HALF, position: STALE_HALF, length: STALE_HALF };
    assert!(index.entries[2..].iter().all(|&entry| entry == stale));
}

/// Where the last of 256 entries stands among the numbers.
#[test]
fn the_last_entry_is_the_last_three_numbers() {
    let mut numbers = [STALE_HALF; NUMBERS];
    numbers[0] = 255;
    let mut index = index_of(&numbers);
    assert_eq!(page_add_indexed(&lent(LENGTH), &mut [STALE; 64], 0, &mut index), 14);
    numbers[0] = 256;
    numbers[NUMBERS - 3..].copy_from_slice(&[3, 0, 13]);
    assert_eq!(index, index_of(&numbers));
    assert_eq!(page_look_up(PAGE, &index, 256, &mut [STALE; LENGTH]), 14);
}

/// A refusal of the lookup's own changes no byte; that of a body is the read's.
#[test]
fn a_lookup_that_is_refused_changes_no_byte() {
    let long = vec![b'\n'; LONGEST_PAGE + 1];
    let index = index_of(&[2, 3, 0, 13, 3, 0, 12]);
    for (page, k, number) in [(&long[..], 1, 18), (PAGE, 0, 31), (PAGE, 3, 31), (PAGE, 2, 21)] {
        let mut out = [STALE; LENGTH];
        let answer = page_look_up(page, &index, k, &mut out);
        assert_eq!((answer, out), (number << 48, [STALE; LENGTH]));
    }
    let bad = b":50K:/12\nACM~\n-\n";
    let mut out = [STALE; LENGTH];
    assert_eq!(page_look_up(bad, &index, 1, &mut out), page_read(bad, 0, &mut [STALE; LENGTH]));
    assert_eq!(out, [STALE; LENGTH]);
}

/// Measures, places and adds a record, with an index and without, which all refuse with one number,
/// and looks that nothing changes.
fn refused_always(record: &[u8], position: usize) -> u8 {
    let (mut buffer, mut index) = ([STALE; 64], index_of(&[256]));
    let number = refused(party_measure(record));
    assert_eq!(refused(party_place(record, &mut buffer)), number);
    assert_eq!(refused(page_add(record, &mut buffer, position)), number);
    assert_eq!(refused(page_add_indexed(record, &mut buffer, position, &mut index)), number);
    assert_eq!((buffer, index), ([STALE; 64], index_of(&[256])));
    number
}

#[test]
fn a_record_lent_in_fewer_bytes_is_42() {
    for length in 0..LENGTH {
        for (reader, place) in READERS {
            let mut out = vec![STALE; length];
            assert_eq!((refused(reader(place, &mut out)), out), (42, vec![STALE; length]));
            assert_eq!(refused(reader(255, &mut vec![STALE; length])), 42, "42 comes before 41");
        }
        let mut out = vec![STALE; length];
        let [answer, moved] = halves(page_read(PAGE, 0, &mut out));
        assert_eq!((refused(answer), moved, out), (42, 0, vec![STALE; length]));
        let found = index_of(&[1, 3, 0, FIELD.len() as u32]);
        for (page, k) in [(PAGE, 1), (PAGE, 0), (FIELD, 2), (&[b'\n'; LONGEST_PAGE + 1], 0)] {
            let mut out = vec![STALE; length];
            let answer = page_look_up(page, &found, k, &mut out);
            assert_eq!((answer, out), (42 << 48, vec![STALE; length]), "42 comes first");
        }
        assert_eq!(refused_always(&lent(length), 0), 42);
        assert_eq!(refused_always(&vec![STALE; length], 1), 42, "42 comes before 41 and 21");
    }
}

#[test]
fn a_place_that_has_none_is_41() {
    for place in CHOICES..=255 {
        for (reader, good) in READERS {
            let mut out = [STALE; LENGTH];
            if good == AFK || place >= OPTIONS {
                assert_eq!((refused(reader(place, &mut out)), out), (41, [STALE; LENGTH]));
            }
        }
    }
    for place in OPTIONS..=255 {
        for length in [LENGTH, LENGTH + 1] {
            let mut record = lent(length);
            record[0] = place;
            assert_eq!(refused_always(&record, 0), 41);
            assert_eq!(refused_always(&record, 1), 41, "41 comes before 21");
        }
    }
}

/// What the readers under the profile give of a body.
fn profiled(body: &[u8], record: &mut [u8]) -> [u32; 3] {
    [
        profile_read(OPTION_50K, body, record),
        profile_parse(AFK, body, record),
        profile_parse_with_variant(AFK, body, b'K', record),
    ]
}

#[test]
fn a_body_outside_the_profile_changes_no_byte() {
    let cases: [(&[u8], u32); 2] = [(b"A&B\nC", 1), (b"/12\nA\n:B&", 3)];
    for (body, line) in cases {
        let mut out = [STALE; LENGTH + 1];
        assert_eq!(profiled(body, &mut out), [32 << 16 | line; 3]);
        assert_eq!(out, [STALE; LENGTH + 1]);
    }
}

/// 42, 41 and 14 come before 32, and so does what is refused of the body.
#[test]
fn outside_the_profile_comes_last() {
    let body = b"A&B";
    assert_eq!(profiled(body, &mut [STALE; LENGTH - 1]).map(refused), [42; 3]);
    let mut out = [STALE; LENGTH];
    assert_eq!(refused(profile_read(OPTIONS, body, &mut out)), 41);
    assert_eq!(refused(profile_parse(CHOICES, body, &mut out)), 41);
    assert_eq!(refused(profile_parse_with_variant(CHOICES, body, b'k', &mut out)), 41);
    assert_eq!(refused(profile_parse_with_variant(AFK, body, b'k', &mut out)), 14);
    assert_eq!(profiled(&[b'&'; LONGEST_BODY + 1], &mut out).map(refused), [12; 3]);
    assert_eq!(profiled(b"A&B\x80", &mut out).map(refused), [13; 3]);
    assert_eq!(profiled(b"A&B\nC~", &mut out), [3 << 16 | 2, 11 << 16, 3 << 16 | 2]);
    assert_eq!(out, [STALE; LENGTH]);
}

/// What the functions that tell causes give of a body: by 50K, and by a choice that reads it as 50K.
fn kept(body: &[u8]) -> [u32; 3] {
    [kept_read(OPTION_50K, body), kept_parse(AFK, body), kept_parse_with_variant(AFK, body, b'K')]
}

#[test]
fn a_cause_is_a_bit() {
    assert_eq!(kept(BODY), [0; 3]);
    assert_eq!(kept(b"A\r\nB"), [INNER_CR.into(); 3]);
    assert_eq!(kept(b"A\n"), [LAST_LF.into(); 3]);
    assert_eq!(kept(b"A\r\nB\n"), [(INNER_CR | LAST_LF).into(); 3]);
    assert_eq!(kept_read(OPTION_50A, b"ABCDEFGH\nX"), AFTER_BIC.into());
    assert_eq!(kept_read(OPTION_50A, b"/12\r\nABCDEFGH\nX"), (INNER_CR | AFTER_BIC).into());
    assert_eq!(kept_parse(INSTRUCTING_PARTY, b" A"), BLANKS.into());
    assert_eq!(kept_parse_with_variant(INSTRUCTING_PARTY, b" A", 0), BLANKS.into());
    assert_eq!(kept_parse_with_variant(INSTRUCTING_PARTY, b" A", b'L'), 0);
}

/// 41 and 14 come before what is refused of the body.
#[test]
fn where_causes_are_asked_the_refusals_are_those_of_the_readers() {
    let long = [b'A'; LONGEST_BODY + 1];
    for place in OPTIONS..=255 {
        assert_eq!(kept_read(place, &long), 41 << 16);
    }
    for place in CHOICES..=255 {
        assert_eq!(kept_parse(place, &long), 41 << 16);
        assert_eq!(kept_parse_with_variant(place, &long, b'k'), 41 << 16);
    }
    assert_eq!(kept_parse_with_variant(AFK, &long, b'k'), 14 << 16);
    assert_eq!(kept(&long), [12 << 16; 3]);
    assert_eq!(kept(b"A\r\n\x80"), [13 << 16; 3]);
    assert_eq!(kept(b"A\r\nC~"), [3 << 16 | 2, 11 << 16, 3 << 16 | 2]);
}

#[test]
fn a_presence_that_is_neither_0_nor_1_is_22() {
    for presence in 2..=255 {
        let mut record = lent(LENGTH);
        record[1] = presence;
        assert_eq!(refused_always(&record, 0), 22);
        assert_eq!(refused(page_add(&record, &mut [STALE; 64], 1)), 21, "21 comes before 22");
        let added = page_add_indexed(&record, &mut [STALE; 64], 1, &mut index_of(&[256]));
        assert_eq!(refused(added), 21, "21 comes before 22 and 31");
    }
}

/// What stores a record, and gives the library's number.
type Storing<'a> = &'a dyn Fn(&mut [u8]) -> u64;

/// The records that the readers store of a body of 50F, over stale bytes.
fn of_50f(body: &[u8]) -> [[u8; LENGTH]; 8] {
    let page = [b":50F:", body, b"\n-\n"].concat();
    let index = index_of(&[1, OPTION_50F.into(), 0, 5 + body.len() as u32]);
    let readers: [Storing; 8] = [
        &|out| party_read(OPTION_50F, body, out).into(),
        &|out| party_parse(AFK, body, out).into(),
        &|out| party_parse_with_variant(AFK, body, b'F', out).into(),
        &|out| profile_read(OPTION_50F, body, out).into(),
        &|out| profile_parse(AFK, body, out).into(),
        &|out| profile_parse_with_variant(AFK, body, b'F', out).into(),
        &|out| page_read(&page, 0, out),
        &|out| page_look_up(&page, &index, 1, out),
    ];
    readers.map(|reader| {
        let mut out = [STALE; LENGTH];
        assert_eq!(reader(&mut out) >> 16, 0);
        out
    })
}

#[test]
fn the_digits_stand_last_and_those_not_used_are_0() {
    let cases: [(&[u8], &[u8; 4]); 5] = [
        (b"X\n7/A", b"7\0\0\0"),
        (b"X\n7/A\n7/B", b"77\0\0"),
        (b"X\n0/A\n9/B\n0/C", b"090\0"),
        (b"X\n4/A\n3/B\n2/C\n1/D", b"4321"),
        (b"X\r\n5/A\r\n6/\r\n", b"56\0\0"),
    ];
    for (body, digits) in cases {
        for record in of_50f(body) {
            assert_eq!(&record[FIRST_DIGIT..], digits);
        }
    }
    // 50, 50K, 59 and 59F use none
    for option in [0, OPTION_50K, 8, 10] {
        let mut out = [STALE; LENGTH];
        assert_eq!(party_read(option, b"1/A\n2/B", &mut out), 0);
        assert_eq!(out[FIRST_DIGIT..], [0; 4]);
    }
}

#[test]
fn a_used_digit_that_is_none_is_22() {
    for place in 0..4 {
        for byte in 0..=255 {
            let [mut record, ..] = of_50f(b"X\n1/A\n2/B");
            record[FIRST_DIGIT + place] = byte;
            if place < 2 && !byte.is_ascii_digit() {
                assert_eq!(refused_always(&record, 0), 22);
                continue;
            }
            let (mut buffer, mut due) = ([STALE; 64], *b":50F:X\n1/A\n2/B\n");
            if place < 2 {
                due[b":50F:X\n".len() + 4 * place] = byte;
            }
            assert_eq!(party_measure(&record), due.len() as u32 - 1);
            assert_eq!(page_add(&record, &mut buffer, 0), due.len() as u32);
            assert_eq!(&buffer[..due.len()], due);
        }
    }
    let mut record = lent(LENGTH);
    record[FIRST_DIGIT..].fill(STALE);
    assert_eq!(party_measure(&record), FIELD.len() as u32, "50K uses none");
}

#[test]
fn a_record_is_placed_in_just_the_space_that_it_measures() {
    let record = lent(LENGTH);
    let length = accepted(party_measure(&record)).expect("the record is good");
    for room in 0..length + 3 {
        let mut buffer = vec![STALE; room];
        let mut due = buffer.clone();
        let placed = party_place(&record, &mut buffer);
        if room < length {
            assert_eq!(refused(placed), 24);
        } else {
            assert_eq!(placed, length as u32);
            due[..length].copy_from_slice(FIELD);
        }
        assert_eq!(buffer, due);
    }
}

/// A page of which each field but the first is filed as other bytes than came, and their causes.
const CHANGED: &[u8] =
    b":50L: A\n:50K:A\r\nB\n:50K:A\n\n:50A:ABCDEFGH\nX\n:50K:A\r\n:59:A\r\nB\r\n-\r\n";
const CAUSES: [u8; 6] = [0, INNER_CR, LAST_LF, AFTER_BIC, CLOSING_CR, INNER_CR | CLOSING_CR];

/// Pages with every kind of read, the longest among them and one that is too long.
fn pages() -> Vec<Vec<u8>> {
    let mixed = b"junk\n:52A:X\n:59F:2/A\n:59F:/1\n1/A\n:50K:\n:50K:/\nA\n:50C:BNPAFRPP\n-\n:50:A";
    let mut pages = [&b""[..], b":", b":\n:", b"-", b"-\n", b":50C:BNPAFRPP", PAGE, mixed, CHANGED]
        .map(<[u8]>::to_vec)
        .to_vec();
    pages.push(b":50K:A\n".repeat(LONGEST_PAGE / 7 + 1)[..LONGEST_PAGE].to_vec());
    pages.push(vec![b'\n'; LONGEST_PAGE + 1]);
    pages
}

/// What the reads of a page give, each at the next position that the last gave, and the records.
fn by_reads(page: &[u8]) -> Vec<(u64, [u8; LENGTH])> {
    let (mut at, mut reads) = (0, Vec::new());
    loop {
        let mut record = [STALE; LENGTH];
        let read = page_read(page, at, &mut record);
        reads.push((read, record));
        let (outcome, moved) = told(read);
        if outcome == Outcome::End || moved == 0 {
            return reads;
        }
        at += moved;
    }
}

/// The same where each record is added to a page in a buffer; and what closing that page gives.
fn by_adds(page: &[u8], buffer: &mut [u8]) -> (Vec<u64>, u32) {
    let (mut at, mut position, mut answers) = (0, 0, Vec::new());
    for (mut answer, record) in by_reads(page) {
        let (outcome, moved) = told(answer);
        if outcome == Outcome::Record {
            let added = page_add(&record, buffer, position);
            match accepted(added) {
                Ok(next) => (position, answer) = (next, page_kept(page, at)),
                Err(_) => answer |= u64::from(added) << 32,
            }
        }
        answers.push(answer);
        at += moved;
    }
    (answers, page_close(buffer, position))
}

/// So many numbers, the first of which are these.
fn numbers(first: &[u64], count: usize) -> Vec<u64> {
    let mut numbers = first.to_vec();
    numbers.resize(count, STALE_NUMBER);
    numbers
}

#[test]
fn a_whole_page_is_read_as_by_its_reads() {
    for page in pages() {
        let due: Vec<u64> = by_reads(&page).iter().map(|&(read, _)| read).collect();
        for count in [page.len() + 1, page.len() + 2, LONGEST_PAGE + 100] {
            let mut answers = numbers(&[], count);
            assert_eq!(page_answers(&page, &mut answers), due.len() as u32);
            assert_eq!(answers, numbers(&due, count));
        }
    }
}

/// What is told of a read, but for the causes.
fn without_causes(read: u64) -> u64 {
    read & !(0x7fff << 17)
}

#[test]
fn causes_stand_beside_what_a_read_gives() {
    for page in pages() {
        for at in (0..page.len().min(100)).chain([page.len(), page.len() + 1, usize::MAX]) {
            let (read, kept) = (page_read(&page, at, &mut [STALE; LENGTH]), page_kept(&page, at));
            assert_eq!(without_causes(kept), read);
            assert!(told(read).0 == Outcome::Record || kept == read, "a record alone has causes");
        }
    }
    assert_eq!(page_kept(b":50K:A\r\n-\n", 0), u64::from(CLOSING_CR) << 17 | 8);
}

#[test]
fn the_causes_of_a_page_are_those_of_its_fields() {
    let mut answers = numbers(&[], CHANGED.len() + 1);
    let [count, _] = halves(page_file(CHANGED, &mut [STALE; LONGEST_PAGE], &mut answers));
    let told: Vec<u64> = answers[..count as usize].iter().map(|answer| answer >> 17).collect();
    let due = CAUSES.iter().chain(&[0]).map(|&causes| u64::from(causes));
    assert_eq!(told, due.collect::<Vec<_>>(), "the end has none");
}

#[test]
fn a_whole_page_is_filed_as_by_its_adds() {
    for page in pages() {
        for length in (0..64).chain([LONGEST_PAGE - 1, LONGEST_PAGE, LONGEST_PAGE + 100]) {
            let mut due_buffer = vec![STALE; length];
            let (due, closed) = by_adds(&page, &mut due_buffer);
            let mut buffer = vec![STALE; length];
            let mut answers = numbers(&[], page.len() + 2);
            let filed = halves(page_file(&page, &mut buffer, &mut answers));
            assert_eq!(filed, [due.len() as u32, closed]);
            assert_eq!(answers, numbers(&due, page.len() + 2));
            assert_eq!(buffer, due_buffer);
        }
    }
}

#[test]
fn too_few_numbers_are_43() {
    for page in pages() {
        let counts = (0..page.len().min(64)).chain([page.len().saturating_sub(1), page.len()]);
        for count in counts {
            let mut answers = numbers(&[], count);
            let mut buffer = [STALE; 64];
            assert_eq!(refused(page_answers(&page, &mut answers)), 43);
            let [filed, answer] = halves(page_file(&page, &mut buffer, &mut answers));
            assert_eq!((filed, refused(answer)), (0, 43));
            assert_eq!((answers, buffer), (numbers(&[], count), [STALE; 64]));
        }
    }
    assert_eq!(halves(page_file(PAGE, &mut [], &mut [])), [0, 43 << 16], "43 comes before 24");
}

const HEADER: &str = include_str!("../../../c/yewdome.h");

/// What the header defines a name as.
fn defined(name: &str) -> &'static str {
    let mut defines = HEADER.lines().filter_map(|line| line.strip_prefix("#define YEWDOME_"));
    let value = defines.find_map(|line| line.strip_prefix(name)?.strip_prefix(' '));
    value.unwrap_or_else(|| panic!("the header does not define {name}"))
}

#[test]
fn the_header_has_the_version_and_the_lengths() {
    let version = env!("CARGO_PKG_VERSION");
    let parts = ["VERSION_MAJOR", "VERSION_MINOR", "VERSION_PATCH"].map(defined);
    assert_eq!(parts.join("."), version);
    assert_eq!(defined("VERSION"), format!("\"{version}\""));
    for (name, length) in [
        ("RECORD_LENGTH", LENGTH),
        ("FIRST_DIGIT", FIRST_DIGIT),
        ("LONGEST_BODY", LONGEST_BODY),
        ("LONGEST_FIELD", LONGEST_FIELD),
        ("LONGEST_PAGE", LONGEST_PAGE),
        ("MOST_ENTRIES", MOST_ENTRIES),
    ] {
        assert_eq!(defined(name), length.to_string(), "{name}");
    }
}

/// A kind as the header has it: `YEWDOME_LINE_COUNT = 1`.
fn enumerator(kind: ErrorKind) -> String {
    let mut name = "YEWDOME".to_string();
    for letter in format!("{kind:?}").chars() {
        if letter.is_ascii_uppercase() {
            name.push('_');
        }
        name.push(letter.to_ascii_uppercase());
    }
    format!("{name} = {}", kind as u8)
}

/// The lines of an enum of the header, without its comments.
fn enumerators(name: &str) -> Vec<&'static str> {
    let (_, rest) = HEADER.split_once(&format!("enum {name} {{")).expect("the header has the enum");
    let (inner, _) = rest.split_once("};").expect("the enum ends");
    let lines = inner.lines().map(|line| line.split([',', '/']).next().unwrap_or(line).trim());
    lines.filter(|line| !line.is_empty()).collect()
}

#[test]
fn the_header_has_the_kinds() {
    let kinds: Vec<String> = (0..=255).filter_map(ErrorKind::of).map(enumerator).collect();
    assert_eq!(enumerators("yewdome_refusal"), kinds);
}

#[test]
fn the_header_has_the_causes() {
    let causes = [
        ("INNER_CR", INNER_CR),
        ("LAST_LF", LAST_LF),
        ("AFTER_BIC", AFTER_BIC),
        ("BLANKS", BLANKS),
        ("CLOSING_CR", CLOSING_CR),
    ];
    let due = causes.map(|(name, bit)| format!("YEWDOME_{name} = {bit}"));
    assert_eq!(enumerators("yewdome_cause"), due);
}
