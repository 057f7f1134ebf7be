//! The static library, called. All `unsafe` code is here.

use party_answers::model::{Call, Reader};

/// A record's bytes, the most of a written field, and the most of a page, as the header has them.
pub const RECORD_LENGTH: usize = number(env!("YEWDOME_RECORD_LENGTH"));
pub const LONGEST_FIELD: usize = number(env!("YEWDOME_LONGEST_FIELD"));
pub const LONGEST_PAGE: usize = number(env!("YEWDOME_LONGEST_PAGE"));
/// The most entries of an index, and how many numbers it is: a count, and three for each entry.
pub const MOST_ENTRIES: usize = number(env!("YEWDOME_MOST_ENTRIES"));
pub const INDEX_LENGTH: usize = 1 + 3 * MOST_ENTRIES;

const fn number(text: &str) -> usize {
    match usize::from_str_radix(text, 10) {
        Ok(number) => number,
        Err(_) => panic!("the header defines it as another thing than a number"),
    }
}

// A slice of the library is a pointer and a length.
unsafe extern "C" {
    fn yewdome_party_read(
        option: u8,
        body: *const u8,
        body_len: usize,
        record: *mut u8,
        record_len: usize,
    ) -> u32;
    fn yewdome_party_parse(
        choice: u8,
        body: *const u8,
        body_len: usize,
        record: *mut u8,
        record_len: usize,
    ) -> u32;
    fn yewdome_party_parse_with_variant(
        choice: u8,
        body: *const u8,
        body_len: usize,
        letter: u8,
        record: *mut u8,
        record_len: usize,
    ) -> u32;
    fn yewdome_party_measure(record: *const u8, record_len: usize) -> u32;
    fn yewdome_party_place(
        record: *const u8,
        record_len: usize,
        buf: *mut u8,
        buf_len: usize,
    ) -> u32;
    fn yewdome_page_read(
        page: *const u8,
        page_len: usize,
        at: usize,
        record: *mut u8,
        record_len: usize,
    ) -> u64;
    fn yewdome_page_add(
        record: *const u8,
        record_len: usize,
        buf: *mut u8,
        buf_len: usize,
        position: usize,
    ) -> u32;
    fn yewdome_page_add_indexed(
        record: *const u8,
        record_len: usize,
        buf: *mut u8,
        buf_len: usize,
        position: usize,
        index: *mut u32,
    ) -> u32;
    fn yewdome_page_look_up(
        page: *const u8,
        page_len: usize,
        index: *const u32,
        k: usize,
        record: *mut u8,
        record_len: usize,
    ) -> u64;
    fn yewdome_page_close(buf: *mut u8, buf_len: usize, position: usize) -> u32;
}

/// `yewdome_party_read`.
pub fn read(option: u8, body: &[u8], record: &mut [u8]) -> u32 {
    let (text, len) = (body.as_ptr(), body.len());
    // SAFETY: both slices are valid for their lengths during the call, and the one that is
    // written is borrowed for it alone. The library keeps no pointer.
    unsafe { yewdome_party_read(option, text, len, record.as_mut_ptr(), record.len()) }
}

/// `yewdome_party_parse`.
pub fn parse(choice: u8, body: &[u8], record: &mut [u8]) -> u32 {
    let (text, len) = (body.as_ptr(), body.len());
    // SAFETY: as in `read`.
    unsafe { yewdome_party_parse(choice, text, len, record.as_mut_ptr(), record.len()) }
}

/// `yewdome_party_parse_with_variant`; the letter 0 is none.
pub fn parse_with_variant(choice: u8, body: &[u8], letter: u8, record: &mut [u8]) -> u32 {
    let (text, len) = (body.as_ptr(), body.len());
    let (out, room) = (record.as_mut_ptr(), record.len());
    // SAFETY: as in `read`.
    unsafe { yewdome_party_parse_with_variant(choice, text, len, letter, out, room) }
}

/// `yewdome_party_measure`.
pub fn measure(record: &[u8]) -> u32 {
    // SAFETY: as in `read`.
    unsafe { yewdome_party_measure(record.as_ptr(), record.len()) }
}

/// `yewdome_party_place`.
pub fn place(record: &[u8], buf: &mut [u8]) -> u32 {
    // SAFETY: as in `read`.
    unsafe { yewdome_party_place(record.as_ptr(), record.len(), buf.as_mut_ptr(), buf.len()) }
}

/// `yewdome_page_read`.
pub fn read_page(page: &[u8], at: usize, record: &mut [u8]) -> u64 {
    // SAFETY: as in `read`.
    unsafe { yewdome_page_read(page.as_ptr(), page.len(), at, record.as_mut_ptr(), record.len()) }
}

/// `yewdome_page_add`.
pub fn add(record: &[u8], buf: &mut [u8], position: usize) -> u32 {
    let (out, len) = (buf.as_mut_ptr(), buf.len());
    // SAFETY: as in `read`.
    unsafe { yewdome_page_add(record.as_ptr(), record.len(), out, len, position) }
}

/// `yewdome_page_add_indexed`.
pub fn add_indexed(
    record: &[u8],
    buf: &mut [u8],
    position: usize,
    index: &mut [u32; INDEX_LENGTH],
) -> u32 {
    let (out, len) = (buf.as_mut_ptr(), buf.len());
    let (text, room) = (record.as_ptr(), record.len());
    // SAFETY: as in `read`; an index is as many numbers as its type says.
    unsafe { yewdome_page_add_indexed(text, room, out, len, position, index.as_mut_ptr()) }
}

/// `yewdome_page_look_up`.
pub fn look_up(page: &[u8], index: &[u32; INDEX_LENGTH], k: usize, record: &mut [u8]) -> u64 {
    let (text, len) = (page.as_ptr(), page.len());
    let (out, room) = (record.as_mut_ptr(), record.len());
    // SAFETY: as in `add_indexed`.
    unsafe { yewdome_page_look_up(text, len, index.as_ptr(), k, out, room) }
}

/// `yewdome_page_close`.
pub fn close(buf: &mut [u8], position: usize) -> u32 {
    // SAFETY: as in `read`.
    unsafe { yewdome_page_close(buf.as_mut_ptr(), buf.len(), position) }
}

/// The reader's function. The options and the choices are numbered in the order of their enums.
pub fn ask(reader: Reader, call: Call, body: &[u8], record: &mut [u8]) -> u32 {
    match (reader, call) {
        (Reader::Option(option), _) => read(option as u8, body, record),
        (Reader::Choice(choice), Call::Parse) => parse(choice as u8, body, record),
        (Reader::Choice(choice), Call::NoLetter) => {
            parse_with_variant(choice as u8, body, 0, record)
        }
        (Reader::Choice(choice), Call::Letter(letter)) => {
            parse_with_variant(choice as u8, body, letter, record)
        }
    }
}

/// A refusal as the library's number.
pub fn code(number: u8, line: usize) -> u32 {
    u32::from(number) * 65536 + line as u32
}

/// The library's number in words; `accepted` is what one below 65,536 means.
pub fn told(code: u32, accepted: &str) -> String {
    match (code >> 16, code & 0xffff) {
        (0, low) => format!("{accepted} ({low})"),
        (number, line) => format!("{number}, line {line}"),
    }
}
