//! The static library, called. All `unsafe` code is here.
//!
//! What each function takes and gives is in `bindings/c/yewdome.h`.

use crate::errors::{ErrorKind, ParseError, Result};
use crate::kept::Causes;
use crate::pages::{Filing, Index, Listed, Outcome, LONGEST_PAGE};
use crate::record::Record;
use std::ops::Range;

#[cfg(test)]
mod tests;

extern "C" {
    fn yewdome_party_read(
        option: u8,
        body: *const u8,
        body_length: usize,
        record: *mut u8,
        record_length: usize,
    ) -> u32;
    fn yewdome_party_parse(
        choice: u8,
        body: *const u8,
        body_length: usize,
        record: *mut u8,
        record_length: usize,
    ) -> u32;
    fn yewdome_party_parse_with_variant(
        choice: u8,
        body: *const u8,
        body_length: usize,
        letter: u8,
        record: *mut u8,
        record_length: usize,
    ) -> u32;
    fn yewdome_profile_read(
        option: u8,
        body: *const u8,
        body_length: usize,
        record: *mut u8,
        record_length: usize,
    ) -> u32;
    fn yewdome_profile_parse(
        choice: u8,
        body: *const u8,
        body_length: usize,
        record: *mut u8,
        record_length: usize,
    ) -> u32;
    fn yewdome_profile_parse_with_variant(
        choice: u8,
        body: *const u8,
        body_length: usize,
        letter: u8,
        record: *mut u8,
        record_length: usize,
    ) -> u32;
    fn yewdome_kept_read(option: u8, body: *const u8, body_length: usize) -> u32;
    fn yewdome_kept_parse(choice: u8, body: *const u8, body_length: usize) -> u32;
    fn yewdome_kept_parse_with_variant(
        choice: u8,
        body: *const u8,
        body_length: usize,
        letter: u8,
    ) -> u32;
    fn yewdome_party_measure(record: *const u8, record_length: usize) -> u32;
    fn yewdome_party_place(
        record: *const u8,
        record_length: usize,
        buffer: *mut u8,
        buffer_length: usize,
    ) -> u32;
    fn yewdome_page_read(
        page: *const u8,
        page_length: usize,
        at: usize,
        record: *mut u8,
        record_length: usize,
    ) -> u64;
    fn yewdome_page_kept(page: *const u8, page_length: usize, at: usize) -> u64;
    fn yewdome_page_body(page: *const u8, page_length: usize, at: usize) -> u64;
    fn yewdome_page_add(
        record: *const u8,
        record_length: usize,
        buffer: *mut u8,
        buffer_length: usize,
        position: usize,
    ) -> u32;
    fn yewdome_page_close(buffer: *mut u8, buffer_length: usize, position: usize) -> u32;
    fn yewdome_page_add_indexed(
        record: *const u8,
        record_length: usize,
        buffer: *mut u8,
        buffer_length: usize,
        position: usize,
        index: *mut Index,
    ) -> u32;
    fn yewdome_page_look_up(
        page: *const u8,
        page_length: usize,
        index: *const Index,
        k: usize,
        record: *mut u8,
        record_length: usize,
    ) -> u64;
    fn yewdome_page_answers(
        page: *const u8,
        page_length: usize,
        answers: *mut u64,
        answers_length: usize,
    ) -> u32;
    fn yewdome_page_file(
        page: *const u8,
        page_length: usize,
        buffer: *mut u8,
        buffer_length: usize,
        answers: *mut u64,
        answers_length: usize,
    ) -> u64;
}

// The functions as they are, on slices.
//
// SAFETY, of them all: a slice's pointer is not null, and the slices are valid for their lengths
// during the call. A pointer to an index comes from a reference, so it is not null and valid for
// the whole of it, which is laid out as in the header; any numbers may stand in it. What is written
// is borrowed for the call alone, so that nothing else overlaps it. The library keeps no pointer.

fn party_read(option: u8, body: &[u8], record: &mut [u8]) -> u32 {
    let (text, length) = (body.as_ptr(), body.len());
    unsafe { yewdome_party_read(option, text, length, record.as_mut_ptr(), record.len()) }
}

fn party_parse(choice: u8, body: &[u8], record: &mut [u8]) -> u32 {
    let (text, length) = (body.as_ptr(), body.len());
    unsafe { yewdome_party_parse(choice, text, length, record.as_mut_ptr(), record.len()) }
}

fn party_parse_with_variant(choice: u8, body: &[u8], letter: u8, record: &mut [u8]) -> u32 {
    let (text, length) = (body.as_ptr(), body.len());
    let (out, room) = (record.as_mut_ptr(), record.len());
    unsafe { yewdome_party_parse_with_variant(choice, text, length, letter, out, room) }
}

fn profile_read(option: u8, body: &[u8], record: &mut [u8]) -> u32 {
    let (text, length) = (body.as_ptr(), body.len());
    unsafe { yewdome_profile_read(option, text, length, record.as_mut_ptr(), record.len()) }
}

fn profile_parse(choice: u8, body: &[u8], record: &mut [u8]) -> u32 {
    let (text, length) = (body.as_ptr(), body.len());
    unsafe { yewdome_profile_parse(choice, text, length, record.as_mut_ptr(), record.len()) }
}

fn profile_parse_with_variant(choice: u8, body: &[u8], letter: u8, record: &mut [u8]) -> u32 {
    let (text, length) = (body.as_ptr(), body.len());
    let (out, room) = (record.as_mut_ptr(), record.len());
    unsafe { yewdome_profile_parse_with_variant(choice, text, length, letter, out, room) }
}

fn kept_read(option: u8, body: &[u8]) -> u32 {
    unsafe { yewdome_kept_read(option, body.as_ptr(), body.len()) }
}

fn kept_parse(choice: u8, body: &[u8]) -> u32 {
    unsafe { yewdome_kept_parse(choice, body.as_ptr(), body.len()) }
}

fn kept_parse_with_variant(choice: u8, body: &[u8], letter: u8) -> u32 {
    unsafe { yewdome_kept_parse_with_variant(choice, body.as_ptr(), body.len(), letter) }
}

fn party_measure(record: &[u8]) -> u32 {
    unsafe { yewdome_party_measure(record.as_ptr(), record.len()) }
}

fn party_place(record: &[u8], buffer: &mut [u8]) -> u32 {
    let (out, room) = (buffer.as_mut_ptr(), buffer.len());
    unsafe { yewdome_party_place(record.as_ptr(), record.len(), out, room) }
}

fn page_read(page: &[u8], at: usize, record: &mut [u8]) -> u64 {
    let (text, length) = (page.as_ptr(), page.len());
    unsafe { yewdome_page_read(text, length, at, record.as_mut_ptr(), record.len()) }
}

fn page_kept(page: &[u8], at: usize) -> u64 {
    unsafe { yewdome_page_kept(page.as_ptr(), page.len(), at) }
}

fn page_body(page: &[u8], at: usize) -> u64 {
    unsafe { yewdome_page_body(page.as_ptr(), page.len(), at) }
}

fn page_add(record: &[u8], buffer: &mut [u8], position: usize) -> u32 {
    let (out, room) = (buffer.as_mut_ptr(), buffer.len());
    unsafe { yewdome_page_add(record.as_ptr(), record.len(), out, room, position) }
}

fn page_close(buffer: &mut [u8], position: usize) -> u32 {
    unsafe { yewdome_page_close(buffer.as_mut_ptr(), buffer.len(), position) }
}

fn page_add_indexed(record: &[u8], buffer: &mut [u8], position: usize, index: &mut Index) -> u32 {
    let (text, length) = (record.as_ptr(), record.len());
    let (out, room) = (buffer.as_mut_ptr(), buffer.len());
    unsafe { yewdome_page_add_indexed(text, length, out, room, position, index) }
}

fn page_look_up(page: &[u8], index: &Index, k: usize, record: &mut [u8]) -> u64 {
    let (text, length) = (page.as_ptr(), page.len());
    let (out, room) = (record.as_mut_ptr(), record.len());
    unsafe { yewdome_page_look_up(text, length, index, k, out, room) }
}

fn page_answers(page: &[u8], answers: &mut [u64]) -> u32 {
    let (numbers, count) = (answers.as_mut_ptr(), answers.len());
    unsafe { yewdome_page_answers(page.as_ptr(), page.len(), numbers, count) }
}

fn page_file(page: &[u8], buffer: &mut [u8], answers: &mut [u64]) -> u64 {
    let (text, length) = (page.as_ptr(), page.len());
    let (out, room) = (buffer.as_mut_ptr(), buffer.len());
    let (numbers, count) = (answers.as_mut_ptr(), answers.len());
    unsafe { yewdome_page_file(text, length, out, room, numbers, count) }
}

/// What reads the bodies of a type: an option or a choice, by its place in the library's table.
pub enum Reader {
    Option(u8),
    Choice(u8),
}

/// Reads a body by the option at a place in the library's table.
pub(crate) fn read(option: u8, body: &[u8]) -> Result<Record> {
    record_of(|out| party_read(option, body, out))
}

/// Reads a body by the choice at a place in the library's table, which detects the option.
pub(crate) fn parse(choice: u8, body: &[u8]) -> Result<Record> {
    record_of(|out| party_parse(choice, body, out))
}

/// The same by a letter; 0 is none.
pub(crate) fn parse_with_variant(choice: u8, body: &[u8], letter: u8) -> Result<Record> {
    record_of(|out| party_parse_with_variant(choice, body, letter, out))
}

/// Reads a body by an option as [`read`] does, under the network profile.
pub(crate) fn read_profiled(option: u8, body: &[u8]) -> Result<Record> {
    record_of(|out| profile_read(option, body, out))
}

/// The same by a choice as [`parse`] does.
pub(crate) fn parse_profiled(choice: u8, body: &[u8]) -> Result<Record> {
    record_of(|out| profile_parse(choice, body, out))
}

/// The same by a letter; 0 is none.
pub(crate) fn parse_profiled_with_variant(choice: u8, body: &[u8], letter: u8) -> Result<Record> {
    record_of(|out| profile_parse_with_variant(choice, body, letter, out))
}

/// Reads a body by an option as [`read`] does, and gives the causes by which the written body of the
/// record is another.
pub(crate) fn read_kept(option: u8, body: &[u8]) -> Result<Causes> {
    accepted(kept_read(option, body)).map(Causes::of)
}

/// The same by a choice as [`parse`] does.
pub(crate) fn parse_kept(choice: u8, body: &[u8]) -> Result<Causes> {
    accepted(kept_parse(choice, body)).map(Causes::of)
}

/// The same by a letter; 0 is none.
pub(crate) fn parse_kept_with_variant(choice: u8, body: &[u8], letter: u8) -> Result<Causes> {
    accepted(kept_parse_with_variant(choice, body, letter)).map(Causes::of)
}

/// The length of the field of a record, tag and body.
pub(crate) fn measure(record: &Record) -> Result<usize> {
    accepted(party_measure(record.bytes()))
}

/// The field of a record, tag and body, in one allocation of just its length.
pub(crate) fn write(record: &Record) -> Result<String> {
    let mut field = vec![0; measure(record)?];
    accepted(party_place(record.bytes(), &mut field))?;
    Ok(String::from_utf8(field).expect("a written field is ASCII"))
}

/// What a page's read gave.
pub(crate) struct PageRead {
    /// The position where it was.
    pub(crate) at: usize,
    /// What it answers.
    pub(crate) outcome: Outcome,
    /// The record, where it gave one.
    pub(crate) record: Record,
    /// Where the body stands in the page.
    pub(crate) body: Range<usize>,
    /// How many bytes the read moved past.
    pub(crate) moved: usize,
}

/// Reads the page at a position.
pub(crate) fn read_page(page: &[u8], at: usize) -> PageRead {
    let mut record = Record::new(0);
    let (outcome, moved) = told(page_read(page, at, record.bytes_mut()));
    PageRead { at, outcome, record, body: body_of(page, at), moved }
}

/// Reads the page at a position, and gives the causes by which the field there is filed as other bytes
/// than came; none at the end.
pub(crate) fn field_kept(page: &[u8], at: usize) -> Result<Option<Causes>> {
    let read = page_kept(page, at);
    match told(read).0 {
        Outcome::Record => Ok(Some(causes(read))),
        Outcome::Refused(refusal) => Err(refusal),
        Outcome::End => Ok(None),
    }
}

/// Looks up field k of a page in an index, and gives what a read at its position does. Only the
/// lookup's own refusals move past no byte.
pub(crate) fn look_up(page: &[u8], index: &Index, k: usize) -> Result<PageRead> {
    let mut record = Record::new(0);
    let (outcome, moved) = told(page_look_up(page, index, k, record.bytes_mut()));
    match outcome {
        Outcome::Refused(refusal) if moved == 0 => Err(refusal),
        _ => {
            // the library found entry k, so that there is one
            let at = index.entries[k - 1].position as usize;
            Ok(PageRead { at, outcome, record, body: body_of(page, at), moved })
        }
    }
}

/// Adds a record to the page in a buffer at a position, and gives the position after.
pub(crate) fn add(record: &Record, buffer: &mut [u8], position: usize) -> Result<usize> {
    accepted(page_add(record.bytes(), buffer, position))
}

/// The same where the record's entry is put into an index.
pub(crate) fn add_indexed(
    record: &Record,
    buffer: &mut [u8],
    position: usize,
    index: &mut Index,
) -> Result<usize> {
    accepted(page_add_indexed(record.bytes(), buffer, position, index))
}

/// Closes the page in a buffer at a position, and gives the page's length.
pub(crate) fn close(buffer: &mut [u8], position: usize) -> Result<usize> {
    accepted(page_close(buffer, position))
}

/// Reads a whole page.
pub(crate) fn list(page: &[u8]) -> Vec<Listed> {
    let page = cut(page);
    let mut answers = room_for(page);
    let count = accepted(page_answers(page, &mut answers)).expect("the answers have room");
    listed(&answers[..count])
}

/// Files a whole page on a new one in a buffer.
pub(crate) fn file(page: &[u8], buffer: &mut [u8]) -> Filing {
    let page = cut(page);
    let mut answers = room_for(page);
    let [count, closed] = halves(page_file(page, buffer, &mut answers));
    Filing { answers: listed(&answers[..count as usize]), closed: accepted(closed) }
}

/// A page, but of one that is too long no more than the first byte too many, with which it is refused
/// with 18 as the whole is.
fn cut(page: &[u8]) -> &[u8] {
    &page[..page.len().min(LONGEST_PAGE + 1)]
}

/// Numbers for as many answers as a page can have: one more than its bytes.
fn room_for(page: &[u8]) -> Vec<u64> {
    vec![0; page.len() + 1]
}

/// The reads of a page, by the numbers that they gave.
fn listed(answers: &[u64]) -> Vec<Listed> {
    let mut at = 0;
    let listed = answers.iter().map(|&answer| {
        let (outcome, moved) = told(answer);
        let read = Listed { at, outcome, causes: causes(answer), next: at + moved };
        at = read.next;
        read
    });
    listed.collect()
}

/// What the number that a page's read gave says: what it answers, and how many bytes it moved past.
fn told(read: u64) -> (Outcome, usize) {
    let [answer, low] = halves(read);
    let [_, beside, high, low] = low.to_be_bytes();
    let outcome = match accepted(answer) {
        Ok(_) if beside & 1 == 0 => Outcome::Record,
        Ok(_) => Outcome::End,
        Err(refusal) => Outcome::Refused(refusal),
    };
    (outcome, usize::from(u16::from_be_bytes([high, low])))
}

/// The causes that it has above the bit of the end; a read alone gives none.
fn causes(read: u64) -> Causes {
    let [_, low] = halves(read);
    Causes::of((low >> 17) as usize)
}

/// The record that a reader stores, where it accepts.
fn record_of(reader: impl FnOnce(&mut [u8]) -> u32) -> Result<Record> {
    let mut record = Record::new(0);
    accepted(reader(record.bytes_mut()))?;
    Ok(record)
}

/// Where the body of the read at a position stands in the page.
fn body_of(page: &[u8], at: usize) -> Range<usize> {
    let [place, length] = halves(page_body(page, at)).map(|half| half as usize);
    place..place + length
}

/// The high and the low half.
fn halves(number: u64) -> [u32; 2] {
    [(number >> 32) as u32, number as u32]
}

/// The length or position in what a function gave, or the refusal, whose number stands above the
/// line in its two low bytes.
fn accepted(answer: u32) -> Result<usize> {
    let [_, number, high, low] = answer.to_be_bytes();
    let rest = u16::from_be_bytes([high, low]);
    if number == 0 {
        return Ok(usize::from(rest));
    }
    let kind = ErrorKind::of(number).unwrap_or_else(|| {
        panic!("the linked library refuses with {number}, which yewdome.h does not have")
    });
    Err(ParseError::new(kind, rest))
}
