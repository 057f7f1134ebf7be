//! Pages of fields: a field to a line or more, each opened by its tag, and a line `-` at the end.
//!
//! A page that is read may also end its lines in CR LF and close with the line `-}`: one CR directly
//! before the LF that closes a field is no part of the body. What is written has LF and `-`.
//!
//! Reading a closed page from the start gives the records that were added, in their order, and then
//! the end. A page is the bytes of a buffer before the position that the last call gave: it starts
//! at 0, each call takes the position that the last one gave, and nothing is added after closing. A
//! refusal changes no byte of the buffer.
//!
//! Beside a page there may be an [`Index`], with an entry for each field that [`add_indexed`] adds.
//! [`look_up`] finds a field by it, before and after closing, without reading those before it.

use crate::errors::{ParseError, Result};
use crate::fields::*;
use crate::kept::Causes;
use crate::library;
use crate::record::one_of;
pub use crate::record::Recorded;
use std::iter::FusedIterator;
use std::ops::Range;

/// The most bytes that a page has.
pub const LONGEST_PAGE: usize = 32_768;
/// The most bytes that a written field has, with its tag.
pub const LONGEST_FIELD: usize = 187;
/// The most bytes of a body that is read.
pub const LONGEST_BODY: usize = 2_048;
/// The most entries of an index.
pub const MOST_ENTRIES: usize = 256;

/// A record of a page, of any option.
#[derive(Debug, Clone, PartialEq, Eq, Hash)]
pub enum Party {
    /// 50 without a letter.
    Field50NoOption(Field50NoOption),
    /// 50A.
    Field50A(Field50A),
    /// 50F.
    Field50F(Field50F),
    /// 50K.
    Field50K(Field50K),
    /// 50C.
    Field50C(Field50C),
    /// 50L.
    Field50L(Field50L),
    /// 50G.
    Field50G(Field50G),
    /// 50H.
    Field50H(Field50H),
    /// 59 without a letter.
    Field59NoOption(Field59NoOption),
    /// 59A.
    Field59A(Field59A),
    /// 59F.
    Field59F(Field59F),
}
one_of!(Party {
    Field50NoOption,
    Field50A,
    Field50F,
    Field50K,
    Field50C,
    Field50L,
    Field50G,
    Field50H,
    Field59NoOption,
    Field59A,
    Field59F,
});

crate::fields::shown!(Party);

impl Party {
    /// Writes the field, tag and body. A value that no reader gives is refused with 22.
    pub fn to_swift_string(&self) -> Result<String> {
        library::write(&self.record())
    }
}

/// What a read of a page answers.
#[derive(Debug, Clone, PartialEq, Eq, Hash)]
pub enum Answer {
    /// The field is read.
    Record(Party),
    /// The field or the line is refused.
    Refused(ParseError),
    /// The page ends here.
    End,
}

/// A read of a page.
#[derive(Debug, Clone, PartialEq, Eq, Hash)]
pub struct Read {
    /// The position where it was.
    pub at: usize,
    /// What it answers.
    pub answer: Answer,
    /// Where the body of the field stands in the page, read or refused: `&page[read.body]`. It is
    /// empty where there is none: at the end, and at the refusals 15 to 18 and 21.
    pub body: Range<usize>,
    /// The position of the next read; `at` where the refusal is 17, 18 or 21. At the end it is past
    /// the end line.
    pub next: usize,
}

/// Reads a page at a position, which is 0 or the `next` of the read before.
pub fn read_at(page: &[u8], at: usize) -> Read {
    with_value(library::read_page(page, at))
}

/// A read of the library, with its record as a value.
fn with_value(read: library::PageRead) -> Read {
    let answer = match read.outcome {
        Outcome::Record => read.record.value().map_or_else(Answer::Refused, Answer::Record),
        Outcome::Refused(refusal) => Answer::Refused(refusal),
        Outcome::End => Answer::End,
    };
    Read { at: read.at, answer, body: read.body, next: read.at + read.moved }
}

/// The reads of a page from its start.
pub fn answers(page: &[u8]) -> Answers<'_> {
    Answers { page, at: Some(0) }
}

/// The reads of a page. The last is the end, or a refusal that moves past no byte: 17, 18 or 21.
#[derive(Debug, Clone)]
pub struct Answers<'a> {
    page: &'a [u8],
    at: Option<usize>,
}

impl Iterator for Answers<'_> {
    type Item = Read;

    fn next(&mut self) -> Option<Read> {
        let read = read_at(self.page, self.at?);
        let is_last = read.answer == Answer::End || read.next == read.at;
        self.at = (!is_last).then_some(read.next);
        Some(read)
    }
}

impl FusedIterator for Answers<'_> {}

/// What a read of a page answers, without the record.
#[derive(Debug, Clone, Copy, PartialEq, Eq, Hash)]
pub enum Outcome {
    /// The field is read and, where the page is filed, the record added.
    Record,
    /// The field or the line is refused or, where the page is filed, the record.
    Refused(ParseError),
    /// The page ends here.
    End,
}

/// A read of a page, without the record and the place of the body, which [`read_at`] gives.
#[derive(Debug, Clone, Copy, PartialEq, Eq, Hash)]
pub struct Listed {
    /// The position where it was.
    pub at: usize,
    /// What it answers.
    pub outcome: Outcome,
    /// By which causes the field is filed as other bytes than came. Only [`file()`] tells them, of a
    /// record that it adds; else it is empty.
    pub causes: Causes,
    /// The position of the next read; `at` where the refusal is 17 or 18. At the end it is past the
    /// end line.
    pub next: usize,
}

/// The reads of a page from its start, by one call of the library: those of [`answers`], without
/// the records.
pub fn listed(page: &[u8]) -> Vec<Listed> {
    library::list(page)
}

/// The length of the field of a struct of an option, an enum of a choice or a [`Party`], tag and body,
/// as [`to_swift_string`](crate::SwiftField::to_swift_string) writes it; nothing is written.
///
/// Refused with 22 where no reader gives the value, and with nothing else. [`add`] needs this space,
/// one byte for its LF, and 2 for the end of the page; that a page cannot carry the value, 23, is told
/// by [`add`] alone.
pub fn measure<P: Recorded>(party: &P) -> Result<usize> {
    library::measure(&party.record())
}

/// Adds a struct of an option, an enum of a choice or a [`Party`] to the page in a buffer at a
/// position, and gives the position after.
///
/// Refused with 21 where the position is past the buffer or not at the start of a line, with 22
/// where no reader gives the value, with 23 where a page cannot carry it, with 24 where it does not
/// fit with the end of the page.
pub fn add<P: Recorded>(party: &P, buffer: &mut [u8], position: usize) -> Result<usize> {
    library::add(&party.record(), buffer, position)
}

/// Closes the page in a buffer at a position, and gives the page's length.
///
/// Refused with 21 as in [`add`], with 24 where the end does not fit.
pub fn close(buffer: &mut [u8], position: usize) -> Result<usize> {
    library::close(buffer, position)
}

/// An entry of an [`Index`]: a field of the page.
#[derive(Debug, Clone, Copy, PartialEq, Eq, Hash, Default)]
#[repr(C)]
pub struct Entry {
    /// The field's tag, as the place of its option among those of [`Party`], 0 to 10.
    pub option: u32,
    /// The position of the field.
    pub position: u32,
    /// The length of the field, tag and body as read, without the LF.
    pub length: u32,
}

/// An index beside a page, which [`add_indexed`] fills and [`look_up`] takes. It can be stored and
/// restored with its page: any numbers may stand in it, and an entry is believed only where the
/// page has it. No function makes one from a page. Two are equal where all their numbers are, those
/// after the count too.
#[derive(Debug, Clone, PartialEq, Eq, Hash)]
#[repr(C)]
pub struct Index {
    /// How many entries it has; a count above [`MOST_ENTRIES`] is that many.
    pub count: u32,
    /// The entries in the order of the adds. Those after the count are not used.
    pub entries: [Entry; MOST_ENTRIES],
}

impl Index {
    /// An index without an entry.
    pub const fn new() -> Self {
        Self { count: 0, entries: [Entry { option: 0, position: 0, length: 0 }; MOST_ENTRIES] }
    }

    /// The entries that it has.
    pub fn entries(&self) -> &[Entry] {
        &self.entries[..MOST_ENTRIES.min(self.count as usize)]
    }
}

impl Default for Index {
    fn default() -> Self {
        Self::new()
    }
}

/// Adds as [`add`] does, and puts the field's entry after those that the index has.
///
/// Refused as in [`add`], and after that with 31 where the index has no free entry. A refusal
/// changes neither the buffer nor the index.
pub fn add_indexed<P: Recorded>(
    party: &P,
    buffer: &mut [u8],
    position: usize,
    index: &mut Index,
) -> Result<usize> {
    library::add_indexed(&party.record(), buffer, position, index)
}

/// Looks up field k of a page in an index, counted from 1, and gives what [`read_at`] does at its
/// position: the record, or the refusal of the body. The page is a closed one, or the open one: the
/// bytes of the buffer before its position.
///
/// Refused with 18 where the page is too long, with 31 where k is 0 or the index has fewer entries,
/// with 21 where the page has no field of the entry's tag and length at its position.
pub fn look_up(page: &[u8], index: &Index, k: usize) -> Result<Read> {
    library::look_up(page, index, k).map(with_value)
}

/// What filing a page gives.
#[derive(Debug, Clone, PartialEq, Eq, Hash)]
pub struct Filing {
    /// The reads of the page. A record that was not added is refused: with 23 where a page cannot
    /// carry it, with 24 where it does not fit with the end of the page.
    pub answers: Vec<Listed>,
    /// The new page's length. Refused with 24 where the buffer has under 2 bytes.
    pub closed: Result<usize>,
}

/// Files the records of a page on a new one in a buffer, by one call of the library: reads the page
/// as [`listed`] does, [adds](add) each record from position 0, and [closes](close) the new page. It
/// tells by which [causes](Listed::causes) a field is filed as other bytes than came.
pub fn file(page: &[u8], buffer: &mut [u8]) -> Filing {
    library::file(page, buffer)
}
