//! The index beside a page: adds that fill it, lookups by it, and indexes of any numbers.

mod parties;

use parties::{one_of_each, parsed, refused};
use yewdome::fields::*;
use yewdome::pages::*;
use yewdome::Result;

const STALE: u8 = 0xa5;
const TAGS: [&str; 11] =
    ["50", "50A", "50F", "50K", "50C", "50L", "50G", "50H", "59", "59A", "59F"];

fn entry(option: u32, position: u32, length: u32) -> Entry {
    Entry { option, position, length }
}

/// An index without an entry, whose numbers are stale.
fn stale() -> Index {
    let number = u32::from_be_bytes([STALE; 4]);
    Index { count: 0, entries: [entry(number, number, number); MOST_ENTRIES] }
}

/// An index of these entries, stale but for them.
fn index_of(entries: &[Entry]) -> Index {
    let mut index = stale();
    index.count = entries.len() as u32;
    index.entries[..entries.len()].copy_from_slice(entries);
    index
}

fn of_50k(name: &str) -> Field50K {
    Field50K { account: None, name_and_address: vec![name.to_string()] }
}

/// A value that no reader gives, 22, and one that a page cannot carry, 23.
fn bad() -> [Party; 2] {
    [of_50k("~").into(), of_50k("A\r").into()]
}

/// The entry of the field that a read at a position meets, read or refused.
fn met(page: &[u8], at: usize) -> Option<Entry> {
    let read = read_at(page, at);
    match read.answer {
        Answer::End => return None,
        Answer::Refused(refusal) if refusal.number() > 13 => return None,
        _ => {}
    }
    let tag = &page[at + 1..read.body.start - 1];
    let option = TAGS.iter().position(|it| it.as_bytes() == tag).expect("the tag is known");
    Some(entry(option as u32, at as u32, (read.body.end - at) as u32))
}

/// What a lookup has to give, by `read_at`; of a refusal the number.
fn due(page: &[u8], index: &Index, k: usize) -> std::result::Result<Read, u8> {
    if page.len() > LONGEST_PAGE {
        return Err(18);
    }
    let entry = *k.checked_sub(1).and_then(|before| index.entries().get(before)).ok_or(31)?;
    let at = entry.position as usize;
    if met(page, at) == Some(entry) {
        Ok(read_at(page, at))
    } else {
        Err(21)
    }
}

/// Looks that every lookup in a page gives what it has to.
fn looks_up_all(page: &[u8], index: &Index) {
    for k in (0..=index.entries().len() + 1).chain([MOST_ENTRIES + 1, usize::MAX]) {
        let found = look_up(page, index, k).map_err(|refusal| refusal.number());
        assert_eq!(found, due(page, index, k), "field {k}");
    }
}

/// Looks that an index is of a page, and that its fields are found in turn.
fn is_of(index: &Index, page: &[u8]) {
    let reads: Vec<Read> = answers(page).filter(|read| met(page, read.at).is_some()).collect();
    let fields: Vec<Entry> = reads.iter().filter_map(|read| met(page, read.at)).collect();
    assert_eq!(index.entries(), fields);
    for (k, read) in (1..).zip(reads) {
        assert_eq!(look_up(page, index, k), Ok(read));
    }
    looks_up_all(page, index);
}

/// Adds with an index, as without, and looks what becomes of the buffer and the index.
fn added(party: &Party, buffer: &mut [u8], position: usize, index: &mut Index) -> Result<usize> {
    let (mut due_buffer, mut due_index) = (buffer.to_vec(), index.clone());
    let due = add(party, &mut due_buffer, position);
    let answer = add_indexed(party, buffer, position, index);
    assert_eq!((answer, &*buffer), (due, &due_buffer[..]));
    if let Ok(next) = answer {
        let count = due_index.count as usize;
        due_index.entries[count] = met(&buffer[..next], position).expect("a field was added");
        due_index.count += 1;
        assert_eq!(due_index.entries[count].length as usize, next - position - 1);
    }
    assert_eq!(*index, due_index);
    answer
}

#[test]
fn an_index_has_the_fields_of_its_page() {
    for start in [Index::new(), stale()] {
        let (mut buffer, mut index, mut position) = ([STALE; 500], start, 0);
        let mut refusals = [0; 25];
        for party in
            one_of_each().iter().flat_map(|it| bad().into_iter().chain([it.clone()])).cycle()
        {
            match added(&party, &mut buffer, position, &mut index) {
                Ok(next) => position = next,
                Err(refusal) => refusals[usize::from(refusal.number())] += 1,
            }
            is_of(&index, &buffer[..position]);
            if refusals[24] == 11 {
                break;
            }
        }
        assert!(refusals[22] > 0 && refusals[23] > 0);
        assert!(index.count > 11, "every option is among the fields");
        let length = close(&mut buffer, position).expect("there is space for the end");
        is_of(&index, &buffer[..length]);
    }
}

#[test]
fn a_new_index_is_empty() {
    assert_eq!(Index::new(), Index::default());
    for index in [Index::new(), stale()] {
        assert_eq!(index.entries(), []);
        looks_up_all(b":50K:A\n-\n", &index);
    }
}

/// An index with no free entry, its page, and the position.
fn full() -> (Index, [u8; LONGEST_PAGE], usize) {
    let (mut buffer, mut index, mut position) = ([STALE; LONGEST_PAGE], stale(), 0);
    for _ in 0..MOST_ENTRIES {
        let next = add_indexed(&of_50k("A"), &mut buffer, position, &mut index);
        position = next.expect("there is space and an entry");
    }
    (index, buffer, position)
}

#[test]
fn an_add_to_a_full_index_is_31() {
    let (index, buffer, position) = full();
    assert_eq!(index.count, 256);
    is_of(&index, &buffer[..position]);
    let good = of_50k("A");
    let [no_reader, not_carried] = bad();
    let (mut new, mut used) = (buffer, index.clone());
    for count in [256, 257, 300, u32::MAX] {
        used.count = count;
        assert_eq!(refused(add_indexed(&good, &mut new, position, &mut used)), 31);
        let short = &mut new[..position + 8];
        assert_eq!(refused(add_indexed(&good, short, position, &mut used)), 24);
        assert_eq!(refused(add_indexed(&not_carried, short, position, &mut used)), 23);
        assert_eq!(refused(add_indexed(&no_reader, short, position, &mut used)), 22);
        assert_eq!(refused(add_indexed(&no_reader, short, position + 1, &mut used)), 21);
        assert_eq!((&new, used.count), (&buffer, count));
        assert_eq!(used.entries, index.entries);
    }
    assert_eq!(add(&good, &mut new, position), Ok(position + 7), "31 is of the index alone");
}

#[test]
fn a_count_above_the_most_is_the_most() {
    let (mut index, buffer, position) = full();
    let page = &buffer[..position];
    for count in [256, 257, 300, u32::MAX] {
        index.count = count;
        assert_eq!(index.entries().len(), MOST_ENTRIES);
        assert_eq!(look_up(page, &index, 256), Ok(read_at(page, position - 7)));
        for k in [0, 257, 300, u32::MAX as usize, usize::MAX] {
            assert_eq!(refused(look_up(page, &index, k)), 31, "{count}: {k}");
        }
    }
    index.count = 255;
    assert_eq!(refused(look_up(page, &index, 256)), 31, "the entries after the count are not used");
}

#[test]
fn what_a_lookup_refuses_with_comes_in_its_turn() {
    let long = [b'\n'; LONGEST_PAGE + 1];
    let index = index_of(&[entry(3, 1, 6)]);
    for k in [0, 1, 2] {
        assert_eq!(refused(look_up(&long, &index, k)), 18, "18 comes before 31 and 21");
    }
    let page = b":50K:A\n-\n";
    for k in [0, 2, 256, 257, usize::MAX] {
        assert_eq!(refused(look_up(page, &index, k)), 31, "{k}");
    }
    assert_eq!(refused(look_up(page, &index, 1)), 21);
    let shifted = Index { count: 0, ..index_of(&[entry(3, 0, 6)]) };
    assert_eq!(refused(look_up(page, &shifted, 1)), 31, "31 comes before what the entry says");
}

#[test]
fn a_page_of_any_length_up_to_the_longest_is_looked_up() {
    let index = index_of(&[entry(3, 0, 6)]);
    let page = b":50K:A\n".repeat(2 * LONGEST_PAGE / 7);
    for length in [6, 7, 8, LONGEST_PAGE - 1, LONGEST_PAGE] {
        let page = &page[..length];
        assert_eq!(look_up(page, &index, 1), Ok(read_at(page, 0)), "{length}");
    }
    for length in [LONGEST_PAGE + 1, LONGEST_PAGE + 2, page.len()] {
        assert_eq!(refused(look_up(&page[..length], &index, 1)), 18, "{length}");
    }
    for length in 0..6 {
        assert_eq!(refused(look_up(&page[..length], &index, 1)), 21, "{length}");
    }
}

/// A stray line at 0, an unknown tag at 5, a field at 12, its second line at 19, the end line at 21
/// and a field after it at 23.
const MIXED: &[u8] = b"junk\n:52A:X\n:50K:A\nB\n-\n:50C:BNPAFRPP";

#[test]
fn an_entry_that_the_page_has_not_is_21() {
    let mut found = Vec::new();
    for position in (0..40).chain([LONGEST_PAGE as u32, u32::MAX]) {
        for option in (0..12).chain([255, 256, 259, u32::MAX]) {
            for length in (0..40).chain([264, u32::MAX]) {
                let index = index_of(&[entry(option, position, length)]);
                let answer = look_up(MIXED, &index, 1);
                match answer {
                    Ok(read) => {
                        assert_eq!(read, read_at(MIXED, position as usize));
                        found.push(index.entries[0]);
                    }
                    Err(refusal) => assert_eq!(refusal.number(), 21),
                }
            }
        }
    }
    assert_eq!(found, [entry(3, 12, 8), entry(4, 23, 13)]);
}

#[test]
fn an_entry_that_is_off_by_one_is_21() {
    let (mut buffer, mut index, mut position) = ([STALE; LONGEST_PAGE], Index::new(), 0);
    for party in one_of_each() {
        let next = add_indexed(&party, &mut buffer, position, &mut index);
        position = next.expect("a page carries it");
    }
    let length = close(&mut buffer, position).expect("there is space");
    for page in [&buffer[..position], &buffer[..length]] {
        for k in 1..=one_of_each().len() {
            for off in [1, u32::MAX] {
                let numbers: [fn(&mut Entry) -> &mut u32; 3] =
                    [|it| &mut it.option, |it| &mut it.position, |it| &mut it.length];
                for number in numbers {
                    let mut index = index.clone();
                    let number = number(&mut index.entries[k - 1]);
                    *number = number.wrapping_add(off);
                    assert_eq!(refused(look_up(page, &index, k)), 21, "field {k}");
                }
            }
        }
    }
}

/// A body that is refused is no refusal of the lookup.
#[test]
fn a_damaged_field_is_found_and_its_neighbours_are_one_of_each() {
    let (mut buffer, mut index, mut position) = ([STALE; 64], Index::new(), 0);
    for name in ["A", "B", "C"] {
        let next = add_indexed(&of_50k(name), &mut buffer, position, &mut index);
        position = next.expect("a page carries it");
    }
    buffer[12] = b'~';
    let page = &buffer[..position];
    is_of(&index, page);
    let read = look_up(page, &index, 2).expect("the field is there");
    assert!(matches!(read.answer, Answer::Refused(it) if (it.number(), it.line()) == (3, 1)));
    assert_eq!((read.at, read.body, read.next), (7, 12..13, 14));
    for (k, name) in [(1, "A"), (3, "C")] {
        let read = look_up(page, &index, k).expect("the field is there");
        assert_eq!(read.answer, Answer::Record(of_50k(name).into()));
    }
}

#[test]
fn a_field_is_found_as_it_is_read() {
    let long = [b":50K:", &vec![b'A'; LONGEST_BODY + 1][..], b"\n-\n"].concat();
    for (page, option, length, number) in [
        (&b":50K:\n-\n"[..], 3, 5, 1),
        (b":50K:", 3, 5, 1),
        (b":50K:A\r\n-}\r\n", 3, 6, 0),
        (b":50K:A\r", 3, 7, 0),
        (b":50K:A\r\nB\r\n-\n", 3, 9, 0),
        (b":50K:A\nB~\r\n-\n", 3, 9, 3),
        (b":50K:A\n\n\n-\n", 3, 8, 0),
        (b":59:A\n:59:B\n-\n", 8, 5, 0),
        (b":50C:\xff\n-\n", 4, 6, 13),
        (&long, 3, LONGEST_BODY as u32 + 6, 12),
    ] {
        let index = index_of(&[entry(option, 0, length)]);
        is_found(page, &index, number);
        for length in [length - 1, length + 1] {
            let index = index_of(&[entry(option, 0, length)]);
            assert_eq!(refused(look_up(page, &index, 1)), 21, "{page:?}");
        }
    }
}

/// Looks that field 1 is found, and refused with this number, or 0.
fn is_found(page: &[u8], index: &Index, number: u8) {
    let read = look_up(page, index, 1).expect("the field is there");
    let told = match &read.answer {
        Answer::Record(_) => 0,
        Answer::Refused(refusal) => refusal.number(),
        Answer::End => 255,
    };
    assert_eq!((told, &read), (number, &read_at(page, 0)), "{page:?}");
}

/// Values of 50F of which some differ in their digits alone.
#[test]
fn a_field_is_found_with_its_digits() {
    let bodies = ["X\n7/A\n7/B", "X\n1/A\n2/B", "X\n2/A\n1/B", "X\n0/A", "X\n9/A\n0/B\n0/C\n9/D"];
    let parties = bodies.map(|body| Party::from(parsed::<Field50F>(body)));
    let (mut buffer, mut index, mut position) = ([STALE; 128], Index::new(), 0);
    for party in &parties {
        let next = added(party, &mut buffer, position, &mut index);
        position = next.expect("a page carries it");
    }
    let length = close(&mut buffer, position).expect("there is space for the end");
    for page in [&buffer[..position], &buffer[..length]] {
        is_of(&index, page);
        for ((k, party), body) in (1..).zip(&parties).zip(bodies) {
            let read = look_up(page, &index, k).expect("the field is there");
            assert_eq!(&page[read.body], body.as_bytes());
            assert_eq!(read.answer, Answer::Record(party.clone()));
        }
    }
}

#[test]
fn a_digit_that_is_none_is_not_filed() {
    for digit in [0, b'/', b':', 255] {
        let bad = Field50F { digits: [digit, b'2', b'3', b'4'].into(), ..parsed("X\n1/A") };
        let (mut buffer, mut index) = ([STALE; 64], stale());
        assert_eq!(refused(added(&bad.into(), &mut buffer, 0, &mut index)), 22, "{digit}");
    }
}

/// Numbers that look like any (xorshift).
struct Numbers(u64);

impl Numbers {
    fn next(&mut self) -> u64 {
        self.0 ^= self.0 << 13;
        self.0 ^= self.0 >> 7;
        self.0 ^= self.0 << 17;
        self.0
    }

    /// A number below another, or any of 32 bits once in sixteen times.
    fn below(&mut self, most: u64) -> u32 {
        let number = self.next() >> 16;
        if number % 16 == 0 {
            (number >> 8) as u32
        } else {
            ((number >> 8) % most) as u32
        }
    }

    fn index(&mut self) -> Index {
        let mut index = Index::new();
        index.count = self.below(400);
        for each in &mut index.entries {
            *each = entry(self.below(12), self.below(40), self.below(16));
        }
        index
    }

    fn k(&mut self) -> usize {
        match self.next() >> 60 {
            0 => self.next() as usize,
            _ => self.below(300) as usize,
        }
    }
}

#[test]
fn any_index_is_taken() {
    let mut numbers = Numbers(0x9e37_79b9_7f4a_7c15);
    let pages = [MIXED, b":50K:A\n:50C:BNPAFRPP\n:59:~\n:50L:\n-\n", b"", b"-\n"];
    let (mut found, mut none, mut wrong) = (0, 0, 0);
    for _ in 0..4000 {
        let (mut index, k) = (numbers.index(), numbers.k());
        let page = pages[numbers.next() as usize % pages.len()];
        // the entry after k is often one of the page
        let fields: Vec<Entry> = (0..page.len()).filter_map(|at| met(page, at)).collect();
        let field = fields.get(numbers.next() as usize % 4);
        if let (Some(&field), Some(each)) = (field, index.entries.get_mut(k)) {
            *each = field;
        }
        for k in [k, k.wrapping_add(1)] {
            let answer = look_up(page, &index, k).map_err(|refusal| refusal.number());
            assert_eq!(answer, due(page, &index, k), "{page:?} {k}");
            match answer {
                Ok(_) => found += 1,
                Err(31) => none += 1,
                Err(_) => wrong += 1,
            }
        }
        let (mut buffer, before) = ([STALE; 64], index.clone());
        let answer = add_indexed(&of_50k("A"), &mut buffer, 0, &mut index);
        if before.count < 256 {
            let mut due = before;
            due.entries[due.count as usize] = entry(3, 0, 6);
            due.count += 1;
            assert_eq!((answer, index), (Ok(7), due));
        } else {
            assert_eq!((refused(answer), index, buffer), (31, before, [STALE; 64]));
        }
    }
    assert!(found > 500 && none > 500 && wrong > 500, "{found}, {none}, {wrong}");
}

/// What is stored of an index is enough to restore it.
#[test]
fn an_index_is_stored_and_restored() {
    let (index, buffer, position) = full();
    let stored: Vec<[u32; 3]> =
        index.entries().iter().map(|it| [it.option, it.position, it.length]).collect();
    let restored: Vec<Entry> = stored.iter().map(|&[o, p, l]| entry(o, p, l)).collect();
    assert_eq!(index_of(&restored), index);
    is_of(&index_of(&restored), &buffer[..position]);
}
