//! Times the finder of LFs, the plain loop that it replaced, and the C library's `memchr`, in one process.
//!
//! The plain loop and `memchr` judge the finder first: all three must give the same place, from every place of many
//! texts. Then, in each round, each finds every LF of a text, from the start to the end; of all rounds the fastest of
//! each counts.

use std::hint::black_box;
use std::time::Instant;

const ROUNDS: usize = 2_000;
const TEXT: usize = 32_768;
/// LF, and bytes that a wrong finder takes for one.
const BYTES: [u8; 8] = [b'\n', 0x0b, 0x09, 0x8a, 0x00, 0x80, 0xff, b'A'];

#[link(name = "finders", kind = "static")]
unsafe extern "C" {
    fn yewdome_find_lf(text: *const u8, length: usize, from: usize) -> usize;
    fn yewdome_find_lf_plain(text: *const u8, length: usize, from: usize) -> usize;
}

unsafe extern "C" {
    fn memchr(text: *const u8, byte: i32, length: usize) -> *const u8;
}

type Finder = fn(&[u8], usize) -> usize;

const FINDERS: [Finder; 3] = [by_memchr, by_plain_loop, by_finder];

/// The finder of the library.
fn by_finder(text: &[u8], from: usize) -> usize {
    // SAFETY: the text is valid for its length, and the function takes any place.
    unsafe { yewdome_find_lf(text.as_ptr(), text.len(), from) }
}

/// The plain loop of the library.
fn by_plain_loop(text: &[u8], from: usize) -> usize {
    // SAFETY: as above.
    unsafe { yewdome_find_lf_plain(text.as_ptr(), text.len(), from) }
}

/// The C library's, with the answers of the others: the length where there is none, a place past it given back.
fn by_memchr(text: &[u8], from: usize) -> usize {
    let Some(rest) = text.get(from..) else { return from };
    // SAFETY: the rest is valid for its length.
    let found = unsafe { memchr(rest.as_ptr(), b'\n'.into(), rest.len()) };
    if found.is_null() { text.len() } else { found.addr() - text.as_ptr().addr() }
}

fn main() {
    println!("{} answers of each are the same", judged());
    println!();
    println!(
        "| 32,768 bytes | memchr, ns | plain, ns | finder, ns | plain / finder | finder / memchr |"
    );
    println!("|---|---|---|---|---|---|");
    for length in [8, 35, 70] {
        row(&format!("lines of {length} bytes"), &lines(length));
    }
    row("no LF", &vec![b'A'; TEXT]);
    let mut text = vec![b'A'; TEXT];
    text.iter_mut().step_by(256).for_each(|byte| *byte = 0xe9);
    row("no LF, each 256th byte above 127", &text);
}

/// Lines of so many bytes, each with its LF.
fn lines(length: usize) -> Vec<u8> {
    (1..=TEXT).map(|i| if i % (length + 1) == 0 { b'\n' } else { b'A' }).collect()
}

/// How many answers were compared: of texts of up to 200 bytes, and of one that has blocks, with an LF at each place or
/// at none among bytes that may be taken for one.
fn judged() -> usize {
    let mut seed = 5059;
    let mut answers = 0;
    for length in (0..=200).chain([1_000]) {
        let text = |kinds: &[u8], seed: &mut u64| -> Vec<u8> {
            (0..length).map(|_| kinds[next(seed) % kinds.len()]).collect()
        };
        answers += compared(&text(&BYTES, &mut seed));
        for place in 0..=length {
            // a byte above 127 or none, so that blocks are passed and not passed
            let others = if place % 2 == 0 { &BYTES[1..] } else { &[b'A', 0x0b] };
            let mut text = text(others, &mut seed);
            if let Some(byte) = text.get_mut(place) {
                *byte = b'\n';
            }
            answers += compared(&text);
        }
    }
    answers
}

/// Asks all three from every place of a text, and one past it.
fn compared(text: &[u8]) -> usize {
    for from in 0..=text.len() + 1 {
        let places = FINDERS.map(|find| find(text, from));
        assert!(places == [places[0]; 3], "{places:?} from {from} in {text:?}");
    }
    text.len() + 2
}

/// The next number, from splitmix64.
fn next(seed: &mut u64) -> usize {
    *seed = seed.wrapping_add(0x9e37_79b9_7f4a_7c15);
    let mixed = (*seed ^ (*seed >> 30)).wrapping_mul(0xbf58_476d_1ce4_e5b9);
    let mixed = (mixed ^ (mixed >> 27)).wrapping_mul(0x94d0_49bb_1331_11eb);
    (mixed >> 33) as usize
}

/// A row: what one search takes on the average of a text's.
fn row(what: &str, text: &[u8]) {
    let mut fastest = [f64::MAX; 3];
    for _ in 0..ROUNDS {
        for (find, fastest) in FINDERS.iter().zip(&mut fastest) {
            let (find, text) = (black_box(*find), black_box(text));
            let start = Instant::now();
            let (mut at, mut searches) = (0, 0);
            while at < text.len() {
                at = find(text, at) + 1;
                searches += 1;
            }
            let each = start.elapsed().as_nanos() as f64 / f64::from(searches);
            *fastest = fastest.min(each);
        }
    }
    let [memchr, plain, finder] = fastest;
    let (times, of_memchr) = (plain / finder, finder / memchr);
    println!("| {what} | {memchr:.1} | {plain:.1} | {finder:.1} | {times:.2} | {of_memchr:.2} |");
}
