//! Pages filed from typed values and read back, every refusal of a page, and whole pages.

mod parties;

use parties::{one_of_each, parsed, refused};
use yewdome::fields::*;
use yewdome::kept::{self, Causes};
use yewdome::pages::*;

const STALE: u8 = 0xa5;

fn of_50k(account: &str, names: &[&str]) -> Field50K {
    Field50K {
        account: Some(account.to_string()),
        name_and_address: names.iter().map(|name| name.to_string()).collect(),
    }
}

/// Number, line, and the bytes moved past, of the first read.
fn first(page: &[u8]) -> (u8, u16, usize) {
    match read_at(page, 0) {
        Read { at: 0, answer: Answer::Refused(it), next, .. } => (it.number(), it.line(), next),
        other => panic!("not refused: {other:?}"),
    }
}

/// A value for each of the structs and the enums, which all can be filed.
fn all() -> Vec<Party> {
    let mut all = one_of_each().to_vec();
    all.extend([
        parsed::<Field50InstructingParty>("BNPAFRPP").into(),
        parsed::<Field50OrderingCustomerFGH>("/99\nCHASUS33").into(),
        parsed::<Field50OrderingCustomerAFK>("/12\nA").into(),
        parsed::<Field50OrderingCustomerAFK>("X\n2/A\n1/B\n0/C\n9/D").into(),
        parsed::<Field50OrderingCustomerNCF>("A\nB").into(),
        parsed::<Field50Creditor>("DEUTDEFF").into(),
        parsed::<Field59>("1/A").into(),
        parsed::<Field59Debtor>("A").into(),
    ]);
    all
}

#[test]
fn what_is_filed_reads_back() {
    let mut buffer = [STALE; LONGEST_PAGE];
    let mut expected = Vec::new();
    let mut position = 0;
    for party in all() {
        let next = add(&party, &mut buffer, position).expect("a page carries it");
        let field = party.to_swift_string().expect("a reader gave it");
        assert_eq!(measure(&party), Ok(field.len()));
        assert_eq!(&buffer[position..next], format!("{field}\n").as_bytes());
        let tag = field[1..].find(':').expect("a field has a tag") + 2;
        let body = position + tag..position + field.len();
        expected.push(Read { at: position, answer: Answer::Record(party), body, next });
        position = next;
    }
    let length = close(&mut buffer, position).expect("there is space");
    assert_eq!(&buffer[position..length], b"-\n");
    assert!(buffer[length..].iter().all(|&byte| byte == STALE));
    expected.push(Read { at: position, answer: Answer::End, body: 0..0, next: length });
    assert_eq!(answers(&buffer[..length]).collect::<Vec<_>>(), expected);
}

/// The field's length, its LF and 2 for the end: one byte less is 24.
#[test]
fn what_is_measured_has_space() {
    for party in all() {
        let space = measure(&party).expect("a reader gave it") + 3;
        let mut buffer = vec![STALE; space];
        assert_eq!(refused(add(&party, &mut buffer[..space - 1], 0)), 24);
        assert!(buffer.iter().all(|&byte| byte == STALE));
        let position = add(&party, &mut buffer, 0).expect("there is space");
        assert_eq!(close(&mut buffer, position), Ok(space));
    }
}

/// The lines of 50F stay as they came, whatever their digits.
#[test]
fn a_page_of_50f_is_filed_as_it_came() {
    let page = b":50F:X\n7/A\n7/B\n:50F:X\n1/A\n2/B\n:50F:X\n2/A\n1/B\n:50F:X\n0/A\n-\n";
    let mut buffer = [STALE; 64];
    assert_eq!(file(page, &mut buffer).closed, Ok(page.len()));
    assert_eq!(&buffer[..page.len()], page);
    let mut records = answers(page).map(|read| read.answer);
    let due = ["X\n7/A\n7/B", "X\n1/A\n2/B", "X\n2/A\n1/B", "X\n0/A"];
    for body in due.map(parsed::<Field50F>) {
        assert_eq!(records.next(), Some(Answer::Record(body.into())));
    }
    assert_eq!(records.next(), Some(Answer::End));
}

#[test]
fn structs_and_enums_are_filed_as_they_are() {
    let customer: Field50OrderingCustomerAFK = parsed("/12\nA");
    let field = Field59A { account: None, bic: "BNPAFRPP".to_string() };
    let mut buffer = [STALE; 64];
    let position = add(&customer, &mut buffer, 0).expect("a page carries it");
    let position = add(&field, &mut buffer, position).expect("a page carries it");
    let length = close(&mut buffer, position).expect("there is space");
    assert_eq!(&buffer[..length], b":50K:/12\nA\n:59A:BNPAFRPP\n-\n");
}

#[test]
fn the_reads_go_on_after_a_refusal() {
    let page = b"junk\n:52A:X\n:59F:2/A\n:50C:BNPAFRPP\n-\n:50C:BNPAFRPP\n-\n";
    let told: Vec<(usize, u8, u16)> = answers(page)
        .map(|read| match read.answer {
            Answer::Refused(refusal) => (read.at, refusal.number(), refusal.line()),
            Answer::Record(_) => (read.at, 0, 0),
            Answer::End => (read.at, 255, 0),
        })
        .collect();
    assert_eq!(told, [(0, 16, 0), (5, 15, 0), (12, 6, 1), (21, 0, 0), (35, 255, 0)]);
}

#[test]
fn each_read_hands_back_its_body() {
    let page = b"junk\n:52A:X\n:59F:2/A\n:50K:\n:50K:/12\nA\n\n:50C:BNPAFRPP\n-\n";
    let told: Vec<(u8, &[u8])> = answers(page)
        .map(|read| match read.answer {
            Answer::Refused(refusal) => (refusal.number(), &page[read.body]),
            Answer::Record(_) => (0, &page[read.body]),
            Answer::End => (255, &page[read.body]),
        })
        .collect();
    let due: [(u8, &[u8]); 7] = [
        (16, b""),
        (15, b""),
        (6, b"2/A"),
        (1, b""),
        (0, b"/12\nA\n"),
        (0, b"BNPAFRPP"),
        (255, b""),
    ];
    assert_eq!(told, due);
    let places: Vec<_> = answers(page).map(|read| read.body).collect();
    assert_eq!(places, [0..0, 0..0, 17..20, 26..26, 32..38, 44..52, 0..0]);
    for (page, at) in [(&b""[..], 0), (b"-\n", 1), (b"-\n", 3), (&[b'\n'; LONGEST_PAGE + 1], 0)] {
        assert_eq!(read_at(page, at).body, 0..0);
    }
}

#[test]
fn a_body_runs_to_the_length_of_a_page_without_an_end() {
    for (page, body) in [(&b":50C:BNPAFRPP"[..], 5..13), (b":50C:BNPAFRPP\n", 5..13)] {
        assert_eq!(read_at(page, 0).body, body);
    }
}

/// A text with CR LF for each LF.
fn crlf(text: &[u8]) -> Vec<u8> {
    text.iter()
        .flat_map(|&byte| if byte == b'\n' { vec![b'\r', b'\n'] } else { vec![byte] })
        .collect()
}

#[test]
fn a_page_with_cr_lf_reads_as_its_twin() {
    let mut buffer = [STALE; LONGEST_PAGE];
    let mut position = 0;
    for party in all() {
        position = add(&party, &mut buffer, position).expect("a page carries it");
    }
    let told = |page: &[u8]| answers(page).map(|read| read.answer).collect::<Vec<_>>();
    let due = told(&[&buffer[..position], b"-\n"].concat());
    assert_eq!(due.len(), all().len() + 1);
    for end in [&b"-"[..], b"-\n", b"-\r\n", b"-}", b"-}\n", b"-}\r\n"] {
        let page = [&crlf(&buffer[..position])[..], end].concat();
        assert_eq!(told(&page), due);
        let last = answers(&page).last().expect("a page has an answer");
        assert_eq!((last.answer, last.next), (Answer::End, page.len()));
        let mut new = [STALE; LONGEST_PAGE];
        assert_eq!(file(&page, &mut new).closed, Ok(position + 2));
        assert_eq!(&new[..position], &buffer[..position]);
        assert_eq!(&new[position..position + 2], b"-\n");
    }
}

#[test]
fn one_cr_before_the_lf_that_closes_a_field_is_left_off() {
    for (page, body) in [
        (&b":50K:A\r\n-\n"[..], &b"A"[..]),
        (b":50K:A\r\r\n-\n", b"A\r"),
        (b":50K:A\rB\r\n-\n", b"A\rB"),
        (b":50K:A\r\nB\r\n-\n", b"A\r\nB"),
        (b":50K:A\r\n", b"A"),
        (b":50K:A\r", b"A\r"),
        (b":50K:\r\n-\n", b""),
    ] {
        assert_eq!(&page[read_at(page, 0).body], body, "{page:?}");
    }
    let long = |more| [&b":50A:BNPAFRPP\n"[..], &vec![b'A'; more], b"\r\n-\n"].concat();
    let room = LONGEST_BODY - b"BNPAFRPP\n".len();
    assert!(matches!(read_at(&long(room), 0).answer, Answer::Record(_)));
    assert_eq!(first(&long(room + 1)), (12, 0, LONGEST_BODY + 8));
}

#[test]
fn what_only_looks_like_an_end_line_is_none() {
    for line in [&b"-\r"[..], b"-}\r", b"-\r\r\n", b"-}x\n", b"- }\n", b"--\n", b"}\n", b"-}}\n"] {
        assert_eq!(first(line), (16, 0, line.len()), "{line:?}");
    }
}

#[test]
fn the_reads_stop_where_they_cannot_go_on() {
    let page = b":50C:BNPAFRPP\n";
    let mut reads = answers(page);
    assert!(matches!(reads.next(), Some(Read { at: 0, answer: Answer::Record(_), next: 14, .. })));
    let last = reads.next().expect("the page has no end");
    assert_eq!((last.at, last.next), (14, 14));
    assert!(matches!(last.answer, Answer::Refused(refusal) if refusal.number() == 17));
    assert_eq!(reads.next(), None);
    assert_eq!(reads.next(), None);
    assert_eq!(answers(&[b'\n'; LONGEST_PAGE + 1]).count(), 1);
    assert_eq!(answers(b"").count(), 1);
    let mut ended = answers(b"-\n");
    assert_eq!(ended.next(), Some(Read { at: 0, answer: Answer::End, body: 0..0, next: 2 }));
    assert_eq!(ended.next(), None);
}

#[test]
fn refusals_of_a_read() {
    assert_eq!(first(b":52A:X\n-\n"), (15, 0, 7));
    assert_eq!(first(b"junk\n-\n"), (16, 0, 5));
    assert_eq!(first(b""), (17, 0, 0));
    assert_eq!(first(&[b'\n'; LONGEST_PAGE + 1]), (18, 0, 0));
    assert_eq!(first(b":50K:A\nB~\n-\n"), (3, 2, 10));
    for at in [1, 3, usize::MAX] {
        let read = read_at(b"-\n", at);
        assert_eq!((read.at, read.next), (at, at));
        assert!(matches!(read.answer, Answer::Refused(it) if it.number() == 21), "{at}");
    }
}

/// Adds to a buffer, and looks that a refusal leaves it as it was.
fn refused_add<P: Recorded>(party: &P, buffer: &mut [u8], position: usize) -> u8 {
    let before = buffer.to_vec();
    let number = refused(add(party, buffer, position));
    assert_eq!(buffer, before);
    number
}

#[test]
fn refusals_of_an_add() {
    let good = of_50k("12", &["A"]);
    let field = b":50K:/12\nA\n";
    let mut buffer = [STALE; 64];
    assert_eq!(refused_add(&good, &mut buffer, 1), 21);
    assert_eq!(refused_add(&good, &mut buffer, 65), 21);
    for bad in [of_50k("12", &["A\nB"]), of_50k("12", &["A"; 5]), of_50k("12", &[&"A".repeat(39)])]
    {
        assert_eq!(refused_add(&bad, &mut buffer, 0), 22, "{bad:?}");
        assert_eq!(refused_add(&bad, &mut buffer, 1), 21, "21 comes before 22: {bad:?}");
        assert_eq!(refused_add(&bad, &mut [STALE; 1], 0), 22, "22 comes before 24: {bad:?}");
    }
    for digit in [0, b'/', b':', 255] {
        let bad = Field50F { digits: [b'1', digit, b'3', b'4'].into(), ..parsed("X\n1/A\n2/B") };
        assert_eq!(refused_add(&bad, &mut buffer, 0), 22, "{bad:?}");
        let one = Field50F { name_and_address: vec!["A".to_string()], ..bad };
        assert_eq!(add(&one, &mut buffer.clone(), 0), Ok(b":50F:X\n1/A\n".len()), "{one:?}");
    }
    for names in
        [&["A", ""][..], &["A", "-"], &["A", "-}"], &[":"], &["A\r"], &["A\r", "B"], &["A", "B\r"]]
    {
        let not_carried = of_50k("12", names);
        assert_eq!(refused_add(&not_carried, &mut buffer, 0), 23, "{not_carried:?}");
    }
    let unlike: Field50K = parsed("-}\n-}A");
    assert_eq!(add(&unlike, &mut buffer.clone(), 0), Ok(b":50K:-}\n-}A\n".len()));
    let with_identifier: Field59F = parsed("/1\n1/A");
    assert_eq!(add(&with_identifier, &mut buffer.clone(), 0), Ok(b":59F:/1\n1/A\n".len()));
    assert_eq!(refused_add(&good, &mut buffer[..field.len() + 1], 0), 24);
    assert_eq!(refused_add(&good, &mut [], 0), 24);
    assert_eq!(add(&good, &mut buffer[..field.len() + 2], 0), Ok(field.len()));
}

#[test]
fn refusals_of_a_closing() {
    for (length, position, number) in [(8, 1, 21), (8, 9, 21), (1, 0, 24), (0, 0, 24)] {
        let mut buffer = vec![STALE; length];
        assert_eq!(refused(close(&mut buffer, position)), number);
        assert_eq!(buffer, vec![STALE; length]);
    }
    let mut buffer = [STALE; 2];
    assert_eq!(close(&mut buffer, 0), Ok(2));
}

#[test]
fn a_page_takes_no_more_than_its_longest() {
    let field = of_50k("1", &["A"]);
    let mut buffer = vec![STALE; LONGEST_PAGE + 100];
    let mut position = 0;
    while let Ok(next) = add(&field, &mut buffer, position) {
        position = next;
    }
    assert_eq!(refused_add(&field, &mut buffer, position), 24);
    let length = close(&mut buffer, position).expect("there is space for the end");
    assert!(length <= LONGEST_PAGE);
    assert_eq!(answers(&buffer[..length]).count(), position / 10 + 1);
}

#[test]
fn every_refusal_of_a_page_has_its_text() {
    let read = |page: &[u8], at| match read_at(page, at).answer {
        Answer::Refused(refusal) => refusal.to_string(),
        other => panic!("not refused: {other:?}"),
    };
    let added = |names: &[&str], length| {
        let answer = add(&of_50k("12", names), &mut vec![STALE; length], 0);
        answer.expect_err("this is refused").to_string()
    };
    let texts = [
        read(b":52A:X\n-\n", 0),
        read(b"junk\n-\n", 0),
        read(b"", 0),
        read(&[b'\n'; LONGEST_PAGE + 1], 0),
        read(b"-\n", 1),
        added(&[], 64),
        added(&["A", ""], 64),
        added(&["A"], 1),
        look_up(b"", &Index::new(), 1).expect_err("there is no entry").to_string(),
    ];
    let due = [
        "tag of none of the eleven options (refusal 15)",
        "line that neither opens a field nor ends the page (refusal 16)",
        "read at the page's length (refusal 17)",
        "page too long (refusal 18)",
        "position past the end or not at the start of a line, or wrong entry (refusal 21)",
        "value that no reader gives (refusal 22)",
        "record that a page cannot carry (refusal 23)",
        "too little space (refusal 24)",
        "no free entry in the index, or no such entry (refusal 31)",
    ];
    assert_eq!(texts, due);
}

/// Pages whose reads give records, refusals, the end and none.
fn pages() -> Vec<Vec<u8>> {
    let mixed = b"junk\n:52A:X\n:59F:2/A\n:59F:/1\n1/A\n:50K:\n:50K:/\nA\n:50C:BNPAFRPP\n-\n:50:A";
    let mut pages = [&b""[..], b"-", b"-\n", b":50C:BNPAFRPP", b":50K:A\n\n\n:50L:B\n-\n", mixed]
        .map(<[u8]>::to_vec)
        .to_vec();
    pages.push(crlf(mixed));
    pages.push(b":50A:BNPAFRPP\nX\n:50K:A\n\n:50L: B\r\n-}".to_vec());
    pages.push(b":50K:A\n".repeat(LONGEST_PAGE / 7 + 1)[..LONGEST_PAGE].to_vec());
    pages.push(vec![b'\n'; LONGEST_PAGE + 1]);
    pages.push(vec![b'\n'; 10 * LONGEST_PAGE]);
    pages
}

/// A read without its record.
fn without_record(read: &Read) -> Listed {
    let outcome = match read.answer {
        Answer::Record(_) => Outcome::Record,
        Answer::Refused(refusal) => Outcome::Refused(refusal),
        Answer::End => Outcome::End,
    };
    Listed { at: read.at, outcome, causes: Causes::default(), next: read.next }
}

/// Files a page by adding and closing.
fn filed_by_hand(page: &[u8], buffer: &mut [u8]) -> Filing {
    let (mut position, mut listed) = (0, Vec::new());
    for read in answers(page) {
        let mut told = without_record(&read);
        if let Answer::Record(party) = read.answer {
            match add(&party, buffer, position) {
                Ok(next) => {
                    position = next;
                    let causes = kept::field_at(page, read.at).expect("the field is read");
                    told.causes = causes.expect("it is no end");
                }
                Err(refusal) => told.outcome = Outcome::Refused(refusal),
            }
        }
        listed.push(told);
    }
    Filing { answers: listed, closed: close(buffer, position) }
}

/// The number of each answer's refusal, 0 of a record, 255 of the end.
fn numbers(answers: &[Listed]) -> Vec<u8> {
    let number = |read: &Listed| match read.outcome {
        Outcome::Record => 0,
        Outcome::Refused(refusal) => refusal.number(),
        Outcome::End => 255,
    };
    answers.iter().map(number).collect()
}

#[test]
fn a_page_is_listed_as_it_is_answered() {
    for page in pages() {
        let due: Vec<Listed> = answers(&page).map(|read| without_record(&read)).collect();
        assert_eq!(listed(&page), due);
    }
    assert_eq!(numbers(&listed(b"")), [17]);
    assert_eq!(numbers(&listed(&[b'\n'; LONGEST_PAGE + 1])), [18]);
    let end = Listed { at: 0, outcome: Outcome::End, causes: Causes::default(), next: 2 };
    assert_eq!(listed(b"-\n:50:A"), [end]);
}

#[test]
fn a_page_is_filed_as_by_hand() {
    for page in pages() {
        for length in (0..64).chain([LONGEST_PAGE - 1, LONGEST_PAGE, LONGEST_PAGE + 100]) {
            let (mut buffer, mut due) = (vec![STALE; length], vec![STALE; length]);
            assert_eq!(file(&page, &mut buffer), filed_by_hand(&page, &mut due));
            assert_eq!(buffer, due);
        }
    }
}

#[test]
fn what_filing_refuses() {
    let page = b"junk\n:50K:A\n\n\n:50C:BNPAFRPP\n-\n";
    let mut buffer = [STALE; 64];
    let filing = file(page, &mut buffer);
    assert_eq!(numbers(&filing.answers), [16, 23, 0, 255]);
    assert_eq!(filing.closed, Ok(16));
    assert_eq!(&buffer[..16], b":50C:BNPAFRPP\n-\n");
    for length in 2..16 {
        let filing = file(page, &mut buffer[..length]);
        assert_eq!(numbers(&filing.answers), [16, 23, 24, 255]);
        assert_eq!((filing.closed, &buffer[..2]), (Ok(2), &b"-\n"[..]));
    }
    for length in [0, 1] {
        let mut buffer = vec![STALE; length];
        let filing = file(page, &mut buffer);
        assert_eq!(numbers(&filing.answers), [16, 23, 24, 255]);
        assert_eq!((refused(filing.closed), buffer), (24, vec![STALE; length]));
    }
}

#[test]
fn of_a_page_that_is_empty_or_too_long_nothing_is_filed() {
    for (page, number) in [(&b""[..], 17), (&[b'\n'; LONGEST_PAGE + 1], 18)] {
        let mut buffer = [STALE; 64];
        let filing = file(page, &mut buffer);
        assert_eq!((numbers(&filing.answers), filing.closed), (vec![number], Ok(2)));
        assert_eq!(buffer[..3], [b'-', b'\n', STALE]);
    }
}
