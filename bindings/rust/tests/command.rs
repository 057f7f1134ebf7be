//! The command `yewdome`: what it writes, what it says and its status.

mod common;

use common::{command, ended, full, run, Room, Told, CHANGED, FILED, GOOD, MIXED};
use std::collections::HashSet;
use std::ffi::OsStr;
use std::fs::{self, File};
use std::os::unix::ffi::OsStrExt;
use std::path::{Path, PathBuf};
use yewdome::pages::LONGEST_PAGE;

fn told(arguments: &[&str], input: &[u8]) -> Told {
    run(&mut command(arguments), input)
}

fn example(name: &str) -> PathBuf {
    Path::new(env!("CARGO_MANIFEST_DIR")).join("../../crates/file_page").join(name)
}

fn text(bytes: &[u8]) -> &str {
    std::str::from_utf8(bytes).expect("the page is text")
}

/// A page of as many bytes as a page can have.
fn longest() -> Vec<u8> {
    let page = [&b":50C:BNPAFRPP\n".repeat(2340)[..], b":50:A\n-\n"].concat();
    assert_eq!(page.len(), LONGEST_PAGE);
    page
}

#[test]
fn the_example_page_is_filed_as_the_program_files_it() {
    let page = fs::read(example("stdin")).expect("the example is there");
    let filed = fs::read_to_string(example("stdout")).expect("the example is there");
    let messages = "\
yewdome: standard input: page line 1: line that neither opens a field nor ends the page (refusal 16)
yewdome: standard input: page line 12, body line 1: number of a line of 59F out of turn (refusal 6)
yewdome: standard input: page line 15: tag of none of the eleven options (refusal 15)
yewdome: standard input: page line 23: record that a page cannot carry (refusal 23)
yewdome: standard input: 11 filed, 4 refused
";
    let due = (1, filed.clone(), messages.to_string());
    assert_eq!(told(&["file"], &page), due);
    assert_eq!(told(&["file", "-"], &page), due);
    assert_eq!(told(&["file", "-o", "-", "--", "-"], &page), due);
    let room = Room::new();
    room.put("page", &page);
    assert_eq!(
        room.told(&["file", "page"], b""),
        (1, filed, messages.replace("standard input", "page"))
    );
}

#[test]
fn the_example_page_with_cr_lf_is_filed_alike() {
    let page = fs::read_to_string(example("stdin")).expect("the example is there");
    let filed = fs::read_to_string(example("stdout")).expect("the example is there");
    let (_, _, due) = told(&["file"], page.as_bytes());
    for end in ["-\r\n", "-}\r\n", "-}\n", "-}"] {
        let lines = page.strip_suffix("-\n").expect("the page is closed").replace('\n', "\r\n");
        let (status, out, err) = told(&["file"], format!("{lines}{end}").as_bytes());
        assert_eq!((status, &out), (1, &filed));
        // what is refused is said as before, and beside it that each field is filed as other bytes
        let is_changed = |line: &&str| line.contains(" filed as other bytes than came: CR before ");
        let (changed, others): (Vec<&str>, Vec<&str>) = err.lines().partition(is_changed);
        let counts = "11 filed, 11 of them as other bytes than came, 4 refused";
        let due = due.trim_end().replace("11 filed, 4 refused", counts);
        assert_eq!((changed.len(), others.join("\n")), (11, due));
    }
}

#[test]
fn a_page_is_listed() {
    let page = b"junk\n:50K:/\n\"A\"\n:50:\n:59F:2/A\nB\n:52A:X\n:50A:/C/1\nDEUTDEFF\n:50H:/\x01\\\nA\n:50F:X\n7/A\n7/\n-\n";
    let listing = r#"1  page line  1  refused with 16
2  page line  2  50K
   account             0 ""
   name_and_address 1  3 "\22A\22"
3  page line  4  refused with 1
   body                0 ""
4  page line  5  refused with 6, body line 1
   body                5 "2/A\0aB"
5  page line  7  refused with 15
6  page line  8  50A
   party_identifier    3 "C/1"
   bic                 8 "DEUTDEFF"
7  page line 10  50H
   account             2 "\01\5c"
   name_and_address 1  1 "A"
8  page line 12  50F
   party_identifier    1 "X"
   name_and_address 1  1 "A"
   name_and_address 2  0 ""
   digits              2 "77"
end at byte 85
"#;
    let (status, out, err) = told(&["read"], page);
    assert_eq!((status, out.as_str()), (1, listing), "{err}");
    assert!(err.ends_with("yewdome: standard input: 4 records, 4 refused\n"), "{err}");
    assert_eq!(told(&["check"], page), (1, String::new(), err));
}

#[test]
fn of_a_good_page_only_the_counts_are_said() {
    let filed = "yewdome: standard input: 2 filed, 0 refused\n".to_string();
    let read = "yewdome: standard input: 2 records, 0 refused\n".to_string();
    assert_eq!(told(&["file"], GOOD), (0, text(GOOD).to_string(), filed));
    assert_eq!(told(&["check"], GOOD), (0, String::new(), read.clone()));
    let (status, out, err) = told(&["read"], GOOD);
    assert_eq!((status, err), (0, read));
    assert!(
        out.starts_with("1  page line 1  50C\n   bic                 8 \"BNPAFRPP\"\n"),
        "{out}"
    );
    assert!(out.ends_with("\nend at byte 26\n"), "{out}");
    assert_eq!(told(&["file"], b"-").1, "-\n");
}

/// What is said of a page that is checked, with the name and the counts taken off.
fn said(page: &[u8]) -> (i32, Vec<String>) {
    let (status, out, err) = told(&["check"], page);
    assert_eq!(out, "");
    let lines = err.lines().map(|line| line.strip_prefix("yewdome: standard input: "));
    let mut lines: Vec<String> = lines.map(|line| line.expect("a name").to_string()).collect();
    lines.pop();
    (status, lines)
}

#[test]
fn messages_have_the_page_line_and_the_body_line() {
    let refused = said(b":50K:A\n:50K:/1\nB\nC~\n:50A:/1\nX\n:50K:/1\n-\n");
    let due = [
        "page line 2, body line 3: illegal byte outside a BIC (refusal 3)",
        "page line 5, body line 2: BIC of a wrong length (refusal 9)",
        "page line 7: no name, or more than four (refusal 7)",
    ];
    assert_eq!(refused, (1, due.map(str::to_string).to_vec()));
}

#[test]
fn a_page_without_an_end_line_is_told() {
    let due = |line| {
        let message = "read at the page's length (refusal 17): there is no end line";
        (1, vec![format!("page line {line}: {message}")])
    };
    assert_eq!(said(b":50C:BNPAFRPP\n:50K:A\nB\n"), due(4));
    assert_eq!(said(b":50C:BNPAFRPP\n:50K:A\nB"), due(3));
    let filed = told(&["file"], b":50C:BNPAFRPP");
    assert_eq!((filed.0, filed.1.as_bytes()), (1, FILED));
    let listed = told(&["read"], b":50C:BNPAFRPP\n").1;
    assert_eq!(listed.lines().last(), Some("2  page line 2  refused with 17"));
}

#[test]
fn bytes_after_the_end_line_are_told() {
    let due = |message: &str| (1, vec![message.to_string()]);
    let many = said(b":50C:BNPAFRPP\n:50K:A\nB\n-\n:50C:BNPAFR\n");
    assert_eq!(many, due("page line 5: 12 bytes after the end line are not read"));
    assert_eq!(said(b"-\n\n"), due("page line 2: 1 byte after the end line is not read"));
    assert_eq!(said(b"-\n"), (0, vec![]));
    let (status, out, err) = told(&["file"], b":50C:BNPAFRPP\n-\n:50L:A\n-\n");
    assert_eq!((status, out.as_bytes()), (1, FILED));
    assert!(err.ends_with("not read\nyewdome: standard input: 1 filed, 0 refused\n"), "{err}");
}

/// What is said of the fields of [`CHANGED`].
const CAUSES: &str = "\
yewdome: standard input: page line 2: 50A filed as other bytes than came: CR before an LF inside the body, lines after the BIC
yewdome: standard input: page line 5: 50K filed as other bytes than came: empty last line
";

#[test]
fn what_is_filed_as_other_bytes_than_came_is_told() {
    let filed = ":50C:BNPAFRPP\n:50A:/12\nBNPAFRPP\n:50K:A\n-\n".to_string();
    let counts = "3 filed, 2 of them as other bytes than came, 0 refused";
    let messages = format!("{CAUSES}yewdome: standard input: {counts}\n");
    assert_eq!(told(&["file"], CHANGED), (0, filed, messages));
    // nothing is filed where a page is only read
    for task in ["read", "check"] {
        let (status, _, err) = told(&[task], CHANGED);
        assert_eq!((status, err.as_str()), (0, "yewdome: standard input: 3 records, 0 refused\n"));
    }
}

/// Looks that with `--exact` nothing is written of a page, and why. What is said before that is what
/// is said without it.
fn withheld(page: &[u8], why: &str) {
    let (status, out, err) = told(&["file", "--exact"], page);
    assert_eq!((status, out.as_str()), (1, ""), "{err}");
    let said = told(&["file"], page).2;
    let (before, _counts) = said.trim_end().rsplit_once('\n').expect("more than the counts");
    let last = format!("yewdome: standard input: nothing written: {why} (--exact)");
    assert_eq!(err, format!("{before}\n{last}\n"));
}

#[test]
fn with_exact_nothing_is_written_unless_every_field_is_filed_as_it_came() {
    withheld(CHANGED, "2 fields would be filed as other bytes than came");
    withheld(b":50K:A\r\n-\n", "1 field would be filed as other bytes than came");
    let both = "1 field would be filed as other bytes than came, 2 fields are refused";
    withheld(b":50K:A\r\n:50K:~\n:59F:2/A\n-\n", both);
    // a tag that is unknown, a record that a page cannot carry, and one for which there is no space
    withheld(b":50C:BNPAFRPP\n:52A:X\n-\n", "1 field is refused");
    withheld(b":50K:A\n\n\n-\n", "1 field is refused");
    withheld(&[&longest()[..LONGEST_PAGE - 8], b":50:ABC\n"].concat(), "1 field is refused");
    // neither the line before the first field nor the end line that is missing is a field
    withheld(b"junk\n:52A:X\n", "1 field is refused");
    let (status, out, _) = run(command(&["file", "--exact"]).stdout(full()), CHANGED);
    assert_eq!((status, out.as_str()), (1, ""), "no byte is written");
}

#[test]
fn with_exact_a_page_of_fields_that_are_filed_as_they_came_is_filed() {
    for (page, filed, status) in [
        (GOOD, GOOD, 0),
        (b"-}\r\n", b"-\n", 0),
        (MIXED, FILED, 1),
        (b"junk\r\n:50C:BNPAFRPP\n-}", FILED, 1),
        (b":50C:BNPAFRPP", FILED, 1),
        (b":50C:BNPAFRPP\n-\n:50L:A\r\n-\n", FILED, 1),
    ] {
        let exact = told(&["file", "--exact"], page);
        assert_eq!((exact.0, exact.1.as_bytes()), (status, filed), "{}", exact.2);
        assert_eq!(exact, told(&["file"], page));
    }
    let page = longest();
    assert!(told(&["file", "--exact"], &page) == told(&["file"], &page));
    assert_eq!(told(&["file", "--exact"], b"").0, 2);
    assert_eq!(told(&["file", "--exact"], &[b'\n'; LONGEST_PAGE + 1]).0, 2);
}

#[test]
fn what_is_no_page_is_2() {
    let room = Room::new();
    room.put("empty", b"");
    room.put("long", &[b'\n'; 40_000]);
    for (name, message) in [
        (".", "cannot be read: Is a directory (os error 21)"),
        ("none", "cannot be read: No such file or directory (os error 2)"),
        ("empty", "there is no page: it is empty"),
        ("long", "page too long (refusal 18): it has over 32768 bytes"),
    ] {
        let due = (2, String::new(), format!("yewdome: {name}: {message}\n"));
        for task in ["file", "read", "check"] {
            assert_eq!(room.told(&[task, name], b""), due);
        }
    }
    let empty = "yewdome: standard input: there is no page: it is empty\n".to_string();
    assert_eq!(told(&["read"], b""), (2, String::new(), empty));
    assert_eq!(told(&["file"], &[b'\n'; LONGEST_PAGE + 1]).0, 2);
}

#[test]
fn a_page_may_have_as_many_bytes_as_a_page_can() {
    let page = longest();
    assert_eq!(told(&["check"], &page).0, 0);
    assert_eq!(told(&["read"], &page).0, 0);
    let (status, out, err) = told(&["file"], &page);
    assert!((status, out.as_bytes()) == (0, &page), "{err}");
    assert_eq!(err, "yewdome: standard input: 2341 filed, 0 refused\n");
    let open = [&page[..LONGEST_PAGE - 8], b":50:ABC\n"].concat();
    let (status, _, err) = told(&["file"], &open);
    let due = "yewdome: standard input: page line 2341: too little space (refusal 24)\n";
    assert!(status == 1 && err.starts_with(due), "{err}");
}

#[test]
fn bytes_of_every_value_are_refused() {
    let page: Vec<u8> = (0..=255).collect();
    let (status, out, err) = told(&["file"], &page);
    assert_eq!((status, out.as_str()), (1, "-\n"));
    assert!(err.ends_with("standard input: 0 filed, 2 refused\n"), "{err}");
    let (status, out, _) = told(&["read"], &[b":50K:", &page[..]].concat());
    assert_eq!(status, 1);
    assert!(out.contains(r#" 256 "\00\01"#) && out.contains(r"\7f\80"), "{out}");
}

#[test]
fn an_output_that_is_not_written_is_2() {
    let message =
        "yewdome: standard output: not written whole: No space left on device (os error 28)\n";
    for task in ["file", "read", "--help", "--version"] {
        let (status, _, err) = run(command(&[task]).stdout(full()), GOOD);
        assert_eq!((status, err.as_str()), (2, message), "{task}");
        let unread = File::open("/dev/null").expect("there is a null device");
        assert_eq!(run(command(&[task]).stdout(unread), GOOD).0, 2, "{task}");
    }
    let (status, _, err) = run(command(&["file"]).stdout(full()), MIXED);
    assert!(status == 2 && err.contains("(refusal 16)") && !err.contains(" filed"), "{err}");
    assert_eq!(run(command(&["check"]).stdout(full()), GOOD).0, 0);
    let mut child = command(&["read"]).spawn().expect("the command starts");
    drop(child.stdout.take());
    let (status, _, err) = ended(child, GOOD);
    assert!(status == 2 && err.contains("Broken pipe"), "{err}");
}

#[test]
fn a_standard_error_that_takes_nothing_changes_no_status() {
    for (arguments, page, status) in [
        (&["file"][..], GOOD, 0),
        (&["read"], MIXED, 1),
        (&["check"], MIXED, 1),
        (&["file", "--exact"], CHANGED, 1),
        (&["file"], b"", 2),
        (&["wrong"], b"", 2),
    ] {
        assert_eq!(run(command(arguments).stderr(full()), page).0, status, "{arguments:?}");
    }
    assert_eq!(run(command(&["file"]).stderr(full()), MIXED).1.as_bytes(), FILED);
    assert_eq!(run(command(&["file"]).stderr(full()).stdout(full()), MIXED).0, 2);
}

#[test]
fn a_wrong_usage_is_2() {
    for (arguments, message) in [
        (&[][..], "no command is given"),
        (&["copy"], "no such command: copy"),
        (&["--", "file"], "no such command: --"),
        (&["file", "-o"], "-o is given no FILE"),
        (&["file", "-o", "a", "-o", "b"], "-o is given twice"),
        (&["file", "--exact", "--exact"], "--exact is given twice"),
        (&["file", "--exact=1"], "no such option: --exact=1"),
        (&["read", "--exact"], "no such option: --exact"),
        (&["check", "--exact"], "no such option: --exact"),
        (&["file", "a", "b"], "more than one FILE is given"),
        (&["read", "-", "-"], "more than one FILE is given"),
        (&["read", "-o", "a"], "no such option: -o"),
        (&["check", "--quiet"], "no such option: --quiet"),
        (&["file", "-oa"], "no such option: -oa"),
        (&["a\nb"], r#"no such command: "a\nb""#),
    ] {
        let (status, out, err) = told(arguments, GOOD);
        assert_eq!((status, out.as_str()), (2, ""));
        let due = format!("yewdome: {message}\nusage: yewdome file [--exact] [-o FILE] [FILE]\n");
        assert!(err.starts_with(&due) && err.ends_with("yewdome --version\n"), "{err}");
    }
}

#[test]
fn help_and_version_are_printed() {
    let version = (0, format!("yewdome {}\n", env!("CARGO_PKG_VERSION")), String::new());
    assert_eq!(told(&["--version"], b""), version);
    let (status, help, err) = told(&["--help"], b"");
    assert_eq!((status, err.as_str()), (0, ""));
    assert!(help.starts_with("usage: yewdome file [--exact] [-o FILE] [FILE]\n"), "{help}");
    for task in ["file", "read", "check"] {
        assert_eq!(told(&[task, "--help"], b"").1, help);
        assert_eq!(told(&[task, "page", "--version"], b""), version);
    }
}

#[test]
fn a_file_may_have_any_name() {
    let room = Room::new();
    let names: [(&[u8], &str); 8] = [
        (b"page", "page"),
        (b"-o", "-o"),
        (b"--help", "--help"),
        ("m\u{fc}ller".as_bytes(), "m\u{fc}ller"),
        (b"a b", r#""a b""#),
        (b"a\nyewdome: page", r#""a\nyewdome: page""#),
        (b"a\"b", r#""a\"b""#),
        (b"a\xff", r#""a\xFF""#),
    ];
    for (name, shown) in names {
        let name = OsStr::from_bytes(name);
        room.put(name, GOOD);
        let due = format!("yewdome: {shown}: 2 records, 0 refused\n");
        let check = [OsStr::new("check"), OsStr::new("--"), name];
        assert_eq!(room.told(&check, b""), (0, String::new(), due));
    }
    assert_eq!(told(&["check", ""], GOOD).0, 2);
}

/// The tags and texts of the records in a listing.
fn records(listing: &str) -> Vec<Vec<&str>> {
    let mut records: Vec<Vec<&str>> = Vec::new();
    for line in listing.lines().map(str::trim_start) {
        if line.starts_with(|first: char| first.is_ascii_digit()) {
            records.push(vec![line.rsplit("  ").next().unwrap_or(line)]);
        } else if let Some(record) = records.last_mut().filter(|_| !line.starts_with("end at ")) {
            record.push(line);
        }
    }
    records.retain(|record| !record[0].starts_with("refused"));
    records
}

#[test]
fn what_is_filed_is_listed_as_before() {
    let page = fs::read(example("stdin")).expect("the example is there");
    let before = told(&["read"], &page).1;
    let filed = told(&["file"], &page).1;
    let (status, after, _) = told(&["read"], filed.as_bytes());
    assert_eq!(status, 0);
    let mut due = records(&before);
    due.retain(|record| !record.contains(&r#"name_and_address 2  0 """#));
    assert_eq!((records(&after).len(), records(&after)), (11, due));
}

#[test]
fn no_two_records_are_listed_alike() {
    let fields: [&[u8]; 20] = [
        b":50K:A",
        b":50K:/\nA",
        b":50K:/A\nA",
        b":59:A",
        b":59:/\nA",
        b":50:A",
        b":50:AB\nC",
        b":50:A\nBC",
        b":50:A\nB\nC",
        b":50:A\" 1 \"B",
        b":50:A\nB",
        b":50:A ",
        b":50H:/\x01\nA",
        b":50H:/\x02\nA",
        b":50H:/\\01\nA",
        b":50H:/\\\x01\nA",
        b":50F:X\n1/A\n2/B",
        b":50F:X\n2/A\n1/B",
        b":50F:X\n1/A\n1/B",
        b":50F:X\n1/A",
    ];
    let page = [&fields.join(&b'\n')[..], b"\n-\n"].concat();
    let (status, listing, err) = told(&["read"], &page);
    assert_eq!(status, 0, "{err}");
    assert_eq!(records(&listing).len(), fields.len());
    let different: HashSet<Vec<&str>> = records(&listing).into_iter().collect();
    assert_eq!(different.len(), fields.len(), "{listing}");
}
