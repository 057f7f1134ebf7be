//! The command `yewdome file -o FILE`: the file is the new page, whole, or as it was.

mod common;

use common::{command, ended, full, run, Room, Told, CHANGED, FILED, GOOD, MIXED};
use std::ffi::{OsStr, OsString};
use std::fs::{self, File, Permissions};
use std::os::unix::ffi::OsStrExt;
use std::os::unix::fs::{symlink, FileTypeExt, PermissionsExt};
use std::os::unix::net::UnixListener;
use std::path::Path;

const OLD: &[u8] = b"the old page";

/// Files a page from standard input to a file.
fn to_file(room: &Room, name: impl AsRef<OsStr>, page: &[u8]) -> Told {
    room.told(&[OsStr::new("file"), OsStr::new("-o"), name.as_ref()], page)
}

/// Looks that filing to a file says why that is not written, and makes nothing.
fn not_written(room: &Room, name: &str, why: &str) {
    let before = names(room);
    let due = (2, String::new(), format!("yewdome: {name}: not written: {why}\n"));
    assert_eq!(to_file(room, name, GOOD), due);
    assert_eq!(names(room), before);
}

/// What is in the folder, in the order of the names.
fn names(room: &Room) -> Vec<OsString> {
    let entries = fs::read_dir(room.path("")).expect("the folder is there");
    let mut names: Vec<_> = entries.map(|entry| entry.expect("it is listed").file_name()).collect();
    names.sort();
    names
}

fn bytes(room: &Room, name: impl AsRef<Path>) -> Vec<u8> {
    fs::read(room.path(name)).expect("the file is there")
}

fn mode(room: &Room, name: &str) -> u32 {
    fs::metadata(room.path(name)).expect("the file is there").permissions().mode() & 0o7777
}

fn link(room: &Room, to: &str, name: &str) {
    symlink(to, room.path(name)).expect("a link is made");
}

#[test]
fn the_new_page_is_in_the_file() {
    let room = Room::new();
    let messages = "yewdome: standard input: 2 filed, 0 refused\n".to_string();
    assert_eq!(to_file(&room, "new", GOOD), (0, String::new(), messages));
    assert_eq!(bytes(&room, "new"), GOOD);
    assert_eq!(to_file(&room, room.path("new"), MIXED).0, 1);
    assert_eq!(bytes(&room, "new"), FILED);
    assert_eq!(names(&room), ["new"]);
}

#[test]
fn the_file_may_have_any_name() {
    let room = Room::new();
    for name in [&b"a\xff"[..], b"a\nb", b"--", b"-o", &[b'a'; 255]] {
        let name = OsStr::from_bytes(name);
        assert_eq!(to_file(&room, name, GOOD).0, 0, "{name:?}");
        assert_eq!(bytes(&room, name), GOOD);
    }
    assert_eq!(names(&room).len(), 5);
}

#[test]
fn permissions_are_kept() {
    let room = Room::new();
    for due in [0o640, 0o600, 0o666, 0o755] {
        room.put("old", OLD);
        fs::set_permissions(room.path("old"), Permissions::from_mode(due)).expect("it is ours");
        assert_eq!(to_file(&room, "old", GOOD).0, 0);
        assert_eq!((mode(&room, "old"), bytes(&room, "old")), (due, GOOD.to_vec()));
    }
    room.put("usual", b"");
    assert_eq!(to_file(&room, "new", GOOD).0, 0);
    assert_eq!(mode(&room, "new"), mode(&room, "usual"));
}

/// Root may write it all the same.
#[test]
fn a_file_that_may_not_be_written_is_left() {
    let room = Room::new();
    room.put("old", OLD);
    fs::set_permissions(room.path("old"), Permissions::from_mode(0o444)).expect("it is ours");
    let due = match File::options().write(true).open(room.path("old")) {
        Ok(_) => (0, GOOD.to_vec()),
        Err(_) => (2, OLD.to_vec()),
    };
    assert_eq!((to_file(&room, "old", GOOD).0, bytes(&room, "old")), due);
    assert_eq!((mode(&room, "old"), names(&room).len()), (0o444, 1));
}

#[test]
fn a_link_is_kept() {
    let room = Room::new();
    fs::create_dir(room.path("folder")).expect("a folder is made");
    room.put("folder/old", OLD);
    link(&room, "folder/old", "link");
    assert_eq!(to_file(&room, "link", GOOD).0, 0);
    assert_eq!(fs::read_link(room.path("link")).expect("it is a link"), Path::new("folder/old"));
    assert_eq!(bytes(&room, "folder/old"), GOOD);
    assert_eq!(fs::read_dir(room.path("folder")).expect("it is there").count(), 1);
    link(&room, "none", "nowhere");
    not_written(&room, "nowhere", "No such file or directory (os error 2)");
}

#[test]
fn what_is_no_regular_file_is_left() {
    let room = Room::new();
    let _listener = UnixListener::bind(room.path("socket")).expect("a socket is made");
    link(&room, "/dev/null", "null");
    for name in [".", "socket", "/dev/full", "/dev/null", "null"] {
        not_written(&room, name, "it is not a regular file");
    }
    for device in ["/dev/full", "/dev/null"] {
        assert!(fs::metadata(device).expect("it is there").file_type().is_char_device());
    }
}

#[test]
fn a_file_that_cannot_be_made_leaves_nothing() {
    let room = Room::new();
    room.put("old", OLD);
    not_written(&room, "none/new", "No such file or directory (os error 2)");
    not_written(&room, "new/", "Not a directory (os error 20)");
    not_written(&room, "old/new", "Not a directory (os error 20)");
    assert_eq!(to_file(&room, "", GOOD).2, "yewdome: \"\": not written: it has no file name\n");
    assert_eq!(bytes(&room, "old"), OLD);
}

#[test]
fn the_page_that_is_read_is_not_overwritten() {
    let room = Room::new();
    room.put("page", MIXED);
    link(&room, "page", "link");
    fs::hard_link(room.path("page"), room.path("hard")).expect("a link is made");
    let why = "it is the page that is read, and what is refused would be lost";
    for name in ["page", "link", "hard"] {
        let (status, out, err) = room.told(&["file", "page", "-o", name], b"");
        assert_eq!((status, out.as_str()), (2, ""));
        assert!(err.ends_with(&format!("\nyewdome: {name}: not written: {why}\n")), "{err}");
        let input = File::open(room.path("page")).expect("it is there");
        let mut file = command(&["file", "-o", name]);
        assert_eq!(run(file.current_dir(room.path("")).stdin(input), b"").0, 2);
    }
    assert_eq!((bytes(&room, "page"), names(&room).len()), (MIXED.to_vec(), 3));
}

#[test]
fn where_no_page_is_read_the_file_is_left() {
    let room = Room::new();
    room.put("old", OLD);
    for page in [&b""[..], &[b'\n'; 40_000]] {
        assert_eq!(to_file(&room, "old", page).0, 2);
        assert_eq!(to_file(&room, "new", page).0, 2);
    }
    assert_eq!((bytes(&room, "old"), names(&room).len()), (OLD.to_vec(), 1));
}

#[test]
fn with_exact_the_file_is_left_unless_every_field_is_filed_as_it_came() {
    let room = Room::new();
    room.put("old", OLD);
    for page in [CHANGED, b":50K:A\r\n-\n", b":50C:BNPAFRPP\n:52A:X\n-\n"] {
        for arguments in
            [["--exact", "-o", "old"], ["-o", "old", "--exact"], ["--exact", "-o", "new"]]
        {
            let (status, out, err) = room.told(&[&["file"][..], &arguments].concat(), page);
            assert_eq!((status, out.as_str()), (1, ""));
            assert!(err.ends_with(" (--exact)\n"), "{err}");
        }
    }
    assert_eq!((bytes(&room, "old"), names(&room).len()), (OLD.to_vec(), 1));
    let kept = |page| room.told(&["file", "--exact", "-o", "old"], page).0;
    assert_eq!((kept(GOOD), bytes(&room, "old")), (0, GOOD.to_vec()));
    assert_eq!((kept(MIXED), bytes(&room, "old")), (1, FILED.to_vec()));
    assert_eq!(names(&room), ["old"]);
}

#[test]
fn no_other_stream_matters() {
    let room = Room::new();
    let mut file = command(&["file", "-o", "new"]);
    file.current_dir(room.path("")).stdout(full()).stderr(full());
    assert_eq!(run(&mut file, MIXED).0, 1);
    assert_eq!(bytes(&room, "new"), FILED);
}

#[test]
fn what_a_killed_process_left_is_no_hindrance() {
    let room = Room::new();
    let mut file = command(&["file", "-o", "new"]);
    let child = file.current_dir(room.path("")).spawn().expect("the command starts");
    let left = format!(".new.{}.0.tmp", child.id());
    room.put(&left, OLD);
    assert_eq!(ended(child, GOOD).0, 0);
    assert_eq!((bytes(&room, "new"), bytes(&room, &left)), (GOOD.to_vec(), OLD.to_vec()));
    assert_eq!(names(&room), [left.as_str(), "new"]);
}
