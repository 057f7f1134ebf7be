//! Runs of the command `yewdome`.

use std::ffi::OsStr;
use std::fs::{self, File, OpenOptions};
use std::io::Write;
use std::path::{Path, PathBuf};
use std::process::{Child, Command, Stdio};
use std::sync::atomic::{AtomicU32, Ordering};

/// A page of which all is good.
pub const GOOD: &[u8] = b":50C:BNPAFRPP\n:59:/12\nA\n-\n";
/// A page of which a line is refused, and what is filed of it.
pub const MIXED: &[u8] = b"junk\n:50C:BNPAFRPP\n-\n";
pub const FILED: &[u8] = b":50C:BNPAFRPP\n-\n";
/// A page of which the second and the third field are filed as other bytes than came.
pub const CHANGED: &[u8] = b":50C:BNPAFRPP\n:50A:/12\r\nBNPAFRPP\nPARIS\n:50K:A\n\n-\n";

/// A folder of one test.
pub struct Room(PathBuf);

impl Room {
    pub fn new() -> Self {
        static MADE: AtomicU32 = AtomicU32::new(0);
        let made = MADE.fetch_add(1, Ordering::Relaxed);
        let path = std::env::temp_dir().join(format!("yewdome-{}-{made}", std::process::id()));
        fs::create_dir(&path).expect("a folder is made");
        Self(path)
    }

    pub fn path(&self, name: impl AsRef<Path>) -> PathBuf {
        self.0.join(name)
    }

    pub fn put(&self, name: impl AsRef<Path>, bytes: &[u8]) {
        fs::write(self.path(name), bytes).expect("a file is written");
    }

    /// Runs the command in the folder.
    pub fn told<A: AsRef<OsStr>>(&self, arguments: &[A], input: &[u8]) -> Told {
        run(command(arguments).current_dir(&self.0), input)
    }
}

impl Drop for Room {
    fn drop(&mut self) {
        let _ = fs::remove_dir_all(&self.0);
    }
}

/// Status, standard output and standard error.
pub type Told = (i32, String, String);

pub fn command<A: AsRef<OsStr>>(arguments: &[A]) -> Command {
    let mut command = Command::new(env!("CARGO_BIN_EXE_yewdome"));
    command.args(arguments).stdin(Stdio::piped()).stdout(Stdio::piped()).stderr(Stdio::piped());
    command
}

/// What a process says that is given an input, which it need not read.
pub fn ended(mut child: Child, input: &[u8]) -> Told {
    if let Some(mut stdin) = child.stdin.take() {
        let _ = stdin.write_all(input);
    }
    let output = child.wait_with_output().expect("the command ends");
    let text = |bytes| String::from_utf8(bytes).expect("what is written is text");
    (output.status.code().expect("no signal ends it"), text(output.stdout), text(output.stderr))
}

pub fn run(command: &mut Command, input: &[u8]) -> Told {
    ended(command.spawn().expect("the command starts"), input)
}

/// A device that takes no byte.
pub fn full() -> File {
    OpenOptions::new().write(true).open("/dev/full").expect("there is a full device")
}
