//! Runs of the proved program, with calls that are changed by a library that is loaded before it.

use std::fs;
use std::io;
use std::path::{Path, PathBuf};
use std::process::{Command, Output, Stdio};
use std::sync::OnceLock;

use super::words::{EBADF, ENOSPC, EPIPE};
use super::Folder;

/// The repository's folder.
pub fn root() -> PathBuf {
    let root = Path::new(env!("CARGO_MANIFEST_DIR")).join("../..");
    fs::canonicalize(root).expect("the repository's folder")
}

fn program() -> PathBuf {
    let program = root().join("crates/replay/out/replay");
    assert!(
        program.is_file(),
        "crates/replay/out/replay is missing: `rt run` in crates/replay builds it"
    );
    program
}

/// The library that changes calls, compiled once.
fn shim() -> &'static Path {
    static SHIM: OnceLock<PathBuf> = OnceLock::new();
    SHIM.get_or_init(|| {
        let source = Path::new(env!("CARGO_MANIFEST_DIR")).join("tests/edges/shim.c");
        let shim = Path::new(env!("CARGO_TARGET_TMPDIR")).join("shim.so");
        let compiled = Command::new("cc")
            .args(["-shared", "-fPIC", "-O1", "-Wall", "-Wextra", "-Werror"])
            .arg(&source)
            .arg("-o")
            .arg(&shim)
            .output()
            .expect("the C compiler that links Rust programs too");
        let said = String::from_utf8_lossy(&compiled.stderr);
        assert!(compiled.status.success(), "{said}");
        shim
    })
}

/// What is done to the reads of a file, or to the writes of the answers. Calls are counted from 1.
#[derive(Clone, Copy)]
pub enum Does {
    /// A call moves so many octets at most.
    Most(usize),
    /// The first call is interrupted, and every so many calls after it.
    Every(u32),
    /// One call is interrupted.
    Interrupt(u32),
    /// One call fails with an error; with 0 it moves nothing.
    Fail(u32, i32),
}

/// The variables by which the library knows it.
fn settings(side: &str, does: &[Does]) -> Vec<(String, String)> {
    let mut settings = vec![];
    let mut set = |name: &str, value: String| settings.push((format!("EDGE_{side}_{name}"), value));
    for does in does {
        match *does {
            Does::Most(octets) => set("MOST", octets.to_string()),
            Does::Every(calls) => set("EVERY", calls.to_string()),
            Does::Interrupt(call) => set("INTERRUPT", call.to_string()),
            Does::Fail(call, error) => {
                set("FAIL", call.to_string());
                set("ERRNO", error.to_string());
            }
        }
    }
    settings
}

/// Where the answers go.
#[derive(Clone, Copy, PartialEq, Eq)]
pub enum Out {
    /// To the test.
    Taken,
    /// To a device that is full.
    Full,
    /// To a descriptor that is closed.
    Closed,
    /// To a pipe whose reader has gone.
    Gone,
}

/// Outputs that take nothing, with the errors of writes to them.
pub const OUTPUTS: [(Out, &str); 3] = [
    (Out::Full, ENOSPC.1),
    (Out::Closed, EBADF.1),
    (Out::Gone, EPIPE.1),
];

impl Out {
    /// What a shell says of it, and the output that the shell gets.
    pub fn given(self) -> (&'static str, Stdio) {
        match self {
            Out::Taken => ("", Stdio::piped()),
            Out::Full => (">/dev/full", Stdio::null()),
            Out::Closed => (">&-", Stdio::null()),
            Out::Gone => {
                let (reader, writer) = io::pipe().expect("a pipe");
                drop(reader);
                ("", writer.into())
            }
        }
    }
}

/// What came of a run.
#[derive(Debug)]
pub struct Ran {
    pub text: Vec<u8>,
    pub said: String,
    /// What was written to descriptor 3.
    pub status: String,
    /// A line of the call that failed or was interrupted, if there was one.
    report: String,
}

impl Ran {
    /// The octets read (READ) or written (WRITE) before the call that failed or was interrupted; none without such a call.
    pub fn moved(&self, side: &str) -> Option<usize> {
        let octets = self.report.strip_prefix(side)?.trim();
        Some(octets.parse().expect("a number of octets"))
    }

    /// Fails where something else came of it.
    pub fn is(&self, text: &[u8], said: &str, status: u8, about: &str) {
        assert_eq!(self.said, said, "{about}: standard error");
        assert_eq!(self.status, format!("{status}\n"), "{about}: status");
        same_text(&self.text, text, about);
    }
}

/// Fails where texts, which are too long to be shown whole, differ.
pub fn same_text(text: &[u8], expected: &[u8], about: &str) {
    if text == expected {
        return;
    }
    let first = text.iter().zip(expected).position(|(a, b)| a != b);
    let first = first.unwrap_or(text.len().min(expected.len()));
    let around = |octets: &[u8]| {
        let part = &octets[first.saturating_sub(40)..octets.len().min(first + 40)];
        String::from_utf8_lossy(part).into_owned()
    };
    panic!(
        "{about}: {} octets of text, {} expected; the first difference is at {first}: {:?}, {:?} expected",
        text.len(),
        expected.len(),
        around(text),
        around(expected)
    );
}

/// Runs the program in a folder with these words, and with SIGPIPE ignored, as its launcher has it.
pub fn run_with(
    folder: &Folder,
    words: &str,
    (file, reads): (&str, &[Does]),
    writes: &[Does],
    out: Out,
) -> Ran {
    let (redirected, stdout) = out.given();
    let script = format!(
        "trap '' PIPE; export LD_PRELOAD=\"$1\"; exec \"$0\" {words} 3>status {redirected}"
    );
    let report = folder.0.join("report");
    let _ = fs::remove_file(&report);
    let ran = finish(
        Command::new("sh")
            .arg("-c")
            .arg(script)
            .arg(program())
            .arg(shim())
            .current_dir(&folder.0)
            .env("EDGE_REPORT", report)
            .env("EDGE_READ_FILE", file)
            .envs(settings("READ", reads))
            .envs(settings("WRITE", writes)),
        stdout,
    );
    assert!(ran.status.success(), "{}", ran.status);
    Ran {
        text: ran.stdout,
        said: String::from_utf8_lossy(&ran.stderr).into(),
        status: folder.text("status"),
        report: folder.text("report"),
    }
}

/// Runs the program with one word, which asks for its status.
pub fn run(folder: &Folder, reads: (&str, &[Does]), writes: &[Does], out: Out) -> Ran {
    run_with(folder, "word", reads, writes, out)
}

/// Runs the program with no call changed.
pub fn run_plain(folder: &Folder) -> Ran {
    run(folder, ("", &[]), &[], Out::Taken)
}

/// Runs a shell to its end, with nothing to read and this standard output; its standard error is kept.
pub fn finish(command: &mut Command, stdout: Stdio) -> Output {
    command
        .stdin(Stdio::null())
        .stdout(stdout)
        .stderr(Stdio::piped())
        .spawn()
        .and_then(|child| child.wait_with_output())
        .expect("a shell")
}
