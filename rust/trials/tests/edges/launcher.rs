//! The launcher `./replay RIG_FOLDER`: the program's answers and words, and its status as exit status. `rt` is a stand-in that
//! finds everything proved; the gate's own replays have the real one.

use std::fs;
use std::os::unix::fs::{symlink, PermissionsExt};
use std::path::Path;
use std::process::Command;

use super::runs::{finish, root};
use super::*;

/// A program that is a script.
fn put_script(path: &Path, script: &str) {
    fs::write(path, format!("#!/bin/sh\n{script}\n")).expect("a file");
    fs::set_permissions(path, fs::Permissions::from_mode(0o755)).expect("a program");
}

/// A repository whose program is another: all else is this one's.
fn root_with(program: &str) -> Folder {
    let folder = Folder::new();
    let link_all = |from: &Path, to: &Path, but: &str| {
        for entry in fs::read_dir(from).expect("a folder") {
            let name = entry.expect("an entry").file_name();
            if name != but && name != "replay" {
                symlink(from.join(&name), to.join(&name)).expect("a link");
            }
        }
    };
    link_all(&root(), &folder.0, "crates");
    let out = folder.0.join("crates/replay/out");
    fs::create_dir_all(&out).expect("a folder");
    put_script(&out.join("replay"), program);
    fs::copy(root().join("replay"), folder.0.join("replay")).expect("the launcher");
    folder
}

/// A launcher's answers, its words and its exit status; `build` is that of `rt run`.
fn launch(root: &Path, words: &[&Path], build: u8, out: Out) -> (Vec<u8>, String, i32) {
    let tools = Folder::new();
    let path = std::env::var("PATH").unwrap_or_default();
    put_script(
        &tools.0.join("rt"),
        &format!("[ \"$1\" = run ] && exit {build}; PATH=$EDGE_PATH exec rt \"$@\""),
    );
    let (redirected, stdout) = out.given();
    let ran = finish(
        Command::new("sh")
            .arg("-c")
            .arg(format!("exec \"$0\" \"$@\" {redirected}"))
            .arg(root.join("replay"))
            .args(words)
            .env("PATH", format!("{}:{path}", tools.0.display()))
            .env("EDGE_PATH", path),
        stdout,
    );
    let status = ran.status.code().expect("an exit status");
    (
        ran.stdout,
        String::from_utf8_lossy(&ran.stderr).into(),
        status,
    )
}

fn launches(folder: &Folder, out: Out, text: &[u8], said: &str, status: i32) {
    let (answers, words, code) = launch(&root(), &[&folder.0], 0, out);
    let about = format!("the launcher with status {status}");
    assert_eq!((words.as_str(), code), (said, status), "{about}");
    same_text(&answers, text, &about);
}

#[test]
fn each_status_of_the_program() {
    for (folder, status) in outcomes() {
        let text = by_rust(&folder).0;
        launches(&folder, Out::Taken, &text, "", status.into());
        for (out, why) in OUTPUTS {
            launches(&folder, out, b"", &unwritten(why), 7);
        }
    }
    let folder = small().folder();
    folder.remove(LOG);
    launches(&folder, Out::Taken, HEADER.as_bytes(), &unopened(LOG), 5);
    fs::create_dir(folder.0.join(LOG)).expect("a folder");
    let said = unread(LOG, "Is a directory");
    launches(&folder, Out::Taken, HEADER.as_bytes(), &said, 6);
}

/// A text of several buffers, through a pipe that nobody reads to its end.
#[test]
fn a_reader_that_goes() {
    let folder = large().folder();
    let script = "{ \"$0\" \"$1\"; echo $? > \"$1/exit\"; } | head -n 1";
    let tools = Folder::new();
    put_script(&tools.0.join("rt"), "exit 0");
    let path = std::env::var("PATH").unwrap_or_default();
    let ran = Command::new("sh")
        .args(["-c", script])
        .arg(root().join("replay"))
        .arg(&folder.0)
        .env("PATH", format!("{}:{path}", tools.0.display()))
        .output()
        .expect("a shell");
    assert_eq!(String::from_utf8_lossy(&ran.stdout), HEADER);
    assert_eq!(String::from_utf8_lossy(&ran.stderr), unwritten(EPIPE.1));
    assert_eq!(folder.text("exit"), "7\n");
}

#[test]
fn wrong_use_is_2() {
    let folder = small().folder();
    let none = folder.0.join("none");
    let uses: [&[&Path]; 4] = [&[], &[&folder.0, &folder.0], &[&none], &[Path::new("")]];
    for words in uses {
        let (text, said, status) = launch(&root(), words, 0, Out::Taken);
        assert_eq!((text, status), (vec![], 2), "{words:?}");
        assert!(said.starts_with("replay: "), "{said}");
    }
}

#[test]
fn a_program_that_isnt_built_is_1() {
    let folder = small().folder();
    let (text, said, status) = launch(&root(), &[&folder.0], 1, Out::Taken);
    assert_eq!((text, status), (vec![], 1));
    assert!(said.contains("replay: the program was not built"), "{said}");
}

/// A program that ends without its status, whatever it ends with: by itself, with a status of its own, or by a signal.
#[test]
fn a_program_without_a_word_is_1() {
    let folder = small().folder();
    for program in [
        "exit 0",
        "exit 3",
        "kill -9 $$",
        "echo >&3; exit 0",
        "echo x >&3",
    ] {
        let root = root_with(program);
        let (text, said, status) = launch(&root.0, &[&folder.0], 0, Out::Taken);
        assert_eq!((text, status), (vec![], 1), "{program}: {said}");
        assert!(said.contains("replay: "), "{program}: {said}");
    }
    // Its status counts where there is one.
    let root = root_with("echo answer; echo 4 >&3");
    let (text, _, status) = launch(&root.0, &[&folder.0], 0, Out::Taken);
    assert_eq!((text, status), (b"answer\n".to_vec(), 4));
}
