//! README.md: its program in C compiles, links and prints what the page says; the sample rig's output is that of the gate.

use pages::block;
use std::fs;
use std::path::{Path, PathBuf};
use std::process::{Command, Stdio};

fn root() -> PathBuf {
    Path::new(env!("CARGO_MANIFEST_DIR")).join("../..")
}

fn readme() -> String {
    fs::read_to_string(root().join("README.md")).expect("README.md")
}

/// Returns a block's lines, with a newline after each.
fn text(page: &str, word: &str) -> String {
    let lines = block(page, word).unwrap();
    lines.iter().map(|(_, line)| format!("{line}\n")).collect()
}

/// Returns what the page says that its program prints.
fn said(page: &str) -> String {
    let after = page
        .split_once("It prints `")
        .expect("the sentence 'It prints'")
        .1;
    format!("{}\n", after.split_once('`').expect("a closing quote").0)
}

/// Compiles the page's program and links it with the static library.
fn compiled(page: &str) -> PathBuf {
    let folder = Path::new(env!("CARGO_TARGET_TMPDIR"));
    let source = folder.join("readme.c");
    let program = folder.join("readme");
    fs::write(&source, text(page, "c")).unwrap();
    let ran = Command::new("cc")
        .args([
            "-std=c99",
            "-Wall",
            "-Wextra",
            "-Wpedantic",
            "-Werror",
            "-I",
        ])
        .arg(root().join("include"))
        .arg(&source)
        .arg(root().join("crates/exports/out/libexports.a"))
        .arg("-o")
        .arg(&program)
        .output()
        .expect("the C compiler that links Rust programs too");
    assert!(
        ran.status.success(),
        "{}",
        String::from_utf8_lossy(&ran.stderr)
    );
    program
}

#[test]
fn the_program_in_c_prints_what_the_page_says() {
    let page = readme();
    let image = fs::File::open(root().join("rigs/bench_sheet/rig.cfg")).expect("the sample rig");
    let ran = Command::new(compiled(&page))
        .stdin(Stdio::from(image))
        .output()
        .expect("a program that starts");
    assert_eq!(String::from_utf8_lossy(&ran.stdout), said(&page));
}

#[test]
fn the_sample_rig_prints_what_the_page_says() {
    let expected = fs::read_to_string(root().join("rigs/bench_sheet/expected")).expect("expected");
    assert!(readme().contains(&format!("```\n{expected}```\n")));
}
