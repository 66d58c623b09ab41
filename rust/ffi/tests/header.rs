//! `include/ashthulgo.h`: a program in C and in C++ that calls every function of the static library, the constants beside
//! those of the Rust version, and the functions beside those that the library exports.

use std::collections::BTreeSet;
use std::fs;
use std::path::{Path, PathBuf};
use std::process::{Command, Output};

use policer::rules;

const EXPECTED: &str = "\
check 20 0 0 0 0
check 20 33 0 0 0
load 0 36 3000000 1 1 300000 0
load 26 36 0 0 0 300000 0
reader 20 33 33
reader 0 36 36 3000000 1 1
call 0 8 100000 | 100000 0
call 9 0 199800 | 199800 499
call 0 8 0 | 0 500
call 8 0 0 | 0 500
call 1 0 0 | 0 500
call 0 8 100000 | 100000 18446744073709551615
invalid 10 4
capacity 300000
cost 64000 200000
line octets 330000 84000 220000
top up 199800 499
police 0 0 | 0 500
in place 0 0 | 0 820
police 10 0 | 0 820
read 0 258 77 45
write 0 36 0 ee
write 24 0 0
receive 0 | 100 2 0
receive 30 | 5100 2 2
receive 31 | 5200 2 10
receive 8 | 5200 2 10
receive 4 | 5200 2 10
receive 31 | 5300 256 10
receive 0 | 5400 2 10
interface 0 31
";

/// Compilers' words: the language, and all warnings as errors.
const LANGUAGES: [[&str; 2]; 4] = [
    ["-xc", "-std=c99"],
    ["-xc", "-std=c17"],
    ["-xc++", "-std=c++11"],
    ["-xc++", "-std=c++17"],
];
const STRICT: [&str; 5] = ["-Wall", "-Wextra", "-Wpedantic", "-Wconversion", "-Werror"];

/// The repository's folder.
fn root() -> PathBuf {
    Path::new(env!("CARGO_MANIFEST_DIR")).join("../..")
}

fn header() -> String {
    fs::read_to_string(root().join("include/ashthulgo.h")).expect("the header")
}

/// The compiler's answer to a source in a language, and with more words.
fn compile(language: &[&str; 2], source: &Path, more: &[&str]) -> Output {
    Command::new("cc")
        .args(language)
        .args(STRICT)
        .arg("-I")
        .arg(root().join("include"))
        .arg(source)
        .args(more)
        .output()
        .expect("the C compiler that links Rust programs too")
}

fn succeeded(output: &Output, about: &[&str; 2]) {
    let said = String::from_utf8_lossy(&output.stderr);
    assert!(output.status.success(), "{about:?}: {said}");
}

/// A file of this test's own.
fn own_file(name: &str) -> PathBuf {
    Path::new(env!("CARGO_TARGET_TMPDIR")).join(name)
}

#[test]
fn the_header_and_the_library_fit() {
    let source = Path::new(env!("CARGO_MANIFEST_DIR")).join("tests/header.c");
    let library = root().join("crates/exports/out/libexports.a");
    let library = library.to_str().expect("a plain path");
    for language in &LANGUAGES {
        let program = own_file("header");
        let output = program.to_str().expect("a plain path");
        // What follows is no source.
        let more = ["-xnone", library, "-o", output];
        succeeded(&compile(language, &source, &more), language);
        let ran = Command::new(&program).output().expect("it starts");
        assert!(ran.status.success(), "{language:?}");
        assert_eq!(String::from_utf8_lossy(&ran.stdout), EXPECTED);
    }
}

/// Every constant of the header, and the Rust version's.
fn constants() -> Vec<(&'static str, u64)> {
    vec![
        ("ACCOUNT_ROW_OCTETS", rules::ACCOUNT_ROW as u64),
        ("LINK_ROW_OCTETS", rules::LINK_ROW as u64),
        ("RECEIVE_ROW_OCTETS", policer::RECEIVE_ROW as u64),
        ("RECORD_WORDS", policer::RECORD_WORDS as u64),
        ("ACCOUNTS_MAX", rules::ACCOUNTS_MAX as u64),
        ("LINKS_MAX", rules::LINKS_MAX as u64),
        ("IMAGE_OCTETS_MAX", policer::IMAGE_MAX as u64),
        ("FRAME_OCTETS_MIN", rules::FRAME_MIN as u64),
        ("FRAME_OCTETS_MAX", rules::FRAME_MAX as u64),
        ("PAYLOAD_START", rules::PAYLOAD_START as u64),
        ("K_MAX", rules::K_MAX.into()),
        ("JITTER_MAX", rules::JITTER_MAX.into()),
        ("PORT_MAX", rules::PORT_MAX.into()),
        ("CONSTANT_BITS", rules::CONSTANT_BITS.into()),
        ("MODE_BYTE", rules::MODE_BYTE.into()),
        ("MODE_FRAME", rules::MODE_FRAME.into()),
        ("MODE_BYTE_LINE", rules::MODE_BYTE_LINE.into()),
        ("MODE_FRAME_LINE", rules::MODE_FRAME_LINE.into()),
        ("LINE_OCTETS", rules::LINE_OCTETS.into()),
        ("NETWORK_A", ffi::Network::A.number().into()),
        ("NETWORK_B", ffi::Network::of(1).number().into()),
        ("TOO_SHORT", rules::FRAME_SHORT.into()),
        ("TOO_LONG", rules::FRAME_LONG.into()),
        ("OTHER_CONSTANT", rules::WRONG_CONSTANT.into()),
        ("UNKNOWN_LINK", rules::NO_LINK.into()),
        ("UNSOUND", rules::UNSOUND.into()),
        ("OTHER_PORT", rules::WRONG_PORT.into()),
        ("TOO_SMALL", rules::BELOW_SMALLEST.into()),
        ("TOO_LARGE", rules::ABOVE_LARGEST.into()),
        ("LATE", rules::LATE.into()),
        ("SHORT", rules::CREDIT_SHORT.into()),
        ("FORWARDED", rules::FORWARDED.into()),
        ("IMAGE_CUT", rules::IMAGE_CUT.into()),
        ("IMAGE_TAG", rules::BAD_TAG.into()),
        ("IMAGE_LENGTH", rules::BAD_LENGTH.into()),
        ("IMAGE_VALUE", rules::BAD_VALUE.into()),
        ("IMAGE_COUNT", rules::BAD_COUNT.into()),
        ("IMAGE_MORE", rules::TRAILING.into()),
        ("IMAGE_ROOM", rules::NO_ROOM.into()),
        ("DELIVERED", rules::DELIVERED.into()),
        ("COPY", rules::COPY.into()),
        ("OUT_OF_SEQUENCE", rules::OUT_OF_SEQUENCE.into()),
    ]
}

/// The words of a text that begin so.
fn words<'a>(text: &'a str, start: &str) -> BTreeSet<&'a str> {
    text.split(|c: char| !c.is_ascii_alphanumeric() && c != '_')
        .filter(|word| word.starts_with(start))
        .collect()
}

/// A program that compiles where all constants are the Rust version's; the header names no others.
#[test]
fn the_constants_are_the_rust_versions() {
    let text = header();
    let mut named = words(&text, "ASHTHULGO_");
    assert!(named.remove("ASHTHULGO_H"));
    let constants = constants();
    let full: Vec<String> = constants
        .iter()
        .map(|(name, _)| format!("ASHTHULGO_{name}"))
        .collect();
    let expected: BTreeSet<&str> = full.iter().map(String::as_str).collect();
    assert_eq!(named, expected);
    let mut source = String::from("#include \"ashthulgo.h\"\n#include \"ashthulgo.h\"\n");
    for (name, value) in constants {
        source += &format!("extern int {name}_[ASHTHULGO_{name} == {value} ? 1 : -1];\n");
    }
    let file = own_file("constants.c");
    fs::write(&file, source).expect("a file");
    for language in &LANGUAGES {
        succeeded(&compile(language, &file, &["-fsyntax-only"]), language);
    }
}

/// The library's functions, as its sources declare them, those of the header, and those that the Rust side calls.
#[test]
fn the_functions_are_those_exported() {
    let mut exported = BTreeSet::new();
    let sources = fs::read_dir(root().join("crates/exports/src")).expect("the sources");
    for file in sources {
        let text = fs::read_to_string(file.expect("a file").path()).expect("a source");
        let marked = text.split("extern \"C\" fn ").skip(1);
        let name = |rest: &str| rest.split('(').next().map(String::from);
        exported.extend(marked.filter_map(name));
    }
    let own = |names: BTreeSet<&str>| -> BTreeSet<String> {
        names.iter().map(|name| name.to_string()).collect()
    };
    // Prose may name functions too, but no others.
    let text = header().replace("ashthulgo.h", "");
    assert_eq!(own(words(&text, "ashthulgo_")), exported);
    let code: String = text
        .split("*/")
        .filter_map(|part| part.split("/*").next())
        .collect();
    assert_eq!(own(words(&code, "ashthulgo_")), exported);
    let raw = Path::new(env!("CARGO_MANIFEST_DIR")).join("src/raw.rs");
    let raw = fs::read_to_string(raw)
        .expect("a source")
        .replace("ashthulgo.h", "");
    assert_eq!(own(words(&raw, "ashthulgo_")), exported);
}

#[test]
fn other_machines_are_refused() {
    let file = own_file("machine.c");
    fs::write(&file, "#include \"ashthulgo.h\"\n").expect("a file");
    for language in &LANGUAGES {
        for without in ["-U__x86_64__", "-U__LP64__"] {
            let said = compile(language, &file, &["-fsyntax-only", without]);
            let text = String::from_utf8_lossy(&said.stderr);
            assert!(!said.status.success(), "{without}");
            assert!(text.contains("built for x86-64"), "{without}: {text}");
        }
    }
}
