//! The figures of docs/ASSURANCE.md: for each exported call the stack and the instructions that it takes, by its listing
//! and as seen; for the replay program its stack.

mod cases;
mod listing;
mod stepping;

use cases::{Case, Export};
use listing::{symbols, Listing};
use std::path::{Path, PathBuf};
use std::process::{Command, Stdio};
use stepping::Taken;

/// What the inputs of a call took at most.
#[derive(Default)]
struct Greatest {
    inputs: usize,
    instructions: Taken,
    /// Which input took most instructions, counted from 0, and what it is.
    at: usize,
    about: String,
    stack: u64,
}

impl Greatest {
    fn of(address: u64, cases: impl FnOnce(&mut dyn FnMut(Case))) -> Self {
        let mut greatest = Greatest::default();
        cases(&mut |mut case| {
            let taken = stepping::taken(address, &mut case.call);
            if taken.instructions() > greatest.instructions.instructions() {
                greatest.instructions = taken;
                greatest.at = greatest.inputs;
                greatest.about = case.about;
            }
            greatest.stack = greatest.stack.max(taken.stack);
            greatest.inputs += 1;
        });
        greatest
    }
}

/// What stands in the repository's folder of built files.
fn built(path: &str) -> PathBuf {
    let crates = Path::new(env!("CARGO_MANIFEST_DIR")).join("../../crates");
    crates.join(path)
}

fn joined(names: &[String]) -> String {
    if names.is_empty() {
        return "none".into();
    }
    names.join(", ")
}

/// What an object file or archive names and holds; an error where a function calls itself or one by its address.
fn print_object(what: &str, file: &Path, listing: &Listing) -> Result<(), String> {
    for name in listing.names() {
        listing.stack(name)?;
    }
    println!("{what}: {} functions", listing.names().count());
    println!("- named and not defined: {}", joined(&symbols(file, "Uw")?));
    println!(
        "- data that can be written: {}",
        joined(&symbols(file, "DdBbCcGgSs")?)
    );
    println!("- no recursion, no call of an address\n");
    Ok(())
}

fn print_calls(library: &Listing) -> Result<(), String> {
    println!("| call | stack: listing | stack: seen | instructions | in libc | bound | inputs | input with most instructions |");
    println!("|---|---:|---:|---:|---:|---:|---:|---|");
    for export in cases::exports() {
        let Export {
            name,
            address,
            turns,
            cases,
        } = export;
        let greatest = Greatest::of(address, cases);
        let Taken { own, elsewhere, .. } = greatest.instructions;
        let (stack, bound) = (library.stack(name)?, library.paths(name)?.bound(turns));
        println!(
            "| {name} | {stack} | {} | {own} | {elsewhere} | {bound} | {} | {}: {} |",
            greatest.stack, greatest.inputs, greatest.at, greatest.about
        );
        if greatest.stack > stack || own > bound {
            return Err(format!("{name} took more than its listing allows"));
        }
    }
    println!();
    Ok(())
}

fn export(name: &str) -> Option<Export> {
    cases::exports()
        .into_iter()
        .find(|export| export.name == name)
}

/// How a search grows with its rows.
fn print_rows(name: &str, cases: fn(usize, &mut dyn FnMut(Case))) -> Result<(), String> {
    let export = export(name).ok_or(format!("no call {name}"))?;
    println!("| rows | {name} |\n|---:|---:|");
    for rows in [1, 2, 3, 4, 5, 16, 64] {
        let taken = Greatest::of(export.address, |visit| cases(rows, visit));
        println!("| {rows} | {} |", taken.instructions.own);
    }
    println!();
    Ok(())
}

/// How reading, loading and writing grow with accounts and links.
fn print_images() -> Result<(), String> {
    let names = [
        "ashthulgo_check",
        "ashthulgo_load",
        "ashthulgo_reader_load",
        "ashthulgo_write",
    ];
    println!(
        "| accounts | links | {} |\n|---:|---:|---:|---:|---:|---:|",
        names.join(" | ")
    );
    for (accounts, links) in [(1, 1), (2, 1), (1, 2), (64, 256)] {
        print!("| {accounts} | {links} |");
        for name in names {
            let export = export(name).ok_or(format!("no call {name}"))?;
            let mut case = cases::of_image(name, accounts, links).ok_or("no such case")?;
            print!(" {} |", stepping::taken(export.address, &mut case.call).own);
        }
        println!();
    }
    println!();
    Ok(())
}

/// Whether the program ends well with so many KiB of stack.
fn runs_within(program: &Path, folder: &Path, kib: u32) -> Result<bool, String> {
    let mut shell = Command::new("sh");
    shell.args([
        "-c",
        "ulimit -s \"$1\" && exec \"$2\"",
        "sh",
        &kib.to_string(),
    ]);
    shell.arg(program).current_dir(folder).env_clear();
    shell
        .stdin(Stdio::null())
        .stdout(Stdio::null())
        .stderr(Stdio::null());
    let ended = shell.status().map_err(|error| error.to_string())?;
    Ok(ended.success())
}

/// The replay program: its stack by its listing, and the least limit of the stack under which it replays a rig.
fn print_program() -> Result<(), String> {
    let (object, program) = (built("replay/out/replay.o"), built("replay/out/replay"));
    let missing = |_| "crates/replay/out/replay is missing: `rt run` in crates/replay builds it";
    let program = program.canonicalize().map_err(missing)?;
    let listing = Listing::of(&object)?;
    print_object("replay", &object, &listing)?;
    println!(
        "stack by listing: {} octets, and what libc takes",
        listing.stack("main")?
    );
    let rig = Path::new(env!("CARGO_MANIFEST_DIR")).join("../../rigs/log_over_buffer");
    let (mut short, mut enough) = (4, 8_192);
    if !runs_within(&program, &rig, enough)? {
        return Err("the program doesn't replay rigs/log_over_buffer".into());
    }
    while enough - short > 4 {
        let kib = (short + enough) / 8 * 4;
        if runs_within(&program, &rig, kib)? {
            enough = kib;
        } else {
            short = kib;
        }
    }
    println!("least limit of the stack under which it replays: {enough} KiB");
    Ok(())
}

fn print_all() -> Result<(), String> {
    let version = Command::new("rt").arg("version").output();
    let version = version.map_err(|error| format!("rt: {error}"))?;
    println!("{}", String::from_utf8_lossy(&version.stdout));
    let archive = built("exports/out/libexports.a");
    let library = Listing::of(&archive)?;
    print_object("library", &archive, &library)?;
    stepping::prepare();
    print_calls(&library)?;
    print_rows("ashthulgo_frame_call", cases::frame_call)?;
    print_rows("ashthulgo_receive", cases::receive)?;
    print_images()?;
    print_program()
}

/// Prints the figures; false where they can't be had.
pub fn table() -> bool {
    print_all()
        .inspect_err(|error| eprintln!("bench: {error}"))
        .is_ok()
}

/// Makes one call with one of its inputs, for a profiler; false where there is none.
pub fn once(name: &str, input: &str) -> bool {
    let (Some(export), Ok(input)) = (export(name), input.parse::<usize>()) else {
        return false;
    };
    let (mut at, mut made) = (0, false);
    (export.cases)(&mut |mut case| {
        if at == input {
            println!("{}", case.about);
            (case.call)();
            made = true;
        }
        at += 1;
    });
    made
}
