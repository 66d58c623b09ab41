//! docs/FORMATS.md: its rig is built from the page alone and replayed by the proved program and by the Rust version; both
//! print what the page says. So with every change that the page lists, and with the page's frame and receptions.

use pages::{block, block_octets, check_offsets, lines, octets, page, result, rows, sides, Line};
use policer::{Network, RECORD_WORDS};
use std::fs;
use std::path::{Path, PathBuf};
use std::process::{Command, Output, Stdio};

/// Octets of a record before its frame: tag, length, time, port.
const RECORD_HEAD: usize = 12;

/// A rig as the page has it.
#[derive(Clone)]
struct Rig {
    image: Vec<u8>,
    log: Vec<u8>,
}

fn formats() -> String {
    page("FORMATS.md")
}

impl Rig {
    fn of(page: &str) -> Self {
        Rig {
            image: block_octets(page, "image").unwrap(),
            log: block_octets(page, "log").unwrap(),
        }
    }

    /// Writes the rig to a folder of its own.
    fn build(&self, name: &str) -> PathBuf {
        let folder = Path::new(env!("CARGO_TARGET_TMPDIR")).join(name);
        fs::create_dir_all(&folder).unwrap();
        fs::write(folder.join("rig.cfg"), &self.image).unwrap();
        fs::write(folder.join("rig.frames"), &self.log).unwrap();
        folder
    }

    /// Runs the proved program on the rig.
    fn run(&self, name: &str) -> Output {
        let program = Path::new(env!("CARGO_MANIFEST_DIR")).join("../../crates/replay/out/replay");
        let program = fs::canonicalize(program)
            .expect("crates/replay/out/replay is missing: `rt run` in crates/replay builds it");
        Command::new(program)
            .current_dir(self.build(name))
            .stdin(Stdio::null())
            .output()
            .expect("a program that starts")
    }

    /// Returns what the proved program prints.
    fn replayed(&self, name: &str) -> String {
        String::from_utf8(self.run(name).stdout).expect("text")
    }

    /// Returns what the Rust version prints.
    fn replayed_by_rust(&self, name: &str) -> String {
        let mut out = vec![];
        let faults = policer::replay(&self.build(name), &mut out);
        assert!(faults.iter().all(|f| f.status() < 5), "{faults:?}");
        String::from_utf8(out).expect("text")
    }
}

/// Returns the page's output, with a newline after each line.
fn expected(page: &str) -> String {
    let lines = block(page, "output").unwrap();
    lines.iter().map(|(_, line)| format!("{line}\n")).collect()
}

#[test]
fn the_rig_prints_what_the_page_says() {
    let page = formats();
    let rig = Rig::of(&page);
    let ran = rig.run("rig");
    assert!(ran.status.success(), "{}", ran.status);
    assert_eq!(String::from_utf8_lossy(&ran.stdout), expected(&page));
    assert_eq!(rig.replayed_by_rust("rig"), expected(&page));
}

#[test]
fn offsets_are_those_of_the_octets() {
    let page = formats();
    check_offsets(&page, "image").unwrap();
    check_offsets(&page, "frame").unwrap();
}

/// A line of the block of changes: the rig after the change, and the last line that is then printed.
fn changed(line: &Line, rig: &Rig) -> Result<(Rig, String), String> {
    let (change, printed) = line.text.split_once("->").ok_or("no '->'")?;
    let (file, change) = change.trim().split_once(' ').ok_or("no file")?;
    let mut changed = rig.clone();
    let run = match file {
        "rig.cfg" => &mut changed.image,
        "rig.frames" => &mut changed.log,
        _ => return Err(format!("no file '{file}'")),
    };
    let number = |word: &str| {
        word.trim()
            .parse::<usize>()
            .map_err(|_| format!("'{word}' is no number"))
    };
    if let Some((offset, new)) = change.split_once('=') {
        let (offset, new) = (number(offset)?, octets(new)?);
        let old = run
            .get_mut(offset..offset + new.len())
            .ok_or("an offset past the end")?;
        old.copy_from_slice(&new);
    } else if let Some((_, length)) = change.split_once("first ") {
        let length = number(length)?;
        if length >= run.len() {
            return Err("nothing is cut".into());
        }
        run.truncate(length);
    } else if let Some((_, more)) = change.split_once("then ") {
        run.extend(octets(more)?);
    } else {
        return Err(format!("'{change}' is no change"));
    }
    Ok((changed, printed.trim().into()))
}

#[test]
fn changes_print_what_the_page_says() {
    let page = formats();
    let rig = Rig::of(&page);
    for line in lines(&page, "changes").unwrap() {
        let at = format!("line {}", line.number);
        let (changed, last) = changed(&line, &rig).unwrap_or_else(|error| panic!("{at}: {error}"));
        let printed = changed.replayed("changed");
        assert_eq!(printed.lines().last(), Some(last.as_str()), "{at}");
        assert_eq!(
            printed.lines().count() == 1,
            last.starts_with("image "),
            "{at}"
        );
        assert_eq!(changed.replayed_by_rust("changed"), printed, "{at}");
    }
}

/// Whether the Rust version prints something else than the page says after any change of one bit. The name is the folder of
/// the changed rigs; tests run side by side, so that each has its own.
fn shows(name: &str, rig: &Rig, expected: &str, flip: impl Fn(&mut Rig, u8)) -> bool {
    (0..8).all(|bit| {
        let mut other = rig.clone();
        flip(&mut other, 1 << bit);
        other.replayed_by_rust(name) != expected
    })
}

#[test]
fn every_bit_of_the_image_matters_but_those_of_masks() {
    let page = formats();
    let (rig, expected) = (Rig::of(&page), expected(&page));
    let (mut at, mut masks) = (0, 0);
    for line in lines(&page, "image").unwrap() {
        let end = at + octets(&line.text).unwrap().len();
        // A replay doesn't print the output ports.
        if line.comment.contains("output port") {
            masks += 1;
            at = end;
        }
        for at in at..end {
            assert!(
                shows("image", &rig, &expected, |rig, bit| rig.image[at] ^= bit),
                "offset {at}"
            );
        }
        at = end;
    }
    assert_eq!((at, masks), (rig.image.len(), 3));
}

/// Returns where each record of a log starts, with its length.
fn records(log: &[u8]) -> Vec<(usize, usize)> {
    let mut at = 0;
    let mut records = vec![];
    while at < log.len() {
        let length = 3 + usize::from(u16::from_be_bytes([log[at + 1], log[at + 2]]));
        records.push((at, length));
        at += length;
    }
    records
}

#[test]
fn every_bit_that_a_replay_reads_of_the_log_matters() {
    let page = formats();
    let (rig, expected) = (Rig::of(&page), expected(&page));
    let (records, answers) = (records(&rig.log), expected.lines().skip(1));
    assert_eq!(records.len(), answers.clone().count());
    let mut reached = 0;
    for ((start, _), answer) in records.into_iter().zip(answers) {
        // Of a frame that is forwarded or short, time, port, constant field and link count; of any, tag and length.
        let reaches = [" 0 ", " 9 "].iter().any(|code| answer.contains(code));
        reached += usize::from(reaches);
        let read = if reaches { RECORD_HEAD + 6 } else { 3 };
        for at in start..start + read {
            assert!(
                shows("log", &rig, &expected, |rig, bit| rig.log[at] ^= bit),
                "{answer}: offset {at}"
            );
        }
    }
    assert!(reached >= 8);
}

#[test]
fn the_frame_reads_as_the_page_says() {
    let page = formats();
    let frame = block_octets(&page, "frame").unwrap();
    let header = policer::header(&frame);
    assert_eq!((header.code, header.link, header.sequence), (0, 10, 7));
    assert_eq!(policer::payload(&frame), &frame[14..59]);
    assert_eq!(frame.len(), 64);
    let said = "on link 10 with sequence number 7, has a payload of 45 octets";
    assert!(page.contains(said), "the page says of its frame: {said}");
}

#[test]
fn receptions_are_answered_as_the_page_says() {
    let page = formats();
    let rows = block_octets(&page, "rows").unwrap();
    let mut memories = vec![0; rows.len() / policer::RECEIVE_ROW * RECORD_WORDS];
    let mut met = vec![];
    for line in lines(&page, "receptions").unwrap() {
        let words: Vec<&str> = line.text.split_whitespace().collect();
        let [link, network, number, time, answer] = words[..] else {
            panic!("line {}: not five words", line.number);
        };
        let network = match network {
            "A" => Network::A,
            "B" => Network::B,
            _ => panic!("line {}: no network '{network}'", line.number),
        };
        let (link, number, time) = (
            link.parse().unwrap(),
            number.parse().unwrap(),
            time.parse().unwrap(),
        );
        let said = policer::receive(link, network, number, time, &rows, &mut memories).code();
        assert_eq!(said.to_string(), answer, "line {}", line.number);
        met.push(said);
    }
    for code in [0, 4, 8, 30, 31] {
        assert!(met.contains(&code), "no reception is answered {code}");
    }
}

#[test]
fn the_arithmetic_comes_out_as_printed() {
    let page = formats();
    let expected = expected(&page);
    let (mut sums, mut credits) = (0, 0);
    let mut of_frames = false;
    for (number, cells) in rows(&page) {
        for cell in cells.iter().filter(|cell| cell.contains(" = ")) {
            let (sum, said) =
                sides(cell).unwrap_or_else(|| panic!("line {number}: '{cell}' is no sum"));
            assert_eq!(sum, said, "line {number}: {cell}");
            sums += 1;
        }
        if !cells[0].starts_with(|first: char| first.is_ascii_digit()) {
            of_frames = cells[0] == "frame" || (of_frames && cells[0].starts_with('-'));
            continue;
        }
        if of_frames {
            let credit = result(cells[cells.len() - 1])
                .unwrap_or_else(|| panic!("line {number}: no credit"));
            let printed = expected
                .lines()
                .find(|line| line.starts_with(&format!("{} ", cells[0])));
            let credit = credit.to_string();
            assert_eq!(
                printed.and_then(|line| line.split(' ').nth(2)),
                Some(credit.as_str()),
                "line {number}"
            );
            credits += 1;
        }
    }
    let with_credit = expected.lines().skip(1).filter(|line| !line.ends_with('-'));
    assert_eq!(credits, with_credit.count());
    assert!(sums >= 10, "{sums} sums");
}

/// Returns the numbers among the words of a text.
fn numbers(text: &str) -> Vec<u64> {
    let words = text
        .split_whitespace()
        .map(|word| word.trim_end_matches([':', ',']).replace(',', ""));
    words.filter_map(|word| word.parse().ok()).collect()
}

/// "tag 2, length 6" of a field's first octets, "output ports 2 and 5" of a mask, "Smax 500" of any other number.
#[test]
fn comments_say_what_the_octets_are() {
    let page = formats();
    let mut said = 0;
    for line in lines(&page, "image").unwrap() {
        let octets = octets(&line.text).unwrap();
        let value = octets
            .iter()
            .fold(0, |value, octet| value << 8 | u64::from(*octet));
        let (_, comment) = line
            .comment
            .split_once(' ')
            .expect("words after the offset");
        let meant = if let Some((_, field)) = comment.split_once("tag ") {
            numbers(&field.replace("length", ""))
                .iter()
                .fold(0, |value, number| value << 16 | number)
        } else if let Some((_, ports)) = comment.split_once("output port") {
            numbers(ports).iter().map(|port| 1 << port).sum()
        } else if let Some(number) = numbers(comment).first() {
            *number
        } else {
            assert_eq!(comment.trim(), "constant field", "line {}", line.number);
            continue;
        };
        assert_eq!(value, meant, "line {}: {comment}", line.number);
        said += 1;
    }
    assert!(said >= 30, "{said} lines");
}

#[test]
fn the_line_of_bash_writes_the_octets() {
    let page = formats();
    let function: String = block(&page, "bash")
        .unwrap()
        .iter()
        .map(|(_, line)| format!("{line}\n"))
        .collect();
    for word in ["image", "log"] {
        let text: String = block(&page, word)
            .unwrap()
            .iter()
            .map(|(_, line)| format!("{line}\n"))
            .collect();
        let source = Path::new(env!("CARGO_TARGET_TMPDIR")).join(format!("{word}.txt"));
        fs::write(&source, text).unwrap();
        let ran = Command::new("bash")
            .args(["-c", &format!("{function}octets")])
            .stdin(fs::File::open(&source).unwrap())
            .output()
            .expect("bash");
        assert_eq!(ran.stdout, block_octets(&page, word).unwrap(), "{word}");
    }
}
