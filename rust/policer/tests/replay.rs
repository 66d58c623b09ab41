//! Replay of whole folders.

mod common;

use std::fs::{self, File};
use std::io;
use std::path::{Path, PathBuf};
use std::process::{Command, Stdio};

use common::{end, field, frame, image_of, image_p, open_image, Dice, IMAGE_P, LINK_7};

/// A folder that goes away with the test.
struct Folder(PathBuf);

impl Folder {
    fn new(name: &str) -> Folder {
        let name = format!("policer-{}-{name}", std::process::id());
        let path = std::env::temp_dir().join(name);
        fs::create_dir_all(&path).unwrap();
        Folder(path)
    }

    fn put(&self, file: &str, octets: &[u8]) {
        fs::write(self.0.join(file), octets).unwrap();
    }

    /// The answers, and the statuses of the faults.
    fn replay(&self) -> (String, Vec<u8>) {
        let mut out = Vec::new();
        let faults = policer::replay(&self.0, &mut out);
        (String::from_utf8(out).unwrap(), statuses(&faults))
    }
}

impl Drop for Folder {
    fn drop(&mut self) {
        let _ = fs::remove_dir_all(&self.0);
    }
}

fn record(time: u64, port: u8, frame: &[u8]) -> Vec<u8> {
    let mut data = time.to_be_bytes().to_vec();
    data.push(port);
    data.extend(frame);
    field(16, &data)
}

fn run(name: &str, image: &[u8], log: &[u8]) -> String {
    let folder = Folder::new(name);
    folder.put("rig.cfg", image);
    folder.put("rig.frames", log);
    let (out, faults) = folder.replay();
    let expected = match out.split('\n').nth_back(1) {
        Some("cut") => vec![4],
        Some(line) if line.starts_with("image") => vec![3],
        _ => vec![],
    };
    assert_eq!(faults, expected);
    out
}

fn statuses(faults: &[policer::Fault]) -> Vec<u8> {
    faults.iter().map(policer::Fault::status).collect()
}

fn case_14() -> Vec<u8> {
    [
        record(0, 2, &frame(7, 200)),
        record(499, 2, &frame(7, 200)),
        record(500, 2, &frame(7, 200)),
        record(499, 2, &frame(7, 200)),
        record(600, 2, &frame(8, 200)),
    ]
    .concat()
}

const CASE_14: &str = "\
# frame code credit
1 0 100000
2 9 199800
3 0 0
4 8 0
5 4 -
";

#[test]
fn bench_case_14() {
    assert_eq!(run("case14", &IMAGE_P, &case_14()), CASE_14);
}

#[test]
fn line_octets() {
    let expected = "\
# frame code credit
1 0 110000
2 9 219780
3 0 0
4 8 0
5 4 -
";
    for mode in [2, 3] {
        assert_eq!(run("line", &image_p(mode), &case_14()), expected);
    }
    for mode in [4, 255] {
        assert_eq!(run("line", &image_p(mode), &case_14()), "image 23 8\n");
    }
}

/// The program's answers, its words on standard error and its exit status.
fn program(folder: &Path, out: Stdio) -> (String, String, i32) {
    let ran = Command::new(env!("CARGO_BIN_EXE_policer-replay"))
        .arg(folder)
        .stdout(out)
        .stderr(Stdio::piped())
        .spawn()
        .and_then(|child| child.wait_with_output())
        .unwrap();
    let text = |octets| String::from_utf8(octets).unwrap();
    let status = ran.status.code().unwrap();
    (text(ran.stdout), text(ran.stderr), status)
}

const NOT_THERE: &str = "can't be opened and reads as empty: No such file or directory";

#[test]
fn the_program_says_how_it_went() {
    let folder = Folder::new("program");
    let run = || program(&folder.0, Stdio::piped());
    let said = |file: &str, what: &str| format!("policer-replay: {file} {what}\n");
    let (no_image, no_log) = (said("rig.cfg", NOT_THERE), said("rig.frames", NOT_THERE));

    // No image: refused, and the log isn't opened.
    assert_eq!(run(), ("image 20 0\n".into(), no_image, 5));
    folder.put("rig.cfg", &IMAGE_P[..33]);
    assert_eq!(run(), ("image 20 33\n".into(), "".into(), 3));
    folder.put("rig.cfg", &IMAGE_P);
    assert_eq!(run(), ("# frame code credit\n".into(), no_log, 5));
    folder.put("rig.frames", &case_14());
    assert_eq!(run(), (CASE_14.into(), "".into(), 0));
    folder.put("rig.frames", &[case_14(), vec![16]].concat());
    assert_eq!(run(), (format!("{CASE_14}cut\n"), "".into(), 4));
    fs::remove_file(folder.0.join("rig.frames")).unwrap();
    fs::create_dir(folder.0.join("rig.frames")).unwrap();
    let unread = said("rig.frames", "can't be read: Is a directory");
    assert_eq!(run(), ("# frame code credit\n".into(), unread, 6));
    fs::remove_file(folder.0.join("rig.cfg")).unwrap();
    fs::create_dir(folder.0.join("rig.cfg")).unwrap();
    let unread = said("rig.cfg", "can't be read: Is a directory");
    assert_eq!(run(), ("".into(), unread, 6));
}

#[test]
fn the_program_says_what_it_couldnt_write() {
    let folder = Folder::new("unwritten");
    let said = |what: &str| format!("policer-replay: the answers can't be written: {what}\n");
    let full = || Stdio::from(File::options().write(true).open("/dev/full").unwrap());
    folder.put("rig.cfg", &IMAGE_P);
    folder.put("rig.frames", &case_14());
    let no_space = said("No space left on device");
    let run = |out| program(&folder.0, out);
    assert_eq!(run(full()), ("".into(), no_space.clone(), 7));
    folder.put("rig.frames", &[16]);
    assert_eq!(run(full()), ("".into(), no_space.clone(), 7));
    fs::remove_file(folder.0.join("rig.cfg")).unwrap();
    let no_image = format!("policer-replay: rig.cfg {NOT_THERE}\n{no_space}");
    assert_eq!(run(full()), ("".into(), no_image, 7));
    folder.put("rig.cfg", &IMAGE_P);
    let (reader, writer) = io::pipe().unwrap();
    drop(reader);
    assert_eq!(run(writer.into()), ("".into(), said("Broken pipe"), 7));
}

#[test]
fn the_program_takes_one_folder() {
    for folders in [0, 2] {
        let ran = Command::new(env!("CARGO_BIN_EXE_policer-replay"))
            .args(vec!["."; folders])
            .output()
            .unwrap();
        assert_eq!(ran.status.code(), Some(2));
        assert_eq!(ran.stderr, b"usage: policer-replay FOLDER\n");
        assert!(ran.stdout.is_empty());
    }
}

#[test]
fn missing_files_are_empty() {
    let folder = Folder::new("missing");
    assert_eq!(folder.replay(), ("image 20 0\n".into(), vec![5, 3]));
    folder.put("rig.frames", &case_14());
    assert_eq!(folder.replay(), ("image 20 0\n".into(), vec![5, 3]));
    fs::remove_file(folder.0.join("rig.frames")).unwrap();
    folder.put("rig.cfg", &IMAGE_P);
    assert_eq!(folder.replay(), ("# frame code credit\n".into(), vec![5]));
    folder.put("rig.frames", &[]);
    assert_eq!(folder.replay(), ("# frame code credit\n".into(), vec![]));
}

#[test]
fn refused_images() {
    let answer = |image: &[u8]| run("refused", image, &case_14());
    assert_eq!(answer(&IMAGE_P[..33]), "image 20 33\n");
    let mut image = IMAGE_P.to_vec();
    image.push(0);
    assert_eq!(answer(&image), "image 25 36\n");
    image.resize(100_000, 0);
    assert_eq!(answer(&image), "image 25 36\n");
    assert_eq!(answer(&image_of(65, 1)), "image 24 584\n");
}

/// Images around and beyond the longest are answered as the reader does.
#[test]
fn images_of_any_length() {
    let full = open_image(64, 256);
    let another = field(3, &LINK_7.number(300).row());
    let mut images = vec![image_of(64, 256), image_of(64, 257), image_of(64, 400)];
    for length in 0..=another.len() {
        images.push([full.clone(), another[..length].to_vec()].concat());
    }
    for extra in [1, 12, 13, 15, 16, 17, 5_000] {
        images.push([full.clone(), end(), vec![3; extra]].concat());
        images.push([full.clone(), vec![3; extra]].concat());
        images.push([full.clone(), another.clone(), vec![0; extra]].concat());
    }
    for image in images {
        let read = policer::check(&image);
        let expected = match read.code {
            0 => "# frame code credit\n".to_string(),
            code => format!("image {code} {}\n", read.offset),
        };
        assert_eq!(run("anylength", &image, &[]), expected);
    }
}

#[test]
fn every_cut_of_a_log() {
    let log = case_14();
    let record = 12 + 200;
    let lines: Vec<&str> = CASE_14.lines().collect();
    for length in 0..=log.len() {
        let mut expected = lines[..=length / record].join("\n") + "\n";
        if length % record != 0 {
            expected += "cut\n";
        }
        assert_eq!(run("cuts", &IMAGE_P, &log[..length]), expected, "{length}");
    }
}

#[test]
fn bad_records_end_the_run() {
    let good = record(0, 2, &frame(7, 200));
    let expected = "# frame code credit\n1 0 100000\ncut\n";
    for tag in [0, 1, 9, 15, 17, 255] {
        let mut bad = good.clone();
        bad[0] = tag;
        let log = [good.clone(), bad, good.clone()].concat();
        assert_eq!(run("badtag", &IMAGE_P, &log), expected);
    }
    for length in 0..9 {
        let bad = field(16, &vec![0; length]);
        let log = [good.clone(), bad, good.clone()].concat();
        assert_eq!(run("badlength", &IMAGE_P, &log), expected);
    }
}

#[test]
fn frames_of_any_length() {
    let mut log = Vec::new();
    let mut expected = String::from("# frame code credit\n");
    let sizes = [
        0, 1, 63, 64, 200, 201, 1_518, 1_519, 1_520, 9_000, 65_526, 64,
    ];
    for (index, octets) in sizes.into_iter().enumerate() {
        let time = 10_000 * index as u64;
        log.extend(record(time, 2, &frame(7, octets)));
        let answer = match octets {
            0..64 => "1 -".to_string(),
            64..=200 => format!("0 {}", 300_000 - 1_000 * octets),
            201..=1_518 => "7 -".to_string(),
            _ => "2 -".to_string(),
        };
        expected += &format!("{} {answer}\n", index + 1);
    }
    assert_eq!(run("lengths", &IMAGE_P, &log), expected);
}

#[test]
fn a_cut_long_frame_is_a_cut() {
    for octets in [1_518, 1_519, 65_526] {
        let whole = record(0, 2, &frame(7, octets));
        let cut = &whole[..whole.len() - 1];
        let expected = "# frame code credit\ncut\n";
        assert_eq!(run("cutlong", &IMAGE_P, cut), expected);
    }
}

#[test]
fn ports_and_times() {
    let log = [
        record(u64::MAX, 2, &frame(7, 64)),
        record(u64::MAX - 1, 2, &frame(7, 64)),
        record(u64::MAX, 255, &frame(7, 64)),
        record(u64::MAX, 34, &frame(7, 64)),
    ]
    .concat();
    assert_eq!(
        run("ports", &IMAGE_P, &log),
        "# frame code credit\n1 0 236000\n2 8 236000\n3 5 -\n4 5 -\n"
    );
}

#[test]
fn garbage() {
    let mut dice = Dice(99);
    for _ in 0..200 {
        let mut log = case_14();
        for _ in 0..dice.below(5) {
            let place = dice.below(log.len() as u64) as usize;
            log[place] = dice.next() as u8;
        }
        let out = run("garbage", &IMAGE_P, &log);
        assert!(out.starts_with("# frame code credit\n"));
        let length = dice.below(100) as usize;
        let out = run("garbage", &dice.octets(length), &log);
        assert!(out.starts_with("image 2"));
    }
}

/// The fault of an output that takes nothing, whatever else there was.
#[test]
fn output_errors_are_faults() {
    struct Full(usize);
    impl io::Write for Full {
        fn write(&mut self, _: &[u8]) -> io::Result<usize> {
            self.0 += 1;
            Err(io::Error::other("full"))
        }
        fn flush(&mut self) -> io::Result<()> {
            Ok(())
        }
    }
    let folder = Folder::new("full");
    for expected in [&[5, 3, 7][..], &[7], &[4, 7]] {
        let mut out = Full(0);
        let faults = policer::replay(&folder.0, &mut out);
        assert_eq!(statuses(&faults), expected);
        assert_eq!(out.0, 1, "nothing after a write that failed");
        folder.put("rig.cfg", &IMAGE_P);
        let log = if expected.len() == 3 {
            case_14()
        } else {
            vec![16]
        };
        folder.put("rig.frames", &log);
    }
}
