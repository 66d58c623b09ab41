//! Counts of what was compared, by the code that was answered and by the mode of the account that it was about.

use trials::plan::AccountRow;

/// Accounts have the modes below this number.
const MODES: u8 = 4;

/// What is counted, with its name and all its codes.
#[derive(Clone, Copy)]
pub enum What {
    FrameCall,
    /// The frame calls of one account run again without the others' frames.
    Isolated,
    Image,
    Write,
    Step,
    Frame,
    Receive,
    /// The receive calls of one link run again without the others' frames.
    ReceiveAlone,
    /// Frames that the credit just pays for, and those for which it lacks one unit.
    Edge,
    /// The steps once more, on an account that is changed in place.
    StepInPlace,
    /// The images loaded once more, through a reader.
    ReaderLoad,
    /// Where the reader stood before: 0 at the start, 1 inside, 2 at the end, 3 past it, 4 at the largest number.
    ReaderPlace,
    /// Frames of 65,600 octets, whose length cut to 16 bits is 64, by the code that their first 64 octets get.
    Long65600,
    /// Frames of 131,136 octets in the same way.
    Long131136,
    /// Images far above the limit: 0 more accounts, 1 more links, 2 surplus octets, 3 surplus octets whose number cut to 16
    /// bits is 0, 4 many images one after another.
    LargeImage,
    /// Tables of more rows than 16 bits count: 0 where the link's row is the first of those, 1 where it is a later one.
    FarRow,
}

const WHAT: [(What, &str, &[usize]); 16] = [
    (
        What::FrameCall,
        "frame calls",
        &[0, 1, 2, 3, 4, 5, 6, 7, 8, 9, 10],
    ),
    (
        What::Isolated,
        "isolated calls",
        &[0, 1, 2, 3, 5, 6, 7, 8, 9],
    ),
    (What::Image, "images", &[0, 20, 21, 22, 23, 24, 25, 26]),
    (What::Write, "writes", &[0, 23, 24, 26]),
    (What::Step, "steps", &[0, 1, 2, 8, 9, 10]),
    (What::Frame, "frame readings", &[0, 1, 2]),
    (What::Receive, "receive calls", &[0, 4, 8, 30, 31]),
    (
        What::ReceiveAlone,
        "isolated receive calls",
        &[0, 8, 30, 31],
    ),
    (What::Edge, "credits at a frame's cost", &[0, 9]),
    (What::StepInPlace, "steps in place", &[0, 1, 2, 8, 9, 10]),
    (
        What::ReaderLoad,
        "loads through a reader",
        &[0, 20, 21, 22, 23, 24, 25, 26],
    ),
    (What::ReaderPlace, "places of a reader", &[0, 1, 2, 3, 4]),
    (
        What::Long65600,
        "frames of 65,600 octets by the code of their first 64",
        &[0, 8, 9, 10],
    ),
    (
        What::Long131136,
        "frames of 131,136 octets by the code of their first 64",
        &[0, 8, 9, 10],
    ),
    (
        What::LargeImage,
        "images far above the limit",
        &[0, 1, 2, 3, 4],
    ),
    (What::FarRow, "rows that 16 bits don't count", &[0, 1]),
];

/// What a run compares: the codes that it can't have, and how often each other code comes up in a full run at least.
pub type Cover = (What, &'static [usize], u64);

/// What a run compares by mode: the codes that come up in each mode, and those of numbers that are no mode.
pub type ByMode = (What, &'static [usize], &'static [usize]);

/// How often each code was answered.
type Codes = [u64; 32];

#[derive(Default)]
pub struct Tally {
    pub cases: u64,
    answers: [Codes; WHAT.len()],
    /// The answers about an account, by its mode; the last of these is for numbers that are no mode.
    by_mode: [[Codes; MODES as usize + 1]; WHAT.len()],
}

fn add(mine: &mut Codes, theirs: &Codes) {
    mine.iter_mut().zip(theirs).for_each(|(m, t)| *m += t);
}

/// The modes with their names, and a last one for numbers that no mode has.
fn modes() -> impl Iterator<Item = (usize, String)> {
    let named = |mode| match mode {
        MODES => "no mode".into(),
        _ => format!("mode {mode}"),
    };
    (0..=MODES).map(move |mode| (mode.into(), named(mode)))
}

/// The codes that came up, and how often.
fn came_up(codes: &[usize], answers: &Codes) -> Option<String> {
    let codes = codes.iter().filter(|&&code| answers[code] > 0);
    let counts: Vec<String> = codes
        .map(|&code| format!("{code}: {}", answers[code]))
        .collect();
    (!counts.is_empty()).then(|| counts.join(", "))
}

impl Tally {
    pub fn count(&mut self, what: What, code: u8) {
        self.answers[what as usize][usize::from(code) % 32] += 1;
    }

    /// Counts an answer by the mode of an account that it is about.
    pub fn count_mode(&mut self, what: What, mode: u8, code: u8) {
        let mode = usize::from(mode.min(MODES));
        self.by_mode[what as usize][mode][usize::from(code) % 32] += 1;
    }

    /// Counts the answer to a frame of so many octets by its account's mode, and whether the credit was at its cost.
    pub fn count_frame(
        &mut self,
        what: What,
        a: &AccountRow,
        octets: usize,
        (code, credit): (u8, u32),
    ) {
        self.count_mode(what, a.mode, code);
        let edge = match code {
            0 => credit == 0,
            9 => a.cost(octets) == Some(u64::from(credit) + 1),
            _ => false,
        };
        if edge {
            self.count(What::Edge, code);
            self.count_mode(What::Edge, a.mode, code);
        }
    }

    /// Counts a frame whose length cut to 16 bits is 64, by the code that its first 64 octets get. Others are left aside.
    pub fn count_long(&mut self, octets: usize, code: impl FnOnce() -> u8) {
        match octets {
            65_600 => self.count(What::Long65600, code()),
            131_136 => self.count(What::Long131136, code()),
            _ => {}
        }
    }

    pub fn add(&mut self, other: &Tally) {
        self.cases += other.cases;
        for (mine, theirs) in self.answers.iter_mut().zip(&other.answers) {
            add(mine, theirs);
        }
        let (mine, theirs) = (self.by_mode.iter_mut(), other.by_mode.iter());
        for (mine, theirs) in mine.flatten().zip(theirs.flatten()) {
            add(mine, theirs);
        }
    }

    pub fn sum(&self, what: What) -> u64 {
        self.answers[what as usize].iter().sum()
    }

    /// How much was compared.
    pub fn counts(&self) -> String {
        let mut counts = vec![format!("{} cases", self.cases)];
        for (what, name, _) in WHAT {
            if self.sum(what) > 0 {
                counts.push(format!("{} {name}", self.sum(what)));
            }
        }
        counts.join(", ")
    }

    /// The codes of these things that came up too rarely, those left aside that can't. A run has a share of a full one.
    pub fn missing(&self, covers: &[Cover], share: impl Fn(u64) -> u64) -> Vec<String> {
        let mut missing = vec![];
        for &(what, never, least) in covers {
            let (_, name, codes) = WHAT[what as usize];
            let answers = &self.answers[what as usize];
            let least = share(least).max(1);
            let expected = codes.iter().filter(|code| !never.contains(code));
            for &code in expected.filter(|&&code| answers[code] < least) {
                let n = answers[code];
                missing.push(format!(
                    "code {code} came up {n} times among the {name}, and {least} are due"
                ));
            }
        }
        missing
    }

    /// The codes of these things that hardly came up in a mode, or about a number that no mode has.
    pub fn missing_modes(&self, covers: &[ByMode]) -> Vec<String> {
        let mut missing = vec![];
        for &(what, in_modes, in_none) in covers {
            let (_, name, _) = WHAT[what as usize];
            for (mode, named) in modes() {
                let expected = if mode < MODES.into() {
                    in_modes
                } else {
                    in_none
                };
                let rare = expected.iter().filter(|&&code| self.rare(what, mode, code));
                missing.extend(
                    rare.map(|code| format!("hardly a code {code} of {named} among the {name}")),
                );
            }
        }
        missing
    }

    /// Are fewer than one in a hundred of a code's answers of this mode? Chance alone gives a few, such as a bit that flips.
    fn rare(&self, what: What, mode: usize, code: usize) -> bool {
        let by_mode = &self.by_mode[what as usize];
        let all: u64 = by_mode.iter().map(|codes| codes[code]).sum();
        let n = by_mode[mode][code];
        n == 0 || 100 * n < all
    }

    /// One line for each thing compared by mode: the codes that came up in each mode, and how often.
    pub fn modes(&self) -> Vec<String> {
        let mut lines = vec![];
        for (what, name, codes) in WHAT {
            let by_mode = &self.by_mode[what as usize];
            let by_name = modes().filter_map(|(mode, named)| {
                let came_up = came_up(codes, &by_mode[mode])?;
                Some(format!("{named} ({came_up})"))
            });
            let by_name: Vec<String> = by_name.collect();
            if !by_name.is_empty() {
                lines.push(format!("{name} {}", by_name.join(", ")));
            }
        }
        lines
    }

    /// One line for each thing compared: every code, how often, and in how many of a hundred.
    pub fn codes(&self) -> Vec<String> {
        let compared = WHAT.iter().filter(|(what, ..)| self.sum(*what) > 0);
        let line = |&(what, name, codes): &(What, &str, &[usize])| {
            let shares = codes.iter().map(|&code| {
                let n = self.answers[what as usize][code];
                let share = 100.0 * n as f64 / self.sum(what) as f64;
                format!("{code}: {n} ({share:.1} %)")
            });
            format!("{name} {}", shares.collect::<Vec<_>>().join(", "))
        };
        compared.map(line).collect()
    }
}
