//! A second opinion on who may pass: the rule of demand 3, by sums alone.
//!
//! Nothing here holds a credit. For each account the judge only remembers the
//! frames that reached it, and sums what it let through since each of them.
//! That takes quadratic time in the frames of one account. `receive` does the
//! same for the rule of request Q-1.
#![forbid(unsafe_code)]
#![warn(missing_docs)]

pub mod receive;

/// One frame call of a history.
#[derive(Debug, Clone, Copy, PartialEq, Eq)]
pub struct Call<'a> {
    /// The frame's octets.
    pub frame: &'a [u8],
    /// The port it came in on.
    pub port: u32,
    /// Its time in microseconds.
    pub time: u64,
}

/// The fixed terms of an account.
#[derive(Debug, Clone, Copy, PartialEq, Eq)]
pub struct Terms {
    /// Largest frame paid for, in octets.
    pub smax: u16,
    /// The BAG is 2^k milliseconds.
    pub k: u8,
    /// Allowed jitter, in microseconds.
    pub jitter: u16,
    /// 0 byte mode, 1 frame mode; 2 and 3 are these with line octets.
    pub mode: u8,
}

impl Terms {
    /// Could an accepted image hold these?
    fn accepted(&self) -> bool {
        (64..=1_518).contains(&self.smax) && self.k <= 7 && self.jitter <= 10_000 && self.mode <= 3
    }

    /// BAG in microseconds.
    fn bag(&self) -> u128 {
        1_000 << self.k
    }

    /// Octets added to each frame: its line octets, where they count.
    fn added(&self) -> u128 {
        match self.mode {
            0 | 1 => 0,
            _ => 20,
        }
    }

    /// The greater Smax, with the octets added.
    fn greater_smax(&self) -> u128 {
        u128::from(self.smax) + self.added()
    }

    /// What a frame of so many octets costs.
    fn cost(&self, octets: usize) -> u128 {
        let charged = match self.mode {
            0 | 2 => octets as u128 + self.added(),
            _ => self.greater_smax(),
        };
        charged * self.bag()
    }

    /// The most that may be spent over a stretch of so many microseconds.
    fn allowance(&self, since: u64) -> u128 {
        self.greater_smax() * (self.bag() + u128::from(self.jitter) + u128::from(since))
    }
}

/// A frame that reached an account.
struct Reached {
    time: u64,
    /// Its cost if the rule let it pass, else 0.
    passed: u128,
}

/// All frames that reached one account so far, oldest first.
struct Past {
    terms: Terms,
    reached: Vec<Reached>,
}

impl Past {
    fn new(terms: Terms) -> Self {
        assert!(terms.accepted(), "no accepted image holds {terms:?}");
        Past {
            terms,
            reached: Vec::new(),
        }
    }

    /// Does the rule hold for this frame, from itself and from each earlier one?
    /// Walks back in time, so the sum since each grows by one cost a step.
    fn rule_holds(&self, cost: u128, time: u64) -> bool {
        if cost > self.terms.allowance(0) {
            return false;
        }
        let mut spent = cost;
        self.reached.iter().rev().all(|earlier| {
            spent += earlier.passed;
            spent <= self.terms.allowance(time - earlier.time)
        })
    }

    /// Code 8, 9 or 0 for a frame that passed every earlier check.
    fn judge(&mut self, octets: usize, time: u64) -> u8 {
        if self.reached.last().is_some_and(|last| time < last.time) {
            return 8;
        }
        let cost = self.terms.cost(octets);
        let holds = self.rule_holds(cost, time);
        self.reached.push(Reached {
            time,
            passed: if holds { cost } else { 0 },
        });
        if holds {
            0
        } else {
            9
        }
    }
}

/// A link of an accepted image.
struct Link {
    number: u16,
    port: u8,
    smallest: u16,
    largest: u16,
    account: usize,
}

/// What an accepted image says.
struct Image {
    constant: [u8; 4],
    accounts: Vec<Terms>,
    links: Vec<Link>,
}

fn pair(octets: &[u8], at: usize) -> u16 {
    u16::from_be_bytes([octets[at], octets[at + 1]])
}

/// Decodes an accepted image. Only the tags are looked at: acceptance is the
/// caller's word.
fn decode(octets: &[u8]) -> Image {
    let mut image = Image {
        constant: [0; 4],
        accounts: Vec::new(),
        links: Vec::new(),
    };
    let mut rest = octets;
    loop {
        let tag = *rest.first().expect("an accepted image has an end field");
        let size = match tag {
            1 => {
                image.constant.copy_from_slice(&rest[4..8]);
                8
            }
            2 => {
                image.accounts.push(Terms {
                    smax: pair(rest, 3),
                    k: rest[5],
                    jitter: pair(rest, 6),
                    mode: rest[8],
                });
                9
            }
            3 => {
                // The mask, at 6 to 9, has no say in the codes.
                image.links.push(Link {
                    number: pair(rest, 3),
                    port: rest[5],
                    smallest: pair(rest, 10),
                    largest: pair(rest, 12),
                    account: usize::from(pair(rest, 14)),
                });
                16
            }
            9 => return image,
            _ => panic!("an accepted image has no tag {tag}"),
        };
        rest = &rest[size..];
    }
}

/// Code 1 or 2 for a size that no frame has.
fn size_code(octets: usize) -> Option<u8> {
    match octets {
        0..=63 => Some(1),
        64..=1_518 => None,
        _ => Some(2),
    }
}

/// The link of a call, or the first of codes 1 to 7 that fits it.
fn filter<'a>(image: &'a Image, call: &Call) -> Result<&'a Link, u8> {
    let octets = call.frame.len();
    if let Some(code) = size_code(octets) {
        return Err(code);
    }
    if call.frame[0..4] != image.constant {
        return Err(3);
    }
    let number = pair(call.frame, 4);
    let link = image
        .links
        .iter()
        .find(|link| link.number == number)
        .ok_or(4)?;
    if call.port != u32::from(link.port) {
        return Err(5);
    }
    if octets < usize::from(link.smallest) {
        return Err(6);
    }
    if octets > usize::from(link.largest) {
        return Err(7);
    }
    Ok(link)
}

/// The code of each frame of a history that starts from an accepted image, by
/// the rule of demand 3.
///
/// # Panics
///
/// May panic if no reader would accept the image; the rule says nothing then.
pub fn codes(image: &[u8], calls: &[Call]) -> Vec<u8> {
    let image = decode(image);
    let mut pasts: Vec<Past> = image.accounts.iter().copied().map(Past::new).collect();
    calls
        .iter()
        .map(|call| match filter(&image, call) {
            Ok(link) => pasts[link.account].judge(call.frame.len(), call.time),
            Err(code) => code,
        })
        .collect()
}

/// The same for policing steps (octets, time) on one account.
///
/// # Panics
///
/// Panics if no accepted image holds such terms; the rule says nothing then.
pub fn step_codes(terms: &Terms, steps: &[(usize, u64)]) -> Vec<u8> {
    let mut past = Past::new(*terms);
    steps
        .iter()
        .map(|&(octets, time)| size_code(octets).unwrap_or_else(|| past.judge(octets, time)))
        .collect()
}

#[cfg(test)]
mod tests {
    use super::*;

    /// The figures themselves: in frame mode line octets change no code, as both
    /// sides of the rule grow alike.
    #[test]
    fn costs_and_allowances() {
        for (mode, costs, allowances) in [
            (0, [64_000, 200_000, 300_000], [300_000, 300_200, 500_000]),
            (1, [200_000, 200_000, 200_000], [300_000, 300_200, 500_000]),
            (2, [84_000, 220_000, 320_000], [330_000, 330_220, 550_000]),
            (3, [220_000, 220_000, 220_000], [330_000, 330_220, 550_000]),
        ] {
            let terms = Terms {
                smax: 200,
                k: 0,
                jitter: 500,
                mode,
            };
            assert_eq!([64, 200, 300].map(|octets| terms.cost(octets)), costs);
            let since = [0, 1, 1_000].map(|since| terms.allowance(since));
            assert_eq!(since, allowances);
        }
    }

    #[test]
    fn the_widest_terms() {
        for (mode, cost, allowance) in [
            (0, 194_304_000, 209_484_000),
            (1, 194_304_000, 209_484_000),
            (2, 196_864_000, 212_244_000),
            (3, 196_864_000, 212_244_000),
        ] {
            let terms = Terms {
                smax: 1_518,
                k: 7,
                jitter: 10_000,
                mode,
            };
            assert_eq!(terms.cost(1_518), cost);
            assert_eq!(terms.allowance(0), allowance);
        }
    }
}
