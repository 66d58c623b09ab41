//! The exported calls, each with inputs that reach its long paths: every value rule at both sides, every code, tables and
//! images at their limits, and images that go wrong as late as they can.

use trials::plan::{AccountRow, LinkRow, Plan};

/// A call with its input, made ready; it may be made once.
pub struct Case {
    pub about: String,
    pub call: Box<dyn FnMut()>,
}

/// An exported call.
pub struct Export {
    pub name: &'static str,
    pub address: u64,
    /// How often a loop of the call goes back to its start at most, with these inputs.
    pub turns: u64,
    /// Hands over the inputs one by one.
    pub cases: fn(&mut dyn FnMut(Case)),
}

extern "C" {
    fn ashthulgo_read_frame();
    fn ashthulgo_capacity();
    fn ashthulgo_cost();
    fn ashthulgo_top_up();
    fn ashthulgo_police();
    fn ashthulgo_police_in_place();
    fn ashthulgo_frame_call();
    fn ashthulgo_check();
    fn ashthulgo_load();
    fn ashthulgo_reader_load();
    fn ashthulgo_write();
    fn ashthulgo_receive();
}

macro_rules! export {
    ($name:ident, $turns:expr, $cases:expr) => {
        Export {
            name: stringify!($name),
            address: $name as *const () as u64,
            turns: $turns,
            cases: $cases,
        }
    };
}

/// All calls of `include/ashthulgo.h`.
pub fn exports() -> Vec<Export> {
    // A search looks at two rows a turn. Reading, loading and writing have loops that turn for each account or each link.
    let of_search = |rows: usize| rows as u64 / 2 - 1;
    let of_image = MAX_LINKS as u64 + 1;
    vec![
        export!(ashthulgo_read_frame, 0, read_frame),
        export!(ashthulgo_capacity, 0, capacity),
        export!(ashthulgo_cost, 0, cost),
        export!(ashthulgo_top_up, 0, top_up),
        export!(ashthulgo_police, 0, |visit| police(ffi::police, visit)),
        export!(ashthulgo_police_in_place, 0, |visit| police(
            ffi::police_in_place,
            visit
        )),
        export!(ashthulgo_frame_call, of_search(MAX_LINKS), |visit| {
            frame_call(MAX_LINKS, visit);
            frame_call(MAX_LINKS - 1, visit);
        }),
        export!(ashthulgo_check, of_image, check),
        export!(ashthulgo_load, of_image, load),
        export!(ashthulgo_reader_load, of_image, reader_load),
        export!(ashthulgo_write, of_image, write),
        export!(ashthulgo_receive, of_search(RECEIVE_ROWS), |visit| {
            receive(RECEIVE_ROWS, visit);
            receive(RECEIVE_ROWS - 1, visit);
        }),
    ]
}

const MAX_ACCOUNTS: usize = 64;
const MAX_LINKS: usize = 256;
/// Rows of the receiving end in the table; the papers limit them nowhere.
const RECEIVE_ROWS: usize = 64;
/// Frame sizes at both sides of a frame's limits.
const SIZES: [usize; 4] = [63, 64, 1_518, 1_519];
/// Last times and times: later, before, the longest gap.
const TIMES: [(u64, u64); 3] = [(0, 1), (5, 4), (0, u64::MAX)];

fn case(about: String, call: impl FnMut() + 'static) -> Case {
    Case {
        about,
        call: Box::new(call),
    }
}

fn read_frame(visit: &mut dyn FnMut(Case)) {
    for octets in SIZES {
        let frame = vec![3; octets];
        visit(case(format!("{octets} octets"), move || {
            ffi::read_frame(&frame);
        }));
    }
}

/// Values of accounts at and above their limits, with no credit, with the capacity and with more than that.
fn accounts(visit: &mut dyn FnMut(ffi::Terms, u32, String)) {
    for (smax, k, jitter) in [
        (1_518, 7, 10_000),
        (64, 0, 0),
        (63, 0, 0),
        (1_519, 7, 0),
        (64, 8, 0),
        (64, 7, 10_001),
    ] {
        for mode in 0..=4 {
            let row = AccountRow {
                smax,
                k,
                jitter,
                mode,
            };
            let full = row.capacity().unwrap_or(1) as u32;
            for credit in [0, full, full + 1] {
                let about = format!("Smax {smax}, k {k}, J {jitter}, mode {mode}, credit {credit}");
                let terms = ffi::Terms {
                    smax,
                    k,
                    jitter,
                    mode,
                };
                visit(terms, credit, about);
            }
        }
    }
}

fn capacity(visit: &mut dyn FnMut(Case)) {
    accounts(&mut |terms, credit, about| {
        visit(case(about, move || {
            ffi::capacity(&terms, credit);
        }));
    });
}

fn cost(visit: &mut dyn FnMut(Case)) {
    accounts(&mut |terms, credit, about| {
        for octets in SIZES {
            visit(case(format!("{octets} octets, {about}"), move || {
                ffi::cost(&terms, credit, octets);
            }));
        }
    });
}

fn top_up(visit: &mut dyn FnMut(Case)) {
    accounts(&mut |terms, credit, about| {
        for (mut last, time) in TIMES {
            let mut credit = credit;
            visit(case(
                format!("at {time} after {last}, {about}"),
                move || {
                    ffi::top_up(&terms, &mut credit, &mut last, time);
                },
            ));
        }
    });
}

type Police = fn(&ffi::Terms, &mut u32, &mut u64, usize, u64) -> ffi::StepAnswer;

fn police(police: Police, visit: &mut dyn FnMut(Case)) {
    accounts(&mut |terms, credit, about| {
        for octets in SIZES {
            for (mut last, time) in TIMES {
                let mut credit = credit;
                let about = format!("{octets} octets at {time} after {last}, {about}");
                visit(case(about, move || {
                    police(&terms, &mut credit, &mut last, octets, time);
                }));
            }
        }
    });
}

/// Tables of so many links that share up to 64 accounts of one mode.
fn plan(links: usize, mode: u8) -> Plan {
    tables(links.min(MAX_ACCOUNTS), links, mode)
}

/// Tables of so many accounts of one mode and so many links, at the limits of their values.
fn tables(accounts: usize, links: usize, mode: u8) -> Plan {
    let account = AccountRow {
        smax: 1_518,
        k: 7,
        jitter: 10_000,
        mode,
    };
    Plan {
        constant: 0x0310_2030,
        accounts: vec![account; accounts],
        links: (0..links)
            .map(|j| LinkRow {
                number: 100 + 3 * j as u16,
                port: (j % 32) as u8,
                mask: !(1 << (j % 32)),
                smallest: 64,
                largest: 1_518,
                account: (j % accounts) as u16,
            })
            .collect(),
    }
}

/// The frame call over so many links: the frame's link in the last row, in the one before and in none, on its port and on
/// another one, with all other values as `accounts` has them.
pub fn frame_call(links: usize, visit: &mut dyn FnMut(Case)) {
    for mode in 0..=4 {
        let plan = plan(links, mode);
        let full = plan.accounts[0].capacity().unwrap_or(1) as u32;
        for row in [links - 1, links.saturating_sub(2), links] {
            for credit in [0, full, full + 1] {
                for (octets, other_port) in [(64, 0), (1_518, 0), (64, 1), (63, 0), (1_519, 0)] {
                    for (last, time) in TIMES {
                        visit(frame(&plan, row, credit, octets, other_port, last, time));
                    }
                }
            }
        }
    }
}

/// The rows of a plan, as a call is lent them.
struct Lent {
    constant: u32,
    accounts: Vec<u8>,
    account_count: usize,
    links: Vec<u8>,
    link_count: usize,
}

impl Lent {
    fn of(plan: &Plan) -> Self {
        Lent {
            constant: plan.constant,
            accounts: plan.account_rows(),
            account_count: plan.accounts.len(),
            links: plan.link_rows(),
            link_count: plan.links.len(),
        }
    }

    fn tables(&self) -> ffi::Tables<'_> {
        ffi::Tables {
            constant: self.constant,
            accounts: &self.accounts,
            account_count: self.account_count,
            links: &self.links,
            link_count: self.link_count,
        }
    }
}

fn frame(
    plan: &Plan,
    row: usize,
    credit: u32,
    octets: usize,
    other_port: u32,
    last: u64,
    time: u64,
) -> Case {
    let number = 100 + 3 * row as u16;
    let port = (row % 32) as u32 + other_port;
    let frame = plan.frame(number, octets, &[0x55]);
    let lent = Lent::of(plan);
    let link_count = plan.links.len();
    let mut credits = vec![credit; plan.accounts.len()];
    let mut lasts = vec![last; plan.accounts.len()];
    let mode = plan.accounts[0].mode;
    let about = format!(
        "row {row} of {link_count}, {octets} octets at {time} after {last}, mode {mode}, credit {credit}"
    );
    case(about, move || {
        ffi::frame_call(&frame, port, time, &lent.tables(), &mut credits, &mut lasts);
    })
}

/// A value of a link that breaks its rule.
type Spoil = (&'static str, fn(&mut LinkRow));

const SPOILS: [Spoil; 6] = [
    ("number", |l| l.number -= 3),
    ("port", |l| l.port = 32),
    ("mask", |l| l.mask = u32::MAX),
    ("smallest size", |l| l.smallest = 63),
    ("largest size", |l| l.largest = 1_519),
    ("account", |l| l.account = 64),
];

/// The longest images, whole; altered, cut and lengthened in their last fields; and longer by a link or an account.
fn images(visit: &mut dyn FnMut(String, Vec<u8>)) {
    for mode in 0..4 {
        let about = format!("64 accounts of mode {mode}, 256 links");
        visit(about, plan(MAX_LINKS, mode).image());
    }
    let whole = plan(MAX_LINKS, 3);
    for (value, spoil) in SPOILS {
        let mut bad = whole.clone();
        spoil(&mut bad.links[MAX_LINKS - 1]);
        visit(
            format!("256 links, the last one's {value} bad"),
            bad.image(),
        );
    }
    let more = plan(MAX_LINKS + 1, 3).image();
    visit("257 links".into(), more.clone());
    visit("257 links, the last one's length bad".into(), {
        let mut image = more.clone();
        image[more.len() - 3 - 14] = 14;
        image
    });
    visit(
        "257 links, the last one cut".into(),
        more[..more.len() - 4].to_vec(),
    );
    let whole = whole.image();
    visit(
        "256 links, an unknown tag".into(),
        [&whole[..whole.len() - 3], &[4; 3]].concat(),
    );
    visit(
        "256 links, the end cut".into(),
        whole[..whole.len() - 1].to_vec(),
    );
    visit(
        "256 links, an octet after the end".into(),
        [&whole[..], &[0]].concat(),
    );
    let mut many = plan(MAX_LINKS, 3);
    many.accounts.push(many.accounts[0]);
    visit("65 accounts".into(), many.image());
}

fn check(visit: &mut dyn FnMut(Case)) {
    images(&mut |about, image| visit(checked(about, image)));
}

fn checked(about: String, image: Vec<u8>) -> Case {
    case(about, move || {
        ffi::check(&image);
    })
}

/// The four runs that an image is loaded into, for so many accounts and links.
struct Runs {
    accounts: Vec<u8>,
    credits: Vec<u32>,
    lasts: Vec<u64>,
    links: Vec<u8>,
}

impl Runs {
    fn new(accounts: usize, links: usize) -> Self {
        Runs {
            accounts: vec![0xEE; 6 * accounts],
            credits: vec![1; accounts],
            lasts: vec![1; accounts],
            links: vec![0xEE; 13 * links],
        }
    }
}

/// Images with the runs they are loaded into: as long as needed, longer, and too short.
fn loads(visit: &mut dyn FnMut(String, Vec<u8>, Runs)) {
    images(&mut |about, image| visit(about, image, Runs::new(MAX_ACCOUNTS, MAX_LINKS)));
    let image = plan(MAX_LINKS, 3).image();
    for (accounts, links) in [(64, 255), (65, 257)] {
        let about = format!("256 links, runs for {accounts} accounts and {links} links");
        visit(about, image.clone(), Runs::new(accounts, links));
    }
}

fn load(visit: &mut dyn FnMut(Case)) {
    loads(&mut |about, image, runs| visit(loaded(about, image, runs)));
}

fn loaded(about: String, image: Vec<u8>, mut runs: Runs) -> Case {
    case(about, move || {
        let r = &mut runs;
        ffi::load(
            &image,
            &mut r.accounts,
            &mut r.credits,
            &mut r.lasts,
            &mut r.links,
        );
    })
}

fn reader_load(visit: &mut dyn FnMut(Case)) {
    loads(&mut |about, image, runs| visit(loaded_by_reader(about, image, runs)));
}

fn loaded_by_reader(about: String, image: Vec<u8>, mut runs: Runs) -> Case {
    let mut place = 0;
    case(about, move || {
        let r = &mut runs;
        ffi::reader_load(
            &image,
            &mut place,
            &mut r.accounts,
            &mut r.credits,
            &mut r.lasts,
            &mut r.links,
        );
    })
}

/// The tables of the longest images, whole and with a bad last row, and room of just their length, more and less.
fn write(visit: &mut dyn FnMut(Case)) {
    let octets = plan(MAX_LINKS, 3).image().len();
    for mode in 0..=4 {
        let about = format!("64 accounts of mode {mode}, 256 links");
        visit(written(about, &plan(MAX_LINKS, mode), octets));
    }
    let whole = plan(MAX_LINKS, 3);
    for room in [octets - 1, octets + 1] {
        visit(written(
            format!("256 links, room for {room} octets"),
            &whole,
            room,
        ));
    }
    for (value, spoil) in SPOILS {
        let mut bad = whole.clone();
        spoil(&mut bad.links[MAX_LINKS - 1]);
        visit(written(
            format!("256 links, the last one's {value} bad"),
            &bad,
            octets,
        ));
    }
    visit(written("257 links".into(), &plan(MAX_LINKS + 1, 3), octets));
}

fn written(about: String, plan: &Plan, room: usize) -> Case {
    let lent = Lent::of(plan);
    let mut room = vec![0xEE; room];
    case(about, move || {
        ffi::write(&lent.tables(), &mut room);
    })
}

const NOW: u64 = 10_000;
const SKEW_MAX: u32 = 5_000;

/// Receptions over so many rows, on the link of the last one, of the one before and of none: in sequence, reset and out of
/// sequence, with a delivery on the other network that is none, just young enough, too old and later, and late.
pub fn receive(rows: usize, visit: &mut dyn FnMut(Case)) {
    for row in [rows - 1, rows.saturating_sub(2), rows] {
        for network in [0, 1] {
            for (number, last) in [(1, 0), (0, 9), (2, 2), (1, 256), (1, 255), (9, 2), (1, 300)] {
                let young = NOW - u64::from(SKEW_MAX);
                for delivery in [None, Some(young), Some(young - 1), Some(NOW + 1)] {
                    visit(received(rows, row, network, number, last, delivery, NOW));
                }
                visit(received(rows, row, network, number, last, None, NOW + 1));
            }
        }
    }
}

fn received(
    count: usize,
    row: usize,
    network: u8,
    number: u8,
    last: u64,
    delivery: Option<u64>,
    last_time: u64,
) -> Case {
    let row_of = |i: usize| {
        [
            &(100 + 3 * i as u16).to_be_bytes()[..],
            &SKEW_MAX.to_be_bytes(),
        ]
        .concat()
    };
    let rows: Vec<u8> = (0..count).flat_map(row_of).collect();
    let mut memories = vec![0; policer::RECORD_WORDS * count];
    if let Some(memory) = memories.chunks_exact_mut(policer::RECORD_WORDS).nth(row) {
        let of_other = 3 + 512 * usize::from(1 - network) + 2 * usize::from(number);
        memory[0] = last_time;
        memory[1 + usize::from(network)] = last;
        memory[of_other] = u64::from(delivery.is_some());
        memory[of_other + 1] = delivery.unwrap_or(0);
    }
    let about = format!(
        "row {row} of {count}, network {network}, number {number}, word of the last number {last}, the other network's \
         delivery {delivery:?}, last time {last_time}, now {NOW}"
    );
    let link = 100 + 3 * row as u16;
    case(about, move || {
        ffi::receive(
            link,
            ffi::Network::of(network),
            number,
            NOW,
            &rows,
            &mut memories,
        );
    })
}

/// Reading, loading and writing the image of so many accounts and links, one of them by name.
pub fn of_image(name: &str, accounts: usize, links: usize) -> Option<Case> {
    let plan = tables(accounts, links, 3);
    let (image, runs) = (plan.image(), Runs::new(accounts, links));
    let about = format!("{accounts} accounts, {links} links");
    match name {
        "ashthulgo_check" => Some(checked(about, image)),
        "ashthulgo_load" => Some(loaded(about, image, runs)),
        "ashthulgo_reader_load" => Some(loaded_by_reader(about, image, runs)),
        "ashthulgo_write" => Some(written(about, &plan, image.len())),
        _ => None,
    }
}
