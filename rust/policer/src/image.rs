//! Reading and writing configuration images.

use crate::rules::{
    ACCOUNTS_MAX, ACCOUNT_ROW, BAD_COUNT, BAD_LENGTH, BAD_TAG, BAD_VALUE, CONSTANT_BITS, DONE,
    IMAGE_CUT, LINKS_MAX, LINK_ROW, NO_ROOM, TRAILING,
};
use crate::tables::{account, link_number, Config, Link};

const TAG_HEAD: u8 = 1;
const TAG_ACCOUNT: u8 = 2;
const TAG_LINK: u8 = 3;
const TAG_END: u8 = 9;

/// Octets of a tag and its length.
const PREFIX: usize = 3;
/// Octets of the head's data: edition and constant field.
const HEAD_ROW: usize = 5;

/// Whole fields, prefix and data.
const HEAD_FIELD: usize = PREFIX + HEAD_ROW;
const ACCOUNT_FIELD: usize = PREFIX + ACCOUNT_ROW;
const LINK_FIELD: usize = PREFIX + LINK_ROW;

/// Octets of the longest image.
pub const IMAGE_MAX: usize =
    HEAD_FIELD + ACCOUNTS_MAX * ACCOUNT_FIELD + LINKS_MAX * LINK_FIELD + PREFIX;
/// So many octets of any file decide what the reader answers: one field more
/// than the longest image holds.
pub(crate) const IMAGE_DECIDED: usize = IMAGE_MAX + LINK_FIELD;

/// The one edition there is.
const EDITION: u8 = 1;

/// What reading an image answers.
#[derive(Debug, Clone, Copy, PartialEq, Eq)]
pub struct Loaded {
    /// 0 or a code from 20 up.
    pub code: u8,
    /// Offset in the image: that of the refused field, or the image's end.
    pub offset: usize,
    /// The constant field; 0 when refused.
    pub constant: u32,
    /// How many accounts; 0 when refused.
    pub accounts: usize,
    /// How many links; 0 when refused.
    pub links: usize,
}

impl Loaded {
    fn refused(code: u8, offset: usize) -> Self {
        Loaded {
            code,
            offset,
            constant: 0,
            accounts: 0,
            links: 0,
        }
    }
}

/// What writing an image answers.
#[derive(Debug, Clone, Copy, PartialEq, Eq)]
pub struct Written {
    /// 0, 23, 24 or 26.
    pub code: u8,
    /// Image length, offset of the bad field with 23, otherwise 0.
    pub offset: usize,
}

/// The account rows and link rows of a configuration.
type Rows<'a> = (&'a [[u8; ACCOUNT_ROW]], &'a [[u8; LINK_ROW]]);

/// Where account field `index` begins.
fn account_place(index: usize) -> usize {
    HEAD_FIELD + index * ACCOUNT_FIELD
}

/// Where link field `index` begins after so many accounts.
fn link_place(accounts: usize, index: usize) -> usize {
    account_place(accounts) + index * LINK_FIELD
}

fn constant_holds(constant: u32) -> bool {
    constant & CONSTANT_BITS == CONSTANT_BITS
}

fn account_holds(row: &[u8; ACCOUNT_ROW]) -> bool {
    account(row, 0, 0).terms_hold()
}

/// Checks a link row against the number before it and the Smax of its account;
/// `smax_of` gives none for an account that doesn't exist.
fn link_holds(
    row: &[u8; LINK_ROW],
    before: Option<u16>,
    smax_of: impl Fn(usize) -> Option<u16>,
) -> bool {
    let link = Link::read(row);
    before.is_none_or(|number| number < link_number(row))
        && smax_of(link.account).is_some_and(|smax| link.holds(smax))
}

/// Which tags may follow which.
fn may_follow(before: Option<u8>, tag: u8) -> bool {
    matches!(
        (before, tag),
        (None, TAG_HEAD)
            | (Some(TAG_HEAD | TAG_ACCOUNT), TAG_ACCOUNT)
            | (Some(TAG_ACCOUNT | TAG_LINK), TAG_LINK)
            | (Some(TAG_LINK), TAG_END)
    )
}

/// One field's data, by its tag.
enum Field<'a> {
    Head(&'a [u8; HEAD_ROW]),
    Account(&'a [u8; ACCOUNT_ROW]),
    Link(&'a [u8; LINK_ROW]),
    End,
}

/// The first `N` octets of a field's data, if its length says `N` and they are
/// all there.
fn data<const N: usize>(length: usize, rest: &[u8]) -> Result<&[u8; N], u8> {
    if length != N {
        return Err(BAD_LENGTH);
    }
    rest.first_chunk().ok_or(IMAGE_CUT)
}

/// Cuts a field from the start of `octets`, without judging its values. Gives
/// its tag too.
fn field(octets: &[u8], before: Option<u8>) -> Result<(u8, Field<'_>), u8> {
    let (&[tag, high, low], rest) = octets.split_first_chunk::<PREFIX>().ok_or(IMAGE_CUT)?;
    if !may_follow(before, tag) {
        return Err(BAD_TAG);
    }
    let length = usize::from(u16::from_be_bytes([high, low]));
    let field = match tag {
        TAG_HEAD => Field::Head(data(length, rest)?),
        TAG_ACCOUNT => Field::Account(data(length, rest)?),
        TAG_LINK => Field::Link(data(length, rest)?),
        _ => {
            data::<0>(length, rest)?;
            Field::End
        }
    };
    Ok((tag, field))
}

/// The reader: an image, the place reached in it, and what was found so far.
struct Reader<'a> {
    image: &'a [u8],
    place: usize,
    tag: Option<u8>,
    number: Option<u16>,
    constant: u32,
    accounts: usize,
    links: usize,
}

impl<'a> Reader<'a> {
    fn new(image: &'a [u8]) -> Self {
        Reader {
            image,
            place: 0,
            tag: None,
            number: None,
            constant: 0,
            accounts: 0,
            links: 0,
        }
    }

    /// Smax of an account already read.
    fn smax_of(&self, index: usize) -> Option<u16> {
        if index >= self.accounts {
            return None;
        }
        let data = self.image.get(account_place(index) + PREFIX..)?;
        data.first_chunk().map(|smax| u16::from_be_bytes(*smax))
    }

    /// Reads the field at the place. On a refusal the place stays on it, and
    /// after the last field it is the image's end.
    fn step(&mut self) -> Result<bool, u8> {
        let image = self.image;
        let (tag, field) = field(&image[self.place..], self.tag)?;
        let size = match field {
            Field::Head(row) => {
                self.head(row)?;
                HEAD_FIELD
            }
            Field::Account(row) => {
                self.account(row)?;
                ACCOUNT_FIELD
            }
            Field::Link(row) => {
                self.link(row)?;
                LINK_FIELD
            }
            Field::End => PREFIX,
        };
        self.tag = Some(tag);
        self.place += size;
        if tag != TAG_END {
            return Ok(true);
        }
        if self.place < image.len() {
            return Err(TRAILING);
        }
        Ok(false)
    }

    fn head(&mut self, row: &[u8; HEAD_ROW]) -> Result<(), u8> {
        let [edition, c0, c1, c2, c3] = *row;
        self.constant = u32::from_be_bytes([c0, c1, c2, c3]);
        if edition != EDITION || !constant_holds(self.constant) {
            return Err(BAD_VALUE);
        }
        Ok(())
    }

    fn account(&mut self, row: &[u8; ACCOUNT_ROW]) -> Result<(), u8> {
        if self.accounts == ACCOUNTS_MAX {
            return Err(BAD_COUNT);
        }
        if !account_holds(row) {
            return Err(BAD_VALUE);
        }
        self.accounts += 1;
        Ok(())
    }

    fn link(&mut self, row: &[u8; LINK_ROW]) -> Result<(), u8> {
        if self.links == LINKS_MAX {
            return Err(BAD_COUNT);
        }
        if !link_holds(row, self.number, |index| self.smax_of(index)) {
            return Err(BAD_VALUE);
        }
        self.number = Some(link_number(row));
        self.links += 1;
        Ok(())
    }
}

/// Reads an image without filling any tables, so it never answers 26.
pub fn check(image: &[u8]) -> Loaded {
    let mut reader = Reader::new(image);
    loop {
        match reader.step() {
            Ok(true) => {}
            Ok(false) => {
                return Loaded {
                    code: DONE,
                    offset: reader.place,
                    constant: reader.constant,
                    accounts: reader.accounts,
                    links: reader.links,
                }
            }
            Err(code) => return Loaded::refused(code, reader.place),
        }
    }
}

/// Reads an image and fills the runs from it: rows, full credits, last times 0.
/// A refused image leaves all four alone.
pub fn load(
    image: &[u8],
    accounts: &mut [u8],
    credits: &mut [u32],
    lasts: &mut [u64],
    links: &mut [u8],
) -> Loaded {
    let loaded = check(image);
    if loaded.code != DONE {
        return loaded;
    }
    let (account_rows, _) = accounts.as_chunks_mut::<ACCOUNT_ROW>();
    let (link_rows, _) = links.as_chunks_mut::<LINK_ROW>();
    if account_rows.len() < loaded.accounts
        || credits.len() < loaded.accounts
        || lasts.len() < loaded.accounts
        || link_rows.len() < loaded.links
    {
        return Loaded::refused(NO_ROOM, image.len());
    }

    // The fields of an accepted image stand at fixed offsets.
    let (account_fields, link_fields) =
        image[HEAD_FIELD..].split_at(loaded.accounts * ACCOUNT_FIELD);
    let account_fields = account_fields.as_chunks::<ACCOUNT_FIELD>().0;
    for (index, field) in account_fields.iter().enumerate() {
        account_rows[index].copy_from_slice(&field[PREFIX..]);
        credits[index] = account(&account_rows[index], 0, 0).capacity();
        lasts[index] = 0;
    }
    let link_fields = link_fields.as_chunks::<LINK_FIELD>().0;
    for (row, field) in link_rows.iter_mut().zip(&link_fields[..loaded.links]) {
        row.copy_from_slice(&field[PREFIX..]);
    }
    loaded
}

/// The rows that count, if an image could hold so many and all are lent.
fn rows_in_use<'a>(config: &Config<'a>) -> Option<Rows<'a>> {
    let accounts = config.account_rows().get(..config.account_count)?;
    let links = config.link_rows().get(..config.link_count)?;
    let fit =
        (1..=ACCOUNTS_MAX).contains(&accounts.len()) && (1..=LINKS_MAX).contains(&links.len());
    fit.then_some((accounts, links))
}

/// The offset of the first bad value in image order.
fn first_bad_value(constant: u32, (accounts, links): Rows) -> Option<usize> {
    if !constant_holds(constant) {
        return Some(0);
    }
    if let Some(bad) = accounts.iter().position(|row| !account_holds(row)) {
        return Some(account_place(bad));
    }
    let smax_of = |index: usize| accounts.get(index).map(|row| account(row, 0, 0).smax);
    let mut before = None;
    for (index, row) in links.iter().enumerate() {
        if !link_holds(row, before, smax_of) {
            return Some(link_place(accounts.len(), index));
        }
        before = Some(link_number(row));
    }
    None
}

/// Writes one field over the start of `room` and gives what is left of it.
fn put<'a>(room: &'a mut [u8], tag: u8, data: &[&[u8]]) -> &'a mut [u8] {
    let length: usize = data.iter().map(|part| part.len()).sum();
    let [high, low] = (length as u16).to_be_bytes();
    let (prefix, mut room) = room.split_at_mut(PREFIX);
    prefix.copy_from_slice(&[tag, high, low]);
    for part in data {
        let (place, rest) = room.split_at_mut(part.len());
        place.copy_from_slice(part);
        room = rest;
    }
    room
}

/// Writes the image of good values over the start of `room`.
fn put_image(room: &mut [u8], constant: u32, (accounts, links): Rows) {
    let mut room = put(room, TAG_HEAD, &[&[EDITION], &constant.to_be_bytes()]);
    for row in accounts {
        room = put(room, TAG_ACCOUNT, &[row]);
    }
    for row in links {
        room = put(room, TAG_LINK, &[row]);
    }
    put(room, TAG_END, &[]);
}

/// Writes the image of a configuration to the start of `room`. A refusal
/// writes nothing.
pub fn write(config: &Config, room: &mut [u8]) -> Written {
    let answer = |code, offset| Written { code, offset };
    let Some(rows) = rows_in_use(config) else {
        return answer(BAD_COUNT, 0);
    };
    if let Some(offset) = first_bad_value(config.constant, rows) {
        return answer(BAD_VALUE, offset);
    }
    let (accounts, links) = rows;
    let length = link_place(accounts.len(), links.len()) + PREFIX;
    if room.len() < length {
        return answer(NO_ROOM, 0);
    }
    put_image(room, config.constant, rows);
    answer(DONE, length)
}
