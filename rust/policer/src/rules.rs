//! The numbers of document 01: limits and answer codes; those of requests Q-1
//! and Q-3.

/// Shortest frame, in octets.
pub const FRAME_MIN: usize = 64;
/// Longest frame, in octets.
pub const FRAME_MAX: usize = 1_518;
/// The offset of a frame's payload.
pub const PAYLOAD_START: usize = 14;

/// Smallest Smax of an account.
pub const SMAX_MIN: u16 = FRAME_MIN as u16;
/// Largest Smax of an account.
pub const SMAX_MAX: u16 = FRAME_MAX as u16;
/// Largest exponent k of the BAG.
pub const K_MAX: u8 = 7;
/// BAG at k = 0, in microseconds.
pub const BAG_UNIT: u32 = 1_000;
/// Largest jitter, in microseconds.
pub const JITTER_MAX: u16 = 10_000;
/// Byte mode: a frame costs by its octets.
pub const MODE_BYTE: u8 = 0;
/// Frame mode: a frame costs by Smax.
pub const MODE_FRAME: u8 = 1;
/// Byte mode with line octets.
pub const MODE_BYTE_LINE: u8 = 2;
/// Frame mode with line octets.
pub const MODE_FRAME_LINE: u8 = 3;
/// What a frame takes on the line beyond its own octets.
pub const LINE_OCTETS: u32 = 20;
/// Highest port number.
pub const PORT_MAX: u8 = 31;
/// Bits set in the first octet of every constant field.
pub const CONSTANT_BITS: u32 = 0x0300_0000;

/// Most accounts of one image.
pub const ACCOUNTS_MAX: usize = 64;
/// Most links of one image.
pub const LINKS_MAX: usize = 256;
/// Octets of an account row.
pub const ACCOUNT_ROW: usize = 6;
/// Octets of a link row.
pub const LINK_ROW: usize = 13;

/// Forwarded.
pub const FORWARDED: u8 = 0;
/// Fewer octets than a frame has.
pub const FRAME_SHORT: u8 = 1;
/// More octets than a frame has.
pub const FRAME_LONG: u8 = 2;
/// Wrong constant field.
pub const WRONG_CONSTANT: u8 = 3;
/// Unknown virtual link.
pub const NO_LINK: u8 = 4;
/// Wrong input port.
pub const WRONG_PORT: u8 = 5;
/// Below the link's smallest size.
pub const BELOW_SMALLEST: u8 = 6;
/// Above the link's largest size.
pub const ABOVE_LARGEST: u8 = 7;
/// Before the last time.
pub const LATE: u8 = 8;
/// Credit short of the cost.
pub const CREDIT_SHORT: u8 = 9;
/// Invalid table entry.
pub const UNSOUND: u8 = 10;

/// An image was read or written.
pub const DONE: u8 = 0;
/// A field is cut.
pub const IMAGE_CUT: u8 = 20;
/// A tag is unknown or out of order.
pub const BAD_TAG: u8 = 21;
/// A length is not its tag's.
pub const BAD_LENGTH: u8 = 22;
/// A value breaks a rule.
pub const BAD_VALUE: u8 = 23;
/// An account or a link too many, or a bad count for the writer.
pub const BAD_COUNT: u8 = 24;
/// Octets after the end.
pub const TRAILING: u8 = 25;
/// A lent run is too short.
pub const NO_ROOM: u8 = 26;

/// Delivered.
pub const DELIVERED: u8 = 0;
/// The copy of a frame that was delivered.
pub const COPY: u8 = 30;
/// A number that doesn't follow.
pub const OUT_OF_SEQUENCE: u8 = 31;
