//! Reading a frame's own fields.

use crate::rules::{FRAME_LONG, FRAME_MAX, FRAME_MIN, FRAME_SHORT, PAYLOAD_START};

/// The sequence number and the frame check sequence, which follow the payload.
const TRAILER: usize = 5;

/// The fields of a frame beside its payload.
#[derive(Debug, Clone, Copy, PartialEq, Eq)]
pub struct Header {
    /// 0, or 1 or 2 for a frame of wrong size.
    pub code: u8,
    /// Virtual link number; 0 when refused.
    pub link: u16,
    /// Sequence number; 0 when refused.
    pub sequence: u8,
}

/// Code 1 or 2 for a size that no frame has.
#[inline]
pub(crate) fn size_refusal(octets: usize) -> Option<u8> {
    if octets < FRAME_MIN {
        Some(FRAME_SHORT)
    } else if octets > FRAME_MAX {
        Some(FRAME_LONG)
    } else {
        None
    }
}

/// Reads code, link number and sequence number.
pub fn header(frame: &[u8]) -> Header {
    match size_refusal(frame.len()) {
        Some(code) => Header {
            code,
            link: 0,
            sequence: 0,
        },
        None => Header {
            code: 0,
            link: u16::from_be_bytes([frame[4], frame[5]]),
            sequence: frame[frame.len() - TRAILER],
        },
    }
}

/// The payload as a part of `frame`; for a frame of wrong size, the empty part
/// at its start.
pub fn payload(frame: &[u8]) -> &[u8] {
    match size_refusal(frame.len()) {
        Some(_) => &frame[..0],
        None => &frame[PAYLOAD_START..frame.len() - TRAILER],
    }
}
