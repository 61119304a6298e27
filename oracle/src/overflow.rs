//! Which part of a chunk overflowed, its header or its body. The Rust has one violation for both, so here a model
//! says which: it is written from the request's words, and not from the code.

use crate::receiver_standins::ShmProtocolViolation;

/// A violation's number, the bytes that a part of the chunk needed, and the room for it. Of one that is no
/// overflow those two are 0.
pub type Violation = [u64; 3];

const HEADER_OVERFLOW: u64 = 2;
const BODY_OVERFLOW: u64 = 5;

/// The bytes of a header.
const HEADER: u64 = 8;

/// Which violation of the Rust a number counts as: its one overflow is two here. A number that no violation has is
/// taken for 4.
pub fn counts_as(number: u64) -> ShmProtocolViolation {
    use ShmProtocolViolation as V;
    match number {
        1 => V::InvalidChunkAnnouncement,
        HEADER_OVERFLOW | BODY_OVERFLOW => V::ControlOverflow,
        3 => V::UnknownHeader,
        _ => V::InvalidChunkLength,
    }
}

/// The first part of a chunk that needs more than its room, in a ring without data. A header can have the whole
/// ring, and a body all but the bytes of one.
pub fn overflowed(ring: u64, length: u64) -> Option<Violation> {
    let header = [HEADER_OVERFLOW, HEADER, ring];
    let body = [BODY_OVERFLOW, length, ring.saturating_sub(HEADER)];
    [header, body]
        .into_iter()
        .find(|[_, needed, room]| needed > room)
}
