//! Changes of a request that make one part of it fit or legal.

use crate::compare::frame::{Kind, Request};
use crate::reader::salvage::REPORT;
use crate::reader::*;

pub type Fit = fn(&mut Request);

/// Whole pages, from 1 to 1000; a table is as long as they are.
pub const FIT_TEMPLATES: Fit = |request| {
    let pages = request.reader.capacity().clamp(1, MOST_PAGES);
    request.reader.templates.resize(PAGE * pages, 0);
    if request.kind == Kind::CloseGaps {
        FIT_ROOM(request);
    }
};
pub const FIT_INDEX: Fit = |request| request.reader.index.resize(INDEX, 0);
pub const FIT_ROOM: Fit = |request| request.room.resize(right_room(request), 0);

/// The settings one by one; an origin that hangs on a filled mark goes with it.
pub const FIT_SETTINGS: [Fit; 8] = [
    |request| request.reader.settings.level = 3,
    |request| request.reader.settings.size_code = 2,
    |request| request.reader.settings.baud_factor = 6,
    |request| request.reader.settings.verified = CLEAR,
    |request| request.reader.settings.filled = [CLEAR; 2],
    |request| request.reader.settings.found = CLEAR,
    |request| (request.reader.settings.transfer, request.reader.settings.got) = (0, 0),
    |request| request.reader.settings.origins = [NONE; 2],
];

/// No bit at or above C.
pub const FIT_BITS: Fit = |request| clear_beyond(&mut request.reader);

/// The bytes of the reply room, of the table or of the report that fit.
pub fn right_room(request: &Request) -> usize {
    match request.kind {
        Kind::CloseGaps => 2 * request.reader.capacity(),
        Kind::Salvage => REPORT,
        _ => ROOM,
    }
}

/// Clears the bits at or above C.
pub fn clear_beyond(reader: &mut Reader) {
    for page in reader.bits_beyond().collect::<Vec<_>>() {
        reader.index[page / 8] &= !bit(page);
    }
}
