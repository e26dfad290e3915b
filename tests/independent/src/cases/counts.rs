//! Indexes for document 02's request [4], in turn, each with the number of pages that it has stored.

use crate::cases::readers::{fresh_reader, index_of, FAR_CAPACITIES};
use crate::compare::frame::{Kind, Request};
use crate::examples::{bytes, COUNT};
use crate::reader::{Reader, MOST_PAGES, ROOM};

/// None, and all, of several readers; all pages of the last byte, of readers that end with each byte; and one page in every byte, of each
/// weight. TempleteNum is asked.
pub fn all() -> impl Iterator<Item = (Request, usize)> {
    let none = [(asked(MOST_PAGES, |_| false), 0)].into_iter();
    let full = FAR_CAPACITIES.into_iter().map(|capacity| (asked(capacity, |_| true), capacity));
    let byte = (8..=MOST_PAGES).step_by(8).map(|capacity| (asked(capacity, |page| page >= capacity - 8), 8));
    let weight = (0..8).map(|place| (asked(MOST_PAGES, |page| page % 8 == place), MOST_PAGES / 8));
    none.chain(full).chain(byte).chain(weight)
}

fn asked(capacity: usize, stored: impl FnMut(usize) -> bool) -> Request {
    let reader = Reader { index: index_of(capacity, stored), ..fresh_reader(capacity) };
    Request { kind: Kind::Call, reader, run: bytes(COUNT), room: vec![0x5A; ROOM] }
}
