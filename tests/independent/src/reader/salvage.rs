//! The salvage of a library from the old firmware by document 02's request [10], written from that paper alone.

use crate::reader::{bit, Answer, Reader, INDEX};

/// Bytes of the report, one per index bit.
pub const REPORT: usize = 8 * INDEX;
/// What the report says of an index bit.
pub const UNCHANGED: u8 = 0;
pub const BIT_CLEARED: u8 = 1;
pub const BYTES_ZEROED: u8 = 2;

/// Clears the bits at or above C, zeroes the bytes of vacant pages, and says of each index bit what was done. Templates,
/// index and report are all that is lent; settings are not looked at. Knows only refusal 1, for these three lengths.
pub fn salvage(reader: &mut Reader, report: &mut [u8]) -> Answer {
    if !reader.library_fits() || report.len() != REPORT {
        return Answer::without_reply(1);
    }
    for (page, said) in report.iter_mut().enumerate() {
        *said = reader.salvage_bit(page);
    }
    Answer::without_reply(0)
}

impl Reader {
    /// Clears the bit if it is at or above C, or zeroes its page if it is vacant; what the report says of it.
    fn salvage_bit(&mut self, page: usize) -> u8 {
        if page >= self.capacity() && self.stored(page) {
            self.index[page / 8] &= !bit(page);
            BIT_CLEARED
        } else if page < self.capacity() && !self.stored(page) && self.has_bytes(page) {
            self.template_mut(page).fill(0);
            BYTES_ZEROED
        } else {
            UNCHANGED
        }
    }

    /// Whether a byte of the page is not zero.
    pub fn has_bytes(&self, page: usize) -> bool {
        self.template(page).iter().any(|&byte| byte != 0)
    }
}
