//! Errors in what a salvage by document 02's request [10] does and says.

use super::words::*;
use crate::reader::salvage::{BIT_CLEARED, BYTES_ZEROED, REPORT, UNCHANGED};

pub fn add(rows: &mut Rows) {
    add_bits_and_pages(rows);
    add_reports(rows);
}

/// Bits and pages that are left, or touched when they must not be.
fn add_bits_and_pages(rows: &mut Rows) {
    // Bits at or above C that are left, by C and the bit.
    rows.salvaging("salvages-nothing").spares(|_, _| true);
    rows.salvaging("leaves-bits").spares_bits(|_, _| true);
    rows.salvaging("leaves-bit-C").spares_bits(|capacity, bit| bit == capacity);
    rows.salvaging("leaves-bit-above-C").spares_bits(|capacity, bit| bit == capacity + 1);
    rows.salvaging("leaves-byte-of-C").spares_bits(|capacity, bit| bit / 8 == capacity / 8);
    rows.salvaging("leaves-byte-of-C-at-its-start")
        .spares_bits(|capacity, bit| capacity % 8 == 0 && bit / 8 == capacity / 8);
    rows.salvaging("leaves-other-bytes").spares_bits(|capacity, bit| bit / 8 > capacity / 8);
    rows.salvaging("leaves-next-byte").spares_bits(|capacity, bit| bit / 8 == capacity / 8 + 1);
    rows.salvaging("leaves-bits-from-256-on").spares_bits(|_, bit| bit >= 256);
    rows.salvaging("leaves-bits-from-1000-on").spares_bits(|_, bit| bit >= MOST_PAGES);
    rows.salvaging("leaves-last-byte").spares_bits(|_, bit| bit / 8 == INDEX - 1);
    rows.salvaging("leaves-bit-1023").spares_bits(|_, bit| bit == REPORT - 1);
    rows.salvaging("clears-first-bit-alone")
        .spares(|case, bit| bit >= case.old.capacity() && case.old.bits_beyond().next() != Some(bit));
    // Vacant pages that are left, by the reader of old and the page.
    rows.salvaging("leaves-vacant-pages").spares_pages(|_, _| true);
    rows.salvaging("leaves-first-page").spares_pages(|_, page| page == 0);
    rows.salvaging("salvage-leaves-last-page").spares_pages(|old, page| page + 1 == old.capacity());
    rows.salvaging("leaves-pages-from-256-on").spares_pages(|_, page| page >= 256);
    rows.salvaging("leaves-pages-in-byte-of-C").spares_pages(|old, page| page / 8 == old.capacity() / 8);
    rows.salvaging("leaves-pages-past-a-stored-one")
        .spares_pages(|old, page| (0..page).any(|before| old.stored(before)));
    rows.salvaging("leaves-what-comes-after-255")
        .spares(|case, page| case.outcome.room[..page].iter().filter(|&&said| said != UNCHANGED).count() > 254);
    // What is looked at to see that a vacant page is not zero.
    rows.salvaging("looks-at-first-byte").looks_at(|page| page[0] != 0);
    rows.salvaging("looks-at-last-byte").looks_at(|page| page[PAGE - 1] != 0);
    rows.salvaging("looks-at-first-half").looks_at(|page| page[..PAGE / 2] != [0; PAGE / 2]);
    rows.salvaging("looks-at-last-half").looks_at(|page| page[PAGE / 2..] != [0; PAGE / 2]);
    rows.salvaging("looks-at-low-bits").looks_at(|page| page.iter().any(|byte| byte & 1 != 0));
    rows.salvaging("looks-at-bytes-with-a-sign").looks_at(|page| page.iter().any(|&byte| byte as i8 > 0));
    rows.salvaging("looks-at-sum-in-8-bits")
        .looks_at(|page| page.iter().fold(0_u8, |sum, b| sum.wrapping_add(*b)) != 0);
    rows.salvaging("takes-FF-for-zero").looks_at(|page| page.iter().any(|&byte| byte != 0xFF));
    // Bytes of a page that is zeroed.
    rows.salvaging("zeroes-first-half").keeps_bytes(|place, _| place >= PAGE / 2);
    rows.salvaging("zeroes-last-half").keeps_bytes(|place, _| place < PAGE / 2);
    rows.salvaging("zeroes-511-bytes").keeps_bytes(|place, _| place == PAGE - 1);
    rows.salvaging("zeroes-past-first-byte").keeps_bytes(|place, _| place == 0);
    rows.salvaging("zeroes-first-byte-found")
        .keeps_bytes(|place, page| page.iter().position(|&byte| byte != 0) != Some(place));
    rows.salvaging("fills-with-FF").per_bit(BYTES_ZEROED, |now, _, page| now.template_mut(page).fill(0xFF));
    rows.salvaging("zeroes-pages-in-8-bits").per_bit(BYTES_ZEROED, |now, old, page| {
        now.template_mut(page).copy_from_slice(old.template(page));
        now.template_mut(page % 256).fill(0);
    });
    rows.salvaging("restores-pages-with-bytes").per_bit(BYTES_ZEROED, |now, old, page| {
        now.template_mut(page).copy_from_slice(old.template(page));
        now.index[page / 8] |= bit(page);
    });
    // What is stored.
    rows.salvaging("zeroes-stored-page").leaves(DONE, |now, _| {
        (0..now.capacity()).find(|&page| now.stored(page)).into_iter().for_each(|page| now.template_mut(page).fill(0));
    });
    rows.salvaging("zeroes-all-pages").leaves(DONE, |now, _| now.templates.fill(0));
    rows.salvaging("clears-bits-of-zero-pages").leaves(DONE, |now, _| {
        for page in 0..now.capacity() {
            if !now.has_bytes(page) {
                now.index[page / 8] &= !bit(page);
            }
        }
    });
    rows.salvaging("clears-byte-of-C").leaves(
        |case| DONE(case) && case.old.bits_beyond().any(|bit| bit / 8 == case.old.capacity() / 8),
        |now, old| now.index[old.capacity() / 8] = 0,
    );
    rows.salvaging("clears-byte-of-C-first").takes(DONE, |asked| {
        let byte = asked.reader.capacity() / 8;
        asked.reader.index[byte] = 0;
    });
    rows.salvaging("clears-index-past-32-bytes").takes(DONE, |asked| asked.reader.index[SHORT_INDEX..].fill(0));
    rows.salvaging("clears-bit-before-C").leaves(DONE, |now, _| {
        let last = now.capacity() - 1;
        now.index[last / 8] &= !bit(last);
    });
    let turn: Fit = |asked| asked.reader.index.iter_mut().for_each(|byte| *byte = byte.reverse_bits());
    rows.salvaging("turns-bits").as_if(DONE, turn, |now, _| {
        now.index.iter_mut().for_each(|byte| *byte = byte.reverse_bits());
    });
    // Another C, by C.
    rows.salvaging("ends-at-256").ends_at(|_| 256);
    rows.salvaging("ends-in-8-bits").ends_at(|capacity| capacity % 256);
    rows.salvaging("ends-a-page-early").ends_at(|capacity| capacity - 1);
    rows.salvaging("ends-at-a-byte").ends_at(|capacity| capacity / 8 * 8);
}

/// What the report says in place of the right, by the case, the right report and the bit.
fn add_reports(rows: &mut Rows) {
    rows.salvaging("says-but-does-not-salvage").leaves(DONE, |now, old| *now = old.clone());
    rows.salvaging("salvages-but-says-nothing").says(|case, _, bit| Some(case.request.room[bit]));
    rows.salvaging("salvages-but-says-0").says(|_, _, _| Some(UNCHANGED));
    rows.salvaging("says-2-for-every-vacant-page").says(|case, _, bit| vacant(case.old, bit).then_some(BYTES_ZEROED));
    rows.salvaging("says-2-for-last-page-of-zeroes")
        .says(|case, _, bit| (vacant(case.old, bit) && bit + 1 == case.old.capacity()).then_some(BYTES_ZEROED));
    rows.salvaging("says-2-for-every-page-with-bytes")
        .says(|case, _, bit| (bit < case.old.capacity() && case.old.has_bytes(bit)).then_some(BYTES_ZEROED));
    rows.salvaging("says-1-for-every-vacant-page").says(|case, _, bit| vacant(case.old, bit).then_some(BIT_CLEARED));
    rows.salvaging("says-1-for-every-bit-above-C")
        .says(|case, _, bit| (bit >= case.old.capacity()).then_some(BIT_CLEARED));
    rows.salvaging("says-1-for-zeroed").says(|_, said, bit| (said[bit] == BYTES_ZEROED).then_some(BIT_CLEARED));
    rows.salvaging("says-2-for-cleared").says(|_, said, bit| (said[bit] == BIT_CLEARED).then_some(BYTES_ZEROED));
    rows.salvaging("exchanges-1-and-2")
        .says(|_, said, bit| (said[bit] != UNCHANGED).then_some(BIT_CLEARED + BYTES_ZEROED - said[bit]));
    rows.salvaging("says-FF-for-unchanged").says(|_, said, bit| (said[bit] == UNCHANGED).then_some(0xFF));
    rows.salvaging("says-changes-alone")
        .says(|case, said, bit| (said[bit] == UNCHANGED).then_some(case.request.room[bit]));
    rows.salvaging("adds-to-old-report").says(|case, said, bit| Some(case.request.room[bit] | said[bit]));
    for (name, first) in [("C", None), ("256", Some(256)), ("1000", Some(MOST_PAGES))] {
        let past = move |case: &Case, bit| bit >= first.unwrap_or(case.old.capacity());
        rows.salvaging(format!("says-nothing-past-{name}"))
            .says(move |case, _, bit| past(case, bit).then_some(case.request.room[bit]));
        rows.salvaging(format!("says-0-past-{name}")).says(move |case, _, bit| past(case, bit).then_some(UNCHANGED));
    }
    rows.salvaging("says-0-at-C").says(|case, _, bit| (bit == case.old.capacity()).then_some(UNCHANGED));
    rows.salvaging("says-0-before-C").says(|case, _, bit| (bit + 1 == case.old.capacity()).then_some(UNCHANGED));
    rows.salvaging("says-nothing-of-last-bit")
        .says(|case, _, bit| (bit + 1 == REPORT).then_some(case.request.room[bit]));
    rows.salvaging("says-one-late").says(|_, said, bit| Some(if bit == 0 { UNCHANGED } else { said[bit - 1] }));
    rows.salvaging("says-one-early").says(|_, said, bit| Some(said.get(bit + 1).copied().unwrap_or(UNCHANGED)));
    rows.salvaging("says-bits-of-a-byte-turned").says(|_, said, bit| Some(said[bit / 8 * 8 + 7 - bit % 8]));
    rows.salvaging("says-bits-after").says(|case, _, bit| Some(case.outcome.reader.stored(bit).into()));
}

impl Row<'_> {
    /// Such bits and pages stay as they were, and the report says 0 of them.
    fn spares(self, such: impl Fn(&Case, usize) -> bool + 'static) {
        self.also(DONE, move |case| {
            let spared: Vec<usize> = (0..REPORT).filter(|&page| such(case, page)).collect();
            let now = &mut case.outcome.reader;
            for page in spared {
                now.index[page / 8] |= case.old.index[page / 8] & bit(page);
                if page < now.capacity() {
                    now.template_mut(page).copy_from_slice(case.old.template(page));
                }
                case.outcome.room[page] = UNCHANGED;
            }
        });
    }

    /// Such bits at or above C are spared, by C and the bit.
    fn spares_bits(self, such: fn(usize, usize) -> bool) {
        self.spares(move |case, bit| bit >= case.old.capacity() && such(case.old.capacity(), bit));
    }

    /// Such pages are spared, by the reader of old and the page.
    fn spares_pages(self, such: fn(&Reader, usize) -> bool) {
        self.spares(move |case, page| page < case.old.capacity() && such(case.old, page));
    }

    /// Such pages alone are not spared, by their bytes.
    fn looks_at(self, such: fn(&[u8]) -> bool) {
        self.spares(move |case, page| page < case.old.capacity() && !such(case.old.template(page)));
    }

    /// A bit of which the report says this has this effect too, by what the reader was of old.
    fn per_bit(self, said: u8, effect: impl Fn(&mut Reader, &Reader, usize) + 'static) {
        self.also(DONE, move |case| {
            let pages = (0..REPORT).filter(|&page| case.outcome.room[page] == said);
            pages.for_each(|page| effect(&mut case.outcome.reader, case.old, page));
        });
    }

    /// Such bytes of a page that is zeroed stay, by their place and by the page.
    fn keeps_bytes(self, such: fn(usize, &[u8]) -> bool) {
        self.per_bit(BYTES_ZEROED, move |now, old, page| {
            let old = old.template(page);
            (0..PAGE).filter(|&place| such(place, old)).for_each(|place| now.template_mut(page)[place] = old[place]);
        });
    }

    /// So many pages are salvaged where there are more, by C.
    fn ends_at(self, pages: fn(usize) -> usize) {
        self.takes_for(
            move |case| DONE(case) && (1..case.old.capacity()).contains(&pages(case.old.capacity())),
            move |asked| asked.reader.templates.truncate(PAGE * pages(asked.reader.capacity())),
        );
    }

    /// The report says this of a bit, if there is something, by the case, the right report and the bit.
    fn says(self, other: impl Fn(&Case, &[u8], usize) -> Option<u8> + 'static) {
        self.also(DONE, move |case| {
            let right = case.outcome.room.clone();
            case.outcome.room = (0..REPORT).map(|bit| other(case, &right, bit).unwrap_or(right[bit])).collect();
        });
    }
}

/// Whether it is the bit of a page that was vacant.
fn vacant(old: &Reader, page: usize) -> bool {
    page < old.capacity() && !old.stored(page)
}
