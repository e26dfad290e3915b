//! Errors in how the gaps are closed by document 02's request [9].

use super::words::*;
use crate::compare::frame::{lay_numbers, numbers};
use crate::reader::gaps::VACANT;

/// A closing as it is now: the reader and the table.
struct Closed<'a> {
    now: &'a mut Reader,
    table: &'a mut [u16],
    /// The stored pages of old.
    stored: Vec<usize>,
}

pub fn add(rows: &mut Rows) {
    // Which page goes where, by its place among the stored ones and their number.
    rows.closing("closes-in-reverse").moves(|old| paired(old, |place, _, count| count - 1 - place));
    rows.closing("closes-no-gap").moves(|old| paired(old, |_, page, _| page));
    rows.closing("closes-gaps-in-each-byte").moves(in_bytes);
    rows.closing("closes-gaps-below-256")
        .moves(|old| paired(old, |place, page, _| if page < 256 { place } else { page }));
    rows.closing("loses-page-0").moves(|old| packed(old, |old, page| old.stored(page) && page > 0));
    rows.closing("loses-last-page").moves(|old| packed(old, |old, page| old.stored(page) && page + 1 < old.capacity()));
    rows.closing("takes-bytes-for-stored")
        .moves(|old| packed(old, |old, page| old.stored(page) || old.has_bytes(page)));
    // Template bytes.
    rows.closing("moves-no-bytes").leaves(DONE, |now, old| now.templates = old.templates.clone());
    rows.closing("leaves-rest").rest(|_, _, _| true);
    rows.closing("leaves-last-page").rest(|old, page, _| page + 1 == old.capacity());
    rows.closing("leaves-old-bytes-of-vacant").rest(|old, page, _| !old.stored(page));
    rows.closing("moves-511-bytes").per_page(|now, old, page, new| {
        if page != new {
            now.template_mut(new)[PAGE - 1] = old.template(new)[PAGE - 1];
        }
    });
    rows.closing("moves-pages-in-8-bits")
        .per_page(|now, old, page, new| now.template_mut(new).copy_from_slice(old.template(page % 256)));
    rows.closing("moves-from-the-end-on").leaves(DONE, |now, old| {
        let pages: Vec<usize> = stored(old).collect();
        now.templates = old.templates.clone();
        for (new, page) in pages.iter().enumerate().rev() {
            now.templates.copy_within(PAGE * page..PAGE * (page + 1), PAGE * new);
        }
        now.templates[PAGE * pages.len()..].fill(0);
    });
    rows.closing("swaps-pages").leaves(DONE, |now, old| {
        now.templates = old.templates.clone();
        for (new, page) in stored(old).enumerate() {
            (0..PAGE).for_each(|place| now.templates.swap(PAGE * new + place, PAGE * page + place));
        }
    });
    // Index.
    rows.closing("leaves-index").leaves(DONE, |now, old| now.index = old.index.clone());
    rows.closing("leaves-old-bits").indexes(|old, page, count| page < count || old.stored(page));
    rows.closing("sets-one-bit-more").indexes(|_, page, count| page <= count);
    rows.closing("sets-whole-bytes").indexes(|_, page, count| page < (count + 7) / 8 * 8);
    // Table.
    rows.closing("table-left").also(DONE, |case| case.outcome.room = case.request.room.clone());
    rows.closing("table-by-new-page").tables(|closed| {
        closed.table.fill(VACANT);
        closed.stored.iter().zip(&mut *closed.table).for_each(|(&page, number)| *number = page as u16);
    });
    rows.closing("table-0-for-vacant").renumbers(|new| new.unwrap_or(0));
    rows.closing("table-in-8-bits").renumbers(|new| new.map_or(VACANT, |new| new % 256));
    rows.closing("table-left-for-last-page").table_left(|old, page| page + 1 == old.capacity());
    // Origins and buffers.
    rows.closing("leaves-origin-1").origins(|old, new, buffer| if buffer == 0 { old } else { new });
    rows.closing("leaves-origin-2").origins(|old, new, buffer| if buffer == 1 { old } else { new });
    rows.closing("makes-moved-origins-none").origins(|old, new, _| if old == new { new } else { NONE });
    rows.closing("origins-follow-twice").tables(|closed| {
        for origin in &mut closed.now.settings.origins {
            *origin = origin.page().map_or(NONE, |page| Origin(closed.table[page]));
        }
    });
    rows.closing("wipes-moved-buffers").leaves(DONE, |now, old| {
        let moved = [0, 1].map(|b| now.settings.origins[b] != old.settings.origins[b]);
        (0..2).filter(|&b| moved[b]).for_each(|b| now.wipe(b));
    });
    // Other settings.
    rows.closing("clears-filled").sets(DONE, |now, _| now.filled = [CLEAR; 2]);
    rows.closing("closing-clears-found").sets(DONE, |now, _| now.found = CLEAR);
    rows.closing("closing-clears-verified").sets(DONE, |now, _| now.verified = CLEAR);
    rows.closing("closing-ends-transfer").sets(DONE, |now, _| (now.transfer, now.got) = (0, 0));
    // Lengths that are taken.
    rows.closing("takes-table-of-one-more")
        .takes_for(|case| case.request.room.len() / 2 == case.old.capacity() + 1, FIT_ROOM);
    rows.closing("takes-table-of-one-less")
        .takes_for(|case| case.request.room.len() / 2 + 1 == case.old.capacity(), FIT_ROOM);
    for length in [127, 129] {
        rows.closing(format!("closing-takes-index-of-{length}"))
            .takes_for(move |case| case.old.index.len() == length, FIT_INDEX);
    }
    rows.closing("takes-1001-pages").takes_for(|case| case.old.capacity() > MOST_PAGES, FIT_TEMPLATES);
    rows.closing("takes-uneven-templates")
        .takes_for(|case| (1..=MOST_PAGES).contains(&case.old.capacity()), FIT_TEMPLATES);
    rows.closing("takes-no-pages").refuses(0, |case| case.refusal == 1 && case.old.templates.is_empty());
    // What refusal 3 is for, and is taken.
    rows.closing("clears-bits-beyond-C").takes(ANY, FIT_BITS);
    rows.closing("leaves-bits-beyond-C").as_if(
        |case| case.old.index.len() == INDEX,
        FIT_BITS,
        |now, old| old.bits_beyond().for_each(|page| now.index[page / 8] |= bit(page)),
    );
    rows.closing("takes-unfit-settings").overlooks(|now| {
        (now.level, now.size_code, now.baud_factor) = (3, now.size_code % 4, 6);
    });
    rows.closing("takes-unfit-found").overlooks(|now| now.found = CLEAR);
    rows.closing("takes-unfit-transfer").overlooks(|now| (now.transfer, now.got) = (0, 0));
    rows.closing("takes-unfit-origins").overlooks(|now| now.origins = [NONE; 2]);
    rows.closing("takes-origins-of-not-filled").overlooks(|now| now.filled = [SET; 2]);
    // What is refused.
    rows.closing("closing-asks-lock").refuses(3, |case| DONE(case) && case.locked());
    rows.closing("closing-refused-in-a-transfer").refuses(3, |case| DONE(case) && case.in_transfer());
    for (refusal, what) in [(1, "memory"), (2, "room")] {
        rows.closing(format!("closing-tests-{what}-like-call"))
            .refuses(refusal, move |case| case.old.refusal(case.request.room.len()) == refusal);
    }
    rows.closing("refuses-table-with-3")
        .refuses(3, |case| case.refusal == 1 && numbers(&case.request.room).len() != case.old.capacity());
    for (length, fit) in [("templates", FIT_TEMPLATES), ("index", FIT_INDEX), ("table", FIT_ROOM)] {
        rows.closing(format!("{length}-after-settings")).refuses(3, move |case| {
            let mut fitting = Case::of(case.request);
            fitting.ask(fit);
            case.refusal == 1 && fitting.refusal == 3
        });
    }
    // What a refused one leaves.
    for refusal in [1, 3] {
        let refused = move |case: &Case| case.refusal == refusal;
        rows.closing(format!("refused-with-{refusal}-fills-table")).also(refused, |case| case.outcome.room.fill(0xFF));
        rows.closing(format!("refused-with-{refusal}-zeroes-last-page")).leaves(refused, |now, _| {
            now.templates.iter_mut().rev().take(PAGE).for_each(|byte| *byte = 0);
        });
    }
    // What else is done.
    rows.closing("closing-tells-table-as-reply")
        .also(DONE, |case| case.outcome.answer.length = case.request.room.len());
}

impl Row<'_> {
    /// The pages go from and to these, each with its bytes, its bit, its number and its origins; the rest is zeroed.
    fn moves(self, pairs: fn(&Reader) -> Vec<(usize, usize)>) {
        self.also(DONE, move |case| {
            let old = case.old;
            let mut table = vec![VACANT; old.capacity()];
            let now = &mut case.outcome.reader;
            now.templates.fill(0);
            now.index.fill(0);
            for (page, new) in pairs(old) {
                now.template_mut(new).copy_from_slice(old.template(page));
                now.index[new / 8] |= bit(new);
                table[page] = new as u16;
            }
            now.settings.origins =
                old.settings.origins.map(|origin| origin.page().map_or(NONE, |page| Origin(table[page])));
            lay_numbers(&mut case.outcome.room, &table);
        });
    }

    /// Such pages of the rest keep their bytes, by the reader of old and the count.
    fn rest(self, such: fn(&Reader, usize, usize) -> bool) {
        self.leaves(DONE, move |now, old| {
            let count = stored(old).count();
            for page in (count..old.capacity()).filter(|&page| such(old, page, count)) {
                now.template_mut(page).copy_from_slice(old.template(page));
            }
        });
    }

    /// Each stored page has this effect too, by what the reader was of old, its old page and its new one.
    fn per_page(self, effect: fn(&mut Reader, &Reader, usize, usize)) {
        self.leaves(DONE, move |now, old| stored(old).enumerate().for_each(|(new, page)| effect(now, old, page, new)));
    }

    /// Such bits are set, by the reader of old and the count.
    fn indexes(self, such: fn(&Reader, usize, usize) -> bool) {
        self.leaves(DONE, move |now, old| {
            let count = stored(old).count();
            now.index.fill(0);
            (0..8 * INDEX).filter(|&page| such(old, page, count)).for_each(|page| now.index[page / 8] |= bit(page));
        });
    }

    /// A closing that is carried out also has this effect.
    fn tables(self, effect: impl Fn(Closed) + 'static) {
        self.also(DONE, move |case| {
            let mut table = numbers(&case.outcome.room);
            effect(Closed { now: &mut case.outcome.reader, table: &mut table, stored: stored(case.old).collect() });
            lay_numbers(&mut case.outcome.room, &table);
        });
    }

    /// The table has these numbers, by the new page, if there is one.
    fn renumbers(self, number: fn(Option<u16>) -> u16) {
        self.tables(move |closed| {
            closed.table.iter_mut().for_each(|new| *new = number(Some(*new).filter(|&new| new != VACANT)));
        });
    }

    /// The table keeps its numbers for such pages.
    fn table_left(self, such: fn(&Reader, usize) -> bool) {
        self.also(DONE, move |case| {
            for page in (0..case.old.capacity()).filter(|&page| such(case.old, page)) {
                let bytes = 2 * page..2 * page + 2;
                case.outcome.room[bytes.clone()].copy_from_slice(&case.request.room[bytes]);
            }
        });
    }

    /// Each origin becomes this, by what it was of old, what it is now, and its buffer.
    fn origins(self, origin: fn(Origin, Origin, usize) -> Origin) {
        self.sets(DONE, move |now, old| {
            (0..2).for_each(|b| now.origins[b] = origin(old.origins[b], now.origins[b], b));
        });
    }

    /// Settings are taken for what this makes of them, and stay but for the origins.
    fn overlooks(self, change: fn(&mut Settings)) {
        self.as_if(
            |case| case.refusal == 3,
            move |asked| change(&mut asked.reader.settings),
            |now, old| {
                let followed = now.settings.origins;
                now.settings = old.settings.clone();
                let origins = now.settings.origins.iter_mut().zip(followed);
                origins.filter(|(_, followed)| *followed != NONE).for_each(|(origin, followed)| *origin = followed);
            },
        );
    }
}

/// The pages that a reader has stored.
fn stored(old: &Reader) -> impl Iterator<Item = usize> + '_ {
    (0..old.capacity()).filter(|&page| old.stored(page))
}

/// The stored pages and where they go: by the place among them, the page, and their number.
fn paired(old: &Reader, new: fn(usize, usize, usize) -> usize) -> Vec<(usize, usize)> {
    let count = stored(old).count();
    stored(old).enumerate().map(|(place, page)| (page, new(place, page, count))).collect()
}

/// The stored pages moved within the eight of an index byte.
fn in_bytes(old: &Reader) -> Vec<(usize, usize)> {
    let place = |page: usize| (page / 8 * 8..page).filter(|&before| old.stored(before)).count();
    stored(old).map(|page| (page, page / 8 * 8 + place(page))).collect()
}

/// Such pages moved to pages 0, 1, 2 and up.
fn packed(old: &Reader, such: fn(&Reader, usize) -> bool) -> Vec<(usize, usize)> {
    (0..old.capacity()).filter(|&page| such(old, page)).enumerate().map(|(new, page)| (page, new)).collect()
}
