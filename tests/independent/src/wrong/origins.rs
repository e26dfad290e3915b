//! Errors in the origins of document 02's request [7], what DeletChar and Empty wipe apart.

use super::words::*;

/// An effect on the origins as they are now, by those of old, the place of a buffer, and a page.
type Effect = fn(&mut [Origin; 2], [Origin; 2], usize, Origin);

/// Both origins are made none.
const CLEAR_ORIGINS: Setting = |now, _| now.origins = [NONE; 2];
const KEEP_ORIGINS: Setting = |now, old| now.origins = old.origins;
/// Page 0 becomes the origin of the buffer that a transfer filled.
const GIVE_ORIGIN_0: Setting = |now, old| now.origins[usize::from(old.transfer) - 1] = Origin(0);

/// An origin is at or above C.
const UNFIT: Pick = |case| case.old.settings.origins.iter().any(|origin| origin.page() >= Some(case.old.capacity()));

/// A call that the reader gives refusal 3, and one that gets it for its origins alone.
const REFUSED_3: Pick = |case| CALL(case) && case.old.refusal(case.request.room.len()) == 3;
const FOR_ORIGINS: Pick = |case| {
    let mut without = Case::of(case.request);
    without_origins(&mut without, |_, _, _| true);
    REFUSED_3(case) && without.refusal == 0
};

/// A page is one of the reader's, and stored; and it is that of a buffer not filled.
const IS_STORED: fn(&Reader, usize) -> bool = |old, page| page < old.capacity() && old.stored(page);
const OF_NOT_FILLED: fn(&Reader, usize, usize) -> bool =
    |old, buffer, page| !old.settings.filled[buffer].is_set() && IS_STORED(old, page);

pub fn add(rows: &mut Rows) {
    // What a LoadChar or a Store that gets 00h makes of the origins.
    for (name, command) in [("load-char", LOAD_CHAR), ("store", STORE)] {
        rows.both(format!("{name}-leaves-origin")).origin(command, 0x00, |now, old, b, _| now[b] = old[b]);
        rows.reader(format!("{name}-clears-origin")).origin(command, 0x00, |now, _, b, _| now[b] = NONE);
        rows.reader(format!("{name}-sets-other-origin")).origin(command, 0x00, |now, old, b, page| {
            now[b] = old[b];
            now[1 - b] = page;
        });
        rows.reader(format!("{name}-sets-both-origins")).origin(command, 0x00, |now, _, _, page| *now = [page; 2]);
        rows.reader(format!("{name}-clears-other-origin")).origin(command, 0x00, |now, _, b, _| now[1 - b] = NONE);
        rows.reader(format!("{name}-keeps-first-origin"))
            .origin(command, 0x00, |now, old, b, page| now[b] = if old[b] == NONE { page } else { old[b] });
        rows.reader(format!("{name}-sets-origin-in-8-bits"))
            .origin(command, 0x00, |now, _, b, Origin(page)| now[b] = Origin(page % 256));
        rows.reader(format!("{name}-sets-origin-of-buffer-1-only"))
            .origin(command, 0x00, |now, old, _, _| now[1] = old[1]);
    }
    // What one that gets another code makes of them.
    let sets: Effect = |now, _, b, page| now[b] = page;
    let clears: Effect = |now, _, b, _| now[b] = NONE;
    let clears_other: Effect = |now, _, b, _| now[1 - b] = NONE;
    rows.reader("vacant-load-char-sets-origin").origin(LOAD_CHAR, 0x0C, sets);
    rows.reader("vacant-load-char-clears-origin").origin(LOAD_CHAR, 0x0C, clears);
    rows.reader("far-load-char-clears-origin").origin(LOAD_CHAR, 0x0B, clears);
    rows.reader("locked-load-char-sets-origin").origin(LOAD_CHAR, 0x21, sets);
    rows.reader("stored-store-sets-origin").origin(STORE, 0x22, sets);
    rows.reader("stored-store-clears-origin").origin(STORE, 0x22, clears);
    rows.reader("not-filled-store-sets-origin").origin(STORE, 0x0C, sets);
    rows.reader("not-filled-store-clears-other-origin").origin(STORE, 0x0C, clears_other);
    rows.reader("far-store-clears-origin").origin(STORE, 0x0B, clears);
    rows.reader("far-store-sets-origin").origin(STORE, 0x0B, sets);
    rows.reader("locked-store-sets-origin").origin(STORE, 0x21, sets);
    // Other commands and codes.
    rows.both("down-char-keeps-origin").sets(fine(DOWN_CHAR), KEEP_ORIGINS);
    rows.reader("down-char-clears-both-origins").sets(fine(DOWN_CHAR), CLEAR_ORIGINS);
    rows.reader("up-char-clears-origins").sets(fine(UP_CHAR), CLEAR_ORIGINS);
    rows.reader("set-pwd-clears-origins").sets(fine(SET_PWD), CLEAR_ORIGINS);
    rows.reader("vfy-pwd-clears-origins").sets(fine(VFY_PWD), CLEAR_ORIGINS);
    rows.reader("set-adder-clears-origins").sets(fine(SET_ADDER), CLEAR_ORIGINS);
    rows.reader("wrong-password-clears-origins").sets(coded(0x13), CLEAR_ORIGINS);
    rows.reader("locked-clears-origins").sets(coded(0x21), CLEAR_ORIGINS);
    // Transfers.
    rows.reader("failed-transfer-clears-other-origin").sets(coded(0x0E), CLEAR_ORIGINS);
    rows.reader("failed-transfer-gives-origin-0").sets(coded(0x0E), GIVE_ORIGIN_0);
    rows.reader("ended-transfer-clears-other-origin").sets(ends_transfer, CLEAR_ORIGINS);
    rows.reader("ended-transfer-gives-origin-0").sets(ends_transfer, GIVE_ORIGIN_0);
    for (name, identifier) in [("data", DATA), ("last-data", LAST_DATA)] {
        let goes_in = move |case: &Case| takes_data(identifier, case);
        rows.reader(format!("{name}-clears-other-origin")).sets(goes_in, CLEAR_ORIGINS);
        rows.reader(format!("{name}-gives-origin-0")).sets(goes_in, GIVE_ORIGIN_0);
    }
    // The line switch.
    rows.both("switch-keeps-origins").sets(SWITCHED, KEEP_ORIGINS);
    rows.reader("switch-keeps-origin-1").sets(SWITCHED, |now, old| now.origins[0] = old.origins[0]);
    rows.reader("switch-keeps-origin-2").sets(SWITCHED, |now, old| now.origins[1] = old.origins[1]);
    rows.both("switch-keeps-unfit-origins").keeps_if(|old, b| old.settings.origins[b].page() >= Some(old.capacity()));
    rows.reader("switch-keeps-origins-of-not-filled").keeps_if(|old, b| !old.settings.filled[b].is_set());
    rows.reader("switch-gives-origin-0").sets(SWITCHED, |now, _| now.origins = [Origin(0); 2]);
    rows.both("switch-refuses-unfit-origins").refuses(3, |case| SWITCHED(case) && UNFIT(case));
    rows.reader("switch-refuses-any-origin")
        .refuses(3, |case| SWITCHED(case) && case.old.settings.origins != [NONE; 2]);
    rows.both("refused-switch-clears-origins").sets(SWITCH_REFUSED, CLEAR_ORIGINS);
    // Fresh settings, and an index brought over.
    rows.fresh("fresh-origins-0").sets(DONE, |now, _| now.origins = [Origin(0); 2]);
    rows.fresh("fresh-keeps-origins").sets(DONE, KEEP_ORIGINS);
    rows.fresh("fresh-keeps-origin-1").sets(DONE, |now, old| now.origins[0] = old.origins[0]);
    rows.fresh("fresh-keeps-origin-2").sets(DONE, |now, old| now.origins[1] = old.origins[1]);
    rows.fresh("fresh-origins-FFFE").sets(DONE, |now, _| now.origins = [Origin(0xFFFE); 2]);
    rows.over("bringing-over-clears-origins").sets(DONE, CLEAR_ORIGINS);
    rows.over("bringing-over-clears-vacant-origins").leaves(DONE, |now, _| {
        let Reader { settings, index, .. } = now;
        let stored = |page: usize| index.get(page / 8).map_or(false, |byte| byte & bit(page) != 0);
        settings.origins = settings.origins.map(|origin| if stored(origin.0.into()) { origin } else { NONE });
    });
    rows.over("bringing-over-refuses-unfit-origins").refuses(3, |case| DONE(case) && UNFIT(case));
    // Origins that are taken though they are not legal, by the reader, the buffer and the page.
    rows.both("takes-any-origin").ignores(|_, _, _| true);
    rows.reader("takes-origin-C").takes_pages(|old, page| page == old.capacity());
    rows.reader("takes-origin-above-C").takes_pages(|old, page| page > old.capacity());
    rows.reader("takes-origin-from-1000").takes_pages(|_, page| page >= MOST_PAGES);
    rows.reader("takes-origin-below-1000").takes_pages(|old, page| (old.capacity()..MOST_PAGES).contains(&page));
    rows.reader("takes-origin-FFFE-for-none").ignores(|_, _, page| page == 0xFFFE);
    rows.reader("takes-origin-from-8000-for-none").ignores(|_, _, page| page >= 0x8000);
    rows.reader("takes-origin-0-for-none").ignores(|_, _, page| page == 0);
    rows.both("takes-vacant-origin").takes_pages(|old, page| page < old.capacity() && !old.stored(page));
    rows.both("takes-origin-of-not-filled").ignores(OF_NOT_FILLED);
    rows.reader("takes-origin-where-the-other-is-filled")
        .ignores(|old, buffer, page| OF_NOT_FILLED(old, buffer, page) && old.settings.filled[1 - buffer].is_set());
    rows.reader("takes-any-origin-of-buffer-1").ignores(|_, buffer, _| buffer == 0);
    rows.reader("takes-any-origin-of-buffer-2").ignores(|_, buffer, _| buffer == 1);
    rows.reader("takes-any-origin-when-locked").ignores(|old, _, _| old.settings.locked());
    rows.reader("takes-any-origin-unless-locked").ignores(|old, _, _| !old.settings.locked());
    rows.reader("tests-origin-in-8-bits").takes_pages(|old, page| IS_STORED(old, page % 256));
    // What a refused call leaves, and the order of refusals.
    rows.both("makes-unfit-origin-none").also(FOR_ORIGINS, |case| without_origins(case, |_, _, _| true));
    rows.both("refused-call-clears-unfit-origin").sets(FOR_ORIGINS, CLEAR_ORIGINS);
    rows.reader("refused-call-clears-origins").sets(CALL_REFUSED, CLEAR_ORIGINS);
    rows.reader("refuses-origin-with-1").refuses(1, FOR_ORIGINS);
    rows.reader("origins-before-lengths").refuses(3, |case| CALL(case) && case.refusal == 1 && UNFIT(case));
    rows.reader("origins-before-room").refuses(3, |case| CALL(case) && case.refusal == 2 && UNFIT(case));
    // Legal origins that are refused.
    rows.reader("refuses-none").refuses_origin(|_, origin| origin.is_none());
    rows.reader("refuses-origin-0").refuses_origin(|_, origin| origin == Some(0));
    rows.both("refuses-origin-C-less-1").refuses_origin(|old, origin| origin == old.capacity().checked_sub(1));
    rows.reader("refuses-two-origins").refuses_pair(|_, _| true);
    rows.reader("refuses-the-same-origin-twice").refuses_pair(|one, other| one == other);
    rows.reader("refuses-two-different-origins").refuses_pair(|one, other| one != other);
    rows.reader("refuses-origin-of-other-bytes").refuses_legal(|old| has_bytes_of_origin(old, false));
    rows.reader("refuses-origin-of-the-same-bytes").refuses_legal(|old| has_bytes_of_origin(old, true));
    rows.reader("refuses-origin-beside-a-transfer")
        .refuses_origin(|old, origin| old.settings.transfer != 0 && origin.is_some());
    rows.both("refuses-origin-when-locked").refuses_origin(|old, origin| old.settings.locked() && origin.is_some());
}

impl Row<'_> {
    /// Such an origin is no reason for refusal 3, and stays as it is.
    fn ignores(self, such: impl Fn(&Reader, usize, usize) -> bool + 'static) {
        self.also(REFUSED_3, move |case| {
            without_origins(case, &such);
            let origins = case.outcome.reader.settings.origins.iter_mut().zip(case.old.settings.origins);
            origins.filter(|(now, _)| **now == NONE).for_each(|(now, old)| *now = old);
        });
    }

    /// Such a page is taken for the origin of a filled buffer.
    fn takes_pages(self, such: fn(&Reader, usize) -> bool) {
        self.ignores(move |old, buffer, page| old.settings.filled[buffer].is_set() && such(old, page));
    }

    /// An origin gets refusal 3 if it is such, by the reader.
    fn refuses_origin(self, such: fn(&Reader, Option<usize>) -> bool) {
        self.refuses_legal(move |old| old.settings.origins.iter().any(|origin| such(old, origin.page())));
    }

    /// Two origins get refusal 3 if they are such.
    fn refuses_pair(self, such: fn(usize, usize) -> bool) {
        self.refuses_legal(move |old| match old.settings.origins.map(Origin::page) {
            [Some(one), Some(other)] => such(one, other),
            _ => false,
        });
    }

    /// A Store or a LoadChar that gets this code has this effect on the origins.
    fn origin(self, command: u8, code: u8, effect: Effect) {
        self.names(command, code, move |now, old, buffer, page| {
            effect(&mut now.settings.origins, old.settings.origins, buffer, Origin::of(page));
        });
    }

    /// The line switch leaves the origins of such buffers.
    fn keeps_if(self, such: fn(&Reader, usize) -> bool) {
        self.leaves(SWITCHED, move |now, old| {
            for buffer in (0..2).filter(|&buffer| such(old, buffer)) {
                now.settings.origins[buffer] = old.settings.origins[buffer];
            }
        });
    }
}

/// A command that ends an open transfer, one that names buffers or pages apart.
fn ends_transfer(case: &Case) -> bool {
    let plain = [HAND_SHAKE, TEMPLETE_NUM, READ_SYS_PARA].iter().any(|&command| case.asks(command));
    plain && REPLIED(case) && case.in_transfer()
}

/// A data packet with this identifier that goes in.
fn takes_data(identifier: u8, case: &Case) -> bool {
    let stand = |reader: &Reader| (reader.settings.transfer, reader.settings.got);
    let found = case.packet().map_or(false, |packet| packet.identifier == identifier);
    found && !REPLIED(case) && stand(case.old) != stand(&case.outcome.reader)
}

/// Such origins are taken for none.
fn without_origins(case: &mut Case, such: impl Fn(&Reader, usize, usize) -> bool) {
    let old = case.old;
    case.ask(|asked| {
        for (buffer, origin) in asked.reader.settings.origins.iter_mut().enumerate() {
            if origin.page().map_or(false, |page| such(old, buffer, page)) {
                *origin = NONE;
            }
        }
    });
}

/// Whether a buffer has the bytes of its origin, or has not.
fn has_bytes_of_origin(old: &Reader, has: bool) -> bool {
    let has_them = |buffer: usize, page: usize| (old.template(page) == old.buffers[buffer]) == has;
    (0..2).any(|buffer| old.settings.origins[buffer].page().map_or(false, |page| has_them(buffer, page)))
}
