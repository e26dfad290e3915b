//! Errors in what DeletChar and Empty wipe by document 02's request [7].

use super::words::*;

/// An effect on the reader as it is now, by what it was of old and by a buffer.
type Effect = fn(&mut Reader, &Reader, usize);

const BYTES: Effect = |now, old, buffer| now.buffers[buffer] = old.buffers[buffer].clone();
const MARK: Effect = |now, old, buffer| now.settings.filled[buffer] = old.settings.filled[buffer];
const ORIGIN: Effect = |now, old, buffer| now.settings.origins[buffer] = old.settings.origins[buffer];
const WIPED: Effect = |now, _, buffer| now.wipe(buffer);

pub fn add(rows: &mut Rows) {
    for (name, command) in [("delet-char", DELET_CHAR), ("empty", EMPTY)] {
        // Which buffers are wiped, by the reader, the buffer and whether its origin was deleted.
        rows.both(format!("{name}-leaves-buffers")).wipes(command, |_, _, _| false);
        rows.reader(format!("{name}-wipes-buffer-1-only")).wipes(command, |_, b, deleted| deleted && b == 0);
        rows.reader(format!("{name}-wipes-buffer-2-only")).wipes(command, |_, b, deleted| deleted && b == 1);
        rows.reader(format!("{name}-wipes-one-of-two")).wipes(command, |old, b, deleted| {
            deleted && (b == 0 || old.settings.origins[0] != old.settings.origins[1])
        });
        rows.reader(format!("{name}-wipes-two-for-one"))
            .wipes_by_pages(command, |old, _, pages| old.settings.origins.iter().any(|origin| origin.among(pages)));
        rows.reader(format!("{name}-wipes-without-origin"))
            .wipes(command, |old, b, deleted| deleted || old.settings.origins[b] == NONE);
        rows.reader(format!("{name}-takes-origin-0-for-none"))
            .wipes(command, |old, b, deleted| deleted && old.settings.origins[b] != Origin(0));
        rows.reader(format!("{name}-wipes-same-bytes-only")).wipes(command, |old, b, deleted| {
            let origin = old.settings.origins[b].page().filter(|_| deleted);
            origin.map_or(false, |page| old.template(page) == old.buffers[b])
        });
        rows.reader(format!("{name}-wipes-below-256"))
            .wipes(command, |old, b, deleted| deleted && old.settings.origins[b].0 < 256);
        // What of them is left.
        rows.reader(format!("{name}-leaves-bytes")).of_named(command, 0x00, &[BYTES]);
        rows.reader(format!("{name}-leaves-filled")).of_named(command, 0x00, &[MARK]);
        rows.reader(format!("{name}-leaves-origin")).of_named(command, 0x00, &[ORIGIN]);
        rows.reader(format!("{name}-clears-origin-only")).of_named(command, 0x00, &[BYTES, MARK]);
        // Which are wiped though the command is barred.
        rows.reader(format!("locked-{name}-wipes")).of_named(command, 0x21, &[WIPED]);
    }
    rows.reader("delet-char-clears-filled-only").of_named(DELET_CHAR, 0x00, &[BYTES, ORIGIN]);
    rows.reader("far-delet-char-wipes").of_named(DELET_CHAR, 0x10, &[WIPED]);
    rows.reader("delet-char-wipes-any-origin").wipes(DELET_CHAR, |old, b, _| old.settings.origins[b] != NONE);
    rows.reader("delet-char-wipes-all").wipes(DELET_CHAR, |_, _, _| true);
    rows.reader("delet-char-wipes-same-bytes-too").wipes_by_pages(DELET_CHAR, |old, b, pages| {
        let same = |page: usize| old.stored(page) && old.template(page) == old.buffers[b];
        old.settings.filled[b].is_set() && pages.clone().any(same) || old.settings.origins[b].among(pages)
    });
    rows.reader("delet-char-wipes-filled-in-8-bits").wipes_by_pages(DELET_CHAR, |old, b, pages| {
        let origin = old.settings.origins[b].page();
        origin.map_or(false, |origin| pages.clone().any(|page| page % 256 == origin % 256))
    });
    // Which pages count as deleted, by the first and the end.
    rows.reader("delet-char-wipes-first-only").wipes_within(|first, end| first..end.min(first + 1));
    rows.reader("delet-char-wipes-last-only").wipes_within(|first, end| first.max(end.max(1) - 1)..end);
    rows.reader("delet-char-wipes-all-but-first").wipes_within(|first, end| first + 1..end);
    rows.reader("delet-char-wipes-all-but-last").wipes_within(|first, end| first..end.max(1) - 1);
    rows.reader("delet-char-wipes-one-past").wipes_within(|first, end| first..end + 1);
    rows.reader("delet-char-wipes-one-past-some").wipes_within(|first, end| first..end + (end - first).min(1));
    rows.reader("delet-char-wipes-one-before").wipes_within(|first, end| first.max(1) - 1..end);
    rows.reader("delet-char-of-none-wipes-one").wipes_within(|first, end| first..end.max(first + 1));
    rows.reader("delet-char-wipes-from-page-on").wipes_within(|first, _| first..usize::MAX);
    rows.reader("delet-char-wipes-up-to-page").wipes_within(|_, end| 0..end);
}

impl Row<'_> {
    fn wipes(self, command: u8, such: fn(&Reader, usize, bool) -> bool) {
        self.wipes_by_pages(command, move |old, b, pages| such(old, b, old.settings.origins[b].among(pages)));
    }

    /// DeletChar wipes the buffers whose origin is one of these pages.
    fn wipes_within(self, other: fn(usize, usize) -> Range<usize>) {
        self.wipes_by_pages(DELET_CHAR, move |old, b, pages| {
            old.settings.origins[b].among(&other(pages.start, pages.end))
        });
    }

    /// A command that gets 00h wipes such buffers: by the reader, the buffer and the pages deleted.
    fn wipes_by_pages(self, command: u8, such: impl Fn(&Reader, usize, &Range<usize>) -> bool + 'static) {
        self.also(fine(command), move |case| {
            case.ask(|asked| asked.reader.settings.origins = [NONE; 2]);
            case.outcome.reader.settings.origins = case.old.settings.origins;
            let pages = pages_of(case);
            (0..2).filter(|&b| such(case.old, b, &pages)).for_each(|b| case.outcome.reader.wipe(b));
        });
    }

    /// A command that gets this code also has these effects on the buffers whose origin it names.
    fn of_named(self, command: u8, code: u8, effects: &'static [Effect]) {
        self.also(gets(command, code), move |case| {
            let pages = pages_of(case);
            for b in (0..2).filter(|&b| case.old.settings.origins[b].among(&pages)) {
                effects.iter().for_each(|effect| effect(&mut case.outcome.reader, case.old, b));
            }
        });
    }
}

/// The pages that a DeletChar or an Empty names.
fn pages_of(case: &Case) -> Range<usize> {
    if case.asks(EMPTY) {
        0..case.old.capacity()
    } else {
        pages(case.content)
    }
}
