//! Errors in the thousand pages of document 02's request [6], indexes that are brought over apart.

use super::basics::sum_wraps_at;
use super::words::*;

/// The pages that one byte can number, and the bytes of their index.
const FEW_PAGES: usize = 256;
const FEW_BYTES: usize = FEW_PAGES / 8;

/// The codes of a Store, a LoadChar or a DeletChar that names pages below C.
const BELOW: &[u8] = &[0x00, 0x0C, 0x22];
/// The codes of one that does not.
const BEYOND: &[u8] = &[0x0B, 0x10];

/// An index of 32 bytes, of no more than 256 pages.
const SHORT: fn(&Reader) -> bool = |old| old.index.len() == FEW_BYTES && old.capacity() <= FEW_PAGES;

/// The bits of pages from 256 on stay as they are.
const KEEP_FAR_BITS: fn(&mut Reader, &Reader) =
    |now, old| now.index[FEW_BYTES..].copy_from_slice(&old.index[FEW_BYTES..]);

pub fn add(rows: &mut Rows) {
    // The lengths of templates and index, and the bits at or above C.
    rows.both("most-pages-256").refuses(1, |case| CALL(case) && case.old.capacity() > FEW_PAGES);
    rows.reader("most-pages-999").refuses(1, |case| CALL(case) && case.old.capacity() > 999);
    rows.both("most-pages-1001").as_if(
        |case| CALL(case) && case.old.templates.len() == PAGE * (MOST_PAGES + 1),
        |asked| {
            asked.reader.templates.truncate(PAGE * MOST_PAGES);
            asked.reader.chip.scores.truncate(MOST_PAGES);
        },
        |now, old| now.templates.extend(&old.templates[PAGE * MOST_PAGES..]),
    );
    rows.both("capacity-told-in-8-bits").retells(fine(READ_SYS_PARA), |content, _| content[5] = 0);
    rows.both("index-of-32-only").also(CALL, |case| match case.old.index.len() {
        INDEX => case.outcome = refused_with(1, case.request),
        _ => take_index(case, SHORT),
    });
    rows.both("index-of-32-too").takes_index(SHORT);
    rows.reader("index-of-127-too").takes_index(|old| old.index.len() == 127);
    rows.reader("index-of-129-too").takes_index(|old| old.index.len() == 129);
    rows.reader("index-of-256-too").takes_index(|old| old.index.len() == 256);
    rows.reader("index-as-the-pages-need")
        .takes_index(|old| (old.capacity()..=8 * INDEX).contains(&(8 * old.index.len())));
    rows.both("bits-tested-in-32-bytes").ignores_bits(|_, page| page >= FEW_PAGES);
    rows.reader("bits-tested-below-1000").ignores_bits(|_, page| page >= MOST_PAGES);
    rows.reader("bits-tested-above-C").ignores_bits(|capacity, page| page == capacity);
    rows.reader("bits-tested-by-byte").ignores_bits(|capacity, page| page / 8 < (capacity + 7) / 8);
    rows.reader("bits-tested-from-C-in-8-bits")
        .refuses_legal(|old| (old.capacity() % FEW_PAGES..old.capacity()).any(|page| old.stored(page)));
    rows.both("switch-tests-index").switch_tests(|old| old.index.len() != INDEX);
    rows.reader("switch-tests-pages").switch_tests(|old| old.capacity() > MOST_PAGES);
    // Pages that are taken modulo 256 or, from C on, modulo 1024, by the place of the high byte; and those from 256 on.
    for (name, command, high) in [("store", STORE, 2), ("load-char", LOAD_CHAR, 2), ("delet-char", DELET_CHAR, 1)] {
        rows.both(format!("{name}-page-in-8-bits")).takes_content(command, BELOW, move |content| content[high] = 0);
        rows.reader(format!("{name}-page-in-10-bits"))
            .takes_content(command, BEYOND, move |content| content[high] &= 3);
    }
    for (name, command) in [("store", STORE), ("load-char", LOAD_CHAR)] {
        rows.reader(format!("{name}-below-256"))
            .takes_content(command, BELOW, |content| content[2] = if content[2] > 0 { 0xFF } else { 0 });
    }
    for (name, command) in [("store-sets-bit", STORE), ("delet-char-clears-bits", DELET_CHAR)] {
        rows.reader(format!("{name}-below-256")).leaves(fine(command), KEEP_FAR_BITS);
    }
    rows.both("empty-clears-bits-below-256").leaves(fine(EMPTY), KEEP_FAR_BITS);
    for (name, command) in
        [("store-copies", STORE), ("delet-char-zeroes-pages", DELET_CHAR), ("empty-zeroes-pages", EMPTY)]
    {
        rows.reader(format!("{name}-below-256")).leaves(fine(command), |now, old| {
            now.templates.truncate(PAGE * FEW_PAGES);
            now.templates.extend(old.templates.iter().skip(PAGE * FEW_PAGES));
        });
    }
    // Store and LoadChar.
    rows.reader("store-tests-bit-in-8-bits").refused_if(|old, _, page| old.stored(page % FEW_PAGES));
    rows.reader("store-sets-bit-in-8-bits").names(STORE, 0x00, |now, old, _, page| {
        now.index = old.index.clone();
        now.index[page % FEW_PAGES / 8] |= bit(page);
    });
    rows.reader("store-copies-to-page-in-8-bits").names(STORE, 0x00, |now, old, buffer, page| {
        now.templates = old.templates.clone();
        now.template_mut(page % FEW_PAGES).copy_from_slice(&old.buffers[buffer]);
    });
    rows.reader("load-char-tests-bit-in-8-bits")
        .takes_bit(LOAD_CHAR, [0x00, 0x0C], |old, _, page| old.stored(page % FEW_PAGES));
    rows.reader("load-char-copies-page-in-8-bits")
        .names(LOAD_CHAR, 0x00, |now, old, buffer, page| now.buffers[buffer] = old.template(page % FEW_PAGES).to_vec());
    // DeletChar.
    rows.reader("delet-char-count-in-8-bits").deletes(|pages| pages.start..pages.start + pages.len() % FEW_PAGES);
    rows.reader("delet-char-sum-in-10-bits").answers(0x00, sum_wraps_at(1024));
    rows.reader("delet-char-below-256").deletes(|pages| if pages.end > FEW_PAGES { 0..0xFFFF } else { pages });
    rows.both("delet-char-cut-at-256").deletes(|pages| pages.start..pages.end.min(FEW_PAGES.max(pages.start)));
    rows.reader("delet-char-clears-bits-in-8-bits").deletes_also(|now, old, pages| {
        now.index = old.index.clone();
        pages.for_each(|page| now.index[page % FEW_PAGES / 8] &= !bit(page));
    });
    rows.reader("delet-char-zeroes-pages-in-8-bits").deletes_also(|now, old, pages| {
        now.templates = old.templates.clone();
        pages.for_each(|page| now.template_mut(page % FEW_PAGES).fill(0));
    });
    // TempleteNum and ReadIndexTable.
    rows.both("counts-32-bytes").counts(|_, index| ones(&index[..FEW_BYTES]));
    rows.reader("counts-96-bytes").counts(|_, index| ones(&index[..96]));
    rows.reader("counts-to-255").counts(|count, _| count.min(255));
    rows.both("index-page-0-only").lists(|page, old| below(1, page, old));
    rows.reader("index-pages-0-to-2").lists(|page, old| below(3, page, old));
    rows.both("index-page-4-zero").lists(|page, old| match page {
        4 => Ok(vec![0; INDEX_PAGE]),
        _ => below(4, page, old),
    });
    rows.reader("index-page-3-told-as-0").lists(|page, old| below(4, page, old).and_then(|_| below(3, page % 3, old)));
    rows.reader("index-pages-all-told-as-0").lists(|page, old| below(4, page, old).and_then(|_| below(1, 0, old)));
    rows.reader("index-page-in-2-bits").lists(|page, old| below(4, page % 4, old));
    rows.reader("index-pages-turned").lists(|page, old| below(4, page, old).and_then(|_| below(4, 3 - page, old)));
    rows.reader("index-page-is-a-byte")
        .lists(|page, old| below(4, page, old).map(|_| old.index[page..page + INDEX_PAGE].to_vec()));
    rows.reader("index-page-is-all").lists(|page, old| below(4, page, old).map(|_| old.index.clone()));
    rows.reader("index-pages-as-C-needs").lists(|page, old| below((old.capacity() + 255) / FEW_PAGES, page, old));
    rows.reader("index-page-4-like-notepad").lists(|page, old| below(4, page, old).map_err(|_| 0x1C));
}

impl Row<'_> {
    fn takes_index(self, such: fn(&Reader) -> bool) {
        self.also(CALL, move |case| take_index(case, such));
    }

    /// A bit at or above C is no reason for refusal 3 if C and its page are such.
    fn ignores_bits(self, such: fn(usize, usize) -> bool) {
        let ignored = move |old: &Reader| {
            let beyond = old.capacity()..8 * old.index.len();
            beyond.filter(|&page| old.stored(page) && such(old.capacity(), page)).collect::<Vec<usize>>()
        };
        self.also(CALL, move |case| {
            let ignored = ignored(case.old);
            case.ask(|asked| ignored.iter().for_each(|page| asked.reader.index[page / 8] &= !bit(*page)));
            ignored.iter().for_each(|page| case.outcome.reader.index[page / 8] |= bit(*page));
        });
    }

    /// A DeletChar that gets 00h is taken for one of other pages.
    fn deletes(self, other: fn(Range<usize>) -> Range<usize>) {
        self.takes_content(DELET_CHAR, &[0x00], move |content| {
            let pages = other(pages(content));
            content.truncate(1);
            content.extend([pages.start as u16, pages.len() as u16].map(u16::to_be_bytes).concat());
        });
    }

    /// A DeletChar that gets 00h also has this effect, with its pages.
    fn deletes_also(self, effect: fn(&mut Reader, &Reader, Range<usize>)) {
        self.also(fine(DELET_CHAR), move |case| effect(&mut case.outcome.reader, case.old, pages(case.content)));
    }

    /// ReadIndexTable gives these bytes, or this code, to a page.
    fn lists(self, listed: fn(usize, &Reader) -> Result<Vec<u8>, u8>) {
        let answered = |case: &Case| case.gets(READ_INDEX_TABLE, 0x00) || case.gets(READ_INDEX_TABLE, 0x0B);
        self.tells(answered, move |case| match listed(case.content[1].into(), case.old) {
            Ok(listed) => [&[0x00], &listed[..]].concat(),
            Err(code) => vec![code],
        });
    }
}

/// An index of such a reader is taken for one of 128 bytes: its own as far as they go, then zero bytes.
fn take_index(case: &mut Case, such: fn(&Reader) -> bool) {
    if such(case.old) {
        case.ask(|asked| asked.reader.index.resize(INDEX, 0));
        case.outcome.reader.index.truncate(case.old.index.len());
        case.outcome.reader.index.extend(case.old.index.iter().skip(INDEX));
    }
}

/// The bytes of an index page below this one; 0Bh from there on.
fn below(pages: usize, page: usize, old: &Reader) -> Result<Vec<u8>, u8> {
    old.index.chunks(INDEX_PAGE).take(pages).nth(page).map(<[u8]>::to_vec).ok_or(0x0B)
}
