//! Errors in what document 01 is about, in the fresh settings of document 02's request [2], and in the Store of its
//! request [5].

use super::words::*;

/// A packet with a wrong sum.
const DAMAGED: Pick = |case| CALLED(case) && case.sum_wrong();
const ENDS_IN_EF: Pick = |case| CALLED(case) && case.request.run.ends_with(&[0xEF]);
/// A data packet with identifier 2 that makes a transfer whole.
const LAST_WITH_2: Pick = |case| {
    let whole = |found: &Packet| usize::from(case.old.settings.got) + found.content.len() == PAGE;
    case.packet().map_or(false, |found| found.identifier == DATA && found.sum_right && whole(&found))
};
/// A command to another address while a transfer is open.
const FOREIGN: Pick = |case| {
    let foreign = |found: Packet| found.identifier == COMMAND && found.address != case.old.settings.address;
    CALLED(case) && case.in_transfer() && case.packet().map_or(false, foreign)
};

pub fn add(rows: &mut Rows) {
    // Packets and replies.
    rows.reader("lock-before-sum").answers(0x21, |case| {
        case.locked() && case.sum_wrong() && REPLIED(case) && !FREE.iter().any(|&free| case.asks(free))
    });
    rows.reader("rescans-bad-sum").also(DAMAGED, |case| {
        case.outcome.answer.used = header(&case.request.run).map_or(0, |header| header.place + 2);
    });
    rows.reader("eats-last-ef").also(ENDS_IN_EF, |case| case.outcome.answer.used = case.request.run.len());
    rows.reader("reply-room-past").also(REPLIED, |case| {
        case.outcome.room.iter_mut().skip(case.outcome.answer.length).take(1).for_each(|byte| *byte = 0);
    });
    rows.reader("settings-before-room").refuses(3, |case| case.refusal == 2 && case.old.refusal(ROOM) == 3);
    rows.reader("always-silent").also(REPLIED, |case| case.ignore());
    rows.reader("always-unknown").bars(0x19, REPLIED);
    rows.reader("always-fine").answers(0x00, |case| REPLIED(case) && case.code != Some(0x00));
    rows.reader("old-address")
        .also(REPLIED, |case| case.outcome.room[2..6].copy_from_slice(&case.old.settings.address));
    // Transfers.
    rows.reader("two-ends-transfer")
        .takes_packet(LAST_WITH_2, |_, found| packet(found.address, LAST_DATA, found.content));
    rows.reader("first-packet-only").leaves(SILENT, |now, old| {
        let Settings { transfer, got, .. } = old.settings;
        for buffer in (0..2).filter(|&buffer| usize::from(transfer) == buffer + 1 && got > 0) {
            if now.settings.got > got || now.settings.filled[buffer].is_set() {
                now.buffers[buffer] = old.buffers[buffer].clone();
            }
        }
    });
    rows.reader("failed-transfer-stays-open").leaves(coded(0x0E), |now, old| *now = old.clone());
    rows.reader("foreign-ends-transfer").leaves(FOREIGN, |now, old| {
        now.buffers[usize::from(old.settings.transfer) - 1].fill(0);
        now.settings.transfer = 0;
        now.settings.got = 0;
    });
    // Pages.
    rows.reader("delete-keeps-templates").leaves(asks(DELET_CHAR), |now, old| now.templates = old.templates.clone());
    rows.reader("store-moves-nothing").leaves(asks(STORE), |now, old| now.templates = old.templates.clone());
    rows.reader("sum-in-16-bits").answers(0x00, sum_wraps_at(0x10000));
    rows.reader("invents-count").counts(|count, _| count + 1);
    rows.reader("counts-all-but-last-byte").counts(|_, index| ones(&index[..MOST_PAGES / 8 - 1]));
    rows.reader("counts-highest-bit-twice").counts(|count, index| count + number_of(index, |byte| byte >= 0x80));
    rows.reader("counts-in-8-bits").counts(|count, _| count % 256);
    rows.reader("counts-bytes-with-a-bit").counts(|_, index| number_of(index, |byte| byte != 0));
    // Marks and the line switch.
    rows.reader("keeps-mark").sets(coded(0x13), |now, old| now.verified = old.verified);
    rows.reader("takes-any-mark").takes(|_| true, |asked| set_marks(&mut asked.reader.settings));
    rows.reader("switch-keeps-buffers").leaves(SWITCHED, |now, old| now.buffers = old.buffers.clone());
    rows.reader("switch-keeps-unfit-marks")
        .sets(|case| SWITCHED(case) && !case.old.settings.verified.legal(), |now, old| now.verified = old.verified);
    // Fresh settings, which are no stored ones.
    rows.fresh("fresh-size-1").sets(DONE, |now, _| now.size_code = 1);
    rows.fresh("fresh-keeps-size").sets(DONE, |now, old| now.size_code = old.size_code);
    rows.both("call-lays-fresh-size").lays_fresh_size(CALLED);
    rows.reader("down-char-lays-fresh-size").lays_fresh_size(asks(DOWN_CHAR));
    rows.reader("old-fresh-made-fresh")
        .lays_fresh_size(|case| CALLED(case) && case.old.settings == Settings { size_code: 1, ..Settings::fresh() });
    rows.both("switch-lays-fresh-size").lays_fresh_size(SWITCHED);
    // Stores: when a page counts as stored, by the buffer and the page.
    rows.both("store-writes-over").refused_if(|_, _, _| false);
    rows.reader("store-writes-same-bytes").refused_if(|old, b, page| old.stored(page) && !same(old, b, page));
    rows.reader("store-refuses-same-bytes-only").refused_if(|old, b, page| old.stored(page) && same(old, b, page));
    rows.reader("store-refuses-buffer-1-only").refused_if(|old, buffer, page| old.stored(page) && buffer == 0);
    rows.reader("store-looks-at-template").refused_if(|old, _, page| old.has_bytes(page));
    rows.reader("store-looks-at-neighbour").refused_if(|old, _, page| old.stored(page ^ 1));
    rows.reader("store-looks-at-neighbour-too").refused_if(|old, _, page| old.stored(page) || old.stored(page ^ 1));
    rows.reader("store-looks-at-turned-byte").refused_if(|old, _, page| old.stored(page ^ 7));
    rows.reader("store-looks-at-first-byte").refused_if(|old, _, page| old.stored(page % 8));
    rows.reader("store-looks-at-whole-byte").refused_if(|old, _, page| old.index[page / 8] != 0);
    // Stores: what is tested first.
    rows.reader("stored-before-lock").answers(0x22, |case| stored_store(0x21, case));
    rows.reader("stored-before-buffer").answers(0x22, |case| match *case.content {
        [STORE, _, high, low] if case.code == Some(0x01) && !case.sum_wrong() => {
            case.old.buffer_and_page(&[1, high, low]).map_or(false, |(_, page)| case.old.stored(page))
        }
        _ => false,
    });
    rows.reader("stored-before-filled").answers(0x22, |case| stored_store(0x0C, case));
    rows.reader("stored-taken-for-not-filled").answers(0x0C, |case| stored_store(0x22, case));
    // Stores: what one that gets 22h leaves.
    rows.reader("refused-store-copies")
        .names(STORE, 0x22, |now, old, buffer, page| now.template_mut(page).copy_from_slice(&old.buffers[buffer]));
    rows.reader("refused-store-clears-bit").names(STORE, 0x22, |now, _, _, page| now.index[page / 8] &= !bit(page));
    rows.reader("refused-store-clears-filled").names(STORE, 0x22, |now, _, b, _| now.settings.filled[b] = CLEAR);
    rows.both("refused-store-keeps-transfer").leaves(gets(STORE, 0x22), |now, old| *now = old.clone());
}

impl Row<'_> {
    /// A Store that passes all other tests gets 22h if its buffer and its page are such, and goes in otherwise.
    pub fn refused_if(self, such: fn(&Reader, usize, usize) -> bool) {
        self.takes_bit(STORE, [0x00, 0x22], such);
    }

    /// A Store or a LoadChar that gets one of these codes takes a page for stored if its buffer and its page are such.
    pub fn takes_bit(self, command: u8, codes: [u8; 2], such: fn(&Reader, usize, usize) -> bool) {
        let page = move |request: &Request| {
            let old = &request.reader;
            let wrongly = |&(buffer, page): &(usize, usize)| such(old, buffer, page) != old.stored(page);
            request.buffer_and_page(command).filter(wrongly).map(|(_, page)| page)
        };
        self.as_if(
            move |case| codes.iter().any(|&code| case.code == Some(code)) && page(case.request).is_some(),
            move |asked| page(asked).into_iter().for_each(|page| asked.reader.index[page / 8] ^= bit(page)),
            // A vacant page stays so, and a stored one is stored again.
            |now, old| now.index = old.index.clone(),
        );
    }

    /// TempleteNum tells another number, made of the right one and the index.
    pub fn counts(self, other: fn(u16, &[u8]) -> u16) {
        self.retells(fine(TEMPLETE_NUM), move |content, old| {
            let count = other(number(&content[1..]) as u16, &old.index);
            content[1..].copy_from_slice(&count.to_be_bytes());
        });
    }

    /// Such a case first lays the fresh size code over the stored one, unless it is refused or a transfer is open.
    fn lays_fresh_size(self, such: impl Such) {
        self.takes(
            move |case| such(case) && DONE(case) && !case.in_transfer(),
            |asked| asked.reader.settings.size_code = Settings::fresh().size_code,
        );
    }
}

/// DeletChar adds page and N modulo this limit, and finds nothing to delete when the sum wraps round.
pub fn sum_wraps_at(limit: usize) -> impl Such {
    move |case: &Case| {
        let capacity = case.old.capacity();
        let wraps = |pages: Range<usize>| pages.start < capacity && pages.end >= limit && pages.end % limit <= capacity;
        case.gets(DELET_CHAR, 0x10) && wraps(pages(case.content))
    }
}

/// How many bytes of an index are such.
fn number_of(index: &[u8], such: fn(u8) -> bool) -> u16 {
    index.iter().filter(|&&byte| such(byte)).count() as u16
}

/// A mark of any byte but 0 becomes set.
pub fn set_marks(settings: &mut Settings) {
    let Settings { verified, filled: [one, two], found, .. } = settings;
    [verified, one, two, found].into_iter().for_each(|mark| *mark = Mark::of(*mark != CLEAR));
}

/// Whether a buffer has the bytes of a page.
fn same(old: &Reader, buffer: usize, page: usize) -> bool {
    old.template(page) == old.buffers[buffer]
}

/// A Store to a stored page that gets this code.
fn stored_store(code: u8, case: &Case) -> bool {
    let named = case.request.buffer_and_page(STORE).filter(|_| case.code == Some(code));
    named.map_or(false, |(_, page)| case.old.stored(page))
}
