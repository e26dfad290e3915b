//! Counts what the closings of document 02's request [9] met and brought about, and which of it must occur.

use crate::cases::origins::CAPACITIES;
use crate::compare::fit::*;
use crate::compare::frame::{Outcome, Request};
use crate::reader::*;
use crate::tally::kinds::{kinds, Codes, Kind, Numbers, UpTo};
use crate::tally::origins::with_origin;
use crate::tally::{Met, Tally};

kinds! {
    /// What a closing of the gaps meets and brings about.
    CLOSED:
    CLOSINGS = "closings by refusal", Numbers(&[0, 1, 3]);
    CLOSINGS_BY_CAPACITY = "closings carried out by C", Numbers(&CAPACITIES);
    CLOSINGS_BY_GAP =
        "closings carried out by gap: 0 none, 1 at page 0, 2 inside, 3 at the end, 4 all vacant",
        Numbers(&[0, 1, 2, 3, 4]);
    CLOSINGS_BY_PAGE =
        "pages closed: 0 vacant and zero, 1 vacant and not zero, 2 left in place, 3 moved by one, 4 moved further, 5 moved and zero",
        Numbers(&[0, 1, 2, 3, 4, 5]);
    PAGES_MOVED_FROM = "pages moved, by the old page", Numbers(&[1, 7, 8, 9, 255, 256, 257, 998, 999]);
    ORIGINS_MOVED = "origins that moved: 1, 2, or 3 for both", Numbers(&[1, 2, 3]);
    ORIGINS_NOT_MOVED = "origins that did not move: 1, 2, or 3 for both", Numbers(&[1, 2, 3]);
    CLOSINGS_BY_LOCK =
        "closings carried out: 0 without a password, 1 with one and verified, 2 locked", Numbers(&[0, 1, 2]);
    CLOSINGS_BY_TRANSFER = "closings carried out by the buffer of a transfer", Numbers(&[0, 1, 2]);
    CLOSINGS_BY_FOUND = "closings carried out by the found mark", Numbers(&[0, 1]);
    SECOND_CLOSINGS =
        "closings of what a closing left: 0 with no page stored, 1 with some, 2 with all", Numbers(&[0, 1, 2]);
    COMMANDS_AFTER_CLOSING =
        "commands answered 00h by a reader that a closing left",
        Codes(&[STORE, LOAD_CHAR, UP_CHAR, DELET_CHAR, EMPTY, TEMPLETE_NUM, READ_INDEX_TABLE]);
    LOADS_AFTER_CLOSING = "LoadChars of a reader that a closing left by code", Codes(&[0x00, 0x0B, 0x0C]);
    TABLES_REFUSED =
        "closings refused for the table alone: 0 of no numbers, 1 of one too few, 2 of one too many, 3 of twice as many",
        Numbers(&[0, 1, 2, 3]);
    INDEXES_REFUSED_CLOSED =
        "closings refused for the index's length alone, by this length", Numbers(&[0, 32, 127, 129, 256]);
    TEMPLATES_REFUSED = "closings refused for whole pages alone, by their number", Numbers(&[0, MOST_PAGES + 1]);
    UNEVEN_TEMPLATES_REFUSED =
        "closings refused for templates that are not whole pages alone, by the bytes too many",
        Numbers(&[1, PAGE / 2, PAGE - 1]);
    BITS_REFUSED_CLOSED =
        "closings refused for a bit at or above C alone, by the index page of the first", UpTo(INDEX_PAGES - 1);
    SETTINGS_REFUSED =
        "closings refused for a setting alone: 0 level, 1 size code, 2 baud factor, 3 verified, 4 filled, 5 found, 6 transfer, 7 origin",
        UpTo(7);
    ORIGINS_REFUSED_CLOSED =
        "closings refused for an origin alone: 0 at C, 1 above it, 2 on a vacant page, 3 of a buffer not filled",
        Numbers(&[0, 1, 2, 3]);
    LENGTHS_BEFORE_SETTINGS =
        "closings refused with 1 that would get 3 otherwise: 0 for the templates, 1 for the index, 2 for the table",
        Numbers(&[0, 1, 2]);
    MARKS_CLOSED = "closings by refusal, with a mark of neither 0 nor 1", Numbers(&[1, 3]);
    NOT_LENT =
        "closings carried out with another length: 0 of the notepad, 1 and 2 of a buffer, 3 of scores, 4 of thresholds, 5 of an empty run",
        UpTo(5);
}

impl Tally {
    pub fn add_closing(&mut self, request: &Request, outcome: &Outcome) {
        let refusal = outcome.answer.refusal;
        self.count(CLOSINGS, refusal);
        match refusal {
            0 => {
                self.add_closed(request, outcome);
                self.add_beside([CLOSINGS_BY_LOCK, CLOSINGS_BY_TRANSFER, CLOSINGS_BY_FOUND, NOT_LENT], request);
                self.closed = Some(outcome.reader.clone());
            }
            1 => self.add_closing_refused_for_lengths(request),
            _ => self.add_closing_refused_for_settings(request),
        }
    }

    /// A closing that was carried out, by its gaps, its pages and its origins.
    fn add_closed(&mut self, request: &Request, outcome: &Outcome) {
        let old = &request.reader;
        let capacity = old.capacity();
        let stored: Vec<usize> = (0..capacity).filter(|&page| old.stored(page)).collect();
        let count = stored.len();
        self.count(CLOSINGS_BY_CAPACITY, capacity);
        if self.closed.as_ref() == Some(old) {
            self.count(SECOND_CLOSINGS, usize::from(count > 0) + usize::from(count == capacity));
        }
        let gaps = [
            count == capacity,
            count > 0 && stored[0] > 0,
            stored.windows(2).any(|pair| pair[0] + 1 < pair[1]),
            count > 0 && stored[count - 1] + 1 < capacity,
            count == 0,
        ];
        (0..gaps.len()).filter(|&gap| gaps[gap]).for_each(|gap| self.count(CLOSINGS_BY_GAP, gap));
        for page in (0..capacity).filter(|&page| !old.stored(page)) {
            self.count(CLOSINGS_BY_PAGE, usize::from(old.has_bytes(page)));
        }
        for (new, &page) in stored.iter().enumerate() {
            self.count(CLOSINGS_BY_PAGE, 2 + (page - new).min(2));
            if page != new {
                self.count(PAGES_MOVED_FROM, page);
                if !old.has_bytes(page) {
                    self.count(CLOSINGS_BY_PAGE, 5_usize);
                }
            }
        }
        self.add_closed_origins(old, &outcome.reader);
    }

    /// The origins, by whether they moved.
    fn add_closed_origins(&mut self, old: &Reader, new: &Reader) {
        let [mut moved, mut left] = [0_usize; 2];
        for (buffer, page) in with_origin(old) {
            if new.settings.origins[buffer] == Origin::of(page) {
                left += buffer + 1;
                continue;
            }
            moved += buffer + 1;
        }
        for (kind, buffers) in [(ORIGINS_MOVED, moved), (ORIGINS_NOT_MOVED, left)] {
            if buffers > 0 {
                self.count(kind, buffers);
            }
        }
    }

    /// What was carried out, by what else was there.
    pub fn add_beside(&mut self, [lock, transfer, found, not_lent]: [Kind; 4], request: &Request) {
        let Reader { settings, notepad, buffers, chip, .. } = &request.reader;
        self.count(lock, if settings.locked() { 2_usize } else { (settings.password != [0; 4]).into() });
        self.count(transfer, settings.transfer);
        self.count(found, settings.found.is_set());
        let others = [
            notepad.len() != PAGE,
            buffers[0].len() != PAGE,
            buffers[1].len() != PAGE,
            chip.scores.len() != request.reader.capacity(),
            chip.thresholds.len() != THRESHOLDS,
            request.run.is_empty(),
        ];
        (0..others.len()).filter(|&other| others[other]).for_each(|other| self.count(not_lent, other));
    }

    /// A closing with refusal 1, by what it alone was refused for and what would come next.
    fn add_closing_refused_for_lengths(&mut self, request: &Request) {
        let Reader { templates, index, .. } = &request.reader;
        let (capacity, table) = (request.reader.capacity(), request.room.len() / 2);
        let whole_pages = templates.len() % PAGE == 0 && (1..=MOST_PAGES).contains(&capacity);
        for (place, fit) in [FIT_TEMPLATES, FIT_INDEX, FIT_ROOM].into_iter().enumerate() {
            match (place, refusal_with(fit, request)) {
                (0, _) if whole_pages => {}
                (_, 3) => self.count(LENGTHS_BEFORE_SETTINGS, place),
                (0, 0) if templates.len() % PAGE == 0 => self.count(TEMPLATES_REFUSED, capacity),
                (0, 0) => self.count(UNEVEN_TEMPLATES_REFUSED, templates.len() % PAGE),
                (1, 0) => self.count(INDEXES_REFUSED_CLOSED, index.len()),
                (2, 0) if table == 0 => self.count(TABLES_REFUSED, 0_usize),
                (2, 0) if table + 1 == capacity => self.count(TABLES_REFUSED, 1_usize),
                (2, 0) if table == capacity + 1 => self.count(TABLES_REFUSED, 2_usize),
                (2, 0) if table == 2 * capacity => self.count(TABLES_REFUSED, 3_usize),
                _ => {}
            }
        }
    }

    /// A closing with refusal 3, by what it alone was refused for.
    fn add_closing_refused_for_settings(&mut self, request: &Request) {
        let (settings, capacity) = (&request.reader.settings, request.reader.capacity());
        for (place, fit) in FIT_SETTINGS.into_iter().enumerate() {
            if refusal_with(fit, request) == 0 {
                self.count(SETTINGS_REFUSED, place);
            }
        }
        if let Some(page) = request.reader.bits_beyond().next() {
            if refusal_with(FIT_BITS, request) == 0 {
                self.count(BITS_REFUSED_CLOSED, page / 8 / INDEX_PAGE);
            }
        }
        if refusal_with(|request| request.reader.settings.origins = [NONE; 2], request) == 0 {
            for (buffer, page) in with_origin(&request.reader) {
                let which: usize = match page {
                    _ if page >= capacity => (page - capacity).min(1),
                    _ if !request.reader.stored(page) => 2,
                    _ if !settings.filled[buffer].is_set() => 3,
                    _ => continue,
                };
                self.count(ORIGINS_REFUSED_CLOSED, which);
            }
        }
    }

    /// A command to a reader with the settings, templates and index that a closing left.
    pub fn add_packet_after_closing(&mut self, Met { request, packet, code, .. }: &Met) {
        let same = |left: &Reader| same_library(left, &request.reader);
        let after = packet.identifier == COMMAND && self.closed.as_ref().map_or(false, same);
        if let Some(code) = code.filter(|_| after) {
            if code == 0x00 {
                self.count(COMMANDS_AFTER_CLOSING, packet.content[0]);
            }
            if packet.content[0] == LOAD_CHAR {
                self.count(LOADS_AFTER_CLOSING, code);
            }
        }
    }
}

/// Whether two readers have the same settings, templates and index.
pub fn same_library(one: &Reader, other: &Reader) -> bool {
    one.settings == other.settings && one.index == other.index && one.templates == other.templates
}

/// The refusal that a request would get with this change, or 0.
pub fn refusal_with(fit: Fit, request: &Request) -> u8 {
    let mut asked = request.clone();
    fit(&mut asked);
    asked.carried_out().answer.refusal
}
