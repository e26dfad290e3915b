//! Counts what the salvages of document 02's request [10] met and brought about, and which of it must occur.

use crate::cases::salvage::{CAPACITIES, FIRST, LAST, MIDDLE};
use crate::compare::fit::{FIT_BITS, FIT_SETTINGS};
use crate::compare::frame::{self, Outcome, Request};
use crate::reader::salvage::{BIT_CLEARED, BYTES_ZEROED, REPORT};
use crate::reader::*;
use crate::tally::gaps::{refusal_with, same_library};
use crate::tally::kinds::{kinds, Codes, Kind, Numbers, UpTo};
use crate::tally::{Met, Tally};

kinds! {
    /// What a salvage meets and brings about.
    SALVAGED:
    SALVAGES = "salvages by refusal", Numbers(&[0, 1]);
    SALVAGES_BY_CAPACITY = "salvages carried out by C", Numbers(&CAPACITIES);
    ENTRIES =
        "reported: 0 a stored page, 1 one of zeroes, 2 a vacant page of zeroes, 3 one zeroed, 4 a clear bit at or above C, 5 one cleared",
        UpTo(5);
    BITS_CLEARED_AT_C = "bits cleared at C, by C", Numbers(&CAPACITIES);
    BITS_CLEARED =
        "bits cleared: 0 just above C, 1 in C's own byte beside a stored page, 2 in another byte, 3 in the last byte, 4 bit 1023, 5 alone, 6 all at or above C",
        UpTo(6);
    PAGES_ZEROED = "pages zeroed", Numbers(&[0, 1, 7, 8, 255, 256, 257, 998, 999]);
    LAST_PAGES_ZEROED = "last pages zeroed, by C", Numbers(&CAPACITIES);
    PLACES_ZEROED = "pages zeroed for one byte alone, by its place", Numbers(&[FIRST, MIDDLE, LAST]);
    VALUES_ZEROED = "pages zeroed for one byte alone, by this byte", Numbers(&[0x01, 0x80, 0xFF]);
    OLD_REPORTS = "salvages by refusal, with old bytes in the report", Numbers(&[0, 1]);
    SECOND_SALVAGES =
        "salvages of what a salvage left: 0 that did nothing, 1 that did something", Numbers(&[0, 1]);
    SALVAGES_BROUGHT_OVER =
        "salvages of an index brought over: 0 without a bit at or above C, 1 with one", Numbers(&[0, 1]);
    SALVAGES_UNFIT =
        "salvages of what a call refuses for one thing alone: 0 level, 1 size code, 2 baud factor, 3 verified, 4 filled, 5 found, 6 transfer, 7 origin, 8 bits at or above C",
        UpTo(8);
    SALVAGES_BY_LOCK =
        "salvages carried out: 0 without a password, 1 with one and verified, 2 locked", Numbers(&[0, 1, 2]);
    SALVAGES_BY_TRANSFER = "salvages carried out by the buffer of a transfer", Numbers(&[0, 1, 2, 3]);
    SALVAGES_BY_FOUND = "salvages carried out by the found mark", Numbers(&[0, 1]);
    SALVAGES_BESIDE =
        "salvages carried out with another length: 0 of the notepad, 1 and 2 of a buffer, 3 of scores, 4 of thresholds, 5 of an empty run",
        UpTo(5);
    MARKS_SALVAGED = "salvages by refusal, with a mark of neither 0 nor 1", Numbers(&[0, 1]);
    LENGTHS_REFUSED =
        "salvages refused: for 1 the templates, 2 the index, 4 the report, or the sum of these", Numbers(&[1, 2, 3, 4, 5, 6, 7]);
    PAGES_REFUSED = "salvages refused for whole pages alone, by their number", Numbers(&[0, MOST_PAGES + 1]);
    BYTES_REFUSED =
        "salvages refused for templates that are not whole pages alone, by the bytes too many",
        Numbers(&[1, PAGE / 2, PAGE - 1]);
    INDEXES_REFUSED = "salvages refused for the index's length alone, by this length", Numbers(&[0, 32, 127, 129, 256]);
    REPORTS_REFUSED =
        "salvages refused for the report's length alone, by this length",
        Numbers(&[0, 1, 9, REPORT - 1, REPORT + 1, 2 * REPORT, 4096]);
    COMMANDS_AFTER_SALVAGE =
        "commands answered 00h by a reader that bits at or above C alone were wrong with before a salvage",
        Codes(&[SEARCH, STORE, LOAD_CHAR, DELET_CHAR, EMPTY, TEMPLETE_NUM, READ_INDEX_TABLE]);
    LOADS_AFTER_SALVAGE = "LoadChars of such a reader by code", Codes(&[0x00, 0x0C]);
    STORES_AFTER_SALVAGE =
        "Stores answered 00h by such a reader: 0 to a page that was clean, 1 to one that was zeroed", Numbers(&[0, 1]);
}

/// What a salvage did.
pub struct Salvaged {
    /// Before, a call refused the reader for bits at or above C alone.
    refused_for_bits: bool,
    left: Reader,
    report: Vec<u8>,
}

impl Tally {
    pub fn add_salvage(&mut self, request: &Request, outcome: &Outcome) {
        let (old, refusal) = (&request.reader, outcome.answer.refusal);
        self.count(SALVAGES, refusal);
        if request.room.iter().any(|&byte| byte != 0) {
            self.count(OLD_REPORTS, refusal);
        }
        if refusal != 0 {
            return self.add_salvage_refused(request);
        }
        self.count(SALVAGES_BY_CAPACITY, old.capacity());
        self.add_beside([SALVAGES_BY_LOCK, SALVAGES_BY_TRANSFER, SALVAGES_BY_FOUND, SALVAGES_BESIDE], request);
        self.add_bits_cleared(old);
        (0..REPORT).for_each(|page| self.add_entry(old, page, outcome.room[page]));
        if let Some(first) = self.salvaged.as_ref().filter(|first| first.left == *old) {
            let did = first.report.iter().any(|&said| said != 0);
            self.count(SECOND_SALVAGES, did);
        }
        if self.brought_over.as_ref() == Some(&old.index) {
            self.count(SALVAGES_BROUGHT_OVER, old.bits_beyond().next().is_some());
        }
        let refused_for_bits = self.add_salvaged_unfit(request);
        self.salvaged = Some(Salvaged { refused_for_bits, left: outcome.reader.clone(), report: outcome.room.clone() });
    }

    /// Index bits at or above C of a salvage that was carried out.
    fn add_bits_cleared(&mut self, old: &Reader) {
        let (bits, capacity): (Vec<usize>, _) = (old.bits_beyond().collect(), old.capacity());
        let beside_stored = (capacity / 8 * 8..capacity).any(|page| old.stored(page));
        if bits.contains(&capacity) {
            self.count(BITS_CLEARED_AT_C, capacity);
        }
        let which = [
            bits.contains(&(capacity + 1)),
            beside_stored && bits.iter().any(|bit| bit / 8 == capacity / 8),
            bits.iter().any(|bit| bit / 8 > capacity / 8),
            bits.iter().any(|bit| bit / 8 == INDEX - 1),
            bits.contains(&(REPORT - 1)),
            bits.len() == 1,
            bits.len() == REPORT - capacity,
        ];
        (0..which.len()).filter(|&place| which[place]).for_each(|place| self.count(BITS_CLEARED, place));
    }

    /// What the report says of an index bit.
    fn add_entry(&mut self, old: &Reader, page: usize, said: u8) {
        let capacity = old.capacity();
        let entry = match said {
            BIT_CLEARED => 5,
            BYTES_ZEROED => 3,
            _ if page >= capacity => 4,
            _ if !old.stored(page) => 2,
            _ => usize::from(!old.has_bytes(page)),
        };
        self.count(ENTRIES, entry);
        if said != BYTES_ZEROED {
            return;
        }
        self.count(PAGES_ZEROED, page);
        if page + 1 == capacity {
            self.count(LAST_PAGES_ZEROED, capacity);
        }
        let mut bytes = old.template(page).iter().enumerate().filter(|(_, &byte)| byte != 0);
        if let (Some((place, &byte)), None) = (bytes.next(), bytes.next()) {
            self.count(PLACES_ZEROED, place);
            self.count(VALUES_ZEROED, byte);
        }
    }

    /// A salvage that was carried out, by what alone a call would refuse; whether it is bits at or above C.
    fn add_salvaged_unfit(&mut self, request: &Request) -> bool {
        let call = Request { kind: frame::Kind::Call, run: Vec::new(), room: vec![0; ROOM], ..request.clone() };
        if call.reader.refusal(ROOM) != 3 {
            return false;
        }
        for (place, fit) in FIT_SETTINGS.into_iter().enumerate() {
            if refusal_with(fit, &call) == 0 {
                self.count(SALVAGES_UNFIT, place);
            }
        }
        let for_bits = refusal_with(FIT_BITS, &call) == 0;
        if for_bits {
            self.count(SALVAGES_UNFIT, FIT_SETTINGS.len());
        }
        for_bits
    }

    /// A refused salvage, by the lengths that do not fit.
    fn add_salvage_refused(&mut self, request: &Request) {
        let Reader { templates, index, .. } = &request.reader;
        let (pages, more, report) = (templates.len() / PAGE, templates.len() % PAGE, request.room.len());
        let unfit = [more != 0 || !(1..=MOST_PAGES).contains(&pages), index.len() != INDEX, report != REPORT];
        let all: usize = unfit.iter().zip([1, 2, 4]).filter(|(unfit, _)| **unfit).map(|(_, weight)| weight).sum();
        self.count(LENGTHS_REFUSED, all);
        match all {
            1 if more == 0 => self.count(PAGES_REFUSED, pages),
            1 => self.count(BYTES_REFUSED, more),
            2 => self.count(INDEXES_REFUSED, index.len()),
            4 => self.count(REPORTS_REFUSED, report),
            _ => {}
        }
    }

    /// A command to a reader with the settings, templates and index that such a salvage left.
    pub fn add_packet_after_salvage(&mut self, Met { request, packet, code, .. }: &Met) {
        let after = |salvaged: &&Salvaged| salvaged.refused_for_bits && same_library(&salvaged.left, &request.reader);
        let zeroed = match self.salvaged.as_ref().filter(after) {
            Some(salvaged) if packet.identifier == COMMAND => &salvaged.report,
            _ => return,
        };
        let stored_to = request.buffer_and_page(STORE).map(|(_, page)| zeroed[page] == BYTES_ZEROED);
        if let Some(code) = *code {
            if code == 0x00 {
                self.count(COMMANDS_AFTER_SALVAGE, packet.content[0]);
                stored_to.into_iter().for_each(|zeroed| self.count(STORES_AFTER_SALVAGE, zeroed));
            }
            if packet.content[0] == LOAD_CHAR {
                self.count(LOADS_AFTER_SALVAGE, code);
            }
        }
    }
}
