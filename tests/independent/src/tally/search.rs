//! Counts what the calls met and brought about of document 02's request [8]: Searches, scores and thresholds, and the
//! found mark.

use crate::compare::frame::{self, Request};
use crate::reader::*;
use crate::tally::kinds::*;
use crate::tally::{refused_for, Met, Tally};
use std::ops::Range;

impl Tally {
    pub fn add_search(&mut self, request: &Request, refusal: u8) {
        let found = request.reader.settings.found;
        if request.kind.is_call() && refusal == 0 {
            return;
        } else if request.kind.is_call() {
            self.add_refused_chip(request);
            if !found.legal() && refused_for(|reader| reader.settings.found = CLEAR, request) {
                self.count(FOUND_MARKS_REFUSED, request.reader.settings.locked());
            }
        } else if found != CLEAR {
            let kind = match request.kind {
                frame::Kind::FreshSettings => FRESH_FOUND_MARKS,
                frame::Kind::BringOver => FOUND_MARKS_BROUGHT_OVER,
                frame::Kind::CloseGaps | frame::Kind::Salvage => return,
                _ => FOUND_MARKS_SWITCHED,
            };
            self.count(kind, 2 * usize::from(refusal) + usize::from(found.legal()));
        }
    }

    /// A call that was refused for its scores or its thresholds, by the refusal that would come next, and by what alone
    /// did not fit.
    fn add_refused_chip(&mut self, request: &Request) {
        let reader = &request.reader;
        if reader.chip_fits() {
            return;
        }
        let mut asked = request.clone();
        asked.reader.chip = Chip::zero(reader.capacity());
        let next = asked.carried_out().answer.refusal;
        self.count(CHIPS_BEFORE, next);
        if next != 0 {
            return;
        }
        let searches = find(&request.whole_run()).1.map(|packet| packet.content[0] == SEARCH);
        self.count(CHIPS_BY_RUN, searches.map_or(2, usize::from));
        self.count(CHIPS_BY_LOCK, reader.settings.locked());
        if reader.chip.thresholds.len() == THRESHOLDS {
            self.count(SCORES_REFUSED, (reader.chip.scores.len() + 1).saturating_sub(reader.capacity()).min(2));
        }
        if reader.chip.scores.len() == reader.capacity() {
            self.count(THRESHOLDS_REFUSED, reader.chip.thresholds.len());
        }
    }

    /// A packet that was answered, by the found mark; a Search also by more.
    pub fn add_packet_with_found_mark(&mut self, Met { request, outcome, packet, code }: &Met) {
        let Settings { found, transfer, .. } = request.reader.settings;
        let (code, command) = match *code {
            Some(code) => (code, packet.content[0]),
            None => return,
        };
        let by_mark = |[clear, set]: [Kind; 2]| if found.is_set() { set } else { clear };
        self.count(by_mark([CODES_NOT_FOUND, CODES_FOUND]), code);
        if code == 0x00 {
            self.count(by_mark([COMMANDS_NOT_FOUND, COMMANDS_FOUND]), command);
        }
        if command == READ_SYS_PARA && code == 0x00 {
            self.count(STATUSES, number(&outcome.room[10..12]));
        }
        let search = request.searched().filter(|_| packet.identifier == COMMAND && packet.sum_right);
        if let Some((start, count)) = search {
            self.count(SEARCHES, code);
            self.count(by_mark([SEARCHES_NOT_FOUND, SEARCHES_FOUND]), code);
            if transfer != 0 {
                self.count(SEARCHES_IN_TRANSFER, code);
            }
            if request.kind.receiver().map_or(false, |receiver| !receiver.held().is_empty()) {
                self.count(SEARCHES_IN_PIECES, code);
            }
            if code == 0x00 || code == 0x09 {
                let range = start..start + count;
                self.add_searched(&request.reader, &range, code == 0x00);
                if code == 0x00 {
                    let [page, score] = [10, 12].map(|place| number(&outcome.room[place..place + 2]));
                    self.add_found(&request.reader, &range, page, score);
                }
            }
        }
    }

    /// A Search that found a page or none, by its range and by what the thresholds made of the highest score.
    fn add_searched(&mut self, reader: &Reader, range: &Range<usize>, found: bool) {
        let capacity = reader.capacity();
        self.count(RANGES_SEARCHED, range_kind(range, capacity));
        let pages = (range.start..range.end.min(capacity)).filter(|&page| reader.stored(page));
        let highest = match pages.map(|page| reader.chip.scores[page]).max() {
            Some(highest) => highest,
            None => return,
        };
        let thresholds = &reader.chip.thresholds;
        let level = usize::from(reader.settings.level);
        for other in (1..=THRESHOLDS).filter(|&other| (highest >= thresholds[other - 1]) != found) {
            self.count(LEVELS_THAT_MATTER, 10 * level + other);
        }
        if highest == thresholds[level - 1] {
            self.count(SCORES_JUST_ENOUGH, level);
        }
        if highest.checked_add(1) == Some(thresholds[level - 1]) {
            self.count(SCORES_TOO_LOW, level);
        }
    }

    /// A Search that found this page with this score.
    fn add_found(&mut self, reader: &Reader, range: &Range<usize>, found: usize, score: usize) {
        let capacity = reader.capacity();
        let end = range.end.min(capacity);
        let score_of = |page: usize| usize::from(reader.chip.scores[page]);
        let tied = (range.start..end).filter(|&page| reader.stored(page) && score_of(page) == score);
        self.count(SCORES_FOUND, score);
        self.count(PAGES_FOUND, found);
        self.count(PAGES_TIED, tied.count().min(3));
        self.count(CAPACITIES_SEARCHED, capacity);
        if found + 1 == capacity {
            self.count(LAST_PAGES_FOUND, capacity);
        }
        self.count(PLACES_FOUND, usize::from(found == range.start) + 2 * usize::from(found + 1 == end));
        let higher =
            |page: usize, stored: bool| page < capacity && score_of(page) > score && reader.stored(page) == stored;
        let passed_over = [
            range.start.checked_sub(1).map_or(false, |page| higher(page, true)),
            higher(range.end, true),
            (range.start..end).any(|page| higher(page, false)),
        ];
        (0..3).filter(|&place| passed_over[place]).for_each(|place| self.count(HIGHER_PASSED_OVER, place));
    }
}

/// How a range lies: 0 of no page, 1 below C, 2 to C, 3 past C, 4 to 65536, 5 past that.
fn range_kind(range: &Range<usize>, capacity: usize) -> usize {
    match range.end {
        _ if range.is_empty() => 0,
        end if end < capacity => 1,
        end if end == capacity => 2,
        0..=0xFFFF => 3,
        0x10000 => 4,
        _ => 5,
    }
}
