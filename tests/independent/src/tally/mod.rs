//! Counts what the calls brought about, to show that the cases reach everything.

pub mod gaps;
pub mod kinds;
mod origins;
mod parameters;
pub mod salvage;
mod search;

use crate::compare::frame::{self, Outcome, Request};
use crate::reader::receiver::Receiver;
use crate::reader::*;
use crate::tally::gaps::MARKS_CLOSED;
use crate::tally::kinds::*;
use crate::tally::parameters::Done;
use crate::tally::salvage::{Salvaged, MARKS_SALVAGED};
use std::collections::HashMap;

#[derive(Default)]
pub struct Tally {
    pub calls: usize,
    counts: HashMap<(&'static str, usize), usize>,
    /// What was done last that matters to a ReadSysPara, and the settings that it left.
    last: Option<(Done, Settings)>,
    /// What the last closing of the gaps left.
    closed: Option<Reader>,
    /// The index that was brought over last.
    brought_over: Option<Vec<u8>>,
    /// What the last salvage did.
    salvaged: Option<Salvaged>,
}

/// A packet that a call dealt with, and the acknowledge code of the reply, if there is one.
pub struct Met<'a> {
    request: &'a Request,
    outcome: &'a Outcome,
    packet: Packet<'a>,
    code: Option<u8>,
}

impl Tally {
    pub fn add(&mut self, request: &Request, outcome: &Outcome) {
        self.calls += 1;
        let refusal = outcome.answer.refusal;
        let run = request.whole_run();
        if let Some(receiver) = request.kind.receiver() {
            self.add_receiver(request, receiver, refusal);
        }
        let marks = if request.kind == frame::Kind::FreshSettings {
            self.count(FRESH, request.reader.refusal(request.room.len()));
            self.count(FRESH_SIZES, request.reader.settings.size_code);
            FRESH_MARKS
        } else if request.kind == frame::Kind::BringOver {
            self.add_bringing_over(request, refusal);
            self.brought_over = Some(outcome.reader.index.clone()).filter(|_| refusal == 0);
            MARKS_BROUGHT_OVER
        } else if request.kind == frame::Kind::CloseGaps {
            self.add_closing(request, outcome);
            MARKS_CLOSED
        } else if request.kind == frame::Kind::Salvage {
            self.add_salvage(request, outcome);
            MARKS_SALVAGED
        } else if request.kind.is_line_switch() {
            self.count(SWITCHES, refusal);
            MARKS_SWITCHED
        } else {
            self.count(REFUSALS, refusal);
            if refusal == 0 {
                self.count(CAPACITIES, request.reader.capacity());
                self.add_header(&run);
            } else {
                self.add_refused(request);
            }
            MARKS
        };
        if !request.reader.settings.marks_legal() {
            self.count(marks, refusal);
        }
        let packet = find(&run).1.filter(|_| request.kind.is_call() && refusal == 0);
        let met = packet.map(|packet| Met { request, outcome, packet, code: outcome.code() });
        if let Some(met) = &met {
            self.add_packet(met);
            self.add_packet_with_origins(met);
            self.add_packet_with_found_mark(met);
            self.add_packet_after_closing(met);
            self.add_packet_after_salvage(met);
        }
        self.add_origins(request, refusal);
        self.add_search(request, refusal);
        self.add_parameters(request, outcome, met.as_ref());
    }

    fn add_bringing_over(&mut self, request: &Request, refusal: u8) {
        let (stored, lent) = (request.run.len(), request.reader.index.len());
        match (refusal, stored == SHORT_INDEX, lent == INDEX) {
            (0, ..) => self.count(BROUGHT_OVER, request.reader.refusal(request.room.len())),
            (_, _, true) => self.count(STORED_INDEXES_REFUSED, stored),
            (_, true, _) => self.count(LENT_INDEXES_REFUSED, lent),
            _ => self.count(BOTH_INDEXES_REFUSED, stored),
        }
    }

    /// A refused call, by what it alone was refused for.
    fn add_refused(&mut self, request: &Request) {
        let Reader { settings, index, .. } = &request.reader;
        let capacity = request.reader.capacity();
        if refused_for(|reader| reader.settings.size_code = Settings::fresh().size_code, request) {
            self.count(SIZES_REFUSED, settings.size_code);
        }
        let with_most_pages = |reader: &mut Reader| {
            reader.templates.truncate(PAGE * MOST_PAGES);
            reader.chip.scores.truncate(MOST_PAGES);
        };
        if capacity > MOST_PAGES && refused_for(with_most_pages, request) {
            self.count(CAPACITIES_REFUSED, capacity);
        }
        if refused_for(|reader| reader.index = vec![0; INDEX], request) {
            match request.reader.bits_beyond().next() {
                Some(page) if index.len() == INDEX => self.count(BITS_REFUSED, page / 8 / INDEX_PAGE),
                _ => self.count(INDEX_LENGTHS_REFUSED, index.len()),
            }
        }
    }

    fn add_header(&mut self, run: &[u8]) {
        let header = match header(run) {
            Some(header) => header,
            None => return,
        };
        let whole = run.len() >= header.end();
        match header.length {
            257 if whole => self.count(HEADERS_257, header.identifier),
            258 if whole => self.count(HEADERS_258, header.identifier),
            _ if find(run).0 == header.place => self.count(UNFINISHED, run.len() - header.place),
            _ => {}
        }
    }

    fn add_packet(&mut self, met: &Met) {
        let Met { request, outcome, packet, code } = met;
        let before = &request.reader.settings;
        if let Some(code) = *code {
            self.add_reply(packet, code, before.size());
            self.add_pages(met, code);
            self.add_store(request, code);
        } else if before.transfer != 0 && outcome.reader.settings.transfer == 0 {
            self.count(DOWNLOADS, before.size());
        }
        let data = [DATA, LAST_DATA].contains(&packet.identifier);
        if data && packet.sum_right && packet.address == before.address {
            self.add_data(packet.content.len() + 2, before);
        }
    }

    fn add_reply(&mut self, packet: &Packet, code: u8, size: usize) {
        self.count(ACKNOWLEDGES, code);
        if code == 0x00 {
            self.count(FINE, packet.content[0]);
        }
        match (packet.content, code) {
            ([UP_CHAR, ..], 0x00) => self.count(UPLOADS, size),
            ([SET_SYS_PARA, 6, size_code], 0x00) => self.count(SIZES_SET, *size_code),
            ([SET_SYS_PARA, 6, size_code], 0x1B) => self.count(SIZES_NOT_SET, *size_code),
            _ => {}
        }
    }

    /// A reply to a command that names pages or tells the valid count.
    fn add_pages(&mut self, Met { request, outcome, packet, .. }: &Met, code: u8) {
        let listed = &outcome.room[10..outcome.answer.length - 2];
        match (packet.content, code) {
            ([READ_INDEX_TABLE, page], 0x00) => {
                self.count(INDEX_PAGES_READ, *page);
                if listed.iter().any(|&byte| byte != 0) {
                    self.count(INDEX_PAGES_NOT_ZERO, *page);
                }
            }
            ([READ_INDEX_TABLE, page], 0x0B) => self.count(INDEX_PAGES_REFUSED, *page),
            ([STORE, _, page @ ..], 0x00) => self.count(PAGES_STORED, number(page)),
            ([LOAD_CHAR, _, page @ ..], 0x00) => self.count(PAGES_LOADED, number(page)),
            ([STORE | LOAD_CHAR, _, page @ ..], 0x0B) if request.reader.capacity() > 256 => {
                self.count(PAGES_BEYOND, number(page));
            }
            ([DELET_CHAR, numbers @ ..], 0x00) => self.add_delete(number(&numbers[..2]), number(&numbers[2..])),
            ([TEMPLETE_NUM], 0x00) => self.count(NUMBERS_TOLD, number(listed)),
            _ => {}
        }
    }

    /// A DeletChar that was carried out, by page and N.
    fn add_delete(&mut self, page: usize, count: usize) {
        if count > 0 {
            self.count(PAGES_DELETED, page);
        }
        if page < 256 && page + count > 256 {
            self.count(DELETES_ACROSS, count);
        }
    }

    /// The code of a Store, by what it found.
    fn add_store(&mut self, request: &Request, code: u8) {
        let before = &request.reader;
        let (buffer, page) = match request.buffer_and_page(STORE) {
            Some(named) => named,
            None => return,
        };
        let template = before.template(page);
        if before.stored(page) {
            self.count(if template == before.buffers[buffer] { STORES_SAME } else { STORES_OTHER }, code);
            if before.settings.transfer != 0 {
                self.count(STORES_IN_TRANSFER, code);
            }
        } else {
            self.count(STORES_VACANT, code);
            if before.has_bytes(page) {
                self.count(STORES_VACANT_BYTES, code);
            }
        }
    }

    /// A data packet of this length that is for the reader and has the right sum.
    fn add_data(&mut self, length: usize, before: &Settings) {
        let kind = match (length, before.transfer) {
            (257, 0) => STRAY_257,
            (258, 0) => STRAY_258,
            (257, _) => DATA_257,
            (258, _) => DATA_258,
            _ => return,
        };
        self.count(kind, before.size());
    }

    fn add_receiver(&mut self, request: &Request, receiver: &Receiver, refusal: u8) {
        if request.kind.is_line_switch() {
            if !receiver.legal() {
                self.count(COUNTS_SWITCHED, refusal);
            }
            return;
        }
        if !receiver.legal() {
            self.count(COUNTS, refusal);
        }
        if receiver.past().iter().any(|&cell| cell != 0) {
            self.count(PAST, refusal);
        }
        if request.reader.settings.locked() {
            self.count(LOCKED, refusal);
        }
        if refusal == 0 {
            self.count(PIECES, request.run.len());
            self.count(HELD, receiver.held().len());
        }
    }

    fn count(&mut self, kind: Kind, which: impl Into<usize>) {
        *self.counts.entry((kind.name, which.into())).or_default() += 1;
    }

    /// A line for each of these kinds.
    pub fn lines(&self, kinds: &[Kind]) -> Vec<String> {
        let each = |kind: &Kind| {
            let counts: Vec<String> = match kind.awaited {
                UpTo(most) => {
                    let least = (0..=most).map(|which| self.number(kind, which)).min().unwrap_or(0);
                    vec![format!("each from 0 to {most}, {least} times or more")]
                }
                _ => {
                    kind.awaited().map(|which| format!("{}={}", kind.label(which), self.number(kind, which))).collect()
                }
            };
            format!("{}: {}", kind.name, counts.join(" "))
        };
        kinds.iter().map(each).collect()
    }

    /// What of these kinds did not occur.
    pub fn missing(&self, kinds: &[Kind]) -> Vec<String> {
        let mut missing = Vec::new();
        for kind in kinds {
            let not_met = kind.awaited().filter(|&which| self.number(kind, which) == 0);
            missing.extend(not_met.map(|which| format!("{}: {}", kind.name, kind.label(which))));
        }
        missing
    }

    fn number(&self, kind: &Kind, which: usize) -> usize {
        self.counts.get(&(kind.name, which)).copied().unwrap_or(0)
    }
}

/// Whether a refused call would be carried out with this change of the reader.
fn refused_for(change: fn(&mut Reader), request: &Request) -> bool {
    let mut asked = request.clone();
    change(&mut asked.reader);
    asked.carried_out().answer.refusal == 0
}
