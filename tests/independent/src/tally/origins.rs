//! Counts what the calls met and brought about of the origins of document 02's request [7].

use crate::compare::frame::{self, Request};
use crate::reader::*;
use crate::tally::kinds::*;
use crate::tally::{refused_for, Met, Tally};

impl Tally {
    pub fn add_origins(&mut self, request: &Request, refusal: u8) {
        let reader = &request.reader;
        let unfit = (0..2).any(|buffer| unfit(reader, buffer));
        if [frame::Kind::CloseGaps, frame::Kind::Salvage].contains(&request.kind) {
            return;
        } else if request.kind.is_call() && refusal == 0 {
            self.add_legal_origins(reader);
        } else if request.kind.is_call() && unfit {
            self.count(UNFIT_ORIGINS, refusal);
            self.add_refused_origins(request);
        } else if request.kind == frame::Kind::FreshSettings {
            with_origin(reader).for_each(|(buffer, _)| self.count(FRESH_ORIGINS, buffer + 1));
        } else if with_origin(reader).next().is_some() {
            let switched = request.kind.is_line_switch();
            self.count(if switched { ORIGINS_SWITCHED } else { ORIGINS_BROUGHT_OVER }, refusal);
            if switched && unfit {
                self.count(UNFIT_ORIGINS_SWITCHED, refusal);
            }
        }
    }

    /// The origins of a call that was carried out.
    fn add_legal_origins(&mut self, reader: &Reader) {
        let pages: Vec<usize> = with_origin(reader).map(|(_, page)| page).collect();
        if pages.contains(&(reader.capacity() - 1)) {
            self.count(LAST_ORIGINS, reader.capacity());
        }
        if let [one, other] = pages[..] {
            self.count(PAGES_OF_TWO_ORIGINS, if one == other { 1_usize } else { 2 });
        }
    }

    /// A call that was refused for an origin alone, by what is not legal of it.
    fn add_refused_origins(&mut self, request: &Request) {
        if !refused_for(|reader| reader.settings.origins = [NONE; 2], request) {
            return;
        }
        let (reader, capacity) = (&request.reader, request.reader.capacity());
        self.count(ORIGINS_REFUSED, reader.settings.locked());
        for (buffer, page) in with_origin(reader) {
            let filled = reader.settings.filled[buffer].is_set();
            match (page < capacity && reader.stored(page), filled) {
                (true, false) => self.count(ORIGINS_NOT_FILLED, buffer + 1),
                (false, true) if page == capacity => self.count(ORIGINS_AT_C, capacity),
                (false, true) if page > capacity => self.count(ORIGINS_BEYOND, page),
                (false, true) => self.count(ORIGINS_VACANT, buffer + 1),
                _ => {}
            }
        }
    }

    pub fn add_packet_with_origins(&mut self, Met { request, outcome, packet, code }: &Met) {
        let reader = &request.reader;
        if packet.address != reader.settings.address {
            return;
        }
        if with_origin(reader).next().is_some() {
            code.iter().for_each(|&code| self.count(CODES_WITH_ORIGIN, code));
            self.add_transfer_beside(packet, &reader.settings, &outcome.reader.settings);
        }
        if let Some(code) = code.filter(|_| packet.identifier == COMMAND && packet.sum_right) {
            self.add_command_with_origins(packet.content, code, reader);
            if code == 0x00 {
                self.add_new_origins(packet.content[0], reader, &outcome.reader);
            }
        }
    }

    /// A packet that an open transfer met while the other buffer has an origin.
    fn add_transfer_beside(&mut self, packet: &Packet, before: &Settings, after: &Settings) {
        let buffer = match usize::from(before.transfer).checked_sub(1) {
            Some(buffer) if packet.identifier != ACKNOWLEDGE => buffer,
            _ => return,
        };
        let which: usize = match (packet.identifier, after.transfer) {
            (COMMAND, _) => 3,
            (_, 0) if after.filled[buffer].is_set() => 1,
            (_, 0) => 2,
            _ => 0,
        };
        self.count(TRANSFERS_BESIDE_ORIGIN, which);
    }

    /// A command that got this code, by what it names and the origins that are there.
    fn add_command_with_origins(&mut self, content: &[u8], code: u8, reader: &Reader) {
        match *content {
            [STORE, named, _, _] => self.add_named([STORES_WITH_ORIGIN, STORES_BESIDE_ORIGIN], named, code, reader),
            [LOAD_CHAR, named, _, _] => self.add_named([LOADS_WITH_ORIGIN, LOADS_BESIDE_ORIGIN], named, code, reader),
            [DOWN_CHAR, named] => {
                self.add_named([DOWN_CHARS_WITH_ORIGIN, DOWN_CHARS_BESIDE_ORIGIN], named, code, reader);
            }
            [DELET_CHAR, _, _, _, _] => {
                let (page, count) = (number(&content[1..3]), number(&content[3..]));
                with_origin(reader).for_each(|(_, origin)| self.add_place(page, count, origin, code));
            }
            [EMPTY] if with_origin(reader).next().is_some() => self.count(EMPTIES_WITH_ORIGIN, code),
            _ => {}
        }
    }

    /// A command that names a buffer, by the origin of this buffer and by that of the other.
    fn add_named(&mut self, [with, beside]: [Kind; 2], named: u8, code: u8, reader: &Reader) {
        for (buffer, _) in with_origin(reader).filter(|_| named == 1 || named == 2) {
            self.count(if buffer + 1 == usize::from(named) { with } else { beside }, code);
        }
    }

    /// A DeletChar, by where an origin lies.
    fn add_place(&mut self, page: usize, count: usize, origin: usize, code: u8) {
        if origin == page {
            self.count(DELETES_FROM_ORIGIN, code);
        }
        let (first, last, past) = (origin == page, origin + 1 == page + count, origin == page + count);
        let which: usize = match count {
            _ if code != 0x00 => return,
            0 if first => 0,
            0 => return,
            _ if origin + 1 == page => 1,
            1 if first => 2,
            _ if first => 3,
            _ if last => 5,
            _ if past => 6,
            _ if (page..page + count).contains(&origin) => 4,
            _ => return,
        };
        self.count(DELETES_BY_PLACE, which);
    }

    /// What a command that got 00h made of the origins.
    fn add_new_origins(&mut self, command: u8, before: &Reader, after: &Reader) {
        let mut wiped = 0_usize;
        for buffer in 0..2 {
            let [old, new] = [before, after].map(|reader| reader.settings.origins[buffer]);
            let kept = [before, after].iter().all(|reader| reader.settings.filled[buffer].is_set());
            match (old.page(), new.page(), command) {
                (Some(_), Some(_), STORE | LOAD_CHAR) if old != new => self.count(ORIGINS_REPLACED, command),
                (None, Some(_), STORE | LOAD_CHAR) => self.count(ORIGINS_SET, command),
                (None, None, DELET_CHAR | EMPTY) if kept && before.index != after.index => {
                    self.count(BUFFERS_KEPT, command);
                }
                (Some(_), None, DOWN_CHAR) => self.count(ORIGINS_MADE_NONE, command),
                (Some(page), None, DELET_CHAR | EMPTY) => {
                    wiped += buffer + 1;
                    self.count(ORIGINS_MADE_NONE, command);
                    self.count(ORIGINS_DELETED, page);
                    self.count(BYTES_WIPED, before.buffers[buffer] == before.template(page));
                }
                _ => {}
            }
        }
        if wiped > 0 {
            self.count(if command == EMPTY { BUFFERS_EMPTIED } else { BUFFERS_WIPED }, wiped);
        }
    }
}

/// The buffers that have an origin, and its page.
pub fn with_origin(reader: &Reader) -> impl Iterator<Item = (usize, usize)> {
    let origins = reader.settings.origins;
    (0..2).filter_map(move |buffer| origins[buffer].page().map(|page| (buffer, page)))
}

/// Whether a buffer has an origin that is not legal, in a memory of any lengths.
fn unfit(reader: &Reader, buffer: usize) -> bool {
    let bit_set = |page: usize| reader.index.get(page / 8).map_or(false, |byte| byte & bit(page) != 0);
    let legal = |page| page < reader.capacity() && bit_set(page) && reader.settings.filled[buffer].is_set();
    reader.settings.origins[buffer].page().map_or(false, |page| !legal(page))
}
