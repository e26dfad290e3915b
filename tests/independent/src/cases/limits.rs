//! Cases at the limits of document 02's request [3], in turn: packets about the greatest lengths, and all size codes.

use crate::cases::author::Author;
use crate::cases::chance::Chance;
use crate::cases::readers::sized_reader;
use crate::compare::frame::{Kind, Request};
use crate::reader::receiver::{Receiver, HOLDS};
use crate::reader::*;

/// The identifiers of document 01, with one below and one above them.
const IDENTIFIERS: [u8; 6] = [0, COMMAND, DATA, ACKNOWLEDGE, LAST_DATA, 9];

/// All cases, with a receiver and without one.
pub fn all(seed: u64) -> Vec<Request> {
    let mut limits = Limits { chance: Chance::new(seed, 0), requests: Vec::new() };
    for size_code in SIZE_CODES {
        let reader = sized_reader(&mut limits.chance, size_code);
        limits.long_packets(&reader);
        for got in [0, PAGE - reader.settings.size()] {
            limits.long_packets(&in_transfer(&reader, got));
        }
    }
    for size_code in 0..=255 {
        limits.size_code(size_code);
    }
    limits.requests
}

/// The reader with a transfer of buffer 1 that got so many bytes.
fn in_transfer(reader: &Reader, got: usize) -> Reader {
    let mut reader = reader.clone();
    reader.settings.transfer = 1;
    reader.settings.got = got as u16;
    reader
}

struct Limits {
    chance: Chance,
    requests: Vec<Request>,
}

impl Limits {
    /// Packets of each identifier about the greatest lengths: whole, with a wrong sum, and without the last byte.
    fn long_packets(&mut self, reader: &Reader) {
        for identifier in IDENTIFIERS {
            for length in MOST_LENGTH..=MOST_DATA_LENGTH + 1 {
                let mut author = Author { chance: &mut self.chance, reader };
                let content = author.data(length - 2);
                let whole = author.packet(identifier, &content);
                let (unfinished, last) = whole.split_at(whole.len() - 1);
                self.calls(reader, &whole);
                self.calls(reader, &[unfinished, &[last[0] ^ 1]].concat());
                self.calls(reader, unfinished);
            }
        }
    }

    /// A reader with this size code stored, legal or not, and one that is asked to set it.
    fn size_code(&mut self, size_code: u8) {
        let stored = sized_reader(&mut self.chance, size_code);
        let asked = sized_reader(&mut self.chance, Settings::fresh().size_code);
        let command = |content: &[u8]| packet(Settings::fresh().address, COMMAND, content);
        self.ask(Kind::FreshSettings, &stored, &[]);
        self.calls(&stored, &command(&[READ_SYS_PARA]));
        self.calls(&asked, &command(&[SET_SYS_PARA, 6, size_code]));
    }

    /// A call with this run, and one of a receiver that holds the first part of it and is offered the rest.
    fn calls(&mut self, reader: &Reader, run: &[u8]) {
        let (held, piece) = run.split_at(self.chance.within(0, run.len().min(HOLDS)));
        self.ask(Kind::Call, reader, run);
        self.ask(Kind::ReceiverCall(Receiver::holding(held)), reader, piece);
    }

    fn ask(&mut self, kind: Kind, reader: &Reader, run: &[u8]) {
        let room = self.chance.bytes(ROOM);
        self.requests.push(Request { kind, reader: reader.clone(), run: run.to_vec(), room });
    }
}
