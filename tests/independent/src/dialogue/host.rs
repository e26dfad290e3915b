//! The host of the stored dialogue: what it sends, and what the papers let it expect.

use crate::dialogue::PAGES;
use crate::examples::bytes;
use crate::reader::{
    ACKNOWLEDGE, COMMAND, DATA, DOWN_CHAR, INDEX_PAGE, LAST_DATA, READ_SYS_PARA, SEARCH, SET_ADDER, TEMPLETE_NUM,
    UP_CHAR, WRITE_NOTEPAD,
};

/// The address of a fresh reader.
pub const FRESH: [u8; 4] = [0xFF; 4];

/// What the host sends, and what it must get before it sends more.
pub struct Exchange {
    pub what: String,
    pub sent: Vec<u8>,
    pub expected: Vec<u8>,
}

pub struct Host {
    /// The address that the host knows the reader by.
    pub address: [u8; 4],
    pub exchanges: Vec<Exchange>,
}

impl Host {
    pub fn new() -> Host {
        Host { address: FRESH, exchanges: Vec::new() }
    }

    /// A packet to the reader.
    pub fn packet(&self, identifier: u8, content: &[u8]) -> Vec<u8> {
        packet(self.address, identifier, content, 0)
    }

    /// A packet to the reader with so much added to its sum.
    pub fn damaged(&self, identifier: u8, content: &[u8], added: usize) -> Vec<u8> {
        packet(self.address, identifier, content, added)
    }

    /// The data packets of a template.
    pub fn parts(&self, template: &[u8], size: usize) -> Vec<Vec<u8>> {
        let mut parts: Vec<Vec<u8>> = template.chunks(size).map(|data| self.packet(DATA, data)).collect();
        parts.pop();
        parts.push(self.packet(LAST_DATA, &template[template.len() - size..]));
        parts
    }

    /// An acknowledge of the reader, with the bytes that the command lists.
    pub fn acknowledge(&self, code: u8, listed: &[u8]) -> Vec<u8> {
        self.packet(ACKNOWLEDGE, &[&[code], listed].concat())
    }

    /// Sends any bytes and expects these.
    pub fn sends(&mut self, what: &str, sent: &[u8], expected: &[u8]) {
        self.exchanges.push(Exchange { what: what.to_string(), sent: sent.to_vec(), expected: expected.to_vec() });
    }

    /// Sends any bytes and expects silence.
    pub fn silent(&mut self, what: &str, sent: &[u8]) {
        self.sends(what, sent, &[]);
    }

    /// Sends any bytes and expects one acknowledge with this code alone.
    pub fn gets(&mut self, what: &str, sent: &[u8], code: u8) {
        self.sends(what, sent, &self.acknowledge(code, &[]));
    }

    /// Sends a command, its content in hexadecimal.
    pub fn command(&mut self, what: &str, content: &str, code: u8) {
        self.gets(what, &self.packet(COMMAND, &bytes(content)), code);
    }

    pub fn commands(&mut self, rows: &[(&str, &str, u8)]) {
        for (what, content, code) in rows {
            self.command(what, content, *code);
        }
    }

    /// Sends a command and expects 00h and these bytes behind it.
    pub fn reads(&mut self, what: &str, content: &str, listed: &[u8]) {
        self.sends(what, &self.packet(COMMAND, &bytes(content)), &self.acknowledge(0x00, listed));
    }

    /// Search, by its parameters: finds this page, with the score 0 that every page has here, or none.
    pub fn searches(&mut self, what: &str, parameters: &str, found: Option<u8>) {
        let (code, page) = found.map_or((0x09, 0), |page| (0x00, page));
        let sent = self.packet(COMMAND, &bytes(&format!("{SEARCH:02X} {parameters}")));
        self.sends(what, &sent, &self.acknowledge(code, &[0, page, 0, 0]));
    }

    /// TempleteNum: so many are stored.
    pub fn count(&mut self, what: &str, stored: u8) {
        self.reads(what, &format!("{TEMPLETE_NUM:02X}"), &[0, stored]);
    }

    /// ReadIndexTable, page 0: these bytes, and zeroes behind them.
    pub fn index(&mut self, what: &str, first: &str) {
        let mut index = bytes(first);
        index.resize(INDEX_PAGE, 0);
        self.reads(what, "1F 00", &index);
    }

    /// ReadSysPara: type 0, the bench program's C, the reader's address, and these.
    pub fn parameters(&mut self, what: &str, status: u8, level: u8, size_code: u8, baud_factor: u8) {
        let mut listed = vec![0, status, 0, 0, 0, PAGES as u8, 0, level];
        listed.extend(self.address);
        listed.extend([0, size_code, 0, baud_factor]);
        self.reads(what, &format!("{READ_SYS_PARA:02X}"), &listed);
    }

    pub fn write_note(&mut self, what: &str, page: u8, note: &[u8], code: u8) {
        self.gets(what, &self.packet(COMMAND, &[&[WRITE_NOTEPAD, page], note].concat()), code);
    }

    /// DownChar and a whole transfer; what is between goes before the first data packets, one to each.
    pub fn download(&mut self, what: &str, buffer: u8, template: &[u8], size: usize, between: &[Vec<u8>]) {
        self.gets(&format!("{what}: DownChar"), &self.packet(COMMAND, &[DOWN_CHAR, buffer]), 0x00);
        for (place, part) in self.parts(template, size).into_iter().enumerate() {
            let before = between.get(place).cloned().unwrap_or_default();
            self.silent(&format!("{what}: data packet {place}"), &[before, part].concat());
        }
    }

    /// UpChar of a filled buffer.
    pub fn upload(&mut self, what: &str, buffer: u8, template: &[u8], size: usize) {
        let expected = [self.acknowledge(0x00, &[]), self.parts(template, size).concat()].concat();
        self.sends(what, &self.packet(COMMAND, &[UP_CHAR, buffer]), &expected);
    }

    /// SetAdder: the reply already carries the new address.
    pub fn readdress(&mut self, what: &str, address: [u8; 4]) {
        let sent = self.packet(COMMAND, &[&[SET_ADDER], &address[..]].concat());
        self.address = address;
        self.gets(what, &sent, 0x00);
    }
}

/// A packet with so much added to its sum. It is not the independent reader's own `packet`, which is held to this one.
pub fn packet(address: [u8; 4], identifier: u8, content: &[u8], added: usize) -> Vec<u8> {
    let length = (content.len() + 2) as u16;
    let summed = [&[identifier], &length.to_be_bytes()[..], content].concat();
    let sum = summed.iter().map(|&byte| usize::from(byte)).sum::<usize>() + added;
    [&[0xEF, 0x01], &address[..], &summed, &(sum as u16).to_be_bytes()].concat()
}
