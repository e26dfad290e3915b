//! The reader of document 01, with the fresh settings of document 02's request [2], the limits of its request [3], the
//! Store of its request [5], the thousand pages of its request [6], the origins of its request [7], the Search of its
//! request [8] and the ReadSysPara of its request [13], written from those papers alone and in document 01's order.

pub mod gaps;
pub mod receiver;
pub mod salvage;

use std::ops::{Range, RangeInclusive};

/// Bytes of a page of templates, of a character buffer and of the notepad.
pub const PAGE: usize = 512;
/// The most pages of templates.
pub const MOST_PAGES: usize = 1000;
/// Bytes of the index.
pub const INDEX: usize = 128;
/// Bytes of a page of ReadIndexTable.
pub const INDEX_PAGE: usize = 32;
/// The pages of ReadIndexTable.
pub const INDEX_PAGES: usize = INDEX / INDEX_PAGE;
/// Bytes of a stored index that is brought over.
pub const SHORT_INDEX: usize = 32;
/// Bytes of a page of the notepad.
pub const NOTE: usize = 32;
/// The least bytes of reply room.
pub const ROOM: usize = 700;

pub const LEVELS: RangeInclusive<u8> = 1..=5;
/// A threshold for each level.
pub const THRESHOLDS: usize = 5;
pub const SIZE_CODES: RangeInclusive<u8> = 0..=SIZES.len() as u8 - 1;
pub const BAUD_FACTORS: RangeInclusive<u8> = 1..=12;
/// The data bytes that the size codes mean, from code 0 on.
pub const SIZES: [usize; 4] = [32, 64, 128, 256];

/// The greatest length field of a command or an acknowledge.
pub const MOST_LENGTH: usize = 256;
/// The greatest length field of a data packet.
pub const MOST_DATA_LENGTH: usize = 258;

pub const COMMAND: u8 = 1;
pub const DATA: u8 = 2;
pub const ACKNOWLEDGE: u8 = 7;
pub const LAST_DATA: u8 = 8;

pub const SEARCH: u8 = 0x04;
pub const STORE: u8 = 0x06;
pub const LOAD_CHAR: u8 = 0x07;
pub const UP_CHAR: u8 = 0x08;
pub const DOWN_CHAR: u8 = 0x09;
pub const DELET_CHAR: u8 = 0x0C;
pub const EMPTY: u8 = 0x0D;
pub const SET_SYS_PARA: u8 = 0x0E;
pub const READ_SYS_PARA: u8 = 0x0F;
pub const SET_PWD: u8 = 0x12;
pub const VFY_PWD: u8 = 0x13;
pub const SET_ADDER: u8 = 0x15;
pub const WRITE_NOTEPAD: u8 = 0x18;
pub const READ_NOTEPAD: u8 = 0x19;
pub const TEMPLETE_NUM: u8 = 0x1D;
pub const READ_INDEX_TABLE: u8 = 0x1F;
pub const HAND_SHAKE: u8 = 0x40;
pub const COMMANDS: [u8; 17] = [
    SEARCH,
    STORE,
    LOAD_CHAR,
    UP_CHAR,
    DOWN_CHAR,
    DELET_CHAR,
    EMPTY,
    SET_SYS_PARA,
    READ_SYS_PARA,
    SET_PWD,
    VFY_PWD,
    SET_ADDER,
    WRITE_NOTEPAD,
    READ_NOTEPAD,
    TEMPLETE_NUM,
    READ_INDEX_TABLE,
    HAND_SHAKE,
];
/// The commands that a locked reader carries out.
pub const FREE: [u8; 3] = [READ_SYS_PARA, VFY_PWD, HAND_SHAKE];

/// A mark as the byte that it is kept in: 0 is clear and 1 is set. Any other byte is a setting that is not legal.
#[derive(Clone, Copy, Debug, PartialEq, Eq)]
pub struct Mark(pub u8);

pub const CLEAR: Mark = Mark(0);
pub const SET: Mark = Mark(1);

impl Mark {
    pub fn of(set: bool) -> Mark {
        if set {
            SET
        } else {
            CLEAR
        }
    }

    pub fn legal(self) -> bool {
        self == CLEAR || self == SET
    }

    pub fn is_set(self) -> bool {
        self == SET
    }
}

/// An origin as the number that it is kept in: a page, or FFFFh for none.
#[derive(Clone, Copy, Debug, PartialEq, Eq)]
pub struct Origin(pub u16);

pub const NONE: Origin = Origin(0xFFFF);

impl Origin {
    pub fn of(page: usize) -> Origin {
        Origin(page as u16)
    }

    pub fn page(self) -> Option<usize> {
        (self != NONE).then_some(usize::from(self.0))
    }

    /// Whether it is one of these pages.
    pub fn among(self, pages: &Range<usize>) -> bool {
        self.page().map_or(false, |page| pages.contains(&page))
    }
}

#[derive(Clone, Debug, PartialEq, Eq)]
pub struct Settings {
    pub password: [u8; 4],
    pub address: [u8; 4],
    pub level: u8,
    pub size_code: u8,
    pub baud_factor: u8,
    /// The number of the buffer that a transfer fills, or 0 for no transfer.
    pub transfer: u8,
    pub sensor_type: u16,
    /// The bytes that the transfer got so far.
    pub got: u16,
    pub verified: Mark,
    pub filled: [Mark; 2],
    /// Set by the 00h of a Search, cleared by its 09h and by a line switch.
    pub found: Mark,
    /// The page that each buffer was loaded from or stored to.
    pub origins: [Origin; 2],
}

/// What the sensor chip gives: a score for each page, and a threshold for each level from 1 on. No call writes them.
#[derive(Clone, Debug, PartialEq, Eq)]
pub struct Chip {
    pub scores: Vec<u16>,
    pub thresholds: Vec<u16>,
}

/// The settings and the lent memory, the reply room apart.
#[derive(Clone, Debug, PartialEq, Eq)]
pub struct Reader {
    pub settings: Settings,
    pub templates: Vec<u8>,
    pub index: Vec<u8>,
    pub notepad: Vec<u8>,
    pub buffers: [Vec<u8>; 2],
    /// It may be another at each call.
    pub chip: Chip,
}

#[derive(Clone, Debug, PartialEq, Eq)]
pub struct Answer {
    /// The number of the refusal, or 0.
    pub refusal: u8,
    /// The bytes used of the run; in a receiver's call, those taken of the piece.
    pub used: usize,
    /// The reply's length; 0 is silence.
    pub length: usize,
}

impl Answer {
    /// No bytes used and no reply, with this refusal or 0.
    pub fn without_reply(refusal: u8) -> Answer {
        Answer { refusal, used: 0, length: 0 }
    }
}

/// A call of the reader: deals with at most one packet of the run.
pub fn call(reader: &mut Reader, run: &[u8], reply_room: &mut [u8]) -> Answer {
    let refusal = reader.refusal(reply_room.len());
    if refusal != 0 {
        return Answer::without_reply(refusal);
    }
    let (used, packet) = find(run);
    let reply = packet.map_or_else(Vec::new, |packet| reader.deal_with(&packet));
    reply_room[..reply.len()].copy_from_slice(&reply);
    Answer { refusal: 0, used, length: reply.len() }
}

/// The line switch: takes any settings and both buffers, and knows only refusal 1.
pub fn line_switch(reader: &mut Reader) -> Answer {
    if !reader.buffers_fit() {
        return Answer::without_reply(1);
    }
    reader.settings.verified = CLEAR;
    reader.settings.found = CLEAR;
    reader.settings.close_transfer();
    for buffer in 0..2 {
        reader.wipe(buffer);
    }
    Answer::without_reply(0)
}

/// Brings a stored index of 32 bytes over into the index that is lent: its bytes, then zero bytes. Looks at the two
/// lengths, and knows only refusal 1.
pub fn bring_over(stored: &[u8], index: &mut [u8]) -> Answer {
    if stored.len() != SHORT_INDEX || index.len() != INDEX {
        return Answer::without_reply(1);
    }
    let (first, rest) = index.split_at_mut(SHORT_INDEX);
    first.copy_from_slice(stored);
    rest.fill(0);
    Answer::without_reply(0)
}

impl Chip {
    /// The chip of so many pages that gives 0 for every score and every threshold.
    pub fn zero(pages: usize) -> Chip {
        Chip { scores: vec![0; pages], thresholds: vec![0; THRESHOLDS] }
    }
}

impl Settings {
    pub fn fresh() -> Settings {
        Settings {
            password: [0; 4],
            address: [0xFF; 4],
            level: 3,
            size_code: 2,
            baud_factor: 6,
            transfer: 0,
            sensor_type: 0,
            got: 0,
            verified: CLEAR,
            filled: [CLEAR; 2],
            found: CLEAR,
            origins: [NONE; 2],
        }
    }

    pub fn locked(&self) -> bool {
        self.password != [0; 4] && !self.verified.is_set()
    }

    /// The data bytes that the size code means; the code is legal.
    pub fn size(&self) -> usize {
        SIZES[usize::from(self.size_code)]
    }

    /// The status word: bit 1 is the found mark, which a locked reader shows as 0, and bit 2 the verified mark.
    fn status(&self) -> usize {
        let found = self.found.is_set() && !self.locked();
        2 * usize::from(found) + 4 * usize::from(self.verified.is_set())
    }

    fn legal(&self) -> bool {
        LEVELS.contains(&self.level)
            && SIZE_CODES.contains(&self.size_code)
            && BAUD_FACTORS.contains(&self.baud_factor)
            && self.marks_legal()
            && self.transfer_legal()
    }

    pub fn marks_legal(&self) -> bool {
        self.verified.legal() && self.found.legal() && self.filled.iter().all(|mark| mark.legal())
    }

    fn transfer_legal(&self) -> bool {
        let got = usize::from(self.got);
        match self.transfer {
            0 => got == 0,
            1 | 2 => {
                let filled = self.filled[usize::from(self.transfer) - 1].is_set();
                got % self.size() == 0 && got < PAGE && !filled && !self.locked()
            }
            _ => false,
        }
    }

    /// The place of the buffer that an open transfer fills.
    fn open_transfer(&self) -> Option<usize> {
        usize::from(self.transfer).checked_sub(1)
    }

    fn close_transfer(&mut self) {
        self.transfer = 0;
        self.got = 0;
    }
}

impl Reader {
    /// C, read off the length of the templates.
    pub fn capacity(&self) -> usize {
        self.templates.len() / PAGE
    }

    pub fn stored(&self, page: usize) -> bool {
        self.index[page / 8] & bit(page) != 0
    }

    pub fn template(&self, page: usize) -> &[u8] {
        &self.templates[PAGE * page..PAGE * (page + 1)]
    }

    pub fn template_mut(&mut self, page: usize) -> &mut [u8] {
        &mut self.templates[PAGE * page..PAGE * (page + 1)]
    }

    fn buffers_fit(&self) -> bool {
        self.buffers.iter().all(|buffer| buffer.len() == PAGE)
    }

    /// Whether the templates are 1 to 1000 whole pages, and the index has its length.
    fn library_fits(&self) -> bool {
        self.templates.len() % PAGE == 0 && (1..=MOST_PAGES).contains(&self.capacity()) && self.index.len() == INDEX
    }

    fn lengths_fit(&self) -> bool {
        self.library_fits() && self.notepad.len() == PAGE && self.buffers_fit() && self.chip_fits()
    }

    pub fn chip_fits(&self) -> bool {
        self.chip.scores.len() == self.capacity() && self.chip.thresholds.len() == THRESHOLDS
    }

    /// The bits at or above C that are set.
    pub fn bits_beyond(&self) -> impl Iterator<Item = usize> + '_ {
        (self.capacity()..8 * self.index.len()).filter(|&page| self.stored(page))
    }

    /// Whether each origin is none, or a stored page while its buffer is filled. The lengths fit.
    fn origins_legal(&self) -> bool {
        let stored = |page| page < self.capacity() && self.stored(page);
        let Settings { origins, filled, .. } = &self.settings;
        origins
            .iter()
            .zip(filled)
            .all(|(origin, mark)| origin.page().map_or(true, |page| mark.is_set() && stored(page)))
    }

    /// Whether there is nothing that refusal 3 is for. The lengths fit.
    fn legal(&self) -> bool {
        self.settings.legal() && self.bits_beyond().next().is_none() && self.origins_legal()
    }

    pub fn refusal(&self, room: usize) -> u8 {
        if !self.lengths_fit() {
            1
        } else if room < ROOM {
            2
        } else if !self.legal() {
            3
        } else {
            0
        }
    }

    /// Steps 5 to 7: the reply to a whole packet, empty for silence.
    fn deal_with(&mut self, packet: &Packet) -> Vec<u8> {
        if packet.address != self.settings.address || packet.identifier == ACKNOWLEDGE {
            return Vec::new();
        }
        let result = if packet.identifier == COMMAND {
            self.break_off_transfer();
            demand(packet.sum_right, 0x01).and_then(|()| self.command(packet.content))
        } else {
            self.take_data(packet)
        };
        result.unwrap_or_else(|code| self.acknowledge(code, &[]))
    }

    /// Zeroes a buffer and clears its filled mark; its origin is none then.
    pub fn wipe(&mut self, buffer: usize) {
        self.buffers[buffer].fill(0);
        self.settings.filled[buffer] = CLEAR;
        self.settings.origins[buffer] = NONE;
    }

    /// Wipes every buffer whose origin is one of these pages.
    fn wipe_from(&mut self, pages: Range<usize>) {
        for buffer in 0..2 {
            if self.settings.origins[buffer].among(&pages) {
                self.wipe(buffer);
            }
        }
    }

    /// Closes an open transfer and zeroes its buffer, which is not filled and so has no origin.
    fn break_off_transfer(&mut self) {
        if let Some(buffer) = self.settings.open_transfer() {
            self.buffers[buffer].fill(0);
            self.settings.close_transfer();
        }
    }

    /// Step 7: a data packet goes in silently, or breaks off the transfer.
    fn take_data(&mut self, packet: &Packet) -> Result<Vec<u8>, u8> {
        if let Some(buffer) = self.settings.open_transfer() {
            let got = usize::from(self.settings.got);
            let total = got + packet.content.len();
            let last = packet.identifier == LAST_DATA;
            let total_right = if last { total == PAGE } else { total < PAGE };
            if !packet.sum_right || packet.content.len() != self.settings.size() || !total_right {
                self.break_off_transfer();
                return Err(0x0E);
            }
            self.buffers[buffer][got..total].copy_from_slice(packet.content);
            if last {
                self.settings.filled[buffer] = SET;
                self.settings.close_transfer();
            } else {
                self.settings.got = total as u16;
            }
        }
        Ok(Vec::new())
    }

    /// What comes before a row's own tests: unknown code, wrong length, lock.
    fn command(&mut self, content: &[u8]) -> Result<Vec<u8>, u8> {
        let (code, parameters) = (content[0], &content[1..]);
        let length = length_field(code).ok_or(0x19)?;
        demand(content.len() + 2 == length, 0x01)?;
        demand(!self.settings.locked() || FREE.contains(&code), 0x21)?;
        self.carry_out(code, parameters)
    }

    /// The rows of the command table: the whole reply, or the code of the first test that failed.
    fn carry_out(&mut self, code: u8, parameters: &[u8]) -> Result<Vec<u8>, u8> {
        let mut listed = Vec::new();
        match code {
            SEARCH => {
                let (buffer, start) = self.buffer_and_page(&parameters[..3])?;
                demand(self.settings.filled[buffer].is_set(), 0x0C)?;
                return Ok(self.search(start, number(&parameters[3..])));
            }
            STORE => {
                let (buffer, page) = self.buffer_and_page(parameters)?;
                demand(self.settings.filled[buffer].is_set(), 0x0C)?;
                demand(!self.stored(page), 0x22)?;
                let template = self.buffers[buffer].clone();
                self.template_mut(page).copy_from_slice(&template);
                self.index[page / 8] |= bit(page);
                self.settings.origins[buffer] = Origin::of(page);
            }
            LOAD_CHAR => {
                let (buffer, page) = self.buffer_and_page(parameters)?;
                demand(self.stored(page), 0x0C)?;
                self.buffers[buffer] = self.template(page).to_vec();
                self.settings.filled[buffer] = SET;
                self.settings.origins[buffer] = Origin::of(page);
            }
            UP_CHAR => {
                let buffer = buffer(parameters[0])?;
                demand(self.settings.filled[buffer].is_set(), 0x0D)?;
                return Ok(self.upload(buffer));
            }
            DOWN_CHAR => {
                let buffer = buffer(parameters[0])?;
                self.wipe(buffer);
                self.settings.transfer = parameters[0];
                self.settings.got = 0;
            }
            DELET_CHAR => {
                let (page, count) = (number(&parameters[..2]), number(&parameters[2..]));
                demand(page < self.capacity() && page + count <= self.capacity(), 0x10)?;
                for page in page..page + count {
                    self.template_mut(page).fill(0);
                    self.index[page / 8] &= !bit(page);
                }
                self.wipe_from(page..page + count);
            }
            EMPTY => {
                self.index.fill(0);
                self.templates.fill(0);
                self.wipe_from(0..self.capacity());
            }
            SET_SYS_PARA => {
                let (range, setting) = match parameters[0] {
                    4 => (BAUD_FACTORS, &mut self.settings.baud_factor),
                    5 => (LEVELS, &mut self.settings.level),
                    6 => (SIZE_CODES, &mut self.settings.size_code),
                    _ => return Err(0x1A),
                };
                demand(range.contains(&parameters[1]), 0x1B)?;
                *setting = parameters[1];
            }
            READ_SYS_PARA => listed = self.system_parameters(),
            SET_PWD => {
                self.settings.password.copy_from_slice(parameters);
                self.settings.verified = CLEAR;
            }
            VFY_PWD => {
                self.settings.verified = Mark::of(parameters == self.settings.password);
                demand(self.settings.verified.is_set(), 0x13)?;
            }
            SET_ADDER => self.settings.address.copy_from_slice(parameters),
            WRITE_NOTEPAD => {
                let place = note(parameters[0])?;
                self.notepad[place..place + NOTE].copy_from_slice(&parameters[1..]);
            }
            READ_NOTEPAD => {
                let place = note(parameters[0])?;
                listed = self.notepad[place..place + NOTE].to_vec();
            }
            TEMPLETE_NUM => {
                let count = (0..self.capacity()).filter(|&page| self.stored(page)).count();
                listed = two_bytes(count).to_vec();
            }
            READ_INDEX_TABLE => {
                let place = index_page(parameters[0])?;
                listed = self.index[place..place + INDEX_PAGE].to_vec();
            }
            _ => {} // HandShake
        }
        Ok(self.acknowledge(0x00, &listed))
    }

    /// The first two tests of Search, Store and LoadChar.
    pub fn buffer_and_page(&self, parameters: &[u8]) -> Result<(usize, usize), u8> {
        let buffer = buffer(parameters[0])?;
        let page = number(&parameters[1..]);
        demand(page < self.capacity(), 0x0B)?;
        Ok((buffer, page))
    }

    /// The reply of a Search that passed its tests: 00h, page and score, or 09h and zeroes. It sets the found mark or
    /// clears it.
    fn search(&mut self, start: usize, count: usize) -> Vec<u8> {
        let best = self.best(start..start + count);
        self.settings.found = Mark::of(best.is_some());
        let code = if best.is_some() { 0x00 } else { 0x09 };
        let (page, score) = best.unwrap_or((0, 0));
        self.acknowledge(code, &[two_bytes(page), score.to_be_bytes()].concat())
    }

    /// The stored page among these, as far as they are below C, with the highest score that reaches the threshold of
    /// the level in force, and this score. On a tie it is the lowest page.
    fn best(&self, pages: Range<usize>) -> Option<(usize, u16)> {
        let threshold = self.chip.thresholds[usize::from(self.settings.level) - 1];
        let mut best = None;
        for page in pages.start..pages.end.min(self.capacity()) {
            let score = self.chip.scores[page];
            let better = best.map_or(true, |(_, highest)| score > highest);
            if self.stored(page) && score >= threshold && better {
                best = Some((page, score));
            }
        }
        best
    }

    fn system_parameters(&self) -> Vec<u8> {
        let settings = &self.settings;
        let mut listed = Vec::new();
        listed.extend(two_bytes(settings.status()));
        listed.extend(settings.sensor_type.to_be_bytes());
        listed.extend(two_bytes(self.capacity()));
        listed.extend(two_bytes(settings.level.into()));
        listed.extend(settings.address);
        listed.extend(two_bytes(settings.size_code.into()));
        listed.extend(two_bytes(settings.baud_factor.into()));
        listed
    }

    fn acknowledge(&self, code: u8, listed: &[u8]) -> Vec<u8> {
        packet(self.settings.address, ACKNOWLEDGE, &[&[code], listed].concat())
    }

    /// The reply of UpChar, then the buffer in data packets of one size, the last with 8 and the others with 2.
    fn upload(&self, buffer: usize) -> Vec<u8> {
        let size = self.settings.size();
        let mut reply = self.acknowledge(0x00, &[]);
        for (place, data) in self.buffers[buffer].chunks(size).enumerate() {
            let identifier = if (place + 1) * size == PAGE { LAST_DATA } else { DATA };
            reply.extend(packet(self.settings.address, identifier, data));
        }
        reply
    }
}

/// The first header of a run.
pub struct Header {
    pub place: usize,
    pub identifier: u8,
    pub length: usize,
}

impl Header {
    /// Where a packet with this header ends.
    pub fn end(&self) -> usize {
        self.place + 9 + self.length
    }

    pub fn starts_packet(&self) -> bool {
        let most = match self.identifier {
            COMMAND | ACKNOWLEDGE => MOST_LENGTH,
            DATA | LAST_DATA => MOST_DATA_LENGTH,
            _ => return false,
        };
        (3..=most).contains(&self.length)
    }
}

/// The first header, if all its nine bytes are there.
pub fn header(run: &[u8]) -> Option<Header> {
    let place = header_place(run)?;
    let bytes = run.get(place..place + 9)?;
    Some(Header { place, identifier: bytes[6], length: number(&bytes[7..]) })
}

/// The first place with EF followed by 01.
fn header_place(run: &[u8]) -> Option<usize> {
    run.windows(2).position(|pair| pair == [0xEF, 0x01])
}

/// A whole packet that was found in a run.
pub struct Packet<'a> {
    pub address: [u8; 4],
    pub identifier: u8,
    pub content: &'a [u8],
    pub sum_right: bool,
}

/// Steps 1 to 4: the bytes used, and the packet if there is a whole one.
pub fn find(run: &[u8]) -> (usize, Option<Packet<'_>>) {
    let header = match header(run) {
        Some(header) => header,
        None => {
            let all_but_ef = run.len() - usize::from(run.ends_with(&[0xEF]));
            return (header_place(run).unwrap_or(all_but_ef), None);
        }
    };
    if !header.starts_packet() {
        return (header.place + 2, None);
    }
    if run.len() < header.end() {
        return (header.place, None);
    }
    let bytes = &run[header.place..header.end()];
    let (summed, sum_told) = bytes[6..].split_at(1 + header.length);
    let packet = Packet {
        address: [bytes[2], bytes[3], bytes[4], bytes[5]],
        identifier: header.identifier,
        content: &summed[3..],
        sum_right: number(sum_told) == sum(summed),
    };
    (header.end(), Some(packet))
}

/// The bytes of a packet.
pub fn packet(address: [u8; 4], identifier: u8, content: &[u8]) -> Vec<u8> {
    let mut bytes = vec![0xEF, 0x01];
    bytes.extend(address);
    bytes.push(identifier);
    bytes.extend(two_bytes(content.len() + 2));
    bytes.extend(content);
    bytes.extend(two_bytes(sum(&bytes[6..])));
    bytes
}

/// The length field that a command code fixes; none if the code is unknown.
fn length_field(code: u8) -> Option<usize> {
    match code {
        EMPTY | READ_SYS_PARA | TEMPLETE_NUM | HAND_SHAKE => Some(3),
        UP_CHAR | DOWN_CHAR | READ_NOTEPAD | READ_INDEX_TABLE => Some(4),
        SET_SYS_PARA => Some(5),
        STORE | LOAD_CHAR => Some(6),
        DELET_CHAR | SET_PWD | VFY_PWD | SET_ADDER => Some(7),
        SEARCH => Some(8),
        WRITE_NOTEPAD => Some(36),
        _ => None,
    }
}

/// A test of a command: the code if it fails.
fn demand(passed: bool, code: u8) -> Result<(), u8> {
    if passed {
        Ok(())
    } else {
        Err(code)
    }
}

/// The place of the buffer with this number.
fn buffer(number: u8) -> Result<usize, u8> {
    demand(number == 1 || number == 2, 0x01)?;
    Ok(usize::from(number) - 1)
}

/// Where this page of the notepad starts.
fn note(page: u8) -> Result<usize, u8> {
    demand(page <= 15, 0x1C)?;
    Ok(usize::from(page) * NOTE)
}

/// Where this page of ReadIndexTable starts in the index.
fn index_page(page: u8) -> Result<usize, u8> {
    demand(usize::from(page) < INDEX_PAGES, 0x0B)?;
    Ok(usize::from(page) * INDEX_PAGE)
}

/// The bit of a page in its byte of the index.
pub fn bit(page: usize) -> u8 {
    1 << (page % 8)
}

/// All bytes added, modulo 65536.
fn sum(bytes: &[u8]) -> usize {
    bytes.iter().map(|&byte| usize::from(byte)).sum::<usize>() % 65536
}

/// Bytes as a number, high byte first.
pub fn number(bytes: &[u8]) -> usize {
    bytes.iter().fold(0, |number, &byte| number * 256 + usize::from(byte))
}

/// A number below 65536 as two bytes, high byte first.
fn two_bytes(number: usize) -> [u8; 2] {
    (number as u16).to_be_bytes()
}
