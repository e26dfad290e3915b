//! What a host sends by chance.

use crate::cases::chance::Chance;
use crate::cases::readers::{address, password, size};
use crate::compare::frame::MOST_RUN;
use crate::reader::*;

/// What happens to a reader in a dialogue.
pub enum Event {
    /// Bytes come in behind those that are left.
    Bytes(Vec<u8>),
    LineSwitch,
}

/// Writes what is sent to a reader, knowing how the reader stands.
pub struct Author<'a> {
    pub chance: &'a mut Chance,
    pub reader: &'a Reader,
}

impl Author<'_> {
    /// One run of any kind.
    pub fn run(&mut self) -> Vec<u8> {
        let mut run = Vec::new();
        for event in self.scene() {
            match event {
                Event::Bytes(bytes) => run.extend(bytes),
                Event::LineSwitch => break,
            }
            if self.chance.percent(30) {
                break;
            }
        }
        run.truncate(MOST_RUN);
        run
    }

    /// A few events that belong together.
    pub fn scene(&mut self) -> Vec<Event> {
        if self.reader.settings.locked() && self.chance.percent(40) {
            return vec![Event::Bytes(self.right_password())];
        }
        let scene = match self.chance.below(118) {
            0..=20 => self.runs(1, 1, Author::any_command),
            21..=30 => self.runs(2, 6, Author::any_command),
            31..=36 => self.runs(1, 2, Author::damaged_command),
            37..=39 => self.runs(1, 2, Author::foreign),
            40..=42 => self.runs(1, 3, Author::noise),
            43..=46 => self.runs(1, 2, Author::header),
            47..=48 => self.runs(1, 2, Author::stray),
            49..=50 => self.runs(1, 2, Author::long_packet),
            51..=54 => self.runs(1, 2, Author::wrong_command),
            55..=65 => self.download(),
            66..=69 => self.store_and_load(),
            70..=75 => self.store_again(),
            76..=80 => self.leaver(),
            81..=85 => self.lock(),
            86..=88 => self.new_address(),
            89..=96 => self.runs(1, 3, Author::origin_command),
            97..=102 => self.runs(1, 2, |author| author.command(SEARCH)),
            103..=108 => self.searches(),
            109..=114 => self.fitter(),
            _ => vec![Event::LineSwitch],
        };
        self.arranged(scene)
    }

    /// From first to last runs of one kind.
    fn runs(&mut self, first: usize, last: usize, kind: impl Fn(&mut Self) -> Vec<u8>) -> Vec<Event> {
        let count = self.chance.within(first, last);
        (0..count).map(|_| Event::Bytes(kind(self))).collect()
    }

    /// The events as they are, or their bytes in one run, in pieces, or with noise between them.
    fn arranged(&mut self, scene: Vec<Event>) -> Vec<Event> {
        let way = self.chance.below(10);
        let mut arranged = Vec::new();
        for event in scene {
            match (event, way) {
                (Event::Bytes(bytes), 0 | 1) => {
                    if let Some(Event::Bytes(before)) = arranged.last_mut() {
                        if way == 1 {
                            before.extend(self.noise());
                        }
                        before.extend(bytes);
                    } else {
                        arranged.push(Event::Bytes(bytes));
                    }
                }
                (Event::Bytes(mut bytes), 2) => {
                    let rest = bytes.split_off(self.chance.within(0, bytes.len()));
                    arranged.extend([Event::Bytes(bytes), Event::Bytes(rest)]);
                }
                (Event::Bytes(bytes), 3) => arranged.push(Event::Bytes([self.noise(), bytes].concat())),
                (event, _) => arranged.push(event),
            }
        }
        arranged
    }

    /// A packet with the reader's address.
    pub fn packet(&self, identifier: u8, content: &[u8]) -> Vec<u8> {
        packet(self.reader.settings.address, identifier, content)
    }

    fn any_command(&mut self) -> Vec<u8> {
        let code = self.chance.pick(&COMMANDS);
        self.command(code)
    }

    /// A whole command, with parameters good and at the edge.
    pub fn command(&mut self, code: u8) -> Vec<u8> {
        let content = self.content(code);
        self.packet(COMMAND, &content)
    }

    /// The content of a command.
    fn content(&mut self, code: u8) -> Vec<u8> {
        let mut content = vec![code];
        match code {
            SEARCH => {
                let start = self.page();
                content.push(self.filled_buffer());
                content.extend([start, self.count_from(start)].map(u16::to_be_bytes).concat());
            }
            STORE | LOAD_CHAR => {
                content.push(self.buffer());
                content.extend(self.page().to_be_bytes());
            }
            UP_CHAR | DOWN_CHAR => content.push(self.buffer()),
            DELET_CHAR => {
                let pages = self.deleted_pages();
                content.extend(pages.map(u16::to_be_bytes).concat());
            }
            SET_SYS_PARA => {
                content.push(self.chance.pick(&[4, 5, 6, 4, 5, 6, 0, 3, 7, 255]));
                content.push(self.chance.pick(&[0, 1, 2, 1, 2, 3, 4, 5, 6, 11, 12, 13, 255]));
            }
            SET_PWD => content.extend(password(self.chance)),
            VFY_PWD => content.extend(self.tried_password()),
            SET_ADDER => content.extend(address(self.chance)),
            WRITE_NOTEPAD => {
                content.push(self.note());
                content.extend(self.data(NOTE));
            }
            READ_NOTEPAD => content.push(self.note()),
            READ_INDEX_TABLE => content.push(self.chance.pick(&[0, 1, 2, 3, 0, 1, 2, 3, 4, 5, 255])),
            _ => {}
        }
        content
    }

    fn buffer(&mut self) -> u8 {
        self.chance.pick(&[1, 2, 1, 2, 1, 2, 1, 2, 1, 2, 1, 2, 0, 3, 255])
    }

    /// Mostly a buffer that is filled.
    fn filled_buffer(&mut self) -> u8 {
        match self.reader.settings.filled.map(Mark::is_set) {
            [true, _] if self.chance.percent(50) => 1,
            [_, true] if self.chance.percent(75) => 2,
            _ => self.buffer(),
        }
    }

    pub fn page(&mut self) -> u16 {
        let capacity = self.reader.capacity() as u16;
        match self.chance.below(10) {
            0..=5 => self.chance.below(usize::from(capacity).max(1)) as u16,
            6 | 7 => self.origin(),
            8 => self.chance.pick(&[capacity.wrapping_sub(1), capacity, capacity + 1]),
            _ => self.chance.pick(&[255, 256, 257, 998, 999, 1000, 1001, 1023, 1024, 0x8000, 0xFFFF]),
        }
    }

    /// A page whose bit is set; any page if there is none.
    pub fn stored_page(&mut self) -> u16 {
        let bits = 0..8 * self.reader.index.len();
        let stored: Vec<usize> = bits.filter(|&page| self.reader.stored(page)).collect();
        if stored.is_empty() {
            self.page()
        } else {
            self.chance.pick(&stored) as u16
        }
    }

    /// N of a delete or count of a Search: what is there, one more or less, and sums that pass 65535.
    pub fn count_from(&mut self, page: u16) -> u16 {
        let there = (self.reader.capacity() as u16).wrapping_sub(page);
        let past = page.wrapping_neg();
        let edges = [there, there.wrapping_sub(1), there.wrapping_add(1), past, past.wrapping_add(1)];
        if self.chance.percent(50) {
            self.chance.pick(&[0, 1, 1, 2, 9, 255, 256, 257, 1000, 0xFFFF])
        } else {
            self.chance.pick(&edges)
        }
    }

    fn note(&mut self) -> u8 {
        if self.chance.percent(85) {
            self.chance.below(16) as u8
        } else {
            self.chance.pick(&[16, 17, 128, 255])
        }
    }

    fn tried_password(&mut self) -> [u8; 4] {
        let mut tried = self.reader.settings.password;
        if self.chance.percent(40) {
            tried[self.chance.below(4)] ^= 1 << self.chance.below(8);
        }
        tried
    }

    fn right_password(&self) -> Vec<u8> {
        self.packet(COMMAND, &[&[VFY_PWD], &self.reader.settings.password[..]].concat())
    }

    /// Bytes by chance, at times with a whole command inside.
    pub fn data(&mut self, length: usize) -> Vec<u8> {
        let mut data = self.chance.bytes(length);
        let inside = self.packet(COMMAND, &[HAND_SHAKE]);
        if length >= inside.len() && self.chance.percent(15) {
            let place = self.chance.within(0, length - inside.len());
            data[place..place + inside.len()].copy_from_slice(&inside);
        }
        data
    }

    fn damaged_command(&mut self) -> Vec<u8> {
        let packet = self.any_command();
        self.damaged(packet)
    }

    fn damaged(&mut self, mut packet: Vec<u8>) -> Vec<u8> {
        let place = self.chance.below(packet.len());
        let end = packet.len() - 1;
        match self.chance.below(8) {
            0 | 1 => packet[end] = packet[end].wrapping_add(1),
            2 => packet[end - 1] ^= 0x01,
            3 => packet[place] ^= 1 << self.chance.below(8),
            4 => {
                let lengths = [[0, 2], [0, 3], [0, 4], [0, 8], [1, 0], [1, 1], [1, 2], [1, 3]];
                packet[7..9].copy_from_slice(&self.chance.pick(&lengths));
            }
            5 => packet.truncate(place),
            6 => packet.insert(place, self.chance.byte()),
            _ => drop(packet.remove(place)),
        }
        packet
    }

    /// A command, data or acknowledge for another reader.
    fn foreign(&mut self) -> Vec<u8> {
        let mut other = self.reader.settings.address;
        other[self.chance.below(4)] ^= 1 << self.chance.below(8);
        let content = if self.chance.percent(60) {
            let code = self.chance.pick(&COMMANDS);
            self.content(code)
        } else {
            self.data(size(&self.reader.settings))
        };
        packet(other, self.chance.pick(&[COMMAND, COMMAND, DATA, LAST_DATA, ACKNOWLEDGE]), &content)
    }

    fn noise(&mut self) -> Vec<u8> {
        let length = self.chance.below(24);
        let random = self.chance.bytes(length);
        let start: &[u8] = match self.chance.below(8) {
            0 => return vec![0xEF],
            1 => return [random, vec![0xEF]].concat(),
            2 => return Vec::new(),
            3 => &[0xEF, 0x01],
            4 => &[0xEF, 0xEF, 0x01],
            5 => &[0x01, 0xEF],
            _ => &[],
        };
        [start, &random].concat()
    }

    /// A packet of any identifier and length, mostly one that no reader knows.
    pub fn header(&mut self) -> Vec<u8> {
        let identifier = self.chance.pick(&[0, 1, 1, 2, 3, 7, 8, 9, 255]);
        let length: u16 = self.chance.pick(&[0, 1, 2, 3, 255, 256, 257, 258, 259, 0x0203, 0xFFFF]);
        let content = self.data(usize::from(length).saturating_sub(2).min(300));
        let mut packet = self.packet(identifier, &content);
        packet[7..9].copy_from_slice(&length.to_be_bytes());
        packet
    }

    /// A packet about the greatest lengths.
    pub fn long_packet(&mut self) -> Vec<u8> {
        let length = self.chance.within(MOST_LENGTH - 1, MOST_DATA_LENGTH + 1);
        let content = self.data(length - 2);
        let identifier = self.chance.pick(&[COMMAND, DATA, ACKNOWLEDGE, LAST_DATA]);
        self.packet(identifier, &content)
    }

    /// Data or an acknowledge out of turn, of one size or nearly so.
    fn stray(&mut self) -> Vec<u8> {
        let size = size(&self.reader.settings);
        let length = self.chance.pick(&[size, size, size - 1, size + 1, 1, 254]);
        let content = self.data(length);
        let identifier = self.chance.pick(&[DATA, LAST_DATA, ACKNOWLEDGE]);
        self.packet(identifier, &content)
    }

    /// A command with the right sum and an unknown code or a wrong length.
    fn wrong_command(&mut self) -> Vec<u8> {
        let code = self.chance.pick(&COMMANDS);
        let mut content = self.content(code);
        let length = self.chance.below(4);
        match self.chance.below(5) {
            0 => content[0] = self.chance.byte(),
            1 => content[0] = self.chance.pick(&[0x00, 0x01, 0x05, 0x0A, 0x0B, 0x10, 0x14, 0x1A, 0x1E, 0x35, 0x41]),
            2 => content.truncate(content.len() - length.min(content.len() - 1)),
            3 => content.extend(self.chance.bytes(length)),
            _ => content.resize(MOST_LENGTH - 2 + length, 0),
        }
        self.packet(COMMAND, &content)
    }

    /// DownChar and its data packets, or what an open transfer still lacks; half of the time something goes wrong.
    fn download(&mut self) -> Vec<Event> {
        let settings = &self.reader.settings;
        let mut size = size(settings);
        let mut buffer = settings.transfer;
        let mut got = usize::from(settings.got);
        let mut start = Vec::new();
        if !(1..=2).contains(&buffer) || self.chance.percent(40) {
            let size_code = self.chance.below(SIZES.len());
            if self.chance.percent(50) {
                size = SIZES[size_code];
                start.push(self.packet(COMMAND, &[SET_SYS_PARA, 6, size_code as u8]));
            }
            buffer = self.chance.pick(&[1, 2]);
            got = 0;
            start.push(self.packet(COMMAND, &[DOWN_CHAR, buffer]));
        }
        let mut parts = Vec::new();
        while got < PAGE {
            got += size;
            let data = self.data(size);
            parts.push(self.packet(if got < PAGE { DATA } else { LAST_DATA }, &data));
        }
        let fault = self.chance.percent(50) && !parts.is_empty();
        let mut scene = bytes_events(start);
        scene.extend(if fault { self.spoiled_parts(parts, size) } else { bytes_events(parts) });
        if self.chance.percent(40) {
            scene.push(Event::Bytes(self.packet(COMMAND, &[UP_CHAR, buffer])));
        }
        scene
    }

    /// The data packets of a transfer with one thing wrong among them.
    fn spoiled_parts(&mut self, mut parts: Vec<Vec<u8>>, size: usize) -> Vec<Event> {
        let place = self.chance.below(parts.len());
        let last = parts.len() - 1;
        let data = self.data(size);
        let identifier = self.chance.pick(&[DATA, LAST_DATA]);
        match self.chance.below(12) {
            0 => parts.truncate(place),
            1 => parts[last] = self.packet(DATA, &data),
            2 => {
                parts[last] = self.packet(DATA, &data);
                parts.push(self.packet(LAST_DATA, &data));
            }
            3 => parts.push(self.packet(identifier, &data)),
            4 => parts[place] = self.packet(LAST_DATA, &data),
            5 => parts[place] = self.damaged(parts[place].clone()),
            6 => {
                let length = self.chance.pick(&[1, size / 2, size - 1, size + 1, (2 * size).min(255)]);
                let data = self.data(length);
                parts[place] = self.packet(if place == last { LAST_DATA } else { DATA }, &data);
            }
            7 => parts.insert(place, self.foreign()),
            8 => parts.insert(place, self.packet(ACKNOWLEDGE, &data)),
            9 => parts.insert(place, self.any_command()),
            10 => parts.insert(place, self.long_packet()),
            _ => {
                let rest = parts.split_off(place);
                let mut events = bytes_events(parts);
                events.push(Event::LineSwitch);
                events.extend(bytes_events(rest));
                return events;
            }
        }
        bytes_events(parts)
    }

    /// A template goes from a buffer to a page, which is at times deleted first, and back, with an upload at the end.
    fn store_and_load(&mut self) -> Vec<Event> {
        let [high, low] = self.page().to_be_bytes();
        let (from, to) = self.chance.pick(&[(1, 2), (2, 1), (1, 1), (2, 2)]);
        let mut packets = Vec::new();
        if self.chance.percent(50) {
            packets.push(self.packet(COMMAND, &[DELET_CHAR, high, low, 0, 1]));
        }
        packets.push(self.packet(COMMAND, &[STORE, from, high, low]));
        if self.chance.percent(30) {
            let code = self.chance.pick(&[EMPTY, DELET_CHAR, TEMPLETE_NUM, READ_INDEX_TABLE]);
            packets.push(self.command(code));
        }
        packets.push(self.packet(COMMAND, &[LOAD_CHAR, to, high, low]));
        packets.push(self.packet(COMMAND, &[UP_CHAR, to]));
        bytes_events(packets)
    }

    /// A stored page is stored to again and again: as it is, when it was loaded, in a transfer, and when it is deleted.
    fn store_again(&mut self) -> Vec<Event> {
        let [high, low] = self.stored_page().to_be_bytes();
        let (one, other) = self.chance.pick(&[(1, 2), (2, 1)]);
        let [store, store_other] = [one, other].map(|buffer| self.packet(COMMAND, &[STORE, buffer, high, low]));
        let mut packets = vec![
            store.clone(),
            self.packet(COMMAND, &[LOAD_CHAR, one, high, low]),
            store.clone(),
            self.packet(COMMAND, &[DOWN_CHAR, other]),
            store.clone(),
            store_other,
            self.packet(COMMAND, &[DELET_CHAR, high, low, 0, 1]),
            store,
        ];
        packets.retain(|_| self.chance.percent(85));
        bytes_events(packets)
    }

    /// A stored page is loaded, and searched for, at times at another level, while a transfer is open, when it is deleted
    /// or with a buffer that is not filled; the status is read after each Search.
    fn searches(&mut self) -> Vec<Event> {
        let [high, low] = self.stored_page().to_be_bytes();
        let level = self.chance.within(1, 5) as u8;
        let mut packets = vec![self.packet(COMMAND, &[LOAD_CHAR, 1, high, low])];
        for between in
            [vec![SET_SYS_PARA, 5, level], vec![DOWN_CHAR, 2], vec![DELET_CHAR, high, low, 0, 1], vec![DOWN_CHAR, 1]]
        {
            if self.chance.percent(50) {
                packets.push(self.packet(COMMAND, &between));
            }
            packets.push(self.command(SEARCH));
            packets.push(self.packet(COMMAND, &[READ_SYS_PARA]));
        }
        packets.truncate(self.chance.within(2, packets.len()));
        bytes_events(packets)
    }

    /// SetPwd, then commands to the locked reader, then a wrong password or the right one.
    fn lock(&mut self) -> Vec<Event> {
        let password = [&[0, 0, 1][..], &[self.chance.byte()]].concat();
        let mut scene = vec![Event::Bytes(self.packet(COMMAND, &[&[SET_PWD], &password[..]].concat()))];
        scene.extend(self.runs(0, 3, Author::any_command));
        scene.extend(self.runs(0, 1, Author::damaged_command));
        scene.extend(self.runs(0, 1, Author::wrong_command));
        let mut tried = password;
        if self.chance.percent(30) {
            tried[self.chance.below(4)] ^= 1 << self.chance.below(8);
        }
        scene.push(Event::Bytes(self.packet(COMMAND, &[&[VFY_PWD], &tried[..]].concat())));
        scene.extend(self.runs(0, 2, Author::any_command));
        scene
    }

    /// SetAdder, then commands with the old address and with the new one.
    fn new_address(&mut self) -> Vec<Event> {
        let new = address(self.chance);
        let set = self.packet(COMMAND, &[&[SET_ADDER], &new[..]].concat());
        let old = self.any_command();
        let code = self.chance.pick(&COMMANDS);
        let content = self.content(code);
        bytes_events(vec![set, old, packet(new, COMMAND, &content)])
    }
}

pub fn bytes_events(runs: Vec<Vec<u8>>) -> Vec<Event> {
    runs.into_iter().map(Event::Bytes).collect()
}
