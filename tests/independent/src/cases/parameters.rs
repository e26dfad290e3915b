//! Cases of document 02's request [13]: ReadSysParas and a fitter's visits by chance; and in turn ReadSysParas with all
//! marks, in packets that are not right, in transfers, with all settings, and with guarded contents that differ.

use crate::cases::author::{Author, Event};
use crate::cases::chance::Chance;
use crate::cases::origins::CAPACITIES;
use crate::cases::readers::{capacity, fresh_reader, index_of, legal_reader, numbered_reader, password};
use crate::cases::receivers;
use crate::cases::search::in_transfer;
use crate::cases::thousand::{calls, calls_of};
use crate::compare::frame::Request;
use crate::reader::*;

/// C of the readers that meet the most.
const FEW: usize = 9;
/// No password, then passwords of which one byte alone is not zero, and one without a zero byte.
const PASSWORDS: [[u8; 4]; 6] =
    [[0; 4], [0x80, 0, 0, 0], [0, 5, 0, 0], [0, 0, 5, 0], [0, 0, 0, 5], [0xEF, 0x01, 0xA5, 0xFF]];
/// The password of the locked readers.
const PASSWORD: [u8; 4] = PASSWORDS[4];

impl Author<'_> {
    /// A fitter asks for the parameters: as the reader stands, then after SetPwd, a wrong password, the right one and a
    /// line switch.
    pub fn fitter(&mut self) -> Vec<Event> {
        let settings = &self.reader.settings;
        let right = if settings.locked() { settings.password } else { password(self.chance) };
        let mut wrong = right;
        wrong[self.chance.below(4)] ^= 1 << self.chance.below(8);
        let mut scene = vec![Event::Bytes(self.read_sys_para())];
        for (command, password) in [(SET_PWD, right), (VFY_PWD, wrong), (VFY_PWD, right)] {
            scene.push(Event::Bytes(self.packet(COMMAND, &[&[command], &password[..]].concat())));
            scene.push(Event::Bytes(self.read_sys_para()));
        }
        scene.extend([Event::LineSwitch, Event::Bytes(self.read_sys_para())]);
        scene
    }

    /// ReadSysPara, at times for another reader, with a wrong sum or of a wrong length.
    fn read_sys_para(&mut self) -> Vec<u8> {
        let mut packet = self.packet(COMMAND, &[READ_SYS_PARA]);
        match self.chance.below(20) {
            0 => packet[2 + self.chance.below(4)] ^= 1 << self.chance.below(8),
            1 => packet[10 + self.chance.below(2)] ^= 1 << self.chance.below(8),
            2 => {
                let parameters = self.chance.pick(&[1, 1, 2, 4, MOST_LENGTH - 3]);
                let parameters = self.chance.bytes(parameters);
                packet = self.packet(COMMAND, &[&[READ_SYS_PARA], &parameters[..]].concat());
            }
            _ => {}
        }
        packet
    }
}

/// A call with a ReadSysPara, half of the time of a receiver that holds a part of it. Half of the readers are locked.
pub fn by_chance(mut chance: Chance) -> Request {
    let capacity = capacity(&mut chance);
    let mut reader = legal_reader(&mut chance, capacity);
    if chance.percent(50) {
        reader.settings.password[chance.below(4)] |= 1 << chance.below(8);
        reader = locked(&reader);
    }
    let run = Author { chance: &mut chance, reader: &reader }.read_sys_para();
    receivers::whole_or_in_part(chance, reader, run)
}

/// The reader with its verified mark clear and no transfer, which locks it if it has a password.
fn locked(reader: &Reader) -> Reader {
    let mut reader = reader.clone();
    reader.settings.verified = CLEAR;
    reader.settings.transfer = 0;
    reader.settings.got = 0;
    reader
}

/// Calls with a receiver and without one.
pub fn all() -> impl Iterator<Item = Request> {
    [marks(), packets(), transfers(), settings(), guarded()].into_iter().flatten()
}

/// A reader of few pages with this password and these marks.
fn reader(password: [u8; 4], verified: Mark, found: Mark) -> Reader {
    let mut reader = numbered_reader(PAGE * FEW, index_of(FEW, |page| page % 2 == 0));
    reader.settings.password = password;
    reader.settings.verified = verified;
    reader.settings.found = found;
    reader
}

/// Readers of few pages with these passwords and all mixes of the two marks.
fn mixes(passwords: &[[u8; 4]]) -> Vec<Reader> {
    let mixes = [(CLEAR, CLEAR), (CLEAR, SET), (SET, CLEAR), (SET, SET)];
    passwords.iter().flat_map(|&password| mixes.map(|(verified, found)| reader(password, verified, found))).collect()
}

/// A ReadSysPara at the reader's own address.
fn asked(reader: Reader) -> [Request; 2] {
    let run = packet(reader.settings.address, COMMAND, &[READ_SYS_PARA]);
    calls_of(reader, run)
}

fn marks() -> Vec<Request> {
    mixes(&PASSWORDS).into_iter().flat_map(asked).collect()
}

/// Other lengths, with a sum that is right and one that is not, other addresses, and a packet that lacks its end.
fn packets() -> Vec<Request> {
    let mut requests = Vec::new();
    for reader in mixes(&[[0; 4], PASSWORD]) {
        for parameters in [0, 1, 2, 3, 4, 5, 15, 16, 33, MOST_LENGTH - 3] {
            let content = [vec![READ_SYS_PARA], vec![0; parameters]].concat();
            let mut damaged = packet(reader.settings.address, COMMAND, &content);
            let end = damaged.len() - 1;
            damaged[end] ^= 1;
            requests.extend(calls(reader.clone(), &content));
            requests.extend(calls_of(reader.clone(), damaged));
        }
        for address in [[0; 4], [0xFF, 0xFF, 0xFF, 0xFE], [0x7F, 0xFF, 0xFF, 0xFF]] {
            requests.extend(calls_of(reader.clone(), packet(address, COMMAND, &[READ_SYS_PARA])));
        }
        let unfinished = packet(reader.settings.address, COMMAND, &[READ_SYS_PARA])[..11].to_vec();
        requests.extend(calls_of(reader, unfinished));
    }
    requests
}

/// ReadSysParas that end a transfer of either buffer.
fn transfers() -> Vec<Request> {
    let open = mixes(&[[0; 4], PASSWORD]).into_iter().filter(|reader| !reader.settings.locked());
    open.flat_map(|reader| [1, 2].map(|buffer| in_transfer(&reader, buffer))).flat_map(asked).collect()
}

/// Readers locked and not with each value of a setting in turn, and of each C.
fn settings() -> Vec<Request> {
    let mut readers = Vec::new();
    for reader in [reader(PASSWORD, CLEAR, SET), reader(PASSWORD, SET, SET), reader([0; 4], CLEAR, SET)] {
        let mut with = |change: &dyn Fn(&mut Settings)| {
            let mut reader = reader.clone();
            change(&mut reader.settings);
            readers.push(reader);
        };
        LEVELS.for_each(|level| with(&|settings| settings.level = level));
        SIZE_CODES.for_each(|size_code| with(&|settings| settings.size_code = size_code));
        BAUD_FACTORS.for_each(|baud_factor| with(&|settings| settings.baud_factor = baud_factor));
        for sensor_type in [0, 1, 0x00FF, 0x1234, 0xFFFF] {
            with(&|settings| settings.sensor_type = sensor_type);
        }
        for address in [[0; 4], [0xFF; 4], [0x12, 0x34, 0x56, 0x78], [0xEF, 0x01, 0xEF, 0x01]] {
            with(&|settings| settings.address = address);
        }
        for capacity in CAPACITIES {
            readers.push(Reader { settings: reader.settings.clone(), ..fresh_reader(capacity) });
        }
    }
    readers.into_iter().flat_map(asked).collect()
}

/// Locked readers of the same C and settings whose guarded contents differ.
fn guarded() -> Vec<Request> {
    let base = reader(PASSWORD, CLEAR, CLEAR);
    let changes: [fn(&mut Reader); 9] = [
        |reader| reader.templates.fill(0xFF),
        |reader| reader.index = index_of(FEW, |_| true),
        |reader| reader.index = index_of(FEW, |_| false),
        |reader| reader.notepad.fill(0xFF),
        |reader| reader.buffers = [vec![0xFF; PAGE], vec![0xEF; PAGE]],
        |reader| reader.settings.filled = [CLEAR; 2],
        |reader| reader.settings.origins = [Origin(0), Origin(8)],
        |reader| reader.chip.scores.fill(0xFFFF),
        |reader| reader.chip.thresholds.fill(0xFFFF),
    ];
    let mut readers = vec![Reader { settings: base.settings.clone(), ..fresh_reader(FEW) }];
    for found in [CLEAR, SET] {
        for change in changes {
            let mut reader = base.clone();
            reader.settings.found = found;
            change(&mut reader);
            readers.push(reader);
        }
    }
    readers.into_iter().flat_map(asked).collect()
}
