//! Cases of an index that is brought over, by document 02's request [6]: lengths about the right ones and bytes in turn,
//! and both by chance.

use crate::cases::chance::Chance;
use crate::cases::readers::{index_of, numbered_reader};
use crate::cases::thousand::calls;
use crate::compare::frame::{Kind, Request};
use crate::reader::*;

/// The lengths of the stored index and of the lent one.
const STORED: [usize; 10] = [0, 1, 31, SHORT_INDEX, 33, 64, 96, 127, 128, 129];
const LENT: [usize; 10] = [0, 1, 31, 32, 33, 96, 127, INDEX, 129, 256];
/// C of the readers that are called with what was brought over; the bits of a stored index reach no further.
const CAPACITIES: [usize; 4] = [1, 10, 255, 256];

/// All lengths, bytes in turn, readers that calls refuse, and readers that are called afterwards.
pub fn all(seed: u64) -> impl Iterator<Item = Request> {
    let mut chance = Chance::new(seed, 0);
    let mut requests = Vec::new();
    for stored in STORED {
        for lent in LENT {
            requests.push(request(chance.bytes(stored), 1, chance.bytes(lent)));
        }
    }
    requests.extend(of_bytes());
    requests.extend(of_unfit_readers());
    for capacity in CAPACITIES {
        let mut stored = index_of(capacity, |_| chance.percent(50));
        stored.truncate(SHORT_INDEX);
        requests.extend(with_calls(request(stored, capacity, vec![0xFF; INDEX])));
    }
    requests.into_iter()
}

/// One with a reader, a run and a reply room by chance. The run or other bytes are the stored index, mostly of the right
/// length; the lent index is as it is, or has bytes and at times a length by chance.
pub fn by_chance(chance: &mut Chance, mut request: Request) -> Request {
    let stored = if chance.percent(70) { SHORT_INDEX } else { chance.pick(&STORED) };
    if chance.percent(50) {
        request.run.resize(stored, 0);
    } else {
        request.run = chance.bytes(stored);
    }
    if chance.percent(50) {
        let lent = if chance.percent(50) { INDEX } else { chance.pick(&LENT) };
        request.reader.index = chance.bytes(lent);
    }
    request
}

/// Bytes of the stored index, over zeroes and over ones: each byte alone, all, none, and a packet; then with the most
/// pages.
fn of_bytes() -> Vec<Request> {
    let mut indexes: Vec<Vec<u8>> = (0..SHORT_INDEX).map(|byte| index_of(256, |page| page / 8 == byte)).collect();
    indexes.extend([vec![0xFF; SHORT_INDEX], Vec::new(), packet(Settings::fresh().address, COMMAND, &[HAND_SHAKE])]);
    let mut requests = Vec::new();
    for mut stored in indexes {
        stored.resize(SHORT_INDEX, 0);
        for lent in [0x00, 0xFF] {
            requests.push(request(stored.clone(), 1, vec![lent; INDEX]));
        }
    }
    requests.push(request(vec![0x5A; SHORT_INDEX], MOST_PAGES, vec![0xFF; INDEX]));
    requests
}

/// A memory, a reply room and settings that a call refuses, with a stored index of the right length and of a wrong one.
fn of_unfit_readers() -> Vec<Request> {
    let spoil: [fn(&mut Request); 4] = [
        |request| request.reader.notepad.clear(),
        |request| request.room.clear(),
        |request| {
            request.reader.settings.verified = Mark(2);
            request.reader.settings.filled = [Mark(0x80), Mark(0xFF)];
        },
        |request| request.reader.settings.origins = [Origin(0x1234), Origin(0xFFFE)],
    ];
    let mut requests = Vec::new();
    for stored in [SHORT_INDEX, SHORT_INDEX + 1] {
        for spoil in spoil {
            let mut request = request(vec![0x5A; stored], 1, vec![0; INDEX]);
            spoil(&mut request);
            requests.push(request);
        }
    }
    requests
}

pub fn request(stored: Vec<u8>, capacity: usize, lent: Vec<u8>) -> Request {
    let reader = numbered_reader(PAGE * capacity, lent);
    Request { kind: Kind::BringOver, reader, run: stored, room: vec![0x5A; ROOM] }
}

/// The request, and calls of the reader with what was brought over.
fn with_calls(request: Request) -> Vec<Request> {
    let reader = request.carried_out().reader;
    let commands: [&[u8]; 3] = [&[TEMPLETE_NUM], &[READ_INDEX_TABLE, 0], &[READ_INDEX_TABLE, 1]];
    let mut requests = vec![request];
    requests.extend(commands.iter().flat_map(|command| calls(reader.clone(), command)));
    requests
}
