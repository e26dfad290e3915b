//! Cases of document 02's request [7], in turn: origins legal and not, and all that sets them, makes them none or
//! leaves them.

use crate::cases::readers::{index_of, numbered_reader};
use crate::cases::thousand::{calls, calls_with};
use crate::compare::frame::{Kind, Request};
use crate::reader::receiver::Receiver;
use crate::reader::*;

/// C of the readers.
pub const CAPACITIES: [usize; 8] = [1, 8, 9, 64, 256, 257, 999, MOST_PAGES];
/// C of the readers that meet the most.
const FEW: usize = 9;
/// Legal origins of the two buffers where C is few and every other page is stored.
const PAIRS: [[Origin; 2]; 8] = [
    [NONE, NONE],
    [Origin(2), NONE],
    [NONE, Origin(2)],
    [Origin(2), Origin(2)],
    [Origin(2), Origin(4)],
    [Origin(4), Origin(2)],
    [Origin(0), Origin(8)],
    [Origin(8), Origin(0)],
];
/// Origins at or above C where C is few.
const BEYOND: [u16; 13] = [9, 10, 15, 255, 256, 999, 1000, 1001, 1023, 1024, 0x8000, 0xFF00, 0xFFFE];

/// Calls with a receiver and without one, then what is not a call.
pub fn all() -> impl Iterator<Item = Request> {
    let cases = [commands(), deletes(), transfers(), unfit(), refusals_in_order(), capacities()];
    cases.into_iter().flatten().chain(not_calls())
}

/// A reader with these origins that has such of its pages stored; both buffers are filled.
fn reader(capacity: usize, such: impl FnMut(usize) -> bool, origins: [Origin; 2]) -> Reader {
    let mut reader = numbered_reader(PAGE * capacity, index_of(capacity, such));
    reader.settings.origins = origins;
    reader
}

/// A reader of few pages, every other one of them stored.
fn few(origins: [Origin; 2]) -> Reader {
    reader(FEW, |page| page % 2 == 0, origins)
}

/// The same reader, not locked and locked.
fn open_and_locked(reader: &Reader) -> [Reader; 2] {
    let mut locked = reader.clone();
    locked.settings.password = [0, 0, 0, 5];
    [reader.clone(), locked]
}

/// Every command, with codes of all kinds; Store and UpChar also of a buffer that is not filled.
fn commands() -> Vec<Request> {
    let mut contents: Vec<Vec<u8>> = COMMANDS.iter().map(|&command| vec![command]).collect();
    for buffer in 1..=3 {
        let paged = [[STORE, 1], [STORE, 2], [STORE, 9], [LOAD_CHAR, 1], [LOAD_CHAR, 4], [LOAD_CHAR, 9]];
        contents.extend(paged.map(|[command, page]| vec![command, buffer, 0, page]));
        contents.extend([UP_CHAR, DOWN_CHAR].map(|command| vec![command, buffer]));
    }
    for password in [0, 5, 6] {
        contents.extend([SET_PWD, VFY_PWD, SET_ADDER].map(|command| vec![command, 0, 0, 0, password]));
    }
    contents.extend([[6, 1], [6, 4], [7, 1]].map(|[number, value]| vec![SET_SYS_PARA, number, value]));
    contents.extend([vec![READ_NOTEPAD, 16], vec![0xFF], delete([2, 1])]);
    let mut requests = Vec::new();
    for reader in PAIRS.iter().flat_map(|&origins| open_and_locked(&few(origins))) {
        requests.extend(contents.iter().flat_map(|content| calls(reader.clone(), content)));
        for buffer in (0..2).filter(|&buffer| reader.settings.origins[buffer] == NONE) {
            let mut reader = reader.clone();
            reader.settings.filled[buffer] = CLEAR;
            requests.extend(calls(reader.clone(), &[STORE, buffer as u8 + 1, 0, 1]));
            requests.extend(calls(reader, &[UP_CHAR, buffer as u8 + 1]));
        }
    }
    requests
}

/// DeletChar of all ranges and of some too far, and Empty, with all pages stored.
fn deletes() -> Vec<Request> {
    let ranges = (0..=FEW).flat_map(|page| (0..=FEW + 1 - page).map(move |count| [page, count]));
    let mut contents: Vec<Vec<u8>> = ranges.map(delete).collect();
    contents.extend([delete([4, 0xFFFC]), vec![EMPTY]]);
    let pairs = [[0, 8], [4, 4], [3, 5], [5, 0xFFFF], [0xFFFF, 3]].map(|pair| pair.map(Origin));
    let reader = |origins| reader(FEW, |_| true, origins);
    pairs.iter().flat_map(|&pair| contents.iter().flat_map(move |content| calls(reader(pair), content))).collect()
}

/// The content of a DeletChar by page and N.
fn delete(numbers: [usize; 2]) -> Vec<u8> {
    [&[DELET_CHAR], &numbers.map(|number| (number as u16).to_be_bytes()).concat()[..]].concat()
}

/// What an open transfer takes, what fails it and what ends it, beside an origin.
fn transfers() -> Vec<Request> {
    let mut requests = Vec::new();
    for (buffer, got) in [(1, 0), (1, 384), (2, 0), (2, 384)] {
        let mut reader = few([Origin(2); 2]);
        let place = usize::from(buffer) - 1;
        reader.settings.origins[place] = NONE;
        reader.settings.filled[place] = CLEAR;
        reader.settings.transfer = buffer;
        reader.settings.got = got;
        for identifier in [DATA, LAST_DATA, ACKNOWLEDGE] {
            requests.extend([128, 127].iter().flat_map(|&size| calls_with(reader.clone(), identifier, &vec![7; size])));
        }
        let loads = [1, 2].map(|buffer| vec![LOAD_CHAR, buffer, 0, 4]);
        let contents =
            [vec![HAND_SHAKE], vec![0], vec![DOWN_CHAR, buffer], delete([2, 1]), delete([4, 1]), vec![EMPTY]];
        requests.extend(contents.iter().chain(&loads).flat_map(|content| calls(reader.clone(), content)));
    }
    requests
}

/// Origins at or above C, on vacant pages and of buffers that are not filled, beside another origin and beside none, of
/// readers locked and not.
fn unfit() -> Vec<Request> {
    let mut readers = Vec::new();
    for (buffer, other) in [(0, NONE), (1, NONE), (0, Origin(4)), (1, Origin(4))] {
        let mut spoil = |origin: u16, filled: Mark| {
            let mut reader = few([other; 2]);
            reader.settings.origins[buffer] = Origin(origin);
            reader.settings.filled[buffer] = filled;
            readers.extend(open_and_locked(&reader));
        };
        BEYOND.iter().chain(&[1, 7]).for_each(|&origin| spoil(origin, SET));
        [0, 4, 8].iter().for_each(|&origin| spoil(origin, CLEAR));
        spoil(1, CLEAR);
    }
    let commands: [&[u8]; 3] = [&[HAND_SHAKE], &[EMPTY], &[DOWN_CHAR, 1]];
    readers.iter().flat_map(|reader| commands.iter().flat_map(move |command| calls(reader.clone(), command))).collect()
}

/// An origin that is not legal, with a memory, a reply room or a setting that is refused too.
fn refusals_in_order() -> Vec<Request> {
    let spoil: [fn(&mut Request); 3] = [
        |request| request.reader.notepad.clear(),
        |request| request.room.truncate(ROOM - 1),
        |request| request.reader.settings.level = 0,
    ];
    let mut requests = Vec::new();
    for spoil in spoil {
        for origins in [[Origin(1), NONE], [NONE, Origin(9)]] {
            requests.extend(calls(few(origins), &[HAND_SHAKE]));
            requests.iter_mut().rev().take(2).for_each(spoil);
        }
    }
    requests
}

/// Origins at the ends, stored, vacant and one too far, at each C; then at pages about 256.
fn capacities() -> Vec<Request> {
    let mut requests = Vec::new();
    for capacity in CAPACITIES {
        let last = capacity - 1;
        let [high, low] = (last as u16).to_be_bytes();
        let full = |origins: [usize; 2]| reader(capacity, |_| true, origins.map(Origin::of));
        for content in [vec![HAND_SHAKE], delete([last, 1]), delete([0, last]), delete([0, capacity]), vec![EMPTY]] {
            requests.extend(calls(full([last, 0]), &content));
        }
        let mut not_filled = full([last; 2]);
        not_filled.settings.filled[1] = CLEAR;
        requests.extend(calls(not_filled, &[HAND_SHAKE]));
        requests.extend(calls(full([capacity, last]), &[HAND_SHAKE]));
        requests.extend(calls(full([last, capacity + 1]), &[HAND_SHAKE]));
        let vacant = |origins| reader(capacity, |page| page != last, origins);
        requests.extend(calls(vacant([NONE, Origin::of(last)]), &[HAND_SHAKE]));
        requests.extend(calls(vacant([NONE; 2]), &[STORE, 2, high, low]));
        requests.extend(calls(full([0, 0]), &[LOAD_CHAR, 1, high, low]));
    }
    for (origins, pages) in [([0, 256], [0, 1]), ([0, 256], [256, 1]), ([257, 1], [257, 1]), ([257, 1], [1, 1])] {
        requests.extend(calls(reader(258, |_| true, origins.map(Origin)), &delete(pages)));
    }
    requests
}

/// Line switches, fresh settings and indexes brought over, which take any origins.
fn not_calls() -> impl Iterator<Item = Request> {
    let mut readers: Vec<Reader> = PAIRS.iter().flat_map(|&origins| open_and_locked(&few(origins))).collect();
    for (one, other) in BEYOND.into_iter().zip([1, 7, 0xFFFF].into_iter().cycle()) {
        readers.push(few([Origin(one), Origin(other)]));
    }
    let mut not_filled = few(PAIRS[4]);
    not_filled.settings.filled = [CLEAR; 2];
    readers.push(not_filled);
    for origins in [PAIRS[4], [Origin(1), Origin(9)]] {
        let mut short = few(origins);
        short.buffers[1].pop();
        readers.push(short);
    }
    let switch = Kind::ReceiverLineSwitch(Receiver::holding(&[0xEF]));
    let kinds = [Kind::LineSwitch, switch, Kind::FreshSettings, Kind::BringOver];
    readers.into_iter().flat_map(move |reader| {
        kinds.clone().map(|kind| Request {
            kind,
            reader: reader.clone(),
            run: vec![0x15; SHORT_INDEX],
            room: vec![0x5A; ROOM],
        })
    })
}
