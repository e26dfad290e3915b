//! Cases of document 02's request [8]: Searches by chance; and in turn Searches of all ranges, scores about the thresholds,
//! every code with the found mark set and clear, and scores, thresholds and found marks that do not fit.

use crate::cases::author::Author;
use crate::cases::chance::Chance;
use crate::cases::origins::CAPACITIES;
use crate::cases::readers::{index_of, legal_reader, numbered_reader};
use crate::cases::receivers;
use crate::cases::thousand::calls;
use crate::compare::frame::{Kind, Request};
use crate::reader::receiver::{Receiver, HOLDS};
use crate::reader::*;

/// C of the readers that meet the most.
const FEW: usize = 9;
/// Thresholds from low to high, of which no two are the same.
const RISING: [u16; THRESHOLDS] = [0x0050, 0x00FF, 0x0100, 0x7FFF, 0x8000];

/// A call with a Search, half of the time of a receiver that holds a part of it. Most readers are not locked, and have a
/// buffer filled.
pub fn by_chance(mut chance: Chance) -> Request {
    let (near, far) = CAPACITIES.split_at(4);
    let capacity = match chance.below(100) {
        0..=49 => chance.within(2, 24),
        50..=95 => chance.pick(near),
        _ => chance.pick(far),
    };
    let mut reader = legal_reader(&mut chance, capacity);
    if chance.percent(85) {
        reader.settings.verified = SET;
    }
    if chance.percent(85) && reader.settings.transfer == 0 {
        reader.settings.filled = [SET; 2];
    }
    let run = Author { chance: &mut chance, reader: &reader }.command(SEARCH);
    receivers::whole_or_in_part(chance, reader, run)
}

/// Calls with a receiver and without one, then what is not a call.
pub fn all() -> impl Iterator<Item = Request> {
    let cases = [ranges(), levels(), codes(), commands(), capacities(), lengths(), refusals_in_order(), marks()];
    cases.into_iter().flatten().chain(not_calls())
}

/// A reader that has such of its pages stored, with these scores; both buffers are filled and every threshold is 100.
fn reader(capacity: usize, such: impl FnMut(usize) -> bool, scores: impl Fn(usize) -> usize) -> Reader {
    let mut reader = numbered_reader(PAGE * capacity, index_of(capacity, such));
    let scores = (0..capacity).map(|page| scores(page) as u16).collect();
    reader.chip = Chip { scores, thresholds: vec![100; THRESHOLDS] };
    reader
}

/// A reader of few pages that are all stored with the same score.
fn few() -> Reader {
    reader(FEW, |_| true, |_| 100)
}

/// The content of a Search with this buffer, by start and count.
fn search(buffer: u8, numbers: [usize; 2]) -> Vec<u8> {
    [&[SEARCH, buffer], &numbers.map(|number| (number as u16).to_be_bytes()).concat()[..]].concat()
}

/// All ranges and some that pass C and 65535: with ties, with scores that rise or fall, and with vacant pages between.
fn ranges() -> Vec<Request> {
    let readers = [
        few(),
        reader(FEW, |_| true, |page| 100 + page),
        reader(FEW, |_| true, |page| 200 - page),
        reader(FEW, |page| page % 2 == 0, |page| 100 + page % 2),
        reader(FEW, |page| page % 3 == 1, |page| 98 + page % 4),
        reader(FEW, |_| true, |page| 99 + usize::from(page == 4)),
    ];
    let mut requests = Vec::new();
    for reader in readers {
        for start in 0..=FEW {
            for count in (0..=FEW + 1 - start).chain([0xFFFF - start, 0x10000 - start, 0x10001 - start, 0xFFFF]) {
                requests.extend(calls(reader.clone(), &search(1, [start, count.min(0xFFFF)])));
            }
        }
    }
    requests
}

/// Each level, with thresholds that rise and that fall: scores of each threshold, one less and one more.
fn levels() -> Vec<Request> {
    let mut falling = RISING;
    falling.reverse();
    let mut requests = Vec::new();
    for thresholds in [RISING, falling, [0; THRESHOLDS], [0xFFFF; THRESHOLDS]] {
        for level in LEVELS {
            for score in RISING.into_iter().flat_map(|score| score - 1..=score + 1).chain([0, 0xFFFE, 0xFFFF]) {
                let mut reader = few();
                reader.chip = Chip { scores: vec![0; FEW], thresholds: thresholds.to_vec() };
                reader.chip.scores[4] = score;
                reader.settings.level = level;
                requests.extend(calls(reader, &search(2, [2, 4])));
            }
        }
    }
    requests
}

/// Each code of a Search, with the found mark set and clear, open, verified, locked and in transfers of both buffers.
fn codes() -> Vec<Request> {
    let mut contents: Vec<Vec<u8>> = [0, 1, 2, 3, 255]
        .into_iter()
        .flat_map(|buffer| [[0, 9], [1, 0], [8, 9], [9, 1], [9, 0], [0xFFFF, 1]].map(|range| search(buffer, range)))
        .collect();
    contents.extend((1..=8).map(|length| search(1, [0, 9]).into_iter().cycle().take(length).collect()));
    let mut readers = Vec::new();
    for (password, verified) in [(0, CLEAR), (0, SET), (5, SET), (5, CLEAR)] {
        let mut reader = few();
        reader.settings.password[3] = password;
        reader.settings.verified = verified;
        for filled in [[SET, SET], [SET, CLEAR], [CLEAR, SET], [CLEAR, CLEAR]] {
            reader.settings.filled = filled;
            readers.push(reader.clone());
        }
        if !reader.settings.locked() {
            readers.extend([1, 2].map(|buffer| in_transfer(&reader, buffer)));
        }
    }
    readers.into_iter().flat_map(|reader| found_and_not(reader, &contents)).collect()
}

/// The reader with a transfer of this buffer; the other one is filled.
pub fn in_transfer(reader: &Reader, buffer: u8) -> Reader {
    let mut reader = reader.clone();
    reader.settings.filled = [Mark::of(buffer == 2), Mark::of(buffer == 1)];
    reader.settings.transfer = buffer;
    reader.settings.got = 128;
    reader
}

/// Calls with each of these contents, with the found mark set and clear.
fn found_and_not(reader: Reader, contents: &[Vec<u8>]) -> Vec<Request> {
    let mut requests = Vec::new();
    for found in [CLEAR, SET] {
        let mut reader = reader.clone();
        reader.settings.found = found;
        requests.extend(contents.iter().flat_map(|content| calls(reader.clone(), content)));
    }
    requests
}

/// Every other command, with codes of all kinds, and what comes before a row, which keep the found mark.
fn commands() -> Vec<Request> {
    let mut contents: Vec<Vec<u8>> = COMMANDS.iter().map(|&command| vec![command]).collect();
    for buffer in 1..=3 {
        contents
            .extend([[STORE, 1], [STORE, 2], [LOAD_CHAR, 2], [LOAD_CHAR, 9]].map(|[c, page]| vec![c, buffer, 0, page]));
        contents.extend([UP_CHAR, DOWN_CHAR].map(|command| vec![command, buffer]));
    }
    for password in [0, 5, 6] {
        contents.extend([SET_PWD, VFY_PWD, SET_ADDER].map(|command| vec![command, 0, 0, 0, password]));
    }
    contents.extend([[0, 9], [2, 1], [9, 0]].map(|[page, count]| vec![DELET_CHAR, 0, page, 0, count]));
    contents.extend([[5, 1], [5, 6], [6, 1], [4, 1], [7, 1]].map(|[number, value]| vec![SET_SYS_PARA, number, value]));
    contents.extend([vec![READ_NOTEPAD, 0], vec![READ_NOTEPAD, 16], vec![READ_INDEX_TABLE, 0], vec![0x05], vec![0xFF]]);
    contents.push([&[WRITE_NOTEPAD, 1], &[7; NOTE][..]].concat());
    let mut requests = Vec::new();
    for (password, verified) in [(0, CLEAR), (0, SET), (5, CLEAR), (5, SET)] {
        let mut reader = reader(FEW, |page| page % 2 == 0, |page| 100 + page);
        reader.settings.password[3] = password;
        reader.settings.verified = verified;
        requests.extend(found_and_not(reader, &contents));
    }
    requests
}

/// Readers of each C: the last page is found, and one past it is not there; pages about 256, and vacant ones.
fn capacities() -> Vec<Request> {
    let mut requests = Vec::new();
    for capacity in CAPACITIES {
        let last = capacity - 1;
        let rising = reader(capacity, |_| true, |page| 100 + page);
        let falling = reader(capacity, |_| true, |page| 2000 - page);
        let vacant_last = reader(capacity, |page| page != last, |page| 100 + page);
        for range in [[0, capacity], [0, last], [last, 1], [last, 0xFFFF], [capacity, 1]] {
            requests.extend(calls(rising.clone(), &search(1, range)));
        }
        requests.extend(calls(falling, &search(2, [0, 0xFFFF])));
        requests.extend(calls(vacant_last, &search(1, [0, capacity])));
    }
    for range in [[0, 256], [255, 1], [256, 1], [1, 256], [0, 257], [257, 1], [256, 0xFF00]] {
        requests.extend(calls(reader(258, |_| true, |page| 1000 - page % 256), &search(1, range)));
    }
    requests
}

/// Scores and thresholds of other lengths, with every command, open and locked, and with runs that have none.
fn lengths() -> Vec<Request> {
    let scores = [0, 1, FEW - 1, FEW + 1, 2 * FEW, MOST_PAGES + 1].map(|length| (length, THRESHOLDS));
    let thresholds = [0, 1, 4, 6, 10].map(|length| (FEW, length));
    let mut requests = Vec::new();
    for (scores, thresholds) in scores.into_iter().chain(thresholds).chain([(FEW - 1, 6), (FEW + 1, 4)]) {
        for password in [0, 5] {
            let mut reader = few();
            reader.chip = Chip { scores: vec![100; scores], thresholds: vec![100; thresholds] };
            reader.settings.password[3] = password;
            let contents = [search(1, [0, 9]), vec![HAND_SHAKE], vec![READ_SYS_PARA], vec![0xFF]];
            requests.extend(contents.iter().flat_map(|content| calls(reader.clone(), content)));
            requests.extend([Kind::Call, Kind::ReceiverCall(Receiver::empty())].map(|kind| without_run(kind, &reader)));
        }
    }
    requests
}

fn without_run(kind: Kind, reader: &Reader) -> Request {
    Request { kind, reader: reader.clone(), run: Vec::new(), room: vec![0x5A; ROOM] }
}

/// Scores, thresholds or a found mark that do not fit, beside what else is refused.
fn refusals_in_order() -> Vec<Request> {
    let unfit: [fn(&mut Reader); 3] = [
        |reader| reader.chip.scores.truncate(FEW - 1),
        |reader| reader.chip.thresholds.push(0),
        |reader| reader.settings.found = Mark(2),
    ];
    let others: [fn(&mut Request); 6] = [
        |request| request.reader.notepad.clear(),
        |request| request.room.truncate(ROOM - 1),
        |request| request.reader.settings.level = 0,
        |request| request.reader.settings.level = 6,
        |request| request.reader.settings.origins[0] = Origin(9),
        |request| request.kind.receiver_mut().into_iter().for_each(|receiver| receiver.count = HOLDS as u16 + 1),
    ];
    let mut requests = Vec::new();
    for unfit in unfit {
        for other in others {
            let mut reader = few();
            unfit(&mut reader);
            for mut request in calls(reader, &search(1, [0, 9])) {
                other(&mut request);
                requests.push(request);
            }
        }
    }
    requests
}

/// A found mark of every byte, of readers locked and not.
fn marks() -> Vec<Request> {
    let with = |byte: u8| {
        let mut reader = reader(1, |_| true, |_| 100);
        reader.settings.found = Mark(byte);
        reader.settings.password[3] = byte / 2 % 2;
        [calls(reader.clone(), &[READ_SYS_PARA]), calls(reader, &search(1, [0, 1]))].concat()
    };
    (0..=255).flat_map(with).collect()
}

/// Line switches, fresh settings and indexes brought over, which take any found mark, scores, thresholds, reply room
/// and held count.
fn not_calls() -> impl Iterator<Item = Request> {
    let chips = [Chip::zero(1), Chip::zero(2), Chip { scores: Vec::new(), thresholds: vec![1; 4] }];
    let mut readers = Vec::new();
    for found in 0..=255 {
        let mut reader = reader(1, |_| true, |_| 100);
        reader.settings.found = Mark(found);
        reader.settings.password[3] = found % 2;
        reader.chip = chips[usize::from(found) % chips.len()].clone();
        readers.push(reader);
    }
    for found in [CLEAR, SET, Mark(2)] {
        let mut short = few();
        short.settings.found = found;
        short.buffers[0].pop();
        short.index.pop();
        readers.push(short);
    }
    let [switch, unfit] =
        [1, HOLDS as u16 + 1].map(|count| Kind::ReceiverLineSwitch(Receiver { count, ..Receiver::holding(&[0xEF]) }));
    let kinds = [Kind::LineSwitch, switch, unfit, Kind::FreshSettings, Kind::BringOver];
    readers.into_iter().flat_map(move |reader| {
        let room = vec![0x5A; ROOM - usize::from(reader.settings.password[3])];
        kinds.clone().map(|kind| Request {
            run: vec![0x15; SHORT_INDEX],
            room: room.clone(),
            ..without_run(kind, &reader)
        })
    })
}
