//! Cases of document 02's request [6], in turn: readers of up to 1001 pages, and indexes of other lengths than 128
//! bytes.

use crate::cases::chance::Chance;
use crate::cases::readers::{index_of, numbered_reader, FAR_CAPACITIES};
use crate::compare::frame::{Kind, Request};
use crate::reader::receiver::Receiver;
use crate::reader::*;

/// A reader by its bytes of templates and its index, and a command.
struct Case {
    templates: usize,
    index: Vec<u8>,
    command: Vec<u8>,
}

/// Pages at the edges, by C.
const PAGES: [(usize, &[usize]); 4] =
    [(257, &[0, 255, 256, 257]), (300, &[257]), (999, &[998, 999]), (MOST_PAGES, &[512, 999, 1000, 1001, 1023, 1024])];

/// Page and N of a delete, by C.
const RANGES: [(usize, &[(usize, usize)]); 2] = [
    (257, &[(0, 256), (0, 257), (0, 258), (1, 256), (255, 2)]),
    (
        MOST_PAGES,
        &[(0, 1000), (0, 1001), (24, 1000), (200, 100), (256, 744), (256, 745), (999, 2), (999, 0xFFFF), (1000, 0)],
    ),
];

/// Each case with a receiver and without one, then line switches.
pub fn all(seed: u64) -> impl Iterator<Item = Request> {
    let cases =
        [pages(), ranges(), whole_indexes(), index_pages(seed), bits_beyond(), index_lengths(), template_lengths()];
    cases.into_iter().flatten().flat_map(|case| case.calls()).chain(line_switches())
}

/// DeletChar of a page where all are stored, and Store and LoadChar of one that alone is vacant or stored.
fn pages() -> Vec<Case> {
    let mut cases = Vec::new();
    for (capacity, pages) in PAGES {
        for &page in pages {
            let [high, low] = (page as u16).to_be_bytes();
            let (store, load_char) = ([STORE, 1, high, low], [LOAD_CHAR, 2, high, low]);
            cases.push(Case::of(capacity, |_| true, &[DELET_CHAR, high, low, 0, 1]));
            cases.push(Case::of(capacity, |other| other != page, &store));
            cases.push(Case::of(capacity, |other| other == page, &load_char));
            if page < capacity {
                cases.push(Case::of(capacity, |other| other == page, &store));
                cases.push(Case::of(capacity, |other| other != page, &load_char));
            }
        }
    }
    cases
}

/// DeletChar of ranges, with all pages stored.
fn ranges() -> Vec<Case> {
    let mut cases = Vec::new();
    for (capacity, ranges) in RANGES {
        for &(page, count) in ranges {
            let numbers = [page as u16, count as u16].map(u16::to_be_bytes).concat();
            cases.push(Case::of(capacity, |_| true, &[&[DELET_CHAR], &numbers[..]].concat()));
        }
    }
    cases
}

/// The commands that look at C or at the whole index, with all pages and with the last page stored.
fn whole_indexes() -> Vec<Case> {
    let mut cases = Vec::new();
    for capacity in FAR_CAPACITIES {
        cases.push(Case::of(capacity, |_| true, &[READ_SYS_PARA]));
        cases.push(Case::of(capacity, |_| true, &[TEMPLETE_NUM]));
        cases.push(Case::of(capacity, |_| true, &[EMPTY]));
        cases.push(Case::of(capacity, |page| page == capacity - 1, &[TEMPLETE_NUM]));
    }
    cases
}

/// ReadIndexTable, with pages stored by chance.
fn index_pages(seed: u64) -> Vec<Case> {
    let mut chance = Chance::new(seed, 0);
    let mut cases = Vec::new();
    for capacity in [1, MOST_PAGES] {
        for page in [0, 1, 2, 3, 4, 5, 255] {
            cases.push(Case::of(capacity, |_| chance.percent(50), &[READ_INDEX_TABLE, page]));
        }
    }
    cases
}

/// One bit of the index: of each byte at C = 1; and at C, in the next byte and at the end.
fn bits_beyond() -> Vec<Case> {
    let of_each_byte = (0..INDEX).map(|byte| (1, 8 * byte + byte % 8));
    let beyond = |capacity| [capacity, 8 * (capacity / 8 + 1), 8 * INDEX - 1].map(|bit| (capacity, bit));
    let case = |(capacity, bit)| Case {
        templates: PAGE * capacity,
        index: index_of(8 * INDEX, |page| page == bit),
        command: vec![TEMPLETE_NUM],
    };
    of_each_byte.chain(FAR_CAPACITIES.into_iter().flat_map(beyond)).map(case).collect()
}

/// Indexes of other lengths, all zero.
fn index_lengths() -> Vec<Case> {
    let case = |(capacity, length)| Case {
        templates: PAGE * capacity,
        index: vec![0; length],
        command: vec![READ_INDEX_TABLE, 0],
    };
    let lengths = [0, 1, 2, 31, 32, 33, 64, 96, 127, 128, 129, 160, 256];
    [1, 10, 257].into_iter().flat_map(|capacity| lengths.map(|length| (capacity, length))).map(case).collect()
}

/// Templates about the most pages.
fn template_lengths() -> Vec<Case> {
    let most = PAGE * MOST_PAGES;
    let case = |templates| Case { templates, index: vec![0; INDEX], command: vec![HAND_SHAKE] };
    [0, most - 1, most + 1, most + PAGE].map(case).into()
}

/// Line switches, which templates and index do not matter to.
fn line_switches() -> impl Iterator<Item = Request> {
    let readers = [(1, SHORT_INDEX), (1, INDEX + 1), (MOST_PAGES, INDEX), (MOST_PAGES + 1, INDEX)];
    readers.into_iter().flat_map(|(capacity, index)| {
        let receiver = Receiver::holding(&[0xEF]);
        [Kind::LineSwitch, Kind::ReceiverLineSwitch(receiver)].map(|kind| Request {
            kind,
            reader: numbered_reader(PAGE * capacity, vec![0xFF; index]),
            run: Vec::new(),
            room: vec![0x5A; ROOM],
        })
    })
}

impl Case {
    /// A reader that has such of its pages stored.
    fn of(capacity: usize, stored: impl FnMut(usize) -> bool, command: &[u8]) -> Case {
        Case { templates: PAGE * capacity, index: index_of(capacity, stored), command: command.to_vec() }
    }

    fn calls(self) -> [Request; 2] {
        calls(numbered_reader(self.templates, self.index), &self.command)
    }
}

/// A call of a reader at the fresh address with this command, and one of a receiver.
pub fn calls(reader: Reader, command: &[u8]) -> [Request; 2] {
    calls_with(reader, COMMAND, command)
}

/// A call of a reader at the fresh address with this packet, and one of a receiver.
pub fn calls_with(reader: Reader, identifier: u8, content: &[u8]) -> [Request; 2] {
    calls_of(reader, packet(Settings::fresh().address, identifier, content))
}

/// A call of a reader with this run, and one of a receiver that holds its first half and is offered the rest.
pub fn calls_of(reader: Reader, run: Vec<u8>) -> [Request; 2] {
    let (held, piece) = run.split_at(run.len() / 2);
    let (receiver, piece) = (Receiver::holding(held), piece.to_vec());
    [(Kind::Call, run), (Kind::ReceiverCall(receiver), piece)].map(|(kind, run)| Request {
        kind,
        reader: reader.clone(),
        run,
        room: vec![0x5A; ROOM],
    })
}
