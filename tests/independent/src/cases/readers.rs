//! Readers by chance, legal and not.

use crate::cases::chance::Chance;
use crate::cases::chips;
use crate::reader::*;
use std::ops::RangeInclusive;

/// Capacities about 256 and at the end.
pub const FAR_CAPACITIES: [usize; 5] = [255, 256, 257, MOST_PAGES - 1, MOST_PAGES];

/// A legal reader, at times a fresh one.
pub fn any_legal_reader(chance: &mut Chance, capacity: usize) -> Reader {
    if chance.percent(25) {
        fresh_reader(capacity)
    } else {
        legal_reader(chance, capacity)
    }
}

/// A reader and a reply room, legal or spoiled in up to three ways.
pub fn spoiled_reader(chance: &mut Chance) -> (Reader, Vec<u8>) {
    let capacity = capacity(chance);
    let mut reader = legal_reader(chance, capacity);
    let mut room = chance.pick(&[ROOM, ROOM, ROOM + 1, 4096]);
    for _ in 0..chance.below(4) {
        spoil(chance, &mut reader, &mut room);
    }
    (reader, chance.bytes(room))
}

/// C: mostly small, at times beside a multiple of 8, about 256, anywhere, or at the end.
pub fn capacity(chance: &mut Chance) -> usize {
    match chance.below(200) {
        0..=159 => chance.within(1, 12),
        160..=193 => 8 * chance.within(1, 5) + chance.below(3) - 1,
        194..=197 => chance.within(255, 257),
        198 => chance.within(1, MOST_PAGES),
        _ => chance.pick(&[MOST_PAGES, MOST_PAGES, MOST_PAGES - 1]),
    }
}

/// Fresh settings, zeroed memory, and a chip that gives zeroes.
pub fn fresh_reader(capacity: usize) -> Reader {
    Reader {
        settings: Settings::fresh(),
        templates: vec![0; PAGE * capacity],
        index: vec![0; INDEX],
        notepad: vec![0; PAGE],
        buffers: [vec![0; PAGE], vec![0; PAGE]],
        chip: Chip::zero(capacity),
    }
}

/// Fresh settings with both buffers filled, so many bytes of templates in which each page has bytes and a score of its
/// own, and this index.
pub fn numbered_reader(templates: usize, index: Vec<u8>) -> Reader {
    let page = |page: usize| (0xA000 + page as u16).to_be_bytes().repeat(PAGE / 2);
    let mut numbered = (0..=templates / PAGE).map(page).collect::<Vec<_>>().concat();
    numbered.truncate(templates);
    Reader {
        settings: Settings { filled: [SET; 2], ..Settings::fresh() },
        templates: numbered,
        index,
        notepad: vec![0x33; PAGE],
        buffers: [vec![0x11; PAGE], vec![0x22; PAGE]],
        chip: Chip { scores: (0..(templates / PAGE) as u16).collect(), thresholds: vec![0; THRESHOLDS] },
    }
}

/// The index of a reader that has such of its pages stored.
pub fn index_of(capacity: usize, mut such: impl FnMut(usize) -> bool) -> Vec<u8> {
    let mut index = vec![0; INDEX];
    for page in (0..capacity).filter(|&page| such(page)) {
        index[page / 8] |= bit(page);
    }
    index
}

/// Settings that are fresh but for the size code, and memory of one page by chance.
pub fn sized_reader(chance: &mut Chance, size_code: u8) -> Reader {
    Reader { settings: Settings { size_code, ..Settings::fresh() }, ..legal_reader(chance, 1) }
}

pub fn legal_reader(chance: &mut Chance, capacity: usize) -> Reader {
    let share = chance.pick(&[0, 20, 50, 80, 100]);
    let mut reader = Reader {
        index: index_of(capacity, |_| chance.percent(share)),
        settings: legal_settings(chance),
        templates: memory(chance, PAGE * capacity),
        notepad: memory(chance, PAGE),
        buffers: [memory(chance, PAGE), memory(chance, PAGE)],
        chip: chips::any(chance, capacity),
    };
    lay_origins(chance, &mut reader);
    reader
}

/// Gives most of the filled buffers a stored page for origin; half of them have its bytes.
fn lay_origins(chance: &mut Chance, reader: &mut Reader) {
    let stored: Vec<usize> = (0..reader.capacity()).filter(|&page| reader.stored(page)).collect();
    for buffer in 0..2 {
        if !stored.is_empty() && reader.settings.filled[buffer].is_set() && chance.percent(75) {
            let any = chance.pick(&stored);
            let page = chance.pick(&[any, stored[0], stored[stored.len() - 1]]);
            reader.settings.origins[buffer] = Origin::of(page);
            if chance.percent(50) {
                reader.buffers[buffer] = reader.template(page).to_vec();
            }
        }
    }
}

fn memory(chance: &mut Chance, length: usize) -> Vec<u8> {
    if chance.percent(90) {
        chance.bytes(length)
    } else {
        vec![chance.pick(&[0, 0x01, 0xEF, 0xFF]); length]
    }
}

fn legal_settings(chance: &mut Chance) -> Settings {
    let mut settings = Settings {
        password: password(chance),
        address: address(chance),
        level: within(chance, LEVELS),
        size_code: within(chance, SIZE_CODES),
        baud_factor: within(chance, BAUD_FACTORS),
        transfer: 0,
        sensor_type: chance.pick(&[0, 1, 0x00FF, 0x1234, 0xFFFF]),
        got: 0,
        verified: Mark::of(chance.percent(50)),
        filled: [Mark::of(chance.percent(60)), Mark::of(chance.percent(60))],
        found: Mark::of(chance.percent(50)),
        origins: [NONE; 2],
    };
    if !settings.locked() && chance.percent(40) {
        open_transfer(chance, &mut settings);
    }
    settings
}

/// A transfer that is legal if the reader is not locked.
fn open_transfer(chance: &mut Chance, settings: &mut Settings) {
    let size = size(settings);
    let parts = PAGE / size;
    let part = if chance.percent(30) { parts - 1 } else { chance.below(parts) };
    settings.transfer = chance.pick(&[1, 2]);
    settings.got = (part * size) as u16;
    settings.filled[usize::from(settings.transfer) - 1] = CLEAR;
    settings.origins[usize::from(settings.transfer) - 1] = NONE;
}

fn within(chance: &mut Chance, range: RangeInclusive<u8>) -> u8 {
    chance.within((*range.start()).into(), (*range.end()).into()) as u8
}

pub fn password(chance: &mut Chance) -> [u8; 4] {
    match chance.below(10) {
        0..=4 => [0; 4],
        5..=7 => [0, 0, 0, chance.byte()],
        8 => [chance.byte(), 0, 0, 0],
        _ => chance.four(),
    }
}

pub fn address(chance: &mut Chance) -> [u8; 4] {
    match chance.below(10) {
        0..=4 => [0xFF; 4],
        5 => [0; 4],
        6 => [0xEF, 0x01, 0xEF, 0x01],
        _ => chance.four(),
    }
}

/// The size, whether the size code is legal or not.
pub fn size(settings: &Settings) -> usize {
    SIZES[usize::from(settings.size_code) % SIZES.len()]
}

/// Makes something wrong that a refusal is for.
fn spoil(chance: &mut Chance, reader: &mut Reader, room: &mut usize) {
    let settings = &mut reader.settings;
    match chance.below(28) {
        0 | 1 => {
            let length = reader.templates.len().clamp(1, PAGE * MOST_PAGES);
            let far = if chance.percent(10) { PAGE * (MOST_PAGES + 1) } else { 0 };
            resize(chance, &mut reader.templates, &[1, PAGE - 1, length - 1, length + 1, length + PAGE / 2, far]);
            reader.chip.scores.resize(reader.capacity(), 0);
        }
        2 => resize(chance, &mut reader.index, &[0, SHORT_INDEX, INDEX - 1, INDEX + 1, 2 * INDEX]),
        3 => resize(chance, &mut reader.notepad, &[0, PAGE - 1, PAGE + 1, 2 * PAGE]),
        4 | 5 => {
            let buffer = chance.below(2);
            resize(chance, &mut reader.buffers[buffer], &[0, PAGE - 1, PAGE + 1, 2 * PAGE]);
        }
        6 | 7 => {
            let any = chance.below(ROOM);
            *room = chance.pick(&[0, any, ROOM - 1]);
        }
        8 => settings.level = chance.pick(&[0, 6, 255]),
        9 => settings.size_code = chance.pick(&[4, 5, 255]),
        10 => settings.baud_factor = chance.pick(&[0, 13, 255]),
        11 => settings.transfer = chance.pick(&[3, 255]),
        12 => {
            settings.transfer = 0;
            settings.got = chance.pick(&[1, 32, 64, 256, 511, 512, 0xFFFF]);
        }
        13 => {
            open_transfer(chance, settings);
            settings.got = chance.pick(&[512, 512, 512, 1, 31, 33, 96, 128, 384, 511, 640, 0xFF00, 0xFFFF]);
        }
        14 => {
            open_transfer(chance, settings);
            if chance.percent(50) {
                settings.filled[usize::from(settings.transfer) - 1] = SET;
            } else {
                settings.password = [0, chance.byte(), 0, 1];
                settings.verified = CLEAR;
            }
        }
        15 => settings.verified = unfit_mark(chance),
        16 => settings.filled[chance.below(2)] = unfit_mark(chance),
        17 => {
            settings.verified = Mark(chance.byte());
            settings.filled = [Mark(chance.byte()), Mark(chance.byte())];
            settings.found = Mark(chance.byte());
        }
        18..=20 => lay_unfit_origin(chance, reader),
        21 => settings.origins[chance.below(2)] = Origin::of(chance.within(0, 0xFFFF)),
        22 => settings.found = unfit_mark(chance),
        23 | 24 => {
            let pages = reader.capacity().clamp(1, MOST_PAGES);
            resize(chance, &mut reader.chip.scores, &[0, pages - 1, pages + 1, (2 * pages).min(MOST_PAGES)]);
        }
        25 | 26 => {
            let any = chance.below(2 * THRESHOLDS);
            resize(chance, &mut reader.chip.thresholds, &[0, THRESHOLDS - 1, THRESHOLDS + 1, any]);
        }
        _ => {
            let (first, end) = (reader.capacity(), 8 * reader.index.len());
            if first < end {
                let any = chance.within(first, end - 1);
                let page = chance.pick(&[first, any, end - 1]);
                reader.index[page / 8] |= bit(page);
            }
        }
    }
}

/// Gives a buffer without a transfer an origin at or above C, on a vacant page, or while it is not filled.
fn lay_unfit_origin(chance: &mut Chance, reader: &mut Reader) {
    let capacity = reader.capacity();
    let buffer = match reader.settings.transfer {
        1 => 1,
        2 => 0,
        _ => chance.below(2),
    };
    let below = chance.below(capacity.max(1));
    let beyond = chance.pick(&[capacity, capacity, capacity + 1, MOST_PAGES, 8 * INDEX, 0x8000, 0xFFFE, 0xFFFE]);
    let (origin, filled, stored) = match chance.below(3) {
        0 => (beyond, true, true),
        1 => (below, true, false),
        _ => (below, false, true),
    };
    reader.settings.origins[buffer] = Origin::of(origin);
    reader.settings.filled[buffer] = Mark::of(filled);
    if let Some(byte) = reader.index.get_mut(below / 8) {
        *byte = if stored { *byte | bit(below) } else { *byte & !bit(below) };
    }
}

/// A mark that is neither clear nor set.
fn unfit_mark(chance: &mut Chance) -> Mark {
    Mark(chance.pick(&[2, 3, 0x10, 0x7F, 0x80, 0x81, 0xFE, 0xFF]))
}

/// Gives a memory one of these lengths, with bytes by chance where it grows.
fn resize<T: From<u8>>(chance: &mut Chance, memory: &mut Vec<T>, lengths: &[usize]) {
    let length = chance.pick(lengths);
    memory.resize_with(length, || chance.byte().into());
}
