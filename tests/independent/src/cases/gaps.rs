//! Cases of document 02's request [9]: gaps closed, in turn and by chance, and calls of the reader that is left.

use crate::cases::chance::Chance;
use crate::cases::origins::CAPACITIES;
use crate::cases::readers::{index_of, numbered_reader};
use crate::cases::thousand::calls;
use crate::cases::unfit;
use crate::compare::frame::{Kind, Request};
use crate::reader::*;

/// Every index of up to so many pages is closed.
const SMALL: usize = 6;
/// C of the readers that meet the most, and their index: pages 1, 2, 4, 7 and 8 are stored.
pub const FEW: usize = 9;
const STORED: [usize; 5] = [1, 2, 4, 7, 8];
/// Lengths of the index.
const INDEXES: [usize; 8] = [0, 2, SHORT_INDEX, 127, INDEX, 129, 160, 256];

/// Gaps closed by C, index and settings, closings that are refused, and calls of what is left.
pub fn all(seed: u64) -> impl Iterator<Item = Request> {
    let cases = [
        small_indexes(),
        capacities(seed),
        stands().into_iter().map(closing).collect(),
        tables(),
        lengths(),
        bits_beyond(),
        unfit_settings(),
        origins_at_capacity(),
        not_lent(&closing(few())),
        calls_of_what_is_left(),
    ];
    cases.into_iter().flatten()
}

/// The gaps of a reader closed, with a table of so many bytes.
fn closing_with(reader: Reader, table: usize) -> Request {
    Request { kind: Kind::CloseGaps, reader, run: packet([0xFF; 4], COMMAND, &[HAND_SHAKE]), room: vec![0x5A; table] }
}

/// The gaps of a reader closed, with a table as long as its pages.
pub fn closing(reader: Reader) -> Request {
    let pages = reader.capacity();
    closing_with(reader, 2 * pages)
}

/// A reader that has such of its pages stored. Both buffers are filled, and their origins are the first stored page and
/// the last, or none. Vacant pages have bytes too.
fn reader(capacity: usize, such: impl FnMut(usize) -> bool) -> Reader {
    let mut reader = numbered_reader(PAGE * capacity, index_of(capacity, such));
    let mut stored = (0..capacity).filter(|&page| reader.stored(page));
    let first = stored.next();
    reader.settings.origins = [first, stored.last().or(first)].map(|page| page.map_or(NONE, Origin::of));
    reader
}

/// A reader of few pages.
pub fn few() -> Reader {
    reader(FEW, |page| STORED.contains(&page))
}

/// The gaps closed, and closed again.
fn twice(request: Request) -> [Request; 2] {
    let left = request.carried_out().reader;
    [request, closing(left)]
}

/// Every index of a few pages.
fn small_indexes() -> Vec<Request> {
    let indexes = (1..=SMALL).flat_map(|capacity| (0..1 << capacity).map(move |bits: usize| (capacity, bits)));
    indexes.flat_map(|(capacity, bits)| twice(closing(reader(capacity, |page| bits >> page & 1 == 1)))).collect()
}

/// At each C no page stored, all, one at an end, all but one at an end, every other one, and by chance; then stored
/// pages that are all zero.
fn capacities(seed: u64) -> Vec<Request> {
    let mut chance = Chance::new(seed, 0);
    let mut requests = Vec::new();
    for capacity in CAPACITIES {
        let last = capacity - 1;
        let such: [fn(usize, usize) -> bool; 7] = [
            |_, _| false,
            |_, _| true,
            |page, _| page == 0,
            |page, last| page == last,
            |page, _| page > 0,
            |page, last| page < last,
            |page, _| page % 2 == 1,
        ];
        requests.extend(such.iter().map(|such| closing(reader(capacity, |page| such(page, last)))));
        requests.extend(twice(closing(reader(capacity, |_| chance.percent(50)))));
    }
    for zero in [1, 4, 8] {
        let mut reader = few();
        reader.template_mut(zero).fill(0);
        requests.push(closing(reader));
    }
    requests
}

/// Readers locked and not, with and without a found mark, with buffers filled or not, with transfers, and with all
/// legal origins.
pub fn stands() -> Vec<Reader> {
    let mut readers = Vec::new();
    let origins = STORED.map(Origin::of).into_iter().chain([NONE]);
    for (one, other) in origins.clone().flat_map(|one| origins.clone().map(move |other| (one, other))) {
        let mut reader = few();
        reader.settings.origins = [one, other];
        readers.push(reader);
    }
    for (password, verified, found) in
        [(0, SET, CLEAR), (0, CLEAR, SET), (5, CLEAR, SET), (5, SET, SET), (5, CLEAR, CLEAR)]
    {
        let mut reader = few();
        reader.settings = Settings { password: [0, 0, 0, password], verified, found, ..reader.settings };
        readers.push(reader);
    }
    for (buffer, got) in [(0, None), (1, None), (0, Some(0)), (1, Some(0)), (0, Some(384)), (1, Some(384))] {
        let mut reader = few();
        reader.settings.origins[buffer] = NONE;
        reader.settings.filled[buffer] = CLEAR;
        if let Some(got) = got {
            reader.settings.transfer = buffer as u8 + 1;
            reader.settings.got = got;
        }
        readers.push(reader);
    }
    let mut not_fresh = few();
    not_fresh.settings = Settings {
        address: [0; 4],
        level: 5,
        size_code: 3,
        baud_factor: 12,
        sensor_type: 0x1234,
        ..not_fresh.settings
    };
    readers.push(not_fresh);
    readers
}

/// Tables of about C numbers, with a byte more and without, of readers legal and not.
fn tables() -> Vec<Request> {
    let mut requests = Vec::new();
    for capacity in [1, FEW, 257] {
        let mut unfit = reader(capacity, |page| page % 2 == 0);
        let legal = unfit.clone();
        unfit.settings.level = 0;
        let most = 2 * capacity;
        for table in [0, 1, capacity, most - 2, most - 1, most, most + 1, most + 2, most + 3, 2 * most, 4096] {
            requests.extend([&legal, &unfit].map(|reader| closing_with(reader.clone(), table)));
        }
    }
    requests
}

/// Indexes and templates of other lengths, of readers legal and not.
fn lengths() -> Vec<Request> {
    let mut requests = Vec::new();
    for level in [3, 0] {
        for length in INDEXES {
            let mut reader = few();
            reader.index.resize(length, 0);
            reader.settings.origins = [NONE; 2];
            reader.settings.level = level;
            requests.push(closing(reader));
        }
        let few = PAGE * FEW;
        for length in [0, 1, PAGE - 1, few - 1, few + 1, few + PAGE / 2, PAGE * (MOST_PAGES + 1)] {
            let mut reader = numbered_reader(length, index_of(length / PAGE, |page| page % 2 == 1));
            reader.settings.level = level;
            requests.push(closing(reader));
        }
    }
    requests
}

/// A bit at C, in the next byte and at the end, alone or beside all others.
fn bits_beyond() -> Vec<Request> {
    let mut requests = Vec::new();
    for capacity in CAPACITIES {
        for (beyond, all) in
            [(capacity, false), (capacity, true), (8 * (capacity / 8 + 1), false), (8 * INDEX - 1, true)]
        {
            let mut reader = reader(capacity, |page| all || page % 2 == 1);
            reader.index[beyond / 8] |= bit(beyond);
            requests.push(closing(reader));
        }
    }
    let of_each_index_page = (0..INDEX_PAGES).map(|page| 8 * INDEX_PAGE * page + FEW);
    requests.extend(of_each_index_page.map(|beyond| {
        let mut reader = few();
        reader.index[beyond / 8] |= bit(beyond);
        closing(reader)
    }));
    requests
}

/// Settings, transfers and origins that are not legal, with a table that fits and with one that does not.
fn unfit_settings() -> Vec<Request> {
    let mut requests = Vec::new();
    for settings in unfit::settings(&few().settings) {
        let reader = Reader { settings, ..few() };
        requests.push(closing(reader.clone()));
        requests.push(closing_with(reader, 2 * FEW + 2));
    }
    requests
}

/// The origin C at each C.
fn origins_at_capacity() -> Vec<Request> {
    let closed = |capacity| {
        let mut reader = reader(capacity, |page| page % 2 == 0);
        reader.settings.origins[1] = Origin::of(capacity);
        closing(reader)
    };
    CAPACITIES.map(closed).into()
}

/// The request with memories of any lengths that are not lent, and with runs of all kinds.
pub fn not_lent(request: &Request) -> Vec<Request> {
    let spoil: [fn(&mut Request); 7] = [
        |request| request.reader.notepad.clear(),
        |request| request.reader.buffers[0].truncate(PAGE - 1),
        |request| request.reader.buffers[1] = vec![0x22; 2 * PAGE],
        |request| request.reader.chip.scores.clear(),
        |request| request.reader.chip.thresholds.clear(),
        |request| request.run.clear(),
        |request| request.run = packet([0xFF; 4], COMMAND, &[EMPTY]),
    ];
    let mut requests = vec![request.clone(); spoil.len()];
    spoil.iter().zip(&mut requests).for_each(|(spoil, request)| spoil(request));
    requests
}

/// Calls of a reader whose gaps were closed: its buffers uploaded; its old pages and its new ones loaded, deleted and
/// stored to; all counted and read.
fn calls_of_what_is_left() -> Vec<Request> {
    let closed = closing(few());
    let left = closed.carried_out().reader;
    let mut commands =
        vec![vec![UP_CHAR, 1], vec![UP_CHAR, 2], vec![TEMPLETE_NUM], vec![READ_INDEX_TABLE, 0], vec![EMPTY]];
    for page in 0..=FEW as u8 {
        commands.extend([vec![LOAD_CHAR, 1, 0, page], vec![DELET_CHAR, 0, page, 0, 1], vec![STORE, 2, 0, page]]);
    }
    let mut requests = vec![closed];
    requests.extend(commands.iter().flat_map(|command| calls(left.clone(), command)));
    requests
}

/// One with a reader and a run by chance. Each page has its number at both ends; the vacant ones are zero or not. The
/// table is mostly as long as the pages, at times with a byte more.
pub fn by_chance(chance: &mut Chance, mut request: Request) -> Request {
    let reader = &mut request.reader;
    let zero = chance.percent(30);
    for page in 0..reader.capacity() {
        let number = (0xA000 + page as u16).to_be_bytes();
        let stored = page < 8 * reader.index.len() && reader.stored(page);
        let template = reader.template_mut(page);
        template[..2].copy_from_slice(&number);
        template[PAGE - 2..].copy_from_slice(&number);
        if zero && !stored {
            template.fill(0);
        }
    }
    let pages = reader.capacity();
    let other = chance.pick(&[0, pages.saturating_sub(1), pages + 1, 2 * pages]);
    let table = if chance.percent(85) { pages } else { other };
    let more = usize::from(chance.percent(25));
    request.room = chance.bytes(2 * table + more);
    request
}
