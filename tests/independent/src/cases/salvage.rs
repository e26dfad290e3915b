//! Cases of document 02's request [10]: libraries salvaged, in turn and by chance, and calls of the reader that is left.

use crate::cases::bringing_over;
use crate::cases::chance::Chance;
use crate::cases::gaps::{few, not_lent, stands, FEW};
use crate::cases::readers::{index_of, numbered_reader};
use crate::cases::thousand::calls;
use crate::cases::unfit;
use crate::compare::frame::{Kind, Request};
use crate::reader::salvage::REPORT;
use crate::reader::*;

/// C of the readers.
pub const CAPACITIES: [usize; 10] = [1, 7, 8, 9, 64, 255, 256, 257, 999, MOST_PAGES];
/// The places of a page that a byte by itself stands at, and its values.
pub const FIRST: usize = 0;
pub const MIDDLE: usize = PAGE / 2;
pub const LAST: usize = PAGE - 1;
const VALUES: [u8; 3] = [0x01, 0x80, 0xFF];

/// How a page stands: whether it is stored, and a byte that stands at a place and at every so many-th behind it.
type Stand = (bool, usize, usize, u8);
const STORED: Stand = (true, FIRST, 1, 0xA5);
const CLEAN: Stand = (false, FIRST, 1, 0x00);
/// Dirty pages: with each byte at each place, with two bytes of which the sum is 0 in 8 bits, and with all bytes.
const DIRTY: [Stand; 11] = [
    (false, FIRST, PAGE, VALUES[0]),
    (false, MIDDLE, PAGE, VALUES[1]),
    (false, LAST, PAGE, VALUES[2]),
    (false, FIRST, PAGE, VALUES[1]),
    (false, MIDDLE, PAGE, VALUES[2]),
    (false, LAST, PAGE, VALUES[0]),
    (false, FIRST, PAGE, VALUES[2]),
    (false, MIDDLE, PAGE, VALUES[0]),
    (false, LAST, PAGE, VALUES[1]),
    (false, FIRST, LAST, 0x80),
    (false, FIRST, 1, 0xFF),
];
/// Every library of one page or two in all these stands is salvaged, and every one of up to five that are stored, clean
/// or dirty.
const STANDS: usize = 3 + DIRTY.len();
const SMALL: [(usize, usize); 2] = [(2, STANDS), (5, 3)];

/// Such bits at or above C are set, by C and the bit.
type Strays = fn(usize, usize) -> bool;
const AT_C: Strays = |capacity, bit| bit == capacity;
const IN_BYTE_OF_C: Strays = |capacity, bit| bit / 8 == capacity / 8;
const LAST_BIT: Strays = |_, bit| bit == REPORT - 1;
const ALL: Strays = |_, _| true;
const STRAYS: [Strays; 11] = [
    |_, _| false,
    AT_C,
    |capacity, bit| bit == capacity + 1,
    IN_BYTE_OF_C,
    |capacity, bit| bit == capacity / 8 * 8 + 7,
    |capacity, bit| bit == capacity / 8 * 8 + 8,
    |_, bit| bit == REPORT - 8,
    LAST_BIT,
    |_, bit| bit % 2 == 0,
    |_, bit| bit % 3 == 0 || bit % 8 == 7,
    ALL,
];

/// Libraries salvaged by C, pages and bits, salvages that are refused, and calls of what is left.
pub fn all() -> impl Iterator<Item = Request> {
    let cases = [
        small_libraries(),
        capacities(),
        ends(),
        lengths(),
        settings(),
        not_lent(&salvaging(few())),
        brought_over(),
        calls_of_what_is_left(),
    ];
    cases.into_iter().flatten()
}

/// A library salvaged, with a report of so many bytes.
fn salvaging_with(reader: Reader, report: usize) -> Request {
    Request { kind: Kind::Salvage, reader, run: packet([0xFF; 4], COMMAND, &[HAND_SHAKE]), room: vec![0x5A; report] }
}

/// A library salvaged, with a report that fits.
pub fn salvaging(reader: Reader) -> Request {
    salvaging_with(reader, REPORT)
}

/// A library salvaged, and salvaged again.
fn twice(reader: Reader) -> [Request; 2] {
    let request = salvaging(reader);
    let left = request.carried_out().reader;
    [request, salvaging(left)]
}

/// A reader of which each page stands so, with such bits at or above C.
fn library(capacity: usize, stand: impl Fn(usize) -> Stand, strays: Strays) -> Reader {
    let index = index_of(REPORT, |bit| if bit < capacity { stand(bit).0 } else { strays(capacity, bit) });
    let mut reader = numbered_reader(PAGE * capacity, index);
    (0..capacity).for_each(|page| lay(reader.template_mut(page), stand(page)));
    reader
}

/// Gives a page the bytes that it stands with.
fn lay(template: &mut [u8], (_, first, step, byte): Stand) {
    template.fill(0);
    template[first..].iter_mut().step_by(step).for_each(|place| *place = byte);
}

/// The stands by number: stored, clean, stored with zeroes alone, and dirty in each way.
fn stand(number: usize) -> Stand {
    match number % STANDS {
        0 => STORED,
        1 => CLEAN,
        2 => (true, FIRST, 1, 0x00),
        dirty => DIRTY[dirty - 3],
    }
}

/// Every library of a few pages, each with other bits at or above C.
fn small_libraries() -> Vec<Request> {
    let mut requests = Vec::new();
    for (most, stands) in SMALL {
        let libraries =
            (1..=most).flat_map(|capacity| (0..stands.pow(capacity as u32)).map(move |all| (capacity, all)));
        for (capacity, all) in libraries {
            let of_page = |page: usize| match all / stands.pow(page as u32) % stands {
                2 if stands == 3 => DIRTY[(all + page) % DIRTY.len()],
                number => stand(number),
            };
            requests.extend(twice(library(capacity, of_page, STRAYS[all % STRAYS.len()])));
        }
    }
    requests
}

/// At each C all strays, over pages that stand in turn.
fn capacities() -> Vec<Request> {
    let all = CAPACITIES.into_iter().flat_map(|capacity| (0..STRAYS.len()).map(move |stray| (capacity, stray)));
    all.flat_map(|(capacity, stray)| twice(library(capacity, |page| stand(page + stray), STRAYS[stray]))).collect()
}

/// At each C all pages stored, clean and dirty; one dirty at an end among stored ones, and the other way round.
fn ends() -> Vec<Request> {
    let stands: [fn(usize, usize) -> Stand; 7] = [
        |_, _| STORED,
        |_, _| CLEAN,
        |page, _| DIRTY[page % DIRTY.len()],
        |page, _| if page == 0 { DIRTY[0] } else { STORED },
        |page, last| if page == last { DIRTY[8] } else { STORED },
        |page, _| if page == 0 { STORED } else { DIRTY[4] },
        |page, last| if page == last { STORED } else { DIRTY[4] },
    ];
    let all = CAPACITIES.into_iter().flat_map(|capacity| stands.map(|stand| (capacity, stand)));
    all.map(|(capacity, stand)| salvaging(library(capacity, |page| stand(page, capacity - 1), ALL))).collect()
}

/// Templates, indexes and reports of other lengths, one by one and together, of readers that a call refuses.
fn lengths() -> Vec<Request> {
    let few = PAGE * FEW;
    let mut lengths = Vec::new();
    for templates in [few, 0, few - 1, few + 1] {
        for index in [INDEX, 0, SHORT_INDEX, 127, 129] {
            lengths.extend([REPORT, 0, REPORT - 1, REPORT + 1].map(|report| (templates, index, report)));
        }
    }
    lengths.extend([1, PAGE - 1, few + PAGE / 2, PAGE * (MOST_PAGES + 1)].map(|templates| (templates, INDEX, REPORT)));
    lengths.extend([1, 2, 96, 256].map(|index| (few, index, REPORT)));
    lengths
        .extend([1, FEW, 2 * FEW, ROOM, MOST_PAGES, REPORT + FEW, 2 * REPORT, 4096].map(|report| (few, INDEX, report)));
    let mut requests = Vec::new();
    for (templates, index, report) in lengths {
        let mut reader = library(templates.div_ceil(PAGE).max(1), stand, ALL);
        reader.templates.resize(templates, 0x5A);
        reader.index.resize(index, 0x5A);
        requests.push(salvaging_with(reader.clone(), report));
        reader.settings.level = 0;
        requests.push(salvaging_with(reader, report));
    }
    requests
}

/// Settings that are not legal beside a report that does not fit; then settings of all kinds, without bits at or above C
/// and with some.
fn settings() -> Vec<Request> {
    let unfit = unfit::settings(&few().settings).into_iter().map(|settings| Reader { settings, ..few() });
    let mut requests: Vec<Request> = unfit.clone().map(|reader| salvaging_with(reader, REPORT - 1)).collect();
    for reader in unfit.chain(stands()) {
        let mut beyond = reader.clone();
        [FEW, REPORT - 1].iter().for_each(|bit_set| beyond.index[bit_set / 8] |= bit(*bit_set));
        requests.extend([reader, beyond].map(salvaging));
    }
    requests
}

/// An index of 32 bytes that is brought over, then salvaged with the old number of pages, then called.
fn brought_over() -> Vec<Request> {
    let mut requests = Vec::new();
    for capacity in [1, 10, 255, 256] {
        for old_byte in [0x00, 0x55, 0xFF] {
            let over = bringing_over::request(vec![old_byte; SHORT_INDEX], capacity, vec![0xFF; INDEX]);
            let brought = over.carried_out().reader;
            let salvaged = twice(brought);
            let left = salvaged[1].reader.clone();
            requests.push(over);
            requests.extend(salvaged);
            requests.extend([TEMPLETE_NUM, EMPTY].iter().flat_map(|&command| calls(left.clone(), &[command])));
        }
    }
    requests
}

/// Calls of a reader with a bit at or above C, which is all that is wrong with it, before and after it is salvaged.
fn calls_of_what_is_left() -> Vec<Request> {
    let mut requests = Vec::new();
    for (capacity, strays) in [(FEW, AT_C), (64, LAST_BIT), (257, IN_BYTE_OF_C), (MOST_PAGES, ALL)] {
        let library = library(capacity, stand, strays);
        let mut commands = vec![vec![TEMPLETE_NUM], vec![SEARCH, 1, 0, 0, 0xFF, 0xFF], vec![EMPTY]];
        commands.extend([0, 1, 2, 3].map(|page| vec![READ_INDEX_TABLE, page]));
        for page in [0, 1, 3, 8, capacity - 1] {
            let [high, low] = (page as u16).to_be_bytes();
            commands.extend([LOAD_CHAR, STORE].map(|command| vec![command, 2, high, low]));
            commands.push(vec![DELET_CHAR, high, low, 0, 1]);
        }
        requests.extend(calls(library.clone(), &[TEMPLETE_NUM]));
        let salvaged = salvaging(library);
        let left = salvaged.carried_out().reader;
        requests.push(salvaged);
        requests.extend(commands.iter().flat_map(|command| calls(left.clone(), command)));
    }
    requests
}

/// One with a reader and a run by chance. The report mostly fits.
pub fn by_chance(chance: &mut Chance, mut request: Request) -> Request {
    let pages = request.reader.capacity();
    let other = chance.pick(&[0, pages, REPORT - 1, REPORT + 1, 4096]);
    let report = if chance.percent(85) { REPORT } else { other };
    request.reader = left_by_old_program(chance, request.reader);
    request.room = chance.bytes(report);
    request
}

/// The reader as the old program may have left it: with bytes in vacant pages, and at times with bits at or above C.
pub fn left_by_old_program(chance: &mut Chance, mut reader: Reader) -> Reader {
    let bits = 8 * reader.index.len();
    for page in 0..reader.capacity().min(bits) {
        if !reader.stored(page) {
            let any = (false, chance.below(PAGE), chance.within(1, PAGE), chance.byte());
            let dirty = chance.pick(&DIRTY);
            lay(reader.template_mut(page), chance.pick(&[CLEAN, dirty, any]));
        }
    }
    let (strays, capacity) = (chance.pick(&STRAYS), reader.capacity());
    for page in (capacity..bits).filter(|&page| strays(capacity, page)) {
        reader.index[page / 8] |= bit(page);
    }
    reader
}
