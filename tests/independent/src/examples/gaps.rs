//! Examples of document 02's request [9] in frames: gaps closed, and closings that are refused.

use super::*;

/// How a reader stands before a closing or after it.
#[derive(Clone, Copy)]
struct Library<'a> {
    settings: &'a str,
    /// The bytes that fill the pages.
    pages: &'a [u8],
    /// The first bytes of the index.
    index: &'a [u8],
    /// The table, of which S stands for 5A5A.
    table: &'a str,
}

/// Both buffers are filled.
pub const FILLED: &str = "00000000 A 03 02 06 00 0000 0000 00 01 01 00 FFFF FFFF";

/// A library of three pages that are told apart, the first and the last of them stored, and its gap closed.
const THREE: Library = Library { settings: FILLED, pages: &[0x11, 0x22, 0x33], index: &[0x05], table: "S S S" };
const CLOSED: Library =
    Library { settings: FILLED, pages: &[0x11, 0x33, 0x00], index: &[0x03], table: "0000 FFFF 0001" };

pub fn frames() -> Vec<Frames> {
    [of_gaps(), of_many_pages(), of_settings(), of_tables(), of_lengths(), of_refusals_3(), of_order()].concat()
}

/// A library of three pages by its index; its pages, its index and its table after the closing.
fn of_gaps() -> Vec<Frames> {
    let example = |name, index: u8, pages: &[u8], closed: u8, table: &str| {
        let after = Library { pages, index: &[closed], table, ..CLOSED };
        closing(name, Library { index: &[index], ..THREE }, 0, after)
    };
    vec![
        example("all vacant", 0x00, &[0, 0, 0], 0x00, "FFFF FFFF FFFF"),
        example("gaps at the end", 0x01, &[0x11, 0, 0], 0x01, "0000 FFFF FFFF"),
        example("gaps on both sides", 0x02, &[0x22, 0, 0], 0x01, "FFFF 0000 FFFF"),
        example("a gap at the end", 0x03, &[0x11, 0x22, 0], 0x03, "0000 0001 FFFF"),
        example("gaps before the last page", 0x04, &[0x33, 0, 0], 0x01, "FFFF FFFF 0000"),
        example("a gap inside", 0x05, &[0x11, 0x33, 0], 0x03, "0000 FFFF 0001"),
        example("a gap at page 0", 0x06, &[0x22, 0x33, 0], 0x03, "FFFF 0000 0001"),
        example("no gap", 0x07, &[0x11, 0x22, 0x33], 0x07, "0000 0001 0002"),
    ]
}

/// The pages of P11, pages about 8 and about 256, and a stored page that is zero.
fn of_many_pages() -> Vec<Frames> {
    let ten = [1, 2, 3, 4, 5, 6, 7, 8, 9, 10];
    let p11 = Library { pages: &ten, index: &[0x01, 0x02], table: &"S ".repeat(10), ..THREE };
    let p11_closed = Library {
        pages: &[1, 10, 0, 0, 0, 0, 0, 0, 0, 0],
        index: &[0x03],
        table: &format!("0000 {} 0001", "FFFF".repeat(8)),
        ..THREE
    };
    let nine = Library { pages: &ten[..9], index: &[0xFE, 0x01], table: &"S ".repeat(9), ..THREE };
    let nine_closed = Library {
        pages: &[2, 3, 4, 5, 6, 7, 8, 9, 0],
        index: &[0xFF],
        table: "FFFF 0000 0001 0002 0003 0004 0005 0006 0007",
        ..THREE
    };
    let zero = Library { pages: &[0x11, 0x22, 0x00], ..THREE };
    let zero_closed = Library { pages: &[0x11, 0x00, 0x00], ..CLOSED };
    let pages: Vec<u8> = (1..=255).chain([0x11, 0x22, 0x33]).collect();
    let index = [vec![0xFE], vec![0xFF; 31], vec![0x03]].concat();
    let numbers: String = (0..257).map(|page| format!(" {page:04X}")).collect();
    let many = Library {
        settings: "00000000 A 03 02 06 00 0000 0000 00 01 01 00 0101 0001",
        pages: &pages,
        index: &index,
        table: &"S ".repeat(258),
    };
    let many_closed = Library {
        settings: "00000000 A 03 02 06 00 0000 0000 00 01 01 00 0100 0000",
        pages: &[&pages[1..], &[0]].concat(),
        index: &[&[0xFF; 32][..], &[0x01]].concat(),
        table: &format!("FFFF {numbers}"),
    };
    vec![
        closing("the gap of P11", p11, 0, p11_closed),
        closing("nine pages but for the first", nine, 0, nine_closed),
        closing("a stored page that is zero", zero, 0, zero_closed),
        closing("258 pages but for the first", many, 0, many_closed),
    ]
}

/// Settings that are kept but for the origins, which follow; also of locked readers and beside a transfer.
fn of_settings() -> Vec<Frames> {
    let example = |name, before: &str, after: &str| {
        closing(name, Library { settings: before, ..THREE }, 0, Library { settings: after, ..CLOSED })
    };
    let kept = |name, settings: &str| example(name, settings, settings);
    vec![
        example(
            "an origin that moves and one that does not",
            "00000000 A 03 02 06 00 0000 0000 00 01 01 00 0002 0000",
            "00000000 A 03 02 06 00 0000 0000 00 01 01 00 0001 0000",
        ),
        example(
            "origins the other way round",
            "00000000 A 03 02 06 00 0000 0000 00 01 01 00 0000 0002",
            "00000000 A 03 02 06 00 0000 0000 00 01 01 00 0000 0001",
        ),
        example(
            "one origin twice",
            "00000000 A 03 02 06 00 0000 0000 00 01 01 00 0002 0002",
            "00000000 A 03 02 06 00 0000 0000 00 01 01 00 0001 0001",
        ),
        example(
            "an origin beside none",
            "00000000 A 03 02 06 00 0000 0000 00 00 01 00 FFFF 0002",
            "00000000 A 03 02 06 00 0000 0000 00 00 01 00 FFFF 0001",
        ),
        example(
            "a locked reader's gap",
            "00000005 A 03 02 06 00 0000 0000 00 01 01 01 0002 FFFF",
            "00000005 A 03 02 06 00 0000 0000 00 01 01 01 0001 FFFF",
        ),
        example(
            "a gap closed beside a transfer",
            "00000005 A 03 02 06 01 0000 0180 01 00 01 00 FFFF 0002",
            "00000005 A 03 02 06 01 0000 0180 01 00 01 00 FFFF 0001",
        ),
        kept("a gap closed with a found mark", "01234567 89ABCDEF 01 03 0C 00 1234 0000 01 00 01 01 FFFF 0000"),
        kept("a gap closed with buffers not filled", "00000000 00000000 05 00 01 02 FFFF 01E0 00 00 00 00 FFFF FFFF"),
    ]
}

/// Tables of other lengths than three numbers, and with a byte behind them.
fn of_tables() -> Vec<Frames> {
    let refused = |name, table| refused(name, 1, Library { table, ..THREE });
    vec![
        closing(
            "a byte behind the table",
            Library { table: "S S S 77", ..THREE },
            0,
            Library { table: "0000 FFFF 0001 77", ..CLOSED },
        ),
        refused("a table of no numbers", ""),
        refused("a table of one byte", "77"),
        refused("a table of one number", "S"),
        refused("a table of one too few", "S S"),
        refused("a table of one too few and a byte", "S S 77"),
        refused("a table of one too many", "S S S S"),
        refused("a table of twice as many", "S S S S S S"),
    ]
}

/// Templates and indexes of other lengths.
fn of_lengths() -> Vec<Frames> {
    let example = |name, pages: &[u8], more: &[u8], index: &str, table: &str| {
        framed(6, name, 1, FILLED, &[&filled(pages), more].concat(), index, table)
    };
    let index = |length: usize| format!("05 {}", zeroes(length - 1));
    vec![
        example("no pages", &[], &[], &zeroes(128), ""),
        example("a page but for a byte", &[], &[0x11; 511], &zeroes(128), ""),
        example("a page and a byte", &[0x11], &[0x22], &zeroes(128), "S"),
        example("1001 pages", &[0x11; 1001], &[], &zeroes(128), &"S ".repeat(1001)),
        example("an index of 0 bytes", THREE.pages, &[], "", THREE.table),
        example("an index of 1 byte", THREE.pages, &[], "05", THREE.table),
        example("an index of 32 bytes", THREE.pages, &[], &index(32), THREE.table),
        example("an index of 127 bytes", THREE.pages, &[], &index(127), THREE.table),
        example("an index of 129 bytes", THREE.pages, &[], &index(129), THREE.table),
        example("an index of 256 bytes", THREE.pages, &[], &index(256), THREE.table),
    ]
}

/// Settings, transfers, origins and index bits that are not legal.
fn of_refusals_3() -> Vec<Frames> {
    let settings = [
        "00000000 A 00 02 06 00 0000 0000 00 01 01 00 FFFF FFFF",
        "00000000 A 06 02 06 00 0000 0000 00 01 01 00 FFFF FFFF",
        "00000000 A 03 04 06 00 0000 0000 00 01 01 00 FFFF FFFF",
        "00000000 A 03 02 00 00 0000 0000 00 01 01 00 FFFF FFFF",
        "00000000 A 03 02 0D 00 0000 0000 00 01 01 00 FFFF FFFF",
        "00000000 A 03 02 06 00 0000 0080 00 01 01 00 FFFF FFFF",
        "00000000 A 03 02 06 03 0000 0000 00 01 01 00 FFFF FFFF",
        "00000000 A 03 02 06 01 0000 0040 00 00 01 00 FFFF FFFF",
        "00000000 A 03 02 06 01 0000 0200 00 00 01 00 FFFF FFFF",
        "00000000 A 03 02 06 01 0000 0080 00 01 01 00 FFFF FFFF",
        "00000005 A 03 02 06 01 0000 0080 00 00 01 00 FFFF FFFF",
        "00000000 A 03 02 06 00 0000 0000 02 01 01 00 FFFF FFFF",
        "00000000 A 03 02 06 00 0000 0000 00 80 01 00 FFFF FFFF",
        "00000000 A 03 02 06 00 0000 0000 00 01 FF 00 FFFF FFFF",
        "00000000 A 03 02 06 00 0000 0000 00 01 01 02 FFFF FFFF",
        "00000000 A 03 02 06 00 0000 0000 00 01 01 00 0003 FFFF",
        "00000000 A 03 02 06 00 0000 0000 00 01 01 00 FFFF FFFE",
        "00000000 A 03 02 06 00 0000 0000 00 01 01 00 0001 FFFF",
        "00000000 A 03 02 06 00 0000 0000 00 01 01 00 FFFF 0001",
        "00000000 A 03 02 06 00 0000 0000 00 00 01 00 0002 0000",
        "00000005 A 03 02 06 00 0000 0000 00 01 00 00 FFFF 0000",
    ];
    let indexes: [&[u8]; 4] = [&[0x08], &[0x0D], &[0x05, 0x01], &[0x85]];
    let mut all: Vec<Frames> = settings
        .iter()
        .map(|settings| refused("refusal 3 for the settings of a closing", 3, Library { settings, ..THREE }))
        .collect();
    all.extend(indexes.iter().map(|index| refused("refusal 3 for a bit of a closing", 3, Library { index, ..THREE })));
    let last = [&[0x05][..], &[0; 126], &[0x80]].concat();
    all.push(refused("refusal 3 for bit 1023 of a closing", 3, Library { index: &last, ..THREE }));
    all
}

/// Refusal 1 before refusal 3.
fn of_order() -> Vec<Frames> {
    let settings = "00000000 A 00 02 06 00 0000 0000 00 01 01 00 0003 FFFF";
    let index = format!("FF {}", zeroes(127));
    vec![
        refused("a table of one too few, and settings", 1, Library { settings, table: "S S", ..THREE }),
        refused("a table of one too many, and a bit", 1, Library { index: &[0x0D], table: "S S S S", ..THREE }),
        framed(6, "an index of 127 bytes, and settings", 1, settings, &filled(THREE.pages), &zeroes(127), THREE.table),
        framed(6, "no pages, and a bit", 1, FILLED, &[], &index, ""),
    ]
}

/// A closing that gets this refusal and leaves all as it is.
fn refused(name: &'static str, refusal: u8, before: Library) -> Frames {
    closing(name, before, refusal, before)
}

fn closing(name: &'static str, before: Library, refusal: u8, after: Library) -> Frames {
    let index = |library: Library| {
        let bytes: String = library.index.iter().map(|byte| format!("{byte:02X}")).collect();
        format!("{bytes} {}", zeroes(128 - library.index.len()))
    };
    let (_, frame_in, _) =
        framed(6, name, refusal, before.settings, &filled(before.pages), &index(before), before.table);
    let (_, _, frame_out) = framed(6, name, refusal, after.settings, &filled(after.pages), &index(after), after.table);
    (name, frame_in, frame_out)
}

/// The bytes of pages, each by the byte that fills it.
pub fn filled(pages: &[u8]) -> Vec<u8> {
    pages.iter().flat_map(|&page| [page; PAGE]).collect()
}

/// A frame in of this kind and a frame out with the same settings, templates, index and table or report, of which S
/// stands for 5A5A. No call takes such a notepad, such buffers, scores and thresholds.
pub fn framed(
    kind: u8,
    name: &'static str,
    refusal: u8,
    settings: &str,
    templates: &[u8],
    index: &str,
    room: &str,
) -> Frames {
    let [settings, index] = [settings, index].map(bytes);
    let room = bytes(&room.replace('S', "5A5A"));
    let length = |memory: &[u8]| (memory.len() as u32).to_be_bytes().to_vec();
    let others = bytes("00000000 00000002 00000001 00000000 00000001 00000003");
    let lengths = [length(templates), length(&index), others, length(&room)].concat();
    let (buffers, thresholds_and_run) = (bytes("0405 06"), bytes("1234 EF0140"));
    let memory = [templates, &index, &buffers].concat();
    let frame_in = [vec![kind], settings.clone(), lengths, memory.clone(), thresholds_and_run, room.clone()].concat();
    let frame_out = [vec![refusal], vec![0; 8], settings, memory, room].concat();
    (name, frame_in, frame_out)
}
