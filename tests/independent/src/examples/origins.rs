//! Examples of document 02's request [7]: what a host sees of it, and the origins in frames.

use super::*;
use crate::cases::readers::index_of;
use crate::reader::{DATA, LAST_DATA, ROOM, SET};

/// Readers of 10 and of 257 pages: pages 0, 9 and 256 are stored, and both buffers are filled without an origin. Store
/// shows whether a buffer is still filled.
pub fn all() -> Vec<Example> {
    let [few, many] = [10, 257].map(|capacity| {
        let mut reader = fresh_reader(capacity);
        reader.index = index_of(capacity, |page| [0, 9, 256].contains(&page));
        reader.settings.filled = [SET; 2];
        reader
    });
    let example = |name, reader, steps: &str| exchanges(name, None, reader, steps);
    vec![
        example("a leaver loaded, then deleted", &few, "07 01 0009: 00, 0C 0009 0001: 00, 08 01: 0D"),
        example("a leaver stored, then deleted", &few, "06 02 0003: 00, 0C 0003 0001: 00, 08 02: 0D"),
        example("a leaver in both buffers", &few, "07 01 0000: 00, 07 02 0000: 00, 0D: 00, 08 02: 0D"),
        example(
            "a finger that is not deleted",
            &few,
            "07 01 0009: 00, 0C 0000 0009: 00, 0C 0009 0000: 00, 0C 0009 0002: 10, 06 01 0001: 00",
        ),
        example(
            "a finger stored twice",
            &few,
            "06 01 0003: 00, 06 01 0004: 00, 0C 0003 0001: 00, 06 01 0005: 00, 0C 0005 0001: 00, 06 01 0003: 0C",
        ),
        example("a buffer without an origin", &few, "0C 0000 000A: 00, 0D: 00, 06 01 0000: 00, 06 02 0001: 00"),
        example(
            "a leaver on page 256",
            &many,
            "07 01 0100: 00, 07 02 0000: 00, 0C 0000 0001: 00, 08 02: 0D, 06 01 0001: 00",
        ),
        example("page 256 emptied", &many, "07 02 0100: 00, 0D: 00, 08 02: 0D, 06 01 0100: 00"),
    ]
}

/// A reader of two pages, by the settings from the transfer on, the bytes that fill the pages, the first byte of the
/// index, and the bytes that fill the buffers.
const fn stand(rest: &'static str, pages: &'static [u8], index: u8, buffers: [u8; 2]) -> Stand {
    Stand { password: 0, level: 3, found: 0, rest, pages, index, buffers }
}

/// Both pages are stored, and each buffer has one of them.
const LOADED: Stand = stand("00 0000 0000 00 01 01 00 0001 0000", &[0x11, 0x22], 0x03, [0x22, 0x11]);
/// Page 0 alone is stored, and buffer 2 has it.
const HALF: Stand = stand("00 0000 0000 00 01 01 00 FFFF 0000", &[0x11, 0], 0x01, [0x33, 0x11]);

/// Both pages are stored, and the settings and buffers are these.
fn stored(rest: &'static str, buffers: [u8; 2]) -> Stand {
    Stand { rest, buffers, ..LOADED }
}

/// Both pages are stored, the buffers have their bytes, and the settings are these.
fn with(rest: &'static str) -> Stand {
    Stand { rest, ..LOADED }
}

pub fn frames() -> Vec<Frames> {
    [of_sets(), of_none(), of_deletes(), of_refusals(), of_line_switches()].concat()
}

/// What sets an origin and what leaves it.
fn of_sets() -> Vec<Frames> {
    let vacant = stand("00 0000 0000 00 01 00 00 0000 FFFF", &[0x11, 0], 0x01, [0x11, 0]);
    let loaded_1 = stored("00 0000 0000 00 01 01 00 0000 0000", [0x11, 0x11]);
    let loaded_2 = stored("00 0000 0000 00 01 01 00 0001 0001", [0x22, 0x22]);
    let stored_1 = stand("00 0000 0000 00 01 01 00 0001 0000", &[0x11, 0x33], 0x03, HALF.buffers);
    let stored_2 = stand("00 0000 0000 00 01 01 00 FFFF 0001", &[0x11, 0x11], 0x03, HALF.buffers);
    vec![
        coded("LoadChar to buffer 1", LOADED, "07 01 0000", 0x00, loaded_1),
        coded("LoadChar to buffer 2", LOADED, "07 02 0001", 0x00, loaded_2),
        coded("Store from buffer 1", HALF, "06 01 0001", 0x00, stored_1),
        coded("Store from buffer 2", HALF, "06 02 0001", 0x00, stored_2),
        coded("Store to a stored page", LOADED, "06 01 0000", 0x22, LOADED),
        coded("Store to a page beyond", LOADED, "06 01 0002", 0x0B, LOADED),
        coded("Store from a buffer not filled", vacant, "06 02 0001", 0x0C, vacant),
        coded("LoadChar of a vacant page", vacant, "07 01 0001", 0x0C, vacant),
        coded("LoadChar of a page beyond", LOADED, "07 02 0002", 0x0B, LOADED),
        coded("SetPwd 0", LOADED, "12 00000000", 0x00, LOADED),
        coded("SetAdder", LOADED, "15 FFFFFFFF", 0x00, LOADED),
        coded("a right password", LOADED, "13 00000000", 0x00, with("00 0000 0000 01 01 01 00 0001 0000")),
        coded("a wrong password", LOADED, "13 00000001", 0x13, LOADED),
    ]
}

/// DownChar, and a transfer of buffer 1 while buffer 2 has an origin.
fn of_none() -> Vec<Frames> {
    let begun = stored("01 0000 0000 00 00 01 00 FFFF 0000", [0, 0x11]);
    let first = stored("01 0000 0080 00 00 01 00 FFFF 0000", [0, 0x11]);
    let open = stored("01 0000 0180 00 00 01 00 FFFF 0000", [0x44, 0x11]);
    let whole = stored("00 0000 0000 00 01 01 00 FFFF 0000", [0x44, 0x11]);
    let ended = stored("00 0000 0000 00 00 01 00 FFFF 0000", [0, 0x11]);
    let data = packet(FRESH, DATA, &[0; 128], 0);
    let last = packet(FRESH, LAST_DATA, &[0x44; 128], 0);
    let failed = acknowledge("0E");
    vec![
        coded("DownChar", LOADED, "09 01", 0x00, begun),
        asked("a data packet", 0, begun, &data, (0, data.len(), &[]), first),
        asked("the last data packet", 0, open, &last, (0, last.len(), &[]), whole),
        asked("a data packet that fails", 0, open, &data, (0, data.len(), &failed), ended),
        coded("HandShake ends a transfer", open, "40", 0x00, ended),
    ]
}

/// DeletChar and Empty.
fn of_deletes() -> Vec<Frames> {
    let both = stored("00 0000 0000 00 01 01 00 0001 0001", [0x22, 0x33]);
    let both_wiped = stand("00 0000 0000 00 00 00 00 FFFF FFFF", &[0x11, 0], 0x01, [0, 0]);
    let without = with("00 0000 0000 00 01 01 00 FFFF FFFF");
    let wiped_1 = stand("00 0000 0000 00 00 01 00 FFFF 0000", &[0x11, 0], 0x01, [0, 0x11]);
    let wiped_2 = stand("00 0000 0000 00 01 00 00 0001 FFFF", &[0, 0x22], 0x02, [0x22, 0]);
    let empty = stand("00 0000 0000 00 00 00 00 FFFF FFFF", &[0, 0], 0x00, [0, 0]);
    let half_empty = stand("00 0000 0000 00 01 00 00 FFFF FFFF", &[0, 0], 0x00, [0x33, 0]);
    vec![
        coded("DeletChar of buffer 1's page", LOADED, "0C 0001 0001", 0x00, wiped_1),
        coded("DeletChar of buffer 2's page", LOADED, "0C 0000 0001", 0x00, wiped_2),
        coded("DeletChar of both pages", LOADED, "0C 0000 0002", 0x00, empty),
        coded("DeletChar of no page", LOADED, "0C 0001 0000", 0x00, LOADED),
        coded("DeletChar of a page beyond", LOADED, "0C 0001 0002", 0x10, LOADED),
        coded("DeletChar of the same page", both, "0C 0001 0001", 0x00, both_wiped),
        coded(
            "DeletChar of another page",
            both,
            "0C 0000 0001",
            0x00,
            Stand { pages: &[0, 0x22], index: 0x02, ..both },
        ),
        coded(
            "DeletChar without an origin",
            without,
            "0C 0001 0001",
            0x00,
            Stand { pages: &[0x11, 0], index: 0x01, ..without },
        ),
        coded("Empty", LOADED, "0D", 0x00, empty),
        coded("Empty, buffer 1 without an origin", HALF, "0D", 0x00, half_empty),
        coded("Empty without an origin", without, "0D", 0x00, Stand { pages: &[0, 0], index: 0x00, ..without }),
        locked_out("0D"),
        locked_out("0C 0001 0001"),
        locked_out("06 01 0001"),
        locked_out("07 01 0000"),
    ]
}

/// Origins that are taken, and refusal 3, of a locked reader too.
fn of_refusals() -> Vec<Frames> {
    let refused = [
        with("00 0000 0000 00 01 01 00 0002 0000"),
        with("00 0000 0000 00 01 01 00 0003 FFFF"),
        with("00 0000 0000 00 01 01 00 0001 0002"),
        with("00 0000 0000 00 01 01 00 FFFF 03E8"),
        with("00 0000 0000 00 01 01 00 FFFE FFFF"),
        with("00 0000 0000 00 01 01 00 FFFF FFFE"),
        with("00 0000 0000 00 01 01 00 8000 0001"),
        with("00 0000 0000 00 01 01 00 0100 0001"),
        with("00 0000 0000 00 00 01 00 0001 0000"),
        with("00 0000 0000 00 01 00 00 0001 0000"),
        with("00 0000 0000 00 00 00 00 FFFF 0001"),
        Stand { index: 0x01, ..LOADED },
        Stand { index: 0x02, ..LOADED },
        Stand { index: 0x00, ..LOADED },
    ];
    let run = command("40");
    let twice = with("00 0000 0000 00 01 01 00 0000 0000");
    let mut all = vec![
        coded("two legal origins", LOADED, "40", 0x00, LOADED),
        coded("one origin twice", twice, "40", 0x00, twice),
    ];
    for stand in refused {
        all.push(asked("refusal 3 for an origin", 0, stand, &run, (3, 0, &[]), stand));
        let stand = Stand { password: 5, ..stand };
        all.push(asked("refusal 3 for a locked reader's origin", 0, stand, &run, (3, 0, &[]), stand));
    }
    all
}

/// The line switch takes any origins.
fn of_line_switches() -> Vec<Frames> {
    let wiped = stored("00 0000 0000 00 00 00 00 FFFF FFFF", [0, 0]);
    let settings = [
        LOADED.rest,
        "02 0000 0080 01 01 00 00 0001 0002",
        "03 0000 FFFF 02 80 FF 00 FFFE 1234",
        "00 0000 0000 00 00 00 00 0001 FFFF",
        "00 0000 0000 00 01 00 00 FFFF 0000",
    ];
    settings.map(|settings| asked("the line switch with origins", 1, with(settings), &[], (0, 0, &[]), wiped)).into()
}

/// A command to a reader that stands so, the code that it gets, and how the reader stands after it.
fn coded(name: &'static str, before: Stand, content: &str, code: u8, after: Stand) -> Frames {
    let (run, reply) = (command(content), acknowledge(&format!("{code:02X}")));
    asked(name, 0, before, &run, (0, run.len(), &reply), after)
}

/// A command to a locked reader, whose buffers each have a page: 21h.
fn locked_out(content: &str) -> Frames {
    let locked = Stand { password: 5, ..LOADED };
    coded("a locked reader with origins", locked, content, 0x21, locked)
}

fn asked(name: &'static str, kind: u8, before: Stand, run: &[u8], told: (u8, usize, &[u8]), after: Stand) -> Frames {
    let (scores, thresholds) = ("7777 7777", "7777 7777 7777 7777 7777");
    Asked { kind, held: None, before, scores, thresholds, run, room: ROOM, told, after }.frames(name)
}
