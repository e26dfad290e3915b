//! Examples of document 02's request [8]: what a host sees of a Search, and in frames the Search and the status word,
//! the latter with request [13] too.

use super::*;
use crate::cases::readers::index_of;
use crate::reader::{Chip, DATA, LAST_DATA, ROOM, SET};

/// Readers of 10 and of 1000 pages with buffer 1 filled. Of the first, pages 0 and 9 are stored, and of the second,
/// pages 255, 256 and 999; the score of a page is its number, and the threshold of level 3 is 9.
pub fn all() -> Vec<Example> {
    let [few, many] = [10, 1000].map(|capacity| {
        let mut reader = fresh_reader(capacity);
        reader.index = index_of(capacity, |page| [0, 9, 255, 256, 999].contains(&page));
        reader.settings.filled[0] = SET;
        reader.chip = Chip { scores: (0..capacity as u16).collect(), thresholds: vec![0, 1, 9, 1000, 0xFFFF] };
        reader
    });
    let [found, not_found] = ["02", "00"].map(|status| format!("00 00{status} 0000 000A 0003 A 0002 0006"));
    let [found, not_found] = [&found[..], &not_found];
    let example = |name, reader, steps: &str| exchanges(name, None, reader, steps);
    vec![
        example(
            "a finger found, deleted and not found",
            &few,
            &format!(
                "0F: {not_found}, 04 01 0000 000A: 00 0009 0009, 0F: {found}, 04 01 0000 0009: 09 0000 0000,
                 0F: {not_found}, 04 01 0009 FFFF: 00 0009 0009, 04 01 000A 0001: 0B, 04 02 0000 000A: 0C,
                 04 03 0000 000A: 01, 0C 0009 0001: 00, 0F: {found}, 04 01 0000 000A: 09 0000 0000,
                 0F: {not_found}"
            ),
        ),
        example(
            "other levels",
            &few,
            "0E 05 01: 00, 04 01 0000 0009: 00 0000 0000, 0E 05 02: 00, 04 01 0000 0009: 09 0000 0000,
             04 01 0000 000A: 00 0009 0009, 0E 05 04: 00, 04 01 0000 000A: 09 0000 0000",
        ),
        example(
            "a thousand pages",
            &many,
            "04 01 0000 03E8: 00 03E7 03E7, 04 01 0000 03E7: 00 0100 0100, 04 01 0000 0100: 00 00FF 00FF,
             04 01 0101 02E6: 09 0000 0000, 04 01 03E7 FFFF: 00 03E7 03E7, 04 01 03E8 0001: 0B",
        ),
    ]
}

/// Of four pages, 0, 2 and 3 are stored, and buffer 1 is filled; all memory is zero.
const FILLED: Stand = Stand {
    password: 0,
    level: 3,
    found: 0,
    rest: "00 0000 0000 00 01 00 F FFFF FFFF",
    pages: &[0; 4],
    index: 0x0D,
    buffers: [0; 2],
};
const VERIFIED: Stand = Stand { rest: "00 0000 0000 01 01 00 F FFFF FFFF", ..FILLED };
const LOCKED: Stand = Stand { password: 5, ..FILLED };

/// Page 1, which is vacant, has the highest score, and pages 2 and 3 the next.
const SCORES: &str = "0200 0900 0300 0300";
/// That of level 3 is 0100.
const THRESHOLDS: &str = "0080 00C0 0100 0140 0180";

fn found(found: u8, stand: Stand) -> Stand {
    Stand { found, ..stand }
}

/// A receiver that holds nothing before and after.
const EMPTY: Option<[&[u8]; 2]> = Some([&[]; 2]);

/// An empty run that changes nothing.
const NOTHING: Asked = Asked {
    kind: 0,
    held: None,
    before: FILLED,
    scores: SCORES,
    thresholds: THRESHOLDS,
    run: &[],
    room: ROOM,
    told: (0, 0, &[]),
    after: FILLED,
};

pub fn frames() -> Vec<Frames> {
    let parts = [
        of_ranges,
        of_scores,
        of_levels,
        of_codes,
        of_commands,
        of_status,
        of_refusals,
        of_receivers,
        of_line_switches,
    ];
    parts.iter().flat_map(|part| part()).collect()
}

/// A Search by its parameters, with these scores, and what the acknowledge has; found before or not, without a receiver
/// and with one that holds the first half.
fn search(name: &'static str, stand: Stand, scores: &str, parameters: &str, acknowledge: &str) -> Vec<Frames> {
    let run = command(&format!("04 {parameters}"));
    let content = bytes(acknowledge);
    let reply = packet(FRESH, ACKNOWLEDGE, &content, 0);
    let (half, rest) = run.split_at(run.len() / 2);
    let mut all = Vec::new();
    for before in [0, 1] {
        let after = match content[0] {
            0x00 => 1,
            0x09 => 0,
            _ => before,
        };
        let (before, after) = (found(before, stand), found(after, stand));
        let asked = Asked { before, scores, run: &run, told: (0, run.len(), &reply), after, ..NOTHING };
        all.push(asked.frames(name));
        let (held, told) = (Some([half, &[]]), (0, rest.len(), &reply[..]));
        all.push(Asked { kind: 2, held, run: rest, told, ..asked }.frames(name));
    }
    all
}

fn of_ranges() -> Vec<Frames> {
    let ranges = [
        ("01 0000 0004", "00 0002 0300"),
        ("01 0000 0003", "00 0002 0300"),
        ("01 0000 0002", "00 0000 0200"),
        ("01 0000 0001", "00 0000 0200"),
        ("01 0000 0000", "09 0000 0000"),
        ("01 0001 0001", "09 0000 0000"),
        ("01 0001 0002", "00 0002 0300"),
        ("01 0002 0000", "09 0000 0000"),
        ("01 0003 0001", "00 0003 0300"),
        ("01 0003 0002", "00 0003 0300"),
        ("01 0000 FFFF", "00 0002 0300"),
        ("01 0002 FFFD", "00 0002 0300"),
        ("01 0002 FFFE", "00 0002 0300"),
        ("01 0003 FFFE", "00 0003 0300"),
        ("01 0003 FFFF", "00 0003 0300"),
    ];
    ranges.into_iter().flat_map(|(range, told)| search("a range of a Search", FILLED, SCORES, range, told)).collect()
}

fn of_scores() -> Vec<Frames> {
    let scores = [
        ("0100 0000 0000 0000", "00 0000 0100"),
        ("00FF 0000 0000 00FF", "09 0000 0000"),
        ("00FF FFFF 00FF 0101", "00 0003 0101"),
        ("8000 0000 7FFF 0101", "00 0000 8000"),
        ("7FFF 0000 8000 0101", "00 0002 8000"),
        ("01FF 0000 0200 0100", "00 0002 0200"),
        ("0200 0000 01FF 0100", "00 0000 0200"),
        ("FF00 0000 00FF 0000", "00 0000 FF00"),
        ("0000 0000 0000 FFFF", "00 0003 FFFF"),
        ("FFFF 0000 FFFF FFFF", "00 0000 FFFF"),
        ("0102 0000 0103 0104", "00 0003 0104"),
        ("0104 0000 0103 0102", "00 0000 0104"),
    ];
    scores
        .into_iter()
        .flat_map(|(scores, told)| search("scores of a Search", FILLED, scores, "01 0000 0004", told))
        .collect()
}

/// Each level, with its threshold and one less; then thresholds at the ends.
fn of_levels() -> Vec<Frames> {
    let levels =
        [(1, "0080", "007F"), (2, "00C0", "00BF"), (3, "0100", "00FF"), (4, "0140", "013F"), (5, "0180", "017F")];
    let mut all = Vec::new();
    for (level, enough, too_low) in levels {
        let stand = Stand { level, ..FILLED };
        let scores = |score| format!("0000 FFFF {score} 0000");
        all.extend(search(
            "a score that is enough",
            stand,
            &scores(enough),
            "01 0000 0004",
            &format!("00 0002 {enough}"),
        ));
        all.extend(search("a score that is too low", stand, &scores(too_low), "01 0000 0004", "09 0000 0000"));
    }
    let run = command("04 01 0000 0004");
    let none = acknowledge("09 0000 0000");
    let zero = acknowledge("00 0000 0000");
    let before = found(1, FILLED);
    let asked = Asked { before, run: &run, told: (0, run.len(), &none), ..NOTHING };
    all.push(Asked { thresholds: "0000 0000 FFFF 0000 0000", scores: "FFFE FFFF FFFE FFFE", ..asked }.frames("FFFF"));
    let asked = Asked { run: &run, told: (0, run.len(), &zero), after: before, ..NOTHING };
    all.push(Asked { thresholds: "FFFF FFFF 0000 FFFF FFFF", scores: "0000 FFFF 0000 0000", ..asked }.frames("0000"));
    all
}

/// A Search of buffer 2; then the other codes of a Search, which keep the found mark.
fn of_codes() -> Vec<Frames> {
    let not_filled = Stand { rest: "00 0000 0000 00 00 01 F FFFF FFFF", ..FILLED };
    let rows = [
        (not_filled, "02 0000 0004", "00 0002 0300"),
        (FILLED, "00 0000 0004", "01"),
        (FILLED, "03 0000 0004", "01"),
        (FILLED, "FF 0004 0004", "01"),
        (FILLED, "01 0004 0000", "0B"),
        (FILLED, "01 0005 0001", "0B"),
        (FILLED, "01 0100 0001", "0B"),
        (FILLED, "01 FFFF 0001", "0B"),
        (FILLED, "02 0004 0001", "0B"),
        (FILLED, "02 0000 0004", "0C"),
        (not_filled, "01 0000 0004", "0C"),
        (FILLED, "02 0001 0000", "0C"),
        (FILLED, "01 0000 00", "01"),
        (FILLED, "01 0000 0004 00", "01"),
        (FILLED, "01 0000", "01"),
        (FILLED, "", "01"),
        (LOCKED, "01 0000 0004", "21"),
        (LOCKED, "03 0000 0004", "21"),
        (LOCKED, "01 0004 0004", "21"),
        (LOCKED, "02 0000 0004", "21"),
        (LOCKED, "01 0000 00", "01"),
        (LOCKED, "01 0000 0004 00", "01"),
    ];
    rows.into_iter()
        .flat_map(|(stand, parameters, code)| search("a code of a Search", stand, SCORES, parameters, code))
        .collect()
}

/// Commands that keep the found mark, what their acknowledges have, and what they leave.
fn of_commands() -> Vec<Frames> {
    let stored = Stand { rest: "00 0000 0000 00 01 00 F 0001 FFFF", index: 0x0F, ..FILLED };
    let loaded = Stand { rest: "00 0000 0000 00 01 01 F FFFF 0002", ..FILLED };
    let open = Stand { rest: "02 0000 0000 00 01 00 F FFFF FFFF", ..FILLED };
    let zeroes = " 00".repeat(32);
    let (note, listed) = (format!("18 01 {zeroes}"), format!("00 {zeroes}"));
    let rows: [(Stand, &str, &str, Stand); 30] = [
        (FILLED, "06 01 0001", "00", stored),
        (FILLED, "06 01 0000", "22", FILLED),
        (FILLED, "07 02 0002", "00", loaded),
        (FILLED, "07 02 0001", "0C", FILLED),
        (FILLED, "08 02", "0D", FILLED),
        (FILLED, "09 02", "00", open),
        (FILLED, "09 03", "01", FILLED),
        (FILLED, "0C 0000 0001", "00", Stand { index: 0x0C, ..FILLED }),
        (FILLED, "0C 0000 0005", "10", FILLED),
        (FILLED, "0D", "00", Stand { index: 0, ..FILLED }),
        (FILLED, "0E 05 01", "00", Stand { level: 1, ..FILLED }),
        (FILLED, "0E 05 06", "1B", FILLED),
        (FILLED, "0E 07 01", "1A", FILLED),
        (VERIFIED, "12 00000005", "00", LOCKED),
        (LOCKED, "13 00000005", "00", Stand { password: 5, ..VERIFIED }),
        (VERIFIED, "13 00000001", "13", FILLED),
        (FILLED, "15 FFFFFFFF", "00", FILLED),
        (FILLED, &note, "00", FILLED),
        (FILLED, "19 01", &listed, FILLED),
        (FILLED, "19 10", "1C", FILLED),
        (FILLED, "1D", "00 0003", FILLED),
        (FILLED, "1F 03", &listed, FILLED),
        (FILLED, "1F 04", "0B", FILLED),
        (FILLED, "40", "00", FILLED),
        (FILLED, "40 00", "01", FILLED),
        (LOCKED, "40", "00", LOCKED),
        (LOCKED, "0F", "00 0000 0000 0004 0003 A 0002 0006", LOCKED),
        (LOCKED, "1D", "21", LOCKED),
        (FILLED, "05", "19", FILLED),
        (open, "40", "00", FILLED),
    ];
    let mut all = Vec::new();
    for (before, content, told, after) in rows {
        all.extend(kept(before, &command(content), &acknowledge(told), after));
    }
    let [data, last] = [DATA, LAST_DATA].map(|identifier| packet(FRESH, identifier, &[0; 128], 0));
    let upload = [&acknowledge("00")[..], &data, &data, &data, &last].concat();
    let damaged = packet(FRESH, COMMAND, &bytes("04 01 0000 0004"), 1);
    let foreign = packet([0; 4], COMMAND, &bytes("04 01 0000 0004"), 0);
    all.extend(kept(FILLED, &command("08 01"), &upload, FILLED));
    all.extend(kept(FILLED, &damaged, &acknowledge("01"), FILLED));
    all.extend(kept(FILLED, &foreign, &[], FILLED));
    all.extend(kept(open, &last, &acknowledge("0E"), FILLED));
    all
}

/// A packet that keeps the found mark, and the reply.
fn kept(before: Stand, run: &[u8], reply: &[u8], after: Stand) -> [Frames; 2] {
    [0, 1].map(|mark| {
        let (before, after) = (found(mark, before), found(mark, after));
        Asked { before, run, told: (0, run.len(), reply), after, ..NOTHING }.frames("the found mark is kept")
    })
}

/// ReadSysPara with each of the two bits, both and none, without a password, with one, and locked; a Search that ends a
/// transfer.
fn of_status() -> Vec<Frames> {
    let run = command("0F");
    let with_password = Stand { password: 5, ..VERIFIED };
    let rows = [
        (0, FILLED, "00"),
        (1, FILLED, "02"),
        (0, VERIFIED, "04"),
        (1, VERIFIED, "06"),
        (0, with_password, "04"),
        (1, with_password, "06"),
        (0, LOCKED, "00"),
        (1, LOCKED, "00"),
    ];
    let mut all = Vec::new();
    for (mark, stand, status) in rows {
        let listed = bytes(&format!("00 00{status} 0000 0004 0003 A 0002 0006"));
        let (stand, reply) = (found(mark, stand), packet(FRESH, ACKNOWLEDGE, &listed, 0));
        let asked = Asked { before: stand, run: &run, told: (0, run.len(), &reply), after: stand, ..NOTHING };
        all.push(asked.frames("status"));
        all.push(Asked { kind: 2, held: EMPTY, ..asked }.frames("status, with a receiver"));
    }
    let open = Stand { rest: "02 0000 0080 00 01 00 F FFFF FFFF", ..FILLED };
    for (parameters, told, mark) in
        [("01 0000 0004", "00 0002 0300", 1), ("01 0001 0001", "09 0000 0000", 0), ("02 0000 0004", "0C", 0)]
    {
        let run = command(&format!("04 {parameters}"));
        let reply = acknowledge(told);
        let (told, after) = ((0, run.len(), &reply[..]), found(mark, FILLED));
        let asked = Asked { before: open, run: &run, told, after, ..NOTHING };
        all.push(asked.frames("a Search in a transfer"));
        all.push(Asked { kind: 2, held: EMPTY, ..asked }.frames("a Search in a transfer, with a receiver"));
    }
    all
}

/// Scores and thresholds of other lengths, and found marks of neither 0 nor 1, with a Search, with P1's run and with
/// none; then beside other refusals.
fn of_refusals() -> Vec<Frames> {
    let unfit = found(2, FILLED);
    let (short, most) = ("0200 0900 0300", "0200".repeat(1001));
    let rows = [
        (FILLED, "", THRESHOLDS, ROOM, 1),
        (FILLED, short, THRESHOLDS, ROOM, 1),
        (FILLED, "0200 0900 0300 0300 0000", THRESHOLDS, ROOM, 1),
        (FILLED, "0200 0900 0300 0300 0200 0900 0300 0300", THRESHOLDS, ROOM, 1),
        (FILLED, &most, THRESHOLDS, ROOM, 1),
        (FILLED, SCORES, "", ROOM, 1),
        (FILLED, SCORES, "0080 00C0 0100 0140", ROOM, 1),
        (FILLED, SCORES, "0080 00C0 0100 0140 0180 0000", ROOM, 1),
        (FILLED, SCORES, "0080 00C0 0100 0140 0180 0080 00C0 0100 0140 0180", ROOM, 1),
        (LOCKED, short, THRESHOLDS, ROOM, 1),
        (LOCKED, SCORES, "0080 00C0 0100 0140", ROOM, 1),
        (FILLED, short, THRESHOLDS, ROOM - 1, 1),
        (FILLED, SCORES, "0080", ROOM - 1, 1),
        (unfit, short, THRESHOLDS, ROOM, 1),
        (unfit, SCORES, "0080", ROOM, 1),
        (unfit, SCORES, THRESHOLDS, ROOM - 1, 2),
        (unfit, SCORES, THRESHOLDS, ROOM, 3),
        (found(3, LOCKED), SCORES, THRESHOLDS, ROOM, 3),
        (found(0x80, VERIFIED), SCORES, THRESHOLDS, ROOM, 3),
        (found(0xFF, FILLED), SCORES, THRESHOLDS, ROOM, 3),
    ];
    let runs = ["04 01 0000 0004", "40"].map(|content| command(content));
    let mut all = Vec::new();
    for (stand, scores, thresholds, room, refusal) in rows {
        for run in [&runs[0][..], &runs[1], &[]] {
            let told = (refusal, 0, &[][..]);
            let asked = Asked { before: stand, scores, thresholds, run, room, told, after: stand, ..NOTHING };
            all.push(asked.frames("scores, thresholds and found marks that do not fit"));
            let held = Some([&[0xEF][..]; 2]);
            all.push(Asked { kind: 2, held, ..asked }.frames("the same with a receiver"));
        }
    }
    all
}

/// A Search in two pieces, which sees the scores of the second call.
fn of_receivers() -> Vec<Frames> {
    let run = command("04 01 0000 0004");
    let (first, rest) = run.split_at(12);
    let higher = "0400 0900 0300 0300";
    let reply = acknowledge("00 0000 0400");
    let none = acknowledge("09 0000 0000");
    let asked = Asked { kind: 2, held: Some([first, &[]]), run: rest, ..NOTHING };
    vec![
        Asked { held: Some([&[], first]), run: first, told: (0, 12, &[]), ..asked }.frames("the first piece"),
        Asked { scores: higher, told: (0, rest.len(), &reply), after: found(1, FILLED), ..asked }.frames("found"),
        Asked { scores: "0000 0000 0000 0000", before: found(1, FILLED), told: (0, rest.len(), &none), ..asked }
            .frames("not found"),
    ]
}

/// Line switches and fresh settings take any found mark, and any scores and thresholds.
fn of_line_switches() -> Vec<Frames> {
    let wiped = Stand { rest: "00 0000 0000 00 00 00 F FFFF FFFF", ..FILLED };
    let mut all = Vec::new();
    for mark in [0, 1, 2, 0x80, 0xFF] {
        for (scores, thresholds) in [(SCORES, THRESHOLDS), ("", ""), ("0200 0900 0300 0300 0000", "0080")] {
            let asked = Asked { before: found(mark, FILLED), scores, thresholds, ..NOTHING };
            all.push(Asked { kind: 1, after: wiped, ..asked }.frames("the line switch clears the found mark"));
            let held = Some([&[0xEF][..], &[]]);
            all.push(Asked { kind: 3, held, after: wiped, ..asked }.frames("the receiver's line switch clears it"));
            all.push(Asked { kind: 4, after: wiped, ..asked }.frames("fresh settings have it clear"));
        }
    }
    all
}
