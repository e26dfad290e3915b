//! Examples of document 02's request [10] in frames: libraries salvaged, and salvages that are refused.

use super::gaps::{filled, framed, FILLED};
use super::*;

/// The first bytes of an index or a report, and its last ones; those between are zero.
type Ends<'a> = (&'a str, &'a str);

/// What the old program left of three pages: the middle one is vacant and has bytes, and bit 3 is set.
const LEFT: [u8; 3] = [0x11, 0x22, 0x33];
const LEFT_INDEX: Ends = ("0D", "00");
/// The same salvaged, and what the report says.
const SALVAGED: [u8; 3] = [0x11, 0x00, 0x33];
const SALVAGED_INDEX: Ends = ("05", "00");
const SAID: Ends = ("00 02 00 01", "00");

pub fn frames() -> Vec<Frames> {
    [of_pages(), of_bytes(), of_bits(), of_settings(), of_lengths(), of_calls()].concat()
}

/// Pages by the index; then salvaged again.
fn of_pages() -> Vec<Frames> {
    let example = |name, index, pages: &[u8], said| {
        salvaged(name, FILLED, [(&filled(&LEFT), (index, "00")), (&filled(pages), (index, "00"))], (said, "00"))
    };
    let [left, left_salvaged] = [filled(&LEFT), filled(&SALVAGED)];
    let after: (&[u8], Ends) = (&left_salvaged, SALVAGED_INDEX);
    vec![
        salvaged("what the old program left", FILLED, [(&left, LEFT_INDEX), after], SAID),
        salvaged("salvaged again", FILLED, [after, after], ("00 00 00 00", "00")),
        example("all pages vacant", "00", &[0, 0, 0], "02 02 02"),
        example("the first page stored", "01", &[0x11, 0, 0], "00 02 02"),
        example("the last page stored", "04", &[0, 0, 0x33], "02 02 00"),
        example("all pages stored", "07", &[0x11, 0x22, 0x33], "00 00 00"),
    ]
}

/// One byte of a vacant page; then pages of zeroes, the first of them stored.
fn of_bytes() -> Vec<Frames> {
    let example = |name, page: u8, place: usize, byte: u8, said| {
        let after = filled(&[page, 0x00, 0x00]);
        let mut before = after.clone();
        before[PAGE + place] = byte;
        salvaged(name, FILLED, [(&before, ("01", "00")), (&after, ("01", "00"))], (said, "00"))
    };
    vec![
        example("a first byte of 01", 0x11, 0, 0x01, "00 02 00"),
        example("a byte of 80 in the middle", 0x11, 256, 0x80, "00 02 00"),
        example("a last byte of FF", 0x11, 511, 0xFF, "00 02 00"),
        example("pages of zeroes", 0x00, 0, 0x00, "00 00 00"),
    ]
}

/// Bits at or above C: in C's own byte, in the next one, in the last one, and all.
fn of_bits() -> Vec<Frames> {
    let example = |name, index, said| {
        let templates = filled(&LEFT);
        salvaged(name, FILLED, [(&templates, index), (&templates, ("07", "00"))], said)
    };
    let [index, said] = ["FF".repeat(126), format!("00 00 00 {}", "01".repeat(1020))];
    vec![
        example("bit 4", ("17", "00"), ("00 00 00 00 01", "00")),
        example("bit 7", ("87", "00"), ("00 00 00 00 00 00 00 01", "00")),
        example("bits 3 and 8", ("0F 01", "00"), ("00 00 00 01 00 00 00 00 01", "00")),
        example("bit 1016", ("07", "01"), ("00 00 00", "01 00 00 00 00 00 00 00")),
        example("bit 1023", ("07", "80"), ("00 00 00", "01")),
        example("all bits", (&index, "FF FF"), (&said, "01")),
    ]
}

/// Settings that are not looked at: of a locked reader, in a transfer, none of them legal, and one of them not.
fn of_settings() -> Vec<Frames> {
    let settings = [
        "00000005 A 03 02 06 00 0000 0000 00 01 01 01 0002 0000",
        "00000005 A 03 02 06 01 0000 0180 01 00 01 00 FFFF 0002",
        "00000000 A 00 04 0D 03 0000 0040 02 80 FF 02 0001 FFFE",
        "01234567 89ABCDEF 06 FF 00 01 1234 0200 FF 01 00 03 0003 0001",
        "00000000 A 00 02 06 00 0000 0000 00 01 01 00 FFFF FFFF",
        "00000000 A 03 04 06 00 0000 0000 00 01 01 00 FFFF FFFF",
        "00000000 A 03 02 0D 00 0000 0000 00 01 01 00 FFFF FFFF",
        "00000000 A 03 02 06 01 0000 0040 00 00 01 00 FFFF FFFF",
        "00000000 A 03 02 06 00 0000 0000 02 01 01 00 FFFF FFFF",
        "00000000 A 03 02 06 00 0000 0000 00 01 FF 00 FFFF FFFF",
        "00000000 A 03 02 06 00 0000 0000 00 01 01 02 FFFF FFFF",
        "00000000 A 03 02 06 00 0000 0000 00 01 01 00 0003 FFFF",
        "00000000 A 03 02 06 00 0000 0000 00 01 01 00 FFFF 0001",
    ];
    let [before, after] = [filled(&LEFT), filled(&SALVAGED)];
    let both: [(&[u8], Ends); 2] = [(&before, LEFT_INDEX), (&after, SALVAGED_INDEX)];
    settings.iter().map(|settings| salvaged("settings beside a salvage", settings, both, SAID)).collect()
}

/// Templates, indexes and reports of other lengths: refusal 1, and no byte changes.
fn of_lengths() -> Vec<Frames> {
    let example = |name, templates: &[u8], index: usize, report: usize| {
        framed(7, name, 1, FILLED, templates, &"FF".repeat(index), &"5A".repeat(report))
    };
    let three = filled(&LEFT);
    let mut all = vec![
        example("no pages salvaged", &[], 128, 1024),
        example("a byte too few salvaged", &three[1..], 128, 1024),
        example("a byte too many salvaged", &[&three[..], &[0x44]].concat(), 128, 1024),
        example("1001 pages salvaged", &filled(&[0x11; 1001]), 128, 1024),
        example("nothing that fits", &three[1..], 127, 1023),
    ];
    all.extend([0, 1, 32, 127, 129, 256].map(|index| example("another index salvaged", &three, index, 1024)));
    all.extend([0, 3, 1023, 1025, 2048].map(|report| example("another report", &three, 128, report)));
    all
}

/// TempleteNum of a reader with bit 3 set, which is refused, and of the same reader salvaged.
fn of_calls() -> Vec<Frames> {
    let (run, reply) = (bytes(COUNT), bytes(&count(2)));
    let example = |name, pages, index, told| {
        let rest = "00 0000 0000 00 01 01 F FFFF FFFF";
        let stand = Stand { password: 0, level: 3, found: 0, rest, pages, index, buffers: [0x44, 0x55] };
        let (scores, thresholds) = ("0001 0002 0003", "0001 0002 0003 0004 0005");
        Asked { kind: 0, held: None, before: stand, scores, thresholds, run: &run, room: 700, told, after: stand }
            .frames(name)
    };
    vec![
        example("a bit at C before a salvage", &LEFT, 0x0D, (3, 0, &[])),
        example("a bit at C after a salvage", &SALVAGED, 0x05, (0, 12, &reply)),
    ]
}

/// A salvage that is carried out, by templates and index before and after, and by the report.
fn salvaged(name: &'static str, settings: &str, [before, after]: [(&[u8], Ends); 2], said: Ends) -> Frames {
    let side = |(templates, index), room: &str| framed(7, name, 0, settings, templates, &between(index, 128), room);
    let (_, frame_in, _) = side(before, &"5A".repeat(1024));
    let (_, _, frame_out) = side(after, &between(said, 1024));
    (name, frame_in, frame_out)
}

/// So many bytes with these ends.
fn between((first, last): Ends, length: usize) -> String {
    format!("{first} {} {last}", zeroes(length - bytes(first).len() - bytes(last).len()))
}
