//! Examples of document 02's request [13]: what a fitter sees of a locked reader. In frames, `search` has it.

use super::*;
use crate::cases::readers::index_of;
use crate::reader::{Origin, CLEAR, SET};

const SET_PASSWORD_0: &str = "EF 01 A 01 00 07 12 00 00 00 00 00 1A";
const SET_PASSWORD_5: &str = "EF 01 A 01 00 07 12 00 00 00 05 00 1F";
const PASSWORD_0: &str = "EF 01 A 01 00 07 13 00 00 00 00 00 1B";
const PASSWORD_4: &str = "EF 01 A 01 00 07 13 00 00 00 04 00 1F";
const PASSWORD_5: &str = "EF 01 A 01 00 07 13 00 00 00 05 00 20";
const WRONG_PASSWORD: &str = "EF 01 A 07 00 03 13 00 1D";
const DAMAGED: &str = "EF 01 A 07 00 03 01 00 0B";

/// What a reader with C = 10 tells whose parameters are fresh, by the status word.
const STATUS_0: &str = "EF 01 A 07 00 13 00 0000 0000 000A 0003 A 0002 0006 04 2B";
const STATUS_2: &str = "EF 01 A 07 00 13 00 0002 0000 000A 0003 A 0002 0006 04 2D";
const STATUS_4: &str = "EF 01 A 07 00 13 00 0004 0000 000A 0003 A 0002 0006 04 2F";
const STATUS_6: &str = "EF 01 A 07 00 13 00 0006 0000 000A 0003 A 0002 0006 04 31";

pub fn all() -> Vec<Example> {
    [of_passwords(), of_packets(), of_settings(), of_guarded_contents(), of_receivers()].into_iter().flatten().collect()
}

/// A reader with C = 10, found or not, and without a password.
fn open(found: bool) -> Reader {
    let mut reader = two_stored();
    reader.settings.filled[0] = SET;
    reader.settings.found = if found { SET } else { CLEAR };
    reader
}

fn of_passwords() -> Vec<Example> {
    let search_page_0 = "EF 01 A 01 00 08 04 01 00 00 00 01 00 0F";
    let search_page_1 = "EF 01 A 01 00 08 04 01 00 01 00 01 00 10";
    let page_0_found = "EF 01 A 07 00 07 00 00 00 00 00 00 0E";
    let none_found = "EF 01 A 07 00 07 09 00 00 00 00 00 17";
    vec![
        example(
            "a fitter at a locked reader that found",
            &locked(&open(true)),
            &[
                (PARAMETERS, 12, STATUS_0),
                (PASSWORD_4, 16, WRONG_PASSWORD),
                (PARAMETERS, 12, STATUS_0),
                (PASSWORD_5, 16, FINE),
                (PARAMETERS, 12, STATUS_6),
                (PASSWORD_4, 16, WRONG_PASSWORD),
                (PARAMETERS, 12, STATUS_0),
                (PASSWORD_5, 16, FINE),
                (PARAMETERS, 12, STATUS_6),
            ],
        ),
        example(
            "a fitter at a locked reader that did not find",
            &locked(&open(false)),
            &[(PARAMETERS, 12, STATUS_0), (PASSWORD_5, 16, FINE), (PARAMETERS, 12, STATUS_4)],
        ),
        example(
            "password zero shows what was found without the mark",
            &open(false),
            &[
                (PARAMETERS, 12, STATUS_0),
                (search_page_0, 17, page_0_found),
                (PARAMETERS, 12, STATUS_2),
                (PASSWORD_4, 16, WRONG_PASSWORD),
                (PARAMETERS, 12, STATUS_2),
                (PASSWORD_0, 16, FINE),
                (PARAMETERS, 12, STATUS_6),
                (search_page_1, 17, none_found),
                (PARAMETERS, 12, STATUS_4),
            ],
        ),
        example(
            "found, locked by SetPwd, and opened",
            &open(true),
            &[
                (SET_PASSWORD_5, 16, FINE),
                (PARAMETERS, 12, STATUS_0),
                (SET_PASSWORD_0, 16, LOCKED),
                (search_page_1, 17, LOCKED),
                (PARAMETERS, 12, STATUS_0),
                (PASSWORD_5, 16, FINE),
                (PARAMETERS, 12, STATUS_6),
                (SET_PASSWORD_0, 16, FINE),
                (PARAMETERS, 12, STATUS_2),
            ],
        ),
    ]
}

/// A locked reader: packets that are not right, and the commands that stay barred.
fn of_packets() -> Vec<Example> {
    let locked = locked(&open(true));
    let longest = format!("EF 01 A 01 01 00 0F{} 00 11", zeroes(253));
    let write_note = format!("18 00{}", zeroes(32));
    let barred = [
        "04 01 0000 000A",
        "06 01 0001",
        "07 01 0000",
        "08 01",
        "09 02",
        "0C 0000 0001",
        "0D",
        "0E 05 01",
        "12 00000000",
        "15 00000000",
        &write_note,
        "19 00",
        "1D",
        "1F 00",
    ];
    let barred = barred.map(|content| format!("{content}: 21")).join(", ");
    let contents = format!("{barred}, 0F: 00 0000 0000 000A 0003 A 0002 0006, 40: 00, 10: 19");
    vec![
        example(
            "ReadSysParas that are not right",
            &locked,
            &[
                ("EF 01 A 01 00 03 0F 00 14", 12, DAMAGED),
                ("EF 01 A 01 00 03 0F 01 13", 12, DAMAGED),
                ("EF 01 A 01 00 04 0F 00 00 14", 13, DAMAGED),
                ("EF 01 A 01 00 04 0F 00 00 15", 13, DAMAGED),
                ("EF 01 A 01 00 05 0F 00 00 00 15", 14, DAMAGED),
                (&longest, 265, DAMAGED),
                ("EF 01 A 01 00 02 0F 00 12", 2, ""),
                ("EF 01 00 00 00 00 01 00 03 0F 00 13", 12, ""),
                ("EF 01 FF FF FF FE 01 00 03 0F 00 13", 12, ""),
                ("EF 01 A 07 00 03 0F 00 19", 12, ""),
                ("EF 01 A 01 00 03 0F 00", 0, ""),
                (PARAMETERS, 12, STATUS_0),
            ],
        ),
        exchanges("every command to a locked reader", None, &locked, &contents),
    ]
}

/// Locked readers with C = 257 and C = 1000, the first with no parameter fresh.
fn of_settings() -> Vec<Example> {
    let mut other = fresh_reader(257);
    other.settings.password = [0x80, 0, 0, 0];
    other.settings.address = [0x01, 0x23, 0x45, 0x67];
    other.settings.level = 5;
    other.settings.size_code = 0;
    other.settings.baud_factor = 12;
    other.settings.sensor_type = 0x1234;
    other.settings.found = SET;
    let asked = "EF 01 01234567 01 00 03 0F 00 13";
    let told = |status, sum| format!("EF 01 01234567 07 00 13 00 {status} 1234 0101 0005 01234567 0000 000C {sum}");
    let password = "EF 01 01234567 01 00 07 13 80 00 00 00 00 9B";
    let most = "EF 01 A 07 00 13 00 0000 0000 03E8 0003 A 0002 0006 05 0C";
    vec![
        example(
            "a locked reader with no parameter fresh",
            &other,
            &[
                (asked, 12, &told("0000", "01 43")),
                (PARAMETERS, 12, ""),
                (password, 16, "EF 01 01234567 07 00 03 00 00 0A"),
                (asked, 12, &told("0006", "01 49")),
            ],
        ),
        example("a locked reader of 1000 pages", &locked(&fresh_reader(1000)), &[(PARAMETERS, 12, most)]),
    ]
}

/// Two locked readers that differ in every guarded content answer alike until the password.
fn of_guarded_contents() -> Vec<Example> {
    let zero = locked(&fresh_reader(10));
    let mut full = zero.clone();
    full.templates.fill(0xA5);
    full.index = index_of(10, |_| true);
    full.notepad.fill(0xA5);
    full.buffers.iter_mut().for_each(|buffer| buffer.fill(0xA5));
    full.settings.filled = [SET; 2];
    full.settings.origins = [Origin(0), Origin(9)];
    full.settings.found = SET;
    full.chip.scores.fill(0xFFFF);
    full.chip.thresholds.fill(0x8000);
    [("zero guarded contents", zero, STATUS_4), ("full guarded contents", full, STATUS_6)]
        .map(|(name, reader, after)| {
            let steps = [
                (PARAMETERS, 12, STATUS_0),
                (PASSWORD_4, 16, WRONG_PASSWORD),
                (PARAMETERS, 12, STATUS_0),
                (PASSWORD_5, 16, FINE),
                (PARAMETERS, 12, after),
            ];
            example(name, &reader, &steps)
        })
        .into()
}

/// A locked reader that found, in pieces.
fn of_receivers() -> Vec<Example> {
    let both = format!("{PASSWORD_5} {PARAMETERS}");
    let steps = [
        ("EF 01 A 01", 7, "", "EF 01 A 01"),
        ("00 03 0F", 3, "", "EF 01 A 01 00 03 0F"),
        ("00 13 EF 01 A", 8, STATUS_0, "EF 01 A"),
        ("01 00 04 0F 00 00 14", 7, DAMAGED, ""),
        ("EF 01 A 01 00 03 0F 00", 11, "", "EF 01 A 01 00 03 0F 00"),
        ("14", 1, DAMAGED, ""),
        (&both[..], 28, FINE, PARAMETERS),
        ("", 0, STATUS_6, ""),
    ];
    vec![pieces("a fitter's packets in pieces", &locked(&open(true)), &steps)]
}
