//! The table of examples P1 to P12, and examples of document 02's requests [1] to [3] and [5].

use super::*;
use crate::reader::SET;

pub fn all() -> Vec<Example> {
    let all = [of_document_01(), of_receiver(), of_sizes(), of_lengths(), of_size_code_3(), of_stores()];
    all.into_iter().flatten().collect()
}

fn of_document_01() -> Vec<Example> {
    let fresh = fresh_reader(10);
    let locked = locked(&fresh);
    let two_stored = two_stored();
    vec![
        example("P1", &fresh, &[(HAND_SHAKE, 12, FINE)]),
        example("P2", &fresh, &[("", 0, "")]),
        example("P3", &fresh, &[("41 EF", 1, "")]),
        example("P4", &fresh, &[("EF 01 A 01 00 03 40 00 45", 12, "EF 01 A 07 00 03 01 00 0B")]),
        example("P5", &fresh, &[("EF 01 00 00 00 00 01 00 03 40 00 44", 12, "")]),
        example("P6", &fresh, &[("EF 01 A 01 00 02 40", 2, "")]),
        example("P7", &fresh, &[("EF 01 A 01 01 01 40", 2, ""), ("EF 01 A 01 01 00 40", 0, "")]),
        example("P8", &fresh, &[(COUNT, 12, &count(0))]),
        example("P9", &locked, &[(COUNT, 12, LOCKED)]),
        example("P10", &locked, &[("EF 01 A 01 00 07 13 00 00 00 05 00 20", 16, FINE), (COUNT, 12, &count(0))]),
        example("P11", &two_stored, &[(COUNT, 12, &count(2)), (DELETE_9_1, 16, FINE), (COUNT, 12, &count(1))]),
        example("P12", &two_stored, &[(DELETE_9_2, 16, NOT_DELETED), (DELETE_0_0, 16, FINE), (COUNT, 12, &count(2))]),
    ]
}

/// A fresh reader with an empty receiver: a piece, the bytes taken of it, the reply, and the bytes held afterwards.
fn of_receiver() -> Vec<Example> {
    let longest_command = format!("EF 01 A 01 01 00{} 00 02", zeroes(254));
    let longest = data("02 01 02", "00", 256, "00 05");
    let (cut, last) = longest.split_at(longest.len() - 3);
    let (cut_before, last_but_one) = cut.split_at(cut.len() - 3);
    let behind = format!("{} 05 77", zeroes(243));
    let inside = format!("A 01 01 01 {HAND_SHAKE} {behind}");
    let fresh = fresh_reader(10);
    let example = |name, steps: &[(&str, usize, &str, &str)]| pieces(name, &fresh, steps);
    vec![
        example("an empty piece", &[("", 0, "", "")]),
        example(
            "P1 in three pieces",
            &[("EF", 1, "", "EF"), ("01 A 01 00", 7, "", "EF 01 A 01 00"), ("03 40 00 44", 4, FINE, "")],
        ),
        example(
            "P1 and P8 in one piece",
            &[(&format!("{HAND_SHAKE} {COUNT}"), 24, FINE, COUNT), ("", 0, &count(0), ""), ("", 0, "", "")],
        ),
        example("noise", &[(&"41".repeat(300), 267, "", ""), ("41 EF", 2, "", "EF"), ("41", 1, "", "")]),
        example("P6 in one piece", &[("EF 01 A 01 00 02 40", 10, "", "A 01 00 02 40"), ("", 0, "", "")]),
        example(
            "the longest command, code 00h, and P1",
            &[
                (&format!("{longest_command} {HAND_SHAKE}"), 267, UNKNOWN, "EF 01"),
                ("A 01 00 03 40 00 44", 10, FINE, ""),
            ],
        ),
        example(
            "the longest packet, in a transfer of 128, and P1",
            &[
                (DOWN_CHAR_1, 13, FINE, ""),
                (&format!("{longest} {HAND_SHAKE}"), 267, FAILED, ""),
                (HAND_SHAKE, 12, FINE, ""),
            ],
        ),
        example(
            "the longest packet but for two bytes, then these one by one and P1",
            &[
                (DOWN_CHAR_1, 13, FINE, ""),
                (cut_before, 265, "", cut_before),
                (last_but_one, 1, "", cut),
                ("", 0, "", cut),
                (&format!("{last} {HAND_SHAKE}"), 1, FAILED, ""),
            ],
        ),
        example(
            "noise before the longest packet",
            &[
                (DOWN_CHAR_1, 13, FINE, ""),
                (&format!("41 {longest}"), 267, "", cut),
                ("", 0, "", cut),
                (last, 1, FAILED, ""),
            ],
        ),
        example(
            "P1 in a command of length 257",
            &[(&format!("EF 01 {inside}"), 266, "", &inside), ("", 0, FINE, &behind), ("", 0, "", "")],
        ),
    ]
}

/// A fresh reader, but for a stored size code.
fn stored_reader(size_code: u8) -> Reader {
    let mut reader = fresh_reader(10);
    reader.settings.size_code = size_code;
    reader
}

/// What readers with fresh settings and with a stored size code take. That ours start so `of_frames` shows.
fn of_sizes() -> Vec<Example> {
    let fresh = fresh_reader(10);
    let stored = stored_reader(1);
    let data_64 = data("02 00 42", "00", 64, "00 44");
    let data_128 = data("02 00 82", "00", 128, "00 84");
    let code_1 = "EF 01 A 07 00 13 00 0000 0000 000A 0003 A 0001 0006 04 2A";
    let code_2 = "EF 01 A 07 00 13 00 0000 0000 000A 0003 A 0002 0006 04 2B";
    vec![
        example("128 at once", &fresh, &[(PARAMETERS, 12, code_2), (DOWN_CHAR_1, 13, FINE), (&data_128, 139, "")]),
        example("64 unasked", &fresh, &[(DOWN_CHAR_1, 13, FINE), (&data_64, 75, FAILED), (&data_64, 75, "")]),
        example("64 asked for", &fresh, &[(SIZE_CODE_1, 14, FINE), (DOWN_CHAR_1, 13, FINE), (&data_64, 75, "")]),
        example("64 stored", &stored, &[(DOWN_CHAR_1, 13, FINE), (&data_64, 75, ""), (PARAMETERS, 12, code_1)]),
    ]
}

/// A fresh reader at the greatest lengths: 258 with identifiers 2 and 8, and 256 with 1 and 7.
fn of_lengths() -> Vec<Example> {
    let fresh = fresh_reader(10);
    let data_254 = data("08 01 00", "11", 254, "10 E7");
    let data_255 = data("02 01 01", "11", 255, "10 F3");
    let data_256 = data("08 01 02", "11", 256, "11 0B");
    let data_257 = data("02 01 03", "11", 257, "11 17");
    let inside = format!("A 01 01 02 {HAND_SHAKE}{} 05 78", zeroes(244));
    let fails = |packet| [(DOWN_CHAR_1, 13, FINE), packet];
    vec![
        example("2, length 258", &fresh, &[("EF 01 A 02 01 02 40", 0, ""), ("EF 01 A 02 01 03 40", 2, "")]),
        example("8, length 258", &fresh, &[("EF 01 A 08 01 02 40", 0, ""), ("EF 01 A 08 01 03 40", 2, "")]),
        example("7, length 256", &fresh, &[("EF 01 A 07 01 00 40", 0, ""), ("EF 01 A 07 01 01 40", 2, "")]),
        example("1, length 258", &fresh, &[("EF 01 A 01 01 02 40", 2, "")]),
        example("7, length 258", &fresh, &[("EF 01 A 07 01 02 40", 2, "")]),
        example("P1 in a command of length 258", &fresh, &[(&format!("EF 01 {inside}"), 2, ""), (&inside, 19, FINE)]),
        example("length 256 in a transfer", &fresh, &fails((&data_254, 265, FAILED))),
        example("length 257 in a transfer", &fresh, &fails((&data_255, 266, FAILED))),
        example("length 258 in a transfer", &fresh, &fails((&data_256, 267, FAILED))),
        example("length 259 in a transfer", &fresh, &fails((&data_257, 2, ""))),
        example("without a transfer", &fresh, &[(&data_254, 265, ""), (&data_255, 266, ""), (&data_256, 267, "")]),
    ]
}

/// A reader with size code 3.
fn of_size_code_3() -> Vec<Example> {
    let fresh = fresh_reader(10);
    let stored = stored_reader(3);
    let first = data("02 01 02", "11", 256, "11 05");
    let last = data("08 01 02", "22", 256, "22 0B");
    let half = data("02 00 82", "11", 128, "09 04");
    let code_3 = "EF 01 A 07 00 13 00 0000 0000 000A 0003 A 0003 0006 04 2C";
    let out_of_range = "EF 01 A 07 00 03 1B 00 25";
    let upload = format!("{FINE} {first} {last}");
    vec![
        example("256 asked for", &fresh, &[(SIZE_CODE_3, 14, FINE), (PARAMETERS, 12, code_3)]),
        example("size code 4", &stored, &[(SIZE_CODE_4, 14, out_of_range), (PARAMETERS, 12, code_3)]),
        example(
            "256 both ways",
            &stored,
            &[(DOWN_CHAR_1, 13, FINE), (&first, 267, ""), (&last, 267, ""), (UP_CHAR_1, 13, &upload)],
        ),
        example("2 at the end of 256", &stored, &[(DOWN_CHAR_1, 13, FINE), (&first, 267, ""), (&first, 267, FAILED)]),
        example("8 at the start of 256", &stored, &[(DOWN_CHAR_1, 13, FINE), (&last, 267, FAILED)]),
        example("128 in a transfer of 256", &stored, &[(DOWN_CHAR_1, 13, FINE), (&half, 139, FAILED)]),
    ]
}

/// The reader of P11, its pages zero, with buffer 1 filled: Store to page 9.
fn of_stores() -> Vec<Example> {
    let mut zero = two_stored();
    zero.settings.filled[0] = SET;
    let mut filled = zero.clone();
    filled.buffers[0].fill(0x11);
    let data_64 = data("02 00 42", "00", 64, "00 44");
    let old = upload_128("00", "00 84", "00 8A");
    let new = upload_128("11", "09 04", "09 0A");
    vec![
        example(
            "Store to a stored page",
            &filled,
            &[(STORE_1_9, 15, STORED), (COUNT, 12, &count(2)), (LOAD_CHAR_2_9, 15, FINE), (UP_CHAR_2, 13, &old)],
        ),
        example(
            "Store to a deleted page",
            &filled,
            &[(DELETE_9_1, 16, FINE), (STORE_1_9, 15, FINE), (LOAD_CHAR_2_9, 15, FINE), (UP_CHAR_2, 13, &new)],
        ),
        example("the same bytes to a stored page", &zero, &[(STORE_1_9, 15, STORED)]),
        example("not filled and stored", &filled, &[(STORE_2_9, 15, NOT_FILLED)]),
        example("locked and stored", &locked(&filled), &[(STORE_1_9, 15, LOCKED)]),
        example(
            "Store to a stored page in a transfer",
            &filled,
            &[(DOWN_CHAR_2, 13, FINE), (STORE_1_9, 15, STORED), (&data_64, 75, ""), (UP_CHAR_1, 13, &new)],
        ),
    ]
}

/// Frames: fresh settings, and settings and held counts that do not fit or just fit.
pub fn frames() -> Vec<Frames> {
    let example = |name, frame_in: &str, frame_out: &str| (name, bytes(frame_in), bytes(frame_out));
    // C = 1, all memory zeroed, one score and five thresholds, P1's run and a reply room of 700 bytes.
    let lengths = "00000200 00000080 00000200 00000200 00000200 00000001 00000005 0000000C 000002BC";
    let memory = zeroes(512 + 128 + 3 * 512);
    let room = room();
    let unfit = "00000000 A 03 04 06 00 0000 0000 00 00 00 00 FFFF FFFF";
    let held_268 = format!("010C{}", " 41".repeat(267));
    let held_267 = format!("010B{}", " 41".repeat(267));
    let held_none = format!("0000{}", zeroes(267));
    vec![
        example(
            "fresh settings for unfit ones, with unfit lengths",
            "04 01234567 89ABCDEF 00 04 0D 07 1234 FFFF 02 80 FF 03 FFFE 0000
             00000003 00000001 00000000 00000002 00000001 00000002 00000001 00000002 00000004
             010203 FF 0405 06 1234FFFF 8001 EF01 0708090A",
            "00 00000000 00000000 00000000 A 03 02 06 00 0000 0000 00 00 00 00 FFFF FFFF
             010203 FF 0405 06 0708090A",
        ),
        example(
            "fresh settings for stored ones, with P1's run",
            "04 00000005 89ABCDEF 05 01 0C 02 0001 0040 01 01 00 01 0007 FFFF
             00000000 00000000 00000000 00000000 00000000 00000000 00000000 0000000C 00000001
             EF 01 A 01 00 03 40 00 44 5A",
            "00 00000000 00000000 00000000 A 03 02 06 00 0000 0000 00 00 00 00 FFFF FFFF
             5A",
        ),
        example(
            "refusal 3 for size code 4",
            &format!("00 {unfit} {lengths} {memory} {CHIP} {HAND_SHAKE} {room}"),
            &format!("03 00000000 00000000 {unfit} {memory} {room}"),
        ),
        example(
            "refusal 3 for a held count of 268",
            &format!("02 {FRESH_SETTINGS} {lengths} {held_268} {memory} {CHIP} {HAND_SHAKE} {room}"),
            &format!("03 00000000 00000000 {FRESH_SETTINGS} {held_268} {memory} {room}"),
        ),
        example(
            "a held count of 267, all noise",
            &format!("02 {FRESH_SETTINGS} {lengths} {held_267} {memory} {CHIP} {HAND_SHAKE} {room}"),
            &format!("00 00000000 00000000 {FRESH_SETTINGS} {held_none} {memory} {room}"),
        ),
    ]
}
