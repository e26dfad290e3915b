//! Examples of document 02's request [6]: pages above 255, index pages, and in frames indexes that do not fit and that
//! are brought over.

use super::*;
use crate::reader::SET;

pub fn all() -> Vec<Example> {
    [of_pages(), of_index_pages(), of_pages_received()].into_iter().flatten().collect()
}

pub fn frames() -> Vec<Frames> {
    [of_unfit_indexes(), of_brought_over()].concat()
}

/// Readers of 257 and of 1000 pages with buffer 1 filled.
fn of_pages() -> Vec<Example> {
    let [few, many] = [257, 1000].map(|capacity| {
        let mut reader = fresh_reader(capacity);
        reader.settings.filled[0] = SET;
        reader.buffers[0].fill(0x11);
        reader
    });
    let store_256 = "EF 01 A 01 00 06 06 01 01 00 00 0F";
    let store_257 = "EF 01 A 01 00 06 06 01 01 01 00 10";
    let store_999 = "EF 01 A 01 00 06 06 01 03 E7 00 F8";
    let store_1000 = "EF 01 A 01 00 06 06 01 03 E8 00 F9";
    let load_0 = "EF 01 A 01 00 06 07 02 00 00 00 10";
    let load_256 = "EF 01 A 01 00 06 07 02 01 00 00 11";
    let load_999 = "EF 01 A 01 00 06 07 02 03 E7 00 FA";
    let delete_256_1 = "EF 01 A 01 00 07 0C 01 00 00 01 00 16";
    let delete_0_999 = "EF 01 A 01 00 07 0C 00 00 03 E7 00 FE";
    let upload = upload_128("11", "09 04", "09 0A");
    vec![
        example(
            "page 256 of 257",
            &few,
            &[
                (store_256, 15, FINE),
                (store_257, 15, BEYOND),
                (load_0, 15, VACANT),
                (load_256, 15, FINE),
                (UP_CHAR_2, 13, &upload),
                (delete_256_1, 16, FINE),
                (load_256, 15, VACANT),
            ],
        ),
        example(
            "page 999 of 1000",
            &many,
            &[
                (store_999, 15, FINE),
                (store_999, 15, STORED),
                (store_1000, 15, BEYOND),
                (delete_0_999, 16, FINE),
                (COUNT, 12, &count(1)),
                (load_999, 15, FINE),
                (UP_CHAR_2, 13, &upload),
            ],
        ),
    ]
}

/// A reader of 257 pages with an empty receiver and buffer 1 filled: page 256 stored, loaded, deleted and emptied.
fn of_pages_received() -> Vec<Example> {
    let mut reader = fresh_reader(257);
    reader.settings.filled[0] = SET;
    let steps = "0F: 00 0000 0000 0101 0003 A 0002 0006, 06 01 0100: 00, 1D: 00 0001, 07 02 0000: 0C, 07 02 0100: 00,
                 0C 00FF 0002: 00, 1D: 00 0000, 07 02 0100: 0C";
    let mut emptied = reader.clone();
    emptied.index[32] = 0x01;
    let received = |name, reader, steps| exchanges(name, Some(Receiver::empty()), reader, steps);
    vec![
        received("page 256 received", &reader, steps),
        received("page 256 emptied by a receiver", &emptied, "0C 0100 0001: 00, 06 01 0100: 00, 0D: 00"),
    ]
}

/// Readers of 1000 pages: none, all and the last page stored; and the reader of P11.
fn of_index_pages() -> Vec<Example> {
    let none = fresh_reader(1000);
    let mut all = none.clone();
    all.index[..125].fill(0xFF);
    let mut last = none.clone();
    last.index[124] = 0x80;
    let pages = ["00 00 24", "01 00 25", "02 00 26", "03 00 27", "04 00 28", "FF 01 23"];
    let [page_0, page_1, page_2, page_3, page_4, page_255] = pages.map(|page| format!("EF 01 A 01 00 04 1F {page}"));
    let listed = |bytes: &str, sum: &str| format!("EF 01 A 07 00 23 00 {bytes} {sum}");
    let zero = listed(&zeroes(32), "00 2A");
    let full = listed(&"FF".repeat(32), "20 0A");
    let full_to_999 = listed(&format!("{} 00 00 00", "FF".repeat(29)), "1D 0D");
    let only_999 = listed(&format!("{} 80 00 00 00", zeroes(28)), "00 AA");
    let only_0_and_9 = listed(&format!("01 02 {}", zeroes(30)), "00 2D");
    let parameters = "EF 01 A 07 00 13 00 0000 0000 03E8 0003 A 0002 0006 05 0C";
    let delete_256_744 = "EF 01 A 01 00 07 0C 01 00 02 E8 00 FF";
    let delete_256_745 = "EF 01 A 01 00 07 0C 01 00 02 E9 01 00";
    let count_1000 = "EF 01 A 07 00 05 00 03 E8 00 F7";
    let count_256 = "EF 01 A 07 00 05 00 01 00 00 0D";
    let empty = "EF 01 A 01 00 03 0D 00 11";
    vec![
        example("none of 1000 stored", &none, &[(PARAMETERS, 12, parameters), (COUNT, 12, &count(0))]),
        example("all of 1000 read", &all, &[(&page_0, 13, &full), (&page_3, 13, &full_to_999)]),
        example(
            "all of 1000 deleted",
            &all,
            &[
                (COUNT, 12, count_1000),
                (delete_256_745, 16, NOT_DELETED),
                (delete_256_744, 16, FINE),
                (COUNT, 12, count_256),
                (&page_1, 13, &zero),
                (empty, 12, FINE),
                (COUNT, 12, &count(0)),
            ],
        ),
        example(
            "the last of 1000 emptied",
            &last,
            &[(&page_3, 13, &only_999), (empty, 12, FINE), (&page_3, 13, &zero)],
        ),
        example(
            "index pages at C = 10",
            &two_stored(),
            &[
                (&page_0, 13, &only_0_and_9),
                (&page_1, 13, &zero),
                (&page_2, 13, &zero),
                (&page_3, 13, &zero),
                (&page_4, 13, BEYOND),
                (&page_255, 13, BEYOND),
            ],
        ),
    ]
}

/// A fresh reader with C = 1 and an index of a wrong length or with a bit at or above C.
fn of_unfit_indexes() -> Vec<Frames> {
    let room = room();
    let example = |name, refusal: &str, index_length: &str, index: &str| {
        let lengths = format!("00000200 {index_length} 00000200 00000200 00000200 00000001 00000005 0000000C 000002BC");
        let memory = format!("{} {index} {}", zeroes(512), zeroes(3 * 512));
        let frame_in = format!("00 {FRESH_SETTINGS} {lengths} {memory} {CHIP} {HAND_SHAKE} {room}");
        let frame_out = format!("{refusal} 00000000 00000000 {FRESH_SETTINGS} {memory} {room}");
        (name, bytes(&frame_in), bytes(&frame_out))
    };
    vec![
        example("refusal 1 for an index of 32 bytes", "01", "00000020", &zeroes(32)),
        example("refusal 1 for an index of 127 bytes", "01", "0000007F", &zeroes(127)),
        example("refusal 1 for an index of 129 bytes", "01", "00000081", &zeroes(129)),
        example("refusal 3 for page 1", "03", "00000080", &format!("02 {}", zeroes(127))),
        example("refusal 3 for page 256", "03", "00000080", &format!("{} 01 {}", zeroes(32), zeroes(95))),
        example("refusal 3 for page 1023", "03", "00000080", &format!("{} 80", zeroes(127))),
    ]
}

/// A stored index that is brought over or not, with settings, templates and buffers that no call takes.
fn of_brought_over() -> Vec<Frames> {
    let settings = "01234567 89ABCDEF 00 04 0D 07 1234 FFFF 02 80 FF FE 03E8 FFFE";
    let example = |name, refusal: &str, lent: (&str, &str), stored: (&str, &str), left: &str| {
        let lengths = format!("00000003 {} 00000000 00000002 00000001 00000000 00000001 {} 00000004", lent.0, stored.0);
        let frame_in = format!("05 {settings} {lengths} 010203 {} 0405 06 EF01 {} 0708090A", lent.1, stored.1);
        let frame_out = format!("{refusal} 00000000 00000000 {settings} 010203 {left} 0405 06 0708090A");
        (name, bytes(&frame_in), bytes(&frame_out))
    };
    let stored_31 = "01 02 04 08 10 20 40 80 FE FD FB F7 EF DF BF 7F 00 FF 0F F0 AA 55 12 34 56 78 9A BC DE F1 EF";
    let stored_32 = format!("{stored_31} 01");
    let stored_33 = format!("{stored_32} 00");
    let [lent_32, lent_127, lent_128, lent_129] = [32, 127, 128, 129].map(|length| "A5".repeat(length));
    let stored_128 = "5A".repeat(128);
    let stored = ("00000020", &stored_32[..]);
    let lent = ("00000080", &lent_128[..]);
    vec![
        example("an index brought over", "00", lent, stored, &format!("{stored_32} {}", zeroes(96))),
        example("31 bytes not brought over", "01", lent, ("0000001F", stored_31), &lent_128),
        example("33 bytes not brought over", "01", lent, ("00000021", &stored_33), &lent_128),
        example("128 bytes not brought over", "01", lent, ("00000080", &stored_128), &lent_128),
        example("no bytes not brought over", "01", lent, ("00000000", ""), &lent_128),
        example(
            "31 bytes not brought over into 127",
            "01",
            ("0000007F", &lent_127),
            ("0000001F", stored_31),
            &lent_127,
        ),
        example(
            "128 bytes not brought over into 32",
            "01",
            ("00000020", &lent_32),
            ("00000080", &stored_128),
            &lent_32,
        ),
        example("none brought over into 32 bytes", "01", ("00000020", &lent_32), stored, &lent_32),
        example("none brought over into 127 bytes", "01", ("0000007F", &lent_127), stored, &lent_127),
        example("none brought over into 129 bytes", "01", ("00000081", &lent_129), stored, &lent_129),
    ]
}
