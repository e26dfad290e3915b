//! The stored dialogue with the bench program: what a host sends, and beside it what it must get, written by hand from
//! document 01 and document 02's requests [2], [3], [5] to [8] and [13].

use crate::dialogue::coverage::ROWS;
use crate::dialogue::host::{packet, Exchange, Host, FRESH};
use crate::dialogue::templates::{first, second, third};
use crate::examples::{bytes, count, COUNT, FINE, HAND_SHAKE};
use crate::reader::{ACKNOWLEDGE, COMMAND, DATA, INDEX_PAGE, LAST_DATA, NOTE};

const OTHER: [u8; 4] = [0; 4];

const SCENES: &[fn(&mut Host)] = &[
    fresh,
    refused_rows,
    first_download,
    unasked_64,
    asked_64,
    noise,
    wrong_sums,
    other_addresses,
    out_of_turn,
    too_long,
    bad_headers,
    noise_inside,
    unknown_codes,
    wrong_lengths,
    settings,
    notepad,
    transfers_of_256,
    transfer_of_32,
    replaced,
    failed_transfers,
    long_data,
    transfers_broken_off,
    delete,
    empty,
    new_driver,
    stored_page,
    deleted_first,
    searches,
    search_codes,
    searches_between,
    lock,
    fitter,
    locked,
    passwords,
    addresses,
    leavers,
    unfinished,
];

pub fn dialogue() -> Vec<Exchange> {
    let mut host = Host::new();
    for scene in SCENES {
        scene(&mut host);
    }
    host.exchanges
}

/// The bench program's own example, then a fresh reader looked at.
fn fresh(host: &mut Host) {
    host.sends("P1", &bytes(HAND_SHAKE), &bytes(FINE));
    host.sends("P8", &bytes(COUNT), &bytes(&count(0)));
    host.parameters("fresh parameters", 0, 3, 2, 6);
    host.index("fresh index", "");
    host.reads("fresh notepad page 15", "19 0F", &[0; NOTE]);
}

/// What the rows refuse while all is empty; where two tests fail, the left one gives the code.
fn refused_rows(host: &mut Host) {
    host.commands(&[
        ("Search buffer 0", "04 00 0000 0040", 0x01),
        ("Search start 64, not filled: start first", "04 01 0040 0001", 0x0B),
        ("Search not filled", "04 01 0000 0040", 0x0C),
        ("Store buffer 0", "06 00 0000", 0x01),
        ("Store buffer 3, page beyond: buffer first", "06 03 0040", 0x01),
        ("Store page 64, not filled: page first", "06 01 0040", 0x0B),
        ("Store page 256", "06 02 0100", 0x0B),
        ("Store not filled", "06 01 0000", 0x0C),
        ("LoadChar buffer 0", "07 00 0000", 0x01),
        ("LoadChar buffer 3, page beyond", "07 03 FFFF", 0x01),
        ("LoadChar page 64", "07 01 0040", 0x0B),
        ("LoadChar page 256", "07 01 0100", 0x0B),
        ("LoadChar bit clear", "07 01 003F", 0x0C),
        ("UpChar buffer 0", "08 00", 0x01),
        ("UpChar buffer 3", "08 03", 0x01),
        ("UpChar not filled", "08 02", 0x0D),
        ("DownChar buffer 0", "09 00", 0x01),
        ("DownChar buffer 3", "09 03", 0x01),
    ]);
    host.silent("and no transfer was opened", &host.packet(DATA, &[0]));
    host.command("ReadIndexTable page 4", "1F 04", 0x0B);
    host.command("ReadIndexTable page 255", "1F FF", 0x0B);
    host.command("ReadNotepad page 16", "19 10", 0x1C);
    host.write_note("WriteNotepad page 16", 16, &[0; NOTE], 0x1C);
    host.write_note("WriteNotepad page 255", 255, &[7; NOTE], 0x1C);
}

/// The first download at a new vault, at 128 bytes with nothing set; it is stored, and uploaded back at 128.
fn first_download(host: &mut Host) {
    host.download("first download", 1, &first(), 128, &[]);
    host.silent("one more data packet after the last", &host.packet(LAST_DATA, &[0; 32]));
    host.commands(&[
        ("Store page 0", "06 01 0000", 0x00),
        ("Store page 9", "06 01 0009", 0x00),
        ("Store page 63", "06 01 003F", 0x00),
        ("Store page 64", "06 01 0040", 0x0B),
        ("buffer 2 is still not filled", "08 02", 0x0D),
        ("Store from buffer 2", "06 02 0001", 0x0C),
    ]);
    host.count("three stored", 3);
    host.index("pages 0, 9 and 63", "01 02 00 00 00 00 00 80");
    for page in ["1F 01", "1F 02", "1F 03"] {
        host.reads(&format!("ReadIndexTable: {page}"), page, &[0; INDEX_PAGE]);
    }
    host.command("LoadChar 2 from page 0", "07 02 0000", 0x00);
    host.upload("UpChar by 128", 2, &first(), 128);
}

/// A host that sends 64 bytes without asking: 0Eh for its first data packet and silence for the others.
fn unasked_64(host: &mut Host) {
    let parts = host.parts(&second(), 64);
    host.command("64 unasked: DownChar 2", "09 02", 0x00);
    host.gets("64 unasked: the first data packet", &parts[0], 0x0E);
    host.silent("64 unasked: the next and the last", &[&parts[1][..], &parts[7]].concat());
    host.command("64 unasked: not filled", "08 02", 0x0D);
}

/// A host that sets code 1 first is served at 64 bytes.
fn asked_64(host: &mut Host) {
    host.command("size code 1", "0E 06 01", 0x00);
    host.download("size 64", 2, &second(), 64, &[]);
    host.upload("UpChar by 64", 2, &second(), 64);
    host.commands(&[
        ("Store page 7", "06 02 0007", 0x00),
        ("Store page 8", "06 02 0008", 0x00),
        ("Store page 7 again", "06 02 0007", 0x22),
    ]);
    host.index("pages 0, 7, 8, 9 and 63", "81 03 00 00 00 00 00 80");
    host.count("five stored", 5);

    host.command("DownChar 1 at size 64", "09 01", 0x00);
    let parts = [host.packet(DATA, &[0x44; 64]).repeat(6), host.packet(LAST_DATA, &[0x44; 128])].concat();
    host.gets("six parts, then 8 with two sizes in it: the total is 512, yet 0Eh", &parts, 0x0E);
    host.command("buffer 1 is not filled", "08 01", 0x0D);
}

fn noise(host: &mut Host) {
    host.silent("noise only", &bytes("41 00 01 FF 07 EE 01 EF 00 EF EF"));
    host.silent("the EF left over, then 01 would be a header: here 02", &bytes("02"));
    host.gets("noise before a packet, EF EF 01", &bytes(&format!("12 34 01 EF {HAND_SHAKE}")), 0x00);
    host.gets("noise after a packet", &bytes(&format!("{HAND_SHAKE} 01 EF 02 55")), 0x00);
    host.gets("a header before a packet: identifier FF, used 2", &bytes(&format!("EF 01 {HAND_SHAKE}")), 0x00);
    let headers = bytes(&format!("EF 01 EF 01 EF 01 {COUNT}"));
    host.sends("three headers before a packet", &headers, &bytes(&count(5)));
}

fn wrong_sums(host: &mut Host) {
    host.gets("P4: wrong sum on a command", &bytes("EF 01 A 01 00 03 40 00 45"), 0x01);
    host.gets("wrong sum, high byte", &bytes("EF 01 A 01 00 03 40 01 44"), 0x01);
}

fn other_addresses(host: &mut Host) {
    host.silent("P5: another reader's address", &bytes("EF 01 00 00 00 00 01 00 03 40 00 44"));
    host.silent("another address, in one byte", &bytes("EF 01 FF FF FF FE 01 00 03 40 00 44"));
    host.silent("another address, wrong sum: silent too", &bytes("EF 01 FF FF FF FE 01 00 03 40 00 45"));
    let inside = packet(OTHER, COMMAND, &bytes(HAND_SHAKE), 0);
    host.silent("another address: a whole packet for us inside is content", &inside);
}

/// Packets that are not rescanned, and those that no transfer waits for.
fn out_of_turn(host: &mut Host) {
    let inside = host.damaged(COMMAND, &bytes(&format!("40 {HAND_SHAKE}")), 1);
    host.gets("wrong sum: a whole packet for us inside is not run", &inside, 0x01);
    host.gets("unknown code, wrong sum", &host.damaged(COMMAND, &[0x99], 1), 0x01);
    host.silent("acknowledge packet", &host.packet(ACKNOWLEDGE, &[0x00]));
    host.silent("acknowledge packet, wrong sum", &host.damaged(ACKNOWLEDGE, &[0x00], 9));
    host.silent("acknowledge packet with a command in it", &host.packet(ACKNOWLEDGE, &bytes(COUNT)));
    let data = [host.packet(DATA, &[0; 64]), host.packet(LAST_DATA, &[0; 64])].concat();
    host.silent("data without a transfer", &data);
    let data = [host.damaged(DATA, &[0; 64], 1), host.damaged(LAST_DATA, &bytes(HAND_SHAKE), 1)].concat();
    host.silent("data without a transfer, wrong sum", &data);
    let longest = [&[0x40][..], &[0; 253]].concat();
    host.gets("longest command packet, 265 bytes, code 40h", &host.packet(COMMAND, &longest), 0x01);
    let longest = [&bytes(HAND_SHAKE)[..], &[0; 244]].concat();
    host.silent("longest data packet, 267 bytes", &host.packet(DATA, &longest));
    host.silent("data packet of length 257", &host.packet(LAST_DATA, &longest[..255]));
}

/// Past the greatest length no packet starts, and a whole command inside is found.
fn too_long(host: &mut Host) {
    let inside = [&bytes(HAND_SHAKE)[..], &[0; 245]].concat();
    host.gets("a command of length 257", &host.packet(COMMAND, &inside[..255]), 0x00);
    host.gets("a command of length 258", &host.packet(COMMAND, &inside[..256]), 0x00);
    host.gets("an acknowledge of length 257", &host.packet(ACKNOWLEDGE, &inside[..255]), 0x00);
    host.gets("an acknowledge of length 258", &host.packet(ACKNOWLEDGE, &inside[..256]), 0x00);
    host.gets("a data packet of length 259", &host.packet(DATA, &inside), 0x00);
}

fn bad_headers(host: &mut Host) {
    host.silent("bad length 0000", &bytes("EF 01 A 01 00 00 40 00 44"));
    host.silent("bad length 0002", &bytes("EF 01 A 01 00 02 40 00 44"));
    host.silent("bad length 0101", &bytes("EF 01 A 01 01 01 40 00 44"));
    host.silent("bad length 0102", &bytes("EF 01 A 01 01 02 40 00 44"));
    host.silent("bad length 0103 for a data packet", &bytes("EF 01 A 08 01 03 40 00 44"));
    host.silent("bad length 0300", &bytes("EF 01 A 01 03 00 40 00 44"));
    let inside = bytes(&format!("EF 01 A 01 01 01 {HAND_SHAKE}"));
    host.gets("bad length, then a packet at once inside it", &inside, 0x00);
    for identifier in [0x00, 0x03, 0x04, 0x05, 0x06, 0x09, 0x81, 0xFF] {
        host.silent(&format!("bad identifier {identifier:02X}"), &host.packet(identifier, &[0x40]));
    }
    let inside = host.packet(0x06, &bytes(COUNT));
    host.sends("bad identifier: a packet inside it is found", &inside, &bytes(&count(5)));
}

/// A byte too many, or too few.
fn noise_inside(host: &mut Host) {
    host.silent("noise inside the header", &bytes("EF 41 01 A 01 00 03 40 00 44"));
    host.silent("noise inside the address", &bytes("EF 01 FF FF 41 FF FF 01 00 03 40 00 44"));
    host.silent("noise before the length", &bytes("EF 01 A 01 41 00 03 40 00 44"));
    host.gets("noise inside the content, the last byte is left over", &bytes("EF 01 A 01 00 03 41 40 00 44"), 0x01);
    host.gets("noise inside the sum", &bytes("EF 01 A 01 00 03 40 00 41 44"), 0x01);
    let lost = bytes(&format!("EF 01 A 01 00 03 40 00 {COUNT}"));
    host.gets("a lost last byte: the next packet's EF is in the sum, its rest is noise", &lost, 0x01);
    host.silent("a lost EF", &bytes("01 A 01 00 03 40 00 44"));
    host.command("and all is well", "40", 0x00);
}

fn unknown_codes(host: &mut Host) {
    for code in bytes("00 01 02 03 05 0A 0B 10 11 14 16 17 1A 1B 1C 1E 20 35 3F 41 C0 FF") {
        host.gets(&format!("unknown code {code:02X}"), &host.packet(COMMAND, &[code]), 0x19);
    }
    host.command("unknown code with parameters", "20 01 02 03 04", 0x19);
}

/// One byte too few and one too many; a length field below 3 is no packet.
fn wrong_lengths(host: &mut Host) {
    for (command, length, _) in ROWS {
        for wrong in [length - 1, length + 1].into_iter().filter(|&wrong| wrong >= 3) {
            let mut content = vec![0; wrong - 2];
            content[0] = command;
            host.gets(&format!("length {wrong} for {command:02X}"), &host.packet(COMMAND, &content), 0x01);
        }
    }
}

fn settings(host: &mut Host) {
    host.commands(&[
        ("SetSysPara, baud factor 0", "0E 04 00", 0x1B),
        ("SetSysPara, baud factor 13", "0E 04 0D", 0x1B),
        ("SetSysPara, level 0", "0E 05 00", 0x1B),
        ("SetSysPara, level 6", "0E 05 06", 0x1B),
        ("SetSysPara, size code 4", "0E 06 04", 0x1B),
        ("SetSysPara, size code 255", "0E 06 FF", 0x1B),
        ("SetSysPara, number 3", "0E 03 01", 0x1A),
        ("SetSysPara, number 7", "0E 07 01", 0x1A),
        ("SetSysPara, number 0", "0E 00 FF", 0x1A),
        ("SetSysPara, number 255", "0E FF 00", 0x1A),
    ]);
    host.parameters("nothing changed, size code 1 is kept", 0, 3, 1, 6);
    host.commands(&[
        ("SetSysPara, baud factor 12", "0E 04 0C", 0x00),
        ("SetSysPara, level 1", "0E 05 01", 0x00),
        ("SetSysPara, size code 0", "0E 06 00", 0x00),
    ]);
    host.parameters("three set", 0, 1, 0, 12);
    host.commands(&[
        ("SetSysPara, baud factor 1", "0E 04 01", 0x00),
        ("SetSysPara, level 5", "0E 05 05", 0x00),
        ("SetSysPara, size code 2", "0E 06 02", 0x00),
    ]);
    host.parameters("three set again", 0, 5, 2, 1);
    host.command("baud factor back", "0E 04 06", 0x00);
    host.command("SetSysPara, size code 3", "0E 06 03", 0x00);
    host.parameters("size code 3", 0, 5, 3, 6);
}

fn notepad(host: &mut Host) {
    let counting: Vec<u8> = (0xE0..=0xFF).collect();
    let packets = bytes(&format!("{HAND_SHAKE} {COUNT} EF 01 EF 01 EF 01 EF 01"));
    host.write_note("WriteNotepad page 15", 15, &counting, 0x00);
    host.write_note("WriteNotepad page 1", 1, &packets, 0x00);
    host.reads("ReadNotepad page 15", "19 0F", &counting);
    host.reads("ReadNotepad page 1", "19 01", &packets);
    host.reads("ReadNotepad page 0", "19 00", &[0; NOTE]);
    host.reads("ReadNotepad page 14", "19 0E", &[0; NOTE]);
}

/// Two data packets each way. What starts no packet does not end a transfer.
fn transfers_of_256(host: &mut Host) {
    let none = [host.packet(DATA, &[0x33; 257]), host.packet(COMMAND, &[0x09; 255])];
    host.download("size 256", 1, &first(), 256, &none);
    host.upload("UpChar by 256", 1, &first(), 256);
    host.upload("buffer 2 by 256", 2, &second(), 256);
    let part = host.packet(DATA, &[0x33; 256]);
    failed(host, "256: 2 as the last part", &part.repeat(2));
    failed(host, "256: 8 at once", &host.packet(LAST_DATA, &[0x33; 256]));
    failed(host, "256: the last part by 128", &[part, host.packet(LAST_DATA, &[0x33; 128])].concat());
}

fn transfer_of_32(host: &mut Host) {
    host.command("size code 0", "0E 06 00", 0x00);
    host.download("size 32", 1, &third(), 32, &[]);
    host.upload("UpChar by 32", 1, &third(), 32);
    host.upload("buffer 2 is still the second template", 2, &second(), 32);
}

/// Page 9 keeps the first template until it is deleted; then the third goes there.
fn replaced(host: &mut Host) {
    host.command("Store page 9, where the first template is", "06 01 0009", 0x22);
    host.count("still five", 5);
    host.command("LoadChar 2 from page 9", "07 02 0009", 0x00);
    host.upload("it is still the first template", 2, &first(), 32);
    host.command("LoadChar 2 from page 7", "07 02 0007", 0x00);
    host.command("DeletChar (9, 1)", "0C 0009 0001", 0x00);
    host.count("four left", 4);
    host.command("Store page 9", "06 01 0009", 0x00);
    host.count("five again", 5);
    host.command("size code 2", "0E 06 02", 0x00);
    host.command("LoadChar 1 from page 63", "07 01 003F", 0x00);
    host.upload("it is the first template", 1, &first(), 128);
    host.command("LoadChar 1 from page 9", "07 01 0009", 0x00);
    host.upload("it is the third template", 1, &third(), 128);
    host.command("LoadChar page 10, bit clear", "07 01 000A", 0x0C);
    host.upload("still the third template", 1, &third(), 128);
}

fn failed_transfers(host: &mut Host) {
    let part = part(host);
    let last = host.packet(LAST_DATA, &[0x33; 128]);
    let inside = [bytes(HAND_SHAKE), vec![0; 116]].concat();
    failed(host, "wrong sum on the first data packet", &host.damaged(DATA, &[0x33; 128], 1));
    let wrong_last = host.damaged(LAST_DATA, &[0x33; 128], 256);
    failed(host, "wrong sum on the last data packet", &[part.repeat(3), wrong_last].concat());
    failed(host, "wrong sum, a packet inside", &host.damaged(DATA, &inside, 1));
    failed(host, "part too short", &host.packet(DATA, &[0x33; 127]));
    failed(host, "part too long", &host.packet(DATA, &[0x33; 129]));
    failed(host, "8 at once", &last);
    failed(host, "8 one part too early", &[part.repeat(2), last.clone()].concat());
    failed(host, "2 as the last part", &part.repeat(4));
    host.upload("buffer 2 is untouched", 2, &second(), 128);
}

/// Data packets of the greatest lengths in transfers of other sizes.
fn long_data(host: &mut Host) {
    for (size_code, identifier, count) in [
        (0, DATA, 255),
        (0, LAST_DATA, 256),
        (1, LAST_DATA, 255),
        (1, DATA, 256),
        (3, LAST_DATA, 255),
        (2, DATA, 255),
        (2, LAST_DATA, 256),
    ] {
        host.command(&format!("long data: size code {size_code}"), &format!("0E 06 {size_code:02X}"), 0x00);
        host.command("long data: DownChar 1", "09 01", 0x00);
        let what = format!("long data: {count} bytes, identifier {identifier}");
        host.gets(&what, &host.packet(identifier, &vec![0x33; count]), 0x0E);
    }
    closed(host, "long data: closed");
}

/// DownChar 1 and parts, the last of which is 0Eh; then the transfer is closed and the buffer not filled.
fn failed(host: &mut Host, what: &str, parts: &[u8]) {
    host.command(&format!("{what}: DownChar"), "09 01", 0x00);
    host.gets(what, parts, 0x0E);
    closed(host, &format!("{what}: closed"));
    host.command(&format!("{what}: not filled"), "08 01", 0x0D);
}

/// A data packet as a transfer of size 128 takes it.
fn part(host: &Host) -> Vec<u8> {
    host.packet(DATA, &[0x33; 128])
}

/// Data that an open transfer would answer 0Eh.
fn closed(host: &mut Host, what: &str) {
    host.silent(what, &[host.packet(DATA, &[0x33]), host.packet(LAST_DATA, &[0x33])].concat());
}

fn transfers_broken_off(host: &mut Host) {
    host.command("ended by a command: DownChar", "09 01", 0x00);
    host.silent("one part", &part(host));
    host.command("HandShake ends it", "40", 0x00);
    host.silent("data is not wanted any more", &[part(host), host.packet(LAST_DATA, &[0x33])].concat());
    host.command("not filled", "08 01", 0x0D);
    host.command("ended by a damaged command: DownChar", "09 02", 0x00);
    host.silent("one part", &part(host));
    host.gets("wrong sum", &host.damaged(COMMAND, &[0x40], 1), 0x01);
    closed(host, "closed");
    host.command("2 not filled", "08 02", 0x0D);
    host.command("ended by an unknown command: DownChar", "09 02", 0x00);
    host.command("unknown", "2A", 0x19);
    host.silent("closed", &host.packet(DATA, &[0x33]));
    host.command("ended by a DownChar refused", "09 02", 0x00);
    host.command("buffer 5", "09 05", 0x01);
    host.silent("closed", &host.packet(DATA, &[0x33]));
    host.command("started anew: DownChar 2", "09 02", 0x00);
    host.silent("one part", &part(host));
    host.download("begun at 0", 1, &second(), 128, &between_parts(host));
    host.upload("buffer 1 is the second template", 1, &second(), 128);
    host.command("buffer 2 is not", "08 02", 0x0D);
    host.command("LoadChar 2 from page 0", "07 02 0000", 0x00);
}

/// Noise, other addresses and acknowledges, which do not end a transfer of 128.
fn between_parts(host: &Host) -> [Vec<u8>; 4] {
    let acknowledges = [host.packet(ACKNOWLEDGE, &[0x00]), host.damaged(ACKNOWLEDGE, &[0x0E], 3)].concat();
    let others = [packet(OTHER, COMMAND, &[0x09, 0x02], 0), packet(OTHER, DATA, &[0; 128], 0), bytes("EF 01 A 09")];
    let unfit = [host.packet(0x09, &[0x40]), bytes("EF")].concat();
    [bytes("41 EF"), acknowledges, others.concat(), unfit]
}

fn delete(host: &mut Host) {
    host.commands(&[
        ("DeletChar (64, 0)", "0C 0040 0000", 0x10),
        ("DeletChar (63, 2)", "0C 003F 0002", 0x10),
        ("DeletChar (9, FFFF)", "0C 0009 FFFF", 0x10),
        ("DeletChar (FFFF, 1)", "0C FFFF 0001", 0x10),
        ("DeletChar (0, 65)", "0C 0000 0041", 0x10),
        ("DeletChar (0, 0)", "0C 0000 0000", 0x00),
    ]);
    host.count("still five", 5);
    host.command("DeletChar (8, 55)", "0C 0008 0037", 0x00);
    host.index("pages 0, 7 and 63", "81 00 00 00 00 00 00 80");
    host.commands(&[
        ("DeletChar (63, 1)", "0C 003F 0001", 0x00),
        ("LoadChar page 63", "07 01 003F", 0x0C),
        ("LoadChar page 8", "07 01 0008", 0x0C),
    ]);
    host.count("two left", 2);
    host.upload("buffer 2, loaded from page 0, stays", 2, &first(), 128);
    host.command("LoadChar 2 from page 7", "07 02 0007", 0x00);
    host.upload("page 7 is the second template", 2, &second(), 128);
}

fn empty(host: &mut Host) {
    host.command("Empty", "0D", 0x00);
    host.count("none", 0);
    host.index("no page", "");
    host.command("buffer 2, loaded from page 7, is not filled any more", "08 02", 0x0D);
    host.command("LoadChar page 0", "07 02 0000", 0x0C);
    host.upload("buffer 1, downloaded, stays", 1, &second(), 128);
    host.command("Store page 7, emptied", "06 01 0007", 0x00);
}

/// A clerk stores a new driver on page 12, where the old one is: 22h, and nothing changes.
fn new_driver(host: &mut Host) {
    host.download("the old driver", 1, &third(), 128, &[]);
    host.command("Store page 12, the old driver", "06 01 000C", 0x00);
    host.count("two stored", 2);
    host.command("LoadChar 1 from page 7, the new driver", "07 01 0007", 0x00);
    host.command("Store page 12, the new driver", "06 01 000C", 0x22);
    host.count("still two", 2);
    host.index("pages 7 and 12", "80 10");
    host.command("LoadChar 2 from page 12", "07 02 000C", 0x00);
    host.upload("it is the old driver", 2, &third(), 128);
    host.upload("buffer 1 is still the new one", 1, &second(), 128);
}

/// What else gets 22h, and what comes before it; the old driver stays.
fn stored_page(host: &mut Host) {
    host.commands(&[
        ("Store page 12 from buffer 2, the same bytes", "06 02 000C", 0x22),
        ("LoadChar 2 from page 7", "07 02 0007", 0x00),
        ("Store page 12 from buffer 2, other bytes", "06 02 000C", 0x22),
        ("Store page 12, buffer 3: buffer first", "06 03 000C", 0x01),
        ("DownChar 2", "09 02", 0x00),
    ]);
    host.silent("one part", &part(host));
    host.command("Store page 12 ends the transfer", "06 01 000C", 0x22);
    closed(host, "closed");
    host.command("buffer 2 is not filled", "08 02", 0x0D);
    host.command("Store page 12, not filled: filled mark first", "06 02 000C", 0x0C);
    host.command("DownChar 2", "09 02", 0x00);
    host.command("Store page 12, not filled, ends the transfer too", "06 02 000C", 0x0C);
    closed(host, "closed");
    host.count("still two", 2);
    host.command("LoadChar 2 from page 12", "07 02 000C", 0x00);
    host.upload("it is still the old driver", 2, &third(), 128);
}

/// The host deletes the old driver first; then the new one goes there, though the page beside is stored.
fn deleted_first(host: &mut Host) {
    host.command("Store page 13, the old driver on the page beside", "06 02 000D", 0x00);
    host.command("DeletChar (12, 1)", "0C 000C 0001", 0x00);
    host.upload("buffer 2 stays, its page is 13", 2, &third(), 128);
    host.index("pages 7 and 13", "80 20");
    host.command("Store page 12, deleted", "06 01 000C", 0x00);
    host.index("pages 7, 12 and 13", "80 30");
    host.command("LoadChar 2 from page 12", "07 02 000C", 0x00);
    host.upload("it is the new driver", 2, &second(), 128);
    host.command("Store page 12 again", "06 01 000C", 0x22);
    host.command("DeletChar (7, 1)", "0C 0007 0001", 0x00);
    host.count("two stored", 2);
    host.command("LoadChar 2 from page 13", "07 02 000D", 0x00);
    host.upload("it is the old driver", 2, &third(), 128);
}

/// Pages 12 and 13 are stored, both buffers are filled, and all scores are the same: the lowest page is found.
fn searches(host: &mut Host) {
    host.parameters("nothing found so far", 0, 5, 2, 6);
    host.searches("Search everywhere", "01 0000 0040", Some(12));
    host.parameters("found: status 2", 2, 5, 2, 6);
    host.searches("Search up to page 11", "01 0000 000C", None);
    host.parameters("not found: status 0", 0, 5, 2, 6);
    host.searches("Search up to page 12", "01 0000 000D", Some(12));
    host.searches("Search page 12 alone", "02 000C 0001", Some(12));
    host.searches("Search no page", "01 000C 0000", None);
    host.searches("Search page 13 alone", "01 000D 0001", Some(13));
    host.searches("Search from page 13 on", "02 000D 0033", Some(13));
    host.searches("Search from page 14 on", "01 000E 0032", None);
    host.searches("Search from page 12 on, cut at 64", "01 000C 0035", Some(12));
    host.searches("Search from page 13 on, up to 65535", "01 000D FFF2", Some(13));
    host.searches("Search from page 13 on, up to 65536", "01 000D FFF3", Some(13));
    host.searches("Search from page 13 on, up to 65548", "01 000D FFFF", Some(13));
    host.searches("Search page 63", "02 003F FFFF", None);
    host.parameters("not found: status 0", 0, 5, 2, 6);
}

/// The other codes keep the found mark, and so do other commands; a Search ends a transfer.
fn search_codes(host: &mut Host) {
    let codes = [
        ("Search buffer 0", "04 00 000C 0001", 0x01),
        ("Search buffer 3, start beyond: buffer first", "04 03 0040 0001", 0x01),
        ("Search start 64", "04 01 0040 0000", 0x0B),
        ("Search start 268", "04 02 010C 0001", 0x0B),
        ("Search start 65535", "04 02 FFFF 0001", 0x0B),
        ("Search without a count", "04 01 000C", 0x01),
    ];
    host.commands(&codes);
    host.parameters("still not found", 0, 5, 2, 6);
    host.searches("Search page 12", "01 000C 0001", Some(12));
    host.commands(&codes);
    host.gets("Search page 14, wrong sum", &host.damaged(COMMAND, &bytes("04 01 000E 0001"), 1), 0x01);
    host.parameters("still found", 2, 5, 2, 6);
    host.command("DownChar 2", "09 02", 0x00);
    host.silent("one part", &part(host));
    host.searches("Search page 14 ends the transfer", "01 000E 0001", None);
    closed(host, "closed");
    host.command("DownChar 2", "09 02", 0x00);
    host.searches("Search page 13 ends the transfer too", "01 000D 0001", Some(13));
    closed(host, "closed");
    host.command("Search buffer 2, not filled", "04 02 000D 0001", 0x0C);
    host.command("Search buffer 2, start 64: start first", "04 02 0040 0001", 0x0B);
    host.command("DownChar 2", "09 02", 0x00);
    host.command("Search buffer 2, not filled, ends the transfer", "04 02 000D 0001", 0x0C);
    closed(host, "closed");
    host.parameters("still found", 2, 5, 2, 6);
    host.command("LoadChar 2 from page 13", "07 02 000D", 0x00);
}

/// What is stored is found, and what is deleted is not.
fn searches_between(host: &mut Host) {
    host.searches("Search below 12", "01 0000 000C", None);
    host.command("Store page 5", "06 01 0005", 0x00);
    host.parameters("Store does not find", 0, 5, 2, 6);
    host.searches("Search below 12 again", "02 0000 000C", Some(5));
    host.command("DeletChar (5, 1)", "0C 0005 0001", 0x00);
    host.parameters("the page is gone, the status stays", 2, 5, 2, 6);
    host.command("Search buffer 1, wiped", "04 01 0000 000C", 0x0C);
    host.searches("Search below 12, with buffer 2", "02 0000 000C", None);
    host.command("LoadChar 1 from page 12", "07 01 000C", 0x00);
}

fn lock(host: &mut Host) {
    host.command("VfyPwd 1 while the password is 0", "13 00000001", 0x13);
    host.parameters("status 0", 0, 5, 2, 6);
    host.count("not locked all the same", 2);
    host.command("VfyPwd 0", "13 00000000", 0x00);
    host.parameters("status 4", 4, 5, 2, 6);
    host.searches("Search everywhere", "01 0000 0040", Some(12));
    host.parameters("status 6, both bits", 6, 5, 2, 6);
    host.command("SetPwd", "12 EF01A5FF", 0x00);
}

/// A fitter at the locked reader sees its parameters before the password, and what was found only after it.
fn fitter(host: &mut Host) {
    host.parameters("locked: parameters, status 0", 0, 5, 2, 6);
    host.gets("locked: ReadSysPara, wrong sum", &host.damaged(COMMAND, &[0x0F], 1), 0x01);
    host.command("locked: ReadSysPara of wrong length", "0F 00", 0x01);
    host.silent("locked: ReadSysPara for another reader", &packet(OTHER, COMMAND, &[0x0F], 0));
    host.command("wrong password", "13 EF01A5FE", 0x13);
    host.parameters("still locked: parameters, status 0", 0, 5, 2, 6);
    host.command("right password", "13 EF01A5FF", 0x00);
    host.parameters("status 6, both bits again", 6, 5, 2, 6);
    host.command("SetPwd, the same, locks again", "12 EF01A5FF", 0x00);
}

/// A locked reader: sum, code and length come before the lock, and the lock before the row's tests.
fn locked(host: &mut Host) {
    locked_out(host, "04 01 000E 0001, 04 01 000C 0001, 04 03 0000 0001, 04 01 0040 0001");
    locked_out(host, "06 01 0000, 06 00 0000, 06 01 000C, 06 02 000C, 07 01 0007, 08 01, 08 03, 09 01");
    locked_out(host, "0C 0000 0001, 0C FFFF FFFF, 0D, 0E 04 01, 0E 09 00, 12 00000000, 15 12345678");
    host.write_note("locked: WriteNotepad page 0", 0, &[0; NOTE], 0x21);
    host.write_note("locked: WriteNotepad page 77h", 0x77, &[0; NOTE], 0x21);
    locked_out(host, "19 00, 19 10, 1D, 1F 00, 1F 01");
    host.gets("locked, wrong sum", &host.damaged(COMMAND, &[0x1D], 1), 0x01);
    host.command("locked, unknown code", "21", 0x19);
    host.command("locked, wrong length", "1D 00", 0x01);
    host.command("locked, Search of wrong length", "04 01 0000 00", 0x01);
    host.command("locked, VfyPwd of wrong length", "13 EF01A5", 0x01);
    host.silent("locked, data", &[host.packet(DATA, &[0x33]), host.damaged(LAST_DATA, &[0x33], 1)].concat());
    host.command("locked, HandShake", "40", 0x00);
}

/// Commands, by their contents, that a locked reader answers 21h.
fn locked_out(host: &mut Host, contents: &str) {
    for content in contents.split(", ") {
        host.command(&format!("locked: {content}"), content, 0x21);
    }
}

fn passwords(host: &mut Host) {
    host.command("wrong password", "13 EF01A5FE", 0x13);
    host.command("wrong password, 0", "13 00000000", 0x13);
    host.command("still locked", "1D", 0x21);
    host.gets("right password with a wrong sum", &host.damaged(COMMAND, &bytes("13 EF01A5FF"), 1), 0x01);
    host.command("still locked", "1D", 0x21);
    host.command("right password", "13 EF01A5FF", 0x00);
    host.parameters("status 6, still found", 6, 5, 2, 6);
    host.searches("Search page 14", "01 000E 0001", None);
    host.parameters("status 4", 4, 5, 2, 6);
    host.count("nothing was lost: two stored", 2);
    host.upload("nothing was lost: buffer 2", 2, &third(), 128);
    host.command("transfer open, then a wrong password: DownChar 1", "09 01", 0x00);
    host.silent("one part", &part(host));
    host.command("wrong password clears the mark", "13 00000000", 0x13);
    host.command("locked again", "1D", 0x21);
    host.silent("the transfer is over", &host.packet(DATA, &[0x33]));
    host.command("right password", "13 EF01A5FF", 0x00);
    host.command("buffer 1 is not filled", "08 01", 0x0D);
    host.command("SetPwd 5 clears the mark", "12 00000005", 0x00);
    host.command("locked", "1D", 0x21);
    host.command("the old one is wrong", "13 EF01A5FF", 0x13);
    host.command("P10", "13 00000005", 0x00);
    host.command("SetPwd 0", "12 00000000", 0x00);
    host.parameters("status 0, not locked", 0, 5, 2, 6);
}

fn addresses(host: &mut Host) {
    host.readdress("SetAdder: the reply has the new address", [0x12, 0x34, 0x56, 0x78]);
    host.silent("the fresh address", &bytes(&format!("{HAND_SHAKE} {COUNT}")));
    host.command("HandShake at the new one", "40", 0x00);
    host.parameters("parameters with the new address", 0, 5, 2, 6);
    host.upload("upload with the new address", 2, &third(), 128);
    let old = host.packet(COMMAND, &[0x40]);
    host.readdress("SetAdder EF01EF01", [0xEF, 0x01, 0xEF, 0x01]);
    host.command("HandShake there", "40", 0x00);
    let noisy = [bytes("EF"), host.packet(COMMAND, &[0x1D])].concat();
    host.sends("with noise EF before it", &noisy, &host.acknowledge(0x00, &[0, 2]));
    host.silent("old and oldest", &[old, bytes(HAND_SHAKE)].concat());
    host.readdress("SetAdder back", FRESH);
    host.command("HandShake", "40", 0x00);
    host.count("last count", 2);
}

/// Deleted fingers, loaded or stored before, are in no buffer any more; buffer 2 has page 13 until that is deleted.
fn leavers(host: &mut Host) {
    host.commands(&[
        ("LoadChar 1 from page 12", "07 01 000C", 0x00),
        ("Store page 9, its page from now on", "06 01 0009", 0x00),
        ("DeletChar (12, 1)", "0C 000C 0001", 0x00),
    ]);
    host.upload("buffer 1 stays", 1, &second(), 128);
    host.command("DeletChar (9, 1)", "0C 0009 0001", 0x00);
    host.command("stored, then deleted: not filled", "08 01", 0x0D);
    host.upload("buffer 2 stays", 2, &third(), 128);
    host.commands(&[
        ("LoadChar 1 from page 13", "07 01 000D", 0x00),
        ("DeletChar (13, 0)", "0C 000D 0000", 0x00),
        ("DeletChar (13, 52)", "0C 000D 0034", 0x10),
        ("DeletChar (0, 13)", "0C 0000 000D", 0x00),
        ("DeletChar (14, 50)", "0C 000E 0032", 0x00),
    ]);
    host.upload("both stay: buffer 1", 1, &third(), 128);
    host.upload("both stay: buffer 2", 2, &third(), 128);
    host.commands(&[
        ("DeletChar (13, 1)", "0C 000D 0001", 0x00),
        ("loaded, then deleted: not filled", "08 01", 0x0D),
        ("buffer 2 too", "08 02", 0x0D),
    ]);
    host.count("none", 0);
}

/// An unfinished packet at the end, with whole packets in it: 266 of 267 bytes.
fn unfinished(host: &mut Host) {
    let content = [bytes(&format!("{HAND_SHAKE} {COUNT}")), vec![0; 232]].concat();
    let mut sent = [bytes("00 EF"), host.packet(LAST_DATA, &content)].concat();
    sent.pop();
    host.silent("unfinished", &sent);
}
