#!/usr/bin/env python3
"""Checks ./bystrodol ask and explain: what they say, and their status.

The expected bytes and words are written here by hand from document 01, and not made by the tables of tools/. A peer stands in
for readers that answer what no reader should. The words about a whole library are checked in copies.py. Status: 0 all is well,
1 a check failed, 2 there is no port.
"""

import fcntl
import os
import sys
import tempfile

import copies
from call import LOCKED, OK, PARAMETERS, TEMPLATE, WAIT, acknowledge_of, calls, data_of, expect, run_of, side_by_side
from peer import Peer
from server import Failed, NoPort, Server, check

# ---- a reader

DONE = "07 00 03 00 00 0a"
LOCKED_PARAMETERS = "07 00 13 00 00 00 00 00 00 40 00 05 ff ff ff ff 00 03 00 0c 04 6a"
# To a fresh reader, in turn: the words, what goes out and what comes back behind the address, the status, and what is said.
DIALOGUE = (
    ("handshake", "01 00 03 40 00 44", DONE, 0, "command 40h HandShake", "acknowledge 00h, done"),
    ("parameters", "01 00 03 0f 00 13", "07 00 13 00 00 00 00 00 00 40 00 03 ff ff ff ff 00 02 00 06 04 61", 0,
     "capacity 64 (pages)", "security level 3", "128 bytes in a data packet", "57600 baud",
     "status 0 (no password verified, no page found; or the reader is locked)"),
    ("count", "01 00 03 1d 00 21", "07 00 05 00 00 00 00 0c", 0, "templates stored 0"),
    ("index", "01 00 04 1f 00 00 24", "07 00 23 00 00", 0, "stored none of pages 0 to 255", "stored: none of 64 pages"),
    ("note|3|Station 12", "01 00 24 18 03 53 74 61 74 69 6f 6e 20 31 32 00", DONE, 0, 'page 3, text "Station 12"'),
    ("note|3", "01 00 04 19 03 00 21", "07 00 23 00 53 74 61 74 69 6f 6e 20 31 32 00", 0, 'text "Station 12"'),
    ("note|15|" + "x" * 32, "01 00 24 18 0f 78", DONE, 0),
    ("note|16", "01 00 04 19 10 00 2e", "07 00 03 1c 00 26", 1, "no such notepad page"),
    ("note|3|-5 V", "01 00 24 18 03 2d 35 20 56 00", DONE, 0),
    ("note|3|", "01 00 24 18 03 00", DONE, 0, 'text ""'),
    ("download|1|FOLDER/template", "01 00 04 09 01 00 0f", DONE, 0, "host    ef 01 ff ff ff ff 02 00 82",
     "and 2 more like it", "host    ef 01 ff ff ff ff 08 00 82", "buffer 1 holds the 512 bytes that were sent"),
    ("store|1|7", "01 00 06 06 01 00 07 00 15", DONE, 0, "buffer 1, page 7"),
    ("store|1|8", "01 00 06 06 01 00 08 00 16", DONE, 0),
    ("store|1|11", "01 00 06 06 01 00 0b 00 19", DONE, 0),
    ("store|1|11", "01 00 06 06 01 00 0b 00 19", "07 00 03 22 00 2c", 1, "acknowledge 22h", "the page is stored already: to replace it, delete it and store again"),
    ("store|3|7", "01 00 06 06 03 00 07 00 17", "07 00 03 01 00 0b", 1, "bad parameter"),
    ("store|1|64", "01 00 06 06 01 00 40 00 4e", "07 00 03 0b 00 15", 1, "no such page"),
    ("count", "01 00 03 1d 00 21", "07 00 05 00 00 03 00 0f", 0, "templates stored 3"),
    ("search|1|0|64", "01 00 08 04 01 00 00 00 40 00 4e", "07 00 07 00 00 07 00 00 00 15", 0,
     "command 04h Search: buffer 1, start 0, count 64", "acknowledge 00h, done: page 7, score 0"),
    ("search|1|8|65535", "01 00 08 04 01 00 08 ff ff 02 14", "07 00 07 00 00 08 00 00 00 16", 0, "page 8, score 0"),
    ("search|3|0|64", "01 00 08 04 03 00 00 00 40 00 50", "07 00 03 01 00 0b", 1, "bad parameter"),
    ("search|1|64|1", "01 00 08 04 01 00 40 00 01 00 4f", "07 00 03 0b 00 15", 1, "no such page"),
    ("search|2|0|64", "01 00 08 04 02 00 00 00 40 00 4f", "07 00 03 0c 00 16", 1, "a buffer that is not filled"),
    ("parameters", "01 00 03 0f 00 13", "07 00 13 00 00 02 00 00 00 40 00 03 ff ff ff ff 00 02 00 06 04 63", 0,
     "status 2 (no password verified, last Search found a page)"),
    ("search|1|12|52", "01 00 08 04 01 00 0c 00 34 00 4e", "07 00 07 09 00 00 00 00 00 17", 1,
     "acknowledge 09h, no page found: page 0, score 0"),
    ("parameters", "01 00 03 0f 00 13", "07 00 13 00 00 00 00 00 00 40 00 03 ff ff ff ff 00 02 00 06 04 61", 0,
     "status 0 (no password verified, no page found; or the reader is locked)"),
    ("index", "01 00 04 1f 00 00 24", "07 00 23 00 80 09 00", 0, "stored pages 7 to 8, 11, of pages 0 to 255",
     "stored: 3 of 64 pages: 7 to 8, 11"),
    ("index|0", "01 00 04 1f 00 00 24", "07 00 23 00 80 09 00", 0, "index page 0", "stored pages 7 to 8, 11, of pages 0 to 255"),
    ("index|3", "01 00 04 1f 03 00 27", "07 00 23 00 00", 0, "index page 3", "stored none of pages 768 to 999"),
    ("index|4", "01 00 04 1f 04 00 28", "07 00 03 0b 00 15", 1, "index page 4", "no such page"),
    ("upload|2|FOLDER/read-back", "01 00 04 08 02 00 0f", "07 00 03 0d 00 17", 1, "the buffer is not filled"),
    ("load|2|7", "01 00 06 07 02 00 07 00 17", DONE, 0, "buffer 2, page 7"),
    ("load|2|9", "01 00 06 07 02 00 09 00 19", "07 00 03 0c 00 16", 1, "nothing is there"),
    ("set-size|64", "01 00 05 0e 06 01 00 1b", DONE, 0, "number 6, value 1", "every host sends and gets 64 bytes"),
    ("upload|2|FOLDER/read-back", "01 00 04 08 02 00 0f", DONE, 0, "reader  ef 01 ff ff ff ff 08 00 42",
     "has the 512 bytes"),
    ("set-size|32", "01 00 05 0e 06 00 00 1a", DONE, 0),
    ("download|2|FOLDER/template", "01 00 04 09 02 00 10", DONE, 0, "host    ef 01 ff ff ff ff 08 00 22",
     "and 14 more like it"),
    ("set-size|256", "01 00 05 0e 06 03 00 1d", DONE, 0, "number 6, value 3", "every host sends and gets 256 bytes"),
    ("download|1|FOLDER/template", "01 00 04 09 01 00 0f", DONE, 0, "host    ef 01 ff ff ff ff 02 01 02",
     "host    ef 01 ff ff ff ff 08 01 02", "reader  ef 01 ff ff ff ff 02 01 02", "reader  ef 01 ff ff ff ff 08 01 02",
     "buffer 1 holds the 512 bytes that were sent"),
    ("parameters", "01 00 03 0f 00 13", "07 00 13 00 00 00 00 00 00 40 00 03 ff ff ff ff 00 03 00 06 04 62", 0,
     "256 bytes in a data packet"),
    ("set-level|5", "01 00 05 0e 05 05 00 1e", DONE, 0),
    ("set-level|6", "01 00 05 0e 05 06 00 1f", "07 00 03 1b 00 25", 1, "no such value"),
    ("set-baud|115200", "01 00 05 0e 04 0c 00 24", DONE, 0, "--baud 115200"),
    ("delete|7|2", "01 00 07 0c 00 07 00 02 00 1d", DONE, 0, "page 7, count 2"),
    ("delete|63|2", "01 00 07 0c 00 3f 00 02 00 55", "07 00 03 10 00 1a", 1, "no such pages"),
    ("delete|11", "01 00 07 0c 00 0b 00 01 00 20", DONE, 0, "page 11, count 1"),
    ("store|1|0", "01 00 06 06 01 00 00 00 0e", DONE, 0),
    ("search|1|0|1", "01 00 08 04 01 00 00 00 01 00 0f", "07 00 07 00 00 00 00 00 00 0e", 0, "page 0, score 0"),
    ("empty|--yes", "01 00 03 0d 00 11", DONE, 0),
    ("count", "01 00 03 1d 00 21", "07 00 05 00 00 00 00 0c", 0, "templates stored 0"),
    ("set-password|12345678", "01 00 07 12 12 34 56 78 01 2e", DONE, 0, "--password 12345678"),
    ("count", "01 00 03 1d 00 21", "07 00 03 21 00 2b", 1, "locked: the password first"),
    ("search|1|0|64", "01 00 08 04 01 00 00 00 40 00 4e", "07 00 03 21 00 2b", 1, "locked: the password first"),
    ("parameters", "01 00 03 0f 00 13", LOCKED_PARAMETERS, 0, "capacity 64 (pages)", "115200 baud",
     "status 0 (no password verified, no page found; or the reader is locked)"),
    ("index", "01 00 04 1f 00 00 24", "07 00 03 21 00 2b", 1, LOCKED_PARAMETERS, "locked: the password first"),
    ("upload|1|FOLDER/none", "01 00 04 08 01 00 0e", "07 00 03 21 00 2b", 1, LOCKED_PARAMETERS, "locked: the password first"),
    ("download|1|FOLDER/template", "01 00 04 09 01 00 0f", "07 00 03 21 00 2b", 1, LOCKED_PARAMETERS, "locked: the password first"),
    ("--password|00000005|empty|--yes", "01 00 07 13 00 00 00 05 00 20", "07 00 03 13 00 1d", 1, "wrong password"),
    ("parameters", "01 00 03 0f 00 13", LOCKED_PARAMETERS, 0),
    ("parameters|--password|12345678", "01 00 03 0f 00 13",
     "07 00 13 00 00 06 00 00 00 40 00 05 ff ff ff ff 00 03 00 0c 04 70", 0, "status 6 (password verified, last Search found a page)"),
    ("password|00000005", "01 00 07 13 00 00 00 05 00 20", "07 00 03 13 00 1d", 1, "wrong password"),
    ("parameters", "01 00 03 0f 00 13", LOCKED_PARAMETERS, 0),
    ("count|--password|12345678", "01 00 07 13 12 34 56 78 01 2f", DONE, 0, "host    ef 01 ff ff ff ff 01 00 03 1d 00 21",
     "templates stored 0"),
    ("password|12345678", "01 00 07 13 12 34 56 78 01 2f", DONE, 0),
    ("set-password|00000000", "01 00 07 12 00 00 00 00 00 1a", DONE, 0),
    ("parameters", "01 00 03 0f 00 13", "07 00 13 00 00 02 00 00 00 40 00 05 ff ff ff ff 00 03 00 0c 04 6c", 0,
     "status 2 (no password verified, last Search found a page)"),
    ("set-address|12345678", "01 00 07 15 12 34 56 78 01 31", DONE, 0, "--address 12345678"),
    ("--address|12345678|--baud|9600|handshake", "01 00 03 40 00 44", DONE, 0),
)


def ask_each(port, folder):
    with open(os.path.join(folder, "template"), "wb") as file:
        file.write(TEMPLATE)
    for words, sent, reply, status, *said in DIALOGUE:
        address = "12 34 56 78" if "--address" in words else "ff ff ff ff"
        new_address = "12 34 56 78" if "set-address" in words else address
        expect(["ask", port, *words.replace("FOLDER", folder).split("|")], status, "host    ef 01 %s %s" % (address, sent),
               "reader  ef 01 %s %s" % (new_address, reply), *said)
    with open(os.path.join(folder, "read-back"), "rb") as file:
        check(file.read() == TEMPLATE, "what is uploaded is not what was downloaded")
    check(sorted(os.listdir(folder)) == ["read-back", "template"], "an upload that is refused leaves a file")
    expect(["ask", "--wait", WAIT, port, "handshake"], 2, "waited 1 s for the acknowledge of HandShake", "nothing came")


def type_in(port, answer):
    """What somebody types at a terminal when empty asks."""
    own, other = os.openpty()
    os.write(own, answer.encode())
    status, said = (0, "acknowledge 00h") if answer == "yes\n" else (2, "nothing is sent")
    expect(["ask", port, "empty"], status, "Delete every template", said, stdin=other)
    os.close(own)
    os.close(other)


def watch_progress(port, folder):
    own, other = os.openpty()
    expect(["ask", port, "download", "1", os.path.join(folder, "template")], 0, stderr=other)
    told = os.read(own, 4096).decode()
    check("download 128 of 512 bytes" in told and "upload 512 of 512 bytes" in told, "no progress is shown: " + told)
    os.close(own)
    os.close(other)


def talk_to_reader():
    with tempfile.TemporaryDirectory() as folder:
        with Server() as server:
            ask_each(server.port_name(), folder)
        with Server() as server:
            port = server.port_name()
            type_in(port, "yes\n")
            type_in(port, "no\n")
            expect(["ask", port, "empty"], 2, "nobody to ask", not_said=["host"])
            watch_progress(port, folder)


# ---- words and files that are not fit: nothing is sent

BAD_WORDS = (
    "PORT", "PORT|unknown", "PORT|count|1", "PORT|index|256", "PORT|index|0|1", "PORT|store|1", "PORT|store|1|65536", "PORT|store|256|1", "PORT|store|x|1",
    "PORT|store|-1|1", "PORT|search", "PORT|search|1|0", "PORT|search|1|0|1|2", "PORT|search|256|0|1", "PORT|search|1|65536|1",
    "PORT|search|1|0|65536", "PORT|search|1|x|1", "PORT|delete|1|2|3", "PORT|note|256", "PORT|note|1|" + "x" * 33, "PORT|note|1|a|b", "PORT|password",
    "PORT|password|1234", "PORT|password|1234567g", "PORT|password|12 34 56 78", "PORT|set-address|123456789",
    "PORT|set-size|512", "PORT|set-size|1", "PORT|set-level|x", "PORT|set-baud|1000", "PORT|set-baud|2457600",
    "PORT|count|--address|1", "PORT|count|--password|x", "PORT|count|--password|", "PORT|count|--baud|x", "PORT|count|--baud|0",
    "PORT|count|--baud|99999999999", "PORT|count|--wait|0", "PORT|count|--wait|nan", "PORT|count|--wait|inf",
    "PORT|count|--speed|1", "PORT|count|--pass|00000000", "PORT|dump", "PORT|dump|a|b", "PORT|restore", "PORT|restore|a|b",
    "PORT|compare", "PORT|compare|a|b", "PORT|compare|a|--other-password|x", "PORT|compare|a|--other-address|1",
    "PORT|compare|a|--other-baud|0")


def give_bad_words():
    with Peer() as peer, tempfile.TemporaryDirectory() as folder:
        side_by_side(lambda words: expect(["ask", *words.replace("PORT", peer.name).split("|")], 2, "usage: ./bystrodol ask"),
                     BAD_WORDS)
        expect(["ask"], 2, "usage: ./bystrodol ask")
        expect(["ask", "--help"], 0, "usage: ./bystrodol ask", "download BUFFER FILE", "search BUFFER START COUNT",
               "its settings; a locked reader tells them too", "dump FILE", "restore FILE", "compare FILE-OR-PORT", "T3 1: only the first")
        short, long, there = (os.path.join(folder, name) for name in ("short", "long", "there"))
        for name, length in ((short, 511), (long, 513), (there, 1)):
            with open(name, "wb") as file:
                file.write(bytes(length))
        expect(["ask", peer.name, "download", "1", short], 2, "less than 512 bytes")
        expect(["ask", peer.name, "download", "1", long], 2, "more than 512 bytes")
        expect(["ask", peer.name, "download", "1", os.path.join(folder, "none")], 2, "cannot be read")
        expect(["ask", peer.name, "upload", "1", there], 2, "is there already")
        check(os.path.getsize(there) == 1, "upload wrote over a file")
        expect(["ask", peer.name, "upload", "1", os.path.join(folder, "none", "file")], 2, "cannot be made")
        expect(["ask", os.path.join(folder, "none"), "count"], 2, "cannot be opened")
        expect(["ask", os.devnull, "count"], 2, "cannot be opened")
        with open(peer.name, "rb", buffering=0) as port:
            fcntl.flock(port, fcntl.LOCK_EX)
            expect(["ask", peer.name, "count"], 2, "another program has it")
        check(peer.heard == b"", "bad words send a packet")


# ---- peers that answer what no reader should

# A command, the answer, the status, and what is said.
ANSWERS = (
    ("count", b"", 2, "waited 1 s for the acknowledge of TempleteNum, and nothing came"),
    ("handshake", run_of("ef 01 A 07 00 03 00 00 0b"), 2, "its sum is 000B, and 000A is right"),
    ("handshake", run_of("ef 01 00 00 00 01 07 00 03 00 00 0a"), 2, "it comes from address 00000001, and not from FFFFFFFF"),
    ("handshake", run_of("ef 01 A 07 00 04 00 00 00 0b"), 2, "its length is 4, and that of code 00h to HandShake is 3"),
    ("count", run_of("ef 01 A 07 00 03 00 00 0a"), 2, "its length is 3, and that of code 00h to TempleteNum is 5"),
    ("count", run_of("ef 01 A 07 00 05 21 00 00 00 2d"), 2, "its length is 5, and that of code 21h to TempleteNum is 3"),
    ("count", run_of("ef 01 A 07 00 03 02 00 0c"), 2, "document 01 has no code 02h"),
    ("search|1|0|999", run_of("ef 01 A 07 00 07 00 03 e6 01 2c 01 24"), 0, "acknowledge 00h, done: page 998, score 300"),
    ("search|2|10|90", run_of("ef 01 A 07 00 07 00 00 0a 00 05 00 1d"), 0, "page 10, score 5"),
    ("search|2|10|90", run_of("ef 01 A 07 00 07 00 00 64 00 05 00 77"), 2, "page 100 is none of the 90 pages from 10 on that were asked for"),
    ("search|2|10|90", run_of("ef 01 A 07 00 07 00 00 09 00 05 00 1c"), 2, "page 9 is none of the 90 pages"),
    ("search|2|10|0", run_of("ef 01 A 07 00 07 00 00 0a 00 05 00 1d"), 2, "page 10 is none of the 0 pages"),
    ("search|1|0|64", run_of("ef 01 A 07 00 07 09 00 01 00 00 00 18"), 2, "it has page 1 and score 0, and with 09h both are 0"),
    ("search|1|0|64", run_of("ef 01 A 07 00 07 09 00 00 00 28 00 3f"), 2, "it has page 0 and score 40, and with 09h both are 0"),
    ("search|1|0|64", run_of("ef 01 A 07 00 03 09 00 13"), 2, "its length is 3, and that of code 09h to Search is 7"),
    ("search|1|0|64", run_of("ef 01 A 07 00 03 00 00 0a"), 2, "its length is 3, and that of code 00h to Search is 7"),
    ("search|1|0|64", run_of("ef 01 A 07 00 07 0b 00 00 00 00 00 19"), 2, "its length is 7, and that of code 0Bh to Search is 3"),
    ("handshake", run_of("ef 01 A 08 00 03 00 00 0b"), 2, "it is no packet of identifier 7, acknowledge"),
    ("handshake", run_of("ef 01 A 09 00 03 00 00 0c"), 2, "its identifier is 9"),
    ("handshake", run_of("ef 01 A 07 00 02 00"), 2, "its length is 2, and not 3 to 256"),
    ("handshake", run_of("ef 01 A 07 00 03 00"), 2, "it has 10 bytes of 12"),
    ("handshake", run_of("ef 01 A"), 2, "it has 6 bytes of the first 9"),
    ("handshake", run_of("f8 80 78 00"), 2, "4 bytes came, no whole packet"),
    ("handshake", run_of("55 ef ef 02") + OK, 0, "passed over: 55 ef ef 02"),
    ("handshake", run_of("ef 01 A 09 00 03 00 00 0c") + OK, 0, "passed over: ef 01 ff ff ff ff 09 00 03 00 00 0c"),
    ("handshake", [OK[at:at + 1] for at in range(len(OK))], 0, "acknowledge 00h, done"),
    ("set-address|00000001", OK, 2, "it comes from address FFFFFFFF, and not from 00000001"),
    ("set-address|00000001", LOCKED, 1, "locked: the password first"),
    ("parameters", LOCKED, 1, "locked: the password first"),
    ("parameters", run_of("ef 01 A 07 00 13 00 0004 0000 0040 0003 ffffffff 0001 0006 0464"), 0, "status 4 (password verified, no page found)"),
    ("handshake", None, 2, "ask: the port "),
)


DATA = data_of(TEMPLATE)
NO_0E = [b""] * 8       # eight data packets are taken in silence

# The answers to the packets of an upload in turn, the status, and what is said.
UPLOADS = (
    ([PARAMETERS, [OK, *DATA]], 0, "has the 512 bytes"),
    ([PARAMETERS, [OK, *DATA[:-1]]], 2, "waited 1 s for data packet 8 of 8, and nothing came"),
    ([PARAMETERS, [OK, *DATA[:7], DATA[7][:-3]]], 2, "it has 72 bytes of 75"),
    ([PARAMETERS, [OK, DATA[0][:-1] + bytes([DATA[0][-1] ^ 1]), *DATA[1:]]], 2, "its sum is"),
    ([PARAMETERS, [OK, *DATA[:-1], DATA[0]]], 2, "it is no packet of identifier 8, last data"),
    ([PARAMETERS, [OK, *data_of(TEMPLATE, 128)]], 2, "a data packet has 128 bytes, and 64 are the size"),
    ([run_of("ef 01 A 07 00 13 00 0000 0000 0040 0003 ffffffff 0004 0006 0463")], 2, "size code is 4, and document 01 has 0 to 3"),
    ([PARAMETERS, LOCKED], 1, "locked: the password first"),
)

# The same of a download.
DOWNLOADS = (
    ([PARAMETERS, OK, *NO_0E, [OK, *DATA]], 0, "buffer 1 holds the 512 bytes"),
    ([PARAMETERS, OK, *NO_0E[1:], run_of("ef 01 A 07 00 03 0e 00 18")], 1, "0Eh, the transfer failed"),
    ([PARAMETERS, OK, *NO_0E, run_of("ef 01 A 07 00 03 0d 00 17")], 1, "the buffer is not filled"),
    ([PARAMETERS, OK, *NO_0E, [OK, *data_of(bytes(512))]], 2, "does not hold what was sent"),
    ([PARAMETERS, run_of("ef 01 A 07 00 03 01 00 0b")], 1, "bad parameter"),
    ([PARAMETERS, LOCKED], 1, "locked: the password first"),
)


# Indexes of readers: their pages, those that are stored, the status, what is said of all, and of each 256.
INDEXES = (
    (1, [0], 0, "stored: 1 of 1 page: 0", "stored page 0, of pages 0 to 255"),
    (256, [0, 255], 0, "stored: 2 of 256 pages: 0, 255", "stored pages 0, 255, of pages 0 to 255"),
    (257, [256], 0, "stored: 1 of 257 pages: 256", "stored none of pages 0 to 255", "stored page 256, of pages 256 to 511"),
    (1000, [0, 1, 2, 255, 256, 767, 768, 999], 0, "stored: 8 of 1000 pages: 0 to 2, 255 to 256, 767 to 768, 999",
     "stored pages 0 to 2, 255, of pages 0 to 255", "stored page 256, of pages 256 to 511",
     "stored page 767, of pages 512 to 767", "stored pages 768, 999, of pages 768 to 999"),
    (200, [7, 202], 2, "the reader tells that page 202 is stored, and it has 200 pages", "stored pages 7, 202, of pages 0 to 255"),
    (0, [], 2, "the reader's capacity is 0, and document 01 has 1 to 1000"),
    (1001, [], 2, "the reader's capacity is 1001, and document 01 has 1 to 1000"),
)


def answer_index(row):
    """A reader of so many pages: ask wants the index of all, and no more."""
    pages, stored, status, said, *parts = row
    index = sum(1 << page for page in stored).to_bytes(128, "little")
    parameters = bytes(4) + pages.to_bytes(2, "big") + bytes.fromhex("0003 ffffffff 0002 0006")
    with Peer(acknowledge_of(parameters), *(acknowledge_of(index[at:at + 32]) for at in range(0, 128, 32))) as peer:
        expect(["ask", peer.name, "--wait", WAIT, "index"], status, said, *parts)
        sent = [peer.heard[at:at + 13] for at in range(12, len(peer.heard), 13)]
        wanted = [run_of("ef 01 A 01 00 04 1f %02x 00 %02x" % (page, 0x24 + page)) for page in range(len(parts))]
        check(sent == wanted, "index of %d pages sends %s" % (pages, peer.heard.hex(" ")))


def answer_command(row):
    words, answer, status, said = row
    with Peer(answer) as peer:
        expect(["ask", peer.name, "--wait", WAIT, *words.split("|")], status, said)


def answer_upload(row):
    answers, status, said = row
    with tempfile.TemporaryDirectory() as folder, Peer(*answers) as peer:
        expect(["ask", peer.name, "--wait", WAIT, "upload", "1", os.path.join(folder, "new")], status, said)
        check(os.listdir(folder) == (["new"] if status == 0 else []), "a failed upload leaves a file: " + said)


def answer_download(row):
    answers, status, said = row
    with tempfile.NamedTemporaryFile() as file, Peer(*answers) as peer:
        file.write(TEMPLATE)
        file.flush()
        expect(["ask", peer.name, "--wait", WAIT, "download", "1", file.name], status, said)
        check((DATA[0] in peer.heard) == (OK in answers), "data packets are sent without a 00h to DownChar, or not sent behind it: " + said)


def answer_badly():
    side_by_side(answer_command, ANSWERS)
    side_by_side(answer_index, INDEXES)
    side_by_side(answer_upload, UPLOADS)
    side_by_side(answer_download, DOWNLOADS)


# ---- explain

EXPLAINED = (
    ("ef01ffffffff010003400044", 0, "command 40h HandShake", "address FFFFFFFF, length 3, sum 0044"),
    ("EF 01 FF FF FF FF 01 00 03 1D 00 21, ef:01:ff:ff:ff:ff:07:00:05:00:00:02:00:0e", 0, "templates stored 2"),
    ("0xef 0x01 0xff 0xff 0xff 0xff 0x07 0x00 0x05 0x00 0x00 0x02 0x00 0x0e", 0, "templates stored 2"),
    ("ef01ffffffff0700130000000000004000030000000100010006", 1, "unfinished", "it has 26 bytes of 28"),
    ("ef01ffffffff070003210030", 1, "locked: the password first", "its sum is 0030, and 002B is right"),
    ("ef01ffffffff010003400045", 1, "its sum is 0045, and 0044 is right", "a reader of this address answers 01h"),
    ("ef01ffffffff010003350039", 1, "document 01 has no command 35h", "a reader of this address answers 19h"),
    ("ef01ffffffff010003350038", 1, "document 01 has no command 35h", "a reader of this address answers 01h"),
    ("ef01ffffffff01000406010000", 1, "its length is 4, and that of Store is 6"),
    ("ef01ffffffff07000400000 00b".replace(" ", ""), 1, "its length is 4, and that of code 00h is 3 or 5 or 7 or 19 or 35"),
    ("ef01ffffffff0200034100 46".replace(" ", ""), 1, "it has 1 byte, and a data packet has 32, 64, 128 or 256"),
    ("00 11 ef01ffffffff010003400044", 1, "no packet starts here", "command 40h HandShake"),
    ("ef01ffffffff030003400044ef01ffffffff010003400044", 1, "its identifier is 3", "command 40h HandShake"),
    ("ef01ffffffff010101", 1, "its length is 257, and not 3 to 256, which identifier 1 has"),
    ("ef01ffffffff020101", 1, "a packet that is unfinished: it has 9 bytes of 266"),
    ("ef01ffffffff080103", 1, "its length is 259, and not 3 to 258, which identifier 8 has"),
    ("ef01ffffffff0100030f0013 ef01ffffffff070013000000000000400003ffffffff000400060463", 0, "size code 4 (no such code)"),
    ("ef01ffffffff0100041f030027 ef01ffffffff0700230080" + "00" * 31 + "00aa", 0, "stored page 775, of pages 768 to 999"),
    ("ef01ffffffff0100030f0013 ef01ffffffff070013000006000000400003ffffffff000200060467", 0,
     "status 6 (password verified, last Search found a page)"),
    ("ef01ffffffff010008040100000040004e ef01ffffffff0700070000090078008f", 0,
     "command 04h Search: buffer 1, start 0, count 64", "acknowledge 00h, done: page 9, score 120"),
    ("ef01ffffffff0700070000090078008f", 0, "acknowledge 00h, done: page 9, score 120"),
    ("ef01ffffffff07000709000000000017", 0, "acknowledge 09h, no page found: page 0, score 0"),
    ("ef01ffffffff07000709000100000018", 1, "it has page 1 and score 0, and with 09h both are 0"),
    ("ef01ffffffff070003090013", 1, "its length is 3, and that of code 09h is 7"),
    ("ef01ffffffff01000604010000000c", 1, "its length is 6, and that of Search is 8", "a reader of this address answers 01h"),
    ("ef01ffffffff0100031f0023 ef01ffffffff0700230080" + "00" * 31 + "00aa", 1, "its length is 3, and that of ReadIndexTable is 4", "32 bytes: 80"),
    ("ef01ffffffff0700230080" + "00" * 31 + "00aa", 0, "32 bytes: 80"),
    ("ef01ffffffff0100041f040028 ef01ffffffff0700230080" + "00" * 31 + "00aa", 1, "there is no index page 4, and 0Bh is right"),
    ("ef01ffffffff0100041f040028 ef01ffffffff0700030b0015", 0, "no such page"),
    ("41 ef", 1, "no packet starts here", "it has 1 byte of the first 9"),
    ("xyz", 2, "this is no hex", "usage: ./bystrodol explain"),
    ("ef 1", 2, "this is no hex"),
    ("", 2, "usage: ./bystrodol explain"),
    ("--help", 0, "usage: ./bystrodol explain"),
)


def explain_all():
    side_by_side(lambda row: expect(["explain", row[0]], *row[1:]), EXPLAINED)
    expect(["explain"], 2, "usage: ./bystrodol explain")
    expect(["explain", "ef01", "ffffffff", "01", "0003", "40", "0044"], 0, "command 40h HandShake")


def main():
    try:
        talk_to_reader()
        give_bad_words()
        answer_badly()
        copies.check_copies()
        explain_all()
    except Failed as failure:
        print("ask: FAILED: %s" % failure)
        return 1
    except NoPort as trouble:
        print("ask: %s" % trouble, file=sys.stderr)
        return 2
    print("ask: %d calls of ask and explain end and say as they should" % len(calls))
    return 0


if __name__ == "__main__":
    sys.exit(main())
