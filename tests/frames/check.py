#!/usr/bin/env python3
"""Gives a probe frames at its limits and past them: 1000 pages are taken, and what is more than it holds is refused by a line.

    check.py PROBE ARGS...

PROBE ARGS... starts the probe. Ends 0 if all is as docs/EVIDENCE.md has it, 1 if not, 2 if the probe does not start.
"""

import struct
import subprocess
import sys

SECONDS = 60
PARTS = ("templates", "index", "notepad", "buffer 1", "buffer 2", "scores", "thresholds", "run", "reply room")
NUMBERS = ("scores", "thresholds")      # of two bytes each, and counted by numbers; the other parts by bytes
NOT_BACK = (*NUMBERS, "run")
RIGHT = {"templates": 512, "index": 128, "notepad": 512, "buffer 1": 512, "buffer 2": 512, "scores": 1, "thresholds": 5, "run": 0, "reply room": 700}
MOST = {"templates": 512512, "index": 256, "notepad": 1024, "buffer 1": 1024, "buffer 2": 1024, "scores": 1001, "thresholds": 10, "run": 4096,
        "reply room": 4096}
FRESH = bytes.fromhex("00000000 ffffffff 03 02 06 00 0000 0000 00 00 00 00 ffff ffff")
ACCEPTED = struct.pack(">BII", 0, 0, 0) + FRESH
RECEIVER = bytes(269)
HANDSHAKE = bytes.fromhex("ef01ffffffff010003400044")
DONE = bytes.fromhex("ef01ffffffff07000300 000a")


def head(op, lengths):
    return bytes([op]) + FRESH + struct.pack(">9I", *(lengths[name] for name in PARTS))


def bytes_of(names, lengths):
    """The bytes of parts with these lengths, all of them zero."""
    return bytes(sum(lengths[name] * (2 if name in NUMBERS else 1) for name in names))


def frame(op, name="run"):
    """A frame with as much of one part as the probe has room for, and as much of the others as a right reader has."""
    lengths = {**RIGHT, name: MOST[name]}
    return head(op, lengths) + receiver(op) + bytes_of(PARTS, lengths)


def receiver(op):
    return RECEIVER if op in (2, 3) else b""


def length_out(op, name="run"):
    """The length of the frame that comes back of it."""
    lengths = {**RIGHT, name: MOST[name]}
    return 9 + len(FRESH) + len(receiver(op)) + len(bytes_of(set(PARTS) - set(NOT_BACK), lengths))


def handshake(pages, **lent):
    """A call of a reader of so many pages with a handshake; lent, with so many scores or thresholds."""
    lengths = {**RIGHT, "templates": 512 * pages, "scores": pages, "run": len(HANDSHAKE), **lent}
    return head(0, lengths) + bytes_of(PARTS[:7], lengths) + HANDSHAKE + bytes(700)


def answer_to(pages, refusal, used, reply):
    """What comes back of it: nothing but the reply room has changed."""
    memory = 512 * pages + sum(RIGHT[name] for name in PARTS[1:5])
    return struct.pack(">BII", refusal, used, len(reply)) + FRESH + bytes(memory) + reply.ljust(700, b"\0")


def library(op, stored, room, past=0):
    """A call over pages that are stored or not, all with bytes, and this number for the index bits past them; with a room of so many bytes that are not zero."""
    lengths = {**RIGHT, "templates": 512 * len(stored), "reply room": room}
    templates = b"".join(map(page, range(len(stored))))
    return head(op, lengths) + templates + index_of(stored, past) + bytes_of(PARTS[2:8], lengths) + b"\xa5" * room


def page(number):
    """A template, of which no two are alike."""
    return struct.pack(">H", number + 1) * 256


def index_of(stored, past=0):
    return (past << len(stored) | sum(1 << old for old, is_stored in enumerate(stored) if is_stored)).to_bytes(128, "little")


def closed(stored, room):
    """What comes back of closing the gaps: the table high byte first, and the last byte of an odd room as it was."""
    pages = [old for old, is_stored in enumerate(stored) if is_stored]
    table = b"".join(struct.pack(">H", pages.index(old) if is_stored else 0xffff) for old, is_stored in enumerate(stored))
    templates = b"".join(map(page, pages)).ljust(512 * len(stored), b"\0")
    return ACCEPTED + templates + index_of([True] * len(pages)) + bytes_of(PARTS[2:5], RIGHT) + table.ljust(room, b"\xa5")


def salvaged(stored, past):
    """What comes back of a salvage: the report is the reply room."""
    templates = b"".join(page(old) if is_stored else bytes(512) for old, is_stored in enumerate(stored))
    report = bytes(0 if is_stored else 2 for is_stored in stored) + bytes(past >> bit & 1 for bit in range(1024 - len(stored)))
    return ACCEPTED + templates + index_of(stored) + bytes_of(PARTS[2:5], RIGHT) + report


def kept(stored, room, past=0):
    """What comes back where such a call is refused for the room: everything as it was."""
    given = library(0, stored, room, past)[len(head(0, RIGHT)):]
    not_back = len(bytes_of(NOT_BACK, RIGHT))
    return struct.pack(">BII", 1, 0, 0) + FRESH + given[:-room - not_back] + given[len(given) - room:]


def past(name):
    """A head that asks for one more than the probe has room for, of this part and of all behind it, and not a byte behind the head."""
    return head(0, {**RIGHT, **{other: MOST[other] + 1 for other in PARTS[PARTS.index(name):]}})


def more_than(name):
    what = name if name in NUMBERS else f"bytes of {name}"
    return f"probe: more than {MOST[name]} {what}{', 1001 pages' if name == 'templates' else ''}\n"


INSIDE = "probe: the input ends inside a frame\n"
NO_SUCH = "probe: a frame starts with 0 to 7\n"

# Libraries with gaps: of three pages, of nine, and of as many as there can be.
LIBRARIES = [[False, True, True], [True, False] * 4 + [True], [old % 3 != 1 for old in range(1000)]]

# What it is given, what it writes, or how many bytes of it, and what it says.
ROWS = [
    ("nothing", b"", b"", ""),
    ("1000 pages", handshake(1000), answer_to(1000, 0, 12, DONE), ""),
    ("1001 pages, which the reader refuses", handshake(1001), answer_to(1001, 1, 0, b""), ""),
    ("1000 pages twice", 2 * handshake(1000), 2 * answer_to(1000, 0, 12, DONE), ""),
    ("a frame, and one of 1002 pages", handshake(1) + head(0, {**RIGHT, "templates": 512 * 1002}), answer_to(1, 0, 12, DONE), more_than("templates")),
    ("a head cut short", head(0, RIGHT)[:-1], b"", INSIDE),
    ("the front of a head of no such call", head(8, RIGHT)[:-1], b"", INSIDE),
    ("a frame cut short", handshake(1000)[:-1], b"", INSIDE),
    ("a receiver's frame cut short", frame(2)[:-1], b"", INSIDE),
]
ROWS += [(f"{scores} scores of 8 pages, which the reader refuses", handshake(8, scores=scores), answer_to(8, 1, 0, b""), "")
         for scores in (0, 7, 9, 1001)]
ROWS += [(f"{thresholds} thresholds, which the reader refuses", handshake(8, thresholds=thresholds), answer_to(8, 1, 0, b""), "")
         for thresholds in (0, 4, 6, 10)]
ROWS += [(f"the most of {name}", frame(5, name), length_out(5, name), "") for name in PARTS]
ROWS += [(f"more of {name}", past(name), b"", more_than(name)) for name in PARTS]
ROWS += [(f"gaps of {len(stored)} pages, in a room of {room} bytes", library(6, stored, room), closed(stored, room), "")
         for stored in LIBRARIES for room in (2 * len(stored), 2 * len(stored) + 1)]
ROWS += [(f"gaps of {len(stored)} pages, in a room of {room} bytes, which is refused", library(6, stored, room), kept(stored, room), "")
         for stored in LIBRARIES for room in (0, 1, 2 * len(stored) - 1, 2 * len(stored) + 2, MOST["reply room"])]
ROWS += [(f"salvage of {len(stored)} pages, {past:x}h past them", library(7, stored, 1024, past), salvaged(stored, past), "")
         for stored in LIBRARIES for past in (0, 1, 1 << 1023 - len(stored), 0xa5a5a5)]
ROWS += [(f"salvage of {len(stored)} pages, with a report of {room} bytes, which is refused", library(7, stored, room, 5), kept(stored, room, 5), "")
         for stored in LIBRARIES for room in (0, len(stored), 1023, 1025, MOST["reply room"])]
ROWS += [(f"call {op}", frame(op), length_out(op), "") for op in range(8)]
ROWS += [(f"call {op}, which there is none of", head(op, RIGHT), b"", NO_SUCH) for op in range(8, 256)]


def failures_of(command):
    for name, given, written, said in ROWS:
        done = subprocess.run(command, input=given, capture_output=True, timeout=SECONDS)
        if done.returncode != 0:
            yield f"{name}: it ends with {done.returncode}"
        if done.stderr.decode() != said:
            yield f"{name}: it says {done.stderr!r}, and not {said!r}"
        if written not in (done.stdout, len(done.stdout)):
            yield f"{name}: it writes {len(done.stdout)} bytes, and not what it must"


def main(command):
    try:
        failures = list(failures_of(command))
    except (IndexError, OSError, subprocess.TimeoutExpired) as error:
        print(f"frames: the probe does not start or end: {error}", file=sys.stderr)
        return 2
    for failure in failures:
        print(failure)
    print(f"frames: {len(failures)} failures in {len(ROWS)}" if failures else f"frames: {len(ROWS)} are taken or refused as they must be")
    return 1 if failures else 0


if __name__ == "__main__":
    sys.exit(main(sys.argv[1:]))
