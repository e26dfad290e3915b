#!/usr/bin/env python3
"""Puts the packets of packets.txt to the reader, and to its receiver with the first half of the packet held, and compares what comes back.

    check.py PROBE ARGS...

PROBE ARGS... starts the probe, the program that carries out single calls of the reader (one frame in, one frame out).
Ends 0 if all agree, 1 if something differs, 2 if the call, the data file or the probe is unusable.
"""

import copy
import os
import re
import struct
import subprocess
import sys

DATA = os.path.join(os.path.dirname(os.path.abspath(__file__)), "packets.txt")
SECONDS = 300

# The settings in the order of a frame: four bytes, numbers of one and two bytes, marks, origins.
SETTINGS = ("password", "address", "level", "size", "baud", "transfer", "type", "got", "verified", "filled1", "filled2", "found",
            "origin1", "origin2")
LAYOUT = ">4s4sBBBBHHBBBBHH"
NO_PAGE = 0xFFFF
MEMORY = ("templates", "index", "notepad", "buffer1", "buffer2")
PAGE = 512
INDEX = 128


class Unusable(Exception):
    """The call, the data file or the probe is not as it must be."""


def grain(seed, length):
    """Bytes of which none is zero; other seeds give other bytes."""
    return bytes((seed + 7 * i + i // 255) % 255 + 1 for i in range(length))


ROOM = grain(200, 700)
CELLS = 267


class Reader:
    """The whole contents of a reader: settings and lent memory, by name; and the scores and thresholds of the sensor chip."""

    def __init__(self, capacity):
        self.scores, self.thresholds = [0] * capacity, [0] * 5
        self.settings = dict.fromkeys(SETTINGS, 0)
        self.settings.update(password=bytes(4), address=b"\xff" * 4, level=3, size=2, baud=6, origin1=NO_PAGE, origin2=NO_PAGE)
        self.memory = {"templates": bytes(PAGE * capacity), "index": bytes(INDEX), "notepad": bytes(512),
                       "buffer1": bytes(512), "buffer2": bytes(512)}

    def store(self, pages):
        index = bytearray(INDEX)
        for page in pages:
            index[page // 8] |= 1 << page % 8
        self.memory["index"] = bytes(index)


# The scores of stored pages, if not 40; vacant pages have the highest number there is. The thresholds of levels 1 to 5.
SCORES = {0: 99, 9: 120, 63: 120, 255: 300, 999: 300}
THRESHOLDS = [0, 30, 60, 99, 100]


def filled(capacity=64, pages=(0, 9, 63)):
    reader = Reader(capacity)
    for seed, name in enumerate(("templates", "notepad", "buffer1", "buffer2")):
        reader.memory[name] = grain(50 * seed, len(reader.memory[name]))
    reader.store(pages)
    reader.settings.update(level=5, size=2, baud=12, type=9, filled1=1, filled2=1)
    reader.scores = [SCORES.get(page, 40) if page in pages else 0xFFFF for page in range(capacity)]
    reader.thresholds = THRESHOLDS
    return reader


def changed(reader, **settings):
    reader.settings.update(settings)
    return reader


def in_transfer(**settings):
    reader = changed(filled(), transfer=1, got=256, filled1=0, **settings)
    reader.memory["buffer1"] = reader.memory["buffer1"][:256] + bytes(256)
    return reader


def with_buffer1(reader, byte):
    reader.memory["buffer1"] = bytes([byte]) * 512
    return reader


def without_chip(reader):
    reader.scores, reader.thresholds = [0] * len(reader.scores), [0] * 5
    return reader


PASSWORD = bytes((0, 0, 0, 5))
READERS = {
    "fresh": Reader(64),
    "filled": filled(),
    "verified": changed(filled(), password=PASSWORD, verified=1),
    "locked": changed(filled(), password=PASSWORD),
    "open": in_transfer(),
    "large": filled(256, range(256)),
    "thousand": with_buffer1(filled(1000, set(range(1000)) - {3, 257, 600, 998}), 0xA5),
    "elsewhere": changed(filled(), address=bytes(4)),
    "wide": with_buffer1(changed(filled(), size=3), 0xA5),
    "awaiting": with_buffer1(changed(filled(), size=3, transfer=1, filled1=0), 0),
    "halfway": in_transfer(size=3),
    "copied": changed(filled(), origin1=9, origin2=63),
    "matched": changed(filled(), password=PASSWORD, verified=1, found=1),
    "hiding": changed(filled(), password=PASSWORD, found=1),
    "keyless": changed(filled(), found=1),
    "lenient": changed(filled(), level=4),
    "zeros": without_chip(filled()),
}


class Entry:
    """An entry of the data file, with its packets: the print, and if that is damaged the repaired packet; or one that is made."""

    def __init__(self, label):
        self.label, self.damaged, self.packets = label, False, []


class Packet:
    def __init__(self, place, kind, run):
        self.place, self.kind, self.run, self.puts = place, kind, run, []


class Put:
    """A packet put to a reader, and what must come back. A reply of no bytes is silence."""

    def __init__(self, packet, name, used, reply, after):
        self.place, self.run = f"{packet.place}, to {name}", packet.run
        self.name, self.used, self.reply, self.after = name, used, reply, after


def expected_reader(put):
    reader = copy.deepcopy(READERS[put.name])
    for change in put.after.split(", "):
        name, *what = change.split()
        if change == "no transfer":
            reader.settings.update(transfer=0, got=0)
        elif what == ["wiped"] and name in ("buffer1", "buffer2"):
            reader.memory[name] = bytes(512)
            reader.settings.update({"filled" + name[-1]: 0, "origin" + name[-1]: NO_PAGE})
        elif what == ["zeroed"] and name in MEMORY:
            reader.memory[name] = bytes(len(reader.memory[name]))
        elif what[:1] == ["from"] and name in MEMORY:
            place, part = int(what[1]), bytes_of(" ".join(what[2:]))
            reader.memory[name] = reader.memory[name][:place] + part + reader.memory[name][place + len(part):]
        elif len(what) == 1 and name in SETTINGS:
            reader.settings[name] = int(what[0])
        elif put.after != "same":
            raise Unusable(f"{put.place}: no such change: {change}")
    return reader


def whole(run):
    """Whether the bytes are packets one behind the other, each with its right sum."""
    while run:
        length = int.from_bytes(run[7:9], "big")
        end = 9 + length
        if run[:2] != b"\xef\x01" or length < 3 or len(run) < end:
            return False
        if sum(run[6:end - 2]) % 65536 != int.from_bytes(run[end - 2:end], "big"):
            return False
        run = run[end:]
    return True


BYTE = r"[0-9A-F]{2}(?:\*\d+)?"
BYTES = rf"(?:{BYTE} )*{BYTE}"
ENTRY = re.compile(r"source (\d{3}) (lines? [\d, -]+): (.+)")
PACKET = re.compile(rf"(print|repaired|made) +({BYTES})")
PUT = re.compile(rf"  (\w+) +used (\d+) +(?:silent|reply ({BYTES}))  after (.+)")


def bytes_of(text):
    """Bytes in hex; A5*256 is A5 256 times."""
    parts = (word.partition("*") for word in text.split())
    return b"".join(bytes.fromhex(byte) * int(times or 1) for byte, _, times in parts)


def read_data(lines):
    entries = []
    for number, line in enumerate(lines, 1):
        line = line.rstrip()
        entry = entries[-1] if entries else None
        packet = entry.packets[-1] if entry and entry.packets else None
        if not line or line.startswith("#"):
            continue
        if m := ENTRY.fullmatch(line):
            entries.append(Entry(f"source {m[1]} {m[2]} ({m[3]})"))
        elif entry and line.startswith("text "):
            continue
        elif entry and line.startswith("damage "):
            entry.damaged = True
        elif entry and (m := PACKET.fullmatch(line)):
            entry.packets.append(Packet(f"{entry.label}, {m[1]}", m[1], bytes_of(m[2])))
        elif packet and (m := PUT.fullmatch(line)) and m[1] in READERS:
            packet.puts.append(Put(packet, m[1], int(m[2]), bytes_of(m[3] or ""), m[4]))
        else:
            raise Unusable(f"packets.txt line {number}: not understood: {line}")
    return entries


def data_failures(entries):
    """What is wrong with the data file by itself."""
    failures = []
    for entry in entries:
        kinds = [packet.kind for packet in entry.packets]
        if kinds != ["print", "repaired"][:1 + entry.damaged] and kinds != ["made"]:
            failures.append(f"{entry.label}: a print, and a repaired packet if it is damaged, are wanted, or one that is made")
        for packet in entry.packets:
            if not packet.puts:
                failures.append(f"{packet.place}: put to no reader")
            damaged = entry.damaged and packet.kind == "print"
            if whole(packet.run) == damaged:
                failures.append(f"{packet.place}: its length and sum are {'right' if damaged else 'not right'}")
            failures += [f"{put.place}: the expected reply's length and sum are not right"
                         for put in packet.puts if not whole(put.reply)]
    return failures


def half(run):
    """How many bytes of a run the receiver holds, the others being its piece."""
    return len(run) // 2


def frame(reader, run, received):
    """A call of the reader; received, one of the receiver, with old bytes in the cells past those held."""
    op, receiver = b"\0", b""
    if received:
        held, run = run[:half(run)], run[half(run):]
        op, receiver = b"\2", struct.pack(">H", len(held)) + held + grain(100, CELLS - len(held))
    parts = [reader.memory[name] for name in MEMORY] + [reader.scores, reader.thresholds] + [run, ROOM]
    settings = struct.pack(LAYOUT, *(reader.settings[name] for name in SETTINGS))
    lengths = b"".join(struct.pack(">I", len(part)) for part in parts)
    return op + settings + lengths + receiver + b"".join(map(in_frame, parts))


def in_frame(part):
    """A part as it stands in a frame: bytes as they are, a list's numbers in two bytes each."""
    return part if isinstance(part, bytes) else struct.pack(f">{len(part)}H", *part)


def take(answers, length):
    part, rest = answers[:length], answers[length:]
    if len(part) < length:
        raise Unusable("the probe's output ends inside a frame")
    return bytes(part), rest


def compare(put, answers, received):
    """The ways in which the first frame of the answers differs from what must come back, and the frames after it."""
    reader = expected_reader(put)
    wrong = []
    expected_used = len(put.run) - half(put.run) if received else put.used
    head, answers = take(answers, 9)
    refusal, used, length = struct.unpack(">BII", head)
    if refusal != 0:
        wrong.append(f"refusal {refusal}")
    if used != expected_used:
        wrong.append(f"{'taken' if received else 'used'} {used}, not {expected_used}")
    packed, answers = take(answers, struct.calcsize(LAYOUT))
    for name, value in zip(SETTINGS, struct.unpack(LAYOUT, packed)):
        if value != reader.settings[name]:
            wrong.append(f"{name} is {shown(value)}, not {shown(reader.settings[name])}")
    if received:
        left = put.run[put.used:]
        receiver, answers = take(answers, 2 + CELLS)
        if receiver != struct.pack(">H", len(left)) + left + bytes(CELLS - len(left)):
            wrong.append(f"the receiver is not the {len(left)} bytes that were not used, and zeros")
    for name in MEMORY:
        part, answers = take(answers, len(reader.memory[name]))
        if part != reader.memory[name]:
            wrong.append(f"{name} not as expected from byte {first_difference(part, reader.memory[name])} on")
    room, answers = take(answers, len(ROOM))
    if length != len(put.reply) or room[:length] != put.reply:
        wrong.append(f"reply {shown(room[:length])}, not {shown(put.reply)}")
    elif room[length:] != ROOM[length:]:
        wrong.append(f"the room past the reply changed, from byte {first_difference(room[length:], ROOM[length:])} on")
    return [f"{put.place}{', received' if received else ''}: {what}" for what in wrong], answers


def first_difference(one, other):
    return next(i for i, (a, b) in enumerate(zip(one, other)) if a != b)


def shown(value):
    if isinstance(value, int):
        return str(value)
    return value.hex(" ").upper() if value else "silence"


def ask(command, calls):
    """The probe's answers to all calls, one frame behind the other."""
    try:
        done = subprocess.run(command, input=b"".join(frame(READERS[put.name], put.run, received) for put, received in calls),
                              stdout=subprocess.PIPE, timeout=SECONDS)
    except OSError as error:
        raise Unusable(f"the probe does not start: {error}") from error
    except subprocess.TimeoutExpired as error:
        raise Unusable(f"the probe is not done after {SECONDS} seconds") from error
    if done.returncode != 0:
        raise Unusable(f"the probe ends with {done.returncode}")
    return memoryview(done.stdout)


def main(command):
    if not command:
        raise Unusable("usage: check.py PROBE ARGS...")
    with open(DATA, encoding="utf-8") as data:
        entries = read_data(data)
    puts = [put for entry in entries for packet in entry.packets for put in packet.puts]
    if not puts:
        raise Unusable("packets.txt: no packets")
    failures = data_failures(entries)
    calls = [(put, received) for received in (False, True) for put in puts]
    answers = ask(command, calls)
    for put, received in calls:
        wrong, answers = compare(put, answers, received)
        failures += wrong
    if answers:
        raise Unusable(f"the probe's output goes on after the last frame, by {len(answers)} bytes")
    for failure in failures:
        print(failure)
    if failures:
        print(f"manuals: {len(failures)} failures in {len(calls)} calls of {len(entries)} entries")
        return 1
    print(f"manuals: {len(puts)} packets of {len(entries)} entries agree, and received in two pieces too")
    return 0


if __name__ == "__main__":
    try:
        sys.exit(main(sys.argv[1:]))
    except (Unusable, OSError) as error:
        print(f"manuals: {error}", file=sys.stderr)
        sys.exit(2)
