"""Document 01 for the programs here: the form of a packet, how one is found, the commands and the codes.

Numbers are high byte first.
"""

import collections

START = b"\xef\x01"
HEAD = 9                                # the bytes before the content: EF 01, address (4), identifier (1), length (2)

COMMAND, DATA, ACKNOWLEDGE, LAST_DATA = 1, 2, 7, 8
IDENTIFIERS = {COMMAND: "command", DATA: "data", ACKNOWLEDGE: "acknowledge", LAST_DATA: "last data"}

# A length field counts the content and the two bytes of the sum; the most goes by the identifier.
LEAST_LENGTH = 3
MOST_LENGTH = {COMMAND: 256, DATA: 258, ACKNOWLEDGE: 256, LAST_DATA: 258}

TEMPLATE = 512                          # bytes, in a buffer or on a page
NOTE = 32                               # bytes of a notepad page
NOTES = 16                              # pages of the notepad
INDEX = 128                             # bytes of the index
INDEX_PAGE = 32                         # bytes of it in a reply of ReadIndexTable
INDEXED = 8 * INDEX_PAGE                # pages that they tell of
MOST_PAGES = 1000                       # of a library
SIZES = {0: 32, 1: 64, 2: 128, 3: 256}  # the bytes in a data packet, by size code
BAUD = 9600                             # times the baud factor is the speed of the line
FRESH_ADDRESS = b"\xff" * 4
FRESH_SIZE_CODE = 2
FRESH_BAUD_FACTOR = 6
NO_PASSWORD = bytes(4)

# SetSysPara's numbers.
BAUD_FACTOR, SECURITY_LEVEL, SIZE_CODE = 4, 5, 6

# Bits of the status word, by weight: the last Search found a page; a password is verified. A locked reader shows neither.
FOUND, VERIFIED = 2, 4

DONE, DAMAGED, NOT_FOUND, TRANSFER_FAILED, UNKNOWN, STORED_ALREADY = 0x00, 0x01, 0x09, 0x0E, 0x19, 0x22

# Parameters, and what a reply lists: each name with its length in bytes; and the codes of such a reply.
Command = collections.namedtuple("Command", "code name parameters listed listing", defaults=((DONE,),))
COMMANDS = (
    Command(0x04, "Search", {"buffer": 1, "start": 2, "count": 2}, {"page": 2, "score": 2}, (DONE, NOT_FOUND)),
    Command(0x06, "Store", {"buffer": 1, "page": 2}, {}),
    Command(0x07, "LoadChar", {"buffer": 1, "page": 2}, {}),
    Command(0x08, "UpChar", {"buffer": 1}, {}),
    Command(0x09, "DownChar", {"buffer": 1}, {}),
    Command(0x0C, "DeletChar", {"page": 2, "count": 2}, {}),
    Command(0x0D, "Empty", {}, {}),
    Command(0x0E, "SetSysPara", {"number": 1, "value": 1}, {}),
    Command(0x0F, "ReadSysPara", {}, {"status": 2, "sensor type": 2, "capacity": 2, "security level": 2, "address": 4,
                                      "size code": 2, "baud factor": 2}),
    Command(0x12, "SetPwd", {"password": 4}, {}),
    Command(0x13, "VfyPwd", {"password": 4}, {}),
    Command(0x15, "SetAdder", {"address": 4}, {}),
    Command(0x18, "WriteNotepad", {"page": 1, "text": NOTE}, {}),
    Command(0x19, "ReadNotepad", {"page": 1}, {"text": NOTE}),
    Command(0x1D, "TempleteNum", {}, {"templates stored": 2}),
    Command(0x1F, "ReadIndexTable", {"index page": 1}, {"stored": INDEX_PAGE}),
    Command(0x40, "HandShake", {}, {}),
)
BY_CODE = {command.code: command for command in COMMANDS}
BY_NAME = {command.name: command for command in COMMANDS}

ACKNOWLEDGES = {
    DONE: "done",
    DAMAGED: "damaged packet or bad parameter",
    NOT_FOUND: "no page found",
    0x0B: "no such page",
    0x0C: "nothing is there: a buffer that is not filled, or was wiped with a deleted page; or a page that is not stored",
    0x0D: "the buffer is not filled, or was wiped with a deleted page",
    TRANSFER_FAILED: "the transfer failed: a data packet does not fit in size, sum or total",
    0x10: "no such pages: not all of them are there, and none is deleted",
    0x13: "wrong password",
    UNKNOWN: "unknown command",
    0x1A: "no such parameter",
    0x1B: "no such value",
    0x1C: "no such notepad page",
    0x21: "locked: the password first",
    STORED_ALREADY: "the page is stored already: to replace it, delete it and store again (a buffer that has this page's own template is wiped with it)",
}


def number(run):
    return int.from_bytes(run, "big")


def two_bytes(value):
    return value.to_bytes(2, "big")


def sum_of(identifier, content):
    return sum(bytes([identifier]) + two_bytes(len(content) + 2) + content) % 65536


def packet(identifier, content, address=FRESH_ADDRESS):
    return START + address + bytes([identifier]) + two_bytes(len(content) + 2) + content + \
        two_bytes(sum_of(identifier, content))


def content_of(name, *values):
    """The content of a command: its code, and each parameter, a number or its bytes."""
    command = BY_NAME[name]
    assert len(values) == len(command.parameters)
    lengths = command.parameters.values()
    return bytes([command.code]) + b"".join(
        value if isinstance(value, bytes) else value.to_bytes(length, "big") for value, length in zip(values, lengths))


def data_packets(content, size, address=FRESH_ADDRESS):
    """The data packets of a transfer, of one size; the last has an identifier of its own."""
    parts = [content[at:at + size] for at in range(0, len(content), size)]
    return [packet(DATA, part, address) for part in parts[:-1]] + [packet(LAST_DATA, parts[-1], address)]


def fields_of(names, run):
    """The fields of a run that is as long as all their lengths, by their names."""
    fields = {}
    for name, length in names.items():
        fields[name], run = run[:length], run[length:]
    return fields


NOISE, UNFINISHED, UNFIT, WHOLE = "noise", "unfinished", "unfit", "whole"
Found = collections.namedtuple("Found", "case start used")


def find(run):
    """What steps 1 to 4 find in a run: the case, where the packet starts, and the bytes used."""
    start = run.find(START)
    if start < 0:
        return Found(NOISE, len(run), len(run) - run.endswith(START[:1]))
    head = run[start:start + HEAD]
    if len(head) < HEAD:
        return Found(UNFINISHED, start, start)
    length = number(head[7:])
    if head[6] not in IDENTIFIERS or not LEAST_LENGTH <= length <= MOST_LENGTH[head[6]]:
        return Found(UNFIT, start, start + len(START))
    end = start + HEAD + length
    return Found(UNFINISHED, start, start) if len(run) < end else Found(WHOLE, start, end)


class Packet:
    """The parts of a whole packet."""

    def __init__(self, run):
        self.run = run
        self.address, self.identifier, self.length = run[2:6], run[6], number(run[7:HEAD])
        self.content, self.sum = run[HEAD:-2], number(run[-2:])
        self.code = self.content[0]
