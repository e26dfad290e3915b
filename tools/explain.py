#!/usr/bin/env python3
"""Says what packets are, damaged ones too, by the steps of document 01.

    explain.py HEX...

A reply is read as the answer to the command before it. Status: 0 all are whole and as document 01 has them, 1 something is
damaged, 2 bad usage.
"""

import re
import sys

from program import TROUBLE, end
from protocol import (ACKNOWLEDGES, BY_CODE, COMMAND, DAMAGED, HEAD, IDENTIFIERS, LEAST_LENGTH, MOST_LENGTH, NOISE, START,
                      UNFINISHED, UNFIT, UNKNOWN, WHOLE, Packet, find, number, sum_of)
from words import faults_of, lines_of, plural, rows_of

USAGE = "usage: ./bystrodol explain HEX...    the bytes in hex, with or without blanks, commas, colons or 0x between them"


def bytes_of(text):
    """The bytes of hex digits; a ValueError if it is none."""
    return b"".join(map(bytes.fromhex, re.split(r"[\s,:]+|0x|\\x", text)))


def parts_of(run):
    """A run cut by steps 1 to 4: each part is noise, or an unfinished, unfit or whole packet."""
    while run:
        found = find(run)
        start = found.used if found.case == NOISE else found.start
        if start:
            yield NOISE, run[:start]
        end = found.used if found.case == WHOLE else len(run)
        if found.case == UNFIT and START in run[found.used:]:
            end = run.index(START, found.used)
        if start < end:
            yield UNFINISHED if found.case == NOISE else found.case, run[start:end]
        run = run[end:]


def why_unfit(part):
    if part[6] not in IDENTIFIERS:
        return "its identifier is %d, and not 1, 2, 7 or 8" % part[6]
    return "its length is %d, and not %d to %d, which identifier %d has" % (number(part[7:HEAD]), LEAST_LENGTH, MOST_LENGTH[part[6]], part[6])


def rest_of(part):
    if len(part) < HEAD:
        return "it has %s of the first %d" % (plural(len(part), "byte"), HEAD)
    return "it has %s of %d" % (plural(len(part), "byte"), HEAD + number(part[7:HEAD]))


def answer_to(command):
    """What a reader answers to a command with faults, locked or not."""
    is_right = command.sum == sum_of(command.identifier, command.content)
    code = UNKNOWN if is_right and command.code not in BY_CODE else DAMAGED
    return "a reader of this address answers %02Xh, %s" % (code, ACKNOWLEDGES[code])


def explain_packet(packet, asked):
    for line in lines_of(packet, asked):
        print("  " + line)
    print("  address %s, length %d, sum %04X" % (packet.address.hex().upper(), packet.length, packet.sum))
    faults = faults_of(packet, asked)
    for fault in faults:
        print("  WRONG: " + fault)
    if faults and packet.identifier == COMMAND:
        print("  " + answer_to(packet))
    return not faults


def explain(run, asked=None):
    """Tells each part of a run, and whether all is well; asked is the command packet that the first reply answers."""
    is_well = True
    for case, part in parts_of(run):
        print("\n".join(rows_of(part)))
        if case == WHOLE:
            packet = Packet(part)
            if packet.identifier == COMMAND:
                asked = packet if packet.code in BY_CODE and not faults_of(packet) else None
            is_well &= explain_packet(packet, asked)
            continue
        is_well = False
        if case == NOISE:
            print("  WRONG: no packet starts here; it is passed over")
        elif case == UNFIT:
            print("  WRONG: no packet starts with this EF 01, which is passed over: %s" % why_unfit(part))
        else:
            print("  WRONG: a packet that is unfinished: %s" % rest_of(part))
    return is_well


def main(words):
    if words in (["--help"], ["-h"]):
        print(USAGE)
        return 0
    try:
        run = bytes_of(" ".join(words))
    except ValueError:
        print("explain: this is no hex, two digits to a byte: %s" % " ".join(words), file=sys.stderr)
        run = b""
    if not run:
        print(USAGE, file=sys.stderr)
        return TROUBLE
    return 0 if explain(run) else 1


if __name__ == "__main__":
    end("explain", main)
