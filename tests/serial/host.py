#!/usr/bin/env python3
"""A host that talks to the reader over a serial port.

Starts ./bystrodol serve, opens its port with pyserial as host software does, and holds every reply to the bytes that
document 01 says. The host writes whole packets, single bytes and odd pieces, with noise between them. Then it ends the
server, of which nothing may be left. Status: 0 all is well, 1 a check failed, 2 there is no port.
"""

import itertools
import os
import signal
import subprocess
import sys
import tempfile

import serial
from server import BYSTRODOL, SECONDS, Failed, NoPort, Server, check

ADDRESS = b"\xff" * 4
OTHER_ADDRESS = b"\x00\x00\x00\x01"
SIZE = 128              # bytes in a data packet of a reader that nothing was set in
COMMAND, DATA, ACKNOWLEDGE, LAST_DATA = 1, 2, 7, 8


def two_bytes(number):
    return number.to_bytes(2, "big")


def packet(identifier, content, address=ADDRESS, sum_error=0):
    summed = bytes([identifier]) + two_bytes(len(content) + 2) + content
    return b"\xef\x01" + address + summed + two_bytes((sum(summed) + sum_error) % 65536)


def acknowledge(code, listed=b""):
    return packet(ACKNOWLEDGE, bytes([code]) + listed)


def data_packets(content, size):
    parts = [content[at:at + size] for at in range(0, len(content), size)]
    return [packet(DATA, part) for part in parts[:-1]] + [packet(LAST_DATA, parts[-1])]


HANDSHAKE = packet(COMMAND, b"\x40")
COUNT = packet(COMMAND, b"\x1d")

# What the reader passes over in silence when a packet follows, within a transfer too.
NOISE = (
    b"\x00\x41\x01\xff",
    b"\xef",
    b"\xef\x01",
    b"\xef\x02\xef",
    packet(3, b"\x0d"),
    packet(ACKNOWLEDGE, b"\x00"),
    packet(COMMAND, b"\x0d", OTHER_ADDRESS),
    packet(COMMAND, HANDSHAKE, OTHER_ADDRESS, sum_error=1),
)

# How the host writes: the lengths of its pieces, over and over, and the noise before its packets.
MANNERS = {
    "whole packets": ((1000,), (b"",)),
    "single bytes": ((1,), (b"",)),
    "odd pieces": ((3, 1, 7, 60, 2, 13), (b"",)),
    "noise, whole": ((1000,), NOISE),
    "noise, odd pieces": ((5, 1, 64, 2), NOISE),
}

# The commands that a locked reader bars.
BARRED = [bytes.fromhex(text) for text in (
    "04 01 0000 0040", "06 01 0000", "07 01 0000", "08 01", "09 01", "0C 0000 0001", "0D", "0E 05 01", "12 00000000", "15 12345678",
    "18 00" + "41" * 32, "19 00", "1D", "1F 00")]


class Host:
    def __init__(self):
        self.exchanges = self.writes = 0

    def open(self, name):
        self.port = serial.Serial(name, 57600, timeout=SECONDS, write_timeout=SECONDS)

    def use(self, manner):
        lengths, noise = MANNERS[manner]
        self.manner, self.lengths, self.noise = manner, itertools.cycle(lengths), itertools.cycle(noise)

    def exchange(self, what, sent, expected):
        """Writes a run in pieces, and reads as many bytes as are expected. More would be in the next reply's place."""
        self.exchanges += 1
        try:
            while sent:
                length = next(self.lengths)
                self.port.write(sent[:length])
                self.writes += 1
                sent = sent[length:]
            got = self.port.read(len(expected))
        except serial.SerialException as failure:
            raise Failed("%s (%s): %s" % (what, self.manner, failure))
        check(got == expected, "%s (%s): the reply is '%s' and not '%s'" %
              (what, self.manner, got.hex(" "), expected.hex(" ")))

    def ask(self, what, content, code=0, listed=b""):
        self.exchange(what, next(self.noise) + packet(COMMAND, content), acknowledge(code, listed))

    def download(self, buffer, template, size=SIZE):
        self.ask("DownChar", bytes([0x09, buffer]))
        for one in data_packets(template, size):
            self.exchange("a data packet", next(self.noise) + one, b"")

    def upload(self, buffer, template, size=SIZE):
        expected = acknowledge(0) + b"".join(data_packets(template, size))
        self.exchange("UpChar", next(self.noise) + packet(COMMAND, bytes([0x08, buffer])), expected)

    def check_silent(self, what):
        """All that was written so far is answered by nothing more."""
        self.exchange(what, HANDSHAKE, acknowledge(0))
        check(self.port.in_waiting == 0, "%s (%s): there are bytes past the reply" % (what, self.manner))


def index(pages):
    return sum(1 << page for page in pages).to_bytes(32, "little")


def search(buffer, start, count):
    return bytes([0x04, buffer]) + two_bytes(start) + two_bytes(count)


def found(page):
    """What Search lists of a page; the server's reader has no sensor chip, and every score is 0."""
    return two_bytes(page) + two_bytes(0)


NONE_FOUND = bytes(4)       # page 0, score 0


def parameters(status):
    """What ReadSysPara lists of a reader in which nothing but a password was set."""
    return two_bytes(status) + bytes.fromhex("0000 0040 0003 FFFFFFFF 0002 0006")


def read_locked(host, what):
    """A locked reader tells its parameters, and shows status 0 whatever it found. Sum and length are tested as ever."""
    host.ask("locked, ReadSysPara, " + what, b"\x0f", 0, parameters(0))
    host.ask("locked, ReadSysPara, a byte too much", b"\x0f\x00", 0x01)
    host.exchange("locked, ReadSysPara, damaged", next(host.noise) + packet(COMMAND, b"\x0f", sum_error=1), acknowledge(0x01))


def enrol(host, number):
    """All that is done with a template and a note, from an empty reader without a password back to one."""
    page = 9 * number + 5
    template = bytearray((i * i + 31 * number) % 256 for i in range(512))
    template[SIZE - 5:SIZE - 5 + len(HANDSHAKE)] = HANDSHAKE
    note = bytes([0xEF, 0x01, number] * 10 + [0xEF, 0xEF])
    password = b"\xef\x01\x00" + bytes([number])

    host.ask("VfyPwd", b"\x13" + bytes(4))
    host.ask("ReadSysPara", b"\x0f", 0, parameters(4))
    host.ask("TempleteNum, none", b"\x1d", 0, two_bytes(0))
    host.ask("ReadIndexTable, none", b"\x1f\x00", 0, index([]))
    host.download(1, bytes(template))
    host.ask("Store", b"\x06\x01" + two_bytes(page))
    host.ask("TempleteNum, one", b"\x1d", 0, two_bytes(1))
    host.ask("ReadIndexTable, one", b"\x1f\x00", 0, index([page]))
    host.download(1, bytes(512))
    host.ask("Store, page stored", b"\x06\x01" + two_bytes(page), 0x22)
    host.ask("Search", search(1, 0, 64), 0, found(page))
    host.ask("LoadChar", b"\x07\x02" + two_bytes(page))
    host.upload(2, bytes(template))
    host.ask("WriteNotepad", b"\x18" + bytes([number]) + note)
    host.ask("ReadNotepad", b"\x19" + bytes([number]), 0, note)

    host.ask("SetPwd", b"\x12" + password)
    for content in BARRED:
        host.ask("locked, %02Xh" % content[0], content, 0x21)
    host.ask("locked, HandShake", b"\x40")
    read_locked(host, "found")
    host.ask("wrong password", b"\x13" + bytes(4), 0x13)
    host.ask("still locked", b"\x1d", 0x21)
    host.ask("still locked, ReadSysPara", b"\x0f", 0, parameters(0))
    host.ask("right password", b"\x13" + password)
    host.ask("nothing is lost, TempleteNum", b"\x1d", 0, two_bytes(1))
    host.ask("nothing is lost, ReadSysPara, found", b"\x0f", 0, parameters(6))
    host.ask("wrong password, unlocked", b"\x13" + bytes(4), 0x13)
    host.ask("locked again, ReadSysPara", b"\x0f", 0, parameters(0))
    host.ask("right password again", b"\x13" + password)
    host.ask("unlocked again, ReadSysPara, found", b"\x0f", 0, parameters(6))
    host.ask("nothing is lost, ReadNotepad", b"\x19" + bytes([number]), 0, note)
    host.upload(2, bytes(template))

    host.ask("DeletChar", b"\x0c" + two_bytes(page) + two_bytes(1))
    host.ask("UpChar, loaded from the page deleted", b"\x08\x02", 0x0D)
    host.ask("LoadChar, deleted", b"\x07\x01" + two_bytes(page), 0x0C)
    host.ask("TempleteNum, deleted", b"\x1d", 0, two_bytes(0))
    host.ask("ReadIndexTable, deleted", b"\x1f\x00", 0, index([]))
    host.ask("Search, deleted", search(1, 0, 64), 0x09, NONE_FOUND)
    host.ask("ReadSysPara, not found", b"\x0f", 0, parameters(4))
    host.ask("SetPwd, the same", b"\x12" + password)
    read_locked(host, "not found")
    host.ask("right password, not found", b"\x13" + password)
    host.ask("unlocked, ReadSysPara, not found", b"\x0f", 0, parameters(4))
    host.ask("SetPwd, none", b"\x12" + bytes(4))
    host.check_silent("at the end")


def identify(host):
    """Whose finger is it? It goes into a buffer, and Search tells the page. From an empty reader without a password back to one."""
    finger = bytes(7 * i % 256 for i in range(512))
    host.download(1, finger)
    host.ask("Search, nothing stored", search(1, 0, 64), 0x09, NONE_FOUND)
    for page in (40, 12, 63):
        host.ask("Store", b"\x06\x01" + two_bytes(page))
    host.ask("Search, the lowest of three", search(1, 0, 64), 0, found(12))
    host.ask("ReadSysPara, found", b"\x0f", 0, parameters(2))
    host.ask("Search, from the page itself on", search(1, 12, 1), 0, found(12))
    host.ask("Search, the next", search(1, 13, 51), 0, found(40))
    host.ask("Search, past the last page", search(1, 41, 65535), 0, found(63))
    host.ask("Search, no such buffer", search(3, 0, 64), 0x01)
    host.ask("Search, no such page", search(1, 64, 1), 0x0B)
    host.ask("Search, buffer not filled", search(2, 0, 64), 0x0C)
    host.ask("ReadSysPara, still found", b"\x0f", 0, parameters(2))
    host.ask("Search, between the pages", search(1, 41, 22), 0x09, NONE_FOUND)
    host.ask("ReadSysPara, not found", b"\x0f", 0, parameters(0))
    host.ask("Search, no pages", search(1, 12, 0), 0x09, NONE_FOUND)
    host.ask("Empty", b"\x0d")
    host.ask("Search, the buffer is wiped with the pages", search(1, 0, 64), 0x0C)
    host.download(1, finger)
    host.ask("Search, emptied", search(1, 0, 64), 0x09, NONE_FOUND)
    host.check_silent("after searching")


def send_other(host, size, code):
    """Another size of data packets than a fresh reader's: without asking, 0Eh for the first; with its code set before, served."""
    template = bytes(i * i % 256 for i in range(512))
    first, *others = data_packets(template, size)
    host.ask("DownChar, %d unasked" % size, b"\x09\x01")
    host.exchange("%d bytes, unasked" % size, next(host.noise) + first, acknowledge(0x0E))
    for one in others:
        host.exchange("%d bytes, no transfer is open" % size, next(host.noise) + one, b"")
    host.ask("UpChar, not filled", b"\x08\x01", 0x0D)
    host.ask("SetSysPara, size code %d" % code, b"\x0e\x06" + bytes([code]))
    host.download(1, template, size)
    host.upload(1, template, size)
    host.ask("SetSysPara, size code 2", b"\x0e\x06\x02")


def disturb(host):
    """Noise and packets that are not in order; behind each the line is in step."""
    for noise in NOISE:
        host.exchange("noise", noise, b"")
        host.check_silent("after noise %s" % noise.hex(" "))
    host.exchange("a damaged packet", COUNT[:-1] + b"\x00", acknowledge(0x01))
    host.exchange("a damaged packet, another in it", packet(COMMAND, b"\x40" + COUNT, sum_error=1), acknowledge(0x01))
    host.exchange("an unknown command", packet(COMMAND, b"\x35"), acknowledge(0x19))
    host.check_silent("after damage")
    for at in range(1, len(COUNT)):
        host.exchange("an unfinished packet, %d bytes" % at, COUNT[:at], b"")
        host.exchange("its rest", COUNT[at:], acknowledge(0, two_bytes(0)))
    host.check_silent("after unfinished packets")


def check_refusal(link):
    """A link that is there is refused, and stays."""
    target = os.readlink(link)
    refused = subprocess.run([BYSTRODOL, "serve", link], stdin=subprocess.DEVNULL, capture_output=True, text=True)
    check(refused.returncode == 2 and link in refused.stderr and not refused.stdout, "serve takes a link that is there")
    check(os.readlink(link) == target, "serve changed a link that is there")


def talk_over_link(host, link):
    with Server(link) as server:
        name = server.port_name()
        check(name == link, "the port's name is %s, not the link's" % name)
        # Each time a new host: the port stays, and the reader behind it. No size code is set before all have enrolled.
        for number, manner in enumerate(MANNERS):
            host.open(name)
            host.use(manner)
            enrol(host, number)
            identify(host)
            disturb(host)
            host.port.close()
        for manner in MANNERS:
            host.open(name)
            host.use(manner)
            send_other(host, 64, 1)
            send_other(host, 256, 3)
            host.port.close()
        check_refusal(link)
        server.end(signal.SIGINT)
        check(not os.path.lexists(link), "the link is left")


def talk_over_port(host):
    with Server() as server:
        host.open(server.port_name())
        host.ask("TempleteNum of a fresh reader", b"\x1d", 0, two_bytes(0))
        server.end(signal.SIGTERM)
        host.port.close()


def main():
    # A SIGINT that is ignored here would be ignored by the server too.
    signal.signal(signal.SIGINT, signal.default_int_handler)
    host = Host()
    try:
        with tempfile.TemporaryDirectory() as folder:
            talk_over_link(host, os.path.join(folder, "port"))
        talk_over_port(host)
    except (Failed, serial.SerialException) as failure:
        print("serial: FAILED: %s" % failure)
        return 1
    except NoPort as trouble:
        print("serial: %s" % trouble, file=sys.stderr)
        return 2
    print("serial: %d exchanges over a port, %d writes" % (host.exchanges, host.writes))
    return 0


if __name__ == "__main__":
    sys.exit(main())
