"""A serial port with a reader behind it: commands go out, and what comes back is held to document 01.

What goes over a line is shown, unless the line is quiet.
"""

import errno
import os
import sys
import termios
import time

import serial

from explain import explain
from program import Trouble
from protocol import (ACKNOWLEDGE, ACKNOWLEDGES, BY_CODE, COMMAND, DATA, DONE, INDEX, INDEXED, LAST_DATA, IDENTIFIERS, MOST_PAGES, SIZES,
                      TEMPLATE, UNFIT, WHOLE, Packet, content_of, data_packets, fields_of, find, number, packet)
from words import faults_of, in_hex, plural, show, show_data

SILENCE = 0.3       # seconds: what a reader says of a data packet, if anything, it has begun to say by then
FAILURES = (OSError, ValueError, termios.error)     # of a port
HINT = "a reader is silent to another address, at another speed, and while it holds half a packet: ask once more"


class Refused(Exception):
    """The reader answers a code other than 00h."""

    def __init__(self, name, code):
        super().__init__("%s is answered %02Xh, %s" % (name, code, ACKNOWLEDGES[code]))
        self.code = code


def reason(failure):
    """Why a port failed, in the system's words."""
    code = getattr(failure, "errno", None)
    if code == errno.EAGAIN:
        return "another program has it"
    return os.strerror(code) if code else str(failure.args[-1])


def show_progress(what, done, all_of_it, things):
    """Where somebody looks: how much has gone over the line. Whatever is said next begins the same line anew."""
    if sys.stderr and sys.stderr.isatty():
        sys.stdout.flush()
        end = "\n" if done == all_of_it else "\r"
        print("%s %d of %d %s" % (what, done, all_of_it, things), end=end, file=sys.stderr, flush=True)


class Line:
    def __init__(self, name, baud, address, seconds, is_quiet=False):
        self.name, self.address, self.seconds, self.is_quiet, self.held = name, address, seconds, is_quiet, b""
        try:
            self.port = serial.Serial(name, baud, timeout=seconds, write_timeout=seconds, exclusive=True)
        except FAILURES as failure:
            raise Trouble("%s cannot be opened at %d baud: %s" % (name, baud, reason(failure)))

    def __enter__(self):
        return self

    def __exit__(self, *_):
        self.port.close()

    def tell(self, how, *what):
        """Shows what goes over the line, by one of the functions for that. A quiet line shows no byte of it."""
        if not self.is_quiet:
            how(*what)

    def forget(self):
        """Passes over what came before a command is sent."""
        self.held = b""
        try:
            self.port.reset_input_buffer()
        except FAILURES as failure:
            raise Trouble("the port failed: %s" % reason(failure))

    def send(self, run):
        try:
            self.port.write(run)
            self.port.flush()
        except FAILURES as failure:
            raise Trouble("the port takes no more bytes: %s" % reason(failure))

    def read(self, seconds):
        """What is there; if nothing is, what comes within so many seconds."""
        try:
            self.port.timeout = max(seconds, 0)
            return self.port.read(max(self.port.in_waiting, 1))
        except FAILURES as failure:
            raise Trouble("the port gives no more bytes: %s" % reason(failure))

    def receive(self, awaited, asked):
        """The next packet. What comes before it is passed over as document 01 says, and told."""
        end, passed = time.monotonic() + self.seconds, b""
        while True:
            found = find(self.held)
            if found.case in (UNFIT, WHOLE):
                passed += self.held[:found.start if found.case == WHOLE else found.used]
                run, self.held = self.held[found.start:found.used], self.held[found.used:]
                if found.case == UNFIT:
                    continue
                if passed:
                    self.tell(print, "   passed over: %s" % in_hex(passed))
                return run
            if time.monotonic() >= end:
                raise self.nothing(awaited, asked, passed + self.held)
            self.held += self.read(end - time.monotonic())

    def nothing(self, awaited, asked, came):
        """No packet came in time."""
        waited = "waited %g s for %s" % (self.seconds, awaited)
        if not came:
            return Trouble("%s, and nothing came; %s" % (waited, HINT))
        self.tell(explain, came, asked)
        return Trouble("%s, and %s came, no whole packet; at another speed bytes come like that" %
                       (waited, plural(len(came), "byte")))

    def check(self, reply, asked, identifier, address):
        """Holds a packet to the identifier and the address that it must have, and to its own form."""
        faults = faults_of(reply, asked)
        if reply.identifier != identifier:
            faults = ["it is no packet of identifier %d, %s" % (identifier, IDENTIFIERS[identifier])]
        if reply.address != address:
            faults.append("it comes from address %s, and not from %s" % (reply.address.hex().upper(), address.hex().upper()))
        if faults:
            raise Trouble("the reply is not of document 01: " + "; ".join(faults))

    def command(self, name, *values):
        return packet(COMMAND, content_of(name, *values), self.address)

    def ask(self, name, *values, new_address=None):
        """Sends a command, and shows and checks the reply. Returns the fields that it lists."""
        command = self.command(name, *values)
        self.forget()
        self.tell(show, "host", command)
        self.send(command)
        return self.acknowledge(Packet(command), new_address)

    def acknowledge(self, asked, new_address=None):
        """Receives, shows and checks the reply to a command packet; that of a new address carries it already."""
        command = BY_CODE[asked.code]
        reply = Packet(self.receive("the acknowledge of %s" % command.name, asked))
        self.tell(show, "reader", reply.run, asked)
        changes = new_address and reply.code == DONE
        self.check(reply, asked, ACKNOWLEDGE, new_address if changes else self.address)
        if reply.code != DONE:
            raise Refused(command.name, reply.code)
        return fields_of(command.listed, reply.content[1:])

    def upload(self, buffer, size):
        """The bytes of a buffer."""
        self.ask("UpChar", buffer)
        runs, template = [], b""
        while len(template) < TEMPLATE:
            is_last = len(template) + size == TEMPLATE
            part = Packet(self.receive("data packet %d of %d" % (len(runs) + 1, TEMPLATE // size), None))
            self.check(part, None, LAST_DATA if is_last else DATA, self.address)
            if len(part.content) != size:
                raise Trouble("a data packet has %d bytes, and %d are the size" % (len(part.content), size))
            runs.append(part.run)
            template += part.content
            self.tell(show_progress, "upload", len(template), TEMPLATE, "bytes")
        self.tell(show_data, "reader", runs)
        return template

    def download(self, buffer, template, size):
        """Fills a buffer. The reader takes data packets in silence, and says only if one is not fit."""
        self.ask("DownChar", buffer)
        runs = data_packets(template, size, self.address)
        for i, run in enumerate(runs):
            self.send(run)
            self.tell(show_progress, "download", (i + 1) * size, TEMPLATE, "bytes")
        self.tell(show_data, "host", runs)
        self.held = self.read(SILENCE)
        if self.held:
            self.acknowledge(Packet(self.command("DownChar", buffer)))


def capacity(line):
    """The pages that the reader has."""
    pages = number(line.ask("ReadSysPara")["capacity"])
    if not 1 <= pages <= MOST_PAGES:
        raise Trouble("the reader's capacity is %d, and document 01 has 1 to %d" % (pages, MOST_PAGES))
    return pages


def read_index(line, pages):
    """The index of a reader of so many pages: as many index pages as these need, and zeros behind them."""
    parts = [line.ask("ReadIndexTable", part)["stored"] for part in range(-(-pages // INDEXED))]
    return b"".join(parts).ljust(INDEX, b"\0")


def transfer_size(line):
    """The bytes in a data packet that the reader is set to."""
    code = number(line.ask("ReadSysPara")["size code"])
    if code not in SIZES:
        raise Trouble("the reader's size code is %d, and document 01 has 0 to %d" % (code, max(SIZES)))
    return SIZES[code]
