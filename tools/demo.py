#!/usr/bin/env python3
"""Shows a short dialogue with the reader, each packet in hex and in words.

    demo.py READER ARGS...

READER ARGS... starts a fresh reader of 64 pages, whose scores and thresholds are 0: packets in on standard input, replies out on
standard output.
Every answer is held to document 01. Ends 0 if all are as it says, 1 if one is not, 2 if it cannot be shown.
"""

import select
import subprocess
import sys

from program import TROUBLE, end
from protocol import (ACKNOWLEDGE, COMMAND, DAMAGED, FOUND, FRESH_ADDRESS, FRESH_BAUD_FACTOR, FRESH_SIZE_CODE, HEAD,
                      NOTE, NOT_FOUND, SIZES, TEMPLATE, VERIFIED, Packet, content_of, data_packets, number, packet, two_bytes)
from words import show, show_data

SECONDS = 10                        # the longest wait for an answer
CAPACITY = 64
SIZE = SIZES[FRESH_SIZE_CODE]


class Wrong(Exception):
    """The reader does not do what document 01 says."""


class Reader:
    """A reader that is spoken to over its standard input and output."""

    def __init__(self, command):
        self.process = subprocess.Popen(command, stdin=subprocess.PIPE, stdout=subprocess.PIPE, bufsize=0)
        self.answers = 0

    def send(self, run):
        try:
            self.process.stdin.write(run)
        except BrokenPipeError:
            raise Wrong("The reader has ended.")

    def receive(self, length):
        run = b""
        while len(run) < length:
            if not select.select([self.process.stdout], [], [], SECONDS)[0]:
                raise Wrong("The reader is silent for %d seconds." % SECONDS)
            got = self.process.stdout.read(length - len(run))
            if not got:
                raise Wrong("The reader has ended.")
            run += got
        return run

    def receive_packet(self):
        head = self.receive(HEAD)
        return head + self.receive(number(head[7:]))

    def exchange(self, title, command, code, listed):
        """Sends a command packet, and holds the reply to the code and the listed bytes that document 01 says."""
        self.answers += 1
        print("\n%d. %s" % (self.answers, title))
        show("host", command)
        self.send(command)
        reply, expected, asked = self.receive_packet(), packet(ACKNOWLEDGE, bytes([code]) + listed), Packet(command)
        show("reader", reply, asked)
        if reply != expected:
            show("doc 01", expected, asked)
            raise Wrong("The reader does not answer what document 01 says.")

    def ask(self, title, name, *values, code=0, listed=b""):
        self.exchange(title, packet(COMMAND, content_of(name, *values)), code, listed)

    def ask_damaged(self, title, name, *values):
        """Sends a command with a bit of its sum turned."""
        whole = packet(COMMAND, content_of(name, *values))
        self.exchange(title, whole[:-1] + bytes([whole[-1] ^ 1]), DAMAGED, b"")

    def download(self, template):
        """Sends the data packets of a transfer, which are taken in silence."""
        packets = data_packets(template, SIZE)
        self.send(b"".join(packets))
        show_data("host", packets)

    def upload(self, template):
        """Receives the data packets of a transfer."""
        expected = data_packets(template, SIZE)
        packets = [self.receive_packet() for _ in expected]
        show_data("reader", packets)
        if packets != expected:
            raise Wrong("The reader does not give back the template that it was sent.")

    def end(self):
        """Ends the reader's input: it has nothing more to say."""
        rest, _ = self.process.communicate(timeout=SECONDS)
        if rest or self.process.returncode:
            raise Wrong("At its end the reader says '%s', status %d." % (rest.hex(" "), self.process.returncode))


def parameters(status):
    """What ReadSysPara lists of a reader in which nothing but the password was set."""
    return b"".join([two_bytes(status), two_bytes(0), two_bytes(CAPACITY), two_bytes(3), FRESH_ADDRESS,
                     two_bytes(FRESH_SIZE_CODE), two_bytes(FRESH_BAUD_FACTOR)])


def dialogue(reader):
    password = bytes.fromhex("12345678")
    template = bytes(3 * i % 251 for i in range(TEMPLATE))
    other = bytes(5 * i % 251 for i in range(TEMPLATE))
    note = b"Station 12, vault 3".ljust(NOTE, b"\0")
    print("A packet: ef 01, address (4 bytes), identifier (1), length (2), content, sum (2).")
    reader.ask("Is a reader there?", "HandShake")
    reader.ask("What are its parameters?", "ReadSysPara", listed=parameters(0))
    reader.ask("A template goes into buffer 1.", "DownChar", 1)
    reader.download(template)
    reader.ask("Buffer 1 is stored on page 7.", "Store", 1, 7)
    reader.ask("How many templates are stored?", "TempleteNum", listed=two_bytes(1))
    reader.ask("Whose finger is in buffer 1? No sensor chip is here, and all scores are 0: so it is the lowest page stored.",
               "Search", 1, 0, CAPACITY, listed=two_bytes(7) + two_bytes(0))
    reader.ask("Another template goes into buffer 1.", "DownChar", 1)
    reader.download(other)
    reader.ask("Page 7 is stored already, and is not written over.", "Store", 1, 7, code=0x22)
    reader.ask("Page 7 is loaded into buffer 2.", "LoadChar", 2, 7)
    reader.ask("What buffer 2 holds is the template that was stored.", "UpChar", 2)
    reader.upload(template)
    reader.ask("A note is written on notepad page 3.", "WriteNotepad", 3, note)
    reader.ask("What is on notepad page 3?", "ReadNotepad", 3, listed=note)
    reader.ask_damaged("All pages are deleted, but on the way a bit of the packet has turned.", "Empty")
    reader.ask("So nothing is lost. How many templates are stored?", "TempleteNum", listed=two_bytes(1))
    reader.ask("A password is set. From now on the reader is locked.", "SetPwd", password)
    reader.ask("How many templates are stored?", "TempleteNum", code=0x21)
    reader.ask("Its parameters are told all the same, but not that the last Search found a page.", "ReadSysPara",
               listed=parameters(0))
    reader.ask("The right password unlocks it.", "VfyPwd", password)
    reader.ask("Now the status has both: the password is verified, and a page was found.", "ReadSysPara",
               listed=parameters(VERIFIED | FOUND))
    reader.ask("Page 7 is deleted.", "DeletChar", 7, 1)
    reader.ask("How many templates are stored?", "TempleteNum", listed=two_bytes(0))
    reader.ask("Buffer 2 was loaded from page 7, and is wiped with it.", "UpChar", 2, code=0x0D)
    reader.ask("Whose finger is in buffer 1? No page is stored that could have it.", "Search", 1, 0, CAPACITY, code=NOT_FOUND,
               listed=two_bytes(0) + two_bytes(0))
    reader.ask("Buffer 1 was never stored, and stays: now it can be.", "Store", 1, 7)
    reader.end()


def main(command):
    try:
        reader = Reader(command)
    except (IndexError, OSError) as trouble:
        print("demo: cannot start a reader by %s: %s" % (command, trouble), file=sys.stderr)
        return TROUBLE
    try:
        dialogue(reader)
    except (Wrong, subprocess.TimeoutExpired) as wrong:
        print(wrong)
        return 1
    finally:
        reader.process.kill()
    print("\nAll %d answers are what document 01 says." % reader.answers)
    return 0


if __name__ == "__main__":
    end("demo", main)
