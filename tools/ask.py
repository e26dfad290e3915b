#!/usr/bin/env python3
"""Sends a command to the reader on a serial port, and says the answer in words and bytes; ask.py --help says how.

Status: 0 the reader answers 00h, 1 it answers another code, 2 bad usage, no answer, or one that is not of document 01. Where
two libraries are compared: 0 they are equal, 1 they differ, 2 it cannot be done.
"""

import argparse
import collections
import contextlib
import os
import stat
import sys

from copying import Reader, dump, restore, told_of
from files import check_new, read_file, write_new
from forms import ADDRESS, FORMS, PASSWORD, BadWords, form_of, line_of, read_word
from library import File, Unfit, check_index, compare
from line import Line, Refused, capacity, read_index, transfer_size
from program import TROUBLE, Trouble, end
from protocol import BAUD, FRESH_ADDRESS, FRESH_BAUD_FACTOR, NO_PASSWORD, SIZES, TEMPLATE
from words import pages_of, plural, ranges_of

SECONDS = 3                 # the longest wait for a packet, unless --wait says another
MOST_SECONDS = 3600
MOST_BAUD = 4000000


# ---- what is done

def read_template(name):
    template = read_file(name, TEMPLATE)
    if len(template) != TEMPLATE:
        raise Trouble("%s has %s than %d bytes, and a template has so many" %
                      (name, "more" if len(template) > TEMPLATE else "less", TEMPLATE))
    return template


def confirm(port):
    if not (sys.stdin and sys.stdin.isatty()):
        raise Trouble("empty deletes every template, and there is nobody to ask; --yes says that it is meant")
    print("Delete every template of the reader at %s? Type yes: " % port, end="", file=sys.stderr, flush=True)
    if sys.stdin.readline().strip() != "yes":
        raise Trouble("nothing is sent")


def upload(line, buffer, name):
    write_new(name, line.upload(buffer, transfer_size(line)))
    print("%s has the %d bytes" % (name, TEMPLATE))


def download(line, buffer, template):
    size = transfer_size(line)
    line.download(buffer, template, size)
    if line.upload(buffer, size) != template:
        raise Trouble("buffer %d does not hold what was sent" % buffer)
    print("buffer %d holds the %d bytes that were sent" % (buffer, TEMPLATE))


def tell_index(line):
    """As many index pages as the reader's own pages need, and what they tell together."""
    pages = capacity(line)
    index = read_index(line, pages)
    check_index("the reader", index, pages)
    stored = pages_of(index)
    print("stored: %s of %s%s" % (len(stored) or "none", plural(pages, "page"), ": " + ranges_of(stored) if stored else ""))


def tell_next(form, values):
    """What a fitter has to know after a setting has changed."""
    if form.word == "set-address":
        print("from now on: --address %s" % values[0].hex().upper())
    elif form.word == "set-password" and values[0] != NO_PASSWORD:
        print("from now on the reader is locked: --password %s" % values[0].hex().upper())
    elif form.word == "set-size":
        print("from now on every host sends and gets %d bytes in a data packet" % SIZES[values[0]])
    elif form.word == "set-baud":
        print("the reply came at the old speed; once the board has switched its port: --baud %d" % (BAUD * values[0]))


def is_port(name):
    """A character device, also behind a link."""
    try:
        return stat.S_ISCHR(os.stat(name).st_mode)
    except OSError:
        return False


def prepare(form, values, given):
    """What can be done before a port is opened. The bytes of a file take the place of its name."""
    if form.word == "download":
        values[1] = read_template(values[1])
    elif form.word in ("upload", "dump"):
        check_new(values[-1], form.word)
    elif form.word == "restore" or form.word == "compare" and not is_port(values[0]):
        values[0] = File(values[0])
    elif form.word == "empty" and not given.yes:
        confirm(given.port)


def carry_out(line, form, values):
    if form.word == "upload":
        upload(line, *values)
    elif form.word == "download":
        download(line, *values)
    elif form.word == "index" and not values:
        tell_index(line)
    else:
        address = values[0] if form.word == "set-address" else None
        line.ask(form.command, *form.before, *values, *form.after, new_address=address)
        tell_next(form, values)


def carry_out_whole(reader, word, thing):
    """A word about the whole library; the status is told by what differs."""
    if word == "dump":
        dump(reader, thing)
        return 0
    lines = restore(thing, reader) if word == "restore" else compare(reader, thing)
    print("".join(line + "\n" for line in lines), end="")
    return 1 if lines else 0


# ---- the command line

EPILOG = """Numbers are decimal. The line has 8 data bits, no parity, 1 stop bit.
Status: 0 the reader answers 00h; 1 another code; 2 bad usage, no answer, or one that is not of document 01.

restore and compare print a line for each page that differs, and nothing else on standard output. T3 1: only the first has page
3; T3 2: only the second; T3 3: both, but different. N2 3: notepad page 2. The first is the FILE of restore, and the reader at
PORT of compare. Status: 0 the two are equal; 1 they differ, or with restore the reader answers another code; 2 it cannot be
done. compare prints R1 for a file that is no library and for unequal capacities, and R3 for pages in an index that are not
there: status 2."""


def parser():
    widest = max(len(line_of(form)) for form in FORMS)
    words = "\n".join("  %-*s   %s" % (widest, line_of(form), form.means) for form in FORMS)
    options = argparse.ArgumentParser(
        prog="./bystrodol ask", usage="%(prog)s [OPTIONS] PORT WORDS...", allow_abbrev=False,
        description="Sends a command to the reader on a serial port, and says the answer in words and bytes.\n\nWORDS:\n" + words,
        epilog=EPILOG, formatter_class=argparse.RawDescriptionHelpFormatter)
    options.add_argument("port", metavar="PORT", help="as /dev/ttyUSB0, or what ./bystrodol serve prints")
    options.add_argument("words", metavar="WORDS", nargs="+", help="one of the above")
    options.add_argument("--baud", type=int, default=BAUD * FRESH_BAUD_FACTOR, help="speed of the line, %(default)s")
    options.add_argument("--address", default=FRESH_ADDRESS.hex().upper(), help="of the reader, %(default)s")
    options.add_argument("--password", help="verified first, on the same open port; the reader stays unlocked. "
                         "A locked one answers handshake and parameters without it")
    options.add_argument("--wait", type=float, metavar="SECONDS", default=SECONDS,
                         help="the longest wait for a packet, %(default)s")
    options.add_argument("--yes", action="store_true", help="empty does not ask")
    options.add_argument("--other-baud", type=int, metavar="BAUD", help="compare: of the line at the other port, as --baud")
    options.add_argument("--other-address", metavar="ADDRESS", help="compare: of the reader there, as --address")
    options.add_argument("--other-password", metavar="PASSWORD", help="compare: of the reader there, none")
    return options


# How a reader is spoken to.
End = collections.namedtuple("End", "baud address password")


def end_of(baud, address, password):
    if not 0 < baud <= MOST_BAUD:
        raise BadWords("a speed is a number up to %d, and not 0" % MOST_BAUD)
    return End(baud, read_word(ADDRESS, address), None if password is None else read_word(PASSWORD, password))


def ends_of(given):
    """The reader's, and that of the reader at the other port, which has the same speed and address unless others are given."""
    baud = given.baud if given.other_baud is None else given.other_baud
    address = given.address if given.other_address is None else given.other_address
    return end_of(given.baud, given.address, given.password), end_of(baud, address, given.other_password)


@contextlib.contextmanager
def open_line(port, end, wait, is_quiet):
    """A line to a reader, whose password is verified first if there is one."""
    with Line(port, end.baud, end.address, wait, is_quiet) as line:
        if end.password:
            with told_of(port):
                line.ask("VfyPwd", end.password)
        yield line


def speak(form, values, given, ends):
    """Opens the lines, and does what the words say; returns the status."""
    is_whole = form.command is None
    with contextlib.ExitStack() as lines:
        line = lines.enter_context(open_line(given.port, ends[0], given.wait, is_whole))
        if not is_whole:
            carry_out(line, form, values)
            return 0
        if form.word == "compare" and isinstance(values[0], str):
            values[0] = Reader(lines.enter_context(open_line(values[0], ends[1], given.wait, is_whole)))
        return carry_out_whole(Reader(line), form.word, values[0])


def main(words):
    options = parser()
    given = options.parse_intermixed_args(words)
    try:
        form, values = form_of(given.words)
        ends = ends_of(given)
        if not 0 < given.wait <= MOST_SECONDS:
            raise BadWords("--wait is a number up to %d, and not 0" % MOST_SECONDS)
    except BadWords as wrong:
        options.error(str(wrong))
    is_compared = form.word == "compare"
    try:
        prepare(form, values, given)
        return speak(form, values, given, ends)
    except Refused as refused:
        if form.command is None:
            print("ask: %s" % refused, file=sys.stderr)
        return TROUBLE if is_compared else 1
    except Trouble as trouble:
        if is_compared and isinstance(trouble, Unfit):
            print("R%d" % trouble.refusal)
        print("ask: %s" % trouble, file=sys.stderr)
        return TROUBLE


if __name__ == "__main__":
    end("ask", main)
