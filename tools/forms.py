"""The words of ask: what stands behind each, its command, and what it means."""

import collections
import os

from protocol import BAUD, BAUD_FACTOR, NOTE, SECURITY_LEVEL, SIZE_CODE, SIZES
from words import SIZES_IN_WORDS


# ---- what stands behind a word. What fits its field is sent: the reader is the judge of it.

def number_of(length):
    """A reader of a decimal number that fits so many bytes."""
    most = 256 ** length - 1

    def read(text):
        if not (text.isascii() and text.isdigit() and int(text) <= most):
            raise ValueError("is no number of 0 to %d" % most)
        return int(text)
    return read


def four_bytes(text):
    try:
        run = bytes.fromhex(text)
    except ValueError:
        run = b""
    if len(run) != 4 or len(text) != 8:
        raise ValueError("is not eight hex digits")
    return run


def note_of(text):
    run = os.fsencode(text)
    if len(run) > NOTE:
        raise ValueError("has %d bytes, and a notepad page has %d" % (len(run), NOTE))
    return run.ljust(NOTE, b"\0")


def size_code_of(text):
    for code, size in SIZES.items():
        if text == str(size):
            return code
    raise ValueError("is not " + SIZES_IN_WORDS)


def baud_factor_of(text):
    factor, rest = divmod(number_of(3)(text), BAUD)
    if rest or factor > 255:
        raise ValueError("is no multiple of %d up to %d" % (BAUD, 255 * BAUD))
    return factor


# ---- the words

BUFFER, PAGE, START, COUNT, PART, NOTE_PAGE, LEVEL = [(name, number_of(length)) for name, length in (
    ("BUFFER", 1), ("PAGE", 2), ("START", 2), ("COUNT", 2), ("PART", 1), ("PAGE", 1), ("LEVEL", 1))]
PASSWORD, ADDRESS, TEXT = ("PASSWORD", four_bytes), ("ADDRESS", four_bytes), ("TEXT", note_of)
SIZE, SPEED = ("SIZE", size_code_of), ("BAUD", baud_factor_of)
FILE, OTHER = ("FILE", str), ("FILE-OR-PORT", str)

# A word, what stands behind it, and its command. The parameters are those given before, those read, and those given after.
# A word without a command is about the whole library, for which the line is quiet.
Form = collections.namedtuple("Form", "word kinds command means before after", defaults=((), ()))
FORMS = (
    Form("handshake", (), "HandShake", "is a reader there?"),
    Form("parameters", (), "ReadSysPara", "its settings; a locked reader tells them too"),
    Form("count", (), "TempleteNum", "how many templates are stored"),
    Form("index", (), "ReadIndexTable", "which pages are stored, of all that the reader has"),
    Form("index", (PART,), "ReadIndexTable", "of 256 pages: part 0 is pages 0 to 255, part 1 256 to 511, up to part 3"),
    Form("note", (NOTE_PAGE,), "ReadNotepad", "reads a notepad page, 0 to 15"),
    Form("note", (NOTE_PAGE, TEXT), "WriteNotepad", "writes it: at most 32 bytes, zero bytes behind them"),
    Form("password", (PASSWORD,), "VfyPwd", "verifies a password: eight hex digits"),
    Form("set-password", (PASSWORD,), "SetPwd", "sets it; 00000000 is none"),
    Form("set-address", (ADDRESS,), "SetAdder", "eight hex digits"),
    Form("set-size", (SIZE,), "SetSysPara", SIZES_IN_WORDS + " bytes in a data packet", before=(SIZE_CODE,)),
    Form("set-level", (LEVEL,), "SetSysPara", "security level, 1 to 5", before=(SECURITY_LEVEL,)),
    Form("set-baud", (SPEED,), "SetSysPara", "9600 to 115200, in steps of 9600", before=(BAUD_FACTOR,)),
    Form("delete", (PAGE,), "DeletChar", "deletes a page", after=(1,)),
    Form("delete", (PAGE, COUNT), "DeletChar", "deletes so many pages from this one on"),
    Form("empty", (), "Empty", "deletes all pages; asks first, unless --yes is given"),
    Form("store", (BUFFER, PAGE), "Store", "from buffer 1 or 2 to a page that is not stored"),
    Form("load", (BUFFER, PAGE), "LoadChar", "from a page to a buffer"),
    Form("search", (BUFFER, START, COUNT), "Search", "which of so many pages from START on has the finger in a buffer"),
    Form("upload", (BUFFER, FILE), "UpChar", "from a buffer to a new file, in the size that the reader has"),
    Form("download", (BUFFER, FILE), "DownChar", "from a file of 512 bytes to a buffer, in that size; reads it back and compares"),
    Form("dump", (FILE,), None, "writes the whole library to a new file, by way of buffer 2"),
    Form("restore", (FILE,), None, "stores what the file has and the reader has not, by way of buffer 2; then compares the two"),
    Form("compare", (OTHER,), None, "how the library differs from that in a file, or at another port, by way of buffer 2"),
)


def line_of(form):
    return " ".join([form.word] + [name for name, _ in form.kinds])


class BadWords(Exception):
    """The words are no command, or what stands behind one is not fit."""


def form_of(words):
    """The form that the words have, and the values read."""
    forms = [form for form in FORMS if form.word == words[0]]
    if not forms:
        raise BadWords("there is no word %s; --help lists them" % words[0])
    for form in forms:
        if len(form.kinds) == len(words) - 1:
            return form, [read_word(kind, text) for kind, text in zip(form.kinds, words[1:])]
    raise BadWords("it is written: %s" % " | ".join(map(line_of, forms)))


def read_word(kind, text):
    name, read = kind
    try:
        return read(text)
    except ValueError as wrong:
        raise BadWords("%s '%s' %s" % (name, text, wrong))
