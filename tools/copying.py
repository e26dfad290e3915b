"""The library of a reader as a whole: read over its line, written to a file, and brought onto another reader.

A template on a screen or in a log is a leak: the lines for this are quiet, and what is told here goes to standard error.
"""

import contextlib
import functools
import sys

from files import write_new
from library import check_index, check_sides, differences, notes_of, templates_of
from line import Refused, capacity, read_index, show_progress, transfer_size
from program import Trouble
from protocol import NOTE, NOTES, STORED_ALREADY, TEMPLATE
from words import pages_in_words, pages_of, plural

BUFFER = 2              # the one that templates go through


def tell(what):
    print(what, file=sys.stderr, flush=True)


@contextlib.contextmanager
def told_of(name):
    """Says whose trouble it is, since two readers may be asked."""
    try:
        yield
    except (Refused, Trouble) as trouble:
        trouble.args = ("%s: %s" % (name, trouble),)
        raise


class Reader:
    """The reader on a quiet line, one side of a comparison."""

    def __init__(self, line):
        self.line, self.name = line, line.name

    @functools.cached_property
    def pages(self):
        with told_of(self.name):
            return capacity(self.line)

    @functools.cached_property
    def index(self):
        pages = self.pages
        with told_of(self.name):
            return read_index(self.line, pages)

    @functools.cached_property
    def size(self):
        """The bytes in a data packet, asked for before the first template goes through the buffer."""
        tell("%s: buffer %d of the reader is used, and what it held is lost" % (self.name, BUFFER))
        return transfer_size(self.line)

    def notes(self):
        return [self.line.ask("ReadNotepad", page)["text"] for page in range(NOTES)]

    def load(self, page):
        size = self.size
        self.line.ask("LoadChar", BUFFER, page)
        return self.line.upload(BUFFER, size)

    def store(self, page, template):
        """Whether the page is stored now: one that was already is kept."""
        self.line.download(BUFFER, template, self.size)
        try:
            self.line.ask("Store", BUFFER, page)
        except Refused as refused:
            if refused.code != STORED_ALREADY:
                raise
            tell("page %d is kept: %s" % (page, refused))
            return False
        return True

    def read(self):
        """The whole library: zeros where a page is vacant."""
        check_index(self.name, self.index, self.pages)
        with told_of(self.name):
            notes, stored, templates = self.notes(), pages_of(self.index), [bytes(TEMPLATE)] * self.pages
            for done, page in enumerate(stored, 1):
                templates[page] = self.load(page)
                show_progress("read", done, len(stored), "pages")
        return b"".join([self.index, *notes, *templates])


def dump(reader, name):
    """Writes a reader's library to a new file."""
    write_new(name, reader.read())
    print("%s has %s, %d of them stored" % (name, plural(reader.pages, "page"), len(pages_of(reader.index))))


def restore(file, reader):
    """Brings onto a reader what a file has and the reader has not, and returns how the two differ then."""
    check_sides(file, reader)
    with told_of(reader.name):
        theirs = reader.notes()
        restore_pages(reader, templates_of(file.read()))
        restore_notes(reader, theirs, notes_of(file.read()))
    del reader.index        # which has changed
    return differences(file.read(), reader.read())


def restore_pages(reader, templates):
    """A page that is stored already is not even sent: an old core's Store writes over it."""
    wanted, there = {page for page, template in enumerate(templates) if template}, set(pages_of(reader.index))
    if wanted & there:
        tell("stored already (22h), and kept: %s" % pages_in_words(sorted(wanted & there)))
    missing, stored = sorted(wanted - there), 0
    for done, page in enumerate(missing, 1):
        stored += reader.store(page, templates[page])
        show_progress("sent", done, len(missing), "pages")
    tell("stored: %s" % plural(stored, "page"))


def restore_notes(reader, theirs, notes):
    """A notepad page is written where the reader has nothing but zeros."""
    for page, (their, note) in enumerate(zip(theirs, notes)):
        if their == note:
            continue
        if their == bytes(NOTE):
            reader.line.ask("WriteNotepad", page, note)
            tell("notepad page %d: written" % page)
        else:
            tell("notepad page %d: the reader has another text, which is kept" % page)
