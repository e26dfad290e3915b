"""A library in one run of bytes: the index, the notepad, the templates in page order; a file of one; and how two differ.

What tells how two differ has the lines of the program that ./bystrodol compare starts.
"""

from files import read_file
from program import Trouble
from protocol import INDEX, MOST_PAGES, NOTE, NOTES, TEMPLATE
from words import pages_of, plural

TEMPLATES_AT = INDEX + NOTES * NOTE
LONGEST = TEMPLATES_AT + MOST_PAGES * TEMPLATE

WRONG_LENGTHS, WRONG_INDEX = 1, 3                                   # refusals
SAME, FIRST_ALONE, SECOND_ALONE, DIFFERENT = 0, 1, 2, 3             # codes of a page


class Unfit(Trouble):
    """A library that cannot be compared: the refusal's number, and why."""

    def __init__(self, refusal, why):
        super().__init__(why)
        self.refusal = refusal


# ---- the form

def pages_in(name, length):
    """The pages of a library of so many bytes."""
    pages, rest = divmod(length - TEMPLATES_AT, TEMPLATE)
    if rest or not 1 <= pages <= MOST_PAGES:
        raise Unfit(WRONG_LENGTHS, "%s has %s bytes, and a library has %d + %d x pages, with 1 to %d pages" %
                    (name, "more than %d" % LONGEST if length > LONGEST else length, TEMPLATES_AT, TEMPLATE, MOST_PAGES))
    return pages


def check_index(name, index, pages):
    past = [page for page in pages_of(index) if page >= pages]
    if past:
        raise Unfit(WRONG_INDEX, "%s tells that page %d is stored, and it has %s" % (name, past[-1], plural(pages, "page")))


def notes_of(library):
    return [library[at:at + NOTE] for at in range(INDEX, TEMPLATES_AT, NOTE)]


def templates_of(library):
    """The template of each page, and None of a vacant one, whose bytes do not count."""
    stored = set(pages_of(library[:INDEX]))
    runs = [library[at:at + TEMPLATE] for at in range(TEMPLATES_AT, len(library), TEMPLATE)]
    return [run if page in stored else None for page, run in enumerate(runs)]


class File:
    """A library in a file, one side of a comparison."""

    def __init__(self, name):
        try:
            self.library = read_file(name, LONGEST)
        except Trouble as trouble:
            raise Unfit(WRONG_LENGTHS, str(trouble))
        self.name, self.pages, self.index = name, pages_in(name, len(self.library)), self.library[:INDEX]

    def read(self):
        return self.library


# ---- how two differ

def check_sides(first, second):
    """Two sides, each with its name, pages and index: they have equal capacities and no bits past these."""
    if first.pages != second.pages:
        raise Unfit(WRONG_LENGTHS, "%s has %s, and %s has %d" % (first.name, plural(first.pages, "page"), second.name, second.pages))
    for side in (first, second):
        check_index(side.name, side.index, side.pages)


def code_of(first, second):
    """The code of a page, by its two templates."""
    if first == second:
        return SAME
    if second is None:
        return FIRST_ALONE
    return SECOND_ALONE if first is None else DIFFERENT


def differences(first, second):
    """The lines that tell how two libraries of equal capacity differ: pages, and then notepad pages."""
    codes = enumerate(map(code_of, templates_of(first), templates_of(second)))
    notes = enumerate(map(code_of, notes_of(first), notes_of(second)))
    return ["T%d %d" % (page, code) for page, code in codes if code] + ["N%d %d" % (page, code) for page, code in notes if code]


def compare(first, second):
    """The lines for two sides. What can be refused is, before they are read."""
    check_sides(first, second)
    return differences(first.read(), second.read())
