"""A packet in words: what it is, its fields, and what is wrong with it by document 01."""

from protocol import (ACKNOWLEDGE, ACKNOWLEDGES, BAUD, BY_CODE, COMMAND, COMMANDS, DATA, DONE, FOUND, IDENTIFIERS, INDEXED, LAST_DATA, MOST_PAGES,
                      NOT_FOUND, SIZES, VERIFIED, Packet, fields_of, number, sum_of)

WIDTH = 80      # of a line of words
ROW = 32        # bytes of a line of hex
ROWS = 2        # lines of hex; of a longer run only the ends are shown


def rows_of(run):
    """A run in hex: all bytes, or the ends of a long one."""
    if len(run) > ROW * ROWS:
        return ["%s .. %s (%d bytes)" % (run[:13].hex(" "), run[-6:].hex(" "), len(run))]
    return [run[at:at + ROW].hex(" ") for at in range(0, len(run), ROW)]


def in_hex(run):
    return " ".join(rows_of(run))


def plural(count, what):
    return "%d %s%s" % (count, what, "" if count == 1 else "s")


def one_of(numbers):
    *others, last = map(str, numbers)
    return "%s or %s" % (", ".join(others), last)


SIZES_IN_WORDS = one_of(SIZES.values())


def in_text(note, _):
    """A notepad page: its text without the zero bytes behind it, or its bytes if it is no text."""
    try:
        text = note.rstrip(b"\0").decode()
    except UnicodeDecodeError:
        return in_hex(note)
    return '"%s"' % text if text.isprintable() else in_hex(note)


def pages_of(index, number=0):
    """The pages that an index page of this number tells as stored, or the whole index."""
    return [INDEXED * number + bit for bit in range(8 * len(index)) if index[bit // 8] >> bit % 8 & 1]


def ranges_of(pages):
    """Pages in words, neighbours as a range."""
    starts = [page for page in pages if page - 1 not in pages]
    ends = [page for page in pages if page + 1 not in pages]
    return ", ".join("%d" % first if first == last else "%d to %d" % (first, last) for first, last in zip(starts, ends))


def pages_in_words(pages):
    return "page%s %s" % ("" if len(pages) == 1 else "s", ranges_of(pages))


def stored_in_words(index, asked):
    """The pages stored, of those that the index page asked for has."""
    number = asked.content[1]
    pages = pages_of(index, number)
    of = "of pages %d to %d" % (INDEXED * number, min(INDEXED * number + INDEXED, MOST_PAGES) - 1)
    return "%s, %s" % (pages_in_words(pages), of) if pages else "none " + of


def status_in_words(n):
    """A locked reader shows 0, whatever it found; so does one without a password whose two marks are clear."""
    return "%s, %s%s" % ("password verified" if n & VERIFIED else "no password verified",
                         "last Search found a page" if n & FOUND else "no page found",
                         "" if n else "; or the reader is locked")


# What the numbers of some fields mean.
MEANINGS = {
    "status": status_in_words,
    "capacity": lambda n: "pages",
    "security level": lambda n: "of 1 to 5",
    "size code": lambda n: "%d bytes in a data packet" % SIZES[n] if n in SIZES else "no such code",
    "baud factor": lambda n: "%d baud" % (BAUD * n),
}
# How longer fields are written, by what was asked; others stand as digits.
LONG = {"text": in_text, "stored": stored_in_words}


def field_in_words(name, value, asked):
    if len(value) > 2:
        return "%s %s" % (name, LONG[name](value, asked) if name in LONG else value.hex().upper())
    n = number(value)
    return "%s %d" % (name, n) + (" (%s)" % MEANINGS[name](n) if name in MEANINGS else "")


def length_of(names):
    return sum(names.values())


def listings_of(code, asked):
    """What a reply of this code may list. If it is not known which command was asked: all that it can be."""
    possible = [BY_CODE[asked.code]] if asked else COMMANDS
    return [command.listed for command in possible if code in command.listing] or [{}]


def listed_by(packet, asked):
    """What a reply lists, if but one listing has its length."""
    listings = [listed for listed in listings_of(packet.code, asked) if length_of(listed) == len(packet.content) - 1]
    return listings[0] if len(listings) == 1 else {}


def fields_in_words(packet, asked):
    run = packet.content[1:]
    if packet.identifier == COMMAND:
        names = BY_CODE[packet.code].parameters if packet.code in BY_CODE else {}
    else:
        names = listed_by(packet, asked)
    if length_of(names) != len(run):
        return ["%s: %s" % (plural(len(run), "byte"), in_hex(run))]
    return [field_in_words(name, value, asked) for name, value in fields_of(names, run).items()]


def in_words(packet, asked=None):
    """What a packet is, and its fields; asked is the command packet that it answers, if that is known."""
    kind = IDENTIFIERS[packet.identifier]
    if packet.identifier in (DATA, LAST_DATA):
        return "%s, %s" % (kind, plural(len(packet.content), "byte")), []
    if packet.identifier == COMMAND:
        said = " " + (BY_CODE[packet.code].name if packet.code in BY_CODE else "unknown")
    else:
        said = ", " + ACKNOWLEDGES.get(packet.code, "not a code of document 01")
    return "%s %02Xh%s" % (kind, packet.code, said), fields_in_words(packet, asked) if len(packet.content) > 1 else []


def lines_of(packet, asked=None):
    """A packet in words: one line, or one for each field where that is too long."""
    what, fields = in_words(packet, asked)
    line = "%s: %s" % (what, ", ".join(fields)) if fields else what
    return [line] if len(line) <= WIDTH else [what] + ["  " + field for field in fields]


def show(who, run, asked=None):
    """A packet in hex and in words, and what is wrong with it."""
    packet = Packet(run)
    lines = rows_of(run) + lines_of(packet, asked) + ["WRONG: " + fault for fault in faults_of(packet, asked)]
    print("   %-6s  %s" % (who, lines[0]))
    for line in lines[1:]:
        print("           " + line)


def show_data(who, packets):
    """The data packets of a transfer, the first and the last."""
    show(who, packets[0])
    if len(packets) > 2:
        print("           and %d more like it" % (len(packets) - 2))
    show(who, packets[-1])


def faults_of(packet, asked=None):
    """What is wrong with a whole packet, in the order in which document 01 tests it."""
    faults = []
    right = sum_of(packet.identifier, packet.content)
    if packet.sum != right:
        faults.append("its sum is %04X, and %04X is right" % (packet.sum, right))
    if packet.identifier == COMMAND:
        faults += faults_of_command(packet)
    elif packet.identifier == ACKNOWLEDGE:
        faults += faults_of_acknowledge(packet, asked)
    elif len(packet.content) not in SIZES.values():
        faults.append("it has %s, and a data packet has %s" % (plural(len(packet.content), "byte"), SIZES_IN_WORDS))
    return faults


def faults_of_command(packet):
    command = BY_CODE.get(packet.code)
    if not command:
        return ["document 01 has no command %02Xh" % packet.code]
    length = 3 + length_of(command.parameters)
    return [] if packet.length == length else ["its length is %d, and that of %s is %d" % (packet.length, command.name, length)]


def faults_of_acknowledge(packet, asked):
    if packet.code not in ACKNOWLEDGES:
        return ["document 01 has no code %02Xh" % packet.code]
    if packet.code == DONE and asked and "stored" in BY_CODE[asked.code].listed and INDEXED * asked.content[1] >= MOST_PAGES:
        return ["there is no index page %d, and 0Bh is right" % asked.content[1]]
    lengths = {3 + length_of(listed) for listed in listings_of(packet.code, asked)}
    if packet.length in lengths:
        return faults_of_found(packet, asked) if "score" in listed_by(packet, asked) else []
    told = " or ".join(map(str, sorted(lengths)))
    return ["its length is %d, and that of code %02Xh%s is %s" %
            (packet.length, packet.code, " to " + BY_CODE[asked.code].name if asked else "", told)]


def faults_of_found(packet, asked):
    """What is wrong with the page and the score that a reply to Search has."""
    page, score = number(packet.content[1:3]), number(packet.content[3:])
    if packet.code == NOT_FOUND and (page or score):
        return ["it has page %d and score %d, and with 09h both are 0" % (page, score)]
    if packet.code == DONE and asked:
        start, count = number(asked.content[2:4]), number(asked.content[4:])
        if not start <= page < start + count:
            return ["page %d is none of the %s from %d on that were asked for" % (page, plural(count, "page"), start)]
    return []
