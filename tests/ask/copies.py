"""Checks the words of ask about a whole library: dump, restore and compare; and the program compare beside them."""

import os
import signal
import subprocess
import sys
import tempfile

import pairs
from call import LOCKED, OK, PARAMETERS, WAIT, acknowledge_of, calls, data_of, expect, run_of, side_by_side
from peer import Peer
from server import BYSTRODOL, SECONDS, Server, check

TOOLS = os.path.join(os.path.dirname(BYSTRODOL), "tools")
PAIRS, SEED = 24, 11        # of files, for the program compare


def template(number):
    """A template that is known by its number: each is another, and none has a byte like the next."""
    return bytes((number * 37 + 11 * i) % 256 for i in range(512))


def library(templates, notes, pages=64):
    """A library by hand: of each page stored its template, and of each notepad page written its bytes."""
    index = sum(1 << page for page in templates).to_bytes(128, "little")
    return b"".join([index, *(notes.get(page, b"").ljust(32, b"\0") for page in range(16)),
                     *(templates.get(page, bytes(512)) for page in range(pages))])


class Folder:
    """A folder with files of libraries by their names."""

    def __init__(self, name):
        self.name = name

    def path(self, name):
        return os.path.join(self.name, name)

    def write(self, name, run):
        with open(self.path(name), "wb") as file:
            file.write(run)
        return self.path(name)

    def read(self, name):
        with open(self.path(name), "rb") as file:
            return file.read()


def leaks_of(*numbers):
    """What is not to be said: the bytes of templates."""
    return [template(number)[at:at + 4].hex(" ") for number in numbers for at in (0, 508)]


# ---- two readers

BOTH = {0: template(1), 3: template(2)}
ALL = {**BOTH, 63: template(3)}
STATION, OTHER_STATION = {2: b"Station 12"}, {2: b"Station 13"}
NOTES, OTHER_NOTES = {**STATION, 15: b"\xff" * 32}, {**OTHER_STATION, 15: b"\xff" * 32}
BUFFER_2 = "buffer 2 of the reader is used, and what it held is lost"


def expect_dump(folder, name, port, run, *options):
    path, stored = folder.path(name), run[:128].hex()
    expect(["ask", port, "dump", path, *options], 0, printed="%s has 64 pages, %d of them stored\n" % (path, bin(int(stored, 16)).count("1")),
           not_said=leaks_of(1, 2, 3))
    check(folder.read(name) == run, "what dump writes to %s is not the library" % name)
    check(os.stat(path).st_mode & 0o7777 == 0o600, "what dump writes is not for its owner alone")


def dump_empty(folder, port):
    expect_dump(folder, "empty", port, library({}, {}))
    expect(["ask", port, "dump", folder.path("empty")], 2, "is there already, and dump writes over nothing", printed="")
    check(folder.read("empty") == library({}, {}), "dump writes over a file")
    expect(["ask", port, "dump", folder.path("none/file")], 2, "cannot be made", printed="")


def compare_example(folder, port, other):
    """The example of the request: the first has pages 0 and 3, the second only page 0, and notepad page 2 differs."""
    first, second = folder.write("first", library(BOTH, STATION)), folder.write("second", library({0: template(1)}, OTHER_STATION))
    expect(["ask", port, "restore", first], 0, BUFFER_2, "stored: 2 pages", "notepad page 2: written", printed="", not_said=leaks_of(1, 2))
    expect(["ask", other, "restore", second], 0, "stored: 1 page\n", printed="")
    expect(["ask", port, "index"], 0, "stored: 2 of 64 pages: 0, 3")
    expect(["ask", port, "note", "2"], 0, 'text "Station 12"')
    expect(["ask", port, "compare", other], 1, BUFFER_2, printed="T3 1\nN2 3\n", not_said=leaks_of(1, 2))
    expect(["ask", other, "compare", port], 1, printed="T3 2\nN2 3\n")
    expect(["ask", port, "compare", second], 1, printed="T3 1\nN2 3\n")
    expect(["ask", port, "compare", first], 0, BUFFER_2, printed="")
    # The bytes of vacant pages do not count.
    vacant = folder.write("vacant", library(BOTH, STATION)[:-512] + template(9))
    expect(["ask", port, "compare", vacant], 0, printed="")


def restore_more(folder, port, other):
    """What is stored or written already is told and kept; the rest goes over in any size."""
    every = folder.write("all", library(ALL, NOTES))
    expect(["ask", port, "set-size", "32"], 0)
    expect(["ask", port, "restore", every], 0, "stored already (22h), and kept: pages 0, 3\n", "stored: 1 page\n", "notepad page 15: written",
           printed="")
    expect(["ask", port, "restore", every], 0, "stored already (22h), and kept: pages 0, 3, 63\n", "stored: 0 pages", printed="")
    expect_dump(folder, "old", port, library(ALL, NOTES))
    expect(["ask", other, "set-size", "256"], 0)
    expect(["ask", other, "restore", every], 1, "kept: page 0\n", "stored: 2 pages", "notepad page 2: the reader has another text, which is kept",
           printed="N2 3\n")
    different = folder.write("different", library({3: template(4)}, {}))
    expect(["ask", other, "restore", different], 1, "kept: page 3\n", "stored: 0 pages", "notepad page 2: the reader has another text",
           printed="T0 2\nT3 3\nT63 2\nN2 3\nN15 3\n")
    expect_dump(folder, "new", other, library(ALL, OTHER_NOTES))
    expect(["ask", port, "compare", other], 1, printed="N2 3\n")


def refuse_files(folder, port):
    """Files that are no libraries, or not of this reader: what restore says, and what compare prints."""
    whole = library(ALL, NOTES)
    fewer = library(BOTH, NOTES, 63)
    files = (("fewer", fewer, "R1\n", "63"), ("cut", whole[:-1], "R1\n", "cut has 33407 bytes"), ("long", whole + b"\0", "R1\n", "has 33409 bytes"),
             ("none-left", b"", "R1\n", "has 0 bytes"), ("no-pages", whole[:640], "R1\n", "has 640 bytes"),
             ("most", library({}, {}, 1001), "R1\n", "has more than 512640 bytes"),
             ("past", library({**ALL, 64: b""}, {}), "R3\n", "past tells that page 64 is stored, and it has 64 pages"),
             ("far", whole[:127] + b"\x80" + whole[128:], "R3\n", "page 1023 is stored"),
             ("past-and-fewer", b"\xff" * 128 + fewer[128:], "R1\n", "63"))
    for name, run, printed, said in files:
        path = folder.write(name, run)
        expect(["ask", port, "compare", path], 2, said, printed=printed, not_said=[BUFFER_2])
        expect(["ask", port, "restore", path], 2, said, printed="", not_said=[BUFFER_2])
    for name in ("nothing-there", ""):
        expect(["ask", port, "compare", folder.path(name)], 2, "cannot be read", printed="R1\n")
    expect(["ask", port, "compare", os.devnull], 2, "cannot be opened", printed="")
    expect(["ask", port, "compare", port], 2, "another program has it", printed="")


def need_password(folder, port, other):
    """A locked reader: the code is told in words, and nothing is left."""
    locked, wrong = "is answered 21h, locked: the password first", "is answered 13h, wrong password"
    expect(["ask", port, "set-password", "12345678"], 0)
    expect(["ask", port, "dump", folder.path("locked")], 1, locked, printed="")
    expect(["ask", port, "restore", folder.path("all")], 1, locked, printed="")
    expect(["ask", port, "compare", folder.path("all")], 2, locked, printed="")
    expect(["ask", other, "compare", port], 2, port + ": ReadIndexTable " + locked, printed="")
    expect(["ask", other, "compare", port, "--other-password", "00000001"], 2, wrong, printed="")
    expect(["ask", port, "dump", folder.path("locked"), "--password", "00000001"], 1, wrong, printed="", not_said=["12345678"])
    check(not os.path.lexists(folder.path("locked")), "a refused dump leaves a file")
    expect(["ask", other, "compare", port, "--other-password", "12345678", "--other-baud", "9600"], 1, printed="N2 3\n")
    expect(["ask", port, "set-address", "00000007", "--password", "12345678"], 0)
    expect(["ask", other, "compare", port, "--other-address", "00000007"], 1, printed="N2 3\n")
    expect_dump(folder, "unlocked", port, library(ALL, NOTES), "--address", "00000007", "--password", "12345678")


def watch_progress(folder, port):
    own, other = os.openpty()
    expect(["ask", port, "dump", folder.path("watched")], 0, stderr=other)
    told = os.read(own, 4096).decode()
    check("read 1 of 3 pages\r" in told and "read 3 of 3 pages\r\n" in told, "no progress is shown: " + told)
    os.close(own)
    os.close(other)


def fill_disk(folder, port):
    """A disk that is full: 4096 bytes go into a file, and no more. Nothing is left."""
    calls.append("dump to a full disk")
    ended = subprocess.run(["sh", "-c", "ulimit -f 8; exec \"$@\"", "sh", BYSTRODOL, "ask", port, "dump", folder.path("full")],
                           capture_output=True, text=True, timeout=SECONDS)
    check(ended.returncode == 2 and "cannot be written: File too large" in ended.stderr, "dump to a full disk: %s" % ended)
    check(not os.path.lexists(folder.path("full")), "dump to a full disk leaves a file")


def close_standard_error(folder, port):
    """What is said has nowhere to go, and does not come out with the lines."""
    calls.append("compare without standard error")
    ended = subprocess.run(["sh", "-c", "exec \"$@\" 2>&-", "sh", BYSTRODOL, "ask", port, "compare", folder.path("second")],
                           stdout=subprocess.PIPE, text=True, timeout=SECONDS)
    check((ended.returncode, ended.stdout) == (1, "T3 1\nT63 1\nN15 3\n"), "compare without standard error: %s" % ended)


def write_named(folder):
    """On a disk that has no files without a name, what is written is as new, as whole and as much its owner's."""
    program = "import os, sys; os.O_TMPFILE = os.O_DIRECTORY; import files; files.write_new(sys.argv[1], bytes(8192))"

    def write(name, blocks):
        return subprocess.run(["sh", "-c", "ulimit -f %s; exec \"$@\"" % blocks, "sh", sys.executable, "-B", "-c", program, folder.path(name)],
                              env=dict(os.environ, PYTHONPATH=TOOLS), capture_output=True, text=True).stderr
    check(write("named", "unlimited") == "" and folder.read("named") == bytes(8192), "a file is not written by its name")
    check(os.stat(folder.path("named")).st_mode & 0o7777 == 0o600, "a file by its name is not for its owner alone")
    check("named cannot be written: File exists" in write("named", "unlimited"), "a file is written over by its name")
    check("cannot be written: File too large" in write("cut-short", "8"), "a file by its name is written to a full disk")
    check(not os.path.lexists(folder.path("cut-short")), "a file by its name is left on a full disk")


def beside_program(folder, port, other):
    """What ask prints of two readers is what the proved program prints of their dumped files."""
    expect(["compare", folder.path("old"), folder.path("new")], 1, printed="N2 3\n")
    expect(["compare", folder.path("first"), folder.path("second")], 1, printed="T3 1\nN2 3\n")
    expect(["compare", folder.path("old"), folder.path("all")], 0, printed="")
    pairs.compare_pairs(folder.name, PAIRS, SEED)
    calls.extend(["compare"] * PAIRS)


def copy_readers():
    with tempfile.TemporaryDirectory() as name:
        folder = Folder(name)
        with Server() as server, Server(folder.path("port")) as other_server:
            port, other = server.port_name(), other_server.port_name()
            dump_empty(folder, port)
            compare_example(folder, port, other)
            restore_more(folder, port, other)
            watch_progress(folder, other)
            fill_disk(folder, other)
            close_standard_error(folder, other)
            refuse_files(folder, other)
            need_password(folder, port, other)
            beside_program(folder, port, other)
        write_named(folder)


# ---- peers that answer what no reader should, at a size of 64

def parameters(pages):
    return acknowledge_of(bytes(4) + pages.to_bytes(2, "big") + bytes.fromhex("0003 ffffffff 0001 0006"))


def index_of(pages, stored):
    index = sum(1 << page for page in stored).to_bytes(128, "little")
    return [acknowledge_of(index[32 * part:32 * part + 32]) for part in range((pages + 255) // 256)]


def code(number):
    return run_of("ef 01 A 07 00 03 %02x 00 %02x" % (number, number + 10))


NO_NOTES = [acknowledge_of(bytes(32))] * 16
NO_0E = [b""] * 8
DATA = data_of(template(1))
TWO = [parameters(64), *index_of(64, [0, 1]), *NO_NOTES, PARAMETERS]

# The answers to the packets of a dump in turn, the status, and what is said.
DUMPS = (
    ([*TWO, OK, [OK, *DATA], OK, [OK, *DATA]], 0, "has 64 pages, 2 of them stored"),
    ([*TWO, OK, [OK, *DATA], OK, [b"\x55\xef", OK, *DATA]], 0, "has 64 pages, 2 of them stored"),
    ([*TWO, OK, [OK, *DATA], b""], 2, "waited 1 s for the acknowledge of LoadChar, and nothing came"),
    ([*TWO, OK, [OK, *DATA], code(0x0C)], 1, "LoadChar is answered 0Ch, nothing is there"),
    ([*TWO, OK, [OK, *DATA], OK, [OK, *DATA[:-1]]], 2, "data packet 8 of 8, and nothing came"),
    ([*TWO, OK, [OK, *DATA[:7], DATA[7][:-3]]], 2, "72 bytes came, no whole packet"),
    ([*TWO, OK, [OK, *DATA[:7], DATA[7][:-1] + b"\x01"]], 2, "the reply is not of document 01: its sum is"),
    ([*TWO, OK, [OK, *data_of(template(1), 128)]], 2, "a data packet has 128 bytes, and 64 are the size"),
    ([*TWO, DATA[7]], 2, "it is no packet of identifier 7, acknowledge"),
    ([*TWO, OK, None], 2, "the port "),
    ([parameters(64), *index_of(64, [0, 64])], 2, "tells that page 64 is stored, and it has 64 pages"),
    ([parameters(64), *index_of(64, [0]), *NO_NOTES[1:], code(0x1C)], 1, "ReadNotepad is answered 1Ch, no such notepad page"),
    ([parameters(1001)], 2, "capacity is 1001"),
    ([parameters(64), LOCKED], 1, "locked: the password first"),
    ([LOCKED], 1, "ReadSysPara is answered 21h, locked: the password first"),
)


def answer_dump(row):
    answers, status, said = row
    with tempfile.TemporaryDirectory() as folder, Peer(*answers) as peer:
        expect(["ask", peer.name, "--wait", WAIT, "dump", os.path.join(folder, "new")], status, said, not_said=leaks_of(1))
        check(os.listdir(folder) == (["new"] if status == 0 else []), "a failed dump leaves a file: " + said)


def answer_big_dump():
    """A reader of 300 pages tells them in two index pages."""
    wanted = library({0: template(1), 299: template(1)}, {}, 300)
    with tempfile.TemporaryDirectory() as name, Peer(parameters(300), *index_of(300, [0, 299]), *NO_NOTES, PARAMETERS,
                                                     OK, [OK, *DATA], OK, [OK, *DATA]) as peer:
        folder = Folder(name)
        expect(["ask", peer.name, "--wait", WAIT, "dump", folder.path("new")], 0, "has 300 pages, 2 of them stored")
        check(folder.read("new") == wanted, "a dump of 300 pages is not the library")


# Of a restore of page 0: the index before it, the answers behind the notepad, the status, what is printed, what is said, and
# whether the page is sent.
BACK = [*index_of(64, [0]), *NO_NOTES]
RESTORES = (
    ([], [PARAMETERS, OK, *NO_0E, OK, *BACK, OK, [OK, *DATA]], 0, "", "stored: 1 page\n", True),
    ([], [PARAMETERS, OK, *NO_0E, OK, *BACK, OK, [OK, *data_of(template(2))]], 1, "T0 3\n", "stored: 1 page\n", True),
    ([], [PARAMETERS, OK, *NO_0E, code(0x22), *BACK, OK, [OK, *data_of(template(2))]], 1, "T0 3\n",
     "page 0 is kept: Store is answered 22h, the page is stored already", True),
    ([], [PARAMETERS, OK, *NO_0E[1:], code(0x0E)], 1, "", "DownChar is answered 0Eh, the transfer failed", True),
    ([], [PARAMETERS, OK, *NO_0E, code(0x0C)], 1, "", "Store is answered 0Ch, nothing is there", True),
    ([], [PARAMETERS, OK, *NO_0E, b""], 2, "", "waited 1 s for the acknowledge of Store", True),
    ([], [PARAMETERS, LOCKED], 1, "", "DownChar is answered 21h, locked", False),
    ([0], [*BACK, PARAMETERS, OK, [OK, *data_of(template(2))]], 1, "T0 3\n", "stored already (22h), and kept: page 0\n", False),
    ([0, 70], [], 2, "", "tells that page 70 is stored, and it has 64 pages", False),
)


def answer_restore(row):
    stored, answers, status, printed, said, is_sent = row
    with tempfile.TemporaryDirectory() as name, Peer(parameters(64), *index_of(64, stored), *NO_NOTES, *answers) as peer:
        path = Folder(name).write("file", library({0: template(1)}, {}))
        expect(["ask", peer.name, "--wait", WAIT, "restore", path], status, said, printed=printed, not_said=leaks_of(1, 2))
        check((DATA[0] in peer.heard) == is_sent, "a page is sent where it must not be, or not where it must: " + said)


def refuse_early():
    """What is refused changes nothing: a file that is no library sends nothing, another capacity ReadSysPara alone."""
    with tempfile.TemporaryDirectory() as name:
        path = Folder(name).write("file", library({0: template(1)}, {}))
        with Peer(parameters(65)) as peer:
            expect(["ask", peer.name, "--wait", WAIT, "restore", path], 2, "file has 64 pages, and", printed="")
            check(peer.heard == run_of("ef 01 A 01 00 03 0f 00 13"), "a restore to another capacity sends " + peer.heard.hex(" "))
        with Peer() as peer:
            expect(["ask", peer.name, "--wait", WAIT, "restore", name], 2, "cannot be read: Is a directory", printed="")
            expect(["ask", peer.name, "--wait", WAIT, "compare", name], 2, "cannot be read: Is a directory", printed="R1\n")
            check(peer.heard == b"", "a restore of no library sends " + peer.heard.hex(" "))


def interrupt_dump():
    """A signal in the middle of a dump leaves nothing."""
    for by, status in ((signal.SIGINT, 130), (signal.SIGTERM, -signal.SIGTERM), (signal.SIGHUP, -signal.SIGHUP)):
        with tempfile.TemporaryDirectory() as folder, Peer(*TWO, OK, [OK, *DATA]) as peer:
            calls.append("dump, interrupted")
            started = subprocess.Popen([BYSTRODOL, "ask", peer.name, "dump", os.path.join(folder, "new")], stderr=subprocess.PIPE, text=True)
            started.stderr.readline()       # it says that it uses the buffer
            started.send_signal(by)
            started.communicate(timeout=SECONDS)
            check(started.returncode == status, "%s: dump ends with %d" % (by.name, started.returncode))
            check(os.listdir(folder) == [], "%s: dump leaves a file" % by.name)


def check_copies():
    copy_readers()
    side_by_side(answer_dump, DUMPS)
    side_by_side(answer_restore, RESTORES)
    answer_big_dump()
    refuse_early()
    interrupt_dump()
