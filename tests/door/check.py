#!/usr/bin/env python3
"""Checks ./bystrodol: how it builds, what it says, and how it ends.

Where it builds, it does so in a copy of the repository, with a stand-in for rt that notes its calls. The reader that this one
brings is the proved one, and its program compare prints what it is told to. Status: 0 all is well, 1 a check failed, 2 there is no port.
"""

import concurrent.futures
import fcntl
import os
import shutil
import signal
import subprocess
import sys
import tempfile
import time

from server import BYSTRODOL, SECONDS, Failed, NoPort, Server, check

HERE = os.path.dirname(os.path.abspath(__file__))
ROOT = os.path.dirname(os.path.dirname(HERE))
HANDSHAKE = bytes.fromhex("ef01ffffffff010003400044")
REPLY = bytes.fromhex("ef01ffffffff07000300000a")
STARTS = 4      # at once, and of those that are timed
ENDINGS = (signal.SIGINT, signal.SIGQUIT, signal.SIGTERM, signal.SIGHUP)


def crates_of_bench():
    """The repository's own crates that the program stands on, as crates.txt has them, and its own."""
    with open(os.path.join(ROOT, "crates.txt")) as listed:
        words = next(line for line in listed if line.startswith("bench:")).split()[1:]
    return [name for name in words if os.path.isdir(os.path.join(ROOT, "crates", name))] + ["bench"]


CRATES = crates_of_bench()


class Copy:
    """A copy of what the front door needs, with stand-ins for rt and date first on the PATH."""

    def __init__(self, folder):
        self.folder = folder
        os.mkdir(folder)
        for name in (".ci", "tools", "crates"):
            shutil.copytree(os.path.join(ROOT, name), self.path(name), ignore=shutil.ignore_patterns("out"))
        for name in ("bystrodol", "crates.txt"):
            shutil.copy(os.path.join(ROOT, name), self.path(name))
        os.mkdir(self.path("bin"))
        for name in ("rt", "date"):
            shutil.copy(os.path.join(HERE, name), self.path("bin"))
        os.mkdir(self.path("programs"))
        for name in ("target/bin/bench", "target/door/compare"):
            shutil.copy(os.path.join(ROOT, name), self.path("programs"))
        self.environment = dict(os.environ, PATH="%s:%s" % (self.path("bin"), os.environ["PATH"]), PROGRAMS=self.path("programs"))

    def path(self, name):
        return os.path.join(self.folder, name)

    def start(self, *words, **environment):
        return subprocess.Popen([self.path("bystrodol"), *words], stdin=subprocess.PIPE, stdout=subprocess.PIPE,
                                stderr=subprocess.PIPE, env=dict(self.environment, **environment), start_new_session=True)

    def calls(self, program="bench"):
        """How often rt was called for a program since this was asked last."""
        try:
            with open(self.path("calls")) as file:
                calls = file.read().splitlines()
            os.unlink(self.path("calls"))
        except FileNotFoundError:
            calls = []
        check(all(call == "run " + program for call in calls), "rt is called by other words: %s" % calls)
        return len(calls)


def finish(process, what):
    """Gives a reader a handshake, and returns what it says beside the right reply."""
    out, said = process.communicate(HANDSHAKE, timeout=SECONDS)
    check(process.returncode == 0 and out == REPLY, "%s: status %d, reply '%s'\n%s" %
          (what, process.returncode, out.hex(" "), said.decode()))
    return said.decode().splitlines()


def run(copy, what, calls, **environment):
    said = finish(copy.start("bench", **environment), what)
    with open(copy.path("target/bin/bench"), "rb") as built, open(copy.path("programs/bench"), "rb") as proved:
        check(built.read() == proved.read(), "%s: the program is not the one that rt brought" % what)
    called = copy.calls()
    check(called == calls, "%s: rt is called %d times, and not %d\n%s" % (what, called, calls, "\n".join(said)))
    return said


def append(name, text):
    with open(name, "a") as file:
        file.write(text)


# ---- building

def build_at_once(copy):
    """One start builds, and the others wait for it."""
    starts = [copy.start("bench", DURING="sleep 1") for _ in range(STARTS)]
    said = [finish(start, "starts at once") for start in starts]
    check(copy.calls() == 1, "starts at once: rt is not called once")
    builders = [lines for lines in said if "waits" not in "".join(lines)]
    check(len(builders) == 1, "starts at once: what they say does not tell who waits: %s" % said)
    return builders[0]


def check_lines(lines):
    """A line for each crate, with its time and how many are left, and nothing of the prover's."""
    expected = ["bystrodol: %s proved in 2 s, %d left" % (name, len(CRATES) - 1 - i) for i, name in enumerate(CRATES)]
    check(lines[1:] == expected and "%d crates" % len(CRATES) in lines[0], "a first start says: %s" % lines)


def time_of_start(copy):
    """Seconds from a start of what is built to the reader's end."""
    began = time.monotonic()
    check(run(copy, "a second start", 0) == [], "a second start says something")
    return time.monotonic() - began


def build_again(copy):
    """What is built of the very sources is started without rt; anything else is proved."""
    took = min(time_of_start(copy) for _ in range(STARTS))
    check(took < 1, "a second start takes %.1f s" % took)
    locked = os.open(copy.folder, os.O_RDONLY)
    fcntl.flock(locked, fcntl.LOCK_EX)
    run(copy, "a start of what is built, while another builds", 0)
    os.close(locked)
    os.utime(copy.path("crates/wire/src/finder.rt"))
    run(copy, "a source with a new time", 0)
    append(copy.path("crates/step/src/lib.rt"), "// more\n")
    run(copy, "a change where the reader does not stand on it", 0)
    times = os.stat(copy.path("crates/wire/src/finder.rt"))
    append(copy.path("crates/wire/src/finder.rt"), "// more\n")
    os.utime(copy.path("crates/wire/src/finder.rt"), ns=(times.st_atime_ns, times.st_mtime_ns))
    run(copy, "a change with the old time", 1)
    for name in ("crates/protocol/specs/Numbers.antt", "crates.txt", "crates/reader/proofs/more.antt", "target/bin/bench"):
        append(copy.path(name), "\n")
        run(copy, "a change of " + name, 1)
    os.unlink(copy.path("target/bin/bench"))
    run(copy, "no program", 1)
    os.unlink(copy.path("target/bin/bench"))
    os.unlink(copy.path("target/bench.sums"))
    run(copy, "no program, and no sums of it", 1)
    os.unlink(copy.path("target/bench.sums"))
    run(copy, "no sums", 1)
    shutil.rmtree(copy.path("target"))
    run(copy, "no target", 1)
    shutil.rmtree(copy.path("target"))
    during = "[ -e changed ] || echo // more >>crates/wire/src/finder.rt; touch changed"
    run(copy, "a change during the build", 2, DURING=during)
    run(copy, "after all", 0)


def build_beside_reader(copy):
    """A start that built, and whose reader runs, holds no lock: another start can build."""
    append(copy.path("crates/wire/src/finder.rt"), "// more\n")
    reader = copy.start("bench")
    reader.stdin.write(HANDSHAKE)
    reader.stdin.flush()
    check(reader.stdout.read(len(REPLY)) == REPLY, "a reader that was built does not answer")
    append(copy.path("crates/wire/src/finder.rt"), "// more\n")
    run(copy, "a build beside a reader", 2)
    reader.communicate()


def build_in_vain(copy):
    """A failure names the crate and the log, and the next start tries again."""
    shutil.rmtree(copy.path("target"))
    failed = copy.start("bench", DURING="echo the reason; echo 'crate reader: modules loaded=0 checked=9'; echo logic=not-proved; exit 1")
    out, said = failed.communicate(HANDSHAKE, timeout=SECONDS)
    said = said.decode()
    check(failed.returncode == 2 and not out, "a failed build: status %d" % failed.returncode)
    check("reader NOT PROVED" in said and "target/bench.log" in said and "the reason" not in said, "a failed build says: " + said)
    with open(copy.path("target/bench.log")) as log:
        check("the reason" in log.read(), "the log has not what rt said")
    check(copy.calls() == 1, "a failed build: rt is not called once")
    run(copy, "after a failed build", 1)


def build_killed(copy):
    """A start that is killed leaves no lock behind. If its rt goes on, the next start waits for that."""
    for whole in (True, False):
        shutil.rmtree(copy.path("target"))
        killed = copy.start("bench", DURING="sleep 1")
        while not (os.path.exists(copy.path("calls")) and os.path.getsize(copy.path("calls"))):
            time.sleep(0.02)
        if whole:
            os.killpg(killed.pid, signal.SIGKILL)
        else:
            killed.kill()
        killed.wait()
        run(copy, "after a killed start", 2)
        killed.communicate()


REFUSED = {"serve nodir/port": "no folder nodir", "serve tools": "is there already", "serve -x": "./-x", "bench more": "usage:",
           "compare": "usage:", "compare a": "usage:", "compare a b c": "usage:", "compare -h": "usage:", "compare - -": "not both",
           "more": "usage:", "": "usage:"}


def refuse_before_building(copy):
    """What cannot be done is said before anything is built."""
    shutil.rmtree(copy.path("target"))
    for words, said in REFUSED.items():
        refused = subprocess.run([copy.path("bystrodol"), *words.split()], stdin=subprocess.DEVNULL, capture_output=True,
                                 text=True, cwd=copy.folder, env=copy.environment)
        check(refused.returncode == 2 and said in refused.stderr and not refused.stdout,
              "%s: status %d, %s" % (words, refused.returncode, refused.stderr))
    check(copy.calls() == 0, "it builds before it refuses")


def ask_first(copy):
    """What the gate needs and does not find is told in its first seconds, all of it."""
    tools, notes = copy.path("few"), copy.path("installs")
    os.mkdir(tools)
    for name in ("sh", "awk", "basename", "cat", "dirname", "id", "mktemp", "readlink", "rm", "sed", "tee", "tr", "uname"):
        os.symlink(shutil.which(name), os.path.join(tools, name))
    with open(os.path.join(tools, "apt-get"), "w") as file:
        file.write('#!/bin/sh\necho "$*" >>%s\nexit 1\n' % notes)
    os.chmod(os.path.join(tools, "apt-get"), 0o755)
    environment = {name: value for name, value in copy.environment.items() if name != "RATTLE_HOME"}
    gate = subprocess.run([copy.path(".ci/run")], stdin=subprocess.DEVNULL, capture_output=True, text=True, timeout=SECONDS,
                          env=dict(environment, PATH=tools))
    check(gate.returncode == 2, "the gate goes on without what it needs: status %d" % gate.returncode)
    for name in ("rt,", "socat", "rustc"):
        check(name in gate.stderr, "the gate does not say that %s is missing: %s" % (name, gate.stderr))
    check(os.path.exists(notes) == (os.getuid() == 0), "root alone installs")


# ---- compare, with a program that prints what it is told to

ALL_LINES = "".join(["T%d %d\n" % (page, 1 + page % 3) for page in range(1000)] + ["N%d 3\n" % page for page in range(16)])
# What the program prints, what it says on standard error, how it ends; what is printed then, the status, and what is said.
PRINTS = (
    ("", "", "", "", 0, ""),
    ("T3 1\nN2 3\n", "", "", "T3 1\nN2 3\n", 1, ""),
    (ALL_LINES, "", "", ALL_LINES, 1, ""),
    ("R1\n", "", "", "R1\n", 2, "R1: one of the two is no library"),
    ("R3\n", "", "", "R3\n", 2, "R3: an index tells that a page is stored"),
    ("", "it cannot be written\n", "", "", 2, "the program compare ended: it cannot be written"),
    ("T3 1\n", "it cannot be written", "", "", 2, "the program compare ended: it cannot be written"),
    ("", "\n", "", "", 2, "the program compare ended: an empty line"),
    ("T3 1\nT4", "", "", "", 2, "the program compare ended: T4"),
    ("T3 1\nT4 1", "", "", "", 2, "the program compare ended: T4 1"),
    ("T3 1\nT1000 1\n", "", "", "", 2, "the program compare ended: T1000 1"),
    ("T3 1\nR1\n", "", "", "", 2, "no comparison"),
    ("R1\nR3\n", "", "", "", 2, "no comparison"),
    ("T3 1\n", "", "killed", "", 2, "the program compare ended with status 132"),
    ("", "", "killed", "", 2, "the program compare ended with status 132"),
    ("", "", "badly", "", 2, "the program compare ended with status 3"),
)
ODD_NAMES = (b"-x", b"--help", b"-h", b"--", b"a b", b"a\nb", b"\xff\xfe", b"*", b"a\\c", b"!", b"(")
LIBRARY = bytes([1]) + bytes(639 + 512 * 2)
# Files that a refusal is told of, each with what it holds.
CAUSES = {
    "whole": (LIBRARY, "whole has pages: 2"),
    "bits": (bytes([0, 128]) + LIBRARY[2:], "bits has pages: 2, and its index tells of page 15"),
    "last": (bytes(127) + bytes([128]) + LIBRARY[128:], "last has pages: 2, and its index tells of page 1023"),
    "empty": (b"", "empty has 0 bytes, which is not 640 + 512 x pages with 1 to 1000 pages"),
    "vacant": (bytes(640), "vacant has 640 bytes"),
    "cut": (LIBRARY[:-1], "cut has 1663 bytes"),
    "long": (bytes(640 + 512 * 1001), "long has 513152 bytes"),
}


def end_compare(copy, words, printed, status, *said, stdin=b"", **environment):
    """Runs compare, whose program is built, in the folder files, and holds what it prints, its status and what it says to these."""
    ended = subprocess.run([copy.path("bystrodol"), "compare", *words], input=stdin, capture_output=True, timeout=SECONDS,
                           cwd=copy.path("files"), env=dict(copy.environment, **environment))
    told = ended.stderr.decode(errors="replace")
    what = "compare %s %s: status %d\n%s%s" % (words, environment, ended.returncode, ended.stdout.decode(), told)
    check(ended.stdout.decode() == printed and ended.returncode == status, what)
    check(bool(told) == (status == 2) and all(text in told for text in said), what)


def tell_prints(copy):
    def one(row):
        prints, says, ends, printed, status, said = row
        given = {name: value for name, value in (("PRINTS", prints), ("SAYS", says), ("ENDS", ends)) if value or name == "PRINTS"}
        end_compare(copy, ["a", "b"], printed, status, said, **given)
    with concurrent.futures.ThreadPoolExecutor(STARTS) as pool:
        list(pool.map(one, PRINTS))


def write_files(copy, files):
    for name, run in files.items():
        with open(os.path.join(os.fsencode(copy.path("files")), name), "wb") as file:
            file.write(run)


def pass_names(copy):
    """Every name comes to the program as it is given, and standard input is the caller's."""
    write_files(copy, {name: b"T7 2\n" for name in ODD_NAMES})
    with concurrent.futures.ThreadPoolExecutor(STARTS) as pool:
        list(pool.map(lambda name: end_compare(copy, [name, name], "T7 2\nT7 2\n", 1), ODD_NAMES))
    end_compare(copy, ["-", "-x"], "N1 3\nT7 2\n", 1, stdin=b"N1 3\n")
    end_compare(copy, ["-x", "-"], "T7 2\nN1 3\n", 1, stdin=b"N1 3\n")
    end_compare(copy, ["/dev/stdin", ""], "N1 3\n", 1, stdin=b"N1 3\n")
    end_compare(copy, ["none", "./-"], "", 0, stdin=b"N1 3\n")


def tell_causes(copy):
    write_files(copy, {os.fsencode(name): run for name, (run, _) in CAUSES.items()})
    os.mkdir(copy.path("files/folder"))
    for one, other in (("whole", "empty"), ("bits", "last"), ("vacant", "cut"), ("long", "whole")):
        end_compare(copy, [one, other], "R1\n", 2, CAUSES[one][1], CAUSES[other][1], PRINTS="R1\n")
    end_compare(copy, ["folder", "none"], "R1\n", 2, "folder is a directory", "none cannot be read", PRINTS="R1\n")
    end_compare(copy, ["-", "/dev/null"], "R3\n", 2, PRINTS="R3\n")


def end_compare_honestly(copy):
    here = {"cwd": copy.path("files"), "env": dict(copy.environment, PRINTS="T3 1\n")}
    end_in_shell("../bystrodol compare a b >/dev/full", "cannot be written", **here)
    end_in_shell("../bystrodol compare a b >&-", "standard output is closed", **here)
    end_in_shell("TMPDIR=none ../bystrodol compare a b", "no temporary pipe", **here)
    nobody, pipe = os.pipe()
    os.close(nobody)
    ended = subprocess.run([copy.path("bystrodol"), "compare", "a", "b"], stdout=pipe, stderr=subprocess.PIPE, **here)
    os.close(pipe)
    check(ended.returncode == 2 and b"cannot be written" in ended.stderr, "compare to nobody: %s" % ended)
    for redirected in ("2>&-", "2>/dev/full"):
        for prints, status in (("R1\n", 2), ("T3 1\n", 1), ("no line\n", 2)):
            ended = subprocess.run(["sh", "-c", "../bystrodol compare a b " + redirected], stdout=subprocess.PIPE, cwd=here["cwd"],
                                   env=dict(copy.environment, PRINTS=prints), text=True)
            printed = "" if prints == "no line\n" else prints
            check((ended.returncode, ended.stdout) == (status, printed), "compare %s: %s" % (redirected, ended))
    ended = subprocess.run(["sh", "-c", "../bystrodol compare -x /dev/fd/3 <&- 3<a\\ b"], capture_output=True, cwd=here["cwd"],
                           env=copy.environment)
    check((ended.returncode, ended.stdout) == (1, b"T7 2\nT7 2\n"), "compare without standard input: %s" % ended)


def interrupt_compare(copy):
    """A signal ends the program too, and nothing of it is left."""
    pipe, rooms = copy.path("files/pipe"), copy.path("rooms")
    os.mkfifo(pipe)
    os.mkdir(rooms)
    for by in ENDINGS:
        started = subprocess.Popen([copy.path("bystrodol"), "compare", pipe, "a"], stdout=subprocess.PIPE, stderr=subprocess.PIPE,
                                   env=dict(copy.environment, TMPDIR=rooms))
        with open(pipe, "wb", buffering=0) as file:
            started.send_signal(by)
            out, said = started.communicate(timeout=SECONDS)
            check((started.returncode, out) == (128 + by, b""), "%s: compare ends with %d, %s" % (by.name, started.returncode, said))
            try:
                file.write(b"T3 1\n")
                check(False, "%s: the program compare goes on" % by.name)
            except BrokenPipeError:
                pass
        check(os.listdir(rooms) == [], "%s: compare leaves a folder" % by.name)


def compare(copy):
    os.mkdir(copy.path("files"))
    said = copy.start("compare", "a", "b").communicate(timeout=SECONDS)[1].decode()
    check(copy.calls("compare") == 1 and "builds the program compare" in said, "a first start of compare says: " + said)
    tell_prints(copy)
    pass_names(copy)
    tell_causes(copy)
    end_compare_honestly(copy)
    interrupt_compare(copy)
    check(copy.calls("compare") == 0, "a second start of compare calls rt")
    run(copy, "a reader beside compare", 0)


# ---- words and endings, of the repository's own front door

def give_help():
    with tempfile.TemporaryDirectory() as folder:
        for words in ("help", "--help", "-h", "serve --help", "serve -h", "demo --help", "bench -h", "test --help", "ask --help",
                      "compare --help", "explain --help"):
            told = subprocess.run([BYSTRODOL, *words.split()], stdin=subprocess.DEVNULL, capture_output=True, text=True,
                                  cwd=folder)
            check(told.returncode == 0 and told.stdout.startswith("usage: ./bystrodol") and not told.stderr,
                  "%s: status %d, %s" % (words, told.returncode, told.stdout + told.stderr))
        check(os.listdir(folder) == [], "a word for help leaves a file")


def end_in_shell(words, said, cwd=ROOT, env=None):
    """A command line of a shell ends with status 2 and a clear line."""
    ended = subprocess.run(["sh", "-c", words], cwd=cwd, env=env, input=HANDSHAKE, capture_output=True, timeout=SECONDS)
    told = ended.stderr.decode()
    check(ended.returncode == 2 and said in told and "Traceback" not in told,
          "%s: status %d, %s" % (words, ended.returncode, told))


def end_honestly():
    end_in_shell("./bystrodol bench >/dev/full", "No space left on device")
    end_in_shell("./bystrodol demo >/dev/full", "No space left on device")
    end_in_shell("./bystrodol explain ef01 >/dev/full", "No space left on device")
    end_in_shell("./bystrodol ask --help >/dev/full", "No space left on device")
    end_in_shell("./bystrodol help >/dev/full", "cannot be written")
    end_in_shell("./bystrodol serve >/dev/full", "cannot be written")
    end_in_shell("./bystrodol bench <&-", "standard input is closed")
    end_in_shell("./bystrodol bench >&-", "standard output is closed")
    end_in_shell("./bystrodol demo >&-", "standard output is closed")


def end_bench():
    """A signal to the bench ends the reader too."""
    for by in ENDINGS:
        bench = subprocess.Popen([BYSTRODOL, "bench"], stdin=subprocess.PIPE, stdout=subprocess.PIPE)
        bench.stdin.write(HANDSHAKE)
        bench.stdin.flush()
        check(bench.stdout.read(len(REPLY)) == REPLY, "the bench does not answer")
        bench.send_signal(by)
        # The reader holds standard output: its end is the reader's.
        rest, _ = bench.communicate(timeout=SECONDS)
        check(bench.returncode == 128 + by and rest == b"", "%s: the bench's status is %d" % (by.name, bench.returncode))


def end_serve():
    """Each signal ends all of serve; nothing of it is left: no process, no link, no folder."""
    with tempfile.TemporaryDirectory() as folder:
        for by in ENDINGS:
            rooms, link = os.path.join(folder, "rooms"), os.path.join(folder, "port")
            os.mkdir(rooms)
            with Server(link, TMPDIR=rooms) as server:
                server.port_name()
                server.end(by)
            check(not os.path.lexists(link) and os.listdir(rooms) == [], "%s: serve leaves its link or its folder" % by.name)
            os.rmdir(rooms)


def main():
    # A signal that is ignored here would be ignored by what is started.
    for by in ENDINGS:
        signal.signal(by, signal.default_int_handler if by == signal.SIGINT else signal.SIG_DFL)
    try:
        with tempfile.TemporaryDirectory() as folder:
            copy = Copy(os.path.join(folder, "copy"))
            check_lines(build_at_once(copy))
            build_again(copy)
            build_beside_reader(copy)
            build_in_vain(copy)
            build_killed(copy)
            compare(copy)
            refuse_before_building(copy)
            ask_first(copy)
        give_help()
        end_honestly()
        end_bench()
        end_serve()
    except (Failed, subprocess.TimeoutExpired) as failure:
        print("door: FAILED: %s" % failure)
        return 1
    except NoPort as trouble:
        print("door: %s" % trouble, file=sys.stderr)
        return 2
    print("door: starts at once, again and in vain; compare; words and endings")
    return 0


if __name__ == "__main__":
    sys.exit(main())
