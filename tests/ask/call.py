"""A call of ./bystrodol as these tests make it, and packets by hand for the peers that it talks to."""

import concurrent.futures
import subprocess

from server import BYSTRODOL, SECONDS, Failed, check

WAIT = "1"          # seconds that ask waits for what does not come
AT_ONCE = 4         # calls that are made side by side
TEMPLATE = bytes((7 * i + i * i) % 256 for i in range(512))
calls = []          # all calls so far


def expect(words, status, *said, printed=None, not_said=(), stdin=subprocess.DEVNULL, stderr=subprocess.PIPE):
    """Runs ./bystrodol with the words, and holds its status, what it prints and what it says to those given."""
    calls.append(words)
    try:
        ended = subprocess.run([BYSTRODOL, *words], stdin=stdin, stdout=subprocess.PIPE, stderr=stderr, text=True,
                               timeout=SECONDS)
    except subprocess.TimeoutExpired:
        raise Failed("%s does not end" % " ".join(words))
    told = ended.stdout + (ended.stderr or "")
    what = "%s: status %d\n%s\n" % (" ".join(words), ended.returncode, told)
    check(ended.returncode == status, what + "and not status %d" % status)
    check(printed in (None, ended.stdout), what + "and on standard output not '%s'" % printed)
    for text in said:
        check(text in told, what + "'%s' is not said" % text)
    for text in ("Traceback", *not_said):
        check(text not in told, what + "'%s' is said" % text)


def side_by_side(function, rows):
    with concurrent.futures.ThreadPoolExecutor(AT_ONCE) as pool:
        for _ in pool.map(function, rows):
            pass


# ---- packets, at a size of 64 unless another is said

def run_of(text):
    return bytes.fromhex(text.replace("A", "ff ff ff ff"))


OK = run_of("ef 01 A 07 00 03 00 00 0a")
LOCKED = run_of("ef 01 A 07 00 03 21 00 2b")
PARAMETERS = run_of("ef 01 A 07 00 13 00 0000 0000 0040 0003 ffffffff 0001 0006 0460")


def data_of(template, size=64):
    """The data packets of a template, each a run."""
    packets = []
    for at in range(0, len(template), size):
        summed = bytes([8 if at + size == len(template) else 2, 0, size + 2]) + template[at:at + size]
        packets.append(run_of("ef 01 A") + summed + (sum(summed) % 65536).to_bytes(2, "big"))
    return packets


def acknowledge_of(listed):
    """A reply of 00h that lists these bytes."""
    summed = bytes([7, 0, len(listed) + 3, 0]) + listed
    return run_of("ef 01 A") + summed + sum(summed).to_bytes(2, "big")
