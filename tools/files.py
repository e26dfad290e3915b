"""Files that hold fingerprints: read at most to a length, and made new, whole or not at all, for their owner alone."""

import os
import signal

from program import Trouble

OWNER_ALONE = 0o600
ENDINGS = (signal.SIGHUP, signal.SIGINT, signal.SIGQUIT, signal.SIGTERM)


def read_file(name, most):
    """The bytes of a file. Of one that has more than the most, one more than these."""
    try:
        with open(name, "rb") as file:
            return file.read(most + 1)
    except OSError as failure:
        raise Trouble("%s cannot be read: %s" % (name, failure.strerror))


def check_new(name, word):
    """A file that this word of ask makes is not there yet, and its folder can be written in."""
    if os.path.lexists(name):
        raise Trouble("%s is there already, and %s writes over nothing" % (name, word))
    if not os.access(folder_of(name), os.W_OK | os.X_OK):
        raise Trouble("%s cannot be made: there is no folder for it that can be written in" % name)


def folder_of(name):
    return os.path.dirname(name) or "."


def write_new(name, run):
    try:
        write_unnamed(name, run)
    except FileExistsError as failure:
        raise cannot_be_written(name, failure)
    except OSError:
        # Not every disk has files without a name. Where something else is wrong, it is so here too.
        write_named(name, run)


def cannot_be_written(name, failure):
    return Trouble("%s cannot be written: %s" % (name, failure.strerror))


def write_all(file, run):
    with os.fdopen(file, "wb", closefd=False) as whole:
        whole.write(run)
        whole.flush()
        os.fsync(file)


def write_unnamed(name, run):
    """The file gets its name when all of it is on the disk: whatever ends the program before leaves nothing."""
    file = os.open(folder_of(name), os.O_TMPFILE | os.O_WRONLY, OWNER_ALONE)
    try:
        write_all(file, run)
        os.link("/proc/self/fd/%d" % file, name)
    finally:
        os.close(file)


def write_named(name, run):
    """Signals wait until the file is whole or gone."""
    waiting = signal.pthread_sigmask(signal.SIG_BLOCK, ENDINGS)
    try:
        file = os.open(name, os.O_CREAT | os.O_EXCL | os.O_WRONLY, OWNER_ALONE)
        try:
            write_all(file, run)
        except BaseException:
            os.unlink(name)
            raise
        finally:
            os.close(file)
    except OSError as failure:
        raise cannot_be_written(name, failure)
    finally:
        signal.pthread_sigmask(signal.SIG_SETMASK, waiting)
