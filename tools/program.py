"""How a program here ends: with its status, and honestly where nobody takes what it says."""

import os
import sys

TROUBLE = 2             # the status of what cannot be done
INTERRUPTED = 130       # as a shell has it


class Trouble(Exception):
    """It cannot be done; why, in words."""


def status_of(main):
    try:
        return main(sys.argv[1:])
    except SystemExit as left:
        return left.code


def end(name, main):
    """Runs main on the words of the command line, and ends the program with the status that it returns."""
    sys.stdout.reconfigure(errors="backslashreplace")
    # What is said to a standard error that is closed is not to come out with what is printed.
    sys.stderr = sys.stderr or open(os.devnull, "w")
    try:
        status = status_of(main)
        sys.stdout.flush()
    except KeyboardInterrupt:
        status = INTERRUPTED
        print("\n%s: interrupted" % name, file=sys.stderr)
    except OSError as failure:
        status = TROUBLE
        # To a reader that has gone away, as head does, nothing need be said.
        if not isinstance(failure, BrokenPipeError):
            print("%s: what it says cannot be written: %s" % (name, failure.strerror), file=sys.stderr)
        # What is still held would be written, and fail, once more.
        os.dup2(os.open(os.devnull, os.O_WRONLY), sys.stdout.fileno())
    sys.exit(status)
