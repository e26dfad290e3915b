"""./bystrodol serve as the tests start it, and the checks that they share."""

import os
import secrets
import subprocess

BYSTRODOL = os.path.join(os.path.dirname(os.path.abspath(__file__)), "..", "..", "bystrodol")
SECONDS = 10            # the longest wait for a reply, and for the server's end


class Failed(Exception):
    """A check failed."""


class NoPort(Exception):
    """The server did not come up."""


def check(holds, what):
    if not holds:
        raise Failed(what)


class Server:
    """./bystrodol serve, known by a mark in the environment of all its processes."""

    def __init__(self, *link, **environment):
        self.mark = secrets.token_hex(16)
        self.process = subprocess.Popen([BYSTRODOL, "serve", *link], stdin=subprocess.DEVNULL, stdout=subprocess.PIPE,
                                        text=True, env=dict(os.environ, SERIAL_TEST=self.mark, **environment))

    def __enter__(self):
        return self

    def __exit__(self, *_):
        self.process.terminate()
        self.process.wait()

    def port_name(self):
        name = self.process.stdout.readline().rstrip("\n")
        if not name:
            raise NoPort("./bystrodol serve ended with status %d" % self.process.wait())
        return name

    def processes(self):
        found = []
        for number in filter(str.isdigit, os.listdir("/proc")):
            try:
                with open("/proc/%s/environ" % number, "rb") as environment:
                    if self.mark.encode() in environment.read():
                        found.append(number)
            except OSError:
                pass
        return found

    def end(self, by):
        """Ends it by a signal: well, at once, and whole."""
        check(len(self.processes()) >= 3, "the script, socat and the reader are not all seen")
        self.process.send_signal(by)
        try:
            rest, _ = self.process.communicate(timeout=SECONDS)
        except subprocess.TimeoutExpired:
            raise Failed("%s does not end the server" % by.name)
        check(rest == "", "the server writes more than its port's name: " + rest)
        check(self.process.returncode == 0, "%s: the server's status is %d" % (by.name, self.process.returncode))
        check(not self.processes(), "%s: processes are left: %s" % (by.name, self.processes()))
