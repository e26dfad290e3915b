"""A peer behind a pseudo-terminal that answers each packet by a stored run, whatever it asks."""

import os
import select
import threading
import tty


class Peer:
    def __init__(self, *answers):
        """The answer to each packet in turn: a run, or several that are written one after the other. None ends the peer."""
        self.answers, self.heard = list(answers), b""
        self.own, other = os.openpty()
        tty.setraw(other)
        self.name, self.other = os.ttyname(other), other
        self.end, self.ended = os.pipe()[::-1]
        self.thread = threading.Thread(target=self.talk, daemon=True)

    def __enter__(self):
        self.thread.start()
        return self

    def __exit__(self, *_):
        os.close(self.end)
        self.thread.join()
        os.close(self.other)
        os.close(self.ended)
        if self.own is not None:
            os.close(self.own)

    def talk(self):
        held = b""
        while self.ended not in select.select([self.own, self.ended], [], [])[0]:
            run = os.read(self.own, 4096)
            self.heard += run
            held += run
            while len(held) >= 9 and len(held) >= 9 + int.from_bytes(held[7:9], "big"):
                held = held[9 + int.from_bytes(held[7:9], "big"):]
                if self.answers and not self.answer(self.answers.pop(0)):
                    return

    def answer(self, answer):
        if answer is None:
            os.close(self.own)
            self.own = None
            return False
        for run in [answer] if isinstance(answer, bytes) else answer:
            os.write(self.own, run)
        return True
