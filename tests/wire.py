"""The driver's stream: what a call is lent, as bytes to ask with and bytes that must come back; and the driver itself, built and run."""
import os
import struct
import subprocess
from array import array
from dataclasses import dataclass
from typing import Sequence

HERE = os.path.dirname(os.path.abspath(__file__))

CALLS = ("make", "check", "lookup", "insert", "delete", "scan", "run")
ASKED = CALLS + ("over",)       # over: a run, by the function over lent totals
SLICES = ("list", "cards", "table", "forecast", "requests", "totals", "output", "output_cards", "reply")
KIND = dict(list="Q", cards="I", table="Q", forecast="Q", requests="B", totals="I", output="Q", output_cards="I", reply="Q")
GUARD = bytes(range(0xC0, 0xE0))


@dataclass
class Lent:
    """A call, the profile it names and everything it is lent. number: the key, where a scan begins, or the allowance; card: an insert's."""
    call: str
    profile: int = 1
    number: int = 0
    card: int = 0
    list: Sequence = ()
    cards: Sequence = ()
    table: Sequence = ()
    forecast: Sequence = ()
    requests: bytes = b""
    totals: Sequence = ()
    output: Sequence = ()
    output_cards: Sequence = ()
    reply: Sequence = ()

    def slices(self):
        return [getattr(self, name) for name in SLICES]


def contents(lent):
    """The bytes of each slice."""
    return [array(KIND[name], getattr(lent, name)).tobytes() for name in SLICES]


def lengths(lent):
    return [len(slice) for slice in lent.slices()]


def question(lent):
    head = [ASKED.index(lent.call) + 1, lent.profile, lent.number, lent.card] + lengths(lent)
    return struct.pack("<%dQ" % len(head), *head) + b"".join(contents(lent))


def answer(returned, after):
    """What must come back when the call returns this number and leaves this memory."""
    return struct.pack("<Q", returned) + b"".join(GUARD + content + GUARD for content in contents(after))


def where(got, wanted, after):
    """The first differing place of two answers of one length, in words."""
    if got[:8] != wanted[:8]:
        return "returned %d, by the model %d" % (struct.unpack("<Q", got[:8]) + struct.unpack("<Q", wanted[:8]))
    start = 8
    for name, content in zip(SLICES, contents(after)):
        end = start + len(content) + 2 * len(GUARD)
        if got[start:end] != wanted[start:end]:
            return name + " " + place(got[start:end], wanted[start:end], array(KIND[name]))
        start = end
    return "nothing"


def place(got, wanted, words):
    """The first differing element of a guarded slice."""
    first = next(i for i in range(len(wanted)) if got[i] != wanted[i])
    if first < len(GUARD):
        return "guard before it changed"
    if first >= len(wanted) - len(GUARD):
        return "guard after it changed"
    n = (first - len(GUARD)) // words.itemsize
    begin = len(GUARD) + n * words.itemsize
    pair = [int.from_bytes(side[begin:begin + words.itemsize], "little") for side in (got, wanted)]
    return "[%d] is %d, by the model %d" % (n, pair[0], pair[1])


def build(folder):
    """Builds the driver that stands beside this file, with the compiler FF_CC and the archives FF_ARCHIVE and FF_RUN_ARCHIVE."""
    program = os.path.join(folder, "driver")
    subprocess.run([os.environ["FF_CC"], "-std=c11", "-O2", "-Wall", "-Wextra", "-Werror", "-static",
                    "-I", os.path.join(HERE, "..", "include"), os.path.join(HERE, "driver.c"), os.environ["FF_ARCHIVE"],
                    os.environ["FF_RUN_ARCHIVE"], "-o", program], check=True)
    return program


class Driver:
    """A running driver, under the emulator FF_EMULATOR if there is one."""

    def __init__(self, program):
        before = [os.environ["FF_EMULATOR"]] if os.environ.get("FF_EMULATOR") else []
        self.process = subprocess.Popen(before + [program], stdin=subprocess.PIPE, stdout=subprocess.PIPE)

    def ask(self, lent):
        try:
            self.process.stdin.write(question(lent))
            self.process.stdin.flush()
        except BrokenPipeError:
            pass

    def answered(self, size):
        """So many bytes, or fewer if the driver has ended."""
        return self.process.stdout.read(size)

    def close(self):
        try:
            self.process.stdin.close()
        except BrokenPipeError:
            pass
        self.process.stdout.close()
        return self.process.wait()
