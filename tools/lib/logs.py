"""Reads logs, as docs/FORMATS.md has them, and says where bytes stop being one."""
import os
import re
import struct

NAME = b"PBDSLOG"
OLD_LIMIT, LIMIT = 2**28, 2**29
FORMATS = os.path.join(os.path.dirname(os.path.realpath(__file__)), "../../docs/FORMATS.md")
# what the table of entries says of a command: its words, its byte, and the numbers behind it
ROW = re.compile(r"^\| ([a-z][a-z ]*) \| `([0-9a-f]{2})`((?:, (?:u64|i64|three i64)\b[ a-z]*)*) \|$", re.M)
KINDS = {"u64": "u", "i64": "i", "three i64": "iii"}


def commands():
    """Returns the words of the commands by their bytes, and the numbers behind each: u for one without a sign, i for one with it."""
    with open(FORMATS, encoding="utf-8") as file:
        text = file.read()
    start = text.index("### An entry")
    table = {}
    for words, byte, numbers in ROW.findall(text[start:text.index("| answer | bytes |", start)]):
        kinds = "".join(KINDS[kind] for kind in re.findall(r"three i64|u64|i64", numbers))
        # (of a line that is no command all words tell it, and of a command the first)
        table[int(byte, 16)] = (words if words.startswith("a line") else words.split()[0], kinds)
    return table


COMMANDS = commands()
PHASES = {1: "predict", 2: "link", 3: "contact", 4: "shape"}
SUMS = 64


class BadLog(Exception):
    """Where bytes stop being a log, and what is wrong there, in words."""

    def __init__(self, offset, words):
        super().__init__(words)
        self.offset, self.words = offset, words


class Entry:
    """A command as a line of a script would have it, and the answer: its number, and the step, phase and element where there are."""

    def __init__(self, command, answer, more):
        self.command, self.answer, self.more = command, answer, more


class Reader:
    def __init__(self, log):
        self.log, self.at = log, 0

    def number(self, size, start, what, signed=False):
        piece = self.log[self.at:self.at + size]
        if len(piece) < size:
            raise BadLog(start, f"{what} is cut short: the log ends after byte {len(self.log):,}")
        self.at += size
        return int.from_bytes(piece, "big", signed=signed)

    def header(self):
        if self.log[:7] != NAME or self.log[7:8] not in (b"\1", b"\2"):
            raise BadLog(0, "a log begins with PBDSLOG and a byte 1 or 2, and this doesn't")
        self.at, limit = 8, OLD_LIMIT
        if self.log[7] == 2:
            limit = self.number(8, 8, "the limit")
            if limit not in (OLD_LIMIT, LIMIT):
                raise BadLog(8, f"the limit is {limit:,}, and there are {OLD_LIMIT:,} and {LIMIT:,}")
        start = self.at
        size = self.number(4, start, "the length of the scene")
        if len(self.log) < self.at + size:
            raise BadLog(start, f"the scene has {size:,} bytes by its length, and {len(self.log) - self.at:,} are there")
        self.at += size
        return limit, self.at - size, self.log[self.at - size:self.at]

    def entry(self, number):
        """Returns the next entry, or None at the end."""
        start, what = self.at, f"entry {number}"
        if start == len(self.log):
            raise BadLog(start, f"{what} or the end is missing: a log ends with a byte 0 and the number of its entries")
        code = self.number(1, start, what)
        if code == 0:
            said = self.number(8, start, "the number of entries at the end")
            if said != number - 1:
                raise BadLog(start, f"the end says {said:,} entries, and {number - 1:,} stand before it")
            if self.at < len(self.log):
                raise BadLog(self.at, f"{len(self.log) - self.at:,} bytes follow the end")
            return None
        if code not in COMMANDS:
            raise BadLog(start, f"{what} begins with byte {code}, which is no command")
        word, kinds = COMMANDS[code]
        what = f"{what}, {word},"
        operands = [self.number(8, start, what, signed=kind == "i") for kind in kinds]
        answer = self.number(1, start, what)
        return Entry(" ".join([word, *map(str, operands)]), answer, self.more(code, answer, start, what))

    def more(self, code, answer, start, what):
        """Returns the step, phase and element of an answer, where it has them, and goes past sums."""
        if answer > 12:
            raise BadLog(start, f"{what} has the answer {answer}, and the last there is is 12")
        step = phase = element = None
        if answer in (11, 12):
            step = self.number(8, start, what)
        if answer == 11:
            phase, element = struct.unpack(">BI", self.number(5, start, what).to_bytes(5, "big"))
            if phase not in PHASES:
                raise BadLog(start, f"{what} has the phase {phase}, and there are 1 to 4")
        if code == 1 and answer == 0:
            self.number(SUMS, start, f"the sums of {what}")
        return step, PHASES.get(phase), element


def read(log):
    """Returns the limit of a log, where its scene begins, the scene, and the entries; or raises BadLog."""
    reader = Reader(log)
    limit, at, scene = reader.header()
    entries = []
    while (entry := reader.entry(len(entries) + 1)) is not None:
        entries.append(entry)
    return limit, at, scene, entries
