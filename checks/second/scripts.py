"""The grammar of scripts in docs/profile.md: what a script says, or its first bad line with the reason."""

import functools
import re

from calls import ARGUMENTS, OPTIONAL
from migration_rows import LISTS, OF_A_LIST
from reports import MOST_OF_A_LIST
from rows import FIELDS, GPA_END

SCRIPT_END = 1 << 24
NUMBER_END = 1 << 64
CALLS_OF_A_PROCESSOR = 4096
OPERATIONS_OF_A_LIST = 256
ITEMS = 1 << 20
KEPT = 1 << 12  # so many words and lines that were read are kept, since most of them come again

OUTSIDE = ("schedule", "lp", "code")
KEYWORDS = ("machine", "end", *OUTSIDE)
# EXPORT.ABORT with a slot, which is a call of its own, and so are EXPORT.MEM and IMPORT.MEM of a list: by the mnemonic.
BY_TOKEN = "EXPORT.ABORT by its token"
WITH_THE_LAST = {"EXPORT.ABORT": BY_TOKEN} | {name: OF_A_LIST.format(name) for name in LISTS}
PRINTABLE = re.compile(rb"[ -~\n]*")
DECIMAL, HEXADECIMAL = re.compile("[0-9]+"), re.compile("0x[0-9a-fA-F]+")
# Each call with its arguments. Of a mnemonic of two calls it names the one without the last argument.
CALLS = (
    ARGUMENTS
    | {name: ARGUMENTS[name][:-1] for name in OPTIONAL}
    | {WITH_THE_LAST[name]: ARGUMENTS[name] for name in OPTIONAL}
)
# Guest operations, with the values that each operand may have.
REGISTER = range(8)
OPERATIONS = {
    "set": (REGISTER, range(NUMBER_END)),
    "secret": (REGISTER, range(512)),
    "add": (REGISTER, REGISTER),
    "load": (REGISTER, range(0, 2 * GPA_END, 8)),
    "store": (REGISTER, range(0, 2 * GPA_END, 8)),
    "accept": (range(0, GPA_END, 4096),),
    "rtmr": (range(4),),
    "report": (),
    "vmcall": (REGISTER,),
}
SLOTS = range(4096)

REASONS = (
    "LENGTH", "UNTERMINATED", "BYTE", "MACHINE", "PLACE", "WORD", "COUNT", "NUMBER", "NAME", "RANGE", "REPEATED",
    "FULL", "SLOT", "ENDLESS",
)


class Fault(Exception):
    """A script's fault: its line and its reason."""

    def __init__(self, line, reason):
        super().__init__(line, reason)
        self.line, self.reason = line, reason

    def __str__(self):
        return f"script line {self.line} {self.reason}"


class Bad(Exception):
    """The reason why a line is bad."""


def need(holds, reason):
    """What a line needs, with the reason where it hasn't."""
    if not holds:
        raise Bad(reason)


@functools.lru_cache(KEPT)
def number(word):
    """The number that a word is, or None."""
    if DECIMAL.fullmatch(word):
        digits, base = word, 10
    elif HEXADECIMAL.fullmatch(word):
        digits, base = word[2:], 16
    else:
        return None
    digits = digits.lstrip("0") or "0"
    if len(digits) > 20:
        return None
    value = int(digits, base)
    return value if value < NUMBER_END else None


def numbers(words):
    """The numbers that these words are."""
    values = tuple(map(number, words))
    need(None not in values, "NUMBER")
    return values


@functools.lru_cache(KEPT)
def turn_of(item):
    """The processor that an item of a schedule names, and its times."""
    parts = item.split("*")
    need(len(parts) <= 2, "NUMBER")
    return (*numbers(parts), 1)[:2]


@functools.lru_cache(KEPT)
def call_in(line):
    """The call that a line is, its output slots, and whether it seals or opens a bundle."""
    name, *rest = line.split()
    need(name in ARGUMENTS, "WORD")
    kinds = ARGUMENTS[name]
    need(len(rest) == len(kinds) or (name in OPTIONAL and len(rest) == len(kinds) - 1), "COUNT")
    if "field" in kinds:
        (page,), field = numbers(rest[:1]), rest[1]
        need(field in FIELDS, "NAME")
        return (name, (page, field)), (), False
    arguments = numbers(rest)
    outputs = ()
    if "output" in kinds:
        outputs = (arguments[kinds.index("output")],)
        need(outputs[0] in SLOTS, "RANGE")
    return (name, arguments), outputs, "output" in kinds or "input" in kinds[: len(rest)]


@functools.lru_cache(KEPT)
def operation_in(line):
    """The guest operation that a line is."""
    name, *rest = line.split()
    need(name in OPERATIONS, "WORD")
    ranges = OPERATIONS[name]
    need(len(rest) == len(ranges), "COUNT")
    operands = numbers(rest)
    for value, allowed in zip(operands, ranges):
        if value not in allowed:
            raise Bad("RANGE")
    return (name, *operands)


class Script:
    """A script as far as it was read."""

    def __init__(self):
        self.machine = None  # processors, pages, HKIDs
        self.schedule = []
        self.calls = {}  # by processor: names and arguments
        self.code = {}  # by TDR page and index: operations
        self.slots = set()
        self.seals = False  # whether a call seals or opens a bundle
        self.reports = False  # whether a guest makes a report
        self.block = None  # the list into which lines go, and what reads them

    def line(self, first, line):
        """Reads a line that isn't skipped, with that first word."""
        if self.block is not None and first not in KEYWORDS:
            place, reads = self.block
            reads(place, line)
            return
        rest = line.split()[1:]
        need((self.machine is None) == (first == "machine"), "MACHINE")
        if first == "end":
            need(self.block is not None, "PLACE")
            need(not rest, "COUNT")
            self.block = None
        else:
            need(self.block is None, "PLACE")
            self.outside(first, rest)

    def outside(self, first, rest):
        """Reads a line that stands outside blocks."""
        need(first in KEYWORDS, "WORD")
        {"machine": self.size, "schedule": self.items, "lp": self.begin_calls, "code": self.begin_code}[first](rest)

    def size(self, rest):
        """Reads what follows `machine`."""
        need(len(rest) == 3, "COUNT")
        size = numbers(rest)
        limits = ((1, 8), (8, 1024), (1, 15))
        need(all(least <= value <= most for value, (least, most) in zip(size, limits)), "RANGE")
        self.machine = size

    def items(self, rest):
        """Reads what follows `schedule`."""
        need(rest, "COUNT")
        turns = [turn_of(item) for item in rest]
        need(all(lp < self.machine[0] and 1 <= times <= ITEMS for lp, times in turns), "RANGE")
        need(len(self.schedule) + sum(times for _, times in turns) <= ITEMS, "FULL")
        for lp, times in turns:
            self.schedule += [lp] * times

    def begin_calls(self, rest):
        """Reads what follows `lp`."""
        need(len(rest) == 1, "COUNT")
        (lp,) = numbers(rest)
        need(lp < self.machine[0], "RANGE")
        need(lp not in self.calls, "REPEATED")
        self.calls[lp] = []
        self.block = self.calls[lp], self.call

    def begin_code(self, rest):
        """Reads what follows `code`."""
        need(len(rest) == 2, "COUNT")
        td_page, index = numbers(rest)
        need(td_page < self.machine[1] and index < 8, "RANGE")
        need((td_page, index) not in self.code, "REPEATED")
        self.code[td_page, index] = []
        self.block = self.code[td_page, index], self.operation

    def call(self, calls, line):
        """Reads a call line."""
        call, outputs, seals = call_in(line)
        need(len(calls) < CALLS_OF_A_PROCESSOR, "FULL")
        for slot in outputs:
            need(slot not in self.slots, "SLOT")
            self.slots.add(slot)
        self.seals = self.seals or seals
        calls.append(call)

    def operation(self, code, line):
        """Reads a guest operation."""
        operation = operation_in(line)
        need(len(code) < OPERATIONS_OF_A_LIST, "FULL")
        if operation == ("report",):
            need(code.count(operation) < MOST_OF_A_LIST, "FULL")
            self.reports = True
        code.append(operation)


def call_of(line):
    """The name of a line's call in CALLS."""
    name, *words = line.split()
    return form_of(name, words)


def form_of(name, words):
    """The name in CALLS of a mnemonic's call with these arguments."""
    return WITH_THE_LAST[name] if name in OPTIONAL and len(words) == len(ARGUMENTS[name]) else name


@functools.lru_cache(4)
def read(text):
    """The script that these bytes are, which nobody changes; raises its Fault."""
    if len(text) > SCRIPT_END:
        raise Fault(0, "LENGTH")
    *lines, cut = text.decode("latin-1").split("\n")
    printable = text.count(b"\n", 0, PRINTABLE.match(text).end())  # so many lines are
    script = Script()
    for place, line in enumerate(lines[:printable], 1):
        try:
            words = line.split(None, 1)
            if words and words[0][0] != "#":
                script.line(words[0], line)
        except Bad as bad:
            raise Fault(place, str(bad)) from None
    if printable < len(lines):
        raise Fault(printable + 1, "BYTE")
    after = len(lines) + 1
    if cut:
        raise Fault(after, "UNTERMINATED")
    if script.machine is None:
        raise Fault(after, "MACHINE")
    if script.block is not None:
        raise Fault(after, "ENDLESS")
    return script
