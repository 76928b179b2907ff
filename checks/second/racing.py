"""Small scripts whose processors race with one another. A script is what its seed and its place say.

For threads to meet at times, processors begin with lines that only take time, and guests go through operations
that do: a wait reads a page that nothing else names, and a pass adds to a register that nothing else uses. Neither
changes what others do or see, so every output of the script is one of its core, which has none of them.
"""

import functools
import random
import re
import struct

import features
from machine import Outside
from program import replay
from scripts import read

BUILD = (
    "MNG.CREATE 1 1", "MNG.KEY.CONFIG 1", "MNG.ADDCX 1 2", "MNG.ADDCX 1 3", "MNG.INIT 1", "VP.CREATE 1 4",
    "VP.INIT 1 4 0", "MEM.SEPT.ADD 1 0 3 5", "MEM.SEPT.ADD 1 0 2 6", "MEM.SEPT.ADD 1 0 1 7", "MEM.PAGE.ADD 1 0 8 0",
)
SECOND_VCPU = ("VP.CREATE 1 9", "VP.INIT 1 9 0")
SHARED = (1 << 47) + 20 * 4096
ENTERS, SECOND_ENTERS = "VP.ENTER 1 4 65535", "VP.ENTER 1 9 65535"
KEYS, REPORT_KEY = bytes(range(64)), bytes(range(48))
WAITING_PAGE = 24  # of processor 0; each processor has one of its own
PASS = "add 6 7"


def word(chance):
    """The address of a word, private or shared."""
    return chance.choice((0, SHARED))


def takes(chance):
    """Processors take pages and HKIDs, and look at them."""
    makes = (
        lambda: f"MNG.CREATE {chance.choice((1, 1, 2))} {chance.choice((1, 1, 2))}",
        lambda: f"MNG.KEY.CONFIG {chance.choice((1, 1, 2))}",
        lambda: f"MNG.ADDCX {chance.choice((1, 2))} {chance.choice((2, 3))}",
        lambda: f"HOST.READ {chance.choice((1, 2, 3))} 0",
        lambda: f"HOST.WRITE {chance.choice((1, 2, 3))} 0 {chance.randrange(1, 9)}",
        lambda: f"PHYMEM.PAGE.RDMD {chance.choice((1, 2, 3))}",
        lambda: "PHYMEM.CACHE.WB",
        lambda: f"MNG.RD {chance.choice((1, 2))} LIFE",
    )
    calls = chance.choice(((4, 4), (5, 3), (2, 2, 2)))
    return {}, [[chance.choice(makes)() for _ in range(count)] for count in calls]


def uses_host_pages(chance):
    """Processors write and read words of host pages."""
    pages = chance.choice(((1,), (1, 2)))
    calls = chance.choice(((4, 4), (6, 3), (3, 2, 2)))

    def call(lp):
        page = chance.choice(pages)
        return chance.choice((f"HOST.READ {page} 0", f"HOST.WRITE {page} 0 {lp + 1}"))

    return {}, [[call(lp) for _ in range(count)] for lp, count in enumerate(calls)]


def two_guests(first, second):
    """A guest of processor 0, which builds the TD, and one of processor 1, with these operations."""
    return {0: first, 1: second}, [[*BUILD, *SECOND_VCPU, "MR.FINALIZE 1", ENTERS], [SECOND_ENTERS]]


def stores_before_loads(chance):
    """Each guest stores one word, and then loads the other's."""
    at = word(chance)
    code = ["set 1 1", f"store 1 {at}", f"load 2 {at + 8}"], ["set 1 1", f"store 1 {at + 8}", f"load 2 {at}"]
    return two_guests(*code)


def passes_a_message(chance):
    """One guest stores a word and then a flag, and the other loads the flag and then the word."""
    at = word(chance)
    code = [["set 1 1", f"store 1 {at}", f"store 1 {at + 8}"], [f"load 2 {at + 8}", f"load 2 {at}"]]
    chance.shuffle(code)
    return two_guests(*code)


def shares_a_word(chance):
    """Guests load and store one word, with secrets."""
    at = word(chance)
    code = [[f"secret 1 {index}", *(chance.choice((f"load 2 {at}", f"store 1 {at}")) for _ in range(2))] for index in (0, 1)]
    return two_guests(*code)


def extends_and_accepts(chance):
    """Guests extend one RTMR, make reports of it, or accept one page."""
    code = [chance.choice((["rtmr 0"], ["report"], ["accept 4096"], ["accept 4096", "rtmr 0"])) for _ in (0, 1)]
    lists, (first, second) = two_guests(*code)
    return lists, [[*first[:-1], "MEM.PAGE.AUG 1 4096 10", ENTERS, ENTERS], second]


def takes_memory_away(chance):
    """A page is blocked, tracked and removed or moved beside its guest."""
    leaves = chance.choice(("MEM.PAGE.REMOVE 1 0", "MEM.PAGE.RELOCATE 1 0 9"))
    host = ["MEM.RANGE.BLOCK 1 0 0", "MEM.TRACK 1", leaves, "HOST.READ 8 0"]
    blocks = [["HOST.WRITE 0 0 5", *BUILD, "MR.FINALIZE 1", *host[: chance.randint(2, 4)]], [ENTERS]]
    return {0: ["load 1 0", "load 1 0"]}, blocks


def talks_with_the_host(chance):
    """A guest and the host use one shared word."""
    code = [chance.choice((f"load 2 {SHARED}", f"store 1 {SHARED}")) for _ in range(chance.randint(1, 3))]
    host = [chance.choice(("HOST.READ 20 0", "HOST.WRITE 20 0 7")) for _ in range(chance.randint(1, 3))]
    return {0: ["secret 1 0", *code]}, [[*BUILD, "MR.FINALIZE 1", ENTERS], host]


def exports(chance):
    """Processors make tokens of one TD and export its states, pause it, and abort the export."""
    slots = iter(range(1, 9))
    makes = (
        lambda: f"EXPORT.TRACK 1 {next(slots)} {chance.choice((0, 0, 1))}",
        lambda: f"EXPORT.STATE.TD 1 {next(slots)}",
        lambda: f"EXPORT.STATE.VP 1 4 {next(slots)}",
        lambda: chance.choice(("EXPORT.PAUSE 1", "EXPORT.ABORT 1", "MNG.RD 1 OP")),
    )
    first, second = ([chance.choice(makes)() for _ in range(count)] for count in (2, 1))
    begin = ["MIG.STREAM.CREATE 1 9", "MR.FINALIZE 1", "EXPORT.STATE.IMMUTABLE 1 0"]
    return {}, [[*BUILD[:7], *begin, *["EXPORT.PAUSE 1"] * chance.choice((0, 1)), *first], second]


def exports_memory(chance):
    """A page is blocked for writing, tracked and exported beside its guest; or, once the TD is paused, beside a processor
    that exports another page, on the same stream or on another one."""
    finalized = ["MIG.STREAM.CREATE 1 10", "MR.FINALIZE 1", "EXPORT.STATE.IMMUTABLE 1 0"]
    if chance.random() < 0.5:
        host = ["EXPORT.BLOCKW 1 0", "MEM.TRACK 1", "EXPORT.MEM 1 0 0 1"]
        return {0: ["store 1 0"] * 2}, [[*BUILD, *finalized, *host], [ENTERS]]
    pages = ["MEM.PAGE.ADD 1 4096 9 0", "MIG.STREAM.CREATE 1 11", *finalized, "EXPORT.PAUSE 1", "EXPORT.MEM 1 0 0 1"]
    return {0: []}, [[*BUILD, *pages], [f"EXPORT.MEM 1 4096 {chance.randrange(2)} 2"]]


def imports(chance):
    """A page comes in on one processor, and on another one the same page, another one or the TD state, or the import is
    given up; it may be replaced meanwhile."""
    begin = [*BUILD[:4], "MIG.STREAM.CREATE 1 11", "MIG.STREAM.CREATE 1 12", "IMPORT.STATE.IMMUTABLE 1 0", *BUILD[7:10]]
    first = ["IMPORT.MEM 1 1 8", *["IMPORT.TRACK 1 3", "IMPORT.MEM 1 4 9"] * chance.choice((0, 1))]
    others = ("IMPORT.MEM 1 1 9", "IMPORT.MEM 1 2 8", "IMPORT.MEM 1 2 9", "IMPORT.STATE.TD 1 5", "IMPORT.ABORT 1 9",
              "MEM.SEPT.RD 1 0 0")
    return {}, [[*begin, *first], [chance.choice(others), *["HOST.READ 8 0"] * chance.choice((0, 1))]]


@functools.lru_cache(1)
def sent():
    """What comes in then, by slot: of a TD with two pages, of which the first goes out on stream 0, and once more in the
    next epoch, and the second on stream 1."""
    calls = [
        *BUILD, "MEM.PAGE.ADD 1 4096 9 0", "MIG.STREAM.CREATE 1 11", "MIG.STREAM.CREATE 1 12", "MR.FINALIZE 1",
        "EXPORT.STATE.IMMUTABLE 1 0", "EXPORT.BLOCKW 1 0", "MEM.TRACK 1", "EXPORT.MEM 1 0 0 1", "EXPORT.UNBLOCKW 1 0",
        "EXPORT.PAUSE 1", "EXPORT.MEM 1 4096 1 2", "EXPORT.TRACK 1 3 0", "EXPORT.MEM 1 0 0 4", "EXPORT.STATE.TD 1 5",
    ]
    (processor,) = replay(read(text_of({}, [calls])), Outside(keys=KEYS))
    return processor.machine.outside.outputs


def exports_a_list(chance):
    """Two pages are blocked for writing, tracked and exported as a list beside their guest, which stores to them in any order."""
    pages = ["MEM.PAGE.ADD 1 4096 9 0", "MIG.STREAM.CREATE 1 10", "MR.FINALIZE 1", "EXPORT.STATE.IMMUTABLE 1 0"]
    host = ["EXPORT.BLOCKW 1 0", "EXPORT.BLOCKW 1 4096", "MEM.TRACK 1", "EXPORT.MEM 1 0 0 1 2"]
    stores = ["store 1 0", "store 1 4096"]
    chance.shuffle(stores)
    return {0: ["secret 1 0", *stores]}, [[*BUILD, *pages, *host], [ENTERS]]


def imports_a_list(chance):
    """A list of two pages comes in on one processor, and on another one a third page, into one of the same pages or another one, or a
    look is taken at an entry or a page."""
    begin = [*BUILD[:4], "MIG.STREAM.CREATE 1 11", "MIG.STREAM.CREATE 1 12", "IMPORT.STATE.IMMUTABLE 1 0", *BUILD[7:10]]
    others = ("IMPORT.MEM 1 2 9", "IMPORT.MEM 1 2 10", "IMPORT.MEM 1 1 9 2", "MEM.SEPT.RD 1 4096 0", "HOST.READ 9 0", "PHYMEM.PAGE.RDMD 9")
    return {}, [[*begin, "IMPORT.MEM 1 1 8 2"], [chance.choice(others), *["HOST.READ 8 0"] * chance.choice((0, 1))]]


@functools.lru_cache(1)
def sent_by_lists():
    """What comes in then: a list on stream 0, and a page on stream 1."""
    calls = [
        *BUILD, "MEM.PAGE.ADD 1 4096 9 0", "MEM.PAGE.ADD 1 8192 10 0", "MIG.STREAM.CREATE 1 11", "MIG.STREAM.CREATE 1 12",
        "MR.FINALIZE 1", "EXPORT.STATE.IMMUTABLE 1 0", "EXPORT.PAUSE 1", "EXPORT.MEM 1 0 0 1 2", "EXPORT.MEM 1 8192 1 2",
    ]
    (processor,) = replay(read(text_of({}, [calls])), Outside(keys=KEYS))
    return processor.machine.outside.outputs


def a_page_comes_late(chance):
    """A page comes in behind the commit while a guest walks to it."""
    begin = [*BUILD[:4], "MIG.STREAM.CREATE 1 11", "IMPORT.STATE.IMMUTABLE 1 0", "VP.CREATE 1 4", *BUILD[7:10]]
    begin += ["IMPORT.STATE.TD 1 1", "IMPORT.STATE.VP 1 4 2", "IMPORT.TRACK 1 3", "IMPORT.COMMIT 1"]
    code = chance.choice((["load 1 0"], ["store 1 0", "load 1 0"], ["load 1 0", "store 1 0"]))
    return {0: code}, [[*begin, "IMPORT.MEM 1 4 8"], [ENTERS]]


@functools.lru_cache(1)
def sent_late():
    """What comes in then: the states, the start token, and a page behind it, whose first word is 5."""
    calls = [
        "HOST.WRITE 0 0 5", *BUILD, "MIG.STREAM.CREATE 1 11", "MR.FINALIZE 1", "EXPORT.STATE.IMMUTABLE 1 0", "EXPORT.PAUSE 1",
        "EXPORT.STATE.TD 1 1", "EXPORT.STATE.VP 1 4 2", "EXPORT.TRACK 1 3 1", "EXPORT.MEM 1 0 0 4",
    ]
    (processor,) = replay(read(text_of({}, [calls])), Outside(keys=KEYS))
    return processor.machine.outside.outputs


KINDS = (
    takes, stores_before_loads, uses_host_pages, passes_a_message, takes_memory_away, shares_a_word, extends_and_accepts,
    talks_with_the_host, exports, exports_memory, imports,
    *(exports_a_list, imports_a_list) * features.has(features.LISTS), *(a_page_comes_late,) * features.has(features.LATE_PAGES),
)
SENT = {imports: sent, imports_a_list: sent_by_lists, a_page_comes_late: sent_late}


def text_of(lists, blocks):
    """The bytes of a script with these lists of VCPUs of TD 1, and these calls of each processor."""
    lines = [f"machine {len(blocks)} 32 2"]
    for index, operations in lists.items():
        lines += [f"code 1 {index}", *operations, "end"]
    for lp, calls in enumerate(blocks):
        lines += [f"lp {lp}", *calls, "end"]
    return "".join(f"{line}\n" for line in lines).encode()


class Race:
    """The race at that place: its core, the secrets, and what comes in."""

    def __init__(self, seed, place):
        self.chance, self.kind = random.Random(f"race {seed} {place}"), KINDS[place % len(KINDS)]
        self.lists, self.blocks = self.kind(self.chance)
        self.core = text_of(self.lists, self.blocks)
        self.secrets = struct.pack("<512Q", *(self.chance.randrange(1, 100) for _ in range(512)))
        self.inputs = SENT.get(self.kind, dict)()

    def script(self, longest=3000):
        """A script of the race, and how many waits each processor has in it, at most so many. A build takes long, so
        the others wait longer then."""
        choices = [(0, 30, 100, 300, 1000, 3000) if self.lists and lp else (0, 0, 3, 10, 30) for lp in range(len(self.blocks))]
        waits = [min(longest, self.chance.choice(its)) for its in choices]
        passes = [min(longest, self.chance.choice((0, 0, 60, 200))) for _ in self.lists]
        lists = {index: [PASS] * count + code for count, (index, code) in zip(passes, self.lists.items())}
        blocks = [[f"HOST.READ {WAITING_PAGE + lp} 0"] * waits[lp] + calls for lp, calls in enumerate(self.blocks)]
        return text_of(lists, blocks), waits


def shown(parts, waits):
    """An output without the lines of so many waits of each processor: what is printed, the guest file, the container."""
    return (*(without_waits(part, waits) for part in parts[:2]), *parts[2:])


def without_waits(text, waits):
    """The lines of an output or a guest file without those of so many waits of each processor."""
    kept = []
    for line in text.splitlines(keepends=True):
        found = re.match(r"(\d)\.(\d+) ", line)
        if found is None:
            return text
        lp, number = int(found[1]), int(found[2]) - waits[int(found[1])]
        if number > 0:
            kept.append(f"{lp}.{number} {line[found.end() :]}")
        elif line[found.end() :] != "SUCCESS 0\n":
            return text
    return "".join(kept)
