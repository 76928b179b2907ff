"""Random machines, scripts and schedules. A case is what its seed and its place say, and nothing else.

A *story* tells lives of TDs, with other calls between them. A *race* has a TD somewhere in its life, and processors
that call for the same pages and locks at once. A *crowd* has a TD that runs, processors that enter its VCPUs, and
others that give it pages, block, track, move and remove them meanwhile. A *meeting* changes a map under a guest that is
just on its way, exports its page, or lets guests in at once, as it comes rarely in a crowd. A *noise* has calls
without any order. A *session* exports a TD as far as calls go, and tries all calls in one of its states; others
enter its VCPUs meanwhile. An *arrival* takes in what a source of its own has sent, with bundles that somebody has
turned among them; it tries all calls in one of its states, or its guests run in the end, or its token goes back to the
source. Faulty scripts are one of these with bad lines put in. Last there are scripts at a limit
of the grammar, and command lines that name no script. What comes rarely by chance, as a race for one call, comes in
turn. Most scripts come with a container, a secrets file, a key file and a report key file, a few of these with a bad one.

A call that makes a bundle has the word SLOT in the place of its slot until its script is whole (`with_slots`).
"""

import random
import struct

import bundles
import command_lines
import features
import hostile
from bundles import ABORT_TOKEN, EPOCH_TOKEN, IMMUTABLE, MEMORY, START_TOKEN, TD_STATE, VCPU_STATE, Header
from machine import Outside, run
from program import SIDES, processors_of
from reports import KEY_BYTES, MOST_OF_A_LIST, report_of
from migration_rows import LISTS
from rows import FIELDS, GPA_END, PAGE_BYTES, alignment
from scripts import (
    BY_TOKEN, CALLS, CALLS_OF_A_PROCESSOR, ITEMS, OPERATIONS_OF_A_LIST, SCRIPT_END, SLOTS, WITH_THE_LAST, call_of, number, read,
)

SIZES = (8, 12, 16, 24, 40, 40, 1024)
ROOMY = (24, 40, 1024)
LARGE = (40, 1024)
HAS_LISTS, HAS_LATE_PAGES = features.has(features.LISTS), features.has(features.LATE_PAGES)
LEVEL_BYTES = [PAGE_BYTES << 9 * level for level in range(4)]

# Calls that lead a TD on so far that little can be done with it then.
LEADING = ("MR.FINALIZE", "MNG.VPFLUSHDONE")

# Calls that lead out of the first two states of an export, and out of the states of an import.
LEAVING = ("EXPORT.PAUSE", "EXPORT.ABORT")
GIVES_UP = ("IMPORT.ABORT",)

# Calls whose last conditions are met only where a TD's tree stands.
DEEP = (
    "MR.EXTEND", "MEM.SEPT.ADD", "MEM.SEPT.RD", "MEM.PAGE.ADD", "MEM.PAGE.AUG", "VP.ENTER", "VP.FLUSH",
    "MEM.SEPT.REMOVE", "MEM.PAGE.REMOVE", "MEM.PAGE.RELOCATE", "MEM.RANGE.BLOCK", "MEM.RANGE.UNBLOCK", "EXPORT.RESTORE",
    "EXPORT.BLOCKW", "EXPORT.UNBLOCKW", "EXPORT.MEM", *(WITH_THE_LAST[name] for name in LISTS),
)

# All calls, each as often as it is to come.
NAMES = [name for name in CALLS for _ in range(1 if name in LEADING else 10 if name in DEEP else 3)]

# Calls on a VCPU of a TD, which is their second argument.
OF_A_VCPU = ("VP.INIT", "VP.ENTER", "VP.FLUSH", "EXPORT.STATE.VP", "IMPORT.STATE.VP")

# Calls that make a bundle.
MAKE_BUNDLES = {name for name, kinds in CALLS.items() if "output" in kinds}

# The types of the bundle that a call takes, which is its input.
TAKES = {
    BY_TOKEN: (ABORT_TOKEN,), "IMPORT.STATE.IMMUTABLE": (IMMUTABLE,), "IMPORT.MEM": (MEMORY,),
    "IMPORT.TRACK": (EPOCH_TOKEN, START_TOKEN), "IMPORT.STATE.TD": (TD_STATE,), "IMPORT.STATE.VP": (VCPU_STATE,),
} | {WITH_THE_LAST[name]: (MEMORY,) for name in LISTS if name == "IMPORT.MEM"}
TOKENS = (EPOCH_TOKEN, START_TOKEN)

# Calls that are refused twice in a row; what went before them makes them succeed again.
IN_ROUNDS = ("MEM.SEPT.REMOVE", "MEM.PAGE.REMOVE", "MEM.RANGE.UNBLOCK")

# How a number may stand in a line: decimal, hexadecimal, or with leading zeros.
WRITTEN = ("{}", "{}", "{}", "{:#x}", "0x{:X}", "00{}")

# How many VCPUs and private pages a TD may have: one in passing, and one whose VCPUs run beside one another.
# Each processor caches 16 translations.
FEW, CROWDED = ((0, 1, 2, 8), (1, 2, 2, *(3, 5, 17) * HAS_LISTS)), ((2, 2, 3, 8), (2, 2, 18))
THREE, EIGHT = ((3,), (2,)), ((8,), (2,))


class Chance(random.Random):
    """Random draws, the same as those of random.Random, in fewer steps."""

    def choice(self, some):
        """One of some: that at a place below their count, which is drawn here and not by `below` since there are many."""
        count = len(some)
        bits = count.bit_length()
        place = self.getrandbits(bits)
        while place >= count > 0:
            place = self.getrandbits(bits)
        return some[place]

    def below(self, end):
        """A number below that end."""
        bits = end.bit_length()
        drawn = self.getrandbits(bits)
        while drawn >= end > 0:
            drawn = self.getrandbits(bits)
        return drawn

    def randrange(self, first, end=None):
        """A number of range(first, end), or of range(first)."""
        return self.below(first) if end is None else first + self.below(end - first)

    def randint(self, first, last):
        """A number from the first to the last."""
        return first + self.below(last + 1 - first)

    def shuffle(self, some):
        """Brings some into any order."""
        for place in range(len(some) - 1, 0, -1):
            other = self.below(place + 1)
            some[place], some[other] = some[other], some[place]


class Life:
    """The pages and addresses of a TD, and the calls from its first page to the return of its last."""

    def __init__(self, chance, pages, hkid, sizes=FEW, like=None):
        """Takes its pages from the end of that list. It may be like another life, on another module."""
        run = a_run(chance, pages, len(like.gpas)) if HAS_LISTS and like is not None else []
        self.hkid, self.td = hkid, pages.pop()
        self.control = [pages.pop(), pages.pop()]
        self.vcpus = [pages.pop() for _ in range(min(chance.choice(sizes[0]), len(pages) // 2))]
        self.tables = [pages.pop() for _ in range(min(3, len(pages) // 2))]
        count = chance.choice(sizes[1])
        if count in sizes[1][3:] and sizes is FEW:  # pages of a list, which leave enough for all else
            count = max(2, min(count, len(pages) - 16))
        self.private = [pages.pop() for _ in range(min(count, max(0, len(pages) - 4)))]
        self.waiting = [pages.pop() for _ in range(min(chance.choice((1, 1, 2)), max(0, len(pages) - 1)))]
        self.spare = [pages.pop() for _ in range(len(pages) > 1)]  # of a table that comes and goes
        self.streams = [pages.pop() for _ in range(min(chance.choice((0, 1, 1, 4)), max(0, len(pages) - 8)))]
        self.frames = [pages.pop() for _ in range(len(pages) > 4)]  # to which its private pages are moved
        self.gpa = chance.choice((0, 511, 513, 1 << 18, 3 << 33, *(509, 511) * HAS_LISTS)) * PAGE_BYTES
        if like is not None:
            self.become(pages, like, run)
        if len(self.tables) < 3:
            self.private = self.waiting = []
        self.first_waiting = max(0, len(self.private) - (chance.choice((0, 0, 1)) if self.waiting else 0))
        count = max(len(self.private), self.first_waiting + len(self.waiting))
        self.gpas = [self.gpa + place * PAGE_BYTES for place in range(count)]  # of its private pages

    def become(self, pages, like, run):
        """It has as many VCPUs, private pages and streams as that life, at the same addresses; its private pages are those of the
        run, where there is one."""
        pages += self.vcpus + self.private + self.waiting + self.streams
        self.waiting, self.gpa = [], like.gpa
        for name, others in (("vcpus", like.vcpus), ("private", like.gpas), ("streams", like.streams)):
            setattr(self, name, run if run and name == "private" else [pages.pop() for _ in others])

    def owned(self):
        """The pages of the TD, without its TDR."""
        return self.control + self.vcpus + self.tables + self.private + self.waiting + self.spare + self.streams + self.frames

    def page_at(self, gpa):
        """The page that its life puts at that address."""
        place = (gpa - self.gpa) // PAGE_BYTES
        return [*self.private[: self.first_waiting], *self.waiting, *self.private][place]

    def pages_of(self, call):
        """The pages beside its TDR whose locks that call of its life tries."""
        name, *words = call.split()
        if name == "MEM.PAGE.RELOCATE":
            page = int(words[2], 0)
            return [its for its in (self.page_at(int(words[1], 0)), *self.frames) if its != page] + [page]
        pages = [int(word) for kind, word in zip(CALLS[call_of(call)], words) if kind == "page"][1:]
        count = count_of(call) or 1
        if pages or CALLS[name][1:2] != ("gpa",):
            return [page + place for page in pages for place in range(count)]
        gpa, level = int(words[1], 0), int(words[2]) if "level" in CALLS[name][-1] else 0
        if level == 0:
            streams = self.streams[int(words[2]) :][:1] if "stream" in CALLS[name] else []
            gpas = [gpa - gpa % PAGE_BYTES + place * PAGE_BYTES for place in range(count)]
            return [*(self.page_at(its) for its in gpas if its == gpas[0] or its in self.gpas), *streams]
        return self.spare if gpa > self.gpa else [self.tables[3 - level]]

    def build(self, chance, source):
        """The calls that build the TD, with private pages from that source page, and give it further ones."""
        calls = [f"MNG.CREATE {self.td} {self.hkid}", f"MNG.KEY.CONFIG {self.td}"]
        calls += [f"MNG.ADDCX {self.td} {page}" for page in self.control]
        calls.append(f"MNG.INIT {self.td}")
        inner = [f"VP.CREATE {self.td} {page}" for page in self.vcpus + self.vcpus[7:]]
        inner += [f"VP.INIT {self.td} {page} {chance.randrange(100)}" for page in self.vcpus]
        inner += [f"MIG.STREAM.CREATE {self.td} {page}" for page in self.streams + self.streams[3:]]
        tree = [f"MEM.SEPT.ADD {self.td} {self.gpa - self.gpa % LEVEL_BYTES[level]} {level} {page}"
                for level, page in zip((3, 2, 1), self.tables)] + self.beyond_the_border(chance)
        for place, page in enumerate(self.private):
            gpa = self.gpa + place * PAGE_BYTES
            tree += [f"HOST.WRITE {source} {a_word(chance)} {chance.getrandbits(64)}"]
            tree += [f"MEM.PAGE.ADD {self.td} {gpa:#x} {page} {source}"]
            chunks = [gpa + 256 * chance.choice((0, 0, 1, 15)) for _ in range(chance.randrange(3))]
            tree += [f"MR.EXTEND {self.td} {chunk}" for chunk in chunks]
        more = [f"MEM.PAGE.AUG {self.td} {self.gpa + place * PAGE_BYTES} {page}"
                for place, page in enumerate(self.waiting, self.first_waiting)]
        return calls + riffle(chance, inner, tree) + [f"MR.FINALIZE {self.td}", *more]

    def beyond_the_border(self, chance):
        """The secure EPT page of its private pages behind the border of the first one, in most cases, where there are some."""
        border = self.gpa - self.gpa % LEVEL_BYTES[1] + LEVEL_BYTES[1]
        if not (HAS_LISTS and border in self.gpas and self.spare) or chance.random() < 0.2:
            return []
        return [f"MEM.SEPT.ADD {self.td} {border} 1 {self.spare[0]}"]

    def entries(self, chance):
        """Entries of its VCPUs, with few operations or with many."""
        vcpus = [chance.choice(self.vcpus) for _ in range(chance.randint(1, 3)) if self.vcpus]
        return [f"VP.ENTER {self.td} {page} {chance.choice((1, 1, 2, 5, 300, 65_535))}" for page in vcpus]

    def tracking(self, chance):
        """A TD's epoch that advances, or doesn't."""
        return [f"MEM.TRACK {self.td}"] * chance.choice((0, 1, 1, 1, 2))

    def tracked(self, gpa):
        """A block of a private page that is tracked."""
        return [f"MEM.RANGE.BLOCK {self.td} {gpa} 0", f"MEM.TRACK {self.td}"]

    def move(self, gpa, goes_back=False):
        """A private page that is moved to another frame, or back to its own."""
        return f"MEM.PAGE.RELOCATE {self.td} {gpa} {self.page_at(gpa) if goes_back else self.frames[0]}"

    def move_round(self, chance, gpa):
        """A private page that is blocked and moved, in most cases there and back."""
        blocks = f"MEM.RANGE.BLOCK {self.td} {gpa} 0"
        there = [blocks, *self.tracking(chance), self.move(gpa), *self.entries(chance)[: chance.randrange(2)]]
        return there + [blocks, *self.tracking(chance), self.move(gpa, True)] * chance.choice((0, 1, 1))

    def page_round(self, chance):
        """A private page that is blocked, and unblocked, removed or moved."""
        if not self.gpas:
            return []
        gpa = chance.choice(self.gpas)
        if self.frames and chance.random() < 0.25:
            return self.move_round(chance, gpa)
        kept, gone = f"MEM.RANGE.UNBLOCK {self.td} {gpa} 0", f"MEM.PAGE.REMOVE {self.td} {gpa}"
        later = chance.choice(([kept], [kept], [gone], [gone, f"MEM.PAGE.AUG {self.td} {gpa} {self.page_at(gpa)}"]))
        return [f"MEM.RANGE.BLOCK {self.td} {gpa} 0", *self.tracking(chance), *later]

    def table_round(self, chance):
        """A page of its secure EPT that is blocked, and unblocked or removed, often one that was added
        for that."""
        level = chance.choice((1, 1, 2, 3))
        gpa, added = self.gpa, []
        if self.spare and chance.random() < 0.6:
            level, gpa = 1, self.gpa + LEVEL_BYTES[1]
            added = [f"MEM.SEPT.ADD {self.td} {gpa - gpa % LEVEL_BYTES[1]} 1 {self.spare[0]}"]
        gpa -= gpa % LEVEL_BYTES[level]
        later = chance.choice(("UNBLOCK", "REMOVE", "REMOVE")) if added else chance.choice(("UNBLOCK",) * 4 + ("REMOVE",))
        calls = [f"MEM.RANGE.BLOCK {self.td} {gpa} {level}", *self.tracking(chance)]
        name = "MEM.RANGE.UNBLOCK" if later == "UNBLOCK" else "MEM.SEPT.REMOVE"
        again = [f"MEM.RANGE.UNBLOCK {self.td} {gpa} {level}"] * (not added)
        return [*added, *calls, f"{name} {self.td} {gpa} {level}", *again]

    def live(self, chance):
        """What is done while an export begins: writes are blocked and allowed, pages are exported, and epochs begin."""
        gpas = self.gpas or [self.gpa]
        calls = [f"EXPORT.BLOCKW {self.td} {chance.choice(gpas)}"] * chance.choice((0, 1))
        for _ in range(chance.choice((1, 3, 5))):
            gpa = chance.choice(gpas)
            blocks, again = (f"EXPORT.{name} {self.td} {gpa}" for name in ("BLOCKW", "UNBLOCKW"))
            exports = [blocks, *self.tracking(chance), self.memory(chance, gpa)]
            if HAS_LISTS and chance.random() < 0.5:
                grows = [*exports, again, self.token(0)] * chance.choice((0, 1))  # a page of the list goes out by itself before
                exports = grows + self.list_exported(chance, gpa)
            rounds = ([blocks], [blocks, again], self.tracking(chance), self.entries(chance), [self.token(0)],
                      exports, [*exports, again], [*exports, again, blocks], [*exports, again, self.token(0), *exports])
            calls += chance.choice(rounds)
        return calls

    def memory(self, chance, gpa):
        """The export of a private page, on a stream that it has in most cases."""
        few = len(self.streams) if self.streams and chance.random() < 0.9 else 4
        return f"EXPORT.MEM {self.td} {gpa} {chance.randrange(few)} SLOT"

    def list_exported(self, chance, gpa):
        """The export of a list of its pages from that one on, or of one beyond them. They are blocked, nearly all of them and in
        any order, and behind one of these blocks or two there is a new epoch."""
        count = chance.choice((1, 2, 3, 16, chance.randint(1, 16)))
        blocked = [its for its in self.gpas if 0 <= its - gpa < count * PAGE_BYTES and chance.random() < 0.97] or [gpa]
        chance.shuffle(blocked)
        calls = [f"EXPORT.BLOCKW {self.td} {its}" for its in blocked]
        for _ in range(chance.choice((0, 1, 1, 2))):
            place = len(calls) if chance.random() < 0.8 else chance.randint(1, len(calls))
            calls.insert(place, f"MEM.TRACK {self.td}")
        if chance.random() < 0.9:
            count = max(1, min(count, (self.gpas or [gpa])[-1] // PAGE_BYTES - gpa // PAGE_BYTES + 1))
        return [*calls, f"{self.memory(chance, gpa)} {count}"]

    def rest(self, chance):
        """The export of each private page, in an epoch in which none was exported, or not."""
        tokens = [self.token(0)] * chance.choice((0, 1, 1))
        if not HAS_LISTS or chance.random() < 0.3:
            return tokens + [self.memory(chance, gpa) for gpa in self.gpas]
        left, calls = self.gpas[:], []
        while left:
            count = min(len(left), chance.choice((1, 1, 2, 3, 16, 16, chance.randint(1, 16))))
            is_list = count > 1 or chance.random() < 0.5
            calls.append(self.memory(chance, left[0]) + f" {count if chance.random() < 0.95 else count % 16 + 1}" * is_list)
            left = left[count:]
        return tokens + calls

    def token(self, starts):
        """An epoch token, or the start token."""
        return f"EXPORT.TRACK {self.td} SLOT {starts}"

    def states(self, chance, starts):
        """The states of a TD that is paused, in any order, some of them twice, or not at all where no start token
        follows."""
        states = [f"EXPORT.STATE.TD {self.td} SLOT", *(f"EXPORT.STATE.VP {self.td} {page} SLOT" for page in self.vcpus)]
        chance.shuffle(states)
        if chance.random() < 0.6:  # no destination ends another order
            states.sort(key=lambda call: call.startswith("EXPORT.STATE.VP"))
        kept = states[chance.choice((0, 1)) * (not starts) :]
        return kept + kept[:1] * chance.choice((0, 0, 1)) + [self.token(0)] * chance.choice((0, 0, 1))

    def export(self, chance, starts):
        """The calls of an export from its first bundle on, in three parts: while it is live, from its pause on, and its
        end: the start token, before which pages may be left dirty for once, or an abort with what it leaves to be done,
        and perhaps a further export."""
        begins = f"EXPORT.STATE.IMMUTABLE {self.td} SLOT"
        live = [begins, *self.live(chance)]
        paused = [f"EXPORT.PAUSE {self.td}", *riffle(chance, self.rest(chance), self.states(chance, starts))]
        if starts:
            late = chance.random() < 0.3
            paused = [call for call in paused if not late or not call.startswith("EXPORT.MEM")]
            end = [self.token(1), self.token(0), *self.rest(chance)] * late + [self.token(1)]
            if HAS_LATE_PAGES and chance.random() < 0.6:
                paused, behind = self.held_back(chance, live, paused)
                return live, paused, end + behind
            return live, paused, end
        names = [("MEM.RANGE.BLOCK", " 0"), ("MEM.RANGE.UNBLOCK", " 0"), ("MEM.PAGE.REMOVE", "")]
        names += [("MEM.PAGE.RELOCATE", f" {page}") for page in self.frames]
        left = [f"{name} {self.td} {gpa}{level}" for gpa in self.gpas or [self.gpa] for name, level in names]
        restores = [f"EXPORT.RESTORE {self.td} {gpa}" for gpa in self.gpas]
        again = [call for part in self.export(chance, chance.random() < 0.5) for call in part]
        others = left * chance.choice((0, 1, 1)) + [begins] * chance.choice((0, 0, 1)) + restores + again * chance.choice((0, 1))
        return live, paused, [self.token(1)] * chance.choice((0, 1)) + [f"EXPORT.ABORT {self.td}", *others]

    def held_back(self, chance, live, paused):
        """The calls from the pause on without the exports of some pages that nothing has blocked or exported before, and those that
        come behind the start token: these, and a few others."""
        touched = {gpa for call in live if call.startswith("EXPORT.") for gpa in addresses_of(call)}
        back = [call.startswith("EXPORT.MEM") and not touched & set(addresses_of(call)) and chance.random() < 0.7 for call in paused]
        behind = [call for call, its in zip(paused, back) if its]
        others = [self.memory(chance, gpa) for gpa in self.gpas if chance.random() < 0.2]
        return [call for call, its in zip(paused, back) if not its], riffle(chance, behind, others)

    def export_round(self, chance):
        """An export, perhaps in a wrong order, or not to its end."""
        live, paused, end = self.export(chance, chance.random() < 0.4)
        calls = live + chance.choice(([], paused)) + chance.choice(([f"EXPORT.ABORT {self.td}"], end))
        if chance.random() < 0.1:
            chance.shuffle(calls)
        return calls

    def run(self, chance):
        """Calls on the TD while it runs, of which the last let its VCPUs go."""
        calls = []
        rounds = (self.entries, self.page_round, self.table_round)
        for _ in range(chance.choice((0, 3, 6))):
            calls += chance.choice((*rounds[:2], *rounds))(chance)
        calls += self.export_round(chance) * chance.choice((0, 0, 1, 2))
        return calls + self.flushes() * bool(calls)

    def flushes(self):
        """Its VCPUs are let go."""
        return [f"VP.FLUSH {self.td} {page}" for page in self.vcpus + self.vcpus[:1]]

    def waits(self, chance, streams):
        """The calls that build a TD which waits for a session, with so many streams."""
        calls = [f"MNG.CREATE {self.td} {self.hkid}", f"MNG.KEY.CONFIG {self.td}"]
        calls += [f"MNG.ADDCX {self.td} {page}" for page in self.control]
        return calls + [f"MIG.STREAM.CREATE {self.td} {page}" for page in self.streams[:streams]]

    def frame(self, chance):
        """The calls that give a TD its VCPUs and its tree, once a session has begun, in any order."""
        vcpus = [f"VP.CREATE {self.td} {page}" for page in self.vcpus + self.vcpus[:1]]
        tree = [f"MEM.SEPT.ADD {self.td} {self.gpa - self.gpa % LEVEL_BYTES[level]} {level} {page}"
                for level, page in zip((3, 2, 1), self.tables)]
        return riffle(chance, vcpus, tree[: 3 if chance.random() < 0.9 else chance.randrange(3)] + self.beyond_the_border(chance))

    def takes(self, chance, slot, header):
        """The call that takes the bundle with that header in, in most cases with the page or the VCPU that is meant."""
        if header.type == MEMORY:
            page = self.page_at(header.gpa) if chance.random() < 0.9 else chance.choice(self.private)
            return f"IMPORT.MEM {self.td} {slot} {self.of_a_list(chance, page, header) if HAS_LISTS else page}"
        if header.type == VCPU_STATE:
            page = self.vcpus[header.index] if chance.random() < 0.95 else chance.choice(self.vcpus)
            return f"IMPORT.STATE.VP {self.td} {page} {slot}"
        return f"IMPORT.{({IMMUTABLE: 'STATE.IMMUTABLE', TD_STATE: 'STATE.TD'}.get(header.type, 'TRACK'))} {self.td} {slot}"

    def of_a_list(self, chance, page, header):
        """The last arguments of a call that takes a page or a list in, in most cases as its bundle wants them."""
        if chance.random() < (0.15 if header.version == 2 else 0.06):
            page = max(0, page + chance.choice((-2, -1, -1, 1, 2)))
        draw = chance.random()
        if draw < 0.03:
            return f"{page} {chance.choice((0, 1, header.info + 1, 16, 17))}"
        return f"{page} {header.info}" if (header.version == 2) == (draw < 0.97) else f"{page}"

    def end(self, chance):
        """The calls that end the TD, and look at what its pages have become."""
        pages = self.owned()
        chance.shuffle(pages)
        calls = [f"MNG.RD {self.td} {field}" for field in FIELDS]
        calls += [f"PHYMEM.PAGE.RDMD {chance.choice(pages)}", f"MEM.SEPT.RD {self.td} 0 3"]
        calls += [f"MNG.VPFLUSHDONE {self.td}", "PHYMEM.CACHE.WB", f"MNG.KEY.FREEID {self.td}"]
        calls += [f"PHYMEM.PAGE.RECLAIM {self.td} {page}" for page in pages + [self.td]]
        return calls + [f"HOST.READ {page} {a_word(chance)}" for page in pages]


def addresses_of(call):
    """The GPAs of the pages that a call on a private page or on a list names."""
    words = call.split()
    if CALLS[call_of(call)][1:2] != ("gpa",):
        return []
    return [int(words[2], 0) + place * PAGE_BYTES for place in range(count_of(call) or 1)]


def a_run(chance, pages, count):
    """So many pages of that list that follow one another, which are taken off it; none where there is no such run."""
    firsts = [page for page in sorted(pages) if all(page + place in pages for place in range(count))]
    first = chance.choice(firsts) if firsts else 0
    run = [first + place for place in range(count)] if firsts else []
    for page in run:
        pages.remove(page)
    return run


def with_slots(chance, lines, others=()):
    """The lines with a slot of its own, and none of the others, in the place of each word SLOT."""
    count = sum("SLOT" in line for line in lines)
    named = {*others, *(number(word) for word in slots_of(lines) if word != "SLOT")}
    slots = iter(chance.sample(free_slots(named), count))
    return [line.replace("SLOT", chance.choice(("{}", "{:#x}", "0{}")).format(next(slots))) if "SLOT" in line else line
            for line in lines]


def free_slots(named):
    """The slots but those that are named, in their order."""
    if not named:
        return SLOTS
    slots = list(SLOTS)
    for slot in sorted((slot for slot in named if slot in SLOTS), reverse=True):
        del slots[slot]
    return slots


def a_word(chance):
    """A word of a page, often one that other calls name too."""
    return chance.choice((0, 0, 31, 32, 511, chance.randrange(512)))


def riffle(chance, first, second):
    """Both lists in one, each in its own order."""
    picks = [0] * len(first) + [1] * len(second)
    chance.shuffle(picks)
    sources = (iter(first), iter(second))
    return [next(sources[pick]) for pick in picks]


class Scene:
    """A machine's size, the lives on it, of which there are two at least where that is meant, and pages that
    are left to the host; the keys, and the bundles that come in, by slot. What a source has sent comes to its first
    life."""

    def __init__(self, chance, sizes, life_sizes=FEW, has_two=False, source=None):
        self.chance = chance
        self.source, self.keys = source, chance.randbytes(64) if source is None else source.scene.keys
        self.inputs = {kind + 7 * chance.randrange(3): hostile.in_form(chance, kind) for kind in bundles.PAYLOADS}
        if HAS_LISTS:
            self.inputs[21 + chance.randrange(3)] = hostile.in_form(chance, MEMORY, 2)
        self.inputs |= source.made if source else {}
        self.lps = chance.choice((1, 1, 2, 2, 3, 4, 8))
        self.size = chance.choice(sizes)
        self.hkids = chance.choice((1, 2, 2, 3, 15))
        pages = list(range(self.size))
        chance.shuffle(pages)
        pages = pages[:40]
        if HAS_LISTS and source is not None:  # where runs of pages are
            first = chance.randrange(self.size - len(pages) + 1)
            pages = [first + place for place in range(len(pages))]
            chance.shuffle(pages)
        self.lives = [Life(chance, pages, 1, life_sizes, source and source.life)]
        if has_two:
            self.hkids = max(2, self.hkids)
            self.lives.append(Life(chance, pages, 2, life_sizes))
        while len(pages) > 10 and chance.random() < 0.5:
            self.lives.append(Life(chance, pages, chance.randint(1, self.hkids)))
        self.host = pages or [self.size - 1]
        self.code = code_blocks(chance, self)
        if source is not None and chance.random() < 0.7:
            self.go_on(source)

    def go_on(self, source):
        """The VCPUs of the first life have the lists that they had at the source."""
        td, old = self.lives[0].td, source.life.td
        heads = {f"code {old} {index}": f"code {td} {index}" for index in range(8)}
        lists = [[heads[block[0]], *block[1:]] for block in source.scene.code if block[0] in heads]
        self.code = [block for block in self.code if block[0].split()[1] != f"{td}"] + lists

    def page(self, life, place):
        """A page for the argument at that place of a call on that life."""
        chance, draw = self.chance, self.chance.random()
        if place == 1:
            return life.td if draw < 0.9 else chance.randrange(self.size)
        if draw < 0.35:
            return chance.choice(life.owned())
        if draw < 0.8:
            return chance.choice(self.host)
        return chance.choice([life.td, *chance.choice(self.lives).owned(), chance.randrange(self.size)])

    def gpa(self, life):
        """An address near those that the life maps: below each level of its tree, and beside it."""
        beside = self.chance.choice((0, 0, 0, 3 * PAGE_BYTES, 3 * PAGE_BYTES, *LEVEL_BYTES[1:], *LEVEL_BYTES[1:]))
        return (life.gpa + beside) % GPA_END

    def argument(self, life, name, kind, place):
        """An argument of a call, in its range."""
        chance = self.chance
        if kind == "page":
            if name in OF_A_VCPU and place == 2 and life.vcpus and chance.random() < 0.7:
                return chance.choice(life.vcpus)
            return self.page(life, place)
        if kind == "hkid":
            return chance.choice((life.hkid, chance.randint(1, self.hkids)))
        if kind == "gpa":
            return self.gpa(life)
        if kind == "field":
            return chance.choice(FIELDS)
        if kind == "word":
            return a_word(chance)
        if kind == "most":
            return chance.choice((1, 2, 10, 65_535))
        if kind == "output":
            return "SLOT"
        if kind == "input":
            return self.input(TAKES[name])
        if kind == "stream":
            return chance.choice((0, 0, 1, 2, 3))
        if kind == "count":
            return chance.choice((1, 1, 2, 2, 3, 16, chance.randint(1, 16)))
        ranges = {"level": range(4), "upper level": range(1, 4), "value": range(1 << 16), "start": range(2)}
        return chance.choice(ranges[kind])

    def input(self, types):
        """The slot of a bundle, in most cases of one of these types."""
        slots = [slot for slot, bundle in self.inputs.items() if len(bundle) > 6 and bundle[6] in types]
        draw = self.chance.random()
        if draw < 0.05 or not self.inputs:
            return self.chance.choice((SLOTS.stop, self.chance.choice(SLOTS)))
        return self.chance.choice(slots if slots and draw < 0.9 else list(self.inputs))

    def call(self, name, life, spoiled):
        """A call of that name on that life; where it is spoiled, an argument breaks a rule."""
        kinds = CALLS[name]
        arguments = [self.argument(life, name, kind, place) for place, kind in enumerate(kinds, 1)]
        if "gpa" in kinds and self.chance.random() < 0.95:
            arguments[1] -= arguments[1] % alignment(name, kinds, arguments)
            if name == "MR.EXTEND":
                arguments[1] += 256 * self.chance.randrange(16)
        if HAS_LISTS and name in (WITH_THE_LAST["IMPORT.MEM"], "IMPORT.MEM"):
            self.fit(name, arguments)
        if spoiled and arguments:
            self.spoil(kinds, arguments)
        return " ".join([name.split()[0], *map(self.written, arguments)])

    def fit(self, name, arguments):
        """Lets a call that takes pages in name a bundle of its version and its number of pages, in most cases."""
        headers = {slot: bundles.header_of(its) for slot, its in self.inputs.items() if bundles.form_fault(its) is None}
        version = 1 if name == "IMPORT.MEM" else 2
        slots = [slot for slot, header in headers.items() if header.type == MEMORY and header.version == version]
        if slots and self.chance.random() < 0.8:
            arguments[1] = self.chance.choice(slots)
            if version == 2 and self.chance.random() < 0.95:
                arguments[-1] = headers[arguments[1]].info

    def spoil(self, kinds, arguments):
        """Puts arguments out of their rules: out of range, at an edge, twice the same, or misaligned."""
        chance = self.chance
        edges = {
            "page": (self.size, self.size - 1, arguments[0]),
            "word": (511, 512),
            "hkid": (0, self.hkids, self.hkids + 1),
            "gpa": (GPA_END, GPA_END - PAGE_BYTES, 1, 255, 4095, PAGE_BYTES),
            "level": (3, 4),
            "upper level": (0, 4),
            "most": (0, 65_536),
            "value": ((1 << 64) - 1,),
            "field": FIELDS,
            "start": (1, 2),
            "stream": (3, 4),
            "input": (SLOTS.stop - 1, SLOTS.stop),
            "count": (0, 16, 17),
        }
        places = [place for place, kind in enumerate(kinds) if kind != "output"]
        for place in chance.sample(places, chance.choice((1, 1, 1, min(2, len(places))))):
            far = () if kinds[place] == "field" else ((1 << 64) - 1, 1 << 63)
            arguments[place] = chance.choice((*edges[kinds[place]] * 2, *far))

    def written(self, value):
        """An argument as it stands in a line."""
        if isinstance(value, str):
            return value
        return self.chance.choice(WRITTEN).format(value)

    def any_call(self):
        """A call of any name on any life."""
        return self.call(self.chance.choice(NAMES), self.chance.choice(self.lives), self.chance.random() < 0.2)


def among(chance, scene, calls, share):
    """The calls with others between them: so many for each, on average."""
    mixed = []
    for call in calls:
        while chance.random() < share / (1 + share):
            mixed.append(scene.any_call())
        if chance.random() < 0.98:
            mixed.append(call)
    return mixed


def story(chance, scene, _turn):
    """Each processor's calls: lives from their beginning to their end. Some are led twice, and not finalized
    the first time, so that a hasher is left behind."""
    calls = []
    for life in scene.lives:
        whole = life.build(chance, scene.host[0]) + life.run(chance) + life.end(chance)
        if chance.random() < 0.3:
            whole = [call for call in whole if not call.startswith("MR.FINALIZE")] + whole
        calls = riffle(chance, calls, whole) if chance.random() < 0.5 else calls + whole
    calls = among(chance, scene, calls, chance.choice((1, 4, 8, 12)))
    cuts = sorted(chance.randrange(len(calls) + 1) for _ in range(scene.lps - 1))
    blocks = [calls[start:end] for start, end in zip([0, *cuts], [*cuts, len(calls)])]
    return blocks, bursts(chance, range(scene.lps), chance.choice((0, 0, 200)))


def holder(life, target):
    """A call that holds the lock which is meant alone, and after how many events: K, that of the op
    state, of the tree, of the epoch, or of a page."""
    calls = {
        "K": ("PHYMEM.CACHE.WB", 1),
        "O": (f"MNG.INIT {life.td}", 2),
        "T": (f"MEM.SEPT.RD {life.td} 0 3", 3),
        "E": (f"MEM.TRACK {life.td}", 3),
    }
    return calls.get(target, (f"MNG.CREATE {target} {life.hkid}", 1))


def rival(chance, life, target):
    """A call that tries the lock which is meant."""
    if target == "O" or (target == "E" and chance.random() < 0.5):
        return f"MNG.RD {life.td} {chance.choice(FIELDS)}"
    if isinstance(target, str) or chance.random() < 0.5:
        return holder(life, target)[0]
    return chance.choice((f"HOST.READ {target} 0", f"HOST.WRITE {target} 0 1", f"PHYMEM.PAGE.RDMD {target}"))


def race(chance, scene, turn):
    """Processor 0 leads a TD to the call whose turn it is, and makes it and those after it again and
    again. The others try the locks of that call, most of them one and the same lock."""
    visit, name = visit_of(race, turn)
    return race_for(chance, scene, name, visit)


def race_of_lists(chance, scene, turn):
    """The same of calls with a list alone."""
    visit, name = visit_of(race_of_lists, turn)
    return race_for(chance, scene, name, visit)


def visit_of(make, turn):
    """Which visit that turn of a race is, and for which call; none for another maker of scripts."""
    names = {race: tuple(CALLS), race_of_lists: tuple(WITH_THE_LAST[name] for name in LISTS)}.get(make)
    return (turn // len(names), names[turn % len(names)]) if names else (turn, "")


def race_for(chance, scene, name, visit):
    """The race for that call; visits of one are numbered."""
    life, answered = scene.lives[0], []
    if name.startswith("EXPORT"):
        give_stream(scene, life)
    if name == "MEM.PAGE.RELOCATE" and not life.frames:
        life.frames = [scene.host.pop(0)] * (len(scene.host) > 4)
    for turn in range(20):
        if not answered or (turn < 8 and not is_long(whole[answered[0]])):
            whole = led_to(chance, scene, life, name)
            answered, before = places_of(scene, whole, name)
    answered = answered[:1] if name.startswith("EXPORT.MEM") else [place for place in answered if is_long(whole[place])] or answered
    at = chance.choice(answered or range(len(whole)))
    name = call_of(whole[at])
    pages = life.pages_of(whole[at])
    targets = [*pages, life.td, "E", "T", "O", "K", *pages]
    if name == BY_TOKEN or name.startswith("IMPORT"):
        targets = [*MORE_LOCKS.get(name, ()), *pages, life.td, "O"]
    main = targets[visit % len(targets)]
    first, events = holder(life, main)
    scene.lps = chance.choice((2, 3, 3, 4, 8))
    again = [chance.choice((whole[at], *whole[at : at + 4])) for _ in range(24)]
    if name in IN_ROUNDS:
        again = whole[at - 3 : at + 1] * 6
    if name == "MEM.PAGE.RELOCATE":
        gpa = int(whole[at].split()[2], 0)
        again = [call for goes_back in (True, False) * 4 for call in (*life.tracked(gpa), life.move(gpa, goes_back))]
    if name in ("EXPORT.UNBLOCKW", "EXPORT.RESTORE"):
        blocks = whole[at].replace(name, "EXPORT.BLOCKW")
        again = [blocks, whole[at]] * 12
        if name == "EXPORT.RESTORE":
            again = [f"EXPORT.STATE.IMMUTABLE {life.td} SLOT", blocks, f"EXPORT.ABORT {life.td}", whole[at]] * 6
    if name.startswith("EXPORT.MEM"):
        again = [call for _ in range(5) for call in again_exported(chance, life, whole[at])]
    blocks = [whole[: at + 1] + again]
    for _ in range(scene.lps - 1):
        calls = [chance.choice((whole[at], scene.call(name, life, False))) for _ in range(chance.randrange(4))]
        rivals = [rival(chance, life, chance.choice((main, main, main, *targets))) for _ in range(24)]
        blocks.append([first, *riffle(chance, calls, rivals)])
    meeting = [(0, before[at] if before else exact_events(scene, whole[:at])), (1, events), (0, 12 + (count_of(whole[at]) or 0))]
    return blocks, meeting + bursts(chance, range(scene.lps), 150 * scene.lps)


def count_of(call):
    """The number of pages that a call with a list names, or None."""
    return int(call.split()[-1], 0) if "count" in CALLS[call_of(call)] else None


def is_long(call):
    """Whether a call has no list, or one that has pages between the first and the last."""
    return (count_of(call) or 3) > 2


# The locks of these calls beside those of pages and O.
MORE_LOCKS = {"IMPORT.STATE.IMMUTABLE": ("K",), "IMPORT.MEM": ("T",)} | {WITH_THE_LAST[name]: ("T",) for name in LISTS if name == "IMPORT.MEM"}


def led_to(chance, scene, life, name):
    """A whole life that has that call."""
    if name == BY_TOKEN:
        return [*scene.source.calls, *ends_by_token(chance, scene, life)]
    if name.startswith("IMPORT"):
        parts = Arrival(chance, scene, 0).parts(False)
        if name in GIVES_UP:
            return [*joined(parts[: chance.randint(2, 4)]), f"IMPORT.ABORT {life.td} SLOT"]
        return joined(parts)
    return life.build(chance, scene.host[-1]) + life.run(chance) + life.end(chance)


def give_stream(scene, life):
    """Gives a life a stream, where it has none and the host has pages."""
    if not life.streams and len(scene.host) > 4:
        life.streams = [scene.host.pop()]


def again_exported(chance, life, call):
    """What lets the first export of a page, or of a list, be made once more, in a further session, live or paused. At the end of
    the one before, the first page may be dirty, and is neither unblocked nor removed before it is restored."""
    td, gpa = call.split()[1:3]
    gpas = [gpa, *(f"{int(gpa, 0) + place * PAGE_BYTES}" for place in range(1, count_of(call) or 1))]
    blocks, again = (f"EXPORT.{name} {td} {gpa}" for name in ("BLOCKW", "UNBLOCKW"))
    left = [f"MEM.RANGE.UNBLOCK {td} {gpa} 0", f"MEM.PAGE.REMOVE {td} {gpa}"]
    ends = [*chance.choice(([], [again], [again, blocks])), f"EXPORT.ABORT {td}", *left]
    begins = [*(f"EXPORT.RESTORE {td} {its}" for its in gpas), f"EXPORT.STATE.IMMUTABLE {td} SLOT"]
    blocked = [f"EXPORT.BLOCKW {td} {its}" for its in gpas]
    return [*ends, *begins, *chance.choice(([*blocked, f"MEM.TRACK {td}"], [f"EXPORT.PAUSE {td}"])), call]


def places_of(scene, calls, name):
    """The places where a call of that name succeeds, and how many events come before each call where there is one of that
    name."""
    places = [place for place, call in enumerate(calls) if call_of(call) == name]
    if not places:
        return [], []
    replies, before = tried(scene, calls)
    return [place for place in places if replies[place][0].split()[0] in ("SUCCESS", "EXIT")], before


def alone(scene, calls):
    """Processor 0 with these calls, and no other."""
    machine = f"machine 1 {scene.size} {scene.hkids}"
    script = read(text_of([machine, "lp 0", *with_slots(Chance("slots"), calls), "end"]))
    enters = any(call.startswith("VP.ENTER") for call in calls)
    code = read(text_of([machine, *joined(scene.code)])).code if enters else {}
    (processor,) = processors_of(script, Outside(code, scene.inputs, scene.keys))
    return processor


def tried(scene, calls):
    """What these calls come to on processor 0 alone: their replies, and how many events come before each, and in all."""
    processor, events, before = alone(scene, calls), 0, [0]
    while processor.event():
        events += 1
        if processor.made == len(before):
            before.append(events)
    return processor.replies, before


def exact_events(scene, calls):
    """How many events these calls take on processor 0 alone."""
    return tried(scene, calls)[1][-1]


def host_calls(chance, scene, life):
    """What a host does beside a TD that runs."""
    kind = chance.randrange(10)
    if kind == 9:
        return life.export_round(chance)
    if kind < 3:
        return life.page_round(chance)
    if kind == 3:
        return life.table_round(chance)
    if kind == 4 and life.gpas:
        gpa = chance.choice(life.gpas)
        return [f"MEM.PAGE.AUG {life.td} {gpa} {life.page_at(gpa)}", f"MEM.SEPT.RD {life.td} {gpa} 0"]
    if kind == 5 and life.gpas:
        return [f"HOST.READ {life.page_at(chance.choice(life.gpas))} 0"]
    if kind == 6:
        page = scene.host[0]
        return [f"HOST.READ {page} {a_word(chance)}", f"HOST.WRITE {page} 0 {chance.randrange(100)}"]
    if kind == 7:
        return [f"MNG.CREATE {scene.host[0]} {life.hkid}"] * 3  # they are refused, and have held the page
    return [scene.any_call()]


def guest_calls(chance, scene, life, own):
    """What a processor does that runs a VCPU of its own, most of the time."""
    most = chance.choice((1, 2, 3, 8, 40, 65_535))
    kind = chance.randrange(20)
    if kind == 0:
        return [f"VP.FLUSH {life.td} {own}"]
    if kind == 1:
        return [scene.any_call()]
    return [f"VP.ENTER {life.td} {own if kind > 3 else chance.choice(life.vcpus)} {most}"]


def crowd(chance, scene, _turn):
    """Processor 0 builds a TD, or takes one in, and is its host then. The others enter its VCPUs, or are hosts too."""
    life = scene.lives[0]
    scene.lps = chance.choice((2, 3, 3, 4, 8))
    build = life.build(chance, scene.host[-1])
    late = []
    if scene.source is not None:
        parts = Arrival(chance, scene, 0).parts(False)
        build = [*joined(parts[:4]), f"IMPORT.COMMIT {life.td}"]
        late = [call for call in parts[4] if call.startswith("IMPORT.MEM")]
    blocks = [build[:]]
    for lp in range(scene.lps):
        calls = []
        is_host = not life.vcpus or (lp != 1 and chance.random() < 0.4)
        for _ in range(chance.randint(5, 20)):
            if is_host or chance.random() < 0.1:
                calls += host_calls(chance, scene, life)
            else:
                calls += guest_calls(chance, scene, life, life.vcpus[lp % len(life.vcpus)])
        if late:
            calls = riffle(chance, calls, late * (lp == 0 or chance.random() < 0.2))
        if scene.source is not None:
            calls[len(calls) // 2 : len(calls) // 2] = [f"IMPORT.END {life.td}"]
        if lp == 0:
            blocks[0] += calls
        else:
            blocks.append(calls)
    return blocks, [(0, exact_events(scene, build))] + bursts(chance, range(scene.lps), 300 * scene.lps)


def operations_of_list(operations):
    """As many of these operations as a list may have, and of its reports."""
    reports = [place for place, its in enumerate(operations) if its == "report"]
    for place in reversed(reports[MOST_OF_A_LIST:]):
        del operations[place]
    return operations[:OPERATIONS_OF_A_LIST]


def begins(scene, life, index, operations):
    """Lets the list of that VCPU begin with these operations."""
    head = f"code {life.td} {index}"
    old = next((block for block in scene.code if block[0] == head), [head, "end"])
    scene.code = [block for block in scene.code if block[0] != head]
    scene.code.append([head, *operations_of_list(operations + old[1:-1]), "end"])


class Meeting:
    """What is done behind a TD's build, in this order: on processor 0 what comes before a guest; on processor 1
    entries, for so many events behind the first one's six; then what processor 2 does meanwhile. Visits of a kind
    are numbered, for what is to come in turn."""

    def __init__(self, chance, scene, visit, life=None):
        self.chance, self.scene, self.life, self.visit = chance, scene, life or scene.lives[0], visit
        self.beyond = self.life.gpa + LEVEL_BYTES[1]
        self.before, self.meanwhile = [], []
        self.entries, self.events = [self.enter(0), self.enter(0), self.enter(1)], 0
        self.lists({0: self.life.gpa, 1: self.life.gpa})

    def enter(self, index, most=65_535):
        """An entry of the VCPU with that index."""
        return f"VP.ENTER {self.life.td} {self.life.vcpus[index]} {most}"

    def lists(self, gpas):
        """Lets lists begin with an access to these addresses."""
        for index, gpa in gpas.items():
            access = ("load", "store")[self.visit % 2]
            begins(self.scene, self.life, index, [f"{access} {self.chance.randrange(8)} {gpa:#x}"] * 2)

    def ranged(self, name, gpa, *level):
        """A call on that address and level."""
        words = [gpa - gpa % LEVEL_BYTES[level[0]], *level] if level else [gpa]
        return " ".join([name, str(self.life.td), *map(str, words)])

    def block(self, gpa, level):
        """A block that is tracked."""
        return [self.ranged("MEM.RANGE.BLOCK", gpa, level), f"MEM.TRACK {self.life.td}"]

    def perhaps_tracked(self):
        """At every second visit a further epoch, which makes the guest one of the epoch before."""
        return [f"MEM.TRACK {self.life.td}"] * (self.visit % 2)

    def table(self):
        """A page of the secure EPT beside those of the build."""
        return f"{self.ranged('MEM.SEPT.ADD', self.beyond, 1)} {self.life.spare[0]}"

    def blocks_under_a_walk(self):
        """An entry of any level is blocked just behind a walk, or anywhere under it or behind it; nothing is taken back or
        removed under it."""
        level = self.chance.choice((0, 0, 1, 2, 3))
        last = self.ranged("MEM.RANGE.UNBLOCK", self.life.gpa, level)
        self.meanwhile = [*self.block(self.life.gpa, level), last, f"MEM.TRACK {self.life.td}"]
        self.events = (4, self.chance.randint(max(1, 4 - level), 5))[self.visit // 2 % 2]

    def makes_the_way(self):
        """What is missing is added under a walk, by the host and by a second guest."""
        self.lists({0: self.beyond})
        begins(self.scene, self.life, 1, [f"accept {self.beyond - self.beyond % PAGE_BYTES}"])
        page = f"{self.ranged('MEM.PAGE.AUG', self.beyond)} {self.scene.host[0]}"
        self.meanwhile = [self.table(), page, self.enter(1, 1)]
        self.entries, self.events = self.entries[:2], self.chance.choice((1, 2))

    def takes_a_block_back(self):
        """A block that is tracked is taken back under a walk."""
        level = self.chance.randrange(4)
        self.before = self.block(self.life.gpa, level)
        self.meanwhile = [*self.perhaps_tracked(), self.ranged("MEM.RANGE.UNBLOCK", self.life.gpa, level)]
        self.events = self.chance.randint(0, 4 - level)

    def removes_a_page(self):
        """A page is removed beside a guest that entered behind the tracking, and perhaps before the next one."""
        self.before = self.block(self.life.gpa, 0)
        again = f"{self.ranged('MEM.PAGE.AUG', self.life.gpa)} {self.life.page_at(self.life.gpa)}"
        self.meanwhile = [*self.perhaps_tracked(), self.ranged("MEM.PAGE.REMOVE", self.life.gpa), again]
        self.events = self.chance.randrange(4)

    def moves_a_page(self):
        """A page is moved beside a guest that entered behind the tracking, and perhaps before the next one, and back again."""
        there, back = self.life.move(self.life.gpa), self.life.move(self.life.gpa, True)
        self.before = self.life.tracked(self.life.gpa)
        self.meanwhile = [*self.perhaps_tracked(), there, *self.life.tracked(self.life.gpa), back, there]
        self.events = self.chance.randrange(6)

    def moves_a_page_that_is_stored_to(self):
        """A guest stores by its translation until it leaves, behind the block and behind the tracking; then the page is
        moved, and a second guest loads it."""
        self.stores()
        begins(self.scene, self.life, 1, [f"load 2 {self.life.gpa:#x}"])
        moves = self.life.move(self.life.gpa)
        self.meanwhile = [*self.life.tracked(self.life.gpa), moves, moves, self.ranged("MEM.SEPT.RD", self.life.gpa, 0)]
        self.entries, self.events = [self.enter(0, 3), self.enter(1), self.enter(0)], 5 + self.visit % 3

    def measures_at_once(self):
        """Of two guests one measures or makes a report just when the other one does."""
        operations = (["rtmr 1", "report"], ["report", "rtmr 1"])
        begins(self.scene, self.life, 0, operations[self.visit % 2])
        begins(self.scene, self.life, 1, operations[self.visit // 2 % 2])
        self.entries, self.events = [self.enter(0), self.enter(0)], self.chance.choice((1, 2))
        self.meanwhile = [self.enter(1), self.enter(1)]

    def removes_a_table(self):
        """The same of a page of the secure EPT."""
        self.lists({0: self.beyond})
        self.before = [self.table(), *self.block(self.beyond, 1)]
        self.meanwhile = [*self.perhaps_tracked(), self.ranged("MEM.SEPT.REMOVE", self.beyond, 1)]
        self.events = self.chance.randrange(3)

    def finds_nothing(self):
        """Walks of loads, of stores and of `accept` end at each level; and shared pages aren't the host's."""
        places = (20 * PAGE_BYTES, *LEVEL_BYTES[1:])
        for index, access in enumerate(("load 1", "store 1", "accept")):
            gpa = (self.life.gpa + places[(self.visit + index) % 4]) % GPA_END
            if self.visit // 4 % 2 and access != "accept":
                gpa = GPA_END + PAGE_BYTES * (self.life.vcpus[index], self.scene.size, self.life.td)[(self.visit + index) % 3]
            begins(self.scene, self.life, index, [f"{access} {gpa:#x}"])
        self.entries = [self.enter(index) for index in range(3)]

    def moves_a_vcpu(self):
        """A VCPU comes to a processor that has cached what was removed or moved since, or the one that cached it is flushed,
        or enters again."""
        flush = f"VP.FLUSH {self.life.td} {self.life.vcpus[1]}"
        self.entries = [self.enter(1, 1), (self.enter(0), flush, self.enter(1, 1))[self.visit % 3], self.enter(0)]
        leaves = (self.ranged("MEM.PAGE.REMOVE", self.life.gpa), self.life.move(self.life.gpa))[self.visit // 3 % 2]
        self.meanwhile = [*self.block(self.life.gpa, 0), leaves]
        self.events = 5 + 4

    def flushes_another(self):
        """A VCPU finds what another one has cached on its processor, unless that one is flushed."""
        flush = f"VP.FLUSH {self.life.td} {self.life.vcpus[0]}"
        begins(self.scene, self.life, 1, ["set 1 1"])
        self.entries = [self.enter(1, 1), self.enter(0, 1), *[flush] * (self.visit % 3 > 0), self.enter(1, 2)]
        self.meanwhile = [self.ranged("MEM.RANGE.BLOCK", self.life.gpa, 0)]
        self.events = 1 + 4 + 6 + 5 + 4

    def shares_a_processor(self):
        """VCPUs of two TDs take turns on one processor, and what it has cached of each is blocked meanwhile."""
        other = Meeting(self.chance, self.scene, self.visit, self.scene.lives[1])
        flush = f"VP.FLUSH {self.life.td} {self.life.vcpus[0]}"
        self.before = other.life.build(self.chance, self.scene.host[-1])
        self.entries = [self.enter(0, 1), other.enter(0, 1), *[flush] * (self.visit % 2), self.enter(0, 1), other.enter(0, 1)]
        self.meanwhile = [met.ranged("MEM.RANGE.BLOCK", met.life.gpa, 0) for met in (self, other)]
        self.events = 5 + 4 + 6 + 5 + 4


    def stores(self):
        """Lets lists begin with stores to one page; answers the beginning of an export."""
        for index in (0, 1):
            begins(self.scene, self.life, index, [f"store {self.chance.randrange(8)} {self.life.gpa:#x}"] * 3)
        return [f"EXPORT.STATE.IMMUTABLE {self.life.td} SLOT"]

    def exported(self):
        """The export of the page that is stored to, by itself, or as a list where there are lists."""
        return f"EXPORT.MEM {self.life.td} {self.life.gpa} 0 SLOT" + " 1" * (HAS_LISTS and self.visit % 3 > 0)

    def blocks_writes_under_a_walk(self):
        """A page is blocked for writing under the walk of a store or behind it, and can't be exported before the guest
        has left."""
        self.before = self.stores()
        self.meanwhile = [self.ranged("EXPORT.BLOCKW", self.life.gpa), f"MEM.TRACK {self.life.td}", self.exported()]
        self.events = (4, 5, 3)[self.visit % 3]

    def exports_a_page(self):
        """A page is exported beside a guest that entered behind the tracking, perhaps before the next one; then writes
        may be allowed again, and blocked once more. A second guest accepts it."""
        blocks, again = (self.ranged(f"EXPORT.{name}", self.life.gpa) for name in ("BLOCKW", "UNBLOCKW"))
        self.before = [*self.stores(), blocks, f"MEM.TRACK {self.life.td}"]
        begins(self.scene, self.life, 1, [f"accept {self.life.gpa}"])
        page = f"{self.ranged('MEM.PAGE.AUG', self.life.gpa)} {self.scene.host[0]}"
        self.meanwhile = [*self.perhaps_tracked(), self.exported(), *([page], [again, page], [again, blocks, page])[self.visit % 3]]
        self.entries, self.events = [self.enter(0, 1), self.enter(1), self.enter(0)], self.chance.randrange(4)


MEETINGS = (
    Meeting.blocks_under_a_walk, Meeting.makes_the_way, Meeting.takes_a_block_back, Meeting.removes_a_page,
    Meeting.moves_a_page, Meeting.moves_a_page_that_is_stored_to, Meeting.removes_a_table, Meeting.finds_nothing,
    Meeting.moves_a_vcpu, Meeting.flushes_another, Meeting.measures_at_once, Meeting.blocks_writes_under_a_walk,
    Meeting.exports_a_page, Meeting.shares_a_processor,
)
# Two more kinds of meetings, which have guests in at once: of two TDs, or eight of one TD.
KINDS = len(MEETINGS) + 2
OF_TWO_TDS = (len(MEETINGS) - 1, len(MEETINGS))


def meeting(chance, scene, turn):
    """A map changes under a guest, or guests are in at once: each kind in turn, with loads and with stores."""
    visit, kind = divmod(turn, KINDS)
    if kind >= len(MEETINGS):
        return at_once(chance, scene)
    life = scene.lives[0]
    if not all(life.spare and life.frames and life.first_waiting for life in scene.lives[: 1 + (kind in OF_TWO_TDS)]):
        return crowd(chance, scene, turn)
    give_stream(scene, life)
    scene.lps = chance.choice((3, 3, 4))
    met = Meeting(chance, scene, visit)
    MEETINGS[kind](met)
    build = life.build(chance, scene.host[-1]) + met.before
    turns = [(0, exact_events(scene, build)), (1, 6 + met.events), (2, 11 * len(met.meanwhile))]
    turns.append((1, chance.randint(1, 20)))
    blocks = [build, met.entries, met.meanwhile] + [[] for _ in range(scene.lps - 3)]
    for block in blocks:
        for _ in range(chance.randrange(6)):
            block += host_calls(chance, scene, life)
    return blocks, turns + bursts(chance, range(scene.lps), 100)


def at_once(chance, scene):
    """Guests of all TDs of the scene are in at once, each on a processor of its own, and leave at random. Each
    processor tries the guest of another one too, which may have left it by then."""
    calls = [call for life in scene.lives for call in life.build(chance, scene.host[-1])]
    vcpus = [(life.td, page) for life in scene.lives for page in life.vcpus][:8]
    scene.lps = len(vcpus)
    for life in scene.lives:
        for index in range(len(life.vcpus)):
            begins(scene, life, index, [f"load 1 {life.gpa:#x}", "add 1 0"])
    entries = [f"VP.ENTER {td} {page} {chance.choice((1, 3, 20))}" for td, page in vcpus]
    blocks = [[entry, entry, entries[(lp + 2) % scene.lps], entry] for lp, entry in enumerate(entries)]
    blocks[0] = calls + blocks[0]
    for lp, (td, page) in enumerate(vcpus):
        blocks[lp] += [f"VP.FLUSH {td} {page}", entries[(lp + 2) % scene.lps]] + host_calls(chance, scene, scene.lives[0])
    turns = [(0, exact_events(scene, calls))] + [(lp, 1) for _ in range(6) for lp in range(scene.lps)]
    return blocks, turns + bursts(chance, range(scene.lps), 60 * scene.lps)


def session(chance, scene, turn):
    """Processor 0 builds a TD and exports it. In one of the states of the export, each in turn, it makes every call
    that doesn't lead out of it. The others enter VCPUs, and are hosts."""
    life = scene.lives[0]
    scene.lps = chance.choice((1, 2, 3))
    build = life.build(chance, scene.host[-1])
    calls, due = [], turn % 3
    for place, part in enumerate(life.export(chance, due == 2)):
        names = [name for name in CALLS if name != "MNG.VPFLUSHDONE" and (place == 2 or name not in LEAVING)] * 2
        chance.shuffle(names)
        tries = [scene.call(name, life, False) for name in names] * (place == due)
        calls += [*part[:1], *tries, *among(chance, scene, part[1:], chance.choice((0, 0, 1)))]
    blocks = [build + calls + life.end(chance)]
    for lp in range(1, scene.lps):
        some = []
        for _ in range(chance.randint(3, 10)):
            some += life.entries(chance) if lp == 1 else host_calls(chance, scene, life)
        blocks.append(some)
    return blocks, [(0, exact_events(scene, build))] + bursts(chance, range(scene.lps), 200 * (scene.lps - 1))


class Source:
    """A module that has exported a TD, in most cases as far as the start token: its scene and the TD's life, its calls, and
    the bundles that it made, by slot, in that order."""

    def __init__(self, chance, before=None, others=()):
        """It has the TD of the source before it, where there is one; and none of the other slots."""
        for _ in range(4):
            self.scene = Scene(chance, ROOMY if before is None else LARGE, source=before)
            self.scene.lps, self.life = 1, self.scene.lives[0]
            if before is None:
                self.scene.source = self
                give_stream(self.scene, self.life)
                first = self.life.build(chance, self.scene.host[-1])
            else:
                first = joined([*Arrival(chance, self.scene, 0).parts(False)[:5], [f"IMPORT.END {self.life.td}"]])
            self.calls = with_slots(chance, first + self.exports(chance), others)
            processor, self.sessions = alone(self.scene, self.calls), {}
            run([processor], [])
            self.made = processor.machine.outside.outputs
            for slot, bundle in self.made.items():
                header = bundles.header_of(bundle)
                self.sessions.setdefault(header.session, []).append((slot, header))
            if self.is_whole() or chance.random() < 0.1:
                break

    def exports(self, chance):
        """The calls that send its TD: perhaps an export that is aborted, and one that is whole."""
        calls = []
        if chance.random() < 0.3:
            calls += [*joined(self.life.export(chance, False)[:2]), f"EXPORT.ABORT {self.life.td}"]
            calls += [f"EXPORT.RESTORE {self.life.td} {gpa}" for gpa in self.life.gpas]
        return calls + joined(self.life.export(chance, True))

    def is_whole(self):
        """Whether a destination can end the last session: it has a start token, and the TD state before all VCPU states."""
        types = [header.type for _, header in self.sessions.get(max(self.sessions, default=0), [])]
        types = types[: types.index(START_TOKEN) + 1] if START_TOKEN in types else []
        states = [kind for kind in types if kind in (TD_STATE, VCPU_STATE)]
        return types[-1:] == [START_TOKEN] and states[:1] == [TD_STATE]


def joined(parts):
    """The calls of all parts."""
    return [call for part in parts for call in part]


def gpas_of(header):
    """The GPAs of a bundle's pages."""
    return [header.gpa + place * PAGE_BYTES for place in range(bundles.pages_of(header) if header.type == MEMORY else 0)]


class Arrival:
    """What a destination's first life does with a session of its scene's source. Before a bundle there may be hostile ones,
    each at a slot of its own; how they are turned goes in turn."""

    def __init__(self, chance, scene, turn):
        self.chance, self.scene, self.life, self.way = chance, scene, scene.lives[0], turn * 7
        self.come = set()  # the GPAs of the pages that have come in
        sessions = scene.source.sessions
        last = max(sessions, default=None)
        self.sent = sessions.get(chance.choice((*sessions, last, last, last)), [])
        if self.sent and chance.random() < 0.08:
            self.sent = self.without_vcpus()

    def without_vcpus(self):
        """The session as somebody with its keys could make it, without the states of its VCPUs."""
        counts, sent = [0] * 4, []
        for slot, header in self.sent:
            if header.type != VCPU_STATE:
                total = sum(counts) if header.type in TOKENS else 0
                forged = header._replace(counter=counts[header.stream], iv=counts[header.stream], total=total)
                self.scene.inputs[slot] = hostile.with_header(self.scene.keys, self.scene.inputs[slot], forged)
                counts[header.stream] += 1
                sent.append((slot, forged))
        return sent

    def parts(self, is_hostile):
        """Its calls by the state that they lead to: before the session, while memory comes in, from the TD state on, from
        the start token on, committed, and ended."""
        td, parts, at, late = self.life.td, [[] for _ in range(6)], 1, []
        parts[0] = self.life.waits(self.chance, 4 if self.chance.random() < 0.9 else self.chance.randrange(2))
        for slot, header in self.in_order():
            at = {TD_STATE: 2, START_TOKEN: 3}.get(header.type, at)
            calls = self.taken(slot, header, is_hostile)
            if at == 3 and header.type == MEMORY:
                late.append(calls)
                continue
            if header.type in (IMMUTABLE, TD_STATE, START_TOKEN) and not parts[at]:
                *before, last = calls
                parts[at - 1] += before
                calls = [last]
            parts[at] += calls
            if header.type == IMMUTABLE:
                parts[at] += self.life.frame(self.chance)
        parts[4] = [f"IMPORT.COMMIT {td}", *self.life.entries(self.chance)]
        if late:
            self.come_late(parts, late)
        parts[5] = [f"IMPORT.END {td}", *self.life.run(self.chance), *self.life.flushes(), *self.life.end(self.chance)]
        return parts

    def come_late(self, parts, late):
        """Puts the calls by which pages come behind the start token before the commit, or among entries behind it; or leaves some of
        them out."""
        count = len(late)
        before = self.chance.choice((0, 0, count, self.chance.randint(0, count)))
        last = self.chance.choice((count, count, count, self.chance.randint(before, count)))
        parts[3] += joined(late[:before])
        for calls in late[before:last]:
            parts[4] += [*calls, *self.life.entries(self.chance)]

    def in_order(self):
        """The bundles of the session, those of a migration epoch by any order of its streams."""
        streams, ordered = [[] for _ in range(4)], []
        for slot, header in [*self.sent, (None, None)]:
            if header is None or header.type in (IMMUTABLE, *TOKENS):
                for stream in streams[1:]:
                    streams[0] = riffle(self.chance, streams[0], stream)
                ordered += streams[0] + [(slot, header)]
                streams = [[] for _ in range(4)]
            else:
                streams[header.stream].append((slot, header))
        return ordered[:-1]

    def taken(self, slot, header, is_hostile):
        """The calls by which a bundle comes in; where it is hostile, with others before it and behind it."""
        chance, call = self.chance, self.life.takes(self.chance, slot, header)
        before, self.come = self.come, self.come | set(gpas_of(header))
        if not is_hostile:
            return [call]
        often = (0, 1, 1, 2, 3) if header.type in (MEMORY, EPOCH_TOKEN) and header.version == 1 else (1, 2, 3, 5)
        calls = [self.turned(slot, header) for _ in range(chance.choice(often))]
        if chance.random() < 0.15:
            calls.append(self.life.takes(chance, chance.choice(list(self.scene.inputs)), header))
        calls += self.on_itself(slot, header, before)
        if header.type == MEMORY and header.epoch == hostile.LAST_EPOCH and before and chance.random() < 0.7:
            calls.append(self.over_a_page(slot, header, before))
        if chance.random() < 0.02:
            return calls or [self.turned(slot, header)]
        return [*calls, *[call] * chance.choice((1, 1, 1, 1, 1, 1, 2)), call][1:] if calls else [call]

    def on_itself(self, slot, header, before):
        """The call that would take a list in into one of the pages that it finds, where some of them have come before."""
        came = [gpa in before for gpa in gpas_of(header)]
        first = came.index(True) if True in came else len(came)
        if header.version == 1 or False not in came[first:]:
            return []
        page = self.life.page_at(gpas_of(header)[first]) - came.index(False, first)
        return [f"IMPORT.MEM {self.life.td} {slot} {page} {header.info}"] * (page >= 0)

    def over_a_page(self, slot, header, before):
        """The call that would take a page in behind the start token, where one has come in before, by a bundle that somebody with its
        keys has made."""
        at, gpa = self.free_slot(), self.chance.choice(sorted(before))
        self.scene.inputs[at] = hostile.with_header(self.scene.keys, self.scene.inputs[slot], header._replace(gpa=gpa))
        return self.life.takes(self.chance, at, header)

    def free_slot(self):
        """A slot that has no bundle yet."""
        at = self.chance.choice(SLOTS)
        while at in self.scene.inputs:
            at = self.chance.choice(SLOTS)
        return at

    def turned(self, slot, header):
        """The call that would take a bundle in, on that bundle as somebody has turned it."""
        inputs, at = self.scene.inputs, self.free_slot()
        is_sealed = self.chance.random() < 0.25
        inputs[at] = hostile.turned(self.chance, self.scene.keys, inputs[slot], self.way % hostile.WAYS, is_sealed)
        self.way += 1
        return self.life.takes(self.chance, at, header)


def arrival(chance, scene, turn):
    """Processor 0 takes in what a source has sent, with hostile bundles among it. The others enter VCPUs, and are hosts.
    Then a second TD is to take the same session."""
    scene.lps = chance.choice((1, 1, 2, 3))
    met = Arrival(chance, scene, turn)
    parts = met.parts(True)
    calls = among(chance, scene, joined(parts), chance.choice((0, 0, 0.3)))
    if len(scene.lives) > 1 and met.sent:
        other, (slot, _) = scene.lives[1], met.sent[0]
        calls += [*other.waits(chance, 4), f"IMPORT.STATE.IMMUTABLE {other.td} {slot}"]
    return beside(chance, scene, calls, sum(map(len, parts[:3])))


def beside(chance, scene, calls, count):
    """These calls of processor 0, and from so many of them on those of others, which enter VCPUs, and are hosts."""
    blocks = [calls]
    for lp in range(1, scene.lps):
        some = []
        for _ in range(chance.randint(3, 10)):
            some += scene.lives[0].entries(chance) if lp == 1 else host_calls(chance, scene, scene.lives[0])
        blocks.append(some)
    turns = bursts(chance, range(scene.lps), 200 * (scene.lps - 1))
    return blocks, [(0, exact_events(scene, calls[:count]))] * (scene.lps > 1) + turns


# By the part of an arrival in which all calls are tried: those that lead out of its state.
LEAD_OUT = {
    1: GIVES_UP, 2: GIVES_UP, 3: (*GIVES_UP, "IMPORT.COMMIT"), 4: ("IMPORT.END",), 5: ("MNG.VPFLUSHDONE",),
}


def import_states(chance, scene, turn):
    """Processor 0 takes in what a source has sent, and makes every call in one of the states of the import, each in turn."""
    life, due = scene.lives[0], 1 + turn % 5
    scene.lps = chance.choice((1, 2, 3))
    parts = Arrival(chance, scene, turn).parts(False)
    if due == 5:
        due = chance.randint(2, 4)
        parts[due:] = [[f"IMPORT.ABORT {life.td} SLOT"], life.flushes() + life.end(chance)]
        left_out = ()
    else:
        left_out = LEAD_OUT[due]
    names = [name for name in CALLS if name != "MNG.VPFLUSHDONE" and name not in left_out] * 2
    chance.shuffle(names)
    tries = [scene.call(name, life, False) for name in names]
    parts[due][1:1] = tries
    return beside(chance, scene, joined(parts), len(joined(parts[:due])) + 1)


def arrived(chance, scene, turn):
    """A crowd at a TD that has come in."""
    return crowd(chance, scene, turn)


def late_meeting(chance, scene, turn):
    """A page comes in behind the commit while a guest is on its way to it. Behind so many events of its walk, or before it, the page
    comes, or begins to come; then the guest goes on, and enters again."""
    life, met = scene.lives[0], Arrival(chance, scene, turn)
    parts = met.parts(False)
    late = [call for call in [*parts[3], *parts[4]] if call.startswith("IMPORT.MEM") and "count" not in CALLS[call_of(call)]]
    headers = {slot: header for slot, header in met.sent}
    if not (late and life.vcpus):
        return arrived(chance, scene, turn)
    build = [call for call in joined(parts[:4]) if call not in late] + [f"IMPORT.COMMIT {life.td}"]
    gpas = [headers[number(call.split()[2])].gpa for call in late if number(call.split()[2]) in headers]
    positions = {header.index: header.info for header in headers.values() if header.type == VCPU_STATE}
    for index in range(len(life.vcpus)):
        begins(scene, life, index, ["set 0 1"] * positions.get(index, 0) + [f"{('load', 'store')[turn % 2]} 1 {gpa}" for gpa in gpas])
    scene.lps = max(2, min(3, len(life.vcpus) + 1))
    enters = [[f"VP.ENTER {life.td} {page} 65535"] * (len(late) + 2) for page in life.vcpus]
    blocks = [[*build, *late, f"IMPORT.END {life.td}"], *enters[: scene.lps - 1]]
    comes = chance.choice((9, 9, 11, chance.randint(1, 11)))
    turns = [(0, exact_events(scene, build)), (1, 6 + turn // 2 % 6), (0, comes), (1, chance.randint(1, 12))]
    return blocks, turns + bursts(chance, range(scene.lps), 40)


def gives_back(chance, scene, turn):
    """A source in whose last state every call is made, to which then the token of its destination comes, behind others
    that somebody has turned."""
    life = scene.lives[0]
    scene.lps = chance.choice((1, 2, 3))
    names = [name for name in CALLS if name not in ("MNG.VPFLUSHDONE", BY_TOKEN)] * (turn % 2)
    chance.shuffle(names)
    tries = [scene.call(name, life, False) for name in names]
    ends = ends_by_token(chance, scene, life, turn)
    run = life.run(chance) + life.flushes() + life.end(chance)
    return beside(chance, scene, scene.source.calls + tries + ends + run, len(scene.source.calls))


def ends_by_token(chance, scene, life, turn=0):
    """The calls that end a source's export by the token of its destination. Before it come tokens that somebody has
    turned, and that of an earlier session; and behind it comes it again."""
    calls, way, (*earlier, last) = [], turn * 7, sorted(scene.source.sessions) or [1]
    for session in (*earlier, last):
        header = Header(64, 1, 0, ABORT_TOKEN, 0, 0, 0, 0, session, 0, 0, 0, 0)
        for is_turned in (*[True] * chance.randint(3, 9), False):
            token = bundles.seal(scene.keys, header, b"")
            if is_turned:
                token = hostile.turned(chance, scene.keys, token, way % hostile.WAYS, chance.random() < 0.3)
                way += 1
            slot = chance.choice(free_slots(scene.inputs))
            scene.inputs[slot] = token
            calls.append(f"EXPORT.ABORT {life.td} {slot}")
    return [*calls, calls[-1], *(f"EXPORT.RESTORE {life.td} {gpa}" for gpa in life.gpas)]


def noise(chance, scene, _turn):
    """Calls without any order, for processors that go at random."""
    blocks = [[scene.any_call() for _ in range(chance.randrange(30))] for _ in range(scene.lps)]
    return blocks, bursts(chance, range(scene.lps), chance.choice((0, 100, 400)))


def bursts(chance, lps, items):
    """Schedule items: processors at random, each for a few events."""
    turns = []
    while items > 0:
        times = chance.choice((1, 1, 1, 2, 3, 8))
        turns.append((chance.choice(lps), times))
        items -= times
    return turns


def schedule_lines(chance, turns):
    """The lines of a schedule."""
    lines = []
    while turns:
        length = chance.randint(1, 60)
        items = [f"{lp}" if times == 1 and chance.random() < 0.9 else f"{lp}*{times}" for lp, times in turns[:length]]
        lines.append(" ".join(["schedule", *items]))
        turns = turns[length:]
    return lines


def text_of(lines):
    """The bytes of a script with these lines."""
    return "\n".join([*lines, ""]).encode("latin-1")


# What a guest operation may do, on memory that its TD has, and on other memory.
ACCESSES = ("load", "store", "load shared", "store shared", "accept")
KINDS_OF_OPERATIONS = ("set", "secret", "add", "rtmr", "report", "vmcall", "load", *ACCESSES)
BAD_KINDS = (*ACCESSES, "load shared", "store shared")


def operation(chance, scene, life, own, bad):
    """A guest operation of the VCPU with that TDVPR page, on memory that the life's TD has, or has at times;
    where it is bad, on other memory. What operations of all kinds have is drawn, whichever it is."""
    place, register, other = 8 * chance.choice((0, 0, 1, 511)), chance.below(8), chance.below(8)
    if bad:
        owned = chance.choice(life.owned())
        gpa = life.gpa + chance.choice((PAGE_BYTES * 20, *LEVEL_BYTES[1:], 64))
    else:
        gpa = chance.choice(life.gpas or [life.gpa]) + place
    gpa %= GPA_END
    kind = chance.choice(BAD_KINDS if bad else KINDS_OF_OPERATIONS)
    if kind == "accept" and not bad and life.waiting and chance.random() < 0.8:
        gpa = life.gpa + PAGE_BYTES * (life.first_waiting + chance.randrange(len(life.waiting)))
    value, value_written = chance.choice((0, 1, chance.getrandbits(64))), chance.choice(WRITTEN)
    secret, secret_written = chance.choice((0, 1, 511, chance.below(512))), chance.choice(WRITTEN)
    page_written, rtmr = chance.choice(WRITTEN), chance.below(4)
    if kind.endswith(" shared"):
        pages = (own, owned, scene.size) if bad else [scene.host[page] for page in (0, 0, 0, -1)]
        gpa = chance.choice([GPA_END + page * PAGE_BYTES + place for page in pages] + [2 * GPA_END - 8] * bad)
    gpa_written = chance.choice(WRITTEN)
    if kind == "set":
        return f"set {register} {value_written.format(value)}"
    if kind == "secret":
        return f"secret {register} {secret_written.format(secret)}"
    if kind == "add":
        return f"add {register} {other}"
    if kind == "accept":
        return f"accept {page_written.format(gpa - gpa % PAGE_BYTES)}"
    if kind == "rtmr":
        return f"rtmr {rtmr}"
    if kind == "report":
        return kind
    if kind == "vmcall":
        return f"vmcall {register}"
    return f"{kind.split()[0]} {register} {gpa_written.format(gpa)}"


def list_of(chance, scene, life, index):
    """A VCPU's list. A VCPU often begins with secret words and with the pages that wait, and goes through all private
    ones."""
    begin = [f"secret {register} {chance.randrange(512)}" for register in range(8) if chance.random() < 0.3]
    if chance.random() < 0.7:
        begin += [f"accept {gpa}" for gpa in life.gpas[life.first_waiting :]]
    if chance.random() < (0.3 if len(life.private) < 16 else 0.9):
        begin += [f"{chance.choice(('load', 'store'))} {chance.randrange(8)} {gpa}" for gpa in life.gpas * 2]
    if chance.random() < 0.2:
        begin += [f"rtmr {chance.randrange(4)}"] * 20
    if chance.random() < 0.3:
        begin.insert(chance.randint(0, len(begin)), "report")
    spoilt = chance.choice((0, 0.01, 0.05, 0.3))
    count = chance.choice((0, 4, 20, 60, 200))
    own = life.vcpus[index]
    operations = [operation(chance, scene, life, own, chance.random() < spoilt) for _ in range(count)]
    return [f"code {life.td} {index}", *operations_of_list(begin + operations), "end"]


def code_block(chance, scene, vcpu):
    """A list of guest operations, on any memory."""
    gpa = [chance.choice(scene.lives).gpa + 8 * chance.randrange(1024) for _ in range(4)]
    gpa += [GPA_END + 8 * chance.randrange(512 * scene.size), 0, GPA_END - 8, 2 * GPA_END - 8]
    makes = (
        lambda: f"set {chance.randrange(8)} {scene.written(chance.choice((0, 1, chance.getrandbits(64))))}",
        lambda: f"secret {chance.randrange(8)} {scene.written(chance.choice((0, 511, chance.randrange(512))))}",
        lambda: f"add {chance.randrange(8)} {chance.randrange(8)}",
        lambda: f"{chance.choice(('load', 'store'))} {chance.randrange(8)} {scene.written(chance.choice(gpa))}",
        lambda: f"accept {scene.written(chance.choice(gpa) % GPA_END // PAGE_BYTES * PAGE_BYTES)}",
        lambda: f"rtmr {chance.randrange(4)}",
        lambda: "report",
        lambda: f"vmcall {chance.randrange(8)}",
    )
    operations = [chance.choice(makes)() for _ in range(chance.choice((0, 1, 8, 20, OPERATIONS_OF_A_LIST)))]
    return [f"code {vcpu[0]} {vcpu[1]}", *operations_of_list(operations), "end"]


def code_blocks(chance, scene):
    """Lists of most VCPUs of the lives, and of a few others, no two of one."""
    lists = {(life.td, index): list_of(chance, scene, life, index)
             for life in scene.lives for index in range(len(life.vcpus)) if chance.random() < 0.9}
    pages = [life.td for life in scene.lives] + [0, scene.size - 1]
    vcpus = {(chance.choice(pages), chance.randrange(8)) for _ in range(chance.choice((0, 0, 1, 3)))}
    lists |= {vcpu: code_block(chance, scene, vcpu) for vcpu in sorted(vcpus - set(lists))}
    return [block for block in lists.values()]


def scene_of(chance, make, turn):
    """The scene of a script."""
    if make is meeting:
        kind = turn % KINDS
        return Scene(chance, LARGE, EIGHT if kind == KINDS - 1 else THREE, kind in OF_TWO_TDS)
    _, due = visit_of(make, turn)
    if make is gives_back or due == BY_TOKEN:
        return Source(chance).scene
    if make in (arrival, import_states, arrived, late_meeting) or due.startswith("IMPORT"):
        return Scene(chance, LARGE, has_two=make is arrival and turn % 2 == 0, source=Source(chance))
    return Scene(chance, ROOMY if make in (race, race_of_lists, crowd, session) else SIZES, CROWDED if make is crowd else FEW)


def script_lines(chance, make, turn):
    """The lines of a script without a fault, and its scene."""
    scene = scene_of(chance, make, turn)
    return lines_of(chance, scene, *make(chance, scene, turn)), scene


def lines_of(chance, scene, blocks, turns, others=()):
    """The lines of a script of that scene with these calls and turns, which names none of the other slots."""
    blocks = [block[:CALLS_OF_A_PROCESSOR] for block in blocks]
    blocks = [[f"lp {lp}", *block, "end"] for lp, block in enumerate(blocks) if block or chance.random() < 0.5]
    slotted = iter(with_slots(chance, [line for block in blocks for line in block], others))
    parts = [[next(slotted) for _ in block] for block in blocks]
    parts += scene.code
    chance.shuffle(parts)
    schedule = [[line] for line in schedule_lines(chance, [turn for turn in turns if turn[1]])]
    lines = [f"machine {scene.lps} {scene.size} {scene.hkids}"]
    for part in riffle(chance, parts, schedule):
        lines += part
    return decorated(chance, lines)


def decorated(chance, lines):
    """The lines with blanks at their ends and between their words, with comments and blank lines."""
    if chance.random() < 0.7:
        return lines
    some = []
    for line in lines:
        while chance.random() < 0.1:
            some.append(chance.choice(("", "   ", "# a comment", "  #end")))
        some.append(chance.choice(("", "", "  ")) + line.replace(" ", chance.choice((" ", " ", "   "))))
    return some


# Lines that are bad outside blocks or inside them, many of them for several reasons.
BAD_OUTSIDE = (
    "machine", "machine 1 8 1", "machine x", "end", "end x y", "lp", "lp 7", "lp 8", "lp x", "lp 0 0", "lp {lp}",
    "lp {lp}", "lp {lp}", "lp {lp}", "lp {lp}", "lp {lp} x", "lp 18446744073709551616", "schedule", "schedule x",
    "schedule 0*0", "schedule 0*", "schedule *1", "schedule 0*1*1", "schedule 9*x", "schedule 0*1048577",
    "schedule 0*1048576 0", "schedule 8 x", "schedule 0x0*0x2 00*02", "code", "code 0", "code x", "code 9999 9",
    "code 0 8", "code 1024 0", "code x 0", "code 0 0 0", "code {code}", "code {code}", "code {code} x",
    "set 0 0", "foo", "Machine 1 8 1", "{call}", "IMPORT.END 1", "\t", "lp\t0", "# \xff", "\x00", "schedule \x80",
    "foo \x01 x",
)
BAD_INSIDE = (
    "machine 1 8 1", "machine", "end end", "end x y", "lp", "lp {lp}", "lp 9", "schedule", "schedule x", "code 0 0",
    "load 1 0", "vmcall 0", "foo", "HOST.READ", "host.read 0 0", "HOST.READ 0", "HOST.READ 0 x", "HOST.READ 0 0 0",
    "HOST.READ 0 0x", "HOST.READ -1 0", "HOST.READ 0 18446744073709551616", "HOST.READ 0 0x10000000000000000",
    "HOST.READ 0X1 0", "HOST.READ 0 0xfg", "MNG.RD 1", "MNG.RD 1 LIF", "MNG.RD 1 life", "MNG.RD 7 NOFIELD",
    "MNG.RD 7 OPS", "MNG.RD 0 mrtd", "MNG.RD x LIF", "MNG.RD x OP", "MNG.RD 1 OP OP", "MNG.RD OP 1",
    "MEM.PAGE.RELOCATE 1 0", "MEM.PAGE.RELOCATE 1 x 2 3", "MEM.PAGE.RELOCATE 1 0 x", "report", "MEM.TRACK",
    "EXPORT.ABORT", "EXPORT.ABORT 1 x", "EXPORT.ABORT x", "EXPORT.ABORT x 2",
    "EXPORT.ABORT 1 2 3", "EXPORT.TRACK 1 2", "EXPORT.TRACK x 4096 1", "EXPORT.STATE.TD 1 4096",
    "EXPORT.STATE.IMMUTABLE 1 18446744073709551615", "EXPORT.STATE.VP 1 2 0x1000", "EXPORT.STATE.TD 1 {slot}",
    "EXPORT.TRACK 1 {slot} x", "EXPORT.STATE.TD 1 4095\nEXPORT.TRACK 1 4095 0",
    "EXPORT.MEM 1 0 0 4096", "EXPORT.MEM 1 0 4096", "EXPORT.MEM x 0 9 4096", "EXPORT.MEM 1 0 0 {slot}",
    "EXPORT.MEM 1 0 0 9\nEXPORT.MEM 1 4096 1 0x9", "EXPORT.STATE.VP 1 2 7\nEXPORT.STATE.VP 1 3 007",
    "EXPORT.STATE.IMMUTABLE 1 0\nEXPORT.STATE.IMMUTABLE 1 0x0", "{call}", "{call} x", "{call} 1 2 3 4 5 6", "{call} 1 0 3 x", "IMPORT.COMMIT",
    "IMPORT.MEM 1 0", "IMPORT.MEM 1 x 2", "IMPORT.TRACK x", "IMPORT.STATE.VP 1 4 0 8", "IMPORT.END 1 0", "IMPORT.ABORT 1",
    "IMPORT.ABORT 1 4096", "IMPORT.ABORT x 0x1000", "IMPORT.ABORT 1 {slot}", "IMPORT.ABORT 1 5\nIMPORT.ABORT 2 005",
    "IMPORT.STATE.TD 1 18446744073709551616", "IMPORT.STATE.IMMUTABLE 1 \x1f", "end\x7f", "HOST.READ 1 1\r",
) + (
    "EXPORT.MEM 1 0 0 9 x", "EXPORT.MEM 1 0 0 4096 17", "EXPORT.MEM 1 0 0 4096 x", "EXPORT.MEM 1 0 0 {slot} 2",
    "EXPORT.MEM 1 0 0 9 2 3", "IMPORT.MEM 1 0 8 x", "IMPORT.MEM 1 0 8 2 1", "IMPORT.MEM 1 0 8 18446744073709551616",
    "EXPORT.MEM 1 0 0 9 2\nEXPORT.MEM 1 0 0 9", "EXPORT.MEM 1 0 0 9 99\nIMPORT.MEM 1 0 8 99\nfoo",
) * HAS_LISTS
BAD_IN_CODE = (
    "code 0 0", "code {code}", "lp 0", "schedule x", "end end", "machine", "foo", "SET 0 0", "{call}", "IMPORT.MEM 1 0 8",
    "secret x", "secret", "secret 0 512", "secret 8 0", "secret x 512", "secret 0 0 0", "set 0", "set 8 0", "set x 0", "set 8 x", "set 0 18446744073709551616",
    "set 0 0 0", "add 0 8", "add 8 0", "add 7 7 7", "add 0 r1", "load 0 4", "load 0 0x1000000000000",
    "load 8 0", "load 0", "store 0 0xffffffffffff", "store x 4", "store 7 0 0", "accept 0x1008",
    "accept 0x800000000000", "accept", "accept 0 0", "accept x", "rtmr 4", "rtmr", "rtmr x", "vmcall 8",
    "vmcall 0 0", "vmcall -1", "vmcall\t0", "{full}", "report 0", "report x", "Report", "reports",
    "report\nreport\nreport\nreport\nreport", "report\nreport\nreport\nreport\nreport 0",
)
FIRST_LINES = ("", "end", "foo", "lp 0", "machine", "machine 1 8", "machine 1 8 x", "machine 0 8 1", "machine 9 8 x",
               "machine 9 8 1", "machine 8 7 1", "machine 8 1025 1", "machine 1 8 0", "machine 1 8 16", "schedule 0",
               "# machine 1 8 1", "machine 1 8 1 1", "MACHINE 1 8 1", "machine 8 1024 15")


def faulty_script(chance, turn):
    """The bytes of a script in which a line or two are bad, or which ends too early."""
    lines, _ = script_lines(chance, chance.choice((noise, story)), turn)
    if chance.random() < 0.3:
        lines = lines[: chance.randint(1, 40)]
    if turn % 8 == 0:
        return text_of(lines[: chance.randint(1, len(lines))])
    if turn % 8 == 1:
        return text_of(lines)[: -chance.randint(1, 100)]
    if turn % 8 == 2:
        lines, _ = script_lines(chance, session, turn)
        repeat_a_slot(chance, lines)
        return text_of(lines)
    put_bad_line(chance, lines, turn)
    if chance.random() < 0.3:
        put_bad_line(chance, lines, chance.randrange(1000))
    draw = chance.random()
    if draw < 0.1:
        lines[0] = chance.choice(FIRST_LINES)
    elif draw < 0.3:
        place = chance.randrange(len(lines))
        lines[place] = misspelled(chance, lines[place])
    return text_of(lines)


def put_bad_line(chance, lines, turn):
    """Puts in the bad line whose turn it is, in most cases where nothing before it is bad."""
    kinds = (("end", BAD_OUTSIDE), ("lp", BAD_INSIDE), ("code", BAD_IN_CODE))
    all_bad = [(first, bad) for first, some in kinds for bad in some]
    first, bad = all_bad[turn * 53 % len(all_bad)]
    if first == "code" and chance.random() < 0.7:
        lines += ["code 7 7", "set 0 0", "end"]
    places = [place for place, line in enumerate(lines) if line.split()[:1] == [first]]
    place = chance.choice(places) + 1 if places and chance.random() < 0.9 else chance.randint(1, len(lines))

    def begun(keyword):
        """What blocks before that place are of."""
        return [" ".join(line.split()[1:]) for line in lines[:place] if line.split()[:1] == [keyword]]

    words = {
        "lp": chance.choice(begun("lp") or ["0"]),
        "code": chance.choice(begun("code") or ["0 0"]),
        "call": chance.choice([name for name in CALLS if name != BY_TOKEN]),
        "full": "\n".join(["add 0 0"] * 257),
        "slot": chance.choice(slots_of(lines) or ["0"]),
    }
    lines[place:place] = bad.format(**words).split("\n")


def repeat_a_slot(chance, lines):
    """Lets a line name the slot of an earlier one, where two lines name slots."""
    places = [place for place, line in enumerate(lines) if slots_of([line])]
    if len(places) > 1:
        first, second = sorted(chance.sample(places, 2))
        words = lines[second].split()
        words[1 + CALLS[words[0]].index("output")] = slots_of([lines[first]])[0]
        lines[second] = " ".join(words)


def slots_of(lines):
    """The slots that these lines name."""
    kinds = ((words[1:], CALLS[words[0]]) for words in map(str.split, lines) if words and words[0] in MAKE_BUNDLES)
    return [word for words, its in kinds for word, kind in zip(words, its) if kind == "output"]


def misspelled(chance, line):
    """The line with a character taken out, put in, or changed."""
    place = chance.randrange(len(line) + 1)
    put = chance.choice(("", " ", "x", "0", "*", "#", "\t", "9" * 20))
    return line[:place] + put + line[place + chance.randrange(2) :]


def long_script(chance, turn):
    """The bytes of a script at a limit of the grammar, or just beyond it."""
    begin = ["machine 1 8 1", "lp 0"]
    if turn % 3 == 0:
        return b"#" * SCRIPT_END + b"\n"
    if turn % 3 == 1:
        more = chance.choice(("schedule 0", "schedule 0*2", "schedule 0 0", "schedule 0 0 x"))
        return text_of([begin[0], f"schedule 0*{ITEMS - 1}", more])
    last = chance.choice(("end", "HOST.READ 1 1", "HOST.READ 1 1", "HOST.READ 1", "{", "HOST.READ x 1", "MEM.TRACK"))
    return text_of(begin + ["PHYMEM.CACHE.WB"] * CALLS_OF_A_PROCESSOR + [last, "end"])


# Command lines that name no script in form, or other files beside one. The names of OTHERS are there.
COMMANDS = (
    "", "replay", "replay none", "replay -x", "replay --", "replay - script", "replay none/none",
    "replay script script", "run script", "replay .", "replay script --keys=x", "check script", "soak 2",
    "replay -- script", "replay script --", "replay --guest-out=guest -- script", "replay script --guest-out -- guest",
    "check - script", "check -- script", "check -", "soak 0", "soak 513", "soak 02", "soak +2", "soak -2", "soak -- 2",
    "replay script/none", "soak", "script", "Replay script", "--help", "none script", "check", "check none",
    "check -x", "check script script", "check script --guest-out guest", "check .", "replay --guest-out script",
    "replay --guest-out guest script", "replay script --guest-out guest --guest-out guest",
    "replay script --guest-out -", "replay script --guest-out=guest", "replay script --guest-out",
    "replay none --guest-out guest", "run script --guest-out guest", "replay script --secrets script",
    "replay --guest-out guest --keys none script", "run", "run none", "run script script", "run script --keys=keys",
    "run --guest-out guest --secrets secrets script --keys keys", "run script --secrets none", "run script --secrets short",
    "replay script --secrets secrets", "replay --secrets secrets script --guest-out guest", "replay script --secrets",
    "replay script --secrets secrets --secrets secrets", "replay script --secrets=secrets", "replay script --secrets -",
    "replay script --secrets none", "replay script --secrets .", "replay script --secrets empty",
    "replay script --secrets short", "replay script --secrets long", "replay script --secrets most",
    "replay script --secrets far", "check script --secrets secrets", "replay bad --secrets none",
    "replay script --keys short --secrets short", "replay script --secrets none --keys short",
    "replay script --secrets none --keys nothing", "replay script --secrets short --bundles cut",
    "replay script --secrets none --bundles cut", "replay script --secrets short --guest-out none/none",
    "replay script --keys keys --secrets secrets --bundles bundles --out-bundles out --guest-out guest",
    "replay script --keys short --bundles cut", "replay script --keys long", "replay script --bundles cut",
    "run script --keys keys --secrets secrets --bundles bundles --out-bundles out --guest-out out",
    "verify report rkey", "verify upper rkey", "verify bare rkey", "verify behind rkey", "verify altered rkey",
    "verify renamed rkey", "verify letter rkey", "verify report other", "verify report rkey47", "verify report rkey49",
    "verify report far", "verify far rkey", "verify empty rkey", "verify none rkey47", "verify report none",
    "verify none none", "verify rkey rkey", "verify report", "verify report rkey rkey", "verify report rkey --keys keys",
    "replay reporting", "run reporting", "check reporting", "replay reporting --report-key report-key", "run reporting --report-key=rkey",
    "replay reporting --report-key rkey47", "run script --report-key rkey49", "replay script --report-key far",
    "replay script --report-key none", "replay reporting --secrets short", "replay reporting --report-key empty --secrets long",
    "replay script --report-key none --keys short", "replay reporting --keys short", "check reporting --report-key rkey",
    "replay --report-key rkey script --report-key rkey", "replay reporting --secrets none", "verify report --report-key rkey",
    "replay script --secrets secrets --report-key rkey47 --guest-out guest", "run reporting --report-key", "soak 1 --report-key rkey",
) + (
    "pair", "pair script script plan", "pair script script plan keys", "pair script script plan keys keys", "pair script bad plan keys",
    "pair script script cutplan keys", "pair script script plan short", "pair script script plan keys --keys keys",
    "pair script script plan keys --secrets secrets --guest-out guest", "pair --guest-out=guest script script -- plan keys",
    "pair none bad cutplan short", "pair bad none cutplan short", "pair script none plan keys", "pair script script none short",
    "pair script script cutplan none", "pair script script plan none", "pair reporting script plan keys", "pair script reporting plan keys",
    "pair reporting script plan keys --secrets short", "pair script script plan keys --secrets none", "pair script script far keys",
    "pair script script empty keys --secrets secrets --secrets secrets", "pair script script plan keys --out-bundles out",
) * ("pair" in SIDES) + (
    "chain", "chain keys plan", "chain keys plan script", "chain keys plan script script", "chain twokeys plan script script script",
    "chain keys plan script script script", "chain keys plan" + " script" * 8, "chain keys plan" + " script" * 9, "chain none none none none",
    "chain short cutplan bad none", "chain keys cutplan bad none", "chain keys plan bad none", "chain keys plan script none",
    "chain keys plan script reporting --secrets short", "chain keys plan script reporting", "chain keys cplan script script",
    "chain twokeys cplan script script script --guest-out guest --secrets secrets", "chain keys plan script script --keys keys",
    "chain -- keys plan script script", "chain far plan script script", "chain keys far script script",
) * ("chain" in SIDES)
# A report and its key, of facts of any bytes.
REPORT_KEY = bytes(range(7, 7 + KEY_BYTES))
MEASURED = bytes((7 * at) % 256 for at in range(240))
RTMRS = [MEASURED[at : at + 48] for at in range(48, 240, 48)]
REPORT = report_of(REPORT_KEY, MEASURED[:48], RTMRS, range(8)).hex().encode() + b"\n"
# What stands beside the script then: files in form, and others that are cut short or too long.
OTHERS = {
    "secrets": bytes(range(256)) * 16,
    "keys": bytes(range(64)),
    "bundles": b"TDXBNDL1",
    "empty": b"",
    "short": bytes(4095),
    "long": bytes(4097),
    "most": bytes(65_536),
    "far": bytes(65_537),
    "cut": b"TDXBNDL1" + bytes(3),
    "bad": b"machine 1 8 1\nlp 0\n",
    "report": REPORT,
    "upper": REPORT.upper(),
    "bare": REPORT[:-1],
    "behind": REPORT + b"\n",
    "altered": REPORT[:719] + (b"1" if REPORT[719:720] == b"0" else b"0") + b"\n",
    "renamed": b"6" + REPORT[1:],
    "letter": b"g" + REPORT[1:],
    "rkey": REPORT_KEY,
    "report-key": REPORT_KEY[::-1],
    "reporting": b"machine 1 8 1\ncode 1 0\nreport\nend\n",
    "other": REPORT_KEY[::-1],
    "rkey47": REPORT_KEY[1:],
    "rkey49": REPORT_KEY + b"\0",
    **({"plan": b"A 1\nB 2\n", "cutplan": b"A 1\nB 2", "cplan": b"C 1\n", "twokeys": bytes(128)} if SIDES else {}),
    **dict.fromkeys(command_lines.DASHED, b"machine 1 8 1\nlp 0\nPHYMEM.CACHE.WB\nend\n"),
}
LINES = 12 + 4 * HAS_LISTS  # random ones beside three of COMMANDS
# Lengths that a secrets file may not have, and those that a key file may not have.
BAD_LENGTHS = (0, 1, 8, 64, 512, 4088, 4095, 4097, 4104, 8192, 65_536, 65_537)
BAD_KEYS = (0, 1, 32, 63, 65, 128, 4096, 65_537)
BAD_REPORT_KEYS = (0, 1, 47, 49, 64, 720, 65_537)


def secrets_of(chance):
    """The bytes of a secrets file: any words, small ones, one word again and again, or all zeros."""
    words = [chance.getrandbits(64) for _ in range(512)]
    kind = chance.randrange(8)
    if kind == 0:
        words = [chance.randrange(4) for _ in words]
    elif kind == 1:
        words = [words[0]] * len(words)
    elif kind == 2:
        words = [0] * len(words)
    return struct.pack("<512Q", *words)


def with_secrets(chance, is_sure, words, script):
    """Those words of a command line with a secrets file, surely or in most cases, and all files: now and then one that
    isn't there, or that hasn't its length."""
    files = {"script": script}
    draw = max(is_sure, chance.random())
    if draw < 0.2:
        return words, files
    if draw > 0.03 + 0.2:
        files["secrets"] = secrets_of(chance)
    elif draw > 0.005 + 0.2:
        files["secrets"] = bytes(chance.choice(BAD_LENGTHS))
    return [*words, "--secrets", "secrets"], files


def with_keys(chance, scene, is_sure, words, files):
    """The same with a key file, surely or in nearly all cases, and with that of a script's scene."""
    draw = max(is_sure, chance.random())
    if draw < 0.06:
        return words, files
    if draw > 0.035 + 0.06 and scene is not None:
        files["keys"] = scene.keys
    elif draw > 0.015 + 0.06:
        files["keys"] = chance.randbytes(64)
    elif draw > 0.005 + 0.06:
        files["keys"] = bytes(chance.choice(BAD_KEYS))
    return [*words, "--keys", "keys"], files


def with_report_key(chance, is_sure, words, files):
    """The same with a report key file, surely or in nearly all cases."""
    draw = max(is_sure, chance.random())
    if draw < 0.02:
        return words, files
    files["report-key"] = chance.randbytes(KEY_BYTES) if draw > 0.025 else bytes(chance.choice(BAD_REPORT_KEYS))
    return [*words, "--report-key", "report-key"], files


def case(seed, place):
    """The case at that place: the words of command lines, and the files that are there by their names."""
    chance = Chance(f"{seed} {place}")
    round_, kind = divmod(place, KINDS_OF_A_ROUND)
    if kind == 0:
        given = [COMMANDS[(3 * round_ + place) % len(COMMANDS)].split() for place in range(3)]
        files = {"script": text_of(["machine 1 8 1"]), **OTHERS}
        return given + [command_lines.line(chance, files) for _ in range(LINES)], files
    script, scene = script_of(chance, round_, kind)
    words, files = with_keys(chance, scene, kind in RACES, *with_secrets(chance, kind in RACES, ["replay", "script"], script))
    words, files = with_report_key(chance, kind in RACES, words, files)
    if scene is not None:
        words, files = [*words, "--bundles", "bundles"], {**files, "bundles": bundles.container_of(scene.inputs)}
    return [words], files


def migration(seed, place):
    """The migration at that place: a script of its destination, or of its source to which a token comes back, and beside it
    the script of its source as far as its bundles."""
    chance = Chance(f"migration {seed} {place}")
    round_, kind = divmod(place, len(MIGRATIONS))
    script, scene = script_of(chance, round_, MIGRATIONS[kind])
    words, files = with_keys(chance, scene, True, *with_secrets(chance, False, ["replay", "script"], script))
    words, files = with_report_key(chance, True, words, files)
    its = scene.source
    lines = [f"machine 1 {its.scene.size} {its.scene.hkids}", "lp 0", *its.calls, "end", *joined(its.scene.code)]
    files |= {"source": text_of(lines), "bundles": bundles.container_of(scene.inputs)}
    return [[*words, "--bundles", "bundles"]], files


def script_of(chance, round_, kind):
    """The script of that round and kind, and its scene where it has one."""
    if kind == 1:
        return long_script(chance, round_), None
    if kind < 8:
        return faulty_script(chance, 6 * round_ + kind), None
    first = max(least for least in MAKES if least <= kind)
    make, kinds = MAKES[first]
    lines, scene = script_lines(chance, make, kinds * round_ + kind - first)
    return text_of(lines), scene


# By its first kind: what makes a script, and how many kinds it has in a round.
MAKES = {
    8: (story, 3), 11: (race, 8), 19: (crowd, 4), 23: (meeting, 4), 27: (noise, 1), 28: (session, 2), 30: (arrival, 3),
    33: (import_states, 2), 35: (gives_back, 1), 36: (arrived, 1),
} | ({37: (race_of_lists, 2)} if HAS_LISTS else {}) | ({39: (late_meeting, 1)} if HAS_LATE_PAGES else {})
KINDS_OF_A_ROUND = 40 if HAS_LATE_PAGES else 39 if HAS_LISTS else 37
RACES, MIGRATIONS = (*range(11, 19), *(37, 38) * HAS_LISTS), (*range(30, 37), *(39,) * HAS_LATE_PAGES)
