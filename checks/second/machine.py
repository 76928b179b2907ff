"""The machine of docs/profile.md: its state, and processors that make its events one by one.

The state is the flat one, of pages, TDs and HKIDs. A lock is its lock word. The rows of the calls stand
in rows.py, as generators: each goes through its conditions and tries from the beginning, gives out each
try, raises Refused where a condition fails, and at its end answers the effect.
"""

from collections import defaultdict
from types import GeneratorType

EXCLUSIVELY = 1 << 63  # bit 63 of a lock word: somebody holds it alone
SHARED = 1  # the low bits: sharers, and those who are being refused

KEY_TABLE = ("K",)


class Refused(Exception):
    """A condition that failed, with the reply: a status and what it shows."""


class Page:
    """A page's metadata and its words. A word that isn't listed is 0."""

    def __init__(self):
        self.give_back()

    def give_back(self):
        """The page is the host's, and empty."""
        self.kind, self.owner, self.epoch, self.words = "PT_NDA", 0, 0, {}

    def take(self, kind, owner, words=()):
        """The page has that kind and owner, and these words."""
        self.kind, self.owner, self.epoch, self.words = kind, owner, 0, dict(words)


class Hkid:
    """An entry of the key table."""

    def __init__(self):
        self.state, self.written_back = "HKID_FREE", False


class Entry:
    """An entry of a secure EPT that isn't FREE, with the migration epoch of its page's last export."""

    def __init__(self, state, page):
        self.state, self.page, self.mark = state, page, 0


class Vcpu:
    """What a TDVPR page keeps. The position is that in its list of operations, the session that of its
    last export."""

    def __init__(self, index):
        self.index, self.state = index, "CREATED"
        self.processor, self.last_epoch = None, 0
        self.position, self.session, self.registers = 0, 0, [0] * 8


class Stream:
    """A migration stream: its page, and its bundle counter."""

    def __init__(self, page):
        self.page, self.counter = page, 0


class Td:
    """What the TDR page and the TDCS page of a TD keep, with its secure EPT and its VCPUs."""

    def __init__(self, hkid):
        self.life, self.hkid, self.children = "TD_HKID_ASSIGNED", hkid, 0
        self.control_pages = []
        self.op, self.epoch = "UNINITIALIZED", 0
        self.measured, self.mrtd = None, None
        self.entries = {}  # by level and by the number of its range of addresses
        self.vcpus = {}  # by TDVPR page, in the order of their indexes
        self.in_guest = [0, 0]  # VCPUs in guest that entered in an even and in an odd epoch
        self.rtmrs = [bytes(48)] * 4
        self.streams, self.session, self.migration_epoch = [], 0, 0
        self.state_exported, self.expected_vcpus = False, 0


class Outside:
    """What a run is given, and the bundles that it makes: the lists of operations by TDR page and index,
    input bundles by slot, the key from source to destination and the key back, the secret words; where guests
    don't tell what they have, the words that they tell; the key of reports; and the two keys of exports, where
    they aren't those of imports."""

    def __init__(
        self, code=None, inputs=None, keys=bytes(64), secrets=(0,) * 512, tells=None, report_key=bytes(48), export_keys=None
    ):
        self.code, self.inputs, self.keys, self.secrets = code or {}, inputs or {}, keys, secrets
        self.tells, self.report_key, self.export_keys = tells, report_key, export_keys or keys
        self.outputs = {}


class Machine:
    """The pages, HKIDs, TDs and lock words that processors share, and what comes from outside."""

    def __init__(self, processors, pages, hkids, outside=None):
        self.processors, self.outside = processors, outside or Outside()
        self.last_exported, self.last_imported = 0, 0
        self.pages = defaultdict(Page)  # by number; one that isn't listed is the host's, and empty
        self.ranges = {"page": range(pages), "hkid": range(1, hkids + 1)}
        self.hkids = {number: Hkid() for number in range(1, hkids + 1)}
        self.tds = {}  # by TDR page
        self.locks = defaultdict(int)
        self.last = None  # the processor that made the last event
        self.told = []  # the words that guests told the host, in the order of events
        self.met = []  # what came of guests and beside them, for coverage.py

    def takes(self, td_page, page, kind, words=()):
        """The TD takes that page as a child."""
        self.pages[page].take(kind, td_page, words)
        self.tds[td_page].children += 1

    def gives_back(self, td_page, page):
        """The page of that TD is the host's again; with its TDR page the TD is gone."""
        self.pages[page].give_back()
        if page == td_page:
            del self.tds[td_page]
        else:
            self.tds[td_page].children -= 1

    def tell(self, word):
        """A guest tells that word, or the next of those that it is to tell; answers which."""
        if self.outside.tells is not None:
            word = self.outside.tells[len(self.told)]
        self.told.append(word)
        return word

    def try_shared(self, lock):
        """The shared try of a lock, which counts even where it is denied."""
        granted = self.locks[lock] < EXCLUSIVELY
        self.locks[lock] += SHARED
        return granted

    def try_exclusive(self, lock):
        """The exclusive try of a lock, which is granted where nobody is at it."""
        granted = self.locks[lock] == 0
        if granted:
            self.locks[lock] = EXCLUSIVELY
        return granted


def lock_name(lock):
    """How a reply names a lock."""
    return f"P {lock[1]}" if lock[0] == "P" else lock[0]


class Processor:
    """A logical processor with its calls, each a name and its arguments. It makes one event at a time."""

    def __init__(self, machine, number, calls, row):
        self.machine, self.number, self.calls, self.row = machine, number, calls, row
        self.replies = []  # of each call the reply, and how many locks the call had
        self.translations = []  # cached ones, oldest first
        self.seen = None  # the last event: what it was, of which lock, by which weight, and more
        self.guest_lines = []
        self.made = 0
        self.begin()

    def begin(self):
        """The next call has made no event."""
        self.held, self.undo, self.replied, self.guest, self.inside, self.tries = [], None, False, None, None, None

    def has_ended(self):
        """Whether no line is left."""
        return self.made == len(self.calls)

    def event(self):
        """Makes the next event, and answers whether there was one; does nothing where no line is left."""
        if self.made == len(self.calls):
            return False
        if self.machine.last is not self:
            self.machine.last, self.tries = self, None
        if self.guest is not None:
            next(self.guest)
        elif not self.replied:
            self.go_on()
        elif self.undo is not None:
            self.take_back(self.undo)
            self.undo = None
        else:
            self.release()
        if self.replied and not self.held and self.undo is None:
            self.made += 1
            self.begin()
        return True

    def begin_row(self):
        """Goes through the call's row from its beginning, over the tries already granted."""
        self.tries = self.row(self, *self.calls[self.made])
        for _ in self.held:
            next(self.tries)

    def go_on(self):
        """The event that the call's row gives next: a try, or the act. The row begins anew, unless no other processor
        has made an event since its last one, so that all is as it was. The act of VP.ENTER answers the events of the
        guest."""
        try:
            if self.tries is None:
                self.begin_row()
            self.attempt(*next(self.tries))
        except Refused as refusal:
            self.saw("act")
            self.reply(str(refusal))
        except StopIteration as end:
            value = end.value()
            self.saw("act")
            if isinstance(value, GeneratorType):
                self.guest = value
            else:
                self.reply("SUCCESS" if value is None else f"SUCCESS {value}")

    def attempt(self, lock, weight):
        """A try of a lock. A denied one is the call's reply, and a shared one is to be undone."""
        if self.take(lock, weight):
            return
        self.undo = lock if weight == SHARED else None
        self.reply(f"OPERAND_BUSY {lock_name(lock)}")

    def take(self, lock, weight):
        """Tries a lock, and answers whether it is held."""
        granted = self.machine.try_shared(lock) if weight == SHARED else self.machine.try_exclusive(lock)
        if granted:
            self.held.append((lock, weight))
        self.saw("try" if granted else "denied", lock, weight)
        return granted

    def take_back(self, lock):
        """The undo of a denied shared try."""
        self.machine.locks[lock] -= SHARED
        self.saw("undo", lock, SHARED)

    def release(self):
        """Releases the lock that was taken last."""
        lock, weight = self.held.pop()
        self.machine.locks[lock] -= weight
        self.saw("release", lock, weight)

    def saw(self, what, lock=None, weight=None, **more):
        """The event that is being made is this one, and what else is told of it."""
        self.seen = what, lock, weight, more

    def reply(self, text):
        """The call has its reply, and releases its locks from now on."""
        self.replies.append((text, len(self.held)))
        self.replied = True


def run(processors, schedule):
    """Runs processors by a schedule, and then each to its end, in the order of their numbers."""
    for number in schedule:
        if not processors[number].event() and all(processor.has_ended() for processor in processors):
            break
    for processor in processors:
        while processor.event():
            pass
