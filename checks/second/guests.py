"""Guest code of docs/profile.md: the events of a VCPU from its entry to its exit."""

import hashlib
import struct

from machine import EXCLUSIVELY, SHARED
from reports import report_of
from rows import GPA_END, PAGE_BYTES, entry_key, entry_state

READABLE = ("MAPPED", "BLOCKEDW", "EXPORTED_BLOCKEDW", "EXPORTED_DIRTY", "EXPORTED_DIRTY_BLOCKEDW")
WRITABLE = ("MAPPED", "EXPORTED_DIRTY")
TRANSLATIONS = 16


def drop_translations(processor, td_page, why):
    """Drops a TD's cached translations on a processor, and keeps why."""
    meet_translations(processor, td_page, f"dropped {why}")
    processor.translations = [kept for kept in processor.translations if kept[0] != td_page]
    if processor.translations:
        processor.machine.met.append("translations: left of another TD")


def meet_translations(processor, td_page, what):
    """Keeps what becomes of a TD's cached translations on a processor, and whether the map still says them."""
    td = processor.machine.tds[td_page]
    for _, number, page, _ in (kept for kept in processor.translations if kept[0] == td_page):
        gpa = number * PAGE_BYTES
        entry = td.entries.get(entry_key(gpa, 0))
        if entry is None:
            which = "of a page that was removed"
        elif entry.page != page:
            which = "where the map has another page"
        elif is_reached(td, gpa, 0) and entry.state in READABLE:
            which = "as the map says"
        else:
            which = "of a blocked page"
        processor.machine.met.append(f"translations: {what} {which}")


def is_reached(td, gpa, level):
    """Whether a walk at this moment reaches the entry of that level."""
    return all(entry_state(td, gpa, above) == "NL_MAPPED" for above in range(3, level, -1))


def first_gap(td, gpa):
    """Where a walk at this moment ends before level 0."""
    for level in (3, 2, 1):
        state = entry_state(td, gpa, level)
        if state != "NL_MAPPED":
            return f"at level {level} {state}"
    return None


class Guest:
    """A VCPU in guest on a processor, for at most so many operations."""

    def __init__(self, processor, td_page, vcpu_page, most):
        self.processor, self.machine = processor, processor.machine
        self.td_page, self.td = td_page, self.machine.tds[td_page]
        self.vcpu_page, self.vcpu = vcpu_page, self.td.vcpus[vcpu_page]
        self.code = self.machine.outside.code.get((td_page, self.vcpu.index), [])
        self.how = None  # what decided the operation
        self.most, self.completed = most, 0
        self.due = (None, self.vcpu.position)  # the operation that is due, and where it stands
        processor.inside = self

    def own_locks(self):
        """The locks that the operation holds, behind those of its VP.ENTER."""
        return [held for held in self.processor.held[3:] if held[0][0] != "E"]

    def done(self):
        """How many operations are over that go on behind: also one whose last event was the last one."""
        name, position = self.due
        over = self.vcpu.position > position and not self.own_locks() and name != "vmcall"
        return self.completed + over

    def meet_others(self):
        """Keeps how many guests are in at once, and whether of more than one TD."""
        tds = [sum(td.in_guest) for td in self.machine.tds.values()]
        self.machine.met.append(f"guests at once: {sum(tds)}")
        if sum(map(bool, tds)) > 1:
            self.machine.met.append("guests at once: of two TDs")

    def events(self, parity):
        """The events behind the act of the entry: the release of E, the operations, and the exit."""
        self.meet_others()
        self.processor.release()
        yield
        reason = yield from self.operations()
        self.processor.reply(f"EXIT {reason}")
        self.td.in_guest[parity] -= 1
        self.processor.saw("count")
        yield
        while True:
            self.processor.release()
            yield

    def operations(self):
        """The operations of this entry; answers the reason of the exit."""
        while True:
            if self.vcpu.position >= len(self.code):
                return "STOP"
            if self.completed == self.most:
                return "MAX"
            name, *operands = self.code[self.vcpu.position]
            self.how, self.due = None, (name, self.vcpu.position)
            reason = yield from OPERATIONS[name](self, *operands)
            self.meets(name, operands, reason)
            if reason is not None:
                return reason
            self.completed, self.due = self.completed + 1, (None, self.vcpu.position)

    def meets(self, name, operands, reason):
        """Keeps what came of an operation, without the numbers that it shows."""
        if name in ("load", "store"):
            name += " shared" if operands[1] >= GPA_END else " private"
        came = "completed" if reason is None else " ".join(reason.split()[: 2 if reason.startswith("BUSY") else 1])
        self.machine.met.append(f"{name}: {came}" + (f" {self.how}" if self.how else ""))

    def complete(self):
        """The operation is completed."""
        self.vcpu.position += 1
        self.processor.saw("act")

    def note(self, line):
        """Puts a line of this entry into the guest file."""
        self.processor.guest_lines.append(f"{self.processor.number}.{self.processor.made + 1} {line}")

    def attempt(self, lock, weight):
        """The operation's own try of a lock, with its undo; answers whether it is held."""
        granted = self.processor.take(lock, weight)
        yield
        if not granted and weight == SHARED:
            self.processor.take_back(lock)
            yield
        return granted

    def release(self):
        """The release of the operation's own lock."""
        self.processor.release()
        yield

    def set(self, register, value):
        """`set R V`"""
        self.vcpu.registers[register] = value
        self.complete()
        yield

    def secret(self, register, place):
        """`secret R K`"""
        yield from self.set(register, self.machine.outside.secrets[place])

    def add(self, register, other):
        """`add R S`"""
        registers = self.vcpu.registers
        yield from self.set(register, (registers[register] + registers[other]) % 2**64)

    def vmcall(self, register):
        """`vmcall R`"""
        value = self.machine.tell(self.vcpu.registers[register])
        self.complete()
        yield
        return f"VMCALL {value}"

    def rtmr(self, place):
        """`rtmr I`"""
        if not (yield from self.attempt(("R", self.td_page), EXCLUSIVELY)):
            return "BUSY R"
        added = struct.pack("<6Q", *self.vcpu.registers[:6])
        self.td.rtmrs[place] = hashlib.sha384(self.td.rtmrs[place] + added).digest()
        self.note(f"rtmr {place} {self.td.rtmrs[place].hex()}")
        self.complete()
        yield
        yield from self.release()
        return None

    def report(self):
        """`report`"""
        if not (yield from self.attempt(("R", self.td_page), SHARED)):
            return "BUSY R"
        key, mrtd = self.machine.outside.report_key, bytes.fromhex(self.td.mrtd)
        self.note(f"report {report_of(key, mrtd, self.td.rtmrs, self.vcpu.registers).hex()}")
        self.complete()
        yield
        yield from self.release()
        return None

    def load(self, register, gpa):
        """`load R GPA`"""
        return (yield from self.access(register, gpa, False))

    def store(self, register, gpa):
        """`store R GPA`"""
        return (yield from self.access(register, gpa, True))

    def access(self, register, gpa, writes):
        """A load or a store."""
        violation = f"EPT_VIOLATION {gpa:#x} {'WRITE' if writes else 'READ'}"
        if gpa >= GPA_END:
            return (yield from self.shared_access(register, gpa, writes, violation))
        translation = self.translation(gpa, writes)
        if translation is None:
            self.how = "by a walk"
            translation = yield from self.walk(gpa, writes)
        else:
            self.how = "by a translation"
            if not self.allows_reading(gpa):
                self.how = "by a translation of a blocked entry"
            elif writes and not self.allows_writing(gpa):
                self.how = "by a translation of an entry blocked for writing"
        if translation is None:
            return violation
        if self.how.startswith("by a walk") and not self.allows_reading(gpa):
            self.how = "by a walk with a block behind it"
        elif self.how.startswith("by a walk") and writes and not self.allows_writing(gpa):
            self.how = "by a walk with a block for writing behind it"
        self.move(register, gpa, translation[2], self.vcpu.registers[register] if writes else None)
        self.processor.saw("access", access="WRITE" if writes else "READ", gpa=gpa, page=translation[2], word=gpa % PAGE_BYTES // 8)
        yield
        return None

    def move(self, register, gpa, page, stored):
        """The access to the word of that page, which completes the operation: a load, or the store of a word."""
        words, place = self.machine.pages[page].words, gpa % PAGE_BYTES // 8
        if stored is not None:
            words[place] = stored
        else:
            self.vcpu.registers[register] = words.get(place, 0)
            self.note(f"load {gpa:#x} {self.vcpu.registers[register]}")
        self.complete()

    def translation(self, gpa, writes):
        """The cached translation that allows the access, or None."""
        wanted = (self.td_page, gpa // PAGE_BYTES)
        for kept in self.processor.translations:
            if kept[:2] == wanted and (kept[3] or not writes):
                return kept
        return None

    def allows_reading(self, gpa):
        """Whether a walk at this moment would end at an entry that allows reading."""
        return is_reached(self.td, gpa, 0) and entry_state(self.td, gpa, 0) in READABLE

    def allows_writing(self, gpa):
        """Whether the entry at the end of such a walk allows writing too."""
        return entry_state(self.td, gpa, 0) in WRITABLE

    def walk(self, gpa, writes):
        """The walk to a private page, entry by entry; answers the translation that it has cached, or None."""
        was_reached = is_reached(self.td, gpa, 0)
        was_missing = self.td.op == "LIVE_IMPORT" and entry_state(self.td, gpa, 0) == "FREE"
        for level in (3, 2, 1):
            state = entry_state(self.td, gpa, level)
            reached = state == "NL_MAPPED"
            if not reached:
                self.how = f"at level {level} {state}"
            self.processor.saw("walk", gpa=gpa, level=level)
            yield
            if not reached:
                return None
        state = entry_state(self.td, gpa, 0)
        self.processor.saw("walk", gpa=gpa, level=0)
        if state not in (WRITABLE if writes else READABLE):
            self.how = f"at {state}"
            yield
            return None
        if not was_reached:
            self.how = "by a walk whose way was made meanwhile"
        elif was_missing:
            self.how = "by a walk whose page came meanwhile"
        page = self.td.entries[entry_key(gpa, 0)].page
        found = (self.td_page, gpa // PAGE_BYTES, page, state in WRITABLE)
        others = [kept for kept in self.processor.translations if kept[:2] != found[:2]]
        if len(others) == TRANSLATIONS:
            self.how = "by a walk that drops the oldest translation"
        self.processor.translations = [*others, found][-TRANSLATIONS:]
        yield
        return found

    def shared_access(self, register, gpa, writes, violation):
        """A load or a store at a shared GPA."""
        page = (gpa - GPA_END) // PAGE_BYTES
        if page not in self.machine.ranges["page"] or page == self.vcpu_page:
            self.how = "at its own TDVPR page" if page == self.vcpu_page else "at no page"
            self.processor.saw("act")
            yield
            return violation
        if not (yield from self.attempt(("P", page), SHARED)):
            return f"BUSY P {page}"
        allowed = self.machine.pages[page].kind == "PT_NDA"
        if allowed:
            self.move(register, gpa, page, self.machine.tell(self.vcpu.registers[register]) if writes else None)
        else:
            self.how = "at a page of a TD"
            self.processor.saw("act")
        yield
        yield from self.release()
        return None if allowed else violation

    def accept(self, gpa):
        """`accept GPA`"""
        violation = f"EPT_VIOLATION {gpa:#x} WRITE"
        if not (yield from self.attempt(("T", self.td_page), SHARED)):
            return "BUSY T"
        gap = first_gap(self.td, gpa)
        entry = None if gap else self.td.entries.get(entry_key(gpa, 0))
        if entry is None:
            self.how = gap or "at FREE"
            self.processor.saw("act")
            yield
            yield from self.release()
            return violation
        if not (yield from self.attempt(("P", entry.page), EXCLUSIVELY)):
            yield from self.release()
            return f"BUSY P {entry.page}"
        self.how = f"at {entry.state}"
        if entry.state == "PENDING":
            entry.state = "MAPPED"
            self.machine.pages[entry.page].words = {}
        allowed = entry.state in READABLE
        self.processor.saw("act")
        if allowed:
            self.complete()
        yield
        yield from self.release()
        yield from self.release()
        return None if allowed else violation


OPERATIONS = {
    "set": Guest.set,
    "secret": Guest.secret,
    "add": Guest.add,
    "load": Guest.load,
    "store": Guest.store,
    "accept": Guest.accept,
    "rtmr": Guest.rtmr,
    "report": Guest.report,
    "vmcall": Guest.vmcall,
}
