"""What is told of a state of the second model, line by line, as docs/guide/looking.md has it: each line for reading, with the
same as an object."""

from machine import EXCLUSIVELY
from tracing import turns_of


def told(what, *fields):
    """A line, and its object, which says first what it tells. A field is what stands before its value for reading, its name and
    its value; and how that is written for reading, where it isn't as it is."""
    text = "".join(f"{label}{its[-1]}" for label, _, *its in fields)
    return text, {"what": what, **{name: its[0] for _, name, *its in fields}}


def td_lines(page, td):
    """A TD by its TDR page: its life, and what its TDCS says."""
    hkid = [(" HKID ", "hkid", td.hkid)] * (td.life != "TD_TEARDOWN")
    yield told("td", ("td ", "td", page), (" ", "life", td.life), *hkid, (" children ", "children", td.children))
    if td.life != "TD_TEARDOWN" and td.control_pages:
        yield told(
            "tdcs",
            ("td ", "td", page),
            (" TDCS ", "page", td.control_pages[0]),
            (" ", "op", td.op),
            (" TD_EPOCH ", "td_epoch", td.epoch),
            (" in guest ", "in_guest", td.in_guest[td.epoch % 2]),
            (" before ", "in_guest_before", td.in_guest[(td.epoch + 1) % 2]),
            (" vcpus ", "vcpus", len(td.vcpus)),
            (" streams ", "streams", len(td.streams)),
            (" session ", "session", td.session),
            (" epoch ", "migration_epoch", td.migration_epoch),
        )


def entry_lines(page, td, level=3, number=0):
    """The entries of a TD's secure EPT that aren't FREE, each with those below it: at this level, below that of this number."""
    for at in sorted(each for on, each in td.entries if on == level and each // 512 == number):
        entry, gpa = td.entries[level, at], at * 4096 * 512**level
        mark = [(" mark ", "mark", entry.mark)] * bool(entry.mark)
        its = (" ", "state", entry.state), (" page ", "page", entry.page), *mark
        yield told("entry", ("entry ", "gpa", gpa, f"0x{gpa:x}"), (" level ", "level", level), (" of ", "td", page), *its)
        if level:
            yield from entry_lines(page, td, level - 1, at)


def vcpu_line(page, vcpu):
    """A virtual processor, with the logical one that it is associated with."""
    last = [(" lp ", "processor", vcpu.processor), (" TD_EPOCH ", "td_epoch", vcpu.last_epoch)] * (vcpu.processor is not None)
    return told("vcpu", ("vcpu ", "vcpu", page), (" index ", "index", vcpu.index), (" ", "state", vcpu.state), (" position ", "position", vcpu.position), *last)


def page_lines(machine, number):
    """A page that isn't the host's, with what it has."""
    page = machine.pages[number]
    if page.kind == "PT_NDA":
        return
    epoch = [(" BEPOCH ", "bepoch", page.epoch)] * bool(page.epoch)
    yield told("page", ("page ", "page", number), (" ", "kind", page.kind), (" of ", "td", page.owner), *epoch)
    td = machine.tds[page.owner]
    if page.kind == "PT_TDR":
        yield from td_lines(number, td)
        if td.life != "TD_TEARDOWN":
            yield from entry_lines(number, td)
    elif td.life != "TD_TEARDOWN":
        if page.kind == "PT_TDVPR":
            yield vcpu_line(number, td.vcpus[number])
        for stream in td.streams:
            if stream.page == number:
                yield told("stream", ("stream ", "stream", number), (" counter ", "counter", stream.counter))


def lock_line(number, holder, lock, weight):
    """A lock that a logical processor holds."""
    name = f"P {lock[-1]}" if lock[0] == "P" else lock[0]
    td = [(" of ", "td", lock[-1])] * (lock[0] not in "PK")
    mode = "exclusive" if weight == EXCLUSIVELY else "shared"
    return told("holds", ("lp ", "processor", number), (" ", "holder", holder), (" holds ", "lock", name), *td, (" ", "mode", mode))


def processor_lines(processor):
    """A logical processor: its calls, its locks, its guest, and its cached translations."""
    own, guest = ("lp ", "processor", processor.number), None if processor.replied else processor.inside
    yield told("done", own, (" done ", "done", processor.made), (" of ", "calls", len(processor.calls)))
    inner = guest.own_locks() if guest else []
    yield from (lock_line(processor.number, "call", *held) for held in processor.held[: len(processor.held) - len(inner)])
    if guest:
        its = (" completed ", "completed", guest.done()), (" of ", "most", guest.most)
        yield told("guest", own, (" in guest of ", "td", guest.td_page), (" vcpu ", "vcpu", guest.vcpu_page), *its)
        yield from (lock_line(processor.number, "guest", *held) for held in inner)
    for td_page, gpa_page, page, writable in processor.translations:
        access = "READ WRITE" if writable else "READ"
        gpa = (" cached ", "gpa", gpa_page * 4096, f"0x{gpa_page:x}000")
        yield told("cached", own, gpa, (" of ", "td", td_page), (" page ", "page", page), (" ", "access", access))


def state_lines(processors):
    """All pages, and then all processors."""
    machine = processors[0].machine
    lines = [line for number in machine.ranges["page"] for line in page_lines(machine, number)]
    return lines + [line for processor in processors for line in processor_lines(processor)]


def states_after(processors, schedule, counts):
    """The lines after each of these numbers of events, which rise; after all of them where there are fewer."""
    made, turns = 0, (processor for processor in turns_of(processors, schedule) if not processor.has_ended())
    for count in counts:
        while made < count and (processor := next(turns, None)):
            processor.event()
            made += 1
        yield count, state_lines(processors)
