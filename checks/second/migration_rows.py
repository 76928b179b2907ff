"""The rows of export and import, in the order of docs/profile.md."""

import struct

import bundles
import features
from bundles import ABORT_TOKEN, EPOCH_TOKEN, IMMUTABLE, MEMORY, START_TOKEN, TD_STATE, VCPU_STATE, Header
from machine import EXCLUSIVELY, KEY_TABLE, SHARED, Entry, Stream
from memory_rows import meet_guests, need_tracked
from rows import (
    PAGE_BYTES, entry_key, entry_state, need, need_entry, need_free, of_page, td_with_op, vcpu_at, walk,
)

FILLING = ("MEMORY_IMPORT", "STATE_IMPORT")
# The further op states in which pages go out and come in. A list doesn't come in while guests run: no walk finds half of one.
LATE_EXPORT = ("POST_EXPORT",) * features.has(features.LATE_PAGES)
LATE_IMPORT = ("POST_IMPORT", "LIVE_IMPORT") * features.has(features.LATE_PAGES)
COUNTER_END = 2**32 - 1
LAST_EPOCH = 2**32 - 1
SESSION_END = 65_535
DIRTY = ("EXPORTED_DIRTY", "EXPORTED_DIRTY_BLOCKEDW")
EXPORTED = ("EXPORTED_BLOCKEDW", *DIRTY)
BLOCKED = {"MAPPED": "BLOCKEDW", "EXPORTED_DIRTY": "EXPORTED_DIRTY_BLOCKEDW"}
UNBLOCKED = {"BLOCKEDW": "MAPPED", "EXPORTED_BLOCKEDW": "EXPORTED_DIRTY", "EXPORTED_DIRTY_BLOCKEDW": "EXPORTED_DIRTY"}

# The calls of which one may have a list of pages, and the argument that it has then.
LISTS = ("EXPORT.MEM", "IMPORT.MEM") * features.has(features.LISTS)
COUNT = ("count",) * features.has(features.LISTS)
OF_A_LIST = "{} of a list"  # the name of a call that has one

ARGUMENTS = {
    "MIG.STREAM.CREATE": ("page", "page"),
    "EXPORT.STATE.IMMUTABLE": ("page", "output"),
    "EXPORT.BLOCKW": ("page", "gpa"),
    "EXPORT.UNBLOCKW": ("page", "gpa"),
    "EXPORT.MEM": ("page", "gpa", "stream", "output", *COUNT),
    "EXPORT.TRACK": ("page", "output", "start"),
    "EXPORT.PAUSE": ("page",),
    "EXPORT.STATE.TD": ("page", "output"),
    "EXPORT.STATE.VP": ("page", "page", "output"),
    "EXPORT.ABORT": ("page", "input"),
    "EXPORT.RESTORE": ("page", "gpa"),
    "IMPORT.STATE.IMMUTABLE": ("page", "input"),
    "IMPORT.MEM": ("page", "input", "page", *COUNT),
    "IMPORT.TRACK": ("page", "input"),
    "IMPORT.STATE.TD": ("page", "input"),
    "IMPORT.STATE.VP": ("page", "page", "input"),
    "IMPORT.COMMIT": ("page",),
    "IMPORT.END": ("page",),
    "IMPORT.ABORT": ("page", "output"),
}


# Bundles


def make(machine, td, slot, kind, payload=b"", stream=0, version=1, **fields):
    """Makes a bundle of the TD's session in a slot, and raises its stream's counter."""
    counter = td.streams[stream].counter
    shown = {"epoch": td.migration_epoch, "index": 0, "info": 0, "gpa": 0, "total": 0} | fields
    header = Header(64, version, stream, kind, 0, counter, iv=counter, session=td.session, **shown)
    machine.outside.outputs[slot] = bundles.seal(machine.outside.export_keys, header, payload)
    machine.met.append(f"bundles: made of type {kind}")
    td.streams[stream].counter += 1


def bundles_made(td):
    """The session's bundles, on all streams."""
    return sum(stream.counter for stream in td.streams)


def take_input(machine, slot, *kinds):
    """The input bundle at a slot, with its header."""
    bundle = machine.outside.inputs.get(slot)
    need(bundle is not None, f"NO_BUNDLE {slot}")
    fault = bundles.form_fault(bundle)
    need(fault is None, f"BUNDLE_HEADER {fault}")
    header = bundles.header_of(bundle)
    need(header.type in kinds, "BUNDLE_HEADER TYPE")
    return bundle, header


def need_header(header, **due):
    """The header's fields are the ones due."""
    for name, value in due.items():
        need(getattr(header, name) == value, f"BUNDLE_HEADER {name.upper()}")


def need_counter(header, due):
    """The header's counter is the one due."""
    need(header.counter == due, f"BUNDLE_COUNTER {due} {header.counter}")


def need_stream(td, number):
    """The stream was created."""
    need(number < len(td.streams), f"NO_STREAM {number}")


def need_room(td, number):
    """The stream's counter has room."""
    need(td.streams[number].counter < COUNTER_END, "COUNTER_LIMIT MB")


def meet_entry(machine, name, td, entry):
    """Keeps at which state of an entry a call succeeds, and in which state of its TD."""
    machine.met.append(f"{name}: SUCCESS at {entry.state} in {td.op}")


def in_states(td, states):
    """How many entries are in one of these states."""
    return sum(entry.state in states for entry in td.entries.values())


# Export


def stream_create(machine, td_page, page):
    """MIG.STREAM.CREATE TDR PAGE"""
    td = yield from td_with_op(machine, td_page, EXCLUSIVELY, "UNINITIALIZED", "INITIALIZED", "RUNNABLE")
    need(len(td.streams) < 4, "LIMIT STREAMS")
    yield of_page(page, EXCLUSIVELY)
    need_free(machine, page)

    def effect():
        machine.takes(td_page, page, "PT_MIGSC")
        td.streams.append(Stream(page))

    return effect


def export_immutable(machine, td_page, slot):
    """EXPORT.STATE.IMMUTABLE TDR SLOT"""
    td = yield from td_with_op(machine, td_page, EXCLUSIVELY, "RUNNABLE")
    yield KEY_TABLE, EXCLUSIVELY
    need_stream(td, 0)
    unrestored = in_states(td, EXPORTED)
    need(unrestored == 0, f"UNRESTORED_PAGES {unrestored}")
    need(machine.last_exported < SESSION_END, "COUNTER_LIMIT SESSION")

    def effect():
        machine.last_exported += 1
        td.session, td.migration_epoch, td.state_exported = machine.last_exported, 1, False
        for stream in td.streams:
            stream.counter = 0
        for vcpu in td.vcpus.values():
            vcpu.session = 0
        make(machine, td, slot, IMMUTABLE, bytes.fromhex(td.mrtd), info=len(td.vcpus))
        td.op = "LIVE_EXPORT"

    return effect


def export_blockw(machine, td_page, gpa):
    """EXPORT.BLOCKW TDR GPA"""
    td = yield from td_with_op(machine, td_page, SHARED, "LIVE_EXPORT")
    yield ("T", td_page), SHARED
    yield ("E", td_page), SHARED
    entry = yield from mapped_page(td, gpa)
    need_entry(td, gpa, 0, *BLOCKED)

    def effect():
        meet_entry(machine, "EXPORT.BLOCKW", td, entry)
        entry.state = BLOCKED[entry.state]
        machine.pages[entry.page].epoch = td.epoch

    return effect


def mapped_page(td, gpa):
    """The walk to an entry that has a page, and the try of that page's lock."""
    walk(td, gpa, 0)
    need(entry_state(td, gpa, 0) != "FREE", "EPT_ENTRY_STATE_INCORRECT FREE")
    entry = td.entries[entry_key(gpa, 0)]
    yield of_page(entry.page, EXCLUSIVELY)
    return entry


def export_unblockw(machine, td_page, gpa):
    """EXPORT.UNBLOCKW TDR GPA"""
    td = yield from td_with_op(machine, td_page, SHARED, "LIVE_EXPORT")
    entry = yield from entry_alone(td, td_page, gpa, *UNBLOCKED)

    def effect():
        meet_entry(machine, "EXPORT.UNBLOCKW", td, entry)
        entry.state = UNBLOCKED[entry.state]

    return effect


def entry_alone(td, td_page, gpa, *states):
    """T held alone, the walk to an entry in one of these states, and the try of its page's lock."""
    yield ("T", td_page), EXCLUSIVELY
    walk(td, gpa, 0)
    need_entry(td, gpa, 0, *states)
    entry = td.entries[entry_key(gpa, 0)]
    yield of_page(entry.page, EXCLUSIVELY)
    return entry


def export_mem(machine, td_page, gpa, stream, slot, count=None):
    """EXPORT.MEM TDR GPA STREAM SLOT [COUNT]"""
    td = yield from td_with_op(machine, td_page, SHARED, "LIVE_EXPORT", "PAUSED_EXPORT", *LATE_EXPORT)
    live, name = td.op == "LIVE_EXPORT", "EXPORT.MEM" if count is None else OF_A_LIST.format("EXPORT.MEM")
    need_stream(td, stream)
    yield ("T", td_page), SHARED
    yield ("E", td_page), SHARED
    entries = []
    for at in gpas_from(gpa, count):
        entry = yield from mapped_page(td, at)
        need_entry(td, at, 0, "BLOCKEDW", "EXPORTED_DIRTY_BLOCKEDW", *(() if live else ("MAPPED", "EXPORTED_DIRTY")))
        need(entry.mark != td.migration_epoch, "EXPORTED_THIS_EPOCH")
        entries.append(entry)
    yield of_page(td.streams[stream].page, EXCLUSIVELY)
    need_room(td, stream)
    if live:
        need_tracked(machine, td, max((entry.page for entry in entries), key=lambda page: machine.pages[page].epoch), name)

    def effect():
        meet_guests(machine, td, name)
        payload = b"".join(page_bytes(machine.pages[entry.page]) for entry in entries)
        form = {} if count is None else {"version": 2, "info": count}
        make(machine, td, slot, MEMORY, payload, stream, gpa=gpa, **form)
        for entry in entries:
            meet_entry(machine, name, td, entry)
            entry.state, entry.mark = "EXPORTED_BLOCKEDW", td.migration_epoch

    return effect


def gpas_from(gpa, count):
    """The GPAs of a list of so many pages, or of the one page where there is no list."""
    return [gpa + PAGE_BYTES * place for place in range(1 if count is None else count)]


def page_bytes(page):
    """The words of a page as a payload has them."""
    return struct.pack("<512Q", *(page.words.get(place, 0) for place in range(512)))


def export_track(machine, td_page, slot, start):
    """EXPORT.TRACK TDR SLOT START"""
    ops = ("PAUSED_EXPORT",) if start else ("LIVE_EXPORT", "PAUSED_EXPORT")
    td = yield from td_with_op(machine, td_page, EXCLUSIVELY, *ops)
    yield ("T", td_page), EXCLUSIVELY
    need_room(td, 0)
    if not start:
        need(td.migration_epoch < LAST_EPOCH - 1, "COUNTER_LIMIT MIG_EPOCH")
    else:
        missing = (not td.state_exported) + sum(vcpu.session != td.session for vcpu in td.vcpus.values())
        need(missing == 0, f"STATE_MISSING {missing}")
        dirty = in_states(td, DIRTY)
        need(dirty == 0, f"DIRTY_PAGES {dirty}")

    def effect():
        td.migration_epoch = LAST_EPOCH if start else td.migration_epoch + 1
        td.op = "POST_EXPORT" if start else td.op
        make(machine, td, slot, START_TOKEN if start else EPOCH_TOKEN, total=bundles_made(td))

    return effect


def changes_op(op, *before):
    """The row that holds O and T alone, and changes the op state from one of those."""

    def changes(machine, td_page):
        """The row of that call."""
        td = yield from td_with_op(machine, td_page, EXCLUSIVELY, *before)
        yield ("T", td_page), EXCLUSIVELY

        def effect():
            td.op = op

        return effect

    return changes


def export_td(machine, td_page, slot):
    """EXPORT.STATE.TD TDR SLOT"""
    td = yield from td_with_op(machine, td_page, EXCLUSIVELY, "PAUSED_EXPORT")
    need(not td.state_exported, "ALREADY_EXPORTED")
    need_room(td, 0)

    def effect():
        make(machine, td, slot, TD_STATE, b"".join(td.rtmrs))
        td.state_exported = True

    return effect


def export_vp(machine, td_page, page, slot):
    """EXPORT.STATE.VP TDR VP SLOT"""
    td = yield from td_with_op(machine, td_page, EXCLUSIVELY, "PAUSED_EXPORT")
    yield of_page(page, EXCLUSIVELY)
    vcpu = vcpu_at(machine, td_page, page)
    need(vcpu.session != td.session, "ALREADY_EXPORTED")
    need_room(td, 0)

    def effect():
        payload = struct.pack("<8Q", *vcpu.registers)
        make(machine, td, slot, VCPU_STATE, payload, index=vcpu.index, info=vcpu.position)
        vcpu.session = td.session

    return effect


def export_abort(machine, td_page, slot=None):
    """EXPORT.ABORT TDR [SLOT]"""
    if slot is None:
        return (yield from changes_op("RUNNABLE", "LIVE_EXPORT", "PAUSED_EXPORT")(machine, td_page))
    bundle, header = take_input(machine, slot, ABORT_TOKEN)
    td = yield from td_with_op(machine, td_page, EXCLUSIVELY, "POST_EXPORT")
    yield ("T", td_page), EXCLUSIVELY
    need_header(header, session=td.session)
    need_counter(header, 0)
    bundles.unseal(machine.outside.export_keys, bundle)

    def effect():
        td.op = "RUNNABLE"

    return effect


def export_restore(machine, td_page, gpa):
    """EXPORT.RESTORE TDR GPA"""
    td = yield from td_with_op(machine, td_page, SHARED, "RUNNABLE")
    entry = yield from entry_alone(td, td_page, gpa, "BLOCKEDW", *EXPORTED)

    def effect():
        meet_entry(machine, "EXPORT.RESTORE", td, entry)
        entry.state, entry.mark = "MAPPED", 0

    return effect


# Import


def import_immutable(machine, td_page, slot):
    """IMPORT.STATE.IMMUTABLE TDR SLOT"""
    bundle, header = take_input(machine, slot, IMMUTABLE)
    td = yield from td_with_op(machine, td_page, EXCLUSIVELY, "UNINITIALIZED")
    yield KEY_TABLE, EXCLUSIVELY
    need_stream(td, 0)
    need(header.session > machine.last_imported, "BUNDLE_HEADER SESSION")
    need_header(header, epoch=1)
    need_counter(header, 0)
    payload = bundles.unseal(machine.outside.keys, bundle)

    def effect():
        machine.last_imported = td.session = header.session
        td.migration_epoch, td.epoch, td.mrtd = 1, 1, payload.hex()
        td.expected_vcpus, td.op = header.info, "MEMORY_IMPORT"
        td.streams[0].counter += 1

    return effect


def import_mem(machine, td_page, slot, page, count=None):
    """IMPORT.MEM TDR SLOT PAGE [COUNT]"""
    bundle, header = take_input(machine, slot, MEMORY)
    need(header.version == (1 if count is None else 2), "BUNDLE_HEADER VERSION")
    need(count in (None, header.info), "BUNDLE_HEADER COUNT")
    td = yield from td_with_op(machine, td_page, SHARED, *FILLING, *(LATE_IMPORT if count is None else LATE_IMPORT[:1]))
    yield ("T", td_page), EXCLUSIVELY
    need(header.stream < len(td.streams), "BUNDLE_HEADER STREAM")
    need_header(header, session=td.session, epoch=td.migration_epoch)
    need_counter(header, td.streams[header.stream].counter)
    takes = []  # of each GPA the page, and whether it is a new one
    for place, gpa in enumerate(gpas_from(header.gpa, count)):
        takes.append((yield from page_for(machine, td, gpa, page + place, [its for its, _ in takes])))
    payload = bundles.unseal(machine.outside.keys, bundle)

    def effect():
        for gpa, (its, is_new), at in zip(gpas_from(header.gpa, count), takes, range(0, len(payload), PAGE_BYTES)):
            name = "IMPORT.MEM" if count is None else OF_A_LIST.format("IMPORT.MEM")
            machine.met.append(f"{name}: SUCCESS at {'FREE' if is_new else 'MAPPED'} in {td.op}")
            words = dict(enumerate(struct.unpack("<512Q", payload[at : at + PAGE_BYTES])))
            if is_new:
                machine.takes(td_page, its, "PT_REG", words)
                td.entries[entry_key(gpa, 0)] = Entry("MAPPED", its)
            else:
                machine.pages[its].words = words
        td.streams[header.stream].counter += 1

    return effect


def page_for(machine, td, gpa, page, locked):
    """The page that is to have the words at a GPA: the one that stands there, or else that of the call, which is none of those
    that it has locked before; and whether it is new there."""
    walk(td, gpa, 0)
    need_entry(td, gpa, 0, "FREE", *(("MAPPED",) if td.op in FILLING else ()))
    entry = td.entries.get(entry_key(gpa, 0))
    if entry is None:
        if page in locked:
            machine.met.append(f"{OF_A_LIST.format('IMPORT.MEM')}: PAGE_METADATA_INCORRECT of a page that it holds")
        need(page not in locked, f"PAGE_METADATA_INCORRECT {page}")
    yield of_page(page if entry is None else entry.page, EXCLUSIVELY)
    if entry is None:
        need_free(machine, page)
    return (page, True) if entry is None else (entry.page, False)


def import_track(machine, td_page, slot):
    """IMPORT.TRACK TDR SLOT"""
    bundle, header = take_input(machine, slot, EPOCH_TOKEN, START_TOKEN)
    starts = header.type == START_TOKEN
    ops = ("STATE_IMPORT",) if starts else FILLING
    td = yield from td_with_op(machine, td_page, EXCLUSIVELY, *ops)
    yield ("T", td_page), EXCLUSIVELY
    need_header(header, session=td.session, epoch=LAST_EPOCH if starts else td.migration_epoch + 1)
    need_counter(header, td.streams[0].counter)
    bundles.unseal(machine.outside.keys, bundle)
    need(bundles_made(td) == header.total, f"TOKEN_TOTAL {bundles_made(td)} {header.total}")

    def effect():
        machine.met.append(f"IMPORT.TRACK: SUCCESS of type {header.type} in {td.op}")
        td.migration_epoch = header.epoch
        td.op = "POST_IMPORT" if starts else td.op
        td.streams[0].counter += 1

    return effect


def import_td(machine, td_page, slot):
    """IMPORT.STATE.TD TDR SLOT"""
    bundle, header = take_input(machine, slot, TD_STATE)
    td = yield from td_with_op(machine, td_page, EXCLUSIVELY, "MEMORY_IMPORT")
    need_header(header, session=td.session, epoch=td.migration_epoch)
    need_counter(header, td.streams[0].counter)
    payload = bundles.unseal(machine.outside.keys, bundle)

    def effect():
        td.rtmrs = [payload[at : at + 48] for at in range(0, 192, 48)]
        td.op = "STATE_IMPORT"
        td.streams[0].counter += 1

    return effect


def import_vp(machine, td_page, page, slot):
    """IMPORT.STATE.VP TDR VP SLOT"""
    bundle, header = take_input(machine, slot, VCPU_STATE)
    td = yield from td_with_op(machine, td_page, EXCLUSIVELY, "STATE_IMPORT")
    yield of_page(page, EXCLUSIVELY)
    vcpu = vcpu_at(machine, td_page, page)
    need(vcpu.state == "CREATED", "VCPU_STATE_INCORRECT READY")
    need_header(header, session=td.session, epoch=td.migration_epoch, index=vcpu.index)
    need_counter(header, td.streams[0].counter)
    payload = bundles.unseal(machine.outside.keys, bundle)

    def effect():
        vcpu.registers, vcpu.position = list(struct.unpack("<8Q", payload)), header.info
        vcpu.state = "READY"
        td.streams[0].counter += 1

    return effect


def import_end(machine, td_page):
    """IMPORT.END TDR"""
    td = yield from td_with_op(machine, td_page, EXCLUSIVELY, "LIVE_IMPORT")

    def effect():
        td.op = "RUNNABLE"

    return effect


def import_abort(machine, td_page, slot):
    """IMPORT.ABORT TDR SLOT"""
    td = yield from td_with_op(machine, td_page, EXCLUSIVELY, *FILLING, "POST_IMPORT")
    yield ("T", td_page), EXCLUSIVELY

    def effect():
        machine.met += [f"IMPORT.ABORT: SUCCESS in {td.op}", f"bundles: made of type {ABORT_TOKEN}"]
        header = Header(64, 1, 0, ABORT_TOKEN, 0, 0, 0, 0, td.session, 0, 0, 0, 0)
        machine.outside.outputs[slot] = bundles.seal(machine.outside.keys, header, b"")
        td.op = "FAILED_IMPORT"

    return effect


ROWS = {
    "MIG.STREAM.CREATE": stream_create,
    "EXPORT.STATE.IMMUTABLE": export_immutable,
    "EXPORT.BLOCKW": export_blockw,
    "EXPORT.UNBLOCKW": export_unblockw,
    "EXPORT.MEM": export_mem,
    "EXPORT.TRACK": export_track,
    "EXPORT.PAUSE": changes_op("PAUSED_EXPORT", "LIVE_EXPORT"),
    "EXPORT.STATE.TD": export_td,
    "EXPORT.STATE.VP": export_vp,
    "EXPORT.ABORT": export_abort,
    "EXPORT.RESTORE": export_restore,
    "IMPORT.STATE.IMMUTABLE": import_immutable,
    "IMPORT.MEM": import_mem,
    "IMPORT.TRACK": import_track,
    "IMPORT.STATE.TD": import_td,
    "IMPORT.STATE.VP": import_vp,
    "IMPORT.COMMIT": changes_op("LIVE_IMPORT", "POST_IMPORT"),
    "IMPORT.END": import_end,
    "IMPORT.ABORT": import_abort,
}
