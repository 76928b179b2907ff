"""The rows of private memory and of a TD's VCPUs that run, in the order of docs/profile.md."""

import guests
from machine import EXCLUSIVELY, SHARED
from rows import (
    entry_key, need, need_entry, need_free, need_life, of_page, td_at, td_with_op, vcpu_at, walk,
)

EPOCH_END = 2**32 - 1
BLOCKED = {"MAPPED": "BLOCKED", "PENDING": "PENDING_BLOCKED", "NL_MAPPED": "NL_BLOCKED"}
UNBLOCKED = {blocked: state for state, blocked in BLOCKED.items()}

ARGUMENTS = {
    "VP.ENTER": ("page", "page", "most"),
    "VP.FLUSH": ("page", "page"),
    "MEM.SEPT.REMOVE": ("page", "gpa", "upper level"),
    "MEM.PAGE.REMOVE": ("page", "gpa"),
    "MEM.PAGE.RELOCATE": ("page", "gpa", "page"),
    "MEM.RANGE.BLOCK": ("page", "gpa", "level"),
    "MEM.RANGE.UNBLOCK": ("page", "gpa", "level"),
    "MEM.TRACK": ("page",),
}


def in_previous(td):
    """How many VCPUs in guest entered in the previous epoch."""
    return td.in_guest[(td.epoch - 1) % 2]


def meet_guests(machine, td, name):
    """Keeps beside which guests of the TD a call succeeds."""
    in_current = td.in_guest[td.epoch % 2]
    beside = "beside a guest" if in_current else "without a guest"
    machine.met.append(f"{name}: SUCCESS {'beside a guest of the epoch before' if in_previous(td) else beside}")


def need_tracked(machine, td, page, name):
    """The block of that page is tracked."""
    epoch = machine.pages[page].epoch
    if epoch == td.epoch:
        machine.met.append(f"{name}: TLB_TRACKING_NOT_DONE in the epoch of the block")
    elif epoch == td.epoch - 1 and in_previous(td):
        machine.met.append(f"{name}: TLB_TRACKING_NOT_DONE for a guest of the epoch before")
    tracked = epoch < td.epoch - 1 or (epoch == td.epoch - 1 and in_previous(td) == 0)
    need(tracked, "TLB_TRACKING_NOT_DONE")


def vp_enter(processor, td_page, page, most):
    """VP.ENTER TDR VP MAX"""
    machine = processor.machine
    td = yield from td_with_op(machine, td_page, SHARED, "RUNNABLE", "LIVE_EXPORT", "LIVE_IMPORT")
    yield of_page(page, EXCLUSIVELY)
    vcpu = vcpu_at(machine, td_page, page)
    need(vcpu.state == "READY", "VCPU_STATE_INCORRECT CREATED")
    need(vcpu.processor in (None, processor.number), f"VCPU_ASSOCIATED {vcpu.processor}")
    yield ("E", td_page), SHARED

    def effect():
        if vcpu.processor is None or vcpu.last_epoch != td.epoch:
            why = "for a new association" if vcpu.processor is None else "at a later epoch"
            guests.drop_translations(processor, td_page, why)
        guests.meet_translations(processor, td_page, "kept at an entry")
        machine.met.append(f"VP.ENTER: entered in {td.op}")
        vcpu.processor, vcpu.last_epoch = processor.number, td.epoch
        td.in_guest[td.epoch % 2] += 1
        return guests.Guest(processor, td_page, page, most).events(td.epoch % 2)

    return effect


def vp_flush(processor, td_page, page):
    """VP.FLUSH TDR VP"""
    machine = processor.machine
    yield of_page(td_page, SHARED)
    need_life(td_at(machine, td_page), "TD_KEYS_CONFIGURED")
    yield of_page(page, EXCLUSIVELY)
    vcpu = vcpu_at(machine, td_page, page)
    need(vcpu.processor is not None, "VCPU_NOT_ASSOCIATED")
    need(vcpu.processor == processor.number, f"VCPU_ASSOCIATED {vcpu.processor}")

    def effect():
        guests.drop_translations(processor, td_page, "by VP.FLUSH")
        vcpu.processor = None

    return effect


def td_running(machine, td_page, gpa, level):
    """The beginning of the rows on a running TD's tree: the TD, and where its entry is kept."""
    td = yield from td_with_op(machine, td_page, SHARED, "RUNNABLE")
    yield ("T", td_page), EXCLUSIVELY
    yield ("E", td_page), SHARED
    walk(td, gpa, level)
    return td, entry_key(gpa, level)


def first_child(td, key):
    """The index of the first entry that isn't FREE below that one, or None."""
    level, number = key
    below = [index % 512 for at, index in td.entries if at == level - 1 and index // 512 == number]
    return min(below, default=None)


def remove(machine, td, td_page, key, name):
    """The effect that frees an entry and gives its page back."""

    def effect():
        meet_guests(machine, td, name)
        machine.gives_back(td_page, td.entries.pop(key).page)

    return effect


def sept_remove(machine, td_page, gpa, level):
    """MEM.SEPT.REMOVE TDR GPA LEVEL"""
    td, key = yield from td_running(machine, td_page, gpa, level)
    need_entry(td, gpa, level, "NL_BLOCKED")
    page = td.entries[key].page
    yield of_page(page, EXCLUSIVELY)
    child = first_child(td, key)
    need(child is None, f"SEPT_NOT_EMPTY {child}")
    need_tracked(machine, td, page, "MEM.SEPT.REMOVE")
    return remove(machine, td, td_page, key, "MEM.SEPT.REMOVE")


def page_remove(machine, td_page, gpa):
    """MEM.PAGE.REMOVE TDR GPA"""
    td, key = yield from td_running(machine, td_page, gpa, 0)
    need_entry(td, gpa, 0, "BLOCKED", "PENDING_BLOCKED")
    page = td.entries[key].page
    yield of_page(page, EXCLUSIVELY)
    need_tracked(machine, td, page, "MEM.PAGE.REMOVE")
    return remove(machine, td, td_page, key, "MEM.PAGE.REMOVE")


def page_relocate(machine, td_page, gpa, page):
    """MEM.PAGE.RELOCATE TDR GPA PAGE"""
    td, key = yield from td_running(machine, td_page, gpa, 0)
    need_entry(td, gpa, 0, "BLOCKED", "PENDING_BLOCKED")
    entry = td.entries[key]
    yield of_page(entry.page, EXCLUSIVELY)
    if page == entry.page:
        machine.met.append("MEM.PAGE.RELOCATE: PAGE_METADATA_INCORRECT of the entry's own page")
    need(page != entry.page, f"PAGE_METADATA_INCORRECT {page}")
    yield of_page(page, EXCLUSIVELY)
    need_free(machine, page)
    need_tracked(machine, td, entry.page, "MEM.PAGE.RELOCATE")

    def effect():
        meet_guests(machine, td, "MEM.PAGE.RELOCATE")
        old, was = entry.page, entry.state
        machine.takes(td_page, page, "PT_REG", machine.pages[old].words)
        entry.page, entry.state = page, UNBLOCKED[was]
        machine.gives_back(td_page, old)
        machine.met.append(f"MEM.PAGE.RELOCATE: SUCCESS at {was}")

    return effect


def range_block(machine, td_page, gpa, level):
    """MEM.RANGE.BLOCK TDR GPA LEVEL"""
    td, key = yield from td_running(machine, td_page, gpa, level)
    need_entry(td, gpa, level, *BLOCKED)
    entry = td.entries[key]
    yield of_page(entry.page, EXCLUSIVELY)

    def effect():
        meet_guests(machine, td, "MEM.RANGE.BLOCK")
        entry.state = BLOCKED[entry.state]
        machine.pages[entry.page].epoch = td.epoch

    return effect


def range_unblock(machine, td_page, gpa, level):
    """MEM.RANGE.UNBLOCK TDR GPA LEVEL"""
    td, key = yield from td_running(machine, td_page, gpa, level)
    need_entry(td, gpa, level, *UNBLOCKED)
    entry = td.entries[key]
    yield of_page(entry.page, EXCLUSIVELY)
    need_tracked(machine, td, entry.page, "MEM.RANGE.UNBLOCK")

    def effect():
        meet_guests(machine, td, "MEM.RANGE.UNBLOCK")
        entry.state = UNBLOCKED[entry.state]

    return effect


def mem_track(machine, td_page):
    """MEM.TRACK TDR"""
    td = yield from td_with_op(machine, td_page, SHARED, "RUNNABLE", "LIVE_EXPORT")
    yield ("E", td_page), EXCLUSIVELY
    need(td.epoch < EPOCH_END, "COUNTER_LIMIT TD_EPOCH")
    need(in_previous(td) == 0, f"PREVIOUS_TLB_EPOCH_BUSY {in_previous(td)}")

    def effect():
        meet_guests(machine, td, "MEM.TRACK")
        td.epoch += 1

    return effect


ROWS = {
    "VP.ENTER": vp_enter,
    "VP.FLUSH": vp_flush,
    "MEM.SEPT.REMOVE": sept_remove,
    "MEM.PAGE.REMOVE": page_remove,
    "MEM.PAGE.RELOCATE": page_relocate,
    "MEM.RANGE.BLOCK": range_block,
    "MEM.RANGE.UNBLOCK": range_unblock,
    "MEM.TRACK": mem_track,
}
