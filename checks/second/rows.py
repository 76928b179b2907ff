"""The rows of the calls, in the order of docs/profile.md: arguments, conditions and tries, effect."""

import hashlib
import struct

from machine import EXCLUSIVELY, KEY_TABLE, SHARED, Entry, Refused, Td, Vcpu

GPA_END = 1 << 47
PAGE_BYTES = 4096
CHUNK_WORDS = 32
OPS = (
    "UNINITIALIZED", "INITIALIZED", "RUNNABLE", "LIVE_EXPORT", "PAUSED_EXPORT", "POST_EXPORT",
    "MEMORY_IMPORT", "STATE_IMPORT", "POST_IMPORT", "LIVE_IMPORT", "FAILED_IMPORT",
)
FIELDS = ("LIFE", "OP", "EPOCH", "MRTD")

RANGES = {
    "word": range(512),
    "gpa": range(GPA_END),
    "level": range(4),
    "upper level": range(1, 4),
    "most": range(1, 65_536),
    "stream": range(4),
    "start": range(2),
    "count": range(1, 17),
}

# Each call that is built, with its arguments.
ARGUMENTS = {
    "HOST.READ": ("page", "word"),
    "HOST.WRITE": ("page", "word", "value"),
    "PHYMEM.PAGE.RDMD": ("page",),
    "PHYMEM.CACHE.WB": (),
    "PHYMEM.PAGE.RECLAIM": ("page", "page"),
    "MNG.CREATE": ("page", "hkid"),
    "MNG.KEY.CONFIG": ("page",),
    "MNG.ADDCX": ("page", "page"),
    "MNG.INIT": ("page",),
    "MNG.RD": ("page", "field"),
    "MR.EXTEND": ("page", "gpa"),
    "MR.FINALIZE": ("page",),
    "MNG.VPFLUSHDONE": ("page",),
    "MNG.KEY.FREEID": ("page",),
    "VP.CREATE": ("page", "page"),
    "VP.INIT": ("page", "page", "value"),
    "MEM.SEPT.ADD": ("page", "gpa", "upper level", "page"),
    "MEM.SEPT.RD": ("page", "gpa", "level"),
    "MEM.PAGE.ADD": ("page", "gpa", "page", "page"),
    "MEM.PAGE.AUG": ("page", "gpa", "page"),
}


# Arguments


def is_in_range(machine, kind, value):
    """Whether an argument of that kind has its own range."""
    its = machine.ranges.get(kind) or RANGES.get(kind)
    return its is None or value in its


def alignment(name, kinds, arguments):
    """What a call's GPA is to be a multiple of."""
    if name == "MR.EXTEND":
        return 8 * CHUNK_WORDS
    level = arguments[2] if kinds[2:3] in (("level",), ("upper level",)) else 0
    return PAGE_BYTES << 9 * level


def check_arguments(machine, name, kinds, arguments):
    """Refuses the first argument that breaks a rule, in three steps, and behind them a list that runs too far."""
    for place, (kind, value) in enumerate(zip(kinds, arguments), 1):
        if not is_in_range(machine, kind, value):
            raise Refused(f"OPERAND_INVALID {place}")
    if kinds.count("page") > 1 and name != "PHYMEM.PAGE.RECLAIM":
        earlier = set()
        for place, (kind, value) in enumerate(zip(kinds, arguments), 1):
            if kind == "page":
                need(value not in earlier, f"OPERAND_INVALID {place}")
                earlier.add(value)
    if "gpa" in kinds:
        need(arguments[1] % alignment(name, kinds, arguments) == 0, "OPERAND_INVALID 2")
    if kinds[len(arguments) - 1 :] == ("count",):
        need(runs_right(machine, name, *arguments), f"OPERAND_INVALID {len(arguments)}")


def runs_right(machine, name, td_page, *others):
    """Whether the GPAs of a list end where there are some, and so its pages, of which none behind the first is the TDR page."""
    count = others[-1]
    if name == "EXPORT.MEM":
        return others[0] + count * PAGE_BYTES <= GPA_END
    first = others[1]
    return first + count - 1 in machine.ranges["page"] and td_page not in range(first + 1, first + count)


# Conditions


def need(holds, reply):
    """A condition, with the reply where it fails."""
    if not holds:
        raise Refused(reply)


def need_free(machine, page):
    """The page is the host's."""
    need(machine.pages[page].kind == "PT_NDA", f"PAGE_METADATA_INCORRECT {page}")


def need_life(td, *lives):
    """The TD has one of these life states."""
    need(td.life in lives, f"LIFECYCLE_STATE_INCORRECT {td.life}")


def td_at(machine, page):
    """The TD whose TDR page that is."""
    need(machine.pages[page].kind == "PT_TDR", f"PAGE_METADATA_INCORRECT {page}")
    return machine.tds[page]


def vcpu_at(machine, td_page, page):
    """The VCPU of that TD whose TDVPR page that is."""
    is_own = machine.pages[page].kind == "PT_TDVPR" and machine.pages[page].owner == td_page
    need(is_own, f"PAGE_METADATA_INCORRECT {page}")
    return machine.tds[td_page].vcpus[page]


def entry_key(gpa, level):
    """Where a TD keeps the entry of that GPA and level."""
    return level, gpa // (PAGE_BYTES << 9 * level)


def entry_state(td, gpa, level):
    """The state of the entry of that GPA and level."""
    entry = td.entries.get(entry_key(gpa, level))
    return "FREE" if entry is None else entry.state


def walk(td, gpa, level):
    """The walk to that entry meets NL_MAPPED alone."""
    for above in range(3, level, -1):
        need(entry_state(td, gpa, above) == "NL_MAPPED", f"EPT_WALK_FAILED {above}")


def need_entry(td, gpa, level, *states):
    """The entry has one of these states."""
    state = entry_state(td, gpa, level)
    need(state in states, f"EPT_ENTRY_STATE_INCORRECT {state}")


# Beginnings


def of_page(page, weight):
    """The try of a page's lock."""
    return ("P", page), weight


def td_alone(machine, page):
    """The beginning **td**."""
    yield of_page(page, EXCLUSIVELY)
    return td_at(machine, page)


def td_with_op(machine, page, weight, *ops):
    """The beginning **td sh** or **td ex**, by the weight of the op state lock's try."""
    yield of_page(page, SHARED)
    td = td_at(machine, page)
    need_life(td, "TD_KEYS_CONFIGURED")
    need(len(td.control_pages) == 2, f"TDCX_NUM_INCORRECT {len(td.control_pages)}")
    yield ("O", page), weight
    need(td.op in ops, f"OP_STATE_INCORRECT {td.op}")
    return td


# Host and physical pages


def host_read(machine, page, word):
    """HOST.READ PAGE WORD"""
    yield of_page(page, SHARED)
    at = machine.pages[page]
    return lambda: at.words.get(word, 0) if at.kind == "PT_NDA" else 0


def host_write(machine, page, word, value):
    """HOST.WRITE PAGE WORD VALUE"""
    yield of_page(page, SHARED)
    at = machine.pages[page]
    need(at.kind == "PT_NDA", "NOT_HOST")
    return lambda: at.words.update({word: value})


def page_rdmd(machine, page):
    """PHYMEM.PAGE.RDMD PAGE"""
    yield of_page(page, SHARED)
    at = machine.pages[page]
    return lambda: f"{at.kind} {at.owner} {at.epoch}"


def cache_wb(machine):
    """PHYMEM.CACHE.WB"""
    yield KEY_TABLE, EXCLUSIVELY

    def effect():
        for hkid in machine.hkids.values():
            hkid.written_back = hkid.state == "HKID_FLUSHED"

    return effect


def page_reclaim(machine, td_page, page):
    """PHYMEM.PAGE.RECLAIM TDR PAGE"""
    td = yield from td_alone(machine, td_page)
    need_life(td, "TD_TEARDOWN")
    if page == td_page:
        need(td.children == 0, f"PAGES_EXIST {td.children}")
    else:
        yield of_page(page, EXCLUSIVELY)
        at = machine.pages[page]
        need(at.kind != "PT_NDA" and at.owner == td_page, f"PAGE_METADATA_INCORRECT {page}")
    return lambda: machine.gives_back(td_page, page)


# Building and ending a TD


def mng_create(machine, td_page, number):
    """MNG.CREATE TDR HKID"""
    yield of_page(td_page, EXCLUSIVELY)
    need_free(machine, td_page)
    yield KEY_TABLE, EXCLUSIVELY
    hkid = machine.hkids[number]
    need(hkid.state == "HKID_FREE", "HKID_NOT_FREE")

    def effect():
        machine.pages[td_page].take("PT_TDR", td_page)
        machine.tds[td_page] = Td(number)
        hkid.state = "HKID_ASSIGNED"

    return effect


def mng_key_config(machine, td_page):
    """MNG.KEY.CONFIG TDR"""
    td = yield from td_alone(machine, td_page)
    need_life(td, "TD_HKID_ASSIGNED")

    def effect():
        td.life = "TD_KEYS_CONFIGURED"

    return effect


def mng_addcx(machine, td_page, page):
    """MNG.ADDCX TDR PAGE"""
    td = yield from td_alone(machine, td_page)
    need_life(td, "TD_KEYS_CONFIGURED")
    need(len(td.control_pages) < 2, "TDCX_NUM_INCORRECT 2")
    yield of_page(page, EXCLUSIVELY)
    need_free(machine, page)

    def effect():
        machine.takes(td_page, page, "PT_TDCX")
        td.control_pages.append(page)

    return effect


def mng_init(machine, td_page):
    """MNG.INIT TDR"""
    td = yield from td_with_op(machine, td_page, EXCLUSIVELY, "UNINITIALIZED")

    def effect():
        td.op, td.epoch, td.measured = "INITIALIZED", 1, hashlib.sha384()

    return effect


def mng_rd(machine, td_page, field):
    """MNG.RD TDR FIELD"""
    if field == "LIFE":
        yield of_page(td_page, SHARED)
        td = td_at(machine, td_page)
        return lambda: td.life
    least = {"OP": 0, "EPOCH": 1, "MRTD": 2}[field]
    td = yield from td_with_op(machine, td_page, SHARED, *OPS[least:])
    if field == "EPOCH":
        yield ("E", td_page), SHARED
    return lambda: {"OP": td.op, "EPOCH": td.epoch, "MRTD": td.mrtd}[field]


def record(name, gpa):
    """A record of the measurement that has a name and a GPA."""
    return name.encode().ljust(16, b"\0") + struct.pack("<Q", gpa) + bytes(104)


def mr_extend(machine, td_page, gpa):
    """MR.EXTEND TDR GPA"""
    td = yield from td_with_op(machine, td_page, EXCLUSIVELY, "INITIALIZED")
    yield ("T", td_page), SHARED
    walk(td, gpa, 0)
    need_entry(td, gpa, 0, "MAPPED")
    page = td.entries[entry_key(gpa, 0)].page
    yield of_page(page, SHARED)
    first = gpa % PAGE_BYTES // 8

    def effect():
        words = [machine.pages[page].words.get(first + n, 0) for n in range(CHUNK_WORDS)]
        td.measured.update(record("MR.EXTEND", gpa) + struct.pack(f"<{CHUNK_WORDS}Q", *words))

    return effect


def mr_finalize(machine, td_page):
    """MR.FINALIZE TDR"""
    td = yield from td_with_op(machine, td_page, EXCLUSIVELY, "INITIALIZED")
    need(all(vcpu.state == "READY" for vcpu in td.vcpus.values()), "VCPU_STATE_INCORRECT CREATED")

    def effect():
        td.op, td.mrtd, td.measured = "RUNNABLE", td.measured.hexdigest(), None

    return effect


def mng_vpflushdone(machine, td_page):
    """MNG.VPFLUSHDONE TDR"""
    td = yield from td_alone(machine, td_page)
    need_life(td, "TD_HKID_ASSIGNED", "TD_KEYS_CONFIGURED")
    associated = sum(vcpu.processor is not None for vcpu in td.vcpus.values())
    need(associated == 0, f"FLUSHVP_NOT_DONE {associated}")
    yield KEY_TABLE, EXCLUSIVELY

    def effect():
        td.life = "TD_BLOCKED"
        machine.hkids[td.hkid].state = "HKID_FLUSHED"

    return effect


def mng_key_freeid(machine, td_page):
    """MNG.KEY.FREEID TDR"""
    td = yield from td_alone(machine, td_page)
    need_life(td, "TD_BLOCKED")
    yield KEY_TABLE, EXCLUSIVELY
    hkid = machine.hkids[td.hkid]
    need(hkid.written_back, "CACHE_WB_NOT_DONE")

    def effect():
        td.life = "TD_TEARDOWN"
        hkid.state, hkid.written_back = "HKID_FREE", False

    return effect


# Virtual processors


def vp_create(machine, td_page, page):
    """VP.CREATE TDR PAGE"""
    td = yield from td_with_op(machine, td_page, EXCLUSIVELY, "INITIALIZED", "MEMORY_IMPORT")
    limit = min(8, td.expected_vcpus) if td.op == "MEMORY_IMPORT" else 8
    need(len(td.vcpus) < limit, "LIMIT VCPUS")
    yield of_page(page, EXCLUSIVELY)
    need_free(machine, page)

    def effect():
        machine.takes(td_page, page, "PT_TDVPR")
        td.vcpus[page] = Vcpu(len(td.vcpus))

    return effect


def vp_init(machine, td_page, page, value):
    """VP.INIT TDR VP VALUE"""
    td = yield from td_with_op(machine, td_page, SHARED, "INITIALIZED")
    yield of_page(page, EXCLUSIVELY)
    vcpu = vcpu_at(machine, td_page, page)
    need(vcpu.state == "CREATED", "VCPU_STATE_INCORRECT READY")

    def effect():
        vcpu.state, vcpu.registers[0] = "READY", value

    return effect


# Private memory


def sept_add(machine, td_page, gpa, level, page):
    """MEM.SEPT.ADD TDR GPA LEVEL PAGE"""
    ops = [op for op in OPS if op not in ("UNINITIALIZED", "PAUSED_EXPORT", "POST_EXPORT", "FAILED_IMPORT")]
    td = yield from td_with_op(machine, td_page, SHARED, *ops)
    yield ("T", td_page), EXCLUSIVELY
    walk(td, gpa, level)
    need_entry(td, gpa, level, "FREE")
    yield of_page(page, EXCLUSIVELY)
    need_free(machine, page)

    def effect():
        machine.takes(td_page, page, "PT_EPT")
        td.entries[entry_key(gpa, level)] = Entry("NL_MAPPED", page)

    return effect


def sept_rd(machine, td_page, gpa, level):
    """MEM.SEPT.RD TDR GPA LEVEL"""
    td = yield from td_with_op(machine, td_page, SHARED, *OPS[1:])
    yield ("T", td_page), EXCLUSIVELY
    walk(td, gpa, level)
    entry = td.entries.get(entry_key(gpa, level))
    return lambda: "FREE" if entry is None else f"{entry.state} {entry.page}"


def page_add(machine, td_page, gpa, page, source):
    """MEM.PAGE.ADD TDR GPA PAGE SOURCE"""
    td = yield from td_with_op(machine, td_page, EXCLUSIVELY, "INITIALIZED")
    yield ("T", td_page), EXCLUSIVELY
    walk(td, gpa, 0)
    need_entry(td, gpa, 0, "FREE")
    yield of_page(source, EXCLUSIVELY)
    need_free(machine, source)
    yield of_page(page, EXCLUSIVELY)
    need_free(machine, page)

    def effect():
        machine.takes(td_page, page, "PT_REG", machine.pages[source].words)
        td.entries[entry_key(gpa, 0)] = Entry("MAPPED", page)
        td.measured.update(record("MEM.PAGE.ADD", gpa))

    return effect


def page_aug(machine, td_page, gpa, page):
    """MEM.PAGE.AUG TDR GPA PAGE"""
    td = yield from td_with_op(machine, td_page, SHARED, "RUNNABLE", "LIVE_EXPORT")
    yield ("T", td_page), EXCLUSIVELY
    walk(td, gpa, 0)
    need_entry(td, gpa, 0, "FREE")
    yield of_page(page, EXCLUSIVELY)
    need_free(machine, page)

    def effect():
        machine.takes(td_page, page, "PT_REG")
        td.entries[entry_key(gpa, 0)] = Entry("PENDING", page)

    return effect


ROWS = {
    "HOST.READ": host_read,
    "HOST.WRITE": host_write,
    "PHYMEM.PAGE.RDMD": page_rdmd,
    "PHYMEM.CACHE.WB": cache_wb,
    "PHYMEM.PAGE.RECLAIM": page_reclaim,
    "MNG.CREATE": mng_create,
    "MNG.KEY.CONFIG": mng_key_config,
    "MNG.ADDCX": mng_addcx,
    "MNG.INIT": mng_init,
    "MNG.RD": mng_rd,
    "MR.EXTEND": mr_extend,
    "MR.FINALIZE": mr_finalize,
    "MNG.VPFLUSHDONE": mng_vpflushdone,
    "MNG.KEY.FREEID": mng_key_freeid,
    "VP.CREATE": vp_create,
    "VP.INIT": vp_init,
    "MEM.SEPT.ADD": sept_add,
    "MEM.SEPT.RD": sept_rd,
    "MEM.PAGE.ADD": page_add,
    "MEM.PAGE.AUG": page_aug,
}
