"""Rows of lists of pages, as docs/profile.md has them: scripts, what comes in, and what is printed. The machine has 64 pages, and a
group of calls is written as their reply and the calls, between bars."""

import struct

import built
import program
from bundles import bundles_of, container_of, header_of

KEYS = bytes(range(64))
BEGIN = "SUCCESS | MNG.CREATE 1 1 | MNG.KEY.CONFIG 1 | MNG.ADDCX 1 2 | MNG.ADDCX 1 3"
BUILD = f"{BEGIN} | MNG.INIT 1 | VP.CREATE 1 4 | VP.INIT 1 4 0 | MEM.SEPT.ADD 1 0 3 5 | MEM.SEPT.ADD 1 0 2 6 | MEM.SEPT.ADD 1 0 1 7"
STREAMS = "SUCCESS | MIG.STREAM.CREATE 1 11 | MIG.STREAM.CREATE 1 12"
STARTED = "SUCCESS | EXPORT.STATE.IMMUTABLE 1 0"
FRAME = "SUCCESS | VP.CREATE 1 4 | MEM.SEPT.ADD 1 0 3 5 | MEM.SEPT.ADD 1 0 2 6 | MEM.SEPT.ADD 1 0 1 7"
WAITS, COMES = [BEGIN, STREAMS], ["SUCCESS | IMPORT.STATE.IMMUTABLE 1 0", FRAME]
STATES = "SUCCESS | EXPORT.STATE.TD 1 6 | EXPORT.STATE.VP 1 4 7 | EXPORT.TRACK 1 8 1"
ENDS = "SUCCESS | IMPORT.STATE.TD 1 6 | IMPORT.STATE.VP 1 4 7 | IMPORT.TRACK 1 8 | IMPORT.COMMIT 1"
# Of the migration of the gallery, but that two of its pages go over as a list: its source from the first page on, and what its
# guest does.
CODE = "1 0 | set 1 44 | store 1 0 | load 2 0 | load 2 4096 | load 2 8192 | vmcall 2"
THREE = [BUILD, *(f"SUCCESS | HOST.WRITE 0 0 {word} | MEM.PAGE.ADD 1 {gpa} {page} 0" for word, gpa, page in ((11, 0, 8), (22, 4096, 9), (33, 8192, 10)))]
LIVE = [
    *THREE, "SUCCESS | MR.FINALIZE 1", STREAMS, STARTED, "SUCCESS | EXPORT.BLOCKW 1 0 | MEM.TRACK 1 | EXPORT.MEM 1 0 1 1",
    "EXIT EPT_VIOLATION 0x0 WRITE | VP.ENTER 1 4 10", "SUCCESS | EXPORT.UNBLOCKW 1 0", "EXIT MAX | VP.ENTER 1 4 1",
    "SUCCESS | EXPORT.PAUSE 1 | EXPORT.TRACK 1 2 0",
]
SENT = [*LIVE, "SUCCESS | EXPORT.MEM 1 0 0 3 | EXPORT.MEM 1 4096 1 4 2", STATES]
FIRST = [*WAITS, *COMES, "SUCCESS | IMPORT.MEM 1 1 8 | IMPORT.TRACK 1 2 | IMPORT.MEM 1 3 13"]
RUNS, NOTES = [ENDS, "EXIT VMCALL 33 | VP.ENTER 1 4 10", "SUCCESS | IMPORT.END 1"], ("load 0x0 44", "load 0x1000 22", "load 0x2000 33")


def played(name, groups, comes=None, others=(), schedule="", code=CODE, notes=(), made=None, noted=()):
    """A case: its name, words and files, and what is wanted of it. Groups of calls are processor 0's, others those of further ones;
    what is noted is so at the last entry, or in these lines."""
    processors, lines, wanted, guest = [groups, *others], [f"machine {1 + len(others)} 64 1"], [], [*noted]
    for number, its in enumerate(processors):
        lines.append(f"lp {number}")
        calls = [(reply, call) for group in its for reply, *some in [group.split(" | ")] for call in some]
        lines += [call for _, call in calls] + ["end"]
        wanted += [f"{number}.{place} {reply}" for place, (reply, _) in enumerate(calls, 1)]
        entered = [place for place, (_, call) in enumerate(calls, 1) if call.startswith("VP.ENTER")]
        guest += [f"{number}.{entered[-1]} {note}" for note in notes] if number == 0 and entered else []
    head, *operations = code.split(" | ")
    lines += [f"code {head}", *operations, "end", *([f"schedule {schedule}"] if schedule else [])]
    files, words = {"script": text_of(lines), "keys": KEYS}, ["replay", "script", "--keys", "keys", "--guest-out", "guest"]
    if comes is not None:
        files, words = {**files, "bundles": container_of(comes)}, [*words, "--bundles", "bundles"]
    saved = {"guest": text_of(guest)}
    if made is not None:
        words, saved = [*words, "--out-bundles", "made"], {**saved, "made": container_of(made)}
    return name, words, files, built.Answer(0, built.whole_text("".join(f"{line}\n" for line in wanted), saved))


def text_of(lines):
    """The bytes of these lines."""
    return "".join(f"{line}\n" for line in lines).encode()


def sent_by(groups, code=CODE, comes=None):
    """The bundles that these calls make on processor 0 alone."""
    _, words, files, _ = played("", groups, comes, code=code)
    *_, saved, _ = program.answer([*words, "--out-bundles", "made"], files.get)
    return bundles_of(saved["made"])


def turned(bundles, slot, place, bit=0):
    """These bundles with a bit of one turned."""
    bundle = bytearray(bundles[slot])
    bundle[place] ^= 1 << bit
    return {**bundles, slot: bytes(bundle)}


def untouched(*pages):
    """Calls that see that these pages are the host's, and empty."""
    return [f"SUCCESS PT_NDA 0 0 | PHYMEM.PAGE.RDMD {page}" for page in pages] + [f"SUCCESS 0 | HOST.READ {page} 0" for page in pages]


def whole_migrations():
    """Two pages that go over as a list, and what may come in its place."""
    sent = sent_by(SENT)
    yield played("the source", SENT, made=sent)
    sizes = {0: 112, 1: 4160, 2: 64, 3: 4160, 4: 64 + 2 * 4096, 6: 256, 7: 128, 8: 64}
    assert {slot: len(bundle) for slot, bundle in sent.items()} == sizes and header_of(sent[8]).total == 7
    yield played("the destination", [*FIRST, "SUCCESS | IMPORT.MEM 1 4 9 2", *RUNS], sent, notes=NOTES)
    wrong = [
        "BUNDLE_HEADER VERSION | IMPORT.MEM 1 4 9 | IMPORT.MEM 1 3 13 1 | IMPORT.MEM 1 3 13 16",
        "BUNDLE_HEADER COUNT | IMPORT.MEM 1 4 9 3 | IMPORT.MEM 1 4 9 1 | IMPORT.MEM 1 4 9 16",
        "OPERAND_INVALID 4 | IMPORT.MEM 1 4 9 0 | IMPORT.MEM 1 4 9 17 | IMPORT.MEM 1 4 9 18446744073709551615 | IMPORT.MEM 1 4 63 2 \
| IMPORT.MEM 1 4 0 2 | IMPORT.MEM 1 999 49 16 | IMPORT.MEM 0 999 63 17",
        "OPERAND_INVALID 3 | IMPORT.MEM 1 4 64 2 | IMPORT.MEM 1 4 64 17 | IMPORT.MEM 1 4 1 2",
        "OPERAND_INVALID 1 | IMPORT.MEM 64 4 63 17",
        "NO_BUNDLE 999 | IMPORT.MEM 1 999 62 2 | IMPORT.MEM 0 999 1 16 | IMPORT.MEM 1 999 48 16 | IMPORT.MEM 5 999 1 4",
        "BUNDLE_HEADER TYPE | IMPORT.MEM 1 0 9 2 | IMPORT.MEM 1 2 9 2",
        "PAGE_METADATA_INCORRECT 2 | IMPORT.MEM 1 4 2 2",
        "PAGE_METADATA_INCORRECT 11 | IMPORT.MEM 1 4 10 2",
    ]
    right = ["SUCCESS | IMPORT.MEM 1 4 9 2", "BUNDLE_COUNTER 2 1 | IMPORT.MEM 1 4 9 2", *RUNS]
    yield played("of another form", [*FIRST, *wrong, *untouched(9, 10, 13), *right], sent, notes=NOTES)
    end = ["SUCCESS | IMPORT.MEM 1 4 62 2", "SUCCESS PT_REG 1 0 | PHYMEM.PAGE.RDMD 62 | PHYMEM.PAGE.RDMD 63", *RUNS]
    yield played("its pages are the last ones", [*FIRST, *end], sent, notes=NOTES)
    for place, bit in ((8255, 0), (64, 7), (64 + 4096, 3), (63, 7)):
        forged = {**turned(sent, 4, place, bit), 104: sent[4]}
        refused = ["BUNDLE_TAG | IMPORT.MEM 1 4 9 2", *untouched(9, 10), "SUCCESS | IMPORT.MEM 1 104 9 2", *RUNS]
        yield played(f"bit {bit} of byte {place}", [*FIRST, *refused], forged, notes=NOTES)
    for length in (8255, 8257, 4160, 64, 12_352):
        forged = {**sent, 4: sent[4][:length].ljust(length, b"\0"), 104: sent[4]}
        refused = ["BUNDLE_HEADER LENGTH | IMPORT.MEM 1 4 9 2", *untouched(9, 10), "SUCCESS | IMPORT.MEM 1 104 9 2", *RUNS]
        yield played(f"of {length} bytes", [*FIRST, *refused], forged, notes=NOTES)
    forged = {**turned(sent, 3, 2, 0), 104: sent[3]}
    forged[3] = forged[3][:2] + b"\2" + forged[3][3:]
    value = ["BUNDLE_HEADER VALUE | IMPORT.MEM 1 3 13", "SUCCESS | IMPORT.MEM 1 104 13 | IMPORT.MEM 1 4 9 2", *RUNS]
    yield played("a page as a list of none", [*WAITS, *COMES, "SUCCESS | IMPORT.MEM 1 1 8 | IMPORT.TRACK 1 2", *value], forged, notes=NOTES)
    yield from turned_headers(sent)


# By field: its first and its last bit that is turned, and what is answered by the list of pages 9 and 10 then.
ANSWERS = """
0   0-15  BUNDLE_HEADER SIZE
2   0-15  BUNDLE_HEADER VERSION
4   0-0   BUNDLE_COUNTER 3 1
4   1-1   BUNDLE_HEADER STREAM
4   2-15  BUNDLE_HEADER VALUE
6   0-7   BUNDLE_HEADER VERSION
7   0-7   BUNDLE_HEADER RESERVED
8   0-31  BUNDLE_HEADER VALUE
12  0-31  BUNDLE_HEADER EPOCH
16  0-63  BUNDLE_HEADER VALUE
24  0-0   BUNDLE_HEADER VALUE
24  1-15  BUNDLE_HEADER SESSION
26  0-15  BUNDLE_HEADER RESERVED
28  0-0   BUNDLE_HEADER LENGTH
28  1-1   BUNDLE_HEADER VALUE
28  2-3   BUNDLE_HEADER LENGTH
28  4-31  BUNDLE_HEADER VALUE
32  0-11  BUNDLE_HEADER VALUE
32  12-20 BUNDLE_TAG
32  21-29 EPT_WALK_FAILED 1
32  30-38 EPT_WALK_FAILED 2
32  39-46 EPT_WALK_FAILED 3
32  47-63 BUNDLE_HEADER VALUE
40  0-63  BUNDLE_HEADER RESERVED
48  0-127 BUNDLE_TAG
"""


def turned_headers(sent):
    """The list with each bit of its header turned, one after the other, and then as it is."""
    groups, comes = [*FIRST], dict(sent)
    for line in ANSWERS.split("\n")[1:-1]:
        first, bits, answer = line.split(maxsplit=2)
        least, most = map(int, bits.split("-"))
        for bit in range(least, most + 1):
            slot = 100 + len(comes)
            comes[slot] = turned(sent, 4, int(first) + bit // 8, bit % 8)[4]
            groups.append(f"{answer} | IMPORT.MEM 1 {slot} 9 2")
    yield played("each bit of its header", [*groups, *untouched(9, 10), "SUCCESS | IMPORT.MEM 1 4 9 2", *RUNS], comes, notes=NOTES)


# Sixteen pages on both sides of the border between two secure EPT pages: the GPA of the first, and the page of each. The guest
# adds up their words.
BORDER, SIXTEEN = 508 * 4096, range(20, 36)
SUMS = " | ".join(["1 0", *(f"load 1 {BORDER + 4096 * place} | add 0 1" for place in range(16)), "vmcall 0"])
BEYOND = "SUCCESS | MEM.SEPT.ADD 1 0x200000 1 13"
FILLED = [BUILD, BEYOND, *(f"SUCCESS | HOST.WRITE 0 0 {1 << place} | MEM.PAGE.ADD 1 {BORDER + 4096 * place} {page} 0" for place, page in enumerate(SIXTEEN)),
          "SUCCESS | MR.FINALIZE 1", STREAMS, STARTED]
BLOCKED = " | ".join(["SUCCESS", *(f"EXPORT.BLOCKW 1 {BORDER + 4096 * place}" for place in range(16))])
SENDS = f"EXPORT.MEM 1 {BORDER} 1 1 16"


def at_the_border():
    """A list of sixteen pages, over the border between two secure EPT pages."""
    source = [*FILLED, BLOCKED, "SUCCESS | MEM.TRACK 1", f"SUCCESS | {SENDS}", "SUCCESS | EXPORT.PAUSE 1", STATES]
    sent = sent_by(source, SUMS)
    yield played("sixteen pages go out", source, code=SUMS, made=sent)
    assert len(sent[1]) == 64 + 16 * 4096
    notes = [f"load {BORDER + 4096 * place:#x} {1 << place}" for place in range(16)]
    comes = [*WAITS, *COMES, "EPT_WALK_FAILED 1 | IMPORT.MEM 1 1 20 16", *untouched(*SIXTEEN), BEYOND]
    right = ["SUCCESS | IMPORT.MEM 1 1 20 16", ENDS, "EXIT VMCALL 65535 | VP.ENTER 1 4 65535"]
    yield played("sixteen pages come in", [*comes, *right], sent, code=SUMS, notes=notes)


def refused_pages():
    """A list of which one page isn't as the call wants it: the first, one between, or the last. The others stay."""
    for place in (0, 7, 15):
        gpa = BORDER + 4096 * place
        pages = [f"SUCCESS BLOCKEDW {page} | MEM.SEPT.RD 1 {BORDER + 4096 * at} 0" for at, page in enumerate(SIXTEEN) if at != place]
        left_out = BLOCKED.replace(f" | EXPORT.BLOCKW 1 {gpa}", "", 1) if place != 15 else BLOCKED.rsplit(" | ", 1)[0]
        refused = f"EPT_ENTRY_STATE_INCORRECT MAPPED | {SENDS}"
        yield played(f"page {place} isn't blocked", [*FILLED, left_out, "SUCCESS | MEM.TRACK 1", refused, *pages], code=SUMS)
        late = [*FILLED, left_out, "SUCCESS | MEM.TRACK 1", f"SUCCESS | EXPORT.BLOCKW 1 {gpa}", f"TLB_TRACKING_NOT_DONE | {SENDS}"]
        again = ["SUCCESS | MEM.TRACK 1", f"SUCCESS | {SENDS.replace('1 1 16', '1 2 16')}"]
        yield played(f"page {place} is blocked in this epoch", [*late, *pages, *again], code=SUMS)
        gone = [*FILLED[:2], *(group for at, group in enumerate(FILLED[2:-3]) if at != place), *FILLED[-3:]]
        free = [f"EPT_ENTRY_STATE_INCORRECT FREE | {SENDS}", "SUCCESS | EXPORT.PAUSE 1"]
        yield played(f"page {place} isn't there", [*gone, left_out, "SUCCESS | MEM.TRACK 1", *free, *pages], code=SUMS)
        waits = [f"SUCCESS | MEM.PAGE.AUG 1 {gpa} 40", f"EPT_ENTRY_STATE_INCORRECT PENDING | {SENDS}"]
        yield played(f"page {place} waits", [*gone, left_out, "SUCCESS | MEM.TRACK 1", *waits, *pages], code=SUMS)
        went = f"SUCCESS | EXPORT.MEM 1 {gpa} 0 3"
        twice = [went, f"EPT_ENTRY_STATE_INCORRECT EXPORTED_BLOCKEDW | {SENDS}", f"SUCCESS | EXPORT.UNBLOCKW 1 {gpa} | EXPORT.BLOCKW 1 {gpa}"]
        epoch = [f"EXPORTED_THIS_EPOCH | {SENDS.replace('1 1 16', '1 4 16')}", "SUCCESS | EXPORT.TRACK 1 5 0 | MEM.TRACK 1"]
        again = [*twice, *epoch, f"SUCCESS | {SENDS.replace('1 1 16', '1 9 16')}"]
        yield played(f"page {place} went out", [*FILLED, BLOCKED, "SUCCESS | MEM.TRACK 1", *again], code=SUMS)


def arguments():
    """What a list's arguments may be."""
    near = ["OPERAND_INVALID 5 | EXPORT.MEM 1 0x7ffffffff000 0 1 2 | EXPORT.MEM 1 0x7fffffff1000 0 2 16 | EXPORT.MEM 1 0 0 3 0 \
| EXPORT.MEM 1 1 0 4 17 | EXPORT.MEM 1 0 0 5 18446744073709551615",
            "OPERAND_INVALID 2 | EXPORT.MEM 1 1 0 6 16 | EXPORT.MEM 1 0x800000000000 4 7 17",
            "OPERAND_INVALID 3 | EXPORT.MEM 1 1 4 8 17", "OPERAND_INVALID 1 | EXPORT.MEM 64 1 4 9 17",
            "EPT_WALK_FAILED 3 | EXPORT.MEM 1 0x7ffffffff000 0 10 1 | EXPORT.MEM 1 0x7fffffff0000 0 11 16"]
    yield played("arguments", [*THREE, "SUCCESS | MR.FINALIZE 1", STREAMS, STARTED, *near])
    last = 0x7FFFFFFFE000
    tree = f"SUCCESS | MEM.SEPT.ADD 1 {511 << 39} 3 14 | MEM.SEPT.ADD 1 {(1 << 17) - 1 << 30} 2 15 | MEM.SEPT.ADD 1 {(1 << 26) - 1 << 21} 1 16"
    tree = tree.replace(f"{511 << 39}", f"{255 << 39}")
    two = f"SUCCESS | MEM.PAGE.ADD 1 {last} 20 0 | MEM.PAGE.ADD 1 {last + 4096} 21 0 | MR.FINALIZE 1"
    source = [BUILD, tree, two, STREAMS, STARTED, f"SUCCESS | EXPORT.PAUSE 1 | EXPORT.MEM 1 {last} 1 1 2", STATES]
    sent = sent_by(source)
    yield played("its GPAs are the last ones", source, made=sent)
    yield played("its GPAs are the last ones, which come in", [*WAITS, *COMES, tree, "SUCCESS | IMPORT.MEM 1 1 20 2", ENDS], sent)
    far = {**sent, 1: sent[1][:28] + struct.pack("<IQ", 2, last + 4096) + sent[1][40:]}
    yield played("its GPAs end too far", [*WAITS, *COMES, tree, "BUNDLE_HEADER VALUE | IMPORT.MEM 1 1 20 2"], far)


def over_pages():
    """Lists that come in over pages that are there, all or some, and one whose own pages the call asks for."""
    source = [*LIVE, "SUCCESS | EXPORT.MEM 1 0 1 3 3", STATES]
    sent = sent_by(source)
    yield played("a dirty page among others", source, made=sent)
    some = [*WAITS, *COMES, "SUCCESS | IMPORT.MEM 1 1 8 | IMPORT.TRACK 1 2"]
    pages = ["SUCCESS MAPPED 8 | MEM.SEPT.RD 1 0 0", "SUCCESS MAPPED 41 | MEM.SEPT.RD 1 4096 0", "SUCCESS MAPPED 42 | MEM.SEPT.RD 1 8192 0"]
    ends = [*untouched(40), *RUNS]
    yield played("over a page and beside it", [*some, "SUCCESS | IMPORT.MEM 1 3 40 3", *pages, *ends], sent, notes=NOTES)
    own = ["PAGE_METADATA_INCORRECT 8 | IMPORT.MEM 1 3 7 3", "PAGE_METADATA_INCORRECT 7 | IMPORT.MEM 1 3 6 3", *untouched(9, 10, 40),
           "SUCCESS FREE | MEM.SEPT.RD 1 4096 0"]
    yield played("into the page that it replaces", [*some, *own, "SUCCESS | IMPORT.MEM 1 3 40 3", *pages, *ends], sent, notes=NOTES)
    again = [f"SUCCESS | EXPORT.UNBLOCKW 1 {4096 * place} | EXPORT.BLOCKW 1 {4096 * place}" for place in range(3)]
    blocked = " | ".join(["SUCCESS", *(f"EXPORT.BLOCKW 1 {4096 * place}" for place in range(3)), "MEM.TRACK 1"])
    twice = [*THREE, "SUCCESS | MR.FINALIZE 1", STREAMS, STARTED, blocked, "SUCCESS | EXPORT.MEM 1 0 1 1 3", *again,
             "SUCCESS | EXPORT.PAUSE 1 | EXPORT.TRACK 1 2 0 | EXPORT.MEM 1 0 1 3 3", STATES]
    sent = sent_by(twice)
    yield played("all pages twice", twice, made=sent)
    first = [*WAITS, *COMES, "SUCCESS | IMPORT.MEM 1 1 40 3 | IMPORT.TRACK 1 2 | IMPORT.MEM 1 3 2 3"]
    runs = [*RUNS[:1], "EXIT VMCALL 33 | VP.ENTER 1 4 10"]
    yield played("over all pages", [*first, *runs], sent, notes=NOTES)


# Who holds each lock of a list of sixteen pages, in their order, behind how many events; in an export and in an import.
HOLDERS = [("P 1", "MNG.KEY.CONFIG 1", 1), ("O", "MNG.INIT 1", 2), ("T", "MEM.SEPT.RD 1 0 3", 3), ("E", "MEM.TRACK 1", 3),
           *((f"P {page}", f"MNG.CREATE {page} 1", 1) for page in (*SIXTEEN, 12))]
TAKERS = [*HOLDERS[:3], *HOLDERS[4:20]]


def reply_of(call, op, state):
    """What its holder of a lock is answered once it has held it."""
    name, page = call.split()[:2]
    return {"MNG.KEY.CONFIG": "LIFECYCLE_STATE_INCORRECT TD_KEYS_CONFIGURED", "MNG.INIT": f"OP_STATE_INCORRECT {op}",
            "MEM.SEPT.RD": "SUCCESS NL_MAPPED 5", "MEM.TRACK": "SUCCESS",
            "MNG.CREATE": f"PAGE_METADATA_INCORRECT {page}" if state or page == "12" else "HKID_NOT_FREE"}[name]


def locks():
    """Each lock of a list held elsewhere as it is tried. The call is made again, once it isn't."""
    source = [*FILLED, BLOCKED, "SUCCESS | MEM.TRACK 1"]
    for place, (lock, call, events) in enumerate(HOLDERS):
        its = [*source, f"OPERAND_BUSY {lock} | {SENDS}", f"SUCCESS | {SENDS.replace('1 1 16', '1 2 16')}"]
        schedule = f"0*{events_of(source, SUMS)} 1*{events} 0*{2 * place + 1 + (place < 4)} 1*20"
        reply = reply_of(call, "LIVE_EXPORT", True)
        yield played(f"{lock} held at an export", its, others=[[f"{reply} | {call}"]], schedule=schedule, code=SUMS)
    sent = sent_by([*source, f"SUCCESS | {SENDS}"], SUMS)
    waits = [*WAITS, *COMES, BEYOND]
    for place, (lock, call, events) in enumerate(TAKERS):
        its = [*waits, f"OPERAND_BUSY {lock} | IMPORT.MEM 1 1 20 16", "SUCCESS | IMPORT.MEM 1 1 20 16"]
        schedule = f"0*{events_of(waits, SUMS, sent)} 1*{events} 0*{2 * place + 1 + (place < 2)} 1*20"
        reply = reply_of(call, "MEMORY_IMPORT", False)
        yield played(f"{lock} held at an import", its, sent, [[f"{reply} | {call}"]], schedule, SUMS)


def events_of(groups, code, comes=None):
    """How many events these calls have on processor 0 alone."""
    _, words, files, _ = played("", groups, comes, code=code)
    *_, processors = program.answer(words, files.get)
    return sum(2 * locks + (0 if reply.startswith("OPERAND_BUSY") else 1) for reply, locks in processors[0].replies)


def cases():
    """All cases."""
    for some in (whole_migrations, at_the_border, refused_pages, arguments, over_pages, locks):
        yield from some()
