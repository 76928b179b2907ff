"""Rows of chains, as docs/profile.md has them. The scripts are those of the migration of the gallery, whose destination sends its TD
on; they are written as those of pairs are (pair_rows.py)."""

import built
from pair_rows import BACK, DESTINATION, NOTES, SOURCE, lines_of, made_at, script_of

KEYS = bytes(range(256)) * 2
# Where the TD has its pages, and in which pages of each machine.
PAGES = ((0, 8), (4096, 9), (8192, 10))


def sends(slot, last=True):
    """The calls that send a TD of three pages on, in slots from that one on."""
    calls = [f"EXPORT.STATE.IMMUTABLE 1 {slot}", "EXPORT.PAUSE 1"]
    calls += [f"EXPORT.MEM 1 {gpa} {min(place, 1)} {slot + 1 + place}" for place, (gpa, _) in enumerate(PAGES)]
    calls += [f"EXPORT.STATE.TD 1 {slot + 4}", f"EXPORT.STATE.VP 1 4 {slot + 5}", *[f"EXPORT.TRACK 1 {slot + 6} 1"] * last]
    return [(call, "SUCCESS") for call in calls]


def takes(slot):
    """The calls that take such a TD in as far as its commit."""
    calls = [*(call for call, _ in DESTINATION[:6]), f"IMPORT.STATE.IMMUTABLE 1 {slot}", *(call for call, _ in DESTINATION[7:11])]
    calls += [f"IMPORT.MEM 1 {slot + 1 + place} {page}" for place, (_, page) in enumerate(PAGES)]
    calls += [f"IMPORT.STATE.TD 1 {slot + 4}", f"IMPORT.STATE.VP 1 4 {slot + 5}", f"IMPORT.TRACK 1 {slot + 6}", "IMPORT.COMMIT 1"]
    return [(call, "SUCCESS") for call in calls]


ENDED = [("IMPORT.END 1", "SUCCESS")]
# The TD of the gallery comes to a second module, whose guest doesn't run, and goes on to a third one.
COMES = DESTINATION[:20]
SECOND = [*COMES, *ENDED, *sends(20)]
THIRD = [*takes(20), ("VP.ENTER 1 4 10", "EXIT VMCALL 33")]


def played(name, sides, plan="", notes=None, keys=None, codes=None):
    """A case of a chain: its name, words and files, and what is wanted of it."""
    text, noted = lines_of(sides, notes or {})
    names = "abcdefgh"[: len(sides)]
    codes = codes or [None] * len(sides)
    files = {letter: script_of(calls, code=code) for letter, calls, code in zip(names, sides, codes)}
    files |= {"plan": plan.encode(), "keys": KEYS[: 64 * (len(sides) - 1)] if keys is None else keys}
    return name, ["chain", "keys", "plan", *names, "--guest-out", "guest"], files, built.Answer(0, built.whole_text(text, {"guest": noted}))


def refused(name, words, files, status, text):
    """A case that ends before any module runs."""
    its = {"a": script_of(SOURCE), "b": script_of(SECOND), "c": script_of(THIRD), "plan": b"", "keys": KEYS[:128], **files}
    its = {file: its[file] for file in its if its[file] is not None}
    return name, words.split(), its, built.Answer(status, f"{text}\n")


def three():
    """Three modules, and what may happen on the second link."""
    yield played("a TD goes on", [SOURCE, SECOND, THIRD], notes={"c": NOTES})
    late = [*SECOND, ("VP.ENTER 1 4 10", "OP_STATE_INCORRECT POST_EXPORT")]
    yield played("and doesn't run where it was", [SOURCE, late, THIRD], notes={"c": NOTES})
    runs = [*COMES, ("VP.ENTER 1 4 10", "EXIT VMCALL 33"), *ENDED, *sends(20)]
    stops = [*THIRD[:-1], ("VP.ENTER 1 4 10", "EXIT STOP")]
    yield played("and has run where it was", [SOURCE, runs, stops], notes={"b": NOTES})
    again = [*COMES, *ENDED, *sends(20, False), ("EXPORT.ABORT 1", "SUCCESS"), *((f"EXPORT.RESTORE 1 {gpa}", "SUCCESS") for gpa, _ in PAGES), *sends(60)]
    yield played("the second export of the second module", [SOURCE, again, [(call, "SUCCESS") for call, _ in takes(60)] + THIRD[-1:]], notes={"c": NOTES})
    gives_up = [*takes(20)[:-1], ("IMPORT.ABORT 1 50", "SUCCESS")]
    back = [*SECOND, ("EXPORT.ABORT 1 50", "SUCCESS"), ("VP.ENTER 1 4 10", "EXIT VMCALL 33")]
    plan = f"A 1000\nB {EVENTS}\nC 1000\n"
    yield played("a token back to the second module", [SOURCE, back, gives_up], plan, {"b": NOTES})
    to_first = [*SOURCE, BACK[0], ("EXPORT.ABORT 1 50", "NO_BUNDLE 50")]
    yield played("and not to the first one", [to_first, back, gives_up], f"A {made_at(len(SOURCE))}\nB {EVENTS}\nC 1000\n", {"b": NOTES})
    first = [("IMPORT.STATE.IMMUTABLE 1 0", "NO_BUNDLE 0")]
    skipped = [*DESTINATION[:6], *first]
    yield played("a bundle of the module before the last one", [SOURCE, [("HOST.READ 5 0", "SUCCESS 0")], skipped])


# The events of the second module's calls, by the number of locks of each: 2n + 1.
LOCKS = {
    "MNG.CREATE": 2, "MNG.KEY.CONFIG": 1, "MNG.ADDCX": 2, "MIG.STREAM.CREATE": 3, "IMPORT.STATE.IMMUTABLE": 3, "VP.CREATE": 3, "MEM.SEPT.ADD": 4,
    "IMPORT.MEM": 4, "IMPORT.TRACK": 3, "IMPORT.STATE.TD": 2, "IMPORT.STATE.VP": 3, "IMPORT.COMMIT": 3, "IMPORT.END": 2, "EXPORT.STATE.IMMUTABLE": 3,
    "EXPORT.PAUSE": 3, "EXPORT.MEM": 6, "EXPORT.STATE.TD": 2, "EXPORT.STATE.VP": 3, "EXPORT.TRACK": 3,
}
EVENTS = sum(2 * LOCKS[call.split()[0]] + 1 for call, _ in SECOND)


def eight():
    """A TD goes from the first of eight modules to the last one. Its guest stores a word on each, and reads them all at the end."""
    sides, codes = [], []
    stores = [line for at in range(8) for line in (f"set 1 {1 << at}", f"store 1 {8 * at}", "vmcall 1")]
    adds = [line for at in range(8) for line in (f"load 1 {8 * at}", "add 0 1")]
    code = ["code 1 0", *stores, *adds, "vmcall 0", "end"]
    for at in range(8):
        enters = [("VP.ENTER 1 4 256", f"EXIT VMCALL {1 << at}")]
        if at == 0:
            calls = [*SOURCE[:19], *enters, *sends(0)]
        else:
            calls = [*takes(20 * (at - 1)), *enters, *ENDED, *(sends(20 * at) if at < 7 else [("VP.ENTER 1 4 256", "EXIT VMCALL 255")])]
        sides.append(calls)
        codes.append(code)
    notes = {"h": [f"load {8 * at:#x} {1 << at}" for at in range(8)]}
    yield played("eight modules", sides, notes=notes, codes=codes)
    yield played("eight modules, each behind the one before it", sides, "".join(f"{letter} 1000\n" for letter in "ABCDEFGH"), notes, codes=codes)


def faults():
    """What ends before any module runs."""
    words = "chain keys plan a b c"
    for length in range(0, 512, 64):
        if length != 128:
            yield refused(f"keys of {length} bytes", words, {"keys": KEYS[:length], "plan": b"x", "a": b""}, 7, "key file")
    for letter in ("D", "H", "I", "a"):
        yield refused(f"a plan with {letter}", words, {"plan": f"C 1\n{letter} 1\n".encode()}, 2, "plan line 2 PLAN")
    yield refused("a bad third script", words, {"c": b""}, 2, "c line 1 MACHINE")
    third = script_of([("HOST.READ 1 1", ""), ("EXPORT.TRACK 1 4 0", ""), ("EXPORT.TRACK 1 0 0", "")])
    yield refused("an output slot of the first script in the third", words, {"c": third}, 2, "c call 0.2 SLOT")
    last = script_of([("EXPORT.TRACK 1 4 0", ""), ("EXPORT.STATE.IMMUTABLE 1 0", "")])
    yield refused("SIDE before SLOT", words, {"c": last}, 2, "c call 0.2 SIDE")
    four = "chain keys plan a b c d"
    keys = {"keys": KEYS[:192]}
    later = script_of([("EXPORT.TRACK 1 25 0", "")])
    yield refused("a slot of the second in the fourth", four, {**keys, "c": script_of(THIRD), "d": later}, 2, "d call 0.1 SLOT")
    yield refused("SLOT in the third and the fourth", four, {**keys, "c": third, "d": later}, 2, "c call 0.2 SLOT")
    report = b"machine 1 32 1\ncode 1 0\nreport\nend\n"
    yield refused("a report", words, {"b": report}, 7, "report key file")
    yield refused("a report, and SLOT", words, {"b": report, "c": third}, 2, "c call 0.2 SLOT")
    yield refused("back and forth", "chain keys plan a b a", {"keys": KEYS[:128]}, 2, "a call 0.20 SIDE")
    yield refused("no third script", "chain keys plan a b c --secrets z", {"c": None}, 3, "cannot read c")
    yield refused("no secrets", "chain keys plan a b c --secrets z", {}, 3, "cannot read z")


def cases():
    """All cases."""
    for some in (three, eight, faults):
        yield from some()
