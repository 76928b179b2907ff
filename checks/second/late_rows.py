"""Rows of pages behind the start token, as docs/profile.md has them. They are written as those of lists are (list_rows.py)."""

from list_rows import COMES, LIVE, NOTES, STATES, WAITS, events_of, played, sent_by, turned, untouched

LATE, EPOCH = "IMPORT.MEM 1 4 9", "BUNDLE_HEADER EPOCH"
# The source of the gallery, two of whose pages go out behind the start token, and its destination as far as the commit.
SENT = [*LIVE, "SUCCESS | EXPORT.MEM 1 0 0 3", STATES, "SUCCESS | EXPORT.MEM 1 4096 1 4 | EXPORT.MEM 1 8192 1 5"]
FIRST = [*WAITS, *COMES, "SUCCESS | IMPORT.MEM 1 1 8 | IMPORT.TRACK 1 2 | IMPORT.MEM 1 3 13"]
STARTED = "SUCCESS | IMPORT.STATE.TD 1 6 | IMPORT.STATE.VP 1 4 7 | IMPORT.TRACK 1 8"
COMMITS = "SUCCESS | IMPORT.COMMIT 1"
STOPS = "EXIT EPT_VIOLATION 0x1000 READ | VP.ENTER 1 4 10"
AGAIN = "EXIT EPT_VIOLATION 0x2000 READ | VP.ENTER 1 4 10"
GOES_ON, ENDED = "EXIT VMCALL 33 | VP.ENTER 1 4 10", "SUCCESS | IMPORT.END 1"


def count_of(groups):
    """How many calls these groups have."""
    return sum(len(group.split(" | ")) - 1 for group in groups)


def going_out():
    """Pages that go out behind the start token."""
    sent = sent_by(SENT)
    yield played("the source", SENT, made=sent)
    again = [
        "EPT_ENTRY_STATE_INCORRECT EXPORTED_BLOCKEDW | EXPORT.MEM 1 0 0 9 | EXPORT.MEM 1 4096 0 10", "EPT_ENTRY_STATE_INCORRECT FREE | EXPORT.MEM 1 12288 0 11",
        "NO_STREAM 2 | EXPORT.MEM 1 4096 2 12", "OP_STATE_INCORRECT POST_EXPORT | EXPORT.BLOCKW 1 0 | EXPORT.TRACK 1 13 0 | EXPORT.PAUSE 1 | EXPORT.ABORT 1",
    ]
    yield played("once alone", [*SENT, *again], made=sent)
    blocked = [*LIVE[:-1], "SUCCESS | EXPORT.BLOCKW 1 4096", LIVE[-1], *SENT[len(LIVE) :]]
    yield played("of a page that is blocked for writing", blocked)
    token = sent_by([*WAITS, *COMES, "SUCCESS | IMPORT.ABORT 1 40"], comes=sent)
    back = ["SUCCESS | EXPORT.ABORT 1 40 | EXPORT.RESTORE 1 0 | EXPORT.RESTORE 1 4096 | EXPORT.RESTORE 1 8192", GOES_ON]
    yield played("ended by a token behind them", [*SENT, *back], token, notes=NOTES)


def coming_in():
    """Pages that come in behind the start token, each as a guest misses it, or before it runs."""
    sent = sent_by(SENT)
    each = [STOPS, f"SUCCESS | {LATE}", AGAIN, "SUCCESS | IMPORT.MEM 1 5 10", GOES_ON, ENDED]
    first = count_of([*FIRST, STARTED, COMMITS])
    noted = [f"0.{first + place} {note}" for place, note in zip((1, 3, 5), NOTES)]
    yield played("each as a guest misses it", [*FIRST, STARTED, COMMITS, *each], sent, noted=noted)
    both = f"SUCCESS | {LATE} | IMPORT.MEM 1 5 10"
    yield played("before the commit", [*FIRST, STARTED, both, COMMITS, GOES_ON, ENDED], sent, notes=NOTES)
    yield played("behind the commit", [*FIRST, STARTED, COMMITS, both, GOES_ON, ENDED], sent, notes=NOTES)
    over = ["EPT_ENTRY_STATE_INCORRECT MAPPED | IMPORT.MEM 1 104 40", *untouched(40), both, COMMITS, GOES_ON]
    forged = {**sent, 104: turned(sent, 4, 33, 4)[4]}
    yield played("over a page that is there", [*FIRST, STARTED, *over], forged, notes=NOTES)
    yield played("over a page, committed", [*FIRST, STARTED, COMMITS, *(group for group in over if group != COMMITS)], forged, notes=NOTES)
    orders = [
        f"{EPOCH} | IMPORT.MEM 1 1 9", "BUNDLE_COUNTER 1 2 | IMPORT.MEM 1 5 10", f"SUCCESS | {LATE}", f"BUNDLE_COUNTER 2 1 | {LATE} | IMPORT.MEM 1 4 11",
        "PAGE_METADATA_INCORRECT 9 | IMPORT.MEM 1 5 9", "SUCCESS | IMPORT.MEM 1 5 10", GOES_ON,
    ]
    yield played("in another order", [*FIRST, STARTED, COMMITS, *orders], sent, notes=NOTES)
    early = [f"{EPOCH} | {LATE}", STARTED, f"SUCCESS | {LATE} | IMPORT.MEM 1 5 10", COMMITS, GOES_ON]
    yield played("before the start token", [*FIRST, *early], sent, notes=NOTES)
    gone = [f"SUCCESS | {LATE} | IMPORT.ABORT 1 40", "OP_STATE_INCORRECT FAILED_IMPORT | IMPORT.MEM 1 5 10 | IMPORT.COMMIT 1"]
    yield played("given up", [*FIRST, STARTED, *gone], sent)
    over = [COMMITS, STOPS, ENDED, f"OP_STATE_INCORRECT RUNNABLE | {LATE}", STOPS, "SUCCESS | MEM.PAGE.AUG 1 4096 9", STOPS]
    yield played("ended before they come", [*FIRST, STARTED, *over], sent, noted=[f"0.{first + 1} {NOTES[0]}"])


def two_streams():
    """Two pages that go out on two streams and come in in any order, and one that comes over none."""
    source = [*SENT[:-1], "SUCCESS | EXPORT.MEM 1 4096 0 4 | EXPORT.MEM 1 8192 1 5"]
    sent = sent_by(source)
    yield played("on two streams", source, made=sent)
    for name, both in (("as they went", f"SUCCESS | {LATE} | IMPORT.MEM 1 5 10"), ("the other way", f"SUCCESS | IMPORT.MEM 1 5 10 | {LATE}")):
        yield played(f"on two streams, {name}", [*FIRST, STARTED, COMMITS, both, GOES_ON], sent, notes=NOTES)


def lists():
    """A list behind the start token comes in before the commit alone."""
    source = [*SENT[:-1], "SUCCESS | EXPORT.MEM 1 4096 1 4 2"]
    sent = sent_by(source)
    yield played("a list", source, made=sent)
    late = "OP_STATE_INCORRECT LIVE_IMPORT | IMPORT.MEM 1 4 9 2"
    before = ["BUNDLE_HEADER VERSION | IMPORT.MEM 1 4 9", "SUCCESS | IMPORT.MEM 1 4 9 2", COMMITS, late, GOES_ON]
    yield played("a list before the commit", [*FIRST, STARTED, *before], sent, notes=NOTES)
    first = count_of([*FIRST, STARTED, COMMITS])
    yield played("a list behind the commit", [*FIRST, STARTED, COMMITS, late, STOPS, late], sent, noted=[f"0.{first + 2} {NOTES[0]}"])
    some = [*SENT[:-1], "SUCCESS | EXPORT.MEM 1 4096 1 4 | EXPORT.MEM 1 8192 1 5 1"]
    sent = sent_by(some)
    forged = {**sent, 105: turned(sent, 5, 33, 4)[5]}  # of the page at GPA 12288, and of that at 4096
    over = [f"SUCCESS | {LATE}", "EPT_ENTRY_STATE_INCORRECT MAPPED | IMPORT.MEM 1 106 40 1", "SUCCESS | IMPORT.MEM 1 5 10 1", COMMITS, GOES_ON]
    forged[106] = sent[5][:33] + b"\x10" + sent[5][34:]
    yield played("a list over a page", [*FIRST, STARTED, *over], forged, notes=NOTES)


def races():
    """A page comes in while a guest walks to it: behind so many of its events the walk has seen that the page isn't there, or finds
    it. The guest's first access is a load from the page that comes."""
    sent = sent_by(SENT)
    build = [*FIRST, STARTED, COMMITS]
    code = "1 0 | set 1 44 | store 1 0 | load 2 4096 | vmcall 2"
    before = events_of(build, code, sent)
    for walked in range(5):
        sees = walked <= 3
        call = f"{'EXIT VMCALL 22' if sees else 'EXIT EPT_VIOLATION 0x1000 READ'} | VP.ENTER 1 4 10"
        noted = ["1.1 load 0x1000 22"] if sees else []
        schedule = f"0*{before} 1*{6 + walked} 0*9 1*20"
        yield played(f"behind {walked} events of a walk", [*build, f"SUCCESS | {LATE}"], sent, [[call]], schedule, code, noted=noted)
    for held in range(1, 9):
        # The act is the fifth event: the four tries come before it, and its four releases behind it.
        sees = held >= 5
        call = f"{'EXIT VMCALL 22' if sees else 'EXIT EPT_VIOLATION 0x1000 READ'} | VP.ENTER 1 4 10"
        noted = ["1.1 load 0x1000 22"] if sees else []
        schedule = f"0*{before} 1*{6 + 3} 0*{held} 1*20"
        yield played(f"{held} events of the import before the entry is looked at", [*build, f"SUCCESS | {LATE}"], sent, [[call]], schedule, code, noted=noted)


def cases():
    """All cases, those of lists where there are some."""
    for some in (going_out, coming_in, two_streams, races):
        yield from some()


def cases_of_lists():
    """Those of lists."""
    yield from lists()
