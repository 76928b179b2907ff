"""What the tools have of traces, one event a line as `./tdx-view trace SCRIPT --json` prints them: the events, the
locks that are held, the calls, and who stood in the way of a try."""

import json
import os
import sys
from collections import namedtuple

import runs
from outside import TOP, ran

VIEW = TOP + "/crates/tdx_view/out/tdx_view"
SECOND = TOP + "/checks/second"
LOCKS = "POTERK"
WHATS = {
    "try": "try, granted", "denied": "try, denied", "undo": "taken back", "act": "act", "release": "release", "walk": "walk",
    "access": "access", "count": "count step", "exit": "exit",
}
# The members that every event has, and those that some have.
NEEDED = {"event": int, "processor": int, "line": int, "what": str}
OTHERS = {"script_line": int, "call": str, "lock": str, "mode": str, "reply": str}
MOST = 2**64
LONGEST = 1 << 16

Event = namedtuple("Event", "event processor line script_line call what lock mode reply td")
# A lock that is held from one event to another, in that place from the top.
Held = namedtuple("Held", "processor line lock mode first last place")
# A call from its first event to its last, and its guest from the act of the entry to the count step of the exit.
Call = namedtuple("Call", "processor line script_line call first last reply guest")


class BadTrace(Exception):
    """What is wrong with a trace."""


# Reading.


def need(holds, what):
    if not holds:
        raise BadTrace(what)


def is_sound(value):
    """Whether a member is a number that a run can have, or a text that a script or a reply can."""
    return 0 <= value < MOST if isinstance(value, int) else value.isascii() and value.isprintable()


def event_of(place, line):
    """The event that a line of the trace is."""
    try:
        its = json.loads(line)
    except (ValueError, RecursionError):
        raise BadTrace(f"line {place} isn't JSON") from None
    need(isinstance(its, dict), f"line {place} isn't an object")
    for key, kind in {**NEEDED, **OTHERS}.items():
        if key in its or key in NEEDED:
            need(key in its, f"line {place} has no {key}")
            need(type(its[key]) is kind and is_sound(its[key]), f"line {place}: {key} is {str(its[key])[:40]!r}")
    need(its["what"] in WHATS, f"line {place}: there is no event {its['what']!r}")
    if its["what"] in ("try", "denied", "undo", "release"):
        need(its.get("lock", "")[:1] in [*LOCKS], f"line {place}: the lock is {its.get('lock')!r}")
    if its["what"] in ("try", "denied"):
        need(its.get("mode") in ("shared", "exclusive"), f"line {place}: the mode is {its.get('mode')!r}")
    return Event(*(its.get(key) for key in Event._fields[:-1]), None)


def lines_of(file):
    """The lines of a file of bytes, of one that is too long for an event its beginning."""
    return iter(lambda: file.readline(LONGEST), b"")


def events_of(lines):
    """The events of lines of bytes, which are numbered one after the other, with the TD that their locks belong to: that
    whose page their call has locked first."""
    tds, before = {}, None
    for place, line in enumerate(lines, 1):
        if not line.strip():
            continue
        it = event_of(place, line)
        need(before in (None, it.event - 1), f"event {it.event} comes behind event {before}")
        before = it.event
        if it.lock and it.lock.startswith("P "):
            tds.setdefault((it.processor, it.line), it.lock[2:])
        yield it._replace(td=tds.get((it.processor, it.line)) if it.lock and it.lock[0] in "OTER" else None)
    need(before is not None, "there is no event in it")


# Locks and calls.


def name_of(event):
    """A lock with its TD, so that those of two TDs differ."""
    return event.lock, event.td


def held_locks(events):
    """The locks that are held, and those whose denied try isn't taken back yet, each from its first event to its last."""
    open_ones, found = {}, []
    for it in events:
        stack = open_ones.setdefault(it.processor, [])
        if it.what == "try" or (it.what == "denied" and it.mode == "shared"):
            taken = {each[1] for each in stack}
            stack.append((it, next(place for place in range(len(stack) + 1) if place not in taken)))
        elif it.what in ("release", "undo"):
            what = "try" if it.what == "release" else "denied"
            at = [n for n, (began, _) in enumerate(stack) if (began.lock, began.what) == (it.lock, what)]
            need(at, f"event {it.event}: there is no {what} of {it.lock} before its {it.what}")
            began, place = stack.pop(at[-1])
            found.append((began, it.event, place))
    last = events[-1].event + 1
    found += [(began, last, place) for stack in open_ones.values() for began, place in stack]

    def of(what, mode=None):
        return [Held(it.processor, it.line, name_of(it), mode or it.mode, it.event, end, place) for it, end, place in found if it.what == what]

    return of("try"), of("denied", "denied")


def in_the_way(denied, held):
    """Of the locks that are held or being refused those that stood in the way of a denied try: who held it alone, or else
    all others."""
    others = [it for it in held if it.lock == name_of(denied) and it.first < denied.event <= it.last and it.processor != denied.processor]
    return [it for it in others if it.mode == "exclusive"] or others


def calls_of(events):
    """The calls, in the order of their first events."""
    found = {}
    for it in events:
        key = it.processor, it.line
        call = found.get(key) or Call(*key, it.script_line, it.call or "", it.event, it.event, None, None)
        guest = call.guest
        if it.call == "VP.ENTER" and it.what not in ("try", "denied", "undo", "release"):
            guest = (guest or (it.event,))[0], it.event
        found[key] = call._replace(last=it.event, reply=it.reply or call.reply, guest=guest)
    return [it if (it.reply or "").startswith("EXIT") else it._replace(guest=None) for it in found.values()]


# The trace of a script.


def by_program(script, options):
    """The events of a run by `tdx-view`, or None where that isn't built or doesn't take these options."""
    if not os.access(VIEW, os.X_OK):
        return None
    status, text = ran([VIEW, "trace", "/dev/stdin", "--json", *runs.words_for(options)], script)
    return None if status else list(events_of(text.splitlines()))


def by_model(script, options):
    """The events of a run by the second model, or None where that isn't here."""
    sys.path.append(SECOND)
    try:
        import program
        import tracing
    except ImportError:
        return None
    made = tracing.trace_of(["", *runs.words_for(options)], lambda name: program.file_at(name) if name else script)
    return list(events_of(json.dumps(it).encode() for it in made))


def of_run(script, options, replies):
    """The events of a run that gave these replies by their numbers, or None where nothing tells them."""
    options = {name: value for name, value in options.items() if name in runs.VIEWED}
    for tells in (by_program, by_model):
        events = tells(script, options)
        if events and {f"{it.processor}.{it.line}": it.reply for it in events if it.reply is not None} == replies:
            return events
    return None
