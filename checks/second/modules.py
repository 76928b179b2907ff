"""Modules that hand each other bundles, of docs/profile.md: plans, and what a run of two to eight modules is. Each has a machine of
its own; those that stand side by side have a link."""

import re

from bundles import ABORT_TOKEN, header_of
from calls import ARGUMENTS

LETTERS = "ABCDEFGH"
PLAN_END, PLAN_LINES, MOST_EVENTS = 1 << 16, 4096, 1 << 20
KEY_BYTES = 64  # of a link: the key forward, and the key back
PLAN_LINE = re.compile(rb"([A-H]) ([1-9][0-9]{0,6})")
BEGINS_IMPORT, BEGINS_EXPORT = "IMPORT.STATE.IMMUTABLE", "EXPORT.STATE.IMMUTABLE"


class BadPlan(Exception):
    """A plan that isn't one, with its first bad line."""


def plan_of(text, modules):
    """The lines of a plan of so many modules: a module, and how many events it has next."""
    if len(text) > PLAN_END:
        raise BadPlan(0)
    *lines, cut = text.split(b"\n")
    plan = []
    for place, line in enumerate(lines + [cut] * bool(cut), 1):
        found = PLAN_LINE.fullmatch(line)
        is_good = found and place <= min(PLAN_LINES, len(lines)) and int(found[2]) <= MOST_EVENTS
        module = LETTERS.index(found[1].decode()) if is_good else modules
        if module >= modules:
            raise BadPlan(place)
        plan.append((module, int(found[2])))
    return plan


def outputs_of(script):
    """The calls that name an output slot, each with its processor, its number and that slot."""
    for processor, calls in sorted(script.calls.items()):
        for place, (name, arguments) in enumerate(calls, 1):
            if "output" in ARGUMENTS[name]:
                yield processor, place, arguments[ARGUMENTS[name].index("output")]


def first_call(script, name):
    """Where the first call of that name stands, by processor and number, or None."""
    places = ((processor, place) for processor, calls in sorted(script.calls.items()) for place, call in enumerate(calls, 1) if call[0] == name)
    return next(places, None)


def wrong_sides(scripts):
    """The script at whose side a call can't stand, that call's place, and why: that of the first call of an import in the first
    script, or of an export in the last one; and then an output slot that the script two places before has."""
    for at, name in ((0, BEGINS_IMPORT), (len(scripts) - 1, BEGINS_EXPORT)):
        place = first_call(scripts[at], name)
        if place is not None:
            return at, place, "SIDE"
    for at in range(2, len(scripts)):
        before = {slot for *_, slot in outputs_of(scripts[at - 2])}
        for processor, place, slot in outputs_of(scripts[at]):
            if slot in before:
                return at, (processor, place), "SLOT"
    return None


class Module:
    """A module: its processors, and the bundles of its calls that have ended, by slot."""

    def __init__(self, processors, schedule):
        self.processors, self.made = processors, {}
        self.turns = self.turns_of(schedule)

    def turns_of(self, schedule):
        """The processors that make its events: by its schedule, in which those that have ended are passed over, and then each to its
        end."""
        for number in schedule:
            if not self.processors[number].has_ended():
                yield self.processors[number]
        for processor in self.processors:
            while not processor.has_ended():
                yield processor

    def event(self):
        """Makes the next event, and answers whether there was one. A bundle is handed on with the last event of its call."""
        processor = next(self.turns, None)
        if processor is None:
            return False
        made = processor.made
        processor.event()
        if processor.made > made:
            name, arguments = processor.calls[made]
            outputs = processor.machine.outside.outputs
            slots = [its for kind, its in zip(ARGUMENTS[name], arguments) if kind == "output" and its in outputs]
            self.made |= {slot: outputs[slot] for slot in slots}
        return True


class Coming:
    """What comes to a module: of the module before it all but tokens back, and of the one behind it these alone."""

    def __init__(self, modules, at):
        self.modules, self.at = modules, at

    def get(self, slot):
        """The bundle at that slot, or None."""
        for at, is_token in ((self.at - 1, False), (self.at + 1, True)):
            bundle = self.modules[at].made.get(slot) if 0 <= at < len(self.modules) else None
            if bundle is not None and (header_of(bundle).type == ABORT_TOKEN) == is_token:
                return bundle
        return None


def link_keys(keys, at, modules):
    """The keys by which that module of so many imports, and those by which it exports: of the link before it, and of that behind it,
    or of the one that it has."""
    links = [keys[start : start + KEY_BYTES] for start in range(0, len(keys), KEY_BYTES)]
    return links[max(0, at - 1)], links[min(at, modules - 2)]


def run_modules(modules, plan):
    """Runs modules by a plan, and then each to its end."""
    for at, events in plan:
        for _ in range(events):
            if not modules[at].event():
                break
    for module in modules:
        while module.event():
            pass
