"""Random modules that hand each other bundles: their scripts, a plan, and keys. A case is what its seed and its place say.

The first module builds a TD and sends it; each further one takes it in, and all but the last send it on. A plan gives each module the
events up to a call that takes a bundle when the module before it has made it: so, or with one event more or less here and there; or
it is empty, or goes at random. In some the last module gives the import up, and its token goes back to the module before it, which
runs its TD on. Some have a line that can't stand on its side, a report, or a faulty plan, script or key file."""

import generator
from generator import Arrival, Chance, Scene, Source, lines_of, text_of
from modules import BEGINS_EXPORT, BEGINS_IMPORT, LETTERS, MOST_EVENTS, PLAN_END, PLAN_LINES
from scripts import BY_TOKEN, call_of, number

NAMES = [letter.lower() for letter in LETTERS]
PLAN_FAULTS = (
    "C 1\n", "A 0\n", f"A {MOST_EVENTS + 1}\n", "A 01\n", "A +1\n", "A -1\n", "A  1\n", " A 1\n", "A 1 \n", "A\n", "A 0x1\n", "a 1\n",
    "I 1\n", "# A 1\n", "\n", "A 1", "A 1\r\n", "A 99999999999999999999\n", "A 1\x00\n", "B 1\nA", "AB 1\n", "1 A\n", "A\t1\n", "H 1 1\n",
)
BAD_SCRIPTS = (b"", b"machine 1 8 1", b"machine 1 8 1\nend\n", b"machine 1 8 1\nlp 0\nMEM.TRACK\nend\n")


class Side:
    """A module of a case: its scene, the calls of its first processor, and its script."""

    def __init__(self, scene, calls):
        self.scene, self.calls, self.lines = scene, calls, []

    def slots(self):
        """The output slots that its script has."""
        return {number(word) for word in generator.slots_of(self.lines or self.calls) if word != "SLOT"}

    def write(self, chance, others):
        """Writes its script, which has none of the other slots; other processors enter its VCPUs, and are hosts."""
        self.scene.lps = chance.choice((1, 1, 1, 1, 2, 3))
        blocks, turns = generator.beside(chance, self.scene, self.calls, len(self.calls))
        self.lines = lines_of(chance, self.scene, blocks, turns if chance.random() < 0.4 else [], others)


def sides_of(chance, count):
    """So many modules, of which each has the TD of the one before it."""
    sources = [Source(chance)]
    for at in range(1, count - 1):
        others = generator.slots_of(sources[at - 2].calls) if at > 1 else ()
        sources.append(Source(chance, sources[-1], map(number, others)))
    sides = [Side(source.scene, source.calls) for source in sources]
    scene = Scene(chance, generator.LARGE, source=sources[-1])
    parts = Arrival(chance, scene, chance.randrange(100)).parts(chance.random() < 0.1)
    sides.append(Side(scene, generator.joined(parts)))
    if chance.random() < 0.3:
        gives_up(chance, sides, parts)
    return sides


def gives_up(chance, sides, parts):
    """The last module gives its import up, and the one before it runs its TD on, with the token or without."""
    *_, before, last = sides
    slot = chance.choice(generator.free_slots(before.slots() | (sides[-3].slots() if len(sides) > 2 else set())))
    td, life = last.scene.lives[0].td, before.scene.lives[0]
    last.calls = [*generator.joined(parts[: chance.randint(2, 4)]), f"IMPORT.ABORT {td} {slot}"]
    restores = [f"EXPORT.RESTORE {life.td} {gpa}" for gpa in life.gpas]
    before.calls = [*before.calls, *[f"EXPORT.ABORT {life.td} {slot}"] * chance.choice((1, 2)), *restores, *life.entries(chance)]
    if chance.random() < 0.2:
        before.calls += life.export(chance, True)[0]


def without(lines, *begins):
    """The lines but for those that begin so."""
    return [line for line in lines if not line.split()[:1] or line.split()[0] not in begins]


def write(chance, sides):
    """Writes all scripts: nearly all of them without calls that can't stand on their sides, and without reports."""
    for at, side in enumerate(sides):
        is_bad = chance.random() < 0.02
        others = set() if at < 2 or is_bad else sides[at - 2].slots()
        side.write(chance, others | (sides[at + 2].slots() if at + 2 < len(sides) and not is_bad else set()))
        names = [BEGINS_IMPORT] * (at == 0) + [BEGINS_EXPORT] * (at == len(sides) - 1)
        if not is_bad:
            side.lines = without(side.lines, *names)
        if chance.random() < 0.99:
            side.lines = without(side.lines, "report")


def waits_of(side):
    """Where the first processor's calls wait for a bundle, in their order: how many events come before each, and its slot."""
    calls = [call for call in side.calls if call_of(call) in generator.TAKES]
    if not calls:
        return []
    before = generator.tried(side.scene, generator.with_slots(Chance("slots"), side.calls))[1]
    return [(before[place], number(call.split()[input_place(call)])) for place, call in enumerate(side.calls) if call_of(call) in generator.TAKES]


def input_place(call):
    """Where the words of a call have its input slot."""
    return 1 + generator.CALLS[call_of(call)].index("input")


def made_by(side):
    """After how many events of the first processor each of its bundles is made, by slot."""
    calls = generator.with_slots(Chance("slots"), side.calls)
    before = generator.tried(side.scene, calls)[1]
    made = {}
    for place, call in enumerate(calls):
        if generator.slots_of([call]):
            made[number(generator.slots_of([call])[0])] = before[place + 1]
    return made


def handing_over(chance, sides):
    """A plan by which bundles are handed over as they are made: the modules go on in turn, each as far as it can."""
    done, plan = [0] * len(sides), []
    waits, made = [waits_of(side) for side in sides], [made_by(side) for side in sides]
    for at in range(1, len(sides)):
        step = chance.choice((1, 1, 3, 100))
        for events, slot in waits[at][::step]:
            needs = made[at - 1].get(slot)
            for side, goal in ((at - 1, needs), (at, events + chance.choice((0, 0, 0, 7)))):
                if goal is not None and goal > done[side]:
                    plan.append((side, goal - done[side]))
                    done[side] = goal
    return plan


def changed(chance, plan):
    """A plan with an event more or less here and there, with lines in pieces, or left out."""
    lines = []
    for side, events in plan:
        draw = chance.random()
        if draw < 0.02:
            events = max(1, events + chance.choice((-1, 1, 1, -2)))
        elif draw < 0.03:
            continue
        elif draw < 0.2 and events > 1:
            cut = chance.randint(1, events - 1)
            lines.append((side, cut))
            events -= cut
        lines.append((side, events))
    return lines


def at_random(chance, count):
    """A plan that goes at random, for events of any number."""
    most = chance.choice((2, 20, 200, 5000))
    return [(chance.randrange(count), chance.randint(1, most)) for _ in range(chance.choice((1, 5, 60, 400)))]


def plan_text(chance, sides):
    """The bytes of a plan, now and then of a faulty one."""
    draw, count = chance.random(), len(sides)
    if draw < 0.15:
        plan = []
    elif draw < 0.25:
        plan = at_random(chance, count)
    else:
        plan = handing_over(chance, sides)
        plan = changed(chance, plan) if draw < 0.6 else plan
    lines = [f"{LETTERS[side]} {events}\n" for side, events in plan[:PLAN_LINES]]
    if chance.random() < 0.05:
        lines.insert(chance.randint(0, len(lines)), chance.choice(PLAN_FAULTS))
    elif chance.random() < 0.01:
        lines = chance.choice((["A 1\n"] * PLAN_LINES + ["B 1\n"], ["A 1\n"] * PLAN_LINES, ["A 1\n"] * (PLAN_END // 4), ["A 1\n"] * (PLAN_END // 4) + ["\n"]))
    return "".join(lines).encode()


def case(chance, count):
    """The scripts, the plan and the keys of so many modules, by their names, and the options."""
    sides = sides_of(chance, count)
    write(chance, sides)
    files = {name: text_of(side.lines) for name, side in zip(NAMES, sides)}
    files["plan"] = plan_text(chance, sides)
    length = 64 * (count - 1)
    files["keys"] = chance.randbytes(length if chance.random() < 0.98 else chance.choice((0, 63, length - 1, length + 1, length + 64, 65_537)))
    options = ["--guest-out", "guest"]
    if chance.random() < 0.8:
        files["secrets"] = generator.secrets_of(chance) if chance.random() < 0.98 else bytes(4095)
        options += ["--secrets", "secrets"]
    if chance.random() < 0.02:
        files[chance.choice(NAMES[:count])] = chance.choice(BAD_SCRIPTS)
    if chance.random() < 0.02:
        del files[chance.choice(sorted(files))]
    return files, options


def chain(seed, place):
    """The same of a chain of two to eight modules."""
    chance = Chance(f"chain {seed} {place}")
    count = chance.choice((2, 3, 3, 3, 4, 4, 5, 8))
    files, options = case(chance, count)
    names = NAMES[:count] if chance.random() < 0.99 else NAMES[: chance.choice((0, 1, count - 1))]
    return [["chain", "keys", "plan", *names, *options]], files


def pair(seed, place):
    """The pair at that place: the words of its command line, and its files by name."""
    files, options = case(Chance(f"pair {seed} {place}"), 2)
    return [["pair", "a", "b", "plan", "keys", *options]], files
