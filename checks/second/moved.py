"""The migration of the gallery, examples/migration-source and examples/migration-destination: the lines of both sides, their
keys, and what goes over."""

import os

import built
import program
from bundles import bundles_of

EXAMPLES = os.path.join(built.TOP, "examples")
# The place of the slot in the calls that make a bundle or take one.
SLOTS = {f"{way}PORT.{name}": place for way in ("EX", "IM")
         for name, place in (("STATE.IMMUTABLE", 2), ("TRACK", 2), ("STATE.TD", 2), ("STATE.VP", 3))}
SLOTS |= {"EXPORT.MEM": 4, "IMPORT.MEM": 2}


def bytes_of(name, file):
    """The bytes of a file of an example."""
    with open(os.path.join(EXAMPLES, name, file), "rb") as its:
        return its.read()


class Side:
    """One side of the migration: its machine, its calls, its lists, and of each call the reply that stands beside it."""

    def __init__(self, name):
        lines = [line.strip() for line in bytes_of(name, "script").decode().splitlines()]
        lines = [line for line in lines if line and not line.startswith("#")]
        begin = lines.index("lp 0")
        end = lines.index("end", begin)
        self.machine, self.calls = lines[0], lines[begin + 1 : end]
        self.code = lines[1:begin] + lines[end + 1 :]
        self.replies = [line.split(" ", 1)[1] for line in bytes_of(name, "expected").decode().splitlines()]

    def script(self, calls):
        """The bytes of its script with other calls."""
        return "".join(f"{line}\n" for line in [self.machine, "lp 0", *calls, "end", *self.code]).encode()


SOURCE, DESTINATION = Side("migration-source"), Side("migration-destination")
KEYS = bytes_of("migration-source", "keys")
# What its guest notes on the other side, behind the number of its line.
NOTES = [line.split(" ", 1)[1] for line in bytes_of("migration-destination", "guest").decode().splitlines()]


def slot_of(call):
    """The slot of the bundle that a call makes or takes, or None."""
    words = call.split()
    return int(words[SLOTS[words[0]]]) if words[0] in SLOTS else None


def moved_by(call, slots):
    """The call with a slot so many behind its own, where it has one."""
    words = call.split()
    if words[0] in SLOTS:
        words[SLOTS[words[0]]] = f"{slot_of(call) + slots}"
    return " ".join(words)


def sent():
    """The bundles that the source makes, by slot."""
    files = {"script": SOURCE.script(SOURCE.calls), "keys": KEYS}
    *_, saved, _ = program.answer(["replay", "script", "--keys", "keys", "--out-bundles", "sent"], files.get)
    return bundles_of(saved["sent"])


def answer_of(replies, **saved):
    """What a run answers whose calls come to these replies, with its guest file, and other files that it saves."""
    text = "".join(f"0.{place} {reply}\n" for place, reply in enumerate(replies, 1))
    noted = [f"0.{place} {note}\n" for place, reply in enumerate(replies, 1) if reply == "EXIT VMCALL 33" for note in NOTES]
    return built.Answer(0, built.whole_text(text, {"guest": "".join(noted).encode(), **saved}))
