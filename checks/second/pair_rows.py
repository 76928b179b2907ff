"""Rows of modules that hand each other bundles, as docs/profile.md has them: scripts, plans, and what is printed. The scripts are those
of the migration of the gallery, without the calls that only look."""

import built
import moved
from machine import Outside
from program import processors_of
from scripts import read

KEYS = bytes(range(64))
CODE = moved.SOURCE.code
SOURCE = list(zip(moved.SOURCE.calls, moved.SOURCE.replies))
LOOKS = ("MNG.RD", "MEM.SEPT.RD", "PHYMEM.PAGE.RDMD")
DESTINATION = [its for its in zip(moved.DESTINATION.calls, moved.DESTINATION.replies) if its[0].split()[0] not in LOOKS]
# A source whose destination gives up, and which takes the token back: its further calls, by whether the token is there.
GIVES_UP = [*DESTINATION[:-3], ("IMPORT.ABORT 1 40", "SUCCESS"), ("IMPORT.COMMIT 1", "OP_STATE_INCORRECT FAILED_IMPORT")]
BACK = [("VP.ENTER 1 4 10", "OP_STATE_INCORRECT POST_EXPORT"), ("EXPORT.ABORT 1 40", "SUCCESS"), ("VP.ENTER 1 4 10", "EXIT VMCALL 33"),
        ("EXPORT.RESTORE 1 0", "SUCCESS")]
NO_TOKEN = [*BACK[:1], ("EXPORT.ABORT 1 40", "NO_BUNDLE 40"), BACK[0], ("EXPORT.RESTORE 1 0", "OP_STATE_INCORRECT POST_EXPORT")]
NOTES = moved.NOTES


def script_of(calls, machine="machine 1 32 1", code=None):
    """The bytes of a script with these calls."""
    return "".join(f"{line}\n" for line in [machine, *(CODE if code is None else code), "lp 0", *(call for call, _ in calls), "end"]).encode()


def lines_of(sides, notes):
    """What is printed, and the guest file: the replies of each module behind its letter, and what its last guest notes."""
    text = "".join(f"{letter} 0.{place} {reply}\n" for letter, calls in zip("abcdefgh", sides) for place, (_, reply) in enumerate(calls, 1))
    noted = ""
    for letter, calls in zip("abcdefgh", sides):
        entered = [place for place, (_, reply) in enumerate(calls, 1) if reply.startswith("EXIT VMCALL")]
        noted += "".join(f"{letter} 0.{entered[-1]} {note}\n" for note in notes.get(letter, ()))
    return text, noted.encode()


def played(name, sides, plan, notes=None, files=None):
    """A case of a pair: its name, words and files, and what is wanted of it."""
    text, noted = lines_of(sides, {"b": NOTES} if notes is None else notes)
    its = {"a": script_of(sides[0]), "b": script_of(sides[1]), "plan": plan.encode(), "keys": KEYS, **(files or {})}
    return name, [*"pair a b plan keys --guest-out guest".split()], its, built.Answer(0, built.whole_text(text, {"guest": noted}))


def refused(name, words, files, status, text):
    """A case that ends before any module runs."""
    its = {"a": script_of(SOURCE), "b": script_of(DESTINATION), "plan": b"", "keys": KEYS, **files}
    its = {file: its[file] for file in its if its[file] is not None}
    return name, words.split(), its, built.Answer(status, f"{text}\n")


# Behind so many events the destination takes its first bundle, which the call of that line of the source makes.
ASKED, BEGINS = 32, 20
# A destination that asks for it too early: no later call is allowed.
STAYS = "OP_STATE_INCORRECT UNINITIALIZED"
TOO_EARLY = [*DESTINATION[:6], ("IMPORT.STATE.IMMUTABLE 1 0", "NO_BUNDLE 0"), *((call, STAYS) for call, _ in DESTINATION[7:])]


def plans():
    """The migration of the gallery under plans."""
    whole = [SOURCE, DESTINATION]
    yield played("no plan", whole, "")
    yield played("the destination waits before its first bundle", whole, f"B {ASKED}\n")
    yield played("it doesn't wait", [SOURCE, TOO_EARLY], f"B {ASKED + 1}\n", {})
    yield played("one event early", [SOURCE, TOO_EARLY], f"A {made_at(BEGINS) - 1}\nB {ASKED + 1}\n", {})
    yield played("as its bundle is made", whole, f"A {made_at(BEGINS)}\nB {ASKED + 1}\n")
    yield played("one after the other", whole, "A 1\nB 1\n" * ASKED + f"A {made_at(BEGINS) - ASKED}\nB 1\n")
    yield played("more events than there are", whole, "A 1048576\nB 1048576\nA 1048576\n")
    yield played("as many lines as there may be", whole, "A 1\n" * 4095 + "B 1\n")
    back = [[*SOURCE, *BACK], GIVES_UP]
    yield played("a token back", back, f"A {made_at(len(SOURCE))}\nB 1000\n", {"a": NOTES})
    yield played("no token is there yet", [[*SOURCE, *NO_TOKEN], GIVES_UP], "", {})
    alone = [SOURCE, SOURCE[:19]]
    yield played("without any bundle", alone, "B 100\n", {})


def made_at(line):
    """After how many events the call of that line of the source has ended."""
    script = read(script_of(SOURCE))
    (processor,) = processors_of(script, Outside(script.code))
    count = 0
    while processor.made < line:
        processor.event()
        count += 1
    return count


def faults():
    """What ends before any module runs, by the order of its files."""
    words = "pair a b plan keys"
    for at, plan in ((1, "C 1\n"), (1, "# A 1\n"), (1, "\n"), (1, "A  1\n"), (1, "A +1\n"), (1, "A -1\n"), (1, "A 01\n"), (1, "A 0\n"), (1, "A 1048577\n"), (1, "A 0x1\n"),
                     (1, "a 1\n"), (1, "A 1"), (2, "A 1\nB 1"), (2, "A 1\nB\n"), (1, " A 1\n"), (1, "A 1 \n"), (1, "A 1\r\n"), (1, "A\t1\n"), (4097, "A 1\n" * 4097),
                     (4097, "A 1\n" * 4096 + "x"), (3, "A 1\nB 1\n\n"), (0, "A 1\n" * 16_384 + "\n"), (4097, "A 1\n" * 16_384), (1, "B 1 1\n"), (1, "AB 1\n")):
        yield refused(f"plan {plan[:12]!r}", words, {"plan": plan.encode()}, 2, f"plan line {at} PLAN")
    side = script_of([("HOST.READ 1 1", ""), ("EXPORT.STATE.IMMUTABLE 5 9", ""), ("EXPORT.STATE.IMMUTABLE 5 8", "")])
    other = b"machine 2 32 1\nlp 1\nIMPORT.STATE.IMMUTABLE 1 0\nend\nlp 0\nHOST.READ 1 1\nIMPORT.STATE.IMMUTABLE 1 0\nend\n"
    yield refused("the destination as the source", "pair b b plan keys", {}, 2, "b call 0.7 SIDE")
    yield refused("an export of the second", words, {"b": side}, 2, "b call 0.2 SIDE")
    yield refused("both sides", words, {"a": other, "b": side}, 2, "a call 0.2 SIDE")
    yield refused("an import of its second processor", words, {"a": b"machine 2 32 1\nlp 1\nIMPORT.STATE.IMMUTABLE 1 0\nend\n"}, 2, "a call 1.1 SIDE")
    report = b"machine 1 32 1\ncode 1 0\nreport\nend\n"
    yield refused("a report", words, {"b": report}, 7, "report key file")
    yield refused("a report, and a side", words, {"a": report, "b": side}, 2, "b call 0.2 SIDE")
    yield refused("a report, and secrets", f"{words} --secrets z", {"a": report, "z": bytes(4095)}, 7, "secrets file")
    yield refused("a bad script", words, {"a": b"machine 1 8 1\nlp 9\n", "b": b"", "plan": b"x", "keys": b""}, 2, "a line 2 RANGE")
    yield refused("a bad second script", words, {"b": b"", "plan": b"x", "keys": b""}, 2, "b line 1 MACHINE")
    yield refused("a bad plan before the keys", words, {"plan": b"x", "keys": b""}, 2, "plan line 1 PLAN")
    yield refused("a script that is too long", words, {"a": b"#" * 2**24 + b"\n"}, 2, "a line 0 LENGTH")
    for length in (0, 63, 65, 128, 65_537):
        yield refused(f"keys of {length} bytes", f"{words} --secrets z", {"keys": bytes(length), "z": None}, 7, "key file")
    for name in ("a", "b", "plan", "keys"):
        bad = {"a": b"", "b": b"", "plan": b"x", "keys": b""}
        later = {its: bad[its] for its in bad if its > name or name == "plan" and its == "keys"} if name != "keys" else {}
        yield refused(f"no {name}", f"{words} --secrets z", {**later, name: None}, 3, f"cannot read {name}")
    yield refused("no secrets", f"{words} --secrets z", {"a": script_of(DESTINATION)}, 3, "cannot read z")


def cases():
    """All cases."""
    yield from plans()
    yield from faults()
