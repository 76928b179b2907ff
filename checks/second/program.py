"""The program's command line, statuses and texts of docs/profile.md: its commands."""

import re
import struct
from functools import partial

import features
from bundles import BadContainer, bundles_of, container_of
from calls import row
from machine import Machine, Outside, Processor, run
from modules import KEY_BYTES as LINK_BYTES
from modules import LETTERS, BadPlan, Coming, Module, link_keys, plan_of, run_modules, wrong_sides
from reports import KEY_BYTES, verdict
from scripts import Fault, read
from soak import soak_line

USAGE = (
    "usage: tdx replay|run SCRIPT [--bundles F] [--keys F] [--secrets F] [--out-bundles F] [--guest-out F] [--report-key F]"
    " | tdx check SCRIPT | tdx soak N"
    + " | tdx pair SOURCE DEST PLAN KEYS [--secrets F] [--guest-out F]" * features.has(features.PAIRS)
    + " | tdx verify FILE KEY"
    + " | tdx chain KEYS PLAN SCRIPT.. [--secrets F] [--guest-out F]" * features.has(features.CHAINS)
)
INPUTS = ("--bundles", "--keys", "--secrets", "--report-key")
OPTIONS = ("--bundles", "--keys", "--secrets", "--out-bundles", "--guest-out", "--report-key")
SECRETS = "<512Q"
MOST_SOAKED = 512


class Ended(Exception):
    """An end in another status than 0, with its text."""


FAULTS = (Ended, Fault, BadContainer)


def processors_of(script, outside=None):
    """The processors of a script's machine, with their calls."""
    machine = Machine(*script.machine, outside)
    return [Processor(machine, number, script.calls.get(number, []), row) for number in range(machine.processors)]


def reply_lines(processors):
    """A line for each call: its processor, its number and its reply."""
    return "".join(
        f"{processor.number}.{place} {reply}\n"
        for processor in processors
        for place, (reply, _) in enumerate(processor.replies, 1)
    )


def replay(script, outside=None):
    """Runs a script by its schedule; answers its processors as they ended."""
    processors = processors_of(script, outside)
    run(processors, script.schedule)
    return processors


def run_threads(script, outside=None):
    """Runs a script in one order of those that threads may come to, without its schedule: each processor to
    its end, in the order of their numbers. With one processor there is no other order."""
    processors = processors_of(script, outside)
    run(processors, [])
    return processors


def answer(words, load):
    """The status and the text of the command line with these words, the files that it saves, and the
    processors of the run where there was one. A file's bytes come from `load`, or None where it can't be read."""
    try:
        command, word, options = asked(words)
        return 0, *COMMANDS[command](word, options, load)
    except FAULTS as fault:
        return *end_of(fault), {}, []


def end_of(fault):
    """The status and the text in which a fault ends."""
    if isinstance(fault, Ended):
        return fault.args
    return (2, f"{fault}\n") if isinstance(fault, Fault) else (6, f"bundle file byte {fault}\n")


def file_at(name):
    """The bytes of a file, or None where it can't be read."""
    try:
        with open(name, "rb") as file:
            return file.read()
    except (OSError, ValueError):
        return None


def need_usage(holds):
    """A rule of the command line."""
    if not holds:
        raise Ended(1, f"{USAGE}\n")


def loaded(name, load):
    """The bytes of a file that is there."""
    text = load(name)
    if text is None:
        raise Ended(3, f"cannot read {name}\n")
    return text


def options_of(words):
    """The words that are no options, and the options with their values."""
    rest, options, left = [], {}, iter(words)
    for word in left:
        if word == "--":
            rest += left
        elif word == "-" or not word.startswith("-"):
            rest.append(word)
        else:
            name, given, value = word.partition("=")
            if not given:
                value = next(left, "--")
                need_usage(value == "-" or not value.startswith("-"))
            need_usage(name in OPTIONS and name not in options)
            options[name] = value
    return rest, options


def asked(words):
    """The command that words ask for, the one word that it has or both, and its options with their values."""
    need_usage(words and words[0] in COMMANDS)
    rest, options = options_of(words[1:])
    need_usage(all(name in OPTIONS_OF.get(words[0], ()) for name in options))
    if words[0] in WORDS:
        need_usage(len(rest) in WORDS[words[0]])
        return words[0], rest, options
    need_usage(len(rest) == 1)
    if words[0] == "soak":
        need_usage(re.fullmatch("[1-9][0-9]{0,2}", rest[0]) and int(rest[0]) <= MOST_SOAKED)
    return words[0], rest[0], options


def outside_of(script, files):
    """What a run is given by these input files, by option."""
    if len(files.get("--keys", bytes(0 if script.seals else 64))) != 64:
        raise Ended(7, "key file\n")
    if len(files.get("--secrets", bytes(4096))) != 4096:
        raise Ended(7, "secrets file\n")
    if len(files.get("--report-key", bytes(0 if script.reports else KEY_BYTES))) != KEY_BYTES:
        raise Ended(7, "report key file\n")
    secrets = struct.unpack(SECRETS, files.get("--secrets", bytes(4096)))
    keys, report_key = files.get("--keys", bytes(64)), files.get("--report-key", bytes(KEY_BYTES))
    return Outside(script.code, files["--bundles"], keys, secrets, report_key=report_key)


def run_of(runs, name, options, load):
    """The text of `replay` or `run`, by what runs the script, the files that it saves, and its processors."""
    script = read(loaded(name, load))
    files = {name: loaded(options[name], load) for name in INPUTS if name in options}
    files["--bundles"] = bundles_of(files["--bundles"]) if "--bundles" in files else {}
    processors = runs(script, outside_of(script, files))
    made = {
        "--out-bundles": container_of(processors[0].machine.outside.outputs),
        "--guest-out": "".join(f"{line}\n" for at in processors for line in at.guest_lines).encode(),
    }
    saved = {options[name]: text for name, text in made.items() if name in options}
    return reply_lines(processors), saved, processors


def check(name, _options, load):
    """The text of `check`, which saves no file and runs nothing."""
    script = read(loaded(name, load))
    counts = [sum(map(len, blocks.values())) for blocks in (script.calls, script.code)]
    return f"ok {script.machine[0]} {counts[0]} {counts[1]} {len(script.schedule)}\n", {}, []


def soak(number, _options, _load):
    """The text of `soak`, which reads and saves no file."""
    return soak_line(int(number), read, replay), {}, []


def verify(names, _options, load):
    """The text of `verify`, which saves no file and runs nothing."""
    report, key = (loaded(name, load) for name in names)
    if len(key) != KEY_BYTES:
        raise Ended(7, "report key file\n")
    return f"{verdict(report, key)}\n", {}, []


def script_at(name, load):
    """The script of that name, whose fault has it."""
    try:
        return read(loaded(name, load))
    except Fault as fault:
        raise Ended(2, f"{name} line {fault.line} {fault.reason}\n") from None


def plan_at(name, load, modules):
    """The plan of that name for so many modules."""
    try:
        return plan_of(loaded(name, load), modules)
    except BadPlan as bad:
        raise Ended(2, f"{name} line {bad} PLAN\n") from None


def keys_at(name, load, modules):
    """The keys of that name for the links of so many modules."""
    keys = loaded(name, load)
    if len(keys) != LINK_BYTES * (modules - 1):
        raise Ended(7, "key file\n")
    return keys


def pair(words, options, load):
    """The text of `pair`, the file that it saves, and the processors of both modules."""
    *names, plan, keys = words
    scripts = [script_at(name, load) for name in names]
    return run_side_by_side(names, scripts, plan_at(plan, load, 2), keys_at(keys, load, 2), options, load)


def chain(words, options, load):
    """The same of `chain`, of all modules."""
    keys, plan, *names = words
    links, plan = keys_at(keys, load, len(names)), plan_at(plan, load, len(names))
    return run_side_by_side(names, [script_at(name, load) for name in names], plan, links, options, load)


def run_side_by_side(names, scripts, plan, keys, options, load):
    """The text of a run of modules with these scripts, the file that it saves, and their processors. What can't stand side by side
    is looked at behind all files, and reports last."""
    secrets = loaded(options["--secrets"], load) if "--secrets" in options else bytes(4096)
    if len(secrets) != 4096:
        raise Ended(7, "secrets file\n")
    wrong = wrong_sides(scripts)
    if wrong is not None:
        at, (processor, place), why = wrong
        raise Ended(2, f"{names[at]} call {processor}.{place} {why}\n")
    if any(script.reports for script in scripts):
        raise Ended(7, "report key file\n")
    modules = []
    for at, script in enumerate(scripts):
        its, exports = link_keys(keys, at, len(scripts))
        words = struct.unpack(SECRETS, secrets if at == 0 else bytes(4096))
        outside = Outside(script.code, Coming(modules, at), its, words, export_keys=exports)
        modules.append(Module(processors_of(script, outside), script.schedule))
    run_modules(modules, plan)
    sides = [(f"{letter.lower()} ", module.processors) for letter, module in zip(LETTERS, modules)]
    text = "".join(f"{side}{line}\n" for side, processors in sides for line in reply_lines(processors).splitlines())
    noted = "".join(f"{side}{line}\n" for side, processors in sides for at in processors for line in at.guest_lines)
    saved = {options["--guest-out"]: noted.encode()} if "--guest-out" in options else {}
    return text, saved, [processor for module in modules for processor in module.processors]


RUNS = {"replay": partial(run_of, replay), "run": partial(run_of, run_threads)}
ALL_SIDES = {"pair": (features.PAIRS, pair), "chain": (features.CHAINS, chain)}
SIDES = {name: runs for name, (feature, runs) in ALL_SIDES.items() if features.has(feature)}
COMMANDS = {**RUNS, "check": check, "soak": soak, **SIDES, "verify": verify}
# How many words beside the options a command has, where it isn't one; and the options that it may have.
WORDS = {"pair": (4,), "chain": range(4, 11), "verify": (2,)}
OPTIONS_OF = {**dict.fromkeys(RUNS, OPTIONS), **dict.fromkeys(SIDES, ("--secrets", "--guest-out"))}
